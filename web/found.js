// Texts as people write them: what a search finds, and the order of texts.

/**
 * Small letters without accents, so that "cafe" finds "Café". A letter that is none with an accent stays: "ß" is "ss".
 * @param {string} text
 */
export const plain = (text) =>
  text.toLowerCase().normalize('NFKD').replace(/\p{M}/gu, '').replaceAll('ß', 'ss').replace(/[øłđıæœ]/g, (letter) => OTHERS[letter]);

/** @type {Record<string, string>} Letters that are not made of another one and an accent. */
const OTHERS = { ø: 'o', ł: 'l', đ: 'd', ı: 'i', æ: 'ae', œ: 'oe' };

/**
 * The same with the letters that stand for an umlaut where a keyboard has none, so that "mueller" finds "Müller".
 * @param {string} text
 */
export const spelled = (text) => plain(text.toLowerCase().normalize('NFC').replace(/[äöüæøå]/g, (letter) => UMLAUTS[letter]));

/** @type {Record<string, string>} */
const UMLAUTS = { ä: 'ae', ö: 'oe', ü: 'ue', æ: 'ae', ø: 'oe', å: 'aa' };

/**
 * The ways in which a text may be written in a search, without repeats.
 * @param {string} text
 */
const ways = (text) => [...new Set([plain(text), spelled(text)])];

/**
 * What a search looks in.
 * @param {string} text
 */
export const searched = (text) => ways(text).join('\n');

/**
 * The words of a search, each with the ways in which it may be written.
 * @param {string} search
 */
export const wordsOf = (search) => search.trim().split(/\s+/).map(ways);

/**
 * @param {string} text that was made by `searched`
 * @param {string[][]} wanted
 */
export const hasAll = (text, wanted) => wanted.every((word) => word.some((way) => text.includes(way)));

/**
 * Every word of the search stands somewhere in the text.
 * @param {string} text
 * @param {string} search
 */
export const isFound = (text, search) => hasAll(searched(text), wordsOf(search));

/** Orders texts as people do, numbers by their value. */
export const { compare } = new Intl.Collator(undefined, { numeric: true });
