// Codes: their form, and new ones by chance.

import { longestCode, shortestCode } from './config.js';

const CODE = new RegExp(`^[A-Za-z0-9-]{${shortestCode},${longestCode}}$`);

/**
 * A code has this form; another one is never sent.
 * @param {string} text
 */
export const isCode = (text) => CODE.test(text);

/**
 * A code as it was meant: without blanks, and with the plain dash for those that letters and spreadsheets make of it.
 * @param {string} text
 */
export const asCode = (text) =>
  text.replace(/[\s\u00ad\u200b-\u200d\u2060\ufeff]/g, '').replace(/[\u2010-\u2015\u2212\ufe58\ufe63\uff0d]/g, '-');

// The 32 signs of a code by chance, without l, o, 0 and 1, which people take for others on paper. 16 of them are 80 bits.
const SIGNS = 'abcdefghijkmnpqrstuvwxyz23456789';
const GROUPS = 4;
const GROUP = 4;

/**
 * A new code.
 * @param {(bytes: Uint8Array) => unknown} fill puts chance into an array of bytes; the tests hand in their own
 */
export function makeCode(fill = (bytes) => crypto.getRandomValues(bytes)) {
  const bytes = new Uint8Array(GROUPS * GROUP);
  fill(bytes);
  // 256 is a multiple of 32, so that each sign is equally likely
  return grouped(Array.from(bytes, (byte) => SIGNS[byte % SIGNS.length]).join(''));
}

/** @param {string} signs */
const grouped = (signs) => signs.match(new RegExp(`.{${GROUP}}`, 'g'))?.join('-') ?? '';

/**
 * The code by chance that was meant by a text in another case, with other dashes or with none; null where it is no such text.
 * @param {string} text
 */
export function madeCodeOf(text) {
  const signs = text.replaceAll('-', '').toLowerCase();
  const isOne = signs.length === GROUPS * GROUP && [...signs].every((sign) => SIGNS.includes(sign));
  return isOne ? grouped(signs) : null;
}
