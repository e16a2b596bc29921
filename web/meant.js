// Who is meant by a name as people write it.

import { plain, spelled } from './found.js';

// What stands before a name and is no part of it.
const TITLES = 'prof dr pd ing dipl herr frau mr mrs ms'.split(' ');

/** @param {string} text */
const nameWords = (text, between = /[^\p{L}]+/u) => plain(text).split(between).filter((word) => word !== '' && !TITLES.includes(word));

/**
 * The same, where "ue" may stand for "ü": both are "u" then.
 * @param {string} text
 */
const looseWords = (text) => nameWords(spelled(text)).map((word) => word.replace(/([aou])e/g, '$1'));

/**
 * Finds who can be meant by a text: the only person whose whole name stands in it, or else all whose names have all its words, a letter
 * alone being an initial. Else "Mueller" may be "Müller".
 * @param {Iterable<[string, string]>} names by key
 * @returns {(text: string) => string[]}
 */
export function allMeantBy(names) {
  const all = [...names];
  const [strict, loose] = [nameWords, looseWords].map((split) => meantIn(all, split));
  return (text) => {
    const found = strict(text);
    return found.length > 0 ? found : loose(text);
  };
}

/**
 * @param {[string, string][]} names
 * @param {(text: string) => string[]} split
 * @returns {(text: string) => string[]}
 */
function meantIn(names, split) {
  const people = names.map(([key, name]) => ({ key, own: split(name) })).filter(({ own }) => own.length > 0);
  const keys = (/** @type {typeof people} */ some) => some.map(({ key }) => key);
  return (text) => {
    const wanted = split(text);
    const isIn = (/** @type {string[]} */ some, /** @type {string[]} */ all) => some.every((word) => all.includes(word));
    const whole = people.filter(({ own }) => isIn(own, wanted)).sort((a, b) => b.own.length - a.own.length);
    const [best, next] = whole;
    // a shorter name within a longer one is part of that
    if (best) return best.own.length === next?.own.length || !whole.every(({ own }) => isIn(own, best.own)) ? keys(whole) : [best.key];
    if (!wanted.some((word) => word.length > 1)) return [];
    const isStart = (/** @type {string} */ word) =>
      (/** @type {string} */ one) => one === word || (word.length === 1 && one.startsWith(word));
    return keys(people.filter(({ own }) => wanted.every((word) => own.some(isStart(word)))));
  };
}

/**
 * Finds who is meant by a text where one person alone can be.
 * @param {Iterable<[string, string]>} names by key
 * @returns {(text: string) => string | null}
 */
export function meantBy(names) {
  const meant = allMeantBy(names);
  return (text) => {
    const [key, ...others] = meant(text);
    return key === undefined || others.length > 0 ? null : key;
  };
}

/**
 * The words of a name in one order, so that "Roe, Ann" and "Ann Roe" are the same.
 * @param {string} text
 */
export const nameKey = (text) => nameWords(text, /[^\p{L}\d]+/u).sort().join(' ');
