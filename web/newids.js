// IDs for rows that have none: those that the portal has for the same project or lecturer, and new ones otherwise, which come out the same
// when the longer file comes again. No element of the page is touched here.

import { longestKey } from './config.js';
import { plain } from './found.js';
import { nameKey } from './meant.js';

/** The rolls for which IDs can be made: students have a number of their own. @type {Roll[]} */
const MAKES = ['lecturers', 'projects'];

/** @param {Roll} roll */
export const canMakeIds = (roll) => MAKES.includes(roll);

/**
 * IDs for rows without one, by row.
 * @param {Roll} roll
 * @param {(Entry & { family?: string })[]} entries all rows of the file; `family`: the surname, where the file has it apart
 * @param {There} there
 * @returns {Map<number, string>}
 */
export function newIds(roll, entries, there) {
  const taken = new Set([...there[roll].keys(), ...entries.map(({ id }) => id)]);
  const own = new Set();
  /** @type {Map<number, string>} */
  const found = new Map();
  const lacking = entries.filter(({ id }) => id === '');
  for (const entry of lacking) {
    const key = roll === 'projects' ? sameProject(entry, there, own) : sameLecturer(entry, there, own);
    if (key === undefined) continue;
    own.add(key);
    found.set(entry.row, key);
  }
  const make = roll === 'projects' ? projectIds(taken) : lecturerIds(taken);
  for (const entry of lacking) if (!found.has(entry.row)) found.set(entry.row, make(entry));
  return found;
}

/** @param {string} text */
const folded = (text) => text.replace(/\s+/g, ' ').trim().toLowerCase();

/**
 * The project of the same title, and of the same lecturer where there are several.
 * @param {Entry} entry
 * @param {There} there
 * @param {Set<string>} own IDs that other rows have got
 */
function sameProject({ title = '', lecturer = '' }, { projects }, own) {
  const same = [...projects].filter(([key, known]) => !own.has(key) && folded(known.title ?? '') === folded(title));
  return (same.find(([, known]) => known.lecturer === lecturer) ?? (same.length === 1 ? same[0] : undefined))?.[0];
}

/**
 * The lecturer of the same address, or else of the same name.
 * @param {Entry} entry
 * @param {There} there
 * @param {Set<string>} own
 */
function sameLecturer({ name = '', email = '' }, { lecturers }, own) {
  const free = [...lecturers].filter(([key]) => !own.has(key));
  const byEmail = email === '' ? undefined : free.find(([, known]) => known.email?.toLowerCase() === email.toLowerCase());
  return (byEmail ?? free.find(([, known]) => nameKey(known.name ?? '') === nameKey(name)))?.[0];
}

/**
 * P001, P002 and so on, after the last one that is there.
 * @param {Set<string>} taken
 */
function projectIds(taken) {
  let last = Math.max(0, ...[...taken].map((key) => Number(/^P(\d{1,6})$/i.exec(key)?.[1] ?? 0)));
  return () => `P${`${++last}`.padStart(3, '0')}`;
}

/** @type {Record<string, string>} How letters are written without accents, where it is not by leaving the accent out. */
const LETTERS = { ä: 'ae', ö: 'oe', ü: 'ue', ß: 'ss', æ: 'ae', ø: 'oe', å: 'aa', ł: 'l', đ: 'd', ð: 'd', þ: 'th', ı: 'i', œ: 'oe' };

/** @param {string} text */
const ascii = (text) =>
  plain(text.normalize('NFC').toLowerCase().replace(/[äöüßæøåłđðþıœ]/g, (letter) => LETTERS[letter])).replace(/[^a-z0-9]/g, '');

/**
 * The surname, with the first letter of the first name where it is taken, and with a number where that is taken too.
 * @param {Set<string>} taken
 */
function lecturerIds(taken) {
  const lower = new Set([...taken].map((key) => key.toLowerCase()));
  return (/** @type {Entry & { family?: string }} */ { name = '', family }) => {
    const surname = family || surnameOf(name);
    const base = ascii(surname).slice(0, longestKey - 4) || 'l';
    const first = ascii(name.replace(surname, '').replace(TITLE, '')).slice(0, 1);
    const tries = [base, ...(first === '' ? [] : [`${base}-${first}`]), ...Array.from({ length: 999 }, (_, at) => `${base}-${at + 2}`)];
    const id = tries.find((one) => !lower.has(one)) ?? base;
    lower.add(id);
    return id;
  };
}

const TITLE = /\b(prof|dr|pd|ing|dipl|habil|rer|nat|phil|h\. ?c)\b\.?[\s-]*/gi;
// What belongs to the surname after it.
const BEFORE = /^(von|van|vom|zu|zur|de|del|della|di|da|der|den|ten|ter|le|la|al|el|bin|ben)$/i;

/**
 * The surname of a whole name: what stands before a comma, or else its last word.
 * @param {string} name
 */
function surnameOf(name) {
  if (name.includes(',')) return name.split(',')[0].replace(TITLE, '').trim();
  const parts = name.replace(TITLE, '').trim().split(/\s+/);
  const at = parts.findIndex((part, place) => place > 0 && BEFORE.test(part));
  return parts.slice(at > 0 ? at : -1).join(' ');
}
