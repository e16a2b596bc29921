// What looks wrong in a roll file, though the portal may take it: a person has to say that it is right. No element of the page is touched
// here.

import { hasCodes } from './columns.js';
import { isLikeFormula, isMisread } from './csv.js';
import { nameKey } from './meant.js';

/** What may do lasting harm: nothing is sent before a person has said that the rows are right. The rest is told alone. */
export const STOPPING = new Set(['total', 'hidden', 'idLength', 'misread', 'noName', 'sameEmail', 'sameName', 'sameTitle']);

/**
 * What looks wrong in the rows that would be sent.
 * @param {Roll} roll
 * @param {Entry[]} entries
 * @param {There} there
 * @returns {Doubt[]}
 */
export function doubtsOf(roll, entries, there) {
  const rows = (/** @type {(entry: Entry) => boolean} */ test) => entries.filter(test).map(({ row }) => row);
  const isNew = (/** @type {Entry} */ { id }) => !there[roll].has(id);
  /** @type {Record<string, number[]>} */
  const all = {
    differs: unlikeIn(roll, entries, there),
    misread: rows(({ name = '', title = '' }) => name.includes('?') || isMisread(`${name} ${title}`)),
    noName: rows(({ name = 'a' }) => name !== '' && !/\p{L}/u.test(name)),
    sameEmail: rows(sameUnder(roll, entries.filter(isNew), there, ({ email = '' }) => email.toLowerCase())),
    sameName: rows(hasCodes(roll) ? sameUnder(roll, entries.filter(isNew), there, ({ name = '' }) => nameKey(name)) : () => false),
    weakCode: hasCodes(roll) ? weakCodes(entries) : [],
    noLecturer: rows(({ lecturer }) => lecturer !== undefined && lecturer !== '' && !there.lecturers.has(lecturer)),
    sameTitle: rows(roll === 'projects' ? sameUnder(roll, entries, there, titleKey) : () => false),
    formula: rows(({ name = '', title = '' }) => isLikeFormula(name) || isLikeFormula(title)),
  };
  const found = Object.entries(all).filter(([, some]) => some.length > 0).map(([doubt, some]) =>
    /** @type {Doubt} */ ({ doubt, rows: some }));
  // where zeros are lost, the same people seem to be there twice: that is said first
  return [...(hasCodes(roll) ? lengthDoubts(entries, [...there[roll].keys()]) : []), ...found];
}

/** @param {Partial<Record<Column, string>>} project */
const titleKey = ({ title = '', lecturer = '' }) => (title === '' ? '' : `${title.replace(/\s+/g, ' ').toLowerCase()} ${lecturer}`);

/**
 * The same is said of somebody under another ID, in the file or in the portal. A row that stands in the file twice is one.
 * @param {Roll} roll
 * @param {Entry[]} entries
 * @param {There} there
 * @param {(entry: Partial<Record<Column, string>>) => string} said an empty text says nothing
 * @returns {(entry: Entry) => boolean}
 */
function sameUnder(roll, entries, there, said) {
  /** @type {Map<string, Set<string>>} */
  const ids = new Map();
  const all = new Map(
    [...there[roll], ...entries.map((entry) => /** @type {const} */ ([entry.id === '' ? `row ${entry.row}` : entry.id, entry]))],
  );
  for (const [id, entry] of all) {
    const text = said(entry);
    if (text !== '') ids.set(text, (ids.get(text) ?? new Set()).add(id));
  }
  const own = new Set(entries);
  return (entry) => own.has(entry) && (ids.get(said(entry))?.size ?? 0) > 1;
}

// So many IDs say how long they are.
const ENOUGH = 3;

/**
 * IDs of digits alone that have another length than those in the portal, or than most in the file: zeros before them may be lost.
 * @param {Entry[]} entries
 * @param {string[]} keys of those who are there
 * @returns {Doubt[]}
 */
function lengthDoubts(entries, keys) {
  const numbers = (/** @type {string[]} */ ids) => ids.filter((id) => /^\d+$/.test(id));
  const own = numbers(entries.map(({ id }) => id));
  const known = numbers(keys);
  const isTold = known.length >= ENOUGH;
  const usual = commonLength(isTold ? known : own);
  const bare = (/** @type {string} */ id) => id.replace(/^0+/, '');
  const [there, stripped] = [new Set(keys), new Set(known.map(bare))];
  // an ID that the portal has but for its zeros is no new one, whatever its length
  const isOdd = (/** @type {string} */ id) => id.length !== usual || (!there.has(id) && stripped.has(bare(id)));
  const rows = entries.filter(({ id }) => /^\d+$/.test(id) && isOdd(id)).map(({ row }) => row);
  if (own.length < ENOUGH && !isTold) return [];
  const isPadded = [...known, ...own].some((id) => id.startsWith('0') && id.length === usual);
  const areShort = own.every((id) => id.length <= usual);
  return rows.length === 0 ? [] : [{ doubt: 'idLength', rows, ...(isTold || isPadded || areShort ? { length: usual } : {}) }];
}

/**
 * The length that the most have; of two, the greater one.
 * @param {string[]} ids
 */
function commonLength(ids) {
  const counts = new Map();
  for (const { length } of ids) counts.set(length, (counts.get(length) ?? 0) + 1);
  return [...counts].sort(([length, count], [other, times]) => times - count || other - length)[0]?.[0] ?? 0;
}

// A cell that says of a row that it counts others.
const TOTAL = /^(summe|gesamt|gesamtsumme|gesamtzahl|insgesamt|total|totals|sum|anzahl|count)\s*[:=]?\s*[\d.,]*$/i;

/**
 * The rows that look like totals or notes: a cell says so, or one alone is filled.
 * @param {FileRow[]} rows
 * @param {number} width of the header
 */
export function totalsIn(rows, width) {
  const isTotal = (/** @type {FileRow} */ { fields }) => {
    const filled = fields.map((field) => field.trim()).filter((field) => field !== '');
    return filled.some((field) => TOTAL.test(field)) || (width > 2 && filled.length === 1);
  };
  return rows.filter(isTotal).map(({ row }) => row);
}

/** @param {string[]} texts */
function twice(texts) {
  const counts = new Map();
  for (const text of texts) counts.set(text, (counts.get(text) ?? 0) + 1);
  return (/** @type {string} */ text) => counts.get(text) > 1;
}

/** @type {Column[]} What the portal tells, or this browser keeps, of who is there: never a code. */
const COMPARED = ['name', 'capacity', 'lecturer', 'title'];

/**
 * What is known of who is there may be the key alone.
 * @param {Entry} entry
 * @param {Partial<Record<Column, string>>} [known]
 */
const differs = (entry, known = {}) =>
  COMPARED.some((column) => entry[column] !== undefined && known[column] !== undefined && entry[column] !== known[column]);

/**
 * The rows that differ from what is known of those who are there.
 * @param {Roll} roll
 * @param {Entry[]} entries
 * @param {There} there
 */
export const unlikeIn = (roll, entries, there) =>
  entries.filter((entry) => differs(entry, there[roll].get(entry.id))).map(({ row }) => row);

/**
 * The rows whose code can be guessed: a short one, one with the own key or name in it, or one that differs from another in digits alone.
 * @param {Entry[]} entries
 */
function weakCodes(entries) {
  const bare = (/** @type {string} */ code) => code.replace(/\d/g, '');
  const isRow = twice([...new Set(entries.map(({ code = '' }) => code))].map(bare));
  return entries
    .filter(({ code = '', id, name = '' }) => code !== '' && (code.length < 12 || isRow(bare(code)) || tells(code, id, name)))
    .map(({ row }) => row);
}

/**
 * @param {string} code
 * @param {string} id
 * @param {string} name
 */
function tells(code, id, name) {
  const parts = new Set(code.toLowerCase().split('-'));
  return [id, ...name.split(/[^\p{L}\d]+/u)].map((word) => word.toLowerCase()).some((word) => word.length > 1 && parts.has(word));
}
