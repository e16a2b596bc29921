// What the portal would refuse of a roll file, by row and column. No element of the page is touched here.

import { isCode } from './codes.js';
import { KINDS } from './columns.js';
import { largestCapacity, longestKey, longestName, mostRows } from './config.js';

const KEY = new RegExp(`^[A-Za-z0-9_.-]{1,${longestKey}}$`);
/** @param {string} text */
export const isKey = (text) => KEY.test(text);
/** @param {string} text */
const isShort = (text) => new TextEncoder().encode(text).length <= longestName;
/** @param {string} text */
const isLine = (text) => !/[\0-\x1f\x7f]/.test(text);
/** @param {string} text */
const isCapacity = (text) => /^\d{1,7}$/.test(text) && Number(text) >= 1 && Number(text) <= largestCapacity;
// What a spreadsheet shows in place of a text that it cannot work out.
const BROKEN = /^#(N\/A|NV|REF!|BEZUG!|VALUE!|WERT!|NAME\?|DIV\/0!|NULL!|NUM!|ZAHL!)$/;
// What it makes of a long number: 1,23E+05.
const CUT = /^\d+([.,]\d+)?E\+\d+$/i;

/**
 * What a text of each column has to be, and the fault where it is not.
 * @type {Partial<Record<Column, [(text: string) => boolean, string][]>>}
 */
const FORMS = {
  id: [[(text) => !CUT.test(text), 'cut'], [isKey, 'id']],
  lecturer: [[isKey, 'lecturer']],
  name: [[isShort, 'long'], [isLine, 'line']],
  title: [[isShort, 'long'], [isLine, 'line']],
  code: [[isCode, 'code']],
  capacity: [[isCapacity, 'capacity']],
};

/**
 * What the portal would refuse, by row and column. A missing code is none: it can be made.
 * @param {Roll} roll
 * @param {Entry[]} entries
 * @returns {Fault[]}
 */
export function faultsOf(roll, entries) {
  const found = entries.flatMap((entry) => formFaults(roll, entry));
  found.push(...differing(roll, entries), ...sameCode(entries));
  const keys = new Set(entries.map(({ id }) => id));
  if (keys.size > mostRows[roll]) found.push({ row: entries[mostRows[roll]].row, column: 'id', fault: 'tooMany' });
  return found.sort((a, b) => a.row - b.row);
}

/**
 * @param {Roll} roll
 * @param {Entry} entry
 * @returns {Fault[]}
 */
function formFaults(roll, entry) {
  const faultOf = (/** @type {Column} */ column, text = '') => {
    if (text === '') return column === 'code' ? '' : 'empty';
    if (BROKEN.test(text)) return 'broken';
    return FORMS[column]?.find(([isGood]) => !isGood(text))?.[1] ?? '';
  };
  return KINDS[roll].map((column) => ({ row: entry.row, column, fault: faultOf(column, entry[column]) })).filter(({ fault }) =>
    fault !== '');
}

/**
 * A key twice is taken where the rows are equal.
 * @param {Roll} roll
 * @param {Entry[]} entries
 * @returns {Fault[]}
 */
function differing(roll, entries) {
  /** @type {Map<string, Entry>} */
  const first = new Map();
  return entries.flatMap((entry) => {
    const before = first.get(entry.id);
    if (before === undefined) first.set(entry.id, entry);
    const isEqual = before === undefined || KINDS[roll].every((column) => before[column] === entry[column]);
    return isEqual || entry.id === '' ? [] : [{ row: entry.row, column: 'id', fault: 'keyTwice', other: before.row }];
  });
}

/**
 * @param {Entry[]} entries
 * @returns {Fault[]}
 */
function sameCode(entries) {
  /** @type {Map<string, Entry>} */
  const first = new Map();
  return entries.flatMap((entry) => {
    if (!entry.code) return [];
    const before = first.get(entry.code);
    if (before === undefined) first.set(entry.code, entry);
    return before === undefined || before.id === entry.id
      ? []
      : [{ row: entry.row, column: 'code', fault: 'codeTwice', other: before.row }];
  });
}
