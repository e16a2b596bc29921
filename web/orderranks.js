// What decides an order that was made elsewhere: the lines as they stand, or a column of numbers; and the order that comes of it.

import { FRONT } from './orderfile.js';
import { isSame } from './ordered.js';

// Heads of columns, the surest first. More points are better; of all others the smallest number is.
const HEADS = [
  /^(rang|rank|ranking|place|platz|platzierung|position|pos\.?|reihenfolge|order|priorit(y|ät)|prio)$/i, /^(note|grade|mark)$/i,
  /^(points?|punkte|pkt\.?|score)$/i, /^(nr\.?|no\.?|num(mer|ber)|#|lfd\.? ?nr\.?)$/i,
];
const POINTS = HEADS[2];

/** @type {OrderBy} */
export const BY_LINES = { column: null, isFalling: false };

/**
 * The order by a column of numbers, or as the lines stand. Whoever has no number stands behind.
 * @param {OrderRead} read
 * @param {OrderBy} by
 * @returns {OrderMade}
 */
export function orderBy({ lines }, { column, isFalling }) {
  const numbers = column?.numbers ?? [];
  const sign = isFalling ? -1 : 1;
  const value = (/** @type {number} */ at) => (numbers[at] === undefined ? Infinity : sign * /** @type {number} */ (numbers[at]));
  const order = lines.map((_, at) => at);
  if (column !== null) order.sort((a, b) => (value(a) === value(b) ? a - b : value(a) - value(b)));
  const all = order.flatMap((at) => lines[at].keys.map((key) => ({ key, number: numbers[at] })));
  /** @type {Map<string, number | undefined>} */
  const first = new Map();
  for (const { key, number } of all) if (!first.has(key)) first.set(key, number);
  const keys = [...new Set(all.map(({ key }) => key))];
  return {
    keys,
    twice: keys.filter((key) => all.filter((one) => one.key === key).length > 1),
    unranked: column === null ? [] : keys.filter((key) => first.get(key) === undefined),
    ties: column === null ? [] : tiesOf(keys, first),
  };
}

/**
 * Those who share a number.
 * @param {string[]} keys
 * @param {Map<string, number | undefined>} numbers
 */
function tiesOf(keys, numbers) {
  /** @type {Map<number, string[]>} */
  const groups = new Map();
  for (const key of keys) {
    const number = numbers.get(key);
    if (number !== undefined) groups.set(number, [...(groups.get(number) ?? []), key]);
  }
  return [...groups].filter(([, group]) => group.length > 1).map(([number, group]) => ({ number, keys: group }));
}

/**
 * Whether an order is the one in which the portal gives the applicants, as far as it goes.
 * @param {string[]} keys
 * @param {Iterable<string>} given
 */
export function isAsGiven(keys, given) {
  const wanted = new Set(keys);
  return keys.length > 2 && isSame(keys, [...given].filter((key) => wanted.has(key)));
}

/**
 * What decides as far as that is clear, or null where a person has to say: a column that is called a rank, or that counts from one; the
 * lines, where there is no other, or where the numbers are those of the portal's own order and the lines have been moved since.
 * @param {OrderRead} read
 * @param {Iterable<string>} given
 * @returns {OrderBy | null}
 */
export function usualBy(read, given) {
  const all = [...given];
  const lines = orderBy(read, BY_LINES).keys;
  const areMoved = !isAsGiven(lines, all);
  const ways = read.columns.map((column) => ({ column, isFalling: POINTS.test(column.head), sure: sureness(column) }));
  const meant = ways.filter((way) => !areMoved || !isAsGiven(orderBy(read, way).keys, all));
  const [best] = meant.filter(({ sure }) => sure >= 0).sort((a, b) => a.sure - b.sure);
  if (best) return { column: best.column, isFalling: best.isFalling };
  return meant.length === 0 || meant.every((way) => isSame(orderBy(read, way).keys, lines)) ? BY_LINES : null;
}

/**
 * How sure it is that a column has ranks: 0 is the surest, and -1 says that it is not known.
 * @param {NumberColumn} column
 */
function sureness({ at, head, numbers }) {
  const known = HEADS.findIndex((name) => name.test(head));
  if (at === FRONT) return 0;
  if (known >= 0) return known;
  return isCount(numbers) ? HEADS.length : -1;
}

/**
 * Nearly all numbers from one on, each about once.
 * @param {(number | undefined)[]} all
 */
function isCount(all) {
  const numbers = all.filter((number) => number !== undefined);
  const different = new Set(numbers).size;
  const isOfCount = (/** @type {number | undefined} */ number) =>
    Number.isInteger(number) && Number(number) >= 1 && Number(number) <= 1.5 * numbers.length;
  return numbers.every(isOfCount) && different > 2 && different >= 0.8 * numbers.length;
}
