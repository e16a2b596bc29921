// An order of applicants that was made elsewhere, as people write one: IDs in any case, with or without their leading zeros, with ranks,
// names or commas beside them, or names alone. What its numbers may mean, and the order that comes of it, is in orderranks.js.

import { table } from './csv.js';
import { meantBy } from './meant.js';

/** The column of the numbers that stand before each line; -1 is a column that is not there. */
export const FRONT = -2;

const ID = /^(id|student.?id|matrik.*|kennung)$/i;
const NAME = /^(student|studierende.*|name|.*name)$/i;
const NUMBER = /^[#(]?\s*([+-]?\d+(?:[.,]\d+)?)\s*[.):]?$/;
// The heads stand under so many titles at most.
const MOST_TITLES = 20;
const BEFORE = /^[#(]?(\d+)[.):]*(?:[\s,;]+|$)/;
// It is neither a rank nor an ID.
const GRADE = /^\d{1,3},\d{1,2}$/;

/**
 * The lines of a text or a file, each with the applicants who are meant and with its numbers.
 * @param {Uint8Array} bytes
 * @param {Map<string, { name: string }>} people the applicants by key
 * @returns {OrderRead}
 */
export function readOrder(bytes, people) {
  const found = table(bytes);
  const rows = 'rows' in found ? found.rows.map(({ fields }) => fields.map((field) => field.trim())) : [];
  const finders =
    { keyOf: keyFinder(people), bareOf: bareFinder(people), personOf: meantBy([...people].map(([key, { name }]) => [key, name])) };
  const { heads, body } = underHeads(rows, finders);
  const id = (heads ?? []).findIndex((head) => ID.test(head));
  /** @type {(OrderLine & { isCrossed?: boolean })[]} */
  const lines = id < 0 ? freeLines(body, finders) : body.map((fields) => tableLine(fields, id, heads ?? [], finders));
  const told = lines.filter(({ keys }) => keys.length > 0);
  return {
    lines: told,
    crossed: told.filter(({ isCrossed }) => isCrossed).flatMap(({ keys }) => keys),
    others: [...new Set(lines.filter(({ keys, fields }) => keys.length === 0 && isSaid(fields, id)).map(({ fields }) =>
      fields.filter((field) => field !== '').join(', ')))],
    columns: numberColumns(told, heads, id, finders),
  };
}

/**
 * A row whose field for the ID is empty, and which has no word, says nothing of anybody.
 * @param {string[]} fields
 * @param {number} id
 */
const isSaid = (fields, id) => id < 0 || fields[id] !== '' || fields.some((field) => /\p{L}/u.test(field));

/**
 * The heads of the columns, or null, and the rows below: of heads is a row that tells where the IDs are, perhaps under titles, or a first
 * one of several words that mean nobody.
 * @param {string[][]} rows
 * @param {Finders} finders
 */
function underHeads(rows, finders) {
  const at = rows.slice(0, MOST_TITLES).findIndex((fields) => fields.some((field) => ID.test(field)));
  if (at >= 0) return { heads: rows[at], body: rows.slice(at + 1) };
  const [first = [], second = []] = rows;
  const isOfWords = first.filter((field) => field !== '').length > 1 && first.every((field) => !NUMBER.test(field));
  const isHead = isOfWords && second.length > 1 && keysOf(first, '', finders).length === 0;
  return isHead ? { heads: first, body: rows.slice(1) } : { heads: null, body: rows };
}

/**
 * Who is meant by a row of a table with a column of IDs: by the ID; by an ID that has lost its zeros, unless the name beside it is that of
 * somebody else; or else by the name.
 * @param {string[]} fields
 * @param {number} id
 * @param {string[]} heads
 * @param {Finders} finders
 * @returns {OrderLine & { isCrossed: boolean }} `isCrossed`: the ID and the name are of two people, so that the ID counts
 */
function tableLine(fields, id, heads, { keyOf, bareOf, personOf }) {
  const named = personOf(fields.filter((_, at) => at !== id && NAME.test(heads[at] ?? '')).join(' '));
  const own = keyOf(fields[id] ?? '');
  const short = own ? undefined : bareOf(fields[id] ?? '');
  const isCrossed = Boolean(own && named && named !== own);
  const key = own ?? (short && named && short !== named ? undefined : short ?? named);
  return { fields, keys: key ? [key] : [], front: null, isCrossed };
}

/**
 * Lines without a column of IDs. Where each begins with a number that is no ID of who is told after it, these are ranks.
 * @param {string[][]} rows
 * @param {Finders} finders
 * @returns {OrderLine[]}
 */
function freeLines(rows, finders) {
  const fronts = rows.map((fields) => frontOf(fields, finders));
  const told = rows.map((fields, at) => ({ fields, front: fronts[at], keys: keysOf(fields, `${at + 1}`, finders) }));
  const some = told.filter(({ keys, front }) => keys.length > 0 || front !== null);
  const isRanked = some.length > 1 && some.every(({ front }) => front !== null);
  return told.map(({ fields, front, keys }) =>
    (isRanked && front !== null ? { fields, keys: front.keys, front: front.number } : { fields, keys, front: null }));
}

/**
 * The number before a line and who is told after it; null where there is none, or where it is the ID of that person.
 * @param {string[]} fields
 * @param {Finders} finders
 */
function frontOf(fields, finders) {
  const line = fields.join('\t');
  const [before, digits] = BEFORE.exec(line) ?? ['', ''];
  if (before === '' || GRADE.test(fields[0])) return null;
  const keys = keysOf(line.slice(before.length).split('\t'), '', finders);
  const own = finders.keyOf(digits) ?? finders.bareOf(digits);
  return keys.length === 0 || (own && keys.includes(own)) ? null : { number: Number(digits), keys };
}

/**
 * The applicants of one line.
 * @param {string[]} fields
 * @param {string} rank of the line: where it stands first it is no ID
 * @param {Finders} finders
 * @returns {string[]}
 */
function keysOf(fields, rank, { keyOf, bareOf, personOf }) {
  const tokens = fields.filter((field) => !GRADE.test(field)).flatMap((field) => field.split(/[\s,;]+/)).filter((token) => token !== '');
  const [first = '', ...rest] = tokens;
  const isRanked = bare(first) === rank && rest.length > 0;
  const keys = found(isRanked ? rest : tokens, keyOf);
  if (keys.length > 0) return keys;
  const line = fields.join(', ').replace(isRanked ? first : '', '');
  const pieces = line.split(/[,;]/).filter((piece) => /\p{L}/u.test(piece));
  const people = found(pieces, personOf);
  // a name in two cells is one person
  if (pieces.length > 0 && people.length === pieces.length) return new Set(people).size === 1 ? people.slice(0, 1) : people;
  const person = personOf(line);
  if (person) return [person];
  const short = found(isRanked ? rest : tokens, bareOf);
  if (short.length > 0) return short;
  const named = people.length === 1 ? people : [];
  // the rank may have been an ID
  return named.length > 0 ? named : found(isRanked ? [first] : [], keyOf);
}

/**
 * @param {string[]} texts
 * @param {Finder} finder
 */
const found = (texts, finder) => texts.map((text) => finder(text) ?? '').filter((key) => key !== '');

/** @param {string} token */
const bare = (token) => token.replace(/^\W+|\W+$/g, '');

/**
 * An ID is known as it is, then without signs around it, then in another case, if one alone is meant.
 * @param {Map<string, unknown>} people
 * @returns {Finder}
 */
function keyFinder(people) {
  const folded = byOne(people, (key) => key.toLowerCase());
  return (token) =>
    [token, bare(token)].find((text) => people.has(text)) ?? folded.get(token.toLowerCase()) ?? folded.get(bare(token).toLowerCase());
}

/**
 * An ID that a spreadsheet took for a number is known without its zeros, if one alone is meant.
 * @param {Map<string, unknown>} people
 * @returns {Finder}
 */
function bareFinder(people) {
  const short = byOne(people, (key) => (/^\d+$/.test(key) ? key.replace(/^0+/, '') : ''));
  return (token) => (/^\d+$/.test(bare(token)) ? short.get(bare(token).replace(/^0+/, '')) : null);
}

/**
 * The keys by a text that is made of each; null where two have the same one.
 * @param {Map<string, unknown>} people
 * @param {(key: string) => string} textOf
 */
function byOne(people, textOf) {
  /** @type {Map<string, string | null>} */
  const keys = new Map();
  for (const key of people.keys()) keys.set(textOf(key), keys.has(textOf(key)) ? null : key);
  keys.delete('');
  return keys;
}

/**
 * The columns of numbers that are no IDs, each with its numbers by line.
 * @param {OrderLine[]} lines
 * @param {string[] | null} heads
 * @param {number} id
 * @param {Finders} finders
 * @returns {NumberColumn[]}
 */
function numberColumns(lines, heads, id, finders) {
  const count = Math.max(0, ...lines.map(({ fields }) => fields.length));
  const columns = Array.from({ length: count }, (_, at) =>
    ({ at, head: heads?.[at] ?? '', numbers: lines.map(({ fields }) => numberOf(fields[at] ?? '')) }));
  if (lines.some(({ front }) => front !== null)) columns.unshift(
    { at: FRONT, head: heads?.[0] ?? '', numbers: lines.map(({ front }) => front ?? undefined) },
  );
  const isFront = columns[0]?.at === FRONT;
  return columns.filter(({ at, numbers }) => at !== id && !(isFront && at === 0) && isOfNumbers(lines, at, numbers, finders));
}

/**
 * Most of what stands there are numbers, and none is the ID of who is told in the line. A word beside them, such as "no", is no number.
 * @param {OrderLine[]} lines
 * @param {number} at
 * @param {(number | undefined)[]} numbers
 * @param {Finders} finders
 */
function isOfNumbers(lines, at, numbers, { keyOf, bareOf }) {
  const filled = numbers.filter((number) => number !== undefined).length;
  if (filled < 2) return false;
  if (at === FRONT) return true;
  const isOwnKey = lines.some(({ keys, fields }) => keys.includes(keyOf(fields[at] ?? '') ?? bareOf(fields[at] ?? '') ?? ''));
  return !isOwnKey && filled * 2 > lines.filter(({ fields }) => (fields[at] ?? '') !== '').length;
}

/** @param {string} text */
function numberOf(text) {
  const [, number] = NUMBER.exec(text) ?? [];
  return number === undefined ? undefined : Number(number.replace(',', '.'));
}
