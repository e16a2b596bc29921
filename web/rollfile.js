// A roll file in hand: what its rows say, once they are mended or left out; who in it is new, what the portal would refuse, what looks
// wrong; and whether it is rather the file of another roll. No element of the page is touched here.

import { makeCode } from './codes.js';
import { KINDS, ROLLS, columnsOf, entriesOf, extraOf, hasCodes, headAt, missingOf, rollOf, strangerIn } from './columns.js';
import { written } from './csv.js';
import { allMeantBy } from './meant.js';
import { canMakeIds, newIds } from './newids.js';
import { STOPPING, doubtsOf, totalsIn, unlikeIn } from './rolldoubts.js';
import { faultsOf } from './rollfaults.js';

/** @param {Column[]} columns @param {Entry[]} entries */
const rowsOf = (columns, entries) => [columns, ...entries.map((entry) => columns.map((column) => entry[column] ?? ''))];

/**
 * The text that the portal wants.
 * @param {Roll} roll
 * @param {Entry[]} entries
 */
export const rollText = (roll, entries) => written(rowsOf(KINDS[roll], entries));

/**
 * The rows of a file to keep, its header first, with the mail addresses that were read.
 * @param {Roll} roll
 * @param {Entry[]} entries
 * @returns {string[][]}
 */
export function fileRows(roll, entries) {
  const hasEmail = entries.some(({ email = '' }) => email !== '');
  return rowsOf(hasEmail ? [...KINDS[roll], 'email'] : KINDS[roll], entries);
}

/**
 * The other roll whose file this rather is: its header is the other one's, it has a column that this one has not, or most rows have the key
 * and the name of somebody on the other one. A header with more columns says nothing where they can be those that are missed.
 * @param {Roll} roll
 * @param {string[]} header
 * @param {Entry[]} entries
 * @param {There} there
 * @returns {Likeness | null}
 */
export function likeness(roll, header, entries, there) {
  const by = rollOf(header);
  const isWhole = by !== undefined && extraOf(columnsOf(by, header), header).length === 0;
  if (by !== undefined && by !== roll && (isWhole || by === 'projects' || roll === 'students')) return { roll: by, why: 'header' };
  const stranger = strangerIn(roll, header);
  if (stranger !== null) return { ...stranger, why: 'column' };
  for (const other of ROLLS.filter((one) => one !== roll)) {
    const count = entries.filter((entry) => isSame(entry, there[other].get(entry.id)) && !isSame(entry, there[roll].get(entry.id))).length;
    if (count * 2 > entries.length) return { roll: other, why: 'people', count, all: entries.length };
  }
  return null;
}

/**
 * @param {Entry} entry
 * @param {Partial<Record<Column, string>>} [known]
 */
function isSame({ name, title }, known = {}) {
  return (name !== undefined && name === known.name) || (title !== undefined && title === known.title);
}

/**
 * A file that is opened as that of a roll: what is taken of it, what a person has made of its rows, and the codes that were made for them.
 */
export class RollFile {
  /** @type {Map<string, string>} the codes that were made, by key */
  made = new Map();
  /** @type {Map<string, {}>} who is there by the portal's refusals */
  #known = new Map();
  /** @type {Set<string>} who is not there, as the portal has told */
  #fresh = new Set();
  /** @type {Map<string, string>} the lecturers' keys that a person has agreed to, by what stands in the file */
  #agreed = new Map();
  /** @type {Map<number, string>} the IDs that were made, by row */
  #ids = new Map();
  /** @type {Map<number, Partial<Record<Column, string>>>} the cells that were mended, by row */
  #cells = new Map();
  /** @type {Set<number>} the rows that a person leaves out */
  #left = new Set();
  /** @type {Map<string, Set<number>>} the rows of which a person has said that they are right, by doubt */
  #answered = new Map();
  roll;
  name;
  how;
  /** The rows of the sheet, and which of them is the header; -1: none is. */
  rows;
  head;
  header;
  columns;

  /**
   * @param {Roll} roll
   * @param {string} name of the file
   * @param {ReadAs} how it was read
   * @param {FileRow[]} rows
   * @param {number} head which of them is the header; else it is found
   */
  constructor(roll, name, how, rows, head = headAt(rows)) {
    this.roll = roll;
    this.name = name;
    this.how = how;
    this.rows = rows;
    this.head = head;
    const width = Math.max(...rows.map(({ fields }) => fields.length));
    this.header = head < 0 ? Array.from({ length: width }, (_, at) => `${at + 1}`) : rows[head].fields.map((field) => field.trim());
    this.columns = columnsOf(roll, this.header);
  }

  /**
   * The same file as that of another roll, with another header, or another of its sheets.
   * @param {{ roll?: Roll, head?: number, sheet?: number }} of
   */
  as({ roll = this.roll, head, sheet }) {
    if (sheet === undefined) return new RollFile(roll, this.name, this.how, this.rows, head ?? this.head);
    return new RollFile(roll, this.name, { ...this.how, at: sheet }, this.how.sheets?.[sheet].rows ?? this.rows);
  }

  /** The rows above the header, which are not taken. */
  get skipped() {
    return this.rows.slice(0, Math.max(0, this.head));
  }

  get #below() {
    return this.rows.slice(this.head + 1);
  }

  /**
   * A person has said which column of the file it is.
   * @param {Column} column
   * @param {number} at
   */
  take(column, at) {
    this.columns = { ...this.columns, [column]: at };
    this.#ids.clear();
  }

  get isWhole() {
    return missingOf(this.columns).filter((column) => column !== 'id' || this.#ids.size === 0).length === 0;
  }

  /** The columns that the file has to have and has not, and that are not made. */
  get missing() {
    return this.isWhole ? [] : missingOf(this.columns);
  }

  /** The rows that are not left out, with the codes and IDs that were made, and with the keys of lecturers that were agreed to. */
  get entries() {
    return this.#all.filter(({ row }) => !this.#left.has(row));
  }

  get #all() {
    return entriesOf([{ row: 0, fields: [] }, ...this.#below], this.columns).map((entry) => this.#meant(entry));
  }

  /** @param {Entry} read as it stands in the file */
  #meant(read) {
    const entry = { ...read, ...this.#cells.get(read.row) };
    if (entry.id === '') entry.id = this.#ids.get(entry.row) ?? '';
    if (entry.lecturer !== undefined) entry.lecturer = this.#agreed.get(entry.lecturer) ?? entry.lecturer;
    if (entry.code === '') entry.code = this.made.get(entry.id) ?? '';
    return entry;
  }

  /** The rows that have no ID: all, where there is no column for it. What looks like a total needs none. */
  get lacking() {
    const totals = this.#totals;
    return this.entries.filter(({ id, row }) => id === '' && !totals.has(row)).map(({ row }) => row);
  }

  /** The rows that look like totals or notes, of which nobody has said that they are right. */
  get #totals() {
    const width = this.header.filter((name) => name !== '').length;
    const answered = this.#answered.get('total');
    return new Set(totalsIn(this.#below, width).filter((row) => !this.#left.has(row) && !answered?.has(row)));
  }

  /** A person has made something of the rows that would have to be done again. */
  get isWorkedOn() {
    return [this.#agreed, this.#cells, this.#left, this.#answered].some(({ size }) => size > 0);
  }

  get canMakeIds() {
    return canMakeIds(this.roll);
  }

  /**
   * Makes IDs for the rows that have none.
   * @param {There} there
   */
  makeIds(there) {
    const at = this.columns.first === undefined || this.columns.first < 0 ? -1 : this.columns.name ?? -1;
    const family = new Map(this.#below.map(({ row, fields }) => [row, (fields[at] ?? '').trim()]));
    this.#ids = newIds(this.roll, this.entries.map((entry) => ({ ...entry, family: family.get(entry.row) })), there);
  }

  /**
   * A person writes a cell anew.
   * @param {number} row
   * @param {Column} column
   * @param {string} text
   */
  mend(row, column, text) {
    this.#cells.set(row, { ...this.#cells.get(row), [column]: text.trim() });
  }

  /**
   * Puts zeros before the IDs of rows.
   * @param {number[]} rows
   * @param {number} length
   */
  fillZeros(rows, length) {
    const wanted = new Set(rows);
    for (const { row, id } of this.entries) if (wanted.has(row) && id.length < length) this.mend(row, 'id', id.padStart(length, '0'));
  }

  /** @param {number[]} rows */
  leaveOut(rows) {
    for (const row of rows) this.#left.add(row);
  }

  /** @param {number[]} rows */
  takeBack(rows) {
    for (const row of rows) this.#left.delete(row);
  }

  /**
   * A person says that the rows are right.
   * @param {Doubt} doubt
   */
  answer({ doubt, rows }) {
    this.#answered.set(doubt, new Set([...(this.#answered.get(doubt) ?? []), ...rows]));
  }

  /** @param {There} there */
  #matcher({ lecturers }) {
    const meant = allMeantBy([...lecturers].map(([key, { name = '' }]) => /** @type {[string, string]} */ ([key, name])));
    const byCase = new Map([...lecturers.keys()].map((key) => [key.toLowerCase(), key]));
    return (/** @type {string} */ text) => {
      const key = byCase.get(text.toLowerCase());
      return key === undefined ? meant(text) : [key];
    };
  }

  /**
   * Lecturers who stand in the file by name, or by an ID in another case, and who can be meant: one, several or none, by what stands there.
   * @param {There} there
   * @returns {Map<string, string[]>}
   */
  candidates(there) {
    const totals = this.#totals;
    const texts = new Set(this.entries.filter(({ row }) => !totals.has(row)).map(({ lecturer = '' }) => lecturer).filter((text) =>
      text !== '' && !there.lecturers.has(text)));
    const meant = this.#matcher(there);
    return new Map([...texts].map((text) => [text, meant(text)]));
  }

  /**
   * Those of them of whom one alone can be meant.
   * @param {There} there
   */
  named(there) {
    return new Map([...this.candidates(there)].flatMap(([text, keys]) =>
      (keys.length === 1 ? [/** @type {[string, string]} */ ([text, keys[0]])] : [])));
  }

  /**
   * A person agrees to these keys of lecturers.
   * @param {Map<string, string>} keys by what stands in the file
   */
  agree(keys) {
    this.#agreed = new Map([...this.#agreed, ...keys]);
  }

  /**
   * The other roll whose file it rather is, or null.
   * @param {There} there
   */
  likeness(there) {
    return likeness(this.roll, this.header, this.entries, there);
  }

  /**
   * What sending it would do, once lecturers by name are agreed to.
   * @param {There} there
   * @param {boolean} knowsLecturers the page knows all lecturers in the portal
   */
  plan(there, knowsLecturers = false) {
    const { roll } = this;
    const candidates = this.candidates(there);
    const named = this.named(there);
    const entries = this.entries.map((entry) =>
      (named.has(entry.lecturer ?? '') ? { ...entry, lecturer: named.get(entry.lecturer ?? '') } : entry));
    const all = { ...there, [roll]: new Map([...this.#known, ...there[roll]]) };
    const parts = sorted(roll, entries, all);
    const left = new Set(parts.left);
    const toSend = entries.filter((entry) => !left.has(entry));
    const found = this.#doubts(toSend.filter(({ id }) => !this.made.has(id)), all);
    const isRefused = (/** @type {Doubt} */ { doubt }) => knowsLecturers && doubt === 'noLecturer';
    const doubts = found.filter((doubt) => !isRefused(doubt)).map((doubt) =>
      ({ ...doubt, stops: STOPPING.has(doubt.doubt), isAnswered: this.#isAnswered(doubt) }));
    const unknown = found.filter(isRefused).flatMap(({ rows }) => rows);
    const isCompared = parts.fresh.every(({ id }) => this.#fresh.has(id));
    return { entries, named, candidates, ...parts, toSend, unlike: unlikeIn(roll, parts.left, all), faults: withUnknown(faultsOf(
      roll,
      entries,
    ), unknown, knowsLecturers && there.lecturers.size === 0), doubts, known: all[roll].size, isCompared };
  }

  /**
   * What looks wrong in rows: first what looks like no row at all, of which nothing else is said; and what the spreadsheet itself says.
   * @param {Entry[]} entries
   * @param {There} all
   * @returns {Doubt[]}
   */
  #doubts(entries, all) {
    const [totals, hidden] = [this.#totals, new Set(this.how.sheets?.[this.how.at ?? 0].hidden ?? [])];
    const answered = this.#answered.get('total');
    const of = (/** @type {(row: number) => boolean | undefined} */ test) => entries.filter(({ row }) => test(row)).map(({ row }) => row);
    const own = [{ doubt: 'total', rows: of((row) => totals.has(row) || answered?.has(row)) }, { doubt: 'hidden', rows: of((row) =>
      hidden.has(row)) }];
    return [...own.filter(({ rows }) => rows.length > 0), ...doubtsOf(this.roll, entries.filter(({ row }) => !totals.has(row)), all)];
  }

  /** @param {Doubt} doubt */
  #isAnswered({ doubt, rows }) {
    const answered = this.#answered.get(doubt);
    return rows.every((row) => answered?.has(row));
  }

  /**
   * All rows as they stand in the list: those first of which something is to be said.
   * @param {Plan} plan
   * @returns {RowLine[]}
   */
  lines({ entries, old, faults, doubts }) {
    const [by, there] = [new Map(entries.map((entry) => [entry.row, entry])), new Set(old.map(({ row }) => row))];
    const lines = this.#all.map((read) => {
      const entry = by.get(read.row);
      const own = faults.filter(({ row }) => row === read.row);
      const doubted = doubts.filter(({ rows }) => rows.includes(read.row));
      const isOpen = doubted.some(({ stops, isAnswered }) => stops && !isAnswered);
      /** @type {RowState} */
      const state = entry === undefined ? 'left' : own.length > 0 ? 'wrong' : isOpen ? 'doubtful' : there.has(read.row) ? 'there' : 'fresh';
      return { entry: entry ?? read, state, faults: entry === undefined ? [] : own, doubts: doubted.map(({ doubt }) => doubt) };
    });
    return STATES.flatMap((state) => lines.filter((line) => line.state === state));
  }

  /** @param {Entry[]} entries */
  makeCodes(entries) {
    for (const { id } of entries) if (!this.made.has(id)) this.made.set(id, makeCode());
  }

  /**
   * The portal has told who is there and who is not: who is there gets no code.
   * @param {{ there: string[], fresh: string[] }} told keys
   */
  learn({ there, fresh }) {
    for (const id of there) {
      this.made.delete(id);
      this.#known.set(id, {});
    }
    this.#fresh = new Set([...this.#fresh, ...fresh]);
  }
}

/**
 * The faults, and those of rows whose lecturer is surely not in the portal.
 * @param {Fault[]} faults
 * @param {number[]} rows
 * @param {boolean} isEmpty no lecturer is there at all
 */
function withUnknown(faults, rows, isEmpty) {
  const told = new Set(faults.filter(({ column }) => column === 'lecturer').map(({ row }) => row));
  const more = rows.filter((row) => !told.has(row)).map((row) => /** @type {Fault} */ ({ row, column: 'lecturer', fault: 'lecturer' }));
  const all = [...faults, ...more].sort((a, b) => a.row - b.row);
  return isEmpty ? all.map((one) => (one.fault === 'lecturer' ? { ...one, fault: 'noLecturers' } : one)) : all;
}

/** @type {RowState[]} What will happen to a row; what somebody has to look at stands first. */
export const STATES = ['wrong', 'doubtful', 'fresh', 'there', 'left'];

/**
 * Sorts the entries of a file by what is known of who is there.
 * @param {Roll} roll
 * @param {Entry[]} entries
 * @param {There} there
 * @returns `fresh`, those that are new as far as the page knows; `old`, those that are there; `toMake`, the new ones without a code;
 *   `left`, those that are there and have no code in the file, so that they cannot be sent
 */
export function sorted(roll, entries, there) {
  const isOld = (/** @type {Entry} */ { id }) => there[roll].has(id);
  const lacksCode = (/** @type {Entry} */ { code }) => hasCodes(roll) && code === '';
  const [old, fresh] = [entries.filter(isOld), entries.filter((entry) => !isOld(entry))];
  return { fresh, old, toMake: fresh.filter(lacksCode), left: old.filter(lacksCode) };
}
