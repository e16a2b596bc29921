// New codes: the file of them, which is saved and seen to be there before rows are sent; what this tab keeps of them until they are safe;
// and slips.

import { bookOf, bookType } from './bookfile.js';
import { columnsOf, entriesOf } from './columns.js';
import { writtenForSpreadsheets } from './csv.js';
import { button, download, given, make, print, withNames } from './dom.js';
import { ask, pageTitle } from './frame.js';
import { CODES, draftOf, forgetDraft, keepDraft } from './store.js';
import { words } from './words.js';

/**
 * The codes that this tab keeps, until it is closed or somebody signs out.
 * @returns {CodesRecord[]}
 */
export const keptCodes = () => draftOf(CODES) ?? [];

/** @param {CodesRecord} record */
export const keepCodes = (record) => keepDraft(CODES, [...keptCodes().filter(({ key }) => key !== record.key), record]);

/** @param {number} key */
export function forgetCodes(key) {
  const rest = keptCodes().filter((record) => record.key !== key);
  if (rest.length > 0) keepDraft(CODES, rest);
  else forgetDraft(CODES);
}

/**
 * A record of new codes that this tab keeps from now on.
 * @param {Roll} roll
 * @param {string[][]} rows of the file, its header first
 * @param {number} count how many codes are new
 * @returns {CodesRecord}
 */
export function newRecord(roll, rows, count) {
  const key = 1 + Math.max(0, ...keptCodes().map((record) => record.key));
  /** @type {CodesRecord} */
  const record = { key, roll, file: codesFile(roll, count), rows, state: 'made' };
  keepCodes(record);
  return record;
}

/**
 * The name of a file with new codes tells how many there are, and when they were made.
 * @param {Roll} roll
 * @param {number} count
 */
export const codesFile = (roll, count, now = new Date()) => `${roll}-${count}-codes-${now.toLocaleDateString('sv')}.xlsx`;

/** @param {string[][]} rows */
export const codesText = (rows) => writtenForSpreadsheets(rows, words.separator);

/** @param {CodesRecord} record */
export const saveCodes = ({ file, roll, rows }) => download(file, bookOf(words.roll[roll], rows), bookType);

/** @param {CodesRecord} record */
const saveText = ({ file, rows }) => download(file.replace(/xlsx$/, 'csv'), codesText(rows), 'text/csv');

/**
 * The buttons that save the file of codes again, as a workbook and as a text.
 * @param {CodesRecord} record
 */
export const saveButtons = (record) => [button(words.saveAgain, () => saveCodes(record)), button(words.saveText, () => saveText(record))];

/**
 * The rows of a record as those of a roll file.
 * @param {CodesRecord} record
 */
export function entriesIn({ roll, rows: [header, ...rows] }) {
  const all = [header, ...rows].map((fields, at) => ({ row: at + 1, fields }));
  return entriesOf(all, columnsOf(roll, header));
}

/**
 * What stands between new codes and sending: the file of them is to be seen in the downloads.
 * @param {CodesRecord} record
 * @param {{ isSeen: boolean, see: () => void }} of
 */
export function stepsPart(record, { isSeen, see }) {
  // a browser may forbid to keep anything
  const isKept = keptCodes().some(({ key }) => key === record.key);
  const maybe = record.state === 'maybe' ? [make('p', { class: 'doubt', text: words.maybeSent })] : [];
  return make('div', { class: 'codes-steps' }, [
    make('p', {}, withNames(words.codesInFile(record.file))),
    make('p', isKept ? { class: 'quiet', text: words.codesInTab } : { class: 'doubt', text: words.codesNotInTab }),
    ...maybe,
    make('p', { class: isSeen ? 'seen' : 'doubt', text: isSeen ? words.fileSeen : words.lookForFile }),
    make('div', { class: 'buttons' }, [...(isSeen ? [] : [button(words.seeFile, see, { class: 'main' })]), ...saveButtons(record)]),
  ]);
}

/**
 * What this tab still keeps of codes, each with what is known of whether it was sent.
 * @param {CodesRecord[]} records
 * @param {{ goOn: (record: CodesRecord) => void, slips: (record: CodesRecord) => void, changed: () => void }} on
 */
export function keptPart(records, { goOn, slips, changed }) {
  if (records.length === 0) return [];
  // those first of which nobody knows
  const inOrder = [...records].sort((a, b) => Number(a.state === 'sent') - Number(b.state === 'sent'));
  const items = inOrder.map((record) => {
    const forget = async () => {
      if (!(await mayForget(record))) return;
      forgetCodes(record.key);
      changed();
    };
    const isUnsure = record.state !== 'sent';
    return make('li', {}, [
      make('p', { class: isUnsure && 'doubt' }, withNames(
        words.keptCodes[record.state](record.rows.length - 1, words.roll[record.roll], record.file),
      )),
      make('div', { class: 'buttons' }, [
        ...(isUnsure ? [button(words.goOnWith, () => goOn(record), { class: 'main' })] : [button(words.printSlips, () => slips(record))]),
        ...saveButtons(record),
        button(words.forgetCodes, forget),
      ]),
    ]);
  });
  // what was sent is only kept, and folded
  const isOpen = records.some(({ state }) => state !== 'sent');
  return [make('details', { open: isOpen }, [
    make('summary', { text: words.codesOfTab }),
    make('ul', { class: 'checks', role: 'list' }, items),
    make('p', { class: 'quiet', text: words.codesInTab }),
  ])];
}

/** @param {CodesRecord} record */
function mayForget({ state, file }) {
  if (state === 'sent') return ask(
    { title: words.askForget, lines: [words.forgetSent(file)], verb: words.forgetCodes, stay: words.keepCodes },
  );
  return ask({ title: words.askForget, risk: words.forgetMeans[state](file), verb: words.forgetCodes, stay: words.keepCodes });
}

/** @type {Partial<Record<Roll, Role>>} */
const ROLES = { lecturers: 'lecturer', students: 'student' };

/**
 * Prints slips with name, ID, role, code and the page's address. They are seen in print alone.
 * @param {HTMLElement} place
 * @param {Roll} roll
 * @param {Entry[]} entries with a code each
 */
export function printSlips(place, roll, entries) {
  place.querySelector('.slips')?.remove();
  const slips = slipsOf(roll, entries);
  place.append(slips);
  print(slips);
}

/**
 * @param {Roll} roll
 * @param {Entry[]} entries
 */
function slipsOf(roll, entries) {
  const role = words.roles[ROLES[roll] ?? 'student'];
  return make('ul', { class: 'slips' }, entries.map(({ id, name = '', code }) =>
    make('li', {}, [
      make('p', { class: 'slip-name' }, [given(name), make('span', { class: 'slip-key', text: id })]),
      make('p', { text: `${pageTitle}: ${role}` }),
      make('p', { text: `${words.slipCode}:` }),
      make('p', { class: 'slip-code', text: code }),
      make('p', { text: `${words.slipAddress}: ${location.origin}` }),
      make('p', { text: words.slipSecret }),
    ])));
}
