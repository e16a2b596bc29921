// What is shown of a roll file before it is sent, beside its rows: how it was read, what the portal would refuse, and what looks wrong,
// each with what can be done about it.

import { columnNames, extraOf, hasCodes } from './columns.js';
import { writtenForSpreadsheets } from './csv.js';
import { describedIn } from './descriptions.js';
import { button, download, given, labelled, make, withNames } from './dom.js';
import { ask } from './frame.js';
import { words } from './words.js';

// So many rows are named one by one, so many rows may be the header, and so many signs are shown of a row above it or of a cell.
const MOST_NAMED = 10;
const MOST_HEADS = 20;
const MOST_SIGNS = 60;

/** @param {string} text */
export const cut = (text, most = MOST_SIGNS) => (text.length > most ? `${text.slice(0, most)}…` : text);

/**
 * That it is rather the file of another roll, and why. Nothing can be sent then.
 * @param {Roll} roll
 * @param {Likeness} likeness
 */
export function likenessPart(roll, { roll: other, why, name = '', count = 0, all = 0 }) {
  const [own, others] = [words.roll[roll], words.roll[other]];
  return make('div', { id: 'likeness' }, [
    make('p', { class: 'fault', text: words.looksLike(others, own) }),
    make('p', {
      text: { column: words.hasColumn(name, others), header: words.hasHeader(others), people: words.hasPeople(count, all, others) }[why],
    }),
  ]);
}

/**
 * How the file was read, and choices of its sheet, its header, and the column for each column of the roll. It is open where a person is
 * asked.
 * @param {RollFile} hand
 * @param {{ take: (column: Column, at: number) => void, use: (of: { head?: number, sheet?: number }) => void }} on
 */
export function readPart(hand, { take, use }) {
  const fields = [...sheetField(hand, (sheet) => use({ sheet })), headField(hand, (head) => use({ head })), ...columnFields(hand, take)];
  return make('details', { class: 'read', open: hand.missing.length > 0 }, [
    make('summary', { text: words.columnsOfFile }),
    make('div', { class: 'mapping', role: 'group', 'aria-label': words.columnsOfFile }, fields),
  ]);
}

/**
 * What was found out of how the file is to be read, where it is not as the portal wants it.
 * @param {RollFile} hand
 */
export function readNotes({ how, skipped }) {
  const of = (/** @type {Record<string, string>} */ texts, /** @type {string} */ name) => texts[name] ?? '';
  const found = [of(words.encodings, how.encoding), of(words.separators, how.separator)].filter((text) => text !== '');
  const sheet = how.sheets === undefined || how.sheets.length < 2 ? [] : [words.sheetRead(how.sheets[how.at ?? 0].name, how.sheets.length)];
  const titles = skipped.slice(0, 3).map(({ row, fields }) =>
    words.skippedRow(row, cut(fields.filter((field) => field.trim() !== '').join(' '))));
  const above = skipped.length === 0 ? [] : [words.skipped(titles, skipped.length - titles.length)];
  return [...(found.length === 0 ? [] : [words.readAs(found)]), ...sheet, ...above].map((text) =>
    make('p', { class: 'quiet' }, withNames(text)));
}

/**
 * @param {string} text
 * @param {{ value: number, text: string }[]} options
 * @param {number} chosen
 * @param {(value: number) => void} choose
 */
function choice(text, options, chosen, choose) {
  const select = make('select', {}, options.map(({ value, text: name }) =>
    make('option', { value: `${value}`, text: name, selected: value === chosen })));
  select.addEventListener('change', () => choose(Number(select.value)));
  return labelled(text, select);
}

/**
 * @param {RollFile} hand
 * @param {(sheet: number) => void} choose
 */
function sheetField({ how: { sheets = [], at = 0 } }, choose) {
  if (sheets.length < 2) return [];
  return [choice(words.sheetField, sheets.map(({ name, rows }, value) => ({ value, text: words.sheetOf(name, rows.length) })), at, choose)];
}

/**
 * @param {RollFile} hand
 * @param {(head: number) => void} choose
 */
function headField({ rows, head }, choose) {
  const options = rows.slice(0, Math.max(MOST_HEADS, head + 1)).map(({ row, fields }, value) =>
    ({ value, text: cut(words.headOf(row, fields.filter((field) => field.trim() !== '').join(' | '))) }));
  return choice(words.headField, [...options, { value: -1, text: words.noHead }], head, choose);
}

/**
 * A choice of the file's column for each column of the roll; `take` is told the roll's column and the file's.
 * @param {RollFile} hand
 * @param {(column: Column, at: number) => void} take
 */
function columnFields({ roll, header, columns, rows, head }, take) {
  /** @type {Column[]} */
  const names = hasCodes(roll) ? [...columnNames(roll), 'first'] : columnNames(roll);
  const example = (/** @type {number} */ at) =>
    rows.slice(head + 1).map(({ fields }) => (fields[at] ?? '').trim()).find((text) => text !== '') ?? '';
  const named = header.map((name, value) =>
    ({ value, text: words.columnOption(name || `${value + 1}`, columns.code === value ? '' : cut(example(value), 24)) }));
  const options = [{ value: -1, text: words.noColumn }, ...named];
  return names.map((column) =>
    choice(words.columnFor(words.columnName(roll, column)), options, columns[column] ?? -1, (at) => take(column, at)));
}

/**
 * Which columns are still to choose, and which are not taken.
 * @param {RollFile} hand
 */
export function columnNotes({ roll, header, columns, missing }) {
  const extra = extraOf(columns, header);
  return [
    ...(missing.length > 0
      ? [make('p', { class: 'fault', text: words.columnsMissing(missing.map((column) => words.columnName(roll, column))) })]
      : []),
    ...(extra.length > 0 ? [make('p', { class: 'quiet' }, withNames(words.columnsLeft(extra)))] : []),
  ];
}

/**
 * That an ID is wanted, once for all rows that have none; and a button that makes them, where it can be done and is safe.
 * @param {RollFile} hand
 * @param {{ isKnown: boolean, make: () => void, leaveOut: (rows: number[]) => void }} of `isKnown`: the page knows everybody who has an ID
 *   already
 */
export function lackingPart({ roll, lacking, canMakeIds, isWhole, made }, { isKnown, make: makeIds, leaveOut }) {
  if (lacking.length === 0 || made.size > 0) return [];
  const said = make('p', { class: 'fault', text: words.idWanted(lacking.length, words.idOf[roll]) });
  const how = canMakeIds ? [make('p', { text: isKnown ? words.idsMade[roll] : words.idsNotSafe })] : [];
  const makes = canMakeIds && isKnown ? [button(words.makeIds, makeIds)] : [];
  const leaves = isWhole ? [button(words.leaveOutAll(lacking.length), () => leaveOut(lacking))] : [];
  return [said, ...how, make('div', { class: 'buttons' }, [...makes, ...leaves])];
}

/**
 * The first of these rows by their numbers, and how many more there are.
 * @param {number[]} rows
 */
export const namedRows = (rows) => words.rows(rows.slice(0, MOST_NAMED), rows.length - MOST_NAMED);

/**
 * More rows than one are left out where a person says so once more.
 * @param {number[]} rows
 */
export function mayLeaveOut(rows) {
  return rows.length === 1 || ask({
    title: words.askLeaveOut(rows.length),
    lines: [words.rowsAre(namedRows(rows)), words.leaveOutMeans],
    verb: words.leaveOutAll(rows.length),
    stay: words.notNow,
  });
}

/**
 * What the portal would refuse: for each kind the first rows, with the cell's text and what to put there, and a button that leaves them all
 * out.
 * @param {RollFile} hand
 * @param {Plan} plan
 * @param {(rows: number[]) => void} leaveOut
 */
export function faultsPart(hand, { faults, entries, doubts }, leaveOut) {
  // of what looks like a total nothing else is said, and IDs are asked for once
  const totals = new Set(doubts.filter(({ doubt, isAnswered }) => doubt === 'total' && !isAnswered).flatMap(({ rows }) => rows));
  const shown = faults.filter(({ row, column, fault }) => !totals.has(row) && (column !== 'id' || fault !== 'empty'));
  if (shown.length === 0) return [];
  const by = new Map(entries.map((entry) => [entry.row, entry]));
  const items = [...grouped(shown, kindOf).values()].map((some) => {
    const named = some.slice(0, MOST_NAMED).map((fault) =>
      make('li', {}, withNames(words.rowFault(fault.row, faultText(hand, fault, by.get(fault.row))))));
    if (some.length > MOST_NAMED) named.push(make('li', { text: words.moreFaults(some.length - MOST_NAMED) }));
    const rows = [...new Set(some.map(({ row }) => row))];
    return make('li', {}, [make('ul', { class: 'faults' }, named), make('div', { class: 'buttons' }, [
      button(words.leaveOutAll(rows.length), () => leaveOut(rows)),
    ])]);
  });
  return [make('p', { class: 'fault', text: words.wouldRefuse }), make('ul', { class: 'checks', role: 'list' }, items)];
}

/** @param {Fault} fault */
const kindOf = ({ column, fault }) => `${column} ${fault}`;

/**
 * @template One
 * @param {One[]} all
 * @param {(one: One) => string} keyOf
 */
function grouped(all, keyOf) {
  /** @type {Map<string, One[]>} */
  const groups = new Map();
  for (const one of all) groups.set(keyOf(one), [...(groups.get(keyOf(one)) ?? []), one]);
  return groups;
}

/**
 * A fault with the column, the cell's text and what to put there. Of a code nothing is shown.
 * @param {RollFile} hand
 * @param {Fault} fault
 * @param {Entry} [entry]
 */
export function faultText(hand, { column, fault, other }, entry) {
  const why = /** @type {Record<string, (other?: number) => string>} */ (words.rowFaults)[fault](other);
  return words.cellFault(words.columnName(hand.roll, column), column === 'code' ? '' : cut(entry?.[column] ?? ''), why);
}

/**
 * What looks wrong: a text for each kind, with the rows, and what can be done: each is answered once, or its rows are left out.
 * @param {AskedDoubt[]} doubts
 * @param {{ leaveOut: (rows: number[]) => void, answer: (doubt: Doubt) => void, fill: (rows: number[], length: number) => void }} on
 */
export function doubtsPart(doubts, { leaveOut, answer, fill }) {
  if (doubts.length === 0) return [];
  const textOf = /** @type {Record<string, (rows: string, length?: number) => string>} */ (words.doubts);
  const items = doubts.map(({ isAnswered, stops, ...doubt }) => {
    const { rows, length } = doubt;
    const said = make('p', {}, withNames(textOf[doubt.doubt](namedRows(rows), length)));
    if (isAnswered) return make('li', { class: 'answered' }, [said, make('p', { class: 'quiet', text: words.isAnswered })]);
    const zeros = length === undefined ? [] : [button(words.fillZeros(length), () => fill(rows, length), { class: 'main' })];
    const right = stops ? [button(words.areRight(rows.length), () => answer(doubt))] : [];
    return make('li', {}, [said, make('div', { class: 'buttons' }, [...zeros, ...right, button(words.leaveOutAll(rows.length), () =>
      leaveOut(rows))])]);
  });
  const isStopped = doubts.some(({ stops, isAnswered }) => stops && !isAnswered);
  return [
    make('p', { class: 'doubt', text: isStopped ? words.mustAnswer : words.lookAt }),
    make('ul', { class: 'checks doubts', role: 'list' }, items),
  ];
}

/**
 * Lecturers who stand in the file by name: who is meant is to be agreed to where one alone can be, and to be chosen otherwise.
 * @param {Plan} plan
 * @param {There['lecturers']} lecturers
 * @param {(keys: Map<string, string>) => void} agree
 */
export function namedPart({ named, candidates }, lecturers, agree) {
  const nameOf = (/** @type {string} */ key) => words.person(key, lecturers.get(key)?.name);
  const items = [...named].map(([text, key]) => make('li', {}, [given(text), make('span', { text: ' → ' }), ...withNames(nameOf(key))]));
  // more names than these are folded to their count
  const agreed = items.length === 0 ? [] : [make('details', { class: 'named-fold', open: items.length <= MOST_NAMED }, [
    make('summary', { class: 'doubt', text: words.lecturersNamed(named.size) }),
    make('ul', { class: 'named' }, items),
    make('div', { class: 'buttons' }, [button(words.useNamed, () => agree(named), { class: 'main' })]),
  ])];
  const open = [...candidates].filter(([, keys]) => keys.length !== 1);
  return [...agreed, ...(open.length === 0 || lecturers.size === 0 ? [] : openPart(open, lecturers, nameOf, agree))];
}

/**
 * @param {[string, string[]][]} open what stands in the file, and who can be meant
 * @param {There['lecturers']} lecturers
 * @param {(key: string) => string} nameOf
 * @param {(keys: Map<string, string>) => void} agree
 */
function openPart(open, lecturers, nameOf, agree) {
  const bare = (/** @type {string} */ key) => nameOf(key).replace(/[\u2068\u2069]/g, '');
  const rest = [...lecturers.keys()].sort((a, b) => bare(a).localeCompare(bare(b), words.language));
  /** @type {Map<string, string>} */
  const chosen = new Map();
  const use = button(words.useChosen, () => agree(chosen), { disabled: true });
  const fields = open.map(([text, keys]) => {
    const option = (/** @type {string} */ key) => make('option', { value: key, text: bare(key) });
    const meant = keys.length === 0 ? [] : [make('optgroup', { label: words.canBeMeant }, keys.map(option))];
    const others = make('optgroup', { label: words.allOthers }, rest.filter((key) => !keys.includes(key)).map(option));
    const select = make('select', {}, [make('option', { value: '', text: words.chooseOne(keys.length) }), ...meant, others]);
    select.addEventListener('change', () => {
      if (select.value === '') chosen.delete(text);
      else chosen.set(text, select.value);
      use.disabled = chosen.size === 0;
    });
    return labelled(cut(text), select);
  });
  const isAmbiguous = open.some(([, keys]) => keys.length > 1);
  return [
    make('p', { class: 'doubt', text: isAmbiguous ? words.ambiguous : words.unknownNames }),
    make('div', { class: 'mapping' }, fields),
    make('div', { class: 'buttons' }, [use]),
  ];
}

/**
 * Who needs a code, who is left out.
 * @param {RollFile} hand
 * @param {Plan} plan
 */
export function notesPart({ made }, { toMake, left, unlike }) {
  const notes = [
    unlike.length > 0 ? words.notChanged(namedRows(unlike)) : '',
    toMake.length > 0 && made.size === 0 ? words.codesMissing(toMake.length) : '',
    left.length > 0 ? words.leftOut(left.length) : '',
  ];
  return notes.filter((text) => text !== '').map((text) => make('p', { text }));
}

/**
 * The descriptions of the file's projects, which are handed out for the administrator, and what of them does not fit.
 * @param {Entry[]} entries
 */
export function describedPart(entries) {
  const { rows, noText, noLink } = describedIn(entries);
  if (rows.length + noText.length + noLink.length === 1) return [];
  const faults =
    [...(noText.length > 0 ? [words.noText(namedRows(noText))] : []), ...(noLink.length > 0 ? [words.noLink(namedRows(noLink))] : [])];
  return [
    make('p', { text: words.described(rows.length - 1) }),
    ...faults.map((text) => make('p', { class: 'doubt', text })),
    make('div', { class: 'buttons' }, [button(
      words.saveDescribed,
      () => download('descriptions.csv', writtenForSpreadsheets(rows, words.separator), 'text/csv'),
      { disabled: rows.length === 1 },
    )]),
  ];
}
