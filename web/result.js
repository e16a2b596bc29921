// Who has what, once it is published: to search, to sort, to keep as a file and to print. And before, the lecturers, projects and students
// as they stand, to search and to sort.

import { bookOf, bookType } from './bookfile.js';
import { records, writtenForSpreadsheets } from './csv.js';
import { bar, button, download, given, make, part, print, titled } from './dom.js';
import { pageTitle } from './frame.js';
import { SearchTable } from './table.js';
import { words } from './words.js';
import { roundOf, takesRolls } from './year.js';

/** @type {ResultColumn[]} */
const COLUMNS = ['student', 'project', 'lecturer'];
/** @type {Partial<Record<ResultColumn, string>>} In a narrow window the lecturer stands under the project's title. */
const STYLES = { lecturer: 'owners' };

/**
 * Asks for the result.
 * @param {Portal} portal
 * @returns {Promise<Result>}
 */
export async function loadResult(portal) {
  const csv = await portal.getText('/allocation.csv');
  const report = await portal.getText('/report');
  const rows = [...records(csv)].slice(1).map(([student, name, project, title, lecturer]) => ({ student, name, project, title, lecturer }));
  return { csv, report, rows, used: usage(report) };
}

/**
 * The lines of the report that count the students of each project: the last part but one.
 * @param {string} report
 * @returns {Used[]}
 */
export function usage(report) {
  const lines = report.trim().split('\n\n').at(-2) ?? '';
  return [...lines.matchAll(/^(\S+) +(\d+) of +(\d+)$/gm)].map(([, key, taken, all]) => ({ key, taken: Number(taken), all: Number(all) }));
}

/**
 * The files of the result: to keep, and to print.
 * @param {Shown} shown
 * @param {Status} status
 */
export function resultFiles(shown, status) {
  const paper = make('div', { class: 'paper' });
  const printed = () => {
    paper.replaceChildren(...paperOf(shown));
    print(paper);
  };
  // the first round's result is another file than that of both
  const name = roundOf(status) === 2 && status.phase === 'published' ? 'allocation-2' : 'allocation';
  return part(words.files, [
    make('div', { class: 'buttons' }, [
      button(words.downloadBook, () => download(`${name}.xlsx`, bookOf(words.result, [...records(shown.csv)]), bookType)),
      button(words.downloadCsv, () => download(`${name}.csv`, forSpreadsheets(shown.csv), 'text/csv')),
      button(words.printReport, printed),
    ]),
    make('details', {}, [make('summary', { text: words.report }), make('pre', { class: 'report', text: shown.report })]),
    paper,
  ], { class: 'files' });
}

/**
 * Who has what. The places stand first: they are what the next step is decided by.
 * @param {Shown} shown
 */
export const resultPart = (shown) => part(words.result, [usageFold(shown), resultTable(shown)]);

/**
 * The portal's own text, as long as a spreadsheet of the reader's language opens it in columns.
 * @param {string} csv
 */
const forSpreadsheets = (csv) => (words.separator === ',' ? csv : writtenForSpreadsheets([...records(csv)], words.separator));

// More projects than these are folded, so that the table is in sight.
const UNFOLDED = 20;

/** @param {Shown} shown */
function usageFold(shown) {
  const { used } = shown;
  const taken = used.reduce((sum, one) => sum + one.taken, 0);
  return make('details', { open: used.length <= UNFOLDED }, [make('summary', { text: words.usageOf(taken, used.length) }), usageList(
    shown,
  )]);
}

/** @param {Shown} shown */
function resultTable(shown) {
  const { rows } = shown;
  const { element } = new SearchTable({
    label: words.result,
    search: words.searchResult,
    shown: words.resultShown,
    columns: COLUMNS.map((name) => ({ title: words.resultColumns[name], isSorted: true, style: STYLES[name] })),
    rows: rows.map((row) => ({ cells: cells(row, shown), texts: texts(row, shown) })),
  });
  return element;
}

/**
 * @param {GivenRow} row
 * @param {Shown} shown
 */
function cells({ student, name, project, title, lecturer }, { nameOf, noneOf }) {
  const who = titled(name, student);
  if (project === '') return [who, make('em', { text: noneOf(student) }), make('span')];
  const under = make('span', { class: 'owner' }, [given(nameOf(lecturer))]);
  return [who, titled(title, project, [under]), titled(nameOf(lecturer), lecturer)];
}

/**
 * @param {GivenRow} row
 * @param {Shown} shown
 */
function texts({ student, name, project, title, lecturer }, { nameOf, noneOf }) {
  if (project === '') return [`${name} ${student}`, noneOf(student), ''];
  return [`${name} ${student}`, `${title} ${project}`, `${nameOf(lecturer)} ${lecturer}`];
}

/** @param {Shown} shown */
function usageList({ used, titleOf }) {
  return make('ul', { class: 'usage', 'aria-label': words.usage }, used.map(({ key, taken, all }) =>
    make('li', {}, [titled(titleOf(key), key), bar(taken, all), make('span', { class: 'number', text: words.used(taken, all) })])));
}

/**
 * The whole result on paper, whatever is searched for on the screen.
 * @param {Shown} shown
 */
function paperOf(shown) {
  const heads = COLUMNS.map((name) => make('th', { scope: 'col', text: words.resultColumns[name] }));
  const rows = shown.rows.map((row) => make('tr', {}, cells(row, shown).map((cell) => make('td', {}, [cell]))));
  const count = shown.rows.filter(({ project }) => project !== '').length;
  return [
    make('h1', {}, [given(pageTitle)]),
    make('h2', { text: words.result }),
    make('p', { text: words.assigned(count, shown.rows.length) }),
    make('table', {}, [make('thead', {}, [make('tr', {}, heads)]), make('tbody', {}, rows)]),
    make('h2', { text: words.usage }),
    usageList(shown),
  ];
}

/** Folds with a table for each roll, each made when it is opened; which ones are open is kept from one time to the next. */
export class DataPart {
  /** @type {Set<Roll>} */
  #opened = new Set();
  element = make('div');

  /** @param {OfficeData} data */
  show(data) {
    /** @type {Roll[]} */
    const rolls = ['lecturers', 'projects', 'students'];
    // what is not there need not be looked at
    if (rolls.every((roll) => data.status[roll] === 0)) return this.element.replaceChildren();
    const folds = rolls.map((roll) => this.#fold(roll, data));
    this.element.replaceChildren(part(words.data, [make('p', { class: 'quiet', text: words.dataHint }), ...folds], { class: 'screen' }));
  }

  /**
   * @param {Roll} roll
   * @param {OfficeData} data
   */
  #fold(roll, data) {
    const inside = make('div');
    const fill = () => inside.childElementCount === 0 && inside.append(...tableOf(roll, data));
    const isOpenOnes = roll === 'projects' && roundOf(data.status) === 2;
    const title = isOpenOnes ? words.openProjects(data.projects.length) : words.countOf[roll](data.status[roll]);
    const fold = make('details', { open: this.#opened.has(roll) }, [make('summary', { text: title }), inside]);
    if (fold.open) fill();
    fold.addEventListener('toggle', () => {
      if (fold.open) fill();
      if (fold.open) this.#opened.add(roll);
      else this.#opened.delete(roll);
    });
    return fold;
  }
}

/**
 * @param {Roll} roll
 * @param {OfficeData} data
 */
function tableOf(roll, data) {
  const { columns, rows } = { lecturers: lecturersTable, projects: projectsTable, students: studentsTable }[roll](data);
  const unknown = data.status[roll] - rows.length;
  const note = roll === 'projects' || unknown <= 0 ? [] : [make('p', { class: 'quiet', text: words.unknownPeople[roll](unknown) })];
  if (rows.length === 0) return note;
  const { element } = new SearchTable({ label: words.roll[roll], search: words.searchRoll[roll], columns, rows, shown: words.rowsShown });
  return [...note, element];
}

/**
 * @param {OfficeData} data
 * @returns {Sheet}
 */
function lecturersTable(data) {
  const { lecturer, takes } = words.dataColumns;
  const more = lecturerColumns(data);
  const rows = byKey(data.there.lecturers).map(([key, { capacity = '?' }]) =>
    personRow(key, data.names.nameOf('lecturers', key), [capacity, ...more.map(([, textOf]) => `${textOf(key)}`)]));
  return { columns: columnsOf(lecturer, [takes, ...more.map(([title]) => title)]), rows };
}

/**
 * The columns that matter in the phase: what is offered, then who has ranked, then how many students a lecturer has. In the second round
 * the catalogue has the open projects alone, so that the last one cannot be counted.
 * @param {OfficeData} data
 * @returns {[string, (lecturer: string) => string | number][]}
 */
function lecturerColumns({ status, projects, used, rankers }) {
  const { projects: own, places, ranking, has } = words.dataColumns;
  const [toRank, taken] = [new Set(status.still_to_rank), new Map(used.map((one) => [one.key, one.taken]))];
  const sum = (/** @type {string} */ key, /** @type {(project: Project) => number} */ count) =>
    projects.filter(({ lecturer }) => lecturer === key).reduce((all, project) => all + count(project), 0);
  if (takesRolls(status)) return [[own, (key) => sum(key, () => 1)], [places, (key) => sum(key, ({ capacity }) => capacity)]];
  const standOf = (/** @type {string} */ key) => {
    if (toRank.has(key)) return words.standsRanking.missing;
    if (rankers?.keys.has(key)) return words.standsRanking.done;
    return rankers?.isWhole || sum(key, () => 1) === 0 ? words.standsRanking.none : words.standsRanking.unknown;
  };
  if (status.phase === 'ranking') return [[ranking, standOf]];
  return roundOf(status) === 1 ? [[has, (key) => sum(key, ({ id }) => taken.get(id) ?? 0)]] : [];
}

/**
 * @param {OfficeData} data
 * @returns {Sheet}
 */
function projectsTable({ status, projects, used }) {
  const { title, lecturer, places } = words.columns;
  const taken = new Map(used.map((one) => [one.key, one.taken]));
  const rows = projects.map(({ id, title: named, lecturer: owner, lecturer_name: name, capacity }) => {
    const all = status.phase === 'published' && roundOf(status) === 1 ? words.used(taken.get(id) ?? 0, capacity) : `${capacity}`;
    const under = make('span', { class: 'owner' }, [given(name)]);
    return {
      cells: [titled(named, id, [under]), titled(name, owner), make('span', { text: all })],
      texts: [`${named} ${id}`, `${name} ${owner}`, all],
    };
  });
  return { columns: [{
    title,
    isSorted: true,
  }, { title: lecturer, isSorted: true, style: 'owners' }, { title: places, isSorted: true, style: 'number' }], rows };
}

/**
 * @param {OfficeData} data
 * @returns {Sheet}
 */
function studentsTable({ status, there, names }) {
  const { student, list } = words.dataColumns;
  const hasLists = ['choosing', 'ranking'].includes(status.phase);
  const [without, choosers] = [new Set(status.without_list), new Set(status.unassigned)];
  const listOf = (/** @type {string} */ key) => {
    if (roundOf(status) === 2 && !choosers.has(key)) return words.standsList.placed;
    return without.has(key) ? words.standsList.missing : words.standsList.done;
  };
  const rows = byKey(there.students).map(([key]) => personRow(key, names.nameOf('students', key), hasLists ? [listOf(key)] : []));
  return { columns: columnsOf(student, hasLists ? [list] : []), rows };
}

/**
 * @template Known
 * @param {Map<string, Known>} people
 */
const byKey = (people) => [...people].sort(([a], [b]) => (a < b ? -1 : 1));

/**
 * @param {string} first
 * @param {string[]} more
 * @returns {TableColumn[]}
 */
const columnsOf = (first, more) => [{ title: first, isSorted: true }, ...more.map((title) => ({ title, isSorted: true, style: 'short' }))];

/**
 * @param {string} key
 * @param {string | undefined} name
 * @param {string[]} more what else is told
 * @returns {TableRow}
 */
function personRow(key, name, more) {
  const who = name === undefined ? make('span', { text: key }) : titled(name, key);
  return { cells: [who, ...more.map((text) => make('span', { text }))], texts: [`${name ?? ''} ${key}`, ...more] };
}
