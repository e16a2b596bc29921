// A table with a search field, for up to some thousand rows: they are made once, and a search only hides and shows them.

import { labelled, make } from './dom.js';
import { compare, hasAll, searched, wordsOf } from './found.js';
import { words } from './words.js';

// So many rows are shown at once, and so many more in each moment after, so that no key press has to wait for all of them.
const AT_ONCE = 100;

export class SearchTable {
  #shown;
  /** @type {TableLine[]} */
  #rows;
  #heads;
  #body = make('tbody');
  #count = make('p', { class: 'quiet count-said', 'aria-live': 'polite' });
  #field = make('input', { type: 'search', autocomplete: 'off', spellcheck: 'false', on: { input: () => this.#filter() } });
  /** @type {(key: string) => boolean} */
  #isKept = () => true;
  // Counts the searches, so that the rows of an earlier one are not shown any more.
  #searches = 0;
  element;

  /**
   * @param {object} of
   * @param {string} of.label the table's name
   * @param {string} of.search the search field's name
   * @param {TableColumn[]} of.columns
   * @param {TableRow[]} of.rows
   * @param {(shown: number, all: number) => string} of.shown what is said of how many rows are shown, of all
   * @param {Node[]} [of.tools] what else chooses rows, beside the search field
   */
  constructor({ label, search, columns, rows, shown, tools = [] }) {
    this.#shown = shown;
    this.#heads = columns.map((column, at) => head(column, () => this.#sort(at)));
    this.#rows = rows.map(({ cells, texts, more = '', key = '' }) =>
      ({ line: lineOf(cells, columns), texts, found: searched(`${texts.join(' ')} ${more}`), key }));
    this.#body.append(...this.#rows.map((row) => row.line));
    this.#filter();
    const table = make('table', { 'aria-label': label }, [make('thead', {}, [make('tr', {}, this.#heads)]), this.#body]);
    // where there is more beside it, the field tells in itself what it is for
    if (tools.length > 0) this.#field.placeholder = search;
    const finder = tools.length > 0
      ? [make('div', { class: 'finder' }, [labelled(search, this.#field), ...tools])]
      : [labelled(search, this.#field)];
    this.element = make('div', {}, [...finder, this.#count, table]);
  }

  /**
   * Shows those rows alone that are found and pass the test of their key, from now on.
   * @param {(key: string) => boolean} test
   */
  keep(test) {
    this.#isKept = test;
    this.#filter();
  }

  /**
   * Brings a row into sight, where it is one of those that are wanted.
   * @param {string} key
   */
  look(key) {
    this.#filter();
    this.#rows.find((row) => row.key === key)?.line.scrollIntoView({ block: 'nearest' });
  }

  #filter() {
    const wanted = wordsOf(this.#field.value);
    const matches = this.#rows.filter((row) => hasAll(row.found, wanted) && this.#isKept(row.key));
    const isMatch = new Set(matches);
    this.#rows.filter((row) => !isMatch.has(row)).forEach(hide);
    this.#count.textContent = matches.length === 0 ? words.noMatches : this.#shown(matches.length, this.#rows.length);
    this.#count.classList.toggle('none', matches.length === 0);
    this.#reveal(matches, ++this.#searches);
  }

  /**
   * @param {TableLine[]} matches
   * @param {number} search
   */
  #reveal(matches, search) {
    if (search !== this.#searches) return;
    matches.slice(0, AT_ONCE).forEach(show);
    if (matches.length > AT_ONCE) setTimeout(() => this.#reveal(matches.slice(AT_ONCE), search));
  }

  /**
   * The same column once more turns the order around.
   * @param {number} at
   */
  #sort(at) {
    const isTurned = this.#heads[at].getAttribute('aria-sort') === 'ascending';
    this.#heads.forEach((cell) => cell.removeAttribute('aria-sort'));
    this.#heads[at].setAttribute('aria-sort', isTurned ? 'descending' : 'ascending');
    this.#rows.sort((a, b) => (isTurned ? -1 : 1) * compare(a.texts[at], b.texts[at]));
    this.#rows.forEach(hide);
    this.#body.append(...this.#rows.flatMap(({ line }) => [line, ...below(line)]));
    this.#filter();
  }
}

/**
 * What is opened below a row goes with it.
 * @param {HTMLTableRowElement} line
 */
function below(line) {
  const next = line.nextElementSibling;
  return next?.matches('.description') ? [next] : [];
}

/**
 * Written only where it changes, since a browser takes its time for each row.
 * @param {TableLine} row
 */
function show({ line }) {
  if (line.hidden) line.hidden = false;
}

/** @param {TableLine} row */
function hide({ line }) {
  if (!line.hidden) line.hidden = true;
}

/**
 * @param {Node[]} cells
 * @param {TableColumn[]} columns
 */
function lineOf(cells, columns) {
  return make('tr', { hidden: true }, cells.map((cell, at) =>
    make(at === 0 ? 'th' : 'td', { class: columns[at].style, scope: at === 0 && 'row' }, [cell])));
}

/**
 * @param {TableColumn} column
 * @param {() => void} press
 */
function head({ title, isSorted, style }, press) {
  if (!isSorted) return make('th', { scope: 'col', text: title, class: style });
  return make('th', { scope: 'col', class: style }, [make('button', { type: 'button', class: 'sort', text: title, on: { click: press } })]);
}
