// All rows of a roll file: what will happen to each, those first that are wrong or doubtful; a cell can be mended where it stands, and a
// row be left out.

import { KINDS, hasCodes } from './columns.js';
import { button, given, labelled, make, withNames } from './dom.js';
import { hasAll, plain, wordsOf } from './found.js';
import { STATES } from './rollfile.js';
import { faultText } from './rollview.js';
import { words } from './words.js';

// So many rows are shown at once, and so many more by each press.
const AT_ONCE = 12;
const MORE = 200;
// What is written is shown after so many milliseconds, so that a press on a button meets the button, however long it is.
const SOON = 250;
const PRESSED = ':is(button, label, summary, a):active';

export class RowsPart {
  #actions;
  /** @type {RollFile | null} */
  #hand = null;
  /** @type {RowLine[]} */
  #lines = [];
  /** @type {RowState | ''} */
  #state = '';
  #most = AT_ONCE;
  /** @type {Set<number>} rows whose cells are all open to be written in */
  #open = new Set();
  #timer = 0;
  // The rows are not as they should be, because somebody writes in one.
  #isStale = false;
  #filters = make('div', { class: 'row-states', role: 'group' });
  #search = make('input', { type: 'search', autocomplete: 'off', spellcheck: 'false', on: { input: () => this.#fill() } });
  // In a narrow window the rows are cards: the roles say that it is a table all the same.
  #head = make('thead', { role: 'rowgroup' });
  #body = make('tbody', { role: 'rowgroup' });
  #table = make('table', { role: 'table' }, [this.#head, this.#body]);
  #finder;
  #rest = make('div', { class: 'buttons' });
  element;

  /** @param {RowActions} actions */
  constructor(actions) {
    this.#actions = actions;
    this.#finder = labelled(words.searchRows, this.#search);
    this.#body.addEventListener('focusout', () => this.#isStale && this.#showSoon());
    this.element = make('div', { class: 'all-rows' }, [
      this.#filters,
      this.#finder,
      make('div', { class: 'wide', role: 'region', tabindex: '0', 'aria-label': words.allRows }, [this.#table]),
      this.#rest,
    ]);
  }

  /** A new file has other rows. */
  clear() {
    this.#state = '';
    this.#most = AT_ONCE;
    this.#open.clear();
    this.#search.value = '';
  }

  /**
   * @param {RollFile} hand
   * @param {RowLine[]} lines
   * @param {{ isLocked: boolean }} how `isLocked`: nothing can be changed any more
   */
  show(hand, lines, { isLocked }) {
    clearTimeout(this.#timer);
    const focused = /** @type {HTMLElement | null} */ (document.activeElement)?.dataset?.at;
    this.#hand = hand;
    this.#lines = lines;
    this.element.classList.toggle('locked', isLocked);
    this.#finder.hidden = lines.length <= AT_ONCE;
    this.#head.replaceChildren(make('tr', { role: 'row' }, this.#heads(isLocked)));
    this.#showFilters();
    this.#isStale = this.#isWriting;
    if (this.#isStale) return this.#mark();
    this.#fill();
    if (focused !== undefined) /** @type {HTMLElement | null} */ (this.#body.querySelector(`[data-at="${focused}"]`))?.focus(
      { preventScroll: true },
    );
  }

  get #isWriting() {
    return document.activeElement instanceof HTMLInputElement && this.#body.contains(document.activeElement);
  }

  /** Shows the rows anew, once nobody holds a button. */
  #showSoon() {
    clearTimeout(this.#timer);
    this.#timer = setTimeout(() => (document.querySelector(PRESSED) === null ? this.#actions.show() : this.#showSoon()), SOON);
  }

  /** Says what will happen to the rows that are shown, and leaves the fields as they are. */
  #mark() {
    const lines = new Map(this.#lines.map((line) => [`${line.entry.row}`, line]));
    for (const row of this.#body.rows) {
      const line = lines.get(row.dataset.row ?? '');
      if (line === undefined) continue;
      row.className = `state-${line.state}`;
      row.querySelector('.state')?.replaceChildren(...this.#said(line));
      for (const field of row.querySelectorAll('input')) {
        if (!line.faults.some(({ column }) => field.dataset.at === `${line.entry.row} ${column}`)) field.removeAttribute('aria-invalid');
      }
    }
  }

  get #columns() {
    const roll = this.#hand?.roll ?? 'students';
    const hasEmail = this.#lines.some(({ entry }) => (entry.email ?? '') !== '');
    return hasEmail ? [...KINDS[roll], /** @type {Column} */ ('email')] : KINDS[roll];
  }

  /** @param {boolean} isLocked */
  #heads(isLocked) {
    const names = this.#columns.map((column) => words.columnName(this.#hand?.roll ?? 'students', column));
    return [words.rowNumber, words.rowState, ...names, ...(isLocked ? [] : [words.rowActions])].map((text) =>
      make('th', { scope: 'col', role: 'columnheader', text }));
  }

  #showFilters() {
    const counts = STATES.map((state) => ({ state, count: this.#lines.filter((line) => line.state === state).length })).filter(
      ({ count }) => count > 0,
    );
    if (!counts.some(({ state }) => state === this.#state)) this.#state = '';
    /** @type {{ state: RowState | '', count: number }[]} */
    const all = [{ state: '', count: this.#lines.length }, ...counts];
    this.#filters.setAttribute('aria-label', words.whichRows);
    this.#filters.replaceChildren(...all.map(({ state, count }) => {
      const press = () => {
        this.#state = state;
        this.#most = AT_ONCE;
        this.#showFilters();
        this.#fill();
        /** @type {HTMLElement | null} */ (this.#filters.querySelector('[aria-pressed="true"]'))?.focus();
      };
      return button(words.rowsOf[state || 'all'](count), press, { 'aria-pressed': `${state === this.#state}`, class: state
        && `state-${state}` });
    }));
  }

  #fill() {
    const wanted = wordsOf(this.#search.value);
    const found = this.#lines.filter(({ entry, state }) =>
      (this.#state === '' || state === this.#state) && hasAll(plain(textOf(entry)), wanted));
    this.#body.replaceChildren(...found.slice(0, this.#most).map((line) => this.#row(line)));
    this.#table.setAttribute('aria-label', words.allRows);
    const left = found.length - this.#most;
    const more = () => {
      const first = this.#most;
      this.#most += MORE;
      this.#fill();
      /** @type {HTMLElement | null} */ (this.#body.children[first]?.querySelector('button, input'))?.focus();
    };
    this.#rest.replaceChildren(
      ...(found.length === 0 ? [make('p', { class: 'quiet', text: words.noMatches })] : []),
      ...(left > 0 ? [button(words.moreRows(Math.min(left, MORE), left), more)] : []),
    );
  }

  /** @param {RowLine} line */
  #row(line) {
    const { entry, state, faults } = line;
    const hand = /** @type {RollFile} */ (this.#hand);
    const isLocked = this.element.classList.contains('locked');
    const said = `row-${entry.row}-said`;
    const cells = this.#columns.map((column) => {
      const isWrong = faults.some((fault) => fault.column === column);
      const isOpen = !isLocked && state !== 'left' && (isWrong || this.#open.has(entry.row));
      const content = isOpen ? this.#field(entry, column, isWrong, said) : given(shown(entry, column, state, hand.roll));
      return make('td', { role: 'cell', 'data-column': column, 'data-label': words.columnName(hand.roll, column) }, [content]);
    });
    return make('tr', { role: 'row', class: `state-${state}`, 'data-row': entry.row }, [
      make('th', { scope: 'row', role: 'rowheader', text: entry.row, 'data-label': words.rowNumber }),
      make('td', { role: 'cell', id: said, class: 'state', 'data-label': words.rowState }, this.#said(line)),
      ...cells,
      ...(isLocked ? [] : [make('td', { role: 'cell', class: 'act' }, this.#buttons(entry, state))]),
    ]);
  }

  /**
   * What will happen to a row, and why.
   * @param {RowLine} line
   */
  #said({ entry, state, faults, doubts }) {
    const hand = /** @type {RollFile} */ (this.#hand);
    const wrong = faults.map((fault) => make('p', { class: 'why' }, withNames(faultText(hand, fault, entry))));
    return [make('span', { text: words.states[state] }), ...wrong, ...doubts.map((doubt) =>
      make('p', { class: 'why', text: doubtText(doubt) }))];
  }

  /**
   * @param {Entry} entry
   * @param {Column} column
   * @param {boolean} isWrong
   * @param {string} said what tells the fault
   */
  #field({ row, ...entry }, column, isWrong, said) {
    const name = words.cellOf(words.columnName(this.#hand?.roll ?? 'students', column), row);
    const field = make('input', {
      value: entry[column] ?? '',
      'aria-label': name,
      'data-at': `${row} ${column}`,
      autocomplete: 'off',
      spellcheck: 'false',
      'aria-invalid': isWrong && 'true',
      'aria-describedby': isWrong && said,
    });
    field.addEventListener('input', () => this.#actions.mend(row, column, field.value));
    field.addEventListener('change', () => this.#showSoon());
    return field;
  }

  /**
   * @param {Entry} entry
   * @param {RowState} state
   */
  #buttons({ row }, state) {
    const { leaveOut, takeBack, show } = this.#actions;
    const act = (/** @type {() => void} */ change) => () => {
      change();
      show();
    };
    const at = (/** @type {string} */ what) => ({ 'data-at': `${row} ${what}` });
    if (state === 'left') return [button(words.takeBack, act(() => takeBack([row])), { name: words.takeBackRow(row), ...at('out') })];
    const isOpen = this.#open.has(row);
    const toggle = act(() => (isOpen ? this.#open.delete(row) : this.#open.add(row)));
    return [
      button(isOpen ? words.mended : words.mend, toggle, { name: isOpen ? words.mendedRow(row) : words.mendRow(row), ...at('mend') }),
      button(words.leaveOutOne, act(() => leaveOut([row])), { name: words.leaveOutRow(row), ...at('out') }),
    ];
  }
}

/** @param {string} doubt */
const doubtText = (doubt) => /** @type {Record<string, string>} */ (words.doubtsOfRow)[doubt] ?? '';

/** @param {Entry} entry */
const textOf = ({ row, code, ...texts }) => [row, ...Object.values(texts)].join(' ');

/**
 * Of a code the first letters alone are shown, and nothing of the code of those who have theirs already.
 * @param {Entry} entry
 * @param {Column} column
 * @param {RowState} state
 * @param {Roll} roll
 */
function shown(entry, column, state, roll) {
  const text = entry[column] ?? '';
  if (column !== 'code' || !hasCodes(roll)) return text;
  if (text !== '') return `${text.slice(0, 2)}…`;
  return state === 'there' ? words.keepsCode : words.noCode;
}
