// The catalogue: a row for each project, with its description where there is one, and with what stands on the own list.

import { descriptionOf } from './described.js';
import { button, given, isUsable, make, part, setUsable, skipLink } from './dom.js';
import { SearchTable } from './table.js';
import { words } from './words.js';

// A title of more letters than this may be cut on a phone until it is opened.
const SHORT = 40;
// So many choices of how many places a project has at least.
const MOST = 5;

export class Catalogue {
  /** @type {Map<string, Adder>} */
  #adders = new Map();
  /** @type {Set<string>} */
  #listed = new Set();
  /** @type {Map<string, Project>} */
  #projects;
  /** @type {SearchTable} */
  #table;
  #lecturer = make('select');
  #places = make('select');
  #notListed = make('input', { type: 'checkbox' });
  /** After each addition the way to the list and to what saves it is one press of the Tab key away. */
  #skips;
  element;

  /**
   * @param {Project[]} projects
   * @param {Known} known
   * @param {{ isSecond: boolean, isFolded?: boolean, making?: Making | null }} how
   */
  constructor(projects, known, { isSecond, isFolded = false, making = null }) {
    const { title, lecturer, places, list } = words.columns;
    const columns = [
      { title, style: 'first', isSorted: true },
      { title: lecturer, style: 'beside', isSorted: true },
      { title: isSecond ? words.placesLeftColumn : places, style: 'number', isSorted: true },
    ];
    if (making) columns.push({ title: list, style: 'act', isSorted: false });
    this.#projects = new Map(projects.map((project) => [project.id, project]));
    this.#skips = making?.aims.map(({ text, aim }) => skipLink(text, aim)) ?? [];
    const rows = projects.map((project) => this.#row(project, known.describe(project.id), making));
    this.#table = new SearchTable({
      label: words.catalogue,
      search: words.searchProjects,
      columns,
      rows,
      shown: words.shown,
      tools: this.#filters(isSecond, making !== null),
    });
    const none = make('p', { text: isSecond ? words.noProjectsSecond : words.noProjects });
    const skips = making?.aims.map(({ text, aim }) => skipLink(text, aim)) ?? [];
    const shown = make('div', { class: 'catalogue' }, projects.length === 0 ? [none] : [...skips, this.#table.element]);
    this.element = part(
      words.catalogue,
      [isFolded ? make('details', {}, [make('summary', { text: words.showProjects(projects.length) }), shown]) : shown],
      { class: 'projects' },
    );
  }

  /**
   * Shows which projects are on the list, and whether more can be added.
   * @param {string[]} keys
   * @param {boolean} isFull
   */
  mark(keys, isFull) {
    const places = new Map(keys.map((key, at) => [key, at + 1]));
    for (const [key, adder] of this.#adders) adder(places.get(key), isFull);
    this.#listed = new Set(keys);
  }

  /**
   * Brings the row of a project into sight, where nobody searches for others.
   * @param {string} key
   */
  look(key) {
    this.#table.look(key);
  }

  /**
   * @param {boolean} isSecond
   * @param {boolean} hasList
   * @returns {Node[]}
   */
  #filters(isSecond, hasList) {
    const names = new Map([...this.#projects.values()].map(({ lecturer, lecturer_name: name }) => [lecturer, name]));
    const lecturers = [...names].sort(([, a], [, b]) => a.localeCompare(b, words.language));
    const most = Math.min(MOST, Math.max(1, ...[...this.#projects.values()].map(({ capacity }) => capacity)));
    const filter = () => this.#table.keep((key) => this.#isWanted(key));
    this.#lecturer.append(make('option', { value: '', text: words.allLecturers }), ...lecturers.map(([key, name]) =>
      make('option', { value: key, text: name })));
    this.#places.append(make('option', { value: '0', text: words.anyPlaces }), ...Array.from({ length: most - 1 }, (_, at) =>
      make('option', { value: `${at + 2}`, text: words.atLeast(at + 2) })));
    for (const field of [this.#lecturer, this.#places, this.#notListed]) field.addEventListener('change', filter);
    this.#lecturer.ariaLabel = words.columns.lecturer;
    this.#places.ariaLabel = isSecond ? words.placesLeftColumn : words.columns.places;
    /** @type {HTMLElement[]} */
    const fields = [this.#lecturer];
    if (most > 1) fields.push(this.#places);
    if (hasList) fields.push(make('label', { class: 'field check' }, [this.#notListed, make('span', { text: words.notOnList })]));
    return [make('div', { class: 'filters' }, fields)];
  }

  /** @param {string} key */
  #isWanted(key) {
    const { lecturer = '', capacity = 0 } = this.#projects.get(key) ?? {};
    return ['', lecturer].includes(this.#lecturer.value)
      && capacity >= Number(this.#places.value)
      && !(this.#notListed.checked && this.#listed.has(key));
  }

  /**
   * @param {Project} project
   * @param {{ description: string, link: string }} described
   * @param {Making | null} making
   */
  #row(project, described, making) {
    const { id, title, lecturer, lecturer_name: name, capacity } = project;
    const under = make('span', { class: 'under' }, [make('span', { text: words.roomOf(capacity) }), make('span', {}, [given(name)])]);
    const cell = make('span', { class: 'titled' }, [
      titleOf(title, described),
      make('span', { class: 'below' }, [under, make('span', { class: 'key', text: id })]),
    ]);
    const cells = [cell, given(name), make('span', { text: `${capacity}` })];
    if (making) cells.push(this.#adder(project, making));
    return { key: id, cells, texts: [`${title} ${id}`, `${name} ${lecturer}`, `${capacity}`], more: described.description };
  }

  /**
   * The button of a row puts the project on the list and takes it off again; a project on the list tells its position there.
   * @param {Project} project
   * @param {Making} making
   */
  #adder({ id, title }, making) {
    const place = make('span', { class: 'on-list', hidden: true });
    const name = words.named(title, id);
    /** @type {number | undefined} */
    let shown;
    const adder = button(words.add, () => {
      if (!isUsable(adder)) return making.full();
      if (shown === undefined) making.add(id);
      else making.take(id);
      adder.after(...this.#skips);
    }, { name: words.addKey(name) });
    this.#adders.set(id, (at, isFull) => {
      const isUsed = at !== undefined || !isFull;
      if (isUsable(adder) !== isUsed) setUsable(adder, isUsed);
      if (at === shown) return;
      if ((at === undefined) !== (shown === undefined)) {
        const called = at === undefined ? words.addKey(name) : words.takeKey(name);
        adder.textContent = at === undefined ? words.add : words.take;
        adder.setAttribute('aria-label', called);
        adder.title = called;
      }
      shown = at;
      place.hidden = at === undefined;
      place.textContent = at === undefined ? '' : words.onList(at);
    });
    return make('span', { class: 'adder' }, [place, adder]);
  }
}

/**
 * The title: a button that opens what the department says of the project, in a row under its own, and the whole title where it is cut.
 * @param {string} title
 * @param {{ description: string, link: string }} described
 */
function titleOf(title, described) {
  const isDescribed = described.description !== '' || described.link !== '';
  if (!isDescribed && title.length <= SHORT) return given(title, { class: 'title' });
  const opener = button('', () => {
    const isOpen = opener.getAttribute('aria-expanded') === 'true';
    opener.setAttribute('aria-expanded', `${!isOpen}`);
    const row = opener.closest('tr');
    if (!isDescribed || row === null) return;
    if (isOpen) row.nextElementSibling?.remove();
    else row.after(descriptionRow(row, described));
  }, { class: 'opener title', 'aria-expanded': 'false' });
  opener.append(given(title));
  return opener;
}

/**
 * @param {HTMLTableRowElement} row
 * @param {{ description: string, link: string }} described
 */
function descriptionRow(row, described) {
  const columns = [...row.cells].filter((cell) => cell.offsetWidth > 0).length;
  return make('tr', { class: 'description' }, [make('td', { colspan: columns }, descriptionOf(described))]);
}
