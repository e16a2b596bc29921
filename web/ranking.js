// One ranking of everybody who chose a project of a lecturer: who is not ranked yet stands beside it, until it is saved.

import { button, given, labelled, make, measure, part } from './dom.js';
import { elsewherePart, orderFold } from './elsewhere.js';
import { compare, isFound } from './found.js';
import { ListEditor } from './list.js';
import { Lost } from './requests.js';
import { forget, keep, kept } from './store.js';
import { speak, words } from './words.js';
import { roundOf } from './year.js';

/**
 * Everybody who chose a project, by key as the portal has them.
 * @param {Applied[]} applied
 * @returns {Map<string, Applicant>}
 */
export function everybody(applied) {
  /** @type {Map<string, Applicant>} */
  const people = new Map();
  for (const { id, applicants } of applied) {
    for (const { key, name } of applicants) {
      const person = people.get(key) ?? { key, name, projects: [] };
      person.projects.push(id);
      people.set(key, person);
    }
  }
  return new Map(inIdOrder([...people.keys()]).map((key) => [key, /** @type {Applicant} */ (people.get(key))]));
}

/** @param {string[]} keys */
const inIdOrder = (keys) => [...keys].sort((a, b) => (a < b ? -1 : 1));

/**
 * A person with the key, and with the titles of the own projects that this person chose.
 * @param {Applicant} applicant
 * @param {Known} known
 * @param {Node[]} [more]
 */
export function shownApplicant({ key, name, projects }, known, more = []) {
  const titles = projects.map((id) => given(known.titleOf(id)));
  const chosen = make('span', { class: 'key chosen' }, [make('span', { text: `${key} · ${words.chose} ` }), ...titles]);
  return make('span', { class: 'titled' }, [given(name), chosen, ...more]);
}

// From so many applicants on they are better put in order in a spreadsheet, and the ranking can be searched.
const MANY = 20;

/** A file that did not come once may not be asked for again before the whole page is; what is not saved is kept. */
async function orderAsking() {
  const [asking, isSpoken] = await Promise.all([import('./orderask.js').catch(() => null), speak(words.language, 'order')]);
  if (asking === null || !isSpoken) throw new Lost('no module', () => location.reload());
  return asking;
}

// Which rankings this browser has saved, by lecturer and round.
const RANKED = 'portal-ranked';
/** @param {Me} me */
const rankedName = (me) => `${me.key} ${roundOf(me)}`;
/** @param {Me} me */
const isRankedHere = (me) => kept(RANKED, []).includes(rankedName(me));
/** Before the first ranking of a year what this browser knows is of another year. */
export const forgetRanked = () => forget(RANKED);

/**
 * What is said of a ranking that the office may have filled in: one in the order of the keys that this browser did not save.
 * @param {Me} me
 * @param {string[] | null} saved
 */
export function filledHint(me, saved) {
  const isInOrder = saved !== null && saved.length > 1 && inIdOrder(saved).every((key, at) => key === saved[at]);
  if (!isInOrder || isRankedHere(me)) return [];
  return [make('p', { class: 'hint', text: me.phase === 'ranking' ? words.inIdOrderOpen : words.inIdOrder })];
}

export class RankingMaking {
  #of;
  #people;
  #known;
  #editor;
  /** @type {Map<string, HTMLElement>} */
  #waiting;
  #search = make('input', { type: 'search', autocomplete: 'off', spellcheck: 'false' });
  #project = make('select');
  #sort = make('select');
  #missing = make('ul', { class: 'people', role: 'list', 'aria-label': words.applicants, tabindex: '-1' });
  #none = make('p', { class: 'quiet', text: words.noneMissing });
  #noMatch = make('p', { class: 'quiet', text: words.noApplicantMatches });
  #empty = make('p', { class: 'quiet', text: words.rankingEmpty });
  // What helps to add applicants, and what adds all at once, as long as one is missing.
  #adding = make('div', { class: 'adding' });
  #rest = make('div', { class: 'last-resort' });
  #find = make('input', { type: 'search', autocomplete: 'off', spellcheck: 'false' });
  #found = make('p', { class: 'quiet', 'aria-live': 'polite' });
  /** What the page shows. */
  content;

  /**
   * @param {PageOf} of
   * @param {{ people: Map<string, Applicant>, saved: string[] | null, places: string, tools: Element }} what `places` is what the lecturer
   *   may take, in words; `tools` stand with the applicants
   */
  constructor(of, { people, saved, places, tools }) {
    this.#of = of;
    this.#people = people;
    this.#known = of.known;
    const hint = make('div', {}, filledHint(of.me, saved));
    this.#editor = new ListEditor({
      page: of,
      path: '/ranking',
      member: 'students',
      saved,
      texts: { ...words.ofRanking, count: (/** @type {number} */ count) => words.ofRanking.count(count, people.size) },
      show: (key) => this.#shown(key),
      name: (key) => people.get(key)?.name ?? key,
      isThere: (key) => people.has(key),
      missing: (keys) => people.size - keys.length,
      first: people.size === 1 ? [...people.keys()] : undefined,
      back: people.size === 1 ? undefined : { short: words.applicants, text: words.showApplicants, aim: () => this.#missing },
      changed: (keys) => this.#update(keys),
      stored: () => {
        keep(RANKED, [...new Set([...kept(RANKED, []), rankedName(of.me)])]);
        hint.replaceChildren();
      },
    });
    this.#waiting = new Map([...people.keys()].map((key) => [key, this.#waitingEntry(key)]));
    this.#missing.append(...this.#waiting.values());
    const own = this.#rankingPart(places, hint);
    const others = people.size === 1 ? [] : [this.#applicantsPart(tools)];
    const aims = [{ text: words.skipToRanking, aim: () => own }, { text: words.skipToSaveRanking, aim: () => this.#editor.saveButton }];
    this.content = {
      element: make('div', { class: 'columns' }, [...others, make('div', { class: 'own-side' }, [own])]),
      bar: this.#editor.bar,
      aims,
      isChanged: () => this.#editor.isAtRisk(),
      isKept: () => true,
      year: { saves: true, ...(people.size === 1 ? { now: words.oneApplicant } : {}) },
    };
    this.#editor.update();
  }

  /** @param {string} key */
  #shown(key) {
    return shownApplicant(this.#people.get(key) ?? { key, name: key, projects: [] }, this.#known);
  }

  /** @param {string} key */
  #nameOf(key) {
    return this.#people.get(key)?.name ?? key;
  }

  /**
   * Made once; who is in the ranking, or is not asked for, is hidden.
   * @param {string} key
   */
  #waitingEntry(key) {
    return make('li', {}, [this.#shown(key), button(words.addApplicant, () => this.#add(key), {
      name: words.addApplicantKey(words.named(this.#nameOf(key), key)),
    })]);
  }

  /** @param {string} key */
  #add(key) {
    const entry = this.#waiting.get(key);
    this.#editor.list.add(key);
    const left = [...this.#missing.children].filter((other) => other instanceof HTMLElement && !other.hidden);
    const isAfter = (/** @type {Element} */ other) =>
      entry !== undefined && (entry.compareDocumentPosition(other) & Node.DOCUMENT_POSITION_FOLLOWING) !== 0;
    const next = left.find(isAfter) ?? left[0];
    const isWhole = this.#editor.keys.length === this.#people.size;
    (next?.querySelector('button') ?? (isWhole ? this.#editor.saveButton : this.#search)).focus();
  }

  // What is added is brought into view, since the page is another one then.
  #addRest() {
    const rest = [...this.#people.keys()].filter((key) => !this.#editor.keys.includes(key));
    this.#editor.list.set([...this.#editor.keys, ...rest]);
    this.#editor.saveButton.focus({ preventScroll: true });
    // in the picture after the next one the style sheet knows the new height
    requestAnimationFrame(() => requestAnimationFrame(() => this.#editor.list.look(rest[0])));
    this.#of.messages.say(words.restAdded);
  }

  async #addRestAndSave() {
    this.#addRest();
    await this.#editor.save();
  }

  /**
   * Many applicants are put in order elsewhere; few are added one by one.
   * @param {Element} tools
   */
  #applicantsPart(tools) {
    const isMany = this.#people.size > MANY;
    const hint = make('p', { class: 'quiet', text: isMany ? words.oneByOne : words.applicantsHint });
    this.#adding.append(hint, this.#filters(), this.#noMatch, this.#missing);
    const use = (/** @type {Uint8Array} */ bytes) => this.#useOrder(bytes);
    if (isMany) return part(words.applicants, [elsewherePart(this.#people.size, tools, use), this.#none, this.#adding, tools]);
    return part(
      words.applicants,
      [this.#none, this.#adding, orderFold({ title: words.orderTitle, how: words.orderOpenHow, hasFile: true, use }), tools],
    );
  }

  /** The last resort: all others behind, in the order of their keys. */
  #restPart() {
    const buttons = [button(words.addRest, () => this.#addRest()), button(words.addRestSave, () => this.#addRestAndSave())];
    this.#rest.append(make('p', { class: 'quiet', text: words.laterHint }), make('div', { class: 'buttons' }, buttons));
    return this.#rest;
  }

  /** A search, a choice of a project where more than one was chosen by somebody, and a choice of the order. */
  #filters() {
    const keys = inIdOrder([...new Set([...this.#people.values()].flatMap(({ projects }) => projects))]);
    const options = keys.map((key) => make('option', { value: key, text: this.#known.titleOf(key) }));
    this.#project.append(make('option', { value: '', text: words.allProjects }), ...options);
    this.#sort.append(...Object.entries(words.applicantSorts).map(([value, text]) => make('option', { value, text })));
    this.#search.addEventListener('input', () => this.#update(this.#editor.keys));
    this.#project.addEventListener('change', () => this.#update(this.#editor.keys));
    this.#sort.addEventListener('change', () => this.#arrange());
    const fields = keys.length > 1 ? [labelled(words.applicantsOf, this.#project)] : [];
    return make('div', { class: 'filters' }, [labelled(words.searchApplicants, this.#search), ...fields, labelled(
      words.sortBy,
      this.#sort,
    )]);
  }

  #arrange() {
    /** @type {{ [sort: string]: (applicant: Applicant) => string }} */
    const texts = { id: ({ key }) => key, name: ({ name }) => name, project: ({ projects }) => this.#known.titleOf(projects[0]) };
    const text = texts[this.#sort.value];
    const people = [...this.#people.values()];
    if (this.#sort.value !== 'id') people.sort((a, b) => compare(text(a), text(b)));
    this.#missing.append(...people.map(({ key }) => /** @type {HTMLElement} */ (this.#waiting.get(key))));
  }

  /** @param {Uint8Array} bytes */
  async #useOrder(bytes) {
    /** @type {typeof import('./orderask.js') | undefined} */
    let asking;
    // few need it, so that it comes when it is asked for
    if (!(await this.#of.attempt(async () => { asking = await orderAsking(); })) || asking === undefined) return;
    const keys = await asking.orderFrom(bytes, this.#people, this.#editor.keys);
    if (keys === null) return;
    if (keys.length === 0) return this.#of.messages.warn(asking.whyNobody(bytes));
    this.#editor.list.set(keys);
    this.#of.messages.say(words.orderUsed(keys.length));
  }

  /** @param {string} places @param {Node} hint */
  #rankingPart(places, hint) {
    const { list, tools } = this.#editor;
    const hints = this.#people.size === 1 ? [] : [make('p', { class: 'quiet', text: words.rankingHint })];
    const parts =
      [make('p', { text: places }), ...hints, hint, this.#empty, this.#finder(), this.#found, list.element, tools, this.#restPart()];
    const own = part(words.ofRanking.label, parts, { class: 'own', tabindex: '-1' });
    measure(own, '--own');
    return own;
  }

  /** A search in the ranking, where that is long: those who are found stand there with their positions. */
  #finder() {
    this.#find.addEventListener('input', () => this.#showFound());
    return labelled(words.searchRanking, this.#find);
  }

  #showFound() {
    const count = this.#editor.list.find(this.#find.value);
    this.#found.textContent = this.#find.value.trim() === '' ? '' : words.foundInRanking(count);
  }

  /** @param {string[]} keys */
  #update(keys) {
    const ranked = new Set(keys);
    const search = this.#search.value;
    let shown = 0;
    for (const [key, entry] of this.#waiting) {
      const { name, projects } = this.#people.get(key) ?? { name: key, projects: [] };
      const isWanted = ['', ...projects].includes(this.#project.value) && isFound(`${name} ${key}`, search);
      entry.hidden = ranked.has(key) || !isWanted;
      if (!entry.hidden) shown++;
    }
    const isWhole = ranked.size === this.#people.size;
    this.#none.hidden = !isWhole;
    this.#none.closest('section')?.classList.toggle('whole', isWhole);
    this.#adding.hidden = isWhole;
    this.#rest.hidden = isWhole;
    this.#noMatch.hidden = shown > 0;
    this.#empty.hidden = ranked.size > 0;
    const isLong = keys.length > MANY;
    if (!isLong && this.#find.value !== '') this.#find.value = '';
    if (this.#find.parentElement) this.#find.parentElement.hidden = !isLong;
    this.#showFound();
  }
}
