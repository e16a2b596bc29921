// The office's page: how far the year is, the next step and who is missing, the files, people and projects, in the end who has what, and
// the names in this browser.

import { answersFold } from './answers.js';
import { sheetButton } from './answersheet.js';
import { button, make, part, styled } from './dom.js';
import { ask } from './frame.js';
import { lacksOf, placesFor } from './lacks.js';
import { Names, thereOf } from './names.js';
import { missingParts, stateParts } from './progress.js';
import { forgetRankers, learnRankers, rankingOpened } from './rankers.js';
import { told } from './requests.js';
import { DataPart, loadResult, resultFiles, resultPart } from './result.js';
import { Rolls } from './rolls.js';
import { forget, keep, kept } from './store.js';
import { words } from './words.js';
import { canOpenSecond, endOf, hasResult, isOver, isSameStep, placeOf, roundOf, secondRound, takesRolls } from './year.js';

// The lecturers whose rankings were filled in from this browser, each with the round.
const FILLED = 'portal-filled';

/**
 * @param {PageOf} of
 * @returns {Promise<Content>}
 */
export async function officePage(of) {
  const page = new OfficePage(of);
  await Promise.all([page.load(), styled('office.css')]);
  return { element: page.element, isChanged: () => page.isChanged, isKept: () => page.isKept, risk: () => page.risk };
}

class OfficePage {
  #of;
  #names;
  #status = /** @type {Status} */ (/** @type {unknown} */ (null));
  /** @type {Project[]} */
  #projects = [];
  /** @type {Result | null} */
  #loaded = null;
  #rolls;
  #state = make('div');
  #steps = make('div', { class: 'columns' });
  /** @type {Map<string, HTMLElement>} */
  #buttons = new Map();
  #data = new DataPart();
  #files = make('div');
  #result = make('div');
  #kept = make('div');
  /** @type {Rankers | null} */
  #rankers = null;
  element;

  /** @param {PageOf} of */
  constructor(of) {
    this.#of = of;
    this.#names = new Names(of.known);
    const canSend = takesRolls(of.me);
    const { portal, messages, attempt } = of;
    this.#rolls = new Rolls({ portal, messages, attempt, names: this.#names, canSend, sent: () => this.load() });
    this.element = make('div', {}, this.#inOrder(canSend));
  }

  /**
   * What is to be done in a phase stands first.
   * @param {boolean} canSend
   */
  #inOrder(canSend) {
    const names = part(words.names, canSend ? [this.#kept] : [this.#kept, this.#rolls.element], { class: 'screen' });
    const sheet = make('div', { class: 'buttons' }, [sheetButton(() => this.#status, this.#of.messages)]);
    const answers = part(words.decidedAndSeen, [sheet, answersFold('office', words.showAnswers, false)], { class: 'screen' });
    const rest = [this.#state, this.#steps];
    if (this.#of.me.phase === 'published') {
      return [this.#state, this.#files, this.#steps, closingPart(), this.#result, this.#data.element, answers, names];
    }
    if (!canSend) return [...rest, this.#files, this.#result, this.#data.element, answers, names];
    const first = this.#of.me.phase === 'setup' ? [this.#rolls.element, ...rest] : [...rest, this.#rolls.element];
    return [...first, this.#data.element, answers, names];
  }

  get isChanged() {
    return this.#rolls.hasUnsentCodes() || this.#rolls.hasUnkeptWork();
  }

  get isKept() {
    return !this.#rolls.hasUnkeptWork();
  }

  get risk() {
    return this.#rolls.risk;
  }

  /** Asks how the year stands, and shows it. */
  async load() {
    const { portal, me, known } = this.#of;
    this.#status = await portal.get('/status');
    this.#projects = (await portal.get('/catalogue')).projects;
    known.learn(this.#projects, me);
    if (roundOf(me) === 1) this.#names.forgetOtherYear(this.#status, this.#projects);
    if (takesRolls(me)) forget(FILLED);
    if (takesRolls(me)) forgetRankers();
    this.#rankers = this.#status.phase === 'ranking' ? learnRankers(this.#status) : null;
    if (hasResult(me)) await this.#loadResult();
    this.#rolls.show(this.#status, this.#there());
    this.#show();
  }

  async #loadResult() {
    const result = await loadResult(this.#of.portal);
    this.#loaded = result;
    this.#names.show(new Map(result.rows.map(({ student, name }) => [student, name])));
    const titles = new Map(result.rows.map(({ project, title }) => [project, title]));
    /** @type {Shown} */
    const shown = {
      ...result,
      titleOf: (key) => titles.get(key) ?? this.#of.known.titleOf(key),
      nameOf: (key) => this.#nameOf(key) ?? key,
      noneOf: (key) => this.#noneOf(key),
    };
    this.#files.replaceChildren(resultFiles(shown, this.#status));
    this.#result.replaceChildren(resultPart(shown));
  }

  /** Who is there, as far as it is known. The result has all students, and the lecturers who have some. */
  #there() {
    const there = thereOf(this.#status, this.#projects, this.#names);
    for (const { student, name, lecturer } of this.#loaded?.rows ?? []) {
      there.students.set(student, { name });
      if (lecturer !== '' && !there.lecturers.has(lecturer)) there.lecturers.set(lecturer, { capacity: this.#names.capacityOf(lecturer) });
    }
    return there;
  }

  /**
   * Why a student has no project: the portal tells who has no list in the round that it is in.
   * @param {string} student
   */
  #noneOf(student) {
    const { phase, without_list: without } = this.#status;
    if (phase !== 'published') return words.nothing.unknown;
    return without.includes(student) ? words.nothing.noList : words.nothing.noPlace;
  }

  /** @param {string} lecturer */
  #nameOf(lecturer) {
    return this.#names.nameOf('lecturers', lecturer);
  }

  get #end() {
    return endOf(this.#of.me, this.#of.until);
  }

  get #used() {
    return this.#loaded?.used ?? [];
  }

  /** What each lecturer takes: in the second round what the first one has left of it. */
  #takers() {
    const { lecturers } = this.#there();
    if (roundOf(this.#status) === 1) return lecturers;
    const taken = (/** @type {string} */ key) => this.#loaded?.rows.filter(({ lecturer }) => lecturer === key).length ?? 0;
    return new Map([...lecturers].map(([key, { capacity }]) => [key, { capacity: capacity && `${Number(capacity) - taken(key)}` }]));
  }

  #show() {
    const [status, names, projects, rankers] = [this.#status, this.#names, this.#projects, this.#rankers];
    this.#state.replaceChildren(...stateParts({ status, projects, rankers, most: placesFor(projects, this.#takers()) }));
    this.#steps.replaceChildren(this.#stepsPart(), ...missingParts(status, names, this.#of.messages));
    this.#data.show({ status, names, projects, there: this.#there(), used: this.#used, rankers });
    this.#kept.replaceChildren(...this.#keptPart());
  }

  async #refresh() {
    await this.load();
    if (!isSameStep(this.#status, this.#of.me)) return this.#follow((next) => next.say(words.refreshed));
    /** @type {HTMLElement} */ (this.#steps.querySelector('.refresh')).focus();
    this.#of.messages.say(words.refreshed);
  }

  /**
   * The year has gone on, so the page is put together anew.
   * @param {Tell} tell
   */
  async #follow(tell) {
    if (await this.#rolls.mayDiscard()) await this.#of.reload(tell);
  }

  #keptPart() {
    const { count } = this.#names;
    if (count === 0) return [make('p', { text: words.noNames })];
    return [make('p', { text: words.namesAre(count, this.#names.emails) }), make('div', { class: 'buttons' }, [
      button(words.forgetNames, () => this.#forget()),
    ])];
  }

  #forget() {
    this.#names.forget();
    this.#rolls.show(this.#status, this.#there());
    this.#show();
    this.#of.messages.say(words.namesForgotten);
  }

  #stepsPart() {
    const rows = stepsFrom(this.#of.me).map((step) => this.#stepRow(step));
    const refresh = button(words.refresh, () => this.#of.attempt(() => this.#refresh()), { class: 'refresh' });
    const end = rows.length > 0 ? [] : [make('p', { text: words.published })];
    return part(words.goOn, [refresh, ...end, ...rows], { class: 'screen steps' });
  }

  /**
   * A step that cannot be taken now has the reason beside its button.
   * @param {Move} step
   */
  #stepRow(step) {
    const { name, isMain } = step;
    const lacks = this.#lacks(name);
    const [reason, meaning] = [`reason-${name}`, `meaning-${name}`];
    const end = lacks.find(({ ends }) => ends);
    const go = button(words[name], () => this.#ask(step), {
      class: isMain && !end && this.#isTime(name) && 'main',
      disabled: end !== undefined,
      'aria-describedby': end ? `${reason} ${meaning}` : meaning,
    });
    this.#buttons.set(name, go);
    const said = (end ? [] : lacks).filter(({ isAskedOnly }) => !isAskedOnly).map(({ text, isRisk }) =>
      make('p', { text, class: isRisk && 'doubt' }));
    const file = lacks.some(({ needsLecturers }) => needsLecturers)
      ? [this.#rolls.lecturersField(() => this.#buttons.get(name)?.focus())]
      : [];
    return make('div', { class: 'step' }, [
      make('div', { class: 'buttons' }, [go, ...(end ? [make('p', { id: reason, text: end.text, class: 'doubt reason' })] : [])]),
      ...file,
      make('div', { id: meaning }, [...said, make('p', { text: `${words.does[name]} ${words.forGoodOf(name)}`, class: 'means' })]),
    ]);
  }

  /**
   * Lists are waited for until all are there, or the time that was announced is over.
   * @param {StepName} name
   */
  #isTime(name) {
    return name !== 'openRanking' || this.#status.without_list.length === 0 || isOver(this.#of.me, this.#of.until);
  }

  /**
   * @param {StepName} name
   * @returns {Lack[]}
   */
  #lacks(name) {
    const toRank = this.#status.still_to_rank.map((key) => words.person(key, this.#nameOf(key)));
    const { lecturers } = this.#there();
    const nameOf = (/** @type {string} */ key) => this.#nameOf(key);
    const end = this.#end === null ? '' : words.early(words.phases[this.#status.phase], this.#end.when, this.#end.away);
    const filled = filledHere(this.#status).map((key) => words.person(key, this.#nameOf(key)));
    return lacksOf(name, { status: this.#status, projects: this.#projects, toRank, lecturers, nameOf, used: this.#used, end, filled });
  }

  /**
   * What the question says is as it stands now, not when the page was loaded. Whoever says no is back at the button.
   * @param {Move} step
   */
  async #ask(step) {
    const { attempt, messages, me } = this.#of;
    if (!(await attempt(() => this.load()))) return;
    if (!isSameStep(this.#status, me)) return this.#follow((next, now) => next.warn(words.phaseMoved(placeOf(now))));
    const lacks = this.#lacks(step.name);
    const end = lacks.find(({ ends }) => ends);
    if (end) return messages.warn(end.text);
    this.#buttons.get(step.name)?.focus();
    if ((await this.#rolls.mayDiscard()) && (await this.#isSure(step, lacks))) await this.#take(step);
  }

  /**
   * What some would regret is the bold line; where there is nothing of the kind, that it is for good.
   * @param {Move} step
   * @param {Lack[]} lacks
   */
  #isSure({ name }, lacks) {
    const risks = lacks.filter(({ isRisk }) => isRisk).map(({ text }) => text);
    const others = lacks.filter(({ isRisk }) => !isRisk).map(({ text }) => text);
    const forGood = words.forGoodOf(name);
    return ask({
      title: words.ask[name],
      risk: risks.length > 0 ? risks.join('\n') : forGood,
      lines: [...others, words.does[name], risks.length > 0 ? forGood : ''],
      verb: words[name],
      stay: words.notNow,
    });
  }

  /** @param {Move} step */
  #take({ body }) {
    return this.#of.attempt(() => (body === undefined ? this.#fill() : this.#move(body)), {
      refused: (fault) => ({ text: told(fault, fault.body.lecturers?.map((key) => words.person(key, this.#nameOf(key)))) }),
      lost: () => ({ text: words.lostPost, again: words.lookAgain, press: () => this.#of.reload() }),
    });
  }

  /** @param {{ phase: string, round?: number }} body */
  async #move(body) {
    const now = await this.#of.portal.post('/phase', body);
    if (now.phase === 'ranking') rankingOpened(roundOf(now));
    const place = placeOf(now);
    await this.#of.reload((next) => next.say(words.moved(place)));
  }

  async #fill() {
    const { filled } = /** @type {{ filled: string[] }} */ (await this.#of.portal.post('/ranking/fill', {}));
    const names = filled.map((key) => words.person(key, this.#nameOf(key)));
    keep(FILLED, [...new Set([...kept(FILLED, []), ...filled.map((key) => `${roundOf(this.#status)} ${key}`)])]);
    await this.#of.reload((next) => next.say(words.filled(names)));
  }
}

/** What is left to do once the results are out. */
function closingPart() {
  const all = make('ul', { class: 'closing' }, words.closingParts.map((text) => make('li', { text })));
  return part(words.closing, [all], { class: 'screen' });
}

/**
 * The lecturers whose rankings of this round were filled in from this browser.
 * @param {Step} step
 * @returns {string[]}
 */
const filledHere = (step) => kept(FILLED, []).filter((/** @type {string} */ one) => one.startsWith(`${roundOf(step)} `)).map(
  (/** @type {string} */ one) => one.slice(2),
);

/** @type {Record<Phase, Move[]>} What is a last resort stands last. */
const STEPS = {
  setup: [{ name: 'openChoosing', body: { phase: 'choosing' }, isMain: true }],
  choosing: [{ name: 'openRanking', body: { phase: 'ranking' }, isMain: true }],
  ranking: [{ name: 'publish', body: { phase: 'published' }, isMain: true }, { name: 'fill' }],
  published: [{ name: 'openSecond', body: secondRound }],
};

/** @param {Step} me */
export const stepsFrom = (me) => STEPS[me.phase].filter(({ name }) => name !== 'openSecond' || canOpenSecond(me));
