// A lecturer's page: the own projects, one ranking of everybody who chose one of them, and in the end who has which project.

import { answersFold } from './answers.js';
import { descriptionOf } from './described.js';
import { make, part, titled } from './dom.js';
import { savedLines, unsavedPart } from './list.js';
import { fixedList } from './ordered.js';
import { receiptButton } from './paper.js';
import { RankingMaking, everybody, filledHint, forgetRanked, shownApplicant } from './ranking.js';
import { tableButtons } from './sheet.js';
import { words } from './words.js';
import { hasResult, roundOf } from './year.js';

/**
 * @param {PageOf} of
 * @returns {Promise<Content>}
 */
export async function lecturerPage(of) {
  const { portal, me, known } = of;
  const { projects } = await portal.get('/catalogue');
  known.learn(projects, me);
  /** @type {[string, Project][]} */
  const own = projects.filter((/** @type {Project} */ { lecturer }) => lecturer === me.key).map((/** @type {Project} */ project) =>
    [project.id, project]);
  /** @type {LecturerState} */
  const state = { open: new Map(own), placed: hasResult(me) ? (await portal.get('/result')).projects : [], applied: null, saved: null };
  const isRanked = me.phase === 'ranking' || me.phase === 'published';
  if (isRanked) {
    state.applied = (await portal.get('/applicants')).projects;
    state.saved = (await portal.get('/ranking')).students;
  }
  if (roundOf(me) === 1 && !isRanked) forgetRanked();
  const ranking = isRanked ? rankingContent(of, state) : null;
  const result = hasResult(me) ? [resultPart(of, state)] : [];
  const middle = ranking === null ? [] : [ranking.element];
  // what is to be done stands first
  const parts = me.phase === 'ranking' ? [...middle, ...result] : [...result, ...middle];
  return { isChanged: () => false, ...ranking, year: { ...ranking?.year, ...yearOf(me, state) }, element: make(
    'div',
    {},
    [answersFold('lecturer', words.decidedAndSeen), ...parts, projectsPart(of, state)],
  ) };
}

/**
 * A lecturer without an open project takes no part in the second round; one without an applicant has nothing to rank.
 * @param {Me} me
 * @param {LecturerState} state
 */
function yearOf(me, { open, applied }) {
  if (me.phase === 'published') return {};
  if (roundOf(me) === 2 && open.size === 0) return { now: words.noRoom, next: words.noRoomNext };
  const isIdle = me.phase === 'ranking' && everybody(applied ?? []).size === 0;
  return isIdle ? { now: roundOf(me) === 2 ? words.nothingToDoSecond : words.nothingToDo, next: words.nothingNext } : {};
}

/**
 * How many students the lecturer takes, and how many of them the first round gave.
 * @param {Me} me
 * @param {Placed[]} placed
 */
function placesOf(me, placed) {
  const taken = placed.reduce((sum, { students }) => sum + students.length, 0);
  return roundOf(me) === 2 && me.phase !== 'published' ? words.ownPlacesLeft(me.capacity ?? 0, taken) : words.ownPlaces(me.capacity ?? 0);
}

/**
 * @param {PageOf} of
 * @param {LecturerState} state
 * @returns {Partial<Content> & { element: HTMLElement }}
 */
function rankingContent(of, state) {
  const { me, known, messages } = of;
  const people = everybody(state.applied ?? []);
  const tools = people.size === 0 ? make('span') : applicantsSheet([...people.values()], known, messages);
  if (me.phase !== 'ranking' || people.size === 0) return { element: savedPart(of, state, { people, tools }) };
  return new RankingMaking(of, { people, saved: state.saved, places: placesOf(me, state.placed), tools }).content;
}

/**
 * The own ranking to look at, and in published who of it is with this lecturer.
 * @param {PageOf} of
 * @param {LecturerState} state
 * @param {{ people: Map<string, Applicant>, tools: Node }} what
 */
function savedPart(of, { saved, placed }, { people, tools }) {
  const { me, known } = of;
  const { label } = words.ofRanking;
  if (people.size === 0) return part(label, [make('p', { text: roundOf(me) === 2 ? words.noApplicantsSecond : words.noApplicants })]);
  const keys = saved ?? [];
  const titles = new Map(placed.flatMap(({ id, students }) => students.map(({ key }) => [key, known.titleOf(id)])));
  const nameOf = (/** @type {string} */ key) => people.get(key) ?? { key, name: key, projects: [] };
  const mark = (/** @type {string | undefined} */ title) =>
    (title === undefined ? [] : [make('span', { class: 'mark yours', text: words.markPlaced(title) })]);
  const entry = (/** @type {string} */ key) => shownApplicant(nameOf(key), known, mark(titles.get(key)));
  const own = part(label, [
    make('p', { text: roundOf(me) === 2 ? words.whyNotHereSecond : words.whyNotHere }),
    ...filledHint(me, saved),
    fixedList(label, keys.map(entry)),
    make('div', { class: 'buttons' }, [
      receiptButton({ title: label, me, entries: () => keys.map(entry), lines: () => savedLines(me, keys) }),
      tools,
    ]),
  ]);
  return make('div', {}, [own, ...unsavedPart(of, saved, { show: (key) => shownApplicant(nameOf(key), known), name: (key) =>
    nameOf(key).name })]);
}

/**
 * @param {Applicant[]} people
 * @param {Known} known
 * @param {Messages} messages
 */
function applicantsSheet(people, known, messages) {
  return tableButtons({
    texts: words.applicantsSheet,
    title: words.applicants,
    header: words.applicantsHeader,
    fileHeader: ['id', 'name', 'projects'],
    rows: () => people.map(({ key, name, projects }) => [key, name, projects.map((id) => known.titleOf(id)).join('; ')]),
    file: 'applicants',
    messages,
  });
}

/**
 * @param {PageOf} of
 * @param {LecturerState} state
 */
function resultPart({ known, messages }, { placed }) {
  const parts = placed.map(({ id, students }) =>
    make('div', { class: 'project' }, [make('h3', {}, [titled(known.titleOf(id), id)]), peopleOf(students)]));
  const rows = () => placed.flatMap(({ id, students }) => students.map(({ key, name }) => [key, name, id, known.titleOf(id)]));
  const hasSomebody = placed.some(({ students }) => students.length > 0);
  const fileHeader = ['student', 'name', 'project', 'title'];
  const sheet =
    { texts: words.resultSheet, title: words.whoHasWhat, header: words.resultHeader, fileHeader, rows, file: 'result', messages };
  return part(words.whoHasWhat, [...parts, ...(hasSomebody ? [tableButtons(sheet)] : [])], { class: 'result' });
}

/** @param {{ key: string, name: string }[]} people */
function peopleOf(people) {
  if (people.length === 0) return make('p', { text: words.nobodyHasIt });
  return make('ul', { class: 'people' }, people.map(({ key, name }) => make('li', {}, [titled(name, key)])));
}

/**
 * The own projects, with what students read of them.
 * @param {PageOf} of
 * @param {LecturerState} state
 */
function projectsPart({ me, known }, { open, applied, placed }) {
  const isSecond = roundOf(me) === 2;
  const keys = [...new Set([...placed.map(({ id }) => id), ...open.keys()])].sort();
  const parts = [make('p', { text: placesOf(me, placed) })];
  if (keys.length === 0) parts.push(make('p', { text: words.noOwnProjects }));
  else if (isSecond && open.size === 0) parts.push(make('p', { text: words.noOwnLeft }));
  for (const id of keys) {
    const chosen = applied?.find((project) => project.id === id && (!isSecond || open.has(id)));
    const texts = [placesText(open.get(id), isSecond), ...(chosen ? [words.chosenBy(chosen.applicants.length)] : [])];
    parts.push(make('div', { class: 'project' }, [
      make('h3', {}, [titled(known.titleOf(id), id)]),
      make('p', { class: 'quiet', text: texts.join(' ') }),
      ...described(me, known.describe(id)),
    ]));
  }
  return part(words.ownProjects, parts);
}

/**
 * Before students choose, a lecturer checks the description; afterwards it is folded.
 * @param {Me} me
 * @param {{ description: string, link: string }} text
 */
function described(me, text) {
  const nodes = descriptionOf(text);
  const isChecked = roundOf(me) === 1 && me.phase === 'setup';
  if (nodes.length === 0) return isChecked ? [make('p', { class: 'quiet', text: words.noDescription })] : [];
  return [make('details', { open: isChecked }, [make('summary', { text: words.description }), ...nodes])];
}

/**
 * @param {Project | undefined} project
 * @param {boolean} isSecond
 */
function placesText(project, isSecond) {
  if (project === undefined) return words.takesNobody;
  return isSecond ? words.placesLeft(project.capacity) : words.placesOf(project.capacity);
}
