// A student's page: the result first, then the own list, then the catalogue.

import { Catalogue } from './catalogue.js';
import { longestList } from './config.js';
import { make, measure, part, titled, withNames } from './dom.js';
import { ListEditor, savedLines, unsavedPart } from './list.js';
import { fixedList } from './ordered.js';
import { receiptButton } from './paper.js';
import { draftOf, keepDraft } from './store.js';
import { words } from './words.js';
import { hasResult, makesList, roundOf } from './year.js';

/**
 * @param {PageOf} of
 * @returns {Promise<Content>}
 */
export async function studentPage(of) {
  const { portal, me, known } = of;
  const { projects } = await portal.get('/catalogue');
  known.learn(projects, me);
  const state =
    { projects, saved: (await portal.get('/choices')).projects, own: hasResult(me) ? (await portal.get('/result')).project : null };
  rememberFirst(me, state);
  if (makesList(me, state.own)) return listMaking(of, state);
  return { element: make('div', {}, partsOf(of, state)), isChanged: () => false, year: yearOf(me, state) };
}

// The portal tells a list in its own round alone. This tab keeps that of the first round, until it is closed or the student signs out.
/** @param {Me} me */
const firstList = (me) => `student ${me.key} first`;

/** @param {Me} me @param {StudentState} state */
function rememberFirst(me, { saved }) {
  if (roundOf(me) === 1 && ['ranking', 'published'].includes(me.phase)) keepDraft(firstList(me), saved);
}

/**
 * The list of the first round, where this tab has seen it; in the first round there is no other one to show.
 * @param {Me} me
 * @returns {string[]}
 */
const firstSeen = (me) => (roundOf(me) === 2 ? draftOf(firstList(me)) ?? [] : []);

/**
 * A student who has a project of the first round takes no part in the second.
 * @param {Me} me
 * @param {StudentState} state
 */
const isPlaced = (me, { own, saved }) => roundOf(me) === 2 && own !== null && saved.length === 0;

/** @param {Me} me @param {StudentState} state */
function yearOf(me, state) {
  return isPlaced(me, state) && me.phase !== 'published' ? { now: words.hasOwnAlready, next: '' } : {};
}

/**
 * @param {PageOf} of
 * @param {StudentState} state
 */
function partsOf(of, state) {
  const { me, known } = of;
  const catalogue = new Catalogue(state.projects, known, { isSecond: roundOf(me) === 2, isFolded: me.phase !== 'setup' }).element;
  if (me.phase === 'setup') return [catalogue];
  if (isPlaced(me, state)) return placedParts(of, state);
  const top = me.phase === 'published' ? [resultPart(of, state, state.saved)] : [];
  const lost = unsavedPart(of, state.saved, { show: entryOf(known), name: (key) => known.titleOf(key) });
  const own = me.phase === 'published'
    ? savedPart(of, state.saved, words.yourList, marksOf(of, state, state.saved))
    : savedPart(of, state.saved, words.yourList);
  return [...top, own, ...lost, ...firstPart(of, state), catalogue];
}

/**
 * What became of the first list of a student who has no project of the first round, folded.
 * @param {PageOf} of
 * @param {StudentState} state
 */
function firstPart(of, state) {
  const first = firstSeen(of.me);
  if (first.length === 0) return [];
  const { taken, mark } = marksOf(of, { ...state, own: null }, first, true);
  const list = fixedList(words.firstList, first.map(entryOf(of.known, mark)));
  return [make('details', { class: 'first-list' }, [make('summary', { text: words.firstList }), ...textsOf(taken), list])];
}

/**
 * In the second round the page of a student who has a project of the first: the project, and its list, where this tab has seen it.
 * @param {PageOf} of
 * @param {StudentState} state
 */
function placedParts(of, state) {
  const first = firstSeen(of.me).includes(state.own ?? '') ? firstSeen(of.me) : [];
  const top = resultPart(of, state, first);
  return first.length === 0 ? [top] : [top, savedPart(of, first, words.firstList, marksOf(of, state, first, true))];
}

/**
 * A project as an entry of a list: its title, and under it its lecturer and its key, and perhaps what became of it.
 * @param {Known} known
 * @param {(key: string) => Node[]} [mark]
 */
const entryOf = (known, mark = () => []) =>
  (/** @type {string} */ key) => titled(known.titleOf(key), words.byLecturer(known.lecturerOf(key), key), mark(key));

/**
 * What became of the own project of a list and of those above it. Each of these was full, or its lecturer was: the project, where its
 * lecturer has taken this student with another one, or after the first round takes others; elsewhere one sentence stands for all.
 * @param {PageOf} of
 * @param {StudentState} state
 * @param {string[]} keys of the list
 * @param {boolean} isFirst the list is that of the first round, and the second has begun
 * @returns {{ result: string[], taken: string[], mark: (key: string) => Node[] }} `result` and `taken` are said of all
 */
function marksOf({ me, known }, { own, projects }, keys, isFirst = false) {
  const above = own === null ? keys : keys.slice(0, keys.indexOf(own));
  const takers = new Set([...(isFirst ? projects.map(({ lecturer }) => lecturer) : []), ...(own === null ? [] : [known.ownerOf(own)])]);
  const isFull = (/** @type {string} */ key) => known.ownerOf(key) !== undefined && takers.has(known.ownerOf(key));
  const isSecond = roundOf(me) === 2 && !isFirst;
  const [why, full] = isSecond ? [words.whyTakenSecond, words.markFullSecond] : [words.whyTaken, words.markFull];
  const taken = above.every(isFull) ? [] : [why];
  const none = roundOf(me) === 2 ? words.noneTitleSecond : words.noneTitle;
  return {
    taken,
    result: [own === null ? none : resultText(known, own)],
    mark: (key) => {
      if (key === own) return [make('span', { class: 'mark yours', text: words.markYours })];
      return above.includes(key) ? [make('span', { class: 'mark taken', text: isFull(key) ? full : words.markTaken })] : [];
    },
  };
}

/** @type {ReturnType<typeof marksOf>} Before there is a result. */
const UNMARKED = { result: [], taken: [], mark: () => [] };

/**
 * @param {PageOf} of
 * @param {StudentState} state
 * @param {string[]} list that the result is one of
 */
function resultPart({ me, known }, state, list) {
  const { own } = state;
  const isKept = isPlaced(me, state);
  const isSecond = roundOf(me) === 2 && !isKept;
  if (own === null) return part(words.yourProject, withoutProject(list, isSecond), { class: 'result' });
  const title = resultText(known, own);
  const choice = list.indexOf(own);
  /** @type {Node[]} */
  const parts = [make('p', { class: 'outcome' }, withNames(title)), ...textsOf(isKept ? [words.keptFirst] : [])];
  if (choice >= 0) parts.push(make('p', { class: 'reason-why', text: choice === 0 ? words.choiceFirst : words.choice(choice + 1) }));
  if (choice > 0) parts.push(whyNotHigher(choice, isSecond));
  return part(words.yourProject, [...parts, nextPart([words.ownNext])], { class: 'result' });
}

/**
 * @param {Known} known
 * @param {string} own
 */
function resultText(known, own) {
  const lecturer = known.lecturerOf(own);
  return lecturer === '' ? words.ownProjectByKey(known.titleOf(own)) : words.ownProject(known.titleOf(own), lecturer);
}

/**
 * What there is to be done now that the result is there.
 * @param {string[]} texts
 */
const nextPart = (texts) => make('div', { class: 'steps-next' }, [make('h3', { text: words.whatNext }), ...textsOf(texts)]);

/** @param {string[]} texts */
const textsOf = (texts) => texts.map((text) => make('p', { text }));

/**
 * That there is none, why, and whether there may be another one.
 * @param {string[]} list
 * @param {boolean} isSecond
 */
function withoutProject(list, isSecond) {
  const next = nextPart(isSecond ? [words.noneNextSecond] : [words.noneNext, words.noneMayBe]);
  if (list.length === 0) return [
    make('p', { class: 'outcome', text: isSecond ? words.noProjectNoListSecond : words.noProjectNoList }),
    next,
  ];
  const [title, why] = isSecond ? [words.noneTitleSecond, words.whyNoneSecond] : [words.noneTitle, words.whyNone];
  return [make('p', { class: 'outcome', text: title }), ...textsOf([why, words.whyFilled]), next];
}

/**
 * What a stable result means for the projects above the own one.
 * @param {number} count of these projects
 * @param {boolean} isSecond
 */
function whyNotHigher(count, isSecond) {
  return make('details', { class: 'why' }, [
    make('summary', { text: words.whyHigherTitle }),
    ...textsOf([(isSecond ? words.whyHigherSecond : words.whyHigher)(count), words.whyNoOther, words.whyFilled]),
  ]);
}

/**
 * A list that is saved, to look at and to print, in the end with what became of it.
 * @param {PageOf} of
 * @param {string[]} keys
 * @param {string} title
 * @param {ReturnType<typeof marksOf>} marks
 */
function savedPart({ me, known }, keys, title, { result, taken, mark } = UNMARKED) {
  if (keys.length === 0) return part(title, [make('p', { text: words.listClosedEmpty })]);
  const entries = () => keys.map(entryOf(known, mark));
  const lines = () => [...result, ...taken, ...savedLines(me, keys)];
  return part(title, [...taken.map((text) => make('p', { class: 'quiet', text })), fixedList(title, entries()), receiptButton(
    { title, me, entries, lines },
  )]);
}

/**
 * The own list beside the catalogue, until it is closed.
 * @param {PageOf} of
 * @param {StudentState} state
 */
function listMaking(of, state) {
  const [{ me, known }, { projects, saved }] = [of, state];
  const there = new Set(projects.map(({ id }) => id));
  const aims = [{ text: words.skipToList, aim: () => own }, { text: words.skipToSave, aim: () => editor.saveButton }];
  /** @type {Making} */
  const making =
    { add: (key) => editor.list.add(key), take: (key) => editor.list.take(key), full: () => of.messages.say(words.listFull), aims };
  const decided = decidedPart(me, saved.length === 0);
  const catalogue = new Catalogue(projects, known, { isSecond: roundOf(me) === 2, making });
  const empty = make('p', { class: 'quiet', text: words.listEmpty });
  const editor = new ListEditor({
    page: of,
    path: '/choices',
    member: 'projects',
    saved,
    texts: words.ofList,
    show: entryOf(known),
    name: (key) => known.titleOf(key),
    isThere: (key) => there.has(key),
    missing: () => 0,
    changed: (keys) => {
      catalogue.mark(keys, keys.length >= longestList);
      empty.hidden = keys.length > 0;
    },
    stored: () => { decided.open = false; },
    look: (key) => catalogue.look(key),
    back: { short: words.catalogue, text: words.showProjectsAgain, aim: () => catalogue.element },
  });
  const own = part(words.yourList, [empty, editor.list.element, editor.tools], { class: 'own', tabindex: '-1' });
  measure(own, '--own');
  editor.update();
  const columns = make('div', { class: 'columns' }, [catalogue.element, make('div', { class: 'own-side' }, [own])]);
  return {
    element: make('div', {}, [decided, columns, ...firstPart(of, state)]),
    bar: editor.bar,
    aims,
    isChanged: () => editor.isChanged(),
    isKept: () => true,
    year: choosingYear(me, projects),
  };
}

/**
 * What is said of the year to whoever chooses.
 * @param {Me} me
 * @param {Project[]} projects
 */
function choosingYear(me, projects) {
  if (roundOf(me) === 1) return { next: words.canChange, saves: true };
  return { now: words.chooseAgain, next: `${roomText(projects)} ${words.canChange}`, saves: true };
}

/**
 * How much is left. A lecturer may take fewer students than the own projects have places.
 * @param {Project[]} projects
 */
const roomText = (projects) => words.roomLeft(projects.reduce((sum, { capacity }) => sum + capacity, 0), projects.length);

/**
 * How it is decided, in three points: open until a list is saved. How to order the list, and who sees it, is folded in it.
 * @param {Me} me
 * @param {boolean} isOpen where it may be open
 */
function decidedPart(me, isOpen) {
  const isSecond = roundOf(me) === 2;
  const parts = isSecond ? [words.adviceSecond, ...words.adviceParts] : [...words.adviceParts, words.adviceWait];
  const when = (isSecond ? words.nextSecond : words.next).student.choosing ?? '';
  /** @param {string[]} texts */
  const items = (texts) => make('ul', {}, texts.map((text) => make('li', { text })));
  return make('details', { class: 'decided', open: isOpen && !isSecond }, [
    make('summary', { text: words.decided }),
    items(words.decidedParts),
    make('details', {}, [
      make('summary', { text: words.about }),
      ...textsOf([words.secret, words.advice]),
      items([...parts, words.filledByID]),
      ...textsOf([when]),
    ]),
  ]);
}
