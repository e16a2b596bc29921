// What stands in the way of the office's next step, as far as the page knows: what is missing, who would be left out, and how many places
// there are.

import { words } from './words.js';
import { countOfChoosers, roundOf } from './year.js';

/** @type {Record<StepName, (of: Standing) => Lack[]>} */
const LACKS = {
  openChoosing: (of) => [...empty(of), ...places(of), ...idle(of)],
  openRanking: (of) => [...early(of), ...lists(of), ...(roundOf(of.status) === 1 ? [...places(of), ...idle(of)] : [])],
  fill: (of) => (of.toRank.length === 0
    ? [{ text: words.filled([]), ends: true }]
    : [...early(of), { text: words.fillWith(words.listed(of.toRank)), isAskedOnly: true }]),
  publish: (of) =>
    (of.toRank.length === 0 ? [...early(of), ...unranked(of)] : [{ text: words.publishMissing(of.toRank.length), ends: true }]),
  openSecond: (of) => left(of),
};

/**
 * What stands in the way of a step, as far as the page knows.
 * @param {StepName} name
 * @param {Standing} of
 */
export const lacksOf = (name, of) => LACKS[name](of);

/**
 * Whoever goes by what was announced would be late.
 * @param {Standing} of
 * @returns {Lack[]}
 */
const early = ({ end = '' }) => (end === '' ? [] : [{ text: end, isRisk: true, isAskedOnly: true }]);

/**
 * What is published without somebody's own word: rankings that were filled in, and students without a list.
 * @param {Standing} of
 * @returns {Lack[]}
 */
function unranked({ status, filled = [] }) {
  const count = status.without_list.length;
  return [
    ...(filled.length === 0 ? [] : [{ text: words.filledHere(filled.length, words.listed(filled)) }]),
    ...(count === 0 ? [] : [{ text: words.noListNoProject(count), isAskedOnly: true }]),
    { text: words.filledElsewhere, isAskedOnly: true },
  ];
}

/**
 * @param {Standing} of
 * @returns {Lack[]}
 */
function empty({ status }) {
  if (status.projects === 0) return [{ text: words.lacks.projects, ends: true }];
  return status.students === 0 ? [{ text: words.lacks.students, ends: true }] : [];
}

/**
 * No more students can have a project than there are places, counted by project and by lecturer. `isSure`: what each lecturer takes is
 * known.
 * @param {{ lecturer: string, capacity: number }[]} projects
 * @param {There['lecturers']} lecturers
 */
export function placesFor(projects, lecturers) {
  const byLecturer = grouped(projects.map(({ lecturer, capacity }) => ({ lecturer, free: capacity, taken: 0 })));
  const { most, unknown } = room(byLecturer, lecturers);
  return { count: most, isSure: unknown === 0 };
}

/**
 * @param {Standing} of
 * @returns {Lack[]}
 */
function places({ status, projects, lecturers }) {
  const { count, isSure } = placesFor(projects, lecturers);
  // once students choose, the figures tell it
  const asked = status.phase === 'setup' ? {} : { isAskedOnly: true };
  return status.projects > 0 && count < status.students
    ? [{ text: words.lacks.places(count, status.students, isSure), isRisk: true, ...asked }]
    : [];
}

/**
 * The names of those without a project are known where this browser has seen the file of lecturers.
 * @param {Standing} of
 * @returns {Lack[]}
 */
function idle({ status, projects, lecturers, nameOf }) {
  const offering = new Set(projects.map(({ lecturer }) => lecturer));
  const count = status.lecturers - offering.size;
  if (count <= 0 || status.projects === 0) return [];
  const names = [...lecturers.keys()].filter((key) => !offering.has(key)).map((key) => words.person(key, nameOf(key)));
  return [{ text: words.lacks.offers(count, words.listed(names.slice(0, count))) }];
}

/**
 * @param {Standing} of
 * @returns {Lack[]}
 */
function lists({ status }) {
  const count = status.without_list.length;
  if (count === 0) return [];
  if (count === countOfChoosers(status)) return [{ text: words.lacks.lists, isRisk: true }];
  // how many have none stands beside the step
  return [{ text: words.withoutList(count), isRisk: true, isAskedOnly: true }];
}

/**
 * @param {Standing} of
 * @returns {Lack[]}
 */
function left({ status, projects, lecturers, used }) {
  const count = status.unassigned.length;
  if (count === 0) return [{ text: words.secondFor, ends: true }];
  const { least, most, unknown } = placesLeft(used, projects, lecturers);
  if (most === 0) return [{ text: words.lacks.room(count), ends: true }];
  if (least === most) return [{ text: words.secondRoom(most, count), isRisk: most < count }];
  return [{ text: words.secondRange(least, most, count, unknown), isRisk: true, ends: least === 0, needsLecturers: true }];
}

/**
 * The places for a second round: of each lecturer as many as the own projects have left, and no more than the lecturer still takes. What a
 * lecturer takes in all may not be known here: then at least one student, if there was none yet.
 * @param {Used[]} used
 * @param {{ id: string, lecturer: string }[]} projects those of the first round
 * @param {There['lecturers']} lecturers
 */
export function placesLeft(used, projects, lecturers) {
  const ownerOf = new Map(projects.map(({ id, lecturer }) => [id, lecturer]));
  return room(grouped(used.map(({ key, taken, all }) => ({ lecturer: ownerOf.get(key) ?? '', free: all - taken, taken }))), lecturers);
}

/**
 * @param {(OwnPlaces & { lecturer: string })[]} projects
 */
function grouped(projects) {
  /** @type {Map<string, OwnPlaces>} */
  const found = new Map();
  for (const { lecturer, free, taken } of projects) {
    const own = found.get(lecturer) ?? { free: 0, taken: 0 };
    found.set(lecturer, { free: own.free + free, taken: own.taken + taken });
  }
  return found;
}

/**
 * At least and at most how many places there are, and of how many lecturers with a free place it is not known how many students they take.
 * @param {Map<string, OwnPlaces>} byLecturer
 * @param {There['lecturers']} lecturers
 */
function room(byLecturer, lecturers) {
  const sum = { least: 0, most: 0, unknown: 0 };
  for (const [key, { free, taken }] of byLecturer) {
    const takes = Number(lecturers.get(key)?.capacity);
    const isKnown = takes >= taken;
    const most = isKnown ? Math.min(free, takes - taken) : free;
    sum.most += most;
    sum.least += isKnown ? most : Math.min(free, taken === 0 ? 1 : 0);
    sum.unknown += isKnown || free === 0 ? 0 : 1;
  }
  return sum;
}
