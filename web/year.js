// Where the year stands, until when, what is to be done now and what comes next. A reply that tells no round is of the first.

import { make } from './dom.js';
import { words } from './words.js';

// The end of a stage comes nearer while the page is open.
const AGAIN = 30_000;

// So many milliseconds before the end of a stage what is not saved is warned of.
const SOON = 30 * 60_000;

/**
 * @param {Me} me who is signed in
 * @param {{ now?: string, next?: string, saves?: boolean }} own what is said to this person, where the phase alone does not tell it;
 *   `saves`: this person has something to save
 * @param {Record<string, End>} until the end of a stage, by the stage's name
 */
export function yearPart(me, own = {}, until = {}) {
  const isSecond = roundOf(me) === 2;
  const now = own.now ?? textOf(me, words.now, words.nowSecond);
  const next = own.next ?? textOf(me, words.next, words.nextSecond);
  return make('section', { 'aria-label': words.year, class: 'stages' }, [
    ...(isSecond ? [make('p', { class: 'round', text: words.round(2) })] : []),
    ...(isSecond && !own.saves ? [make('p', { text: words.roundFor })] : []),
    make('ol', { class: 'year', role: 'list', 'aria-label': words.year }, steps(me).map(step)),
    make('p', { class: 'now', text: now }),
    ...deadlinePart(me, until, own.saves),
    ...(next === '' ? [] : [make('p', { class: 'quiet', text: next })]),
  ]);
}

/**
 * @param {Me} me
 * @param {ByRole} first
 * @param {ByRole} second
 */
const textOf = (me, first, second) => (roundOf(me) === 2 ? second[me.role][me.phase] : undefined) ?? first[me.role][me.phase] ?? '';

/** @param {ReturnType<typeof steps>[number]} step */
function step({ phase, isCurrent, isPast }) {
  return make('li', { text: words.phases[phase], class: isPast && 'past', 'aria-current': isCurrent && 'step' });
}

/**
 * @param {Me} me
 * @param {Record<string, End>} until
 * @param {boolean} [saves]
 */
function deadlinePart(me, until, saves) {
  const end = until[stageOf(me)];
  if (end === undefined) return [];
  const element = make('p', { class: 'deadline' });
  const show = () => {
    const text = deadlineText(me, end, new Date(), saves);
    if (text !== element.textContent) element.textContent = text;
    element.hidden = text === '';
  };
  show();
  const timer = setInterval(() => (element.isConnected ? show() : clearInterval(timer)), AGAIN);
  return [element];
}

/**
 * Until when the stage lasts; then the office is told that it should be closed, and others whether they can still save.
 * @param {Me} me
 * @param {End} end
 * @param {Date} now
 * @param {boolean} [saves] this person has something to save
 */
export function deadlineText(me, end, now, saves = false) {
  const phase = words.phases[me.phase];
  const left = ahead(end, now);
  if (left !== null) return words.closes(phase, left.when, left.away);
  if (me.role === 'office') return words.overdue(phase);
  const { choosing, ranking } = words.pastSaving;
  return saves ? (me.phase === 'choosing' ? choosing : ranking) : words.past(phase);
}

/**
 * That the end of the stage is near or over, for what is not saved yet; an empty text where it is not.
 * @param {Me} me
 * @param {Record<string, End>} until
 */
export function soonText(me, until, now = new Date()) {
  const end = until[stageOf(me)];
  const left = end === undefined ? Infinity : end.at.getTime() - now.getTime();
  if (left > SOON) return '';
  return left > 0 ? words.soon(words.phases[me.phase], awayIn(left)) : words.over;
}

/**
 * The stage was announced to end, and that is over.
 * @param {Step} me
 * @param {Record<string, End>} until
 */
export function isOver(me, until, now = new Date()) {
  const end = until[stageOf(me)];
  return end !== undefined && end.at <= now;
}

const MINUTE = 60_000;
const HOUR = 60 * MINUTE;
const DAY = 24 * HOUR;

/**
 * When the stage was announced to end, if that is still to come: a text for the moment, and one for how far away it is.
 * @param {Step} me
 * @param {Record<string, End>} until
 */
export function endOf(me, until, now = new Date()) {
  const end = until[stageOf(me)];
  return end === undefined ? null : ahead(end, now);
}

/**
 * A reader in another zone than the department is told the zone that the moment is in.
 * @param {End} end
 * @param {Date} now
 */
function ahead({ at, offset }, now) {
  if (at <= now) return null;
  const zone = offset === -at.getTimezoneOffset() ? '' : ` ${zoneOf(at)}`;
  return { when: words.moment(at) + zone, away: awayIn(at.getTime() - now.getTime()) };
}

/** @param {Date} at */
const zoneOf = (at) => new Intl.DateTimeFormat(words.dates, { timeZoneName: 'short' }).formatToParts(at).find(({ type }) =>
  type === 'timeZoneName')?.value ?? '';

/**
 * How far away something is, in whole days, from two days on; before that in hours, and then in minutes.
 * @param {number} milliseconds
 */
function awayIn(milliseconds) {
  const format = new Intl.RelativeTimeFormat(words.language);
  if (milliseconds >= 2 * DAY) return format.format(Math.floor(milliseconds / DAY), 'day');
  if (milliseconds >= 2 * HOUR) return format.format(Math.floor(milliseconds / HOUR), 'hour');
  return format.format(Math.ceil(milliseconds / MINUTE), 'minute');
}

/** @param {{ round?: number }} reply */
export const roundOf = (reply) => reply.round ?? 1;

/**
 * The name of a stage, by which files of the department speak of it.
 * @param {Step} me
 */
export const stageOf = (me) => (roundOf(me) === 2 ? `${me.phase}-2` : me.phase);

/**
 * Where the year stands, in words.
 * @param {Step} me
 */
export const placeOf = ({ phase, round }) => words.place(words.phases[phase], round ?? 1);

/**
 * The year stands where it stood when the other reply came.
 * @param {Step} a
 * @param {Step} b
 */
export const isSameStep = (a, b) => a.phase === b.phase && roundOf(a) === roundOf(b);

/**
 * A result is there: in published, and all through the second round that of the first.
 * @param {Step} me
 */
export const hasResult = (me) => me.phase === 'published' || roundOf(me) === 2;

/**
 * Rolls grow until the lists of the first round are closed.
 * @param {Step} me
 */
export const takesRolls = (me) => roundOf(me) === 1 && ['setup', 'choosing'].includes(me.phase);

/**
 * A student who has a project of the first round makes no list in the second.
 * @param {Step} me
 * @param {string | null} ownProject
 */
export const makesList = (me, ownProject) => me.phase === 'choosing' && (roundOf(me) === 1 || ownProject === null);

/** @param {Step} me */
export const canOpenSecond = (me) => me.phase === 'published' && roundOf(me) === 1;

/** The body of the move that opens the second round. It is the one move that names its round. */
export const secondRound = { phase: 'choosing', round: 2 };

/**
 * How many students may hand in a list: all, or in the second round those whom the first one left.
 * @param {Status} status
 */
export const countOfChoosers = (status) => (roundOf(status) === 1 ? status.students : status.unassigned.length);

/** @type {Phase[]} */
const PHASES = ['setup', 'choosing', 'ranking', 'published'];

/**
 * The phases of the round, each with whether it is the current one. The second round has no setup.
 * @param {Step} me
 */
export function steps(me) {
  const phases = PHASES.slice(roundOf(me) === 2 ? 1 : 0);
  const current = phases.indexOf(me.phase);
  return phases.map((phase, place) => ({ phase, isCurrent: place === current, isPast: place < current }));
}
