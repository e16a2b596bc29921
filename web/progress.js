// How far the year is: figures, and who is missing, to copy.

import { bar, button, make, part, withNames } from './dom.js';
import { words } from './words.js';
import { countOfChoosers, hasResult } from './year.js';

// A longer list of names is folded.
const UNFOLDED = 20;

/**
 * How far the year is, in figures; nothing before students choose.
 * @param {object} of
 * @param {Status} of.status
 * @param {Project[]} of.projects
 * @param {Rankers | null} of.rankers
 * @param {{ count: number, isSure: boolean }} of.most how many students can have a project
 */
export function stateParts({ status, projects, rankers, most }) {
  if (status.phase === 'setup') return [];
  const offering = new Set(projects.map(({ lecturer }) => lecturer)).size;
  const facts = bars(status, rankers, offering).map(({ text, part: count, whole, note = '' }) =>
    fact(text, note, whole === undefined ? [] : [bar(count, whole)]));
  if (['choosing', 'ranking'].includes(status.phase)) facts.push(placesFact(most, countOfChoosers(status)));
  return [part(words.state, [make('div', { class: 'facts' }, facts)], { class: 'figures' })];
}

/**
 * @param {string} text
 * @param {string} note
 * @param {Node[]} more
 */
function fact(text, note, more = []) {
  return make('div', { class: more.length > 0 ? 'fact measure' : 'fact' }, [figure(text), ...more, ...(note === ''
    ? []
    : [make('p', { class: 'quiet', text: note })])]);
}

/** @param {{ count: number, isSure: boolean }} most @param {number} choosers */
function placesFact({ count, isSure }, choosers) {
  return fact(words.placesAre(count, choosers, isSure), count < choosers ? words.withoutPlace(choosers - count) : '');
}

/**
 * A fact whose number is seen from afar: what it counts stands above it.
 * @param {string} text with a colon before the number, and perhaps more after it
 */
function figure(text) {
  const [, label, count, rest] = /** @type {string[]} */ (text.match(/^(.+?:) (.+?(?= – )|\S+)(.*)$/) ?? ['', '', text, '']);
  return make('p', {}, [
    make('span', { class: 'label', text: label }),
    document.createTextNode(' '),
    make('span', { class: 'figure', text: count }),
    document.createTextNode(rest),
  ]);
}

/**
 * Who is missing, beside the next step.
 * @param {Status} status
 * @param {Names} names
 * @param {Messages} messages
 */
export function missingParts(status, names, messages) {
  const who = missing(status);
  if (who === null) return [];
  if (who.keys.length === 0) return [part(who.title, [make('p', { text: words.nobody })], { class: 'aside' })];
  const list = make('ul', { class: 'names', 'aria-label': who.title }, called(who, names).map((text) => make('li', {}, withNames(text))));
  const isUnnamed = who.keys.some((key) => names.nameOf(who.roll, key) === undefined);
  return [part(`${who.title} (${who.keys.length.toLocaleString(words.language)})`, [
    ...(status.phase === 'published' ? [make('p', { text: noneText(status) })] : []),
    ...(status.phase === 'choosing' ? [make('p', { class: 'quiet', text: words.withdrawn })] : []),
    who.keys.length <= UNFOLDED ? list : make('details', {}, [make('summary', { text: words.allNames(who.keys.length) }), list]),
    make('div', { class: 'buttons' }, copyButtons(status, names, messages)),
    ...(isUnnamed ? [make('p', { class: 'quiet', text: words.keysAlone })] : []),
  ], { class: 'aside' })];
}

/**
 * Who has no list got no project for that; the others had one, and no place.
 * @param {Status} status
 */
function noneText({ unassigned, without_list: without, round }) {
  const none = unassigned.filter((key) => without.includes(key)).length;
  return words.noneAre(none, unassigned.length - none, round ?? 1);
}

/**
 * @param {NonNullable<ReturnType<typeof missing>>} who
 * @param {Names} names
 */
const called = ({ keys, roll }, names) => keys.map((key) => words.person(key, names.nameOf(roll, key)));

/**
 * @param {Status} status
 * @param {Names} names
 * @param {Messages} messages
 */
function copyButtons(status, names, messages) {
  const who = missing(status);
  if (who === null || who.keys.length === 0) return [];
  const copy = async (/** @type {string[]} */ lines, /** @type {string} */ said) => {
    try {
      // the signs that set names apart are for sentences
      await navigator.clipboard.writeText(lines.join('\n').replace(/[\u2068\u2069]/g, ''));
      messages.settle();
      messages.say(said);
    } catch {
      messages.warn(words.notCopied);
    }
  };
  const emails = who.keys.map((key) => names.emailOf(who.roll, key)).filter((email) => email !== '');
  const buttons = [button(words.copyNames, () => copy(called(who, names), words.copied(who.keys.length)))];
  if (emails.length > 0) buttons.push(button(words.copyEmails, () =>
    copy(emails, words.copiedEmails(emails.length, who.keys.length - emails.length))));
  return buttons;
}

/**
 * What there is to be seen of a phase: a text, perhaps the part and the whole of its bar, which the text tells too, and perhaps a note.
 * @param {Status} status
 * @param {Rankers | null} rankers who has to rank
 * @param {number} offering how many lecturers have a project in this round
 * @returns {{ text: string, part: number, whole?: number, note?: string }[]}
 */
export function bars(status, rankers, offering) {
  const { phase, students, assigned } = status;
  const all = [];
  if (['choosing', 'ranking'].includes(phase)) {
    const choosers = countOfChoosers(status);
    const withList = choosers - status.without_list.length;
    all.push({ text: words.withList(withList, choosers), part: withList, whole: choosers });
  }
  if (phase === 'ranking') all.push(rankingBar(status, rankers, offering));
  if (hasResult(status)) all.push({ text: words.assigned(assigned, students), part: assigned, whole: students });
  return all;
}

/**
 * Lecturers without applicants have nothing to rank, and are not counted. Where this browser does not know who has some, it tells how many
 * rankings are missing, and of how many at most.
 * @param {Status} status
 * @param {Rankers | null} rankers
 * @param {number} offering
 */
function rankingBar({ lecturers, still_to_rank: left }, rankers, offering) {
  if (!rankers?.isWhole) return { text: words.rankingsMissing(left.length), part: 0, note: words.rankersUnknown(offering) };
  const all = rankers.keys.size;
  const note = lecturers > all ? words.withoutApplicants(lecturers - all) : '';
  return { text: words.ranked(all - left.length, all), part: all - left.length, whole: all, note };
}

/**
 * Who is missing in a phase, how that is called, and in which file they are.
 * @param {Status} status
 * @returns {{ title: string, keys: string[], roll: 'lecturers' | 'students' } | null}
 */
export function missing(status) {
  if (status.phase === 'choosing') return { title: words.missing.list, keys: status.without_list, roll: 'students' };
  if (status.phase === 'ranking') return { title: words.missing.ranking, keys: status.still_to_rank, roll: 'lecturers' };
  if (status.phase === 'published') return { title: words.missing.project, keys: status.unassigned, roll: 'students' };
  return null;
}
