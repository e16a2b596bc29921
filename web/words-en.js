// The texts of the page in English that each role sees: the frame, lists and tables. The other files words-en-ROLE.js have those of one
// role. Texts with parts are functions. The names of buttons, fields and lists are what tests and screen readers find them by.

import { largestFile, longestCode, longestList, mostRows, shortestCode } from './config.js';
import { apart, texts } from './words.js';

/** @type {Counted} */
export const number = (count) => count.toLocaleString('en');
/** @type {(count: number, one: string, more: string) => string} */
export const many = (count, one, more) => `${number(count)} ${count === 1 ? one : more}`;
/** @type {Counted} */
export const projects = (count) => many(count, 'project', 'projects');
/** @type {Counted} */
export const students = (count) => many(count, 'student', 'students');
/** @type {Counted} */
export const lecturers = (count) => many(count, 'lecturer', 'lecturers');
/** @type {Counted} */
export const places = (count) => many(count, 'place', 'places');

export const words = texts({
  language: 'en',
  // days, months and times are written as people in Europe do
  dates: 'en-GB',
  // between the fields of files that spreadsheets open
  separator: ',',
  title: 'Project choice',
  leave: 'Leave',
  keepEditing: 'Keep editing',
  cancel: 'Cancel',
  tryAgain: 'Try again',
  loading: 'One moment…',
  closeMessage: 'Close message',
  languageLabel: 'Language',
  menu: 'Menu',
  departmentLinks: { contact: 'Contact', privacy: 'Privacy', accessibility: 'Accessibility' },

  // signing in
  yourCode: 'Your code',
  codeHint: `The office gave you this code. It has ${shortestCode} to ${longestCode} letters, digits and hyphens. Lost it? Ask the office.`,
  showCode: 'Show code',
  signIn: 'Sign in',
  signOut: 'Sign out',
  noSuchCode: 'We don’t know this code. Check every character, including capital and small letters. If it still doesn’t work, ask the '
    + 'office.',
  noCodeForm: `Enter your whole code: ${shortestCode} to ${longestCode} letters (no accents), digits and hyphens.`,
  signedOut: 'You’re signed out.',
  idleSoon: 'Are you still there?',
  idleMeans: 'Nothing was done here for a while, so you’ll be signed out in two minutes. What you haven’t saved stays in this tab.',
  stay: 'Stay signed in',
  signedOutElsewhere: 'You’re signed out, because you left this page or signed out in another tab.',
  signedOutKept: 'You’re signed out, because you signed out in another tab. What you hadn’t saved here is kept in this tab: sign in here '
    + 'again to continue.',
  signedOutAsk: 'You signed out in another tab. Sign out here too?',
  signedOutIdle: 'You’re signed out, because you did nothing for 30 minutes. Sign in again to continue where you left off.',
  unsavedLeave: 'Leave without saving?',
  unsavedLost: 'Your unsaved changes will be lost.',
  roles: { student: 'Student', lecturer: 'Lecturer', office: 'Office' },

  // where the year stands
  year: 'Stages',
  phases: { setup: 'Setup', choosing: 'Choosing', ranking: 'Ranking', published: 'Results' },
  round: (round) => `Round ${round}`,
  roundFor: 'The second round is for students who didn’t get a project in the first. It offers the places that are left.',
  moment: (when) => new Intl.DateTimeFormat('en-GB', { weekday: 'long', day: 'numeric', month: 'long', hour: '2-digit', minute: '2-digit' })
    .format(when)
    .replace(',', ''),
  closes: (phase, when, left) => `${phase} closes on ${when} (${left}).`,
  overdue: (phase) => `${phase} should be closed by now.`,
  past: (phase) => `The time announced for “${phase}” has passed.`,
  pastSaving: {
    choosing: 'The announced time has passed; saving works until the office closes choosing.',
    ranking: 'The announced time has passed; saving works until the office publishes the results.',
  },
  soon: (phase, left) => `${phase} closes ${left}`,
  over: 'the announced time has passed',
  now: {
    student: {
      setup: 'The office is adding projects. You can already look through them.',
      choosing: 'Add the projects you want to your list, favourite first, and save it.',
      ranking: 'Choosing is closed. Lecturers are ranking the students who chose their projects. You don’t need to do anything.',
      published: 'The results are out. Yours is below.',
    },
    lecturer: {
      setup: 'The office is adding projects. Check that yours are correct, and tell the office if not.',
      choosing: 'Students are choosing projects. You don’t need to do anything yet.',
      ranking: 'Put all your applicants in one ranking, best first, and save it.',
      published: 'The results are out. See below who got your projects.',
    },
    office: {
      setup: 'Add the lecturers, projects and students. Then open choosing.',
      choosing: 'Students are choosing. You can still add people and projects.',
      ranking: 'Lecturers are ranking their applicants.',
      published: 'The results are out. Students and lecturers can see theirs.',
    },
  },
  next: {
    student: {
      setup: 'Next: you choose projects.',
      choosing: 'You can change it until the office closes choosing. Your last saved list counts. Next: lecturers rank their applicants.',
      ranking: 'Next: you see your result here.',
      published: '',
    },
    lecturer: {
      setup: 'Next: students choose projects.',
      choosing: 'Next: you rank your applicants, if you have any.',
      ranking: 'You can change it until the office publishes the results. Next: you see here who got your projects.',
      published: '',
    },
    // the next step stands on the page
    office: {},
  },
  // in the second round, where something else is to be said
  nowSecond: {
    student: {},
    lecturer: {
      choosing: 'Students without a project are choosing again. You don’t need to do anything yet.',
      ranking: 'Put all your applicants of this round in one ranking, best first, and save it.',
    },
    office: {
      choosing: 'Students without a project are choosing again.',
    },
  },
  nextSecond: {
    student: {
      choosing: 'You can change it until the office closes choosing. Your last saved list counts. Next: lecturers rank their applicants.',
      ranking: 'Next: you see your result here.',
    },
    lecturer: {},
    office: {},
  },
  place: (phase, round) => (round === 2 ? `“${phase}” of the second round` : `“${phase}”`),
  phaseMoved: (place) => `The portal has moved on to ${place}. Your last action was not carried out.`,
  lastListCounts: 'Your last saved list counts. What you changed after it stays on this page, to read and copy.',
  lastRankingCounts: 'Your last saved ranking counts. What you changed after it stays on this page, to read and copy.',
  columns: { title: 'Title', lecturer: 'Lecturer', places: 'Places', list: 'Your list' },
  named: (title, key) => `${title}, ${key}`,
  noMatches: 'Nothing matches. Try fewer words, or clear the search.',
  more: 'More about this project (new tab)',

  // a list that is put in order
  moveUp: (name) => `Move ${name} up`,
  moveDown: (name) => `Move ${name} down`,
  moveTo: (name) => `Position of ${name}`,
  remove: (name) => `Remove ${name}`,
  isAt: (name, place, count) => `${apart(name)} is now number ${place} of ${count}.`,
  isGone: (name, count) => `Removed ${apart(name)}. ${count === 0 ? 'Nothing is left.' : `${count} left.`}`,
  orderHow: 'How to reorder',
  orderHint: 'To reorder, drag an entry, use its arrows or type its position. By keyboard: go to one of its buttons with Tab, and press ↑, '
    + '↓, Home or End; after a click, hold Alt.',
  undo: 'Undo',
  undone: 'Last change undone.',
  backToSaved: 'Discard changes',
  isBackToSaved: 'Changes discarded. “Undo” brings them back.',
  isChanged: 'Unsaved changes',
  notYetSaved: 'Not saved yet',
  perhapsSaved: 'Perhaps not saved',
  isSaved: 'All changes saved',
  saving: 'Saving…',
  savedAt: (time) => `Saved at ${time}`,
  draftBack: 'Your unsaved changes are still here.',
  draftLess: (names) => `Not here any more, and so left out of your unsaved changes: ${names}. Everything else is still here.`,
  unsaved: 'Not saved in time',
  unsavedList: 'You didn’t save this before it was closed, so it doesn’t count.',
  copyUnsaved: 'Copy this',
  dropUnsaved: 'Remove this',
  printReceipt: 'Print receipt',
  printed: (when, host) => `Last saved version on ${host}. Printed on ${when}.`,
  savedMeanwhile: 'A different version was saved in another tab or on another device.',
  listHere: 'On this page',
  listSaved: 'Saved elsewhere',
  empty: 'Empty',
  keepHere: 'Save this page’s version',
  keepSaved: 'Use the other version',
  keptSaved: 'Now showing the version saved elsewhere.',
  copiedLines: (count) => `Copied ${many(count, 'row', 'rows')}. Paste into an email or spreadsheet.`,

  decidedAndSeen: 'How it is decided, and who sees what',

  // what goes wrong
  lostSave: 'No reply from the portal, so we don’t know whether this is saved. It is still here, and the page is looking whether it was '
    + 'saved.',
  notSaved: 'This wasn’t saved. It is still here. Try again.',
  lost: 'No reply from the portal. What you entered is still here. Check your connection and try again.',
  notCopied: 'Your browser blocked copying. Select the names and copy them yourself.',
  unexpected: 'Something went wrong on this page. Reload it to continue.',
  listed: (names) =>
    (names.length > 10 ? `${names.slice(0, 10).map(apart).join(', ')} and ${number(names.length - 10)} more` : names.map(apart).join(', ')),
  stillToRank: (names) => `Not published. Still to rank: ${names.map(apart).join(', ')}.`,
  refusals: {
    no_caller: 'This code no longer works. If you were given a new one, sign in with it. If not, ask the office.',
    not_yours: 'You don’t have permission to do this.',
    wrong_phase: 'This isn’t possible at this stage.',
    already_placed: 'You already have a project from the first round, so you can’t save another list.',
    roll_full: `Nothing was added: there would be too many rows. The portal holds up to ${lecturers(
      mostRows.lecturers,
    )}, ${projects(mostRows.projects)} and ${students(mostRows.students)}.`,
    too_large: `This file is too large. The limit is ${number(largestFile)} bytes. Split it, and send one part after the other.`,
    bad_body: 'The portal couldn’t read this. Reload the page and try again.',
    other: (word) => `The portal refused this (“${word}”). Reload the page and try again.`,
  },
  badList: (name, why) => `Not saved. ${apart(name)}: ${why}. Your last saved version still counts.`,
  badListFaults: {
    too_long: `a list has at most ${longestList} projects`,
    unknown_project: 'this project isn’t available in this round',
    repeated: 'this is on the list twice',
    not_an_applicant: 'this student didn’t choose any of your projects',
  },
  rankingMissing: 'Not saved. At least one applicant is missing from your ranking. Your last saved ranking still counts.',
});
