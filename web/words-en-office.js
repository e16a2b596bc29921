// The texts of the office's page in English. words-en.js has all others.

import { largestCapacity, longestCode, longestKey, shortestCode } from './config.js';
import { lecturers, many, number, places, projects, students } from './words-en.js';
import { apart, texts } from './words.js';

/** @type {Counted} */
const addresses = (count) => many(count, 'email address', 'email addresses');
/** @type {Record<string, Record<string, string>>} What each column of a file means; where it differs, by the file. */
const meanings = {
  id: { all: `Unique in this file. 1 to ${longestKey} letters (no accents), digits, hyphens, underscores or dots. Example: p017.` },
  name: { all: 'As it is shown to others. Example: Zoë Müller.' },
  code: { all: `The sign-in code: ${shortestCode} to ${longestCode} letters (no accents), digits or hyphens. Leave it empty, and codes are `
    + 'made here.' },
  capacity: {
    all: '',
    lecturers: `How many students the lecturer takes in total: 1 to ${largestCapacity}.`,
    projects: `How many students can have the project: 1 to ${largestCapacity}.`,
  },
  lecturer: { all: 'The ID of the lecturer, as in the lecturers file. Example: l07.' },
  title: { all: 'The title of the project. Example: Graph neural networks.' },
  email: { all: 'Optional. It is not sent: this browser keeps it, so that you can copy addresses.' },
  description: {
    all: 'Optional, up to 4,000 characters. It is not sent: you get it back in a file, with which the administrator puts it on the page.',
  },
  link: { all: 'Optional: an address that begins with https://. It goes with the description.' },
};

export const words = texts({
  // the office: people and projects
  rolls: 'People and projects',
  rollsHint: 'Choose three files in this order: Excel workbooks (.xlsx) or CSV files. You see all rows first, and nothing is added until '
    + 'you press “Send” and confirm it. To add more rows later, choose the longer file again.',
  roll: { lecturers: 'Lecturers', projects: 'Projects', students: 'Students' },
  countOf: { lecturers, projects, students },
  rollCounts: (count) => `${number(count)} in the portal`,
  chooseFile: { lecturers: 'Choose lecturers file', projects: 'Choose projects file', students: 'Choose students file' },
  drop: 'or drop it here',
  columnsOfRoll: 'What the columns mean',
  columnMeans: (roll, column) => meanings[column][roll] ?? meanings[column].all,
  template: 'Download a template',
  templateOf: {
    lecturers: 'Download a template for lecturers',
    projects: 'Download a template for projects',
    students: 'Download a template for students',
  },
  rollFile: 'Choose a lecturer or student file',
  readFileHint: 'People and projects can no longer be added. You can still open a lecturer or student file here to print slips or read '
    + 'names. It is not sent.',

  // what a file would do
  notNow: 'Not now',

  // names in this browser
  names: 'Names in this browser',
  namesAre: (count, emails) => `This browser stores ${many(count, 'name', 'names')}${emails === 0 ? '' : ` and ${addresses(
    emails,
  )}`}, so that you see names and not only IDs. It stores no codes. On a shared computer, forget the names before you leave.`,
  noNames: 'This browser stores no names.',
  forgetNames: 'Forget names',
  namesForgotten: 'Names forgotten.',

  // the office: where the year stands
  state: 'Progress',
  placesAre: (count, all, isSure) => `${isSure ? 'Places' : 'Places at most'}: ${number(count)} for ${students(all)}`,
  refresh: 'Refresh',
  refreshed: 'Up to date.',
  withList: (count, all) => `With a list: ${number(count)} of ${students(all)}`,
  ranked: (done, all) => `Rankings done: ${number(done)} of ${lecturers(all)}`,
  withoutApplicants: (count) => `${many(count, 'other lecturer has', 'other lecturers have')} no applicants.`,
  rankingsMissing: (count) => `Rankings missing: ${number(count)}`,
  rankersUnknown: (count) =>
    `Of at most ${lecturers(count)}: those with a project in this round. Who of them has applicants, this browser can’t know.`,
  withoutPlace: (count) => `At least ${number(count)} will get no project.`,
  assigned: (count, all) => `With a project: ${number(count)} of ${students(all)}`,
  missing: {
    list: 'Without a list',
    ranking: 'Still to rank',
    project: 'Without a project',
  },
  withdrawn: 'Whoever has saved an empty list, to withdraw, stands here too.',
  nobody: 'Nobody',
  noneAre: (none, list, round) =>
    `Without a list${round === 2 ? ' in this round' : ''}: ${number(none)}. With a list, but without a place: ${number(list)}.`,
  allNames: (count) => `Show all ${number(count)} names`,
  keysAlone: 'The portal shows only IDs here. To see names, open the lecturer or student file again and press “Read names only”. Nothing '
    + 'is sent.',
  person: (key, name) => (name === undefined ? key : `${apart(name)} (${key})`),
  copyNames: 'Copy names',
  copied: (count) => `Copied ${many(count, 'name', 'names')}.`,
  copyEmails: 'Copy email addresses',
  copiedEmails: (count, unknown) => `Copied ${addresses(count)}${unknown === 0 ? '' : `, ${number(unknown)} unknown`}. Use “Bcc”.`,
  data: 'Check people and projects',
  dataHint: 'Open a table to see what is in the portal now. Names, and how many students a lecturer takes, are those of the files that '
    + 'this browser has sent or read.',
  dataColumns: {
    lecturer: 'Lecturer',
    takes: 'Takes',
    projects: 'Projects',
    places: 'Places',
    ranking: 'Ranking',
    has: 'Has',
    student: 'Student',
    list: 'List',
  },
  standsList: { done: 'Saved', missing: 'None', placed: 'Has a project' },
  standsRanking: { done: 'Done', missing: 'Missing', none: 'No applicants', unknown: 'Done, or not needed' },
  searchRoll: { lecturers: 'Search lecturers', projects: 'Search projects', students: 'Search students' },
  rowsShown: (shown, all) => (shown === all ? many(all, 'row', 'rows') : `${number(shown)} of ${many(all, 'row', 'rows')}`),
  unknownPeople: {
    lecturers: (count) =>
      `${many(count, 'more lecturer is', 'more lecturers are')} in the portal. This browser doesn’t know who: it didn’t send their file.`,
    students: (count) =>
      `${many(count, 'more student is', 'more students are')} in the portal. This browser doesn’t know who: it didn’t send their file.`,
  },
  openProjects: (count) => `${projects(count)} open in the second round`,

  // the office: the next step
  goOn: 'Next step',
  openChoosing: 'Open choosing',
  openRanking: 'Open ranking',
  publish: 'Publish results',
  fill: 'Fill missing rankings',
  openSecond: 'Open second round',
  does: {
    openChoosing: 'Students can make and save their lists. You can still add people and projects.',
    openRanking: 'Choosing closes: lists can no longer change, and no people or projects can be added. Lecturers see who chose their '
      + 'projects, and rank them.',
    publish: 'The portal allocates the projects. Students see their result, and lecturers see their students. Rankings can no longer '
      + 'change.',
    fill: 'Only if lecturers don’t reply: the portal ranks their applicants in ID order. This favours low IDs: if these are matriculation '
      + 'numbers, the same, mostly older, students with every such lecturer. Lecturers can still change this ranking until you publish.',
    openSecond: 'Optional. Students without a project choose again from the places that are left, and lecturers rank them. All other '
      + 'students keep their projects. No people or projects can be added.',
  },
  ask: {
    openChoosing: 'Open choosing now?',
    openRanking: 'Open ranking now?',
    publish: 'Publish the results now?',
    fill: 'Fill the missing rankings now?',
    openSecond: 'Open the second round now?',
  },
  forGoodOf: (name) => (name === 'fill' ? 'You can’t remove a filled ranking; only its lecturer can replace it.' : 'You can’t undo this.'),
  early: (phase, when, left) => `Everybody was told that “${phase}” closes on ${when}. That is ${left}.`,
  filledHere: (count, names) => `${many(
    count,
    'ranking was',
    'rankings were',
  )} filled in by ID order from this browser; their lecturers may have replaced them since: ${names}.`,
  filledElsewhere: 'This page can’t know of rankings that were filled in from another browser.',
  noListNoProject: (count) => `${many(count, 'student has', 'students have')} no list, and so ${count === 1 ? 'gets' : 'get'} no project.`,
  fillWith: (names) => `Lecturers without a ranking: ${names}.`,
  publishMissing: (count) => `You can’t publish yet: ${many(count, 'ranking is', 'rankings are')} missing.`,
  openLecturers: 'Open lecturers file',
  lacks: {
    projects: 'Add projects first, so that students have something to choose.',
    students: 'Add students first.',
    places: (count, all, isSure) =>
      `${isSure ? '' : 'At most '}${places(count)} for ${students(all)}: at least ${number(all - count)} will get no project.`,
    offers: (count, names) => `${many(count, 'lecturer has', 'lecturers have')} no project${names === '' ? '' : `: ${names}`}.`,
    lists: 'No student has a list, so this round would give nobody a project.',
    room: (count) => `0 places for ${students(count)}: there is nothing left to choose.`,
  },
  withoutList: (count) => (count === 0 ? '' : `${many(count, 'student has', 'students have')} no list and can’t save one after this.`),
  secondFor: 'Every student has a project, so no second round is needed.',
  secondRoom: (count, all) =>
    `${places(count)} for ${students(all)}${count < all ? `: at least ${number(all - count)} will get no project` : ''}.`,
  secondRange: (least, most, all, unknown) => `${number(least)} to ${places(most)} for ${students(all)}. This browser doesn’t know how `
    + `many students ${unknown === 1 ? '1 lecturer takes' : `${lecturers(unknown)} take`}. Open the lecturers file to find out; it isn’t `
    + 'sent.',
  moved: (place) => `Done. The portal is now at ${place}.`,
  filled: (keys) => (keys.length === 0 ? 'No ranking is missing.' : `Filled for ${keys.join(', ')}.`),
  published: 'The second round is published. There are no further steps.',
  closing: 'When you are done',
  closingParts: [
    'Download the result and print the report: next year’s portal knows nothing of this year.',
    'Has a student dropped out, or does a lecturer leave? The result stays as it is. For a lecturer’s successor the administrator corrects '
      + 'the name and makes a new code, with which the successor sees the students.',
    'Once nobody needs to sign in any more, destroy the files of codes, and on a shared computer forget the names (at the end of this '
      + 'page).',
    'Then ask the administrator to close the year. Until that is done, the database and its backups keep all lists, rankings, results and '
      + 'codes.',
    'Next year begins with a new, empty portal.',
  ],

  // the office: the result
  files: 'Files',
  result: 'Results',
  searchResult: 'Search results',
  resultColumns: { student: 'Student', project: 'Project', lecturer: 'Lecturer' },
  resultShown: (shown, all) => (shown === all ? students(all) : `${number(shown)} of ${students(all)}`),
  nothing: { unknown: 'No project', noList: 'No project: no list', noPlace: 'No project: list, but no place' },
  usage: 'Places taken',
  usageOf: (taken, count) => `Places taken: ${number(taken)} in ${projects(count)}`,
  used: (taken, all) => `${taken} of ${places(all)}`,
  downloadBook: 'Download Excel file',
  downloadCsv: 'Download CSV',
  printReport: 'Print report',
  printAnswers: 'Print for the head of department',
  showAnswers: 'Show the answers',
  report: 'Plain-text report',

  // the office: what goes wrong
  lostPost: 'No reply from the portal, so we don’t know if this worked. Check the progress before you try again.',
  lookAgain: 'Check progress',
});
