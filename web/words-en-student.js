// The texts of the student's page in English. words-en.js has those that others see too.

import { longestList } from './config.js';
import { number, places, projects } from './words-en.js';
import { apart, texts } from './words.js';

/** @type {Record<string, string>} */
const ENDINGS = { one: 'st', two: 'nd', few: 'rd' };
/** @type {Counted} */
const ordinal = (place) => `${place}${ENDINGS[new Intl.PluralRules('en', { type: 'ordinal' }).select(place)] ?? 'th'}`;

export const words = texts({
  // the catalogue
  catalogue: 'Projects',
  searchProjects: 'Search projects',
  shown: (shown, all) => (shown === all ? projects(all) : `${shown.toLocaleString('en')} of ${projects(all)}`),
  noProjects: 'No projects to show.',
  noProjectsSecond: 'No project has a place left in this round. Ask the office what happens next.',
  showProjects: (count) => (count === 1 ? 'Show the project' : `Show all ${projects(count)}`),
  placesLeftColumn: 'Places left',
  roomOf: (count) => places(count),
  allLecturers: 'All lecturers',
  anyPlaces: 'Places: any',
  atLeast: (count) => `${number(count)} or more places`,
  notOnList: 'Not on my list',
  add: 'Add',
  addKey: (name) => `Add ${name}`,
  take: 'Remove',
  takeKey: (name) => `Remove from your list: ${name}`,
  onList: (place) => `Choice ${place}`,

  yourList: 'Your list',
  showProjectsAgain: 'Show projects',
  skipToList: 'Skip to your list',
  skipToSave: 'Skip to “Save list”',
  ofList: {
    label: 'Your list',
    save: 'Save list',
    show: 'Show list',
    skip: 'Go to “Save list”',
    saved: (count) => (count === 0 ? 'Saved. An empty list gets you no project.' : `Saved. Your list has ${projects(count)}.`),
    count: (count) => (count < longestList ? `${projects(count)} (up to ${longestList})` : `${longestList} projects. Your list is full.`),
    missing: () => '',
    none: 'No projects saved yet',
    which: 'Which list do you want to keep?',
  },
  listEmpty: 'Your list is empty. Press “Add” beside each project you want.',
  listFull: 'List full: remove a project first.',
  listClosedEmpty: 'You saved no list, or an empty one.',
  byLecturer: (lecturer, key) => (lecturer === '' ? key : `${apart(lecturer)} · ${key}`),
  decided: 'How it is decided',
  decidedParts: [
    'If a project, or its lecturer, has too few places, they go to the students whom the lecturer ranks higher.',
    'Lecturers rank without seeing your order: they see only which of their own projects you chose.',
    'It makes no difference when you save. List projects in your honest order: no other order of them gives you one that you like better.',
  ],
  about: 'How to order your list, and who sees it',
  secret: 'To the office’s own code the portal shows no list; but the office made your code, and whoever has it, or may read the database, '
    + 'can read your list. The office sees whether your list is empty. Once choosing closes, lecturers see which of their own projects you '
    + 'chose, without positions. The results can tell a little more: a lecturer who ranked you first and doesn’t get you knows that your '
    + 'project stands higher on your list.',
  filledByID: 'If a lecturer makes no ranking, the office can have it filled in by student ID. That favours low IDs: if these are '
    + 'matriculation numbers, the same, mostly older, students with every such lecturer.',
  advice: 'Whichever projects you list, list them in your honest order: no other order of them, and no shorter list of some of them, gives '
    + 'you one that you like better. This is mathematically proven.',
  adviceParts: [
    'Put your real favourite first, even if it is popular. You lose nothing by trying.',
    `List every project you’d take. A list has room for ${longestList}; if you like more, no rule says which ${longestList} to list.`,
    'Adding a project at the end never hurts your chances for those above it. You never get a project that isn’t on your list.',
    'The small print: no group of friends can agree on lists, or on waiting for a second round, so that all of them gain over both rounds; '
      + 'some of them may. The proof covers only students’ lists, and assumes that no lecturer’s order of two students depends on anyone’s '
      + 'list.',
  ],
  adviceWait: 'If your list has every project that you would take, waiting for the second round gains nothing: if you get none of them '
    + 'now, none has a place left for you then. And there may be no second round.',
  roomLeft: (count, among) => `At most ${places(count)} ${count === 1 ? 'is' : 'are'} left, in ${projects(among)}.`,
  adviceSecond: 'No project from your first list has a place left for you. List others that you’d rather have than none.',
  yourProject: 'Your result',
  ownProject: (title, lecturer) => `Your project is ${apart(title)}, with ${apart(lecturer)}.`,
  ownProjectByKey: (title) => `Your project is ${apart(title)}.`,
  choice: (place) => `It was your ${ordinal(place)} choice. Only you can see this.`,
  hasOwnAlready: 'You already have a project from the first round, so you don’t need to do anything.',
  chooseAgain: 'You didn’t get a project in the first round. Add those you want now, favourite first, and save your list.',
  canChange: 'You can change it until choosing closes.',
  choiceFirst: 'It was your first choice. Only you can see this.',
  keptFirst: 'You got this project in the first round. The second round doesn’t change that.',
  firstList: 'Your list of the first round',
  markYours: 'Your project',
  markTaken: 'No place for you',
  markFull: 'All its places went to students ranked above you.',
  markFullSecond: 'All places left in it went to students ranked above you.',
  whyTaken: '“No place for you” means: all the project’s places, or all its lecturer’s, went to students ranked above you.',
  whyTakenSecond: '“No place for you” means: all places left in the project, or left with its lecturer, went to students ranked above you.',
  whyHigherTitle: 'Why not a higher choice?',
  whyHigher: (count) => (count === 1
    ? 'Your 1st choice had no place for you: all its places, or all its lecturer’s places, went to students ranked above you.'
    : `Your first ${count} choices had no place for you. For each of them, all its places, or all its lecturer’s places, went to students `
      + 'ranked above you.'),
  whyHigherSecond: (count) => (count === 1
    ? 'Your 1st choice in this round had no place for you: all places left in it, or left with its lecturer, went to students ranked above '
      + 'you.'
    : `Your first ${count} choices in this round had no place for you. For each of them, all places left in it, or left with its lecturer, `
      + 'went to students ranked above you.'),
  whyNoOther: 'With the same rankings and the others’ lists as they were, no other list would have got you a choice above your result.',
  whyFilled: 'Lecturers make the rankings. Where a lecturer made none, the office had it filled in by student ID, which favours low IDs.',
  noneTitle: 'You didn’t get a project this time.',
  noneTitleSecond: 'You didn’t get a project in the second round.',
  whyNone: 'For each project on your list, all its places, or all its lecturer’s places, went to students ranked above you. With the same '
    + 'rankings and the others’ lists as they were, no other list would have got you one of these projects.',
  whyNoneSecond: 'For each project on your list, all places left in it, or left with its lecturer, went to students ranked above you. With '
    + 'the same rankings and the others’ lists as they were, no other list would have got you one of these projects.',
  noneNext: 'Ask the office what happens next.',
  noneMayBe: 'The office may open a second round for students without a project. If it does, you choose here once more, among the places '
    + 'that are left.',
  noneNextSecond: 'There is no third round. Ask the office what happens next.',
  noProjectNoList: 'You didn’t get a project, because you saved no list, or an empty one.',
  noProjectNoListSecond: 'You didn’t get a project in the second round, because you saved no list in it, or an empty one.',
  whatNext: 'What next',
  ownNext: 'Your lecturer also sees that you have this project. Talk to each other about how to begin. If something is unclear, ask the '
    + 'office.',
});
