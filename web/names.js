// What the office's browser knows of people beside what the portal tells now: names, mail addresses and places. Codes are never kept.

import { forget, keep, kept } from './store.js';

const KEPT = 'portal-names';
/** @type {PeopleRoll[]} */
const ROLLS = ['lecturers', 'students'];

/** Names by roll and key: those that the portal tells first, then those that this browser keeps. */
export class Names {
  #known;
  /** @type {Record<PeopleRoll, Map<string, KeptPerson>>} */
  #kept;
  // The year's projects, each with its title, by which the year is known.
  /** @type {[string, string][]} */
  #projects;
  /** @type {Map<string, string>} */
  #shown = new Map();

  /** @param {Known} known tells the lecturers' names of the projects */
  constructor(known) {
    this.#known = known;
    const stored = kept(KEPT, {});
    this.#kept = { lecturers: new Map(stored.lecturers), students: new Map(stored.students) };
    this.#projects = stored.projects ?? [];
  }

  /** How many names are kept. */
  get count() {
    return ROLLS.reduce((sum, roll) => sum + this.#kept[roll].size, 0);
  }

  /** How many mail addresses are kept. */
  get emails() {
    return ROLLS.reduce((sum, roll) => sum + [...this.#kept[roll].values()].filter(({ email }) => email).length, 0);
  }

  /**
   * The name, or nothing where it is not known.
   * @param {PeopleRoll} roll
   * @param {string} key
   */
  nameOf(roll, key) {
    return this.#told(roll, key) ?? this.#kept[roll].get(key)?.name;
  }

  /** @param {PeopleRoll} roll @param {string} key */
  #told(roll, key) {
    if (roll === 'students') return this.#shown.get(key);
    const name = this.#known.lecturerName(key);
    return name === key ? undefined : name;
  }

  /**
   * The mail address, or an empty text where it is not known.
   * @param {PeopleRoll} roll
   * @param {string} key
   */
  emailOf(roll, key) {
    return this.#kept[roll].get(key)?.email ?? '';
  }

  /**
   * How many students a lecturer takes, by the file that was read or sent last; nothing where it is not known.
   * @param {string} lecturer
   */
  capacityOf(lecturer) {
    return this.#kept.lecturers.get(lecturer)?.capacity;
  }

  /**
   * Takes the students' names of the published result. They need not be kept: the portal tells them again.
   * @param {Map<string, string>} students
   */
  show(students) {
    this.#shown = students;
  }

  /**
   * Keeps names and mail addresses, and of lecturers how many students they take.
   * @param {Roll} roll
   * @param {Entry[]} entries of a roll file
   * @param {boolean} isThere the portal has taken them, so that they are on the roll
   */
  learn(roll, entries, isThere) {
    if (roll === 'projects') return;
    for (const { id, name = '', capacity, email } of entries) {
      const before = this.#kept[roll].get(id);
      this.#kept[roll].set(id, { name, capacity, email: email || before?.email, isThere: isThere || (before?.isThere ?? false) });
    }
    this.#keep();
  }

  /**
   * Keeps the mail addresses of rows that were not sent, of those who are known already.
   * @param {Roll} roll
   * @param {Entry[]} entries
   */
  learnEmails(roll, entries) {
    if (roll === 'projects') return;
    for (const { id, email } of entries) {
      const before = this.#kept[roll].get(id);
      if (before && email) before.email = email;
    }
    this.#keep();
  }

  #keep() {
    keep(KEPT, { projects: this.#projects, ...Object.fromEntries(ROLLS.map((roll) => [roll, [...this.#kept[roll]]])) });
  }

  /**
   * What is kept of those who are on a roll, by key.
   * @param {PeopleRoll} roll
   */
  there(roll) {
    return new Map([...this.#kept[roll]].filter(([, { isThere }]) => isThere));
  }

  forget() {
    for (const roll of ROLLS) this.#kept[roll].clear();
    forget(KEPT);
  }

  /**
   * Names of another year are forgotten: of one with more people, or where most projects had other titles.
   * @param {Status} status of the first round
   * @param {Project[]} projects of its catalogue
   */
  forgetOtherYear(status, projects) {
    const titles = new Map(projects.map(({ id, title }) => [id, title]));
    const others = this.#projects.filter(([id, title]) => titles.get(id) !== title);
    if (others.length * 2 > this.#projects.length || ROLLS.some((roll) => this.there(roll).size > status[roll])) this.forget();
    this.#projects = [...titles];
    if (this.count > 0) this.#keep();
  }
}

/**
 * Who and what is on the rolls, as far as the page can know: for each roll what is known of each key.
 * @param {Status} status of the first round, before ranking
 * @param {Project[]} projects of the catalogue, which has them all
 * @param {Names} names
 * @returns {There}
 */
export function thereOf(status, projects, names) {
  /** @type {There['lecturers']} */
  const lecturers = names.there('lecturers');
  for (const { lecturer, lecturer_name: name } of projects) lecturers.set(lecturer, { name, capacity: names.capacityOf(lecturer) });
  return {
    lecturers,
    projects: new Map(projects.map(({ id, title, lecturer, capacity }) => [id, { title, lecturer, capacity: `${capacity}` }])),
    students: new Map([...status.without_list.map((key) => /** @type {[string, {}]} */ ([key, {}])), ...names.there('students')]),
  };
}
