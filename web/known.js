// What is known of projects beside what the portal tells now: titles, lecturers and descriptions.

import { keep, kept } from './store.js';
import { roundOf } from './year.js';

const SEEN = 'portal-projects';
const FILE = '/projects.json';
/** @type {WeakMap<Portal, Known>} */
const files = new WeakMap();

/** @type {KnownField[]} */
const FIELDS = ['title', 'lecturer', 'lecturer_name', 'description', 'link'];

/**
 * The projects by key. What is no project with a key is left out, and so is a field that is no text.
 * @param {any} projects
 */
function byId(projects) {
  /** @type {Map<string, KnownProject>} */
  const found = new Map();
  for (const one of Array.isArray(projects) ? projects : []) {
    if (typeof one?.id !== 'string') continue;
    const fields = FIELDS.filter((field) => typeof one[field] === 'string').map((field) => [field, one[field]]);
    found.set(one.id, { id: one.id, ...Object.fromEntries(fields) });
  }
  return found;
}

/** Titles and lecturers' names; `const known = await knownProjects(portal)`, then `known.learn(projects, me)` with each catalogue. */
export class Known {
  #sources;

  /** @param {any} described the projects of projects.json */
  constructor(described = []) {
    this.#sources = { catalogue: new Map(), file: byId(described), seen: byId(kept(SEEN, [])) };
  }

  /**
   * Takes a catalogue as the portal has it now. In the first round it has all projects, and this browser keeps their titles.
   * @param {Project[]} projects
   * @param {Step} me a reply that tells the round
   */
  learn(projects, me) {
    this.#sources.catalogue = byId(projects);
    if (roundOf(me) === 1) this.#see(projects.map(({ id, title, lecturer, lecturer_name }) => ({ id, title, lecturer, lecturer_name })));
    else if (this.#isOfAnotherYear(projects)) this.#see([]);
    return this;
  }

  /**
   * The title of a project, or its key.
   * @param {string} key
   */
  titleOf(key) {
    return this.#find(key, 'title') ?? key;
  }

  /**
   * The name of the lecturer of a project, or nothing.
   * @param {string} key
   */
  lecturerOf(key) {
    return this.#find(key, 'lecturer_name') ?? '';
  }

  /**
   * The key of the lecturer of a project, or nothing.
   * @param {string} key
   */
  ownerOf(key) {
    return this.#find(key, 'lecturer');
  }

  /**
   * The name of a lecturer, or the lecturer's key.
   * @param {string} lecturer
   */
  lecturerName(lecturer) {
    for (const source of Object.values(this.#sources)) {
      for (const project of source.values()) if (project.lecturer === lecturer
        && project.lecturer_name !== undefined) return project.lecturer_name;
    }
    return lecturer;
  }

  /**
   * What projects.json says of a project: `description` and `link`, each of them perhaps empty.
   * @param {string} key
   */
  describe(key) {
    const { description = '', link = '' } = this.#sources.file.get(key) ?? {};
    return { description, link: link.startsWith('https://') ? link : '' };
  }

  /** @param {KnownProject[]} projects */
  #see(projects) {
    this.#sources.seen = byId(projects);
    keep(SEEN, projects);
  }

  /** @param {string} key @param {KnownField} field */
  #find(key, field) {
    const { catalogue, file, seen } = this.#sources;
    return catalogue.get(key)?.[field] ?? file.get(key)?.[field] ?? seen.get(key)?.[field];
  }

  /**
   * A year before this one may have had the same keys for other projects.
   * @param {Project[]} projects
   */
  #isOfAnotherYear(projects) {
    const { seen } = this.#sources;
    return projects.filter(({ id, title }) => seen.get(id)?.title === title).length * 2 < projects.length;
  }
}

/**
 * Asks for projects.json, once for each caller.
 * @param {Portal} portal
 */
export async function knownProjects(portal) {
  const known = files.get(portal) ?? new Known((await portal.file(FILE))?.projects);
  files.set(portal, known);
  return known;
}
