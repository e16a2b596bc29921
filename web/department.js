// What the department tells everybody, in files beside the page: a notice, notice.txt or one for each stage, plain text, each perhaps in
// several languages; and department.json, its name and perhaps a contact, links, languages and until when each stage lasts.

import { make } from './dom.js';
import { words } from './words.js';
import { stageOf } from './year.js';

// A file that does not come within so many milliseconds is done without.
const PATIENCE = 4_000;

/** @type {LinkName[]} */
const LINKS = ['contact', 'privacy', 'accessibility'];
const WITH_END = ['choosing', 'ranking', 'choosing-2', 'ranking-2'];

/**
 * A page of another kind in its place, as some servers send where a file is missing, is no such file.
 * @param {string} name
 * @param {string} type
 */
async function read(name, type) {
  const giveUp = new AbortController();
  const timer = setTimeout(() => giveUp.abort(), PATIENCE);
  try {
    const reply = await fetch(name, { cache: 'no-cache', credentials: 'omit', signal: giveUp.signal });
    const isOfType = reply.headers.get('Content-Type')?.startsWith(type);
    return reply.ok && isOfType ? (await reply.text()).trim() : '';
  } catch {
    return '';
  } finally {
    clearTimeout(timer);
  }
}

/**
 * A notice in the language of the page, or else the one for all languages.
 * @param {string} name
 */
async function notice(name) {
  const [own, common] = await Promise.all([read(`${name}.${words.language}.txt`, 'text/plain'), read(`${name}.txt`, 'text/plain')]);
  return own === '' ? common : own;
}

/** The notice: that of the stage where somebody is signed in and the stage has one, else the general one. */
export class Notice {
  #general = notice('notice');
  #asked = 0;
  element = make('p', { class: 'notice', dir: 'auto', hidden: true });

  /** @param {Step | null} step where the year stands; null where nobody is signed in */
  async show(step) {
    const turn = ++this.#asked;
    const own = step === null ? '' : await notice(`notice-${stageOf(step)}`);
    const text = own === '' ? await this.#general : own;
    if (turn !== this.#asked) return;
    this.element.textContent = text;
    this.element.hidden = text === '';
  }
}

export const department = async () => departmentOf(await read('department.json', 'application/json'));

/**
 * What a text says of a department, as far as it is of the right form.
 * @param {string} text
 * @returns {Department}
 */
export function departmentOf(text) {
  /** @type {any} */
  let of = {};
  try {
    of = JSON.parse(text);
  } catch {
    // there is none
  }
  const names = namesOf(of?.name);
  if (names === null) return { name: '' };
  const languages = Array.isArray(of.languages)
    ? { languages: of.languages.filter((/** @type {unknown} */ one) => typeof one === 'string') }
    : {};
  const links = LINKS.map((name) => [name, addressOf(of[name])]).filter(([, address]) => address !== '');
  return { ...names, ...languages, ...untilOf(of.until), ...Object.fromEntries(links) };
}

/**
 * One name, or one for each language, of which the first one is that of all others.
 * @param {any} name
 * @returns {Pick<Department, 'name' | 'names'> | null}
 */
function namesOf(name) {
  if (typeof name === 'string') return { name };
  const names = Object.entries(name ?? {}).filter(([, one]) => typeof one === 'string');
  return names.length === 0 || Array.isArray(name) ? null : { name: names[0][1], names: Object.fromEntries(names) };
}

/**
 * What the department is called in the language of the page.
 * @param {Department} of
 */
export const nameOf = ({ name, names = {} }) => names[words.language] ?? name;

/**
 * A link leads to a page by https, or to a mail address.
 * @param {unknown} text
 */
function addressOf(text) {
  if (typeof text !== 'string') return '';
  if (text.startsWith('https://')) return text;
  return /^[^\s@:/?]+@[^\s@:/?]+$/.test(text) ? `mailto:${text}` : '';
}

// A moment with its zone, as 2027-05-12T12:00+02:00: one without is another moment for each reader.
const MOMENT = /^\d{4}-\d\d-\d\dT\d\d:\d\d(:\d\d)?(Z|[+-]\d\d:\d\d)$/;

/** @param {any} until */
function untilOf(until) {
  const ends = WITH_END.map((stage) => /** @type {[string, End]} */ ([stage, endOf(until?.[stage])])).filter(([, { at }]) =>
    !Number.isNaN(at.getTime()));
  return ends.length === 0 ? {} : { until: Object.fromEntries(ends) };
}

/**
 * @param {unknown} text
 * @returns {End}
 */
function endOf(text) {
  const [whole = '', , zone = ''] = (typeof text === 'string' && MOMENT.exec(text)) || [];
  const [, sign, hours, minutes] = /([+-])(\d\d):(\d\d)/.exec(zone) ?? ['', '+', '0', '0'];
  return { at: new Date(whole === '' ? NaN : whole), offset: Number(`${sign}1`) * (Number(hours) * 60 + Number(minutes)) };
}

/**
 * The links, for the foot of the page.
 * @param {Department} of
 */
export function departmentLinks(of) {
  /** @param {LinkName} name */
  const link = (name) => make('a', { href: of[name], target: '_blank', rel: 'noopener noreferrer', text: words.departmentLinks[name] });
  return LINKS.filter((name) => of[name] !== undefined).map(link);
}
