// Every text of the page, in the language that was chosen. Each language has its texts in files of their own: words-LANGUAGE.js for
// everybody, and words-LANGUAGE-PART.js for each role, and for what comes when it is asked for, with the same keys. No browser loads
// another language, or what another role alone sees. English is the source: a new text is written there. A new language is one more line of
// LANGUAGES.

import { keep, kept } from './store.js';

const KEPT = 'portal-language';

/**
 * The languages, each by what it is called in itself, and where its texts are: those of everybody and the other parts.
 * @type {Record<string, { name: string, all: () => Promise<{ words: object }> } & Record<TextPart, () => Promise<{ words: object }>>>}
 */
export const LANGUAGES = {
  en: {
    name: 'English',
    all: () => import('./words-en.js'),
    student: () => import('./words-en-student.js'),
    lecturer: () => import('./words-en-lecturer.js'),
    office: () => import('./words-en-office.js'),
    rolls: () => import('./words-en-rolls.js'),
    order: () => import('./words-en-order.js'),
    answers: () => import('./words-en-answers.js'),
  },
  de: {
    name: 'Deutsch',
    all: () => import('./words-de.js'),
    student: () => import('./words-de-student.js'),
    lecturer: () => import('./words-de-lecturer.js'),
    office: () => import('./words-de-office.js'),
    rolls: () => import('./words-de-rolls.js'),
    order: () => import('./words-de-order.js'),
    answers: () => import('./words-de-answers.js'),
  },
};

/**
 * The texts, once a language is spoken. What is read here while the page is put together is in the language that was chosen last.
 * @type {Words}
 */
export const words = Object.create(null);

/** @type {Set<TextPart>} The parts that were asked for. */
const asked = new Set();

/**
 * From now on the texts are those of this language. Where its files do not come, they stay as they are.
 * @param {string} language
 * @param {TextPart[]} parts that are wanted too, from now on
 * @returns whether they came
 */
export async function speak(language, ...parts) {
  const of = LANGUAGES[language];
  try {
    const wanted = [...new Set([...asked, ...parts])];
    for (const part of await Promise.all([of.all(), ...wanted.map((one) => of[one]())])) Object.assign(words, part.words);
    for (const one of wanted) asked.add(one);
    return true;
  } catch {
    return false;
  }
}

/**
 * Keeps the language for the next time.
 * @param {string} language
 */
export const chooseLanguage = (language) => keep(KEPT, language);

/**
 * The language to begin with: the one that was chosen before, or the first one that the browser wants, or the department's first.
 * @param {string[]} offered those to choose from
 * @param {readonly string[]} wanted those that the browser asks for, as `de-CH`
 */
export function firstLanguage(offered, wanted) {
  const all = [kept(KEPT), ...wanted.map((one) => one.split('-')[0])];
  return all.find((one) => offered.includes(one)) ?? offered[0];
}

/** The languages that are offered: those of the department that the page has, or all of the page. */
export function offeredLanguages(department = Object.keys(LANGUAGES)) {
  const known = department.filter((one) => Object.hasOwn(LANGUAGES, one));
  return known.length > 0 ? known : Object.keys(LANGUAGES);
}

/**
 * A name that people gave, set apart so that letters from right to left do not turn the sentence around it.
 * @param {string} text
 */
export const apart = (text) => `\u2068${text}\u2069`;

/**
 * The texts of a file as they are: by this, tsc knows that their parts need no types of their own.
 * @template {Wording} Texts
 * @param {Texts} all
 */
export const texts = (all) => all;
