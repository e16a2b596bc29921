// How it is decided and who sees what, for whoever is asked: a fold with the answers of a role, whose texts come when it is opened.

import { make } from './dom.js';
import { speak, words } from './words.js';

/** @typedef {keyof Words['answers']} Answer */

/** @type {Record<'lecturer' | 'office', Answer[]>} */
export const ASKED = {
  lecturer: ['how', 'rank', 'sees', 'fill', 'codes', 'game', 'waiting'],
  office: ['how', 'why', 'fair', 'sees', 'fill', 'codes', 'game', 'waiting', 'proven'],
};

/**
 * @param {'lecturer' | 'office'} role
 * @param {string} title
 * @param {string | false} style
 */
export function answersFold(role, title, style = 'decided') {
  const inside = make('div');
  const fold = make('details', { class: style }, [make('summary', { text: title }), inside]);
  fold.addEventListener('toggle', async () => {
    if (!fold.open || inside.querySelector('h3') !== null) return;
    inside.replaceChildren(...((await speak(words.language, 'answers')) ? [answersOf(ASKED[role])] : [make('p', { text: words.lost })]));
  });
  return fold;
}

/** @param {Answer[]} names */
export function answersOf(names) {
  return make('div', { class: 'answers' }, names.map((name) => {
    const { title, texts } = words.answers[name];
    return make('div', {}, [make('h3', { text: title }), ...texts.map((text) => make('p', { text }))]);
  }));
}
