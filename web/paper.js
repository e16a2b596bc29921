// What a person prints: a paper that is seen in print alone, and on it a list as it is saved.

import { button, given, make, print } from './dom.js';
import { pageTitle } from './frame.js';
import { words } from './words.js';
import { roundOf } from './year.js';

/** A paper that is seen in print alone, and what prints it with these nodes on it. */
export function paper() {
  const sheet = make('div', { class: 'paper' });
  /** @param {Node[]} nodes */
  const printed = (nodes) => {
    sheet.replaceChildren(make('h2', { text: pageTitle }), ...nodes);
    print(sheet);
  };
  return { sheet, printed };
}

/**
 * A button that prints whose list it is, the list in its order, what became of it, and when it was saved and printed.
 * @param {object} of
 * @param {string} of.title
 * @param {{ name: string, key: string, round?: number }} of.me
 * @param {() => Node[]} of.entries a node for each entry
 * @param {() => string[]} of.lines what else is told, where it is known: when it was saved, and the result
 */
export function receiptButton({ title, me, entries, lines }) {
  const { sheet, printed } = paper();
  const press = () => {
    const when = new Date().toLocaleString(words.dates, { dateStyle: 'long', timeStyle: 'short' });
    printed([
      make('p', {}, [given(me.name), make('span', { text: ` (${me.key})` })]),
      make('h3', { text: roundOf(me) === 2 ? `${title}, ${words.round(2)}` : title }),
      make('ol', {}, entries().map((entry) => make('li', {}, [entry]))),
      ...lines().map((text) => make('p', { text })),
      make('p', { class: 'quiet', text: words.printed(when, location.host) }),
    ]);
  };
  return make('span', {}, [button(words.printReceipt, press), sheet]);
}
