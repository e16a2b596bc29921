// The ways by which a lecturer brings an order that was made elsewhere: by a spreadsheet, in three steps, or pasted into a field.

import { button, make } from './dom.js';
import { words } from './words.js';

/** @typedef {(bytes: Uint8Array) => unknown} UseOrder */

/**
 * The way by a spreadsheet, step by step, and the field. It takes the first of the tools, the file of the applicants.
 * @param {number} count of the applicants
 * @param {Element} tools
 * @param {UseOrder} use
 */
export function elsewherePart(count, tools, use) {
  const presses = [[/** @type {Element} */ (tools.firstElementChild)], [], fileButton(use)];
  const ways = words.ways.map((text, at) => make('li', {}, [make('p', { text }), make('div', { class: 'buttons' }, presses[at])]));
  return make('div', { class: 'elsewhere' }, [
    make('h3', { text: words.elsewhere(count) }),
    make('ol', { class: 'ways', role: 'list' }, ways),
    orderFold({ title: words.orderPaste, how: words.orderPasteHow, hasFile: false, use }),
  ]);
}

/**
 * A field for an order, folded, perhaps with the file.
 * @param {{ title: string, how: string, hasFile: boolean, use: UseOrder }} of
 */
export function orderFold({ title, how, hasFile, use }) {
  const field = make('textarea', { rows: '6', spellcheck: 'false' });
  const press = button(words.useOrder, () => use(new TextEncoder().encode(field.value)));
  return make('details', {}, [
    make('summary', { text: title }),
    make('p', { class: 'quiet', text: how }),
    make('label', { class: 'field' }, [make('span', { text: words.orderField }), field]),
    make('div', { class: 'buttons' }, [press, ...(hasFile ? fileButton(use) : [])]),
  ]);
}

/** @param {UseOrder} use */
function fileButton(use) {
  const file = make('input', { type: 'file', accept: '.xlsx,.csv,.txt,text/csv,text/plain', 'aria-label': words.orderFile, hidden: true });
  file.addEventListener('change', async () => {
    const [chosen] = file.files ?? [];
    if (chosen) use(new Uint8Array(await chosen.arrayBuffer()));
    file.value = '';
  });
  return [button(words.orderFile, () => file.click()), file];
}
