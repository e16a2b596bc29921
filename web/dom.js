// Elements of the page. Every text goes in by textContent: nothing that the portal says is ever read as HTML.

/**
 * Makes an element.
 * @template {keyof HTMLElementTagNameMap} Tag
 * @param {Tag} tag
 * @param {Has} has
 * @param {Node[]} children
 * @returns {HTMLElementTagNameMap[Tag]}
 */
export function make(tag, has = {}, children = []) {
  const { text, on = {}, ...attributes } = has;
  const element = document.createElement(tag);
  if (text !== undefined) element.textContent = `${text}`;
  for (const [name, value] of Object.entries(attributes)) {
    if (value === true) element.setAttribute(name, '');
    else if (value !== false && value !== undefined) element.setAttribute(name, `${value}`);
  }
  for (const [event, listener] of Object.entries(on)) element.addEventListener(event, listener);
  element.append(...children);
  return element;
}

/**
 * A button with a text.
 * @param {string} text
 * @param {Listener} press
 * @param {Has & { name?: string }} has `name`, what it is called where the text alone does not say it, as "Add" of one of many rows
 */
export function button(text, press, has = {}) {
  const { name, ...attributes } = has;
  return make('button', { type: 'button', text, 'aria-label': name, title: name, ...attributes, on: { click: press } });
}

/**
 * A name or title that people gave: set in its own direction, so that it disturbs no text around it.
 * @param {string} text
 */
export function given(text, has = {}) {
  return make('bdi', { text, ...has });
}

/**
 * A sentence with names in it, each as an element of its own.
 * @param {string} text that has them between the signs that set them apart
 */
export const withNames = (text) =>
  text.split(/[\u2068\u2069]/).map((piece, at) => (at % 2 === 1 ? given(piece) : document.createTextNode(piece)));

/**
 * A title with its key, or another text, in small letters under it, and what else is said of it.
 * @param {string} title
 * @param {string} key
 * @param {Node[]} more
 */
export function titled(title, key, more = []) {
  return make('span', { class: 'titled' }, [given(title), make('span', { class: 'key', text: key }), ...more]);
}

let parts = 0;

/**
 * A section that is called by its heading.
 * @param {string} title
 * @param {Node[]} children
 */
export function part(title, children, has = {}) {
  const id = `part-${++parts}`;
  return make('section', { 'aria-labelledby': id, ...has }, [make('h2', { id, text: title }), ...children]);
}

/**
 * A field with its label before it.
 * @param {string} text
 * @param {Node} field
 */
export function labelled(text, field) {
  return make('label', { class: 'field' }, [make('span', { text }), field]);
}

/**
 * A link that is seen while it has the focus, and leads the focus past what stands between.
 * @param {string} text
 * @param {() => HTMLElement | null | undefined} aim
 */
export function skipLink(text, aim) {
  const press = (/** @type {Event} */ event) => {
    event.preventDefault();
    aim()?.focus();
    aim()?.scrollIntoView({ block: 'nearest' });
  };
  return make('a', { class: 'skip', href: '#', text, on: { click: press } });
}

/**
 * Tells the style sheet the height of an element, whenever it changes.
 * @param {HTMLElement} element
 * @param {string} name
 */
export function measure(element, name) {
  new ResizeObserver(() => document.documentElement.style.setProperty(name, `${element.offsetHeight}px`)).observe(element);
}

/**
 * A button that cannot be used now, but keeps the focus of whoever has just pressed it.
 * @param {Element} element
 * @param {boolean} usable
 */
export function setUsable(element, usable) {
  if (usable) element.removeAttribute('aria-disabled');
  else element.setAttribute('aria-disabled', 'true');
}

/** @param {Element} element */
export const isUsable = (element) => element.getAttribute('aria-disabled') !== 'true';

/**
 * Part of a whole as a bar. The numbers stand in a text beside it, so that it is only to look at.
 * @param {number} count
 * @param {number} whole
 */
export function bar(count, whole) {
  const filled = make('span', { class: 'filled' });
  filled.style.width = `${whole === 0 ? 0 : Math.min(100, (100 * count) / whole)}%`;
  return make('span', { class: 'bar', 'aria-hidden': 'true' }, [filled]);
}

// Spreadsheets take a file for UTF-8 where it begins with this.
const MARK = '\ufeff';

/**
 * Gives a text, or bytes, to the browser as a file to keep.
 * @param {string} name
 * @param {string | Uint8Array} content
 * @param {string} type
 */
export function download(name, content, type) {
  const isMarked = typeof content !== 'string' || content.startsWith(MARK);
  const address = URL.createObjectURL(new Blob([isMarked ? content : MARK + content], { type }));
  const link = make('a', { href: address, download: name, class: 'unseen' });
  document.body.append(link);
  link.click();
  link.remove();
  setTimeout(() => URL.revokeObjectURL(address), 60_000);
}

/**
 * Prints one part of the page alone, by the classes that the print style knows; a fold around it is opened for that.
 * @param {Element} paper
 */
export function print(paper) {
  const fold = paper.closest('details');
  const wasOpen = fold?.open ?? false;
  const mark = (/** @type {boolean} */ isPrinted) => {
    paper.classList.toggle('printed', isPrinted);
    document.body.classList.toggle('prints-part', isPrinted);
    if (fold) fold.open = isPrinted || wasOpen;
  };
  mark(true);
  addEventListener('afterprint', () => mark(false), { once: true });
  window.print();
}

/**
 * A style sheet that not everybody needs; without it the page works too.
 * @param {string} href
 */
export function styled(href) {
  if (document.querySelector(`link[href="${href}"]`) !== null) return null;
  return new Promise((resolve) => {
    document.head.append(make('link', { rel: 'stylesheet', href, on: { load: resolve, error: resolve } }));
  });
}
