// The frame around each page: the header with the menu, the foot with the department; messages, and questions.

import { Notice, departmentLinks, nameOf } from './department.js';
import { button, given, labelled, make, measure, skipLink } from './dom.js';
import { LANGUAGES, words } from './words.js';

/** What the page is called, with its department; the tab's title tells the stage as well. */
export let pageTitle = '';

/**
 * Puts the frame into the document.
 * @param {object} of
 * @param {Department} of.department
 * @param {string[]} of.languages those to choose from
 * @param {(language: string) => Promise<void>} of.chosen is called with the one that was chosen
 * @param {() => void} of.signOut
 */
export function frame({ department, languages, chosen, signOut }) {
  // whose page it is stands in the line, and in the menu as well, since a narrow line has room for the name alone
  const who = [make('p', { class: 'who' }), make('p', { class: 'who' })];
  const out = button(words.signOut, signOut, { hidden: true });
  const top = header({ department, languages, chosen, who, out });
  const place = make('div');
  const dock = make('div', { class: 'dock' });
  const skips = make('div');
  const notice = new Notice();
  // they stand where the focus is when a page is shown, so that the first Tab leads to them
  const main = make('main', { tabindex: '-1' }, [skips, place, dock]);
  document.documentElement.lang = words.language;
  const own = nameOf(department);
  pageTitle = own === '' ? words.title : `${words.title} – ${own}`;
  document.body.replaceChildren(top, notice.element, main, ...foot(department));
  measure(dock, '--dock');
  new ResizeObserver(() => uncover(dock)).observe(dock);
  return {
    main,
    place,
    dock,
    /**
     * Tells whose page it is; nobody's, where `me` is null.
     * @param {Me | null} me
     */
    showWho(me) {
      document.title = me === null ? pageTitle : `${words.phases[me.phase]} – ${pageTitle}`;
      notice.show(me);
      out.hidden = me === null;
      top.classList.toggle('in', me !== null);
      /** @type {any} */ (top.lastElementChild).hidePopover?.();
      for (const line of who) {
        const name = me?.name === undefined ? [] : [given(me.name), make('span', { class: 'key', text: me.key })];
        line.replaceChildren(...(me === null ? [] : [make('span', { text: words.roles[me.role] }), ...name]));
      }
    },
    /** @param {Aim[]} aims of the skip links before the page */
    setAims(aims) {
      skips.replaceChildren(...aims.map(({ text, aim }) => skipLink(text, aim)));
    },
  };
}

/**
 * @param {object} of
 * @param {Department} of.department
 * @param {string[]} of.languages
 * @param {(language: string) => Promise<void>} of.chosen
 * @param {HTMLElement[]} of.who
 * @param {HTMLElement} of.out
 */
function header({ department, languages, chosen, who, out }) {
  const name = nameOf(department) === '' ? [] : [make('p', { class: 'department' }, [given(nameOf(department))])];
  const options = languages.map((language) => make('option', { value: language, text: LANGUAGES[language].name, lang: language }));
  const select = make('select', { class: 'language' }, options);
  select.value = words.language;
  select.addEventListener('change', async () => {
    await chosen(select.value);
    select.value = words.language;
  });
  const control = languages.length > 1 ? [labelled(words.languageLabel, select)] : [];
  // a narrow line has a button that shows the rest of it; a wide one has it all
  const menu = button('☰', () => {}, { name: words.menu, class: 'menu', popovertarget: 'menu' });
  const rest = make('div', { class: 'rest', id: 'menu', popover: 'auto' }, [who[1], ...control, out]);
  return make('header', {}, [make('div', { class: 'titles' }, [make('h1', { text: words.title }), ...name]), who[0], menu, rest]);
}

/** @param {Department} department */
function foot(department) {
  const links = departmentLinks(department);
  return links.length === 0 ? [] : [make('footer', {}, [make('span', {}, [given(nameOf(department))]), ...links])];
}

/**
 * What has the focus, and so what is being done, is not left under the dock when that grows.
 * @param {HTMLElement} dock
 */
function uncover(dock) {
  const { activeElement } = document;
  if (activeElement === null || activeElement.tagName === 'MAIN' || dock.contains(activeElement)) return;
  const { top, bottom } = activeElement.getBoundingClientRect();
  const edge = dock.getBoundingClientRect().top;
  if (bottom > edge && top < innerHeight && bottom - top < edge) scrollBy(0, bottom - edge + 8);
}

// After so many milliseconds a person is told that it takes a moment; after so many what was done is not shown any more.
const SLOW = 700;
const SHOWN = 5_000;

/**
 * What was done, and what went wrong: `say` tells an outcome, which goes by itself; `warn` a refusal, which stays until it is closed or
 * something else is begun. `announce` speaks to screen readers alone.
 */
export class Messages {
  #status = make('p', { role: 'status', class: 'says' });
  #alert = make('div', { role: 'alert' });
  #spoken = make('p', { 'aria-live': 'polite', class: 'spoken' });
  #close = button('✕', () => this.#shut(), { name: words.closeMessage, class: 'close', hidden: true });
  #goes = 0;
  // What can be tried again is not done yet, whatever else is.
  #isOpen = false;
  /** @type {Element | null} */
  #from = null;
  element = make('div', { class: 'messages' }, [this.#alert, this.#close, this.#status, this.#spoken]);

  constructor() {
    const end = new AbortController();
    document.addEventListener('keydown', (event) => {
      if (!this.element.isConnected) end.abort();
      else if (event.key === 'Escape' && document.querySelector('dialog') === null) this.#shut();
    }, { signal: end.signal });
  }

  /**
   * Where a bar stays in view, outcomes are told in its line: nothing else is covered.
   * @param {HTMLElement} bar
   */
  tellIn(bar) {
    bar.append(this.#status);
  }

  /** @param {string} text */
  say(text) {
    this.#tell(text);
    if (text !== '') this.#goes = setTimeout(() => this.#tell(''), SHOWN);
  }

  /** @param {string} text */
  announce(text) {
    this.#spoken.textContent = text;
  }

  clear() {
    this.#tell('');
    this.#show([]);
  }

  /** Something was done: what went wrong before is over, unless it can be tried again. */
  settle() {
    if (!this.#isOpen) this.#show([]);
  }

  /** Says that a moment is needed, if it comes to that, until the function is called that is answered here. */
  waiting() {
    const timer = setTimeout(() => {
      this.#tell(words.loading);
      this.#status.classList.add('waits');
    }, SLOW);
    return () => {
      clearTimeout(timer);
      if (this.#status.textContent === words.loading) this.#tell('');
    };
  }

  /**
   * @param {string} text
   * @param {Warning} more
   */
  warn(text, { lead = '', line = undefined, again = undefined, press = () => {} } = {}) {
    /** @type {Node[]} */
    const parts = [make('p', { text })];
    if (line !== undefined) parts.push(make('p', { text: lead }), make('pre', { class: 'line', text: line, dir: 'auto' }));
    if (again !== undefined) parts.push(button(again, press));
    // what is still waited for goes on
    if (this.#status.textContent !== words.loading) this.#tell('');
    this.#show(parts, again !== undefined);
  }

  /** @param {string} text */
  #tell(text) {
    clearTimeout(this.#goes);
    this.#status.textContent = text;
    this.#status.classList.remove('waits');
  }

  /** @param {Node[]} alert */
  #show(alert, isOpen = false) {
    this.#isOpen = isOpen;
    if (!this.element.contains(document.activeElement)) this.#from = document.activeElement;
    this.#alert.replaceChildren(...alert);
    this.#close.hidden = alert.length === 0;
  }

  // Whoever closed it is back where the work is.
  #shut() {
    const hadFocus = this.element.contains(document.activeElement);
    this.clear();
    if (hadFocus && this.#from instanceof HTMLElement) this.#from.focus();
  }
}

let asked = 0;

/**
 * Asks, and answers the value of what was chosen, or null for the Escape key. The last answer has the focus first.
 * @template Value
 * @param {string} question
 * @param {Node[]} said what stands under it
 * @param {{ name: string, value: Value, isMain?: boolean }[]} answers
 * @returns {Promise<Value | null>}
 */
export function choose(question, said, answers) {
  const title = `question-${++asked}`;
  const text = `${title}-text`;
  return new Promise((resolve) => {
    /** @param {Value | null} value */
    const end = (value) => {
      dialog.close();
      dialog.remove();
      resolve(value);
    };
    const buttons = answers.map(({ name, value, isMain = false }) => button(name, () => end(value), { class: isMain && 'main' }));
    const dialog = make('dialog', { 'aria-labelledby': title, 'aria-describedby': text, on: { cancel: () => end(null) } }, [
      make('h2', { id: title, text: question }),
      make('div', { id: text }, said),
      make('div', { class: 'buttons' }, buttons),
    ]);
    document.body.append(dialog);
    dialog.showModal();
    // a long question is read from its beginning
    buttons.at(-1)?.focus({ preventScroll: true });
    dialog.scrollTop = 0;
  });
}

/**
 * Asks whether something is to be done.
 * @param {Question} question
 */
export async function ask({ title, risk = '', lines = [], verb, stay }) {
  const said = lines.filter((line) => line !== '').map((text) => make('p', { text }));
  if (risk !== '') said.unshift(make('p', { class: 'risk', text: risk }));
  return (await choose(title, said, [
    { name: verb, value: true, isMain: risk === '' },
    { name: stay, value: false, isMain: risk !== '' },
  ])) === true;
}

/** Answers an open question as the Escape key does. */
export function dismiss() {
  for (const dialog of document.querySelectorAll('dialog')) dialog.dispatchEvent(new Event('cancel'));
}
