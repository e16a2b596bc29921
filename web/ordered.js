// A list in an order, best first: put in order by buttons, by keys, by the number of a position and by dragging; and the same to look at.

import { button, isUsable, make, setUsable, skipLink } from './dom.js';
import { isFound } from './found.js';
import { words } from './words.js';

// Lists of keys, best first. Each function answers a new list.

/** @param {string[]} keys @param {string} key */
export const added = (keys, key) => (keys.includes(key) ? keys : [...keys, key]);

/** @param {string[]} keys @param {string} key */
export const removed = (keys, key) => keys.filter((other) => other !== key);

/**
 * The list with `key` moved to the position `to`, counted from 0; a position outside is the first or the last.
 * @param {string[]} keys
 * @param {string} key
 * @param {number} to
 */
export function moved(keys, key, to) {
  if (!keys.includes(key)) return keys;
  const others = removed(keys, key);
  const at = Math.max(0, Math.min(to, others.length));
  return [...others.slice(0, at), key, ...others.slice(at)];
}

/** @param {string[]} a @param {string[]} b */
export const isSame = (a, b) => a.length === b.length && a.every((key, place) => key === b[place]);

/** @type {{ [key: string]: (at: number) => number }} */
const KEYS = { ArrowUp: (at) => at - 1, ArrowDown: (at) => at + 1, Home: () => 0, End: () => Infinity };
// They are meant where the focus came by keyboard, or with Alt: after a click they scroll. Of an entry that was moved the browser does not
// tell. In the field of a position these keys move within its number.
const OF_FIELD = ['Home', 'End'];

let isByKeyboard = true;
globalThis.addEventListener?.('pointerdown', () => { isByKeyboard = false; }, { capture: true });
globalThis.addEventListener?.('keydown', ({ key }) => { isByKeyboard ||= key === 'Tab'; }, { capture: true });

export class OrderedList {
  /** @type {string[]} */
  #keys = [];
  /** @type {Map<string, HTMLElement>} */
  #entries = new Map();
  #of;
  #search = '';
  element;

  /** @param {ListOf} of */
  constructor(of) {
    this.#of = of;
    this.element = make('ol', { class: 'ordered', role: 'list', tabindex: '-1', 'aria-label': of.label });
    if (of.skip) this.#leadOut(skipLink(of.skip.text, of.skip.aim));
    this.#show(of.keys);
  }

  // From each entry what saves the list is near.
  /** @param {HTMLElement} link */
  #leadOut(link) {
    this.element.addEventListener('focusin', (event) => {
      const entry = /** @type {Element} */ (event.target).closest('li');
      if (entry !== null && !entry.contains(link)) entry.append(link);
    });
  }

  get keys() {
    return this.#keys;
  }

  /** @param {string} key */
  add(key) {
    if (this.#keys.includes(key)) return;
    this.set(added(this.#keys, key));
    this.#sayPlace(key);
  }

  /** @param {string} key @param {number} to */
  move(key, to) {
    this.set(moved(this.#keys, key, to));
    this.#sayPlace(key);
  }

  /**
   * Removes an entry from outside of the list.
   * @param {string} key
   */
  take(key) {
    this.set(removed(this.#keys, key));
    this.#of.announce(words.isGone(this.#of.name(key), this.#keys.length));
  }

  /** @param {string} key */
  remove(key) {
    const entry = this.#entries.get(key);
    const neighbour = entry?.nextElementSibling ?? entry?.previousElementSibling;
    this.take(key);
    (/** @type {HTMLElement | null | undefined} */ (neighbour?.querySelector('.remove')) ?? this.element).focus();
  }

  /**
   * Puts another list in the place of this one.
   * @param {string[]} keys
   */
  set(keys) {
    const before = this.#keys;
    if (isSame(before, keys)) return;
    this.#show(keys);
    this.#of.changed(before);
  }

  /**
   * Brings an entry into view.
   * @param {string} key
   */
  look(key) {
    this.#entries.get(key)?.scrollIntoView({ block: 'center' });
  }

  /**
   * Shows those entries alone that a search finds, with their positions, and answers how many.
   * @param {string} search
   */
  find(search) {
    this.#search = search;
    this.element.classList.toggle('searched', search.trim() !== '');
    for (const [key, entry] of this.#entries) entry.hidden = !isFound(`${this.#of.name(key)} ${key}`, search);
    return [...this.#entries.values()].filter((entry) => !entry.hidden).length;
  }

  /** @param {string} key */
  #sayPlace(key) {
    this.#of.announce(words.isAt(this.#of.name(key), this.#keys.indexOf(key) + 1, this.#keys.length));
  }

  // Only entries that are not at their position already are touched. One that has the focus keeps it.
  /** @param {string[]} keys */
  #show(keys) {
    const focused = document.activeElement;
    const wanted = new Set(keys);
    for (const key of this.#keys) if (!wanted.has(key)) this.#takeOut(key);
    let next = this.element.firstElementChild;
    for (const key of keys) {
      const entry = this.#entryOf(key);
      if (entry === next) next = next.nextElementSibling;
      else this.element.insertBefore(entry, next);
    }
    this.#keys = [...keys];
    this.#number();
    this.#tellApart();
    if (this.#search !== '') this.find(this.#search);
    if (!(focused instanceof HTMLElement) || !this.element.contains(focused)) return;
    focused.focus();
    focused.scrollIntoView({ block: 'nearest' });
  }

  // Where two entries are called alike, what else is known of them stays in sight in a long list too.
  #tellApart() {
    /** @type {Map<string, number>} */
    const counts = new Map();
    for (const key of this.#keys) counts.set(this.#of.name(key), (counts.get(this.#of.name(key)) ?? 0) + 1);
    for (const key of this.#keys) this.#entries.get(key)?.classList.toggle(
      'alike',
      /** @type {number} */ (counts.get(this.#of.name(key))) > 1,
    );
  }

  /** @param {string} key */
  #takeOut(key) {
    this.#entries.get(key)?.remove();
    this.#entries.delete(key);
  }

  /** @param {string} key */
  #entryOf(key) {
    const entry = this.#entries.get(key) ?? this.#entry(key);
    this.#entries.set(key, entry);
    return entry;
  }

  // The first entry cannot go up, the last one not down.
  #number() {
    const last = this.#keys.length - 1;
    [...this.element.children].forEach((entry, at) => {
      const [field] = entry.getElementsByTagName('input');
      const [up, down] = entry.getElementsByTagName('button');
      field.value = `${at + 1}`;
      field.max = `${last + 1}`;
      setUsable(up, at > 0);
      setUsable(down, at < last);
    });
  }

  /** @param {string} key */
  #entry(key) {
    const name = words.named(this.#of.name(key), key);
    /** @param {number} by */
    const press = (by) => (/** @type {MouseEvent} */ event) => {
      if (isUsable(/** @type {Element} */ (event.currentTarget))) this.move(key, this.#keys.indexOf(key) + by);
    };
    const place = make('input', { type: 'number', class: 'place', min: '1', 'aria-label': words.moveTo(name), title: words.moveTo(name) });
    place.addEventListener('change', () => this.#moveTo(key, place));
    place.addEventListener('wheel', () => place.blur());
    selectsAll(place);
    const entry = make('li', {}, [
      make('span', { class: 'handle', 'aria-hidden': 'true', text: '⠿' }),
      place,
      this.#of.show(key),
      make('span', { class: 'buttons' }, [
        button('↑', press(-1), { name: words.moveUp(name), class: 'up' }),
        button('↓', press(1), { name: words.moveDown(name), class: 'down' }),
        ...(this.#of.isWhole ? [] : [button('✕', () => this.remove(key), { name: words.remove(name), class: 'remove' })]),
      ]),
    ]);
    entry.dataset.key = key;
    entry.addEventListener('keydown', (event) => this.#byKey(event, key));
    entry.addEventListener('pointerdown', (event) => this.#drag(event, key, entry));
    return entry;
  }

  /** @param {string} key @param {HTMLInputElement} field */
  #moveTo(key, field) {
    const place = Number.parseInt(field.value, 10);
    if (place >= 1) this.move(key, place - 1);
    this.#number();
  }

  /** @param {KeyboardEvent} event @param {string} key */
  #byKey(event, key) {
    const to = KEYS[event.key];
    const isField = event.target instanceof HTMLInputElement;
    const isMeant = event.altKey || (isField ? !OF_FIELD.includes(event.key) : isByKeyboard);
    if (to === undefined || !isMeant || event.ctrlKey || event.metaKey) return;
    event.preventDefault();
    this.move(key, to(this.#keys.indexOf(key)));
  }

  // With a finger an entry is taken at its handle, so that the page can still be scrolled.
  /** @param {PointerEvent} down @param {string} key @param {HTMLElement} entry */
  #drag(down, key, entry) {
    const pressed = /** @type {Element} */ (down.target);
    const isHandle = pressed.classList.contains('handle');
    if (this.element.classList.contains('searched')) return;
    if (down.button !== 0 || pressed.closest('button, input, a') || (down.pointerType === 'touch' && !isHandle)) return;
    const before = this.#keys;
    follow(down, {
      moved: (y) => {
        entry.classList.add('dragged');
        this.#show(moved(this.#keys, key, this.#placeAt(y, entry)));
      },
      done: () => {
        entry.classList.remove('dragged');
        if (isSame(before, this.#keys)) return;
        this.#of.changed(before);
        this.#sayPlace(key);
      },
    });
  }

  // How many of the other entries stand above this height.
  /** @param {number} y @param {HTMLElement} entry */
  #placeAt(y, entry) {
    const others = [...this.element.children].filter((other) => other !== entry);
    return others.filter((other) => {
      const { top, height } = other.getBoundingClientRect();
      return top + height / 2 < y;
    }).length;
  }
}

/**
 * What is typed takes the place of the number that stands there, also after a click, which would take the selection away.
 * @param {HTMLInputElement} field
 */
function selectsAll(field) {
  let isNew = false;
  field.addEventListener('focus', () => {
    isNew = true;
    field.select();
  });
  field.addEventListener('click', () => {
    if (isNew) field.select();
    isNew = false;
  });
}

/**
 * The same list to look at.
 * @param {string} label
 * @param {Node[]} nodes
 */
export function fixedList(label, nodes) {
  return make('ol', { class: 'ordered fixed', role: 'list', 'aria-label': label }, nodes.map((node) => make('li', {}, [node])));
}

// Near the edge of the window, in pixels, the page scrolls in each picture by this part of how far the pointer is past that line.
const EDGE = 80;
const PART = 0.25;

/**
 * How far the page scrolls while the pointer, which began at `from`, is at `y` in a window that ends at `bottom`.
 * @param {number} y
 * @param {number} bottom
 * @param {number} from
 */
export function step(y, bottom, from) {
  if (y < EDGE && y < from) return Math.floor((y - EDGE) * PART);
  return y > bottom - EDGE && y > from ? Math.ceil((y - bottom + EDGE) * PART) : 0;
}

/**
 * Follows the pointer from when it is pressed until it is let go.
 * @param {PointerEvent} down
 * @param {{ moved: (y: number) => void, done: () => void }} how `moved` is handed the pointer's height in the window, `done` is called at
 *   the end
 */
function follow(down, how) {
  let y = down.clientY;
  let picture = 0;
  const dock = /** @type {HTMLElement | null} */ (document.querySelector('.dock'));
  const bottom = () => innerHeight - (dock?.offsetHeight ?? 0);
  const scroll = () => {
    const before = scrollY;
    scrollBy(0, step(y, bottom(), down.clientY));
    if (scrollY !== before) how.moved(y);
    picture = requestAnimationFrame(scroll);
  };
  /** @param {PointerEvent} event */
  const move = (event) => {
    y = event.clientY;
    how.moved(y);
    if (picture === 0) picture = requestAnimationFrame(scroll);
  };
  const end = () => {
    cancelAnimationFrame(picture);
    document.removeEventListener('pointermove', move);
    document.removeEventListener('pointerup', end);
    document.removeEventListener('pointercancel', end);
    how.done();
  };
  document.addEventListener('pointermove', move);
  document.addEventListener('pointerup', end);
  document.addEventListener('pointercancel', end);
}
