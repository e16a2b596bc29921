// The own list or ranking: changed, taken back, saved, and printed as it is saved. What is not saved stays in this tab. Where another one
// was saved meanwhile, elsewhere, it is asked which one stays.

import { button, isUsable, make, part, setUsable } from './dom.js';
import { choose } from './frame.js';
import { OrderedList, fixedList, isSame } from './ordered.js';
import { Refused, told } from './requests.js';
import { receiptButton } from './paper.js';
import { draftOf, forgetDraft, keepDraft } from './store.js';
import { words } from './words.js';
import { isSameStep, roundOf, soonText } from './year.js';

// So many changes can be taken back.
const STEPS = 200;
// How often it is looked how near the end of the stage is; how often, and how many times, whether what got no reply was saved.
const NEAR = 20_000;
const LOOK = 3_000;
const LOOKS = 20;

/** @param {Me} me */
const draftName = (me) => `${me.role} ${me.key} ${roundOf(me)}`;

// When this tab saved a list stands beside it: of another one nothing is said.
/** @param {Me} me */
const savingName = (me) => `${draftName(me)} saved`;

/**
 * When this tab has saved the list: a text, or none.
 * @param {Me} me
 * @param {string[]} keys of the list as it is saved
 */
export function savedLines(me, keys) {
  const last = /** @type {{ keys: string[], at: number } | null} */ (draftOf(savingName(me)));
  if (last === null || !isSame(last.keys, keys)) return [];
  const at = new Date(last.at);
  const isToday = at.toDateString() === new Date().toDateString();
  return [words.savedAt(at.toLocaleString(words.dates, { dateStyle: isToday ? undefined : 'medium', timeStyle: 'short' }))];
}

export class ListEditor {
  #of;
  /** @type {string[] | null} */
  #saved;
  // What was saved when this list was begun; another tab may have saved another one since.
  /** @type {string[]} */
  #base;
  #isSaving = false;
  // No reply came, so that it may be saved or not.
  #isUnsure = false;
  #list;
  /** @type {string[][]} */
  #earlier = [];
  #state = make('span', { class: 'state' });
  #count = make('span', { class: 'count' });
  #save;
  #undo = button(words.undo, () => isUsable(this.#undo) && this.#takeBack(), { class: 'undo' });
  #back = button(words.backToSaved, () => isUsable(this.#back) && this.#goBackToSaved());
  #receipt;
  #show;
  #how = make('details', {}, [make('summary', { text: words.orderHow }), make('p', { class: 'quiet', text: words.orderHint })]);
  /** The row that saves the list, and takes changes back. It stays in view. */
  bar;
  /** What stands with the list. */
  tools;

  /** @param {EditorOf} of */
  constructor(of) {
    const { texts, page } = of;
    const draft = /** @type {Draft | null} */ (draftOf(draftName(page.me)));
    this.#of = of;
    this.#saved = of.saved;
    this.#base = draft?.base ?? [];
    this.#list = new OrderedList({
      label: texts.label,
      keys: draft?.keys.filter(of.isThere) ?? of.saved ?? of.first ?? [],
      show: of.show,
      name: of.name,
      changed: (before) => this.#changed(before),
      announce: (text) => page.messages.announce(text),
      skip: { text: texts.skip, aim: () => (this.#save.disabled ? this.#undo : this.#save) },
    });
    if (draft !== null && this.isChanged()) page.messages.say(words.draftBack);
    else this.#begin(of.saved ?? []);
    const gone = draft?.keys.filter((key) => !of.isThere(key)) ?? [];
    if (gone.length > 0) page.messages.warn(words.draftLess(words.listed(gone.map(of.name))));
    this.#save = button(texts.save, () => isUsable(this.#save) && this.#press(), { class: 'main' });
    this.#receipt =
      receiptButton({ title: texts.label, me: page.me, entries: () => (this.#saved ?? []).map(of.show), lines: () => this.#savedLines() });
    this.#show = this.#showButton();
    this.bar = make('div', { class: 'save-row' }, [this.#save, this.#undo, this.#state, this.#count, this.#show]);
    const timer = setInterval(() => (this.bar.isConnected ? this.#showState() : clearInterval(timer)), NEAR);
    this.tools = make('div', { class: 'tools' }, [make('div', { class: 'buttons' }, [this.#back, this.#receipt]), this.#how]);
  }

  get list() {
    return this.#list;
  }

  get keys() {
    return this.#list.keys;
  }

  isChanged() {
    return !isSame(this.keys, this.#saved ?? []);
  }

  /** Something would be lost by leaving: what the page has made by itself would not. */
  isAtRisk() {
    return this.isChanged() && !this.#isFirst;
  }

  get saveButton() {
    return this.#save;
  }

  /** Shows what can be done now. The page calls it once, when it is put together. */
  update() {
    this.#save.disabled = this.#left > 0 || this.#isSaved;
    setUsable(this.#save, !this.#isSaving);
    this.#showState();
    this.#count.textContent = this.#of.texts.count(this.keys.length);
    setUsable(this.#undo, this.#earlier.length > 0);
    setUsable(this.#back, this.isChanged());
    this.#back.hidden = this.#isFirst || (this.keys.length === 0 && !this.isChanged());
    this.#how.hidden = this.keys.length < 2;
    this.#receipt.hidden = (this.#saved ?? []).length === 0;
    this.#of.changed(this.keys);
  }

  get #left() {
    return this.#of.missing(this.keys);
  }

  get #isSaved() {
    return this.#saved !== null && !this.isChanged();
  }

  // The page has made it, and nobody has changed or saved anything.
  get #isFirst() {
    return this.#saved === null && this.#of.first !== undefined && isSame(this.keys, this.#of.first);
  }

  // What is not saved is told with how near the end of the stage is.
  #showState() {
    const isOpen = !this.#isSaved || this.keys.length === 0;
    const soon = isOpen && !this.#isSaving ? soonText(this.#of.page.me, this.#of.page.until) : '';
    const wasSoon = this.bar.classList.contains('soon');
    this.bar.classList.toggle('unsaved', !this.#isSaved);
    this.bar.classList.toggle('soon', soon !== '');
    this.#state.textContent = [this.#stateText(), soon].filter((text) => text !== '').join(' – ');
    if (soon !== '' && !wasSoon && this.bar.isConnected) this.#of.page.messages.announce(this.#state.textContent);
  }

  #stateText() {
    if (this.#isSaving) return words.saving;
    if (this.#isSaved) return this.#savedLines()[0] ?? (this.keys.length === 0 ? this.#of.texts.none : undefined) ?? words.isSaved;
    if (this.#left > 0) return this.#of.texts.missing(this.#left);
    if (this.#isFirst) return words.notYetSaved;
    return this.#isUnsure ? words.perhapsSaved : words.isChanged;
  }

  #savedLines() {
    return savedLines(this.#of.page.me, this.#saved ?? []);
  }

  /** Saves what is on the page, as the button does. */
  async save() {
    await this.#press();
  }

  // In a narrow window it leads to the list, and from there back to what the list is made of.
  #showButton() {
    const { texts, back } = this.#of;
    let isThere = false;
    const show = button(texts.show, () => {
      const aim = isThere && back ? back.aim() : this.#list.element;
      aim?.focus({ preventScroll: true });
      aim?.scrollIntoView();
    }, { class: 'show' });
    const see = (/** @type {IntersectionObserverEntry[]} */ entries) => {
      isThere = back !== undefined && entries.at(-1)?.isIntersecting === true;
      show.textContent = isThere && back ? back.short : texts.show;
      show.ariaLabel = isThere && back ? back.text : null;
    };
    new IntersectionObserver(see, { rootMargin: '0px 0px -40% 0px' }).observe(this.#list.element);
    return show;
  }

  /** @param {string[]} before */
  #changed(before) {
    this.#of.page.messages.settle();
    this.#earlier = [...this.#earlier.slice(1 - STEPS), before];
    this.#keepDraft();
    this.update();
  }

  #keepDraft() {
    const name = draftName(this.#of.page.me);
    if (this.isChanged()) keepDraft(name, { base: this.#base, keys: this.keys });
    else forgetDraft(name);
  }

  #takeBack() {
    const [keys, now] = [this.#earlier.at(-1) ?? [], this.keys];
    const rest = this.#earlier.slice(0, -1);
    this.#list.set(keys);
    this.#earlier = rest;
    this.update();
    this.#of.page.messages.announce(words.undone);
    const toggled = [...keys, ...now].filter((key) => keys.includes(key) !== now.includes(key));
    if (toggled.length === 1) this.#of.look?.(toggled[0]);
  }

  #goBackToSaved() {
    this.#list.set(this.#saved ?? []);
    if (this.#back.hidden) this.#list.element.focus({ preventScroll: true });
    this.#of.page.messages.say(words.isBackToSaved);
  }

  /** Looks what is saved, asks where that is another one than was shown, and saves. */
  async #press() {
    const { attempt } = this.#of.page;
    const keys = this.keys;
    const how = {
      refused: (/** @type {Refused} */ fault) => ({ text: told(fault, keys.map(this.#of.name)) }),
      lost: () => ({ text: words.lost, again: words.tryAgain, press: () => this.#press() }),
    };
    this.#isUnsure = false;
    /** @type {string[] | null} */
    let other = null;
    await this.#whileSaving(async () => {
      if (!(await attempt(async () => { other = await this.#savedElsewhere(keys); }, how))) return;
      if (other !== null && !(await this.#isMineKept(keys, other))) return;
      const lost = () => {
        this.#lookWhether(keys);
        return { ...how.lost(), text: words.lostSave };
      };
      await attempt(() => this.#store(keys), { ...how, lost, goesOn: true });
    });
  }

  // While it is being saved it cannot be saved once more.
  /** @param {() => Promise<void>} action */
  async #whileSaving(action) {
    this.#isSaving = true;
    this.update();
    try {
      await action();
    } finally {
      this.#isSaving = false;
      this.update();
    }
  }

  /**
   * What somebody saved that this page does not show, or null.
   * @param {string[]} keys
   * @returns {Promise<string[] | null>}
   */
  async #savedElsewhere(keys) {
    const { path, member, page } = this.#of;
    const now = (await page.portal.get(path))[member] ?? [];
    if (isSame(now, this.#base) || isSame(now, keys)) return null;
    // a list of another step of the year is no other version of this one
    if (!isSameStep(await page.portal.get('/me'), page.me)) throw new Refused(409, { error: 'wrong_phase' });
    return now;
  }

  /** @param {string[]} keys @param {string[]} other */
  async #isMineKept(keys, other) {
    const { texts, show, page } = this.#of;
    /** @param {string} title @param {string[]} list */
    const column = (title, list) => make('div', {}, [make('h3', { text: title }), list.length === 0
      ? make('p', { text: words.empty })
      : fixedList(title, list.map(show))]);
    const said = [
      make('p', { text: words.savedMeanwhile }),
      make('div', { class: 'both' }, [column(words.listHere, keys), column(words.listSaved, other)]),
    ];
    const answer = await choose(texts.which, said, [{ name: words.keepHere, value: 'here' }, { name: words.keepSaved, value: 'saved' }, {
      name: words.cancel,
      value: null,
    }]);
    if (answer === 'saved') {
      this.#isNow(other);
      this.#list.set(other);
      this.update();
      page.messages.say(words.keptSaved);
    }
    return answer === 'here';
  }

  // What is changed while the reply is waited for stays, and is then not saved yet.
  /** @param {string[]} keys */
  async #store(keys) {
    const { path, member, texts, page, stored } = this.#of;
    const hadFocus = document.activeElement === this.#save;
    this.#isNow((await page.portal.put(path, { [member]: keys }))[member]);
    keepDraft(savingName(page.me), { keys: this.#saved, at: Date.now() });
    stored?.();
    this.#isSaving = false;
    this.update();
    if (hadFocus) this.#list.element.focus({ preventScroll: true });
    page.messages.say(texts.saved(keys.length));
  }

  /**
   * The portal may have saved what it gave no reply to: that is looked for until it is known.
   * @param {string[]} keys
   */
  async #lookWhether(keys) {
    const { path, member, page } = this.#of;
    this.#isUnsure = true;
    for (let looks = 0; looks < LOOKS && this.#isUnsure; looks++) {
      await new Promise((resolve) => setTimeout(resolve, LOOK));
      if (!this.bar.isConnected || !this.#isUnsure || this.#isSaving) return;
      try {
        const now = (await page.portal.get(path))[member];
        if (this.#isUnsure && !this.#isSaving) this.#isKnown(keys, now);
      } catch {
        // it is looked for again
      }
    }
  }

  /** @param {string[]} keys that were sent @param {string[] | null} now */
  #isKnown(keys, now) {
    const { page, texts, stored } = this.#of;
    this.#isUnsure = false;
    if (now !== null && isSame(now, keys)) {
      this.#isNow(now);
      keepDraft(savingName(page.me), { keys, at: Date.now() });
      stored?.();
      page.messages.clear();
      page.messages.say(texts.saved(keys.length));
    } else if (isSame(now ?? [], this.#base)) page.messages.warn(words.notSaved, { again: words.tryAgain, press: () => this.#press() });
    this.update();
  }

  /** @param {string[]} saved */
  #isNow(saved) {
    this.#saved = saved;
    this.#begin(saved);
  }

  /** @param {string[]} saved what the list is begun on from now on */
  #begin(saved) {
    this.#base = saved;
    this.#keepDraft();
  }
}

/**
 * A list that was not saved before it was closed, to read and to copy; nothing where there is none.
 * @param {PageOf} page
 * @param {string[] | null} saved
 * @param {{ show: (key: string) => Node, name: (key: string) => string }} of
 * @returns {Node[]}
 */
export function unsavedPart({ me, messages }, saved, { show, name }) {
  const draft = /** @type {Draft | null} */ (draftOf(draftName(me)));
  if (draft === null || isSame(draft.keys, saved ?? [])) return [];
  const copy = async () => {
    try {
      await navigator.clipboard.writeText(draft.keys.map((key) => `${key}\t${name(key)}`).join('\n'));
      messages.say(words.copiedLines(draft.keys.length));
    } catch {
      messages.warn(words.notCopied);
    }
  };
  const drop = () => {
    forgetDraft(draftName(me));
    element.remove();
  };
  const list = draft.keys.length === 0 ? make('p', { text: words.empty }) : fixedList(words.unsaved, draft.keys.map(show));
  const buttons = make('div', { class: 'buttons' }, [button(words.copyUnsaved, copy), button(words.dropUnsaved, drop)]);
  const element = part(words.unsaved, [make('p', { text: words.unsavedList }), list, buttons], { class: 'unsaved-list' });
  return [element];
}
