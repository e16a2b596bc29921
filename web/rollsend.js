// A roll file in hand: what it would do, what a person decides about its rows, and the one button that goes on.

import { CodesInHand } from './codesinhand.js';
import { hasCodes } from './columns.js';
import { button, make } from './dom.js';
import { ask } from './frame.js';
import { openFile } from './openfile.js';
import { entriesIn, keptPart, printSlips, saveButtons, stepsPart } from './rollcodes.js';
import { unlikeIn } from './rolldoubts.js';
import { RollFile } from './rollfile.js';
import { RowsPart } from './rollrows.js';
import { RollSending } from './rollsending.js';
import {
  columnNotes, describedPart, doubtsPart, faultsPart, lackingPart, likenessPart, mayLeaveOut, namedPart, namedRows, notesPart,
  readNotes, readPart,
} from './rollview.js';
import { words } from './words.js';

export class RollPreview {
  #of;
  /** @type {RollFile | null} the file in hand */
  #hand = null;
  /** @type {HTMLElement | null} the field from which it came */
  #from = null;
  /** @type {There} */
  #there = { lecturers: new Map(), projects: new Map(), students: new Map() };
  /** @type {Record<Roll, number>} */
  #counts = { lecturers: 0, projects: 0, students: 0 };
  #codes = new CodesInHand();
  #sending;
  #rows;
  #above = make('div');
  #below = make('div');
  #kept = make('div', { class: 'kept-codes' });
  #inHand = make('div', { class: 'in-hand', hidden: true });
  element = make('div', {}, [this.#kept, this.#inHand]);

  /** @param {RollsOf} of */
  constructor(of) {
    this.#of = of;
    const change = (/** @type {(hand: RollFile) => void} */ act) => this.#hand !== null && act(this.#hand);
    this.#rows = new RowsPart({
      mend: (row, column, text) => change((hand) => hand.mend(row, column, text)),
      leaveOut: (rows) => change((hand) => hand.leaveOut(rows)),
      takeBack: (rows) => change((hand) => hand.takeBack(rows)),
      show: () => change((hand) => this.#showContents(hand)),
    });
    this.#sending = new RollSending(of, this.#codes, {
      plan: (hand) => this.#plan(hand),
      isSure: (hand, plan) => this.#isSure(hand, plan),
      count: (roll) => this.#counts[roll],
      isInHand: (hand) => this.#hand === hand && this.element.isConnected,
      show: (hand) => this.#show(hand),
      showContents: (hand) => this.#showContents(hand),
      showKept: () => this.#showKept(),
      focus: (selector) => this.#focus(selector),
      taken: (hand, entries, said) => this.#taken(hand, entries, said),
    });
    this.#showKept();
  }

  hasUnsentCodes() {
    return this.#codes.areUnsent;
  }

  /** What a person has made of the rows is lost with the file, until the tab keeps them with their codes. */
  hasUnkeptWork() {
    return this.#of.canSend && this.#codes.record === null && this.#hand !== null && this.#hand.isWorkedOn;
  }

  /** What signing out or closing the tab would mean for these. */
  get risk() {
    return this.#codes.risk ?? (this.hasUnkeptWork() ? words.closeWorkMeans : undefined);
  }

  /** Work and codes that were made are given up only where a person says so. */
  async mayDiscard() {
    if (!this.hasUnkeptWork()) return this.#codes.mayDiscard(this.#hand?.made.size ?? 0);
    return ask({ title: words.closeWork, risk: words.closeWorkMeans, verb: words.closeFile, stay: words.notNow });
  }

  /**
   * @param {Record<Roll, number>} counts of the status
   * @param {There} there who is in the portal, as far as the page knows
   */
  know(counts, there) {
    this.#counts = counts;
    this.#there = there;
  }

  #showKept() {
    this.#kept.replaceChildren(...keptPart(this.#codes.others, {
      goOn: (record) => this.#goOn(record),
      slips: (record) => printSlips(this.#kept, record.roll, entriesIn(record)),
      changed: () => this.#showKept(),
    }));
  }

  /**
   * Opens a file and shows what is in it.
   * @param {Roll | undefined} roll that it is for; else the header tells
   * @param {File} file
   * @param {HTMLElement} from the field that it came from
   */
  async open(roll, file, from) {
    if (!(await this.mayDiscard())) return;
    this.#close();
    this.#of.messages.clear();
    const read = await openFile(roll, file);
    if (typeof read === 'string') return this.#of.messages.warn(read);
    this.#from = from;
    this.#use(read);
  }

  /**
   * Takes up rows whose codes this tab has kept.
   * @param {CodesRecord} record
   */
  async #goOn(record) {
    if (!(await this.mayDiscard())) return;
    this.#close();
    const hand = new RollFile(record.roll, record.file, { encoding: 'utf-8', separator: ',' }, record.rows.map((fields, at) =>
      ({ row: at + 1, fields })), 0);
    this.#codes.take(record);
    this.#showKept();
    this.#use(hand);
  }

  /**
   * Reads names, and how many students each lecturer takes, from a file that needs no look at it; any other one is shown.
   * @param {File} file
   * @param {HTMLElement} from the field that it came from
   * @returns {Promise<boolean>} whether it was read
   */
  async readLecturers(file, from) {
    const read = await openFile('lecturers', file);
    const isRead = typeof read !== 'string' && read.isWhole && read.likeness(this.#there) === null;
    if (isRead) await this.#keepNames('lecturers', read.entries);
    else await this.open(undefined, file, from);
    return isRead;
  }

  /** @param {string} selector */
  #focus(selector) {
    /** @type {HTMLElement | null} */ (this.#inHand.querySelector(selector))?.focus();
  }

  #close() {
    this.#hand = null;
    this.#codes.take(null);
    this.#inHand.hidden = true;
    this.#inHand.replaceChildren();
    this.#showKept();
  }

  async #cancel() {
    if (!(await this.mayDiscard())) return;
    this.#close();
    this.#of.messages.clear();
    this.#from?.focus();
  }

  /** @param {RollFile} hand */
  #show(hand) {
    const likeness = this.#of.canSend ? hand.likeness(this.#there) : null;
    // the heading has the focus: what is wrong is told with it
    const heading = make('h3', { text: words.inHand(words.roll[hand.roll], hand.name), tabindex: '-1', 'aria-describedby': likeness !== null
      && 'likeness' });
    if (likeness !== null) {
      const use = button(words.useAs(words.roll[likeness.roll]), () => this.#use(hand.as({ roll: likeness.roll })), { class: 'main' });
      this.#inHand.replaceChildren(heading, likenessPart(hand.roll, likeness), this.#buttons([use]));
    } else {
      const take = (/** @type {Column} */ column, /** @type {number} */ at) => {
        hand.take(column, at);
        this.#showContents(hand);
      };
      const read = this.#codes.record === null ? [...readNotes(hand), readPart(hand, { take, use: (of) => this.#use(hand.as(of)) })] : [];
      this.#inHand.replaceChildren(heading, ...read, this.#above, this.#rows.element, this.#below);
      this.#showContents(hand);
    }
    this.#inHand.hidden = false;
  }

  /** @param {RollFile} hand */
  #use(hand) {
    this.#hand = hand;
    this.#rows.clear();
    this.#show(hand);
    this.#focus('h3');
  }

  /** @param {RollFile} hand */
  #showContents(hand) {
    const isKnown = this.#there[hand.roll].size >= this.#counts[hand.roll];
    const after = this.#after(hand);
    const lacking = this.#of.canSend
      ? lackingPart(hand, { isKnown, make: () => after(() => this.#makeIds(hand)), leaveOut: this.#leaver(hand) })
      : [];
    this.#rows.element.hidden = !hand.isWhole;
    if (!hand.isWhole) {
      this.#above.replaceChildren(...lacking, ...columnNotes(hand));
      this.#below.replaceChildren(this.#buttons([]));
      return;
    }
    const plan = this.#plan(hand);
    const checks = this.#of.canSend ? this.#checks(hand, plan) : [];
    this.#above.replaceChildren(
      ...lacking,
      ...columnNotes(hand),
      make('p', { class: 'counts', text: this.#countsText(hand, plan) }),
      ...checks,
    );
    this.#rows.show(hand, this.#of.canSend ? hand.lines(plan) : hand.lines({ ...plan, faults: [], doubts: [] }), {
      isLocked: this.#codes.record !== null || !this.#of.canSend,
    });
    this.#below.replaceChildren(...(this.#of.canSend
      ? this.#endPart(hand, plan)
      : [...describedPart(plan.entries), this.#buttons(this.#sideButtons(hand, plan.entries))]));
  }

  /** @param {RollFile} hand */
  #makeIds(hand) {
    hand.makeIds(this.#there);
    // it was open because there was no column for them
    this.#inHand.querySelector('.read')?.removeAttribute('open');
  }

  /** @param {RollFile} hand @param {Plan} plan */
  #countsText(hand, plan) {
    const all = words.rowCount(plan.entries.length);
    return this.#of.canSend ? `${all} ${words.newCount(plan.fresh.length, plan.old.length, this.#isSure(hand, plan))}` : all;
  }

  /**
   * What is to be decided about rows, by kind.
   * @param {RollFile} hand
   * @param {Plan} plan
   */
  #checks(hand, plan) {
    if (this.#codes.record !== null) return [];
    const [after, leaveOut] = [this.#after(hand), this.#leaver(hand)];
    const on = {
      leaveOut,
      answer: (/** @type {Doubt} */ doubt) => after(() => hand.answer(doubt)),
      fill: (/** @type {number[]} */ rows, /** @type {number} */ length) => after(() => hand.fillZeros(rows, length)),
    };
    return [
      ...faultsPart(hand, plan, leaveOut),
      ...namedPart(plan, this.#there.lecturers, (keys) => after(() => hand.agree(keys))),
      ...doubtsPart(plan.doubts, on),
    ];
  }

  /**
   * Changes something of the rows, and shows what is to be decided next.
   * @param {RollFile} hand
   */
  #after(hand) {
    return (/** @type {() => void} */ act) => {
      act();
      this.#showContents(hand);
      this.#focus('.checks button, .buttons .main');
    };
  }

  /** @param {RollFile} hand */
  #leaver(hand) {
    return async (/** @type {number[]} */ rows) => (await mayLeaveOut(rows)) && this.#after(hand)(() => hand.leaveOut(rows));
  }

  /** @param {RollFile} hand @param {Plan} plan */
  #endPart(hand, plan) {
    const hasEmail = plan.entries.some(({ email = '' }) => email !== '');
    const isRead = hand.missing.length === 0;
    const { record, isSeen } = this.#codes;
    const steps = record === null ? [] : [stepsPart(record, { isSeen, see: () => this.#see(hand) })];
    return [
      ...notesPart(hand, plan),
      ...describedPart(plan.entries),
      ...steps,
      make('p', { class: 'final', text: words.final }),
      ...(hasCodes(hand.roll) && isRead ? [make('p', { class: 'quiet', text: words.keepsNames(hasEmail) })] : []),
      this.#sendButtons(hand, plan),
    ];
  }

  /** @param {RollFile} hand */
  #plan(hand) {
    return hand.plan(this.#there, this.#there.lecturers.size >= this.#counts.lecturers);
  }

  /** @param {RollFile} hand */
  #see(hand) {
    this.#codes.isSeen = true;
    this.#showContents(hand);
    this.#focus('.main');
  }

  /**
   * The one button that goes on: the portal is asked who is there, then codes are made and saved, then rows are sent.
   * @param {RollFile} hand
   * @param {Plan} plan
   */
  #sendButtons(hand, plan) {
    const { entries, named, faults, doubts, toMake, toSend } = plan;
    const isFaultless = faults.length === 0 && named.size === 0 && doubts.every(({ stops, isAnswered }) => !stops || isAnswered);
    const isReady = isFaultless && toMake.length === 0 && toSend.length > 0 && (this.#codes.record === null || this.#codes.isSeen);
    const isToCompare = toMake.length > 0 && !this.#isSure(hand, plan);
    const all = this.#counts[hand.roll];
    const compared = button(words.compare, () => this.#sending.compare(hand), { class: 'main' });
    const making = button(words.makeCodes, () => this.#sending.makeCodes(hand, toMake), { class: 'main' });
    const why = isToCompare
      ? [make('p', { text: words.compareMeans(words.countOf[hand.roll](all), Math.min(plan.known, all)) })]
      : [];
    return make('div', {}, [...why, this.#buttons([
      ...(isToCompare ? [compared] : isFaultless && toMake.length > 0 ? [making] : []),
      button(words.send, () => this.#sending.askSend(hand), { class: isReady && 'main', disabled: !isReady }),
    ], this.#codes.record === null ? this.#sideButtons(hand, entries) : [])]);
  }

  /**
   * The page knows everybody who is there, or the portal has told who of the file is not.
   * @param {RollFile} hand
   * @param {Plan} plan
   */
  #isSure({ roll }, { known, isCompared }) {
    return known >= this.#counts[roll] || isCompared;
  }

  /** @param {HTMLButtonElement[]} main @param {HTMLButtonElement[]} side */
  #buttons(main, side = []) {
    return make('div', { class: 'buttons' }, [...main, button(words.cancel, () => this.#cancel()), ...side]);
  }

  /**
   * What can be done with a file that is not sent.
   * @param {RollFile} hand
   * @param {Entry[]} entries
   */
  #sideButtons({ roll }, entries) {
    if (!hasCodes(roll)) return [];
    const withCode = entries.filter(({ code }) => code !== '');
    const names = button(words.keepNames, () => this.#keepNames(roll, entries));
    return withCode.length === 0 ? [names] : [this.#slipsButton(roll, withCode), names];
  }

  /** @param {Roll} roll @param {Entry[]} entries */
  #slipsButton(roll, entries) {
    return button(words.printSlips, () => printSlips(this.#inHand, roll, entries));
  }

  /**
   * @param {Roll} roll
   * @param {Entry[]} all
   */
  async #keepNames(roll, all) {
    const entries = all.filter(({ id }) => id !== '');
    const { names, attempt, messages, sent } = this.#of;
    const emails = entries.filter(({ email = '' }) => email !== '').length;
    const unlike = new Set(unlikeIn(roll, entries, this.#there));
    const isTaken = unlike.size === 0 || (await this.#isCorrected([...unlike]));
    names.learn(roll, isTaken ? entries : entries.filter(({ row }) => !unlike.has(row)), false);
    names.learnEmails(roll, entries);
    this.#close();
    if (await attempt(sent)) messages.say(words.namesKept(entries.length, emails));
    this.#from?.focus();
  }

  /**
   * What was sent is in the portal until the administrator corrects it, which the page is not told.
   * @param {number[]} rows that differ from it
   */
  #isCorrected(rows) {
    return ask({ title: words.askCorrected, risk: words.correctedIf(namedRows(rows)), verb: words.takeCorrected, stay: words.keepSent });
  }

  /**
   * What was made can be handed out now: the file with the codes, and the slips.
   * @param {RollFile} hand
   * @param {Entry[]} entries
   * @param {string} said
   */
  #taken({ roll }, entries, said) {
    const parts = [make('h3', { text: said }), ...describedPart(entries)];
    const buttons = hasCodes(roll) ? [this.#slipsButton(roll, entries)] : [];
    if (this.#codes.record !== null) {
      parts.push(make('p', { text: words.codesSaved(this.#codes.record.file) }));
      buttons.push(...saveButtons(this.#codes.record));
    }
    this.#hand = null;
    this.#codes.take(null);
    this.#inHand.replaceChildren(...parts, make('div', { class: 'buttons' }, buttons));
    (buttons[0] ?? this.#from)?.focus();
  }
}
