// The new codes of the file in hand: what this tab keeps of them, whether a person has seen their file, and what giving them up would mean.

import { ask } from './frame.js';
import { forgetCodes, keepCodes, keptCodes, newRecord, saveCodes } from './rollcodes.js';
import { fileRows } from './rollfile.js';
import { words } from './words.js';

export class CodesInHand {
  /** @type {CodesRecord | null} */
  record = null;
  // A person has seen the file of them.
  isSeen = false;

  /** Codes that were made and not sent, or of which nobody knows whether they were. */
  get #unsure() {
    return keptCodes().filter(({ state, key }) => state === 'maybe' || key === this.record?.key);
  }

  get areUnsent() {
    return this.record !== null || this.#unsure.length > 0;
  }

  /** What signing out or closing the tab would mean for them. */
  get risk() {
    const [record] = this.#unsure;
    return record === undefined ? undefined : words.forgetMeans[record.state === 'maybe' ? 'maybe' : 'made'](record.file);
  }

  /** All that this tab keeps besides them. */
  get others() {
    return keptCodes().filter(({ key }) => key !== this.record?.key);
  }

  /** @param {CodesRecord | null} record of the file in hand from now on */
  take(record) {
    this.record = record;
    this.isSeen = false;
  }

  /**
   * The file of the codes is saved before anything is sent, and the tab keeps what is in it.
   * @param {RollFile} hand
   * @param {Entry[]} toSend
   */
  save(hand, toSend) {
    if (this.record?.state === 'made') forgetCodes(this.record.key);
    this.take(newRecord(hand.roll, fileRows(hand.roll, toSend), hand.made.size));
    if (this.record !== null) saveCodes(this.record);
  }

  /** @param {CodesRecord['state']} state of the codes that go with the rows */
  mark(state) {
    if (this.record === null) return;
    this.record = { ...this.record, state };
    keepCodes(this.record);
  }

  /**
   * Codes that were made are given up only where a person says so; those that may have been sent are not given up at all.
   * @param {number} count of the codes
   */
  async mayDiscard(count) {
    const { record } = this;
    if (record === null) return true;
    const question = record.state === 'maybe'
      ? { title: words.closeMaybe, risk: words.forgetMeans.kept(record.file), verb: words.closeFile, stay: words.notNow }
      : { title: words.discardCodes, risk: words.discardMeans(count, record.file), verb: words.discard, stay: words.keepCodes };
    if (!(await ask(question))) return false;
    if (record.state === 'made') forgetCodes(record.key);
    return true;
  }
}
