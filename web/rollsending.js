// What is done with a roll file once its rows are right: the portal is asked who of it is there, codes are made, and the rows are sent.

import { KINDS } from './columns.js';
import { ask } from './frame.js';
import { Refused, told } from './requests.js';
import { compare } from './rollcompare.js';
import { rollText } from './rollfile.js';
import { words } from './words.js';

// So many milliseconds stand between two words on how far something is.
const TELL = 1_500;

export class RollSending {
  #of;
  #codes;
  #view;
  #isBusy = false;

  /**
   * @param {RollsOf} of
   * @param {import('./codesinhand.js').CodesInHand} codes
   * @param {HandView} view
   */
  constructor(of, codes, view) {
    this.#of = of;
    this.#codes = codes;
    this.#view = view;
  }

  /**
   * Asks the portal which of the new rows it has: those keep their codes and are not sent.
   * @param {RollFile} hand
   */
  async compare(hand) {
    const { portal, attempt, messages } = this.#of;
    const { fresh, known, faults } = this.#view.plan(hand);
    const wrong = new Set(faults.filter(({ column }) => column === 'id').map(({ row }) => row));
    const ids = fresh.filter(({ row }) => !wrong.has(row)).map(({ id }) => id);
    const most = Math.max(0, this.#view.count(hand.roll) - known) || ids.length;
    const goesOn = this.#progress(hand, ids.length);
    await this.#once(async () => {
      let isWhole = false;
      const isDone = await attempt(async () => {
        const found = await compare({ portal, roll: hand.roll, ids, most, goesOn });
        isWhole = found !== null;
        if (found !== null) hand.learn(found);
      }, { refused: (fault) => ({ text: `${words.roll[hand.roll]}: ${told(fault)}` }) });
      if (!isDone || !isWhole) return;
      if (this.#codes.record !== null) this.#saveCodes(hand);
      this.#view.show(hand);
      const plan = this.#view.plan(hand);
      messages.say(words.compared(plan.fresh.length, plan.old.length));
      this.#view.focus('h3');
    });
  }

  /**
   * Tells now and then how far the comparison is, as long as the file is in hand.
   * @param {RollFile} hand
   * @param {number} all
   */
  #progress(hand, all) {
    let last = Date.now();
    return (/** @type {number} */ done) => {
      const isTold = Date.now() - last > TELL;
      if (isTold) this.#of.messages.say(words.comparing(done, all));
      if (isTold) last = Date.now();
      return this.#view.isInHand(hand);
    };
  }

  /** @param {() => Promise<void>} act what is not to be done twice at a time */
  async #once(act) {
    if (this.#isBusy) return;
    this.#isBusy = true;
    try {
      await act();
    } finally {
      this.#isBusy = false;
    }
  }

  /**
   * @param {RollFile} hand
   * @param {Entry[]} entries
   */
  makeCodes(hand, entries) {
    hand.makeCodes(entries);
    this.#saveCodes(hand);
    this.#view.show(hand);
    this.#of.messages.say(words.codesMade(hand.made.size));
    this.#view.focus('.codes-steps .main');
  }

  /** @param {RollFile} hand */
  #saveCodes(hand) {
    this.#codes.save(hand, this.#view.plan(hand).toSend);
    this.#view.showKept();
  }

  /**
   * Asks once more, by what will be there for good. Rows that are all there already change nothing.
   * @param {RollFile} hand
   */
  async askSend(hand) {
    const plan = this.#view.plan(hand);
    const { fresh, old, toSend } = plan;
    const [isNew, isSure] = [fresh.length > 0, this.#view.isSure(hand, plan)];
    const what = words.countOf[hand.roll](new Set((isNew ? fresh : toSend).map(({ id }) => id)).size);
    const counts = old.length > 0 || !isSure ? words.newCount(fresh.length, old.length, isSure) : '';
    const isMeant = await ask({
      title: isNew ? words.askAdd(what) : words.askSendAgain(what),
      risk: isNew ? words.addedForGood : '',
      lines: [words.fromFile(hand.name), isNew ? counts : words.allThere],
      verb: isNew ? words.doAdd(what) : words.sendAgain,
      stay: words.notNow,
    });
    if (isMeant) await this.#send(hand);
  }

  /** @param {RollFile} hand */
  async #send(hand) {
    await this.#once(() => this.#sendOnce(hand));
  }

  /** @param {RollFile} hand */
  async #sendOnce(hand) {
    const { portal, attempt, names, messages, sent } = this.#of;
    const { roll } = hand;
    const { left, toSend } = this.#view.plan(hand);
    const before = this.#codes.record?.state;
    let said = '';
    this.#codes.mark('maybe');
    const isTaken = await attempt(async () => {
      const { added, same } = await portal.postText(`/rolls/${roll}`, rollText(roll, toSend)).catch((fault) => {
        // a refusal says that nothing was added, this time
        if (fault instanceof Refused && before === 'made') this.#codes.mark('made');
        throw fault;
      });
      said = words.rollTaken(words.roll[roll], added, same);
    }, {
      refused: (fault) => this.#refused(hand, fault, toSend),
      lost: () => this.#lost(hand),
    });
    if (!isTaken) return;
    names.learn(roll, toSend, true);
    names.learnEmails(roll, left);
    this.#codes.mark('sent');
    this.#view.taken(hand, toSend, said);
    if (await attempt(sent)) messages.say(said);
  }

  /**
   * Nobody knows whether the rows are there: then the codes are valid, and all that can be said is where they are.
   * @param {RollFile} hand
   * @returns {Told}
   */
  #lost(hand) {
    const text = this.#codes.record === null ? words.lostRoll : words.lostCodes(this.#codes.record.file);
    this.#view.showContents(hand);
    return { text, again: words.sendAgain, press: () => this.#send(hand) };
  }

  /**
   * Codes were made for somebody who is there: the portal can be asked who else is.
   * @param {RollFile} hand
   * @param {Refused} fault
   * @param {Entry[]} toSend
   */
  #refused(hand, fault, toSend) {
    const entry = toSend[(fault.body.row ?? 0) - 1];
    const said = toldOfRoll(fault, hand.roll, entry);
    if (fault.word !== 'roll_conflict' || entry === undefined || !hand.made.has(entry.id)) return said;
    const press = () => {
      this.#of.messages.clear();
      return this.compare(hand);
    };
    return { ...said, again: words.compare, press };
  }
}

/**
 * A refusal of a roll: what is said, and the row that is at fault, where there is one. Its code is not shown.
 * @param {Refused} refused
 * @param {Roll} roll
 * @param {Entry} [entry]
 */
export function toldOfRoll(refused, roll, entry) {
  const name = words.roll[roll];
  if (entry === undefined) return { text: `${name}: ${told(refused)}` };
  const { row } = entry;
  const shown = KINDS[roll].filter((column) => column !== 'code');
  const text = refused.word === 'roll_conflict' ? words.rollConflict(name, row) : words.badRow(name, row, entry.lecturer);
  return { text, lead: words.row(row), line: shown.map((column) => entry[column] ?? '').join(', ') };
}
