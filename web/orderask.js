// What was understood of an order that was made elsewhere, before it takes the place of a ranking: by what it is ordered, who shares a
// rank, who stands there twice or not at all. A person takes it or goes back.

import { table, written } from './csv.js';
import { given, labelled, make } from './dom.js';
import { choose } from './frame.js';
import { FRONT, readOrder } from './orderfile.js';
import { BY_LINES, isAsGiven, orderBy, usualBy } from './orderranks.js';
import { OrderedList, fixedList } from './ordered.js';
import { words } from './words.js';
import { readWorkbook } from './workbook.js';

// So many shared ranks, of so many people each, are put in order here; more are told.
const GROUPS = 4;
const SHARING = 6;
// So many stand in the preview.
const FIRST = 5;

/**
 * Reads an order and asks whether it is meant. Answers the order, `null` for whoever goes back, or nobody where nobody is found.
 * @param {Uint8Array} bytes
 * @param {Map<string, { name: string }>} people the applicants, as the portal gives them
 * @param {string[]} ranked who is in the ranking now
 * @returns {Promise<string[] | null>}
 */
export async function orderFrom(bytes, people, ranked) {
  const reads = (await textsOf(bytes)).map((text) => readOrder(text, people));
  const read = reads.find(({ lines }) => lines.length > 0);
  if (read === undefined) return [];
  const by = usualBy(read, people.keys()) ?? (await askBy(read));
  if (by === null) return null;
  const question = new Question(read, people, ranked);
  question.show(by);
  const answers =
    [{ name: words.useOrder, value: true, isMain: !question.hasRisk }, { name: words.orderBack, value: false, isMain: question.hasRisk }];
  return (await choose(words.orderAsk, [question.element], answers)) ? question.keys : null;
}

/**
 * The sheets of a workbook as texts; anything else is one text itself.
 * @param {Uint8Array} bytes
 */
async function textsOf(bytes) {
  if (table(bytes).fault !== 'workbook') return [bytes];
  const { sheets = [] } = await readWorkbook(bytes);
  return sheets.map(({ rows }) => new TextEncoder().encode(written(rows.map(({ fields }) => fields))));
}

/**
 * Why nobody was found.
 * @param {Uint8Array} bytes
 */
export const whyNobody = (bytes) => (table(bytes).fault === 'workbook' ? words.orderWorkbook : words.orderEmpty);

/**
 * Where it is not clear what the numbers are, that is asked first.
 * @param {OrderRead} read
 * @returns {Promise<OrderBy | null>}
 */
function askBy(read) {
  const answers = waysOf(read).map(([name, value]) => ({ name: begun(name), value: /** @type {OrderBy | null} */ (value) }));
  return choose(words.orderByAsk, [make('p', { text: words.orderByMeans })], [...answers, { name: words.orderBack, value: null }]);
}

/**
 * All that may decide the order, each with its name.
 * @param {OrderRead} read
 * @returns {[string, OrderBy][]}
 */
function waysOf({ columns }) {
  /** @type {[string, OrderBy][]} */
  const byColumns = columns.flatMap((column) => [false, true].map((isFalling) =>
    /** @type {[string, OrderBy]} */ ([words.orderByColumn(calledBy(column), isFalling), { column, isFalling }])));
  return [...byColumns, [words.orderByLines, BY_LINES]];
}

/**
 * What stands at the beginning has a capital letter.
 * @param {string} text
 */
const begun = (text) => text.slice(0, 1).toUpperCase() + text.slice(1);

/** @param {NumberColumn} column */
const calledBy = ({ at, head }) => (head !== '' ? words.orderColumn(head) : at === FRONT ? words.orderFront : words.orderColumnAt(at + 1));

class Question {
  #read;
  #people;
  #ranked;
  /** @type {OrderMade} */
  #made = { keys: [], twice: [], unranked: [], ties: [] };
  /** @type {OrderedList[]} */
  #shared = [];
  #by = make('select');
  #facts = make('div', { class: 'understood', 'aria-live': 'polite' });
  #start = make('div');
  /** Something would be lost, or it is hardly meant. */
  hasRisk = false;
  element;

  /**
   * @param {OrderRead} read
   * @param {Map<string, { name: string }>} people
   * @param {string[]} ranked
   */
  constructor(read, people, ranked) {
    this.#read = read;
    this.#people = people;
    this.#ranked = ranked;
    const ways = waysOf(read);
    this.#by.append(...ways.map(([name], at) => make('option', { value: `${at}`, text: begun(name) })));
    this.#by.addEventListener('change', () => this.#fill(ways[Number(this.#by.value)][1]));
    this.element = make('div', {}, [...(ways.length > 1 ? [labelled(words.orderedBy, this.#by)] : []), this.#facts, this.#start]);
  }

  /** The order, with those who share a rank as they were put here. */
  get keys() {
    const done = new Set();
    return this.#made.keys.flatMap((key) => {
      const list = this.#shared.find(({ keys }) => keys.includes(key));
      if (list === undefined) return [key];
      if (done.has(list)) return [];
      done.add(list);
      return list.keys;
    });
  }

  /** @param {OrderBy} by */
  show(by) {
    const ways = waysOf(this.#read);
    this.#by.value = `${ways.findIndex(([, way]) => way.column?.at === by.column?.at && way.isFalling === by.isFalling)}`;
    this.#fill(by);
  }

  /** @param {OrderBy} by */
  #fill(by) {
    this.#made = orderBy(this.#read, by);
    this.#shared = this.#made.ties.filter(({ keys }) => keys.length <= SHARING).slice(0, GROUPS).map((tie) => this.#sharedList(tie));
    this.#facts.replaceChildren(...this.#factParts(by), ...this.#sharedParts());
    this.#showStart();
  }

  /** @param {string[]} keys */
  #called(keys) {
    return words.listed(keys.map((key) => words.orderPerson(this.#people.get(key)?.name ?? key, key)));
  }

  /** @param {OrderBy} by */
  #factParts(by) {
    const { column } = by;
    const { keys, twice, unranked } = this.#made;
    const [gone, left] = [this.#ranked, [...this.#people.keys()]].map((all) => all.filter((key) => !keys.includes(key)));
    const risks = [
      gone.length > 0 && words.orderLoses(gone.length),
      isAsGiven(keys, this.#people.keys()) && words.orderAsGiven,
      this.#read.crossed.length > 0 && words.orderCrossed(this.#called(this.#read.crossed)),
    ];
    this.hasRisk = risks.some((text) => text !== false);
    const facts = [
      words.orderFound(
        keys.length,
        this.#people.size,
        waysOf(this.#read).find(([, way]) => way.column?.at === by.column?.at && way.isFalling === by.isFalling)?.[0] ?? '',
      ),
      left.length > 0 && words.orderLeft(left.length, this.#called(left)),
      unranked.length > 0 && column !== null && words.orderUnranked(this.#called(unranked)),
      twice.length > 0 && words.orderTwice(this.#called(twice)),
      this.#read.others.length > 0 && words.orderOthers(words.listed(this.#read.others)),
    ];
    const said = (/** @type {(string | false)[]} */ texts, /** @type {string} */ style) =>
      texts.flatMap((text) => (text === false ? [] : [make('p', { class: style, text })]));
    return [...said(risks, 'risk'), ...said(facts, '')];
  }

  #sharedParts() {
    const { ties } = this.#made;
    const more = ties.length - this.#shared.length;
    const parts = this.#shared.flatMap((list) => [make('h3', { text: list.element.ariaLabel ?? '' }), list.element]);
    return more > 0 ? [...parts, make('p', { text: words.orderSharedMore(more, this.#shared.length > 0) })] : parts;
  }

  /** @param {Tie} tie */
  #sharedList({ number, keys }) {
    const name = (/** @type {string} */ key) => this.#people.get(key)?.name ?? key;
    return new OrderedList({
      label: words.orderShared(keys.length, number),
      keys,
      show: (key) => make('span', { class: 'titled' }, [given(name(key)), make('span', { class: 'key', text: key })]),
      name,
      changed: () => this.#showStart(),
      announce: () => {},
      isWhole: true,
    });
  }

  /** Those who stand first and last, by which a person sees whether that is the order. */
  #showStart() {
    const all = this.keys;
    const name = (/** @type {string} */ key) => given(words.named(this.#people.get(key)?.name ?? key, key));
    const last = all.length > FIRST
      ? [make('p', { class: 'quiet last' }, [document.createTextNode(`… ${words.orderLast(all.length)} `), name(all[all.length - 1])])]
      : [];
    this.#start.replaceChildren(
      make('h3', { text: words.orderStart }),
      fixedList(words.orderStart, all.slice(0, FIRST).map(name)),
      ...last,
    );
  }
}
