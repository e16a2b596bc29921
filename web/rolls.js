// People and projects: the fields for the office's files. While they may be sent each roll has a field; later one field opens any file, to
// read it alone. What opens a file is loaded when that is done, or before it while rolls are sent.

import { ROLLS, columnNames } from './columns.js';
import { writtenForSpreadsheets } from './csv.js';
import { button, download, make, part, styled } from './dom.js';
import { Lost } from './requests.js';
import { CODES, draftOf } from './store.js';
import { speak, words } from './words.js';

/** @typedef {import('./rollsend.js').RollPreview} RollPreview */

export class Rolls {
  #of;
  /** @type {RollPreview | null} */
  #preview = null;
  #place = make('div');
  /** @type {[Record<Roll, number>, There] | null} */
  #known = null;
  /** @type {Partial<Record<Roll, HTMLElement>>} */
  #counts = {};
  element;

  /** @param {RollsOf} of */
  constructor(of) {
    this.#of = of;
    this.element = of.canSend ? this.#openPart() : this.#closedPart();
    // where it does not come now, it is asked for again when a file is opened
    if (of.canSend || draftOf(CODES) !== null) this.#load().catch(() => {});
  }

  #openPart() {
    return part(words.rolls, [
      make('p', { text: words.rollsHint }),
      make('ol', { class: 'rolls', role: 'list' }, ROLLS.map((roll) => this.#row(roll))),
      this.#place,
    ], { class: 'screen' });
  }

  #closedPart() {
    const { field, label } = fileField('any-file', words.rollFile, (file, from) => this.#open(undefined, file, from));
    return make(
      'div',
      { class: 'closed' },
      [make('p', { text: words.readFileHint }), make('div', { class: 'choose' }, [field, label]), this.#place],
    );
  }

  async #load() {
    const [{ RollPreview }, isSpoken] =
      await Promise.all([import('./rollsend.js'), speak(words.language, 'rolls'), styled('rolls.css')]);
    if (!isSpoken) throw new Error('no texts');
    if (this.#preview !== null) return this.#preview;
    this.#preview = new RollPreview(this.#of);
    this.#place.replaceChildren(this.#preview.element);
    if (this.#known !== null) this.#preview.know(...this.#known);
    return this.#preview;
  }

  /**
   * Does something with what opens files, once it is there.
   * @template Answer
   * @param {(preview: RollPreview) => Promise<Answer>} act
   */
  async #with(act) {
    const isLoaded = await this.#of.attempt(async () => {
      await this.#load().catch(() => {
        throw new Lost('no module', () => location.reload());
      });
    }, { goesOn: true });
    return isLoaded && this.#preview !== null ? act(this.#preview) : undefined;
  }

  /**
   * @param {Roll | undefined} roll
   * @param {File} file
   * @param {HTMLElement} from
   */
  #open(roll, file, from) {
    return this.#with((preview) => preview.open(roll, file, from));
  }

  hasUnsentCodes() {
    return this.#preview?.hasUnsentCodes() ?? false;
  }

  hasUnkeptWork() {
    return this.#preview?.hasUnkeptWork() ?? false;
  }

  /** What leaving would mean for new codes or for work on a file. */
  get risk() {
    return this.#preview?.risk;
  }

  async mayDiscard() {
    return this.#preview?.mayDiscard() ?? true;
  }

  /**
   * A field for the lecturers' file, which is read alone.
   * @param {() => unknown} wasRead
   */
  lecturersField(wasRead) {
    const read = async (/** @type {File} */ file, /** @type {HTMLElement} */ from) =>
      (await this.#with((preview) => preview.readLecturers(file, from))) && wasRead();
    const { field, label } = fileField('limits-file', words.openLecturers, read);
    return make('div', { class: 'choose' }, [field, label]);
  }

  /**
   * @param {Record<Roll, number>} status the portal's counts
   * @param {There} there who is in the portal, as far as the page knows
   */
  show(status, there) {
    this.#known = [status, there];
    this.#preview?.know(status, there);
    for (const roll of ROLLS) this.#counts[roll]?.replaceChildren(words.rollCounts(status[roll]));
  }

  /** @param {Roll} roll */
  #row(roll) {
    const count = make('span', { class: 'quiet' });
    this.#counts[roll] = count;
    const take = (/** @type {File} */ file) => this.#open(roll, file, field);
    const { field, label } = fileField(`${roll}-file`, words.chooseFile[roll], take);
    const row = make('li', {}, [
      make('div', { class: 'roll-head' }, [make('h3', { text: words.roll[roll] }), count]),
      make('div', { class: 'choose' }, [field, label, make('span', { class: 'quiet', text: words.drop })]),
      columnsFold(roll),
    ]);
    takesDrops(row, take);
    return row;
  }
}

/**
 * A field for a file: the button that a person sees is its label, so that it speaks the page's language.
 * @param {string} id
 * @param {string} text
 * @param {Take} take
 */
function fileField(id, text, take) {
  const field = make('input', { type: 'file', id, class: 'file', accept: '.xlsx,.csv,.txt,.tsv,text/csv,text/plain' });
  // emptied, so that the same file can be chosen again once it is mended
  field.addEventListener('change', () => {
    const file = field.files?.[0];
    if (file) take(file, field);
    field.value = '';
  });
  return { field, label: make('label', { for: id, class: 'button', text }) };
}

/**
 * What each column is, and a file that has their names alone.
 * @param {Roll} roll
 */
function columnsFold(roll) {
  const lines = columnNames(roll).flatMap((column) =>
    [make('dt', { text: column }), make('dd', { text: words.columnMeans(roll, column) })]);
  const template = () => download(`${roll}.csv`, writtenForSpreadsheets([columnNames(roll)], words.separator), 'text/csv');
  return make('details', {}, [
    make('summary', { text: words.columnsOfRoll }),
    make('dl', { class: 'meanings' }, lines),
    button(words.template, template, { name: words.templateOf[roll] }),
  ]);
}

/**
 * @param {HTMLElement} row
 * @param {(file: File) => unknown} take
 */
function takesDrops(row, take) {
  row.addEventListener('dragover', (event) => {
    event.preventDefault();
    row.classList.add('over');
  });
  row.addEventListener('dragleave', () => row.classList.remove('over'));
  row.addEventListener('drop', (event) => {
    event.preventDefault();
    row.classList.remove('over');
    const file = event.dataTransfer?.files[0];
    if (file) take(file);
  });
}
