// Workbooks (.xlsx): the sheets of one, and each cell as the text that a person sees there. Only here is XML read, and never one that
// defines entities.

import { Archive, BadArchive } from './archive.js';
import { patternOf, shownNumber } from './cellformat.js';

// More than the largest department has, by far: a sheet is for people.
const MOST_CELLS = 400_000;
const MOST_COLUMNS = 500;

/**
 * Reads a workbook: its sheets with data, those that are shown first, or why it cannot be read.
 * @param {Uint8Array} bytes
 * @returns {Promise<{ fault?: undefined, sheets: FileSheet[] } | { fault: BookFault, sheets?: undefined }>}
 */
export async function readWorkbook(bytes) {
  try {
    const archive = new Archive(bytes);
    const path = await mainPath(archive);
    if (path === '') return { fault: kindOf(archive) };
    const sheets = await sheetsOf(archive, path);
    return sheets.length === 0 ? { fault: 'empty' } : { sheets };
  } catch (fault) {
    if (fault instanceof BadArchive) return { fault: fault.fault };
    throw fault;
  }
}

/**
 * What an archive is that is no workbook of this kind.
 * @param {Archive} archive
 * @returns {BookFault}
 */
function kindOf(archive) {
  if (archive.has('Index/Document.iwa') || archive.has('Index.zip')) return 'numbers';
  if (archive.has('content.xml')) return 'ods';
  return archive.has('xl/workbook.bin') ? 'xlsb' : 'archive';
}

/** @param {Archive} archive */
async function mainPath(archive) {
  const links = await linksOf(archive, '_rels/.rels', '');
  const path = [...links.values()].find(({ type }) => type.endsWith('/officeDocument'))?.path ?? 'xl/workbook.xml';
  return archive.has(path) && path.endsWith('.xml') ? path : '';
}

/**
 * Where the links of a part lead, by their IDs.
 * @param {Archive} archive
 * @param {string} name
 * @param {string} folder of the part
 */
async function linksOf(archive, name, folder) {
  const found = all(parsed(await archive.text(name)), 'Relationship');
  return new Map(found.map((link) =>
    [link.getAttribute('Id') ?? '', { type: link.getAttribute('Type') ?? '', path: pathOf(link.getAttribute('Target') ?? '', folder) }]));
}

/**
 * @param {string} target
 * @param {string} folder
 */
function pathOf(target, folder) {
  const parts = target.startsWith('/')
    ? target.slice(1).split('/')
    : [...folder.split('/').filter((part) => part !== ''), ...target.split('/')];
  /** @type {string[]} */
  const path = [];
  for (const part of parts) {
    if (part === '..') path.pop();
    else if (part !== '.') path.push(part);
  }
  return path.join('/');
}

/**
 * @param {Archive} archive
 * @param {string} path of the workbook
 */
async function sheetsOf(archive, path) {
  const folder = path.split('/').slice(0, -1).join('/');
  const links = await linksOf(archive, `${folder}/_rels/${path.split('/').at(-1)}.rels`.replace(/^\//, ''), folder);
  const linked = (/** @type {string} */ type) => [...links.values()].find((link) => link.type.endsWith(type))?.path ?? '';
  const book = parsed(await archive.text(path));
  const texts = all(parsed(await archive.text(linked('/sharedStrings'))), 'si').map(textOf);
  const formats = formatsOf(parsed(await archive.text(linked('/styles'))));
  const is1904 = /^(1|true)$/.test(all(book, 'workbookPr')[0]?.getAttribute('date1904') ?? '');
  const budget = { cells: MOST_CELLS };
  const sheets = [];
  for (const sheet of all(book, 'sheet')) {
    const { type = '', path: at = '' } = links.get(attribute(sheet, 'id')) ?? {};
    if (!type.endsWith('/worksheet')) continue;
    const read = rowsOf(parsed(await archive.text(at)), { texts, formats, is1904 }, budget);
    if (read.rows.length > 0) sheets.push(
      { name: sheet.getAttribute('name') ?? '', isShown: (sheet.getAttribute('state') ?? 'visible') === 'visible', ...read },
    );
  }
  return [...sheets.filter(({ isShown }) => isShown), ...sheets.filter(({ isShown }) => !isShown)];
}

/**
 * An attribute whatever its prefix is.
 * @param {Element} element
 * @param {string} name
 */
const attribute = (element, name) =>
  [...element.attributes].find((one) => one.localName === name && one.prefix !== null)?.value ?? element.getAttribute(name) ?? '';

/**
 * A part as a document; an empty text as an empty one. What defines entities is no part of a workbook.
 * @param {string} text
 */
function parsed(text) {
  if (text === '') return document.implementation.createDocument(null, 'none');
  if (/<!(DOCTYPE|ENTITY)/i.test(text)) throw new BadArchive('damaged');
  const read = new DOMParser().parseFromString(text, 'application/xml');
  if (read.getElementsByTagName('parsererror').length > 0) throw new BadArchive('damaged');
  return read;
}

/**
 * @param {Document | Element} within
 * @param {string} name
 */
const all = (within, name) => [...within.getElementsByTagNameNS('*', name)];

/**
 * A text that may be in pieces; how it is spoken is no part of it.
 * @param {Element} item
 */
const textOf = (item) =>
  all(item, 't').filter((piece) => piece.parentElement?.localName !== 'rPh').map((piece) => unescaped(piece.textContent ?? '')).join('');

/**
 * Signs that XML cannot have stand as _x000D_.
 * @param {string} text
 */
const unescaped = (text) => text.replace(/_x([0-9A-Fa-f]{4})_/g, (_, code) => String.fromCharCode(parseInt(code, 16)));

/**
 * The pattern of each style of cells.
 * @param {Document} styles
 */
function formatsOf(styles) {
  const own = new Map(all(styles, 'numFmt').map((one) => [Number(one.getAttribute('numFmtId')), one.getAttribute('formatCode') ?? '']));
  const [cells] = all(styles, 'cellXfs');
  return cells === undefined ? [] : all(cells, 'xf').map((one) => patternOf(Number(one.getAttribute('numFmtId') ?? 0), own));
}

/**
 * The rows that are not blank, and those of them that are hidden in the spreadsheet.
 * @param {Document} sheet
 * @param {BookStyles} styles
 * @param {{ cells: number }} budget
 */
function rowsOf(sheet, styles, budget) {
  /** @type {FileRow[]} */
  const rows = [];
  /** @type {number[]} */
  const hidden = [];
  let last = 0;
  for (const line of all(sheet, 'row')) {
    const row = Number(line.getAttribute('r') ?? last + 1);
    last = row;
    const fields = fieldsOf(line, styles, budget);
    if (fields.every((field) => field.trim() === '')) continue;
    rows.push({ row, fields });
    if (/^(1|true)$/.test(line.getAttribute('hidden') ?? '')) hidden.push(row);
  }
  return { rows, hidden };
}

/**
 * @param {Element} line
 * @param {BookStyles} styles
 * @param {{ cells: number }} budget
 */
function fieldsOf(line, styles, budget) {
  /** @type {string[]} */
  const fields = [];
  let last = -1;
  for (const cell of all(line, 'c')) {
    const at = columnAt(cell.getAttribute('r') ?? '') ?? last + 1;
    last = at;
    const text = cellText(cell, styles);
    if (text === '') continue;
    budget.cells--;
    if (at >= MOST_COLUMNS || budget.cells < 0) throw new BadArchive('huge');
    while (fields.length < at) fields.push('');
    fields[at] = text;
  }
  return fields;
}

/**
 * The column of a place such as AB12, counted from 0.
 * @param {string} place
 */
function columnAt(place) {
  const letters = /^[A-Z]{1,3}/.exec(place)?.[0];
  return letters === undefined ? undefined : [...letters].reduce((sum, letter) => sum * 26 + letter.charCodeAt(0) - 64, 0) - 1;
}

/**
 * A formula has the text that the spreadsheet kept of it; without one it stands there itself, so that it is seen.
 * @param {Element} cell
 * @param {BookStyles} styles
 */
function cellText(cell, { texts, formats, is1904 }) {
  const kind = cell.getAttribute('t') ?? 'n';
  if (kind === 'inlineStr') return textOf(cell);
  const value = all(cell, 'v')[0]?.textContent ?? '';
  if (value === '') return all(cell, 'f').map(({ textContent }) => `=${textContent}`)[0] ?? '';
  if (kind === 's') return texts[Number(value)] ?? '';
  if (kind === 'b') return value === '1' ? 'TRUE' : 'FALSE';
  if (kind === 'd') return value.replace(/T00:00(:00)?(\.0+)?Z?$/, '');
  if (kind !== 'n' || Number.isNaN(Number(value))) return unescaped(value);
  return shownNumber(Number(value), formats[Number(cell.getAttribute('s') ?? 0)] ?? '', is1904);
}
