// Opens an office's file, a text or a workbook, as that of a roll; or says what it is instead, and how to export it.

import { rollOf } from './columns.js';
import { largestFile } from './config.js';
import { table } from './csv.js';
import { RollFile } from './rollfile.js';
import { words } from './words.js';
import { readWorkbook } from './workbook.js';

// A workbook is larger than what is sent of it, which is bounded by itself.
const LARGEST_BOOK = 8 * largestFile;

/** What files of other kinds begin with. @type {[string, string][]} */
const KINDS = [['%PDF', 'pdf'], ['\x89PNG', 'picture'], ['\xff\xd8\xff', 'picture'], ['GIF8', 'picture'], ['{\\rtf', 'document']];

/**
 * Reads a file as that of a roll, or of the roll that its header tells; else answers what is wrong with it.
 * @param {Roll | undefined} roll
 * @param {File} file
 * @returns {Promise<RollFile | string>}
 */
export async function openFile(roll, file) {
  const read = await readFile(file);
  if (typeof read === 'string') return `${file.name}: ${read}`;
  // a workbook may have a sheet with notes first
  const found = read.sheets === undefined ? [new RollFile(roll ?? 'students', file.name, read, read.rows)]
    : read.sheets.map(({ rows }, at) => new RollFile(roll ?? 'students', file.name, { ...read, at }, rows));
  const hand = found.find(({ columns, rows, head }) => isKnown(columns) && rows.length > head + 1) ?? found[0];
  if (hand.rows.length <= hand.head + 1) return `${file.name}: ${words.noTable.empty}`;
  return roll === undefined ? hand.as({ roll: rollOf(hand.header) ?? 'students' }) : hand;
}

/** @param {Columns} columns */
const isKnown = (columns) => Object.values(columns).filter((at) => at >= 0).length >= 2;

/**
 * @param {File} file
 * @returns {Promise<(ReadAs & { rows: FileRow[] }) | string>} how it was read, or what is wrong with it
 */
async function readFile(file) {
  if (file.size > LARGEST_BOOK) return words.noTable.huge;
  const bytes = await bytesOf(file);
  const begins = (/** @type {string} */ start) => [...start].every((sign, at) => bytes[at] === sign.charCodeAt(0));
  const kind = KINDS.find(([start]) => begins(start))?.[1];
  if (kind !== undefined) return textOf(kind);
  if (begins('PK\x03\x04')) return readBook(bytes);
  if (begins('\xd0\xcf\x11\xe0')) return textOf(isLocked(bytes) ? 'locked' : 'xls');
  if (file.size > largestFile) return words.refusals.too_large;
  const read = table(bytes);
  if (read.fault !== undefined) return textOf('noText');
  if (read.rows.length < 2) return textOf('empty');
  return /^\s*<(!|\?|html|table|head|meta)/i.test(read.rows[0].fields[0]) ? textOf('web') : read;
}

/** @param {Uint8Array} bytes */
async function readBook(bytes) {
  const read = await readWorkbook(bytes);
  if (read.fault !== undefined) return textOf(read.fault);
  return { encoding: '', separator: '', sheets: read.sheets, at: 0, rows: read.sheets[0].rows };
}

/** @param {string} kind */
const textOf = (kind) => /** @type {Record<string, string>} */ (words.noTable)[kind] ?? words.noTable.noText;

/**
 * A workbook with a password is kept in a file of the older kind, under this name.
 * @param {Uint8Array} bytes
 */
const isLocked = (bytes) => new TextDecoder('utf-16le').decode(bytes.subarray(0, bytes.length & ~1)).includes('EncryptedPackage');

/**
 * A folder, or a file that is gone meanwhile, has no bytes.
 * @param {File} file
 */
async function bytesOf(file) {
  try {
    return new Uint8Array(await file.arrayBuffer());
  } catch {
    return new Uint8Array();
  }
}
