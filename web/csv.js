// Tables in text files, as spreadsheets write and read them. No element of the page is touched here.

// Of two that are as likely, the first one: a comma may stand in each name, or in each grade.
const SEPARATORS = ['\t', ';', ','];

// The first bytes of .xlsx and .ods, and of .xls.
const WORKBOOKS = [[0x50, 0x4b, 0x03, 0x04], [0xd0, 0xcf, 0x11, 0xe0]];
// So many records tell what separates fields.
const JUDGED = 200;

/**
 * Reads a file: how it was read, or why it is no table of text.
 * @param {Uint8Array} bytes
 * @returns {({ fault?: undefined } & FileTable) | { fault: 'workbook' | 'noText' }}
 */
export function table(bytes) {
  if (WORKBOOKS.some((start) => start.every((byte, at) => bytes[at] === byte))) return { fault: 'workbook' };
  const { encoding, text } = decoded(bytes);
  if (/[\0-\x08]/.test(text)) return { fault: 'noText' };
  const { separator, rest } = separated(text);
  const rows = [...records(rest, separator)].map((fields, at) => ({ row: at + 1, fields: fields.map(meant) }));
  return { encoding, separator, rows: rows.filter(({ fields }) => !isBlank(fields)) };
}

/** @param {string[]} fields */
const isBlank = (fields) => fields.every((field) => field.trim() === '');

/**
 * The records of a text, blank ones too: the fields of each.
 * @param {string} text
 */
export function* records(text, separator = ',') {
  /** @type {string[]} */
  let fields = [];
  for (let at = 0; at < text.length || fields.length > 0; ) {
    const { field, end } = fieldAt(text, at, separator);
    fields.push(field);
    at = end + 1;
    if (text[end] === separator) continue;
    if (text[end] === '\r' && text[at] === '\n') at++;
    yield fields;
    fields = [];
  }
}

/**
 * One field from `at`, and where it ends: at a separator, a line's end or the end of the text.
 * @param {string} text
 * @param {number} at
 * @param {string} separator
 */
function fieldAt(text, at, separator) {
  let field = '';
  let isQuoted = text[at] === '"';
  let end = isQuoted ? at + 1 : at;
  for (; end < text.length; end++) {
    const letter = text[end];
    if (isQuoted && letter === '"' && text[end + 1] === '"') end++;
    else if (isQuoted && letter === '"') {
      isQuoted = false;
      continue;
    } else if (!isQuoted && (letter === separator || letter === '\n' || letter === '\r')) break;
    field += text[end];
  }
  return { field, end };
}

/**
 * A text with a mark of its bytes' order is what the mark says. Without one it is UTF-16, UTF-8 or else Windows-1252, whichever it can be.
 * @param {Uint8Array} bytes
 */
function decoded(bytes) {
  const encoding = encodingOf(bytes);
  return { encoding, text: new TextDecoder(encoding).decode(bytes) };
}

/** @param {Uint8Array} bytes */
function encodingOf(bytes) {
  const [first, second] = bytes;
  if ((first === 0xff && second === 0xfe) || (first > 0 && second === 0)) return 'utf-16le';
  if ((first === 0xfe && second === 0xff) || (first === 0 && second > 0)) return 'utf-16be';
  try {
    new TextDecoder('utf-8', { fatal: true }).decode(bytes);
    return 'utf-8';
  } catch {
    return 'windows-1252';
  }
}

// Umlauts of another encoding as they come out in this one: "MÃ¼ller", "M?ller", "J”rg" of DOS, "JŠger" and "Gro§" of the Mac.
const MISREAD = /[\x80-\x9f\ufffd]|[ÂÃÄÅ][\xa0-\xbf\u0152-\u2122]|\p{L}(§|[„”‚™†‡¤€?]\p{L}|[ŠŽ]\p{Ll})|Ÿ\p{Ll}/u;
/**
 * A text has letters that look as if they had been read by another encoding than they were written in.
 * @param {string} text
 */
export const isMisread = (text) => MISREAD.test(text);

/**
 * A first line `sep=;` names the separator and is no row. Else it is the one that the most rows of one width have between their fields: a
 * title above them, where nothing else separates, does not count.
 * @param {string} text
 */
function separated(text) {
  const [line, separator] = /^sep=(.)(\r\n|\r|\n)/i.exec(text) ?? [];
  if (separator !== undefined) return { separator, rest: text.slice(line.length) };
  // a comma within a number separates nothing, unless nothing else does
  const weights = SEPARATORS.map((one) => weightOf(one === ',' ? text.replace(/(?<=\d),(?=\d)/g, '.') : text, one));
  const most = Math.max(...weights);
  return { separator: most === 0 ? ',' : SEPARATORS[weights.indexOf(most)], rest: text };
}

/**
 * How often the separator stands in the rows of that width for which it stands the most.
 * @param {string} text
 * @param {string} separator
 */
function weightOf(text, separator) {
  /** @type {Map<number, number>} */
  const rows = new Map();
  let seen = 0;
  for (const { length } of records(text, separator)) {
    rows.set(length, (rows.get(length) ?? 0) + 1);
    if (++seen === JUDGED) break;
  }
  return Math.max(0, ...[...rows].map(([width, count]) => (width - 1) * count));
}

/**
 * Rows as text: a separator between fields, quotes where they are needed, lines ended by LF.
 * @param {string[][]} rows
 * @param {string} [separator]
 * @param {string} [cuts] the signs at which whoever reads the text may cut it
 */
export function written(rows, separator = ',', cuts = separator) {
  const isQuoted = (/** @type {string} */ field) => [...field].some((sign) => `"\r\n${cuts}`.includes(sign));
  const quoted = (/** @type {string} */ field) => (isQuoted(field) ? `"${field.replaceAll('"', '""')}"` : field);
  return rows.map((fields) => `${fields.map(quoted).join(separator)}\n`).join('');
}

// What a formula begins with. Some spreadsheets begin a new cell at each comma, semicolon or tab.
const SIGN = '[=+\\-@\\t\\r＝＋－＠]';
const INNER = new RegExp(`([,;\\t])(?=["']*${SIGN})`, 'g');
const WRITTEN_INNER = new RegExp(`([,;\\t])'(?=["']*${SIGN})`, 'g');

/**
 * Rows as text for a spreadsheet, which would take a cell that begins with one of these signs for a formula: it gets an apostrophe in
 * front. `table` takes that away again.
 * @param {string[][]} rows
 * @param {string} [separator] that spreadsheets of the reader's language read without being asked
 */
export const writtenForSpreadsheets = (rows, separator) => written(rows.map((fields) => fields.map(asText)), separator, ',;\t');

/** @param {string} field */
const asText = (field) => field.replace(INNER, "$1'").replace(new RegExp(`^(?='*${SIGN})`), "'");

/**
 * ="007" is how a text that looks like a number is written, so that a spreadsheet leaves it as it is.
 * @param {string} field
 */
const meant = (field) => /^="([^"]*)"$/.exec(field)?.[1] ?? field.replace(WRITTEN_INNER, '$1').replace(new RegExp(`^'(?='*${SIGN})`), '');

/**
 * A spreadsheet takes the text, or a part of it, for a formula, where it stands in a cell as it is.
 * @param {string} text
 */
export const isLikeFormula = (text) => new RegExp(`(^|[,;\\t]"*)${SIGN}`).test(text);
