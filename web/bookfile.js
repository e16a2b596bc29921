// Writes a table as a workbook (.xlsx) whose cells are all texts, so that IDs keep their zeros and nothing is taken for a formula.

import { archived } from './archive.js';

const TYPE = 'application/vnd.openxmlformats-officedocument.spreadsheetml';
const SCHEMAS = '//schemas.openxmlformats.org';
const HEAD = '<?xml version="1.0" encoding="UTF-8" standalone="yes"?>\n';
const links = (/** @type {string[][]} */ all) =>
  `${HEAD}<Relationships xmlns="http:${SCHEMAS}/package/2006/relationships">${all.map(([kind, target], at) =>
    `<Relationship Id="r${at + 1}" Type="http:${SCHEMAS}/officeDocument/2006/relationships/${kind}" Target="${target}"/>`).join(
      '',
    )}</Relationships>`;
const main = `xmlns="http:${SCHEMAS}/spreadsheetml/2006/main"`;

/** What `download` takes as the type of such a file. */
export const bookType = `${TYPE}.sheet`;

/**
 * The bytes of a workbook with one sheet.
 * @param {string} name of the sheet
 * @param {string[][]} rows the header first
 */
export function bookOf(name, rows) {
  return archived({
    '[Content_Types].xml': `${HEAD}<Types xmlns="http:${SCHEMAS}/package/2006/content-types"><Default Extension="rels" `
      + 'ContentType="application/vnd.openxmlformats-package.relationships+xml"/>'
      + '<Default Extension="xml" ContentType="application/xml"/><Override PartName="/xl/workbook.xml" '
        + `ContentType="${TYPE}.sheet.main+xml"/>`
      + `<Override PartName="/xl/worksheets/sheet1.xml" ContentType="${TYPE}.worksheet+xml"/><Override PartName="/xl/styles.xml" `
        + `ContentType="${TYPE}.styles+xml"/></Types>`,
    '_rels/.rels': links([['officeDocument', 'xl/workbook.xml']]),
    'xl/workbook.xml': `${HEAD}<workbook ${main} xmlns:r="http:${SCHEMAS}/officeDocument/2006/relationships"><sheets><sheet name="${escaped(
      sheetName(name),
    )}" sheetId="1" r:id="r1"/></sheets></workbook>`,
    'xl/_rels/workbook.xml.rels': links([['worksheet', 'worksheets/sheet1.xml'], ['styles', 'styles.xml']]),
    'xl/styles.xml': STYLES,
    'xl/worksheets/sheet1.xml': sheetOf(rows),
  });
}

// Two styles of cells: all are texts (the format 49), and those of the header are bold.
const STYLES = `${HEAD}<styleSheet ${main}><fonts count="2"><font><sz val="11"/><name val="Calibri"/></font><font><b/><sz val="11"/><name `
  + 'val="Calibri"/></font></fonts>'
  + '<fills count="2"><fill><patternFill patternType="none"/></fill><fill><patternFill patternType="gray125"/></fill></fills><borders '
    + 'count="1"><border/></borders>'
  + '<cellStyleXfs count="1"><xf/></cellStyleXfs><cellXfs count="3"><xf xfId="0"/><xf numFmtId="49" applyNumberFormat="1" xfId="0"/>'
  + '<xf numFmtId="49" fontId="1" applyNumberFormat="1" applyFont="1" xfId="0"/></cellXfs><cellStyles count="1"><cellStyle name="Normal" '
    + 'xfId="0" builtinId="0"/></cellStyles></styleSheet>';

/**
 * A sheet's name has at most 31 signs, and none of these.
 * @param {string} name
 */
const sheetName = (name) => name.replace(/[[\]:*?/\\']/g, ' ').slice(0, 31) || '1';

/** @param {string[][]} rows */
function sheetOf(rows) {
  const widths = (rows[0] ?? []).map((_, at) => Math.min(60, Math.max(8, ...rows.map((fields) => [...(fields[at] ?? '')].length + 2))));
  const columns = widths.map((width, at) => `<col min="${at + 1}" max="${at + 1}" width="${width}" style="1" customWidth="1"/>`).join('');
  const lines = rows.map((fields, row) =>
    `<row r="${row + 1}">${fields.map((text, at) => cellOf(text, `${letters(at)}${row + 1}`, row === 0 ? 2 : 1)).join('')}</row>`);
  const view = '<sheetViews><sheetView workbookViewId="0"><pane ySplit="1" topLeftCell="A2" state="frozen"/></sheetView></sheetViews>';
  return `${HEAD}<worksheet ${main}>${view}${columns === ''
    ? ''
    : `<cols>${columns}</cols>`}<sheetData>${lines.join('')}</sheetData></worksheet>`;
}

/**
 * @param {string} text
 * @param {string} place
 * @param {number} style
 */
const cellOf = (text, place, style) =>
  (text === '' ? '' : `<c r="${place}" s="${style}" t="inlineStr"><is><t xml:space="preserve">${escaped(text)}</t></is></c>`);

/** @param {number} at @returns {string} */
const letters = (at) => (at < 26 ? String.fromCharCode(65 + at) : letters(Math.floor(at / 26) - 1) + letters(at % 26));

/**
 * What XML cannot have is left out, and what looks like a sign that was left out is told apart.
 * @param {string} text
 */
const escaped = (text) => text.replace(/_(?=x[0-9A-Fa-f]{4}_)/g, '_x005F_').replace(
  /[\0-\x08\x0b\x0c\x0e-\x1f\ufffe\uffff]|[\ud800-\udbff](?![\udc00-\udfff])|(?<![\ud800-\udbff])[\udc00-\udfff]/g,
  '',
)
  .replace(/[&<>"]/g, (sign) => ({ '&': '&amp;', '<': '&lt;', '>': '&gt;', '"': '&quot;' })[sign] ?? '');
