// A small table that a lecturer takes along: to print, to copy for a mail or a spreadsheet, or to download.

import { button, download, given, make } from './dom.js';
import { paper } from './paper.js';
import { words } from './words.js';

/**
 * Buttons for a table.
 * @param {object} of
 * @param {{ print: string, copy: string, book: string, download: string }} of.texts of the buttons
 * @param {string} of.title what stands above it in print
 * @param {string[]} of.header the names of its columns in print
 * @param {string[]} of.fileHeader those in the file, the same in each language
 * @param {() => string[][]} of.rows
 * @param {string} of.file what the files are called
 * @param {Messages} of.messages
 */
export function tableButtons({ texts, title, header, fileHeader, rows, file, messages }) {
  const { sheet, printed } = paper();
  const copy = async () => {
    try {
      const { writtenForSpreadsheets } = await import('./csv.js');
      await navigator.clipboard.writeText(writtenForSpreadsheets(rows(), '\t').trimEnd());
      messages.settle();
      messages.say(words.copiedLines(rows().length));
    } catch {
      messages.warn(words.notCopied);
    }
  };
  // what writes files comes when somebody wants one
  const saving = (/** @type {() => Promise<void>} */ act) => () => act().catch(() => messages.warn(words.lost));
  const saveBook = saving(async () => {
    const { bookOf, bookType } = await import('./bookfile.js');
    download(`${file}.xlsx`, bookOf(title, [fileHeader, ...rows()]), bookType);
  });
  const saveText = saving(async () => {
    const { writtenForSpreadsheets } = await import('./csv.js');
    download(`${file}.csv`, writtenForSpreadsheets([fileHeader, ...rows()], words.separator), 'text/csv');
  });
  return make('div', { class: 'buttons' }, [
    button(texts.book, saveBook),
    button(texts.download, saveText),
    button(texts.copy, copy),
    button(texts.print, () => printed([make('h3', { text: title }), printedTable(header, rows())])),
    sheet,
  ]);
}

/**
 * @param {string[]} header
 * @param {string[][]} rows
 */
function printedTable(header, rows) {
  const heads = make('tr', {}, header.map((text) => make('th', { scope: 'col', text })));
  return make('table', {}, [make('thead', {}, [heads]), make('tbody', {}, rows.map((row) =>
    make('tr', {}, row.map((text) => make('td', {}, [given(text)])))))]);
}
