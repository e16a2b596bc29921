// The texts in English of the office's files: what stands in one, what is wrong or doubtful, codes and sending.

import { largestCapacity, longestCode, longestKey, longestName, mostRows, shortestCode } from './config.js';
import { lecturers, many, number, projects, students } from './words-en.js';
import { apart, texts } from './words.js';

const saveAs =
  'In your spreadsheet program, choose “Save as” or “Download”, then “Excel workbook (.xlsx)” or “CSV UTF-8”. Open the new file here.';
const keyForm = () => `use 1 to ${longestKey} letters (no accents), digits, hyphens, underscores or dots.`;
/** @type {Counted} */
const addresses = (count) => many(count, 'email address', 'email addresses');
/** @type {Record<string, string>} What each column is called, and that for how many students, which each file has its own name for. */
const columnNames = {
  id: 'ID',
  name: 'Name',
  first: 'First name',
  code: 'Code',
  lecturer: 'Lecturer',
  title: 'Title',
  email: 'Email',
  description: 'Description',
  link: 'Link',
};
/** @type {Record<string, string>} */
const limits = { projects: 'Places', lecturers: 'Students at most' };

export const words = texts({
  // the office: people and projects
  rollTaken: (roll, added, same) => `${roll}: ${number(added)} added, ${number(same)} already there.`,
  inHand: (roll, file) => `${roll}: ${apart(file)}`,

  // how a file was read
  noTable: {
    xls: `This is a workbook of the older kind (.xls). ${saveAs}`,
    xlsb: `This is a workbook of a kind that this page doesn’t read (.xlsb). ${saveAs}`,
    ods: `This is an OpenDocument file (such as .ods). ${saveAs}`,
    numbers: 'This is a Numbers file. In Numbers, choose “File”, “Export To”, “Excel”. Open the new file here.',
    pdf: 'This is a PDF, and no table can be read from it. Export from the program that made it, as “Excel workbook (.xlsx)” or CSV.',
    picture: 'This is a picture, and no table can be read from it. Export from the program that has the table, as “Excel workbook (.xlsx)” '
      + 'or CSV.',
    document: 'This is a text document. Copy its table into a spreadsheet, and save that as “Excel workbook (.xlsx)”.',
    web: 'This is a web page (HTML), whatever its name says. Open it in your spreadsheet program, and choose “Save as”, then “Excel '
      + 'workbook (.xlsx)”. Open the new file here.',
    archive: 'This is an archive or a document, not a workbook. If it is an archive (.zip), unpack it, and open the file in it.',
    locked: 'This workbook has a password. Open it in your spreadsheet program, remove the password, and save it again.',
    damaged: 'This workbook is damaged, or no spreadsheet program has written it. Open it in one, and choose “Save as”, then “Excel '
      + 'workbook (.xlsx)”. Open the new file here.',
    browser: 'This browser is too old to read workbooks. In your spreadsheet program, choose “Save as”, then “CSV UTF-8”. Open the new '
      + 'file here.',
    huge: 'This file is too large to be read here. Copy the rows that you need into a new workbook, and open that.',
    noText: `This file has no table that this page can read. ${saveAs}`,
    empty: 'This file has no rows below its header.',
  },
  encodings: { 'utf-16le': 'in UTF-16', 'utf-16be': 'in UTF-16', 'windows-1252': 'in Windows-1252' },
  separators: { ';': 'separated by semicolons', '\t': 'separated by tabs' },
  readAs: (found) => `This file is ${found.join(' and ')}. That’s fine: it is converted when you send it.`,
  sheetRead: (name, count) => `Sheet ${apart(name)} is read, one of ${count}.`,
  sheetField: 'Sheet',
  sheetOf: (name, count) => `${name} (${many(count, 'row', 'rows')})`,
  headField: 'Header row',
  headOf: (row, cells) => `Row ${row}: ${cells}`,
  noHead: 'There is no header row',
  skippedRow: (row, text) => `row ${row} ${apart(text)}`,
  skipped: (named, more) => `Skipped above the header: ${named.join(', ')}${more > 0 ? ` and ${number(more)} more` : ''}.`,
  columnsOfFile: 'Sheet, header row and columns',
  columnName: (roll, column) => columnNames[column] ?? limits[roll],
  columnOption: (name, example) => (example === '' ? name : `${name} – ${example}`),
  idWanted: (count, example) => `${many(count, 'row has', 'rows have')} no ID. Each row needs one that no other row has: ${example}.`,
  idOf: { lecturers: 'such as l07', projects: 'such as p017', students: 'such as the student number' },
  makeIds: 'Make IDs',
  idsMade: {
    projects: 'IDs can be made here: P001, P002 and so on. Projects that are in the portal already get theirs again, by title and '
      + 'lecturer.',
    lecturers: 'IDs can be made here from the surnames. Lecturers who are in the portal already get theirs again, by email address or '
      + 'name.',
    students: '',
  },
  idsNotSafe: 'IDs can’t be made here, because this browser doesn’t know all lecturers in the portal, and could give somebody a second '
    + 'one. Add the new lecturers to the file of codes that was saved at that time, which has the IDs, and open that.',
  columnsMissing: (columns) => `Choose the column for: ${columns.join(', ')}.`,
  columnFor: (name) => `Column for ${name}`,
  noColumn: 'Not in this file',
  looksLike: (other, own) => `This looks like the “${other}” file, not the “${own}” file. Nothing was sent.`,
  hasColumn: (name, other) => `It has a column “${apart(name)}”, as “${other}” files have.`,
  hasHeader: (other) => `Its columns are those of the “${other}” file.`,
  hasPeople: (count, all, other) => `${number(count)} of its ${many(all, 'row', 'rows')} are already in the portal under “${other}”.`,
  useAs: (other) => `Use it as the “${other}” file`,
  columnsLeft: (names) => `Won’t be sent: ${names.map(apart).join(', ')}`,

  // what a file would do
  rowNumber: 'Row',
  rowState: 'What happens',
  rowActions: 'Change',
  allRows: 'All rows',
  whichRows: 'Which rows are shown',
  searchRows: 'Search rows',
  rowsOf: {
    all: (count) => `All: ${number(count)}`,
    wrong: (count) => `Wrong: ${number(count)}`,
    doubtful: (count) => `Doubtful: ${number(count)}`,
    fresh: (count) => `New: ${number(count)}`,
    there: (count) => `Already there: ${number(count)}`,
    left: (count) => `Left out: ${number(count)}`,
  },
  states: { wrong: 'Wrong', doubtful: 'Doubtful', fresh: 'New', there: 'Already there', left: 'Left out' },
  moreRows: (count, left) => `Show ${number(count)} more of ${number(left)}`,
  cellOf: (column, row) => `${column}, row ${row}`,
  mend: 'Change',
  mended: 'Done',
  mendRow: (row) => `Change row ${row}`,
  mendedRow: (row) => `Done with row ${row}`,
  leaveOutOne: 'Leave out',
  leaveOutRow: (row) => `Leave out row ${row}`,
  leaveOutAll: (count) => (count === 1 ? 'Leave this row out' : `Leave these ${number(count)} rows out`),
  askLeaveOut: (count) => `Leave ${number(count)} rows out?`,
  rowsAre: (rows) => `These are ${rows}.`,
  leaveOutMeans: 'They won’t be sent. You can take them back in the list of rows.',
  takeBack: 'Take back',
  takeBackRow: (row) => `Take back row ${row}`,
  keepsCode: 'keeps the old one',
  noCode: 'none yet',
  rowCount: (count) => `The file has ${many(count, 'row', 'rows')}.`,
  newCount: (fresh, old, isSure) => `New: ${number(fresh)}. Already in the portal: ${number(
    old,
  )}.${isSure ? '' : ' These numbers may be off: this browser doesn’t know everybody in the portal.'}`,
  wouldRefuse: 'This file can’t be sent yet. Correct these cells in the list below, or leave the rows out:',
  rowFault: (row, said) => `Row ${row}, ${said}`,
  cellFault: (column, text, why) => `${column}${text === '' ? '' : ` “${apart(text)}”`}: ${why}`,
  rowFaults: {
    empty: () => 'this cell is empty.',
    broken: () => 'the spreadsheet could not work this cell out. Write the text itself.',
    cut: () => 'the spreadsheet has shortened a number. Write all its digits, or format the column as text in the spreadsheet.',
    id: keyForm,
    lecturer: () => 'no lecturer, or more than one, is known by this name. Choose one above, or write the ID.',
    noLecturers: () => 'the portal has no lecturers yet. Add them first.',
    long: () => `too long. The limit is ${longestName} bytes; accented and non-Latin letters take two or more.`,
    line: () => 'there is a line break or a tab in it. Write it in one line.',
    code: () => `use ${shortestCode} to ${longestCode} letters (no accents), digits or hyphens.`,
    capacity: () => `write a whole number from 1 to ${largestCapacity}, without words.`,
    keyTwice: (other) => `row ${other} has the same ID with different details.`,
    codeTwice: (other) => `row ${other} has the same code.`,
    tooMany: () => `too many rows from here on. The portal holds up to ${lecturers(
      mostRows.lecturers,
    )}, ${projects(mostRows.projects)} and ${students(mostRows.students)}.`,
  },
  moreFaults: (count) => `and ${number(count)} more`,
  lookAt: 'Check this before you send:',
  mustAnswer: 'Before you can send, say of each of these that it is right, or leave the rows out:',
  isAnswered: 'You have said that this is right.',
  areRight: (count) => (count === 1 ? 'This row is right' : `These ${number(count)} rows are right`),
  fillZeros: (length) => `Put zeros in front, up to ${length} digits`,
  rows: (named, more) =>
    `${named.length + Math.max(0, more) === 1 ? 'row' : 'rows'} ${named.join(', ')}${more > 0 ? ` and ${number(more)} more` : ''}`,
  doubts: {
    total: (rows) => `Looks like a total or a note, not like a row of its own: ${rows}.`,
    hidden: (rows) => `Hidden or filtered out in the spreadsheet, but it would be sent: ${rows}.`,
    differs: (rows) => `Seems to differ from what the portal has under the same ID. If so, the portal refuses the file: ${rows}.`,
    misread: (rows) => `Letters look misread. Export the file as “CSV UTF-8” and open that, or correct them below: ${rows}.`,
    noName: (rows) => `The name has no letters: ${rows}.`,
    sameEmail: (rows) => `The same email address is here or in the portal under another ID. Is it the same person twice? ${rows}.`,
    sameName: (rows) => `The same name is here or in the portal under another ID. Is it the same person twice? ${rows}.`,
    weakCode: (rows) => `Code is easy to guess: ${rows}.`,
    noLecturer: (rows) => `Lecturer doesn’t seem to be in the portal. Add lecturers first: ${rows}.`,
    sameTitle: (rows) => `Another project of the lecturer has the same title: ${rows}.`,
    formula: (rows) => `Name or title begins with =, +, - or @. A spreadsheet may take it for a formula: ${rows}.`,
    idLength: (rows, length) => `${length === undefined
      ? 'IDs are shorter or longer than most in this file'
      : `IDs have not ${length} digits, as others have`}. Zeros in front may be lost: ${rows}.`,
  },
  doubtsOfRow: {
    total: 'Looks like a total or a note.',
    hidden: 'Hidden in the spreadsheet.',
    differs: 'Differs from what the portal has.',
    misread: 'Letters look misread.',
    noName: 'The name has no letters.',
    sameEmail: 'The same address under another ID.',
    sameName: 'The same name under another ID.',
    weakCode: 'The code is easy to guess.',
    noLecturer: 'The lecturer is not in the portal.',
    sameTitle: 'The same title twice.',
    formula: 'Looks like a formula.',
    idLength: 'The ID has another length.',
  },
  described: (count) => `${many(count, 'project has', 'projects have')} a description or a link. The portal has no place for them: save `
    + 'them as a file, and give it to the administrator, whose tool “portal-describe” puts them on the page.',
  noText: (rows) => `A description is longer than 4,000 characters or no plain text, and is left out of that file: ${rows}.`,
  noLink: (rows) => `A link does not begin with https:// or has signs that no address has, and is left out of that file: ${rows}.`,
  saveDescribed: 'Save descriptions',
  codesMissing: (count) =>
    `${many(count, 'new person has', 'new people have')} no code to sign in with. You can make random codes here, in your browser.`,
  lecturersNamed: (count) => `${many(count, 'lecturer stands', 'lecturers stand')} in this file by name. Check that these are meant:`,
  useNamed: 'Use these IDs',
  ambiguous: 'These names fit more than one lecturer, or none that is known. Choose who is meant, or leave the rows out:',
  unknownNames: 'These names fit no lecturer whom this browser knows. Choose who is meant, add the lecturer first, or leave the rows out:',
  chooseOne: (count) => (count > 1 ? `Choose: ${number(count)} can be meant` : 'Choose: nobody of that name'),
  useChosen: 'Use the chosen lecturers',
  canBeMeant: 'Can be meant',
  allOthers: 'All others',
  notChanged: (rows) => `Differs from what was sent before, and is NOT changed: ${rows}. Ask the administrator to correct it.`,
  askCorrected: 'Has the administrator corrected this?',
  correctedIf: (rows) => `The file differs from what the portal has, as far as this browser knows: ${rows}.`,
  takeCorrected: 'Corrected: use the file',
  keepSent: 'Keep what was sent',
  leftOut: (count) => `${many(count, 'person is', 'people are')} already in the portal and ${count === 1
    ? 'keeps the old code'
    : 'keep their codes'}. ${count === 1 ? 'This row isn’t' : 'These rows aren’t'} sent.`,
  codesMade: (count) => `Made ${many(count, 'code', 'codes')}, and saved ${count === 1 ? 'it' : 'them'} in a file. Nothing is sent yet.`,
  codesInFile: (file) => `The codes are in the file ${apart(
    file,
  )}, which your browser has saved among your downloads. The portal never shows codes again, so this file is what counts.`,
  codesInTab: 'This tab keeps the codes too, until you sign out or close it: also over a reload, and if it signs you out because nobody '
    + 'was there. On a shared computer, sign out yourself before you leave, and don’t leave the file there.',
  codesNotInTab: 'This browser keeps nothing in this tab, so this file is the only place where the codes are.',
  lookForFile: 'Look now whether the file is among your downloads. Only then can you send.',
  seeFile: 'The file is there',
  fileSeen: 'You have said that the file is there. Press “Send” next.',
  saveAgain: 'Save the file again',
  saveText: 'Save it as CSV',
  maybeSent: 'No reply came when these rows were sent, so they may be in the portal, and their codes valid. You can safely send them '
    + 'again.',
  codesOfTab: 'Codes that this tab keeps',
  keptCodes: {
    made: (count, roll, file) => `${roll}: ${many(count, 'row', 'rows')} with new codes, not sent. They were saved as ${apart(file)}.`,
    maybe: (count, roll, file) => `${roll}: ${many(count, 'row', 'rows')} with new codes that may have been sent; no reply came. If they `
      + `arrived, the codes are valid. They were saved as ${apart(file)}. Go on, and send them again: nobody is added twice.`,
    sent: (count, roll, file) => `${roll}: ${many(count, 'row', 'rows')}, sent. Their codes were saved as ${apart(file)}.`,
  },
  goOnWith: 'Go on with these rows',
  forgetCodes: 'Forget these codes here',
  askForget: 'Forget these codes in this tab?',
  forgetSent: (file) => `They are valid. If you don’t have the file ${apart(file)}, nobody can find out these codes any more.`,
  forgetMeans: {
    made: (file) => `The new codes have not been sent. This tab forgets them; they are still in the file ${apart(file)}, if you have it.`,
    maybe: (file) => 'The rows may be in the portal. Then these codes are valid, and this tab forgets them: be sure that you have the file '
      + `${apart(file)}.`,
    kept: (file) => `No reply came, so the rows may be in the portal, and their codes valid. They are in the file ${apart(
      file,
    )}, and this tab keeps them until you sign out or close it.`,
  },
  closeMaybe: 'Close this file without knowing whether it arrived?',
  closeFile: 'Close',
  closeWork: 'Close this file?',
  closeWorkMeans: 'What you have corrected, left out or decided in it will be lost. The file itself stays as it is.',
  compare: 'Compare with the portal',
  compareMeans: (what, known) => `The portal has ${what}, and this browser knows ${number(
    known,
  )} of them. Compare first: the portal then tells which of these IDs it has already. Nothing is added by that, and only IDs are sent.`,
  comparing: (done, all) => `Compared ${number(done)} of ${number(all)} rows.`,
  compared: (fresh, old) => `Compared: ${many(fresh, 'row is', 'rows are')} new, ${number(old)} already in the portal.`,
  final: 'Check before you send: rows can’t be changed or removed here afterwards.',
  keepsNames: (withEmails) => (withEmails
    ? 'When you send, this browser stores the names and email addresses, but never the codes. The addresses aren’t sent.'
    : 'When you send, this browser stores the names, but never the codes.'),
  makeCodes: 'Make codes and save them',
  send: 'Send',
  askAdd: (what) => `Add ${what}?`,
  addedForGood: 'You can’t remove or change them later.',
  askSendAgain: (what) => `Send ${what} again?`,
  allThere: 'As far as this browser knows, they are all in the portal already.',
  fromFile: (file) => `From the file ${apart(file)}.`,
  doAdd: (what) => `Add ${what}`,
  keepNames: 'Read names only',
  namesKept: (count, emails) => `Read ${many(count, 'name', 'names')}${emails === 0 ? '' : ` and ${addresses(emails)}`}. Nothing was sent.`,
  discardCodes: 'Discard the new codes?',
  discardMeans: (count, file) => `${many(
    count,
    'new code has',
    'new codes have',
  )} not been sent yet and will be lost. Delete the file ${apart(file)}: its new codes are not valid.`,
  discard: 'Discard codes',
  keepCodes: 'Keep codes',
  codesSaved: (file) => `The codes are valid now. They are in the file ${apart(
    file,
  )}, among your downloads; this tab keeps them until you sign out or close it. Keep the file safe: the portal never shows codes again.`,
  printSlips: 'Print slips',
  slipCode: 'Code',
  slipAddress: 'Sign in at',
  slipSecret: 'Keep your code secret. Anyone who has it can act in your name.',
  row: (row) => `Row ${row}`,

  // the office: what goes wrong
  lostRoll: 'No reply from the portal, so we don’t know if the file arrived. You can safely send it again: rows already there are not '
    + 'added twice.',
  lostCodes: (file) => 'No reply from the portal, so we don’t know if the rows arrived. If they did, their codes are valid: keep the file '
    + `${apart(file)}. You can safely send again: rows already there are not added twice.`,
  sendAgain: 'Send again',
  badRow: (roll, row, lecturer) => `${roll}: nothing was added, because row ${row} has a mistake.${lecturer === undefined
    ? ''
    : ` No lecturer has the ID ${apart(lecturer)}.`}`,
  rollConflict: (roll, row) =>
    `${roll}: nothing was added. Row ${row} differs from what the portal has under the same ID, or its code belongs to somebody else.`,
});
