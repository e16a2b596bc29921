// The columns of a roll file: what the portal wants, what files call them in English and German, and the rows that are read by them.

import { plain } from './found.js';

/** @type {Record<Roll, Column[]>} The columns of each roll, as the portal wants them. */
export const KINDS = {
  lecturers: ['id', 'name', 'code', 'capacity'],
  projects: ['id', 'lecturer', 'title', 'capacity'],
  students: ['id', 'name', 'code'],
};
/** @type {Roll[]} */
export const ROLLS = ['lecturers', 'projects', 'students'];
/**
 * What a file need not have: a code can be made, a name may stand in one column, addresses are for the browser alone, and descriptions for
 * the administrator.
 * @type {Column[]}
 */
const OPTIONAL = ['code', 'email', 'first', 'description', 'link'];

/** @param {Roll} roll */
export const hasCodes = (roll) => KINDS[roll].includes('code');

/**
 * The columns that are taken from a file.
 * @param {Roll} roll
 * @returns {Column[]}
 */
export const columnNames = (roll) => [...KINDS[roll], .../** @type {Column[]} */ (hasCodes(roll) ? ['email'] : ['description', 'link'])];

// In small letters, without accents and signs.
/** @param {string} text */
const called = (text) => plain(text).replace(/[^\p{L}\d]/gu, '');
/** @param {string} text */
const list = (text) => text.split(' ');

const STUDENT_IDS = list('stucode studentid studentno studentnumber matriculationno matriculationnumber registrationnumber matrikel '
  + 'matrikelnr matrikelnummer matrnr matrikelno matnr mtknr mtknummer studierendennummer studierendenid');
const OWNERS = list('lecturer lecturername supervisor supervisorname advisor betreuer betreuerin betreuende betreuung erstbetreuer '
  + 'erstbetreuerin erstbetreuung hauptbetreuer hauptbetreuerin dozent dozentin lehrperson lehrende prufer pruferin erstprufer '
  + 'erstpruferin erstgutachter erstgutachterin');
const SURNAMES = list('surname lastname familyname nachname familienname zuname stusurn familiennamedesstudierenden '
  + 'nachnamedesstudierenden familynameofstudent');

/** @type {Record<Column, string[]>} The likelier name first. */
const NAMES = {
  id: list('key kennung kurzel kuerzel idnummer idnumber'),
  name: list('fullname studentname vollername vollstandigername namevorname nachnamevorname familiennamevorname vorundnachname '
    + 'vornamenachname vornamename'),
  first: list('firstname forename givenname givennames vorname vornamen rufname stufnm1 vornamedesstudierenden firstnameofstudent'),
  code: list('signincode zugangscode'),
  capacity: list('max maximum places limit seats maxstudents kapazitat kapazitaet platze plaetze platzzahl anzahlplatze anzahlderplatze '
    + 'maxplatze maxstudierende maxanzahl maxanzahlstudierende anzahlstudierende maxteilnehmer maxteilnehmende maxteilnehmerzahl '
    + 'teilnehmerzahl maxbetreuungen anzahlbetreuungen'),
  lecturer: [...list('lecturerid supervisorid staffid lehrpersonid dozentenid betreuerid'), ...OWNERS],
  title: list('projecttitle projekttitel titelderarbeit themaderarbeit arbeitstitel titel projectname projektname thema topic project '
    + 'projekt name'),
  email: list('emailaddress emailadresse mail mailaddress mailadresse uniemail emaildienstlich dienstlicheemail'),
  description: list('descriptions projectdescription beschreibung projektbeschreibung kurzbeschreibung abstract summary inhalt details'),
  link: list('url website webpage webseite internetseite homepage weblink'),
};

// What may only count the rows: a person says whether these are students' IDs, which lecturers see, and which stay.
const COUNTS = list('number nummer no nr');

/** @type {Record<Roll, Partial<Record<Column, string[]>>>} What the files of one roll alone call a column. */
const OWN = {
  lecturers: {
    id: list('lecturerid supervisorid staffid personnelnumber personalnummer personalnr lehrpersonid dozentenid betreuerid'),
    name: OWNERS,
  },
  projects: { id: list('projectid projectno projectnumber projektid projektnr projektnummer') },
  students: { id: STUDENT_IDS },
};

/**
 * Where the file has each column of the roll, by its usual names: the portal's own name first, then what says the most. Where the first
 * name has a column of its own, the name is that of the family.
 * @param {Roll} roll
 * @param {string[]} header
 * @returns {Columns}
 */
export function columnsOf(roll, header) {
  const names = header.map(called);
  const first = (/** @type {string[]} */ wanted) => names.indexOf(wanted.find((name) => names.includes(name)) ?? '-');
  const counts = (/** @type {Column} */ column) => (column === 'id' && roll !== 'students' ? COUNTS : []);
  const columns = Object.fromEntries(columnNames(roll).map((column) =>
    [column, first([column, ...(OWN[roll][column] ?? []), ...NAMES[column], ...counts(column)])]));
  const [family, given] = [first(SURNAMES), first(NAMES.first)];
  if (!hasCodes(roll) || (family < 0 && given < 0)) return columns;
  // beside a family name what is called "name" alone is the first name
  const other = given < 0 ? columns.name : given;
  return { ...columns, ...(family < 0 ? {} : { name: family }), ...(other < 0 ? {} : { first: other }) };
}

/**
 * The columns that the file has to have and has not.
 * @param {Columns} columns
 */
export const missingOf = (columns) => namesOf(columns).filter((column) => (columns[column] ?? -1) < 0 && !OPTIONAL.includes(column));

/** @param {object} of */
const namesOf = (of) => /** @type {Column[]} */ (Object.keys(of));

/**
 * The columns of the file that nothing is taken from, by their names.
 * @param {Columns} columns
 * @param {string[]} header
 */
export function extraOf(columns, header) {
  const taken = new Set(Object.values(columns));
  return header.filter((name, at) => !taken.has(at) && name.trim() !== '');
}

// The header is one of the first rows, under a title or two.
const MOST_TITLES = 40;

/**
 * Where the header is: the first row with at least two names of columns that are known; else the first one with two cells or more.
 * @param {FileRow[]} rows
 */
export function headAt(rows) {
  const known = (/** @type {string[]} */ fields) =>
    Math.max(...ROLLS.map((roll) => new Set(Object.values(columnsOf(roll, fields)).filter((at) => at >= 0)).size));
  const first = (/** @type {(fields: string[]) => boolean} */ test) => rows.slice(0, MOST_TITLES).findIndex(({ fields }) => test(fields));
  const [named, wide] = [first((fields) => known(fields) >= 2), first((fields) =>
    fields.filter((field) => field.trim() !== '').length >= 2)];
  return Math.max(0, named < 0 ? wide : named);
}

/**
 * The roll that a file is for by its header: the first one of which all columns are there, where the one with the most columns is asked
 * first.
 * @param {string[]} header
 */
export const rollOf = (header) =>
  /** @type {Roll[]} */ (['projects', 'lecturers', 'students']).find((roll) => missingOf(columnsOf(roll, header)).length === 0);

/**
 * A column that files of another roll have and those of this one have not: the number of a student, or the places of a lecturer.
 * @param {Roll} roll
 * @param {string[]} header
 * @returns {{ roll: Roll, name: string } | null}
 */
export function strangerIn(roll, header) {
  const name = (/** @type {string[]} */ wanted) => header.find((one) => wanted.includes(called(one)));
  const [number, places] = [name(STUDENT_IDS), name(['capacity', ...NAMES.capacity])];
  if (roll !== 'students' && number !== undefined) return { roll: 'students', name: number };
  return roll === 'students' && places !== undefined ? { roll: 'lecturers', name: places } : null;
}

/**
 * The rows under the header as those of the roll: each column's text without blanks around it.
 * @param {FileRow[]} rows
 * @param {Columns} columns
 * @returns {Entry[]}
 */
export function entriesOf(rows, columns) {
  return rows.slice(1).map(({ row, fields }) => {
    const texts = namesOf(columns).map((column) => [column, (fields[columns[column] ?? -1] ?? '').trim()]);
    const { first = '', ...entry } = { ...Object.fromEntries(texts), row };
    return first === '' ? entry : { ...entry, name: wholeName(first, entry.name) };
  });
}

/**
 * One of the two columns may have the whole name.
 * @param {string} first
 * @param {string} name
 */
function wholeName(first, name) {
  const isWithin = (/** @type {string} */ part, /** @type {string} */ whole) => {
    const [some, all] = [part, whole].map((text) => text.split(/[\s,]+/));
    return all.length > some.length && some.every((word) => all.includes(word));
  };
  if (isWithin(first, name)) return name;
  return isWithin(name, first) ? first : `${first} ${name}`.trim();
}
