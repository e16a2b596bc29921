// The office’s files without a browser: columns, rows, what looks wrong, what is sent: `node --test web/test/rolls.test.js`.

import assert from 'node:assert/strict';
import test from 'node:test';

import { table } from '../csv.js';
import { Refused, told } from '../requests.js';
import { columnsOf, entriesOf, extraOf, missingOf, rollOf } from '../columns.js';
import { codesFile, codesText } from '../rollcodes.js';
import { doubtsOf } from '../rolldoubts.js';
import { faultsOf } from '../rollfaults.js';
import { RollFile, fileRows, likeness, rollText, sorted } from '../rollfile.js';
import { toldOfRoll } from '../rollsending.js';
import { speak } from '../words.js';

await speak('en', 'student', 'lecturer', 'office', 'rolls', 'order', 'answers');

const rows = (...lines) => lines.map((line, at) => ({ row: at + 1, fields: line.split(',') }));
const entries = (roll, ...lines) => entriesOf(rows(...lines), columnsOf(roll, lines[0].split(',')));

test('columns are found by name, in any case and order', () => {
  assert.deepEqual(columnsOf('students', ['ID', ' Name', 'Code', 'phone']), { id: 0, name: 1, code: 2, email: -1 });
  assert.deepEqual(columnsOf('lecturers', ['capacity', 'Email', 'name', 'id']), { id: 3, name: 2, code: -1, capacity: 0, email: 1 });
  assert.deepEqual(columnsOf('projects', ['id', 'email']), { id: 0, lecturer: -1, title: -1, capacity: -1, description: -1, link: -1 });
  assert.deepEqual(missingOf(columnsOf('lecturers', ['id', 'name'])), ['capacity']);
  assert.deepEqual(missingOf(columnsOf('students', ['id', 'name'])), []);
  assert.deepEqual(extraOf(columnsOf('students', ['id', 'group', 'name', '']), ['id', 'group', 'name', '']), ['group']);
});

/** What each column of a header is taken for, as `column: name`. */
const taken = (roll, header) => {
  const names = header.split(';');
  return Object.entries(columnsOf(roll, names)).filter(([, at]) => at >= 0).map(([column, at]) => `${column}: ${names[at]}`).sort().join(
    ', ',
  );
};

test('columns are found by what examinations offices call them, in English and German', () => {
  assert.equal(
    taken('students', 'Student ID;Surname;First name;E-mail'),
    'email: E-mail, first: First name, id: Student ID, name: Surname',
  );
  assert.equal(
    taken('students', 'Matrikelnummer;Nachname;Vorname;E-Mail'),
    'email: E-Mail, first: Vorname, id: Matrikelnummer, name: Nachname',
  );
  assert.equal(taken('students', 'Matr.-Nr.;Name;Vorname;e_mail'), 'email: e_mail, first: Vorname, id: Matr.-Nr., name: Name');
  assert.equal(
    taken('lecturers', 'Kürzel;Vorname;Nachname;Max;EMail'),
    'capacity: Max, email: EMail, first: Vorname, id: Kürzel, name: Nachname',
  );
  assert.equal(taken('lecturers', 'ID;Supervisor;Plätze'), 'capacity: Plätze, id: ID, name: Supervisor');
  assert.equal(taken('projects', 'Nr.;Titel;Betreuer/in;Plätze'), 'capacity: Plätze, id: Nr., lecturer: Betreuer/in, title: Titel');
  assert.equal(
    taken('projects', 'Project ID;Project title;Supervisor;Max'),
    'capacity: Max, id: Project ID, lecturer: Supervisor, title: Project title',
  );
  // the portal's own name is taken before another one, and what says more before what says less
  assert.equal(taken('students', 'Nr.;Matrikelnummer;Nachname;Vorname'), 'first: Vorname, id: Matrikelnummer, name: Nachname');
  assert.equal(
    taken('projects', 'Nr;Projekt-ID;Projekt;Name;Betreuer;Betreuer-ID;Max'),
    'capacity: Max, id: Projekt-ID, lecturer: Betreuer-ID, title: Projekt',
  );
  assert.equal(taken('students', 'Number;id;name;Full name'), 'id: id, name: name');
  // what may only count the rows is no student's ID
  assert.equal(taken('students', 'Nr.;Nachname;Vorname'), 'first: Vorname, name: Nachname');
  assert.equal(taken('students', 'Nr.;MtkNr;Name, Vorname'), 'id: MtkNr, name: Name, Vorname');
  assert.equal(taken('students', 'Vorname;Nachname;ID-Nummer;E-Mail-Adresse'), 'email: E-Mail-Adresse, first: Vorname, id: ID-Nummer, '
    + 'name: Nachname');
  assert.equal(taken('lecturers', 'Nr.;Erstprüfer/in;max. Anzahl'), 'capacity: max. Anzahl, id: Nr., name: Erstprüfer/in');
  assert.equal(
    taken('projects', 'Projekt-Nr.;Titel der Arbeit;Betreuer:in;max. Teilnehmer'),
    'capacity: max. Teilnehmer, id: Projekt-Nr., lecturer: Betreuer:in, title: Titel der Arbeit',
  );
  assert.deepEqual(
    ['Matrikelnummer;Nachname;Vorname', 'Kürzel;Name;Max', 'Nr;Titel;Betreuer;Plätze'].map((header) => rollOf(header.split(';'))),
    ['students', 'lecturers', 'projects'],
  );
});

test('a name is put together from two columns, where one of them does not have all of it', () => {
  const names = (header, ...lines) => entries('students', header, ...lines).map(({ name }) => name);
  assert.deepEqual(names('id,Surname,First name', 'a,Roe,Ann', 'b,Otto,Otto', 'c,,Cyr', 'd,Anders,An'), [
    'Ann Roe', 'Otto Otto', 'Cyr', 'An Anders',
  ]);
  assert.deepEqual(names('id,Name,Vorname', 'a,Roe,Ann', 'b,Bea Sim,Bea', 'c,Cyr,'), ['Ann Roe', 'Bea Sim', 'Cyr']);
  assert.deepEqual(names('id,name,surname', 'a,Ann,Roe', 'b,Bea Sim,Sim'), ['Ann Roe', 'Bea Sim']);
  assert.deepEqual(rollText('students', entries('students', 'id,Surname,First name', 'a,Roe,Ann')), 'id,name,code\na,Ann Roe,\n');
});

test('the header tells which roll a file is', () => {
  assert.equal(rollOf(['Name', 'ID', 'capacity', 'code']), 'lecturers');
  assert.equal(rollOf(['id', 'lecturer', 'title', 'capacity']), 'projects');
  assert.equal(rollOf(['id', 'name', 'code', 'email']), 'students');
  assert.equal(rollOf(['number', 'person']), undefined);
});

test('entries of the roll are made from the columns that are taken', () => {
  const found = entriesOf(rows('Who,Group,Key', ' Ann ,3,a', 'Bea'), { id: 2, name: 0, code: -1 });
  assert.deepEqual(found, [{ id: 'a', name: 'Ann', code: '', row: 2 }, { id: '', name: 'Bea', code: '', row: 3 }]);
  assert.equal(rollText('students', [{ id: 'a', name: 'Roe, Ann', code: 'code-1234', row: 9 }]), 'id,name,code\na,"Roe, Ann",code-1234\n');
});

/** Nobody is there; `more` says who is. */
const nobody = (more = {}) => ({ lecturers: new Map(), projects: new Map(), students: new Map(), ...more });

/** Which roll a file looks like, and why, by its rows. */
const looks = (roll, there, ...lines) => {
  const found = likeness(roll, lines[0].split(','), entries(roll, ...lines), nobody(there));
  return found && `${found.roll} ${found.why}`;
};

test('the file of another roll is known by its header', () => {
  assert.equal(looks('students', {}, 'id,name,code,capacity', 'l,Lee,code-of-l-1,2'), 'lecturers header');
  assert.equal(looks('students', {}, 'Capacity,Name,ID,room', '2,Lee,l,1'), 'lecturers header');
  assert.equal(looks('students', {}, 'Capacity,Wer,ID,room', '2,Lee,l,1'), 'lecturers column');
  assert.equal(looks('students', {}, 'id,lecturer,title,capacity', 'p,l,Tides,2'), 'projects header');
  assert.equal(looks('students', {}, 'id,lecturer,title,capacity,room', 'p,l,Tides,2,1'), 'projects header');
  assert.equal(looks('lecturers', {}, 'id,name,code,email', 's,Ann,code-of-s-1,ann@example.edu'), 'students header');
  assert.equal(looks('lecturers', {}, 'id,lecturer,title,capacity', 'p,l,Tides,2'), 'projects header');
  assert.equal(looks('projects', {}, 'id,name', 's,Ann'), 'students header');
  assert.equal(looks('projects', {}, 'id,name,code,capacity', 'l,Lee,code-of-l-1,2'), 'lecturers header');
});

test('the right file is never taken for another one, also where a column was only mapped', () => {
  assert.equal(looks('students', {}, 'id,name,code', 's,Ann,code-of-s-1'), null);
  assert.equal(looks('students', {}, 'id,name,code,group,title,lecturer', 's,Ann,code-of-s-1,3,Ms,l'), null);
  assert.equal(looks('lecturers', {}, 'id,name,code,capacity,email', 'l,Lee,code-of-l-1,2,lee@example.edu'), null);
  assert.equal(looks('lecturers', {}, 'id,name,places', 'l,Lee,2'), null);
  assert.equal(looks('lecturers', {}, 'Kennung,Wer,Plätze', 'l,Lee,2'), null);
  assert.equal(looks('projects', {}, 'id,lecturer,title,capacity', 'p,l,Tides,2'), null);
});

test('the file of another roll is known by the people in it, where the header says nothing', () => {
  const there = { lecturers: new Map([['l', { name: 'Lee' }], ['m', { name: 'Moe' }], ['n', {}]]) };
  assert.equal(looks('students', there, 'id,name,room', 'l,Lee,2', 'm,Moe,1'), 'lecturers people');
  assert.equal(looks('students', there, 'id,name,code', 'l,Ann,', 'm,Bea,', 'n,Cyr,'), null);
  assert.equal(looks('students', { ...there, students: new Map([['l', { name: 'Lee' }]]) }, 'id,name,code', 'l,Lee,'), null);
  assert.equal(looks('students', there, 'id,name,code', 'l,Lee,', 's,Ann,'), null);
});

test('the export of another office is known by a column that the roll has not', () => {
  assert.equal(looks('lecturers', {}, 'Matrikelnummer,Nachname,Vorname,E-Mail', '1,Roe,Ann,a@x'), 'students header');
  assert.equal(looks('lecturers', {}, 'Matrikelnummer,Nachname,Vorname,Semester', '1,Roe,Ann,3'), 'students column');
  assert.equal(looks('lecturers', {}, 'Nr,Titel,Betreuer,Plätze', '1,Tides,Lee,2'), 'projects header');
  assert.equal(looks('students', {}, 'Kürzel,Nachname,Vorname,Max', 'l,Lee,Ann,2'), 'lecturers header');
  assert.equal(looks('projects', {}, 'Kürzel,Nachname,Vorname,Max', 'l,Lee,Ann,2'), 'lecturers header');
  for (const [roll, header] of [
    ['students', 'Matrikelnummer,Nachname,Vorname,E-Mail,Semester'], ['lecturers', 'Kürzel,Name,Anzahl'],
    ['lecturers', 'Kürzel,Name,E-Mail,Max,Raum'], ['projects', 'Nr,Titel,Betreuer,Plätze'], ['projects', 'Nr,Name,Wer,Plätze'],
    ['projects', 'Nr,Titel,Dozenten-ID,Plätze'],
  ]) {
    assert.equal(looks(roll, {}, header, '1,2,3,4'), null, header);
  }
});

/** A file as the page has it in hand. */
const inHand = (roll, text) =>
  new RollFile(roll, 'file.csv', { encoding: 'utf-8', separator: ',' }, table(new TextEncoder().encode(text)).rows);

test('a lecturer by name is matched where one alone is meant, and taken once somebody agrees', () => {
  const lecturers = new Map(Object.entries(
    { bell: { name: 'Jocelyn Bell Burnell' }, l1: { name: 'Ann Roe' }, l2: { name: 'Anton Roe' }, sim: { name: 'Zoë Sim' }, l7: {} },
  ));
  const file = inHand('projects', 'id,Betreuer,title,capacity\n' + [
    'Prof. Dr. Bell', 'Roe', 'Roe, Ann', 'A. Roe', 'zoe sim', 'SIM', 'l7', 'nobody', 'Bell Burnell, J.',
  ].map((who, at) => `p${at},"${who}",Tides ${at},1\n`).join(''));
  const named = file.named(nobody({ lecturers }));
  assert.deepEqual([...named], [
    ['Prof. Dr. Bell', 'bell'], ['Roe, Ann', 'l1'], ['zoe sim', 'sim'], ['SIM', 'sim'], ['Bell Burnell, J.', 'bell'],
  ]);
  assert.equal(file.entries[0].lecturer, 'Prof. Dr. Bell');
  file.agree(named);
  assert.deepEqual(file.entries.map(({ lecturer }) => lecturer), ['bell', 'Roe', 'l1', 'A. Roe', 'sim', 'sim', 'l7', 'nobody', 'bell']);
  assert.equal(file.named(nobody({ lecturers })).size, 0);
});

test('how many rows lack an ID: all, where no column has it', () => {
  assert.deepEqual(inHand('students', 'id,name\na,Ann\n,Bea\n').lacking, [3]);
  assert.deepEqual(inHand('students', 'Wer,name\na,Ann\nb,Bea\n').lacking, [2, 3]);
});

test('a row that is there and cannot be sent is told where it differs; the portal refuses what is sent and differs', () => {
  const there = nobody({ lecturers: new Map([['l', { name: 'Lee', capacity: '2' }], ['m', { name: 'Moe', capacity: '3' }], ['n', {}]]) });
  const without = inHand('lecturers', 'id,name,capacity\nl,Lee,9\nm,Moe,3\nn,Nan,4\no,Oda,5\n').plan(there);
  assert.deepEqual([without.unlike, without.doubts, without.toSend.map(({ id }) => id)], [[2], [], ['o']]);
  const withCodes = inHand('lecturers', 'id,name,code,capacity\nl,Lee,k4mz-pq7w-9xyd,9\n').plan(there);
  assert.deepEqual([withCodes.unlike, withCodes.doubts], [[], [{ doubt: 'differs', rows: [2], stops: false, isAnswered: false }]]);
});

test('a file with new codes tells how many, and the day', () => {
  assert.equal(codesFile('students', 200, new Date(2026, 10, 29, 23, 59)), 'students-200-codes-2026-11-29.xlsx');
});

test('a file to keep has the addresses that were read, opens in columns in each language, and is read back', async () => {
  const all = entries('students', 'id,name,code,E-Mail', 'a,Roe; Ann,code-of-a-1,ann@example.edu', 'b,Bea,code-of-b-1,');
  const back = () => {
    const { rows: read, separator } = table(new TextEncoder().encode(`\ufeff${fileText('students', all)}`));
    return [separator, entriesOf(read, columnsOf('students', read[0].fields))];
  };
  assert.equal(fileText('students', all), 'id,name,code,email\na,"Roe; Ann",code-of-a-1,ann@example.edu\nb,Bea,code-of-b-1,\n');
  assert.deepEqual(back(), [',', all]);
  await speak('de');
  assert.equal(fileText('students', all), 'id;name;code;email\na;"Roe; Ann";code-of-a-1;ann@example.edu\nb;Bea;code-of-b-1;\n');
  assert.deepEqual(back(), [';', all]);
  await speak('en');
  assert.equal(rollText('students', all), 'id,name,code\na,Roe; Ann,code-of-a-1\nb,Bea,code-of-b-1\n');
});

test('a file that is used as that of another roll loses nothing', () => {
  const { rows: read } = table(new TextEncoder().encode('id,name,code,capacity\nl,Lee,code-of-l-1,2\n'));
  const file = new RollFile('students', 'l.csv', { encoding: 'utf-8', separator: ',' }, read).as({ roll: 'lecturers' });
  assert.equal(file.likeness(nobody()), null);
  assert.deepEqual(file.entries, [{ row: 2, id: 'l', name: 'Lee', code: 'code-of-l-1', capacity: '2', email: '' }]);
});

test('a file to keep has no formulas, and what the portal gets has them as they are', () => {
  const all = entries('students', 'id,name,code', '-a,=1+1,-code-of-a-1', "b,'=Bea,code-of-b-1");
  assert.equal(fileText('students', all), "id,name,code\n'-a,'=1+1,'-code-of-a-1\nb,''=Bea,code-of-b-1\n");
  assert.equal(rollText('students', all), "id,name,code\n-a,=1+1,-code-of-a-1\nb,'=Bea,code-of-b-1\n");
  const { rows: read } = table(new TextEncoder().encode(fileText('students', all)));
  assert.equal(rollText('students', entriesOf(read, columnsOf('students', read[0].fields))), rollText('students', all));
});

test('who is new, who needs a code, and who is left out', () => {
  const all = entries('students', 'id,name,code', 'a,Ann,', 'b,Bea,code-of-b-1', 'c,Cyr,', 'd,Dan,code-of-d-1');
  const parts = sorted('students', all, nobody({ students: new Map([['a', {}], ['b', {}]]) }));
  const ids = (of) => of.map(({ id }) => id).join('');
  assert.deepEqual([ids(parts.fresh), ids(parts.old), ids(parts.toMake), ids(parts.left)], ['cd', 'ab', 'c', 'a']);
  const projects = sorted('projects', entries('projects', 'id,lecturer,title,capacity', 'p,l,Tides,1'), nobody());
  assert.equal(projects.toMake.length, 0);
});

/** The text of a file to keep. */
const fileText = (roll, all) => codesText(fileRows(roll, all));

/** Each line, and what is told of it: the column and the fault, where there is one. */
const FAULTS = [
  ['students', 'a,Ann,code-1234', ''],
  ['students', 'a,Ann,', ''],
  ['students', ',Ann,code-1234', 'id empty'],
  ['students', 'a b,Ann,code-1234', 'id id'],
  ['students', `${'a'.repeat(17)},Ann,code-1234`, 'id id'],
  ['students', `${'a'.repeat(16)},Ann,code-1234`, ''],
  ['students', 'ä,Ann,code-1234', 'id id'],
  ['students', 'A-_.9,Ann,code-1234', ''],
  ['students', 'a,,code-1234', 'name empty'],
  ['students', `a,${'é'.repeat(80)},code-1234`, ''],
  ['students', `a,${'é'.repeat(81)},code-1234`, 'name long'],
  ['students', 'a,Ann\nB,code-1234', 'name line'],
  ['students', 'a,#N/A,code-1234', 'name broken'],
  ['students', '1.23E+05,Ann,code-1234', 'id cut'],
  ['students', 'a,Ann,short-1', 'code code'],
  ['students', 'a,Ann,with blank', 'code code'],
  ['students', `a,Ann,${'x'.repeat(41)}`, 'code code'],
  ['lecturers', 'a,Ann,code-1234,200', ''],
  ['lecturers', 'a,Ann,code-1234,201', 'capacity capacity'],
  ['lecturers', 'a,Ann,code-1234,0', 'capacity capacity'],
  ['lecturers', 'a,Ann,code-1234,2.0', 'capacity capacity'],
  ['lecturers', 'a,Ann,code-1234,many', 'capacity capacity'],
  ['lecturers', 'a,Ann,code-1234,', 'capacity empty'],
  ['lecturers', 'a,Ann,code-1234,0000007', ''],
  ['projects', 'p,l,Tides,1', ''],
  ['projects', 'p,not a key,Tides,1', 'lecturer lecturer'],
  ['projects', `p,l,${'x'.repeat(161)},1`, 'title long'],
];

test('what the portal would refuse is told with the field', () => {
  const HEADERS = { students: 'id,name,code', lecturers: 'id,name,code,capacity', projects: 'id,lecturer,title,capacity' };
  for (const [roll, line, fault] of FAULTS) {
    const found = faultsOf(roll, entries(roll, HEADERS[roll], line));
    assert.equal(found.map((one) => `${one.column} ${one.fault}`).join(', '), fault, line);
    assert.ok(found.every(({ row }) => row === 2));
  }
});

test('a key or a code that stands twice is told with the other row', () => {
  const all = entries(
    'students', 'id,name,code', 'a,Ann,code-of-a-1', 'a,Ann,code-of-a-1', 'a,Anna,code-of-a-1', 'b,Bea,code-of-a-1', 'c,Cyr,', 'd,Dan,',
  );
  assert.deepEqual(faultsOf('students', all), [
    { row: 4, column: 'id', fault: 'keyTwice', other: 2 },
    { row: 5, column: 'code', fault: 'codeTwice', other: 2 },
  ]);
});

test('more rows than a roll may have are told at the first one too many', () => {
  const lines = Array.from({ length: 301 }, (_, n) => `l${n},Name ${n},code-of-l-${n},1`);
  const all = entries('lecturers', 'id,name,code,capacity', ...lines);
  assert.deepEqual(faultsOf('lecturers', all), [{ row: 302, column: 'id', fault: 'tooMany' }]);
  assert.deepEqual(faultsOf('lecturers', all.slice(0, 300)), []);
});

/** The doubts as `kind: rows`. */
const doubts = (roll, all, there = nobody()) => doubtsOf(roll, all, there).map(({ doubt, rows: at }) => `${doubt}: ${at.join()}`);

test('codes that can be guessed', () => {
  const weak = (...lines) => doubts('students', entries('students', 'id,name,code', ...lines));
  assert.deepEqual(weak('a,Ann,k4mz-pq7w-9xyd'), []);
  assert.deepEqual(weak('a,Ann,k4mz-pq7w'), ['weakCode: 2']);
  assert.deepEqual(weak('s17,Ann,class-of-26-s17'), ['weakCode: 2']);
  assert.deepEqual(weak('a,Ann Roe,project-ROE-2026'), ['weakCode: 2']);
  assert.deepEqual(weak('a,Ann,secret-code-0001', 'b,Bea,secret-code-0002', 'c,Cyr,k4mz-pq7w-9xyd'), ['weakCode: 2,3']);
  assert.deepEqual(weak('a,Ann,'), []);
});

test('names and titles that a spreadsheet takes for formulas', () => {
  assert.deepEqual(
    doubts('students', entries('students', 'id,name,code', 'a,=Ann,', 'b,@Bea,', "c,'=Cyr,", 'd,D=n,', 'e,+Eve,', 'f,-Fay,')),
    ['formula: 2,3,6,7'],
  );
  const there = nobody({ lecturers: new Map([['l', {}]]) });
  assert.deepEqual(doubts('projects', entries('projects', 'id,lecturer,title,capacity', 'p,l,-1 as a square,1', 'q,l,Tides,1'), there), [
    'formula: 2',
  ]);
});

test('letters of another encoding', () => {
  const rowsOf = (all) => doubtsOf('students', all, nobody()).find(({ doubt }) => doubt === 'misread')?.rows ?? [];
  const misread = (...names) => rowsOf(names.map((name, at) => ({ id: `s${at}`, name, code: '', row: at })));
  // UTF-8 as Windows-1252, and twice; then DOS and the Mac as Windows-1252; then what was lost
  const read = (text) => new TextDecoder('windows-1252').decode(new TextEncoder().encode(text));
  assert.deepEqual(misread(read('Jörg'), read('Änne'), read('Groß'), read('Łukasz'), read(read('Jörg'))), [0, 1, 2, 3, 4]);
  assert.deepEqual(misread('M\x81ller', 'J”rg', 'Sch„fer', 'MŸller', 'JŠger', 'Gro§', 'M?ller', '?nne', 'M\ufffdller').length, 9);
  assert.deepEqual(
    misread('Zoë Müller', 'Seán O’Brien', 'ANA KOŠIR', 'Žiga Šimek', 'Åsa Ångström', 'JOÃO ÂNGELO', 'Änne Groß', 'L’Haÿ', 'Łucja'),
    [],
  );
  const title = (text) => rowsOf([{ id: 'p', lecturer: 'l', title: text, capacity: '1', row: 2 }]);
  assert.deepEqual(title('Gr”áe und Maá'), [2]);
  const good = ['Das „Maß“ der Zeit?', 'Wer? Wie? „Was?“', '§ 5 und 50 €', 'Größe – 3 °C … 5 °C', '中文 и русский'];
  assert.deepEqual(good.flatMap(title), []);
});

test('lecturers on no roll, titles that repeat, rows that differ from what is there', () => {
  const there = nobody({ lecturers: new Map([['l', {}]]), projects: new Map([['p', { title: 'Tides', lecturer: 'l', capacity: '1' }]]) });
  const projects = (...lines) => doubts('projects', entries('projects', 'id,lecturer,title,capacity', ...lines), there);
  assert.deepEqual(projects('p,l,Tides,1', 'q,l,Kites,1'), []);
  assert.deepEqual(projects('q,m,Kites,1', 'r,l,Bells,1'), ['noLecturer: 2']);
  assert.deepEqual(projects('q,l,tides,1'), ['sameTitle: 2']);
  assert.deepEqual(projects('q,l,Kites,1', 'r,l,KITES,1', 's,l,Bells,1'), ['sameTitle: 2,3']);
  assert.deepEqual(projects('q,l,Kites,1', 'q,l,Kites,1'), []);
  assert.deepEqual(projects('p,l,Tides,2'), ['differs: 2']);
  const students = nobody({ students: new Map([['a', { name: 'Ann' }], ['b', {}]]) });
  assert.deepEqual(doubts('students', entries('students', 'id,name,code', 'a,Anna,', 'b,Bea,'), students), ['differs: 2']);
});

const refused = (status, body) => new Refused(status, body);

test('a refused roll names the row of the spreadsheet, and shows no code', () => {
  const entry = { id: 'a', name: 'Ann', code: 'secret-code', row: 7 };
  const conflict = toldOfRoll(refused(409, { error: 'roll_conflict', row: 1 }), 'students', entry);
  assert.match(conflict.text, /Row 7/);
  assert.equal(conflict.line, 'a, Ann');
  assert.match(toldOfRoll(refused(
    422,
    { error: 'bad_row', row: 1 },
  ), 'projects', { id: 'p', lecturer: 'm', title: 'Tides', capacity: '1', row: 3 }).text, /row 3.*No lecturer has the ID.*m/);
  assert.match(toldOfRoll(refused(422, { error: 'roll_full' }), 'students', undefined).text, /too many rows/);
});
