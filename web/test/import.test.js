// The office's files without a browser: archives, cells' numbers, headers, IDs, doubts, and comparing: `node --test
// web/test/import.test.js`.

import assert from 'node:assert/strict';
import test from 'node:test';
import { crc32, deflateRawSync } from 'node:zlib';

import { Archive, archived, checksum } from '../archive.js';
import { bookOf } from '../bookfile.js';
import { shownNumber } from '../cellformat.js';
import { headAt } from '../columns.js';
import { table } from '../csv.js';
import { newIds } from '../newids.js';
import { Refused } from '../requests.js';
import { compare } from '../rollcompare.js';
import { doubtsOf, totalsIn } from '../rolldoubts.js';
import { RollFile } from '../rollfile.js';
import { speak } from '../words.js';

await speak('en', 'office', 'rolls');

const utf8 = (text) => new TextEncoder().encode(text);
const nobody = (more = {}) => ({ lecturers: new Map(), projects: new Map(), students: new Map(), ...more });
const inHand = (roll, text, how = {}) =>
  new RollFile(roll, 'file.csv', { encoding: 'utf-8', separator: ',', ...how }, table(utf8(text)).rows);

test('an archive is written and read, and its sum is that of all archives', async () => {
  const texts = { 'a.xml': '<a>Zoë</a>', 'b/ä.txt': '', 'c.txt': 'x'.repeat(70_000) };
  const archive = new Archive(archived(texts));
  for (const [name, text] of Object.entries(texts)) assert.equal(await archive.text(name), text);
  assert.equal(await archive.text('none'), '');
  if (crc32 !== undefined) assert.equal(checksum(utf8('Zoë')), crc32('Zoë'));
  assert.equal(checksum(utf8('123456789')), 0xcbf43926);
});

/** An archive with one pressed part, whose sizes are as they are told. */
function pressed(text, told = text.length) {
  const bytes = archived({ a: ' '.repeat(4) });
  const data = deflateRawSync(text);
  const whole = Buffer.concat([bytes.subarray(0, 31), data, bytes.subarray(35)]);
  const [list, end] = [31 + data.length, whole.length - 22];
  whole.writeUInt16LE(8, list + 10);
  whole.writeUInt32LE(checksum(utf8(text)), list + 16);
  whole.writeUInt32LE(data.length, list + 20);
  whole.writeUInt32LE(told, list + 24);
  whole.writeUInt32LE(list, end + 16);
  return new Uint8Array(whole);
}

test('a part is unpacked within a limit, whatever size the archive tells', async () => {
  assert.equal(await new Archive(pressed('abc')).text('a'), 'abc');
  await assert.rejects(new Archive(pressed(' '.repeat(49_000_000), 10)).text('a'), { fault: 'huge' });
  const cut = pressed('abcdefgh'.repeat(99));
  cut[33] ^= 255;
  await assert.rejects(new Archive(cut).text('a'), { fault: 'damaged' });
  for (const bytes of [new Uint8Array(0), utf8('PK'), archived({ a: 'b' }).subarray(0, 40)]) assert.throws(() => new Archive(bytes), {
    fault: 'damaged',
  });
});

test('numbers are shown as a spreadsheet shows them, nearly', () => {
  const shown = [[123456, '00000000', '00123456'], [0.1 + 0.2, '', '0.3'], [5, 'General', '5'], [46356, 'dd.mm.yyyy', '2026-11-30'], [
    46356.5,
    'yyyy-mm-dd hh:mm',
    '2026-11-30 12:00',
  ],
    [46356, '[$-407]d. mmmm yyyy;@', '2026-11-30'], [
      46356,
      'TT.MM.JJJJ',
      '2026-11-30',
    ], [0.5, 'hh:mm', '12:00'], [2, '0.00', '2'], [1234, '#,##0', '1234'], [1234567, '00-00000', '12-34567'],
    [42, '"M"0000', 'M0042'], [7, '0_);(0)', '7'], [12345678, '@', '12345678'], [
      1e21,
      '',
      '1000000000000000000000',
    ], [2, '0 "Plätze"', '2 Plätze'], [-3, '0000', '-3'], [1.5, '0', '1.5'], [7, 'General;[Red]-General', '7']];
  for (const [value, pattern, text] of shown) assert.equal(shownNumber(value, pattern), text, pattern);
  assert.equal(shownNumber(0, 'yyyy-mm-dd', true), '1904-01-01');
});

test('a workbook has texts alone, and no sign that XML cannot have', async () => {
  const archive = new Archive(
    bookOf("It's [a] name: of more than thirty-one signs", [['id', 'name'], ['007', '=1+1 & <b>"\u0001'], ['', '_x0041_']]),
  );
  const sheet = await archive.text('xl/worksheets/sheet1.xml');
  assert.ok(sheet.includes('<c r="A2" s="1" t="inlineStr"><is><t xml:space="preserve">007</t></is></c>'));
  assert.ok(sheet.includes('>=1+1 &amp; &lt;b&gt;&quot;</t>'));
  assert.ok(sheet.includes('r="B3"') && !sheet.includes('r="A3"') && sheet.includes('_x005F_x0041_'));
  assert.match(await archive.text('xl/workbook.xml'), /<sheet name="It s  a  name  of more than thi"/);
});

test('the header is found under titles, and the separator below them', () => {
  const of = (text) => {
    const { rows, separator } = table(utf8(text));
    return [separator, rows[headAt(rows)].row];
  };
  assert.deepEqual(of('Teilnehmer, Modul 4711\nStand: heute\n\nNr.;Matrikelnr.;Nachname\n1;007;Roe\n2;008;Sim\n'), [';', 4]);
  assert.deepEqual(of('Lehrende des Fachbereichs;;\nKürzel;Titel;Nachname\nl1;Dr.;Roe\n'), [';', 2]);
  assert.deepEqual(of('Title\nWho,What\na,b\n'), [',', 2]);
  assert.deepEqual(of('id,name\nname,id\n'), [',', 1]);
  const file = inHand('students', 'Title\nid,name\na,Ann\n');
  assert.deepEqual([file.skipped.map(({ row }) => row), file.entries.map(({ row, id }) => [row, id])], [[1], [[3, 'a']]]);
  assert.deepEqual(file.as({ head: -1 }).entries.map(({ row }) => row), [1, 2, 3]);
});

test('="007" is a text', () => assert.deepEqual(table(utf8('id,name\n="007",\'="008"\n')).rows[1].fields, ['007', '="008"']));

const entry = (row, fields) => ({ row, id: '', ...fields });

test('IDs of projects are numbers, and those of the portal come again', () => {
  const rows = [
    entry(2, { title: 'Tides', lecturer: 'l' }),
    entry(3, { title: 'Kites', lecturer: 'm' }),
    entry(4, { title: 'tides ', lecturer: 'm' }),
    entry(5, { id: 'P009', title: 'Bells', lecturer: 'l' }),
  ];
  const made = newIds('projects', rows, nobody());
  assert.deepEqual([...made], [[2, 'P010'], [3, 'P011'], [4, 'P012']]);
  const projects = new Map(
    [['P010', { title: 'Tides', lecturer: 'l' }], ['P011', { title: 'Kites', lecturer: 'm' }], ['P012', { title: 'tides', lecturer: 'm' }]],
  );
  const longer = [entry(2, { title: 'Looms', lecturer: 'l' }), ...rows.slice(0, 3).map((one) => ({ ...one, row: one.row + 1 }))];
  assert.deepEqual(Object.fromEntries(newIds('projects', longer, nobody({ projects }))), { 2: 'P013', 3: 'P010', 4: 'P011', 5: 'P012' });
});

test('IDs of lecturers are surnames, and those of the portal come again', () => {
  const rows = ['Prof. Dr. Anna Müller', 'Müller, Bea', 'Prof. Dr.-Ing. Jan van den Berg', 'Sørensen', 'Łukasz Ść'].map((name, at) =>
    entry(at + 2, { name }));
  assert.deepEqual([...newIds('lecturers', rows, nobody()).values()], ['mueller', 'mueller-b', 'vandenberg', 'soerensen', 'sc']);
  const lecturers = new Map([['l7', { name: 'Anna Müller' }], ['l8', { name: 'Bea Koch', email: 'bea@x.edu' }]]);
  const again = [entry(2, { name: 'Dr. Müller, Anna' }), entry(3, { name: 'Bea Müller', email: 'BEA@x.edu' }), entry(
    4,
    { name: 'Ann Roe', family: 'Roe' },
  )];
  assert.deepEqual([...newIds('lecturers', again, nobody({ lecturers })).values()], ['l7', 'l8', 'roe']);
});

/** The doubts as `kind: rows`. */
const doubts = (roll, all, there = nobody()) =>
  doubtsOf(roll, all, there).map(({ doubt, rows, length }) => `${doubt}${length ?? ''}: ${rows.join()}`);

test('IDs that have lost their zeros, and the same people under other IDs', () => {
  const people = (...ids) => ids.map((id, at) => ({ row: at + 2, id, name: `Name ${at}`, email: `${at}@x.edu`, code: '' }));
  assert.deepEqual(doubts('students', people('123456', '12345', '654321')), ['idLength6: 3']);
  assert.deepEqual(doubts('students', people('123456', '1234567', '654321')), ['idLength: 3']);
  assert.deepEqual(doubts('students', people('012345', '12345', '654321')), ['idLength6: 3']);
  assert.deepEqual(doubts('students', people('123456', '234567', '654321')), []);
  assert.deepEqual(doubts('students', people('bell', '1')), []);
  const students = new Map(people('00012345', '00012346', '00012347').map((one) => [one.id, one]));
  assert.deepEqual(
    doubts('students', people('12345', '12346', '12347'), nobody({ students })),
    ['idLength8: 2,3,4', 'sameEmail: 2,3,4', 'sameName: 2,3,4'],
  );
  assert.deepEqual(doubts('students', people('00012345', '00012346', '00012347'), nobody({ students })), []);
  const file = inHand('students', 'id,name\n12345,Name 0\n12346,Name 1\n12347,Name 2\n');
  file.fillZeros([2, 3, 4], 8);
  assert.deepEqual(file.plan(nobody({ students })).old.map(({ id }) => id), [...students.keys()]);
});

test('equal titles of one lecturer, and names that are none', () => {
  const project = (row, id, lecturer, title) => ({ row, id, lecturer, title, capacity: '1' });
  const there = nobody({ lecturers: new Map([['l', {}], ['m', {}]]) });
  assert.deepEqual(
    doubts('projects', [project(2, 'p', 'l', 'Tides'), project(3, 'q', 'm', 'Tides'), project(4, 'r', 'l', 'TIDES')], there),
    ['sameTitle: 2,4'],
  );
  assert.deepEqual(doubts('students', [{ row: 2, id: 'a', name: '300', code: '' }]), ['noName: 2']);
});

test('totals and notes', () => {
  const rows = ['Summe;300', ';;Gesamt: 12', 'Total', 'Stand 30.11.;;', 'p1;Total variation;3', 'p2;Summe aller Teile;1'].map((line, at) =>
    ({ row: at + 2, fields: line.split(';') }));
  assert.deepEqual(totalsIn(rows, 3), [2, 3, 4, 5]);
});

test('a doubt that stops is answered once, for its rows; rows are left out, mended and taken back', () => {
  const file = inHand('students', 'id,name,email\na,Ann,x@y\nb,Bea,x@y\nSumme,2,\nc c,Cyr,\n');
  const states = () => file.lines(file.plan(nobody())).map(({ entry: { row }, state }) => `${row} ${state}`);
  assert.deepEqual(states(), ['5 wrong', '2 doubtful', '3 doubtful', '4 doubtful']);
  file.mend(5, 'id', ' c ');
  file.leaveOut([4]);
  assert.deepEqual(states(), ['2 doubtful', '3 doubtful', '5 fresh', '4 left']);
  file.answer(file.plan(nobody()).doubts.find(({ doubt }) => doubt === 'sameEmail'));
  assert.deepEqual(states(), ['2 fresh', '3 fresh', '5 fresh', '4 left']);
  file.mend(5, 'email', 'x@y');
  assert.deepEqual(states(), ['2 doubtful', '3 doubtful', '5 doubtful', '4 left']);
  file.takeBack([4]);
  assert.deepEqual(file.entries.map(({ id }) => id), ['a', 'b', 'Summe', 'c']);
});

/** A portal that has these IDs, and refuses as the real one does; it counts what it was sent. */
function portalWith(ids) {
  const sent = [];
  return {
    sent,
    postText: async (path, body) => {
      sent.push(body);
      const rows = body.trim().split('\n').slice(1).map((line) => line.split(','));
      const seen = new Map();
      const at = rows.findIndex(([id, name]) => {
        const isTaken = ids.has(id) || (seen.has(id) && seen.get(id) !== name);
        seen.set(id, name);
        return isTaken;
      });
      if (at < 0) throw new Error('rows were added');
      throw new Refused(409, { error: 'roll_conflict', row: at + 1 });
    },
  };
}

test('comparing tells who is there, adds nobody, and stops when all are found or it is not wanted any more', async () => {
  const all = Array.from({ length: 300 }, (_, at) => `s${at}`);
  const asked = (portal, more) => compare({ portal, roll: 'students', ids: all, most: 300, goesOn: () => true, ...more });
  for (const there of [new Set(all.slice(0, 280)), new Set(all.slice(20)), new Set(['s0', 's299']), new Set(), new Set(all)]) {
    const found = await asked(portalWith(there));
    assert.deepEqual(found.there, all.filter((id) => there.has(id)));
    assert.deepEqual(found.fresh, all.filter((id) => !there.has(id)));
  }
  const portal = portalWith(new Set(['s1']));
  assert.equal((await asked(portal, { most: 1 })).fresh.length, 299);
  assert.equal(portal.sent.length, 1);
  assert.equal(await asked(portal, { goesOn: () => false }), null);
  await assert.rejects(asked({ postText: async () => ({ added: 1, same: 0 }) }), /not refused/);
});
