// Lists that are put in order, and orders that were made elsewhere: `node --test web/test/order.test.js`.

import assert from 'node:assert/strict';
import test from 'node:test';

import { added, isSame, moved, removed, step } from '../ordered.js';
import { told } from '../requests.js';
import { meantBy } from '../meant.js';
import { readOrder } from '../orderfile.js';
import { BY_LINES, isAsGiven, orderBy, usualBy } from '../orderranks.js';

test('a list is put in order', () => {
  assert.deepEqual(added(['a', 'b'], 'c'), ['a', 'b', 'c']);
  assert.deepEqual(added(['a', 'b'], 'a'), ['a', 'b']);
  assert.deepEqual(removed(['a', 'b'], 'a'), ['b']);
  assert.deepEqual(moved(['a', 'b', 'c'], 'c', 0), ['c', 'a', 'b']);
  assert.deepEqual(moved(['a', 'b', 'c'], 'a', 1), ['b', 'a', 'c']);
  assert.deepEqual(moved(['a', 'b', 'c'], 'a', Infinity), ['b', 'c', 'a']);
  assert.deepEqual(moved(['a', 'b'], 'a', -1), ['a', 'b']);
  assert.deepEqual(moved(['a', 'b'], 'x', 0), ['a', 'b']);
});

test('lists are the same in the same order alone', () => {
  assert.ok(isSame([], []));
  assert.ok(isSame(['a', 'b'], ['a', 'b']));
  assert.ok(!isSame(['a', 'b'], ['b', 'a']));
  assert.ok(!isSame(['a'], ['a', 'b']));
});

/** The keys that a text tells of these applicants, in the order that is usual, and what is not understood. */
const PEOPLE = new Map(Object
  .entries({ s01: 'Ann Roe', s02: 'Anton Roe', s03: 'Zoë Sim', s04: 'Jo Anders', S05: 'Ann Maria Roe', 2: 'Cyr' })
  .map(([key, name]) => [key, { name }]));
const readAll = (text, people = PEOPLE) => readOrder(new TextEncoder().encode(text), people);
const usual = (text, people = PEOPLE) => usualBy(readAll(text, people), people.keys());
const made = (text, people = PEOPLE) => orderBy(readAll(text, people), usual(text, people) ?? BY_LINES);
const order = (text, people = PEOPLE) => {
  const { others } = readAll(text, people);
  return `${made(text, people).keys.join(' ')}${others.length > 0 ? ` | ${others.join(' | ')}` : ''}`;
};

test('an order is understood as people write one', () => {
  assert.equal(order('s03\ns01\n'), 's03 s01');
  assert.equal(order('S03\ns05\ns03\n'), 's03 S05');
  assert.equal(order('1. s03 Zoë Sim\n2. (S01) Roe, Ann\n'), 's03 s01');
  assert.equal(order('1\ts03\tZoë Sim\n2\ts02\tAnton Roe\n'), 's03 s02');
  assert.equal(order('s03, s01; s02 s04'), 's03 s01 s02 s04');
  assert.equal(order('Zoe Sim\n2) Roe, Anton\nAnders\n'), 's03 s02 s04');
  assert.equal(order('Ann Maria Roe\nAnn Roe\n'), 'S05 s01');
  // a name in two cells is one person, and stands there once
  const cells = 'Nachname;Vorname\nSim;Zoë\nAnders;Jo\nRoe;Anton\n';
  assert.equal(order(cells), 's03 s04 s02');
  assert.deepEqual(made(cells).twice, []);
  assert.equal(order('Zoë Sim, Jo Anders'), 's03 s04');
  assert.equal(order('name,Student ID\nZoë,S03\nAnn,s09\n'), 's03 | Ann, s09');
  assert.equal(order('id;name\ns04;"Anders; Jo"\n'), 's04');
  // 2 is an ID here, and in another line a rank
  assert.equal(order('2\ns01\n'), '2 s01');
  assert.equal(order('1 s01\n2 s03\n'), 's01 s03');
  assert.equal(order('s01\n2\n'), 's01 2');
});

test('what of an order is not understood is listed', () => {
  assert.equal(order('s03\ns77 Bea\nRoe\nthe best of all\n'), 's03 | s77 Bea | Roe | the best of all');
  assert.equal(order(''), '');
});

test('an order with a column of ranks is ordered by it, whatever it is called in English or German', () => {
  for (const head of ['rank', 'Rang', 'place', 'Platz', 'position', 'Note', 'Nr.', '#', 'my own view']) {
    assert.equal(order(`id,name,${head}\ns01,Ann Roe,2\ns02,Anton Roe,3\ns03,Zoë Sim,1\n`), 's03 s01 s02', head);
    assert.equal(order(`${head};id;name\n2;s01;Ann Roe\n3;s02;Anton Roe\n1;s03;Zoë Sim\n`), 's03 s01 s02', head);
  }
  assert.equal(order('rank,name\n3,Ann Roe\n1,Zoë Sim\n2,Jo Anders\n'), 's03 s04 s01');
  assert.equal(order('3. Ann Roe\n1. Zoe Sim\n2. Jo Anders'), 's03 s04 s01');
  assert.equal(order('Note;id\n1,7;s01\n1,3;s02\n2,0;s03\n'), 's02 s01 s03');
  // a grade before a name is no rank and a half
  assert.equal(order('Note;Name\n1,7;Ann Roe\n1,3;Zoë Sim\n2,0;Jo Anders\n'), 's03 s01 s04');
  assert.equal(order('Name\tNote\nRoe, Ann\t1,7\nSim, Zoë\t1,3\nAnders, Jo\t2,0\n'), 's03 s01 s04');
  assert.deepEqual(made('Note;Name\n1,7;Ann Roe\n1,3;Zoë Sim\n').ties, []);
  assert.equal(order('id,points\ns01,10\ns02,30\ns03,20\n'), 's02 s03 s01');
});

test('where numbers may be anything, a person is asked; stale running numbers do not undo an order', () => {
  assert.equal(usual('id,name,ECTS\ns01,Ann,30\ns02,Anton,60\ns03,Zoë,45\n'), null);
  assert.equal(usual('id,name,ECTS\ns01,Ann,30\ns02,Anton,45\ns03,Zoë,60\n'), BY_LINES);
  assert.equal(order('Nr.;id;name\n3;s03;Zoë\n1;s01;Ann\n2;s02;Anton\n'), 's03 s01 s02');
  assert.equal(usual('id\ns03\ns01\n'), BY_LINES);
});

test('a word between the ranks does not make others of them', () => {
  const { keys, unranked } = made('id;Rang\ns01;3\ns02;–\ns03;1\ns04;2\n');
  assert.deepEqual([keys, unranked], [['s03', 's04', 's01', 's02'], ['s02']]);
});

test('the heads of an order may stand under titles', () => {
  assert.equal(order('Projektwahl 2026;\nBewerbungen;\nid;Rang\ns01;3\ns02;2\ns03;1\n'), 's03 s02 s01');
});

test('who shares a rank, has none, or stands there twice is told', () => {
  const { keys, ties, unranked, twice } = made('id,Rang\ns01,2\ns02,1\ns03,2\ns04,\ns02,5\n');
  assert.deepEqual([keys, ties, unranked, twice], [['s02', 's01', 's03', 's04'], [{ number: 2, keys: ['s01', 's03'] }], ['s04'], ['s02']]);
  assert.deepEqual(made('1. Ann Roe, Zoë Sim\n2. Jo Anders\n').ties, [{ number: 1, keys: ['s01', 's03'] }]);
});

test('the order in which the portal gave the applicants is known', () => {
  const given = ['a', 'b', 'c', 'd'];
  assert.ok(isAsGiven(given, given) && isAsGiven(['a', 'c', 'd'], given));
  assert.ok(!isAsGiven(['b', 'a', 'c'], given) && !isAsGiven(['a', 'b'], given));
});

/** Applicants with IDs of digits, two of whom have the same name. */
const NUMBERED = new Map(Object
  .entries({ '00123456': 'Ann Roe', '01234567': 'Ben Bode', '123': 'Cem Can', '0123': 'Dora Dorn', '09999999': 'Ann Roe' })
  .map(([key, name]) => [key, { name }]));

test('an ID that lost its zeros is known where one alone is meant, and then the name', () => {
  assert.equal(order('id;name\n1234567;Ben Bode\n123456;Ann Roe\n9999999;Ann Roe\n', NUMBERED), '01234567 00123456 09999999');
  assert.equal(order('id;name\n123;Cem Can\n0123;Dora Dorn\n', NUMBERED), '123 0123');
  assert.equal(order('id;name\n00000123;Dora Dorn\n00123;Roe\n', NUMBERED), '0123 | 00123, Roe');
  assert.equal(order('id;name\n1234567;Cem Can\n', NUMBERED), ' | 1234567, Cem Can');
  assert.equal(order('1234567 Ben Bode\n123456 Ann Roe\n', NUMBERED), '01234567 00123456');
});

test('names beside the IDs of others are told: one column may have been sorted alone', () => {
  assert.deepEqual(readAll('id,name\ns01,Zoë Sim\ns03,Ann Roe\ns04,Jo Anders\n').crossed, ['s01', 's03']);
});

test('who is meant by a name', () => {
  const meant = meantBy([['a', 'Ann Roe'], ['b', 'Anton Roe'], ['c', 'Zoë Sim'], ['d', '李 明']]);
  assert.deepEqual(
    ['Roe, Ann', 'Prof. Dr. Zoe Sim (Physics)', 'Sim', 'Z. Sim', 'A. Roe', 'Roe', 'Z.', '', '李 明', 'Ann Roe, Zoë Sim'].map(meant),
    ['a', 'c', 'c', 'c', null, null, null, null, 'd', null],
  );
});

test('a name with an umlaut is meant by its other spelling too, unless somebody is called so', () => {
  const meant = meantBy([['a', 'Anna Müller'], ['b', 'Max Groß'], ['c', 'Jo Bauer'], ['d', 'Jo Baur']]);
  assert.deepEqual(['Mueller, Anna', 'Gross', 'Jo Bauer', 'Baur, Jo', 'Muller'].map(meant), ['a', 'b', 'c', 'd', 'a']);
});

test('the page scrolls at the edges where the pointer goes there, and not in between', () => {
  assert.equal(step(400, 800, 300), 0);
  assert.ok(step(790, 800, 300) > 0 && step(5, 800, 300) < 0);
  assert.ok(step(790, 800, 300) > step(750, 800, 300));
  assert.equal(step(780, 800, 790), 0);
  assert.equal(step(20, 800, 10), 0);
});
