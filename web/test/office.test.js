// The logic of the office’s page, without a browser: `node --test web/test/office.test.js`.

import assert from 'node:assert/strict';
import test from 'node:test';

import { Known } from '../known.js';
import { Names, thereOf } from '../names.js';
import { lacksOf, placesFor, placesLeft } from '../lacks.js';
import { stepsFrom } from '../office.js';
import { bars, missing } from '../progress.js';
import { forgetRankers, learnRankers, rankingOpened } from '../rankers.js';
import { Refused, told } from '../requests.js';
import { usage } from '../result.js';
import { columnsOf, entriesOf } from '../columns.js';
import { speak, words } from '../words.js';

await speak('en', 'student', 'lecturer', 'office', 'rolls', 'order', 'answers');


const rows = (...lines) => lines.map((line, at) => ({ row: at + 1, fields: line.split(',') }));
const entries = (roll, ...lines) => entriesOf(rows(...lines), columnsOf(roll, lines[0].split(',')));

/** A browser that keeps things, for the length of a test. */
function withStorage(act) {
  const stored = new Map();
  globalThis.localStorage = {
    getItem: (name) => stored.get(name) ?? null,
    setItem: (name, value) => stored.set(name, value),
    removeItem: (name) => stored.delete(name),
  };
  try {
    act(stored);
  } finally {
    delete globalThis.localStorage;
  }
}

test('names are kept, codes never, and they can be forgotten', () => withStorage((stored) => {
  const names = new Names(new Known());
  names.learn(
    'students',
    entries('students', 'id,name,code,email', 'a,Ann,secret-code-of-a,ann@example.edu', '__proto__,Bea,secret-code-of-b,'),
    true,
  );
  names.learn('lecturers', entries('lecturers', 'id,name,code,capacity', 'l,Lee,secret-code-of-l,2'), false);
  names.learn('projects', entries('projects', 'id,lecturer,title,capacity', 'p,l,Tides,1'), true);
  assert.ok(![...stored.values()].join().includes('secret'));
  const again = new Names(new Known());
  assert.equal(again.nameOf('students', 'a'), 'Ann');
  assert.equal(again.nameOf('students', '__proto__'), 'Bea');
  assert.equal(again.nameOf('lecturers', 'l'), 'Lee');
  assert.equal(again.nameOf('students', 'l'), undefined);
  assert.equal(again.count, 3);
  assert.deepEqual([again.emails, again.emailOf('students', 'a'), again.emailOf('students', '__proto__')], [1, 'ann@example.edu', '']);
  assert.equal(again.capacityOf('l'), '2');
  again.learn('students', entries('students', 'id,name', 'a,Ann'), false);
  assert.equal(again.emailOf('students', 'a'), 'ann@example.edu');
  // of a row that was not sent the address alone is kept, and of nobody who is not known
  again.learnEmails('lecturers', entries('lecturers', 'id,name,capacity,email', 'l,Li,9,lee@example.edu', 'm,Moe,3,moe@example.edu'));
  assert.deepEqual([again.nameOf('lecturers', 'l'), again.capacityOf('l'), again.emailOf('lecturers', 'l'), again.capacityOf('m')], [
    'Lee', '2', 'lee@example.edu', undefined,
  ]);
  again.forget();
  assert.equal(stored.size, 0);
  assert.equal(again.nameOf('students', 'a'), undefined);
}));

test('who was only read from a file is not taken to be there', () => withStorage(() => {
  const names = new Names(new Known());
  names.learn('students', entries('students', 'id,name', 'a,Ann'), false);
  assert.equal(names.there('students').size, 0);
  names.learn('students', entries('students', 'id,name', 'a,Ann'), true);
  names.learn('students', entries('students', 'id,name', 'a,Ann'), false);
  assert.deepEqual([...names.there('students')].map(([key, { name }]) => [key, name]), [['a', 'Ann']]);
}));

test('names of another year are forgotten', () => withStorage((stored) => {
  const names = new Names(new Known());
  names.learn('students', entries('students', 'id,name', 'a,Ann', 'b,Bea'), true);
  names.forgetOtherYear({ lecturers: 0, students: 2 }, []);
  assert.equal(names.count, 2);
  names.forgetOtherYear({ lecturers: 3, students: 1 }, []);
  assert.equal(names.count, 0);
  assert.equal(stored.size, 0);
}));

test('another year with the same keys is known by its projects; projects that come or are corrected are of the same '
  + 'year', () => withStorage(() => {
  const year = { lecturers: 3, students: 3 };
  const projects = (...titles) => titles.map((title, at) => ({ id: `p${at}`, title }));
  const before = new Names(new Known());
  before.learn('students', entries('students', 'id,name', 'a,Ann'), true);
  before.forgetOtherYear(year, projects('Tides'));
  before.forgetOtherYear(year, projects('Tides', 'Kites', 'Bells', 'Looms'));
  const after = new Names(new Known());
  after.forgetOtherYear(year, projects('Tides', 'Kites', 'Bells', 'Wooden looms'));
  assert.equal(after.nameOf('students', 'a'), 'Ann');
  after.forgetOtherYear(year, projects('Tides', 'Clocks', 'Ropes', 'Waves'));
  assert.equal(after.nameOf('students', 'a'), undefined);
}));

test('the portal’s own names come first', () => withStorage(() => {
  const projects = [{ id: 'p', title: 'Tides', lecturer: 'l', lecturer_name: 'Lee', capacity: 1 }];
  const names = new Names(new Known().learn(projects, {}));
  names.learn('lecturers', entries('lecturers', 'id,name,capacity', 'l,Li,2'), true);
  names.learn('students', entries('students', 'id,name', 'a,Ann'), true);
  names.show(new Map([['a', 'Anna']]));
  assert.equal(names.nameOf('lecturers', 'l'), 'Lee');
  assert.equal(names.nameOf('students', 'a'), 'Anna');
  const there = thereOf({ without_list: ['a', 'b'] }, projects, names);
  assert.deepEqual([...there.students].map(([key, { name }]) => [key, name]), [['a', 'Ann'], ['b', undefined]]);
  assert.deepEqual([...there.lecturers].map(([key, { name, capacity }]) => [key, name, capacity]), [['l', 'Lee', '2']]);
  assert.deepEqual(there.projects.get('p'), { title: 'Tides', lecturer: 'l', capacity: '1' });
}));

const refused = (status, body) => new Refused(status, body);

test('who is still to rank is named', () => {
  assert.match(told(refused(409, { error: 'still_to_rank', lecturers: ['l'] }), ['Lee (l)']), /Lee \(l\)/);
});

test('the report’s counts of the projects', () => {
  const report = 'S1                P2                L1\nS2                (none)\n\nP1                 1 of    1\nP2                 0 '
    + 'of  200\n\nassigned 1 of 2\n';
  assert.deepEqual(usage(report), [{ key: 'P1', taken: 1, all: 1 }, { key: 'P2', taken: 0, all: 200 }]);
});

test('the bars and who is missing, in each phase; a bar’s text tells the numbers of the bar', () => {
  const status = { lecturers: 3, projects: 5, students: 5, still_to_rank: [], without_list: ['emil'] };
  const rankers = { keys: new Set(['bell', 'noether', 'turing']), isWhole: true };
  const shown = (of) => bars(of, rankers, 3).map(({ text, part, whole }) => {
    assert.match(text, new RegExp(`\\b${part} of ${whole}\\b`));
    return [part, whole];
  });
  assert.deepEqual(shown({ ...status, phase: 'setup' }), []);
  assert.equal(missing({ ...status, phase: 'setup' }), null);
  assert.deepEqual(shown({ ...status, phase: 'choosing' }), [[4, 5]]);
  assert.deepEqual(shown({ ...status, phase: 'ranking', still_to_rank: ['bell'] }), [[4, 5], [2, 3]]);
  assert.deepEqual(missing({ ...status, phase: 'ranking', still_to_rank: ['bell'] }).keys, ['bell']);
  const [, left] = bars({ ...status, phase: 'ranking', still_to_rank: ['bell'] }, { keys: new Set(['bell']), isWhole: false }, 2);
  assert.deepEqual([left.text, left.whole], [words.rankingsMissing(1), undefined]);
  const published = { ...status, phase: 'published', assigned: 4, unassigned: ['emil'] };
  assert.deepEqual(shown(published), [[4, 5]]);
  assert.deepEqual(missing(published).keys, ['emil']);
  const second = { ...status, without_list: ['b'], unassigned: ['a', 'b'], assigned: 3, round: 2 };
  assert.deepEqual(shown({ ...second, phase: 'choosing' }), [[1, 2], [3, 5]]);
  assert.deepEqual(missing({ ...second, phase: 'choosing' }).keys, ['b']);
  assert.deepEqual(missing({ ...second, phase: 'published' }).keys, ['a', 'b']);
});

test('who has to rank is known where the ranking was opened here; else those who were seen to be missing', () => withStorage(() => {
  const status = (...keys) => ({ phase: 'ranking', still_to_rank: keys });
  const known = (of, now) => (({ keys, isWhole }) => [[...keys], isWhole])(learnRankers(of, now));
  assert.deepEqual(known(status('a', 'b'), 0), [['a', 'b'], false]);
  assert.deepEqual(known(status('b', 'c'), 0), [['a', 'b', 'c'], false]);
  rankingOpened(1, 1000);
  assert.deepEqual(known(status('a', 'b'), 2000), [['a', 'b'], true]);
  assert.deepEqual(known(status('b'), 9_000_000), [['a', 'b'], true]);
  assert.deepEqual(known({ ...status('d'), round: 2 }, 9_000_000), [['d'], false]);
  // whoever looks an hour after it was opened does not see all
  rankingOpened(2, 1000);
  assert.deepEqual(known({ ...status('d'), round: 2 }, 3_600_000), [['d'], false]);
  forgetRankers();
  assert.deepEqual(known(status(), 9_000_000), [[], false]);
}));

const project = (id, lecturer, capacity) => ({ id, lecturer, capacity });

test('places are counted by project and by lecturer', () => {
  const projects = [project('p', 'l', 2), project('q', 'l', 2), project('r', 'm', 1)];
  const taking = (l, m) => new Map([['l', { capacity: l }], ['m', { capacity: m }]]);
  assert.deepEqual(placesFor(projects, new Map()), { count: 5, isSure: false });
  assert.deepEqual(placesFor(projects, taking('3', '9')), { count: 4, isSure: true });
  assert.deepEqual(placesFor(projects, taking('3', undefined)), { count: 4, isSure: false });
  assert.deepEqual(placesFor([], new Map()), { count: 0, isSure: true });
});

test('the places that are left are counted by project and by lecturer', () => {
  const projects = [project('p', 'l', 3), project('q', 'l', 2), project('r', 'm', 2), project('s', 'n', 1)];
  const used =
    [{ key: 'p', taken: 1, all: 3 }, { key: 'q', taken: 2, all: 2 }, { key: 'r', taken: 0, all: 2 }, { key: 's', taken: 1, all: 1 }];
  const taking = (l, m, n) => new Map(Object.entries({ l: { capacity: l }, m: { capacity: m }, n: { capacity: n } }));
  assert.deepEqual(placesLeft(used, projects, taking('3', '9', '4')), { least: 2, most: 2, unknown: 0 });
  assert.deepEqual(placesLeft(used, projects, taking('4', '1', '4')), { least: 2, most: 2, unknown: 0 });
  assert.deepEqual(placesLeft(used, projects, taking('9', '9', '4')), { least: 4, most: 4, unknown: 0 });
  // whoever takes nobody yet takes one at least; n has no place, whatever n takes
  assert.deepEqual(placesLeft(used, projects, new Map()), { least: 1, most: 4, unknown: 2 });
  // 2 cannot be right of l, who has 3 students
  assert.deepEqual(placesLeft(used, projects, taking('2', '2', undefined)), { least: 2, most: 4, unknown: 1 });
});

test('what stands in the way of each step', () => {
  const status = { lecturers: 2, projects: 1, students: 3, still_to_rank: [], without_list: ['a', 'b', 'c'], phase: 'setup' };
  const of = { status, projects: [project('p', 'l', 2)], toRank: [], lecturers: new Map([['l', {}], ['m', {}]]), nameOf: (key) =>
    ({ m: 'Moe' })[key], used: [] };
  const lacks = (name, more = {}) => lacksOf(name, { ...of, ...more });
  assert.deepEqual(lacks('openChoosing'), [{ text: words.lacks.places(2, 3, false), isRisk: true }, {
    text: words.lacks.offers(1, '\u2068\u2068Moe\u2069 (m)\u2069'),
  }]);
  assert.deepEqual(lacks('openChoosing', { status: { ...status, projects: 0, students: 0, lecturers: 0 }, projects: [] }), [
    { text: words.lacks.projects, ends: true },
  ]);
  assert.equal(lacks('openChoosing', { status: { ...status, students: 0 } })[0].ends, true);
  assert.deepEqual(lacks('openRanking')[0], { text: words.lacks.lists, isRisk: true });
  assert.deepEqual(
    lacks('openRanking', { status: { ...status, without_list: ['a'] } })[0],
    { text: words.withoutList(1), isRisk: true, isAskedOnly: true },
  );
  assert.deepEqual(lacks('publish', { toRank: ['Lee (l)'] }), [{ text: words.publishMissing(1), ends: true }]);
  const unknown = { text: words.filledElsewhere, isAskedOnly: true };
  assert.deepEqual(lacks('publish'), [{ text: words.noListNoProject(3), isAskedOnly: true }, unknown]);
  assert.deepEqual(lacks('publish', { end: 'Later.', filled: ['Lee (l)'] }), [
    { text: 'Later.', isRisk: true, isAskedOnly: true },
    { text: words.filledHere(1, '\u2068Lee (l)\u2069') },
    { text: words.noListNoProject(3), isAskedOnly: true },
    unknown,
  ]);
  assert.ok(lacks('fill')[0].ends);
  assert.ok(!lacks('fill', { toRank: ['Lee (l)'] })[0].ends);
});

test('a second round is for somebody, and has a place', () => {
  const status = { phase: 'published', unassigned: ['a', 'b'] };
  const of = { status, projects: [project('p', 'l', 3), project('q', 'm', 1)], toRank: [], nameOf: () => undefined };
  const lack = (used, lecturers, more = {}) => lacksOf('openSecond', { ...of, used, lecturers: new Map(lecturers), ...more });
  const [p, q] = [{ key: 'p', taken: 1, all: 3 }, { key: 'q', taken: 0, all: 1 }];
  assert.deepEqual(lack([p], [['l', { capacity: '2' }]]), [{ text: words.secondRoom(1, 2), isRisk: true }]);
  assert.deepEqual(lack([p], [['l', { capacity: '9' }]]), [{ text: words.secondRoom(2, 2), isRisk: false }]);
  assert.deepEqual(lack([p], [['l', { capacity: '1' }]]), [{ text: words.lacks.room(2), ends: true }]);
  assert.deepEqual(lack([p], []), [{ text: words.secondRange(0, 2, 2, 1), isRisk: true, ends: true, needsLecturers: true }]);
  assert.deepEqual(lack([p, q], []), [{ text: words.secondRange(1, 3, 2, 2), isRisk: true, ends: false, needsLecturers: true }]);
  assert.deepEqual(lack([p], [], { status: { ...status, unassigned: [] } }), [{ text: words.secondFor, ends: true }]);
});

test('in the second round nothing is said of rolls, which are closed', () => {
  const status =
    { lecturers: 2, projects: 1, students: 3, still_to_rank: [], without_list: ['a'], unassigned: ['a', 'b'], round: 2, phase: 'choosing' };
  const of = { status, projects: [project('p', 'l', 1)], toRank: [], lecturers: new Map(), nameOf: () => undefined, used: [] };
  assert.deepEqual(lacksOf('openRanking', of).map(({ text }) => text), [words.withoutList(1)]);
});

test('the steps from each phase', () => {
  const names = (me) => stepsFrom(me).map(({ name }) => name);
  assert.deepEqual(names({ phase: 'setup' }), ['openChoosing']);
  assert.deepEqual(names({ phase: 'ranking' }), ['publish', 'fill']);
  assert.deepEqual(names({ phase: 'published' }), ['openSecond']);
  assert.deepEqual(names({ phase: 'published', round: 2 }), []);
});
