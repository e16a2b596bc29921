// The logic of the page’s modules, without a browser: `node --test web/test/logic.test.js`.

import assert from 'node:assert/strict';
import test from 'node:test';

import { asCode, isCode, madeCodeOf, makeCode } from '../codes.js';
import { departmentOf } from '../department.js';
import { Known } from '../known.js';
import { everybody } from '../ranking.js';
import { Lost, Portal, Refused, told } from '../requests.js';
import {
  canOpenSecond, countOfChoosers, deadlineText, endOf, hasResult, isOver, isSameStep, makesList, placeOf, roundOf, secondRound, soonText,
  stageOf, steps, takesRolls,
} from '../year.js';
import { isFound } from '../found.js';
import { speak, words } from '../words.js';

await speak('en', 'student', 'lecturer', 'office', 'rolls', 'order', 'answers');

test('a code by chance has four groups of four signs without look-alikes, 80 bits', () => {
  const codes = Array.from({ length: 1000 }, () => makeCode());
  assert.ok(codes.every((code) => /^[a-km-np-z2-9]{4}(-[a-km-np-z2-9]{4}){3}$/.test(code) && isCode(code)), codes[0]);
  assert.equal(new Set(codes).size, 1000);
  const seen = new Set(codes.join('').replaceAll('-', ''));
  assert.equal(seen.size, 32);
  assert.equal(16 * Math.log2(seen.size), 80);
  assert.throws(() => makeCode(() => { throw new Error('no chance'); }), /no chance/);
});

test('each sign of a code is equally likely: it stands for 8 of the 256 bytes', () => {
  const counts = new Map();
  for (let from = 0; from < 256; from += 16) {
    for (const sign of makeCode((bytes) => bytes.forEach((_, at) => { bytes[at] = from + at; })).replaceAll('-', '')) counts.set(
      sign,
      (counts.get(sign) ?? 0) + 1,
    );
  }
  assert.deepEqual([...counts.values()], Array(32).fill(8));
});

test('a code by chance is known in another case, with blanks and without dashes', () => {
  for (const typed of ['K7MP-2XQA-9VRE-H4TD', 'k7mp 2xqa 9vre h4td', 'K7mp2xqa9vreh4td', 'k7mp–2xqa–9vre–h4td']) assert.equal(
    madeCodeOf(asCode(typed)),
    'k7mp-2xqa-9vre-h4td',
    typed,
  );
  for (const other of [
    'student-ada-1', 'k7mp-2xqa-9vre-h4t', 'k7mp-2xqa-9vre-h4tl', 'k7mp-2xqa-9vre-h4t0', 'office-of-2026-!',
  ]) assert.equal(madeCodeOf(asCode(other)), null, other);
});

/** A portal whose replies are these in turn, under a clock that only our own pauses move. */
function stub(...replies) {
  const asked = [];
  const clock = { time: 0 };
  const fetch = async (path, how) => {
    asked.push({ path, ...how });
    const reply = replies.length > 1 ? replies.shift() : replies[0];
    if (reply instanceof Error) throw reply;
    const [status, body] = reply;
    return { status, text: async () => (typeof body === 'string' ? body : JSON.stringify(body)) };
  };
  const portal = new Portal('code-1234', { fetch, now: () => clock.time, wait: async (pause) => { clock.time += pause; } });
  return { portal, asked, clock };
}

const UNAVAILABLE = [503, { error: 'unavailable' }];

test('the code is sent in its line alone', async () => {
  const { portal, asked } = stub([200, { phase: 'setup' }]);
  assert.deepEqual(await portal.get('/me'), { phase: 'setup' });
  assert.deepEqual(asked[0].headers, { 'Portal-Code': 'code-1234' });
  assert.equal(asked[0].path, '/me');
  assert.equal(asked[0].credentials, 'omit');
  assert.ok(!JSON.stringify({ ...asked[0], headers: {} }).includes('code-1234'));
});

test('GET and PUT are sent again, up to five times within ten seconds', async () => {
  for (const ask of [(portal) => portal.get('/me'), (portal) => portal.put('/choices', { projects: [] })]) {
    const { portal, asked, clock } = stub(UNAVAILABLE);
    await assert.rejects(ask(portal), Lost);
    assert.equal(asked.length, 6);
    assert.ok(clock.time <= 10_000);
  }
});

test('a lost connection is sent again until there is a reply', async () => {
  const { portal, asked } = stub(new TypeError('lost'), UNAVAILABLE, [502, ''], [200, { projects: ['P1'] }]);
  assert.deepEqual(await portal.put('/choices', { projects: ['P1'] }), { projects: ['P1'] });
  assert.equal(asked.length, 4);
  assert.ok(asked.every(({ body }) => body === '{"projects":["P1"]}'));
});

test('where each try takes its time, none begins after ten seconds', async () => {
  const clock = { time: 0 };
  const fetch = async () => { clock.time += 4000; throw new TypeError('lost'); };
  const portal = new Portal('code-1234', { fetch, now: () => clock.time, wait: async (pause) => { clock.time += pause; } });
  await assert.rejects(portal.get('/me'), Lost);
  assert.ok(clock.time < 14_000);
});

test('a request that hangs is given up and sent again', async () => {
  const later = setTimeout;
  globalThis.setTimeout = (act, time) => later(act, time / 1000);
  try {
    let tries = 0;
    const fetch = (path, { signal }) => (++tries === 1
      ? new Promise((_, lose) => { signal.addEventListener('abort', () => lose(new Error('aborted'))); })
      : Promise.resolve({ status: 200, text: async () => '{}' }));
    assert.deepEqual(await new Portal('code-1234', { fetch }).get('/me'), {});
    assert.equal(tries, 2);
  } finally {
    globalThis.setTimeout = later;
  }
});

test('a POST is sent once', async () => {
  const { portal, asked } = stub(UNAVAILABLE);
  await assert.rejects(portal.post('/phase', { phase: 'choosing' }), Lost);
  await assert.rejects(portal.postText('/rolls/students', 'id,name,code\n'), Lost);
  assert.equal(asked.length, 2);
});

test('a refusal is not sent again', async () => {
  const { portal, asked } = stub([409, { error: 'still_to_rank', lecturers: ['L2'] }]);
  await assert.rejects(portal.get('/status'), (fault) =>
    fault instanceof Refused && fault.status === 409 && fault.word === 'still_to_rank' && fault.body.lecturers[0] === 'L2');
  assert.equal(asked.length, 1);
});

test('a reply that is not the portal’s is no refusal', async () => {
  const { portal } = stub([403, '<html>Log in to this network</html>']);
  await assert.rejects(portal.post('/phase', {}), Lost);
});

test('a page of another kind is no answer', async () => {
  const { portal } = stub([200, '<html>Log in to this network</html>']);
  await assert.rejects(portal.get('/me'), Lost);
  await assert.rejects(portal.put('/choices', {}), Lost);
});

test('requests wait for one another', async () => {
  let under = 0;
  let most = 0;
  const fetch = async () => {
    most = Math.max(most, ++under);
    await new Promise((resolve) => setTimeout(resolve, 2));
    under--;
    return { status: 200, text: async () => '{}' };
  };
  const portal = new Portal('code-1234', { fetch });
  await Promise.all(['/me', '/catalogue', '/choices'].map((path) => portal.get(path)));
  assert.equal(most, 1);
});

test('what is no code is never sent', () => {
  for (const text of ['', 'short-1', 'x'.repeat(41), 'with blank', 'ümlaut-code', 'line\nbreak']) assert.ok(!isCode(text), text);
  for (const text of ['office-of-2026', 'x'.repeat(40), '12345678']) assert.ok(isCode(text), text);
});

const refused = (status, body) => new Refused(status, body);

test('a refused list names its entry and the reason', () => {
  const list = (at, fault) => told(refused(422, { error: 'bad_list', at, fault }), ['Tides', 'Kites']);
  assert.match(list(2, 'repeated'), /Kites.*twice/);
  assert.match(list(1, 'unknown_project'), /Tides.*isn’t available/);
  assert.match(list(1, 'not_an_applicant'), /didn’t choose any of your projects/);
  assert.match(list(1, 'too_long'), /at most 20 projects/);
  assert.equal(list(0, 'missing'), words.rankingMissing);
});

test('every refusal of the routes has words', () => {
  for (const word of ['no_caller', 'not_yours', 'wrong_phase', 'already_placed', 'roll_full', 'too_large', 'bad_body']) assert.equal(
    told(refused(409, { error: word })),
    words.refusals[word],
  );
  assert.match(told(refused(409, { error: 'still_to_rank', lecturers: ['L2'] })), /L2/);
  assert.match(told(refused(400, { error: 'other_word' })), /other_word/);
});

test('each applicant stands once, by key, with the projects that were chosen', () => {
  const [ann, bea] = [{ key: 'a', name: 'Ann' }, { key: 'b', name: 'Bea' }];
  const people = everybody([{ id: 'P1', applicants: [bea] }, { id: 'P2', applicants: [ann, bea] }]);
  assert.deepEqual([...people.keys()], ['a', 'b']);
  assert.deepEqual(people.get('b').projects, ['P1', 'P2']);
});

test('a search finds every word, without accents', () => {
  assert.ok(isFound('Café Müller 3', 'mull CAFE'));
  assert.ok(isFound('Tides', ' '));
  for (const [text, search] of [
    ['Anna Müller', 'mueller'], ['Anna Mueller', 'müller'], ['Jan Groß', 'gross'], ['Jan Gross', 'groß'], ['Ida Østergaard', 'ostergaard'],
    ['Ida Østergaard', 'oestergaard'],
  ]) assert.ok(isFound(text, search), search);
  assert.ok(!isFound('Jo Bauer', 'baur'));
  assert.ok(!isFound('tides', 'tides kites'));
});

test('the first round: no reply tells it, and the second is offered once it is published', () => {
  const me = { phase: 'published', role: 'office' };
  assert.equal(roundOf(me), 1);
  assert.ok(canOpenSecond(me) && !canOpenSecond({ phase: 'ranking' }));
  assert.deepEqual(secondRound, { phase: 'choosing', round: 2 });
  assert.deepEqual(steps({ phase: 'choosing' }).map(({ phase, isCurrent }) => [phase, isCurrent]), [
    ['setup', false], ['choosing', true], ['ranking', false], ['published', false],
  ]);
  assert.ok(hasResult(me) && !hasResult({ phase: 'ranking' }));
  assert.ok(takesRolls({ phase: 'choosing' }) && !takesRolls({ phase: 'ranking' }));
  assert.ok(makesList({ phase: 'choosing' }, null) && !makesList({ phase: 'ranking' }, null));
  assert.equal(placeOf(me), '“Results”');
  assert.equal(countOfChoosers({ ...me, students: 5 }), 5);
});

test('the second round: it has no setup, no rolls, no third one, and is for those without a project', () => {
  const me = { phase: 'choosing', round: 2 };
  assert.ok(!canOpenSecond({ phase: 'published', round: 2 }));
  assert.deepEqual(steps(me).map(({ phase }) => phase), ['choosing', 'ranking', 'published']);
  assert.ok(hasResult(me) && !takesRolls(me));
  assert.ok(makesList(me, null) && !makesList(me, 'P1') && !makesList({ phase: 'ranking', round: 2 }, null));
  assert.equal(countOfChoosers({ ...me, students: 5, unassigned: ['a', 'b'] }), 2);
  assert.equal(placeOf(me), '“Choosing” of the second round');
  assert.ok(isSameStep(me, { ...me }) && !isSameStep(me, { phase: 'choosing' }));
  assert.deepEqual(
    [stageOf(me), stageOf({ phase: 'choosing' }), stageOf({ phase: 'published', round: 1 })],
    ['choosing-2', 'choosing', 'published'],
  );
});

/** What a browser keeps, as long as the test lasts. */
function store() {
  const kept = new Map();
  globalThis.localStorage = { getItem: (name) => kept.get(name) ?? null, setItem: (name, text) => {
    kept.set(name, text);
  }, removeItem: (name) => { kept.delete(name); } };
  return kept;
}

const project = (id, title, lecturer = 'L1', name = 'Lee') => ({ id, title, lecturer, lecturer_name: name, capacity: 1 });
const [FIRST, SECOND] = [{ phase: 'choosing' }, { phase: 'choosing', round: 2 }];

test('a title comes from the catalogue, then the file, then the first round, then the key', () => {
  store();
  new Known().learn([project('P1', 'Tides'), project('P2', 'Kites', 'L2', 'Moe'), project('P3', 'Bells')], FIRST);
  const known = new Known(
    [{ ...project('P2', 'Kites of paper', 'L2', 'Moe'), description: 'How they fly.', link: 'https://example.org/kites' }],
  );
  known.learn([project('P1', 'Tides')], SECOND);
  assert.deepEqual(['P1', 'P2', 'P3', 'P4'].map((key) => known.titleOf(key)), ['Tides', 'Kites of paper', 'Bells', 'P4']);
  assert.deepEqual(['P1', 'P2', 'P4'].map((key) => known.lecturerOf(key)), ['Lee', 'Moe', '']);
  assert.deepEqual(['L2', 'L9'].map((key) => known.lecturerName(key)), ['Moe', 'L9']);
  assert.deepEqual(known.describe('P2'), { description: 'How they fly.', link: 'https://example.org/kites' });
  assert.deepEqual(known.describe('P1'), { description: '', link: '' });
});

test('a page that stays open from one round to the next knows the first one', () => {
  store();
  const known = new Known().learn([project('P1', 'Tides'), project('P2', 'Kites')], FIRST).learn([project('P1', 'Tides')], SECOND);
  assert.equal(known.titleOf('P2'), 'Kites');
  assert.equal(new Known().titleOf('P2'), 'Kites');
});

test('nothing but keys, titles and lecturers is kept of the first round', () => {
  const kept = store();
  new Known().learn([project('P1', 'Tides')], FIRST);
  assert.deepEqual([...kept.keys()], ['portal-projects']);
  assert.deepEqual(JSON.parse(kept.get('portal-projects')), [{ id: 'P1', title: 'Tides', lecturer: 'L1', lecturer_name: 'Lee' }]);
});

test('titles of another year with the same keys are not taken for those of this one', () => {
  store();
  new Known().learn([project('P1', 'Old tides'), project('P2', 'Old kites')], FIRST);
  const known = new Known().learn([project('P1', 'Tides')], SECOND);
  assert.equal(known.titleOf('P2'), 'P2');
});

test('where a browser keeps nothing, the page does without it', () => {
  globalThis.localStorage = {
    getItem() { throw new Error('forbidden'); },
    setItem() { throw new Error('forbidden'); },
    removeItem() { throw new Error('forbidden'); },
  };
  assert.equal(new Known().learn([project('P1', 'Tides')], FIRST).titleOf('P1'), 'Tides');
  new Known().learn([], SECOND);
});

test('a link that is none by https is left out', () => {
  for (const link of ['http://example.org', 'javascript:alert(1)', '//example.org', '']) assert.equal(
    new Known([{ ...project('P1', 'Tides'), link }]).describe('P1').link,
    '',
  );
});

test('a file beside the page is taken where it is there, and done without otherwise', async () => {
  assert.deepEqual(await stub([200, { projects: [] }]).portal.file('/projects.json'), { projects: [] });
  for (const reply of [[204, ''], [403, { error: 'no_caller' }], UNAVAILABLE, [200, '<html>'], new TypeError('lost')]) assert.equal(
    await stub(reply).portal.file('/projects.json'),
    null,
  );
  const { portal, asked } = stub([204, '']);
  await portal.file('/projects.json');
  assert.deepEqual(asked[0].headers, { 'Portal-Code': 'code-1234' });
  assert.equal(asked.length, 1);
});

test('a department has its name, and links by https or to a mail address alone', () => {
  const whole = {
    name: 'Chemistry',
    contact: 'office@example.edu',
    privacy: 'https://example.edu/p',
    accessibility: 'https://example.edu/a',
    languages: ['en', 'de'],
  };
  assert.deepEqual(departmentOf(JSON.stringify(whole)), { ...whole, contact: 'mailto:office@example.edu' });
  assert.deepEqual(departmentOf('{"name":"Chemistry","contact":"javascript:alert(1)@x","privacy":"http://x"}'), { name: 'Chemistry' });
  const odd = '{"name":"Chemistry","languages":["de",{"toString":1},7,null]}';
  assert.deepEqual(departmentOf(odd), { name: 'Chemistry', languages: ['de'] });
  for (const text of [
    '', 'none', '[]', 'null', '{"contact":"a@b"}', '{"name":7}', '{"name":{}}', '{"name":["A"]}', '{"name":{"en":7}}',
  ]) assert.deepEqual(departmentOf(text), { name: '' });
  assert.deepEqual(
    departmentOf('{"name":{"en":"Chemistry","de":"Chemie","fr":7}}'),
    { name: 'Chemistry', names: { en: 'Chemistry', de: 'Chemie' } },
  );
});

test('a department may tell until when a stage lasts: a moment with its zone, and nothing else', () => {
  const whole = {
    'choosing': '2027-05-12T12:00+02:00',
    'ranking': '2027-05-20T10:00:00Z',
    'choosing-2': '2027-06-01T12:00-05:00',
    'ranking-2': '2027-06-08T12:00+02:00',
  };
  const { until } = departmentOf(JSON.stringify({ name: 'Chemistry', until: whole }));
  assert.deepEqual(Object.entries(until).map(([stage, { at, offset }]) => [stage, at.toISOString(), offset]), [
    ['choosing', '2027-05-12T10:00:00.000Z', 120], [
      'ranking',
      '2027-05-20T10:00:00.000Z',
      0,
    ], ['choosing-2', '2027-06-01T17:00:00.000Z', -300], ['ranking-2', '2027-06-08T10:00:00.000Z', 120],
  ]);
  for (const wrong of [null, 7, 'soon', [
    '2027-05-12T12:00+02:00',
  ], { choosing: '2027-05-12T12:00' }, { choosing: '2027-13-12T12:00Z' }, { choosing: 12 }, { setup: '2027-05-12T12:00Z' }]) {
    assert.deepEqual(departmentOf(JSON.stringify({ name: 'Chemistry', until: wrong })), { name: 'Chemistry' }, JSON.stringify(wrong));
  }
});

test('the end of a stage is told in the reader’s zone, and to the office once it is over', () => {
  const zone = process.env.TZ;
  process.env.TZ = 'Europe/Berlin';
  const { until } = departmentOf('{"name":"Chemistry","until":{"choosing":"2027-05-12T12:00+02:00"}}');
  const end = until.choosing;
  const told = (role, now) => deadlineText({ role, phase: 'choosing' }, end, new Date(now));
  assert.equal(told('student', '2027-05-09T11:00+02:00'), 'Choosing closes on Wednesday 12 May at 12:00 (in 3 days).');
  assert.equal(told('lecturer', '2027-05-11T11:59+02:00'), 'Choosing closes on Wednesday 12 May at 12:00 (in 24 hours).');
  assert.equal(told('office', '2027-05-12T11:50+02:00'), 'Choosing closes on Wednesday 12 May at 12:00 (in 10 minutes).');
  assert.equal(told('office', '2027-05-12T12:00+02:00'), 'Choosing should be closed by now.');
  assert.equal(told('student', '2027-05-12T12:01+02:00'), 'The time announced for “Choosing” has passed.');
  const saving = (role, phase, now) => deadlineText({ role, phase }, end, new Date(now), true);
  assert.equal(
    saving('student', 'choosing', '2027-05-12T12:00+02:00'),
    'The announced time has passed; saving works until the office closes choosing.',
  );
  assert.equal(
    saving('lecturer', 'ranking', '2027-05-12T12:00+02:00'),
    'The announced time has passed; saving works until the office publishes the results.',
  );
  const soon = (now) => soonText({ role: 'student', phase: 'choosing' }, until, new Date(now));
  assert.deepEqual(
    ['2027-05-12T11:29+02:00', '2027-05-12T11:50+02:00', '2027-05-12T12:00+02:00'].map(soon),
    ['', 'Choosing closes in 10 minutes', 'the announced time has passed'],
  );
  assert.deepEqual(
    ['2027-05-12T11:59+02:00', '2027-05-12T12:00+02:00'].map((now) => isOver({ phase: 'choosing' }, until, new Date(now))),
    [false, true],
  );
  assert.ok(!isOver({ phase: 'ranking' }, until, new Date('2027-05-13T12:00+02:00')) && soonText({ phase: 'ranking' }, until) === '');
  process.env.TZ = 'America/New_York';
  assert.equal(told('student', '2027-05-09T11:00+02:00'), 'Choosing closes on Wednesday 12 May at 06:00 GMT-4 (in 3 days).');
  // another zone with the same clock needs no name
  process.env.TZ = 'Africa/Johannesburg';
  assert.equal(told('student', '2027-05-09T11:00+02:00'), 'Choosing closes on Wednesday 12 May at 12:00 (in 3 days).');
  // what a question says of the end: before it, in its minute, and after it
  assert.deepEqual(
    endOf({ phase: 'choosing' }, until, new Date('2027-05-12T11:59+02:00')),
    { when: 'Wednesday 12 May at 12:00', away: 'in 1 minute' },
  );
  assert.equal(endOf({ phase: 'choosing' }, until, new Date('2027-05-12T12:00+02:00')), null);
  assert.equal(endOf({ phase: 'choosing' }, until, new Date('2027-05-13T12:00+02:00')), null);
  assert.equal(endOf({ phase: 'ranking' }, until, new Date('2027-05-09T11:00+02:00')), null);
  if (zone === undefined) delete process.env.TZ;
  else process.env.TZ = zone;
});

test('a typed code is taken as it was meant', () => {
  assert.equal(asCode('  abc–def—gh‑1 2\u00a0\u200b3−4\n'), 'abc-def-gh-123-4');
  assert.equal(asCode('office-of-2026'), 'office-of-2026');
});
