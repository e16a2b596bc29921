// The words of each language: `node --test web/test/words.test.js`.

import assert from 'node:assert/strict';
import { readFileSync, readdirSync } from 'node:fs';
import test from 'node:test';

import { LANGUAGES, firstLanguage, offeredLanguages, speak, words } from '../words.js';

const web = new URL('../', import.meta.url);
const sources = readdirSync(web).filter((name) => name.endsWith('.js'));
const source = (name) => readFileSync(new URL(name, web), 'utf8');
const textsOf = async (language) => {
  const parts = Object.values(LANGUAGES[language]).filter((part) => typeof part === 'function');
  return Object.assign({}, ...(await Promise.all(parts.map((part) => part()))).map((part) => part.words));
};
await speak('en', 'student', 'lecturer', 'office', 'rolls', 'order', 'answers');

/** Each text by the path of its keys. */
function flat(texts, path = '') {
  return Object.entries(texts).flatMap(([key, value]) =>
    (typeof value === 'object' ? flat(value, `${path}${key}.`) : [[`${path}${key}`, value]]));
}

for (const language of Object.keys(LANGUAGES)) {
  test(`${language} has each text that English has, of the same kind, and no other`, async () => {
    const [english, other] = [flat(await textsOf('en')), flat(await textsOf(language))];
    assert.deepEqual(other.map(([path]) => path).sort(), english.map(([path]) => path).sort());
    const texts = new Map(other);
    for (const [path, text] of english) {
      assert.equal(typeof texts.get(path), typeof text, path);
      if (typeof text === 'function') assert.equal(texts.get(path).length, text.length, path);
      else if (text !== '') assert.notEqual(texts.get(path).trim(), '', path);
    }
    assert.equal(texts.get('language'), language);
  });
}

test('one is told as one, and numbers as the language writes them', async () => {
  const [english, german] = [new Map(flat(await textsOf('en'))), new Map(flat(await textsOf('de')))];
  assert.deepEqual([1, 5].map(english.get('showProjects')), ['Show the project', 'Show all 5 projects']);
  assert.deepEqual([1, 5].map(german.get('showProjects')), ['Das Projekt zeigen', 'Alle 5 Projekte zeigen']);
  assert.equal(english.get('orderShared')(2, 1.3), '2 share the number 1.3. Who comes first?');
  assert.equal(german.get('orderShared')(2, 1.3), '2 haben die Zahl 1,3. Wer kommt zuerst?');
});

test('the documents tell what the page says in German', async () => {
  const [english, german] = [flat(await textsOf('en')), new Map(flat(await textsOf('de')))];
  for (const page of ['OFFICE', 'PEOPLE']) {
    const [, section] = readFileSync(new URL(`../docs/${page}.md`, web), 'utf8').split('\n## The page in German\n');
    const pairs = [...section.matchAll(/`([^`]+)`[^`|]*\| `([^`]+)`/g)];
    assert.ok(pairs.length > 15, page);
    const wrong = pairs.filter(([, one, other]) => !english.some(([path, text]) => text === one && german.get(path) === other));
    assert.deepEqual(wrong.map(([pair]) => pair), [], page);
  }
});

test('sentences are translated', async () => {
  const german = new Map(flat(await textsOf('de')));
  const same = flat(await textsOf('en')).filter(([path, text]) =>
    typeof text === 'string' && text.split(' ').length > 3 && german.get(path) === text);
  assert.deepEqual(same, []);
});

test('every text that is used is there, and every text that is there is used', () => {
  const text = sources.filter((name) => !name.startsWith('words')).map(source).join('\n');
  const used = new Set([...text.matchAll(/(?<!\/)\bwords\.(\w+)/g)].map(([, name]) => name));
  const byName = ['openChoosing', 'openRanking', 'publish', 'fill', 'openSecond'];
  for (const name of used) assert.ok(name in words, name);
  for (const name of Object.keys(words)) assert.ok(used.has(name) || byName.includes(name) || name === 'language', `${name} is not used`);
});

test('no role needs a text of another one', async () => {
  const later = { student: [], lecturer: ['order', 'answers'], office: ['answers', 'rolls'] };
  for (const role of ['student', 'lecturer', 'office']) {
    const seen = new Set();
    const walk = (name) => {
      if (seen.has(name)) return;
      seen.add(name);
      for (const [, other] of source(name).matchAll(/^import [^;]*?from '\.\/(.+?)';$/gm)) walk(other);
      if (!['main.js', 'words.js'].includes(name)) for (const [, other] of source(name).matchAll(/import\('\.\/(.+?)'\)\.?/g)) walk(other);
    };
    for (const name of ['main.js', `${role}.js`]) walk(name);
    const { all, ...parts } = LANGUAGES.en;
    const own = Object.assign({}, ...(await Promise.all([all(), ...[role, ...later[role]].map((part) => parts[part]())])).map((part) =>
      part.words));
    for (const name of seen) {
      for (const [, text] of source(name).matchAll(/(?<!\/)\bwords\.(\w+)/g)) assert.ok(text in own, `${role}, ${name}: ${text}`);
    }
  }
});

test('what is said otherwise in the second round is said of phases that it has', () => {
  for (const texts of [words.nowSecond, words.nextSecond]) {
    assert.deepEqual(Object.keys(texts).sort(), ['lecturer', 'office', 'student']);
    for (const of of Object.values(texts)) for (const phase of Object.keys(of)) assert.ok(
      ['choosing', 'ranking', 'published'].includes(phase),
      phase,
    );
  }
});

test('the language to begin with is the browser’s, or the department’s first', () => {
  assert.equal(firstLanguage(['en', 'de'], ['fr', 'de-CH', 'en']), 'de');
  assert.equal(firstLanguage(['de', 'en'], ['fr']), 'de');
  assert.deepEqual(offeredLanguages(['de', 'xx', 'en']), ['de', 'en']);
  assert.deepEqual(offeredLanguages(['xx', 'constructor']), ['en', 'de']);
  assert.deepEqual(offeredLanguages(undefined), ['en', 'de']);
});

test('what a language says last is said', async () => {
  await speak('de');
  assert.equal(words.ofList.save, 'Liste speichern');
  await speak('en');
  assert.equal(words.ofList.save, 'Save list');
});

test('ordinal numbers in English', () => {
  const said = [1, 2, 3, 4, 11, 12, 13, 20].map((place) => words.choice(place).split(' ')[3]);
  assert.deepEqual(said, ['1st', '2nd', '3rd', '4th', '11th', '12th', '13th', '20th']);
});

test('days come before months, and hours go to 23', async () => {
  const when = new Date(2027, 4, 12, 15, 5);
  const said =
    { en: ['12 May 2027 at 15:05', 'Wednesday 12 May at 15:05'], de: ['12. Mai 2027 um 15:05', 'Mittwoch, 12. Mai um 15:05 Uhr'] };
  for (const [language, expected] of Object.entries(said)) {
    const { dates, moment } = await textsOf(language);
    assert.deepEqual([when.toLocaleString(dates, { dateStyle: 'long', timeStyle: 'short' }), moment(when)], expected);
  }
});
