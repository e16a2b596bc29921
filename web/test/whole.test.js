// The modules as a whole: what each person loads, and what none may do: `node --test web/test/whole.test.js`.

import assert from 'node:assert/strict';
import { readFileSync, readdirSync } from 'node:fs';
import test from 'node:test';
import { gzipSync } from 'node:zlib';

import { LANGUAGES, speak, words } from '../words.js';

await speak('en', 'student', 'lecturer', 'office', 'rolls', 'order', 'answers');

const web = new URL('../', import.meta.url);
const sources = readdirSync(web).filter((name) => name.endsWith('.js'));
const source = (name) => readFileSync(new URL(name, web), 'utf8');

test('nothing comes from elsewhere, nothing is read as HTML, nothing is kept for long', () => {
  const names = readdirSync(web).filter((name) => /\.(js|css|html)$/.test(name));
  for (const name of names) {
    const text = source(name);
    assert.doesNotMatch(text, /https?:\/\/\w/, name);
    assert.doesNotMatch(
      text,
      /innerHTML|outerHTML|insertAdjacent|document\.write|indexedDB|document\.cookie|eval\(|console\.|Math\.random/,
      name,
    );
    if (name !== 'store.js') assert.doesNotMatch(text, /localStorage/, name);
  }
  assert.doesNotMatch(source('index.html'), /<style|style=|<script(?![^>]*src=)| on\w+=/);
});

/** The modules that a module needs, itself included. */
function needed(name, found = new Set()) {
  if (found.has(name)) return found;
  found.add(name);
  for (const [, other] of source(name).matchAll(/^import [^;]*?from '\.\/(.+?)';$/gm)) needed(other, found);
  return found;
}

/** All files that a browser loads for a role, in a language. */
const loaded = (role, language) => {
  const texts = [`words-${language}.js`, `words-${language}-${role}.js`];
  const styles = ['style.css', 'lists.css', ...(role === 'office' ? ['office.css'] : [])];
  return new Set(['index.html', ...styles, 'icon.svg', ...['main.js', `${role}.js`, ...texts].flatMap((name) => [...needed(name)])]);
};

const MOST = { student: 60_000, lecturer: 60_000, office: 85_000 };

test('what a browser loads before anything is pressed has at most 60,000 bytes for a student or a lecturer and 85,000 for the '
  + 'office', () => {
  const size = (name) => gzipSync(readFileSync(new URL(name, web)), { level: 9 }).length;
  for (const language of Object.keys(LANGUAGES)) {
    for (const [role, most] of Object.entries(MOST)) {
      const [first, more] = [loaded(role, language), later(role, language)];
      const whole = [...first].reduce((sum, name) => sum + size(name), 0);
      assert.ok(whole <= most, `${role}, ${language}: ${whole} bytes`);
      const rest = [...more].filter((name) => !first.has(name)).reduce((sum, name) => sum + size(name), 0);
      assert.ok(rest <= 50_000, `${role}, ${language}, later: ${rest} bytes`);
    }
  }
});

/** The modules that others fetch when they are wanted, and all that these need or fetch in turn. */
function fetched(names, found = new Set()) {
  const calls = (name) => [...source(name).replace(/\/\*[^]*?\*\//g, '').matchAll(/import\('\.\/(.+?)'\)/g)]
    .map(([, other]) => other)
    .filter((other) => !other.startsWith('words'));
  for (const name of [...names].flatMap(calls).flatMap((other) => [...needed(other)]).filter((other) => !found.has(other))) {
    found.add(name);
    fetched([name], found);
  }
  return found;
}

/** What comes later for a role, when it is asked for: modules, styles, and the texts of an order and of the answers. */
function later(role, language) {
  const modules = fetched(needed(`${role}.js`));
  const all = [...needed(`${role}.js`), ...modules];
  const isSpoken = (part) => all.some((name) => source(name).includes(`speak(words.language, '${part}')`));
  const texts = ['order', 'answers', 'rolls'].filter(isSpoken);
  const styles = all.flatMap((name) => [...source(name).matchAll(/styled\('(.+?)'\)/g)].map(([, sheet]) => sheet));
  return new Set([...modules, ...styles, ...texts.map((part) => `words-${language}-${part}.js`)]);
}

test('no file is left that no browser loads, and students and lecturers load nothing of the office', () => {
  const roles = ['student', 'lecturer', 'office'];
  const all = new Set(Object.keys(LANGUAGES).flatMap((language) =>
    roles.flatMap((role) => [...loaded(role, language), ...later(role, language)])));
  assert.deepEqual(readdirSync(web).filter((name) => /\.(js|css|html|svg)$/.test(name) && !all.has(name)), []);
  for (const role of ['student', 'lecturer']) {
    assert.deepEqual([...loaded(role, 'en'), ...later(role, 'en')].filter((name) => /office|roll|columns|result/.test(name)), []);
  }
});

test('no file has more than 400 lines, and no line more than 140 columns', () => {
  for (const folder of [web, new URL('test/', web)]) {
    for (const name of readdirSync(folder).filter((one) => /\.(js|css|html|md|ts|py)$/.test(one))) {
      const lines = readFileSync(new URL(name, folder), 'utf8').replace(/\n$/, '').split('\n');
      assert.ok(lines.length <= 400, `${name}: ${lines.length} lines`);
      assert.deepEqual(lines.filter((line) => [...line].length > 140), [], name);
    }
  }
});

test('every module that the page needs at first is fetched at once', () => {
  const preloaded = [...source('index.html').matchAll(/<link rel="modulepreload" href="(.+)">/g)].map(([, name]) => name);
  assert.deepEqual([...preloaded, 'main.js'].sort(), [...needed('main.js')].sort());
});
