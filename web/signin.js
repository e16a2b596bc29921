// Signing in with a code and signing out: the form, and the code, which is kept for as long as the browser's tab is open.

import { labelled, make } from './dom.js';
import { keep, kept } from './store.js';
import { words } from './words.js';

const KEPT = 'portal-code';
const ACTIVE = 'portal-active';
const ENTERED = 'portal-entered';
const AWAY = 'portal-away';
// When somebody last signed out in this browser.
const OUT = 'portal-signed-out';
// Whoever does nothing for so many milliseconds is signed out.
const IDLE = 30 * 60_000;
// So long before that the page asks whether anybody is there.
const BEFORE = 2 * 60_000;
// A reload takes less.
const RELOAD = 15_000;
// How often that is looked at, and how seldom a sign of life is written.
const LOOK = 10_000;
const SELDOM = 5_000;

/** @param {string} name */
const note = (name) => sessionStorage.setItem(name, `${Date.now()}`);
/** @param {string} name */
const since = (name) => Date.now() - Number(sessionStorage.getItem(name) ?? Date.now());
const isIdle = () => since(ACTIVE) > IDLE;

// What tells that somebody is there; screen readers move the focus.
const SIGNS = ['pointerdown', 'pointermove', 'keydown', 'wheel', 'touchmove', 'scroll', 'focusin'];

/** The code of whoever is signed in in this tab, or null. */
export const keptCode = () => sessionStorage.getItem(KEPT);

/** @param {string} code */
export function keepCode(code) {
  sessionStorage.setItem(KEPT, code);
  [ACTIVE, ENTERED].forEach(note);
}

export function forgetCode() {
  for (const name of [KEPT, ACTIVE, ENTERED, AWAY]) sessionStorage.removeItem(name);
}

/** Signs out whoever did nothing for too long, and answers whether there was somebody. */
export function forgetIdle() {
  if (keptCode() === null || !isIdle()) return false;
  forgetCode();
  return true;
}

/**
 * The same of whoever left this page, or signed out in another tab.
 * @param {boolean} isBack by Back, or in a tab that was closed
 */
export function forgetGone(isBack) {
  const isGone = keptCode() !== null && (isBack || since(AWAY) > RELOAD || kept(OUT, 0) > Number(sessionStorage.getItem(ENTERED)));
  if (isGone) forgetCode();
  sessionStorage.removeItem(AWAY);
  return isGone;
}

/**
 * Watches over this tab. `elsewhere`: somebody signed out in another tab. `idle`: nothing was done for too long. `soon`: so it will be; its
 * answer is the one sign of life then. `gone`: the page comes back.
 * @param {{ elsewhere: () => void, idle: () => void, gone: () => void, soon: () => Promise<unknown> }} calls
 * @returns a function that tells the other tabs that somebody signs out here
 */
export function watch({ elsewhere, idle, gone, soon }) {
  let isAsked = false;
  const channel = new BroadcastChannel(KEPT);
  channel.addEventListener('message', () => keptCode() !== null && elsewhere());
  const look = async () => {
    if (forgetIdle()) return idle();
    if (isAsked || keptCode() === null || since(ACTIVE) <= IDLE - BEFORE) return;
    isAsked = true;
    await soon();
    isAsked = false;
    live();
  };
  const live = () => {
    if (isAsked) return;
    if (forgetIdle()) return idle();
    if (keptCode() !== null && since(ACTIVE) > SELDOM) note(ACTIVE);
  };
  for (const event of SIGNS) addEventListener(event, live, { capture: true, passive: true });
  // a computer that slept is looked at at once
  for (const event of ['focus', 'pageshow']) addEventListener(event, look);
  setInterval(look, LOOK);
  addEventListener('pagehide', () => keptCode() !== null && note(AWAY));
  addEventListener('pageshow', ({ persisted }) => forgetGone(persisted) && gone());
  return () => {
    keep(OUT, Date.now());
    channel.postMessage('');
  };
}

/**
 * The form to sign in with a code. What is wrong with it is told beside the field.
 * @param {(typed: string) => Promise<string>} enter is handed the code, and answers what is wrong, or an empty text
 * @param {{ warning?: string, message?: string }} told what stands there from the beginning
 */
export function signInForm(enter, { warning = '', message = '' } = {}) {
  const alert = make('p', { role: 'alert', id: 'code-fault', text: warning });
  const status = make('p', { role: 'status', text: message });
  const asTyped = { autocapitalize: 'none', spellcheck: 'false' };
  const field = make(
    'input',
    { id: 'code', type: 'password', autocomplete: 'current-password', ...asTyped, 'aria-describedby': 'code-fault code-hint' },
  );
  const shows = make('input', { type: 'checkbox' });
  shows.addEventListener('change', () => { field.type = shows.checked ? 'text' : 'password'; });
  const button = make('button', { text: words.signIn, class: 'main' });

  /** @param {Event} event */
  async function submit(event) {
    event.preventDefault();
    alert.textContent = '';
    status.textContent = words.loading;
    field.removeAttribute('aria-invalid');
    button.disabled = true;
    const fault = await enter(field.value);
    button.disabled = false;
    status.textContent = '';
    if (fault === '') return;
    alert.textContent = fault;
    field.setAttribute('aria-invalid', 'true');
    field.focus();
  }

  return make('form', { class: 'sign-in', on: { submit } }, [
    // what a password manager keeps the code under
    make('input', { hidden: true, autocomplete: 'username', value: document.title }),
    make('label', { for: 'code', text: words.yourCode }),
    field,
    labelled(words.showCode, shows),
    alert,
    make('p', { id: 'code-hint', class: 'quiet', text: words.codeHint }),
    make('div', { class: 'buttons' }, [button]),
    status,
  ]);
}
