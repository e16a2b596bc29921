// The page: signing in and out, and the page of each role in its frame.

import { asCode, isCode, madeCodeOf } from './codes.js';
import { department } from './department.js';
import { make } from './dom.js';
import { Messages, ask, choose, dismiss, frame } from './frame.js';
import { knownProjects } from './known.js';
import { Lost, Portal, Refused, attempts, told } from './requests.js';
import { forgetCode, forgetGone, forgetIdle, keepCode, keptCode, signInForm, watch } from './signin.js';
import { forgetDrafts } from './store.js';
import { chooseLanguage, firstLanguage, offeredLanguages, speak, words } from './words.js';
import { yearPart } from './year.js';

/**
 * The page of each role: what no other role needs is loaded for it alone.
 * @type {Record<Role, () => Promise<(of: PageOf) => Promise<Content>>>}
 */
const PAGES = {
  student: async () => (await import('./student.js')).studentPage,
  lecturer: async () => (await import('./lecturer.js')).lecturerPage,
  office: async () => (await import('./office.js')).officePage,
};

/** @type {Department} */
let own;
/** @type {ReturnType<typeof frame>} */
let page;
/** @type {() => void} */
let tellOtherTabs;
let isChanged = () => false;
/** @type {Content['risk']} */
let riskOf;
let isKept = () => false;
// What the names of the drafts of whoever is signed in begin with.
let owner = '';
// Counts what was shown, so that a reply that comes late is not shown over something newer.
let shown = 0;

async function start() {
  own = await department();
  const offered = offeredLanguages(own.languages);
  // where the files of one language do not come, another one is spoken; where none come, what stands in index.html is left there
  let isSpoken = false;
  for (const language of [firstLanguage(offered, navigator.languages), ...offered]) isSpoken ||= await speak(language);
  if (!isSpoken) return document.body.classList.add('failed');
  // a file that is dropped beside its field is not opened in place of the page
  for (const name of ['dragover', 'drop']) addEventListener(name, (event) =>
    /** @type {DragEvent} */ (event).dataTransfer?.types.includes('Files') && event.preventDefault());
  addEventListener('beforeunload', (event) => isChanged() && event.preventDefault());
  const gone = () => signIn({ message: words.signedOutElsewhere });
  tellOtherTabs = watch({ elsewhere: leaveToo, idle: () => signIn({ message: words.signedOutIdle }), gone, soon: askWhoIsThere });
  const how = performance.getEntriesByType('navigation')[0]?.toJSON().type;
  if (forgetIdle()) show(words.signedOutIdle);
  else show(forgetGone(how === 'back_forward') ? words.signedOutElsewhere : '');
}

/**
 * Puts the frame together, and shows the page of whoever is signed in.
 * @param {string} message is told where nobody is
 */
function show(message = '') {
  page = frame({ department: own, languages: offeredLanguages(own.languages), chosen: changeLanguage, signOut });
  const code = keptCode();
  if (code === null) signIn({ message });
  else open(new Portal(code));
}

/** @param {string} language */
async function changeLanguage(language) {
  if (!isKept() && !(await mayLeave())) return;
  await speak(language);
  chooseLanguage(language);
  show();
}

const mayLeave = async () =>
  !isChanged() || ask({ title: words.unsavedLeave, risk: riskOf?.() ?? words.unsavedLost, verb: words.leave, stay: words.keepEditing });

/** @param {Parameters<typeof signInForm>[1]} said */
function signIn(said = {}) {
  shown++;
  dismiss();
  isChanged = () => false;
  forgetCode();
  page.showWho(null);
  page.setAims([]);
  const form = signInForm(enter, said);
  page.place.replaceChildren(form);
  page.dock.replaceChildren();
  /** @type {HTMLElement} */ (form.querySelector('#code')).focus();
}

/**
 * Signs in, or answers why not. A code by chance may be typed in another case, or without its dashes.
 * @param {string} typed
 */
async function enter(typed) {
  const code = asCode(typed);
  if (!isCode(code)) return words.noCodeForm;
  const made = madeCodeOf(code);
  const fault = await tryCode(made ?? code);
  return fault === words.noSuchCode && made !== null && made !== code ? tryCode(code) : fault;
}

/** @param {string} code */
async function tryCode(code) {
  const portal = new Portal(code);
  try {
    const me = await portal.get('/me');
    keepCode(code);
    open(portal, { me });
    return '';
  } catch (fault) {
    if (fault instanceof Refused) return fault.word === 'no_caller' ? words.noSuchCode : told(fault);
    if (fault instanceof Lost) return words.lost;
    throw fault;
  }
}

/** Asks before an idle tab signs out. */
async function askWhoIsThere() {
  const answers = [{ name: words.signOut, value: true }, { name: words.stay, value: false, isMain: true }];
  if (await choose(words.idleSoon, [make('p', { text: words.idleMeans })], answers)) await signOut();
}

async function signOut() {
  if (!(await mayLeave())) return;
  tellOtherTabs();
  leave(words.signedOut);
}

/** @param {string} message */
function leave(message) {
  forgetDrafts(owner);
  signIn({ message });
}

/** Somebody signed out in another tab. What is not saved here is kept for whoever signs in here again, or else is asked about. */
async function leaveToo() {
  if (!isChanged()) return leave(words.signedOutElsewhere);
  if (isKept()) return signIn({ message: words.signedOutKept });
  dismiss();
  const question = { title: words.signedOutAsk, risk: riskOf?.() ?? words.unsavedLost, verb: words.signOut, stay: words.stay };
  if (await ask(question)) leave(words.signedOutElsewhere);
  else keepCode(/** @type {string} */ (keptCode()));
}

/**
 * Shows the page of whoever has the code.
 * @param {Portal} portal
 * @param {{ me?: Me | null, tell?: Tell }} how `me`, if that was asked already
 */
async function open(portal, { me = null, tell = () => {} } = {}) {
  const turn = ++shown;
  const isCurrent = () => turn === shown;
  const messages = new Messages();
  /** @param {Tell} [tellNext] */
  const reload = (tellNext) => open(portal, { tell: tellNext });
  const attempt = attempts({ messages, reload, signIn, isCurrent, isChanged: () => isChanged() });
  isChanged = () => false;
  page.place.replaceChildren(make('p', { class: 'loading', text: words.loading }));
  page.dock.replaceChildren(messages.element);
  await attempt(async () => {
    const caller = me ?? /** @type {Me} */ (await portal.get('/me'));
    if (!isCurrent()) return;
    owner = caller.role === 'office' ? 'office ' : `${caller.role} ${caller.key} `;
    page.showWho(caller);
    const known = await knownProjects(portal);
    const content = await (await pageOf(caller.role))({ portal, me: caller, messages, attempt, reload, known, until: own.until ?? {} });
    if (!isCurrent()) return;
    showContent(caller, content, messages);
    tell(messages, caller);
  }, { isLoading: true });
  if (isCurrent()) page.place.querySelector(':scope > .loading')?.remove();
}

/**
 * A file that did not come once may not be asked for again before the whole page is.
 * @param {Role} role
 */
async function pageOf(role) {
  try {
    const [pageOfRole, isSpoken] = await Promise.all([PAGES[role](), speak(words.language, role)]);
    if (!isSpoken) throw new Error('no texts');
    return pageOfRole;
  } catch {
    throw new Lost('no module', () => location.reload());
  }
}

/**
 * @param {Me} me
 * @param {Content} content
 * @param {Messages} messages
 */
function showContent(me, content, messages) {
  const { aims = [], bar } = content;
  isChanged = content.isChanged;
  isKept = content.isKept ?? (() => false);
  riskOf = content.risk;
  page.place.replaceChildren(yearPart(me, content.year, own.until), content.element);
  page.dock.replaceChildren(messages.element);
  if (bar) {
    messages.tellIn(bar);
    page.dock.append(bar);
  }
  page.setAims(aims);
  page.main.focus({ preventScroll: true });
}

start();
