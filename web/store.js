// What this browser keeps: for longer than a tab is open the language, titles and names, who saved or filled in rankings, and how many
// students a lecturer takes; for as long as the tab is open and nobody signs out, drafts of lists and rankings that are not saved, and
// codes that the office has just made. Longer than that, never a code.

/**
 * What was kept under this name, or `otherwise`. A browser may forbid to keep anything: then nothing was kept.
 * @param {string} name
 * @param {any} otherwise
 */
export const kept = (name, otherwise = null) => read(() => localStorage, name) ?? otherwise;

/**
 * @param {string} name
 * @param {unknown} value
 * @returns whether it is kept now
 */
export const keep = (name, value) => write(() => localStorage, name, value);

/** @param {string} name */
export function forget(name) {
  try {
    localStorage.removeItem(name);
  } catch {
    // nothing was kept
  }
}

const DRAFT = 'portal-draft ';

/** The name of the codes that the office has just made. */
export const CODES = 'office codes';

/**
 * The draft of somebody, or null. It is there until it is forgotten or the tab is closed.
 * @param {string} name whose draft it is, and of what
 */
export const draftOf = (name) => read(() => sessionStorage, DRAFT + name);

/**
 * @param {string} name
 * @param {unknown} value
 */
export const keepDraft = (name, value) => write(() => sessionStorage, DRAFT + name, value);

/** @param {string} name */
export function forgetDraft(name) {
  sessionStorage.removeItem(DRAFT + name);
}

/**
 * Forgets the drafts of one person who used this tab: those of others stay for them.
 * @param {string} owner what their names begin with
 */
export function forgetDrafts(owner) {
  for (const name of Object.keys(sessionStorage)) if (name.startsWith(DRAFT + owner)) sessionStorage.removeItem(name);
}

/**
 * @param {() => Storage} store
 * @param {string} name
 * @returns {any}
 */
function read(store, name) {
  try {
    return JSON.parse(store().getItem(name) ?? 'null');
  } catch {
    return null;
  }
}

/**
 * @param {() => Storage} store
 * @param {string} name
 * @param {unknown} value
 */
function write(store, name, value) {
  try {
    store().setItem(name, JSON.stringify(value));
    return true;
  } catch {
    return false;
  }
}
