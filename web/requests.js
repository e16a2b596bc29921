// Requests to the portal: one after another, the code in the line Portal-Code alone, GET and PUT repeated where no reply came; and what a
// refusal or a lost reply says. docs/FORMATS.md has the refusals.

import { words } from './words.js';
import { placeOf } from './year.js';

// The pauses before a request is sent again, all within the time that we try. In milliseconds.
const PAUSES = [200, 500, 1000, 2000, 3000];
const TRY_FOR = 10_000;
// How long we wait for a reply to begin, and for the rest of it.
const FIRST_BYTE = 5_000;
const WHOLE_REPLY = 60_000;

/** The portal's answer is a refusal: a word, and what goes with it. */
export class Refused extends Error {
  /**
   * @param {number} status
   * @param {RefusalBody} body
   */
  constructor(status, body) {
    super(`${status} ${body.error}`);
    this.status = status;
    this.word = body.error;
    this.body = body;
  }
}

/** No answer came, or none of the portal's. Of a POST we do not know whether it was done. */
export class Lost extends Error {
  /**
   * @param {string} message
   * @param {() => void} [again] what trying again is, where it is not the same once more
   */
  constructor(message, again) {
    super(message);
    this.again = again;
  }
}

/** @param {number} milliseconds */
const sleep = (milliseconds) => new Promise((resolve) => setTimeout(resolve, milliseconds));

export class Portal {
  #code;
  #fetch;
  #wait;
  #now;
  /** @type {Promise<any>} */
  #turn = Promise.resolve();

  /**
   * The clock and the sender are handed in by the tests alone.
   * @param {string} code
   * @param {{ fetch?: (path: string, how: RequestInit) => Promise<Pick<Response, 'status' | 'text'>>, wait?: typeof sleep, now?: () =>
   *   number }} outside
   */
  constructor(code, { fetch = (path, how) => globalThis.fetch(path, how), wait = sleep, now = () => performance.now() } = {}) {
    this.#code = code;
    this.#fetch = fetch;
    this.#wait = wait;
    this.#now = now;
  }

  /** @param {string} path */
  async get(path) {
    return parsed(await this.getText(path));
  }

  /** @param {string} path */
  getText(path) {
    return this.#inTurn(() => this.#repeated(path, { method: 'GET' }));
  }

  /**
   * A file beside the page that callers alone may read, or null where there is none. The page does without it.
   * @param {string} path
   */
  async file(path) {
    try {
      return parsed(await this.#inTurn(() => this.#once(path, { method: 'GET' }, FIRST_BYTE)));
    } catch {
      return null;
    }
  }

  /**
   * @param {string} path
   * @param {object} value
   */
  async put(path, value) {
    return parsed(await this.#inTurn(() => this.#repeated(path, { method: 'PUT', body: JSON.stringify(value) })));
  }

  /**
   * @param {string} path
   * @param {object} value
   */
  async post(path, value) {
    return this.postText(path, JSON.stringify(value));
  }

  /**
   * A POST is never sent twice by itself.
   * @param {string} path
   * @param {string} body
   */
  async postText(path, body) {
    return parsed(await this.#inTurn(() => this.#once(path, { method: 'POST', body }, WHOLE_REPLY)));
  }

  /**
   * The portal serves one request at a time, so ours wait for one another.
   * @param {() => Promise<string>} action
   * @returns {Promise<string>}
   */
  #inTurn(action) {
    const turn = this.#turn.then(action);
    this.#turn = turn.catch(() => {});
    return turn;
  }

  /**
   * @param {string} path
   * @param {Call} call
   */
  async #repeated(path, call) {
    const end = this.#now() + TRY_FOR;
    for (let tries = 0; ; tries++) {
      try {
        return await this.#once(path, call, Math.min(FIRST_BYTE, end - this.#now()));
      } catch (lost) {
        const pause = PAUSES[tries];
        if (!(lost instanceof Lost) || pause === undefined || this.#now() + pause >= end) throw lost;
        await this.#wait(pause);
      }
    }
  }

  /**
   * @param {string} path
   * @param {Call} call
   * @param {number} patience
   */
  async #once(path, call, patience) {
    const { status, text } = await this.#send(path, call, patience);
    if (status === 200) return text;
    throw faultOf(status, text);
  }

  /**
   * @param {string} path
   * @param {Call} call
   * @param {number} patience
   */
  async #send(path, call, patience) {
    const giveUp = new AbortController();
    let timer = setTimeout(() => giveUp.abort(), patience);
    try {
      const reply = await this.#fetch(path, {
        ...call,
        headers: { 'Portal-Code': this.#code },
        cache: 'no-store',
        credentials: 'omit',
        redirect: 'error',
        signal: giveUp.signal,
      });
      clearTimeout(timer);
      timer = setTimeout(() => giveUp.abort(), WHOLE_REPLY);
      return { status: reply.status, text: await reply.text() };
    } catch {
      throw new Lost('no reply');
    } finally {
      clearTimeout(timer);
    }
  }
}

/**
 * 502 to 504 come of the portal, or of the door before it, where nothing could be answered.
 * @param {number} status
 * @param {string} text
 */
function faultOf(status, text) {
  if (status >= 502 && status <= 504) return new Lost(`status ${status}`);
  const body = parsed(text);
  return typeof body?.error === 'string' ? new Refused(status, body) : new Lost(`status ${status}`);
}

/**
 * What is no JSON is no answer of the portal: a network to which one has to log in first sends such pages.
 * @param {string} text
 */
function parsed(text) {
  try {
    return JSON.parse(text);
  } catch {
    throw new Lost('no JSON');
  }
}

/**
 * A refusal in words.
 * @param {Refused} refused
 * @param {string[]} names what was sent in a list, as people call it, in its order
 */
export function told({ word, body }, names = []) {
  if (word === 'bad_list') return ofList(body, names);
  if (word === 'still_to_rank') return words.stillToRank(names.length > 0 ? names : body.lecturers ?? []);
  const { other, ...known } = words.refusals;
  return /** @type {Record<string, string>} */ (known)[word] ?? other(word);
}

/**
 * `at` counts from 1; 0 says that somebody is missing.
 * @param {RefusalBody} body
 * @param {string[]} names
 */
function ofList({ at = 0, fault = '' }, names) {
  if (fault === 'missing') return words.rankingMissing;
  return words.badList(names[at - 1] ?? `${at}`, /** @type {Record<string, string>} */ (words.badListFaults)[fault] ?? fault);
}

/**
 * Gives the function that does what a person asked for; it answers whether it was done.
 * @param {object} of
 * @param {Messages} of.messages
 * @param {(tell: Tell) => Promise<void>} of.reload shows the page anew, and hands its messages and who is signed in to a function
 * @param {(said: { warning: string }) => void} of.signIn
 * @param {() => boolean} of.isCurrent
 * @param {() => boolean} of.isChanged
 * @returns {Attempt}
 */
export function attempts(of) {
  const { messages, isCurrent } = of;
  return async function attempt(action, how = {}) {
    if (!how.goesOn) messages.clear();
    const end = how.isLoading ? () => {} : messages.waiting();
    try {
      await action();
      return true;
    } catch (fault) {
      end();
      if (isCurrent()) await tellFault(of, fault, how, () => attempt(action, how));
      return false;
    } finally {
      end();
    }
  };
}

/**
 * @param {Parameters<typeof attempts>[0]} of
 * @param {unknown} fault
 * @param {How} how
 * @param {() => Promise<boolean>} again
 */
async function tellFault({ messages, reload, signIn, isChanged }, fault, how, again) {
  if (fault instanceof Lost) {
    const { text, ...more } = how.lost?.() ?? { text: words.lost, again: words.tryAgain, press: fault.again ?? again };
    messages.warn(text, more);
  } else if (!(fault instanceof Refused)) {
    messages.warn(words.unexpected);
    throw fault;
  } else if (fault.word === 'no_caller') {
    signIn({ warning: words.refusals.no_caller });
  } else if (fault.word === 'wrong_phase') {
    const wasChanged = isChanged();
    await reload((next, me) => next.warn(phaseMoved(me, wasChanged)));
  } else if (fault.word === 'already_placed') {
    await reload((next) => next.warn(told(fault)));
  } else {
    const { text, ...more } = how.refused?.(fault) ?? { text: told(fault) };
    messages.warn(text, more);
  }
}

/**
 * @param {Me} me
 * @param {boolean} wasChanged
 */
function phaseMoved(me, wasChanged) {
  const lastSaved = wasChanged ? { student: words.lastListCounts, lecturer: words.lastRankingCounts, office: '' }[me.role] : '';
  return [words.phaseMoved(placeOf(me)), lastSaved].filter((text) => text !== '').join(' ');
}
