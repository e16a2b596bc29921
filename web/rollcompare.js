// Asks the portal which rows of a file it has already, and adds none: the last row of what is sent for that differs from the first one
// under the same ID, so that the portal refuses the whole each time, and tells the first row that it cannot take. No element of the page is
// touched here.

import { makeCode } from './codes.js';
import { Refused } from './requests.js';
import { rollText } from './rollfile.js';

// So many rows are asked for at once at first. Where the portal has one of them it is fewer next time, since a short file is read faster;
// where it has none it is more.
const AT_FIRST = 16;
const AT_MOST = 500;

/**
 * @param {object} of
 * @param {Portal} of.portal
 * @param {Roll} of.roll
 * @param {string[]} of.ids those to ask for
 * @param {number} of.most how many of them the portal can have at most
 * @param {(done: number) => boolean} of.goesOn is told how far it is, and says whether it is still wanted
 * @returns {Promise<{ there: string[], fresh: string[] } | null>} null where it was not wanted to the end
 */
export async function compare({ portal, roll, ids, most, goesOn }) {
  /** @type {string[]} */
  const there = [];
  /** @type {string[]} */
  const fresh = [];
  let [rest, size] = [[...new Set(ids)], AT_FIRST];
  while (rest.length > 0 && there.length < most) {
    if (!goesOn(there.length + fresh.length)) return null;
    const asked = rest.slice(0, size);
    const at = await firstThere(portal, roll, asked);
    fresh.push(...asked.slice(0, at));
    there.push(...asked.slice(at, at + 1));
    rest = rest.slice(Math.min(at + 1, asked.length));
    size = at < asked.length ? Math.max(1, size >> 1) : Math.min(AT_MOST, size * 2);
  }
  return { there, fresh: [...fresh, ...rest] };
}

/**
 * Which of these IDs is the first that the portal has; as many as they are, where it has none. Names are not sent.
 * @param {Portal} portal
 * @param {Roll} roll
 * @param {string[]} ids
 */
async function firstThere(portal, roll, ids) {
  const row = (/** @type {string} */ id, /** @type {string} */ name) => ({ row: 0, id, name, code: makeCode(), capacity: '1' });
  try {
    await portal.postText(`/rolls/${roll}`, rollText(roll, [...ids.map((id) => row(id, 'a')), row(ids[0], 'b')]));
  } catch (fault) {
    if (fault instanceof Refused && fault.word === 'roll_conflict') return (fault.body.row ?? 1) - 1;
    throw fault;
  }
  // the portal has taken what it has to refuse
  throw new Error('not refused');
}
