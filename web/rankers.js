// Which lecturers have applicants, and so have to rank, as far as this browser can know: all who were still to rank when it opened the
// ranking, or else those whom it has seen to be still to rank, and no more than those with a project.

import { forget, keep, kept } from './store.js';
import { roundOf } from './year.js';

const KEPT = 'portal-rankers';
// Whoever looks so many milliseconds after the ranking was opened sees all who have to rank.
const AT_ONCE = 60_000;

/** Before ranking what this browser knows is of another year. */
export const forgetRankers = () => forget(KEPT);

/**
 * The ranking of a round has been opened from this browser.
 * @param {number} round
 */
export const rankingOpened = (round, now = Date.now()) => keep(KEPT, { round, keys: [], isWhole: false, opened: now });

/**
 * Takes who is still to rank now.
 * @param {Status} status in the phase ranking
 * @returns {Rankers}
 */
export function learnRankers(status, now = Date.now()) {
  const round = roundOf(status);
  const before = kept(KEPT);
  const own = before?.round === round ? before : { keys: [], isWhole: false, opened: 0 };
  const isWhole = own.isWhole || (own.opened > 0 && now - own.opened < AT_ONCE);
  const keys = [...new Set([...own.keys, ...status.still_to_rank])];
  keep(KEPT, { round, keys, isWhole, opened: 0 });
  return { keys: new Set(keys), isWhole };
}
