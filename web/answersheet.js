// All answers on one page to print, with where the year stands, as for the head of the department.

import { ASKED, answersOf } from './answers.js';
import { button, make } from './dom.js';
import { paper } from './paper.js';
import { speak, words } from './words.js';
import { placeOf } from './year.js';

/**
 * The button that prints them.
 * @param {() => Status} statusNow
 * @param {Messages} messages
 */
export function sheetButton(statusNow, messages) {
  const { sheet, printed } = paper();
  const press = async () => {
    if (!(await speak(words.language, 'answers'))) return messages.warn(words.lost);
    const status = statusNow();
    const when = new Date().toLocaleString(words.dates, { dateStyle: 'long' });
    printed([
      make('h3', { text: words.sheetTitle }),
      make('p', { text: [words.sheetState(placeOf(status), status), ...resultLines(status)].join(' ') }),
      answersOf(ASKED.office),
      make('p', { class: 'quiet', text: words.sheetPrinted(when, location.host) }),
    ]);
  };
  return make('span', {}, [button(words.printAnswers, press), sheet]);
}

/** @param {Status} status */
function resultLines(status) {
  if (status.phase !== 'published') return [];
  const none = status.unassigned.filter((key) => status.without_list.includes(key)).length;
  return [words.sheetResult(status.assigned, none, status.unassigned.length - none)];
}
