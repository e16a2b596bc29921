// The texts in English of an order that was made elsewhere: what was understood of it, before it takes the place of a ranking.

import { many, number } from './words-en.js';
import { apart, texts } from './words.js';

export const words = texts({
  orderEmpty: 'No applicant was found in it. Your ranking is as it was.',
  orderWorkbook: 'No applicant was found in this file. If it is no workbook (.xlsx), choose “Save as” or “Download” in your spreadsheet '
    + 'program, then “Excel workbook (.xlsx)”, and open the new file here. Your ranking is as it was.',
  orderBack: 'Go back',
  orderAsk: 'Is this your order?',
  orderByAsk: 'What decides the order?',
  orderByMeans: 'There is a column of numbers beside the applicants, and it isn’t clear what they are.',
  orderedBy: 'Order by',
  orderByColumn: (column, isFalling) => `${column}, ${isFalling ? 'largest' : 'smallest'} number first`,
  orderByLines: 'rows as they stand',
  orderColumn: (name) => `column “${apart(name)}”`,
  orderColumnAt: (at) => `column ${at}`,
  orderFront: 'number before each line',
  orderFound: (count, all, by) => `${number(count)} of ${number(all)} applicants found. Ordered by: ${by}.`,
  orderAsGiven: 'This is exactly the order in which the portal gave you the applicants: by ID. It tells nothing of how you rank them.',
  orderPerson: (name, key) => `${apart(name)} (${key})`,
  orderLeft: (count, names) => `Not in it, and so without a position: ${number(count)}. ${names}.`,
  orderUnranked: (names) => `Without a number, and so at the end: ${names}.`,
  orderTwice: (names) => `More than once in it; the first time counts: ${names}.`,
  orderShared: (count, rank) => `${number(count)} share the number ${rank}. Who comes first?`,
  orderSharedMore: (count, isMore) => `${isMore ? `${number(count)} more` : number(count)} ${count === 1
    ? 'number is'
    : 'numbers are'} shared. Those who share one stand as in your rows; you can change that in your ranking.`,
  orderStart: 'First in this order',
  orderLast: (place) => `${number(place)}.`,
  orderOthers: (others) => `Not understood: ${others}.`,
  orderLoses: (count) =>
    `${many(count, 'student', 'students')} of your ranking ${count === 1 ? 'isn’t' : 'aren’t'} in this order, and would leave it.`,
  orderCrossed: (names) => `Beside these IDs stands the name of somebody else; the ID counts. Was one column sorted alone? ${names}.`,
});
