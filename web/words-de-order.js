// The texts in German of an order that was made elsewhere: what was understood of it, before it takes the place of a ranking.

import { many, number } from './words-de.js';
import { apart, texts } from './words.js';

export const words = texts({
  orderEmpty: 'Darin steht niemand, der sich beworben hat. Ihre Rangfolge ist, wie sie war.',
  orderWorkbook: 'In dieser Datei wurde niemand gefunden. Ist es keine Arbeitsmappe (.xlsx), wählen Sie im Tabellenprogramm „Speichern '
    + 'unter“ oder „Herunterladen“, dann „Excel-Arbeitsmappe (.xlsx)“, und öffnen Sie die neue Datei hier. Ihre Rangfolge ist, wie sie '
    + 'war.',
  orderBack: 'Zurück',
  orderAsk: 'Ist das Ihre Reihenfolge?',
  orderByAsk: 'Wonach wird geordnet?',
  orderByMeans: 'Neben den Bewerbungen steht eine Spalte mit Zahlen, und es ist nicht klar, was sie sind.',
  orderedBy: 'Ordnen nach',
  orderByColumn: (column, isFalling) => `${column}, ${isFalling ? 'größte' : 'kleinste'} Zahl zuerst`,
  orderByLines: 'Zeilen, wie sie stehen',
  orderColumn: (name) => `Spalte „${apart(name)}“`,
  orderColumnAt: (at) => `Spalte ${at}`,
  orderFront: 'Zahl vor jeder Zeile',
  orderFound: (count, all, by) => `${number(count)} von ${number(all)} Bewerbungen gefunden. Geordnet nach: ${by}.`,
  orderAsGiven: 'Das ist genau die Reihenfolge, in der das Portal Ihnen die Bewerbungen gegeben hat: nach ID. Wie Sie sie ordnen, steht '
    + 'darin nicht.',
  orderPerson: (name, key) => `${apart(name)} (${key})`,
  orderLeft: (count, names) => `Nicht darin und deshalb ohne Position: ${number(count)}. ${names}.`,
  orderUnranked: (names) => `Ohne Zahl und deshalb am Ende: ${names}.`,
  orderTwice: (names) => `Mehrmals darin; das erste Mal zählt: ${names}.`,
  orderShared: (count, rank) => `${number(count)} haben die Zahl ${`${rank}`.replace('.', ',')}. Wer kommt zuerst?`,
  orderSharedMore: (count, isMore) => `${isMore
    ? `${number(count)} weitere Zahlen`
    : `${number(count)} ${count === 1 ? 'Zahl' : 'Zahlen'}`} ${count === 1
    ? 'hat'
    : 'haben'} mehrere. Wer eine gemeinsam hat, steht wie in Ihren Zeilen; das können Sie in Ihrer Rangfolge ändern.`,
  orderStart: 'Zuerst in dieser Reihenfolge',
  orderLast: (place) => `${number(place)}.`,
  orderOthers: (others) => `Nicht verstanden: ${others}.`,
  orderLoses: (count) => `${many(count, 'Person', 'Personen')} Ihrer Rangfolge ${count === 1
    ? 'steht'
    : 'stehen'} nicht in dieser Reihenfolge und ${count === 1 ? 'fiele' : 'fielen'} heraus.`,
  orderCrossed: (names) => `Neben diesen IDs steht der Name von jemand anderem; die ID zählt. Wurde eine Spalte allein sortiert? ${names}.`,
});
