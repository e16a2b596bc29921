// The texts of the lecturer's page in German. words-de.js has those that others see too.

import { many, number, places, students } from './words-de.js';
import { apart, texts } from './words.js';

export const words = texts({
  description: 'Beschreibung',
  noDescription: 'Studierende sehen zu diesem Projekt keine Beschreibung.',

  ownProjects: 'Ihre Projekte',
  ownPlaces: (count) => `Sie nehmen insgesamt bis zu ${students(count)}, über alle Ihre Projekte.`,
  ownPlacesLeft: (count, taken) =>
    `Sie nehmen insgesamt bis zu ${students(count)}, über alle Ihre Projekte. Aus der ersten Runde haben Sie ${number(taken)}.`,
  noOwnProjects: 'Sie haben noch keine Projekte im Portal. Wenn eines fehlt, sagen Sie es dem Studienbüro.',
  noOwnLeft: 'Keines Ihrer Projekte ist in dieser Runde offen.',
  placesOf: (count) => `${places(count)}.`,
  placesLeft: (count) => `${places(count)} übrig nach der ersten Runde.`,
  takesNobody: 'In dieser Runde nicht offen: Es hat keinen Platz mehr, oder Sie haben Ihre Gesamtzahl erreicht.',
  chosenBy: (count) => (count === 0 ? 'Niemand hat es gewählt.' : `Gewählt von ${many(count, 'Person', 'Studierenden')}.`),
  applicants: 'Bewerbungen',
  addApplicant: 'Hinzufügen',
  addApplicantKey: (name) => `Hinzufügen: ${name}`,
  applicantsHint: 'Studierende, die noch nicht in Ihrer Rangfolge stehen. Fügen Sie sie der Reihe nach hinzu, die Besten zuerst.',
  oneByOne: 'Oder fügen Sie sie hier der Reihe nach hinzu, die Besten zuerst.',
  elsewhere: (count) => `${students(count)} in einer Tabelle ordnen`,
  ways: [
    'Laden Sie eine Datei der Bewerbungen herunter.',
    'Ordnen Sie ihre Zeilen, die besten zuerst, oder ergänzen Sie eine Spalte „Rang“ mit Ihren Zahlen.',
    'Öffnen Sie die Datei hier. Sie sehen, was verstanden wurde, bevor sie Ihre Rangfolge ersetzt.',
  ],
  laterHint: 'Letzter Ausweg, wenn die Zeit nicht reicht: Stellen Sie die übrigen nach ID dahinter, und ändern Sie die Reihenfolge später.',
  rankingHint: 'Eine Rangfolge gilt für alle Ihre Projekte. Jede Bewerbung braucht eine Position: Sie können niemanden ablehnen.',
  showApplicants: 'Bewerbungen zeigen',
  oneApplicant: 'Es gibt eine Bewerbung. Speichern Sie diese Rangfolge, und Sie sind fertig.',
  searchRanking: 'Rangfolge durchsuchen',
  foundInRanking: (count) => (count === 0
    ? 'Niemand in Ihrer Rangfolge gefunden.'
    : `${number(count)} gefunden, mit ${count === 1 ? 'der Position' : 'den Positionen'} in Ihrer Rangfolge.`),
  searchApplicants: 'Bewerbungen suchen',
  noApplicantMatches: 'Keine Bewerbung gefunden. Versuchen Sie es mit weniger Wörtern, oder leeren Sie die Suche.',
  sortBy: 'Ordnen nach',
  applicantSorts: { id: 'ID', name: 'Name', project: 'Projekt' },
  applicantsOf: 'Bewerbungen zeigen für',
  allProjects: 'Alle Ihre Projekte',
  chose: 'gewählt:',
  applicantsSheet: {
    print: 'Bewerbungen drucken',
    copy: 'Bewerbungen kopieren',
    book: 'Bewerbungen als Excel-Datei',
    download: 'Bewerbungen herunterladen',
  },
  applicantsHeader: ['ID', 'Name', 'Projekte'],
  noneMissing: 'Alle Bewerbungen stehen in Ihrer Rangfolge.',
  noApplicants: 'Um Ihre Projekte hat sich niemand beworben, es gibt also nichts zu ordnen.',
  noApplicantsSecond: 'In dieser Runde hat sich um Ihre Projekte niemand beworben, es gibt also nichts zu ordnen.',
  addRest: 'Die übrigen nach ID hinzufügen',
  addRestSave: 'Die übrigen nach ID hinzufügen und speichern',
  restAdded: 'Die übrigen stehen am Ende, nach ID.',
  rankingEmpty: 'Ihre Rangfolge ist leer. Fügen Sie die Bewerbungen hinzu, die besten zuerst.',
  inIdOrder: 'Diese Rangfolge ist nach ID geordnet. Wenn Sie sie nicht gemacht haben, hat das Studienbüro sie ergänzt.',
  inIdOrderOpen: 'Diese Rangfolge ist nach ID geordnet. Wenn Sie sie nicht gemacht haben, hat das Studienbüro sie ergänzt; Sie können sie '
    + 'noch ändern.',
  orderTitle: 'Eine Reihenfolge einfügen oder öffnen',
  orderOpenHow: 'Fügen Sie Ihre Reihenfolge ein, die Besten zuerst: IDs in großen oder kleinen Buchstaben, mit Rängen oder Namen daneben, '
    + 'oder nur Namen. Oder öffnen Sie eine Datei mit einer Spalte „id“: „Bewerbungen als Excel-Datei“ gibt Ihnen eine. '
    + 'Sie sehen, was verstanden wurde, bevor sie Ihre Rangfolge ersetzt.',
  orderPaste: 'Oder einfügen',
  orderPasteHow: 'Die Besten zuerst: IDs in großen oder kleinen Buchstaben, mit Rängen oder Namen daneben, oder nur Namen, je Zeile einer.',
  orderField: 'IDs oder Namen, die Besten zuerst',
  orderFile: 'Eine Datei öffnen',
  useOrder: 'Diese Reihenfolge nehmen',
  orderUsed: (count) => `Ihre Rangfolge hat jetzt ${students(count)}, in dieser Reihenfolge. Noch ist nichts gespeichert.`,
  skipToRanking: 'Zu Ihrer Rangfolge springen',
  skipToSaveRanking: 'Zu „Rangfolge speichern“ springen',
  ofRanking: {
    label: 'Ihre Rangfolge',
    save: 'Rangfolge speichern',
    show: 'Zeigen',
    skip: 'Zu „Rangfolge speichern“',
    saved: (count) => `Gespeichert. ${students(count)} in der Rangfolge.`,
    count: (count, all) => `${number(count)} von ${number(all)} geordnet`,
    missing: (count) => `${number(count)} ${count === 1 ? 'fehlt' : 'fehlen'} noch`,
    which: 'Welche Rangfolge möchten Sie behalten?',
  },
  nothingToDo: 'Um Ihre Projekte hat sich niemand beworben. Sie müssen nichts tun.',
  nothingToDoSecond: 'In dieser Runde hat sich um Ihre Projekte niemand beworben. Sie müssen nichts tun.',
  nothingNext: 'Danach sehen Sie hier, wer Ihre Projekte bekommen hat.',
  noRoom: 'Keines Ihrer Projekte ist in dieser Runde offen. Sie müssen nichts tun.',
  noRoomNext: 'Danach veröffentlicht das Studienbüro die Ergebnisse dieser Runde.',
  markPlaced: (title) => `Hat ${apart(title)}`,
  whyNotHere: 'Fehlt bei Ihren Studierenden jemand, den Sie weit vorn geordnet haben? Für jedes Ihrer Projekte, das diese Person gewählt '
    + 'hat, gilt: Sie hat eines bekommen, das ihr lieber ist, oder alle seine Plätze (oder alle Ihre) gingen an Studierende, die vor ihr '
    + 'geordnet waren.',
  whyNotHereSecond: 'Fehlt bei Ihren Studierenden jemand, den Sie weit vorn geordnet haben? Für jedes Ihrer Projekte, das diese Person in '
    + 'dieser Runde gewählt hat, gilt: Sie hat eines bekommen, das ihr lieber ist, oder alle Plätze, die bei ihm (oder bei Ihnen) übrig '
    + 'waren, gingen an Studierende, die vor ihr geordnet waren.',
  whoHasWhat: 'Ihre Studierenden',
  nobodyHasIt: 'Keine Studierenden',
  resultSheet: {
    print: 'Ergebnis drucken',
    copy: 'Ergebnis kopieren',
    book: 'Ergebnisse als Excel-Datei',
    download: 'Ergebnis herunterladen',
  },
  resultHeader: ['ID', 'Name', 'Projekt-ID', 'Titel'],
});
