// The texts of the office's page in German, with the same keys as words-en-office.js.

import { largestCapacity, longestCode, longestKey, shortestCode } from './config.js';
import { lecturers, many, number, places, projects, students } from './words-de.js';
import { apart, texts } from './words.js';

/** @type {Counted} */
const addresses = (count) => many(count, 'E-Mail-Adresse', 'E-Mail-Adressen');
/** @type {Record<string, Record<string, string>>} What each column of a file means; where it differs, by the file. */
const meanings = {
  id: { all: `In dieser Datei einmalig. 1 bis ${longestKey} Buchstaben (ohne Akzente), Ziffern, Bindestriche, Unterstriche oder Punkte. `
    + 'Beispiel: p017.' },
  name: { all: 'So, wie andere den Namen sehen. Beispiel: Zoë Müller.' },
  code: { all: `Der Code zum Anmelden: ${shortestCode} bis ${longestCode} Buchstaben (ohne Akzente), Ziffern oder Bindestriche. Bleibt er `
    + 'leer, werden hier Codes gemacht.' },
  capacity: {
    all: '',
    lecturers: `Wie viele Studierende die Lehrperson insgesamt nimmt: 1 bis ${largestCapacity}.`,
    projects: `Wie viele Studierende das Projekt haben können: 1 bis ${largestCapacity}.`,
  },
  lecturer: { all: 'Die ID der Lehrperson, wie in der Datei der Lehrenden. Beispiel: l07.' },
  title: { all: 'Der Titel des Projekts. Beispiel: Graph neural networks.' },
  email: { all: 'Freiwillig. Sie wird nicht gesendet: Dieser Browser merkt sie sich, damit Sie Adressen kopieren können.' },
  description: { all: 'Freiwillig, bis zu 4.000 Zeichen. Sie wird nicht gesendet: Sie bekommen sie als Datei zurück, mit der die '
    + 'Administration sie auf die Seite bringt.' },
  link: { all: 'Freiwillig: eine Adresse, die mit https:// beginnt. Sie gehört zur Beschreibung.' },
};

export const words = texts({
  // the office: people and projects
  rolls: 'Personen und Projekte',
  rollsHint: 'Wählen Sie drei Dateien in dieser Reihenfolge: Excel-Arbeitsmappen (.xlsx) oder CSV-Dateien. Sie sehen zuerst alle Zeilen; '
    + 'nichts kommt hinzu, bis Sie „Senden“ drücken und das bestätigen. Um später Zeilen hinzuzufügen, wählen Sie die längere Datei noch '
    + 'einmal.',
  roll: { lecturers: 'Lehrende', projects: 'Projekte', students: 'Studierende' },
  countOf: { lecturers, projects, students },
  rollCounts: (count) => `${number(count)} im Portal`,
  chooseFile: { lecturers: 'Datei der Lehrenden wählen', projects: 'Datei der Projekte wählen', students: 'Datei der Studierenden wählen' },
  drop: 'oder hier ablegen',
  columnsOfRoll: 'Was die Spalten bedeuten',
  columnMeans: (roll, column) => meanings[column][roll] ?? meanings[column].all,
  template: 'Vorlage herunterladen',
  templateOf: {
    lecturers: 'Vorlage herunterladen für Lehrende',
    projects: 'Vorlage herunterladen für Projekte',
    students: 'Vorlage herunterladen für Studierende',
  },
  rollFile: 'Datei der Lehrenden oder Studierenden wählen',
  readFileHint: 'Personen und Projekte können nicht mehr hinzukommen. Sie können hier noch eine Datei der Lehrenden oder Studierenden '
    + 'öffnen, um Zettel zu drucken oder Namen zu lesen. Sie wird nicht gesendet.',

  // what a file would do
  notNow: 'Jetzt nicht',

  // names in this browser
  names: 'Namen in diesem Browser',
  namesAre: (count, emails) => 'Dieser Browser merkt sich '
    + `${many(count, 'Namen', 'Namen')}${emails === 0 ? '' : ` und ${addresses(emails)}`}, damit Sie Namen und nicht nur IDs sehen. Codes `
    + 'merkt er sich nicht. Vergessen Sie die Namen an einem gemeinsam genutzten Computer, bevor Sie gehen.',
  noNames: 'Dieser Browser merkt sich keine Namen.',
  forgetNames: 'Namen vergessen',
  namesForgotten: 'Namen vergessen.',

  // the office: where the year stands
  state: 'Fortschritt',
  placesAre: (count, all, isSure) => `${isSure ? 'Plätze' : 'Plätze höchstens'}: ${number(count)} für ${students(all)}`,
  refresh: 'Neu laden',
  refreshed: 'Auf dem neuesten Stand.',
  withList: (count, all) => `Mit Liste: ${number(count)} von ${many(all, 'Person', 'Studierenden')}`,
  ranked: (done, all) => `Rangfolgen fertig: ${number(done)} von ${many(all, 'Lehrperson', 'Lehrenden')}`,
  withoutApplicants: (count) => `${many(count, 'andere Lehrperson hat', 'andere Lehrende haben')} keine Bewerbungen.`,
  rankingsMissing: (count) => `Fehlende Rangfolgen: ${number(count)}`,
  rankersUnknown: (count) => `Von höchstens ${many(
    count,
    'Lehrperson',
    'Lehrenden',
  )}: denen mit einem Projekt in dieser Runde. Wer von ihnen Bewerbungen hat, kann dieser Browser nicht wissen.`,
  withoutPlace: (count) => `Mindestens ${number(count)} bekommen kein Projekt.`,
  assigned: (count, all) => `Mit Projekt: ${number(count)} von ${many(all, 'Person', 'Studierenden')}`,
  missing: {
    list: 'Ohne Liste',
    ranking: 'Noch ohne Rangfolge',
    project: 'Ohne Projekt',
  },
  withdrawn: 'Auch wer eine leere Liste gespeichert hat, um zu verzichten, steht hier.',
  nobody: 'Niemand',
  noneAre: (none, list, round) =>
    `Ohne Liste${round === 2 ? ' in dieser Runde' : ''}: ${number(none)}. Mit Liste, aber ohne Platz: ${number(list)}.`,
  allNames: (count) => `Alle ${number(count)} Namen zeigen`,
  keysAlone: 'Das Portal zeigt hier nur IDs. Um Namen zu sehen, öffnen Sie die Datei der Lehrenden oder Studierenden noch einmal und '
    + 'drücken „Nur Namen lesen“. Nichts wird gesendet.',
  person: (key, name) => (name === undefined ? key : `${apart(name)} (${key})`),
  copyNames: 'Namen kopieren',
  copied: (count) => `${many(count, 'Name', 'Namen')} kopiert.`,
  copyEmails: 'E-Mail-Adressen kopieren',
  copiedEmails: (count, unknown) => `${addresses(count)} kopiert${unknown === 0 ? '' : `, ${number(unknown)} unbekannt`}. „Bcc“ benutzen.`,
  data: 'Personen und Projekte prüfen',
  dataHint: 'Öffnen Sie eine Tabelle, um zu sehen, was jetzt im Portal steht. Namen, und wie viele Studierende eine Lehrperson nimmt, sind '
    + 'die der Dateien, die dieser Browser gesendet oder gelesen hat.',
  dataColumns: {
    lecturer: 'Lehrperson',
    takes: 'Nimmt',
    projects: 'Projekte',
    places: 'Plätze',
    ranking: 'Rangfolge',
    has: 'Hat',
    student: 'Person',
    list: 'Liste',
  },
  standsList: { done: 'Gespeichert', missing: 'Keine', placed: 'Hat ein Projekt' },
  standsRanking: { done: 'Erledigt', missing: 'Fehlt', none: 'Keine Bewerbungen', unknown: 'Erledigt oder nicht nötig' },
  searchRoll: { lecturers: 'Lehrende suchen', projects: 'Projekte suchen', students: 'Studierende suchen' },
  rowsShown: (shown, all) => (shown === all ? many(all, 'Zeile', 'Zeilen') : `${number(shown)} von ${many(all, 'Zeile', 'Zeilen')}`),
  unknownPeople: {
    lecturers: (count) => `${many(
      count,
      'weitere Lehrperson ist',
      'weitere Lehrende sind',
    )} im Portal. Dieser Browser weiß nicht, wer: Er hat ihre Datei nicht gesendet.`,
    students: (count) => `${many(
      count,
      'weitere Person ist',
      'weitere Studierende sind',
    )} im Portal. Dieser Browser weiß nicht, wer: Er hat ihre Datei nicht gesendet.`,
  },
  openProjects: (count) => `${projects(count)} in der zweiten Runde offen`,

  // the office: the next step
  goOn: 'Nächster Schritt',
  openChoosing: 'Wahl öffnen',
  openRanking: 'Rangfolgen öffnen',
  publish: 'Ergebnisse veröffentlichen',
  fill: 'Fehlende Rangfolgen ergänzen',
  openSecond: 'Zweite Runde öffnen',
  does: {
    openChoosing: 'Studierende können Listen zusammenstellen und speichern. Personen und Projekte können noch hinzukommen.',
    openRanking: 'Die Wahl schließt: Listen können nicht mehr geändert werden, und Personen und Projekte können nicht mehr hinzukommen. '
      + 'Lehrende sehen, wer ihre Projekte gewählt hat, und ordnen diese Bewerbungen.',
    publish: 'Das Portal vergibt die Projekte. Studierende sehen ihr Ergebnis, Lehrende ihre Studierenden. Rangfolgen können nicht mehr '
      + 'geändert werden.',
    fill: 'Nur wenn Lehrende nicht antworten: Das Portal ordnet die Bewerbungen bei ihnen nach ID. Das begünstigt niedrige IDs: Sind es '
      + 'Matrikelnummern, so bei jeder solchen Lehrperson dieselben, meist älteren Studierenden. Die Lehrenden können diese Rangfolge noch '
      + 'ändern, bis Sie veröffentlichen.',
    openSecond: 'Freiwillig. Studierende ohne Projekt wählen noch einmal unter den übrigen Plätzen, und Lehrende ordnen sie. Alle anderen '
      + 'behalten ihre Projekte. Personen und Projekte können nicht hinzukommen.',
  },
  ask: {
    openChoosing: 'Wahl jetzt öffnen?',
    openRanking: 'Rangfolgen jetzt öffnen?',
    publish: 'Die Ergebnisse jetzt veröffentlichen?',
    fill: 'Die fehlenden Rangfolgen jetzt ergänzen?',
    openSecond: 'Die zweite Runde jetzt öffnen?',
  },
  forGoodOf: (name) => (name === 'fill'
    ? 'Sie können eine ergänzte Rangfolge nicht entfernen; nur ihre Lehrperson kann sie ersetzen.'
    : 'Sie können das nicht rückgängig machen.'),
  early: (phase, when, left) => `Allen wurde gesagt, dass „${phase}“ am ${when} endet. Das ist ${left}.`,
  filledHere: (count, names) => `${many(
    count,
    'Rangfolge wurde',
    'Rangfolgen wurden',
  )} von diesem Browser aus nach ID ergänzt; ihre Lehrenden können sie seither ersetzt haben: ${names}.`,
  filledElsewhere: 'Ob Rangfolgen von einem anderen Browser aus ergänzt wurden, kann diese Seite nicht wissen.',
  noListNoProject: (count) =>
    `${many(count, 'Person hat', 'Studierende haben')} keine Liste und ${count === 1 ? 'bekommt' : 'bekommen'} deshalb kein Projekt.`,
  fillWith: (names) => `Lehrende ohne Rangfolge: ${names}.`,
  publishMissing: (count) => `Sie können noch nicht veröffentlichen: ${many(count, 'Rangfolge fehlt', 'Rangfolgen fehlen')}.`,
  openLecturers: 'Datei der Lehrenden öffnen',
  lacks: {
    projects: 'Fügen Sie zuerst Projekte hinzu, damit Studierende etwas wählen können.',
    students: 'Fügen Sie zuerst Studierende hinzu.',
    places: (count, all, isSure) =>
      `${isSure ? '' : 'Höchstens '}${places(count)} für ${students(all)}: Mindestens ${number(all - count)} bekommen kein Projekt.`,
    offers: (count, names) => `${many(count, 'Lehrperson hat', 'Lehrende haben')} kein Projekt${names === '' ? '' : `: ${names}`}.`,
    lists: 'Niemand hat eine Liste, diese Runde gäbe also niemandem ein Projekt.',
    room: (count) => `0 Plätze für ${students(count)}: Es ist nichts mehr zu wählen übrig.`,
  },
  withoutList: (count) => (count === 0
    ? ''
    : `${many(count, 'Person hat', 'Studierende haben')} keine Liste und ${count === 1 ? 'kann' : 'können'} danach keine mehr speichern.`),
  secondFor: 'Alle Studierenden haben ein Projekt. Es braucht keine zweite Runde.',
  secondRoom: (count, all) =>
    `${places(count)} für ${students(all)}${count < all ? `: Mindestens ${number(all - count)} bekommen kein Projekt` : ''}.`,
  secondRange: (least, most, all, unknown) => `${number(least)} bis ${places(most)} für ${students(all)}. Dieser Browser weiß bei `
    + `${unknown === 1 ? '1 Lehrperson' : `${number(unknown)} Lehrenden`} nicht, wie viele Studierende sie `
    + `${unknown === 1 ? 'nimmt' : 'nehmen'}. Öffnen Sie dazu die Datei der Lehrenden; sie wird nicht gesendet.`,
  moved: (place) => `Erledigt. Das Portal ist jetzt bei ${place}.`,
  filled: (keys) => (keys.length === 0 ? 'Keine Rangfolge fehlt.' : `Ergänzt für ${keys.join(', ')}.`),
  published: 'Die zweite Runde ist veröffentlicht. Es gibt keine weiteren Schritte.',
  closing: 'Wenn Sie fertig sind',
  closingParts: [
    'Laden Sie das Ergebnis herunter und drucken Sie den Bericht: Das Portal des nächsten Jahres weiß nichts von diesem.',
    'Ist jemand ausgeschieden? Das Ergebnis bleibt, wie es ist. Geht eine Lehrperson, so berichtigt die Administration für die Nachfolge '
      + 'den Namen und macht einen neuen Code; mit ihm sieht die Nachfolge die Studierenden.',
    'Sobald sich niemand mehr anmelden muss: Vernichten Sie die Dateien der Codes, und vergessen Sie an einem gemeinsam genutzten Computer '
      + 'die Namen (am Ende dieser Seite).',
    'Bitten Sie dann die Administration, das Jahr abzuschließen. Bis dahin behalten die Datenbank und ihre Sicherungen alle Listen, '
      + 'Rangfolgen, Ergebnisse und Codes.',
    'Das nächste Jahr beginnt mit einem neuen, leeren Portal.',
  ],

  // the office: the result
  files: 'Dateien',
  result: 'Ergebnisse',
  searchResult: 'Ergebnisse durchsuchen',
  resultColumns: { student: 'Person', project: 'Projekt', lecturer: 'Lehrperson' },
  resultShown: (shown, all) => (shown === all ? students(all) : `${number(shown)} von ${many(all, 'Person', 'Studierenden')}`),
  nothing: { unknown: 'Kein Projekt', noList: 'Kein Projekt: keine Liste', noPlace: 'Kein Projekt: Liste, aber kein Platz' },
  usage: 'Belegte Plätze',
  usageOf: (taken, count) => `Belegte Plätze: ${number(taken)} (${projects(count)})`,
  used: (taken, all) => `${taken} von ${many(all, 'Platz', 'Plätzen')}`,
  downloadBook: 'Excel-Datei herunterladen',
  downloadCsv: 'CSV herunterladen',
  printReport: 'Bericht drucken',
  printAnswers: 'Für die Leitung drucken',
  showAnswers: 'Antworten zeigen',
  report: 'Bericht als Text',

  // the office: what goes wrong
  lostPost: 'Das Portal antwortet nicht, wir wissen also nicht, ob es geklappt hat. Prüfen Sie den Stand, bevor Sie es noch einmal '
    + 'versuchen.',
  lookAgain: 'Stand prüfen',
});
