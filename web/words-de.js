// The texts of the page in German, with the same keys as words-en.js. The other files words-de-ROLE.js have those of one role.

import { largestFile, longestCode, longestList, mostRows, shortestCode } from './config.js';
import { apart, texts } from './words.js';

/** @type {Counted} */
export const number = (count) => count.toLocaleString('de');
/** @type {(count: number, one: string, more: string) => string} */
export const many = (count, one, more) => `${number(count)} ${count === 1 ? one : more}`;
/** @type {Counted} */
export const projects = (count) => many(count, 'Projekt', 'Projekte');
/** @type {Counted} */
export const students = (count) => many(count, 'Person', 'Studierende');
/** @type {Counted} */
export const lecturers = (count) => many(count, 'Lehrperson', 'Lehrende');
/** @type {Counted} */
export const places = (count) => many(count, 'Platz', 'Plätze');

export const words = texts({
  language: 'de',
  dates: 'de-DE',
  separator: ';',
  title: 'Projektwahl',
  leave: 'Verlassen',
  keepEditing: 'Weiter bearbeiten',
  cancel: 'Abbrechen',
  tryAgain: 'Noch einmal versuchen',
  loading: 'Einen Moment …',
  closeMessage: 'Meldung schließen',
  languageLabel: 'Sprache',
  menu: 'Menü',
  departmentLinks: { contact: 'Kontakt', privacy: 'Datenschutz', accessibility: 'Barrierefreiheit' },

  // signing in
  yourCode: 'Ihr Code',
  codeHint: `Sie haben diesen Code vom Studienbüro. Er hat ${shortestCode} bis ${longestCode} Buchstaben, Ziffern und Bindestriche. `
    + 'Verloren? Fragen Sie das Studienbüro.',
  showCode: 'Code zeigen',
  signIn: 'Anmelden',
  signOut: 'Abmelden',
  noSuchCode: 'Diesen Code kennen wir nicht. Prüfen Sie jedes Zeichen, auch große und kleine Buchstaben. Wenn es nicht hilft, fragen Sie '
    + 'das Studienbüro.',
  noCodeForm: `Geben Sie den ganzen Code ein: ${shortestCode} bis ${longestCode} Buchstaben (ohne Akzente), Ziffern und Bindestriche.`,
  signedOut: 'Sie sind abgemeldet.',
  idleSoon: 'Sind Sie noch da?',
  idleMeans: 'Hier ist eine Weile nichts geschehen. In zwei Minuten werden Sie abgemeldet. Was Sie nicht gespeichert haben, bleibt in '
    + 'diesem Tab.',
  stay: 'Angemeldet bleiben',
  signedOutElsewhere: 'Sie sind abgemeldet, weil Sie diese Seite verlassen oder sich in einem anderen Tab abgemeldet haben.',
  signedOutKept: 'Sie sind abgemeldet, weil Sie sich in einem anderen Tab abgemeldet haben. Was hier nicht gespeichert war, bleibt in '
    + 'diesem Tab: Melden Sie sich hier wieder an, um weiterzumachen.',
  signedOutAsk: 'Sie haben sich in einem anderen Tab abgemeldet. Auch hier abmelden?',
  signedOutIdle: 'Sie sind abgemeldet, weil Sie 30 Minuten lang nichts getan haben. Melden Sie sich wieder an, um dort weiterzumachen, wo '
    + 'Sie waren.',
  unsavedLeave: 'Verlassen, ohne zu speichern?',
  unsavedLost: 'Ihre nicht gespeicherten Änderungen gehen verloren.',
  roles: { student: 'Student/in', lecturer: 'Lehrperson', office: 'Studienbüro' },

  // where the year stands
  year: 'Phasen',
  phases: { setup: 'Vorbereitung', choosing: 'Wahl', ranking: 'Rangfolgen', published: 'Ergebnisse' },
  round: (round) => `Runde ${round}`,
  roundFor: 'Die zweite Runde ist für Studierende, die in der ersten kein Projekt bekommen haben. Sie vergibt die Plätze, die übrig sind.',
  moment: (when) => `${new Intl.DateTimeFormat('de', { weekday: 'long', day: 'numeric', month: 'long' }).format(
    when,
  )} um ${new Intl.DateTimeFormat('de', { hour: '2-digit', minute: '2-digit' }).format(when)} Uhr`,
  closes: (phase, when, left) => `„${phase}“ endet am ${when} (${left}).`,
  overdue: (phase) => `„${phase}“ sollte jetzt beendet sein.`,
  past: (phase) => `Die angekündigte Zeit für „${phase}“ ist vorbei.`,
  pastSaving: {
    choosing: 'Die angekündigte Zeit ist vorbei; speichern können Sie noch, bis das Studienbüro die Wahl schließt.',
    ranking: 'Die angekündigte Zeit ist vorbei; speichern können Sie noch, bis das Studienbüro die Ergebnisse veröffentlicht.',
  },
  soon: (phase, left) => `„${phase}“ endet ${left}`,
  over: 'die angekündigte Zeit ist vorbei',
  now: {
    student: {
      setup: 'Das Studienbüro trägt Projekte ein. Sie können sie schon ansehen.',
      choosing: 'Setzen Sie die Projekte, die Sie möchten, auf Ihre Liste, das liebste zuerst, und speichern Sie sie.',
      ranking: 'Die Wahl ist geschlossen. Die Lehrenden ordnen die Studierenden, die ihre Projekte gewählt haben. Sie müssen nichts tun.',
      published: 'Die Ergebnisse sind da. Ihres steht unten.',
    },
    lecturer: {
      setup: 'Das Studienbüro trägt Projekte ein. Prüfen Sie, ob Ihre stimmen, und sagen Sie es dem Studienbüro, wenn nicht.',
      choosing: 'Die Studierenden wählen Projekte. Sie müssen noch nichts tun.',
      ranking: 'Bringen Sie alle Bewerbungen um Ihre Projekte in eine Rangfolge, die beste zuerst, und speichern Sie sie.',
      published: 'Die Ergebnisse sind da. Unten steht, wer Ihre Projekte bekommen hat.',
    },
    office: {
      setup: 'Tragen Sie die Lehrenden, Projekte und Studierenden ein. Öffnen Sie dann die Wahl.',
      choosing: 'Die Studierenden wählen. Personen und Projekte können noch hinzukommen.',
      ranking: 'Die Lehrenden ordnen die Bewerbungen um ihre Projekte.',
      published: 'Die Ergebnisse sind da. Studierende und Lehrende können ihre sehen.',
    },
  },
  next: {
    student: {
      setup: 'Danach wählen Sie Projekte.',
      choosing: 'Sie können sie ändern, bis das Studienbüro die Wahl schließt. Es gilt, was Sie zuletzt gespeichert haben. Danach ordnen '
        + 'die Lehrenden die Bewerbungen.',
      ranking: 'Danach sehen Sie hier Ihr Ergebnis.',
      published: '',
    },
    lecturer: {
      setup: 'Danach wählen die Studierenden Projekte.',
      choosing: 'Danach ordnen Sie die Bewerbungen um Ihre Projekte, wenn es welche gibt.',
      ranking: 'Sie können sie ändern, bis das Studienbüro die Ergebnisse veröffentlicht. Danach sehen Sie hier, wer Ihre Projekte '
        + 'bekommen hat.',
      published: '',
    },
    office: {},
  },
  nowSecond: {
    student: {},
    lecturer: {
      choosing: 'Studierende ohne Projekt wählen noch einmal. Sie müssen noch nichts tun.',
      ranking: 'Bringen Sie alle Bewerbungen dieser Runde in eine Rangfolge, die beste zuerst, und speichern Sie sie.',
    },
    office: {
      choosing: 'Studierende ohne Projekt wählen noch einmal.',
    },
  },
  nextSecond: {
    student: {
      choosing: 'Sie können sie ändern, bis das Studienbüro die Wahl schließt. Es gilt, was Sie zuletzt gespeichert haben. Danach ordnen '
        + 'die Lehrenden die Bewerbungen.',
      ranking: 'Danach sehen Sie hier Ihr Ergebnis.',
    },
    lecturer: {},
    office: {},
  },
  place: (phase, round) => (round === 2 ? `„${phase}“ der zweiten Runde` : `„${phase}“`),
  phaseMoved: (place) => `Das Portal ist inzwischen bei ${place}. Was Sie zuletzt getan haben, wurde nicht ausgeführt.`,
  lastListCounts: 'Es gilt die Liste, die Sie zuletzt gespeichert haben. Was Sie danach geändert haben, bleibt auf dieser Seite, zum Lesen '
    + 'und Kopieren.',
  lastRankingCounts: 'Es gilt die Rangfolge, die Sie zuletzt gespeichert haben. Was Sie danach geändert haben, bleibt auf dieser Seite, '
    + 'zum Lesen und Kopieren.',
  columns: { title: 'Titel', lecturer: 'Lehrperson', places: 'Plätze', list: 'Ihre Liste' },
  named: (title, key) => `${title}, ${key}`,
  noMatches: 'Nichts gefunden. Versuchen Sie es mit weniger Wörtern, oder leeren Sie die Suche.',
  more: 'Mehr zu diesem Projekt (neuer Tab)',

  // a list that is put in order
  moveUp: (name) => `${name} nach oben`,
  moveDown: (name) => `${name} nach unten`,
  moveTo: (name) => `Position von ${name}`,
  remove: (name) => `${name} entfernen`,
  isAt: (name, place, count) => `${apart(name)} ist jetzt Nummer ${place} von ${count}.`,
  isGone: (name, count) => `${apart(name)} ist entfernt. ${count === 0 ? 'Es bleibt nichts übrig.' : `Es bleiben ${count}.`}`,
  orderHow: 'So ordnen Sie um',
  orderHint: 'Zum Umordnen ziehen Sie einen Eintrag, drücken seine Pfeile oder geben seine Position ein. Mit der Tastatur: Gehen Sie mit '
    + 'Tab auf eine seiner Tasten, und drücken Sie ↑, ↓, Pos1 oder Ende; nach einem Klick zusammen mit Alt.',
  undo: 'Rückgängig',
  undone: 'Die letzte Änderung ist zurückgenommen.',
  backToSaved: 'Änderungen verwerfen',
  isBackToSaved: 'Verworfen. „Rückgängig“ holt alles zurück.',
  isChanged: 'Nicht gespeichert',
  notYetSaved: 'Noch nicht gespeichert',
  perhapsSaved: 'Vielleicht nicht gespeichert',
  isSaved: 'Alles gespeichert',
  saving: 'Wird gespeichert …',
  savedAt: (time) => `Gespeichert: ${time}`,
  draftBack: 'Nicht gespeicherte Änderungen sind noch da.',
  draftLess: (names) => `Nicht mehr da und deshalb aus Ihren nicht gespeicherten Änderungen gefallen: ${names}. Alles andere ist noch da.`,
  unsaved: 'Nicht rechtzeitig gespeichert',
  unsavedList: 'Das haben Sie nicht gespeichert, bevor geschlossen wurde. Es gilt deshalb nicht.',
  copyUnsaved: 'Das kopieren',
  dropUnsaved: 'Das entfernen',
  printReceipt: 'Beleg drucken',
  printed: (when, host) => `Zuletzt gespeichert auf ${host}. Gedruckt am ${when}.`,
  savedMeanwhile: 'In einem anderen Tab oder auf einem anderen Gerät wurde eine andere Fassung gespeichert.',
  listHere: 'Auf dieser Seite',
  listSaved: 'Anderswo gespeichert',
  empty: 'Leer',
  keepHere: 'Die Fassung dieser Seite speichern',
  keepSaved: 'Die andere Fassung nehmen',
  keptSaved: 'Das ist die anderswo gespeicherte Fassung.',
  copiedLines: (count) => `${many(count, 'Zeile', 'Zeilen')} kopiert. Fügen Sie sie in eine E-Mail oder Tabelle ein.`,

  decidedAndSeen: 'Wie entschieden wird und wer was sieht',

  // what goes wrong
  lostSave: 'Das Portal antwortet nicht, wir wissen also nicht, ob es gespeichert ist. Es ist noch da, und die Seite sieht nach, ob es '
    + 'gespeichert wurde.',
  notSaved: 'Das wurde nicht gespeichert. Es ist noch da. Versuchen Sie es noch einmal.',
  lost: 'Das Portal antwortet nicht. Was Sie eingegeben haben, ist noch da. Prüfen Sie Ihre Verbindung und versuchen Sie es noch einmal.',
  notCopied: 'Ihr Browser hat das Kopieren verhindert. Markieren und kopieren Sie die Namen selbst.',
  unexpected: 'Auf dieser Seite ist etwas schiefgegangen. Laden Sie sie neu, um weiterzumachen.',
  listed: (names) =>
    (names.length > 10 ? `${names.slice(0, 10).map(apart).join(', ')} und ${number(names.length - 10)} mehr` : names.map(apart).join(', ')),
  stillToRank: (names) => `Nicht veröffentlicht. Noch ohne Rangfolge: ${names.map(apart).join(', ')}.`,
  refusals: {
    no_caller: 'Dieser Code gilt nicht mehr. Wenn Sie einen neuen bekommen haben, melden Sie sich damit an. Wenn nicht, fragen Sie das '
      + 'Studienbüro.',
    not_yours: 'Das dürfen Sie nicht tun.',
    wrong_phase: 'Das geht in dieser Phase nicht.',
    already_placed: 'Sie haben schon ein Projekt aus der ersten Runde und können deshalb keine Liste mehr speichern.',
    roll_full: `Nichts wurde hinzugefügt: Es wären zu viele Zeilen. Das Portal nimmt bis zu ${lecturers(
      mostRows.lecturers,
    )}, ${projects(mostRows.projects)} und ${students(mostRows.students)}.`,
    too_large: `Diese Datei ist zu groß. Die Grenze ist ${number(
      largestFile,
    )} Bytes. Teilen Sie sie und senden Sie die Teile nacheinander.`,
    bad_body: 'Das konnte das Portal nicht lesen. Laden Sie die Seite neu und versuchen Sie es noch einmal.',
    other: (word) => `Das Portal hat das abgelehnt („${word}“). Laden Sie die Seite neu und versuchen Sie es noch einmal.`,
  },
  badList: (name, why) => `Nicht gespeichert. ${apart(name)}: ${why}. Es gilt weiter, was Sie zuletzt gespeichert haben.`,
  badListFaults: {
    too_long: `eine Liste hat höchstens ${longestList} Projekte`,
    unknown_project: 'dieses Projekt gibt es in dieser Runde nicht',
    repeated: 'es steht zweimal auf der Liste',
    not_an_applicant: 'diese Person hat keines Ihrer Projekte gewählt',
  },
  rankingMissing: 'Nicht gespeichert. In Ihrer Rangfolge fehlt mindestens eine Bewerbung. Es gilt weiter die Rangfolge, die Sie zuletzt '
    + 'gespeichert haben.',
});
