// The texts of the student's page in German. words-de.js has those that others see too.

import { longestList } from './config.js';
import { many, number, places, projects } from './words-de.js';
import { apart, texts } from './words.js';

export const words = texts({
  // the catalogue
  catalogue: 'Projekte',
  searchProjects: 'Projekte suchen',
  shown: (shown, all) => (shown === all ? projects(all) : `${number(shown)} von ${many(all, 'Projekt', 'Projekten')}`),
  noProjects: 'Keine Projekte zu sehen.',
  noProjectsSecond: 'In dieser Runde hat kein Projekt mehr einen Platz. Fragen Sie das Studienbüro, wie es weitergeht.',
  showProjects: (count) => (count === 1 ? 'Das Projekt zeigen' : `Alle ${projects(count)} zeigen`),
  placesLeftColumn: 'Freie Plätze',
  roomOf: (count) => places(count),
  allLecturers: 'Alle Lehrenden',
  anyPlaces: 'Plätze: alle',
  atLeast: (count) => `${number(count)} oder mehr Plätze`,
  notOnList: 'Nicht auf meiner Liste',
  add: 'Wählen',
  addKey: (name) => `Wählen: ${name}`,
  take: 'Entfernen',
  takeKey: (name) => `Entfernen von Ihrer Liste: ${name}`,
  onList: (place) => `Wahl ${place}`,

  yourList: 'Ihre Liste',
  showProjectsAgain: 'Projekte zeigen',
  skipToList: 'Zu Ihrer Liste springen',
  skipToSave: 'Zu „Liste speichern“ springen',
  ofList: {
    label: 'Ihre Liste',
    save: 'Liste speichern',
    show: 'Liste zeigen',
    skip: 'Zu „Liste speichern“',
    saved: (count) => (count === 0 ? 'Gespeichert. Leere Liste: kein Projekt für Sie.' : `Gespeichert. Ihre Liste hat ${projects(count)}.`),
    count: (count) =>
      (count < longestList ? `${projects(count)} (bis zu ${longestList})` : `${longestList} Projekte. Ihre Liste ist voll.`),
    missing: () => '',
    none: 'Keine Projekte gespeichert',
    which: 'Welche Liste möchten Sie behalten?',
  },
  listEmpty: 'Ihre Liste ist leer. Drücken Sie „Wählen“ neben jedem Projekt, das Sie möchten.',
  listFull: 'Liste voll: erst ein Projekt entfernen.',
  listClosedEmpty: 'Sie haben keine Liste gespeichert oder eine leere.',
  byLecturer: (lecturer, key) => (lecturer === '' ? key : `${apart(lecturer)} · ${key}`),
  decided: 'Wie entschieden wird',
  decidedParts: [
    'Hat ein Projekt oder seine Lehrperson zu wenige Plätze, gehen sie an Studierende, die die Lehrperson weiter vorn ordnet.',
    'Lehrende ordnen, ohne Ihre Reihenfolge zu sehen: Sie sehen nur, welche ihrer eigenen Projekte Sie gewählt haben.',
    'Wann Sie speichern, spielt keine Rolle. Ordnen Sie Ihre Projekte ehrlich: Keine andere Reihenfolge gibt Ihnen eines, das Ihnen lieber '
      + 'ist.',
  ],
  about: 'Wie Sie Ihre Liste ordnen und wer sie sieht',
  secret: 'Dem eigenen Code des Studienbüros zeigt das Portal keine Liste; aber das Studienbüro hat Ihren Code gemacht, und wer ihn hat '
    + 'oder die Datenbank lesen darf, kann Ihre Liste lesen. Das Studienbüro sieht, ob Ihre Liste leer ist. Wenn die Wahl geschlossen ist, '
    + 'sehen Lehrende, welche ihrer eigenen Projekte Sie gewählt haben, ohne Positionen. Die Ergebnisse können etwas mehr verraten: Eine '
    + 'Lehrperson, die Sie an die erste Stelle gesetzt hat und Sie nicht bekommt, weiß, dass Ihr Projekt auf Ihrer Liste weiter oben '
    + 'steht.',
  filledByID: 'Macht eine Lehrperson keine Rangfolge, kann das Studienbüro sie nach der ID der Studierenden ergänzen lassen. Das '
    + 'begünstigt niedrige IDs: Sind es Matrikelnummern, so bei jeder solchen Lehrperson dieselben, meist älteren Studierenden.',
  advice: 'Welche Projekte Sie auch auf Ihre Liste setzen, setzen Sie sie in Ihrer ehrlichen Reihenfolge darauf: Keine andere Reihenfolge '
    + 'und keine kürzere Liste aus einigen von ihnen gibt Ihnen eines, das Ihnen lieber ist. Das ist mathematisch bewiesen.',
  adviceParts: [
    'Setzen Sie Ihr liebstes Projekt an die erste Stelle, auch wenn es beliebt ist. Sie verlieren nichts, wenn Sie es versuchen.',
    `Nehmen Sie jedes Projekt auf, das Sie nehmen würden. Eine Liste hat Platz für ${longestList}; wenn Ihnen mehr gefallen, sagt keine `
      + `Regel, welche ${longestList} Sie nehmen sollen.`,
    'Ein weiteres Projekt am Ende schadet Ihren Aussichten auf die davor nie. Ein Projekt, das nicht auf Ihrer Liste steht, bekommen Sie '
      + 'nie.',
    'Das Kleingedruckte: Keine Gruppe kann Listen oder das Warten auf eine zweite Runde so absprechen, dass über beide Runden alle in ihr '
      + 'gewinnen; einige von ihnen vielleicht. Der Beweis gilt nur für die Listen der Studierenden und setzt voraus, dass bei keiner '
      + 'Lehrperson die Reihenfolge zweier Studierender von irgendeiner Liste abhängt.',
  ],
  adviceWait: 'Steht auf Ihrer Liste jedes Projekt, das Sie nehmen würden, bringt es nichts, auf die zweite Runde zu warten: Bekommen Sie '
    + 'jetzt keines davon, hat dann keines noch einen Platz für Sie. Und vielleicht gibt es keine zweite Runde.',
  roomLeft: (count, among) =>
    `Höchstens ${places(count)} ${count === 1 ? 'ist' : 'sind'} übrig, in ${many(among, 'Projekt', 'Projekten')}.`,
  adviceSecond: 'Kein Projekt Ihrer ersten Liste hat noch einen Platz für Sie. Setzen Sie andere auf die Liste, die Ihnen lieber sind als '
    + 'keines.',
  yourProject: 'Ihr Ergebnis',
  ownProject: (title, lecturer) => `Ihr Projekt ist ${apart(title)} bei ${apart(lecturer)}.`,
  ownProjectByKey: (title) => `Ihr Projekt ist ${apart(title)}.`,
  choice: (place) => `Es war Ihre ${place}. Wahl. Nur Sie können das sehen.`,
  hasOwnAlready: 'Sie haben schon ein Projekt aus der ersten Runde und müssen nichts tun.',
  chooseAgain: 'In der ersten Runde haben Sie kein Projekt bekommen. Setzen Sie die, die Sie jetzt möchten, auf Ihre Liste, das liebste '
    + 'zuerst, und speichern Sie sie.',
  canChange: 'Sie können sie ändern, bis die Wahl geschlossen wird.',
  choiceFirst: 'Es war Ihre erste Wahl. Nur Sie können das sehen.',
  keptFirst: 'Dieses Projekt haben Sie in der ersten Runde bekommen. Die zweite Runde ändert daran nichts.',
  firstList: 'Ihre Liste der ersten Runde',
  markYours: 'Ihr Projekt',
  markTaken: 'Kein Platz für Sie',
  markFull: 'Alle seine Plätze gingen an Studierende, die vor Ihnen geordnet waren.',
  markFullSecond: 'Alle Plätze, die bei ihm übrig waren, gingen an Studierende, die vor Ihnen geordnet waren.',
  whyTaken: '„Kein Platz für Sie“ heißt: Alle Plätze des Projekts oder alle seiner Lehrperson gingen an Studierende, die vor Ihnen '
    + 'geordnet waren.',
  whyTakenSecond: '„Kein Platz für Sie“ heißt: Alle Plätze, die beim Projekt oder bei seiner Lehrperson übrig waren, gingen an '
    + 'Studierende, die vor Ihnen geordnet waren.',
  whyHigherTitle: 'Warum keine höhere Wahl?',
  whyHigher: (count) => (count === 1
    ? 'Ihre 1. Wahl hatte keinen Platz für Sie: Alle ihre Plätze oder alle ihrer Lehrperson gingen an Studierende, die vor Ihnen geordnet '
      + 'waren.'
    : `Ihre ersten ${count} Wahlen hatten keinen Platz für Sie. Bei jeder von ihnen gingen alle Plätze des Projekts oder alle seiner `
      + 'Lehrperson an Studierende, die vor Ihnen geordnet waren.'),
  whyHigherSecond: (count) => (count === 1
    ? 'Ihre 1. Wahl in dieser Runde hatte keinen Platz für Sie: Alle Plätze, die bei ihr oder bei ihrer Lehrperson übrig waren, gingen an '
      + 'Studierende, die vor Ihnen geordnet waren.'
    : `Ihre ersten ${count} Wahlen in dieser Runde hatten keinen Platz für Sie. Bei jeder von ihnen gingen alle Plätze, die beim Projekt `
      + 'oder bei seiner Lehrperson übrig waren, an Studierende, die vor Ihnen geordnet waren.'),
  whyNoOther: 'Bei denselben Rangfolgen und denselben Listen der anderen hätte Ihnen keine andere Liste eine Wahl über Ihrem Ergebnis '
    + 'gebracht.',
  whyFilled: 'Die Rangfolgen machen die Lehrenden. Wo eine fehlte, hat das Studienbüro sie nach der ID der Studierenden ergänzen lassen, '
    + 'was niedrige IDs begünstigt.',
  noneTitle: 'Sie haben diesmal kein Projekt bekommen.',
  noneTitleSecond: 'Sie haben in der zweiten Runde kein Projekt bekommen.',
  whyNone: 'Bei jedem Projekt Ihrer Liste gingen alle seine Plätze oder alle seiner Lehrperson an Studierende, die vor Ihnen geordnet '
    + 'waren. Bei denselben Rangfolgen und denselben Listen der anderen hätte Ihnen keine andere Liste eines dieser Projekte gebracht.',
  whyNoneSecond: 'Bei jedem Projekt Ihrer Liste gingen alle Plätze, die bei ihm oder bei seiner Lehrperson übrig waren, an Studierende, '
    + 'die vor Ihnen geordnet waren. Bei denselben Rangfolgen und denselben Listen der anderen hätte Ihnen keine andere Liste eines dieser '
    + 'Projekte gebracht.',
  noneNext: 'Fragen Sie das Studienbüro, wie es weitergeht.',
  noneMayBe: 'Das Studienbüro kann für Studierende ohne Projekt eine zweite Runde öffnen. Dann wählen Sie hier noch einmal, unter den '
    + 'Plätzen, die übrig sind.',
  noneNextSecond: 'Eine dritte Runde gibt es nicht. Fragen Sie das Studienbüro, wie es weitergeht.',
  noProjectNoList: 'Sie haben kein Projekt bekommen, weil Sie keine Liste gespeichert haben oder eine leere.',
  noProjectNoListSecond: 'Sie haben in der zweiten Runde kein Projekt bekommen, weil Sie in ihr keine Liste gespeichert haben oder eine '
    + 'leere.',
  whatNext: 'Wie es weitergeht',
  ownNext: 'Auch Ihre Lehrperson sieht, dass Sie dieses Projekt haben. Sprechen Sie miteinander darüber, wie Sie beginnen. Ist etwas '
    + 'unklar, fragen Sie das Studienbüro.',
});
