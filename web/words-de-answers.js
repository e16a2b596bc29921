// The answers in German of how it is decided and who sees what, with the same keys as words-en-answers.js.

import { longestList } from './config.js';
import { lecturers, projects, students } from './words-de.js';
import { texts } from './words.js';

export const words = texts({
  answers: {
    how: {
      title: 'Wie wird entschieden?',
      texts: [
        'Jede Studentin und jeder Student setzt Projekte in einer Reihenfolge auf eine Liste. Jede Lehrperson bringt alle, die eines ihrer '
          + 'Projekte gewählt haben, in eine Rangfolge. Das Ergebnis folgt aus diesen Listen und Rangfolgen und aus den Plätzen, aus sonst '
          + 'nichts: Wann jemand gespeichert hat, spielt keine Rolle.',
        'Wäre jemandem ein anderes Projekt der eigenen Liste lieber, so gingen alle seine Plätze oder alle seiner Lehrperson an '
          + 'Studierende, die diese Lehrperson weiter vorn ordnet. Von allen Ergebnissen, für die das gilt, ist es für jede einzelne '
          + 'Person das beste.',
      ],
    },
    rank: {
      title: 'Wie soll ich ordnen?',
      texts: ['Wie Sie die Studierenden beurteilen, die Besten zuerst, und nicht danach, was sie zu wollen scheinen: Die Zusagen an die '
        + 'Studierenden setzen voraus, dass Ihre Reihenfolge zweier Studierender von keiner Liste abhängt. Dass sich eine unehrliche '
        + 'Rangfolge für Sie nie lohnt, sagt niemand zu.'],
    },
    sees: {
      title: 'Wer sieht was?',
      texts: [
        'Listen: Dem eigenen Code des Studienbüros zeigt das Portal keine Liste; aber das Studienbüro hat die Codes der Studierenden '
          + 'gemacht, und wer den Code einer Person hat oder die Datenbank lesen darf, kann ihre Liste lesen. Das Studienbüro sieht, ob '
          + 'eine Liste leer ist. Von der Phase „Rangfolgen“ an sehen Lehrende, wer welche ihrer eigenen Projekte gewählt hat, ohne '
          + 'Positionen.',
        'Rangfolgen: Das Portal zeigt eine Rangfolge allein dem Code ihrer Lehrperson, nicht Studierenden, anderen Lehrenden oder dem '
          + 'eigenen Code des Studienbüros. Das Studienbüro sieht, wer noch ordnen muss.',
        'Ergebnisse: Studierende sehen ihr eigenes Projekt, Lehrende, wer ihre hat, das Studienbüro, wer was hat. Sie verraten etwas mehr: '
          + 'Wer ein Projekt nicht bekommt, weiß, dass alle seine Plätze oder alle seiner Lehrperson an Studierende gingen, die weiter '
          + 'vorn stehen; und eine Lehrperson, die jemanden an die erste Stelle gesetzt hat und nicht bekommt, weiß, dass das Projekt '
          + 'dieser Person auf deren Liste weiter oben steht.',
      ],
    },
    fill: {
      title: 'Was, wenn eine Lehrperson keine Rangfolge macht?',
      texts: ['Das Studienbüro kann sie ergänzen lassen: Die Bewerbungen bei dieser Lehrperson werden dann nach der ID geordnet, Zeichen '
        + 'für Zeichen von links verglichen. Das begünstigt niedrige IDs: Sind es Matrikelnummern, so bei jeder solchen Lehrperson '
        + 'dieselben, meist älteren Studierenden. Zufällige IDs begünstigen niemanden. Bis zur Veröffentlichung kann die Lehrperson eine '
        + 'solche Rangfolge ersetzen.'],
    },
    codes: {
      title: 'Wer könnte im Namen anderer handeln?',
      texts: [
        'Das Portal fragt nur nach dem Code. Das Studienbüro hat die Codes gemacht: Wer die Datei der Codes hat, könnte sich als jede '
          + 'Person anmelden, sehen, was sie sieht, und ihre Liste oder Rangfolge ändern, solange das geht.',
        'Wer die Datenbankdatei oder eine Kopie davon lesen kann, kann alle Listen, Rangfolgen und Codes lesen.',
      ],
    },
    game: {
      title: 'Lässt es sich austricksen?',
      texts: [
        'Nicht durch die Liste einer Studentin oder eines Studenten: Welche Projekte auch darauf stehen, keine andere Reihenfolge und '
          + 'keine kürzere Liste aus einigen von ihnen bringt eines, das dieser Person lieber ist. Das ist mathematisch bewiesen, was '
          + 'immer die anderen wählen. Es setzt voraus, dass bei keiner Lehrperson die Reihenfolge zweier Studierender von irgendeiner '
          + `Liste abhängt. Wem mehr als ${longestList} Projekte gefallen, dem sagt keine Regel, welche ${longestList} auf die Liste `
          + 'sollen.',
        'Eine Gruppe kann Listen so absprechen, dass einige gewinnen, aber nie alle. Für Lehrende ist nichts dergleichen bewiesen.',
      ],
    },
    waiting: {
      title: 'Lohnt es sich, auf eine zweite Runde zu warten?',
      texts: ['Steht auf der Liste jedes Projekt, das die Person nehmen würde, bringt es nichts, auf die zweite Runde zu warten: Wer '
        + 'keines davon bekommt, findet dann keines davon, weil sie oder ihre Lehrenden voll sind. Und vielleicht gibt es keine zweite '
        + 'Runde.'],
    },
    why: {
      title: 'Warum hat diese Person nichts bekommen?',
      texts: ['Die Ergebnisse des Studienbüros unterscheiden zwei Fälle: „keine Liste“: Es wurde keine gespeichert oder eine leere; '
        + '„Liste, aber kein Platz“: Bei jedem Projekt darauf gingen alle seine Plätze oder alle seiner Lehrperson an Studierende, die '
        + 'weiter vorn stehen; bei denselben Rangfolgen und denselben Listen der anderen hätte keine andere Liste eines davon gebracht. '
        + 'Welche Projekte das waren, zeigt nur die eigene Seite dieser Person.'],
    },
    fair: {
      title: 'Ist es gerecht?',
      texts: ['Früh zu sein bringt niemandem etwas, und das Studienbüro kann kein Ergebnis ändern. Es entscheidet, wie die Lehrenden '
        + 'ordnen; das beurteilt das Portal nicht. Eine Regel begünstigt manche ohne Grund: das Ergänzen nach ID.'],
    },
    proven: {
      title: 'Was ist bewiesen, und worauf muss man vertrauen?',
      texts: ['Maschinell bewiesen, für das Programm des Portals: Jedes veröffentlichte Ergebnis hält alle Plätze ein, ist von der hier '
        + 'beschriebenen Art und von solchen das beste für die Studierenden; und was das Portal jemandem sagt, hängt von nichts ab, das '
        + 'diese Person nicht sehen darf, solange es jede Anfrage beantwortet. Vertrauen muss man den Definitionen, den Werkzeugen, die '
        + 'beweisen und bauen, der Maschine und ihrer Festplatte. Nichts ist bewiesen von dieser Seite, vom Webserver und davon, was '
        + 'Menschen tun, die Codes oder die Datenbankdatei haben.'],
    },
  },
  sheetTitle: 'Wie Projekte vergeben werden: Antworten auf einer Seite',
  sheetState: (place, status) =>
    `Stand: ${place}. ${students(status.students)}, ${projects(status.projects)}, ${lecturers(status.lecturers)}.`,
  sheetResult: (assigned, none, list) => `Mit Projekt: ${students(assigned)}. Ohne Liste: ${none}. Mit Liste, aber ohne Projekt: ${list}.`,
  sheetPrinted: (when, host) => `${host}, gedruckt am ${when}.`,
});
