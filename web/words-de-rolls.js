// The texts in German of the office’s files, with the same keys as words-en-rolls.js.

import { largestCapacity, longestCode, longestKey, longestName, mostRows, shortestCode } from './config.js';
import { lecturers, many, number, projects, students } from './words-de.js';
import { apart, texts } from './words.js';

const saveAs = 'Wählen Sie in der Tabellenkalkulation „Speichern unter“ oder „Herunterladen“, dann „Excel-Arbeitsmappe (.xlsx)“ oder „CSV '
  + 'UTF-8“. Öffnen Sie die neue Datei hier.';
const keyForm = () => `1 bis ${longestKey} Buchstaben (ohne Akzente), Ziffern, Bindestriche, Unterstriche oder Punkte.`;
/** @type {Counted} */
const addresses = (count) => many(count, 'E-Mail-Adresse', 'E-Mail-Adressen');
/** @type {Record<string, string>} What each column is called, and that for how many students, which each file has its own name for. */
const columnNames = {
  id: 'ID',
  name: 'Name',
  first: 'Vorname',
  code: 'Code',
  lecturer: 'Lehrperson',
  title: 'Titel',
  email: 'E-Mail',
  description: 'Beschreibung',
  link: 'Link',
};
/** @type {Record<string, string>} */
const limits = { projects: 'Plätze', lecturers: 'Höchstens Studierende' };

export const words = texts({
  // the office: people and projects
  rollTaken: (roll, added, same) => `${roll}: ${number(added)} hinzugefügt, ${number(same)} schon vorhanden.`,
  inHand: (roll, file) => `${roll}: ${apart(file)}`,

  // how a file was read
  noTable: {
    xls: `Das ist eine Arbeitsmappe der älteren Art (.xls). ${saveAs}`,
    xlsb: `Das ist eine Arbeitsmappe einer Art, die diese Seite nicht liest (.xlsb). ${saveAs}`,
    ods: `Das ist eine OpenDocument-Datei (etwa .ods). ${saveAs}`,
    numbers: 'Das ist eine Numbers-Datei. Wählen Sie in Numbers „Ablage“, „Exportieren“, „Excel“. Öffnen Sie die neue Datei hier.',
    pdf: 'Das ist ein PDF, aus dem sich keine Tabelle lesen lässt. Exportieren Sie aus dem Programm, das es gemacht hat, als '
      + '„Excel-Arbeitsmappe (.xlsx)“ oder CSV.',
    picture: 'Das ist ein Bild, aus dem sich keine Tabelle lesen lässt. Exportieren Sie aus dem Programm, das die Tabelle hat, als '
      + '„Excel-Arbeitsmappe (.xlsx)“ oder CSV.',
    document: 'Das ist ein Textdokument. Kopieren Sie seine Tabelle in eine Tabellenkalkulation und speichern Sie diese als '
      + '„Excel-Arbeitsmappe (.xlsx)“.',
    web: 'Das ist eine Webseite (HTML), wie immer ihr Name lautet. Öffnen Sie sie in der Tabellenkalkulation und wählen Sie „Speichern '
      + 'unter“, dann „Excel-Arbeitsmappe (.xlsx)“. Öffnen Sie die neue Datei hier.',
    archive: 'Das ist ein Archiv oder ein Dokument, keine Arbeitsmappe. Entpacken Sie ein Archiv (.zip) und öffnen Sie die Datei darin.',
    locked: 'Diese Arbeitsmappe hat ein Kennwort. Öffnen Sie sie in der Tabellenkalkulation, entfernen Sie das Kennwort und speichern Sie '
      + 'sie noch einmal.',
    damaged: 'Diese Arbeitsmappe ist beschädigt, oder keine Tabellenkalkulation hat sie geschrieben. Öffnen Sie sie in einer und wählen '
      + 'Sie „Speichern unter“, dann „Excel-Arbeitsmappe (.xlsx)“. Öffnen Sie die neue Datei hier.',
    browser: 'Dieser Browser ist zu alt, um Arbeitsmappen zu lesen. Wählen Sie in der Tabellenkalkulation „Speichern unter“, dann „CSV '
      + 'UTF-8“. Öffnen Sie die neue Datei hier.',
    huge: 'Diese Datei ist zu groß, um hier gelesen zu werden. Kopieren Sie die Zeilen, die Sie brauchen, in eine neue Arbeitsmappe und '
      + 'öffnen Sie diese.',
    noText: `Diese Datei hat keine Tabelle, die diese Seite lesen kann. ${saveAs}`,
    empty: 'Diese Datei hat unter der Kopfzeile keine Zeilen.',
  },
  encodings: { 'utf-16le': 'in UTF-16', 'utf-16be': 'in UTF-16', 'windows-1252': 'in Windows-1252' },
  separators: { ';': 'mit Semikolons getrennt', '\t': 'mit Tabulatoren getrennt' },
  readAs: (found) => `Diese Datei ist ${found.join(' und ')}. Das ist in Ordnung: Beim Senden wird sie umgewandelt.`,
  sheetRead: (name, count) => `Gelesen wird das Blatt ${apart(name)}, eines von ${count}.`,
  sheetField: 'Blatt',
  sheetOf: (name, count) => `${name} (${many(count, 'Zeile', 'Zeilen')})`,
  headField: 'Kopfzeile',
  headOf: (row, cells) => `Zeile ${row}: ${cells}`,
  noHead: 'Es gibt keine Kopfzeile',
  skippedRow: (row, text) => `Zeile ${row} ${apart(text)}`,
  skipped: (named, more) => `Über der Kopfzeile übergangen: ${named.join(', ')}${more > 0 ? ` und ${number(more)} mehr` : ''}.`,
  columnsOfFile: 'Blatt, Kopfzeile und Spalten',
  columnName: (roll, column) => columnNames[column] ?? limits[roll],
  columnOption: (name, example) => (example === '' ? name : `${name} – ${example}`),
  idWanted: (count, example) =>
    `${many(count, 'Zeile hat', 'Zeilen haben')} keine ID. Jede Zeile braucht eine, die keine andere hat: ${example}.`,
  idOf: { lecturers: 'etwa l07', projects: 'etwa p017', students: 'etwa die Matrikelnummer' },
  makeIds: 'IDs vergeben',
  idsMade: {
    projects: 'IDs können hier vergeben werden: P001, P002 und so weiter. Projekte, die schon im Portal sind, bekommen ihre wieder, nach '
      + 'Titel und Lehrperson.',
    lecturers: 'IDs können hier aus den Nachnamen gemacht werden. Lehrende, die schon im Portal sind, bekommen ihre wieder, nach '
      + 'E-Mail-Adresse oder Name.',
    students: '',
  },
  idsNotSafe: 'IDs können hier nicht vergeben werden, denn dieser Browser kennt nicht alle Lehrenden im Portal und könnte jemandem eine '
    + 'zweite geben. Ergänzen Sie die neuen Lehrenden in der Datei mit den Codes, die damals gespeichert wurde: Sie hat die IDs. Öffnen '
    + 'Sie dann diese.',
  columnsMissing: (columns) => `Wählen Sie die Spalte für: ${columns.join(', ')}.`,
  columnFor: (name) => `Spalte für ${name}`,
  noColumn: 'Nicht in dieser Datei',
  looksLike: (other, own) => `Das sieht nach der Datei „${other}“ aus, nicht nach der Datei „${own}“. Es wurde nichts gesendet.`,
  hasColumn: (name, other) => `Sie hat eine Spalte „${apart(name)}“, wie Dateien „${other}“ sie haben.`,
  hasHeader: (other) => `Ihre Spalten sind die der Datei „${other}“.`,
  hasPeople: (count, all, other) => `${number(count)} von ${many(all, 'Zeile', 'Zeilen')} stehen schon im Portal unter „${other}“.`,
  useAs: (other) => `Als Datei „${other}“ verwenden`,
  columnsLeft: (names) => `Wird nicht gesendet: ${names.map(apart).join(', ')}`,

  // what a file would do
  rowNumber: 'Zeile',
  rowState: 'Was geschieht',
  rowActions: 'Ändern',
  allRows: 'Alle Zeilen',
  whichRows: 'Welche Zeilen zu sehen sind',
  searchRows: 'Zeilen durchsuchen',
  rowsOf: {
    all: (count) => `Alle: ${number(count)}`,
    wrong: (count) => `Falsch: ${number(count)}`,
    doubtful: (count) => `Zweifelhaft: ${number(count)}`,
    fresh: (count) => `Neu: ${number(count)}`,
    there: (count) => `Schon da: ${number(count)}`,
    left: (count) => `Weggelassen: ${number(count)}`,
  },
  states: { wrong: 'Falsch', doubtful: 'Zweifelhaft', fresh: 'Neu', there: 'Schon da', left: 'Weggelassen' },
  moreRows: (count, left) => `${number(count)} weitere von ${number(left)} zeigen`,
  cellOf: (column, row) => `${column}, Zeile ${row}`,
  mend: 'Ändern',
  mended: 'Fertig',
  mendRow: (row) => `Zeile ${row} ändern`,
  mendedRow: (row) => `Fertig mit Zeile ${row}`,
  leaveOutOne: 'Weglassen',
  leaveOutRow: (row) => `Zeile ${row} weglassen`,
  leaveOutAll: (count) => (count === 1 ? 'Diese Zeile weglassen' : `Diese ${number(count)} Zeilen weglassen`),
  askLeaveOut: (count) => `${number(count)} Zeilen weglassen?`,
  rowsAre: (rows) => `Das sind ${rows}.`,
  leaveOutMeans: 'Sie werden nicht gesendet. In der Liste der Zeilen können Sie sie zurückholen.',
  takeBack: 'Zurückholen',
  takeBackRow: (row) => `Zeile ${row} zurückholen`,
  keepsCode: 'behält den alten',
  noCode: 'noch keiner',
  rowCount: (count) => `Die Datei hat ${many(count, 'Zeile', 'Zeilen')}.`,
  newCount: (fresh, old, isSure) => `Neu: ${number(
    fresh,
  )}. Schon im Portal: ${number(old)}.${isSure ? '' : ' Die Zahlen können abweichen: Dieser Browser kennt nicht alle im Portal.'}`,
  wouldRefuse: 'Diese Datei kann noch nicht gesendet werden. Berichtigen Sie diese Zellen in der Liste unten, oder lassen Sie die Zeilen '
    + 'weg:',
  rowFault: (row, said) => `Zeile ${row}, ${said}`,
  cellFault: (column, text, why) => `${column}${text === '' ? '' : ` „${apart(text)}“`}: ${why}`,
  rowFaults: {
    empty: () => 'diese Zelle ist leer.',
    broken: () => 'die Tabellenkalkulation konnte diese Zelle nicht berechnen. Schreiben Sie den Text selbst.',
    cut: () => 'die Tabellenkalkulation hat eine Zahl gekürzt. Schreiben Sie alle Ziffern, oder formatieren Sie die Spalte dort als Text.',
    id: () => `nehmen Sie ${keyForm()}`,
    lecturer: () => 'unter diesem Namen ist keine Lehrperson bekannt, oder mehr als eine. Wählen Sie oben eine, oder schreiben Sie die ID.',
    noLecturers: () => 'im Portal sind noch keine Lehrenden. Fügen Sie diese zuerst hinzu.',
    long: () => `zu lang. Die Grenze ist ${longestName} Bytes; Buchstaben mit Akzent und nicht lateinische brauchen zwei oder mehr.`,
    line: () => 'darin ist ein Zeilenumbruch oder ein Tabulator. Schreiben Sie alles in eine Zeile.',
    code: () => `nehmen Sie ${shortestCode} bis ${longestCode} Buchstaben (ohne Akzente), Ziffern oder Bindestriche.`,
    capacity: () => `schreiben Sie eine ganze Zahl von 1 bis ${largestCapacity}, ohne Wörter.`,
    keyTwice: (other) => `Zeile ${other} hat dieselbe ID mit anderen Angaben.`,
    codeTwice: (other) => `Zeile ${other} hat denselben Code.`,
    tooMany: () => `ab hier sind es zu viele Zeilen. Das Portal nimmt bis zu ${lecturers(
      mostRows.lecturers,
    )}, ${projects(mostRows.projects)} und ${students(mostRows.students)}.`,
  },
  moreFaults: (count) => `und ${number(count)} mehr`,
  lookAt: 'Prüfen Sie das, bevor Sie senden:',
  mustAnswer: 'Bevor Sie senden können, sagen Sie hier jeweils, dass es stimmt, oder lassen Sie die Zeilen weg:',
  isAnswered: 'Sie haben gesagt, dass das stimmt.',
  areRight: (count) => (count === 1 ? 'Diese Zeile stimmt' : `Diese ${number(count)} Zeilen stimmen`),
  fillZeros: (length) => `Mit Nullen auf ${length} Ziffern ergänzen`,
  rows: (named, more) =>
    `${named.length + Math.max(0, more) === 1 ? 'Zeile' : 'Zeilen'} ${named.join(', ')}${more > 0 ? ` und ${number(more)} mehr` : ''}`,
  doubts: {
    total: (rows) => `Sieht nach einer Summe oder Anmerkung aus, nicht nach einer eigenen Zeile: ${rows}.`,
    hidden: (rows) => `In der Tabellenkalkulation ausgeblendet oder weggefiltert, würde aber gesendet: ${rows}.`,
    differs: (rows) =>
      `Scheint von dem abzuweichen, was das Portal unter derselben ID hat. Wenn ja, lehnt das Portal die Datei ab: ${rows}.`,
    misread: (rows) => 'Buchstaben sehen falsch gelesen aus. Exportieren Sie die Datei als „CSV UTF-8“ und öffnen Sie diese, oder '
      + `berichtigen Sie sie unten: ${rows}.`,
    noName: (rows) => `Der Name hat keine Buchstaben: ${rows}.`,
    sameEmail: (rows) =>
      `Dieselbe E-Mail-Adresse steht hier oder im Portal unter einer anderen ID. Ist es zweimal dieselbe Person? ${rows}.`,
    sameName: (rows) => `Derselbe Name steht hier oder im Portal unter einer anderen ID. Ist es zweimal dieselbe Person? ${rows}.`,
    weakCode: (rows) => `Der Code ist leicht zu erraten: ${rows}.`,
    noLecturer: (rows) => `Die Lehrperson scheint nicht im Portal zu sein. Fügen Sie zuerst die Lehrenden hinzu: ${rows}.`,
    sameTitle: (rows) => `Ein anderes Projekt der Lehrperson hat denselben Titel: ${rows}.`,
    formula: (rows) => `Name oder Titel beginnt mit =, +, - oder @. Eine Tabellenkalkulation kann das für eine Formel halten: ${rows}.`,
    idLength: (rows, length) => `${length === undefined
      ? 'IDs sind kürzer oder länger als die meisten in dieser Datei'
      : `IDs haben nicht ${length} Ziffern wie andere`}. Nullen am Anfang können verloren sein: ${rows}.`,
  },
  doubtsOfRow: {
    total: 'Sieht nach Summe oder Anmerkung aus.',
    hidden: 'In der Tabelle ausgeblendet.',
    differs: 'Weicht vom Portal ab.',
    misread: 'Buchstaben sehen falsch gelesen aus.',
    noName: 'Der Name hat keine Buchstaben.',
    sameEmail: 'Dieselbe Adresse unter anderer ID.',
    sameName: 'Derselbe Name unter anderer ID.',
    weakCode: 'Der Code ist leicht zu erraten.',
    noLecturer: 'Die Lehrperson ist nicht im Portal.',
    sameTitle: 'Derselbe Titel zweimal.',
    formula: 'Sieht nach einer Formel aus.',
    idLength: 'Die ID hat eine andere Länge.',
  },
  described: (count) => `${many(count, 'Projekt hat', 'Projekte haben')} eine Beschreibung oder einen Link. Im Portal ist dafür kein `
    + 'Platz: Speichern Sie sie als Datei für die Administration, deren Werkzeug „portal-describe“ sie auf die Seite bringt.',
  noText: (rows) => `Eine Beschreibung ist länger als 4.000 Zeichen oder kein reiner Text und fehlt in dieser Datei: ${rows}.`,
  noLink: (rows) => `Ein Link beginnt nicht mit https:// oder hat Zeichen, die keine Adresse hat, und fehlt in dieser Datei: ${rows}.`,
  saveDescribed: 'Beschreibungen speichern',
  codesMissing: (count) => `${many(
    count,
    'neue Person hat',
    'neue Personen haben',
  )} keinen Code zum Anmelden. Sie können hier, in Ihrem Browser, zufällige Codes machen.`,
  lecturersNamed: (count) =>
    `${many(count, 'Lehrperson steht', 'Lehrende stehen')} in dieser Datei mit Namen. Prüfen Sie, ob diese gemeint sind:`,
  useNamed: 'Diese IDs nehmen',
  ambiguous: 'Diese Namen passen auf mehrere Lehrende oder auf niemanden, der bekannt ist. Wählen Sie, wer gemeint ist, oder lassen Sie '
    + 'die Zeilen weg:',
  unknownNames: 'Diese Namen passen auf niemanden, den dieser Browser kennt. Wählen Sie, wer gemeint ist, fügen Sie zuerst die Lehrperson '
    + 'hinzu, oder lassen Sie die Zeilen weg:',
  chooseOne: (count) => (count > 1 ? `Bitte wählen: ${number(count)} passen` : 'Bitte wählen: niemand dieses Namens'),
  useChosen: 'Gewählte Lehrende nehmen',
  canBeMeant: 'Passen',
  allOthers: 'Alle anderen',
  notChanged: (rows) =>
    `Weicht von dem ab, was zuvor gesendet wurde, und wird NICHT geändert: ${rows}. Bitten Sie die Administration, es zu berichtigen.`,
  askCorrected: 'Hat die Administration das berichtigt?',
  correctedIf: (rows) => `Die Datei weicht von dem ab, was das Portal hat, soweit dieser Browser weiß: ${rows}.`,
  takeCorrected: 'Berichtigt: Datei nehmen',
  keepSent: 'Gesendetes behalten',
  leftOut: (count) => `${many(count, 'Person ist', 'Personen sind')} schon im Portal und ${count === 1
    ? 'behält den alten Code'
    : 'behalten ihre Codes'}. ${count === 1 ? 'Diese Zeile wird' : 'Diese Zeilen werden'} nicht gesendet.`,
  codesMade: (count) => `${many(count, 'Code', 'Codes')} gemacht und in einer Datei gespeichert. Noch ist nichts gesendet.`,
  codesInFile: (file) => `Die Codes stehen in der Datei ${apart(
    file,
  )}, die Ihr Browser bei den Downloads gespeichert hat. Das Portal zeigt Codes nie wieder, deshalb zählt diese Datei.`,
  codesInTab: 'Auch dieser Tab behält die Codes, bis Sie sich abmelden oder ihn schließen: auch wenn die Seite neu geladen wird oder Sie '
    + 'abgemeldet werden, weil niemand da war. Melden Sie sich an einem gemeinsam genutzten Computer selbst ab, bevor Sie gehen, und '
    + 'lassen Sie die Datei nicht dort.',
  codesNotInTab: 'Dieser Browser behält in diesem Tab nichts: Die Codes stehen nur in dieser Datei.',
  lookForFile: 'Sehen Sie jetzt nach, ob die Datei bei den Downloads ist. Erst dann können Sie senden.',
  seeFile: 'Die Datei ist da',
  fileSeen: 'Sie haben gesagt, dass die Datei da ist. Drücken Sie als Nächstes „Senden“.',
  saveAgain: 'Die Datei noch einmal speichern',
  saveText: 'Als CSV speichern',
  maybeSent: 'Als diese Zeilen gesendet wurden, kam keine Antwort: Sie können im Portal und ihre Codes gültig sein. Sie können sie ruhig '
    + 'noch einmal senden.',
  codesOfTab: 'Codes, die dieser Tab behält',
  keptCodes: {
    made: (count, roll, file) =>
      `${roll}: ${many(count, 'Zeile', 'Zeilen')} mit neuen Codes, nicht gesendet. Gespeichert als ${apart(file)}.`,
    maybe: (count, roll, file) => `${roll}: ${many(count, 'Zeile', 'Zeilen')} mit neuen Codes, vielleicht gesendet; es kam keine Antwort. `
      + `Sind sie angekommen, gelten die Codes. Gespeichert als ${apart(file)}. Machen Sie weiter und senden Sie sie noch einmal: Niemand `
      + 'kommt doppelt hinzu.',
    sent: (count, roll, file) => `${roll}: ${many(count, 'Zeile', 'Zeilen')}, gesendet. Die Codes wurden als ${apart(file)} gespeichert.`,
  },
  goOnWith: 'Mit diesen Zeilen weitermachen',
  forgetCodes: 'Diese Codes hier vergessen',
  askForget: 'Diese Codes in diesem Tab vergessen?',
  forgetSent: (file) => `Sie gelten. Wenn Sie die Datei ${apart(file)} nicht haben, kann niemand diese Codes mehr erfahren.`,
  forgetMeans: {
    made: (file) =>
      `Die neuen Codes sind nicht gesendet. Dieser Tab vergisst sie; sie stehen noch in der Datei ${apart(file)}, wenn Sie sie haben.`,
    maybe: (file) => 'Die Zeilen können im Portal sein. Dann gelten diese Codes, und dieser Tab vergisst sie: Vergewissern Sie sich, dass '
      + `Sie die Datei ${apart(file)} haben.`,
    kept: (file) => `Es kam keine Antwort: Die Zeilen können im Portal und ihre Codes gültig sein. Sie stehen in der Datei ${apart(
      file,
    )}, und dieser Tab behält sie, bis Sie sich abmelden oder ihn schließen.`,
  },
  closeMaybe: 'Diese Datei schließen, ohne zu wissen, ob sie angekommen ist?',
  closeFile: 'Schließen',
  closeWork: 'Diese Datei schließen?',
  closeWorkMeans: 'Was Sie darin berichtigt, ausgelassen oder entschieden haben, geht verloren. Die Datei selbst bleibt, wie sie ist.',
  compare: 'Mit dem Portal vergleichen',
  compareMeans: (what, known) => `Das Portal hat ${what}, dieser Browser kennt davon ${number(known)}. Vergleichen Sie zuerst: Dann sagt `
    + 'das Portal, welche dieser IDs es schon hat. Dadurch kommt nichts hinzu, und nur IDs werden gesendet.',
  comparing: (done, all) => `${number(done)} von ${many(all, 'Zeile', 'Zeilen')} verglichen.`,
  compared: (fresh, old) => `Verglichen: ${many(fresh, 'Zeile ist', 'Zeilen sind')} neu, ${number(old)} schon im Portal.`,
  final: 'Prüfen Sie, bevor Sie senden: Danach können hier keine Zeilen geändert oder entfernt werden.',
  keepsNames: (withEmails) => (withEmails
    ? 'Beim Senden merkt sich dieser Browser die Namen und E-Mail-Adressen, aber nie die Codes. Die Adressen werden nicht gesendet.'
    : 'Beim Senden merkt sich dieser Browser die Namen, aber nie die Codes.'),
  makeCodes: 'Codes machen und speichern',
  send: 'Senden',
  askAdd: (what) => `${what} hinzufügen?`,
  addedForGood: 'Sie können sie später weder entfernen noch ändern.',
  askSendAgain: (what) => `${what} noch einmal senden?`,
  allThere: 'Soweit dieser Browser weiß, sind alle schon im Portal.',
  fromFile: (file) => `Aus der Datei ${apart(file)}.`,
  doAdd: (what) => `${what} hinzufügen`,
  keepNames: 'Nur Namen lesen',
  namesKept: (count, emails) =>
    `${many(count, 'Name', 'Namen')}${emails === 0 ? '' : ` und ${addresses(emails)}`} gelesen. Es wurde nichts gesendet.`,
  discardCodes: 'Die neuen Codes verwerfen?',
  discardMeans: (count, file) => `${many(count, 'neuer Code ist', 'neue Codes sind')} noch nicht gesendet und ${count === 1
    ? 'geht'
    : 'gehen'} verloren. Löschen Sie die Datei ${apart(file)}: Ihre neuen Codes gelten nicht.`,
  discard: 'Codes verwerfen',
  keepCodes: 'Codes behalten',
  codesSaved: (file) => `Die Codes gelten jetzt. Sie stehen in der Datei ${apart(file)} bei Ihren Downloads; dieser Tab behält sie, bis `
    + 'Sie sich abmelden oder ihn schließen. Bewahren Sie die Datei sicher auf: Das Portal zeigt Codes nie wieder.',
  printSlips: 'Zettel drucken',
  slipCode: 'Code',
  slipAddress: 'Anmelden unter',
  slipSecret: 'Halten Sie Ihren Code geheim. Wer ihn hat, kann in Ihrem Namen handeln.',
  row: (row) => `Zeile ${row}`,

  // the office: what goes wrong
  lostRoll: 'Das Portal antwortet nicht, wir wissen also nicht, ob die Datei angekommen ist. Sie können sie ruhig noch einmal senden: '
    + 'Zeilen, die schon da sind, werden nicht doppelt hinzugefügt.',
  lostCodes: (file) => 'Das Portal antwortet nicht, wir wissen also nicht, ob die Zeilen angekommen sind. Wenn ja, gelten ihre Codes: '
    + `Behalten Sie die Datei ${apart(file)}. Sie können ruhig noch einmal senden: Zeilen, die schon da sind, werden nicht doppelt `
    + 'hinzugefügt.',
  sendAgain: 'Noch einmal senden',
  badRow: (roll, row, lecturer) => `${roll}: Nichts wurde hinzugefügt, denn Zeile ${row} hat einen Fehler.${lecturer === undefined
    ? ''
    : ` Keine Lehrperson hat die ID ${apart(lecturer)}.`}`,
  rollConflict: (roll, row) => `${roll}: Nichts wurde hinzugefügt. Zeile ${row} weicht von dem ab, was das Portal unter derselben ID hat, `
    + 'oder ihr Code gehört jemand anderem.',
});
