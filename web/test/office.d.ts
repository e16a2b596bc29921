// The types that the office's modules share.

// ---- the office's files

/** A row of a file that is not blank, with its number in a spreadsheet, counted from 1. */
type FileRow = { row: number; fields: string[] };

type FileTable = { encoding: string; separator: string; rows: FileRow[] };

/** A sheet of a workbook: its rows that are not blank, and the numbers of those that are hidden in the spreadsheet. */
type FileSheet = { name: string; isShown: boolean; rows: FileRow[]; hidden: number[] };

/** How a file was read: a text, or the sheets of a workbook, of which that at `at` is taken. */
type ReadAs = { encoding: string; separator: string; sheets?: FileSheet[]; at?: number };

/** Why a workbook cannot be read. */
type BookFault = 'damaged' | 'locked' | 'huge' | 'browser' | 'numbers' | 'ods' | 'xlsb' | 'archive' | 'empty';

/** What the cells of a workbook refer to: its texts, and the pattern of each style. */
type BookStyles = { texts: string[]; formats: string[]; is1904: boolean };

/** `first`: the first name, where the file has it apart. */
type Column = 'id' | 'name' | 'first' | 'code' | 'capacity' | 'lecturer' | 'title' | 'email' | 'description' | 'link';

/** Where the file has each column, counted from 0; -1 where it has it not. */
type Columns = Partial<Record<Column, number>>;

/** A row of a roll: its number in the spreadsheet, and its texts. */
type Entry = { row: number; id: string } & Partial<Record<Column, string>>;

/** What is known of those who are in the portal, by key. */
type There = Record<Roll, Map<string, Partial<Record<Column, string>>>>;

/** What the portal would refuse. `other` is the row that it differs from. */
type Fault = { row: number; column: Column; fault: string; other?: number };

/** What looks wrong. `length`: the digits that IDs have elsewhere, where zeros can be put before those of the rows. */
type Doubt = { doubt: string; rows: number[]; length?: number };

/** A doubt, whether nothing is sent before a person says that the rows are right, and whether one has. */
type AskedDoubt = Doubt & { stops: boolean; isAnswered: boolean };

/** What will happen to a row. */
type RowState = 'wrong' | 'doubtful' | 'fresh' | 'there' | 'left';

/** A row as it stands in the list of all: what will happen to it, and what is wrong with it. */
type RowLine = { entry: Entry; state: RowState; faults: Fault[]; doubts: string[] };

/** What a person does with the rows of a file. */
interface RowActions {
  mend: (row: number, column: Column, text: string) => void;
  leaveOut: (rows: number[]) => void;
  takeBack: (rows: number[]) => void;
  /** shows what is changed */
  show: () => void;
}

/** New codes that this tab keeps: `made` and not sent, `maybe` sent, `sent`. `file` is what the file of them is called. */
interface CodesRecord {
  key: number;
  roll: Roll;
  file: string;
  rows: string[][];
  state: 'made' | 'maybe' | 'sent';
}

/** Another roll that a file looks like, and why. */
type Likeness = { roll: Roll; why: 'column' | 'header' | 'people'; name?: string; count?: number; all?: number };

type Plan = ReturnType<RollFile['plan']>;

/** What the part for files is made of. */
interface RollsOf {
  portal: Portal;
  messages: Messages;
  attempt: Attempt;
  names: Names;
  /** files may be sent */
  canSend: boolean;
  /** is called after a file was taken or names were read */
  sent: () => Promise<void>;
}

/** Takes a file and the field that it came from. */
type Take = (file: File, from: HTMLElement) => unknown;

/** The file in hand as it is shown, for what sends it. */
interface HandView {
  plan: (hand: RollFile) => Plan;
  /** who of the file is in the portal is known */
  isSure: (hand: RollFile, plan: Plan) => boolean;
  /** how many rows the portal has */
  count: (roll: Roll) => number;
  isInHand: (hand: RollFile) => boolean;
  show: (hand: RollFile) => void;
  showContents: (hand: RollFile) => void;
  showKept: () => void;
  focus: (selector: string) => void;
  taken: (hand: RollFile, entries: Entry[], said: string) => void;
}

// ---- the office's steps and result

type StepName = 'openChoosing' | 'openRanking' | 'fill' | 'publish' | 'openSecond';

/** A step of the year. `body` is what is sent to /phase, and a fill has none; `isMain`: the year cannot go on without it. */
type Move = { name: StepName; body?: { phase: string; round?: number }; isMain?: boolean };

/** Who has to rank, as far as it is known; `isWhole`: nobody else has applicants. */
type Rankers = { keys: Set<string>; isWhole: boolean };

/** What is known of the year before a step. */
interface Standing {
  status: Status;
  /** those of the catalogue */
  projects: Project[];
  /** who is still to rank, in words */
  toRank: string[];
  /** what is known of those in the portal */
  lecturers: There['lecturers'];
  /** a lecturer's name */
  nameOf: (lecturer: string) => string | undefined;
  /** how many places of each project are taken */
  used: Used[];
  /** that the stage was announced to end later, if that is so */
  end?: string;
  /** whose rankings were filled in from this browser, in words */
  filled?: string[];
}

/** What stands in the way of a step. */
interface Lack {
  text: string;
  /** the step can be taken, but some would regret it */
  isRisk?: boolean;
  /** the step cannot be taken, or would be for nobody */
  ends?: boolean;
  /** the question alone tells it: it stands above on the page */
  isAskedOnly?: boolean;
  /** the file of the lecturers would tell more */
  needsLecturers?: boolean;
}

/** The places of a lecturer's projects that are free and that are taken. */
type OwnPlaces = { free: number; taken: number };

type ResultColumn = 'student' | 'project' | 'lecturer';

/** A student, and what the student has. */
type GivenRow = { student: string; name: string; project: string; title: string; lecturer: string };

/** The places of a project. */
type Used = { key: string; taken: number; all: number };

/** The result as the portal tells it, and what that says. */
type Result = { csv: string; report: string; rows: GivenRow[]; used: Used[] };

/** `noneOf`: what is said of a student without a project. */
type Shown = Result & { titleOf: (project: string) => string; nameOf: (lecturer: string) => string; noneOf: (student: string) => string };

/** What the office's tables of people and projects show. */
interface OfficeData {
  status: Status;
  /** those of the catalogue */
  projects: Project[];
  there: There;
  names: Names;
  /** how many places of each project are taken, once that is known */
  used: Used[];
  /** who has to rank, while that is done */
  rankers: Rankers | null;
}

type Sheet = { columns: TableColumn[]; rows: TableRow[] };
