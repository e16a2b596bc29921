// The types that the page's modules share. tsc reads them beside the modules (tsconfig.json); no browser does.

type Portal = import('../requests.js').Portal;
type Refused = import('../requests.js').Refused;
type Messages = import('../frame.js').Messages;
type Known = import('../known.js').Known;
type Names = import('../names.js').Names;
type RollFile = import('../rollfile.js').RollFile;

/** Texts that not everybody needs, or not at once: of a role, of the office's files, of an order made elsewhere, and of the answers. */
type TextPart = Role | 'rolls' | 'order' | 'answers';

/** Unpacks what archives press; the types of Debian's tsc do not have it yet. */
declare var DecompressionStream: { new (format: 'deflate-raw'): GenericTransformStream };

/** Every text of the page. */
type Words = typeof import('../words-en.js').words
  & typeof import('../words-en-student.js').words
  & typeof import('../words-en-lecturer.js').words
  & typeof import('../words-en-office.js').words
  & typeof import('../words-en-rolls.js').words
  & typeof import('../words-en-order.js').words
  & typeof import('../words-en-answers.js').words;

// ---- what the portal replies: docs/FORMATS.md

type Phase = 'setup' | 'choosing' | 'ranking' | 'published';
type Role = 'student' | 'lecturer' | 'office';
type Roll = 'lecturers' | 'projects' | 'students';

/** Where the year stands. The first round is not told. */
type Step = { phase: Phase; round?: number };

/** Who is signed in. The office has no key and no name; a lecturer alone has a capacity. */
type Me = Step & { role: Role; key: string; name: string; capacity: number };

/** A project of the catalogue. */
type Project = { id: string; title: string; lecturer: string; lecturer_name: string; capacity: number };

type Person = { key: string; name: string };

/** Who chose a project. */
type Applied = { id: string; applicants: Person[] };

/** Who has a project. */
type Placed = { id: string; students: Person[] };

type Status = Step & Record<Roll, number> & { assigned: number; without_list: string[]; still_to_rank: string[]; unassigned: string[] };

type RefusalBody = { error: string; at?: number; fault?: string; row?: number; lecturers?: string[] };

// ---- elements

type Listener = (event: any) => unknown;

/** What an element has. */
interface Has {
  text?: string | number;
  /** listeners by event */
  on?: Record<string, Listener>;
  /** all else is an attribute; true: without a value, false: not at all */
  [attribute: string]: string | number | boolean | undefined | Record<string, Listener>;
}

// ---- the frame, messages and requests

/** A request of the page. */
type Call = { method: string; body?: string };

type LinkName = 'contact' | 'privacy' | 'accessibility';

/** The end of a stage, and how many minutes the department's clocks are ahead of UTC then. */
type End = { at: Date; offset: number };

/** What department.json says. `names`: the name by language; `until`: the end of a stage, by the stage's name. */
type Department = { name: string; names?: Record<string, string>; languages?: string[]; until?: Record<string, End> }
  & Partial<Record<LinkName, string>>;

/** A text with a count in it. */
type Counted = (count: number) => string;

/** Texts by name: each is whole, or made of parts. */
interface Wording {
  [name: string]: string | string[] | Wording | ((...parts: any[]) => string);
}

/** Texts by role and phase. */
type ByRole = Record<string, Partial<Record<string, string>>>;

/** Where a skip link leads, and what it is called. */
type Aim = { text: string; aim: () => HTMLElement | null };

/** What stands with a warning. */
interface Warning {
  /** a line of a file */
  line?: string;
  /** what stands before it */
  lead?: string;
  /** a button */
  again?: string;
  /** what that does */
  press?: () => unknown;
}

type Told = { text: string } & Warning;

interface Question {
  title: string;
  /** What would be lost or could not be undone: the bold line. With a risk `stay` is the blue button, else `verb`. */
  risk?: string;
  /** what else is to be known; empty ones are left out */
  lines?: string[];
  /** the button that does it, by what it does */
  verb: string;
  /** the button that leaves all as it is. It has the focus first; the Escape key does the same. */
  stay: string;
}

/** How something is attempted. */
interface How {
  /** puts a refusal in words */
  refused?: (fault: Refused) => Told;
  /** what is said where no answer came */
  lost?: () => Told;
  /** it is the second half of what was begun: what was refused meanwhile stays */
  goesOn?: boolean;
  /** the page says itself that it needs a moment */
  isLoading?: boolean;
}

type Attempt = (action: () => Promise<unknown>, how?: How) => Promise<boolean>;

/** Tells a person something on the page that is shown next. */
type Tell = (messages: Messages, me: Me) => void;

/** What the page of a role is made of. */
interface PageOf {
  portal: Portal;
  me: Me;
  messages: Messages;
  attempt: Attempt;
  /** shows the page anew */
  reload: (tell?: Tell) => Promise<void>;
  known: Known;
  /** the end of a stage, by the stage's name */
  until: Record<string, End>;
}

/** The page of a role. */
interface Content {
  element: HTMLElement;
  /** whether something would be lost by leaving */
  isChanged: () => boolean;
  /** what is not saved stands there again when the page is shown anew in this tab */
  isKept?: () => boolean;
  /** what is said to this person of the year */
  year?: { now?: string; next?: string; saves?: boolean };
  /** what leaving would mean, where that is another thing than losing what is not saved */
  risk?: () => string | undefined;
  /** what stays in view */
  bar?: HTMLElement;
  /** where the skip links lead */
  aims?: Aim[];
}

// ---- tables

interface TableColumn {
  title: string;
  /** the table can be sorted by it */
  isSorted?: boolean;
  /** a class for its cells */
  style?: string;
}

interface TableRow {
  /** a node for each column; the first one is the row's header */
  cells: Node[];
  /** what each column is sorted and found by */
  texts: string[];
  /** what else is found */
  more?: string;
  /** by which `keep` knows the row */
  key?: string;
}

/** A row as it was made. */
type TableLine = { line: HTMLTableRowElement; texts: string[]; found: string; key: string };

// ---- students and lecturers

/** What is known of a project. A field that is no text is left out. */
type KnownProject = { id: string } & Partial<Record<KnownField, string>>;

type KnownField = 'title' | 'lecturer' | 'lecturer_name' | 'description' | 'link';

/** The rolls of people, whose names are kept. */
type PeopleRoll = 'lecturers' | 'students';

/** What this browser keeps of a person. `isThere`: the portal has taken the row. */
type KeptPerson = { name: string; capacity?: string; email?: string; isThere: boolean };

/** Where a list is made beside the catalogue. */
interface Making {
  /** puts a project on the list */
  add: (key: string) => void;
  /** takes it off again */
  take: (key: string) => void;
  /** says why nothing can be added */
  full: () => void;
  /** where the skip links lead */
  aims: Aim[];
}

/** Shows the position of a project on the list, or the button. */
type Adder = (place: number | undefined, isFull: boolean) => void;

/** What the portal tells a student. */
interface StudentState {
  /** of the catalogue */
  projects: Project[];
  /** the own list of this round */
  saved: string[];
  /** the own project, where there is a result */
  own: string | null;
}

/** What the portal tells a lecturer. */
interface LecturerState {
  /** the own projects of the catalogue; in a second round those alone that take part in it */
  open: Map<string, Project>;
  /** where there is a result */
  placed: Placed[];
  /** where it is told */
  applied: Applied[] | null;
  /** the own ranking of this round */
  saved: string[] | null;
}

/** An applicant, with the keys of the own projects that this person chose. */
type Applicant = Person & { projects: string[] };

/** Finds who is meant by a text. */
type Finder = (text: string) => string | null | undefined;

/** By the ID, by an ID without its zeros, and by the name. */
type Finders = { keyOf: Finder; bareOf: Finder; personOf: Finder };

/** A line of an order: who is meant, its fields, and the number before it, if the lines have such numbers. */
type OrderLine = { keys: string[]; fields: string[]; front: number | null };

/** A column of numbers, with what it is called and its number in each line. */
type NumberColumn = { at: number; head: string; numbers: (number | undefined)[] };

/** What a text tells of an order. `crossed`: whose names stand beside another ID; `others`: what of it is not understood. */
type OrderRead = { lines: OrderLine[]; crossed: string[]; others: string[]; columns: NumberColumn[] };

/** What decides an order: a column, perhaps with the largest number first, or the lines as they stand. */
type OrderBy = { column: NumberColumn | null; isFalling: boolean };

/** People who share a number. */
type Tie = { number: number; keys: string[] };

/** An order: each person once; who stood there more than once, who has no number, and who shares one. */
type OrderMade = { keys: string[]; twice: string[]; unranked: string[]; ties: Tie[] };

/** A list that is put in order. */
interface ListOf {
  /** the list's name */
  label: string;
  /** those that it begins with */
  keys: string[];
  /** a node for a key */
  show: (key: string) => Node;
  /** how a key is spoken of */
  name: (key: string) => string;
  /** called after each change, with the list before it */
  changed: (before: string[]) => void;
  /** tells screen readers what was done */
  announce: (text: string) => void;
  /** nobody can be removed */
  isWhole?: boolean;
  /** a link out of the list, beside the entry that has the focus */
  skip?: Aim;
}

/** The texts of a list or ranking. */
interface ListTexts {
  label: string;
  save: string;
  show: string;
  /** leads from an entry to what saves the list */
  skip: string;
  /** where nothing is saved */
  none?: string;
  /** which of two versions stays */
  which: string;
  saved: (count: number) => string;
  count: (count: number) => string;
  missing: (count: number) => string;
}

/** A list that is edited and saved. */
interface EditorOf {
  page: PageOf;
  /** where the list is saved */
  path: '/choices' | '/ranking';
  /** what has it in a reply */
  member: 'projects' | 'students';
  saved: string[] | null;
  texts: ListTexts;
  /** a node for a key */
  show: (key: string) => Node;
  /** what a key is called */
  name: (key: string) => string;
  /** whether a key may stand on the list now */
  isThere: (key: string) => boolean;
  /** how many have to be added before it can be saved */
  missing: (keys: string[]) => number;
  /** called after each change */
  changed: (keys: string[]) => void;
  /** what it begins with where nothing is saved */
  first?: string[];
  /** where a narrow page leads from the list, and what that is called */
  back?: { short: string; text: string; aim: () => HTMLElement | null };
  /** called when it is saved */
  stored?: () => void;
  /** brings into sight what was put on the list or taken off it, where it is chosen from */
  look?: (key: string) => void;
}

/** A list that is not saved, and what was saved when it was begun. */
type Draft = { base: string[]; keys: string[] };
