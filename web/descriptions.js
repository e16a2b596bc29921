// Descriptions and links that stand in the projects file. The portal has no place for them: they are handed out as the file that the
// administrator's tool portal-describe takes, so that nobody writes them twice. No element of the page is touched here.

const HEADER = ['id', 'title', 'lecturer', 'description', 'link'];
// What the tool refuses.
const LONGEST = 4_000;
const LINK = /^https:\/\/[\w.-]+(:\d+)?([/?#][^\s"<>\\]*)?$/;
const CONTROL = /[\0-\x08\x0b-\x1f\x7f]/;

/** @param {string} text */
const isText = (text) => [...text].length <= LONGEST && !CONTROL.test(text);

/**
 * The rows of that file, its header first, and the rows of which a description or a link does not fit in it.
 * @param {Entry[]} entries
 * @returns {{ rows: string[][], noText: number[], noLink: number[] }}
 */
export function describedIn(entries) {
  const all = new Map(entries.map((entry) =>
    [entry.id, { ...entry, description: (entry.description ?? '').replace(/\r\n?/g, '\n'), link: entry.link ?? '' }]));
  const noText = [...all.values()].filter(({ description }) => !isText(description));
  const noLink = [...all.values()].filter(({ link }) => link !== '' && !LINK.test(link));
  for (const entry of noText) entry.description = '';
  for (const entry of noLink) entry.link = '';
  const told = [...all.values()].filter(({ id, description, link }) => id !== '' && `${description}${link}` !== '');
  const rowsOf = (/** @type {Entry[]} */ some) => some.map(({ row }) => row);
  return {
    rows: [HEADER, ...told.map((entry) => HEADER.map((column) => entry[/** @type {Column} */ (column)] ?? ''))],
    noText: rowsOf(noText),
    noLink: rowsOf(noLink),
  };
}
