// The text that a person sees in a cell of a workbook that has a number: with the zeros of its format, as a day, or as it is. No element of
// the page is touched here.

// The formats that workbooks name by number alone, as far as they matter: days, times, and text.
const DAYS = new Set([14, 15, 16, 17, 22, 27, 28, 29, 30, 31, 36, 50, 51, 52, 53, 54, 55, 56, 57, 58]);
const TIMES = new Set([18, 19, 20, 21, 45, 46, 47]);
/** @type {Record<number, string>} */
const PATTERNS = { 1: '0', 9: '0%', 10: '0.00%' };

/**
 * The pattern of a format that a workbook has: its own one by number, or one that all have.
 * @param {number} number
 * @param {Map<number, string>} own
 */
export function patternOf(number, own) {
  if (own.has(number)) return own.get(number) ?? '';
  if (DAYS.has(number)) return number === 22 ? 'yyyy-mm-dd hh:mm' : 'yyyy-mm-dd';
  return TIMES.has(number) ? 'hh:mm' : PATTERNS[number] ?? '';
}

/**
 * What a person sees of a number by a pattern, nearly: days as 2026-11-30, no separators of thousands, and no zeros behind the point.
 * @param {number} value
 * @param {string} pattern
 * @param {boolean} is1904 days are counted from 1904
 */
export function shownNumber(value, pattern, is1904 = false) {
  const [positive] = sections(pattern);
  const bare = positive.replace(/"[^"]*"|\\.|\[[^\]]*\]|_./g, '');
  if (/general|standard/i.test(bare)) return plainNumber(value);
  const [isTime, isDay] = [/[hs]/i.test(bare), /[dy]/i.test(bare)];
  if (isDay || (/m/i.test(bare) && !isTime)) return day(value, is1904, isTime);
  if (isTime) return time(value);
  if (bare.includes('%')) return `${plainNumber(value * 100)}%`;
  return isWhole(value) && /^[#0? /.()-]*0[#0? /()-]*$/.test(bare) && !bare.includes('.') ? filled(value, positive) : plainNumber(value);
}

/**
 * A pattern has up to four sections, parted by semicolons outside of quotes.
 * @param {string} pattern
 */
const sections = (pattern) => (pattern.match(/(?:"[^"]*"|\\.|[^;])+/g) ?? ['']);

/** @param {number} value */
const isWhole = (value) => Number.isSafeInteger(value) && value >= 0;

/**
 * A number without the noise of its binary form, never as 1e+21.
 * @param {number} value
 */
export function plainNumber(value) {
  const rounded = Number(value.toPrecision(15));
  return Math.abs(rounded) >= 1e21 ? BigInt(rounded).toString() : `${rounded}`;
}

/**
 * The digits stand in the pattern's places from the right; what remains stands before the first.
 * @param {number} value
 * @param {string} pattern
 */
function filled(value, pattern) {
  const signs = pattern.match(/"[^"]*"|\\.|\[[^\]]*\]|_.|\*.|[^]/g) ?? [];
  const places = signs.filter((sign) => /^[#0?]$/.test(sign)).length;
  const digits = `${value}`.padStart(places, ' ');
  let [next, text] = [digits.length - places, ''];
  let isFirst = true;
  for (const sign of signs) {
    if (/^[#0?]$/.test(sign)) {
      const own = isFirst ? digits.slice(0, next + 1).trim() : digits[next].trim();
      text += own === '' && sign === '0' ? '0' : own;
      next++;
      isFirst = false;
    } else if (!/^[[_*]/.test(sign)) text += sign.replace(/^\\|^"|"$/g, '');
  }
  return text.trim();
}

const MILLISECONDS = 86_400_000;

/**
 * @param {number} value
 * @param {boolean} is1904
 * @param {boolean} hasTime
 */
function day(value, is1904, hasTime) {
  // in the older count the day 60 is one that never was
  const days = is1904 ? value + 1462 : value < 60 ? value + 1 : value;
  const at = new Date(Date.UTC(1899, 11, 30) + Math.round(days * 86_400) * 1_000);
  if (Number.isNaN(at.getTime())) return plainNumber(value);
  return at.toISOString().slice(0, hasTime ? 16 : 10).replace('T', ' ');
}

/** @param {number} value */
const time = (value) => new Date(Math.round(value * MILLISECONDS / 60_000) * 60_000).toISOString().slice(11, 16);
