// Archives as spreadsheet programs make them (.zip): their parts are read within limits, and parts are written as they are, without
// pressing them. No element of the page is touched here.

// What no ordinary workbook of a department comes near: the bytes of a part when it is unpacked, of all that are read, and how many there
// are.
const LARGEST_PART = 48_000_000;
const LARGEST_ALL = 96_000_000;
const MOST_PARTS = 5_000;

/** The archive cannot be read: `damaged`, `locked` by a password, `huge`, or by no means of this browser. */
export class BadArchive extends Error {
  /** @param {'damaged' | 'locked' | 'huge' | 'browser'} fault */
  constructor(fault) {
    super(fault);
    this.fault = fault;
  }
}

/** The parts of an archive, by their names. */
export class Archive {
  #bytes;
  #view;
  /** @type {Map<string, { at: number, size: number, sum: number, isPressed: boolean, isLocked: boolean }>} */
  #parts = new Map();
  #left = LARGEST_ALL;

  /** @param {Uint8Array} bytes */
  constructor(bytes) {
    this.#bytes = bytes;
    this.#view = new DataView(bytes.buffer, bytes.byteOffset, bytes.byteLength);
    try {
      this.#readList();
    } catch (fault) {
      throw fault instanceof BadArchive ? fault : new BadArchive('damaged');
    }
  }

  /** The list of parts stands at the end; what a part says of itself is not looked at. */
  #readList() {
    const end = this.#endAt();
    const count = this.#view.getUint16(end + 10, true);
    let at = this.#view.getUint32(end + 16, true);
    if (count > MOST_PARTS) throw new BadArchive('huge');
    for (let read = 0; read < count; read++) {
      if (this.#view.getUint32(at, true) !== 0x02014b50) throw new BadArchive('damaged');
      const [flags, method] = [this.#view.getUint16(at + 8, true), this.#view.getUint16(at + 10, true)];
      const [name, extra, note] = [28, 30, 32].map((offset) => this.#view.getUint16(at + offset, true));
      const part = {
        at: this.#view.getUint32(at + 42, true),
        size: this.#view.getUint32(at + 20, true),
        sum: this.#view.getUint32(at + 16, true),
        isPressed: method === 8,
        isLocked: (flags & 1) === 1,
      };
      if (method !== 0 && method !== 8) throw new BadArchive('damaged');
      this.#parts.set(new TextDecoder().decode(this.#bytes.subarray(at + 46, at + 46 + name)).replace(/^\//, ''), part);
      at += 46 + name + extra + note;
    }
  }

  #endAt() {
    const length = this.#bytes.length;
    for (let at = length - 22; at >= Math.max(0, length - 22 - 65_535); at--) if (this.#view.getUint32(at, true) === 0x06054b50) return at;
    throw new BadArchive('damaged');
  }

  /** @param {string} name */
  has(name) {
    return this.#parts.has(name);
  }

  /**
   * The text of a part, an empty one where there is no such part.
   * @param {string} name
   */
  async text(name) {
    const part = this.#parts.get(name);
    if (part === undefined) return '';
    if (part.isLocked) throw new BadArchive('locked');
    try {
      // the part's own head has the lengths of its name and of what else stands before its bytes
      const start = part.at + 30 + this.#view.getUint16(part.at + 26, true) + this.#view.getUint16(part.at + 28, true);
      const bytes = this.#bytes.subarray(start, start + part.size);
      if (bytes.length !== part.size) throw new BadArchive('damaged');
      const whole = part.isPressed ? await this.#unpacked(bytes) : this.#counted(bytes);
      if (checksum(whole) !== part.sum) throw new BadArchive('damaged');
      return new TextDecoder('utf-8', { fatal: true }).decode(whole);
    } catch (fault) {
      throw fault instanceof BadArchive ? fault : new BadArchive('damaged');
    }
  }

  /**
   * What is unpacked is counted as it comes, whatever size the archive tells.
   * @param {Uint8Array} bytes
   */
  async #unpacked(bytes) {
    const pieces = [];
    let size = 0;
    const reader = new Blob([bytes]).stream().pipeThrough(unpacker()).getReader();
    for (let { done, value } = await reader.read(); !done; { done, value } = await reader.read()) {
      pieces.push(this.#counted(value));
      size += value.length;
      if (size > LARGEST_PART) {
        await reader.cancel();
        throw new BadArchive('huge');
      }
    }
    const whole = new Uint8Array(size);
    pieces.reduce((at, piece) => (whole.set(piece, at), at + piece.length), 0);
    return whole;
  }

  /** @param {Uint8Array} bytes */
  #counted(bytes) {
    this.#left -= bytes.length;
    if (this.#left < 0) throw new BadArchive('huge');
    return bytes;
  }
}

/** Older browsers have none, or none of this kind. */
function unpacker() {
  try {
    return new DecompressionStream('deflate-raw');
  } catch {
    throw new BadArchive('browser');
  }
}

const TABLE = Uint32Array.from({ length: 256 }, (_, start) => {
  let value = start;
  for (let bit = 0; bit < 8; bit++) value = value & 1 ? (value >>> 1) ^ 0xedb88320 : value >>> 1;
  return value;
});

/** @param {Uint8Array} bytes */
export const checksum = (bytes) => (bytes.reduce((sum, byte) => TABLE[(sum ^ byte) & 255] ^ (sum >>> 8), -1) ^ -1) >>> 0;

// The first of January 1980: an archive tells no other time.
const DAY = 0x21;

/**
 * An archive of texts by name, each as it is.
 * @param {Record<string, string>} texts
 */
export function archived(texts) {
  const pieces = [];
  const list = [];
  let at = 0;
  for (const [name, text] of Object.entries(texts)) {
    const [called, bytes] = [name, text].map((one) => new TextEncoder().encode(one));
    // what the part's head and the list both say: names in UTF-8, nothing pressed, the day, the sum and the sizes
    const said = [
      [2, 20], [2, 0x800], [2, 0], [2, 0], [2, DAY], [4, checksum(bytes)], [4, bytes.length], [4, bytes.length], [2, called.length], [2, 0],
    ];
    list.push(numbers([[4, 0x02014b50], [2, 20], ...said, [2, 0], [2, 0], [2, 0], [4, 0], [4, at]]), called);
    const part = [numbers([[4, 0x04034b50], ...said]), called, bytes];
    pieces.push(...part);
    at += part.reduce((sum, { length }) => sum + length, 0);
  }
  const [count, size] = [list.length / 2, list.reduce((sum, { length }) => sum + length, 0)];
  return joined([...pieces, ...list, numbers([[4, 0x06054b50], [2, 0], [2, 0], [2, count], [2, count], [4, size], [4, at], [2, 0]])]);
}

/**
 * Numbers in two or four bytes, the lowest first.
 * @param {number[][]} sized
 */
const numbers = (sized) =>
  Uint8Array.from(sized.flatMap(([size, value]) => Array.from({ length: size }, (_, byte) => (value >>> (8 * byte)) & 255)));

/** @param {Uint8Array[]} pieces */
function joined(pieces) {
  const whole = new Uint8Array(pieces.reduce((sum, { length }) => sum + length, 0));
  pieces.reduce((at, piece) => (whole.set(piece, at), at + piece.length), 0);
  return whole;
}
