/**
 * The places of the values of a TOML document, and the place at which a text stops being one. It only finds places and what
 * is written there: the proved code decides whether a text is a document, and what it means.
 */


/** @typedef {import('./draw.js').Inside} Inside */
const BARE = /[A-Za-z0-9_-]+/y;
const BLANKS = /[ \t]*/y;
const COMMENT = /#[^\n]*/y;
const LINE_END = /\r?\n/y;
const DATE = String.raw`\d{4}-\d\d-\d\d(?:[Tt ]\d\d:\d\d(?::\d\d(?:\.\d+)?)?(?:[Zz]|[+-]\d\d:\d\d)?)?`;
const TIME = String.raw`\d\d:\d\d(?::\d\d(?:\.\d+)?)?`;
const BASED = String.raw`0x[\dA-Fa-f]+(?:_[\dA-Fa-f]+)*|0o[0-7]+(?:_[0-7]+)*|0b[01]+(?:_[01]+)*`;
const DECIMAL = String.raw`[+-]?(?:0|[1-9](?:_?\d)*)(?:\.\d(?:_?\d)*)?(?:[eE][+-]?\d(?:_?\d)*)?`;
const LITERAL = new RegExp(String.raw`(?:true|false|[+-]?(?:inf|nan)|${DATE}|${TIME}|${BASED}|${DECIMAL})(?![\w.+-])`, 'y');
const WHOLE = /^[+-]?\d[\d_]*$|^0[xob]/;
const ESCAPE = /\\(?:[btnfre"\\]|x[\dA-Fa-f]{2}|u[\dA-Fa-f]{4}|U[\dA-Fa-f]{8})/y;
const LONG_ESCAPE = /\\(?:[btnfre"\\]|x[\dA-Fa-f]{2}|u[\dA-Fa-f]{4}|U[\dA-Fa-f]{8}|[ \t]*\r?\n\s*)/y;
const LEAST = -(2n ** 63n);
const MOST = 2n ** 63n - 1n;

/** @typedef {{table: string, name: string, offset: number}} Name of a table or of a value in it */

/**
 * @typedef {Pick<Scanner, 'places' | 'strings' | 'literals' | 'names'> & {stopped: Stopped | null}} Scanned what is found
 * @typedef {{offset: number, message: string}} Stopped where a text stops being a document, and why
 */

/** @typedef {{offset?: number, inside: Inside}} Detail the offset of what is wrong, and words about it */

/** A text stops being a document here. */
class Stop extends Error {
  /** @param {number} offset @param {string} what */
  constructor(offset, what) {
    super(what);
    this.offset = offset;
  }
}

class Scanner {
  /** @param {string} text */
  constructor(text) {
    this.text = text;
    this.at = 0;
    this.table = '';
    /** @type {Map<string, number>} how many tables each array has, by its name */
    this.arrays = new Map();
    /** @type {Map<string, number>} the offset of each value, by its path */
    this.places = new Map();
    /** @type {Map<string, string>} the strings, by their paths */
    this.strings = new Map();
    /** @type {Map<string, string>} numbers, truth values and times as they are written, by their paths */
    this.literals = new Map();
    /** @type {Name[]} in their order */
    this.names = [];
  }

  /**
   * What matches here, or nothing.
   * @param {RegExp} pattern
   */
  take(pattern) {
    pattern.lastIndex = this.at;
    const found = pattern.exec(this.text);
    if (!found) return null;
    this.at = pattern.lastIndex;
    return found[0];
  }

  /** @param {string} word */
  skip(word) {
    if (!this.text.startsWith(word, this.at)) return false;
    this.at += word.length;
    return true;
  }

  /** @param {string} word @param {string} where */
  need(word, where) { if (!this.skip(word)) this.stop(`${where}, “${word}” was expected here`); }

  /**
   * @param {string} what
   * @param {number} [offset]
   * @returns {never}
   */
  stop(what, offset = this.at) { throw new Stop(offset, what); }

  document() {
    while (this.at < this.text.length) {
      this.take(BLANKS);
      if (this.text.startsWith('[', this.at)) this.header();
      else if (!this.isLineEnd()) this.pair(this.table);
      this.lineEnd();
    }
  }

  isLineEnd() {
    return this.at >= this.text.length || this.text[this.at] === '#' || /^\r?\n/.test(this.text.slice(this.at, this.at + 2));
  }

  lineEnd() {
    this.take(BLANKS);
    this.take(COMMENT);
    if (this.at < this.text.length && this.take(LINE_END) === null) this.stop('the end of the line was expected here');
  }

  /** `[name]` or `[[name]]`. */
  header() {
    const offset = this.at;
    const isArray = this.skip('[[');
    if (!isArray) this.skip('[');
    const parts = this.key();
    this.need(isArray ? ']]' : ']', 'after the name of a table');
    const name = parts.map((part, depth) => (depth + 1 < parts.length ? this.current(part) : part)).join('.');
    if (isArray && this.places.has(name) && !this.arrays.has(name)) this.stop(`“${name}” is no array of tables`, offset);
    if (!isArray && this.places.has(name)) this.stop(`the name “${name}” is used again here`, offset);
    const count = this.arrays.get(name) ?? 0;
    if (isArray) this.arrays.set(name, count + 1);
    this.table = isArray ? `${name}[${count}]` : name;
    this.note('', parts[0], offset, name);
    this.places.set(this.table, offset);
  }

  /**
   * A table, or the last one of an array of tables.
   * @param {string} name
   */
  current(name) {
    const count = this.arrays.get(name);
    return count === undefined ? name : `${name}[${count - 1}]`;
  }

  /**
   * @param {string} table
   * @param {string} name
   * @param {number} offset
   * @param {string} path
   */
  note(table, name, offset, path) {
    this.names.push({ table, name, offset });
    if (!this.places.has(path)) this.places.set(path, offset);
  }

  /** The parts of a name. */
  key() {
    const parts = [];
    do {
      this.take(BLANKS);
      const sign = this.text[this.at];
      const part = sign === '"' || sign === "'" ? this.shortString(sign) : this.take(BARE);
      if (part === null) this.stop('a name was expected here');
      parts.push(part);
      this.take(BLANKS);
    } while (this.skip('.'));
    return parts;
  }

  /**
   * A name and its value.
   * @param {string} table
   */
  pair(table) {
    const offset = this.at;
    const parts = this.key();
    const path = [table, ...parts].filter(Boolean).join('.');
    if (this.places.has(path)) this.stop(`the name “${parts.join('.')}” is used again here`, offset);
    this.need('=', 'after a name');
    this.take(BLANKS);
    this.names.push({ table, name: parts[0], offset });
    this.value(path);
  }

  /** @param {string} path */
  value(path) {
    const offset = this.at;
    this.places.set(path, offset);
    const sign = this.text[offset];
    if (sign === '"' || sign === "'") this.strings.set(path, this.string(sign));
    else if (sign === '[') this.array(path);
    else if (sign === '{') this.inline(path);
    else this.literals.set(path, this.literal(offset));
  }

  /** @param {number} offset */
  literal(offset) {
    const word = this.take(LITERAL);
    if (word === null) this.stop('a value was expected here');
    if (!WHOLE.test(word)) return word;
    const digits = word.replaceAll('_', '');
    const number = digits.startsWith('-') ? -BigInt(digits.slice(1)) : BigInt(digits.replace('+', ''));
    if (number < LEAST || number > MOST) this.stop('this number does not fit 64 bits', offset);
    return word;
  }

  /** @param {string} sign */
  string(sign) {
    const long = sign.repeat(3);
    return this.skip(long) ? this.longString(long) : this.shortString(sign);
  }

  /** @param {string} sign */
  shortString(sign) {
    const offset = this.at;
    this.at += 1;
    /** @param {string | undefined} letter */
    const end = (letter) => letter === undefined || letter === '\n';
    while (this.text[this.at] !== sign) {
      if (end(this.text[this.at])) this.stop('this string does not end on its line', offset);
      this.letter(sign === '"', ESCAPE);
    }
    this.at += 1;
    const inside = this.text.slice(offset + 1, this.at - 1);
    return sign === '"' && inside.includes('\\') ? unescaped(inside) : inside;
  }

  /** @param {string} long three quotes */
  longString(long) {
    const offset = this.at;
    while (!this.skip(long)) {
      if (this.at >= this.text.length) this.stop('this string does not end', offset - 3);
      this.letter(long === '"""', LONG_ESCAPE);
    }
    const inside = this.text.slice(offset, this.at - 3).replace(/^\r?\n/, '');
    // up to two more quotes belong to the string
    for (let more = 0; more < 2 && this.text[this.at] === long[0]; more += 1) this.at += 1;
    return inside;
  }

  /** @param {boolean} escapes whether there are escapes @param {RegExp} pattern of these */
  letter(escapes, pattern) {
    const letter = this.text[this.at];
    if (escapes && letter === '\\') {
      if (this.take(pattern) === null) this.stop('this is no escape of TOML');
      return;
    }
    if (/[\0-\x08\x0b\x0c\x0e-\x1f\x7f]/.test(letter)) this.stop('this character is not allowed in a string');
    this.at += 1;
  }

  /** @param {string} path */
  array(path) {
    this.at += 1;
    for (let element = 0; ; element += 1) {
      this.gap();
      if (this.skip(']')) return;
      if (this.at >= this.text.length) this.stop('this array does not end', this.places.get(path));
      this.value(`${path}[${element}]`);
      this.gap();
      if (this.skip(']')) return;
      if (!this.skip(',')) this.stop('“,” or “]” was expected here');
    }
  }

  /** Spaces, line ends and comments. */
  gap() { while (this.take(/[ \t\r\n]+/y) !== null || this.take(COMMENT) !== null); }

  /** @param {string} path */
  inline(path) {
    this.at += 1;
    for (;;) {
      this.gap();
      if (this.skip('}')) return;
      this.pair(path);
      this.gap();
      if (this.skip('}')) return;
      if (!this.skip(',')) this.stop('“,” or “}” was expected here');
    }
  }
}

/** @param {string} inside of a string */
function unescaped(inside) {
  try {
    return JSON.parse(`"${inside.replace(/\\U([\dA-Fa-f]{8})/g, (_, code) => String.fromCodePoint(Number.parseInt(code, 16)))}"`);
  } catch {
    return inside;
  }
}

/**
 * What is found in a text, up to where it stops being a document.
 * @param {string} text
 * @returns {Scanned}
 */
export function scanned(text) {
  const scanner = new Scanner(text);
  let stopped = null;
  try {
    scanner.document();
  } catch (error) {
    if (!(error instanceof Stop)) throw error;
    stopped = { offset: error.offset, message: error.message };
  }
  const { places, strings, literals, names } = scanner;
  return { places, strings, literals, names, stopped };
}

/**
 * @param {string} text
 * @param {number} offset
 * @returns {{line: number, column: number}} both from 1 on
 */
function lineAndColumn(text, offset) {
  const before = text.slice(0, offset);
  const start = before.lastIndexOf('\n') + 1;
  return { line: before.split('\n').length, column: [...before.slice(start)].length + 1 };
}

/**
 * A place in a text, in words.
 * @param {string} text
 * @param {number | undefined} offset
 */
export function placeWords(text, offset) {
  if (offset === undefined) return '';
  const { line, column } = lineAndColumn(text, offset);
  return ` (line ${line}, column ${column})`;
}

/**
 * Where a text stops being a document, and why.
 * @param {Scanned} found
 * @returns {Detail}
 */
export function stopWords({ stopped }) {
  if (!stopped) return { inside: [] };
  return { offset: stopped.offset, inside: [` ${stopped.message[0].toUpperCase()}${stopped.message.slice(1)}.`] };
}

/**
 * The first name of a table that is none of its own.
 * @param {Scanned} found
 * @param {string} table
 * @param {readonly string[]} known
 * @returns {Detail}
 */
export function firstUnknown({ names }, table, known) {
  const wrong = names.find((one) => one.table === table && !known.includes(one.name));
  return wrong ? { offset: wrong.offset, inside: [` The name is “${wrong.name}”.`] } : { inside: [] };
}
