// Generated inputs for the calls of the module: frames, traces and documents, correct ones and ones with a few letters changed.
// The same come each time.

/** Numbers that look like chance. */
export class Chance {
  /** @param {number} seed not 0 */
  constructor(seed) {
    this.state = seed;
  }

  /** @param {number} count @returns {number} one of 0 to count - 1 */
  below(count) {
    this.state ^= this.state << 13;
    this.state ^= this.state >>> 17;
    this.state ^= this.state << 5;
    return (this.state >>> 0) % count;
  }

  /** @param {ArrayLike<T>} items @returns {T} @template T */
  of(items) {
    return items[this.below(items.length)];
  }

  /** @param {number} count */
  bytes(count) {
    return Uint8Array.from({ length: count }, () => this.below(256));
  }
}

/** The parts of a frame, mostly such as fit each other. */
export function madeParts(chance) {
  const extended = chance.below(2) === 1;
  const remote = chance.below(4) === 0;
  const dlc = chance.below(chance.below(20) === 0 ? 256 : 16);
  const count = chance.below(20) === 0 ? chance.below(20) : remote ? 0 : Math.min(dlc, 8);
  const most = chance.below(20) === 0 ? 0xffffffff : extended ? 0x20000000 : 0x800;
  return { identifier: chance.below(most), extended, remote, dlc, bytes: chance.bytes(count) };
}

/** A frame's text, by its parts, whether they fit or not. */
export function textOf({ identifier, extended, remote, dlc, bytes }) {
  const data = Buffer.from(bytes).toString('hex');
  const number = identifier.toString(16).padStart(extended ? 8 : 3, '0');
  return `${extended ? 'E' : 'S'} ${number} ${remote ? 'R' : 'D'} ${dlc}${data === '' ? '' : ` ${data}`}`;
}

/** A text with some of its letters changed, taken out or put in; digits often stay digits. */
export function changed(chance, text) {
  let now = text;
  for (let left = 1 + chance.below(3); left > 0; left -= 1) {
    const at = chance.below(now.length + 1);
    const old = now[at] ?? '';
    const letter = /\d/.test(old) && chance.below(4) > 0 ? chance.of('0123456789') : chance.of('0189afgESDR \n"[]=.,-_\t\u0000\u007f');
    now = now.slice(0, at) + chance.of(['', letter, letter, letter, letter + old]) + now.slice(at + 1);
  }
  return now;
}

/** A document with some of its lines moved or repeated, and then perhaps letters changed. */
export function changedDocument(chance, text) {
  const lines = text.split('\n');
  if (chance.below(3) === 0) {
    const [line] = lines.splice(chance.below(lines.length), 1);
    for (let left = chance.below(3); left > 0; left -= 1) lines.splice(chance.below(lines.length + 1), 0, line);
    if (chance.below(2) === 0) return lines.join('\n');
  }
  return changed(chance, lines.join('\n'));
}

/** The text of a trace: frames' levels with idle between them, some levels inverted, some spaces and line ends. */
export function madeTrace(chance, wires, count) {
  const parts = [];
  for (let left = count; left > 0; left -= 1) {
    const wire = chance.of(wires);
    const at = chance.below(wire.length);
    const turned = `${wire.slice(0, at)}${wire[at] === '0' ? '1' : '0'}${wire.slice(at + 1)}`;
    parts.push(chance.below(3) === 0 ? turned : wire, '1'.repeat(chance.below(12)), chance.of(['', '', ' ', '\n', '\r\n']));
  }
  const text = parts.join('');
  return chance.below(8) === 0 ? changed(chance, text) : text;
}
