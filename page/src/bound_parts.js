/** The parts of the bound of a message: the lines below its own in the output of canplan --details. */

const MESSAGE = /^(\S+ \S+ \S+ \S+) longest /;
const LATEST = /^ {2}latest frame (\d+) /;
const TIMES = /^ {2}microseconds (.+)$/;
const KINDS = 'jitter|blocking|earlier frames|before frames|hits|wire|less periods';
const PART = new RegExp(`^ {2}(${KINDS}) (\\d+)(?: bits (\\d+))?(?: of (\\S+ \\S+ \\S+ \\S+)(?: name "([^"]*)")?)?$`);

/**
 * @typedef {object} Part of a bound
 * @property {string} kind the first of its words in the output
 * @property {number | null} count the number of frames or hits, if they are counted
 * @property {number} bits how long it is, in bit times
 * @property {string} frame of the message with higher priority, with its DLC, if it is of one; otherwise empty
 * @property {string} name of that message, or empty
 */

/**
 * @typedef {object} Makings the parts of the bound of a message
 * @property {number} latest which frame of the busy period is the latest, counted from 0
 * @property {Part[]} parts in the order of the output
 * @property {number} later how many bit times after the first frame of the busy period the latest one is released: they
 *   are subtracted
 * @property {string} times bound, deadline and slack in microseconds, as the output has them; empty if it has none
 */

/**
 * The lines below that of a message.
 * @param {string} answer
 * @param {string} frame of the message, with its DLC
 * @returns {string[]} none if it has no bound
 */
export function linesBelow(answer, frame) {
  const lines = answer.split('\n');
  const first = lines.findIndex((line) => MESSAGE.exec(line)?.[1] === frame) + 1;
  const end = lines.findIndex((line, at) => at >= first && !line.startsWith('  '));
  return lines.slice(first, end);
}

/** @param {string[]} lines below that of a message @returns {Makings} */
export function makingsOf(lines) {
  /** @type {Makings} */
  const makings = { latest: 0, parts: [], later: 0, times: '' };
  for (const line of lines) {
    const [, number] = LATEST.exec(line) ?? [];
    const [, times] = TIMES.exec(line) ?? [];
    const [, words, count, bits, frame = '', name = ''] = PART.exec(line) ?? [];
    if (number !== undefined) makings.latest = Number(number);
    else if (times !== undefined) makings.times = times;
    else if (words === 'less periods') makings.later = Number(bits);
    else if (words !== undefined) makings.parts.push(partOf(words, count, bits, frame, name));
  }
  return makings;
}

/**
 * @param {string} words what the part is
 * @param {string} count or its length, if nothing is counted
 * @param {string | undefined} bits
 * @param {string} frame
 * @param {string} name
 * @returns {Part}
 */
function partOf(words, count, bits, frame, name) {
  const [kind] = words.split(' ');
  return { kind, count: bits === undefined ? null : Number(count), bits: Number(bits ?? count), frame, name };
}
