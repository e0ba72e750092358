/** The names of fields, faults and answers, and what a reader may want to know about each. */
import { ANSWER } from './core.js';

/**
 * @typedef {object} FieldWords
 * @property {string} short for a label that has little room
 * @property {string} name
 * @property {string} rule
 */

/** @type {ReadonlyArray<FieldWords>} by the numbers of can_page's `specs/Codes.antt` */
export const FIELDS = Object.freeze([
  { short: 'SOF', name: 'Start of frame', rule: 'One dominant level begins each frame.' },
  { short: 'ID', name: 'Identifier', rule: 'What the frame is about, and how urgent it is: highest bit first, and the lowest number wins arbitration.' },
  { short: 'R?', name: 'RTR or SRR', rule: 'The levels end before the IDE bit, which decides between the two.' },
  { short: 'RTR', name: 'Remote transmission request', rule: 'Dominant in a data frame, recessive in a remote frame.' },
  {
    short: 'SRR', name: 'Substitute remote request',
    rule: 'In an extended frame it is at the place of the RTR bit of a standard frame. It is sent recessive, and accepted at either value.',
  },
  { short: 'IDE', name: 'Identifier extension', rule: 'Dominant in a standard frame, recessive in an extended one, in which 18 more identifier bits follow.' },
  { short: 'r1', name: 'Reserved bit r1', rule: 'Sent dominant, and accepted at either value.' },
  { short: 'r0', name: 'Reserved bit r0', rule: 'Sent dominant, and accepted at either value.' },
  { short: 'DLC', name: 'Data length code', rule: 'Four bits, highest first: the number of data bytes. 9 to 15 mean eight. A remote frame has none.' },
  { short: 'Data', name: 'Data', rule: 'The data bytes, each with its highest bit first.' },
  { short: 'CRC', name: 'CRC sequence', rule: 'Fifteen bits with which a receiver checks the levels before them. Stuff bits are not included.' },
  { short: 'DEL', name: 'CRC delimiter', rule: 'Recessive. From here on there are no stuff bits.' },
  { short: 'ACK', name: 'ACK slot', rule: 'The transmitter sends it recessive; a receiver with a matching CRC sequence drives it dominant.' },
  { short: 'DEL', name: 'ACK delimiter', rule: 'Recessive.' },
  { short: 'EOF', name: 'End of frame', rule: 'Seven recessive levels. A receiver accepts the last one at either value.' },
]);

/** The numbers of fields that have parts. */
export const FIELD = Object.freeze({ identifier: 1, data: 9 });

export const STUFF_RULE = 'Stuff bit: after five equal levels the transmitter inserts one of the opposite value, and receivers remove it.';

/**
 * @typedef {object} FaultWords
 * @property {string} name
 * @property {string} expected
 */

/** @type {Readonly<Record<string, FaultWords>>} faults on the bus, by their codes */
export const FAULTS = Object.freeze({
  C1: { name: 'Frame cut short', expected: 'The levels end within a frame: more were expected.' },
  C2: { name: 'No start of frame', expected: 'A dominant level was expected.' },
  C3: { name: 'Stuff error', expected: 'After five equal levels a stuff bit of the other value was expected, and this is the sixth equal one.' },
  C4: { name: 'CRC error', expected: 'The levels before it have another CRC sequence. This is its last place.' },
  C5: { name: 'Form error', expected: 'A recessive level was expected: this part of a frame is always recessive.' },
});

/** @type {Readonly<Record<number, {code: string, wrong: string, expected: string}>>} faults of a frame text */
export const TEXT_FAULTS = Object.freeze({
  [ANSWER.letter]: { code: 'X1', wrong: 'the kind letter', expected: 'S (standard) or E (extended), and a space, were expected' },
  [ANSWER.identifier]: {
    code: 'X2', wrong: 'the identifier',
    expected: 'three lower-case hexadecimal digits up to 7ff were expected after S, or eight up to 1fffffff after E, and a space',
  },
  [ANSWER.direction]: { code: 'X3', wrong: 'the direction', expected: 'D (data) or R (remote), and a space, were expected' },
  [ANSWER.dlc]: { code: 'X4', wrong: 'the DLC', expected: 'a number from 0 to 15 with no leading zero was expected, and a space if data follow' },
  [ANSWER.data]: {
    code: 'X5', wrong: 'the data',
    expected: 'two lower-case hexadecimal digits for each byte were expected, and the number of bytes of the DLC (9 to 15 mean eight)',
  },
  [ANSWER.trailing]: { code: 'X6', wrong: 'what follows the frame', expected: 'the text was expected to end here' },
});

/** @type {Readonly<Record<number, string>>} why parts make no frame */
export const PART_FAULTS = Object.freeze({
  [ANSWER.badIdentifier]: 'The identifier is too high: the highest standard one is 7ff, the highest extended one 1fffffff.',
  [ANSWER.badDlc]: 'The DLC must be 0 to 15.',
  [ANSWER.badCount]: 'The number of data bytes does not match the DLC: 9 to 15 mean eight, and a remote frame has none.',
});

/** @type {Readonly<Record<string, string>>} the words after a frame in the output for a trace */
export const HEARD_WORDS = Object.freeze({
  ack: 'acknowledged', noack: 'not acknowledged', srr0: 'SRR was dominant', r1: 'r1 was recessive', r0: 'r0 was recessive',
  eof0: 'the last level of the end of frame was dominant',
});

/**
 * @param {number} level
 * @returns {string}
 */
export function levelName(level) {
  return level === 0 ? 'dominant' : 'recessive';
}

/**
 * @param {number} count
 * @param {string} one
 * @param {string} [more]
 * @returns {string} a count with its noun
 */
export function counted(count, one, more = `${one}s`) {
  return `${count.toLocaleString('en')} ${count === 1 ? one : more}`;
}
