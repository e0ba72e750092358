/** What the fields of a network are called, and what its answer says in words. */
import { ANSWER } from './core.js';

/** The numbers of the fields about which more is shown. */
export const WRONG = Object.freeze({ toml: 0, key: 1, errorKey: 5, messageKey: 10, frame: 11 });

/** The first number of a field of a message. */
const IN_MESSAGE = 9;

/** By the numbers of fields, as canplan names them. */
const NAMES = Object.freeze([
  'toml', 'key', 'version', 'rate', 'errors', 'errors.key', 'errors.burst', 'errors.spacing', 'message',
  '', '.key', '.frame', '.dlc', '.period', '.jitter', '.deadline', '', '.name', '.name',
]);

/**
 * @param {import('./core.js').WrongField} wrong
 * @returns {string} the field as canplan names it
 */
export function wrongName({ field, number }) {
  return field < IN_MESSAGE ? NAMES[field] : `message[${number}]${NAMES[field]}`;
}

/**
 * For how long hits are tolerated, from the last line of an output.
 * @param {string} line
 */
export function borneWords(line) {
  if (line === '') return 'No hits: the document has no errors.';
  const [, within] = / within (\d+)$/.exec(line) ?? [];
  if (within !== undefined) {
    const most = 'in that time there are at most 15, so no port becomes error passive.';
    return `Hits are tolerated for ${Number(within).toLocaleString('en')} bit times: ${most}`;
  }
  return line.endsWith('for ever')
    ? 'Hits are always tolerated: there are at most 15 in all, so no port becomes error passive.'
    : 'Hits may not be tolerated: more than 15 may come at once, so a port may become error passive.';
}

/**
 * Why the worst case of a message is not shown.
 * @param {number | undefined} answer none if there was no memory for one
 */
export function worstCaseRefusal(answer) {
  if (answer === ANSWER.noMessage) return 'The network has no such message any more.';
  if (answer !== ANSWER.tooLong) return 'The worst case needs more memory than this page has. The program canplan has no such limit.';
  const busy = 'the bus is busy with this message and those of higher priority';
  return `No scenario is long enough: ${busy} for more than 999,999 bit times, or forever.`;
}
