/** The output for a network, line by line. */

const MESSAGE = /^(.+) longest (\d+) blocking (\d+) bound (\d+|none) deadline (\d+) (?:slack (\d+) ok|late)(?: name "([^"]*)")?$/;
const LAST = /^load (\S+) late (\d+) of (\d+)$/;

/**
 * @typedef {object} Verdict the result for a message, in bit times
 * @property {string} frame with its DLC
 * @property {number} longest
 * @property {number} blocking
 * @property {number | null} bound none if there is none
 * @property {number} deadline
 * @property {number | null} slack none if it is late
 * @property {string} name empty if the message has none
 */

/**
 * @typedef {object} Answer
 * @property {string} text all of it
 * @property {Verdict[]} verdicts in the order of priority
 * @property {string} load
 * @property {string} borne the line that says for how long hits are tolerated, or none
 */

/**
 * @param {Uint8Array} bytes
 * @returns {Answer}
 */
export function answerOf(bytes) {
  const text = new TextDecoder().decode(bytes);
  const lines = text.split('\n');
  const end = lines.findIndex((line) => LAST.test(line));
  return { text, verdicts: lines.slice(1, end).map(verdictOf), load: partsOf(LAST, lines[end])[1], borne: lines[end + 1] };
}

/** @param {string} line @returns {Verdict} */
function verdictOf(line) {
  const [, frame, longest, blocking, bound, deadline, slack, name = ''] = partsOf(MESSAGE, line);
  return {
    frame, longest: Number(longest), blocking: Number(blocking), bound: bound === 'none' ? null : Number(bound),
    deadline: Number(deadline), slack: slack === undefined ? null : Number(slack), name,
  };
}

/** @param {RegExp} pattern @param {string} line */
function partsOf(pattern, line) {
  const found = pattern.exec(line);
  if (!found) throw new Error(`this line of the output is not understood: ${line}`);
  return found;
}
