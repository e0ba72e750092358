/** The margins of a network until a message is late: the last lines of the output of canplan --details. */

const MARGIN = /^(shorter periods|more hits) (\d+)(?: per cent)? ok(?: \d+(?: per cent)? late (\S+ \S+ \S+ \S+)(?: name "([^"]*)")?)?$/;

/**
 * @typedef {object} Margin
 * @property {string} kind the first of its words in the output: shorter periods, or more hits
 * @property {number} most how many per cent, or hits, more leave all messages in time
 * @property {string} late the frame, with its DLC, of the first message that is late with one more; empty if there is no more
 * @property {string} name of that message, or empty
 */

/**
 * @param {string} answer with details
 * @returns {Margin[]} none if a message is late already
 */
export function marginsOf(answer) {
  const found = answer.split('\n').slice(-3).map((line) => MARGIN.exec(line));
  return found.flatMap((match) => {
    if (match === null) return [];
    const [, words, most, late = '', name = ''] = match;
    return [{ kind: words.split(' ')[0], most: Number(most), late, name }];
  });
}
