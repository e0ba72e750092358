/** The worst case of a message: its frames in the scenario that canplan writes, and which of them is the latest. */

/** A line of that scenario with a frame: the bit time for which it is offered, and its text without DLC and data. */
const OFFER = /^ {4}\[(\d+), "(\S+ \S+ \S+) /;

/**
 * @typedef {object} WorstCase
 * @property {string} scenario
 * @property {string} frame of the message, with its DLC
 * @property {string} name the same without it
 * @property {number | null} bound
 * @property {boolean} isHit whether the bound is one with hits, of which the scenario has none
 * @property {number} port that has the frames of the message
 * @property {number[]} offers the bit times for which they are offered
 */

/**
 * The name of a message as canplan takes it: its frame's text before the space and the DLC.
 * @param {string} frame
 */
export const nameOf = (frame) => frame.slice(0, frame.lastIndexOf(' '));

/**
 * @param {string} scenario
 * @param {import('./network_answer.js').Verdict} verdict on the message
 * @param {boolean} isHit
 * @returns {WorstCase}
 */
export function worstCaseOf(scenario, { frame, bound }, isHit) {
  /** @type {WorstCase} */
  const found = { scenario, frame, name: nameOf(frame), bound, isHit, port: 0, offers: [] };
  let port = -1;
  for (const line of scenario.split('\n')) {
    if (line === '[[port]]') port += 1;
    const [, time, name] = OFFER.exec(line) ?? [];
    if (name !== found.name) continue;
    found.port = port;
    found.offers.push(Number(time));
  }
  return found;
}

/**
 * The latest frame: one whose time from offer to end is the bound, or otherwise the first, which has waited for its jitter
 * before it was offered. If the bound is one with hits, the frame with the longest time from offer to end.
 * @param {WorstCase} worst
 * @param {number[]} ends the bit times after the frames of the message, in the order of their offers
 */
export function latestOf({ offers, bound, isHit }, ends) {
  const waits = ends.map((end, number) => end - offers[number]);
  const longest = Math.max(...waits);
  const number = isHit || longest === bound ? waits.indexOf(longest) : 0;
  return { offer: offers[number], end: ends[number], wait: waits[number] };
}

/**
 * What is shown, in words.
 * @param {WorstCase} worst
 * @param {ReturnType<typeof latestOf> | null} latest none if its times are not known
 */
export function worstCaseWords({ frame, bound, isHit, port }, latest) {
  const whole = `The worst case of ${frame} without hits`;
  if (latest === null) return `${whole}.`;
  const { offer, end, wait } = latest;
  const times = `is offered before bit time ${shown(offer)} and ends with bit time ${shown(end - 1)}`;
  return `${whole}: its latest frame, of port ${port}, ${times}, ${shown(wait)} bit times after its offer${boundWords(wait, bound, isHit)}`;
}

/**
 * How long the latest frame waits, compared with the bound of its message.
 * @param {number} wait
 * @param {number | null} bound
 * @param {boolean} isHit
 */
function boundWords(wait, bound, isHit) {
  if (bound === null) return '. With hits it has no bound.';
  if (wait === bound) return ', which is its bound.';
  return `. Its bound, ${shown(bound)}, also counts ${isHit ? 'its jitter and hits' : 'its jitter'}.`;
}

/** @param {number} time */
const shown = (time) => time.toLocaleString('en');
