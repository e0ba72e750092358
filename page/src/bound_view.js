/** The parts of the bound of a message: a bar of all of them in a row, and each with its number. */
import { html, svg } from './draw.js';
import { counted } from './words.js';

/** @typedef {import('./draw.js').Inside} Inside */
/** @typedef {import('./bound_parts.js').Makings} Makings */
/** @typedef {import('./bound_parts.js').Part} Part */
/** @typedef {import('./network_answer.js').Verdict & {bound: number}} Bounded the result for a message that has a bound */

/**
 * The words for a part, by its kind.
 * @type {Readonly<Record<string, (part: Part, count: number) => Inside>>}
 */
const NAMES = Object.freeze({
  jitter: () => ['Jitter, from its release until it is offered'],
  blocking: () => ['Blocking by a lower-priority frame on the bus'],
  earlier: (_, count) => [`${counted(count, 'frame')} of this message before the latest`],
  before: ({ frame, name }, count) => [
    `${counted(count, 'frame')} of `, html('span', { class: 'mono' }, [frame]), name === '' ? '' : ` ${name}`,
  ],
  hits: (_, count) => [counted(count, 'hit')],
  wire: () => ['Its own frame'],
});

/**
 * @param {Bounded} verdict
 * @param {Makings} makings
 */
export function makingsView({ frame, bound, deadline, slack }, makings) {
  const sum = bound + makings.later;
  const parts = makings.parts.filter(({ bits }) => bits > 0);
  const words = [latestWords(makings), leftWords(deadline, slack), microsecondWords(makings)];
  return html('div', { class: 'makings' }, [
    html('p', {}, [words.filter((part) => part !== '').join(' ')]),
    stackOf(parts, sum, makings.later, deadline),
    html('ul', { 'aria-label': `Parts of the bound of ${frame}` }, parts.map((part) => itemOf(part, sum))),
  ]);
}

/** @param {Makings} makings */
function latestWords({ latest, later }) {
  if (latest === 0) return 'The first frame of the busy period has the longest response time.';
  return [
    `Frame ${latest + 1} of the busy period has the longest response time.`,
    `It is released ${counted(later, 'bit time')} after the first, at the first upright line.`,
    'What is before that line is not part of its bound.',
  ].join(' ');
}

/**
 * The slack before the deadline.
 * @param {number} deadline
 * @param {number | null} slack none if it is late
 */
function leftWords(deadline, slack) {
  if (slack === null) return 'It may miss its deadline.';
  return `The slack is ${counted(slack, 'bit time')}, ${Math.floor((100 * slack) / Math.max(deadline, 1))} % of the deadline.`;
}

/**
 * Bound, deadline and slack in microseconds, if there is a bit rate.
 * @param {Makings} makings
 */
function microsecondWords({ times }) {
  return times === '' ? '' : `In microseconds: ${times.replace(/ ok$/, '').replace(/ (?=deadline|slack|late)/g, ', ')}.`;
}

/**
 * The parts in a row, with an upright line at the release of the latest frame, if others are released before it, and one at
 * its deadline.
 * @param {Part[]} parts
 * @param {number} sum of them
 * @param {number} released
 * @param {number} deadline
 */
function stackOf(parts, sum, released, deadline) {
  const whole = Math.max(sum, released + deadline, 1);
  /** @param {number} bits */
  const at = (bits) => `${Math.round((1000 * bits) / whole) / 10}%`;
  let from = 0;
  const drawn = parts.map(({ kind, bits }) => {
    from += bits;
    return svg('rect', { class: `part-${kind}`, x: at(from - bits), y: 4, width: at(bits), height: 12 });
  });
  const times = [...(released > 0 ? [{ name: 'released', time: released }] : []), { name: 'deadline', time: released + deadline }];
  const lines = times.map(({ name, time }) => svg('rect', { class: name, x: at(time), y: 0, width: 3, height: 20 }));
  return svg('svg', { class: 'bar', 'aria-hidden': 'true' }, [...drawn, ...lines]);
}

/** @param {Part} part @param {number} sum of all parts */
function itemOf(part, sum) {
  const { kind, count, bits } = part;
  const length = `: ${counted(bits, 'bit time')}, ${Math.round((100 * bits) / sum)} %`;
  return html('li', {}, [html('span', { class: `swatch part-${kind}` }), ...NAMES[kind](part, count ?? 1), length]);
}
