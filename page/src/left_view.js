/** The margins of a network: how much it tolerates until a message is late, in words and as bars. */
import { html, svg } from './draw.js';
import { counted } from './words.js';

/** @typedef {import('./left.js').Margin} Margin */

/** The place in a bar of what is tolerated at most, in hundredths of its width; in bars of messages the deadline is there. */
const TOLERATED = 48;

/**
 * A kind of margin: how much more is tolerated; that amount in short; and which part of what is tolerated the network has
 * now, with this many hits.
 * @typedef {object} Kind
 * @property {(most: number) => string} words
 * @property {(most: number) => string} more
 * @property {(most: number, burst: number) => number} part
 */

/** @type {Readonly<Record<string, Kind>>} by the first of its words in the output */
const KINDS = Object.freeze({
  shorter: {
    words: (most) => (most === 0 ? 'Periods may not be 1 % shorter.' : `All periods may be ${most} % shorter.`),
    more: (most) => `${most} %`, part: (most) => (100 - most) / 100,
  },
  more: {
    words: (most) => (most === 0 ? 'No more hits may come at once.' : `${counted(most, 'hit')} more may come at once.`),
    more: (most) => counted(most, 'hit'), part: (most, burst) => (burst + most === 0 ? 1 : burst / (burst + most)),
  },
});

/**
 * Each margin as an item, with a bar: the network as it is, against the upright line, which is what it tolerates at most.
 * @param {Margin[]} margins
 * @param {number} burst of its hits
 */
export function leftItems(margins, burst) {
  return margins.map(({ kind, most, late, name }) => {
    const { words, more, part } = KINDS[kind];
    const first = late === '' ? [] : [` With ${more(most + 1)} `, html('span', { class: 'mono' }, [late]), name === '' ? '' : ` ${name}`, ' is late.'];
    return html('li', {}, [barOf(part(most, burst)), html('span', {}, [words(most), ...first])]);
  });
}

/** @param {number} part */
function barOf(part) {
  /** @param {string} name @param {number} hundredths */
  const bar = (name, hundredths) => svg('rect', { class: name, x: 0, y: 4, width: `${Math.round(hundredths * 10) / 10}%`, height: 12 });
  const line = svg('rect', { class: 'deadline', x: `${TOLERATED}%`, y: 0, width: 3, height: 20 });
  return svg('svg', { class: 'bar', 'aria-hidden': 'true' }, [bar('track', TOLERATED), bar('bound', part * TOLERATED), line]);
}
