/** What the picture of a bus is drawn of: levels as lines, bands, fields, arrows and counters, each as far as it is visible. */
import { svg } from './draw.js';
import { DOES, firstFrom } from './bus_times.js';
import { DOES_WORDS } from './bus_words.js';
import { bytesIn, hatching, spansOf, valueOf } from './picture.js';
import { FIELDS } from './words.js';

/** @typedef {import('./core.js').Marks} Marks */
/** @typedef {import('./bus_times.js').PortTimes} PortTimes */
/** @typedef {import('./bus_times.js').ReceivedFrame} ReceivedFrame */
/** @typedef {import('./picture.js').Span} Span */

/** Levels and fields are drawn if a level has at least this many pixels. */
const LEVEL_ROOM = 3;

/** The heights of a band of fields and of their levels below it, how far lines of a hatch are apart, and the width of a letter. */
const FIELD_BAND = 16;
const LEVEL_BAND = 22;
const HATCH = 5;
const LETTER = 7.3;

/** What is in view: the bit times from one on, and the pixels that they have. */
export class Scale {
  /**
   * @param {number} from a bit time
   * @param {number} span in bit times
   * @param {number} width in pixels
   */
  constructor(from, span, width) {
    this.from = from;
    this.span = span;
    this.width = width;
  }

  get end() { return this.from + this.span; }

  /** Whether there is space for single levels. */
  get isNear() { return this.width / this.span >= LEVEL_ROOM; }

  /** @param {number} time */
  x(time) { return Math.round(((time - this.from) / this.span) * this.width * 10) / 10; }

  /**
   * The bit time at a pixel.
   * @param {number} x
   */
  timeAt(x) { return this.from + (x / this.width) * this.span; }

  /**
   * A bit time's left end, or that of the view.
   * @param {number} time
   */
  left(time) { return Math.max(this.x(time), -2); }

  /** @param {number} time */
  right(time) { return Math.min(this.x(time), this.width + 2); }
}

/**
 * A line over the levels in view; if there is no space for them, the pixels with a dominant one.
 * @param {Scale} scale
 * @param {number} count of levels
 * @param {(time: number) => number} level
 * @param {number} high
 * @param {number} low
 * @param {Uint32Array} [dominant] the number of dominant levels before each, if the view may be that far away
 */
export function wave(scale, count, level, high, low, dominant = new Uint32Array()) {
  const start = Math.floor(scale.from);
  const end = Math.min(Math.ceil(scale.end), count);
  if (start >= end) return svg('path', { class: 'wave', d: '' });
  if (!scale.isNear) return svg('path', { class: 'dense', d: dense(scale, dominant, end, high, low) });
  let path = `M${scale.x(start)} ${level(start) === 0 ? low : high}`;
  for (let time = start; time < end; time += 1) path += `V${level(time) === 0 ? low : high}H${scale.x(time + 1)}`;
  return svg('path', { class: 'wave', d: path });
}

/**
 * @param {Scale} scale
 * @param {Uint32Array} dominant
 * @param {number} end
 * @param {number} high
 * @param {number} low
 */
function dense(scale, dominant, end, high, low) {
  let path = '';
  for (let pixel = 0; pixel < scale.width; pixel += 1) {
    const first = Math.floor(scale.timeAt(pixel));
    const last = Math.max(Math.ceil(scale.timeAt(pixel + 1)), first + 1);
    const any = dominant[Math.min(last, end)] > dominant[Math.min(first, end)];
    path += any ? `M${pixel} ${low}v${high - low}h1v${low - high}z` : `M${pixel} ${high}h1v1h-1z`;
  }
  return path;
}

/**
 * What a port does: a path for each kind, and a word if there is space.
 * @param {Scale} scale
 * @param {PortTimes} port
 * @param {number} y
 * @param {number} height
 */
export function bands(scale, port, y, height) {
  const paths = DOES.map(() => '');
  const words = [];
  const first = Math.max(0, firstFrom(port.starts, Math.floor(scale.from) + 1) - 1);
  let drawn = -1;
  for (let run = first; run < port.starts.length && port.starts[run] < scale.end; run += 1) {
    const left = scale.left(port.starts[run]);
    const right = scale.right(run + 1 < port.starts.length ? port.starts[run + 1] : port.count);
    if (right - drawn < 1) {
      // those that end in the same pixel are left out together
      run = Math.max(run, firstFrom(port.starts, Math.floor(scale.timeAt(drawn + 1))) - 2);
      continue;
    }
    drawn = right;
    const width = Math.max(right - left, 1);
    paths[port.kinds[run]] += `M${left} ${y}h${width}v${height}h-${width}z`;
    const does = DOES[port.kinds[run]];
    const { short } = DOES_WORDS[does];
    if (short.length * LETTER + 6 >= width) continue;
    words.push(svg('text', { class: 'found', x: Math.max(left, 0) + 4, y: y + height - 6, 'data-does': does }, [short]));
  }
  return [...paths.flatMap((d, kind) => (d ? [svg('path', { class: `does does-${DOES[kind]}`, d })] : [])), ...words];
}

/**
 * The fields of the frames in view as the port receives them, if there is space for levels.
 * @param {Scale} scale
 * @param {PortTimes} port
 * @param {number} y
 * @param {(levels: Uint8Array) => Marks} marks
 */
export function fieldBands(scale, port, y, marks) {
  if (!scale.isNear) return [];
  const drawn = [];
  for (let run = Math.max(0, port.runAt(Math.floor(scale.from))); run < port.starts.length && port.starts[run] < scale.end; run += 1) {
    const frame = port.frameAt(port.starts[run]);
    if (!frame) continue;
    drawn.push(...frameBands(scale, frame[0], heard(port, frame, marks), y));
    while (run + 1 < port.starts.length && port.starts[run + 1] < frame[1]) run += 1;
  }
  return drawn;
}

/**
 * What the levels of a frame are, asked of the proved code once they are drawn.
 * @param {PortTimes} port
 * @param {[number, number]} frame its start and the bit time after it
 * @param {(levels: Uint8Array) => Marks} marks
 * @returns {ReceivedFrame}
 */
function heard(port, [start, end], marks) {
  const known = port.frames.get(start);
  if (known) return known;
  const levels = port.seen(start, end);
  const frame = { levels, ...marks(levels) };
  port.frames.set(start, frame);
  return frame;
}

/**
 * @param {Scale} scale
 * @param {number} start that of the frame
 * @param {ReceivedFrame} wire
 * @param {number} y
 */
function frameBands(scale, start, wire, y) {
  const drawn = [];
  for (const span of spansOf(wire.fields)) {
    const left = scale.left(start + span.from);
    const right = scale.right(start + span.to);
    if (right <= left) continue;
    const word = labelOf(wire, span, right - left);
    /** @param {string} name @param {number} top @param {number} height */
    const box = (name, top, height) => {
      return svg('rect', { class: `${name} field-${span.field}`, x: left, y: top, width: right - left, height });
    };
    /** @type {SVGElement[]} */
    const inside = [
      box('field', y, FIELD_BAND), box('field pale', y + FIELD_BAND, LEVEL_BAND),
      ...stuffHatches(scale, start, wire, span, y + FIELD_BAND),
    ];
    if (word) inside.push(svg('text', { class: 'label', x: Math.max(left, 0) + 3, y: y + 12 }, [word]));
    drawn.push(svg('g', { class: 'field-band', 'data-field': span.field }, inside));
  }
  return [...drawn, ...byteEnds(scale, start, wire, y + FIELD_BAND)];
}

/**
 * The name of a field with its number, in the longest form that fits; none if none does.
 * @param {ReceivedFrame} wire
 * @param {Span} span
 * @param {number} room in pixels
 */
function labelOf(wire, span, room) {
  const { name, short } = FIELDS[span.field];
  const number = valueOf(wire, span);
  const numbered = number ? [`${name} ${number}`, `${short} ${number}`] : [];
  return [...numbered, name, short].find((label) => label.length * LETTER + 5 <= room);
}

/**
 * @param {Scale} scale
 * @param {number} start that of the frame
 * @param {ReceivedFrame} wire
 * @param {Span} span
 * @param {number} y
 */
function stuffHatches(scale, start, { stuffed }, { from, to }, y) {
  let path = '';
  const times = [];
  for (let index = stuffed.indexOf(1, from); index >= 0 && index < to; index = stuffed.indexOf(1, index + 1)) {
    const left = scale.x(start + index);
    const right = scale.x(start + index + 1);
    if (right < 0 || left > scale.width) continue;
    times.push(start + index);
    path += hatching({ x: left, y: y + 1, width: right - left, height: LEVEL_BAND - 2 }, HATCH);
  }
  return path ? [svg('path', { class: 'hatch', d: path, 'data-times': times.join(' ') })] : [];
}

/**
 * @param {Scale} scale
 * @param {number} start that of the frame
 * @param {ReceivedFrame} wire
 * @param {number} y
 */
function byteEnds(scale, start, wire, y) {
  const path = bytesIn(wire).map((index) => `M${scale.x(start + index)} ${y}v${LEVEL_BAND}`).join('');
  return path ? [svg('path', { class: 'byte-end', d: path })] : [];
}

/**
 * Arrows that point down to bit times, no two in one pixel.
 * @param {Scale} scale
 * @param {Uint32Array} times
 * @param {number} y
 * @param {string} name of their class
 */
export function arrows(scale, times, y, name) {
  let path = '';
  let drawn = -9;
  const shown = [];
  for (let at = firstFrom(times, Math.floor(scale.from)); at < times.length && times[at] < scale.end; at += 1) {
    const x = scale.x(times[at] + 0.5);
    if (x - drawn < 2) continue;
    drawn = x;
    shown.push(times[at]);
    path += `M${x} ${y}l-4 -8h8z`;
  }
  return path ? [svg('path', { class: name, d: path, 'data-times': shown.slice(0, 200).join(' ') })] : [];
}

/**
 * The counters at the left, and their changes: of changes without space only the last, after the one before it.
 * @param {Scale} scale
 * @param {PortTimes} port
 * @param {number} y
 * @returns {SVGTextElement[]}
 */
export function counters(scale, port, y) {
  /** @type {SVGTextElement[]} */
  const labels = [];
  let free = 0;
  const start = Math.min(Math.floor(scale.from), port.count - 1);
  if (start < 0) return labels;
  /** @param {number} time */
  const words = (time) => `TEC ${port.transmit(time)} REC ${port.receive(time)}`;
  /** @param {number} time */
  const room = (time) => words(time).length * 6.8 + 8;
  /** @param {number} time @param {number} x */
  const put = (time, x) => {
    free = x + room(time);
    labels.push(svg('text', { class: 'place count', x: x + 2, y }, [words(time)]));
  };
  const next = firstFrom(port.moves, start + 1);
  let waits = null;
  for (const time of [start, ...port.moves.subarray(next, next + 400)]) {
    const x = Math.max(scale.x(time), 0);
    if (x > scale.width - 60) break;
    if (x >= free) {
      if (waits !== null && free + room(waits) <= x) put(waits, free);
      waits = null;
      put(time, x);
    } else waits = time;
  }
  if (waits !== null && free < scale.width - 60) put(waits, free);
  return labels;
}

/**
 * Lines at round bit times, and their numbers.
 * @param {Scale} scale
 * @param {number} y
 * @param {number} height
 * @param {boolean} isNumbered
 */
export function axis(scale, y, height, isNumbered) {
  const step = niceStep((scale.span / scale.width) * 80);
  /** @type {SVGElement[]} */
  const ticks = [];
  for (let time = Math.ceil(scale.from / step) * step; time <= scale.end; time += step) {
    const x = scale.x(time);
    if (x > scale.width - 8) break;
    ticks.push(svg('path', { class: 'tick', d: `M${x} ${y}V${height}` }));
    if (isNumbered) ticks.push(svg('text', { class: 'place', x: x + 3, y: 12 }, [time.toLocaleString('en')]));
  }
  return ticks;
}

/** @param {number} least @returns {number} a step of 1, 2 or 5 and zeros that is no less */
function niceStep(least) {
  const power = 10 ** Math.floor(Math.log10(Math.max(least, 1)));
  return [1, 2, 5, 10].map((factor) => factor * power).find((step) => step >= least) ?? 10 * power;
}
