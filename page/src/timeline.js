/** A time line of what was found in a trace. It zooms from the whole trace to single levels. */
import { svg } from './draw.js';

/** Sizes in pixels, and how few levels fill the line at most. */
const HEIGHT = 132;
const AXIS = 18;
const LANE = 28;
const LANE_HEIGHT = 26;
const FAULTS = 60;
const HIGH = 96;
const LOW = 122;
const FEWEST = 40;

/** The most findings that are drawn one by one; more are drawn together, by the pixel. */
const MOST_DRAWN = 1500;

/** Levels are drawn if each has at least this many pixels. */
const LEVEL_ROOM = 3;

/**
 * @typedef {object} Traced
 * @property {Uint8Array} levels
 * @property {import('./findings.js').Findings} findings
 * @property {(line: number) => number} endOf the place after a finding's last level
 */

export class Timeline {
  /**
   * @param {HTMLElement} room
   * @param {(line: number) => void} onPick gets the finding that is picked
   */
  constructor(room, onPick) {
    this.room = room;
    this.onPick = onPick;
    /** @type {Traced | null} */
    this.traced = null;
    this.from = 0;
    this.span = FEWEST;
    this.picked = -1;
    this.width = 0;
    this.dragged = false;
    new ResizeObserver(() => {
      if (this.room.clientWidth !== this.width) this.draw();
    }).observe(room);
    this.listen();
  }

  /** @param {Traced | null} traced */
  show(traced) {
    this.traced = traced;
    this.picked = -1;
    this.whole();
  }

  /** The number of levels on the whole line. */
  get total() {
    return Math.max(FEWEST, this.traced?.levels.length ?? 0);
  }

  whole() {
    this.view(0, this.total);
  }

  /**
   * Shows `span` levels from a place on, as far as there are any.
   * @param {number} from
   * @param {number} span
   */
  view(from, span) {
    this.span = Math.min(Math.max(span, FEWEST), this.total);
    this.from = Math.min(Math.max(from, 0), this.total - this.span);
    this.draw();
  }

  /**
   * @param {number} factor below 1 zooms in
   * @param {number} [at] what stays where it is, from 0 at the left to 1
   */
  zoom(factor, at = 0.5) {
    const span = Math.min(Math.max(this.span * factor, FEWEST), this.total);
    this.view(this.from + (this.span - span) * at, span);
  }

  /** @param {number} share of what is shown, by which the view goes on */
  pan(share) {
    this.view(this.from + this.span * share, this.span);
  }

  /**
   * Marks a finding, and shows it whole.
   * @param {number} line
   */
  pick(line) {
    this.picked = line;
    if (!this.traced) return;
    const { findings, endOf } = this.traced;
    const start = findings.starts[line];
    const length = endOf(line) - start;
    const span = Math.min(this.span, Math.max(length * 4, FEWEST));
    const seen = start >= this.from && start + length <= this.from + this.span && this.span <= length * 16;
    if (seen) this.draw();
    else this.view(start + length / 2 - span / 2, span);
  }

  listen() {
    this.room.addEventListener('wheel', (event) => {
      if (!this.traced || event.deltaY === 0) return;
      event.preventDefault();
      this.zoom(event.deltaY > 0 ? 1.25 : 0.8, this.share(event));
    }, { passive: false });
    this.room.addEventListener('keydown', (event) => {
      /** @type {Record<string, () => void>} */
      const actions = {
        ArrowLeft: () => this.pan(-0.25), ArrowRight: () => this.pan(0.25),
        '+': () => this.zoom(0.5), '=': () => this.zoom(0.5), '-': () => this.zoom(2), 0: () => this.whole(),
        Home: () => this.view(0, this.span), End: () => this.view(this.total, this.span),
      };
      const action = actions[event.key];
      if (!action || event.ctrlKey || event.altKey || event.metaKey) return;
      event.preventDefault();
      action();
    });
    this.room.addEventListener('click', (event) => {
      if (!this.traced || this.dragged) return;
      const line = this.lineNear(this.traced, this.from + this.share(event) * this.span);
      if (line >= 0) this.onPick(line);
    });
    this.listenToDrags();
  }

  listenToDrags() {
    /** @type {{x: number, from: number} | null} */
    let begun = null;
    this.room.addEventListener('pointerdown', (event) => {
      begun = { x: event.clientX, from: this.from };
      this.dragged = false;
    });
    this.room.addEventListener('pointermove', (event) => {
      if (!begun || event.buttons === 0 || Math.abs(event.clientX - begun.x) < 4) return;
      this.dragged = true;
      this.view(begun.from - ((event.clientX - begun.x) / this.width) * this.span, this.span);
    });
    for (const end of ['pointerup', 'pointercancel']) window.addEventListener(end, () => { begun = null; });
  }

  /** @param {MouseEvent} event */
  share(event) {
    const box = this.room.getBoundingClientRect();
    return Math.min(Math.max((event.clientX - box.left) / box.width, 0), 1);
  }

  /**
   * @param {Traced} traced
   * @param {number} place
   * @returns {number} the finding there, or the nearest within eight pixels, or -1
   */
  lineNear({ findings, endOf }, place) {
    const slack = (8 / this.width) * this.span;
    const next = findings.firstFrom(Math.floor(place) + 1);
    if (next > 0 && place < endOf(next - 1) + slack) return next - 1;
    return next < findings.count && findings.starts[next] - place < slack ? next : -1;
  }

  /** @param {number} place */
  x(place) {
    return ((place - this.from) / this.span) * this.width;
  }

  draw() {
    this.width = this.room.clientWidth;
    this.room.replaceChildren();
    const { traced } = this;
    if (!traced || this.width === 0) return;
    const { findings } = traced;
    // what begins before the view may reach into it
    const first = Math.max(0, findings.firstFrom(Math.floor(this.from)) - 1);
    const last = findings.firstFrom(Math.ceil(this.from + this.span));
    const inside = last - first > MOST_DRAWN ? this.crowd(traced, first, last) : this.single(traced, first, last);
    this.room.append(svg('svg', {
      class: 'time', width: this.width, height: HEIGHT, viewBox: `0 0 ${this.width} ${HEIGHT}`, 'aria-hidden': 'true',
    }, [...this.axis(), ...inside, ...this.wave(traced)]));
  }

  /** The places at the top. */
  axis() {
    const step = niceStep((this.span / this.width) * 90);
    const ticks = [];
    for (let place = Math.ceil(this.from / step) * step; place <= this.from + this.span; place += step) {
      const x = this.x(place);
      if (x > this.width - 8) break;
      ticks.push(svg('path', { class: 'tick', d: `M${x} ${AXIS}V${HEIGHT}` }));
      ticks.push(svg('text', { class: 'place', x: x + 3, y: 12 }, [place.toLocaleString('en')]));
    }
    return ticks;
  }

  /**
   * Findings one by one.
   * @param {Traced} traced
   * @param {number} first
   * @param {number} last
   */
  single(traced, first, last) {
    const drawn = [];
    for (let line = first; line < last; line += 1) drawn.push(...this.findingMarks(traced, line));
    return drawn;
  }

  /** @param {Traced} traced @param {number} line */
  findingMarks({ findings, endOf }, line) {
    const left = Math.max(this.x(findings.starts[line]), -2);
    const right = Math.min(this.x(endOf(line)), this.width + 2);
    if (right < 0) return [];
    const fault = findings.isFault[line] === 1;
    const width = Math.max(right - left - 1, 1);
    /** @type {SVGElement[]} */
    const marks = [svg('rect', {
      class: `${fault ? 'lost' : 'frame'}${line === this.picked ? ' picked' : ''}`, x: left, y: LANE, width, height: LANE_HEIGHT,
      rx: Math.min(3, width / 4), 'data-line': line,
    })];
    const found = findings.at(line);
    const label = fault ? found.fault : found.frame;
    if (label.length * 7.5 + 6 < width) marks.push(svg('text', { class: 'found', x: left + 5, y: LANE + 18 }, [label]));
    if (fault) marks.push(...this.faultMark(found));
    return marks;
  }

  /** @param {import('./findings.js').Finding} found */
  faultMark({ fault, place }) {
    const x = this.x(place + 0.5);
    if (x < 0 || x > this.width) return [];
    const anchor = x > this.width - 30 ? 'end' : 'start';
    return [
      svg('path', { class: 'fault-mark', d: `M${x} ${FAULTS}l-6 12h12zM${x} ${LANE}V${FAULTS}`, 'data-place': place }),
      svg('text', { class: 'fault-code', x: anchor === 'end' ? x - 9 : x + 9, y: FAULTS + 12, 'text-anchor': anchor }, [fault]),
    ];
  }

  /**
   * Many findings, drawn together where they begin.
   * @param {Traced} traced
   * @param {number} first
   * @param {number} last
   */
  crowd({ findings }, first, last) {
    /** @type {Set<number>} */
    const frames = new Set();
    /** @type {Set<number>} */
    const faults = new Set();
    for (let line = first; line < last; line += 1) {
      (findings.isFault[line] ? faults : frames).add(Math.floor(this.x(findings.starts[line])));
    }
    return [
      svg('path', { class: 'frames', d: bars(frames, LANE, LANE_HEIGHT) }),
      svg('path', { class: 'faults', d: bars(faults, LANE, FAULTS + 12 - LANE) }),
    ];
  }

  /**
   * The levels, if there is space for them.
   * @param {Traced} traced
   */
  wave({ levels }) {
    if (this.width / this.span < LEVEL_ROOM) return [];
    const start = Math.floor(this.from);
    const end = Math.min(Math.ceil(this.from + this.span), levels.length);
    let path = `M${this.x(start)} ${levels[start] === 0 ? LOW : HIGH}`;
    for (let place = start; place < end; place += 1) path += `V${levels[place] === 0 ? LOW : HIGH}H${this.x(place + 1)}`;
    return [svg('path', { class: 'wave', d: path })];
  }
}

/**
 * A path of bars, one pixel wide.
 * @param {Set<number>} at
 * @param {number} top
 * @param {number} height
 * @returns {string}
 */
function bars(at, top, height) {
  return [...at].map((x) => `M${x} ${top}h1v${height}h-1z`).join('');
}

/**
 * @param {number} least
 * @returns {number} the next of 1, 2, 5, 10, 20, ..
 */
function niceStep(least) {
  const power = 10 ** Math.floor(Math.log10(Math.max(least, 1)));
  return [1, 2, 5, 10].map((factor) => factor * power).find((step) => step >= least) ?? 10 * power;
}
