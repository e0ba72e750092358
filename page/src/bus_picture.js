/** The picture of a bus: the recorded levels, and a row for each port, which can be folded. Only what is in view is drawn. */
import { closestTo, svg } from './draw.js';
import { Scale, arrows, axis, bands, counters, fieldBands, wave } from './bus_drawing.js';

/** @typedef {import('./core.js').Marks} Marks */
/** @typedef {import('./bus_times.js').BusTimes} BusTimes */
/** @typedef {import('./bus_times.js').PortTimes} PortTimes */

/** Sizes in pixels, of rows with levels, without space for them, and folded; and the least number of bit times in view. */
const AXIS = 18;
const HEAD = 52;
const NEAR = 80;
const FAR = 40;
const FOLDED = 24;
const BAND = 20;
const FEWEST = 20;

/** With more ports than these all are folded at first. */
const MOST_UNFOLDED = 6;

export class BusPicture {
  /**
   * @param {HTMLElement} room
   * @param {(levels: Uint8Array) => Marks} marks
   * @param {(time: number) => void} onPick gets the bit time that is picked
   */
  constructor(room, marks, onPick) {
    this.room = room;
    this.marks = marks;
    this.onPick = onPick;
    /** @type {BusTimes | null} */
    this.bus = null;
    this.from = 0;
    this.span = FEWEST;
    this.picked = 0;
    this.node = 0;
    /** @type {Set<number>} the ports whose rows are folded */
    this.folded = new Set();
    this.waits = false;
    /** Whether there was space for levels when it was drawn. */
    this.isNear = true;
    // asking the browser each time would make it lay out the page each time
    this.width = 0;
    this.seen = 0;
    this.scrolled = 0;
    this.head = svg('svg', { class: 'bus head', 'aria-hidden': 'true' });
    this.body = svg('svg', { class: 'bus body', 'aria-hidden': 'true' });
    new ResizeObserver(() => this.drawSoon({ width: room.clientWidth, seen: room.clientHeight - HEAD })).observe(room);
    room.addEventListener('scroll', () => this.drawSoon({ scrolled: room.scrollTop }));
    this.listen();
  }

  /** @param {BusTimes | null} bus */
  show(bus) {
    const isLike = bus !== null && bus.ports.length === this.bus?.ports.length;
    this.bus = bus;
    if (!isLike) this.foldAll((bus?.ports.length ?? 0) > MOST_UNFOLDED);
    this.view(0, Math.min(this.total, 160));
  }

  get total() { return Math.max(FEWEST, this.bus?.count ?? 0); }

  /**
   * Shows this many bit times from one on, as far as there are any.
   * @param {number} from
   * @param {number} span
   */
  view(from, span) {
    this.span = Math.min(Math.max(span, FEWEST), this.total);
    this.from = Math.min(Math.max(from, 0), this.total - this.span);
    this.drawSoon();
  }

  /**
   * Zooms; what is at this share of the width stays there.
   * @param {number} factor below 1 zooms in
   * @param {number} share
   */
  zoomAt(factor, share) {
    const span = Math.min(Math.max(this.span * factor, FEWEST), this.total);
    this.view(this.from + (this.span - span) * share, span);
  }

  /**
   * Zooms with the bit time that is picked in the middle.
   * @param {number} factor
   */
  zoom(factor) {
    const span = Math.min(Math.max(this.span * factor, FEWEST), this.total);
    this.view(this.picked + 0.5 - span / 2, span);
  }

  /** @param {number} share of what is shown, by which the view goes on */
  pan(share) { this.view(this.from + this.span * share, this.span); }

  /**
   * Marks a bit time, and brings it into view.
   * @param {number} time
   */
  pick(time) {
    this.picked = time;
    if (time < this.from || time + 1 > this.from + this.span) this.view(time - this.span / 2, this.span);
    else this.drawSoon();
  }

  /** @param {boolean} folds */
  foldAll(folds) {
    this.folded = new Set(folds ? this.bus?.ports.keys() : []);
    this.node = 0;
    this.scrollTo(0);
  }

  /**
   * Folds a port's row, or unfolds it.
   * @param {number} node
   */
  fold(node) {
    this.node = node;
    if (!this.folded.delete(node)) this.folded.add(node);
    this.drawSoon();
  }

  /**
   * Goes to a port, and brings its row into view.
   * @param {number} node
   */
  goTo(node) {
    if (!this.bus) return;
    this.node = Math.min(Math.max(node, 0), this.bus.ports.length - 1);
    const [top, bottom] = [this.top(this.node), this.top(this.node + 1)];
    this.scrollTo(Math.min(Math.max(this.scrolled, bottom - this.seen), top));
  }

  /** @param {number} top */
  scrollTo(top) {
    if (top !== this.scrolled) this.room.scrollTop = top;
    this.drawSoon();
  }

  /**
   * Draws a port that has come, if it is in view.
   * @param {number} node
   */
  come(node) { if (this.inView.includes(node)) this.drawSoon(); }

  /** @param {number} node */
  height(node) { return this.folded.has(node) ? FOLDED : this.unfolded; }

  /** The height of a row that is not folded. */
  get unfolded() { return this.isNear ? NEAR : FAR; }

  /**
   * Where a port's row begins.
   * @param {number} node
   */
  top(node) {
    let top = 0;
    for (let before = 0; before < node; before += 1) top += this.height(before);
    return top;
  }

  /** The ports whose rows are in view. */
  get inView() {
    const nodes = [];
    const end = this.scrolled + this.seen;
    let top = 0;
    for (let node = 0; node < (this.bus?.ports.length ?? 0) && top < end; node += 1) {
      top += this.height(node);
      if (top > this.scrolled) nodes.push(node);
    }
    return nodes;
  }

  listen() {
    this.room.addEventListener('wheel', (event) => {
      if (!this.bus || this.isName(event)) return;
      event.preventDefault();
      if (event.shiftKey || Math.abs(event.deltaX) > Math.abs(event.deltaY)) this.pan((event.deltaX || event.deltaY) / this.plot);
      else this.zoomAt(event.deltaY > 0 ? 1.25 : 0.8, this.share(event));
    }, { passive: false });
    /** @type {{x: number, from: number, moved: boolean} | null} */
    let begun = null;
    this.room.addEventListener('pointerdown', (event) => { begun = { x: event.clientX, from: this.from, moved: false }; });
    this.room.addEventListener('pointermove', (event) => {
      if (!begun || event.buttons === 0 || Math.abs(event.clientX - begun.x) < 4) return;
      begun.moved = true;
      this.view(begun.from - ((event.clientX - begun.x) / this.plot) * this.span, this.span);
    });
    this.room.addEventListener('pointerup', (event) => { if (begun && !begun.moved && this.bus?.count) this.hit(event, this.bus); });
    for (const end of ['pointerup', 'pointercancel']) window.addEventListener(end, () => { begun = null; });
  }

  /** @param {PointerEvent} event @param {BusTimes} bus */
  hit(event, bus) {
    const node = Number(closestTo(event, '[data-node]')?.dataset.node ?? -1);
    if (!this.isName(event)) {
      if (node >= 0) this.node = node;
      this.onPick(Math.min(Math.floor(this.from + this.share(event) * this.span), bus.count - 1));
    } else if (node >= 0) this.fold(node);
  }

  /**
   * Whether an event is over the names of the ports.
   * @param {MouseEvent} event
   */
  isName(event) { return event.clientX - this.room.getBoundingClientRect().left < this.names; }

  /** @param {MouseEvent} event */
  share(event) {
    const { left } = this.room.getBoundingClientRect();
    return Math.min(Math.max((event.clientX - left - this.names) / this.plot, 0), 1);
  }

  /** The width of the names, and of what is beside them. */
  get names() { return this.width < 500 ? 72 : 78; }

  get plot() { return this.width - this.names; }

  /**
   * Draws once before the next frame is shown, however often it is asked.
   * @param {{width?: number, seen?: number, scrolled?: number}} [sizes] those that have changed
   */
  drawSoon(sizes = {}) {
    Object.assign(this, sizes);
    if (this.waits) return;
    this.waits = true;
    requestAnimationFrame(() => {
      this.waits = false;
      this.draw();
    });
  }

  draw() {
    const { bus, width } = this;
    if (!bus || width === 0) {
      this.room.replaceChildren();
      return;
    }
    const began = performance.now();
    if (!this.body.isConnected) this.room.replaceChildren(this.head, this.body);
    const scale = new Scale(this.from, this.span, this.plot);
    const isHeld = this.fit(scale.isNear);
    const height = this.top(bus.ports.length);
    this.fill(this.head, width, HEAD, [
      svg('path', { class: 'head-end', d: `M0 ${HEAD - 0.5}H${width}` }), this.name('Wire', HEAD - 14),
      this.plotOf(scale, 0, HEAD, [...axis(scale, AXIS, HEAD, true), ...levelRow(scale, bus), this.cursor(scale, AXIS, HEAD)]),
    ]);
    this.fill(this.body, width, height, [
      this.plotOf(scale, 0, height, axis(scale, 0, height, false)),
      ...this.inView.map((node) => this.row(scale, node, bus.ports[node])),
      this.plotOf(scale, 0, height, [this.cursor(scale, 0, height)]),
    ]);
    if (isHeld) this.room.scrollTop = this.scrolled;
    this.room.dataset.drawn = String(performance.now() - began);
  }

  /**
   * Makes rows high enough for levels, if there is space for these, and keeps the top row at the top.
   * @param {boolean} isNear
   * @returns {boolean} whether they have changed
   */
  fit(isNear) {
    if (isNear === this.isNear) return false;
    const [first = 0] = this.inView;
    this.isNear = isNear;
    this.scrolled = this.top(first);
    return true;
  }

  /**
   * @param {SVGSVGElement} picture
   * @param {number} width
   * @param {number} height
   * @param {Node[]} inside
   */
  fill(picture, width, height, inside) {
    for (const [name, value] of Object.entries({ width, height, viewBox: `0 0 ${width} ${height}` })) picture.setAttribute(name, String(value));
    picture.replaceChildren(...inside);
  }

  /**
   * What is beside the names.
   * @param {Scale} scale
   * @param {number} y
   * @param {number} height
   * @param {Node[]} inside
   */
  plotOf(scale, y, height, inside) { return svg('svg', { x: this.names, y, width: scale.width, height }, inside); }

  /** @param {string} text @param {number} y */
  name(text, y) { return svg('text', { class: 'port-name', x: 6, y }, [text]); }

  /** @param {Scale} scale @param {number} top @param {number} bottom */
  cursor(scale, top, bottom) {
    const left = scale.x(this.picked);
    const width = Math.max(scale.x(this.picked + 1) - left, 1);
    return svg('rect', { class: 'cursor', x: left, y: top, width, height: bottom - top, 'data-time': this.picked });
  }

  /**
   * A port: its number, what it does, and if it is unfolded the fields, what it drives, and the changes of its counters.
   * @param {Scale} scale
   * @param {number} node
   * @param {PortTimes | null} port none if it is still being computed
   */
  row(scale, node, port) {
    const top = this.top(node);
    const height = this.height(node);
    const folded = this.folded.has(node);
    return svg('g', { class: `row port${node === this.node ? ' here' : ''}`, 'data-node': node, 'data-folded': folded }, [
      svg('rect', { class: 'row-ground', x: 0, y: top, width: this.width, height }),
      this.name(`${folded ? '▸' : '▾'} Port ${node}`, top + 17),
      this.plotOf(scale, top, height, port ? this.portParts(scale, port, folded) : [waiting()]),
    ]);
  }

  /** @param {Scale} scale @param {PortTimes} port @param {boolean} folded */
  portParts(scale, port, folded) {
    const marks = [
      ...arrows(scale, port.losses, 8, 'lost-here'), ...arrows(scale, port.errors, 8, 'error-here'),
      ...arrows(scale, port.blind, 8, 'hit'),
    ];
    if (folded) return [...bands(scale, port, 2, BAND), ...marks];
    const drives = scale.isNear ? [wave(scale, port.count, (time) => port.drove(time), BAND + 25, BAND + 39)] : [];
    return [
      ...bands(scale, port, 2, BAND), ...fieldBands(scale, port, BAND + 4, this.marks), ...drives, ...marks,
      ...counters(scale, port, this.unfolded - 6),
    ];
  }
}

/**
 * The recorded levels, and the hits on the bus.
 * @param {Scale} scale
 * @param {BusTimes} bus
 */
function levelRow(scale, { levels, hits, count, dominant }) {
  const line = wave(scale, count, (time) => levels[time], AXIS + 10, HEAD - 6, dominant);
  return [svg('g', { class: 'row levels' }, [line, ...arrows(scale, hits, AXIS + 9, 'hit')])];
}

/** What a port shows that is still being computed. */
const waiting = () => svg('text', { class: 'place', x: 4, y: 17 }, ['being computed']);
