/** What the ports of a scenario do, bit time by bit time, as the proved code reports it. */
import { TIME_BYTES } from './core.js';

/** @typedef {import('./core.js').Marks} Marks */
/** @typedef {{levels: Uint8Array} & Marks} ReceivedFrame the levels of a frame as a port sees them, and their fields */

/** What a port does in a bit time, in the order in which the picture's key names it. */
export const DOES = Object.freeze([
  'idle', 'sending', 'receiving', 'flag', 'passive', 'overload', 'delimiter', 'intermission', 'suspend', 'joining', 'off',
]);

const SENDING = DOES.indexOf('sending');
const RECEIVING = DOES.indexOf('receiving');

/** The phases in a frame, after its start, by their numbers (`specs/Plain.antt` of can_page). */
const FIRST_IN_FRAME = 2;
const LAST_IN_FRAME = 6;

/** What a port does, as the place in DOES, by the number of its phase; in a frame its role decides. */
const KINDS = Uint8Array.from(
  [
    'idle', 'joining', '', '', '', '', '', 'flag', 'passive', 'overload', 'delimiter', 'delimiter', 'intermission', 'suspend', 'off',
  ].map((name) => DOES.indexOf(name)),
);

/** The numbers of the events of a bit time. */
export const EVENT = Object.freeze({
  sent: 1, received: 2, lost: 3, firstError: 4, lastError: 8, overload: 9, off: 10, recovered: 11,
});

/**
 * @typedef {object} PortIndex bit times of a port that are looked for
 * @property {Uint32Array} starts those in which it begins to do another thing
 * @property {Uint8Array} kinds what it does from each of these on, as the place in DOES
 * @property {Uint32Array} moves those in which a counter has changed
 * @property {Uint32Array} marks those with an event
 * @property {Uint32Array} blind those in which it alone sees the opposite level
 */

/** @type {Readonly<PortIndex>} */
const NO_INDEX = Object.freeze({
  starts: new Uint32Array(), kinds: new Uint8Array(), moves: new Uint32Array(), marks: new Uint32Array(), blind: new Uint32Array(),
});

/**
 * @param {Uint8Array} times what the proved code reports of a port
 * @param {Uint8Array} levels those that are recorded
 * @returns {PortIndex}
 */
export function indexOf(times, levels) {
  const port = new PortTimes(times);
  const starts = [];
  const kinds = [];
  const moves = [];
  const marks = [];
  const blind = [];
  let last = -1;
  for (let time = 0; time < port.count; time += 1) {
    const kind = port.kind(time);
    if (last !== kind) {
      starts.push(time);
      kinds.push(kind);
      last = kind;
    }
    if (time > 0 && (port.transmit(time) !== port.transmit(time - 1) || port.receive(time) !== port.receive(time - 1))) moves.push(time);
    if (port.event(time) !== 0) marks.push(time);
    if (port.saw(time) !== levels[time]) blind.push(time);
  }
  return {
    starts: Uint32Array.from(starts), kinds: Uint8Array.from(kinds), moves: Uint32Array.from(moves),
    marks: Uint32Array.from(marks), blind: Uint32Array.from(blind),
  };
}

/** One port. */
export class PortTimes {
  /**
   * @param {Uint8Array} bytes
   * @param {PortIndex} [index]
   */
  constructor(bytes, index = NO_INDEX) {
    this.count = bytes.length / TIME_BYTES;
    this.bytes = bytes;
    this.starts = index.starts;
    this.kinds = index.kinds;
    this.moves = index.moves;
    this.marks = index.marks;
    this.blind = index.blind;
    this.losses = this.marked(EVENT.lost, EVENT.lost);
    this.errors = this.marked(EVENT.firstError, EVENT.lastError);
    /** The bit times at the ends of frames that it sent or received: those of the entries of its log, in their order. */
    this.heard = this.marked(EVENT.sent, EVENT.received);
    /** @type {Map<number, ReceivedFrame>} what is known of its frames that were drawn, by their starts */
    this.frames = new Map();
  }

  /**
   * The bit times with an event among these.
   * @param {number} first
   * @param {number} last
   */
  marked(first, last) { return this.marks.filter((time) => this.event(time) >= first && this.event(time) <= last); }

  /** @param {number} time */
  transmit(time) { return this.bytes[time * TIME_BYTES] + 256 * this.bytes[time * TIME_BYTES + 1]; }

  /** @param {number} time */
  receive(time) { return this.bytes[time * TIME_BYTES + 2] + 256 * this.bytes[time * TIME_BYTES + 3]; }

  /** @param {number} time */
  phase(time) { return this.bytes[time * TIME_BYTES + 4]; }

  /** @param {number} time */
  sends(time) { return this.bytes[time * TIME_BYTES + 5] === 1; }

  /** @param {number} time */
  drove(time) { return this.bytes[time * TIME_BYTES + 6]; }

  /** @param {number} time */
  saw(time) { return this.bytes[time * TIME_BYTES + 7]; }

  /** @param {number} time */
  event(time) { return this.bytes[time * TIME_BYTES + 8]; }

  /** @param {number} time @returns {number} the stretch in which it does one thing */
  runAt(time) { return firstFrom(this.starts, time + 1) - 1; }

  /**
   * Whether it is in a frame, after its start.
   * @param {number} time
   */
  isInFrame(time) { return time < this.count && this.phase(time) >= FIRST_IN_FRAME && this.phase(time) <= LAST_IN_FRAME; }

  /**
   * Whether a frame begins here: its phase is the one before, and the next one is in the frame.
   * @param {number} time
   */
  isStart(time) { return !this.isInFrame(time) && this.isInFrame(time + 1); }

  /**
   * Whether it sends in this bit time, that of a start of frame too.
   * @param {number} time
   */
  isSender(time) { return this.sends(this.isStart(time) ? time + 1 : time); }

  /** @param {number} time @returns {number} the place in DOES of what it does */
  kind(time) {
    if (this.isInFrame(time) || this.isStart(time)) return this.isSender(time) ? SENDING : RECEIVING;
    return KINDS[this.phase(time)];
  }

  /**
   * The frame that is on the bus for this port, as far as it has been received.
   * @param {number} time
   * @returns {[number, number] | null} its start and the bit time after it
   */
  frameAt(time) {
    let run = this.runAt(time);
    /** @param {number} at */
    const isFrame = (at) => this.kinds[at] === SENDING || this.kinds[at] === RECEIVING;
    if (run < 0 || !isFrame(run)) return null;
    /** @param {number} at */
    const goesOn = (at) => at > 0 && !this.isStart(this.starts[at]) && isFrame(at);
    while (goesOn(run)) run -= 1;
    const start = this.starts[run];
    run += 1;
    while (run < this.starts.length && goesOn(run)) run += 1;
    return [start, run < this.starts.length ? this.starts[run] : this.count];
  }

  /** @param {number} from @param {number} to @returns {Uint8Array} the levels that it sees there */
  seen(from, to) { return Uint8Array.from({ length: to - from }, (_, index) => this.saw(from + index)); }
}

/** A scenario that has run; its ports come one by one. */
export class BusTimes {
  /**
   * @param {Uint8Array} levels those that are recorded
   * @param {number} count of ports
   */
  constructor(levels, count) {
    this.levels = levels;
    /** @type {Array<PortTimes | null>} */
    this.ports = Array.from({ length: count }, () => null);
    this.driven = new Uint8Array(levels.length).fill(1);
    /** The number of dominant levels before each. */
    this.dominant = new Uint32Array(levels.length + 1);
    for (let time = 0; time < levels.length; time += 1) this.dominant[time + 1] = this.dominant[time] + 1 - levels[time];
    this.hits = new Uint32Array();
    this.awaited = count;
    /** @type {Set<number>} the ports that have been asked for */
    this.asked = new Set();
  }

  get count() { return this.levels.length; }

  /** @returns {Array<PortTimes>} those that are there */
  get known() { return this.ports.flatMap((port) => port ?? []); }

  /** @param {number} node @param {PortTimes} port */
  put(node, port) {
    this.ports[node] = port;
    this.awaited -= 1;
    for (let time = 0; time < this.count; time += 1) if (port.drove(time) === 0) this.driven[time] = 0;
    if (this.awaited === 0) this.hits = Uint32Array.from(this.hitTimes());
  }

  /** The times at which the recorded level is not the one that the ports drive together. */
  * hitTimes() {
    for (let time = 0; time < this.count; time += 1) if (this.driven[time] !== this.levels[time]) yield time;
  }

  /** @param {PortTimes} port @param {number} time */
  isBlind(port, time) { return port.saw(time) !== this.levels[time]; }

  /** @param {number} time */
  isHit(time) { return this.hits[firstFrom(this.hits, time)] === time; }

  /** The bit times with an event of a port or a hit. */
  get events() { return [this.hits, ...this.known.flatMap((port) => [port.marks, port.blind])]; }

  /** @param {number} time @returns {number | undefined} the next event after it */
  eventBehind(time) {
    const next = this.events.map((times) => times[firstFrom(times, time + 1)]).filter((found) => found !== undefined);
    return next.length > 0 ? Math.min(...next) : undefined;
  }

  /** @param {number} time @returns {number | undefined} the last event before it */
  eventBefore(time) {
    const last = this.events.map((times) => times[firstFrom(times, time) - 1]).filter((found) => found !== undefined);
    return last.length > 0 ? Math.max(...last) : undefined;
  }
}

/**
 * @param {Uint32Array} places rising
 * @param {number} place
 * @returns {number} the first that is no less
 */
export function firstFrom(places, place) {
  let low = 0;
  let high = places.length;
  while (low < high) {
    const middle = (low + high) >> 1;
    if (places[middle] < place) low = middle + 1;
    else high = middle;
  }
  return low;
}
