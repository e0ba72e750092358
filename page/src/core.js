/**
 * The proved code: a WebAssembly module whose exports read and write the memory that is laid out here. Nothing else
 * of the page knows of addresses.
 */

/** The most bytes that a trace may have. */
export const MOST_BYTES = 10 * 1024 * 1024;

/** No frame has more levels, and no frame text more bytes. */
const MOST_LEVELS = 157;
const MOST_TEXT = 32;

/** A fault of a text is within its first 32 bytes, so a longer text has the same answer as these bytes. */
const MOST_LOOKED_AT = 4096;

/** The room for lines (`Lines` of can_page): their count, a flag, and the bytes. */
const LINE_BYTES = 33554432;
const LINES_FRONT = 9;

/** The bytes that describe a port in a bit time (`PlainTime` of can_page), and of a wrong document (`WrongField`). */
export const TIME_BYTES = 10;
const WRONG_BYTES = 24;

/** The most bit times of ports in one call: a scenario has at most half of it, so those of one port always fit. */
export const MOST_TIMES = 2000000;

/** The most bytes of a document that the page takes. */
export const MOST_DOCUMENT = 1024 * 1024;

/** What a call returns (`Answer` of can_page). */
export const ANSWER = Object.freeze({
  done: 0, noRoom: 1, badLevel: 2, badIdentifier: 3, badDlc: 4, badCount: 5, badScenario: 6, noPort: 7, noMemory: 8, badPlan: 9, noMessage: 10,
  letter: 11, identifier: 12, direction: 13, dlc: 14, data: 15, trailing: 16, tooLong: 17,
});

/**
 * @typedef {object} Parts the parts of a frame
 * @property {number} identifier
 * @property {boolean} extended
 * @property {boolean} remote
 * @property {number} dlc 0 to 255
 * @property {Uint8Array} bytes
 */

/**
 * @typedef {object} WrongField what is wrong in a scenario or a network
 * @property {number} field the number of the field
 * @property {number} number the port, the place in a list of disturbances, or the message
 * @property {number} element the element of the port's queue
 * @property {string} [words] of a network: what the field must be
 */

/**
 * @typedef {object} Marks the fields of levels, as far as they are known
 * @property {Uint8Array} fields the number of each level's field
 * @property {Uint8Array} stuffed 1 for a stuff bit, otherwise 0
 */

/** The layout of the module's memory. */
class Rooms {
  /** @param {number} base */
  constructor(base) {
    this.next = Math.ceil(base / 16) * 16;
    this.count = this.take(8);
    this.place = this.take(8);
    this.short = this.take(MOST_TEXT);
    this.front = this.take(MOST_LEVELS);
    this.fields = this.take(MOST_LEVELS);
    this.stuffed = this.take(MOST_LEVELS);
    this.text = this.take(MOST_BYTES);
    this.levels = this.take(MOST_BYTES);
    this.lines = this.take(LINES_FRONT + LINE_BYTES);
    this.wrong = this.take(WRONG_BYTES);
    this.times = this.take(MOST_TIMES * TIME_BYTES);
  }

  /**
   * @param {number} bytes
   * @returns {number} their address
   */
  take(bytes) {
    const at = this.next;
    this.next = Math.ceil((at + bytes) / 16) * 16;
    return at;
  }
}

/**
 * The calls of a module. After a call that did not end, which leaves its memory half written, there may be no other.
 * @param {WebAssembly.Exports} exports
 */
function guarded(exports) {
  let broken = false;
  /** @type {Record<string, (...given: number[]) => number>} */
  const calls = {};
  for (const [name, call] of Object.entries(exports)) {
    if (typeof call !== 'function') continue;
    calls[name] = (...given) => {
      if (broken) throw new Error('the proved code did not end a call: load the page again');
      broken = true;
      const answer = call(...given);
      broken = false;
      return answer;
    };
  }
  return calls;
}

export class Core {
  /** @param {WebAssembly.Exports} exports */
  constructor(exports) {
    const { memory, __heap_base: base } = exports;
    if (!(memory instanceof WebAssembly.Memory && base instanceof WebAssembly.Global)) throw new Error('the module has no memory');
    this.calls = guarded(exports);
    this.memory = new Uint8Array(memory.buffer);
    this.view = new DataView(memory.buffer);
    this.rooms = new Rooms(Number(base.value));
    if (this.rooms.next > this.memory.length) throw new Error('the module has too little memory');
  }

  /**
   * @param {BufferSource} bytes the module
   * @returns {Promise<Core | null>} none if the browser does not support this WebAssembly
   */
  static async load(bytes) {
    if (typeof WebAssembly !== 'object' || !WebAssembly.validate(bytes)) return null;
    const { instance } = await WebAssembly.instantiate(bytes, {});
    return new Core(instance.exports);
  }

  /**
   * Writes bytes where a call reads them.
   * @param {number} at
   * @param {Uint8Array} bytes
   * @returns {[number, number]} the slice
   */
  put(at, bytes) {
    this.memory.set(bytes, at);
    return [at, bytes.length];
  }

  /**
   * @param {number} at
   * @param {number} count
   * @returns {Uint8Array} a copy of the bytes there
   */
  copy(at, count) {
    return this.memory.slice(at, at + count);
  }

  /**
   * @param {number} at
   * @returns {number} the number of 64 bits there
   */
  number(at) {
    return Number(this.view.getBigUint64(at, true));
  }

  /**
   * The text of the frame with these parts.
   * @param {Parts} parts
   * @returns {{answer: number, text: string}}
   */
  frameText(parts) {
    const { rooms } = this;
    const bytes = this.put(rooms.front, parts.bytes.subarray(0, MOST_LEVELS));
    const answer = this.calls.page_frame_text(parts.identifier, Number(parts.extended), Number(parts.remote), parts.dlc,
      ...bytes, rooms.short, MOST_TEXT, rooms.count);
    const text = answer === ANSWER.done ? this.copy(rooms.short, this.number(rooms.count)) : new Uint8Array();
    return { answer, text: new TextDecoder().decode(text) };
  }

  /**
   * The levels that the transmitter of a frame drives, for the frame's text; or the place of the text's fault.
   * @param {Uint8Array} text
   * @returns {{answer: number, place: number, levels: Uint8Array}}
   */
  encode(text) {
    const { rooms } = this;
    const answer = this.calls.page_encode(...this.put(rooms.text, text.subarray(0, MOST_LOOKED_AT)), rooms.front, MOST_LEVELS,
      rooms.count, rooms.place);
    if (answer !== ANSWER.done) return { answer, place: this.number(rooms.place), levels: new Uint8Array() };
    return { answer, place: 0, levels: this.copy(rooms.front, this.number(rooms.count)) };
  }

  /**
   * What levels are that begin with a start of frame: at most 157 of them, and none after the frame or a wrong stuff
   * bit.
   * @param {Uint8Array} levels
   * @returns {Marks}
   */
  marks(levels) {
    const { rooms } = this;
    const count = this.markCount(levels);
    return { fields: this.copy(rooms.fields, count), stuffed: this.copy(rooms.stuffed, count) };
  }

  /**
   * How many of these levels have a known field.
   * @param {Uint8Array} levels
   * @returns {number}
   */
  markCount(levels) {
    const { rooms } = this;
    const answer = this.calls.page_marks(...this.put(rooms.front, levels.subarray(0, MOST_LEVELS)), rooms.fields, MOST_LEVELS, rooms.stuffed, MOST_LEVELS,
      rooms.count);
    if (answer !== ANSWER.done) throw new Error(`page_marks answers ${answer}`);
    return this.number(rooms.count);
  }

  /**
   * The levels of a trace, and the lines of the frames and faults in it. If a byte of the text is no level, `place`
   * is its place, and the rest is that of the levels before it.
   * @param {Uint8Array} text at most MOST_BYTES
   * @returns {{answer: number, place: number, levels: Uint8Array, lines: Uint8Array}}
   */
  decode(text) {
    const { rooms } = this;
    const slice = this.put(rooms.text, text);
    this.calls.page_levels(...slice, rooms.levels, MOST_BYTES, rooms.count, rooms.place);
    const levels = this.copy(rooms.levels, this.number(rooms.count));
    const answer = this.calls.page_decode(...slice, rooms.lines, rooms.place);
    const lines = this.copy(rooms.lines + LINES_FRONT, this.number(rooms.lines));
    return { answer, place: this.number(rooms.place), levels, lines };
  }

  /**
   * The report of the scenario that a document says; or the first field that is wrong.
   * @param {Uint8Array} text at most MOST_DOCUMENT
   * @returns {{answer: number, wrong: WrongField, report: Uint8Array}}
   */
  run(text) {
    const { rooms } = this;
    const slice = this.put(rooms.text, text);
    this.calls.page_heap_begin(rooms.next);
    const answer = this.calls.page_run(...slice, rooms.lines, rooms.wrong);
    return { answer, wrong: this.wrong(), report: this.answered(answer) };
  }

  /**
   * The answer to the network that a document says, and how many of its messages are late; or the first field that is wrong.
   * @param {Uint8Array} text at most MOST_DOCUMENT
   * @param {boolean} [details] whether it has the parts of each bound
   * @returns {{answer: number, wrong: WrongField, late: number, lines: Uint8Array}}
   */
  plan(text, details = false) {
    const { rooms } = this;
    const slice = this.put(rooms.text, text);
    this.calls.page_heap_begin(rooms.next);
    const answer = this.calls.page_plan(...slice, Number(details), rooms.lines, rooms.count, rooms.wrong);
    const wrong = { ...this.wrong(), words: answer === ANSWER.badPlan ? new TextDecoder().decode(this.written()) : '' };
    return { answer, wrong, late: this.number(rooms.count), lines: this.answered(answer) };
  }

  /**
   * The worst case of a message, as a scenario, in the network that a document says; or the first field that is wrong. No name
   * of a message is as long as a frame text, so a longer one has the same answer as so much of it.
   * @param {Uint8Array} text at most MOST_DOCUMENT
   * @param {Uint8Array} name a frame's text before the space and the DLC
   * @returns {{answer: number, wrong: WrongField, scenario: Uint8Array}}
   */
  worstCase(text, name) {
    const { rooms } = this;
    const slices = [...this.put(rooms.text, text), ...this.put(rooms.short, name.subarray(0, MOST_TEXT))];
    this.calls.page_heap_begin(rooms.next);
    const answer = this.calls.page_worst_case(...slices, rooms.lines, rooms.wrong);
    return { answer, wrong: this.wrong(), scenario: this.answered(answer) };
  }

  /** @returns {WrongField} what a call has reported */
  wrong() {
    const at = this.rooms.wrong;
    return { number: this.number(at), element: this.number(at + 8), field: this.view.getUint8(at + 16) };
  }

  /**
   * The lines that a call has written, if it has done what it says.
   * @param {number} answer
   */
  answered(answer) {
    return answer === ANSWER.done ? this.written() : new Uint8Array();
  }

  /** What a call has written where lines go. */
  written() {
    return this.copy(this.rooms.lines + LINES_FRONT, this.number(this.rooms.lines));
  }

  /**
   * What a port of a scenario does in each bit time: TIME_BYTES for each.
   * @param {Uint8Array} text
   * @param {number} node
   * @returns {{answer: number, times: Uint8Array}}
   */
  portTimes(text, node) {
    const { rooms } = this;
    const slice = this.put(rooms.text, text);
    this.calls.page_heap_begin(rooms.next);
    const answer = this.calls.page_port_times(...slice, node, rooms.times, MOST_TIMES, rooms.count);
    const count = answer === ANSWER.done ? this.number(rooms.count) : 0;
    return { answer, times: this.copy(rooms.times, count * TIME_BYTES) };
  }

  /**
   * What each port of a scenario does in each bit time, port after port; there is space for MOST_TIMES in all.
   * @param {Uint8Array} text
   * @returns {{answer: number, times: Uint8Array}}
   */
  allPortTimes(text) {
    const { rooms } = this;
    const slice = this.put(rooms.text, text);
    this.calls.page_heap_begin(rooms.next);
    const answer = this.calls.page_all_port_times(...slice, rooms.times, MOST_TIMES, rooms.count);
    const count = answer === ANSWER.done ? this.number(rooms.count) : 0;
    return { answer, times: this.copy(rooms.times, count * TIME_BYTES) };
  }
}
