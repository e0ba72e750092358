/** What was found in a trace, read from the lines of the output. */

const BLANK = 0x20;
const LINE_END = 0x0a;
const FAULT = 0x66; // the f of "fault"

/**
 * @typedef {object} Finding
 * @property {number} start the place at which the frame begins
 * @property {string} frame its text, if there is one
 * @property {string[]} heard the words after it
 * @property {string} fault the code of its fault, if there is no frame
 * @property {number} place that of the fault
 */

export class Findings {
  /** @param {Uint8Array} lines */
  constructor(lines) {
    this.lines = lines;
    let count = 0;
    for (let at = 0; at < lines.length; at += 1) if (lines[at] === LINE_END) count += 1;
    this.count = count;
    this.starts = new Uint32Array(count);
    this.isFault = new Uint8Array(count);
    this.offsets = new Uint32Array(count + 1);
    this.faults = 0;
    this.index();
  }

  /** Notes the offset of each line, the place in front of it, and whether it is a fault. */
  index() {
    const { lines } = this;
    let at = 0;
    for (let line = 0; line < this.count; line += 1) {
      this.offsets[line] = at;
      let start = 0;
      for (; lines[at] !== BLANK; at += 1) start = start * 10 + lines[at] - 0x30;
      this.starts[line] = start;
      if (lines[at + 1] === FAULT) {
        this.isFault[line] = 1;
        this.faults += 1;
      }
      at = lines.indexOf(LINE_END, at) + 1;
    }
    this.offsets[this.count] = at;
  }

  /**
   * @param {number} line
   * @returns {string}
   */
  text(line) {
    return new TextDecoder().decode(this.lines.subarray(this.offsets[line], this.offsets[line + 1] - 1));
  }

  /**
   * @param {number} line
   * @returns {Finding}
   */
  at(line) {
    const [start, ...words] = this.text(line).split(' ');
    if (this.isFault[line]) return { start: Number(start), frame: '', heard: [], fault: words[1], place: Number(words[3]) };
    const end = words.findIndex((word) => word === 'ack' || word === 'noack');
    return { start: Number(start), frame: words.slice(0, end).join(' '), heard: words.slice(end), fault: '', place: 0 };
  }

  /**
   * @param {number} place
   * @returns {number} the first line of what begins there or later
   */
  firstFrom(place) {
    let low = 0;
    let high = this.count;
    while (low < high) {
      const middle = (low + high) >> 1;
      if (this.starts[middle] < place) low = middle + 1;
      else high = middle;
    }
    return low;
  }
}
