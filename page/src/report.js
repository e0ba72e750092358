/** The report of a scenario, read in place: it may have millions of lines. */

const LINE_END = 0x0a;
const BLANK = 0x20;

/**
 * @typedef {object} ReportIndex
 * @property {Uint32Array} lines the offset of each line, and the length of the report
 * @property {Uint32Array} ports the lines that are about a port
 * @property {Uint8Array} levels those that are recorded
 */

/** @param {Uint8Array} bytes a report @returns {ReportIndex} */
export function indexReport(bytes) {
  let count = 0;
  for (let at = bytes.indexOf(LINE_END); at >= 0; at = bytes.indexOf(LINE_END, at + 1)) count += 1;
  const lines = new Uint32Array(count + 1);
  const ports = [];
  for (let line = 0; line < count; line += 1) {
    if (line >= 2 && bytes[lines[line]] !== BLANK) ports.push(line);
    lines[line + 1] = bytes.indexOf(LINE_END, lines[line]) + 1;
  }
  const levels = bytes.slice(lines[1], Math.max(lines[2] - 1, lines[1])).map((digit) => digit - 0x30);
  return { lines, ports: Uint32Array.from(ports), levels };
}

/**
 * @typedef {object} PortEnd a port after the run
 * @property {string} state
 * @property {string} tec
 * @property {string} rec
 * @property {string} missed
 * @property {number} first the line of the first entry of its log
 * @property {number} entries
 */

export class Report {
  /** @param {Uint8Array} bytes @param {ReportIndex} index */
  constructor(bytes, { lines, ports, levels }) {
    this.bytes = bytes;
    this.lines = lines;
    this.portLines = ports;
    this.levels = levels;
  }

  /** The number of ports. */
  get ports() { return this.portLines.length; }

  get text() { return new TextDecoder().decode(this.bytes); }

  /** @param {number} line */
  line(line) { return new TextDecoder().decode(this.bytes.subarray(this.lines[line], this.lines[line + 1] - 1)).trim(); }

  /** @param {number} node @returns {PortEnd} */
  end(node) {
    const [, , state, , tec, , rec, , missed] = this.line(this.portLines[node]).split(' ');
    const first = this.portLines[node] + 1;
    return { state, tec, rec, missed, first, entries: (this.portLines[node + 1] ?? this.lines.length - 1) - first };
  }
}
