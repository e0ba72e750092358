/** The ports after the run, one below another and folded, with their logs. */
import { EVENT } from './bus_times.js';
import { byId, closestTo, html } from './draw.js';
import { counted } from './words.js';

/** The number of entries of a log that are shown at first; each time ten times this number is added. */
const SHOWN = 50;

const KIND = Object.freeze({ sent: EVENT.sent, took: EVENT.received });
const WORDS = Object.freeze({ sent: 'sent', took: 'received' });

/** @typedef {import('./bus_times.js').BusTimes} BusTimes */
/** @typedef {import('./report.js').Report} Report */

export class EndView {
  /** @param {(time: number, node: number) => void} onPick gets the bit time of an entry */
  constructor(onPick) {
    this.room = byId('bus-ends');
    /** @type {Report | null} */
    this.report = null;
    /** @type {BusTimes | null} */
    this.bus = null;
    /** @type {Array<{port: HTMLDetailsElement, log: HTMLElement}>} */
    this.ports = [];
    this.room.addEventListener('click', (event) => {
      const button = closestTo(event, 'button');
      if (!button) return;
      const { time, node, more } = button.dataset;
      if (time !== undefined) onPick(Number(time), Number(node));
      if (more !== undefined) this.fill(Number(node), Number(more));
    });
  }

  /** @param {Report} report @param {BusTimes | null} bus */
  show(report, bus) {
    this.report = report;
    this.bus = bus;
    this.ports = Array.from({ length: report.ports }, (_, node) => this.portOf(node, report.end(node)));
    this.room.replaceChildren(...this.ports.map(({ port }) => port));
  }

  /** @param {number} node @param {import('./report.js').PortEnd} end */
  portOf(node, { state, tec, rec, missed, entries }) {
    const lost = missed === '0' ? '' : `, ${missed} more missed`;
    const words = ` error ${state}, TEC ${tec}, REC ${rec}; ${counted(entries, 'entry', 'entries')} in its log${lost}`;
    const log = html('div', { class: 'log' });
    const port = html('details', { class: 'port-end', 'data-node': node }, [
      html('summary', {}, [html('b', {}, [`Port ${node}`]), words.replace('error off', 'bus off')]), log,
    ]);
    port.addEventListener('toggle', () => { if (port.open) this.fill(node, SHOWN); });
    return { port, log };
  }

  /**
   * Shows the times of a port's entries, which are known now.
   * @param {number} node
   */
  refresh(node) {
    const port = this.ports[node]?.port;
    if (port?.open) this.fill(node, Math.max(port.querySelectorAll('li').length, SHOWN));
  }

  /**
   * Shows this many entries of a port's log.
   * @param {number} node
   * @param {number} count
   */
  fill(node, count) {
    const { report } = this;
    if (!report) return;
    const { first, entries, missed } = report.end(node);
    const shown = Math.min(count, entries);
    const items = Array.from({ length: shown }, (_, entry) => this.entryOf(node, entry, report.line(first + entry)));
    const notes = [];
    if (shown < entries) {
      const words = `Shown are ${shown.toLocaleString('en')} of ${counted(entries, 'entry', 'entries')}`;
      const more = { type: 'button', 'data-node': node, 'data-more': shown + 10 * SHOWN };
      notes.push(html('p', {}, [
        `${words}; all are in the report, which can be downloaded below. `, html('button', more, [`Show ${10 * SHOWN} more`]),
      ]));
    }
    if (missed !== '0') notes.push(html('p', {}, [`The log had no space for ${missed} more.`]));
    if (entries === 0 && missed === '0') notes.push(html('p', {}, ['Nothing was sent or received.']));
    this.ports[node].log.replaceChildren(html('ol', { 'aria-label': `Log of port ${node}` }, items), ...notes);
  }

  /**
   * An entry, with the bit time at which its frame ended, if that is known.
   * @param {number} node
   * @param {number} entry
   * @param {string} line
   */
  entryOf(node, entry, line) {
    const kind = line.startsWith('sent') ? 'sent' : 'took';
    const frame = line.slice(5);
    const port = this.bus?.ports[node];
    const time = port?.heard[entry];
    const where = port && time !== undefined && port.event(time) === KIND[kind] ? [timeOf(time, node), ' '] : [];
    return html('li', {}, [...where, `${WORDS[kind]} `, html('code', {}, [frame])]);
  }
}

/**
 * What goes to the bit time of an entry.
 * @param {number} time
 * @param {number} node
 */
function timeOf(time, node) {
  const attributes = { type: 'button', class: 'link', 'data-time': time, 'data-node': node };
  return html('button', attributes, [`Bit time ${time.toLocaleString('en')}`]);
}
