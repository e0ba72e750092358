/** The view that runs a scenario, and shows its bus bit time by bit time. */
import { numberIn, packed, unpacked } from './address.js';
import { ANSWER } from './core.js';
import { EndView } from './bus_end.js';
import { BusPicture } from './bus_picture.js';
import { EVENT, BusTimes, DOES, PortTimes } from './bus_times.js';
import { EVENT_WORDS, DOES_WORDS, PHASE_WORDS } from './bus_words.js';
import { DocumentView } from './document_view.js';
import { buttonById, byId, copyText, download, html } from './draw.js';
import { Report } from './report.js';
import { ScenarioForm } from './scenario_form.js';
import { faultIn } from './scenario_fault.js';
import { formOf, textOf } from './scenario_text.js';
import { counted } from './words.js';
import { latestOf, worstCaseWords } from './worst_case.js';

/** A picture with more bit times of ports is not drawn, and a longer report is not shown, only downloaded. */
const MOST_PORT_TIMES = 8000000;
const MOST_SHOWN = 100000;

/** How often, in milliseconds, the bit time is shown again while ports come. */
const SHOWN_EACH = 200;

const LEVEL_WORDS = ['dominant', 'recessive'];

/** The names of the columns of the ports in a bit time. */
const COLUMNS = ['Phase', 'Role', 'Drives', 'Sees', 'TEC', 'REC', 'Event'];

/** @typedef {import('./scenario_text.js').ScenarioForm} FormContents */
/** @typedef {import('./runs.js').PortReport} PortReport */
/** @typedef {import('./worst_case.js').WorstCase} WorstCase */

/** @extends {DocumentView<FormContents>} */
export class BusView extends DocumentView {
  /**
   * @param {import('./core.js').Core} core
   * @param {import('./runs.js').Runs} runs
   */
  constructor(core, runs) {
    /** @type {ScenarioForm} */
    const form = new ScenarioForm(() => this.take(textOf(form.read()), { fills: false }));
    super({ view: 'bus', what: 'scenario', program: 'canbit', most: 100000 }, runs, form);
    this.core = core;
    this.picked = 0;
    /** @type {BusTimes | null} */
    this.bus = null;
    /** @type {Report | null} */
    this.report = null;
    /** @type {WorstCase | null} that is shown */
    this.worst = null;
    /** @type {{time?: number, from?: number, span?: number} | null} what an address says of the picture */
    this.opened = null;
    this.waits = false;
    this.picture = new BusPicture(byId('bus-picture'), (levels) => core.marks(levels), (time) => this.pick(time));
    this.ends = new EndView((time, node) => this.visit(time, node));
    const key = DOES.map((does) => html('li', {}, [html('span', { class: `swatch does-${does}` }), DOES_WORDS[does].name]));
    byId('bus-key').append(...key);
    this.listen();
    this.showExample('arbitration');
  }

  listen() {
    const { picture } = this;
    const actions = {
      'bus-back': () => this.pick(this.picked - 1), 'bus-on': () => this.pick(this.picked + 1),
      'bus-zoom-in': () => picture.zoom(0.5), 'bus-zoom-out': () => picture.zoom(2),
      'bus-zoom-all': () => picture.view(0, Infinity),
      'bus-earlier': () => picture.pan(-0.5), 'bus-later': () => picture.pan(0.5),
      'bus-next': () => this.nextEvent(), 'bus-previous': () => this.previousEvent(),
      'bus-fold': () => picture.foldAll(true), 'bus-unfold': () => picture.foldAll(false),
      'bus-copy': () => this.copy(),
      'bus-download': () => download('report.txt', 'text/plain', this.report?.bytes ?? ''),
      'bus-edit': () => { byId('bus-scenario').scrollIntoView(); this.document.field.focus(); },
    };
    for (const [id, action] of Object.entries(actions)) byId(id).addEventListener('click', action);
    byId('bus-picture').addEventListener('keydown', (event) => this.key(event));
  }

  /** @param {KeyboardEvent} event */
  key(event) {
    const { picture } = this;
    /** @type {Record<string, () => void>} */
    const actions = {
      ArrowLeft: () => this.pick(this.picked - 1), ArrowRight: () => this.pick(this.picked + 1),
      PageUp: () => this.pick(this.picked - 10), PageDown: () => this.pick(this.picked + 10),
      Home: () => this.pick(0), End: () => this.pick(Infinity),
      '+': () => picture.zoom(0.5), '=': () => picture.zoom(0.5), '-': () => picture.zoom(2), 0: () => picture.view(0, Infinity),
      n: () => this.nextEvent(), p: () => this.previousEvent(),
      ArrowUp: () => picture.goTo(picture.node - 1), ArrowDown: () => picture.goTo(picture.node + 1),
      Enter: () => picture.fold(picture.node),
    };
    const action = actions[event.key];
    if (!action || event.ctrlKey || event.altKey || event.metaKey) return;
    event.preventDefault();
    action();
  }

  /** @param {string} text */
  formOf(text) { return this.document.isLong ? null : formOf(text); }

  /** @param {import('./core.js').WrongField} wrong */
  faultIn(wrong) { return faultIn(this.core, this.document.text, wrong); }

  /** @param {string} text @param {{types?: boolean, fills?: boolean}} [how] as in every such view */
  take(text, how) {
    this.worst = null;
    super.take(text, how);
  }

  /**
   * Shows the worst case of a message, and goes to its latest frame.
   * @param {WorstCase} worst
   */
  async showWorst(worst) {
    this.take(worst.scenario);
    this.worst = worst;
    await this.ran;
  }

  forget() {
    this.bus = null;
    this.report = null;
    this.picture.show(null);
    byId('bus-worst').textContent = '';
  }

  /** @param {Uint8Array} bytes the scenario */
  async answer(bytes) {
    const began = performance.now();
    const reported = await this.runs.report(bytes);
    const took = performance.now() - began;
    if (!reported || !(await this.isFilled())) return;
    if (reported.answer === ANSWER.badScenario) this.refuseField(reported.wrong);
    else if (reported.answer !== ANSWER.done || !reported.index) this.refuseForMemory();
    else await this.show(bytes, new Report(reported.report, reported.index), took);
  }

  /**
   * Shows a report, and the ports as they come.
   * @param {Uint8Array} bytes the scenario
   * @param {Report} report
   * @param {number} took in milliseconds
   */
  async show(bytes, report, took) {
    this.clearFault();
    this.report = report;
    const isDrawn = report.ports * report.levels.length <= MOST_PORT_TIMES;
    const bus = isDrawn ? new BusTimes(report.levels, report.ports) : null;
    this.bus = bus;
    byId('bus-shown').hidden = false;
    byId('bus-drawn').hidden = !bus?.count;
    this.reportWhole(report, took);
    byId('bus-worst').textContent = this.worst ? worstCaseWords(this.worst, null) : '';
    byId('bus-report').textContent = shownOf(report);
    this.ends.show(report, bus);
    this.picture.show(bus);
    this.enter('reported');
    this.begin();
    if (bus?.count) {
      const { levels, ports } = report;
      const onPort = (/** @type {number} */ node, /** @type {PortReport} */ port) => this.put(bus, node, port);
      if (!(await this.runs.ports(bytes, levels, ports, () => this.nextPort(bus), onPort))) return;
    }
    if (this.bus !== bus) return;
    if (bus?.count) this.reportTime(bus);
    this.enter('shown');
  }

  /** Picks the bit time at which a view begins. */
  begin() {
    const { time = 0, from, span } = this.opened ?? {};
    this.opened = null;
    if (!this.bus?.count) return;
    this.pick(time);
    if (from !== undefined && span !== undefined) this.picture.view(from, span);
  }

  /**
   * The port that is to come next: one in view, or otherwise the first.
   * @param {BusTimes} bus
   */
  nextPort(bus) {
    const node = [...this.picture.inView, ...bus.ports.keys()].find((each) => !bus.asked.has(each));
    if (node !== undefined) bus.asked.add(node);
    return node;
  }

  /** @param {BusTimes} bus @param {number} node @param {PortReport} reported */
  put(bus, node, { times, index }) {
    const port = new PortTimes(times, index);
    bus.put(node, port);
    this.ends.refresh(node);
    this.picture.come(node);
    this.reportSoon(bus);
    if (this.worst && this.report && node === this.worst.port) this.goToLatest(this.worst, this.report, port);
  }

  /**
   * Goes to the end of the latest frame of the message whose worst case is shown, with all in view since its offer.
   * @param {WorstCase} worst
   * @param {Report} report
   * @param {PortTimes} times those of its port
   */
  goToLatest(worst, report, times) {
    const { first } = report.end(worst.port);
    const isOwn = (/** @type {number} */ time, /** @type {number} */ entry) => {
      return times.event(time) === EVENT.sent && report.line(first + entry).startsWith(`sent ${worst.name} `);
    };
    const latest = latestOf(worst, Array.from(times.heard.filter(isOwn), (time) => time + 1));
    byId('bus-worst').textContent = worstCaseWords(worst, latest);
    this.picture.view(latest.offer - 1, latest.wait + 2);
    this.visit(latest.end - 1, worst.port);
  }

  /** @param {Report} report @param {number} took in milliseconds */
  reportWhole({ levels, ports }, took) {
    const undrawn = this.bus === null ? ' The picture would be too large for this page; the report is whole.' : '';
    const line = byId('bus-reported');
    line.textContent = `${counted(levels.length, 'bit time')} of ${counted(ports, 'port')}, run in ${Math.ceil(took)} ms.${undrawn}`;
    line.dataset.took = String(took);
  }

  /**
   * Shows one bit time of all ports.
   * @param {number} time
   */
  pick(time) {
    if (!this.bus?.count) return;
    this.picked = Math.min(Math.max(time, 0), this.bus.count - 1);
    this.picture.pick(this.picked);
    buttonById('bus-back').disabled = this.picked === 0;
    buttonById('bus-on').disabled = this.picked === this.bus.count - 1;
    this.reportTime(this.bus);
  }

  /**
   * Goes to an entry of a log.
   * @param {number} time
   * @param {number} node
   */
  visit(time, node) {
    this.pick(time);
    this.picture.goTo(node);
    byId('bus-picture').scrollIntoView({ block: 'center' });
    byId('bus-picture').focus({ preventScroll: true });
  }

  /**
   * Shows the picked bit time again as ports come: at once if all are there, otherwise now and then.
   * @param {BusTimes} bus
   */
  reportSoon(bus) {
    if (this.waits) return;
    this.waits = true;
    setTimeout(() => {
      this.waits = false;
      if (this.bus?.count) this.reportTime(this.bus);
    }, bus.awaited > 0 ? SHOWN_EACH : 0);
  }

  /** @param {BusTimes} bus */
  reportTime(bus) {
    const time = this.picked;
    const level = LEVEL_WORDS[bus.levels[time]];
    const hit = bus.isHit(time) ? ', disturbed' : '';
    const events = bus.ports.flatMap((port, node) => (port && comesTo(port, time) ? [`port ${node}: ${comesTo(port, time)}`] : []));
    const awaited = bus.awaited > 0 ? ` (${counted(bus.awaited, 'port')} being computed)` : '';
    const words = `${level}${hit}${events.length ? `; ${events.join(', ')}` : ''}${awaited}`;
    byId('bus-time').textContent = `Bit time ${time.toLocaleString('en')}: ${words}`;
    byId('bus-rows').replaceChildren(...bus.ports.flatMap((port, node) => (port ? [portRow(port, node, time, bus)] : [])));
  }

  /** The next bit time with an event of a port or a hit, or otherwise the first. */
  nextEvent() {
    if (this.bus?.count) this.pick(this.bus.eventBehind(this.picked) ?? this.bus.eventBehind(-1) ?? this.picked);
  }

  /** The last such bit time before this one, or otherwise the last of all. */
  previousEvent() {
    if (this.bus?.count) this.pick(this.bus.eventBefore(this.picked) ?? this.bus.eventBefore(Infinity) ?? this.picked);
  }

  async copy() {
    const copied = await copyText(this.report?.text ?? '');
    byId('bus-copied').textContent = copied ? 'Copied.' : 'This browser does not allow the page to copy.';
  }

  /** What the view shows, for an address; nothing if that is too long. */
  async what() {
    if (this.document.isLong) return null;
    const { from, span } = this.picture;
    return { scenario: await packed(this.document.text), time: this.picked, from: Math.round(from), span: Math.round(span) };
  }

  /**
   * Shows what an address says.
   * @param {import('./address.js').Shown} what
   */
  async open(what) {
    const text = what.scenario === undefined ? null : await unpacked(what.scenario);
    if (text === null) return;
    this.opened = { time: numberIn(what.time), from: numberIn(what.from), span: numberIn(what.span) };
    this.take(text);
  }
}

/**
 * A report, or the first part of a long one.
 * @param {Report} report
 */
function shownOf(report) {
  const { bytes } = report;
  if (bytes.length <= MOST_SHOWN) return report.text;
  const first = new TextDecoder().decode(bytes.subarray(0, MOST_SHOWN));
  const all = counted(bytes.length, 'byte');
  return `${first}\n(So far ${MOST_SHOWN.toLocaleString('en')} of ${all}; the whole report is in the download.)`;
}

/**
 * @param {PortTimes} port
 * @param {number} node
 * @param {number} time
 * @param {BusTimes} bus
 */
function portRow(port, node, time, bus) {
  const does = DOES[port.kinds[port.runAt(time)]];
  const blind = bus.isBlind(port, time) ? ' (disturbed)' : '';
  const cells = [
    port.isStart(time) ? 'start of frame' : PHASE_WORDS[port.phase(time)], port.isSender(time) ? 'sender' : 'receiver',
    LEVEL_WORDS[port.drove(time)], LEVEL_WORDS[port.saw(time)] + blind,
    String(port.transmit(time)), String(port.receive(time)), comesTo(port, time),
  ];
  return html('tr', {}, [
    html('th', { scope: 'row' }, [html('span', { class: `swatch does-${does}` }), `Port ${node}`]),
    ...cells.map((cell, column) => html('td', { 'data-name': COLUMNS[column] }, [cell])),
  ]);
}

/**
 * The event of a port in a bit time, in words.
 * @param {PortTimes} port
 * @param {number} time
 */
function comesTo(port, time) {
  const event = EVENT_WORDS[port.event(time)];
  return port.isStart(time) && port.isSender(time) ? ['begins its frame', event].filter(Boolean).join(', ') : event;
}
