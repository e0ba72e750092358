/** The view that finds the frames and faults in a trace. */
import { numberIn, packed, unpacked } from './address.js';
import { ANSWER, MOST_BYTES } from './core.js';
import { buttonById, byId, closestTo, download, html, inputById, textById } from './draw.js';
import { Findings } from './findings.js';
import { Timeline } from './timeline.js';
import { FAULTS, HEARD_WORDS, counted } from './words.js';
import { WireView } from './wire_view.js';

/** A trace with frames and faults to begin with. */
const EXAMPLE = `11111111111
00010010001100000100110100001011000 1011111111 111
00010010001111000001000001000001000001000001101111000110111 1111111111 111
000000 11111111 111
0000010000010100000100010001000010011 1011111111 111
111111111111111111111111111111111111111111111111111111111111
000001000001001001000001001111100000110 1011111111 111
`;

/** The number of findings on one page of the list. */
const PAGE = 50;

/** A text longer than this is kept, and not put into the field. */
const MOST_TYPED = 200000;

/** The number of levels after a fault that are shown with it. */
const BEHIND = 12;

export class DecodeView {
  /** @param {import('./core.js').Core} core */
  constructor(core) {
    this.core = core;
    this.typed = textById('trace-text');
    this.picked = -1;
    this.page = 0;
    this.answers = 0;
    /** @type {import('./timeline.js').Traced | null} */
    this.traced = null;
    this.bytes = new Uint8Array();
    this.lines = new Uint8Array();
    this.timeline = new Timeline(byId('timeline'), (line) => this.pick(line));
    this.wires = new WireView(byId('decode-wire'), byId('decode-level'), byId('decode-fields'));
    this.listen();
    this.typed.value = EXAMPLE;
    this.showTyped();
  }

  listen() {
    this.typed.addEventListener('input', () => this.showTyped());
    this.typed.addEventListener('paste', (event) => this.paste(event));
    const choice = inputById('trace-file');
    choice.addEventListener('change', () => this.showFile(choice.files?.[0]));
    byId('trace-example').addEventListener('click', () => {
      this.typed.value = EXAMPLE;
      this.showTyped();
    });
    byId('trace-save').addEventListener('click', () => download('trace.txt', 'text/plain', this.bytes));
    const lines = () => new TextDecoder().decode(this.lines);
    byId('answer-download').addEventListener('click', () => download('answer.txt', 'text/plain', lines()));
    this.listenToDrops(byId('panel-decode'));
    const actions = {
      'zoom-in': () => this.timeline.zoom(0.5), 'zoom-out': () => this.timeline.zoom(2), 'zoom-all': () => this.timeline.whole(),
      earlier: () => this.timeline.pan(-0.5), later: () => this.timeline.pan(0.5),
      'previous-found': () => this.step(-1), 'next-found': () => this.step(1), 'next-fault': () => this.nextFault(),
      'page-back': () => this.turn(-1), 'page-on': () => this.turn(1),
    };
    for (const [id, action] of Object.entries(actions)) byId(id).addEventListener('click', action);
    byId('found-list').addEventListener('click', (event) => {
      const row = closestTo(event, 'tr');
      if (row) this.pick(Number(row.dataset.line));
    });
  }

  /** @param {HTMLElement} panel onto which files may be dropped */
  listenToDrops(panel) {
    panel.addEventListener('dragover', (event) => {
      if (!event.dataTransfer?.types.includes('Files')) return;
      event.preventDefault();
      panel.classList.add('dropping');
    });
    for (const end of ['dragleave', 'drop']) panel.addEventListener(end, () => panel.classList.remove('dropping'));
    panel.addEventListener('drop', (event) => {
      const file = event.dataTransfer?.files[0];
      if (!file) return;
      event.preventDefault();
      this.showFile(file);
    });
  }

  showTyped() {
    byId('trace-name').textContent = '';
    this.show(new TextEncoder().encode(this.typed.value));
  }

  /** @param {ClipboardEvent} event */
  paste(event) {
    const text = event.clipboardData?.getData('text') ?? '';
    if (text.length <= MOST_TYPED) return;
    // the field would be slow with so long a text
    event.preventDefault();
    this.typed.value = '';
    byId('trace-name').textContent = `Shown: the pasted text, ${counted(text.length, 'character')}.`;
    this.show(new TextEncoder().encode(text));
  }

  /** @param {File | undefined} file */
  async showFile(file) {
    if (!file) return;
    this.typed.value = '';
    byId('trace-name').textContent = `Shown: ${file.name}, ${counted(file.size, 'byte')}.`;
    try {
      this.show(file.size > MOST_BYTES ? null : new Uint8Array(await file.arrayBuffer()));
    } catch {
      this.clear(`${file.name} could not be read.`);
    }
  }

  /** @param {Uint8Array | null} bytes none if there are too many */
  show(bytes) {
    if (!bytes || bytes.length > MOST_BYTES) {
      const most = `this page takes up to ${counted(MOST_BYTES, 'byte')}`;
      this.clear(`The trace is too long: ${most}. The program canbit decodes longer ones.`);
      return;
    }
    this.bytes = bytes;
    const began = performance.now();
    const { answer, place, levels, lines } = this.core.decode(bytes);
    if (answer === ANSWER.noRoom) {
      this.clear('The output is too long for this page. The program canbit has no such limit.');
      return;
    }
    const findings = new Findings(lines);
    this.lines = lines;
    this.reportWhole(levels, findings, performance.now() - began);
    byId('trace-fault').replaceChildren(...(answer === ANSWER.done ? [] : badByte(bytes, place)));
    this.typed.setAttribute('aria-invalid', String(answer !== ANSWER.done));
    this.traced = { levels, findings, endOf: this.endsOf(levels, findings) };
    this.timeline.show(this.traced);
    byId('decode-shown').hidden = levels.length === 0;
    buttonById('answer-download').disabled = findings.count === 0;
    this.timeline.draw();
    if (findings.count > 0) this.pick(0, false);
    else this.pickNone();
  }

  /**
   * What the view shows, for an address; nothing if that is too long.
   * @returns {Promise<Record<string, string | number> | null>}
   */
  async what() {
    if (this.bytes.length > MOST_TYPED) return null;
    const place = this.picked >= 0 ? this.traced?.findings.starts[this.picked] : undefined;
    const trace = await packed(new TextDecoder().decode(this.bytes));
    return place === undefined ? { trace } : { trace, place };
  }

  /**
   * Shows what an address says.
   * @param {import('./address.js').Shown} what
   */
  async open(what) {
    const text = what.trace === undefined ? null : await unpacked(what.trace);
    if (text === null) return;
    this.typed.value = text.length <= MOST_TYPED ? text : '';
    byId('trace-name').textContent = '';
    this.show(new TextEncoder().encode(text));
    const findings = this.traced?.findings;
    const line = findings?.firstFrom(numberIn(what.place) ?? 0) ?? 0;
    if (findings && line < findings.count) this.pick(line);
  }

  /** @param {string} why nothing is shown */
  clear(why) {
    byId('trace-fault').textContent = why;
    byId('decode-reported').textContent = '';
    byId('decode-shown').hidden = true;
    this.typed.setAttribute('aria-invalid', 'true');
    this.traced = null;
    this.bytes = new Uint8Array();
    this.lines = new Uint8Array();
    this.timeline.show(null);
    this.pickNone();
  }

  /**
   * @param {Uint8Array} levels
   * @param {Findings} findings
   * @param {number} took in milliseconds
   */
  reportWhole(levels, findings, took) {
    const line = byId('decode-reported');
    const found = `${counted(findings.count - findings.faults, 'frame')} and ${counted(findings.faults, 'fault')}`;
    line.textContent = `${found} in ${counted(levels.length, 'level')}, decoded in ${Math.ceil(took)} ms.`;
    line.dataset.took = String(took);
    this.answers += 1;
    line.dataset.answers = String(this.answers);
  }

  /**
   * The place after each finding's last level, asked of the proved code once each is drawn.
   * @param {Uint8Array} levels
   * @param {Findings} findings
   * @returns {(line: number) => number}
   */
  endsOf(levels, findings) {
    const ends = new Uint32Array(findings.count);
    return (line) => {
      if (ends[line] === 0) {
        const start = findings.starts[line];
        const marked = () => start + this.core.markCount(levels.subarray(start, start + 157));
        ends[line] = findings.isFault[line] ? findings.at(line).place + 1 : marked();
      }
      return ends[line];
    };
  }

  /**
   * Shows one finding: on the time line, in the list and level by level.
   * @param {number} line
   * @param {boolean} [zooms] whether the time line moves to it
   */
  pick(line, zooms = true) {
    if (!this.traced) return;
    const { findings, levels, endOf } = this.traced;
    this.picked = line;
    if (zooms) this.timeline.pick(line);
    this.page = Math.floor(line / PAGE);
    this.list();
    const found = findings.at(line);
    const number = html('strong', {}, [`${line + 1} of ${findings.count.toLocaleString('en')}: `]);
    byId('found-words').replaceChildren(number, ...foundWords(found));
    this.wires.show(wireOf(this.core, levels, found, endOf(line)));
    byId('found-shown').hidden = false;
    this.wires.draw();
    this.enableSteps();
  }

  pickNone() {
    this.picked = -1;
    byId('found-words').textContent = this.traced ? 'There is no frame and no fault in the trace.' : '';
    byId('found-shown').hidden = true;
    this.wires.show(null);
    this.list();
    this.enableSteps();
  }

  enableSteps() {
    const count = this.traced?.findings.count ?? 0;
    buttonById('previous-found').disabled = this.picked <= 0;
    buttonById('next-found').disabled = this.picked + 1 >= count;
    buttonById('next-fault').disabled = (this.traced?.findings.faults ?? 0) === 0;
    buttonById('page-back').disabled = this.page === 0;
    buttonById('page-on').disabled = (this.page + 1) * PAGE >= count;
  }

  /** @param {number} by */
  step(by) {
    this.pick(this.picked + by);
  }

  /** The next fault after the picked finding, or otherwise the first. */
  nextFault() {
    if (!this.traced) return;
    const { isFault } = this.traced.findings;
    const next = isFault.indexOf(1, this.picked + 1);
    this.pick(next >= 0 ? next : isFault.indexOf(1));
  }

  /** @param {number} by pages of the list */
  turn(by) {
    this.page += by;
    this.list();
    this.enableSteps();
  }

  /** Fills in the page of the list. */
  list() {
    const findings = this.traced?.findings;
    const count = findings?.count ?? 0;
    const first = this.page * PAGE;
    const last = Math.min(first + PAGE, count);
    const rows = [];
    for (let line = first; findings && line < last; line += 1) rows.push(this.listRow(line, findings.at(line)));
    byId('found-list').replaceChildren(...rows);
    const shown = `${(first + 1).toLocaleString('en')} to ${last.toLocaleString('en')} of ${count.toLocaleString('en')}`;
    byId('page-reported').textContent = last > 0 ? shown : '';
  }

  /**
   * @param {number} line
   * @param {import('./findings.js').Finding} found
   */
  listRow(line, found) {
    const picked = line === this.picked;
    const button = html('button', { type: 'button', class: 'link', 'aria-pressed': picked }, [found.start.toLocaleString('en')]);
    return html('tr', { 'data-line': line, class: picked ? 'picked' : '' }, [
      html('td', { 'data-name': 'Place' }, [button]),
      html('td', { class: 'mono', 'data-name': 'Frame or fault' }, [found.fault ? `${found.fault} at ${found.place}` : found.frame]),
      html('td', { 'data-name': 'In words' }, [found.fault ? FAULTS[found.fault].name : heardWords(found.heard)]),
    ]);
  }
}

/** @param {string[]} heard */
function heardWords(heard) {
  return heard.map((word) => HEARD_WORDS[word]).join(', ');
}

/**
 * @param {import('./findings.js').Finding} found
 * @returns {Array<string | Node>}
 */
function foundWords(found) {
  if (!found.fault) return [`a frame at ${found.start}: `, html('code', {}, [found.frame]), `, ${heardWords(found.heard)}.`];
  const { name, expected } = FAULTS[found.fault];
  return [`no frame at ${found.start}. `, html('strong', { class: 'fault-name' }, [`${name} (${found.fault}) at ${found.place}.`]), ` ${expected}`];
}

/**
 * The levels of a finding as a wire: those of a frame, or those before and at the fault and some after it.
 * @param {import('./core.js').Core} core
 * @param {Uint8Array} levels
 * @param {import('./findings.js').Finding} found
 * @param {number} end
 */
function wireOf(core, levels, found, end) {
  const shown = levels.slice(found.start, found.fault ? end + BEHIND : end);
  const { fields, stuffed } = core.marks(shown);
  const known = found.fault ? found.place + 1 - found.start : shown.length;
  return {
    id: 'heard', name: found.fault ? `Levels from ${found.start} on, with a fault at ${found.place}` : `Levels of ${found.frame}`, levels: shown,
    fields: fields.subarray(0, known), stuffed: stuffed.subarray(0, known), first: found.start, fault: found.fault ? found.place - found.start : null,
  };
}

/**
 * @param {Uint8Array} bytes
 * @param {number} place
 * @returns {Array<string | Node>}
 */
function badByte(bytes, place) {
  /** @param {number} from @param {number} to */
  const around = (from, to) => new TextDecoder('latin1').decode(bytes.subarray(Math.max(from, 0), to)).replaceAll('\n', ' ');
  return [
    html('strong', {}, [`Byte ${place.toLocaleString('en')} is no level`]), ': 0, 1, a space or a line end was expected. ',
    html('code', { class: 'excerpt' }, [around(place - 24, place), html('mark', {}, [around(place, place + 1)]), around(place + 1, place + 13)]),
    ' The text before it is shown.',
  ];
}
