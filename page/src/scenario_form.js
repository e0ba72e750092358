/** The form of a scenario, beside its text. */
import { byId, closestTo, html, inputById, textById } from './draw.js';
import { newPort } from './scenario_text.js';

/** @typedef {import('./scenario_text.js').PortForm} PortForm */
/** @typedef {import('./scenario_text.js').ScenarioForm} Form */

/** The fields at the top. */
const TOP = /** @type {const} */ (['version', 'bits', 'at', 'in', 'view']);

/** What fields of texts have in common. */
const COMMON = Object.freeze({ class: 'mono', autocomplete: 'off', spellcheck: 'false' });

/** The values of fields that are left empty. */
const DEFAULTS = Object.freeze({ queue: 'none', log: '64', hold: '0' });

/** The number of ports, and of letters of the frames of one, that are shown unfolded. */
const MOST_UNFOLDED = 4;
const MOST_LETTERS = 2000;

export class ScenarioForm {
  /** @param {() => void} onChange */
  constructor(onChange) {
    this.onChange = onChange;
    this.ports = byId('bus-ports');
    /** @type {PortForm[]} the ports as they were given */
    this.given = [];
    /** @type {HTMLDetailsElement[]} the same as they are shown */
    this.shown = [];
    byId('bus-form').addEventListener('input', () => this.changed());
    byId('bus-form').addEventListener('submit', (event) => event.preventDefault());
    byId('bus-add').addEventListener('click', () => {
      this.addPort(newPort(), true);
      this.changed();
      byId(`bus-queue-${this.given.length - 1}`).focus();
    });
    this.ports.addEventListener('click', (event) => {
      const button = closestTo(event, '.remove');
      if (!button) return;
      const form = this.read();
      form.ports.splice(Number(button.dataset.node), 1);
      this.fill(form);
      this.changed();
      byId('bus-add').focus();
    });
  }

  changed() {
    byId('bus-hits').hidden = inputById('bus-version').value === '2';
    this.onChange();
  }

  /** @param {Form} form */
  fill(form) {
    for (const name of TOP) inputById(`bus-${name}`).value = form[name];
    byId('bus-hits').hidden = form.version === '2';
    this.ports.replaceChildren();
    this.given = [];
    this.shown = [];
    const areFew = form.ports.length <= MOST_UNFOLDED;
    for (const port of form.ports) this.addPort(port, areFew && port.queue.length <= MOST_LETTERS);
  }

  /** @returns {Form} */
  read() {
    const form = { version: '', bits: '', at: '', in: '', view: '' };
    for (const name of TOP) form[name] = inputById(`bus-${name}`).value;
    return { ...form, ports: this.given.map((port, node) => (this.isFilled(node) ? this.readPort(node) : port)) };
  }

  /**
   * Whether a port has its fields: it has them once it is unfolded.
   * @param {number} node
   */
  isFilled(node) { return this.shown[node].childElementCount > 1; }

  /**
   * @param {number} node
   * @returns {PortForm}
   */
  readPort(node) {
    return {
      queue: textById(`bus-queue-${node}`).value, log: inputById(`bus-log-${node}`).value,
      join: inputById(`bus-join-${node}`).checked, hold: inputById(`bus-hold-${node}`).value,
    };
  }

  /** @param {PortForm} port @param {boolean} isOpen */
  addPort(port, isOpen) {
    const node = this.given.push(port) - 1;
    const folded = html('details', { class: 'port-form' }, [html('summary', {}, [`Port ${node}`])]);
    this.ports.append(folded);
    this.shown.push(folded);
    folded.addEventListener('toggle', () => { if (folded.open) this.fillPort(node); });
    if (isOpen) this.unfold(node);
  }

  /** @param {number} node */
  unfold(node) {
    this.fillPort(node);
    this.shown[node].open = true;
  }

  /**
   * Gives a port its fields.
   * @param {number} node
   */
  fillPort(node) {
    if (this.isFilled(node)) return;
    const port = this.given[node];
    const join = html('input', { id: `bus-join-${node}`, type: 'checkbox' });
    join.checked = port.join;
    this.shown[node].append(html('fieldset', { class: 'parts', 'aria-label': `Port ${node}` }, [
      queueEntry(node, port.queue),
      numberEntry('log', 'Log capacity', node, port.log),
      numberEntry('hold', 'Overload frames', node, port.hold),
      html('label', { class: 'check' }, [join, ' has to join first']),
      html('button', { type: 'button', class: 'remove', 'data-node': node, 'aria-label': `Remove port ${node}` }, ['Remove']),
    ]));
  }

  /**
   * Whether the form shows the text.
   * @param {boolean} shows
   */
  enable(shows) {
    byId('bus-form').querySelectorAll('fieldset').forEach((set) => { set.disabled = !shows; });
    byId('bus-formless').hidden = shows;
  }

  /**
   * Marks the field that is wrong, by the name that canbit gives it, if the form shows the text.
   * @param {string} code
   */
  mark(code) {
    for (const field of byId('bus-form').querySelectorAll('[aria-invalid]')) field.removeAttribute('aria-invalid');
    const found = /^(?:port\[(\d+)\]\.(queue|log|join|hold)|(version|bits|at|in|view))/.exec(code);
    const id = found && (found[3] ? `bus-${found[3]}` : `bus-${found[2]}-${found[1]}`);
    if (!id || !byId('bus-formless').hidden) return;
    const node = Number(found[1]);
    if (node < this.shown.length) this.unfold(node);
    document.getElementById(id)?.setAttribute('aria-invalid', 'true');
  }
}

/**
 * The field of the frames of a port.
 * @param {number} node
 * @param {string} queue
 */
function queueEntry(node, queue) {
  const field = html('textarea', {
    ...COMMON, id: `bus-queue-${node}`, rows: Math.min(Math.max(queue.split('\n').length, 2), 6), placeholder: DEFAULTS.queue,
    'aria-describedby': 'bus-queue-hint bus-fault',
  });
  field.value = queue;
  return html('div', { class: 'entry wide' }, [html('label', { for: `bus-queue-${node}` }, ['Frames to send']), field]);
}

/**
 * A field of a number of a port.
 * @param {'log' | 'hold'} name
 * @param {string} label
 * @param {number} node
 * @param {string} value
 */
function numberEntry(name, label, node, value) {
  const field = html('input', {
    ...COMMON, id: `bus-${name}-${node}`, type: 'text', inputmode: 'numeric', size: 6, value, placeholder: DEFAULTS[name],
    'aria-describedby': 'bus-fault',
  });
  return html('div', { class: `entry ${name}` }, [html('label', { for: `bus-${name}-${node}` }, [label]), field]);
}
