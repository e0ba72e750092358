/** The form of a network, beside its text: the bit rate and the errors, and a table of messages. */
import { byId, closestTo, html, inputById } from './draw.js';
import { MESSAGE_NAMES, newMessage } from './network_text.js';
import { Pages } from './pages.js';

/** @typedef {import('./network_text.js').NetworkForm} Form */
/** @typedef {import('./network_text.js').MessageForm} MessageForm */

/** The fields above the table. */
const TOP = /** @type {const} */ (['rate', 'burst', 'spacing']);

/**
 * How many messages on keys go.
 * @type {Record<string, number | undefined>}
 */
const STEPS = { ArrowDown: 1, ArrowUp: -1, Enter: 1 };

/** The number of messages that are shown at a time. */
const SHOWN = 32;

/** The name of each field of a message, and its value if it is empty. */
const FIELDS = Object.freeze({
  frame: { label: 'Frame', empty: '', size: 11 },
  dlc: { label: 'DLC', empty: '8', size: 2 },
  period: { label: 'Period', empty: '', size: 8 },
  jitter: { label: 'Jitter', empty: '0', size: 8 },
  deadline: { label: 'Deadline', empty: 'period', size: 8 },
  name: { label: 'Name', empty: '', size: 16 },
});

export class NetworkForm {
  /** @param {() => void} onChange */
  constructor(onChange) {
    this.onChange = onChange;
    this.rows = byId('network-messages');
    /** @type {Form} */
    this.form = { version: '', rate: '', burst: '', spacing: '', messages: [] };
    this.wrong = '';
    this.pages = new Pages('network-messages', SHOWN, (first, last) => this.show(first, last));
    const form = byId('network-form');
    form.addEventListener('input', ({ target }) => { if (target instanceof HTMLInputElement) this.changed(target); });
    form.addEventListener('submit', (event) => event.preventDefault());
    this.rows.addEventListener('keydown', (event) => this.key(event));
    this.rows.addEventListener('click', (event) => {
      const button = closestTo(event, '.remove');
      if (button) this.remove(Number(button.dataset.place));
    });
    byId('network-add').addEventListener('click', () => this.add());
  }

  /** @param {HTMLInputElement} field */
  changed({ dataset: { place, name }, value }) {
    const top = TOP.find((it) => it === name);
    const own = MESSAGE_NAMES.find((it) => it === name);
    if (place === undefined && top) this.form[top] = value;
    else if (place !== undefined && own) this.form.messages[Number(place)][own] = value;
    this.onChange();
  }

  /**
   * Goes to the same field of the message below or above.
   * @param {KeyboardEvent} event
   */
  key(event) {
    const { place, name } = closestTo(event, 'input')?.dataset ?? {};
    const to = Number(place) + (STEPS[event.key] ?? NaN);
    if (!name || !(to >= 0 && to < this.form.messages.length)) return;
    event.preventDefault();
    if (!document.getElementById(`network-${name}-${to}`)) this.pages.goTo(to);
    byId(`network-${name}-${to}`).focus();
  }

  add() {
    const place = this.form.messages.push(newMessage()) - 1;
    this.pages.goTo(place, place + 1);
    this.onChange();
    byId(`network-frame-${place}`).focus();
  }

  /** @param {number} place */
  remove(place) {
    this.form.messages.splice(place, 1);
    this.pages.goTo(Math.min(place, this.form.messages.length - 1), this.form.messages.length);
    this.onChange();
    (document.getElementById(`network-remove-${Math.min(place, this.form.messages.length - 1)}`) ?? byId('network-add')).focus();
  }

  /** @param {Form} form */
  fill(form) {
    this.form = form;
    for (const name of TOP) inputById(`network-${name}`).value = form[name];
    this.pages.goTo(this.pages.first, form.messages.length);
  }

  /**
   * Fills in the rows of messages.
   * @param {number} first
   * @param {number} last
   */
  show(first, last) {
    this.rows.replaceChildren(...this.form.messages.slice(first, last).map((message, index) => rowOf(message, first + index)));
    this.markShown();
  }

  /**
   * Whether the form shows the text.
   * @param {boolean} shows
   */
  enable(shows) {
    byId('network-form').querySelectorAll('fieldset').forEach((set) => { set.disabled = !shows; });
    byId('network-formless').hidden = shows;
  }

  /**
   * Marks the field that is wrong, by the name that canplan gives it, if the form shows the text.
   * @param {string} code
   */
  mark(code) {
    this.wrong = byId('network-formless').hidden ? code : '';
    const place = Number(/^message\[(\d+)\]/.exec(this.wrong)?.[1] ?? NaN);
    const { first, size, count } = this.pages;
    if ((place < first || place >= first + size) && place < count) this.pages.goTo(place);
    else this.markShown();
  }

  /** Marks it among the fields that are shown: the frame stands for the whole message. */
  markShown() {
    for (const field of byId('network-form').querySelectorAll('[aria-invalid]')) field.removeAttribute('aria-invalid');
    const found = /^(?:message\[(\d+)\](?:\.(frame|dlc|period|jitter|deadline|name))?|(rate)|errors\.(burst|spacing))$/.exec(this.wrong);
    if (!found) return;
    const [, place, name = 'frame', rate, error] = found;
    document.getElementById(place === undefined ? `network-${rate ?? error}` : `network-${name}-${place}`)?.setAttribute('aria-invalid', 'true');
  }
}

/**
 * The row of a message.
 * @param {MessageForm} message
 * @param {number} place
 */
function rowOf(message, place) {
  const remove = html('button', {
    type: 'button', id: `network-remove-${place}`, class: 'remove', 'data-place': place, 'aria-label': `Remove message ${place}`,
  }, ['Remove']);
  const cells = MESSAGE_NAMES.map((name) => cellOf(name, message[name], place));
  return html('tr', {}, [html('th', { scope: 'row' }, [String(place)]), ...cells, html('td', { class: 'last' }, [remove])]);
}

/**
 * A field of a message.
 * @param {keyof MessageForm} name
 * @param {string} value
 * @param {number} place of the message
 */
function cellOf(name, value, place) {
  const { label, empty, size } = FIELDS[name];
  const field = html('input', {
    id: `network-${name}-${place}`, 'data-place': place, 'data-name': name, class: 'mono', type: 'text', size, value,
    placeholder: empty, autocomplete: 'off', spellcheck: 'false',
    'aria-label': `${label} of message ${place}`, 'aria-describedby': 'network-fault',
    ...(name === 'frame' || name === 'name' ? {} : { inputmode: 'numeric' }),
  });
  return html('td', { class: name, 'data-name': label }, [field]);
}
