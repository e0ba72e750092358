/** What the views of documents have in common: a document is picked, typed or opened, and its result or its fault is shown. */
import { DocumentField } from './document_field.js';
import { byId, html, messageOf, painted, selectById } from './draw.js';

/** @typedef {import('./core.js').WrongField} WrongField */
/** @typedef {import('./draw.js').Inside} Inside */

/**
 * @template F
 * @typedef {object} DocumentForm the form beside the text
 * @property {(form: F) => void} fill
 * @property {(shows: boolean) => void} enable whether it shows the text
 * @property {(code: string) => void} mark marks the field that is wrong, by the name that the program gives it
 */

/**
 * @typedef {object} Fault what is wrong in a document
 * @property {string} code the field, as the program names it
 * @property {string} place its line and column
 * @property {string} why what it must be
 * @property {Inside} inside what is wrong inside it
 */

/**
 * A view has a form beside the text, and says how a text fills it (`formOf`), what is done with the bytes of a text
 * (`answer`), what is wrong in it (`faultIn`), and what to clear when nothing is shown (`forget`).
 * @template F what the form shows
 */
export class DocumentView {
  /**
   * @param {import('./document_field.js').DocumentKind} of the view
   * @param {import('./runs.js').Runs} runs
   * @param {DocumentForm<F>} form
   */
  constructor(of, runs, form) {
    this.of = of;
    this.runs = runs;
    this.form = form;
    this.document = new DocumentField(of, (text, how) => this.take(text, how), (why) => this.refuse(why));
    /** @type {Array<[string, string]>} */
    this.examples = JSON.parse(byId(`${of.what}s`).textContent ?? '');
    /** @type {Promise<void>} until the form of the text is seen */
    this.filled = Promise.resolve();
    /** @type {Promise<void>} until the document is answered, or refused */
    this.ran = Promise.resolve();
    this.box = selectById(`${of.view}-examples`);
    this.box.append(...this.examples.map(([name]) => html('option', { value: name }, [name.replaceAll('_', ' ')])));
    this.box.addEventListener('change', () => { if (this.box.value) this.showExample(this.box.value); });
  }

  /** @param {string} name */
  showExample(name) {
    const found = this.examples.find(([other]) => other === name);
    if (found) this.take(found[1]);
  }

  /**
   * The name of the example that a text is, if it is one.
   * @param {string} text
   */
  exampleOf(text) { return this.examples.find(([, other]) => other === text)?.[0] ?? ''; }

  /**
   * @param {string} _text
   * @returns {F | null} none if the form can't show it
   */
  formOf(_text) { return null; }

  /** @param {Uint8Array} _bytes of a text */
  async answer(_bytes) {}

  /**
   * @param {WrongField} _wrong
   * @returns {Fault}
   */
  faultIn(_wrong) { return { code: '', place: '', why: '', inside: [] }; }

  forget() {}

  /**
   * Shows a document.
   * @param {string} text
   * @param {{types?: boolean, fills?: boolean}} how whether it is typed, and whether the form is filled in
   */
  take(text, { types = false, fills = true } = {}) {
    this.document.put(text, types);
    this.box.value = this.exampleOf(text);
    this.filled = fills ? this.fillForm(text) : Promise.resolve();
    this.ran = this.run();
  }

  /**
   * Fills the form in once the text is seen, and waits until the form is too: a browser lays out each of them, and the
   * answer after them, in a task of its own.
   * @param {string} text
   */
  async fillForm(text) {
    await painted();
    if (text !== this.document.text) return;
    const form = this.formOf(text);
    this.form.enable(form !== null);
    if (form) this.form.fill(form);
    await painted();
  }

  /** Waits until the form is seen; whether nothing else was asked in the meantime. */
  async isFilled() {
    const { number } = this.runs;
    await this.filled;
    return number === this.runs.number;
  }

  /** @param {string} state running, reported, shown or refused */
  enter(state) {
    byId(`panel-${this.of.view}`).dataset.state = state;
    byId(`${this.of.view}-shown`).setAttribute('aria-busy', String(state === 'running' || state === 'reported'));
  }

  /** Answers the document of the text. */
  async run() {
    const { bytes } = this.document;
    if (!bytes) {
      this.refuse([this.document.tooLong]);
      return;
    }
    this.enter('running');
    try {
      await this.answer(bytes);
    } catch (error) {
      const why = messageOf(error);
      this.refuse([`This browser could not answer the ${this.of.what} (${why}). The program ${this.of.program} can.`]);
    }
  }

  /**
   * Shows what is wrong, its place, and what is allowed there.
   * @param {WrongField} wrong
   */
  refuseField(wrong) {
    const { code, place, inside, why } = this.faultIn(wrong);
    this.form.mark(code);
    this.refuse([html('strong', {}, [`P2 ${code}`]), place, ': ', why, ...inside], `The ${this.of.what} is wrong: P2 ${code}${place}.`);
  }

  refuseForMemory() {
    const { what, program } = this.of;
    this.refuse([`The ${what} needs more memory than this page has. The program ${program} has no such limit.`]);
  }

  /**
   * @param {Inside} why nothing is shown
   * @param {string} [status] the same, shorter
   */
  refuse(why, status = '') {
    this.runs.number += 1;
    byId(`${this.of.view}-fault`).replaceChildren(...why);
    this.document.mark(true);
    this.box.value = '';
    byId(`${this.of.view}-shown`).hidden = true;
    byId(`${this.of.view}-reported`).textContent = status;
    this.forget();
    this.enter('refused');
  }

  clearFault() {
    this.form.mark('');
    this.document.mark(false);
    byId(`${this.of.view}-fault`).textContent = '';
  }
}
