/** The text of a document: typed, pasted, opened as a file and saved as one. */
import { MOST_DOCUMENT } from './core.js';
import { byId, download, html, inputById, textById } from './draw.js';
import { counted } from './words.js';

/** @typedef {import('./draw.js').Inside} Inside */

/**
 * @typedef {object} DocumentKind
 * @property {string} view whose name begins those of its elements
 * @property {string} what the name of the text
 * @property {string} program that reads it
 * @property {number} most letters of the field, which would be slow with more
 */

export class DocumentField {
  /**
   * @param {DocumentKind} kind
   * @param {(text: string, how: {types?: boolean}) => void} onText gets a text, and whether it is typed
   * @param {(why: Inside) => void} onRefused gets the reason why there is none
   */
  constructor({ view, what, program, most }, onText, onRefused) {
    this.what = what;
    this.most = most;
    this.onText = onText;
    this.onRefused = onRefused;
    this.text = '';
    this.field = textById(`${view}-text`);
    this.name = byId(`${view}-name`);
    this.tooLong = `The ${what} is too long for this page. The program ${program} has no such limit.`;
    this.field.addEventListener('input', () => this.onText(this.field.value, { types: true }));
    this.field.addEventListener('paste', (event) => this.paste(event));
    const choice = inputById(`${view}-file`);
    choice.addEventListener('change', () => this.open(choice));
    byId(`${view}-save`).addEventListener('click', () => download(`${what}.toml`, 'text/plain', this.text));
  }

  /** Whether the text is kept, and not put into the field. */
  get isLong() { return this.text.length > this.most; }

  /**
   * The bytes of the text; none if they are too many.
   * @returns {Uint8Array | null}
   */
  get bytes() {
    const bytes = new TextEncoder().encode(this.text);
    return bytes.length > MOST_DOCUMENT ? null : bytes;
  }

  /** @param {ClipboardEvent} event */
  paste(event) {
    const text = event.clipboardData?.getData('text') ?? '';
    if (text.length <= this.most) return;
    event.preventDefault();
    this.onText(text, {});
  }

  /** @param {HTMLInputElement} choice of a file */
  async open(choice) {
    const [file] = choice.files ?? [];
    if (!file) return;
    try {
      if (file.size > MOST_DOCUMENT) this.onRefused([this.tooLong]);
      else this.onText(new TextDecoder('utf-8', { fatal: true }).decode(await file.arrayBuffer()), {});
    } catch {
      this.onRefused([html('strong', {}, ['P2 toml']), ': the file is no text in UTF-8, or could not be read.']);
    }
    choice.value = '';
  }

  /**
   * Keeps a text, and shows it if it was not typed.
   * @param {string} text
   * @param {boolean} types
   */
  put(text, types) {
    this.text = text;
    if (!types) this.field.value = this.isLong ? '' : text;
    const shown = `Shown: a ${this.what} of ${counted(text.length, 'character')}, which are too many for the field.`;
    this.name.textContent = this.isLong && !types ? shown : '';
  }

  /** @param {boolean} is wrong */
  mark(is) {
    if (is) this.field.setAttribute('aria-invalid', 'true');
    else this.field.removeAttribute('aria-invalid');
  }
}
