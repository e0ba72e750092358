/** The view that shows the levels of a frame, from its text or from its parts. */
import { numberIn } from './address.js';
import { ANSWER } from './core.js';
import { asFile, byId, copyText, download, html, inputById, selectById } from './draw.js';
import { textFault } from './text_fault.js';
import { PART_FAULTS, counted } from './words.js';
import { WireView } from './wire_view.js';

/** Frame texts to begin with. */
const EXAMPLES = Object.freeze([
  'S 123 D 2 aa55', 'S 000 D 0', 'S 7ff D 8 0123456789abcdef', 'S 123 R 8', 'S 5a5 D 15 ffffffffffffffff', 'E 18db33f1 D 8 02010c0000000000',
  'E 00000000 D 0', 'E 12345678 R 4',
]);

/**
 * The field with a fault of the parts.
 * @type {Readonly<Record<number, string>>}
 */
const PART_OF = Object.freeze({
  [ANSWER.badIdentifier]: 'part-identifier', [ANSWER.badDlc]: 'part-dlc', [ANSWER.badCount]: 'part-data',
});

export class EncodeView {
  /** @param {import('./core.js').Core} core */
  constructor(core) {
    this.core = core;
    this.text = inputById('frame-text');
    this.parts = byId('parts');
    this.box = selectById('examples');
    this.levels = '';
    this.wires = new WireView(byId('encode-wire'), byId('encode-level'), byId('encode-fields'));
    this.fillChoices();
    this.listen();
    this.showText();
  }

  fillChoices() {
    byId('part-dlc').append(...Array.from({ length: 16 }, (_, dlc) => html('option', { value: dlc }, [String(dlc)])));
    this.box.append(...EXAMPLES.map((text) => html('option', { value: text }, [text])));
    this.text.value = EXAMPLES[0];
  }

  listen() {
    this.text.addEventListener('input', () => this.showText());
    this.parts.addEventListener('input', () => this.showParts());
    this.parts.addEventListener('submit', (event) => event.preventDefault());
    this.box.addEventListener('change', () => {
      if (this.box.value === '') return;
      this.text.value = this.box.value;
      this.showText();
    });
    byId('copy-levels').addEventListener('click', () => this.copyLevels());
    byId('download-picture').addEventListener('click', () => this.downloadPicture());
  }

  /** Shows the frame whose text is typed, or the text's fault. */
  showText() {
    const bytes = new TextEncoder().encode(this.text.value);
    const { answer, place, levels } = this.core.encode(bytes);
    if (answer !== ANSWER.done) {
      this.refuse(this.text, ...textFault(bytes, answer, place));
      return;
    }
    this.fillParts();
    this.showLevels(levels);
  }

  /** Shows the frame of the parts that are picked, or why there is none. */
  showParts() {
    const digits = inputById('part-identifier').value.trim();
    const data = inputById('part-data').value.replaceAll(/\s/g, '');
    if (!/^[0-9a-fA-F]{1,8}$/.test(digits)) {
      this.refuse(byId('part-identifier'), 'The identifier must have one to eight hexadecimal digits.');
      return;
    }
    if (!/^([0-9a-fA-F]{2}){0,32}$/.test(data)) {
      this.refuse(byId('part-data'), 'The data must have two hexadecimal digits for each byte.');
      return;
    }
    const { answer, text } = this.core.frameText({
      identifier: Number.parseInt(digits, 16),
      extended: inputById('part-extended').checked,
      remote: inputById('part-remote').checked,
      dlc: Number(selectById('part-dlc').value),
      bytes: Uint8Array.from(data.match(/../g) ?? [], (pair) => Number.parseInt(pair, 16)),
    });
    if (answer !== ANSWER.done) {
      this.refuse(byId(PART_OF[answer]), PART_FAULTS[answer]);
      return;
    }
    this.text.value = text;
    this.showLevels(this.core.encode(new TextEncoder().encode(text)).levels);
  }

  /** Fills in the parts of a frame's text. */
  fillParts() {
    const [kind, identifier, direction, dlc, data = ''] = this.text.value.split(' ');
    inputById(kind === 'E' ? 'part-extended' : 'part-standard').checked = true;
    inputById(direction === 'R' ? 'part-remote' : 'part-dataframe').checked = true;
    inputById('part-identifier').value = identifier;
    selectById('part-dlc').value = dlc;
    inputById('part-data').value = data;
  }

  /** @param {Uint8Array} levels */
  showLevels(levels) {
    const { fields, stuffed } = this.core.marks(levels);
    this.levels = levels.join('');
    this.box.value = EXAMPLES.includes(this.text.value) ? this.text.value : '';
    this.setFault([]);
    const stuffBits = stuffed.reduce((sum, flag) => sum + flag, 0);
    byId('encode-reported').textContent = `${counted(levels.length, 'level')}, ${counted(stuffBits, 'stuff bit')} included.`;
    this.wires.show({ id: 'sent', name: `Levels of ${this.text.value}`, levels, fields, stuffed, first: 0, fault: null });
    byId('encode-shown').hidden = false;
    this.wires.draw();
  }

  /**
   * Shows why there is no picture.
   * @param {HTMLElement} field with the fault
   * @param {...(string | Node)} why
   */
  refuse(field, ...why) {
    this.levels = '';
    this.box.value = '';
    this.setFault(why, field);
    byId('encode-reported').textContent = '';
    byId('encode-shown').hidden = true;
    this.wires.show(null);
  }

  /**
   * @param {Array<string | Node>} why nothing if all is right
   * @param {HTMLElement | null} [wrong] the field with the fault
   */
  setFault(why, wrong = null) {
    byId('encode-fault').replaceChildren(...why);
    for (const field of [this.text, ...Object.values(PART_OF).map(byId)]) field.setAttribute('aria-invalid', String(field === wrong));
    byId('copied').textContent = '';
  }

  /** What the view shows, for an address. */
  async what() { return { frame: this.text.value, level: this.wires.looked }; }

  /**
   * Shows what an address says.
   * @param {import('./address.js').Shown} what
   */
  async open({ frame, level }) {
    if (frame === undefined) return;
    this.text.value = frame;
    this.showText();
    this.wires.focus(numberIn(level) ?? 0);
  }

  async copyLevels() {
    const copied = await copyText(this.levels);
    byId('copied').textContent = copied ? `${counted(this.levels.length, 'level')} copied.` : 'This browser does not allow the page to copy.';
  }

  downloadPicture() {
    const { picture } = this.wires;
    if (picture) download(`${this.text.value.replaceAll(' ', '_')}.svg`, 'image/svg+xml', asFile(picture));
  }
}
