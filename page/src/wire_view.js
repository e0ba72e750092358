/** A picture of a wire with what belongs to it: the level that is looked at in words, and the table of fields. */
import { html } from './draw.js';
import { bytesIn, digitsOf, hexadecimal, letLook, levelRule, levelWords, lookAt, pictureOf, spansOf } from './picture.js';
import { FIELD, FIELDS } from './words.js';

/** @typedef {import('./picture.js').NamedWire} NamedWire */

export class WireView {
  /**
   * @param {HTMLElement} room where the picture goes
   * @param {HTMLElement} words where the level that is looked at is described
   * @param {HTMLElement} table the body of the table of fields
   */
  constructor(room, words, table) {
    this.room = room;
    this.words = words;
    this.table = table;
    /** @type {NamedWire | null} */
    this.wire = null;
    this.width = 0;
    this.looked = 0;
    letLook(room, (index) => this.look(index));
    new ResizeObserver(() => {
      if (this.room.clientWidth !== this.width) this.draw();
    }).observe(room);
  }

  /** @param {NamedWire | null} wire none clears it */
  show(wire) {
    this.wire = wire;
    this.draw();
    this.table.replaceChildren(...(wire ? spansOf(wire.fields).map((span) => fieldRow(wire, span)) : []));
    if (wire) this.look(wire.fault ?? 0);
    else this.words.replaceChildren();
  }

  /** Draws the picture again, as wide as its space is now. */
  draw() {
    this.width = this.room.clientWidth;
    this.room.replaceChildren();
    if (!this.wire || this.width === 0) return;
    this.room.append(pictureOf(this.wire, this.width));
  }

  /** @param {number} index the level that is looked at */
  look(index) {
    if (!this.wire) return;
    this.looked = index;
    this.words.replaceChildren(html('strong', {}, [`${levelWords(this.wire, index)}.`]), ` ${levelRule(this.wire, index)}`);
  }

  /**
   * Marks a level as one that is looked at, if there is one.
   * @param {number} index
   */
  focus(index) {
    const level = this.room.querySelector(`[data-index="${index}"]`);
    if (level instanceof SVGElement) lookAt(this.room, level, (found) => this.look(found));
    else if (this.wire && index < this.wire.levels.length) this.look(index);
  }

  /** @returns {SVGSVGElement | null} */
  get picture() {
    return this.room.querySelector('svg');
  }
}

/**
 * The levels of a field, stuff bits underlined and bytes apart.
 * @param {NamedWire} wire
 * @param {import('./picture.js').Span} span
 */
function levelsOf(wire, { from, to }) {
  const levels = [];
  const ends = bytesIn(wire);
  for (let index = from; index < to; index += 1) {
    const level = String(wire.levels[index]);
    if (ends.includes(index)) levels.push(html('span', { class: 'byte-gap' }, [' ']));
    levels.push(wire.stuffed[index] ? html('span', { class: 'stuffed', title: 'stuff bit' }, [level]) : level);
  }
  return levels;
}

/**
 * The number of a field, and of the identifier of which it is a part.
 * @param {NamedWire} wire
 * @param {import('./picture.js').Span} span
 */
function numberOf(wire, span) {
  // of a field in which a fault shows the number is not known
  /** @param {import('./picture.js').Span} part */
  const isWhole = ({ to }) => wire.fault === null || wire.fault >= to;
  if (!isWhole(span)) return [];
  const number = hexadecimal(digitsOf(wire, span));
  const parts = spansOf(wire.fields).filter(({ field }) => field === FIELD.identifier);
  if (span.field !== FIELD.identifier || parts.length < 2 || !parts.every(isWhole)) return [number];
  const digits = parts.map((part) => digitsOf(wire, part)).join('');
  return [number, html('div', { class: 'whole' }, [`of ${hexadecimal(digits)} (${digits.length} bits)`])];
}

/**
 * @param {NamedWire} wire
 * @param {import('./picture.js').Span} span
 */
function fieldRow(wire, span) {
  const { field, from, to } = span;
  const places = to - from === 1 ? `${wire.first + from}` : `${wire.first + from} to ${wire.first + to - 1}`;
  return html('tr', {}, [
    html('th', { scope: 'row' }, [html('span', { class: `swatch field-${field}` }), FIELDS[field].name]),
    html('td', { 'data-name': 'Places' }, [places]),
    html('td', { class: 'mono', 'data-name': 'Levels' }, levelsOf(wire, span)),
    html('td', { class: 'mono', 'data-name': 'Number' }, numberOf(wire, span)),
    html('td', { class: 'rule' }, [FIELDS[field].rule]),
  ]);
}
