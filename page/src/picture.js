/**
 * The wire as a picture: levels as a waveform in rows, the field of each above it, stuff bits hatched, place numbers
 * under it. Each level can be pointed at and focused. It only draws what it is given.
 */
import { closestTo, svg } from './draw.js';
import { FIELD, FIELDS, STUFF_RULE, levelName } from './words.js';

/** Sizes in pixels. */
const CELL = 24;
const SIDE = 4;
const LABEL = 20;
const HIGH = 32;
const LOW = 58;
const DIGIT = 78;
const PLACE = 94;
const ROW = 112;

/** A number is under the wire at each multiple of this. */
const NUMBERED = 5;

/**
 * @typedef {object} Wire
 * @property {Uint8Array} levels
 * @property {Uint8Array} fields of the levels from the first on whose field is known
 * @property {Uint8Array} stuffed
 * @property {number} first the place of the first level
 * @property {number | null} fault the index of the level at which a fault shows; the one after the last, if they end too soon
 */

/** @typedef {Wire & {id: string, name: string}} NamedWire with what begins the names of the elements, and what it is called */

/**
 * What a level is, in a sentence.
 * @param {Wire} wire
 * @param {number} index
 * @returns {string}
 */
export function levelWords(wire, index) {
  if (index >= wire.levels.length) return `Place ${wire.first + index}: the levels have ended; here the fault shows`;
  const value = wire.levels[index];
  const words = [`Level ${wire.first + index}: ${value}, ${levelName(value)}`];
  if (index >= wire.fields.length) words.push('its field is not known');
  else words.push(wire.stuffed[index] ? `stuff bit in: ${FIELDS[wire.fields[index]].name}` : FIELDS[wire.fields[index]].name);
  if (index === wire.fault) words.push('here the fault shows');
  return words.join('; ');
}

/**
 * The rule of a level, or nothing if its field is not known.
 * @param {Wire} wire
 * @param {number} index
 * @returns {string}
 */
export function levelRule(wire, index) {
  if (index >= wire.fields.length) return '';
  return wire.stuffed[index] ? STUFF_RULE : FIELDS[wire.fields[index]].rule;
}

/**
 * @typedef {object} Span levels of one field that follow one another
 * @property {number} field
 * @property {number} from
 * @property {number} to after the last
 */

/**
 * @param {Uint8Array} fields
 * @param {number} [from]
 * @param {number} [to]
 * @returns {Span[]} the fields of these levels, in order
 */
export function spansOf(fields, from = 0, to = fields.length) {
  /** @type {Span[]} */
  const spans = [];
  for (let index = from; index < Math.min(to, fields.length); index += 1) {
    const last = spans.at(-1);
    if (last && last.field === fields[index]) last.to = index + 1;
    else spans.push({ field: fields[index], from: index, to: index + 1 });
  }
  return spans;
}

/**
 * The levels of a field that are no stuff bits, as digits.
 * @param {{levels: Uint8Array, stuffed: Uint8Array}} wire
 * @param {Span} span
 * @returns {string}
 */
export function digitsOf(wire, { from, to }) {
  let digits = '';
  for (let index = from; index < to; index += 1) if (!wire.stuffed[index]) digits += wire.levels[index];
  return digits;
}

/**
 * A number in binary digits, in the hexadecimal digits that they fill: `0001` is `0x1`, and sixteen digits have four.
 * @param {string} digits
 * @returns {string} nothing for a single one
 */
export function hexadecimal(digits) {
  return digits.length < 2 ? '' : `0x${BigInt(`0b${digits}`).toString(16).padStart(Math.ceil(digits.length / 4), '0')}`;
}

/**
 * The number of a field, if later levels show that it is complete.
 * @param {{levels: Uint8Array, fields: Uint8Array, stuffed: Uint8Array}} wire
 * @param {Span} span
 */
export function valueOf(wire, span) {
  return span.to < wire.fields.length ? hexadecimal(digitsOf(wire, span)) : '';
}

/**
 * Where a byte of the data begins that is not the first.
 * @param {{fields: Uint8Array, stuffed: Uint8Array}} wire
 * @returns {number[]}
 */
export function bytesIn({ fields, stuffed }) {
  const starts = [];
  let bits = 0;
  for (let index = fields.indexOf(FIELD.data); index >= 0 && fields[index] === FIELD.data; index += 1) {
    if (stuffed[index]) continue;
    if (bits > 0 && bits % 8 === 0) starts.push(index);
    bits += 1;
  }
  return starts;
}

/**
 * The label of a field, in the longest form that fits. Only the rest of one that begins a row before may have none.
 * @param {Span} span
 * @returns {string}
 */
function labelOf({ field, from, to }) {
  const { name, short } = FIELDS[field];
  const room = (to - from) * CELL;
  return [name, short].find((label) => label.length * 8 <= room) ?? '…';
}

/**
 * The name over a field's levels, on its colour.
 * @param {Span} span
 * @param {number} start the first level of the row
 */
function fieldLabel(span, start) {
  const x = SIDE + (span.from - start) * CELL;
  const width = (span.to - span.from) * CELL;
  return svg('g', { class: 'field-label', 'aria-hidden': 'true', 'data-field': span.field }, [
    svg('rect', { class: `field field-${span.field}`, x: x + 0.5, y: 1, width: width - 1, height: LABEL - 2, rx: 3 }),
    svg('text', { class: 'label', x: x + width / 2, y: 14.5, 'text-anchor': 'middle' }, [labelOf(span)]),
  ]);
}

/**
 * @param {Wire} wire
 * @param {number} start
 * @param {number} end
 * @returns {string} the line of a row's levels
 */
function wavePath(wire, start, end) {
  /** @param {number} index */
  const height = (index) => (wire.levels[index] === 0 ? LOW : HIGH);
  let path = `M${SIDE} ${height(start > 0 ? start - 1 : start)}`;
  for (let index = start; index < Math.min(end, wire.levels.length); index += 1) path += `V${height(index)}H${SIDE + (index - start + 1) * CELL}`;
  return path;
}

/** @param {NamedWire} wire @param {number} index @param {number} start */
function levelCell(wire, index, start) {
  const x = SIDE + (index - start) * CELL;
  const known = index < wire.fields.length;
  const place = wire.first + index;
  const cell = `cell ${known ? `field field-${wire.fields[index]} pale` : 'unknown'}`;
  /** @type {SVGElement[]} */
  const parts = [
    svg('rect', { class: cell, x, y: LABEL, width: CELL, height: DIGIT - LABEL + 5 }),
    svg('text', { class: 'digit', x: x + CELL / 2, y: DIGIT, 'text-anchor': 'middle' }, [String(wire.levels[index] ?? '…')]),
  ];
  if (known && wire.stuffed[index]) {
    parts.splice(1, 0, svg('path', { class: 'hatch', d: hatching({ x, y: LABEL + 1, width: CELL, height: LOW + 4 - LABEL }, 8) }));
  }
  if (index === wire.fault) parts.push(svg('rect', { class: 'fault-box', x: x + 1.5, y: LABEL + 1.5, width: CELL - 3, height: DIGIT - LABEL + 2 }));
  if (index === start || place % NUMBERED === 0) {
    parts.push(svg('text', { class: 'place', x: x + CELL / 2, y: PLACE, 'text-anchor': 'middle' }, [String(place)]));
  }
  return svg('g', {
    class: 'level', role: 'option', id: `${wire.id}-${index}`, 'data-index': index, tabindex: '-1',
    'aria-selected': 'false', 'aria-label': levelWords(wire, index), ...(known && wire.stuffed[index] ? { 'data-stuffed': '' } : {}),
  }, parts);
}

/**
 * Slanted lines over a box, `step` pixels apart.
 * @param {{x: number, y: number, width: number, height: number}} box
 * @param {number} step
 * @returns {string}
 */
export function hatching({ x, y, width, height }, step) {
  let path = '';
  for (let offset = step - 2; offset < width + height; offset += step) {
    const high = Math.min(offset, height);
    const low = Math.max(0, offset - width);
    if (high > low) path += `M${x + offset - high} ${y + high}L${x + offset - low} ${y + low}`;
  }
  return path;
}

/** @param {NamedWire} wire @param {number} start @param {number} end @param {number} row */
function rowOf(wire, start, end, row) {
  const cells = [];
  for (let index = start; index < end; index += 1) cells.push(levelCell(wire, index, start));
  const starts = bytesIn(wire).filter((index) => index >= start && index < end);
  const ends = starts.map((index) => `M${SIDE + (index - start) * CELL} ${LABEL}V${DIGIT + 5}`).join('');
  return svg('g', { class: 'row', role: 'presentation', transform: `translate(0 ${row * ROW})` }, [
    ...spansOf(wire.fields, start, end).map((span) => fieldLabel(span, start)),
    ...cells,
    ...(ends ? [svg('path', { class: 'byte-end', d: ends })] : []),
    svg('path', { class: 'wave', d: wavePath(wire, start, end) }),
  ]);
}

/**
 * The picture of a wire, as wide as its space.
 * @param {NamedWire} wire
 * @param {number} room in pixels
 * @returns {SVGSVGElement}
 */
export function pictureOf(wire, room) {
  const count = wire.fault === wire.levels.length ? wire.levels.length + 1 : wire.levels.length;
  const columns = Math.min(Math.max(4, Math.floor((room - 2 * SIDE) / CELL)), count);
  const rows = [];
  for (let start = 0; start < count; start += columns) rows.push(rowOf(wire, start, Math.min(start + columns, count), rows.length));
  const width = 2 * SIDE + columns * CELL;
  const height = rows.length * ROW - (ROW - PLACE - 4);
  const picture = svg('svg', {
    class: 'wire', width, height, viewBox: `0 0 ${width} ${height}`,
    role: 'listbox', 'aria-label': wire.name, 'aria-orientation': 'horizontal',
  }, rows);
  picture.querySelector('.level')?.setAttribute('tabindex', '0');
  return picture;
}

/**
 * Selects a level of the pictures in a room.
 * @param {HTMLElement} room
 * @param {HTMLElement | SVGElement} level
 * @param {(index: number) => void} onLevel gets it
 */
export function lookAt(room, level, onLevel) {
  for (const other of room.querySelectorAll('.level[aria-selected=true], .level[tabindex="0"]')) {
    other.setAttribute('aria-selected', 'false');
    other.setAttribute('tabindex', '-1');
  }
  level.setAttribute('aria-selected', 'true');
  level.setAttribute('tabindex', '0');
  onLevel(Number(level.dataset.index));
}

/**
 * Lets the levels of the pictures in a room be pointed at, and focused one after another by the arrow keys, Home and
 * End. The room listens and not the picture, which a browser would take for something to be focused itself.
 * @param {HTMLElement} room
 * @param {(index: number) => void} onLevel gets the level that is looked at
 */
export function letLook(room, onLevel) {
  for (const type of ['pointerover', 'focusin']) {
    room.addEventListener(type, (event) => {
      const level = closestTo(event, '.level');
      if (level) lookAt(room, level, onLevel);
    });
  }
  room.addEventListener('keydown', (event) => {
    const level = closestTo(event, '.level');
    if (!level) return;
    const levels = [...room.querySelectorAll('.level')];
    const at = levels.indexOf(level);
    /** @type {Record<string, number | undefined>} */
    const places = { ArrowLeft: at - 1, ArrowRight: at + 1, Home: 0, End: levels.length - 1 };
    const to = places[event.key];
    if (to === undefined || event.altKey || event.ctrlKey || event.metaKey) return;
    event.preventDefault();
    const next = levels[Math.min(Math.max(to, 0), levels.length - 1)];
    if (next instanceof SVGElement) next.focus();
  });
}
