/** What is wrong in a scenario, and where. */
import { ANSWER } from './core.js';
import { WRONG, wrongWords } from './bus_words.js';
import { textFault } from './text_fault.js';
import { firstUnknown, placeWords, scanned, stopWords } from './toml_places.js';

/** @typedef {import('./core.js').Core} Core */
/** @typedef {import('./toml_places.js').Scanned} Scanned */

/** The names at the top by version, and those of a port. */
const NAMES = Object.freeze({
  1: ['version', 'bits', 'port', 'at', 'in', 'view'], 2: ['version', 'bits', 'port'], port: ['queue', 'log', 'join', 'hold'],
});

/**
 * @param {Core} core
 * @param {string} text
 * @param {import('./core.js').WrongField} wrong what the proved code reports
 * @returns {import('./document_view.js').Fault}
 */
export function faultIn(core, text, wrong) {
  const { code, why } = wrongWords(wrong);
  const found = scanned(text);
  const { offset, inside } = detail(core, text, wrong, code, found);
  return { code, place: placeWords(text, offset), inside, why };
}

/**
 * The offset of what is wrong, and the words about it.
 * @param {Core} core
 * @param {string} text
 * @param {import('./core.js').WrongField} wrong
 * @param {string} code
 * @param {Scanned} found
 * @returns {import('./toml_places.js').Detail}
 */
function detail(core, text, { field, number }, code, found) {
  if (field === WRONG.toml) return stopWords(found);
  if (field === WRONG.key || field === WRONG.portKey) return unknownName(text, field === WRONG.key ? '' : `port[${number}]`, found);
  const offset = found.places.get(code);
  if (field !== WRONG.element) return { offset, inside: [] };
  return { offset, inside: wrongFrame(core, found.strings.get(code) ?? found.strings.get(`${code}[1]`)) };
}

/**
 * The first name of a table that is none of its own.
 * @param {string} text
 * @param {string} table
 * @param {Scanned} found
 */
function unknownName(text, table, found) {
  const version = /^\s*version\s*=\s*2\s*(?:#|$)/m.test(text) ? 2 : 1;
  return firstUnknown(found, table, NAMES[table === '' ? version : 'port']);
}

/**
 * What is wrong in a frame text, if it is one.
 * @param {Core} core
 * @param {string | undefined} frame
 */
function wrongFrame(core, frame) {
  if (frame === undefined) return [];
  const bytes = new TextEncoder().encode(frame);
  const { answer, place } = core.encode(bytes);
  return answer === ANSWER.done ? [] : [' ', ...textFault(bytes, answer, place), '.'];
}
