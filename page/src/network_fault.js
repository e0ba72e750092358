/** What is wrong in a network, and where. */
import { ANSWER } from './core.js';
import { WRONG, wrongName } from './network_words.js';
import { ERROR_NAMES, MESSAGE_NAMES, TOP_NAMES } from './network_text.js';
import { textFault } from './text_fault.js';
import { firstUnknown, placeWords, scanned, stopWords } from './toml_places.js';

/** @typedef {import('./core.js').Core} Core */

/**
 * @param {Core} core
 * @param {string} text
 * @param {import('./core.js').WrongField} wrong what the proved code reports
 * @returns {import('./document_view.js').Fault}
 */
export function networkFault(core, text, wrong) {
  const code = wrongName(wrong);
  const { offset, inside } = detail(core, wrong, code, scanned(text));
  return { code, place: placeWords(text, offset), inside, why: `${wrong.words}.` };
}

/**
 * The offset of what is wrong, and the words about it.
 * @param {Core} core
 * @param {import('./core.js').WrongField} wrong
 * @param {string} code
 * @param {import('./toml_places.js').Scanned} found
 * @returns {import('./toml_places.js').Detail}
 */
function detail(core, { field, number }, code, found) {
  if (field === WRONG.toml) return stopWords(found);
  if (field === WRONG.key) return firstUnknown(found, '', TOP_NAMES);
  if (field === WRONG.errorKey) return firstUnknown(found, 'errors', ERROR_NAMES);
  if (field === WRONG.messageKey) return firstUnknown(found, `message[${number}]`, MESSAGE_NAMES);
  return { offset: found.places.get(code), inside: field === WRONG.frame ? wrongHead(core, found.strings.get(code)) : [] };
}

/**
 * What is wrong in the text of a frame up to its DLC, if it is that which is.
 * @param {Core} core
 * @param {string | undefined} head
 */
function wrongHead(core, head) {
  if (head === undefined) return [];
  const bytes = new TextEncoder().encode(head);
  const { answer, place } = core.encode(new TextEncoder().encode(`${head} 0`));
  return answer === ANSWER.done || place >= bytes.length ? [] : [' ', ...textFault(bytes, answer, place), '.'];
}
