/** What is wrong in a frame text, in words. */
import { html } from './draw.js';
import { TEXT_FAULTS } from './words.js';

/**
 * The fault of a frame text, with the text marked at its place.
 * @param {Uint8Array} bytes
 * @param {number} answer
 * @param {number} place
 * @returns {Array<string | Node>}
 */
export function textFault(bytes, answer, place) {
  const { code, wrong, expected } = TEXT_FAULTS[answer];
  /** @param {number} from @param {number} to */
  const textOf = (from, to) => new TextDecoder().decode(bytes.subarray(from, to));
  // a character may have more than one byte
  let end = place + 1;
  while (end < bytes.length && (bytes[end] & 0xc0) === 0x80) end += 1;
  const at = place < bytes.length ? html('mark', {}, [textOf(place, end).replace(' ', '␣')]) : html('mark', { class: 'end' }, ['end']);
  return [
    html('strong', {}, [`${code} at ${place}`]), `: wrong in ${wrong}: ${expected}. `,
    html('code', { class: 'excerpt' }, [textOf(0, place), at, textOf(end, end + 24)]),
  ];
}
