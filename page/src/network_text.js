/** Networks as the form shows them: read from a text, as far as the form can show it, and written as one. */
import { scanned } from './toml_places.js';

/**
 * @typedef {Record<typeof MESSAGE_NAMES[number], string>} MessageForm
 */

/**
 * @typedef {object} NetworkForm
 * @property {string} version
 * @property {string} rate
 * @property {string} burst
 * @property {string} spacing
 * @property {MessageForm[]} messages
 */

/** The names at the top, those of errors, and those of a message. */
export const TOP_NAMES = ['version', 'rate', 'errors', 'message'];
export const ERROR_NAMES = /** @type {const} */ (['burst', 'spacing']);
export const MESSAGE_NAMES = /** @type {const} */ (['frame', 'dlc', 'period', 'jitter', 'deadline', 'name']);
const NUMBER_NAMES = /** @type {const} */ (['dlc', 'period', 'jitter', 'deadline']);
const TEXT_NAMES = /** @type {const} */ (['frame', 'name']);

/** The paths of numbers, of texts, and of what holds them. */
const NUMBER = /^(?:version|rate|errors\.(?:burst|spacing)|message\[\d+\]\.(?:dlc|period|jitter|deadline))$/;
const TEXT = /^message\[\d+\]\.(?:frame|name)$/;
const HOLDER = /^(?:errors|message|message\[\d+\])$/;

/** @returns {MessageForm} */
export const newMessage = () => ({ frame: '', dlc: '', period: '', jitter: '', deadline: '', name: '' });

/**
 * The form of a text.
 * @param {string} text
 * @returns {NetworkForm | null} none if the form can't show it
 */
export function formOf(text) {
  const { places, strings, literals, stopped } = scanned(text);
  /** @param {string} path */
  const isShown = (path) => (literals.has(path) ? NUMBER.test(path) : strings.has(path) ? TEXT.test(path) : HOLDER.test(path));
  if (stopped || ![...places.keys()].every(isShown)) return null;
  /** @param {string} path */
  const number = (path) => literals.get(path) ?? '';
  const messages = [];
  for (let place = 0; places.has(`message[${place}]`); place += 1) {
    const message = newMessage();
    for (const name of NUMBER_NAMES) message[name] = number(`message[${place}].${name}`);
    for (const name of TEXT_NAMES) message[name] = strings.get(`message[${place}].${name}`) ?? '';
    messages.push(message);
  }
  const [burst, spacing] = ERROR_NAMES.map((name) => number(`errors.${name}`));
  // a table of errors with nothing in it says that there are none, and is kept
  const isEmpty = places.has('errors') && burst === '' && spacing === '';
  return { version: number('version'), rate: number('rate'), burst: isEmpty ? '0' : burst, spacing, messages };
}

/**
 * The text of a form. What is wrong in a field stays so in the text.
 * @param {NetworkForm} form
 * @returns {string}
 */
export function textOf(form) {
  const top = [`version = ${form.version || 1}`, ...lineOf('rate', form.rate)];
  const errors = ERROR_NAMES.flatMap((name) => lineOf(name, form[name]));
  const parts = [top, ...(errors.length > 0 ? [['[errors]', ...errors]] : []), ...form.messages.map(messageLines)];
  return parts.map((lines) => `${lines.join('\n')}\n`).join('\n');
}

/** @param {MessageForm} message */
function messageLines(message) {
  const frame = message.frame.trim() === '' ? [] : [`frame = ${JSON.stringify(message.frame.trim())}`];
  const name = message.name === '' ? [] : [`name = ${JSON.stringify(message.name)}`];
  return ['[[message]]', ...name, ...frame, ...NUMBER_NAMES.flatMap((it) => lineOf(it, message[it]))];
}

/**
 * The line of a number, if there is one.
 * @param {string} name
 * @param {string} value
 */
function lineOf(name, value) {
  return value.trim() === '' ? [] : [`${name} = ${value.trim()}`];
}
