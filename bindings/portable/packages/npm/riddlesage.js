/** The calls of the proved module, for texts. Types and descriptions are in riddlesage.d.ts. */
import { ANSWER, Core, MOST_BYTES, MOST_DOCUMENT, TIME_BYTES } from './core.js';

const NAMES = Object.fromEntries(Object.entries(ANSWER).map(([name, number]) => [number, name]));
const encoder = new TextEncoder();
const decoder = new TextDecoder();

export class Refused extends Error {
  constructor(answer, details = {}) {
    super(`riddlesage: ${NAMES[answer] ?? answer}${details.words ? `: ${details.words}` : ''}`);
    this.name = 'Refused';
    this.reason = NAMES[answer] ?? String(answer);
    Object.assign(this, details);
  }
}

function bytesOf(text, most) {
  const bytes = encoder.encode(text);
  if (bytes.length > most) throw new Refused(ANSWER.tooLong);
  return bytes;
}

/** What a port did in the bit time whose bytes begin here (`PlainTime` of can_page). */
function timeAt(view, at) {
  return {
    transmit: view.getUint16(at, true), receive: view.getUint16(at + 2, true), phase: view.getUint8(at + 4), sender: view.getUint8(at + 5) !== 0,
    drives: view.getUint8(at + 6), samples: view.getUint8(at + 7), event: view.getUint8(at + 8),
  };
}

class Riddlesage {
  #core;

  constructor(core) {
    this.#core = core;
  }

  encode(text) {
    const { answer, place, levels } = this.#core.encode(encoder.encode(text));
    if (answer !== ANSWER.done) throw new Refused(answer, { place });
    return levels;
  }

  marks(levels) {
    return this.#core.marks(levels);
  }

  decode(text) {
    const { answer, place, lines } = this.#core.decode(bytesOf(text, MOST_BYTES));
    if (answer !== ANSWER.done) throw new Refused(answer, { place, lines: decoder.decode(lines) });
    return decoder.decode(lines);
  }

  run(text) {
    const { answer, wrong, report } = this.#core.run(bytesOf(text, MOST_DOCUMENT));
    if (answer !== ANSWER.done) throw new Refused(answer, answer === ANSWER.badScenario ? wrong : {});
    return decoder.decode(report);
  }

  portTimes(text, port) {
    const bytes = bytesOf(text, MOST_DOCUMENT);
    // a number that is none would become 0 in the module
    if (!Number.isInteger(port) || port < 0 || port > 0xffffffff) throw new Refused(ANSWER.noPort);
    const { answer, times } = this.#core.portTimes(bytes, port);
    if (answer !== ANSWER.done) throw new Refused(answer, answer === ANSWER.badScenario ? this.#core.run(bytes).wrong : {});
    const view = new DataView(times.buffer, times.byteOffset, times.length);
    return Array.from({ length: times.length / TIME_BYTES }, (_, time) => timeAt(view, time * TIME_BYTES));
  }

  plan(text, { details = false } = {}) {
    const { answer, wrong, late, lines } = this.#core.plan(bytesOf(text, MOST_DOCUMENT), details);
    if (answer !== ANSWER.done) throw new Refused(answer, answer === ANSWER.badPlan ? wrong : {});
    return { late, lines: decoder.decode(lines) };
  }

  worstCase(text, message) {
    const { answer, wrong, scenario } = this.#core.worstCase(bytesOf(text, MOST_DOCUMENT), encoder.encode(message));
    if (answer !== ANSWER.done) throw new Refused(answer, answer === ANSWER.badPlan ? wrong : {});
    return decoder.decode(scenario);
  }
}

async function packed() {
  const place = new URL('./riddlesage.wasm', import.meta.url);
  if (place.protocol === 'file:') return (await import('node:fs/promises')).readFile(place);
  return (await fetch(place)).arrayBuffer();
}

export async function load(module) {
  const core = await Core.load(module ?? (await packed()));
  if (core === null) throw new Error('riddlesage: this WebAssembly is not supported here');
  return new Riddlesage(core);
}
