/** Runs the proved code on a document outside the page's main thread, so that the page stays responsive. */
import { linesBelow } from './bound_parts.js';
import { ANSWER, Core, TIME_BYTES } from './core.js';
import { indexOf } from './bus_times.js';
import { marginsOf } from './left.js';
import { indexReport } from './report.js';

/** @typedef {import('./runs.js').Message} Message */
/** @typedef {import('./runs.js').Given} Given */
/** @typedef {import('./runs.js').Answered} Answered */

/** @type {Promise<Core | null> | null} */
let core = null;

/** @param {Record<string, Uint8Array | Uint32Array>} index */
const buffersOf = (index) => Object.values(index).map((list) => list.buffer);

/**
 * The answers to what the page asks, and what of them is handed over rather than copied.
 * @type {Readonly<{[K in keyof Given]: (core: Core, given: Given[K]) => {reported: Answered[K], handed: ArrayBufferLike[]}}>}
 */
const ANSWERS = Object.freeze({
  report: (code, { text }) => {
    const reported = code.run(text);
    if (reported.answer !== ANSWER.done) return { reported: { ...reported, index: null }, handed: [] };
    const index = indexReport(reported.report);
    return { reported: { ...reported, index }, handed: [reported.report.buffer, ...buffersOf(index)] };
  },
  plan: (code, { text }) => {
    const reported = code.plan(text);
    return { reported, handed: [reported.lines.buffer] };
  },
  makings: (code, { text, frame }) => {
    const { answer, lines } = code.plan(text, true);
    return { reported: { answer, lines: linesBelow(new TextDecoder().decode(lines), frame) }, handed: [] };
  },
  left: (code, { text }) => {
    const { answer, lines } = code.plan(text, true);
    return { reported: { answer, margins: marginsOf(new TextDecoder().decode(lines)) }, handed: [] };
  },
  worstCase: (code, { text, name }) => {
    const reported = code.worstCase(text, name);
    return { reported, handed: [reported.scenario.buffer] };
  },
  ports: (code, { text, levels }) => {
    const { answer, times } = code.allPortTimes(text);
    const ports = [];
    const bytes = levels.length * TIME_BYTES;
    for (let at = 0; at < times.length; at += bytes) {
      const own = times.slice(at, at + bytes);
      ports.push({ times: own, index: indexOf(own, levels) });
    }
    return { reported: { answer, ports }, handed: ports.flatMap((port) => [port.times.buffer, ...buffersOf(port.index)]) };
  },
  port: (code, { text, node, levels }) => {
    const { answer, times } = code.portTimes(text, node);
    if (answer !== ANSWER.done) return { reported: { answer, port: null }, handed: [] };
    const index = indexOf(times, levels);
    return { reported: { answer, port: { times, index } }, handed: [times.buffer, ...buffersOf(index)] };
  },
});

/**
 * @template {keyof Given} K
 * @param {Core | null} code
 * @param {K} ask
 * @param {Given[K]} given
 */
function answered(code, ask, given) {
  if (!code) throw new Error('this browser does not support the WebAssembly of the proved code');
  return ANSWERS[ask](code, given);
}

/** @param {MessageEvent<Message>} event with the module at first, and then what is asked */
globalThis.onmessage = async ({ data }) => {
  if ('module' in data) {
    core = Core.load(data.module);
    return;
  }
  try {
    const { reported, handed } = answered(await core, data.ask, data.given);
    globalThis.postMessage(reported, handed);
  } catch (error) {
    globalThis.postMessage({ failed: error instanceof Error ? error.message : String(error) });
  }
};
