// Generated inputs for each call of the page, as native.c reads them: questions.mjs NATIVE EXAMPLES [EVERY] > QUESTIONS
// NATIVE is native.c as a program, which encodes frames; EVERY is 1, or n for every n-th question. The same come each time.
import assert from 'node:assert/strict';
import { spawnSync } from 'node:child_process';
import { readFileSync, readdirSync, writeSync } from 'node:fs';
import { join } from 'node:path';
import { pathToFileURL } from 'node:url';
import { Chance, changed, changedDocument, madeParts, madeTrace, textOf } from './made_inputs.mjs';

/** The calls by the numbers that native.c has for them. */
export const CALLS = ['frameText', 'encode', 'marks', 'decode', 'run', 'plan', 'worstCase', 'portTimes', 'allPortTimes'];

const DONE = 0;
const encoder = new TextEncoder();

/** A question in the bytes that native.c reads. */
function written(call, { numbers = [], bytes }) {
  const [a = 0, b = 0, c = 0, d = 0] = numbers;
  return Buffer.concat([Buffer.from(Uint32Array.of(CALLS.indexOf(call), a, b, c, d, bytes.length).buffer), bytes]);
}

/** What the native library answers to questions. */
export function nativeAnswers(program, call, questions) {
  const input = Buffer.concat(questions.map((question) => written(call, question)));
  const { status, stdout } = spawnSync(program, { input, maxBuffer: 2 ** 31 });
  assert.equal(status, 0, 'the native library ends well');
  const found = [];
  for (let at = 0; at < stdout.length;) {
    const count = stdout.readUInt32LE(at);
    found.push(stdout.subarray(at + 4, at + 4 + count));
    at += 4 + count;
  }
  return found;
}

/** @param {number} count @param {(index: number) => T} make @returns {T[]} @template T */
function many(count, make) {
  return Array.from({ length: count }, (_, index) => make(index));
}

/** The documents of a folder of examples, and as many made of them. */
function documents(chance, folder, count) {
  const texts = readdirSync(folder).filter((name) => name.endsWith('.toml')).map((name) => readFileSync(join(folder, name), 'utf8'));
  return [...texts, ...many(count, () => changedDocument(chance, chance.of(texts)))].map((text) => encoder.encode(text));
}

/** A document of a network, behind the name of one of its messages or another one. */
function named(chance, text) {
  const names = [...new TextDecoder().decode(text).matchAll(/^frame = "([^"\n]*)"/gm)].map(([, name]) => name);
  const name = encoder.encode(chance.below(10) === 0 ? changed(chance, 'S 100 D') : chance.of([...names, 'S 100 D']));
  return { numbers: [name.length], bytes: Buffer.concat([name, text]) };
}

/** The levels of frames, as digits. */
function wiresOf(program, chance, count) {
  const texts = many(count, () => ({ bytes: encoder.encode(textOf(madeParts(chance))) }));
  return nativeAnswers(program, 'encode', texts).filter(([answer]) => answer === DONE).map((it) => it.subarray(1).join(''));
}

/** The levels of a frame, or some of them, one of which may be turned or be none. */
function madeLevels(chance, wires) {
  const levels = Uint8Array.from(chance.of(wires).slice(0, 1 + chance.below(160)) + '1'.repeat(chance.below(9)));
  if (chance.below(3) === 0) levels[chance.below(levels.length)] ^= 1;
  if (chance.below(30) === 0) levels[chance.below(levels.length)] = chance.below(256);
  return levels;
}

/** What each call is asked, by what makes it. */
const QUESTIONS = {
  frameText: ({ chance }) => many(20000, () => {
    const { identifier, extended, remote, dlc, bytes } = madeParts(chance);
    return { numbers: [identifier, Number(extended), Number(remote), dlc], bytes };
  }),
  encode: ({ chance }) => many(20000, (index) => {
    const text = textOf(madeParts(chance));
    return { bytes: encoder.encode(index % 3 === 0 ? changed(chance, text) : text) };
  }),
  marks: ({ chance, wires }) => many(20000, () => ({ bytes: madeLevels(chance, wires) })),
  decode: ({ chance, wires }) => many(2000, (index) => ({ bytes: encoder.encode(madeTrace(chance, wires, index % 400 === 0 ? 3000 : chance.below(20))) })),
  run: ({ chance, examples }) => documents(chance, join(examples, 'scenarios'), 4000).map((bytes) => ({ bytes })),
  plan: ({ chance, examples }) => documents(chance, join(examples, 'networks'), 2000).map((bytes) => ({ numbers: [chance.below(2)], bytes })),
  worstCase: ({ chance, examples }) => documents(chance, join(examples, 'networks'), 300).map((bytes) => named(chance, bytes)),
  portTimes: ({ chance, examples }) => documents(chance, join(examples, 'scenarios'), 400).flatMap((bytes) => [0, 1, chance.below(5)].map((node) => ({ numbers: [node], bytes }))),
  allPortTimes: ({ chance, examples }) => documents(chance, join(examples, 'scenarios'), 400).map((bytes) => ({ bytes })),
};

/** What a call is asked; `program` is the native library, and `examples` the folder of examples. */
export function questionsOf(call, program, examples) {
  const chance = new Chance(2463534242 + CALLS.indexOf(call));
  return QUESTIONS[call]({ chance, wires: wiresOf(program, new Chance(88675123), 200), examples });
}

if (import.meta.url === pathToFileURL(process.argv[1]).href) {
  const [program, examples, every = '1'] = process.argv.slice(2);
  for (const call of CALLS) {
    const asked = questionsOf(call, program, examples).filter((_, index) => index % Number(every) === 0);
    const bytes = Buffer.concat(asked.map((question) => written(call, question)));
    for (let at = 0; at < bytes.length;) at += writeSync(1, bytes, at);
  }
}
