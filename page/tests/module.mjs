// The module against the library that rt makes for this machine (native.c), over made inputs for each call.
import assert from 'node:assert/strict';
import { readFileSync } from 'node:fs';
import { dirname, join } from 'node:path';
import { ANSWER, Core } from '../src/core.js';
import { CALLS, nativeAnswers, questionsOf } from './questions.mjs';

const encoder = new TextEncoder();
const number = (value) => Buffer.from(BigUint64Array.of(BigInt(value)).buffer);
const byte = (value) => Buffer.of(value);
const wrongField = ({ number: place, element, field }) => Buffer.concat([number(place), number(element), byte(field)]);

/** What the page's code answers to a question (questions.mjs), in the bytes of native.c. */
const ANSWERS = {
  frameText: (core, { numbers: [identifier, extended, remote, dlc], bytes }) => {
    const { answer, text } = core.frameText({ identifier, extended: extended === 1, remote: remote === 1, dlc, bytes });
    return [byte(answer), encoder.encode(text)];
  },
  encode: (core, { bytes }) => {
    const { answer, place, levels } = core.encode(bytes);
    return [byte(answer), answer === ANSWER.done ? levels : number(place)];
  },
  marks: (core, { bytes }) => {
    try {
      const { fields, stuffed } = core.marks(bytes);
      return [byte(ANSWER.done), fields, stuffed];
    } catch (error) {
      return [byte(Number(/^page_marks answers (\d+)$/.exec(error.message)[1]))];
    }
  },
  decode: (core, { bytes }) => {
    const { answer, place, levels, lines } = core.decode(bytes);
    return [byte(answer), answer === ANSWER.done ? '' : number(place), number(levels.length), levels, lines].map((it) => Buffer.from(it));
  },
  run: (core, { bytes }) => {
    const { answer, wrong, report } = core.run(bytes);
    return [byte(answer), answer === ANSWER.badScenario ? wrongField(wrong) : report];
  },
  plan: (core, { numbers: [details], bytes }) => {
    const { answer, wrong, late, lines } = core.plan(bytes, details === 1);
    if (answer === ANSWER.done) return [byte(answer), number(late), lines];
    return [byte(answer), ...(answer === ANSWER.badPlan ? [wrongField(wrong), encoder.encode(wrong.words)] : [])];
  },
  worstCase: (core, { numbers: [front], bytes }) => {
    const { answer, wrong, scenario } = core.worstCase(bytes.subarray(front), bytes.subarray(0, front));
    return [byte(answer), answer === ANSWER.badPlan ? wrongField(wrong) : scenario];
  },
  portTimes: (core, { numbers: [node], bytes }) => {
    const { answer, times } = core.portTimes(bytes, node);
    return [byte(answer), times];
  },
  allPortTimes: (core, { bytes }) => {
    const { answer, times } = core.allPortTimes(bytes);
    return [byte(answer), times];
  },
};

/** Holds the module against the native library. It counts the questions that were done and those that were refused. */
function compare(program, core, call, questions) {
  const wanted = nativeAnswers(program, call, questions);
  assert.equal(wanted.length, questions.length);
  let done = 0;
  for (const [index, question] of questions.entries()) {
    const found = Buffer.concat(ANSWERS[call](core, question));
    if (!found.equals(wanted[index])) {
      const { numbers = [], bytes } = question;
      assert.fail(`${call} ${numbers.join(' ')} of ${JSON.stringify(Buffer.from(bytes).toString('latin1').slice(0, 2000))}`);
    }
    if (found[0] === ANSWER.done) done += 1;
  }
  assert.ok(done > questions.length / 20, `${call}: ${done} of ${questions.length} are done`);
  assert.ok(call === 'decode' || done < questions.length, `${call}: some are refused`);
}

export const moduleTests = CALLS.map((call) => [`the module's ${call} answers as the native library, over made inputs`, async ({ file, work, examples }) => {
  const core = await Core.load(readFileSync(join(dirname(file), 'can_page.wasm')));
  const program = join(work, 'native');
  compare(program, core, call, questionsOf(call, program, examples));
}]);
