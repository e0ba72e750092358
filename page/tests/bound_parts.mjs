// The parts of a bound: read from an output with details, and drawn.
import assert from 'node:assert/strict';
import { linesBelow, makingsOf } from '../src/bound_parts.js';
import { networkShown } from './network_page.mjs';

/** The network of docs/PLANNING.md at 125 kbit/s, whose second message has a name; and the output with details. */
const NETWORK = `version = 1\nrate = 125000\n${[['100', 2430, ''], ['200', 3420, 'name = "Brake"\n'], ['300', 3420, '']].map(([identifier, period, name]) => `[[message]]\nframe = "S ${identifier} D"\n${name}dlc = 7\nperiod = ${period}\n`).join('')}`;
const ANSWER = `network messages 3 load 0.971 rate 125000
S 100 D 7 longest 122 blocking 121 bound 240 deadline 303 slack 63 ok
  microseconds bound 1920 deadline 2424 slack 504 ok
  latest frame 0 start 121
  jitter 0
  blocking 121
  earlier frames 0 bits 0
  hits 0 bits 0
  wire 119
  less periods 0 bits 0
S 200 D 7 longest 121 blocking 121 bound 361 deadline 427 slack 66 ok name "Brake"
  microseconds bound 2888 deadline 3416 slack 528 ok
  latest frame 0 start 243
  jitter 0
  blocking 121
  earlier frames 0 bits 0
  before frames 1 bits 122 of S 100 D 7
  hits 0 bits 0
  wire 118
  less periods 0 bits 0
S 300 D 7 longest 122 blocking 0 bound 422 deadline 427 slack 5 ok
  microseconds bound 3376 deadline 3416 slack 40 ok
  latest frame 1 start 730
  jitter 0
  blocking 0
  earlier frames 1 bits 122
  before frames 3 bits 366 of S 100 D 7
  before frames 2 bits 242 of S 200 D 7 name "Brake"
  hits 0 bits 0
  wire 119
  less periods 1 bits 427
load 0.971 late 0 of 3
`;

/** The parts of the third message: kind, count, bits, frame and name. */
const THIRD = [
  ['jitter', null, 0, '', ''], ['blocking', null, 0, '', ''], ['earlier', 1, 122, '', ''], ['before', 3, 366, 'S 100 D 7', ''], ['before', 2, 242, 'S 200 D 7', 'Brake'], ['hits', 0, 0, '', ''],
  ['wire', null, 119, '', ''],
];

/** What is shown below the row of a message. */
const below = (page) => page.run(() => {
  const room = document.querySelector('#network-bounds .makings');
  return { words: room.querySelector('p').textContent, items: [...room.querySelectorAll('li')].map((item) => item.textContent), drawn: [...room.querySelectorAll('.bar rect')].map((part) => [part.getAttribute('class'), part.getAttribute('x'), part.getAttribute('width')]) };
});

export const boundPartsTests = [
  ['what makes a bound is read from the lines below its message', async () => {
    const { latest, parts, later, times } = makingsOf(linesBelow(ANSWER, 'S 300 D 7'));
    assert.deepEqual(parts.map(({ kind, count, bits, frame, name }) => [kind, count, bits, frame, name]), THIRD);
    assert.deepEqual([latest, later, times], [1, 427, 'bound 3376 deadline 3416 slack 40 ok']);
    assert.equal(parts.reduce((sum, { bits }) => sum + bits, 0) - later, 422);
    assert.equal(makingsOf(linesBelow(ANSWER, 'S 100 D 7')).parts.length, 5);
    assert.deepEqual(linesBelow(ANSWER.replace(/^ {2}.*\n/gm, ''), 'S 200 D 7'), []);
  }],
  ['what makes a bound is shown below its row, and folded again', async ({ open }) => {
    const page = await networkShown(open, NETWORK);
    const press = () => page.run(() => document.querySelector('[data-makings="2"]').click());
    await press();
    await page.until("document.querySelector('#network-bounds .makings') !== null");
    const { words, items, drawn } = await below(page);
    assert.equal(words, 'Frame 2 of the busy period has the longest response time. It is released 427 bit times after the first, at the first upright line. What is before that line is not part of its bound. '
      + 'The slack is 5 bit times, 1 % of the deadline. In microseconds: bound 3376, deadline 3416, slack 40.');
    assert.deepEqual(items, [
      '1 frame of this message before the latest: 122 bit times, 14 %', '3 frames of S 100 D 7: 366 bit times, 43 %', '2 frames of S 200 D 7 Brake: 242 bit times, 29 %', 'Its own frame: 119 bit times, 14 %',
    ]);
    // of 854 bit times from the first release to the deadline; the latest frame is released after 427
    assert.deepEqual(drawn, [
      ['part-earlier', '0%', '14.3%'], ['part-before', '14.3%', '42.9%'], ['part-before', '57.1%', '28.3%'], ['part-wire', '85.5%', '13.9%'], ['released', '50%', '3'], ['deadline', '100%', '3'],
    ]);
    assert.equal(await page.get("document.querySelector('[data-makings=\"2\"]').getAttribute('aria-expanded')"), 'true');
    await press();
    assert.equal(await page.get("document.querySelectorAll('#network-bounds .makings').length"), 0);
  }],
];
