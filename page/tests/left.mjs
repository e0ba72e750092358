// The margins of a network until a message is late: read from an output with details, and drawn.
import assert from 'node:assert/strict';
import { marginsOf } from '../src/left.js';
import { fillNetwork, networkShown } from './network_page.mjs';

/** The network of docs/PLANNING.md, whose third message has a name, with these periods in bit times, and these lines at the top. */
const network = (periods, top = '') => `version = 1\n${top}${periods.map((period, place) => `[[message]]\nframe = "S ${place + 1}00 D"\n${place === 2 ? 'name = "Brake"\n' : ''}dlc = 7\nperiod = ${period}\ndeadline = 427\n`).join('')}`;
const PERIODS = [303, 427, 427];

/** The words of each item, and of its bar the width and where the line is. */
const shown = (page) => page.run(() => [...document.querySelectorAll('#network-left li')].map((item) => [item.textContent, item.querySelector('.bound').getAttribute('width'), item.querySelector('.deadline').getAttribute('x')]));

export const leftTests = [
  ['margins are read from the last lines of an output', async () => {
    const lines = 'load 0.971 late 0 of 3\nhits at most 15 for ever\nshorter periods 1 per cent ok 2 per cent late S 300 D 7 name "More hits"\nmore hits 12 ok 13 late E 00000100 R 8\n';
    assert.deepEqual(marginsOf(lines), [
      { kind: 'shorter', most: 1, late: 'S 300 D 7', name: 'More hits' }, { kind: 'more', most: 12, late: 'E 00000100 R 8', name: '' },
    ]);
    assert.deepEqual(marginsOf('load 0.000 late 0 of 1\nshorter periods 99 per cent ok\nmore hits 65535 ok\n'), [{ kind: 'shorter', most: 99, late: '', name: '' }, { kind: 'more', most: 65535, late: '', name: '' }]);
    assert.deepEqual(marginsOf('load 1.050 late 2 of 2\nhits above 15 at once\n'), []);
  }],
  ['margins are shown above the bounds, as computed by hand', async ({ open }) => {
    const page = await networkShown(open, network(PERIODS));
    await page.until("document.querySelectorAll('#network-left li').length === 2");
    // periods of 418 for 427 let the second frame of the third message end 431 after its release; 361 and 135 of a hit are 496
    assert.deepEqual(await shown(page), [
      ['All periods may be 1 % shorter. With 2 % S 300 D 7 Brake is late.', '47.5%', '48%'],
      ['No more hits may come at once. With 1 hit S 200 D 7 is late.', '48%', '48%'],
    ]);
    // of rare messages the bounds are 240, 361 and 362, and each hit makes them 135 longer: two leave 632 of the third, three make 645 of the first
    await fillNetwork(page, 'network-text', network([100000, 100000, 100000], '[errors]\nburst = 1\n').replaceAll('deadline = 427', 'deadline = 632'));
    await page.until("document.querySelectorAll('#network-left li').length === 2");
    assert.deepEqual(await shown(page), [
      ['All periods may be 99 % shorter.', '0.5%', '48%'],
      ['1 hit more may come at once. With 2 hits S 100 D 7 is late.', '24%', '48%'],
    ]);
  }],
  ['there are no margins if a message is late', async ({ open }) => {
    const page = await networkShown(open, network([303, 427, 418]));
    await page.until("document.getElementById('panel-network').dataset.state === 'shown'");
    assert.equal(await page.get("document.querySelectorAll('#network-left li').length"), 0);
  }],
];
