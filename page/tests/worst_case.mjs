// The worst case of a message of a network, shown in the view Bus: against canplan, and with hand-computed numbers.
import assert from 'node:assert/strict';
import { readFileSync, readdirSync } from 'node:fs';
import { join } from 'node:path';
import { fill, time } from './bus_page.mjs';
import { askWorst, fillNetwork, many, networkShown, saved } from './network_page.mjs';

/** The three messages of docs/PLANNING.md, in bit times. */
const THREE = `version = 1\n${[['100', 303], ['200', 427], ['300', 427]].map(([identifier, period]) => `[[message]]\nframe = "S ${identifier} D"\ndlc = 7\nperiod = ${period}\n`).join('')}`;

/** A message alone, whose frame keeps the bus for 53 bit times, three of them of intermission. */
const LONE = 'version = 1\n[[message]]\nframe = "S 000 D"\ndlc = 0\nperiod = 1000\n';

/** A network, a message of it, and the words about its worst case. */
const TOLD = [
  // its second frame is released at 428, starts at 731 and ends before 850
  [THREE, 'S 300 D 7', 'its latest frame, of port 2, is offered before bit time 428 and ends with bit time 849, 422 bit times after its offer, which is its bound.'],
  [LONE, 'S 000 D 0', 'its latest frame, of port 0, is offered before bit time 1 and ends with bit time 50, 50 bit times after its offer, which is its bound.'],
  [`${LONE}jitter = 5\n`, 'S 000 D 0', 'its latest frame, of port 0, is offered before bit time 1 and ends with bit time 50, 50 bit times after its offer. Its bound, 55, also counts its jitter.'],
  // a hit costs 13 bit times more than the frame keeps the bus
  [`${LONE}[errors]\nburst = 1\n`, 'S 000 D 0', 'its latest frame, of port 0, is offered before bit time 1 and ends with bit time 50, 50 bit times after its offer. Its bound, 116, also counts its jitter and hits.'],
  // hits come faster than a frame can be repeated
  [`${LONE}[errors]\nburst = 1\nspacing = 20\n`, 'S 000 D 0', 'its latest frame, of port 0, is offered before bit time 1 and ends with bit time 50, 50 bit times after its offer. With hits it has no bound.'],
];

/** The words about the worst case that is shown. */
const reported = (page) => page.get("document.getElementById('bus-worst').textContent");

/** The names of the views that are seen. */
const seen = (page) => page.run(() => [...document.querySelectorAll('[role=tabpanel]')].filter((panel) => !panel.hidden).map((panel) => panel.id));

export const worstCaseTests = [
  ['the worst case of a message is that of canplan --timeline', async ({ open, examples, work }) => {
    const page = await networkShown(open);
    const folder = join(work, 'worst');
    const files = readdirSync(folder).sort();
    assert.ok(files.length > 0);
    for (const file of files) {
      const [network, name] = file.split('.');
      const text = readFileSync(join(examples, 'networks', `${network}.toml`), 'utf8');
      if (await page.get("document.getElementById('network-text').value") !== text) await fillNetwork(page, 'network-text', text);
      assert.equal(await askWorst(page, name), '', file);
      assert.equal(await saved(page, 'bus-save'), readFileSync(join(folder, file), 'utf8'), file);
      await page.click('tab-network');
    }
  }],
  ['the view goes to the latest frame of a worst case, and describes it as computed by hand', async ({ open }) => {
    const page = await networkShown(open);
    for (const [network, frame, words] of TOLD) {
      await page.click('tab-network');
      await fillNetwork(page, 'network-text', network);
      assert.equal(await askWorst(page, frame), '', frame);
      assert.deepEqual(await seen(page), ['panel-bus']);
      assert.equal(await reported(page), `The worst case of ${frame} without hits: ${words}`);
      assert.equal(await time(page), Number(/bit time (\d+), /.exec(words)[1]));
      assert.equal(await page.get('document.activeElement.id'), 'bus-picture');
    }
    await fill(page, 'bus-bits', '10');
    assert.equal(await reported(page), '');
  }],
  ['a worst case is a link, and the way back leads to its network', async ({ open }) => {
    const page = await networkShown(open, THREE);
    await page.until("location.hash.startsWith('#network&network=')");
    assert.equal(await askWorst(page, 'S 300 D 7'), '');
    assert.match(await page.get("document.getElementById('bus-reported').textContent"), /^853 bit times of 4 ports/);
    await page.until("/^#bus&scenario=.*&time=849&/.test(location.hash)");
    await page.get('history.back()');
    await page.until("!document.getElementById('panel-network').hidden");
    assert.equal(await page.get("document.getElementById('network-text').value"), THREE);
  }],
  ['a message that shares its port has its own latest frame', async ({ open }) => {
    const page = await networkShown(open, many(70));
    await page.click('network-bounds-on');
    assert.equal(await askWorst(page, 'E 00000046 D 8'), '');
    assert.match(await reported(page), /: its latest frame, of port 63, is offered before bit time 1 and ends with bit time [\d,]+, [\d,]+ bit times after its offer, which is its bound\.$/);
  }],
  ['a message is shown if no scenario is long enough for a worst case', async ({ open }) => {
    const page = await networkShown(open, 'version = 1\n[[message]]\nframe = "S 000 D"\nperiod = 100\n[[message]]\nframe = "S 001 D"\nperiod = 5000000\n');
    for (const frame of ['S 000 D 8', 'S 001 D 8']) assert.match(await askWorst(page, frame), /^No scenario is long enough: the bus is busy .* for more than 999,999 bit times, or forever\.$/);
    assert.deepEqual(await seen(page), ['panel-network']);
    await fillNetwork(page, 'network-text', THREE);
    assert.equal(await askWorst(page, 'S 100 D 7'), '');
  }],
];
