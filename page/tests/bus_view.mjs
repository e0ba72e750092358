// How the view Bus is read: what comes first, rows and their fields, folding, going from event to event, and logs.
import assert from 'node:assert/strict';
import { writeFileSync } from 'node:fs';
import { join } from 'node:path';
import { drawn, fill, report, rows, settled, shown, time } from './bus_page.mjs';

const PAIR = '[[port]]\nqueue = ["S 001 D 0"]\n\n[[port]]\nqueue = ["S 000 D 0"]\n';
const DATA = 'version = 1\nbits = 80\n[[port]]\nqueue = ["S 555 D 2 aa55"]\n[[port]]\n';

/** The fields of each row of the picture, by their labels; and the bit times that are hatched. */
const fields = (page) => page.run(() => [...document.querySelectorAll('#bus-picture [data-node]')].map((row) => ({
  names: [...row.querySelectorAll('.field-band')].map((band) => Number(band.dataset.field)),
  labels: [...row.querySelectorAll('.field-band .label')].map((label) => label.textContent),
  hatched: [...row.querySelectorAll('.hatch')].map((hatch) => hatch.dataset.times).join(' '),
})));

/** Rows in which more than a line of text would fit between what is drawn, or below it. */
const empty = (page) => page.run(() => [...document.querySelectorAll('#bus-picture [data-node]')].flatMap((row) => {
  const ground = row.querySelector('.row-ground');
  const boxes = [...row.querySelectorAll('svg > *')].filter((part) => part !== ground).map((part) => part.getBoundingClientRect()).filter(({ height }) => height > 0);
  const { top, bottom } = ground.getBoundingClientRect();
  let [reached, widest] = [top, 0];
  for (const box of [...boxes.sort((a, b) => a.top - b.top), { top: bottom, bottom }]) {
    widest = Math.max(widest, box.top - reached);
    reached = Math.max(reached, box.bottom);
  }
  return widest > 12 ? [`${row.textContent}: ${widest} pixels`] : [];
}));

const names = (page) => page.run(() => [...document.querySelectorAll('#bus-picture .port-name')].map((name) => name.textContent));

export const busViewTests = [
  ['the picture stands first, and then the bit time, ports at the end, report and scenario', async ({ open }) => {
    for (const [width, height] of [[1280, 900], [390, 844]]) {
      const page = await shown(open, undefined, { width, height });
      const tops = await page.run(() => ['bus-picture', 'bus-time', 'bus-rows', 'bus-ends', 'bus-answer', 'bus-text'].map((id) => document.getElementById(id).getBoundingClientRect().top + scrollY));
      assert.deepEqual(tops, [...tops].sort((a, b) => a - b));
      assert.ok(tops[0] < (width > 500 ? 300 : 500), `the picture begins at ${tops[0]}`);
      if (width > 500) assert.ok(await page.run(() => document.getElementById('bus-picture').getBoundingClientRect().bottom) < 700);
    }
  }],
  ['64 ports are folded, and the page stays short', async ({ open }) => {
    const page = await shown(open, `version = 1\nbits = 60\n${'[[port]]\nqueue = ["S 000 D 0"]\n'.repeat(64)}`, { width: 1280, height: 900 });
    await drawn(page);
    const [height, first, folded] = await page.run(() => [document.documentElement.scrollHeight, document.querySelectorAll('#bus-picture [data-node]').length, [...document.querySelectorAll('#bus-picture [data-node]')].every((row) => row.dataset.folded === 'true')]);
    assert.ok(height < 4000, `the page is ${height} pixels high`);
    assert.ok(first < 64 && first > 10, `${first} rows are drawn`);
    assert.equal(folded, true);
    await page.run(() => document.getElementById('bus-picture').focus());
    for (let step = 0; step < 63; step += 1) await page.key('ArrowDown');
    await page.key('Enter');
    await drawn(page);
    const last = await page.run(() => { const row = [...document.querySelectorAll('#bus-picture [data-node]')].at(-1); return [row.dataset.node, row.dataset.folded]; });
    assert.deepEqual(last, ['63', 'false']);
    await page.click('bus-unfold');
    await drawn(page);
    assert.ok(await page.get('document.documentElement.scrollHeight') < 4000);
    assert.ok(await page.get("document.querySelectorAll('#bus-picture [data-node]').length") < 12);
  }],
  ['rows carry the numbers of ports, and are folded by a click on them', async ({ open }) => {
    const page = await shown(open, `version = 1\nbits = 60\n${PAIR}`);
    await drawn(page);
    assert.deepEqual(await names(page), ['Wire', '▾ Port 0', '▾ Port 1']);
    const at = await page.run(() => { const { x, y } = document.querySelector('#bus-picture [data-node="1"] .port-name').getBoundingClientRect(); return { x: x + 5, y: y + 5 }; });
    for (const type of ['mousePressed', 'mouseReleased']) await page.call('Input.dispatchMouseEvent', { type, ...at, button: 'left', clickCount: 1 });
    await drawn(page);
    assert.deepEqual(await names(page), ['Wire', '▾ Port 0', '▸ Port 1']);
  }],
  ['rows are no higher than what they show, and the one at the top stays there', async ({ open }) => {
    const page = await shown(open, undefined, { width: 390 });
    await drawn(page);
    assert.deepEqual(await empty(page), []);
    await page.call('Emulation.setDeviceMetricsOverride', { width: 1280, height: 900, deviceScaleFactor: 1, mobile: false });
    await fill(page, 'bus-text', `version = 1\nbits = 3000\n${'[[port]]\nqueue = ["S 000 D 0"]\n'.repeat(20)}`);
    await page.click('bus-unfold');
    await drawn(page);
    await page.run(() => { document.getElementById('bus-picture').scrollTop = 640; });
    await drawn(page);
    const top = () => page.run(() => {
      const end = document.querySelector('#bus-picture .head').getBoundingClientRect().bottom;
      return [...document.querySelectorAll('#bus-picture [data-node]')].find((row) => row.querySelector('.row-ground').getBoundingClientRect().bottom > end + 1).dataset.node;
    });
    assert.equal(await top(), '8');
    await page.click('bus-zoom-all');
    await drawn(page);
    assert.equal(await top(), '8');
    assert.deepEqual(await empty(page), []);
    for (let step = 0; step < 5; step += 1) await page.click('bus-zoom-in');
    await drawn(page);
    assert.equal(await top(), '8');
  }],
  ['zoomed in, the fields of a frame are named as computed by hand', async ({ open }) => {
    const page = await shown(open, DATA, { width: 1280 });
    await page.click('bus-zoom-all');
    await drawn(page);
    const [sender, receiver] = await fields(page);
    // start, identifier, RTR, IDE, r0, DLC, data, CRC sequence, its delimiter, ACK slot, ACK delimiter, end of frame
    assert.deepEqual(sender.names, [0, 1, 3, 5, 7, 8, 9, 10, 11, 12, 13, 14]);
    assert.deepEqual(receiver.names, sender.names);
    for (const label of ['Identifier 0x555', 'DLC 0x2', 'Data 0xaa55', 'EOF']) assert.ok(sender.labels.some((one) => one === label || (label === 'EOF' && /EOF|End of frame/.test(one))), `${label} among ${sender.labels.join(', ')}`);
    assert.ok(sender.labels.some((one) => one.startsWith('CRC')), sender.labels.join(', '));
    // the only stuff bit is after the five dominant levels from RTR on
    const wire = (await report(page)).split('\n')[1];
    assert.equal(wire.slice(12, 18), '000001');
    assert.equal(sender.hatched.split(' ')[0], '17');
    assert.equal(sender.hatched, receiver.hatched);
    assert.equal(await page.get("document.querySelectorAll('#bus-picture .byte-end').length"), 2);
    // far away there is no room for them
    await fill(page, 'bus-text', DATA.replace('80', '8000'));
    await page.click('bus-zoom-all');
    await drawn(page);
    assert.deepEqual((await fields(page))[0].names, []);
  }],
  ['a lost arbitration keeps the fields of the frame that goes on', async ({ open }) => {
    const page = await shown(open, `version = 1\nbits = 60\n${PAIR}`);
    await page.click('bus-zoom-all');
    await drawn(page);
    const [loser, winner] = await fields(page);
    assert.deepEqual(loser.names.slice(0, 12), winner.names.slice(0, 12));
    assert.equal(loser.hatched.split(' ')[0], '5');
  }],
  ['a start of frame is named as such', async ({ open }) => {
    const page = await shown(open, `version = 1\nbits = 60\n${PAIR}\n[[port]]\n`);
    assert.deepEqual(await rows(page), [
      ['Port 0', 'start of frame', 'sender', 'dominant', 'dominant', '0', '0', 'begins its frame'],
      ['Port 1', 'start of frame', 'sender', 'dominant', 'dominant', '0', '0', 'begins its frame'],
      ['Port 2', 'start of frame', 'receiver', 'recessive', 'dominant', '0', '0', ''],
    ]);
    assert.equal(await page.get("document.getElementById('bus-time').textContent"), 'Bit time 0: dominant; port 0: begins its frame, port 1: begins its frame');
  }],
  ['the next event goes through all of them, and the previous one back', async ({ open }) => {
    const page = await shown(open, `version = 1\nbits = 140\n${PAIR}`);
    const reported = [];
    for (let step = 0; step < 4; step += 1) {
      await page.click('bus-next');
      reported.push(await page.get("document.getElementById('bus-time').textContent"));
    }
    assert.match(reported[0], /^Bit time 13: .*port 0: arbitration lost/);
    assert.match(reported[1], /^Bit time 4[89]: recessive; .*frame (sent|received)/);
    assert.ok(reported.some((words) => words.includes('port 1: frame sent')) && reported.some((words) => words.includes('port 0: frame received')), reported.join('\n'));
    await page.run(() => document.getElementById('bus-picture').focus());
    for (let step = 0; step < 3; step += 1) await page.key('p');
    assert.equal(await time(page), 13);
    await page.key('n');
    assert.ok(await time(page) > 13);
  }],
  ['zoom keeps the bit time that is picked in the middle', async ({ open }) => {
    const page = await shown(open, 'version = 1\nbits = 10000\n[[port]]\n');
    await page.click('bus-zoom-all');
    for (let step = 0; step < 313; step += 1) await page.run(() => document.getElementById('bus-on').click());
    for (const action of [() => page.click('bus-zoom-in'), () => page.key('+')]) {
      await page.run(() => document.getElementById('bus-picture').focus());
      for (let step = 0; step < 5; step += 1) await action();
      await drawn(page);
      const off = await page.run(() => {
        const cursor = document.querySelector('#bus-picture .head .cursor').getBoundingClientRect();
        const plot = document.querySelector('#bus-picture .head svg').getBoundingClientRect();
        return Math.abs(cursor.x + cursor.width / 2 - plot.x - plot.width / 2);
      });
      assert.ok(off < 2, `the bit time that is picked is ${off} pixels off the middle`);
      await page.click('bus-zoom-out');
    }
  }],
  ['an entry of a log has its bit time, and leads there', async ({ open }) => {
    const page = await shown(open, `version = 1\nbits = 140\n${PAIR}`);
    await page.run(() => { for (const port of document.querySelectorAll('.port-end')) port.open = true; });
    await page.until("document.querySelectorAll('#bus-ends li').length === 4");
    const entries = await page.run(() => [...document.querySelectorAll('#bus-ends li')].map((entry) => entry.textContent));
    // the frame that has won is 50 levels long; a receiver takes it a bit time before it ends
    assert.match(entries[0], /^Bit time 48 received S 000 D 0$/);
    assert.match(entries[2], /^Bit time 49 sent S 000 D 0$/);
    await page.run(() => document.querySelector('#bus-ends li:last-child button').click());
    const at = await time(page);
    assert.equal(entries[1].startsWith(`Bit time ${at} `), true, entries[1]);
    assert.match(await page.get("document.getElementById('bus-time').textContent"), /frame sent/);
  }],
  ['a long log says how much of it is shown, and where the whole is', async ({ open }) => {
    const queue = Array.from({ length: 600 }, () => '"S 000 D 0"').join(', ');
    const page = await shown(open, `version = 1\nbits = 40000\n[[port]]\nqueue = [${queue}]\nlog = 1000\n[[port]]\nlog = 3\n`);
    await page.run(() => { for (const port of document.querySelectorAll('.port-end')) port.open = true; });
    await page.until("document.querySelectorAll('#bus-ends li').length === 53");
    const words = () => page.run(() => [...document.querySelectorAll('.port-end')].map((port) => port.textContent));
    assert.match((await words())[0], /Shown are 50 of 600 entries; all are in the report, which can be downloaded below/);
    assert.match((await words())[1], /3 entries in its log, 597 more missed.*The log had no space for 597 more\./);
    await page.run(() => document.querySelector('[data-more]').click());
    await page.run(() => document.querySelector('[data-more]').click());
    assert.equal(await page.get("document.querySelectorAll('.port-end li').length"), 603);
    assert.doesNotMatch((await words())[0], /Shown are/);
  }],
  ['empty fields show what holds then', async ({ open }) => {
    const page = await shown(open, 'version = 1\nbits = 8\n[[port]]\n');
    assert.deepEqual(await page.run(() => ['bus-at', 'bus-in', 'bus-view', 'bus-queue-0', 'bus-log-0', 'bus-hold-0'].map((id) => [document.getElementById(id).value, document.getElementById(id).placeholder])),
      [['', 'none'], ['', 'none'], ['', 'none'], ['', 'none'], ['', '64'], ['', '0']]);
  }],
  ['a scenario is opened and saved as a file', async ({ open, work }) => {
    const text = `version = 1\nbits = 61\n${PAIR}`;
    writeFileSync(join(work, 'saved.toml'), text);
    const page = await shown(open);
    await page.files('bus-file', [join(work, 'saved.toml')]);
    await page.until("document.getElementById('bus-reported').textContent.startsWith('61 bit times')");
    await settled(page);
    const saved = await page.run(async () => {
      /** @type {Blob} */
      let blob;
      URL.createObjectURL = (/** @type {Blob} */ given) => { blob = given; return 'data:,'; };
      HTMLAnchorElement.prototype.click = () => {};
      document.getElementById('bus-save').click();
      return blob.text();
    });
    assert.equal(saved, text);
    writeFileSync(join(work, 'latin.toml'), Buffer.from('version = 1 # \xe9\n', 'latin1'));
    await page.files('bus-file', [join(work, 'latin.toml')]);
    await page.until("document.getElementById('bus-fault').textContent.startsWith('P2 toml: the file is no text in UTF-8')");
  }],
];
