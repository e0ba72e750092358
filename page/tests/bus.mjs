// The view Bus: the examples against canbit, a picture computed by hand, wrong input, long scenarios, and the form.
import assert from 'node:assert/strict';
import { readFileSync, readdirSync } from 'node:fs';
import { join } from 'node:path';
import { drawn, fault, fill, report, rows, settled, shown, time } from './bus_page.mjs';

const named = (folder, ending) => readdirSync(folder).filter((name) => name.endsWith(ending)).sort();

const PORTS = '[[port]]\nqueue = ["S 001 D 0"]\n\n[[port]]\nqueue = ["S 000 D 0"]\n';

export const busTests = [
  ['every example of a scenario has the report of canbit', async ({ open, examples }) => {
    const folder = join(examples, 'scenarios');
    const names = named(folder, '.toml').map((name) => name.slice(0, -'.toml'.length));
    const page = await shown(open);
    assert.deepEqual(await page.get("[...document.querySelectorAll('#bus-examples option')].slice(1).map((option) => option.value)"), names);
    for (const name of names) {
      await page.run((value) => {
        const choice = document.getElementById('bus-examples');
        choice.value = value;
        choice.dispatchEvent(new Event('change', { bubbles: true }));
      }, name);
      await settled(page);
      assert.equal(await report(page), readFileSync(join(folder, `${name}.report`), 'utf8'), name);
      assert.equal(await page.get("document.getElementById('bus-report').textContent"), readFileSync(join(folder, `${name}.report`), 'utf8'), name);
    }
  }],
  ['every example is the same as a form', async ({ open, examples }) => {
    const folder = join(examples, 'scenarios');
    const page = await shown(open);
    for (const name of named(folder, '.toml')) {
      await fill(page, 'bus-text', readFileSync(join(folder, name), 'utf8'));
      assert.equal(await page.get("document.getElementById('bus-formless').hidden"), true, name);
      await page.run(() => document.getElementById('bus-bits').dispatchEvent(new Event('input', { bubbles: true })));
      await settled(page);
      assert.equal(await report(page), readFileSync(join(folder, name.replace('.toml', '.report')), 'utf8'), name);
    }
  }],
  ['each refused example is refused as canbit does', async ({ open, examples }) => {
    const folder = join(examples, 'refused');
    const page = await shown(open);
    for (const name of named(folder, '.toml')) {
      await fill(page, 'bus-text', readFileSync(join(folder, name), 'utf8'));
      const reported = await fault(page);
      const want = readFileSync(join(folder, name.replace('.toml', '.fault')), 'utf8').trim().replace('canbit: ', '');
      assert.ok(reported.text.startsWith(want), `${name}: ${reported.text}`);
      assert.equal(reported.shown, false);
    }
  }],
  ['arbitration is shown as computed by hand', async ({ open }) => {
    // both send; at bit time 13, that of the last bit of the identifier, after two stuff bits, port 0 sends recessive and loses
    const page = await shown(open, `version = 1\nbits = 60\n${PORTS}`);
    await page.click('bus-zoom-all');
    await drawn(page);
    const picture = await page.run(() => ({
      lost: [...document.querySelectorAll('#bus-picture [data-node]')].map((row) => row.querySelector('.lost-here')?.dataset.times ?? ''),
      words: [...document.querySelectorAll('#bus-picture [data-node]')].map((row) => [...row.querySelectorAll('.found')].map((word) => word.textContent)),
      high: [...document.querySelector('#bus-picture .levels .wave').getAttribute('d').matchAll(/V(\d+)H/g)].map(([, y]) => (Number(y) < 40 ? 1 : 0)).join(''),
      counts: [...document.querySelectorAll('#bus-picture .count')].map((text) => text.textContent),
    }));
    assert.deepEqual(picture.lost, ['13', '']);
    // after the 50 levels of that frame and an intermission port 0 sends its own
    assert.deepEqual(picture.words, [['sending', 'receiving', 'sending'], ['sending', 'receiving']]);
    assert.equal(picture.high, (await report(page)).split('\n')[1]);
    assert.deepEqual(picture.counts, ['TEC 0 REC 0', 'TEC 0 REC 0']);
    for (let step = 0; step < 13; step += 1) await page.click('bus-on');
    assert.equal(await page.get("document.getElementById('bus-time').textContent"), 'Bit time 13: dominant; port 0: arbitration lost');
    assert.deepEqual(await rows(page), [
      ['Port 0', 'stuffed part of a frame', 'sender', 'recessive', 'dominant', '0', '0', 'arbitration lost'],
      ['Port 1', 'stuffed part of a frame', 'sender', 'dominant', 'dominant', '0', '0', ''],
    ]);
    await page.click('bus-on');
    assert.deepEqual((await rows(page)).map((row) => row[2]), ['receiver', 'sender']);
  }],
  ['hits are shown in their bit times', async ({ open, examples }) => {
    const page = await shown(open, readFileSync(join(examples, 'scenarios/bit_error.toml'), 'utf8'));
    await page.click('bus-zoom-all');
    await drawn(page);
    const marks = (name) => page.run((of) => [...document.querySelectorAll(`#bus-picture .${of}`)].map((mark) => mark.dataset.times), name);
    // the hit is 16 bit times after the beginning; the transmitter sees it there, the receiver six bit times later
    assert.deepEqual(await marks('hit'), ['16']);
    assert.deepEqual(await marks('error-here'), ['16', '22']);
    await page.click('bus-next');
    assert.equal(await page.get("document.getElementById('bus-time').textContent"), 'Bit time 16: recessive, disturbed; port 0: bit error');
    await fill(page, 'bus-text', readFileSync(join(examples, 'scenarios/duplicate.toml'), 'utf8'));
    await page.click('bus-zoom-all');
    await drawn(page);
    const blind = await page.run(() => [...document.querySelectorAll('#bus-picture [data-node]')].map((row) => row.querySelector('.hit')?.dataset.times ?? ''));
    assert.deepEqual(blind, ['', '', '48']);
  }],
  ['it is stepped through by keys', async ({ open }) => {
    const page = await shown(open, `version = 1\nbits = 60\n${PORTS}`);
    await page.run(() => document.getElementById('bus-picture').focus());
    await page.key('ArrowRight');
    assert.equal(await time(page), 1);
    await page.key('End');
    assert.equal(await time(page), 59);
    await page.key('ArrowRight');
    await page.key('ArrowLeft');
    assert.equal(await time(page), 58);
    await page.key('Home');
    assert.equal(await time(page), 0);
  }],
  ['a form makes its text', async ({ open }) => {
    const page = await shown(open, 'version = 1\nbits = 20\n[[port]]\n');
    await fill(page, 'bus-bits', '60');
    await fill(page, 'bus-queue-0', 'S 000 D 0');
    await page.click('bus-add');
    await fill(page, 'bus-hold-1', '1');
    assert.equal(await page.get("document.getElementById('bus-text').value"), 'version = 1\nbits = 60\n\n[[port]]\nqueue = ["S 000 D 0"]\n\n[[port]]\nhold = 1\n');
    await fill(page, 'bus-version', '2');
    assert.match(await page.get("document.getElementById('bus-text').value"), /queue = \[\[0, "S 000 D 0"\]\]/);
    assert.equal((await fault(page)).text, '');
    await page.run(() => document.querySelector('.remove[data-node="0"]').click());
    await settled(page);
    assert.equal((await rows(page)).length, 1);
    await fill(page, 'bus-text', 'version = 1\nbits = 8\nport = [{ log = 1 }]');
    assert.deepEqual([await page.get("document.getElementById('bus-formless').hidden"), (await fault(page)).text], [false, '']);
  }],
  ['no bit time and many have reports too', async ({ open }) => {
    const page = await shown(open, 'version = 1\nbits = 0\n[[port]]\n');
    assert.equal(await report(page), 'bits 0\n\nport 0 active tec 0 rec 0 missed 0\n');
    await fill(page, 'bus-text', `version = 1\nbits = 1000000\n${'[[port]]\n'.repeat(9)}`);
    assert.match(await page.get("document.getElementById('bus-reported').textContent"), /picture would be too large/);
    assert.equal((await report(page)).length, 'bits 1000000\n'.length + 1000001 + 9 * 'port 0 active tec 0 rec 0 missed 0\n'.length);
  }],
];
