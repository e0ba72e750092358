// The view Network: the examples against canplan, bars computed by hand, the table, files, and many messages.
import assert from 'node:assert/strict';
import { readFileSync, readdirSync, writeFileSync } from 'node:fs';
import { join } from 'node:path';
import { unblocked } from './limits.mjs';
import { bounds, fillNetwork, many, networkFault, networkSettled, networkShown, networkText, pasteNetwork, saved } from './network_page.mjs';
import { longestTask } from './tasks.mjs';

const names = (folder) => readdirSync(folder).filter((name) => name.endsWith('.toml')).sort().map((name) => name.slice(0, -'.toml'.length));

/** Three messages of C = 122, 121 and 122, of which the first meets its deadline exactly, the second misses it by a bit time, and the third too. */
const EDGES = `version = 1
[[message]]
frame = "S 300 D"
dlc = 7
period = 427
deadline = 200
[[message]]
frame = "S 200 D"
dlc = 7
period = 427
deadline = 360
[[message]]
frame = "S 100 D"
dlc = 7
period = 303
deadline = 240
`;

export const networkTests = [
  ['every example of a network has the output of canplan', async ({ open, examples }) => {
    const folder = join(examples, 'networks');
    const page = await networkShown(open);
    assert.deepEqual(await page.get("[...document.querySelectorAll('#network-examples option')].slice(1).map((option) => option.value)"), names(folder));
    for (const name of names(folder)) {
      await page.fill('network-examples', name);
      await networkSettled(page);
      const answer = readFileSync(join(folder, `${name}.answer`), 'utf8');
      assert.equal(await saved(page, 'network-download'), answer, name);
      assert.equal(await page.get("document.getElementById('network-answer').textContent"), answer, name);
      const lines = answer.split('\n').filter((line) => line.includes(' longest '));
      assert.deepEqual((await bounds(page)).map(([frame, , , bound, , outcome]) => [frame, bound.replaceAll(',', ''), outcome.includes('late')]),
        lines.map((line) => [line.split(' longest ')[0], / bound (\w+)/.exec(line)[1], line.endsWith(' late')]), name);
    }
  }],
  ['every example of a network is the same as a form', async ({ open, examples }) => {
    const folder = join(examples, 'networks');
    const page = await networkShown(open);
    for (const name of names(folder)) {
      await fillNetwork(page, 'network-text', readFileSync(join(folder, `${name}.toml`), 'utf8'));
      assert.equal(await page.get("document.getElementById('network-formless').hidden"), true, name);
      await page.run(() => document.getElementById('network-rate').dispatchEvent(new Event('input', { bubbles: true })));
      await networkSettled(page);
      assert.doesNotMatch(await networkText(page), /#/);
      assert.equal(await saved(page, 'network-download'), readFileSync(join(folder, `${name}.answer`), 'utf8'), name);
    }
  }],
  ['bounds and deadlines are shown as computed by hand', async ({ open }) => {
    const page = await networkShown(open, EDGES);
    assert.deepEqual(await bounds(page), [
      ['S 100 D 7', '122', '121', '240', '240', 'ok, slack 0'], ['S 200 D 7', '121', '121', '361', '360', '▲ late'], ['S 300 D 7', '122', '0', '422', '200', '▲ late'],
    ]);
    assert.match(await page.get("document.getElementById('network-reported').textContent"), /^Load 0\.971, 2 of 3 messages late: deadlines may be missed\. Answered in \d+ ms\.$/);
    assert.equal(await page.get("document.getElementById('network-borne').textContent"), 'No hits: the document has no errors.');
    const bars = await page.run(() => [...document.querySelectorAll('#network-bounds .bar')].map((bar) => ['bound', 'beyond', 'cut'].map((part) => bar.querySelector(`.${part}`)?.getAttribute('width') ?? bar.querySelectorAll(`.${part}`).length)));
    // the deadline is at 48 %, and 361 of 360 go 0.3 % beyond it, of which 2 % are drawn; 422 of 200 are cut at 96 %
    assert.deepEqual(bars, [['48%', 0, 0], ['48%', '2%', 0], ['48%', '48%', 1]]);
  }],
  ['a name is shown beneath its frame, and edited in the table', async ({ open }) => {
    const page = await networkShown(open, 'version = 1\n[[message]]\nname = " Engine speed"\nframe = "S 000 D"\nperiod = 500\n[[message]]\nframe = "S 001 D"\nperiod = 500\n');
    const names = () => page.run(() => [...document.querySelectorAll('#network-bounds .called')].map((name) => name.textContent));
    assert.deepEqual(await names(), [' Engine speed']);
    assert.equal(await page.get("document.getElementById('network-name-0').value"), ' Engine speed');
    await fillNetwork(page, 'network-name-1', 'Brake');
    assert.equal(await networkText(page), 'version = 1\n\n[[message]]\nname = " Engine speed"\nframe = "S 000 D"\nperiod = 500\n\n[[message]]\nname = "Brake"\nframe = "S 001 D"\nperiod = 500\n');
    assert.deepEqual(await names(), [' Engine speed', 'Brake']);
  }],
  ['a message with no bound is shown as late', async ({ open }) => {
    const page = await networkShown(open, 'version = 1\n[[message]]\nframe = "S 000 D"\nperiod = 100\n[[message]]\nframe = "S 001 D"\nperiod = 5000000\n');
    assert.deepEqual((await bounds(page)).map(([, , , bound, , outcome]) => [bound, outcome]), [['none', '▲ late'], ['none', '▲ late']]);
    assert.equal(await page.get("document.querySelectorAll('#network-bounds .cut').length"), 2);
  }],
  ['the time for which hits are tolerated is shown', async ({ open }) => {
    const page = await networkShown(open);
    /** @type {Array<[string, RegExp]>} */
    const rows = [
      ['burst = 1\nspacing = 10000', /^Hits are tolerated for 149,999 bit times: in that time there are at most 15/], ['burst = 15', /^Hits are always tolerated/], ['', /^Hits are always tolerated/], ['burst = 16', /^Hits may not be tolerated/],
    ];
    for (const [errors, words] of rows) {
      await fillNetwork(page, 'network-text', `version = 1\n[errors]\n${errors}\n[[message]]\nframe = "S 000 D"\nperiod = 1000\n`);
      assert.match(await page.get("document.getElementById('network-borne').textContent"), words);
    }
  }],
  ['a table makes its text', async ({ open }) => {
    const page = await networkShown(open, 'version = 1\n[[message]]\nframe = "S 000 D"\nperiod = 500\n');
    await fillNetwork(page, 'network-rate', '125000');
    await fillNetwork(page, 'network-burst', '1');
    await fillNetwork(page, 'network-period-0', '5000');
    await page.click('network-add');
    await networkSettled(page);
    assert.equal((await networkFault(page)).text.startsWith('P2 message[1].frame'), true);
    assert.equal(await page.get('document.activeElement.id'), 'network-frame-1');
    await fillNetwork(page, 'network-frame-1', 'E 18db33f1 R');
    await fillNetwork(page, 'network-dlc-1', '0');
    await fillNetwork(page, 'network-period-1', '2000');
    await fillNetwork(page, 'network-jitter-1', '10');
    await fillNetwork(page, 'network-deadline-1', '1500');
    assert.equal(await networkText(page), 'version = 1\nrate = 125000\n\n[errors]\nburst = 1\n\n[[message]]\nframe = "S 000 D"\nperiod = 5000\n\n'
      + '[[message]]\nframe = "E 18db33f1 R"\ndlc = 0\nperiod = 2000\njitter = 10\ndeadline = 1500\n');
    assert.deepEqual(await networkFault(page), { text: '', shown: true, invalid: [] });
    await page.click('network-remove-0');
    await networkSettled(page);
    assert.deepEqual((await bounds(page)).map(([frame]) => frame), ['E 18db33f1 R 0']);
    assert.equal(await page.get('document.activeElement.id'), 'network-remove-0');
    await fillNetwork(page, 'network-text', 'version = 1\nmessage = [{ frame = "S 000 D", period = [] }]\n');
    assert.equal(await page.get("document.getElementById('network-formless').hidden"), false);
  }],
  ['the table is gone through by keys', async ({ open }) => {
    const page = await networkShown(open, many(40));
    await page.run(() => document.getElementById('network-jitter-30').focus());
    const reached = [];
    for (const key of ['ArrowDown', 'Enter', 'ArrowUp', 'ArrowUp']) {
      await page.key(key);
      reached.push(await page.get('document.activeElement.id'));
    }
    assert.deepEqual(reached, ['network-jitter-31', 'network-jitter-32', 'network-jitter-31', 'network-jitter-30']);
    assert.equal(await page.get("document.getElementById('network-messages-paged').textContent"), '1 to 32 of 40');
  }],
  ['a network is opened and saved as a file', async ({ open, work }) => {
    writeFileSync(join(work, 'network.toml'), EDGES);
    const page = await networkShown(open);
    await page.files('network-file', [join(work, 'network.toml')]);
    await page.until("document.getElementById('network-reported').textContent.includes('2 of 3 messages')");
    assert.equal(await saved(page, 'network-save'), EDGES);
    writeFileSync(join(work, 'latin.toml'), Buffer.from('version = 1 # \xe9\n', 'latin1'));
    await page.files('network-file', [join(work, 'latin.toml')]);
    await page.until("document.getElementById('network-fault').textContent.startsWith('P2 toml: the file is no text in UTF-8')");
  }],
  ['180 messages and 512 are shown a page at a time, and never block the page for more than 50 ms', async ({ open }) => {
    const page = await networkShown(open);
    const text = many(512);
    const { longest } = await longestTask(page, async () => {
      await fillNetwork(page, 'network-text', many(180));
      await pasteNetwork(page, text);
      for (let turn = 0; turn < 15; turn += 1) await page.click('network-messages-on');
      await fillNetwork(page, 'network-jitter-511', '5');
    });
    console.log(`    blocked for ${Math.round(longest)} ms`);
    unblocked(longest);
    assert.match(await page.get("document.getElementById('network-reported').textContent"), /^Load \d+\.\d+, /);
    const first = () => page.run(() => [document.getElementById('network-bounds-paged').textContent, document.querySelector('#network-bounds th').textContent]);
    assert.deepEqual(await first(), ['1 to 64 of 512', 'E 00000001 D 8']);
    await page.click('network-bounds-on');
    assert.deepEqual(await first(), ['65 to 128 of 512', 'E 00000041 D 8']);
    assert.equal(await page.get("document.getElementById('network-bounds-back').disabled"), false);
    assert.match(await page.get("document.getElementById('network-name').textContent"), /^Shown: a network of [\d,]+ characters, which are too many for the field\.$/);
    await pasteNetwork(page, `${text}\n[[message]]\nframe = "S 000 D"\nperiod = 1000\n`);
    assert.match((await networkFault(page)).text, /^P2 message \(line \d+, column 1\): must be an array of 1 to 512 tables/);
  }],
];
