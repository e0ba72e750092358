// The page as a file: one, without network, quickly there, and what it says where it can't work.
import assert from 'node:assert/strict';
import { readFileSync, statSync, writeFileSync } from 'node:fs';
import { join } from 'node:path';
import { fill, settled } from './bus_page.mjs';
import { within } from './limits.mjs';
import { fillNetwork, networkSettled } from './network_page.mjs';

export const pageTests = [
  ['the page is one file that asks for nothing', async ({ open, file, address }) => {
    const text = readFileSync(file, 'utf8');
    assert.ok(statSync(file).size < 700000, 'the file is small');
    assert.doesNotMatch(text, /\b(?:src|href)\s*=\s*["']?(?:https?:|\/\/|\.)/);
    assert.doesNotMatch(text, /\bfetch\(|XMLHttpRequest|WebSocket|[^{]\bimport\(/);
    const page = await open();
    assert.deepEqual(page.requests.filter((url) => url !== address && !/^(data|blob):/.test(url)), []);
  }],
  ['the network is forbidden by the page itself', async ({ open }) => {
    const page = await open();
    const refused = await page.run(() => fetch('https://example.org/').then(() => false, () => true));
    assert.equal(refused, true);
    page.errors.length = 0; // the browser reports the refusal, as it should
  }],
  ['the first paint comes within a second', async ({ open }) => {
    const page = await open();
    await page.call('Page.bringToFront');
    await page.until("performance.getEntriesByName('first-contentful-paint').length > 0");
    const paint = await page.run(() => performance.getEntriesByName('first-contentful-paint')[0].startTime);
    within('the first paint', paint, 1000);
  }],
  ['a message is shown if the browser refuses the module', async ({ open }) => {
    const page = await open({ before: 'WebAssembly.validate = () => false;' });
    const [text, role, views] = await page.run(() => {
      const refused = document.getElementById('refused');
      return [refused.textContent, refused.getAttribute('role'), document.getElementById('views').hidden];
    });
    assert.match(text, /can’t run the proved code/);
    assert.deepEqual([role, views], ['alert', true]);
  }],
  ['a message is shown if the browser has no WebAssembly', async ({ open }) => {
    const page = await open({ before: 'delete globalThis.WebAssembly;' });
    assert.match(await page.get('refused.textContent'), /can’t run the proved code/);
  }],
  ['a message is shown if the browser cannot unpack the module', async ({ open }) => {
    const page = await open({ before: 'delete globalThis.DecompressionStream;' });
    assert.match(await page.get('refused.textContent'), /can’t run the proved code/);
  }],
  ['the address names the view', async ({ open, address, browser }) => {
    const page = await open();
    assert.equal(await page.get('location.hash'), '#encode');
    await page.click('tab-about');
    assert.deepEqual(await page.run(() => [location.hash, document.getElementById('panel-about').hidden, document.getElementById('panel-encode').hidden]), ['#about', false, true]);
    const other = await browser.open(`${address}#decode`);
    assert.equal(await other.get("document.getElementById('panel-decode').hidden"), false);
    await other.close();
  }],
  ['the box of examples names what is shown, and none if that is changed', async ({ open, work }) => {
    const page = await open();
    const named = (box) => page.run((id) => document.getElementById(id).selectedOptions[0]?.textContent, box);
    assert.equal(await named('examples'), 'S 123 D 2 aa55');
    await page.fill('examples', 'S 000 D 0');
    assert.deepEqual([await named('examples'), await page.get("document.getElementById('frame-text').value")], ['S 000 D 0', 'S 000 D 0']);
    await page.fill('frame-text', 'S 001 D 0');
    assert.equal(await named('examples'), 'Pick one');
    await page.fill('part-identifier', '000');
    assert.equal(await named('examples'), 'S 000 D 0');
    await page.fill('part-identifier', 'x');
    assert.equal(await named('examples'), 'Pick one');
    const views = [
      { view: 'bus', answered: settled, put: fill, first: 'arbitration', other: 'bus_off', field: 'bus-bits' },
      { view: 'network', answered: networkSettled, put: fillNetwork, first: 'seventeen', other: 'sixty', field: 'network-rate' },
    ];
    for (const { view, answered, put, first, other, field } of views) {
      const box = `${view}-examples`;
      await page.click(`tab-${view}`);
      await answered(page);
      assert.equal(await named(box), first);
      await put(page, field, '1');
      assert.equal(await named(box), 'Pick one');
      await put(page, box, other);
      assert.equal(await named(box), other.replace('_', ' '));
      const text = await page.get(`document.getElementById('${view}-text').value`);
      await put(page, `${view}-text`, `${text}x`);
      assert.equal(await named(box), 'Pick one');
      await put(page, `${view}-text`, text);
      assert.equal(await named(box), other.replace('_', ' '));
      writeFileSync(join(work, 'latin.toml'), Buffer.from('version = 1 # \xe9\n', 'latin1'));
      await page.files(`${view}-file`, [join(work, 'latin.toml')]);
      await page.until(`document.getElementById('panel-${view}').dataset.state === 'refused'`);
      assert.equal(await named(box), 'Pick one');
    }
  }],
];
