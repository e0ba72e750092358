// A view as a link.
import assert from 'node:assert/strict';
import { fill, settled, shown, time } from './bus_page.mjs';
import { networkShown } from './network_page.mjs';

const IDLE = '11111111111';
const WIRE = '00000100000100000100000100000100000100001111111111';
const SCENARIO = 'version = 1\nbits = 140\n[[port]]\nqueue = ["S 123 D 1 aa"] # first\n[[port]]\n';

/** Opens another page by the address that a view is given. */
async function followed(page, browser, button) {
  await page.click(button);
  await page.until(`document.getElementById('${button}ed').textContent !== ''`);
  const address = await page.get('location.href');
  const other = await browser.open(address);
  return { other, address };
}

export const linkTests = [
  ['a frame is a link', async ({ open, browser }) => {
    const page = await open();
    await page.fill('frame-text', 'E 18db33f1 D 2 0001');
    await page.run(() => document.querySelectorAll('#encode-wire .level')[20].focus());
    const { other, address } = await followed(page, browser, 'encode-link');
    assert.match(address, /#encode&frame=E\+18db33f1\+D\+2\+0001&level=20$/);
    await other.until("document.getElementById('frame-text').value === 'E 18db33f1 D 2 0001'");
    assert.match(await other.get("document.getElementById('encode-level').textContent"), /^Level 20:/);
    await other.close();
  }],
  ['a trace and a place in it are a link', async ({ open, browser }) => {
    const page = await open();
    await page.click('tab-decode');
    await page.fill('trace-text', `${IDLE}${WIRE}${IDLE}${WIRE}${IDLE}`);
    await page.click('next-found');
    const { other, address } = await followed(page, browser, 'decode-link');
    assert.match(address, /#decode&trace=[\w-]+&place=72$/);
    await other.until("document.getElementById('found-words').textContent.startsWith('2 of 2: a frame at 72')");
    assert.equal(await other.get("document.getElementById('trace-text').value"), `${IDLE}${WIRE}${IDLE}${WIRE}${IDLE}`);
    await other.close();
  }],
  ['a scenario, its bit time and what is in view are a link', async ({ open, browser }) => {
    const page = await shown(open, SCENARIO);
    for (let step = 0; step < 20; step += 1) await page.click('bus-on');
    for (let step = 0; step < 2; step += 1) await page.click('bus-zoom-in');
    const { other, address } = await followed(page, browser, 'bus-link');
    assert.match(address, /#bus&scenario=[\w-]+&time=20&from=\d+&span=35$/);
    await other.until(`document.getElementById('bus-text').value === ${JSON.stringify(SCENARIO)}`);
    await settled(other);
    assert.equal(await time(other), 20);
    await other.until("document.querySelector('#bus-picture .cursor') !== null");
    const width = (one) => one.get("document.querySelector('#bus-picture .cursor').getBoundingClientRect().width.toFixed(1)");
    assert.equal(await width(other), await width(page));
    await other.close();
  }],
  ['a network is a link', async ({ open, browser }) => {
    const text = 'version = 1 # late\n[[message]]\nframe = "S 000 R"\nperiod = 40\n';
    const page = await networkShown(open, text);
    const { other, address } = await followed(page, browser, 'network-link');
    assert.match(address, /#network&network=[\w-]+$/);
    await other.until(`document.getElementById('network-text').value === ${JSON.stringify(text)}`);
    await other.until("document.getElementById('network-reported').textContent.includes('1 of 1 message late')");
    await other.close();
  }],
  ['the address follows the view, and is plain if the view is as it begins', async ({ open }) => {
    const page = await open();
    await page.fill('frame-text', 'S 7ff D 0');
    await page.until("location.hash === '#encode&frame=S+7ff+D+0&level=0'");
    await page.fill('frame-text', 'S 123 D 2 aa55');
    await page.until("location.hash === '#encode'");
    await page.run(() => { location.hash = '#encode&frame=S+001+D+0'; });
    await page.until("document.getElementById('frame-text').value === 'S 001 D 0'");
  }],
  ['what is too long for a link is a file', async ({ open }) => {
    const page = await shown(open);
    let seed = 1;
    const frames = Array.from({ length: 1500 }, () => {
      seed = (seed * 48271) % 2147483647;
      return `"S ${(seed % 2032).toString(16).padStart(3, '0')} D 4 ${seed.toString(16).padStart(8, '0')}"`;
    });
    await fill(page, 'bus-text', `version = 1\nbits = 50\n[[port]]\nqueue = [${frames.join(', ')}]\n`);
    await page.click('bus-link');
    await page.until("document.getElementById('bus-linked').textContent.includes('save it as a file')");
    assert.equal(await page.get('location.hash'), '#bus');
  }],
  ['an address that says nothing that is known is taken as it can be', async ({ browser, address }) => {
    for (const [hash, id, value] of [['#bus&scenario=%%%', 'tab-bus', 'true'], ['#decode&trace=AAAA&place=x', 'tab-decode', 'true'], ['#nothing&frame=1', 'tab-encode', 'true'], ['#encode&frame=', 'tab-encode', 'true']]) {
      const page = await browser.open(`${address}${hash}`);
      assert.equal(await page.get(`document.getElementById('${id}').getAttribute('aria-selected')`), value, hash);
      assert.deepEqual(page.errors, [], hash);
      await page.close();
    }
  }],
];
