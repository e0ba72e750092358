// Long scenarios and many ports: shown in time, without blocking the page.
import assert from 'node:assert/strict';
import { busy, settled, shown } from './bus_page.mjs';
import { unblocked, within } from './limits.mjs';
import { longestTask } from './tasks.mjs';

/** How long a scenario takes until its report is there, until the ports in view are seen, and until it is whole. */
const timed = (page, text) => page.run(async (given) => {
  const state = () => document.getElementById('panel-bus').dataset.state;
  const paint = () => new Promise((resolve) => { requestAnimationFrame(() => requestAnimationFrame(resolve)); });
  const began = performance.now();
  const field = document.getElementById('bus-text');
  if (given.length > 100000) {
    const data = new DataTransfer();
    data.setData('text/plain', given);
    field.dispatchEvent(new ClipboardEvent('paste', { bubbles: true, cancelable: true, clipboardData: data }));
  } else {
    field.value = given;
    field.dispatchEvent(new Event('input', { bubbles: true }));
  }
  while (state() === 'running') await paint();
  const reported = performance.now() - began;
  const rows = () => document.querySelectorAll('#bus-picture [data-node]');
  await paint(); // until then the rows are those of the scenario before
  while (rows().length === 0 || [...rows()].some((row) => row.textContent.includes('worked out'))) await paint();
  const seen = performance.now() - began;
  while (state() === 'reported') await paint();
  return { reported, seen, rows: rows().length, whole: performance.now() - began };
}, text);

/** The times that a picture takes to be drawn while it moves, in order. */
const moved = (page) => page.run(async () => {
  const all = [];
  const picture = document.getElementById('bus-picture');
  for (let step = 0; step < 30; step += 1) {
    picture.dispatchEvent(new WheelEvent('wheel', { deltaX: 40, clientX: picture.getBoundingClientRect().right - 50, cancelable: true }));
    await new Promise((resolve) => { requestAnimationFrame(() => requestAnimationFrame(resolve)); });
    all.push(Number(picture.dataset.drawn));
  }
  return all.sort((a, b) => a - b);
});

async function draws(page) {
  for (const zoom of ['bus-zoom-in', 'bus-zoom-all']) {
    await page.click(zoom);
    within(`a picture behind ${zoom}`, (await moved(page))[15], 16);
  }
}

export const busSpeedTests = [
  ['100,000 bit times of eight ports are shown within two seconds, and drawn within a frame while they move', async ({ open }) => {
    const page = await shown(open);
    within('the run', (await timed(page, busy(8, 100000, 100, 997))).whole, 2000);
    await draws(page);
  }],
  ['64 busy ports of 20,000 bit times are seen within a second, and never block the page for more than 50 ms', async ({ open }) => {
    const page = await shown(open, undefined, { dark: true });
    const { done: { seen, rows, whole }, longest } = await longestTask(page, () => timed(page, busy(64, 20000, 6, 3000)));
    console.log(`    seen in ${Math.round(seen)} ms, whole in ${Math.round(whole)} ms, blocked for ${Math.round(longest)} ms`);
    assert.ok(rows > 10, `${rows} rows are drawn`);
    within('the ports in view', seen, 1000);
    unblocked(longest);
    await draws(page);
    await page.click('bus-unfold');
    await draws(page);
  }],
  ['a scenario of 70,000 frames answers within two seconds', async ({ open }) => {
    const page = await shown(open);
    const queue = Array.from({ length: 70000 }, (_, k) => `"S ${(k % 2032).toString(16).padStart(3, '0')} D 0"`).join(',');
    const { done: { reported }, longest } = await longestTask(page, () => timed(page, `version = 1\nbits = 20000\n[[port]]\nqueue = [${queue}]\nlog = 100\n[[port]]\n`));
    console.log(`    answered in ${Math.round(reported)} ms, blocked for ${Math.round(longest)} ms`);
    within('the answer', reported, 2000);
    await settled(page);
    assert.match(await page.get("document.getElementById('bus-reported').textContent"), /^20,000 bit times of 2 ports/);
    assert.match(await page.get("document.getElementById('bus-name').textContent"), /too many for the field/);
  }],
];
