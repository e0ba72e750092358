// Makes the pictures of the page for the documents: pictures.mjs CHROMIUM PAGE EXAMPLES TO.
import { readFileSync, writeFileSync } from 'node:fs';
import { join } from 'node:path';
import { pathToFileURL } from 'node:url';
import { Browser } from './browser.mjs';
import { drawn, shown } from './bus_page.mjs';
import { networkShown } from './network_page.mjs';

const [program, file, examples, to] = process.argv.slice(2);
const address = pathToFileURL(file).href;
const example = (name) => readFileSync(join(examples, name), 'utf8');

/** Writes what is from the top of one element to the bottom of another, with some pixels around it. */
async function take(page, name, { first, last = first, margin = 8, most = Infinity }) {
  const clip = await page.run((from, till, around, pixels) => {
    const [top, bottom] = [document.querySelector(from), document.querySelector(till)].map((element) => element.getBoundingClientRect());
    const y = Math.max(0, top.top + scrollY - around);
    return { x: Math.max(0, top.left - around), y, width: Math.min(innerWidth, top.width + 2 * around), height: Math.min(pixels, bottom.bottom + scrollY + around - y) };
  }, first, last, margin, Math.min(most, 100000));
  const { data } = await page.call('Page.captureScreenshot', { format: 'png', clip: { ...clip, scale: 1 }, captureBeyondViewport: true });
  writeFileSync(join(to, name), Buffer.from(data, 'base64'));
  if (page.errors.length > 0) throw new Error(`the console says: ${page.errors.join('; ')}`);
}

/** A frame, with its first stuff bit picked. */
async function encode(open) {
  const page = await open({ width: 900, height: 900 });
  await page.fill('frame-text', 'S 123 D 2 aa55');
  await page.run(() => document.querySelectorAll('#encode-wire .level')[17].focus());
  await drawn(page);
  await take(page, 'picture.png', { first: '#encode-reported', last: '#encode-level', margin: 4 });
}

/** Three nodes, one of which sees a bit error in the end of frame that the others don't. */
async function bus(open) {
  const page = await shown(open, example('scenarios/duplicate.toml'), { width: 1024, height: 1000 });
  await drawn(page);
  await take(page, 'bus.png', { first: '#bus-picture', margin: 0 });
}

/** The bounds of a network, some of which are above the deadline. */
async function network(open) {
  const page = await networkShown(open, example('networks/seventeen.toml'), { width: 1024, height: 1000 });
  await drawn(page);
  await take(page, 'network.png', { first: '#network-reported', last: '#network-bounds tr:nth-child(11)' });
}

const browser = new Browser(program);
// a run that is stopped leaves no browser behind
for (const signal of ['SIGINT', 'SIGTERM']) process.on(signal, () => browser.close().then(() => process.exit(1)));
try {
  const open = (how) => browser.open(address, how);
  for (const make of [encode, bus, network]) await make(open);
} finally {
  await browser.close();
}
