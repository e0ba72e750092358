// Names, order, contrast, narrow screens and motion.
import assert from 'node:assert/strict';
import { drawn, fill, settled } from './bus_page.mjs';
import { askWorst, fillNetwork, networkSettled } from './network_page.mjs';

/** What in a view has no name, or a name or place that is not right. */
const complaints = () => {
  const found = [];
  const seen = (element) => element.checkVisibility();
  // what stands in a field is not its name
  const label = (element) => element.getAttribute('aria-label')
    ?? (element.matches('input, select, textarea') ? [...element.labels].map((one) => one.textContent).join(' ') : element.textContent);
  for (const element of document.querySelectorAll('button, input, select, textarea, a[href], [tabindex], [role]')) {
    if (!seen(element) || ['presentation', 'status'].includes(element.getAttribute('role'))) continue;
    const named = element.getAttribute('aria-labelledby');
    if (named ? !document.getElementById(named) : label(element).trim() === '') found.push(`no name: ${element.outerHTML.slice(0, 120)}`);
    if (element.tabIndex > 0) found.push(`a place of its own in the order: ${element.id}`);
  }
  const ids = [...document.querySelectorAll('[id]')].map((element) => element.id);
  for (const id of new Set(ids)) if (ids.filter((other) => other === id).length > 1) found.push(`twice: ${id}`);
  for (const attribute of ['aria-describedby', 'aria-labelledby', 'aria-controls', 'for']) {
    for (const element of document.querySelectorAll(`[${attribute}]`)) {
      for (const id of element.getAttribute(attribute).split(' ')) if (!document.getElementById(id)) found.push(`${attribute} of nothing: ${id}`);
    }
  }
  let level = 0;
  for (const heading of document.querySelectorAll('h1, h2, h3')) {
    if (!seen(heading)) continue;
    const next = Number(heading.tagName[1]);
    if (next > level + 1) found.push(`a heading is skipped before ${heading.textContent}`);
    level = next;
  }
  if (document.querySelectorAll('h1').length !== 1) found.push('not one h1');
  if (!document.documentElement.lang || !document.title) found.push('no language or no title');
  if (document.querySelectorAll('main').length !== 1) found.push('not one main');
  for (const option of document.querySelectorAll('[role=option]')) if (!option.closest('[role=listbox]')) found.push('an option outside of a list');
  for (const small of document.querySelectorAll('button, .level')) {
    const { width, height } = small.getBoundingClientRect();
    if (seen(small) && (width < 23.9 || height < 23.9)) found.push(`too small to hit: ${small.outerHTML.slice(0, 80)}`);
  }
  return found;
};

/** Texts whose contrast with their background is too low. */
const pale = () => {
  const canvas = document.createElement('canvas');
  canvas.width = 1;
  canvas.height = 1;
  const pen = canvas.getContext('2d', { willReadFrequently: true });
  const over = (colours) => {
    pen.globalAlpha = 1;
    pen.clearRect(0, 0, 1, 1);
    for (const [colour, alpha] of colours) {
      pen.globalAlpha = alpha;
      pen.fillStyle = colour;
      pen.fillRect(0, 0, 1, 1);
    }
    return [...pen.getImageData(0, 0, 1, 1).data].slice(0, 3);
  };
  const light = (rgb) => {
    const [r, g, b] = rgb.map((part) => part / 255).map((part) => (part <= 0.04045 ? part / 12.92 : ((part + 0.055) / 1.055) ** 2.4));
    return 0.2126 * r + 0.7152 * g + 0.0722 * b;
  };
  const behind = (element) => {
    const layers = [];
    for (let at = element; at; at = at.parentElement) layers.unshift([getComputedStyle(at).backgroundColor, 1]);
    if (element.ownerSVGElement) {
      const rect = element.parentElement.querySelector(element.matches('.label, .digit') ? 'rect' : 'none');
      if (rect) layers.push([getComputedStyle(rect).fill, Number(getComputedStyle(rect).fillOpacity)]);
      const band = element.dataset.does ? element.parentElement.querySelector(`.does-${element.dataset.does}`) : element.previousElementSibling;
      if (element.matches('.found')) layers.push([getComputedStyle(band).fill, 1]);
    }
    return layers;
  };
  const found = [];
  for (const element of document.querySelectorAll('body *')) {
    const own = [...element.childNodes].some((node) => node.nodeType === Node.TEXT_NODE && node.textContent.trim() !== '');
    if (!own || !element.checkVisibility() || element.matches('script, style, option, :disabled')) continue;
    const style = getComputedStyle(element);
    const layers = behind(element);
    const text = light(over([...layers, [element.ownerSVGElement ? style.fill : style.color, 1]]));
    const ground = light(over(layers));
    const contrast = (Math.max(text, ground) + 0.05) / (Math.min(text, ground) + 0.05);
    if (contrast < 4.5) found.push(`${contrast.toFixed(2)}: ${element.tagName} ${element.getAttribute('class') ?? element.id} ${element.textContent.slice(0, 30)}`);
  }
  return [...new Set(found)];
};

/** How many hatches are seen, and the texts of pictures that one of them runs through. */
const hatched = () => {
  const box = (element) => element.getBoundingClientRect();
  const meet = (one, other) => one.left < other.right && other.left < one.right && one.top < other.bottom && other.top < one.bottom;
  const hatches = [...document.querySelectorAll('.hatch, .beyond')].filter((hatch) => hatch.checkVisibility());
  const texts = [...document.querySelectorAll('svg text')].filter((text) => text.checkVisibility() && hatches.some((hatch) => meet(box(text), box(hatch))));
  return [hatches.length, texts.map((text) => text.textContent)];
};

/** Shows each view in turn, with a fault in it too. */
async function eachView(page, test) {
  await page.fill('frame-text', 'E 18db33f1 D 8 02010c0000000000');
  await test('encode');
  await page.fill('frame-text', 'S 800 D 0');
  await test('encode with a fault');
  await page.click('tab-decode');
  await page.click('next-fault');
  await test('decode');
  await page.fill('trace-text', '11111111111000000x');
  await test('decode with a wrong byte');
  await page.click('tab-bus');
  await settled(page);
  await page.click('bus-next');
  await drawn(page);
  await page.run(() => { for (const folded of document.querySelectorAll('#panel-bus details')) folded.open = true; });
  await page.until("document.querySelectorAll('#bus-ends li').length > 0");
  await test('bus');
  await page.click('bus-zoom-all');
  await page.click('bus-fold');
  await drawn(page);
  await test('bus with folded ports');
  await fill(page, 'bus-text', 'version = 3');
  await test('bus with a fault');
  await page.click('tab-network');
  await networkSettled(page);
  await page.run(() => { for (const folded of document.querySelectorAll('#panel-network details')) folded.open = true; });
  await page.run(() => document.querySelector('[data-makings]').click());
  await page.until("document.querySelector('#network-bounds .makings') !== null");
  await test('network');
  await fillNetwork(page, 'network-period-1', '60');
  assert.notEqual(await askWorst(page, 'S 102 D 1'), '');
  await test('network with a refused worst case');
  await fillNetwork(page, 'network-period-3', '0');
  await test('network with a fault');
  await page.click('tab-about');
  await test('about');
}

export const accessTests = [
  ['everything has a name and its place', async ({ open }) => {
    const page = await open();
    await eachView(page, async (view) => assert.deepEqual(await page.run(complaints), [], view));
  }],
  ...[false, true].map((dark) => [`contrast is enough in ${dark ? 'dark' : 'light'}`, async ({ open }) => {
    const page = await open({ dark });
    assert.equal(await page.get("matchMedia('(prefers-color-scheme: dark)').matches"), dark);
    await eachView(page, async (view) => assert.deepEqual(await page.run(pale), [], view));
  }]),
  ...[false, true].map((dark) => [`labels can be read where stuff bits are hatched, in ${dark ? 'dark' : 'light'}`, async ({ open }) => {
    for (const width of [1280, 390]) {
      const page = await open({ width, dark });
      const isRead = async (view) => {
        const [hatches, texts] = await page.run(hatched);
        assert.ok(hatches > 0, `${view} hatches nothing`);
        assert.deepEqual([...texts, ...await page.run(pale)], [], `${view} at ${width} pixels`);
      };
      await page.fill('frame-text', 'S 000 D 0');
      await isRead('encode');
      await page.click('tab-decode');
      await isRead('decode');
      await page.click('tab-bus');
      await settled(page);
      await fill(page, 'bus-text', 'version = 1\nbits = 60\n[[port]]\nqueue = ["S 000 D 0"]\n[[port]]\n');
      await page.click('bus-zoom-all');
      await drawn(page);
      await isRead('bus');
      await page.click('tab-network');
      await networkSettled(page);
      await isRead('network');
    }
  }]),
  ...[360, 768, 1920].map((width) => [`nothing is cut at ${width} pixels`, async ({ open }) => {
    const page = await open({ width });
    await eachView(page, async (view) => {
      const wide = await page.run(() => [document.documentElement.scrollWidth, ...[...document.querySelectorAll('body *')]
        .filter((element) => element.checkVisibility() && !element.closest('.table-room, .time, .bus, .unseen') && element.getBoundingClientRect().right > innerWidth + 1).map((element) => element.id || element.tagName)]);
      assert.deepEqual(wide, [width], view);
    });
  }]),
  ['the picture follows the width', async ({ open }) => {
    const page = await open({ width: 360 });
    await page.fill('frame-text', 'S 000 D 0');
    const rows = () => page.get("document.querySelectorAll('#encode-wire .row').length");
    const narrow = await rows();
    await page.call('Emulation.setDeviceMetricsOverride', { width: 1400, height: 900, deviceScaleFactor: 1, mobile: false });
    await page.until("document.querySelectorAll('#encode-wire .row').length === 1");
    assert.ok(narrow >= 4);
  }],
  ['the keyboard reaches everything in the order of the page', async ({ open }) => {
    const page = await open();
    const reached = [];
    for (let step = 0; step < 16; step += 1) {
      await page.key('Tab');
      reached.push(await page.run(() => document.activeElement.id || document.activeElement.getAttribute('role') || document.activeElement.getAttribute('href') || document.activeElement.getAttribute('aria-label')));
    }
    assert.deepEqual(reached.slice(0, 12), ['#about', 'tab-encode', 'frame-text', 'examples', 'part-standard', 'part-identifier', 'part-dataframe', 'part-dlc', 'part-data', 'sent-0', 'copy-levels', 'download-picture']);
    const outlined = await page.run(() => { document.getElementById('copy-levels').focus(); return getComputedStyle(document.activeElement).outlineStyle; });
    assert.equal(outlined, 'solid');
  }],
  ['the keyboard reaches a bus in the order of its view', async ({ open }) => {
    const page = await open();
    await page.click('tab-bus');
    await settled(page);
    await page.run(() => document.getElementById('tab-bus').focus());
    const reached = [];
    for (let step = 0; step < 16; step += 1) {
      await page.key('Tab');
      reached.push(await page.run(() => document.activeElement.id || document.activeElement.getAttribute('aria-label') || document.activeElement.textContent.slice(0, 14)));
    }
    assert.deepEqual(reached, ['bus-examples', 'bus-edit', 'bus-picture', 'bus-on', 'bus-previous', 'bus-next', 'bus-zoom-in', 'bus-zoom-out', 'bus-zoom-all', 'bus-earlier', 'bus-later',
      'bus-fold', 'bus-unfold', 'bus-link', 'Ports in this bit time', 'Keys and marks']);
  }],
  ['the keyboard reaches a network in the order of its view', async ({ open }) => {
    const page = await open();
    await page.click('tab-network');
    await networkSettled(page);
    await page.run(() => document.getElementById('tab-network').focus());
    const worst = await page.run(() => [...document.querySelectorAll('#network-bounds th')].flatMap((frame) => [`Worst case of ${frame.textContent}`, `Parts of the bound of ${frame.textContent}`]));
    assert.equal(worst.length, 34);
    const reached = [];
    for (let step = 0; step < 19 + worst.length; step += 1) {
      await page.key('Tab');
      reached.push(await page.run(() => document.activeElement.id || document.activeElement.getAttribute('aria-label') || document.activeElement.textContent));
    }
    assert.deepEqual(reached, ['network-examples', 'network-edit', 'network-link', 'Bounds and deadlines', ...worst, 'The output of canplan', 'network-file', 'network-save', 'network-rate', 'network-burst', 'network-spacing',
      'Messages', 'network-frame-0', 'network-dlc-0', 'network-period-0', 'network-jitter-0', 'network-deadline-0', 'network-name-0', 'network-remove-0', 'network-frame-1']);
  }],
  ['tabs are changed by keys', async ({ open }) => {
    const page = await open();
    await page.run(() => document.getElementById('tab-encode').focus());
    await page.key('ArrowRight');
    assert.deepEqual(await page.run(() => [document.activeElement.id, document.getElementById('panel-decode').hidden]), ['tab-decode', false]);
    await page.key('End');
    await page.key('ArrowRight');
    assert.equal(await page.get('document.activeElement.id'), 'tab-encode');
  }],
  ['at 360 pixels tables are lists, and no word is broken', async ({ open }) => {
    const page = await open({ width: 360 });
    await eachView(page, async (view) => {
      const broken = await page.run(() => {
        const found = [];
        for (const row of document.querySelectorAll('.listed tbody tr')) {
          const cells = [...row.children].filter((cell) => cell.checkVisibility()).map((cell) => cell.getBoundingClientRect());
          for (let index = 1; index < cells.length; index += 1) if (cells[index].top < cells[index - 1].bottom - 1) found.push(`beside one another: ${row.textContent.slice(0, 40)}`);
        }
        for (const caption of document.querySelectorAll('.listed caption:not(.unseen)')) {
          if (caption.checkVisibility() && caption.offsetWidth < caption.parentElement.offsetWidth) found.push(`narrower than its list: ${caption.textContent}`);
        }
        const range = document.createRange();
        const walker = document.createTreeWalker(document.querySelector('main'), NodeFilter.SHOW_TEXT);
        for (let text = walker.nextNode(); text; text = walker.nextNode()) {
          if (!text.parentElement.checkVisibility() || text.parentElement.closest('svg, .mono, code, .fault, script, textarea')) continue;
          for (const word of text.data.matchAll(/[A-Za-z]{2,}/g)) {
            range.setStart(text, word.index);
            range.setEnd(text, word.index + word[0].length);
            const tops = new Set([...range.getClientRects()].map((box) => Math.round(box.top)));
            if (tops.size > 1) found.push(`broken: ${word[0]}`);
          }
        }
        return found;
      });
      assert.deepEqual(broken, [], view);
    });
  }],
  ['nothing moves by itself', async ({ open }) => {
    const page = await open({ still: true });
    await eachView(page, async (view) => {
      const moving = await page.run(() => [document.getAnimations().length, ...[...document.querySelectorAll('body *')].filter((element) => getComputedStyle(element).transitionDuration !== '0s').map((element) => element.tagName)]);
      assert.deepEqual(moving, [0], view);
    });
  }],
];
