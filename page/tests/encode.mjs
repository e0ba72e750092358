// The view Encode: the examples against canbit, hand-computed test vectors, and wrong input of every kind.
import assert from 'node:assert/strict';
import { readFileSync } from 'node:fs';
import { join } from 'node:path';

/** What the picture shows, read from its structure. */
const picture = (page, room = 'encode-wire') => page.run((id) => {
  const levels = [...document.querySelectorAll(`#${id} .level`)];
  return {
    digits: levels.map((level) => level.querySelector('.digit').textContent).join(''),
    stuffed: levels.map((level) => (level.dataset.stuffed === undefined ? '.' : '^')).join(''),
    hatched: levels.map((level) => (level.querySelector('.hatch') ? '^' : '.')).join(''),
    labels: [...document.querySelectorAll(`#${id} .field-label`)].map((label) => label.textContent),
    numbers: levels.map((level) => level.querySelector('.place')?.textContent ?? ''),
    // the height of the line over each level: the upper is recessive
    heights: [...document.querySelectorAll(`#${id} .wave`)].flatMap((wave) => [...wave.getAttribute('d').matchAll(/V(\d+)H/g)].map(([, y]) => (Number(y) < 45 ? 1 : 0))).join(''),
    waves: document.querySelectorAll(`#${id} .wave`).length,
    rows: document.querySelectorAll(`#${id} .row`).length,
  };
}, room);

/** The fault that is shown, and the place that is marked. */
const fault = (page) => page.run(() => {
  const reported = document.getElementById('encode-fault');
  return {
    text: reported.textContent, marked: reported.querySelector('mark')?.textContent ?? '', invalid: [...document.querySelectorAll('[aria-invalid=true]')].map((field) => field.id),
    shown: !document.getElementById('encode-shown').hidden,
  };
});

/** A frame text, and its levels and stuff bits, computed by hand. */
const BY_HAND = [
  ['S 000 D 0', '00000100000100000100000100000100000100001111111111', '.....^.....^.....^.....^.....^.....^..............',
    ['SOF', 'Identifier', 'RTR', 'IDE', 'r0', 'DLC', 'CRC sequence', 'DEL', 'ACK', 'DEL', 'End of frame']],
];

export const encodeTests = [
  ['every example has the levels that canbit prints', async ({ open, examples, work }) => {
    const page = await open();
    const texts = readFileSync(join(examples, 'frames.txt'), 'utf8').trim().split('\n');
    const answers = readFileSync(join(work, 'frames.txt.answer'), 'utf8').trim().split('\n');
    assert.equal(texts.length, answers.length);
    for (const [index, text] of texts.entries()) {
      await page.fill('frame-text', text);
      const { digits, heights, stuffed, hatched, waves, rows } = await picture(page);
      assert.equal(digits, answers[index], text);
      assert.equal(heights, answers[index], text);
      assert.equal(stuffed, hatched, text);
      assert.equal(waves, rows, text);
      assert.equal((await fault(page)).text, '', text);
    }
  }],
  ['a frame has the hand-computed fields and stuff bits', async ({ open }) => {
    const page = await open({ width: 1400 });
    for (const [text, digits, stuffed, labels] of BY_HAND) {
      await page.fill('frame-text', text);
      const shown = await picture(page);
      assert.deepEqual([shown.digits, shown.stuffed, shown.labels, shown.rows], [digits, stuffed, labels, 1]);
      assert.deepEqual(shown.numbers, [...digits].map((_, place) => (place % 5 === 0 ? String(place) : '')));
    }
  }],
  ['an extended frame has its fields in their order', async ({ open }) => {
    const page = await open();
    await page.fill('frame-text', 'E 18db33f1 D 8 02010c0000000000');
    const rows = await page.run(() => [...document.querySelectorAll('#encode-fields tr')].map((row) => [...row.children].slice(0, 4).map((cell) => cell.textContent)));
    assert.deepEqual(rows.map(([name]) => name), [
      'Start of frame', 'Identifier', 'Substitute remote request', 'Identifier extension', 'Identifier', 'Remote transmission request',
      'Reserved bit r1', 'Reserved bit r0', 'Data length code', 'Data', 'CRC sequence', 'CRC delimiter', 'ACK slot', 'ACK delimiter', 'End of frame',
    ]);
    // 0x18db33f1 is 0x636 and, in its lower 18 bits, 0x333f1
    assert.deepEqual([rows[1][3], rows[4][3], rows[8][3], rows[9][3], rows[14][3]], ['0x636of 0x18db33f1 (29 bits)', '0x333f1of 0x18db33f1 (29 bits)', '0x8', '0x02010c0000000000', '0x7f']);
  }],
  ['numbers have as many digits as their levels fill, and bytes are separated', async ({ open }) => {
    const page = await open();
    await page.fill('frame-text', 'S 001 D 2 0001');
    const rows = await page.run(() => [...document.querySelectorAll('#encode-fields tr')].map((row) => [...row.children].slice(0, 4).map((cell) => cell.textContent)));
    const number = (name) => rows.find(([field]) => field === name)[3];
    assert.deepEqual(['Identifier', 'Data length code', 'Data'].map(number), ['0x001', '0x2', '0x0001']);
    assert.match(rows.find(([field]) => field === 'Data')[2], /^[01]{8,10} [01]{8,10}$/);
    await page.fill('frame-text', 'S 555 D 1 aa');
    assert.equal(await page.get("document.querySelectorAll('#encode-wire .byte-end').length"), 0);
    await page.fill('frame-text', 'S 555 D 8 0123456789abcdef');
    const ends = await page.run(() => [...document.querySelectorAll('#encode-wire .byte-end')].map((line) => line.getAttribute('d').split('M').length - 1).reduce((sum, one) => sum + one));
    assert.equal(ends, 7);
  }],
  ['a text that is no frame text is refused at its place', async ({ open }) => {
    const page = await open();
    const rows = [
      ['', 'X1 at 0', 'end'], ['T 000 D 0', 'X1 at 0', 'T'], ['S 800 D 0', 'X2 at 2', '8'], ['S 7FF D 0', 'X2 at 3', 'F'], ['S 123 X 0', 'X3 at 6', 'X'],
      ['S 123 D 16', 'X4 at 9', '6'], ['S 123 D 2', 'X4 at 9', 'end'], ['S 123 D 1 g0', 'X5 at 10', 'g'], ['S 123 R 16', 'X6 at 9', '6'], ['S 000 D 0 ', 'X6 at 9', '␣'],
      ['S 000 é', 'X3 at 6', 'é'], ['E 20000000 D 0', 'X2 at 2', '2'],
    ];
    for (const [text, code, marked] of rows) {
      await page.fill('frame-text', text);
      const reported = await fault(page);
      assert.ok(reported.text.startsWith(`${code}:`), `${text}: ${reported.text}`);
      assert.deepEqual([reported.marked, reported.invalid, reported.shown], [marked, ['frame-text'], false], text);
    }
    await page.fill('frame-text', `S${'x'.repeat(100000)}`);
    assert.match((await fault(page)).text, /^X1 at 1:/);
    await page.fill('frame-text', 'S 000 D 0');
    assert.deepEqual(await fault(page), { text: '', marked: '', invalid: [], shown: true });
  }],
  ['parts make a frame, and its text', async ({ open }) => {
    const page = await open();
    for (const [id, value] of [['part-identifier', '18DB33F1'], ['part-extended', ''], ['part-dlc', '2'], ['part-data', 'AA 55']]) await page.fill(id, value);
    assert.equal(await page.get("document.getElementById('frame-text').value"), 'E 18db33f1 D 2 aa55');
    await page.fill('part-remote', '');
    assert.match((await fault(page)).text, /remote frame has none/);
    await page.fill('part-data', '');
    assert.equal(await page.get("document.getElementById('frame-text').value"), 'E 18db33f1 R 2');
    assert.equal((await fault(page)).text, '');
  }],
  ['a text fills the parts in', async ({ open }) => {
    const page = await open();
    await page.fill('frame-text', 'E 12345678 R 4');
    const parts = await page.run(() => [
      ...['part-extended', 'part-remote'].map((id) => document.getElementById(id).checked),
      ...['part-identifier', 'part-dlc', 'part-data'].map((id) => document.getElementById(id).value),
    ]);
    assert.deepEqual(parts, [true, true, '12345678', '4', '']);
  }],
  ['wrong parts are refused in their field', async ({ open }) => {
    const page = await open();
    /** @type {Array<[string, string, string, RegExp]>} */
    const rows = [
      ['part-identifier', '800', 'part-identifier', /too high/], ['part-identifier', '7g', 'part-identifier', /hexadecimal digits/], ['part-identifier', '', 'part-identifier', /hexadecimal digits/],
      ['part-identifier', 'ffffffff', 'part-identifier', /too high/], ['part-data', 'aa5', 'part-data', /two hexadecimal digits/], ['part-data', 'aa', 'part-data', /number of data bytes/],
      ['part-dlc', '15', 'part-data', /number of data bytes/],
    ];
    for (const [id, value, where, words] of rows) {
      await page.fill('frame-text', 'S 123 D 2 aa55');
      await page.fill(id, value);
      const reported = await fault(page);
      assert.match(reported.text, words, value);
      assert.deepEqual([reported.invalid, reported.shown], [[where], false], value);
    }
  }],
  ['a level that is pointed at or focused is described with its rule', async ({ open }) => {
    const page = await open();
    await page.fill('frame-text', 'S 000 D 0');
    const words = () => page.get("document.getElementById('encode-level').textContent");
    assert.match(await words(), /^Level 0: 0, dominant; Start of frame\. One dominant level/);
    await page.run(() => document.querySelector('#encode-wire .level').focus());
    for (let step = 0; step < 5; step += 1) await page.key('ArrowRight');
    assert.match(await words(), /^Level 5: 1, recessive; stuff bit in: Identifier\. Stuff bit: after five equal levels/);
    assert.equal(await page.get("document.activeElement.getAttribute('aria-label')"), 'Level 5: 1, recessive; stuff bit in: Identifier');
    await page.key('End');
    assert.match(await words(), /^Level 49: 1, recessive; End of frame\./);
    await page.key('Home');
    await page.key('ArrowLeft');
    assert.match(await words(), /^Level 0:/);
    const at = await page.run(() => {
      const box = document.querySelectorAll('#encode-wire .level')[41].getBoundingClientRect();
      return [box.x + box.width / 2, box.y + box.height / 2];
    });
    await page.call('Input.dispatchMouseEvent', { type: 'mouseMoved', x: at[0], y: at[1] });
    assert.match(await words(), /^Level 41: 1, recessive; ACK slot\./);
  }],
  ['the levels are copied', async ({ open, browser }) => {
    const page = await open();
    await browser.call('Browser.grantPermissions', { permissions: ['clipboardReadWrite', 'clipboardSanitizedWrite'] });
    await page.fill('frame-text', 'S 000 D 0');
    await page.run(() => { globalThis.copied = []; navigator.clipboard.writeText = (text) => { globalThis.copied.push(text); return Promise.resolve(); }; });
    await page.click('copy-levels');
    await page.until("document.getElementById('copied').textContent !== ''");
    assert.deepEqual(await page.get('globalThis.copied'), [BY_HAND[0][1]]);
    assert.equal(await page.get("document.getElementById('copied').textContent"), '50 levels copied.');
  }],
  ['the picture is downloaded as a file of its own', async ({ open }) => {
    const page = await open();
    await page.fill('frame-text', 'S 000 D 0');
    const reported = await page.run(async () => {
      /** @type {Blob} */
      let blob;
      URL.createObjectURL = (/** @type {Blob} */ given) => { blob = given; return 'data:,'; };
      let name;
      HTMLAnchorElement.prototype.click = function click() { name = this.download; };
      document.getElementById('download-picture').click();
      const text = await blob.text();
      const file = new DOMParser().parseFromString(text, 'image/svg+xml');
      return {
        name, type: blob.type, root: file.documentElement.nodeName, levels: file.querySelectorAll('[data-index]').length, hatched: file.querySelectorAll('[data-stuffed]').length,
        texts: [...file.querySelectorAll('text')].every((label) => label.getAttribute('fill').startsWith('rgb') && label.getAttribute('font-size')), classes: text.includes('class='),
      };
    });
    assert.deepEqual(reported, { name: 'S_000_D_0.svg', type: 'image/svg+xml', root: 'svg', levels: 50, hatched: 6, texts: true, classes: false });
  }],
  ['each example of the page is a frame', async ({ open }) => {
    const page = await open();
    const texts = await page.run(() => [...document.getElementById('examples').options].map((option) => option.value).filter(Boolean));
    for (const text of texts) {
      await page.fill('examples', text);
      assert.equal(await page.get("document.getElementById('frame-text').value"), text);
      assert.equal((await fault(page)).text, '', text);
    }
  }],
];

export { picture };
