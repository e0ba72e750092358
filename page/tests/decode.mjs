// The view Decode: the examples against canbit, each kind of fault at its place, wrong input, and long traces.
import assert from 'node:assert/strict';
import { createHash } from 'node:crypto';
import { readFileSync, writeFileSync } from 'node:fs';
import { join } from 'node:path';
import { picture } from './encode.mjs';
import { within } from './limits.mjs';

const WIRE = '00000100000100000100000100000100000100001111111111';
const IDLE = '11111111111';

/** Opens the view with a trace in it. */
async function shown(open, text, how) {
  const page = await open(how);
  await page.click('tab-decode');
  if (text !== undefined) await page.fill('trace-text', text);
  return page;
}

const reported = (page) => page.run(() => ({
  whole: document.getElementById('decode-reported').textContent.replace(/, decoded in .*/, ''),
  fault: document.getElementById('trace-fault').textContent,
  marked: document.querySelector('#trace-fault mark')?.textContent ?? '',
  words: document.getElementById('found-words').textContent,
}));

/** How long the last answer took, in milliseconds, and how many answers there were. */
const answered = (page) => page.run(() => {
  const { took, answers } = document.getElementById('decode-reported').dataset;
  return { took: Number(took), answers: Number(answers) };
});

/** The text of the output, as it is downloaded. */
const answer = (page) => page.run(async () => {
  /** @type {Blob} */
  let blob;
  URL.createObjectURL = (/** @type {Blob} */ given) => { blob = given; return 'data:,'; };
  HTMLAnchorElement.prototype.click = () => {};
  document.getElementById('answer-download').click();
  return blob.text();
});

/** Where the picture of the finding shows the fault. */
const faultLevel = (page) => page.run(() => {
  const level = document.querySelector('#decode-wire .fault-box')?.closest('.level');
  return level ? level.getAttribute('aria-label') : '';
});

/**
 * Each kind of fault: a trace made by hand, its line, where the picture shows it, and the words.
 * @type {Array<[string, string, string, RegExp]>}
 */
const FAULTS = [
  // the levels end after 20 of the frame's
  [IDLE + WIRE.slice(0, 20), '11 fault C1 at 31', 'Place 31: the levels have ended; here the fault shows', /Frame cut short.*more were expected/],
  // the sixth dominant level in a row
  [`${IDLE}000000${IDLE}`, '11 fault C3 at 16', 'Level 16: 0, dominant; stuff bit in: Identifier; here the fault shows', /Stuff error.*stuff bit of the other value/],
  // the last bit of the CRC sequence is inverted
  [`${IDLE}${WIRE.slice(0, 39)}1${WIRE.slice(40)}${IDLE}`, '11 fault C4 at 50', 'Level 50: 1, recessive; CRC sequence; here the fault shows', /CRC error.*another CRC sequence/],
  // a dominant CRC delimiter
  [`${IDLE}${WIRE.slice(0, 40)}0${WIRE.slice(41)}${IDLE}`, '11 fault C5 at 51', 'Level 51: 0, dominant; CRC delimiter; here the fault shows', /Form error.*recessive level was expected/],
  // a dominant second level of the end of frame
  [`${IDLE}${WIRE.slice(0, 44)}0${WIRE.slice(45)}${IDLE}`, '11 fault C5 at 55', 'Level 55: 0, dominant; End of frame; here the fault shows', /Form error/],
];

export const decodeTests = [
  ['the example has the output of canbit', async ({ open, examples, work }) => {
    const page = await shown(open, readFileSync(join(examples, 'trace.txt'), 'utf8'));
    const lines = readFileSync(join(work, 'trace.txt.answer'), 'utf8');
    assert.equal(await answer(page), lines);
    const listed = await page.run(() => [...document.querySelectorAll('#found-list tr')].map((row) => [...row.children].slice(0, 2).map((cell) => cell.textContent).join(' ')));
    assert.deepEqual(listed, lines.trim().split('\n').map((line) => line.replace('fault ', '').replace(/ (?:no)?ack.*/, '')));
    assert.deepEqual(await page.get("[...document.querySelectorAll('#timeline [data-line]')].map((mark) => Number(mark.dataset.line))"), listed.map((_, index) => index));
  }],
  ['every example frame is found in a trace, and drawn whole', async ({ open, examples, work }) => {
    const texts = readFileSync(join(examples, 'frames.txt'), 'utf8').trim().split('\n');
    const wires = readFileSync(join(work, 'frames.txt.answer'), 'utf8').trim().split('\n');
    const page = await shown(open, wires.map((wire) => IDLE + wire).join('\n'));
    for (const [index, text] of texts.entries()) {
      assert.match((await reported(page)).words, new RegExp(`^${index + 1} of ${texts.length}: a frame at \\d+: ${text}, not acknowledged\\.$`));
      assert.equal((await picture(page, 'decode-wire')).digits, wires[index], text);
      await page.click('next-found');
    }
  }],
  ['each kind of fault is shown at its place', async ({ open }) => {
    const page = await shown(open);
    for (const [trace, line, level, words] of FAULTS) {
      await page.fill('trace-text', trace);
      assert.equal(await answer(page), `${line}\n`);
      assert.equal(await faultLevel(page), level, line);
      assert.match((await reported(page)).words, words, line);
      assert.deepEqual(await page.get("[...document.querySelectorAll('#timeline .fault-mark')].map((mark) => mark.dataset.place)"), [line.split(' ').at(-1)], line);
    }
  }],
  ['a frame in a trace is drawn with its fields', async ({ open }) => {
    const page = await shown(open, IDLE + WIRE + IDLE);
    assert.deepEqual(await reported(page), { whole: '1 frame and 0 faults in 72 levels', fault: '', marked: '', words: '1 of 1: a frame at 11: S 000 D 0, not acknowledged.' });
    const { digits, stuffed, numbers } = await picture(page, 'decode-wire');
    assert.deepEqual([digits, stuffed], [WIRE, '.....^.....^.....^.....^.....^.....^..............']);
    assert.deepEqual([numbers[0], numbers[4], numbers[5]], ['11', '15', '']);
  }],
  ['a byte that is no level is shown with its place', async ({ open }) => {
    const page = await shown(open, `${IDLE}${WIRE}11x1`);
    assert.deepEqual(await reported(page), {
      whole: '1 frame and 0 faults in 63 levels', marked: 'x', words: '1 of 1: a frame at 11: S 000 D 0, not acknowledged.',
      fault: `Byte 63 is no level: 0, 1, a space or a line end was expected. ${(IDLE + WIRE).slice(39)}11x1 The text before it is shown.`,
    });
    await page.fill('trace-text', '2');
    assert.match((await reported(page)).fault, /^Byte 0 is no level/);
    await page.fill('trace-text', '1 \t1');
    assert.match((await reported(page)).fault, /^Byte 2 is no level/);
    await page.fill('trace-text', '0110é');
    assert.match((await reported(page)).fault, /^Byte 4 is no level/);
    assert.equal(await page.get("document.getElementById('trace-text').getAttribute('aria-invalid')"), 'true');
  }],
  ['a trace without frames says so', async ({ open }) => {
    const page = await shown(open, '');
    assert.deepEqual(await reported(page), { whole: '0 frames and 0 faults in 0 levels', fault: '', marked: '', words: 'There is no frame and no fault in the trace.' });
    await page.fill('trace-text', '1111\n1111');
    assert.equal((await reported(page)).whole, '0 frames and 0 faults in 8 levels');
    assert.deepEqual(await page.get("['previous-found', 'next-found', 'next-fault', 'answer-download'].map((id) => document.getElementById(id).disabled)"), [true, true, true, true]);
  }],
  ['each answer is counted, also one that takes as long as that before it', async ({ open }) => {
    const page = await shown(open);
    await page.run(() => { performance.now = () => 0; });
    await page.fill('trace-text', WIRE);
    const first = await answered(page);
    await page.fill('trace-text', IDLE);
    assert.deepEqual(await answered(page), { took: 0, answers: first.answers + 1 });
    assert.equal(first.took, 0);
  }],
  ['a file of 10 MB is decoded within a second, as canbit does', async ({ open, work }) => {
    const page = await shown(open);
    await page.files('trace-file', [join(work, 'long.txt')]);
    await page.until("document.getElementById('decode-reported').textContent.includes(' in 9,480,122 levels')");
    const lines = readFileSync(join(work, 'long.txt.answer'));
    const hash = await page.run(async () => {
      /** @type {Blob} */
      let blob;
      URL.createObjectURL = (/** @type {Blob} */ given) => { blob = given; return 'data:,'; };
      HTMLAnchorElement.prototype.click = () => {};
      document.getElementById('answer-download').click();
      const sum = await crypto.subtle.digest('SHA-256', await blob.arrayBuffer());
      return [...new Uint8Array(sum)].map((byte) => byte.toString(16).padStart(2, '0')).join('');
    });
    assert.equal(hash, createHash('sha256').update(lines).digest('hex'));
    // the best of a few: others may use the machine
    const times = [];
    for (let run = 0; run < 3; run += 1) {
      const { took, answers } = await answered(page);
      times.push(took);
      await page.files('trace-file', [join(work, 'long.txt')]);
      await page.run(() => document.getElementById('trace-file').dispatchEvent(new Event('change')));
      await page.until(`document.getElementById('decode-reported').dataset.answers !== '${answers}'`);
    }
    within('decoding', Math.min(...times), 1000);
    const drew = await page.run(() => {
      const began = performance.now();
      for (const id of ['zoom-in', 'later', 'zoom-in', 'zoom-in', 'next-fault', 'zoom-all']) document.getElementById(id).click();
      return performance.now() - began;
    });
    within('six steps on the time line', drew, 1500);
  }],
  ['a file that is too long is refused', async ({ open, work }) => {
    writeFileSync(join(work, 'too_long.txt'), '1'.repeat(10 * 1024 * 1024 + 1));
    const page = await shown(open);
    await page.files('trace-file', [join(work, 'too_long.txt')]);
    await page.until("document.getElementById('trace-fault').textContent !== ''");
    assert.match((await reported(page)).fault, /^The trace is too long: this page takes up to 10,485,760 bytes/);
    assert.equal(await page.get("document.getElementById('decode-shown').hidden"), true);
    await page.fill('trace-text', IDLE + WIRE);
    assert.equal((await reported(page)).fault, '');
  }],
  ['there is space for the longest output', async ({ open, work }) => {
    // a stuff error each seventeen levels
    writeFileSync(join(work, 'faults.txt'), `000000${IDLE}`.repeat(Math.floor((10 * 1024 * 1024) / 17)));
    const page = await shown(open);
    await page.files('trace-file', [join(work, 'faults.txt')]);
    await page.until("document.getElementById('decode-reported').textContent.startsWith('0 frames and 616,809 faults')");
    assert.equal((await reported(page)).fault, '');
  }],
  ['a dropped file is decoded', async ({ open }) => {
    const page = await shown(open);
    await page.run((text) => {
      const data = new DataTransfer();
      data.items.add(new File([text], 'dropped.txt'));
      document.getElementById('trace-text').dispatchEvent(new DragEvent('drop', { bubbles: true, cancelable: true, dataTransfer: data }));
    }, IDLE + WIRE);
    await page.until("document.getElementById('trace-name').textContent.includes('dropped.txt')");
    assert.equal((await reported(page)).whole, '1 frame and 0 faults in 61 levels');
  }],
  ['a long text that is pasted is decoded, and not put into the field', async ({ open }) => {
    const page = await shown(open);
    await page.run((text) => {
      const data = new DataTransfer();
      data.setData('text/plain', text.repeat(4000));
      document.getElementById('trace-text').dispatchEvent(new ClipboardEvent('paste', { bubbles: true, cancelable: true, clipboardData: data }));
    }, WIRE + IDLE);
    assert.equal((await reported(page)).whole, '4,000 frames and 0 faults in 244,000 levels');
    assert.equal(await page.get("document.getElementById('trace-text').value"), '');
  }],
  ['the time line zooms and moves, by mouse and keys', async ({ open }) => {
    const page = await shown(open, (WIRE + IDLE).repeat(200));
    const count = () => page.get("document.querySelectorAll('#timeline [data-line]').length");
    const wave = () => page.get("document.querySelector('#timeline .wave') !== null");
    assert.deepEqual([await count(), await wave()], [200, false]);
    await page.run(() => document.getElementById('timeline').focus());
    for (let step = 0; step < 6; step += 1) await page.key('+');
    assert.ok(await count() <= 6);
    assert.equal(await wave(), true);
    const first = () => page.get("Number(document.querySelector('#timeline [data-line]').dataset.line)");
    const before = await first();
    for (let step = 0; step < 8; step += 1) await page.key('ArrowRight');
    assert.ok(await first() > before);
    await page.key('0');
    assert.equal(await count(), 200);
    const box = await page.run(() => { const { x, y, width } = document.getElementById('timeline').getBoundingClientRect(); return { x, y, width }; });
    await page.call('Input.dispatchMouseEvent', { type: 'mouseWheel', x: box.x + box.width / 2, y: box.y + 40, deltaX: 0, deltaY: -100 });
    await page.until("document.querySelectorAll('#timeline [data-line]').length < 200");
    for (const type of ['mousePressed', 'mouseReleased']) await page.call('Input.dispatchMouseEvent', { type, x: box.x + box.width / 2, y: box.y + 40, button: 'left', clickCount: 1 });
    assert.match((await reported(page)).words, /^(99|100|101|102) of 200: a frame/);
  }],
  ['the time line shows frames, faults and levels at their places', async ({ open }) => {
    // a frame from 11 to 60, and a stuff error that begins at 72 and shows at 77, in 100 levels
    const trace = `${IDLE}${WIRE}${IDLE}000000`.padEnd(100, '1');
    const page = await shown(open, trace);
    await page.click('zoom-all');
    const places = await page.run(() => {
      const room = document.getElementById('timeline');
      const place = (x) => Math.round((x / room.clientWidth) * 1000) / 10;
      const boxes = [...room.querySelectorAll('[data-line]')].map((box) => [place(box.x.baseVal.value), place(box.x.baseVal.value + box.width.baseVal.value + 1)]);
      const [, mark] = room.querySelector('.fault-mark').getAttribute('d').match(/^M([\d.]+) /);
      const path = room.querySelector('.wave').getAttribute('d');
      const levels = [...path.matchAll(/V(\d+)H([\d.]+)/g)].map(([, y, x]) => [Number(y) < 110 ? '1' : '0', place(Number(x))]);
      return { boxes, mark: place(Number(mark)), levels: levels.map(([level]) => level).join(''), ends: levels.map(([, end]) => end) };
    });
    assert.deepEqual(places, { boxes: [[11, 61], [72, 78]], mark: 77.5, levels: trace, ends: [...trace].map((_, index) => index + 1) });
  }],
  ['findings are gone through one by one', async ({ open, examples }) => {
    const page = await shown(open, readFileSync(join(examples, 'trace.txt'), 'utf8'));
    const words = async () => (await reported(page)).words;
    await page.click('next-fault');
    assert.match(await words(), /^3 of 5: no frame at 131\. Stuff error \(C3\) at 136\./);
    await page.click('next-found');
    assert.match(await words(), /^4 of 5:/);
    await page.click('previous-found');
    await page.click('previous-found');
    assert.match(await words(), /^2 of 5:/);
    await page.run(() => document.querySelector('#found-list tr:last-child button').click());
    assert.match(await words(), /^5 of 5:/);
    assert.equal(await page.get("document.getElementById('next-found').disabled"), true);
  }],
];
