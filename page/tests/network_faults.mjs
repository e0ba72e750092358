// What is wrong in a network is shown with its place.
import assert from 'node:assert/strict';
import { fillNetwork, many, networkFault, networkShown } from './network_page.mjs';

const GOOD = 'version = 1\n[[message]]\nframe = "S 000 D"\nperiod = 1000\n';

/**
 * Each kind of wrong field, in the order of docs/PLANNING.md: a text, the field as canplan names it, its line and column, and
 * the field of the form.
 * @type {Array<[string, string, [number, number] | null, string[]]>}
 */
const WRONG = [
  ['version = ', 'toml', [1, 11], []],
  ['version = 1\nversion = 1\n', 'toml', [2, 1], []],
  ['versions = 1', 'key', [1, 1], []],
  [GOOD.replace('1', '2'), 'version', [1, 11], []],
  [`rate = 1000001\n${GOOD}`, 'rate', [1, 8], ['network-rate']],
  [`errors = 1\n${GOOD}`, 'errors', [1, 10], []],
  [`${GOOD}[errors]\nspace = 1\n`, 'errors.key', [6, 1], []],
  [`${GOOD}[errors]\nburst = 65536\n`, 'errors.burst', [6, 9], ['network-burst']],
  [`rate = 125000\n${GOOD}[errors]\nspacing = 1\n`, 'errors.spacing', [7, 11], ['network-spacing']],
  ['version = 1', 'message', null, []],
  ['version = 1\nmessage = []', 'message', [2, 11], []],
  ['version = 1\nmessage = [1]', 'message[0]', [2, 12], []],
  [`${GOOD}periods = 1\n`, 'message[0].key', [5, 1], []],
  [`${GOOD}[[message]]\nperiod = 1\n`, 'message[1].frame', null, ['network-frame-1']],
  [GOOD.replace('000', '800'), 'message[0].frame', [3, 9], ['network-frame-0']],
  [`${GOOD}dlc = 16\n`, 'message[0].dlc', [5, 7], ['network-dlc-0']],
  [GOOD.replace('1000', '0'), 'message[0].period', [4, 10], ['network-period-0']],
  [`${GOOD}jitter = 4294967296\n`, 'message[0].jitter', [5, 10], ['network-jitter-0']],
  [`${GOOD}deadline = -1\n`, 'message[0].deadline', [5, 12], ['network-deadline-0']],
  [`${GOOD}name = ""\n`, 'message[0].name', [5, 8], ['network-name-0']],
  [`${GOOD}[[message]]\nframe = "S 000 D"\nperiod = 2000\n`, 'message[1]', [5, 1], ['network-frame-1']],
  [`${GOOD}name = "a"\n[[message]]\nframe = "S 001 D"\nname = "a"\nperiod = 2000\n`, 'message[1].name', [8, 8], ['network-name-1']],
];

export const networkFaultTests = [
  ['each kind of wrong field of a network is shown with its place, and marked if the form has it', async ({ open }) => {
    const page = await networkShown(open);
    for (const [text, code, place, fields] of WRONG) {
      await fillNetwork(page, 'network-text', text);
      const reported = await networkFault(page);
      const where = place ? ` (line ${place[0]}, column ${place[1]})` : '';
      assert.ok(reported.text.startsWith(`P2 ${code}${where}: `), `${text}: ${reported.text}`);
      assert.match(reported.text, /: (must|a field) .*[^.\s]\.$/, 'it says what the field must be, and ends with a stop');
      assert.equal(reported.shown, false);
      assert.deepEqual(reported.invalid.filter((id) => id !== 'network-text'), fields, text);
      assert.equal(await page.get("document.getElementById('network-reported').textContent"), `The network is wrong: P2 ${code}${where}.`);
    }
    await fillNetwork(page, 'network-text', GOOD);
    assert.deepEqual(await networkFault(page), { text: '', shown: true, invalid: [] });
  }],
  ['a wrong name of a network is shown, and what is wrong in a frame', async ({ open }) => {
    const page = await networkShown(open);
    /** @type {Array<[string, string, RegExp]>} */
    const rows = [
      [`speed = 1\n${GOOD}`, 'key', /The name is “speed”\./],
      [`${GOOD}[errors]\nburst = 1\nrate = 2\n`, 'errors.key', /The name is “rate”\./],
      [`${GOOD}lag = 1\n`, 'message[0].key', /The name is “lag”\./],
      [GOOD.replace('S 000 D', 'S 800 D'), 'message[0].frame', /: must be kind, identifier .* X2 at 2: wrong in the identifier: .*S 800 D\.$/],
      [GOOD.replace('S 000 D', 'S 000 D 8'), 'message[0].frame', /: must be kind, identifier and D or R of a frame, such as 'S 100 D', without the DLC\.$/],
    ];
    for (const [text, code, words] of rows) {
      await fillNetwork(page, 'network-text', text);
      const reported = await networkFault(page);
      assert.ok(reported.text.startsWith(`P2 ${code} (line `), reported.text);
      assert.match(reported.text, words, text);
    }
  }],
  ['a wrong message is marked on its page', async ({ open }) => {
    const page = await networkShown(open, many(300));
    await fillNetwork(page, 'network-text', many(300).replace('jitter = 200\n', 'jitter = -200\n'));
    assert.deepEqual((await networkFault(page)).invalid, ['network-jitter-200', 'network-text']);
    assert.equal(await page.get("document.getElementById('network-messages-paged').textContent"), '193 to 224 of 300');
  }],
];
