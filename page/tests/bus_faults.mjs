// What is wrong in a scenario is shown with its place.
import assert from 'node:assert/strict';
import { fault, fill, shown } from './bus_page.mjs';

const PORTS = '[[port]]\nqueue = ["S 001 D 0"]\n\n[[port]]\nqueue = ["S 000 D 0"]\n';

/**
 * Each kind of wrong field, in the order of docs/FORMATS.md: a text, the field as canbit names it, its line and column, and
 * the field of the form.
 * @type {Array<[string, string, [number, number] | null, string[]]>}
 */
const WRONG = [
  ['version = ', 'toml', [1, 11], []],
  ['versions = 1', 'key', [1, 1], []],
  ['version = 3\nbits = 1\n[[port]]', 'version', [1, 11], ['bus-version']],
  ['version = 1\nbits = 1000001\n[[port]]', 'bits', [2, 8], ['bus-bits']],
  ['version = 1\nbits = 1', 'port', null, []],
  ['version = 1\nbits = 1\nport = [1]', 'port[0]', [3, 9], []],
  ['version = 1\nbits = 1\n[[port]]\nlogs = 1', 'port[0].key', [4, 1], []],
  ['version = 1\nbits = 1\n[[port]]\nqueue = 1', 'port[0].queue', [4, 9], []],
  ['version = 1\nbits = 1\n[[port]]\n[[port]]\nqueue = ["S 000 D 0", "S 800 D 0"]', 'port[1].queue[1]', [5, 23], ['bus-queue-1']],
  ['version = 2\nbits = 1\n[[port]]\nqueue = [[1000001, "S 000 D 0"]]', 'port[0].queue[0]', [4, 10], ['bus-queue-0']],
  ['version = 1\nbits = 1\n[[port]]\nlog = 65537', 'port[0].log', [4, 7], ['bus-log-0']],
  ['version = 1\nbits = 1\n[[port]]\njoin = 1', 'port[0].join', [4, 8], ['bus-join-0']],
  ['version = 1\nbits = 1\n[[port]]\nhold = 3', 'port[0].hold', [4, 8], ['bus-hold-0']],
  ['version = 1\nbits = 1\nat = 1\n[[port]]', 'at', [3, 6], []],
  ['version = 1\nbits = 1\nin = 1\n[[port]]', 'in', [3, 6], []],
  ['version = 1\nbits = 1\nview = 1\n[[port]]', 'view', [3, 8], []],
  ['version = 1\nbits = 1\nat = [5, 5]\n[[port]]', 'at[1]', [3, 10], ['bus-at']],
  ['version = 1\nbits = 1\nin = [[0, 1], [0]]\n[[port]]', 'in[1]', [3, 15], ['bus-in']],
  ['version = 1\nbits = 1\nview = [[0, 1]]\n[[port]]', 'view[0]', [3, 9], ['bus-view']],
];

/** Texts that are no TOML: each with the line and column at which they stop being so, and the words. */
/** @type {Array<[string, [number, number], RegExp]>} */
const NO_TOML = [
  ['version = 1\nbits = 8 8\n[[port]]', [2, 10], /end of the line was expected/],
  ['version = 1\nbits = 08\n[[port]]', [2, 8], /value was expected/],
  ['version = 1\nversion = 1\n[[port]]', [2, 1], /“version” is used again here/],
  ['version = 1\nbits = 1\n[[port]]\nqueue = ["S 000 D 0]', [4, 10], /string does not end on its line/],
  ['version = 1\nbits = 1\n[[port]\n', [3, 7], /“]]” was expected/],
  ['version = 1\nbits = 1\n[[port]]\nqueue = ["S 000 D 0" "S 001 D 0"]', [4, 22], /“,” or “]” was expected/],
  ['version = 1\nbits = 1\n[[port]]\nqueue = [', [4, 9], /array does not end/],
  ['version = 1\nbits = 99999999999999999999\n[[port]]', [2, 8], /does not fit 64 bits/],
  ['version = 1\nbits = 1\nport = [{ log = 1, , }]', [3, 20], /name was expected/],
  ['version = 1\nbits = 1\n[[port]]\nqueue = ["\\q"]', [4, 11], /no escape/],
  ['version : 1', [1, 9], /“=” was expected/],
];

/** Texts that are TOML in all its ways of writing, and scenarios. */
const TOML = [
  "'version' = 1 # one\n\"bits\" = 0x8\r\n[[ port ]]\nqueue = [\n  'S 000 D 0', # first\n  \"\"\"S 001 D 0\"\"\",\n]\nlog = 1_0\n",
  'version = +1\nbits = 0b1000\nport = [{ queue = ["S \\u0030\\U000000300 D 0"], join = true }, {}, {\n  log = 1, # last\n}]\n',
];

export const busFaultTests = [
  ['each kind of wrong field is shown with its place, and marked if the form has it', async ({ open }) => {
    const page = await shown(open);
    for (const [text, code, place, fields] of WRONG) {
      await fill(page, 'bus-text', text);
      const reported = await fault(page);
      const where = place ? ` (line ${place[0]}, column ${place[1]})` : '';
      assert.ok(reported.text.startsWith(`P2 ${code}${where}: `), `${text}: ${reported.text}`);
      assert.equal(reported.shown, false);
      assert.deepEqual(reported.invalid.filter((id) => id !== 'bus-text'), fields, text);
      assert.equal(await page.get("document.getElementById('bus-reported').textContent"), `The scenario is wrong: P2 ${code}${where}.`);
    }
    await fill(page, 'bus-text', `version = 1\nbits = 8\n${PORTS}`);
    assert.deepEqual(await fault(page), { text: '', shown: true, invalid: [] });
  }],
  ['of a text that is no TOML the place where it stops being so is shown', async ({ open }) => {
    const page = await shown(open);
    for (const [text, [line, column], words] of NO_TOML) {
      await fill(page, 'bus-text', text);
      const reported = await fault(page);
      assert.ok(reported.text.startsWith(`P2 toml (line ${line}, column ${column}): `), `${text}: ${reported.text}`);
      assert.match(reported.text, words, text);
    }
    for (const text of TOML) {
      await fill(page, 'bus-text', text);
      assert.equal((await fault(page)).text, '', text);
      await fill(page, 'bus-text', `${text}# the end\nhold = 7`);
      assert.match((await fault(page)).text, /^P2 port\[\d\]\.hold|^P2 key/, text);
    }
  }],
  ['a wrong name is shown, and what is wrong in a frame', async ({ open }) => {
    const page = await shown(open);
    /** @type {Array<[string, string, RegExp]>} */
    const rows = [
      ['version = 1\nbits = 1\nspeed = 1\n[[port]]', 'key', /The name is “speed”\./],
      ['version = 2\nbits = 1\nat = [1]\n[[port]]', 'key', /The name is “at”\./],
      ['version = 1\nbits = 1\n[[port]]\n[[port]]\nlog = 1\nlogg = 1', 'port[1].key', /The name is “logg”\./],
      ['version = 1\nbits = 1\n[[port]]\nqueue = ["S 800 D 0"]', 'port[0].queue[0]', /X2 at 2: wrong in the identifier: .*S 800 D 0/],
      ['version = 2\nbits = 1\n[[port]]\nqueue = [[0, "S 000 D 9"]]', 'port[0].queue[0]', /X4 at 9: wrong in the DLC/],
      ['version = 2\nbits = 1\n[[port]]\nqueue = [[0, "S 000 D 0"], ["S 000 D 0"]]', 'port[0].queue[1]', /in version 2 an array of a time/],
    ];
    for (const [text, code, words] of rows) {
      await fill(page, 'bus-text', text);
      const reported = await fault(page);
      assert.ok(reported.text.startsWith(`P2 ${code} (line `), reported.text);
      assert.match(reported.text, words, text);
    }
  }],
];
