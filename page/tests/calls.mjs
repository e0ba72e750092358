// The calls of the module, one by one: rows that were worked out by hand, as docs/ and the README show them.
import assert from 'node:assert/strict';

/** `S 000 D 0` as its sender drives it. */
const WIRE = '00000100000100000100000100000100000100001111111111';

/** Two ports for 60 bit times, of which the first sends `S 000 D 0`; and the report. */
const SCENARIO = 'version = 1\nbits = 60\n[[port]]\nqueue = ["S 000 D 0"]\n[[port]]\nlog = 0\n';
const REPORT = `bits 60
000001000001000001000001000001000001000010111111111111111111
port 0 active tec 0 rec 0 missed 0
  sent S 000 D 0
port 1 active tec 0 rec 0 missed 1
`;

/** The worked example of docs/PLANNING.md, in another order and with a deadline that is missed by a bit time; and the answer. */
const NETWORK = `version = 1
[[message]]
frame = "S 300 D"
dlc = 7
period = 427
[[message]]
frame = "S 100 D"
dlc = 7
period = 303
[[message]]
frame = "S 200 D"
dlc = 7
period = 427
deadline = 360
`;
const ANSWER = `network messages 3 load 0.971 rate 0
S 100 D 7 longest 122 blocking 121 bound 240 deadline 303 slack 63 ok
S 200 D 7 longest 121 blocking 121 bound 361 deadline 360 late
S 300 D 7 longest 122 blocking 0 bound 422 deadline 427 slack 5 ok
load 0.971 late 1 of 3
`;

/** A message alone, of the frame of WIRE, which keeps the bus for 53 bit times; and its worst case: no other is offered, and the bus is free behind it. */
const LONE = 'version = 1\n[[message]]\nframe = "S 000 D"\ndlc = 0\nperiod = 53\n';
/** What makes its bound: its wire alone; and what is left: nothing. */
const DETAILS = `network messages 1 load 1.000 rate 0
S 000 D 0 longest 53 blocking 0 bound 50 deadline 53 slack 3 ok
  latest frame 0 start 0
  jitter 0
  blocking 0
  earlier frames 0 bits 0
  hits 0 bits 0
  wire 50
  less periods 0 bits 0
load 1.000 late 0 of 1
shorter periods 0 per cent ok 1 per cent late S 000 D 0
more hits 0 ok 1 late S 000 D 0
`;
const WORST = `version = 2
bits = 54

[[port]]
queue = [
    [1, "S 000 D 0"],
]
log = 1

[[port]]
queue = [
]
log = 1
`;

/** What a call is given: a text, levels by their digits, bytes; room for so many bytes; a place for a number, or what is reported. */
const text = (letters) => ({ bytes: [...letters].map((letter) => letter.charCodeAt(0)) });
const levels = (digits) => ({ bytes: [...digits].map(Number) });
const bytes = (...those) => ({ bytes: those });
const room = (name, size, item = 1) => ({ name, size, item });
const number = (name) => ({ name, size: 8 });
const size = (value) => ({ value });
const LINES = { name: 'lines', size: 9 + 33554432 };
const WRONG = { name: 'wrong', size: 24 };

/** What a port does in a bit time, in ten bytes. */
const time = (at, field) => `times ${10 * at + { transmit: 0, receive: 2, phase: 4, sends: 5, drove: 6, saw: 7, event: 8 }[field]}`;

const encode = (letters, most) => ['page_encode', [text(letters), room('levels', most), number('count'), number('place')]];
const frameText = (identifier, extended, remote, dlc, data, most = 32) =>
  ['page_frame_text', [identifier, extended, remote, dlc, bytes(...data), room('text', most), number('count')]];
const levelsOf = (letters) => ['page_levels', [text(letters), room('levels', 8), number('count'), number('place')]];
const marks = (digits, most = 157) => ['page_marks', [levels(digits), room('fields', most), room('stuffed', 157), number('count')]];
const run = (letters) => ['page_run', [text(letters), LINES, WRONG]];
const plan = (letters, details = 0) => ['page_plan', [text(letters), details, LINES, number('late'), WRONG]];
const worstCase = (letters, name) => ['page_worst_case', [text(letters), text(name), LINES, WRONG]];
const portTimes = (letters, port, most) => ['page_port_times', [text(letters), size(port), room('times', most, 10), number('count')]];

const allPortTimes = (letters, most) => ['page_all_port_times', [text(letters), room('times', most, 10), number('count')]];

/**
 * A call, its answer, and what is then written: under a name a number, the front of a room, or all lines; under a name and
 * a place the byte that stands there. A number that is not written stays 99, and a byte 9.
 */
const ROWS = [
  [...encode('S 000 D 0', 157), 0, { count: 50, place: 99, levels: [...WIRE].map(Number), 'levels 50': 9 }],
  [...encode('S 000 D 0', 156), 1, { count: 99, place: 99, 'levels 0': 9 }],
  [...encode('T 000 D 0', 156), 1, { count: 99, place: 99 }],
  [...encode('', 157), 11, { count: 99, place: 0 }],
  [...encode('T 000 D 0', 157), 11, { count: 99, place: 0 }],
  [...encode('S 800 D 0', 157), 12, { count: 99, place: 2 }],
  [...encode('S 123 X 0', 157), 13, { count: 99, place: 6 }],
  [...encode('S 123 D 16', 157), 14, { count: 99, place: 9 }],
  [...encode('S 123 D 1 g0', 157), 15, { count: 99, place: 10 }],
  [...encode('S 123 R 16', 157), 16, { count: 99, place: 9 }],

  [...frameText(0x123, 0, 0, 2, [0xaa, 0x55]), 0, { count: 14, text: text('S 123 D 2 aa55').bytes }],
  [...frameText(0x18db33f1, 1, 1, 8, []), 0, { count: 14, text: text('E 18db33f1 R 8').bytes }],
  [...frameText(0x7ff, 0, 0, 0, []), 0, { count: 9, text: text('S 7ff D 0').bytes }],
  [...frameText(0x800, 0, 0, 0, []), 3, { count: 99 }],
  [...frameText(0x20000000, 1, 0, 0, []), 3, { count: 99 }],
  [...frameText(0, 0, 0, 16, []), 4, { count: 99 }],
  [...frameText(0, 0, 0, 1, []), 5, { count: 99 }],
  [...frameText(0, 0, 1, 1, [0]), 5, { count: 99 }],
  [...frameText(0, 0, 0, 0, [], 9), 0, { count: 9, text: text('S 000 D 0').bytes }],
  [...frameText(0, 0, 0, 0, [], 8), 1, { count: 99, 'text 0': 9 }],
  // identifier, DLC and number of data bytes are tested in this order, and then the room
  [...frameText(0x800, 0, 0, 16, [0], 8), 3, { count: 99 }],
  [...frameText(0x7ff, 0, 0, 16, [0], 8), 4, { count: 99 }],
  [...frameText(0x7ff, 0, 0, 0, [0], 8), 5, { count: 99 }],

  [...levelsOf('1 0\r\n1'), 0, { count: 3, place: 99, levels: [1, 0, 1] }],
  [...levelsOf('10 2'), 2, { count: 2, place: 3, levels: [1, 0] }],
  [...levelsOf('1010 010'), 0, { count: 7, place: 99, levels: [1, 0, 1, 0, 0, 1, 0] }],
  [...levelsOf('101 10102'), 1, { count: 0, place: 99, 'levels 0': 9 }],

  [...marks(WIRE), 0, {
    count: 50, 'fields 0': 0, 'fields 13': 1, 'fields 14': 3, 'fields 15': 5, 'fields 16': 7, 'fields 18': 8, 'fields 22': 10, 'fields 40': 11,
    'fields 41': 12, 'fields 42': 13, 'fields 43': 14, 'stuffed 4': 0, 'stuffed 5': 1, 'stuffed 17': 1, 'stuffed 49': 0,
  }],
  // up to the data of `S 555 D 1 aa`, with a stuff bit in its DLC, and one level of its CRC sequence
  [...marks('01010101010100000101101010100'), 0, {
    count: 29, 'stuffed 16': 0, 'stuffed 17': 1, 'stuffed 18': 0, 'fields 12': 3, 'fields 17': 8, 'fields 19': 8, 'fields 20': 9, 'fields 27': 9, 'fields 28': 10,
  }],
  // an extended frame up to its DLC, `E 15555555`
  [...marks('010101010101110101010101010101010000'), 0, { count: 36, 'fields 12': 4, 'fields 13': 5, 'fields 31': 1, 'fields 32': 3, 'fields 33': 6, 'fields 34': 7 }],
  // up to SRR alone
  [...marks('0101010101011'), 0, { count: 13, 'fields 11': 1, 'fields 12': 2 }],
  ['page_marks', [bytes(0, 2), room('fields', 157), room('stuffed', 157), number('count')], 2, { count: 99 }],
  [...marks('01', 156), 1, { count: 99 }],
  // the room is tested before the numbers, of which those after the first 157 are not read
  [...marks('02', 156), 1, { count: 99 }],
  [...marks('0' + '1'.repeat(156) + '2'), 0, { count: 7, 'stuffed 6': 1, 'fields 7': 9 }],
  [...marks('0' + '1'.repeat(155) + '2'), 2, { count: 99, 'fields 0': 9, 'stuffed 0': 9 }],

  [...run(SCENARIO), 0, { lines: REPORT }],
  ...[
    ['version', 0, 0, 0], ['version = 3', 2, 0, 0], ['version = 1\nbits = 1', 4, 0, 0],
    ['version = 1\nbits = 1\n[[port]]\n[[port]]\nqueue = ["S 000 D 0", ""]', 8, 1, 1],
    ['version = 1\nbits = 1\n[[port]]\nhold = 3', 11, 0, 0], ['version = 1\nbits = 1\nin = 1\n[[port]]', 13, 0, 0],
    ['version = 1\nbits = 1\nview = [[0, 0], [0, 1]]\n[[port]]', 17, 1, 0],
  ].map(([document, field, place, element]) => [...run(document), 6, { 'wrong 16': field, 'wrong 0': place, 'wrong 8': element }]),

  [...portTimes(SCENARIO, 0, 60), 0, {
    count: 60, [time(0, 'phase')]: 0, [time(0, 'sends')]: 0, [time(0, 'drove')]: 0, [time(0, 'saw')]: 0, [time(1, 'phase')]: 2, [time(1, 'sends')]: 1,
    // the ACK slot is left recessive, and seen dominant
    [time(41, 'phase')]: 4, [time(41, 'drove')]: 1, [time(41, 'saw')]: 0,
    [time(49, 'phase')]: 6, [time(49, 'event')]: 1, [time(50, 'phase')]: 12, [time(49, 'transmit')]: 0, [time(49, 'receive')]: 0,
  }],
  [...portTimes(SCENARIO, 2, 60), 7, { count: 99 }],
  [...portTimes(SCENARIO, 0, 59), 1, { count: 99 }],
  [...portTimes('bits = 1', 0, 60), 6, { count: 99 }],

  [...allPortTimes(SCENARIO, 120), 0, {
    count: 120, [time(1, 'sends')]: 1, [time(41, 'drove')]: 1, [time(49, 'event')]: 1,
    // the other port: it acknowledges, and has the frame a level sooner
    [time(60, 'phase')]: 0, [time(60 + 1, 'sends')]: 0, [time(60 + 41, 'drove')]: 0, [time(60 + 48, 'event')]: 2, [time(60 + 49, 'event')]: 0,
  }],
  [...allPortTimes(SCENARIO, 119), 1, { count: 99 }],
  [...allPortTimes('bits = 1', 120), 6, { count: 99 }],

  [...plan(NETWORK), 0, { lines: ANSWER, late: 1 }],
  [...plan(NETWORK.replace('360', '361')), 0, { late: 0 }],
  [...plan(LONE, 1), 0, { late: 0, lines: DETAILS }],
  ...[
    ['', 'version', 0, 0, 'must be a TOML document in UTF-8'], ['', 'version = 2', 2, 0, 'must be 1'], ['rate = 1000001', '', 3, 0, 'must be 0 to 1000000 bits a second'],
    ['', 'errors = 1', 4, 0, 'must be a table, [errors]'], ['', '[errors]\nspace = 1', 5, 0, 'a field of this table must be burst or spacing'], ['', '[errors]\nburst = 65536', 6, 0, 'must be 0 to 65535 hits'],
    ['', '[errors]\nspacing = -1', 7, 0, 'must be 0, or at least one bit time, at most 4294967295'], ['', 'message = []', 8, 0, 'must be an array of 1 to 512 tables, [[message]]'],
    ['', 'message = [1]', 9, 0, 'must be a table, [[message]]'], ['', '[[message]]\nframes = 1', 10, 0, 'a field of this table must be frame, dlc, period, jitter, deadline or name'],
  ].map(([before, behind, field, place, lines]) => [...plan(`${before}\n${field === 2 ? '' : 'version = 1'}\n${behind}\n`), 9, { late: 99, 'wrong 16': field, 'wrong 0': place, 'wrong 8': 0, lines }]),
  ...[
    ['period = 303', '', 13, 1, 'must be at least one bit time, at most 4294967295'], ['frame = "S 100 D"', 'frame = "S 100 D 7"', 11, 1, 'must be kind, identifier and D or R of a frame, such as \'S 100 D\', without the DLC'],
    ['frame = "S 100 D"', 'frame = "S 300 D"', 16, 1, 'must differ in identifier or kind from every earlier message'], ['dlc = 7', 'dlc = 16', 12, 0, 'must be 0 to 15'],
    ['deadline = 360', 'deadline = -1', 15, 2, 'must be a time of 0 to 4294967295'], ['deadline = 360', 'jitter = 4294967296', 14, 2, 'must be a time of 0 to 4294967295'],
  ].map(([right, wrong, field, place, lines]) => [...plan(NETWORK.replace(String(right), String(wrong))), 9, { late: 99, 'wrong 16': field, 'wrong 0': place, 'wrong 8': 0, lines }]),

  [...worstCase(LONE, 'S 000 D'), 0, { lines: WORST }],
  ...['S 000 R', 'S 000 D 0', 'S 000', '', 'E 00000000 D', 'S 000 D                             '].map((name) => [...worstCase(LONE, name), 10, {}]),
  [...worstCase(LONE.replace('53', '52'), 'S 000 D'), 17, {}],
  [...worstCase(LONE.replace('53', '0'), 'S 000 D'), 9, { 'wrong 16': 13, 'wrong 0': 0, 'wrong 8': 0 }],
];

/** @typedef {{memory: WebAssembly.Memory, __heap_base: WebAssembly.Global} & Record<string, (...words: number[]) => number>} Exports */

/** What the calls of rows answer and write, by the module as it stands in the page: the same names as the rows want. It runs there. */
export async function play(letters, rows) {
  const packed = new Blob([Uint8Array.from(atob(letters.trim()), (letter) => letter.charCodeAt(0))]);
  const module = await new Response(packed.stream().pipeThrough(new DecompressionStream('deflate-raw'))).arrayBuffer();
  const { instance } = await WebAssembly.instantiate(module, {});
  const exports = /** @type {Exports} */ (instance.exports);
  const memory = new Uint8Array(exports.memory.buffer);
  const numberAt = (at) => Number(new DataView(memory.buffer).getBigUint64(at, true));
  return rows.map(([call, given, , wanted]) => {
    const rooms = {};
    let next = Math.ceil(Number(exports.__heap_base.value) / 16) * 16;
    const take = (count, byte) => {
      const at = next;
      memory.fill(byte, at, at + count);
      next = Math.ceil((at + count) / 16) * 16;
      return at;
    };
    const words = given.flatMap((it) => {
      if (typeof it === 'number') return [it];
      if (it.value !== undefined) return [it.value];
      if (it.bytes) {
        const at = take(it.bytes.length, 0);
        memory.set(it.bytes, at);
        return [at, it.bytes.length];
      }
      rooms[it.name] = take(it.size * (it.item ?? 1), it.item ? 9 : 0);
      if (it.item) return [rooms[it.name], it.size];
      if (it.size === 8) memory[rooms[it.name]] = 99;
      return [rooms[it.name]];
    });
    exports.page_heap_begin(next);
    const answer = exports[call](...words);
    const read = (name, want) => {
      const [room, place] = name.split(' ');
      if (place !== undefined) return memory[rooms[room] + Number(place)];
      if (Array.isArray(want)) return [...memory.slice(rooms[room], rooms[room] + want.length)];
      if (typeof want === 'number') return numberAt(rooms[room]);
      return String.fromCharCode(...memory.slice(rooms[room] + 9, rooms[room] + 9 + numberAt(rooms[room])));
    };
    return [answer, Object.fromEntries(Object.entries(wanted).map(([name, want]) => [name, read(name, want)]))];
  });
}

export const callTests = [
  ['each call answers its rows', async ({ open }) => {
    const page = await open();
    const answers = await page.get(`(${play})(document.getElementById('module').textContent, ${JSON.stringify(ROWS)})`);
    for (const [index, [call, given, answer, wanted]] of ROWS.entries()) assert.deepEqual(answers[index], [answer, wanted], `${call} ${JSON.stringify(given)}`);
  }],
];
