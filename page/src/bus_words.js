/** What a port does, the events of a bit time, and what is wrong in a scenario, in words. */

/** @type {Readonly<Record<string, {short: string, name: string}>>} by the names of DOES */
export const DOES_WORDS = Object.freeze({
  idle: { short: 'idle', name: 'idle' },
  sending: { short: 'sending', name: 'sending a frame' },
  receiving: { short: 'receiving', name: 'receiving a frame' },
  flag: { short: 'error flag', name: 'active error flag' },
  passive: { short: 'passive flag', name: 'passive error flag' },
  overload: { short: 'overload flag', name: 'overload flag' },
  delimiter: { short: 'delimiter', name: 'delimiter after a flag' },
  intermission: { short: 'intermission', name: 'intermission' },
  suspend: { short: 'suspend', name: 'suspend transmission' },
  joining: { short: 'joining', name: 'joining the bus' },
  off: { short: 'bus off', name: 'bus off' },
});

/** By the numbers of phases. */
export const PHASE_WORDS = Object.freeze([
  'idle', 'joining', 'stuffed part of a frame', 'CRC delimiter', 'ACK slot', 'ACK delimiter', 'end of frame',
  'active error flag', 'passive error flag', 'overload flag', 'after a flag', 'delimiter', 'intermission',
  'suspend transmission', 'bus off',
]);

/** By the numbers of the events of a bit time. */
export const EVENT_WORDS = Object.freeze([
  '', 'frame sent', 'frame received', 'arbitration lost', 'bit error', 'stuff error', 'CRC error', 'form error', 'ACK error',
  'overload flag begins', 'goes bus off', 'back from bus off',
]);

/** The numbers of the fields about which more is shown. */
export const WRONG = Object.freeze({ toml: 0, key: 1, portKey: 6, element: 8 });

const AT_TOP = ['toml', 'key', 'version', 'bits', 'port'];
const IN_PORT = ['', '.key', '.queue', '.queue[#]', '.log', '.join', '.hold'];
const LISTS = ['at', 'in', 'view'];

const WHY = Object.freeze([
  'must be a TOML document in UTF-8.', 'a field at the top must be version, bits or port; in version 1 also at, in or view.',
  'must be 1 or 2.', 'must be 0 to 1000000 bit times.', 'must be an array of 1 to 64 tables, [[port]].',
  'must be a table, [[port]].', 'a field of this table must be queue, log, join or hold.', 'must be an array.',
  'must be a frame text in version 1; in version 2 an array of a time, 0 to 1000000, and a frame text.',
  'must be 0 to 65536 entries.', 'must be true or false.', 'must be 0, 1 or 2 overload frames.',
  'must be an array of times.', 'must be an array of [attempt, offset].', 'must be an array of [time, node].',
  'must be a time, a whole number above the preceding one.', 'must be [attempt, offset], above the preceding one.',
  'must be [time, node] with the number of a port, above the preceding one.', '',
]);

/**
 * @param {import('./core.js').WrongField} wrong
 * @returns {{code: string, why: string}} the field as canbit names it, and what it must be
 */
export function wrongWords({ field, number, element }) {
  const why = WHY[field];
  if (field < 5) return { code: AT_TOP[field], why };
  if (field < 12) return { code: `port[${number}]${IN_PORT[field - 5].replace('#', String(element))}`, why };
  if (field < 15) return { code: LISTS[field - 12], why };
  return { code: `${LISTS[field - 15]}[${number}]`, why };
}
