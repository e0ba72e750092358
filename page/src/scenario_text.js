/** Scenarios as the form shows them: read from a text, as far as the form can show it, and written as one. */

/**
 * @typedef {object} PortForm
 * @property {string} queue a frame a line, in version 2 with its time in front
 * @property {string} log
 * @property {boolean} join
 * @property {string} hold
 */

/**
 * @typedef {object} ScenarioForm
 * @property {string} version
 * @property {string} bits
 * @property {string} at
 * @property {string} in
 * @property {string} view
 * @property {PortForm[]} ports
 */

/** The names of hits, those at the top, and those of a port. */
const HITS = /** @type {const} */ (['at', 'in', 'view']);
const TOP = ['version', 'bits', ...HITS];
const PART = ['queue', 'log', 'join', 'hold'];

/** @returns {PortForm} */
export const newPort = () => ({ queue: '', log: '', join: false, hold: '' });

/** @typedef {Record<string, unknown>} Table the values of names */

/**
 * A text without its comments.
 * @param {string} text
 */
const bare = (text) => text.replace(/("(?:[^"\\\n]|\\.)*")|#[^\n]*/g, (_, string) => string ?? '');

/**
 * The tables of a text: that of the names at the top, and those of ports.
 * @param {string} text
 * @returns {Table[] | null} none if the form can't show it
 */
function tablesIn(text) {
  /** @type {Table} */
  let table = {};
  const tables = [table];
  const item = /\s*(?:\[\[\s*port\s*\]\]|([a-z]+)\s*=\s*(\[[^=]*?\](?=\s*(?:$|\n\s*(?:[a-z]|\[\[)))|"[^"\n]*"|[^\s"[\]]+))[ \t\r]*(?:\n|$)/y;
  const given = bare(text);
  const end = given.trimEnd().length;
  while (item.lastIndex < end) {
    const found = item.exec(given);
    if (!found) return null;
    const [, name, written] = found;
    if (name === undefined) {
      table = {};
      tables.push(table);
      continue;
    }
    const value = valueOf(written);
    if (value === undefined || name in table) return null;
    table[name] = value;
  }
  return tables;
}

/** @param {string} text a value as it is written */
function valueOf(text) {
  try {
    return JSON.parse(text.replace(/,(\s*\])/g, '$1'));
  } catch {
    return undefined;
  }
}

/**
 * Whether a table has no other names than these.
 * @param {Table} table
 * @param {readonly string[]} names
 */
const hasOnly = (table, names) => Object.keys(table).every((name) => names.includes(name));

/** @param {unknown} items @returns {unknown[]} none if they are no array */
const itemsOf = (items) => (Array.isArray(items) ? items : []);

/**
 * The form of a text.
 * @param {string} text
 * @returns {ScenarioForm | null} none if the form can't show it
 */
export function formOf(text) {
  const [top, ...ports] = tablesIn(text) ?? [];
  if (!top || !hasOnly(top, TOP) || !ports.every((port) => hasOnly(port, PART))) return null;
  const lists = [top.at, top.in, top.view, ...ports.map((port) => port.queue)];
  if (lists.some((items) => items !== undefined && !Array.isArray(items))) return null;
  /** @param {unknown} items */
  const list = (items) => JSON.stringify(itemsOf(items)).slice(1, -1).replaceAll(',', ', ');
  return {
    version: String(top.version ?? ''), bits: String(top.bits ?? ''), at: list(top.at), in: list(top.in), view: list(top.view),
    ports: ports.map((port) => ({
      queue: itemsOf(port.queue).map((entry) => (Array.isArray(entry) ? entry.join(' ') : String(entry))).join('\n'),
      log: String(port.log ?? ''), join: port.join === true, hold: String(port.hold ?? ''),
    })),
  };
}

/**
 * The text of a form. What is wrong in a field stays so in the text.
 * @param {ScenarioForm} form
 * @returns {string}
 */
export function textOf(form) {
  const top = [`version = ${form.version}`, `bits = ${form.bits}`];
  const hits = form.version === '2' ? [] : HITS.filter((name) => form[name].trim());
  for (const name of hits) top.push(`${name} = [${form[name].trim()}]`);
  const tables = [top, ...form.ports.map((port) => portLines(port, form.version))];
  return tables.map((lines) => `${lines.join('\n')}\n`).join('\n');
}

/**
 * @param {PortForm} port
 * @param {string} version
 */
function portLines(port, version) {
  const lines = ['[[port]]'];
  const frames = port.queue.split('\n').map((frame) => frame.trim()).filter((frame) => frame !== '');
  const entries = frames.map((frame) => (version === '2' ? timed(frame) : JSON.stringify(frame)));
  if (entries.length > 0) lines.push(`queue = [${entries.join(', ')}]`);
  if (port.log.trim()) lines.push(`log = ${port.log.trim()}`);
  if (port.join) lines.push('join = true');
  if (port.hold.trim()) lines.push(`hold = ${port.hold.trim()}`);
  return lines;
}

/** @param {string} frame with its time in front, or otherwise at time 0 */
function timed(frame) {
  const [front = '', time = '0'] = /^(\d+)\s+(?=[A-Z])/.exec(frame) ?? [];
  return `[${time}, ${JSON.stringify(frame.slice(front.length))}]`;
}
