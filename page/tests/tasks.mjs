// How long a page is blocked at most, by the processor time of the tasks of its main thread: others may use the machine.
import assert from 'node:assert/strict';

/** What a page notes among the events of its main thread, by which that is known: the browser has views of its own, with such threads too. */
const NOTE = 'watched';

/**
 * @param {import('./browser.mjs').Page} page
 * @param {() => Promise<T>} action
 * @returns {Promise<{done: T, longest: number}>} what the action gives, and the longest task of the page in that time, in milliseconds
 * @template T
 */
export async function longestTask(page, action) {
  const { browser } = page;
  const events = [];
  let end;
  const ended = new Promise((resolve) => { end = resolve; });
  const listener = ({ method, params }) => {
    if (method === 'Tracing.dataCollected') events.push(...params.value);
    if (method === 'Tracing.tracingComplete') end();
  };
  browser.listeners.push(listener);
  await browser.call('Tracing.start', { traceConfig: { includedCategories: ['toplevel', 'blink.user_timing'] } });
  await page.run((note) => { performance.mark(note); }, NOTE);
  const done = await action();
  await browser.call('Tracing.end');
  await ended;
  browser.listeners.splice(browser.listeners.indexOf(listener), 1);
  const noted = events.find(({ name }) => name === NOTE);
  const tasks = events.filter(({ ph, name, pid, tid }) => ph === 'X' && name.endsWith('RunTask') && pid === noted?.pid && tid === noted.tid);
  if (tasks.length === 0) throw new Error('the browser reported no tasks');
  return { done, longest: Math.max(...tasks.map(({ tdur = 0 }) => tdur)) / 1000 };
}

/** Keeps a page busy for a while. */
const spin = (page) => page.run(() => {
  const end = performance.now() + 1000;
  while (performance.now() < end);
});

export const taskTests = [
  ['a page is blocked by its own tasks, and not by those of another', async ({ open }) => {
    const [page, other] = [await open(), await open()];
    const { longest: own } = await longestTask(page, () => spin(page));
    assert.ok(own > 100, `its own task of a second took ${own} ms of a processor`);
    const { longest } = await longestTask(page, () => spin(other));
    assert.ok(longest < own / 2, `a task of ${longest} ms was reported, when another page was busy`);
  }],
];
