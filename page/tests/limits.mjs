// Time limits. On a machine with other work, page/check --patient allows ten times the limits, and five times those of processor time.
import assert from 'node:assert/strict';

const PATIENCE = Number(process.env.PAGE_PATIENCE ?? 1);

/** The most processor milliseconds of a task of a page; and the factor that is allowed at most. */
const LONGEST_TASK = 50;
const MOST_PATIENCE = 5;

/**
 * Fails if something took too long.
 * @param {string} what
 * @param {number} took in milliseconds
 * @param {number} limit in milliseconds
 */
export function within(what, took, limit) {
  assert.ok(took < limit * PATIENCE, `${what} took ${Math.round(took)} ms, and may take ${limit * PATIENCE}`);
}

/**
 * Fails if a page was blocked for too long.
 * @param {number} longest task, in milliseconds of a processor
 */
export function unblocked(longest) {
  const limit = LONGEST_TASK * Math.min(PATIENCE, MOST_PATIENCE);
  assert.ok(longest < limit, `a task took ${Math.round(longest)} ms of a processor, and may take ${limit}`);
}
