/** The bound of each message and its deadline, in numbers and as bars. */
import { byId, closestTo, html, svg } from './draw.js';
import { Pages } from './pages.js';

/** @typedef {import('./network_answer.js').Verdict} Verdict */

/** The number of messages that are shown at a time. */
const SHOWN = 64;

/** The place of the deadline in a bar, and the place at which longer bars are cut, in hundredths of its width. */
const DEADLINE = 48;
const CUT = 96;

/** The least width of what exceeds a deadline, so that it can be seen. */
const LEAST = 2;

/** The names of the columns after the frame. */
const COLUMNS = ['Longest', 'Blocking', 'Bound', 'Deadline', 'Outcome'];

export class BoundsView {
  /**
   * @param {(verdict: Verdict, refuse: (why: string) => void) => void} onWorst gets a message whose worst case is asked for;
   *   `refuse` shows why there is none
   * @param {(verdict: Verdict, show: (view: Node) => void) => void} onMakings gets a message whose parts of the bound are
   *   asked for; `show` shows them
   */
  constructor(onWorst, onMakings) {
    this.rows = byId('network-bounds');
    /** @type {Verdict[]} */
    this.verdicts = [];
    this.pages = new Pages('network-bounds', SHOWN, (first, last) => {
      this.rows.replaceChildren(...this.verdicts.slice(first, last).map((verdict, index) => rowOf(verdict, first + index)));
    });
    this.rows.addEventListener('click', (event) => {
      const button = closestTo(event, 'button');
      const row = closestTo(event, 'tr');
      if (!button || !row) return;
      const { worst, makings } = button.dataset;
      const status = row.querySelector('[role=status]');
      if (worst !== undefined) onWorst(this.verdicts[Number(worst)], (why) => { if (status) status.textContent = why; });
      if (makings !== undefined) toggle(button, row, (show) => onMakings(this.verdicts[Number(makings)], show));
    });
  }

  /** @param {Verdict[]} verdicts in the order of priority */
  show(verdicts) {
    const isLike = verdicts.length === this.verdicts.length;
    this.verdicts = verdicts;
    this.pages.goTo(isLike ? this.pages.first : 0, verdicts.length);
  }
}

/** @param {Verdict} verdict @param {number} place in the order of priority */
function rowOf(verdict, place) {
  const { frame, longest, blocking, bound, deadline, slack, name } = verdict;
  const isLate = slack === null;
  const outcome = isLate ? html('strong', { class: 'fault-name' }, ['▲ late']) : `ok, slack ${shown(slack)}`;
  const cells = [shown(longest), shown(blocking), bound === null ? 'none' : shown(bound), shown(deadline), outcome];
  const parts = {
    type: 'button', class: 'link', 'data-makings': place, 'aria-expanded': false, 'aria-label': `Parts of the bound of ${frame}`,
  };
  return html('tr', isLate ? { class: 'late' } : {}, [
    html('th', { scope: 'row', class: 'mono' }, name === '' ? [frame] : [frame, html('div', { class: 'called' }, [name])]),
    ...cells.map((cell, column) => html('td', { 'data-name': COLUMNS[column], class: column < 4 ? 'number' : 'outcome' }, [cell])),
    html('td', { class: 'bar-room' }, [barOf(verdict)]),
    html('td', { class: 'worst' }, [
      html('button', { type: 'button', class: 'link', 'data-worst': place, 'aria-label': `Worst case of ${frame}` }, ['Worst case']),
      ...(bound === null ? [] : [html('button', parts, ['Parts'])]),
      html('p', { class: 'hint', role: 'status' }),
    ]),
  ]);
}

/**
 * Shows a row below that of a button, or takes it away.
 * @param {Element} button
 * @param {Element} row
 * @param {(show: (view: Node) => void) => void} fill
 */
function toggle(button, row, fill) {
  const isOpen = button.getAttribute('aria-expanded') === 'true';
  button.setAttribute('aria-expanded', String(!isOpen));
  if (isOpen) {
    row.nextElementSibling?.remove();
    return;
  }
  const cell = html('td', { colspan: COLUMNS.length + 3 });
  row.after(html('tr', { class: 'below' }, [cell]));
  fill((view) => cell.replaceChildren(view));
}

/** @param {number} time */
const shown = (time) => time.toLocaleString('en');

/**
 * A bar as long as the bound, against the deadline, which is at the same place in all bars. What exceeds it is hatched, and
 * a bar that is cut or has no end ends in an arrow.
 * @param {Verdict} verdict
 */
function barOf({ bound, deadline, slack }) {
  const length = bound === null || deadline === 0 ? Infinity : (bound / deadline) * DEADLINE;
  const end = Math.min(length, CUT);
  const inTime = svg('rect', { class: 'bound', x: 0, y: 4, width: percent(Math.min(end, DEADLINE)), height: 12 });
  const beyond = slack === null ? [
    svg('rect', { class: 'beyond', x: percent(DEADLINE), y: 4, width: percent(Math.max(end - DEADLINE, LEAST)), height: 12 }),
    ...(length > CUT ? [arrow()] : []),
  ] : [];
  const marked = svg('rect', { class: 'deadline', x: percent(DEADLINE), y: 0, width: 3, height: 20 });
  const track = svg('rect', { class: 'track', x: 0, y: 4, width: percent(DEADLINE), height: 12 });
  return svg('svg', { class: 'bar', 'aria-hidden': 'true' }, [track, inTime, ...beyond, marked]);
}

/** The end of a bar that is cut. */
function arrow() {
  const head = svg('path', { class: 'cut', d: 'M0 1L9 10L0 19Z' });
  return svg('svg', { x: percent(CUT), y: 0, width: 12, height: 20, overflow: 'visible' }, [head]);
}

/** @param {number} hundredths */
const percent = (hundredths) => `${Math.round(hundredths * 10) / 10}%`;
