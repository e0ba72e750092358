/** The rows of a long table, one page at a time. */
import { buttonById, byId } from './draw.js';

export class Pages {
  /**
   * @param {string} name which begins those of the elements that turn pages
   * @param {number} size of a page
   * @param {(first: number, last: number) => void} show fills in the rows from `first` to before `last`
   */
  constructor(name, size, show) {
    this.name = name;
    this.size = size;
    this.show = show;
    this.first = 0;
    this.count = 0;
    this.back = buttonById(`${name}-back`);
    this.on = buttonById(`${name}-on`);
    this.back.addEventListener('click', () => this.goTo(this.first - size));
    this.on.addEventListener('click', () => this.goTo(this.first + size));
  }

  /**
   * Shows the page of a row, or the nearest one, if there are `count` rows.
   * @param {number} row
   * @param {number} [count]
   */
  goTo(row, count = this.count) {
    this.count = count;
    this.first = Math.floor(Math.min(Math.max(row, 0), Math.max(count - 1, 0)) / this.size) * this.size;
    const last = Math.min(this.first + this.size, count);
    this.show(this.first, last);
    byId(`${this.name}-pages`).hidden = count <= this.size;
    this.back.disabled = this.first === 0;
    this.on.disabled = last >= count;
    const rows = `${(this.first + 1).toLocaleString('en')} to ${last.toLocaleString('en')}`;
    byId(`${this.name}-paged`).textContent = `${rows} of ${count.toLocaleString('en')}`;
  }
}
