/** Loads the proved code, and begins the views. */
import { MOST_ADDRESS, parsed, unpackedBytes, written } from './address.js';
import { BusView } from './bus.js';
import { Runs } from './runs.js';
import { Core } from './core.js';
import { byId, copyText, html } from './draw.js';
import { DecodeView } from './decode.js';
import { EncodeView } from './encode.js';
import { NetworkView } from './network.js';

/** @typedef {import('./address.js').Shown} Shown */

/**
 * The text in an element.
 * @param {string} id
 */
const textOf = (id) => byId(id).textContent ?? '';

/** @returns {Promise<Uint8Array | null>} the module in the page; none if the browser can't unpack it */
async function moduleBytes() {
  return typeof DecompressionStream === 'function' ? unpackedBytes(textOf('module').trim()) : null;
}

/** Lets one panel be shown at a time, by its tab. */
class Tabs {
  /** @param {(name: string, what: Shown) => void} onShown */
  constructor(onShown) {
    this.onShown = onShown;
    this.tabs = [...document.querySelectorAll('[role=tab]')].flatMap((tab) => (tab instanceof HTMLElement ? [tab] : []));
    for (const tab of this.tabs) {
      tab.addEventListener('click', () => this.show(tab));
      tab.addEventListener('keydown', (event) => this.move(event, this.tabs.indexOf(tab)));
    }
    window.addEventListener('hashchange', () => this.showNamed());
    this.showNamed();
  }

  /** Shows the panel that the address names, or the first, with what the address says. */
  showNamed() {
    const { name, what } = parsed(location.hash);
    const shown = this.tabs.find((tab) => tab.dataset.name === name);
    this.show(shown ?? this.tabs[0], shown ? what : {});
  }

  /** @param {HTMLElement} shown @param {Shown} [what] */
  show(shown, what = {}) {
    for (const tab of this.tabs) {
      const is = tab === shown;
      tab.setAttribute('aria-selected', String(is));
      tab.tabIndex = is ? 0 : -1;
      byId(tab.getAttribute('aria-controls') ?? '').hidden = !is;
    }
    const { name = '' } = shown.dataset;
    const isGiven = Object.keys(what).length > 0;
    if (!isGiven && location.hash !== `#${name}`) history.replaceState(null, '', `#${name}`);
    this.onShown(name, what);
  }

  /** @param {KeyboardEvent} event @param {number} at */
  move(event, at) {
    const count = this.tabs.length;
    /** @type {Record<string, number | undefined>} */
    const places = { ArrowLeft: at + count - 1, ArrowRight: at + 1, Home: 0, End: count - 1 };
    const to = places[event.key];
    if (to === undefined) return;
    event.preventDefault();
    const tab = this.tabs[to % count];
    this.show(tab);
    tab.focus();
  }
}

/** @param {string} why the page can't work */
function refuse(why) {
  byId('refused').replaceChildren(html('strong', {}, [why]));
  byId('refused').hidden = false;
  byId('views').hidden = true;
}

/** What changes a view, and how long after the last of it the address is changed, in milliseconds. */
const TOUCHES = ['input', 'change', 'click', 'keyup', 'pointerup', 'wheel'];
const FOLLOWS = 400;

/**
 * @typedef {object} View
 * @property {() => Promise<Record<string, string | number> | null>} what what it shows, for an address; none if that is too long
 * @property {(what: Shown) => Promise<void>} open shows what an address says
 */

/** The views by their names, each made once it is shown. */
class Views {
  /** @param {Core} core @param {Uint8Array} module */
  constructor(core, module) {
    /** @type {Record<string, View | undefined>} */
    this.shown = {};
    const worker = textOf('worker');
    /** @type {Record<string, (() => View) | undefined>} */
    this.makers = {
      encode: () => new EncodeView(core),
      decode: () => new DecodeView(core),
      bus: () => new BusView(core, new Runs(worker, module)),
      network: () => new NetworkView(core, new Runs(worker, module), (worst) => this.showWorst(worst)),
    };
    /** @type {Record<string, string>} the address of each view as it begins */
    this.first = {};
    this.follows = 0;
    for (const name of Object.keys(this.makers)) {
      byId(`${name}-link`).addEventListener('click', () => this.link(name));
      const panel = byId(`panel-${name}`);
      for (const touch of TOUCHES) panel.addEventListener(touch, () => this.followSoon(name));
    }
  }

  /** @param {string} name @param {Shown} what */
  async show(name, what) {
    const make = this.makers[name];
    if (!make) return;
    let view = this.shown[name];
    if (!view) {
      view = make();
      this.shown[name] = view;
      this.first[name] = await this.address(name);
    }
    if (view instanceof EncodeView) view.wires.draw();
    if (Object.keys(what).length > 0) await view.open(what);
    else this.followSoon(name);
  }

  /**
   * Shows the worst case of a message in the view of buses; the way back leads to the network.
   * @param {import('./worst_case.js').WorstCase} worst
   */
  async showWorst(worst) {
    history.pushState(null, '', '#bus');
    byId('tab-bus').click();
    byId('tab-bus').focus();
    if (this.shown.bus instanceof BusView) await this.shown.bus.showWorst(worst);
    this.followSoon('bus');
  }

  /**
   * The part of the address that says what a view shows, or nothing if that is too long.
   * @param {string} name
   */
  async address(name) {
    const what = await this.shown[name]?.what();
    const hash = what ? written(name, what) : '';
    return hash.length > MOST_ADDRESS ? '' : hash;
  }

  /**
   * Lets the address follow what the view shows.
   * @param {string} name
   */
  followSoon(name) {
    clearTimeout(this.follows);
    this.follows = window.setTimeout(async () => {
      const hash = await this.address(name);
      if (byId(`panel-${name}`).hidden) return;
      history.replaceState(null, '', hash === '' || hash === this.first[name] ? `#${name}` : hash);
    }, FOLLOWS);
  }

  /**
   * Copies a link to what a view shows, if it is not too long.
   * @param {string} name
   */
  async link(name) {
    const hash = await this.address(name);
    if (hash === '') {
      byId(`${name}-linked`).textContent = 'This is too long for a link: save it as a file, and send that.';
      return;
    }
    history.replaceState(null, '', hash);
    byId(`${name}-linked`).textContent = (await copyText(location.href)) ? 'The link is copied.' : 'The link is in the address.';
  }
}

async function begin() {
  const module = await moduleBytes();
  const core = module && await Core.load(module);
  if (!core) {
    const can = 'Chromium and Chrome from 103 on, Firefox from 113 on, and Safari from 16.4 on, do.';
    refuse(`This browser can’t run the proved code: it doesn’t know WebAssembly, or can’t unpack it. ${can}`);
    return;
  }
  const views = new Views(core, module);
  new Tabs((name, what) => views.show(name, what));
  document.documentElement.dataset.ready = '';
}

begin().catch((error) => {
  refuse('The page could not begin.');
  throw error;
});
