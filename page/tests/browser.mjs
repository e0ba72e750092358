// A headless Chromium, spoken to over two pipes.
import { spawn } from 'node:child_process';
import { mkdtempSync, rmSync } from 'node:fs';
import { tmpdir } from 'node:os';
import { join } from 'node:path';
import { setTimeout as later } from 'node:timers/promises';

/** How long an answer may take: others may use the machine. */
const WAIT = 60000;

export class Browser {
  /** @param {string} program */
  constructor(program) {
    this.profile = mkdtempSync(join(tmpdir(), 'page-check-'));
    this.process = spawn(program, [
      '--headless', '--no-sandbox', '--disable-gpu', '--disable-dev-shm-usage', '--no-first-run', '--hide-scrollbars',
      '--disable-background-networking', '--disable-component-update', `--user-data-dir=${this.profile}`, '--remote-debugging-pipe', 'about:blank',
    ], { stdio: ['ignore', 'ignore', 'ignore', 'pipe', 'pipe'] });
    this.next = 1;
    this.waiting = new Map();
    this.listeners = [];
    this.process.on('exit', (code, signal) => {
      for (const { method, reject } of this.waiting.values()) reject(new Error(`${method}: the browser has ended (${code ?? signal})`));
    });
    let text = '';
    const [, , , asked, answered] = this.process.stdio;
    this.asked = /** @type {import('node:stream').Writable} */ (asked);
    /** @type {import('node:stream').Readable} */ (answered).setEncoding('utf8').on('data', (data) => {
      text += data;
      for (let end = text.indexOf('\0'); end >= 0; end = text.indexOf('\0')) {
        this.hear(JSON.parse(text.slice(0, end)));
        text = text.slice(end + 1);
      }
    });
  }

  hear(message) {
    const waits = this.waiting.get(message.id);
    if (waits) {
      this.waiting.delete(message.id);
      if (message.error) waits.reject(new Error(`${waits.method}: ${message.error.message}`));
      else waits.resolve(message.result);
    } else for (const listener of this.listeners) listener(message);
  }

  /** Calls the browser, or a page of it by its session. */
  call(method, params = {}, sessionId = undefined) {
    const id = this.next;
    this.next += 1;
    return new Promise((resolve, reject) => {
      const timer = setTimeout(() => reject(new Error(`${method}: no answer`)), WAIT);
      const done = (then) => (value) => { clearTimeout(timer); then(value); };
      this.waiting.set(id, { method, resolve: done(resolve), reject: done(reject) });
      this.asked.write(`${JSON.stringify({ id, method, params, sessionId })}\0`);
    });
  }

  /**
   * Opens a page.
   * @param {string} address
   * @param {{width?: number, height?: number, dark?: boolean, still?: boolean, before?: string}} how
   */
  async open(address, { width = 1280, height = 1000, dark = false, still = false, before = '' } = {}) {
    const { targetId } = await this.call('Target.createTarget', { url: 'about:blank' });
    const { sessionId } = await this.call('Target.attachToTarget', { targetId, flatten: true });
    const page = new Page(this, targetId, sessionId);
    for (const domain of ['Page', 'Runtime', 'Log', 'DOM', 'Network']) await page.call(`${domain}.enable`);
    await page.call('Emulation.setDeviceMetricsOverride', { width, height, deviceScaleFactor: 1, mobile: false });
    await page.call('Emulation.setEmulatedMedia', { features: [
      { name: 'prefers-color-scheme', value: dark ? 'dark' : 'light' }, { name: 'prefers-reduced-motion', value: still ? 'reduce' : 'no-preference' },
    ] });
    if (before) await page.call('Page.addScriptToEvaluateOnNewDocument', { source: before });
    const loaded = page.event('Page.loadEventFired');
    await page.call('Page.navigate', { url: address });
    await loaded;
    await page.until("document.documentElement.dataset.ready !== undefined || !document.getElementById('refused').hidden");
    return page;
  }

  close() {
    this.process.kill();
    return new Promise((resolve) => {
      this.process.on('exit', () => resolve(remove(this.profile)));
    });
  }
}

/** Removes a folder. The browser's helpers may write there longer than it lives: what they keep for two seconds stays. */
async function remove(folder) {
  for (let tries = 0; tries < 20; tries += 1) {
    try {
      rmSync(folder, { recursive: true, force: true });
      return;
    } catch {
      await later(100);
    }
  }
}

/** Keys that are not one letter. */
const KEY_CODES = { Tab: 9, Enter: 13, End: 35, Home: 36, ArrowLeft: 37, ArrowUp: 38, ArrowRight: 39, ArrowDown: 40 };

export class Page {
  /** @param {Browser} browser @param {string} targetId @param {string} sessionId */
  constructor(browser, targetId, sessionId) {
    this.browser = browser;
    this.targetId = targetId;
    this.sessionId = sessionId;
    this.errors = [];
    this.requests = [];
    this.waits = [];
    browser.listeners.push((message) => {
      if (message.sessionId === sessionId) this.hear(message);
    });
  }

  hear({ method, params }) {
    if (method === 'Runtime.exceptionThrown') this.errors.push(params.exceptionDetails.exception?.description ?? params.exceptionDetails.text);
    if (method === 'Runtime.consoleAPICalled' && ['error', 'warning', 'assert'].includes(params.type)) this.errors.push(params.args.map((arg) => arg.value).join(' '));
    if (method === 'Log.entryAdded' && ['error', 'warning'].includes(params.entry.level)) this.errors.push(params.entry.text);
    if (method === 'Network.requestWillBeSent') this.requests.push(params.request.url);
    this.waits = this.waits.filter((wait) => wait.method !== method || wait.resolve(params));
  }

  call(method, params = {}) {
    return this.browser.call(method, params, this.sessionId);
  }

  event(method) {
    return new Promise((resolve) => { this.waits.push({ method, resolve }); });
  }

  /** What a piece of script gives in the page. */
  async get(expression) {
    const { result, exceptionDetails } = await this.call('Runtime.evaluate', { expression, awaitPromise: true, returnByValue: true });
    if (exceptionDetails) throw new Error(exceptionDetails.exception?.description ?? exceptionDetails.text);
    return result.value;
  }

  /** What a function gives in the page for arguments. */
  run(what, ...args) {
    return this.get(`(${what})(${args.map((arg) => JSON.stringify(arg)).join(', ')})`);
  }

  async until(expression) {
    const end = Date.now() + WAIT;
    while (!(await this.get(expression))) {
      if (Date.now() > end) throw new Error(`it never came: ${expression}`);
      await new Promise((resolve) => { setTimeout(resolve, 20); });
    }
  }

  /** Puts a value into a field as if it were typed. */
  fill(id, value) {
    return this.run((name, text) => {
      const field = document.getElementById(name);
      if (field.type === 'radio') field.checked = true;
      else field.value = text;
      for (const type of ['input', 'change']) field.dispatchEvent(new Event(type, { bubbles: true }));
    }, id, value);
  }

  click(id) {
    return this.run((name) => document.getElementById(name).click(), id);
  }

  async key(key, modifiers = 0) {
    const text = key.length === 1 ? key : undefined;
    const code = KEY_CODES[key] ?? key.toUpperCase().charCodeAt(0);
    await this.call('Input.dispatchKeyEvent', { type: text ? 'keyDown' : 'rawKeyDown', key, text, windowsVirtualKeyCode: code, modifiers });
    await this.call('Input.dispatchKeyEvent', { type: 'keyUp', key, windowsVirtualKeyCode: code, modifiers });
  }

  /** Puts files into a field for files. */
  async files(id, files) {
    const { root } = await this.call('DOM.getDocument');
    const { nodeId } = await this.call('DOM.querySelector', { nodeId: root.nodeId, selector: `#${id}` });
    await this.call('DOM.setFileInputFiles', { nodeId, files });
  }

  close() {
    return this.browser.call('Target.closeTarget', { targetId: this.targetId });
  }
}
