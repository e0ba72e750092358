/** Has workers answer documents, each with the proved code in a memory of its own. */
import { ANSWER, MOST_TIMES } from './core.js';

/** @typedef {import('./core.js').WrongField} WrongField */
/** @typedef {import('./left.js').Margin} Margin */
/** @typedef {import('./bus_times.js').PortIndex} PortIndex */
/** @typedef {import('./report.js').ReportIndex} ReportIndex */

/** @typedef {{times: Uint8Array, index: PortIndex}} PortReport what a port does, TIME_BYTES for each bit time */

/**
 * @typedef {object} Given what a worker is given, by the name of what it is asked
 * @property {{text: Uint8Array}} report
 * @property {{text: Uint8Array}} plan
 * @property {{text: Uint8Array, frame: string}} makings
 * @property {{text: Uint8Array}} left
 * @property {{text: Uint8Array, name: Uint8Array}} worstCase
 * @property {{text: Uint8Array, levels: Uint8Array}} ports
 * @property {{text: Uint8Array, node: number, levels: Uint8Array}} port
 */

/**
 * @typedef {object} Answered what it answers; what has no place in an answer other than ANSWER.done is null then
 * @property {{answer: number, wrong: WrongField, report: Uint8Array, index: ReportIndex | null}} report
 * @property {{answer: number, wrong: WrongField, late: number, lines: Uint8Array}} plan
 * @property {{answer: number, lines: string[]}} makings
 * @property {{answer: number, margins: Margin[]}} left
 * @property {{answer: number, wrong: WrongField, scenario: Uint8Array}} worstCase
 * @property {{answer: number, ports: PortReport[]}} ports
 * @property {{answer: number, port: PortReport | null}} port
 */

/** @typedef {{answer?: undefined, failed: string}} Failed why a worker could not answer */

/** @typedef {{[K in keyof Given]: {ask: K, given: Given[K]}}[keyof Given]} Asked */
/** @typedef {{module: Uint8Array} | Asked} Message to a worker: the module at first, and then what is asked */

/** No more workers than these, each of which takes as much memory as the page. */
const MOST_WORKERS = 4;

/** A worker with one thing to do at a time. */
class Runner {
  /** @param {string} address of its script @param {Uint8Array} module */
  constructor(address, module) {
    this.worker = new Worker(address);
    this.worker.postMessage({ module });
    this.busy = false;
    this.giveUp = () => {};
  }

  /**
   * @template {keyof Given} K
   * @param {K} ask
   * @param {Given[K]} given
   * @returns {Promise<Answered[K] | Failed | null>} none if the worker was ended
   */
  ask(ask, given) {
    this.busy = true;
    return new Promise((resolve, reject) => {
      this.giveUp = () => resolve(null);
      this.worker.onmessage = ({ data }) => {
        this.busy = false;
        resolve(data);
      };
      this.worker.onerror = (event) => reject(new Error(event.message));
      this.worker.postMessage({ ask, given });
    });
  }

  end() {
    this.worker.terminate();
    this.giveUp();
  }
}

export class Runs {
  /** @param {string} script of the workers @param {Uint8Array} module */
  constructor(script, module) {
    this.address = URL.createObjectURL(new Blob([script], { type: 'text/javascript' }));
    this.module = module;
    this.number = 0;
    /** @type {Runner[]} */
    this.runners = [];
    this.ready(1);
  }

  /**
   * Makes this many workers, which wait for something to do.
   * @param {number} count
   */
  ready(count) {
    while (this.runners.length < count) this.runners.push(new Runner(this.address, this.module));
  }

  /** Ends what is still being done for an older text. */
  drop() {
    for (const runner of this.runners.filter(({ busy }) => busy)) runner.end();
    this.runners = this.runners.filter(({ busy }) => !busy);
    this.ready(1);
  }

  /**
   * The report of a scenario, or what is wrong in it; none if another text came in the meantime.
   * @param {Uint8Array} text
   */
  report(text) { return this.newest('report', { text }); }

  /**
   * The output for a network, or what is wrong in it; none if another text came in the meantime.
   * @param {Uint8Array} text
   */
  plan(text) { return this.newest('plan', { text }); }

  /**
   * The parts of the bound of a message in a network, as lines of the output; none if another text came in the meantime.
   * @param {Uint8Array} text
   * @param {string} frame of the message, with its DLC
   */
  makings(text, frame) { return this.newest('makings', { text, frame }); }

  /**
   * The margins of a network; none if another text came in the meantime.
   * @param {Uint8Array} text
   */
  left(text) { return this.newest('left', { text }); }

  /**
   * The worst case of a message in a network, as a scenario; none if another text came in the meantime.
   * @param {Uint8Array} text
   * @param {Uint8Array} name of the message
   */
  worstCase(text, name) { return this.newest('worstCase', { text, name }); }

  /**
   * The answer to what is asked, if nothing else was asked in the meantime.
   * @template {keyof Given} K
   * @param {K} ask
   * @param {Given[K]} given
   */
  async newest(ask, given) {
    this.number += 1;
    const { number } = this;
    this.drop();
    const reported = await this.runners[0].ask(ask, given);
    if (reported && 'failed' in reported) this.end(this.runners[0], reported.failed);
    return number === this.number ? reported : null;
  }

  /**
   * What each port of the scenario does, one after another: from one run of the bus, if it has space for them.
   * @param {Uint8Array} text
   * @param {Uint8Array} levels those that are recorded
   * @param {number} count of ports
   * @param {() => number | undefined} next the port that is asked for next
   * @param {(node: number, port: PortReport) => void} onPort
   * @returns {Promise<boolean>} whether no other text came in the meantime
   */
  async ports(text, levels, count, next, onPort) {
    const { number } = this;
    if (count * levels.length <= MOST_TIMES) {
      const [runner] = this.runners;
      const reported = await runner.ask('ports', { text, levels });
      if (!reported || number !== this.number) return false;
      if (reported.answer === ANSWER.done) return this.hand(reported.ports, next, onPort);
      // there may be memory for one at a time
      this.runners = this.runners.filter((other) => other !== runner);
      runner.end();
    }
    return this.portByPort(text, levels, count, next, onPort);
  }

  /**
   * Hands on ports, each in a task of its own, so that the page stays responsive.
   * @param {PortReport[]} ports
   * @param {() => number | undefined} next
   * @param {(node: number, port: PortReport) => void} onPort
   */
  async hand(ports, next, onPort) {
    const { number } = this;
    for (let node = next(); node !== undefined; node = next()) {
      onPort(node, ports[node]);
      await new Promise((resolve) => { setTimeout(resolve); });
      if (number !== this.number) return false;
    }
    return true;
  }

  /**
   * What each port does, from a run for each port, in all workers.
   * @param {Uint8Array} text
   * @param {Uint8Array} levels those that are recorded
   * @param {number} count of ports
   * @param {() => number | undefined} next
   * @param {(node: number, port: PortReport) => void} onPort
   */
  async portByPort(text, levels, count, next, onPort) {
    const { number } = this;
    this.ready(Math.min(count, MOST_WORKERS, navigator.hardwareConcurrency || 1));
    /** @type {number[]} */
    const left = [];
    /** @param {Runner} runner @param {() => number | undefined} nextNode */
    const work = async (runner, nextNode) => {
      for (let node = nextNode(); node !== undefined && number === this.number; node = nextNode()) {
        const reported = await runner.ask('port', { text, node, levels });
        if (!reported || number !== this.number) return;
        if (reported.answer === undefined || !reported.port) {
          // a browser may have memory for fewer workers
          left.push(node);
          this.end(runner, reported.answer === undefined ? reported.failed : 'a port was not computed');
          return;
        }
        onPort(node, reported.port);
      }
    };
    await Promise.all(this.runners.map((runner) => work(runner, next)));
    while (left.length > 0 && number === this.number) await work(this.runners[0], () => left.pop());
    return number === this.number;
  }

  /**
   * Ends a worker that could not answer.
   * @param {Runner} runner
   * @param {string} failed
   */
  end(runner, failed) {
    runner.end();
    this.runners = this.runners.filter((other) => other !== runner);
    if (this.runners.length === 0) throw new Error(failed);
  }
}
