/** The view of the worst-case response times of a network. */
import { packed, unpacked } from './address.js';
import { makingsOf } from './bound_parts.js';
import { makingsView } from './bound_view.js';
import { ANSWER } from './core.js';
import { DocumentView } from './document_view.js';
import { byId, copyText, download, html, messageOf } from './draw.js';
import { leftItems } from './left_view.js';
import { answerOf } from './network_answer.js';
import { BoundsView } from './network_bounds.js';
import { networkFault } from './network_fault.js';
import { NetworkForm } from './network_form.js';
import { formOf, textOf } from './network_text.js';
import { borneWords, worstCaseRefusal } from './network_words.js';
import { counted } from './words.js';
import { nameOf, worstCaseOf } from './worst_case.js';

/** @typedef {import('./network_text.js').NetworkForm} FormContents */
/** @typedef {import('./worst_case.js').WorstCase} WorstCase */
/** @typedef {import('./network_answer.js').Verdict} Verdict */

/** @extends {DocumentView<FormContents>} */
export class NetworkView extends DocumentView {
  /**
   * @param {import('./core.js').Core} core
   * @param {import('./runs.js').Runs} runs
   * @param {(worst: WorstCase) => void} onWorst gets the worst case of a message that is to be shown
   */
  constructor(core, runs, onWorst) {
    /** @type {NetworkForm} */
    const form = new NetworkForm(() => this.take(textOf(form.form), { fills: false }));
    super({ view: 'network', what: 'network', program: 'canplan', most: 12000 }, runs, form);
    this.core = core;
    this.onWorst = onWorst;
    /** @type {import('./network_answer.js').Answer | null} */
    this.answered = null;
    this.bounds = new BoundsView(
      (verdict, refuse) => this.askWorst(verdict, refuse), (verdict, show) => this.askMakings(verdict, show),
    );
    this.listen();
    this.showExample('seventeen');
  }

  listen() {
    byId('network-edit').addEventListener('click', () => {
      byId('network-document').scrollIntoView();
      byId('network-rate').focus({ preventScroll: true });
    });
    byId('network-copy').addEventListener('click', () => this.copy());
    byId('network-download').addEventListener('click', () => download('answer.txt', 'text/plain', this.answered?.text ?? ''));
  }

  /** @param {string} text */
  formOf(text) { return formOf(text); }

  /** @param {import('./core.js').WrongField} wrong */
  faultIn(wrong) { return networkFault(this.core, this.document.text, wrong); }

  forget() { this.answered = null; }

  /** @param {Uint8Array} bytes the network */
  async answer(bytes) {
    const began = performance.now();
    const reported = await this.runs.plan(bytes);
    const took = performance.now() - began;
    if (!reported || !(await this.isFilled())) return;
    if (reported.answer === ANSWER.badPlan) this.refuseField(reported.wrong);
    else if (reported.answer !== ANSWER.done) this.refuseForMemory();
    else {
      this.show(answerOf(reported.lines), reported.late, took);
      if (reported.late === 0) await this.showLeft(bytes);
    }
  }

  /**
   * @param {import('./network_answer.js').Answer} answer
   * @param {number} late how many messages are
   * @param {number} took in milliseconds
   */
  show(answer, late, took) {
    this.clearFault();
    this.answered = answer;
    const { verdicts, load, borne, text } = answer;
    const some = `${late.toLocaleString('en')} of ${counted(verdicts.length, 'message')} late: deadlines may be missed`;
    const deadlines = late === 0 ? 'all deadlines are met' : some;
    byId('network-reported').textContent = `Load ${load}, ${deadlines}. Answered in ${Math.ceil(took)} ms.`;
    byId('network-borne').textContent = borneWords(borne);
    byId('network-left').replaceChildren();
    byId('network-answer').textContent = text;
    byId('network-shown').hidden = false;
    this.bounds.show(verdicts);
    this.enter('shown');
  }

  /**
   * Shows the margins of a network that is shown.
   * @param {Uint8Array} bytes the network
   */
  async showLeft(bytes) {
    try {
      const reported = await this.runs.left(bytes);
      if (reported?.answer !== ANSWER.done) return;
      const burst = Number(formOf(this.document.text)?.burst ?? 0);
      byId('network-left').replaceChildren(...leftItems(reported.margins, burst));
    } catch (error) {
      const why = `This browser could not compute the margins (${messageOf(error)}). The program canplan can.`;
      byId('network-left').replaceChildren(html('li', {}, [why]));
    }
  }

  /**
   * Shows the worst case of a message, once the current network is answered.
   * @param {Verdict} verdict
   * @param {(why: string) => void} refuse gets the reason if there is none
   */
  async askWorst(verdict, refuse) {
    refuse('');
    await this.ran;
    const { answered, document: { bytes } } = this;
    if (!answered || !bytes) return;
    try {
      const reported = await this.runs.worstCase(bytes, new TextEncoder().encode(nameOf(verdict.frame)));
      if (reported?.answer === ANSWER.done) {
        this.onWorst(worstCaseOf(new TextDecoder().decode(reported.scenario), verdict, answered.borne !== ''));
      } else if (reported) refuse(worstCaseRefusal(reported.answer));
    } catch (error) {
      refuse(`This browser could not write the worst case (${messageOf(error)}). The program canplan can.`);
    }
  }

  /**
   * Shows the parts of the bound of a message, once the current network is answered.
   * @param {Verdict} verdict
   * @param {(view: Node) => void} show
   */
  async askMakings(verdict, show) {
    await this.ran;
    const { answered, document: { bytes } } = this;
    const { bound } = verdict;
    if (!answered || !bytes || bound === null) return;
    try {
      const reported = await this.runs.makings(bytes, verdict.frame);
      if (reported?.answer === ANSWER.done) show(makingsView({ ...verdict, bound }, makingsOf(reported.lines)));
      else if (reported) show(new Text('This needs more memory than this page has. The program canplan has no such limit.'));
    } catch (error) {
      show(new Text(`This browser could not compute the parts (${messageOf(error)}). The program canplan can.`));
    }
  }

  async copy() {
    const copied = await copyText(this.answered?.text ?? '');
    byId('network-copied').textContent = copied ? 'Copied.' : 'This browser does not allow the page to copy.';
  }

  /** What the view shows, for an address; nothing if that is too long. */
  async what() {
    return this.document.isLong ? null : { network: await packed(this.document.text) };
  }

  /**
   * Shows what an address says.
   * @param {import('./address.js').Shown} what
   */
  async open(what) {
    const text = what.network === undefined ? null : await unpacked(what.network);
    if (text !== null) this.take(text);
  }
}
