// What the tests of the view Bus do with the page.

/** Waits until the run is complete, or refused. */
export const settled = (page) => page.until("['shown', 'refused'].includes(document.getElementById('panel-bus').dataset.state)");

/** Puts a text into a field, and waits for the answer. */
export async function fill(page, id, text) {
  await page.fill(id, text);
  await settled(page);
}

/** Opens the view with a scenario in it. */
export async function shown(open, text, how) {
  const page = await open(how);
  await page.click('tab-bus');
  await settled(page);
  if (text !== undefined) await fill(page, 'bus-text', text);
  return page;
}

/** The whole report, as it is downloaded. */
export const report = (page) => page.run(async () => {
  /** @type {Blob} */
  let blob;
  URL.createObjectURL = (/** @type {Blob} */ given) => { blob = given; return 'data:,'; };
  HTMLAnchorElement.prototype.click = () => {};
  document.getElementById('bus-download').click();
  return blob.text();
});

export const fault = (page) => page.run(() => ({
  text: document.getElementById('bus-fault').textContent, shown: !document.getElementById('bus-shown').hidden,
  invalid: [...document.querySelectorAll('#panel-bus [aria-invalid=true]')].map((field) => field.id),
}));

/** The table of the ports in the bit time that is picked. */
export const rows = (page) => page.run(() => [...document.querySelectorAll('#bus-rows tr')].map((row) => [...row.children].map((cell) => cell.textContent)));

/** The bit time that is picked. */
export const time = (page) => page.run(() => Number(/^Bit time ([\d,]+)/.exec(document.getElementById('bus-time').textContent)[1].replaceAll(',', '')));

/** Waits until what was asked is drawn. */
export const drawn = (page) => page.run(() => new Promise((resolve) => { requestAnimationFrame(() => requestAnimationFrame(resolve)); }));

/** A scenario of version 2 in which each port sends several frames, at a fixed distance. */
export function busy(ports, bits, frames, each) {
  const port = (node) => Array.from({ length: frames }, (_, k) => `[${k * each + node * 17}, "S ${((node * 128 + k) % 2032).toString(16).padStart(3, '0')} D 2 aa5${node % 10}"]`).join(', ');
  return `version = 2\nbits = ${bits}\n${Array.from({ length: ports }, (_, node) => `[[port]]\nqueue = [${port(node)}]\nlog = 1000\n`).join('')}`;
}
