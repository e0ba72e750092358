// What the tests of the view Network do with the page.

/** Waits until a network is answered, or refused. */
export const networkSettled = (page) => page.until("['shown', 'refused'].includes(document.getElementById('panel-network').dataset.state)");

/** Puts a text into a field, and waits for the answer. */
export async function fillNetwork(page, id, text) {
  await page.fill(id, text);
  await networkSettled(page);
}

/** Opens the view with a network in it. */
export async function networkShown(open, text, how) {
  const page = await open(how);
  await page.click('tab-network');
  await networkSettled(page);
  if (text !== undefined) await fillNetwork(page, 'network-text', text);
  return page;
}

/** Pastes a text, which may be too long for the field, and waits for the answer. */
export async function pasteNetwork(page, text) {
  await page.run((given) => {
    const data = new DataTransfer();
    data.setData('text/plain', given);
    document.getElementById('network-text').dispatchEvent(new ClipboardEvent('paste', { bubbles: true, cancelable: true, clipboardData: data }));
  }, text);
  await networkSettled(page);
}

/** What a button would save as a file. */
export const saved = (page, button) => page.run(async (id) => {
  /** @type {Blob} */
  let blob;
  URL.createObjectURL = (/** @type {Blob} */ given) => { blob = given; return 'data:,'; };
  HTMLAnchorElement.prototype.click = () => {};
  document.getElementById(id).click();
  return blob.text();
}, button);

/** The rows of bounds, each its cells. */
export const bounds = (page) => page.run(() => [...document.querySelectorAll('#network-bounds tr')].map((row) => [...row.children].slice(0, 6).map((cell) => cell.textContent)));

/** Asks for the worst case of a message by the button in its row, and waits until it is run, or the reason is shown why there is none. */
export async function askWorst(page, frame) {
  const row = `[...document.querySelectorAll('#network-bounds tr')].find((row) => row.children[0].firstChild.textContent === '${frame}')`;
  await page.get(`${row}.querySelector('.worst button').click()`);
  await page.until(`${row}.querySelector('.worst [role=status]').textContent !== '' || document.querySelector('#panel-bus:not([hidden])')?.dataset.state === 'shown'`);
  return page.get(`${row}.querySelector('.worst [role=status]').textContent`);
}

export const networkText = (page) => page.get("document.getElementById('network-text').value");

export const networkFault = (page) => page.run(() => ({
  text: document.getElementById('network-fault').textContent, shown: !document.getElementById('network-shown').hidden,
  invalid: [...document.querySelectorAll('#panel-network [aria-invalid=true]')].map((field) => field.id),
}));

/** A network with this number of messages; each has a period ten times as long as all of them take. */
export function many(count) {
  const message = (place) => `[[message]]\nframe = "E ${(count - place).toString(16).padStart(8, '0')} D"\nperiod = ${count * 1600}\njitter = ${place}\n`;
  return `version = 1\n\n${Array.from({ length: count }, (_, place) => message(place)).join('\n')}`;
}
