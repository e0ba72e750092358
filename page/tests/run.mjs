// Tests the page: run.mjs CHROMIUM PAGE EXAMPLES WORK. WORK has the outputs of canbit, and native.c as a program. PAGE_TEST is
// a regular expression for the names of the tests to run (default: all).
import { pathToFileURL } from 'node:url';
import { Browser } from './browser.mjs';
import { accessTests } from './access.mjs';
import { boundPartsTests } from './bound_parts.mjs';
import { leftTests } from './left.mjs';
import { busTests } from './bus.mjs';
import { busFaultTests } from './bus_faults.mjs';
import { busSpeedTests } from './bus_speed.mjs';
import { busViewTests } from './bus_view.mjs';
import { callTests } from './calls.mjs';
import { decodeTests } from './decode.mjs';
import { encodeTests } from './encode.mjs';
import { linkTests } from './link.mjs';
import { moduleTests } from './module.mjs';
import { networkFaultTests } from './network_faults.mjs';
import { networkTests } from './network.mjs';
import { pageTests } from './page.mjs';
import { taskTests } from './tasks.mjs';
import { worstCaseTests } from './worst_case.mjs';

/**
 * @typedef {object} Place what a test is given
 * @property {(how?: object) => Promise<import('./browser.mjs').Page>} open opens the page
 * @property {Browser} browser
 * @property {string} address that of the page
 * @property {string} file that of the page
 * @property {string} examples a folder
 * @property {string} work a folder
 */

/** @typedef {[string, (place: Place) => Promise<void>]} Test */

const TESTS = /** @type {Test[]} */ ([
  ...moduleTests, ...pageTests, ...taskTests, ...callTests, ...encodeTests, ...decodeTests, ...busTests, ...busViewTests,
  ...busFaultTests, ...busSpeedTests, ...networkTests, ...networkFaultTests, ...boundPartsTests, ...leftTests,
  ...worstCaseTests, ...linkTests, ...accessTests,
]);

const [program, file, examples, work] = process.argv.slice(2);
const browser = new Browser(program);
const place = { browser, address: pathToFileURL(file).href, file, examples, work };
// a run that is stopped leaves no browser behind
for (const signal of ['SIGINT', 'SIGTERM']) process.on(signal, () => browser.close().then(() => process.exit(1)));
const only = new RegExp(process.env.PAGE_TEST ?? '');
let passed = 0;
let failed = 0;

for (const [name, test] of TESTS.filter(([title]) => only.test(title))) {
  const pages = [];
  const open = async (how) => {
    const page = await browser.open(place.address, how);
    pages.push(page);
    return page;
  };
  try {
    await test({ ...place, open });
    for (const page of pages) if (page.errors.length > 0) throw new Error(`the console says: ${page.errors.join('; ')}`);
    passed += 1;
    console.log(`passed: ${name}`);
  } catch (error) {
    failed += 1;
    console.log(`failed: ${name}\n    ${error.stack?.split('\n').slice(0, 4).join('\n    ')}`);
  }
  for (const page of pages) await page.close().catch(() => {});
}

await browser.close();
console.log(`${passed} passed, ${failed} failed`);
process.exitCode = failed === 0 ? 0 : 1;
