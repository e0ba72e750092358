// Puts the page together: bundle.mjs SOURCES WASM SCENARIOS NETWORKS OUT. What index.html has more than once comes from
// parts.html: @NAME WORD | WORD..@ is the part of this name with these words as its parameters. The scripts become one, in the
// order in which they need one another, those of the worker another one, the module is packed, and the page's own policy allows
// these scripts and styles and no network.
import { createHash } from 'node:crypto';
import { readFileSync, readdirSync, writeFileSync } from 'node:fs';
import { join } from 'node:path';
import { Script } from 'node:vm';
import { deflateRawSync } from 'node:zlib';

const IMPORT = /^import (\{[^}]*\}) from '\.\/([a-z_]+)\.js';\n/gm;
const EXPORT = /^export (?=(?:async )?(?:class|const|function) (\w+))/gm;
const PART = /^<!-- ([a-z]+) ([A-Z ]+): .* -->\n/m;
const USE = /^( *)@([a-z]+)(?: ([^@\n]+))?@$/gm;

/**
 * The scripts that one needs, and then this one, each in a scope of its own.
 * @param {string} folder
 * @param {string} name
 * @param {Map<string, string>} found those that are there already, in order
 * @returns {Map<string, string>}
 */
function withNeeded(folder, name, found = new Map()) {
  if (found.has(name)) return found;
  const text = readFileSync(join(folder, `${name}.js`), 'utf8');
  for (const [, , needed] of text.matchAll(IMPORT)) withNeeded(folder, needed, found);
  const exported = [...text.matchAll(EXPORT)].map(([, item]) => item);
  const body = text.replace(IMPORT, (_, items, needed) => `const ${items} = ${needed}_js;\n`).replace(EXPORT, '').trim();
  if (/^(import|export)\b/m.test(body)) throw new Error(`${name}.js has an import or export that is not understood`);
  return found.set(name, `const ${name}_js = (() => {\n${body}\nreturn { ${exported.join(', ')} };\n})();`);
}

/**
 * A script with all that it needs.
 * @param {string} folder
 * @param {string} name
 */
function scriptOf(folder, name) {
  const script = `\n${[...withNeeded(folder, name).values()].join('\n\n')}\n`;
  new Script(script); // reports a syntax error
  if (script.includes('</script')) throw new Error(`${name}.js would end before its end`);
  return script;
}

/**
 * A page with its parts, each in lines of its own, as far in as the line that names it.
 * @param {string} page
 * @param {string} parts each after a comment with its name, its parameters and its purpose
 */
function withParts(page, parts) {
  const [, ...found] = parts.split(PART);
  const known = new Map();
  for (let at = 0; at < found.length; at += 3) known.set(found[at], { parameters: found[at + 1].split(' '), text: found[at + 2].trimEnd() });
  return page.replace(USE, (_, indentation, name, words = '') => {
    const part = known.get(name);
    const values = words.split('|').map((word) => word.trim());
    if (part?.parameters.length !== values.length) throw new Error(`@${name} ${words}@ is no part with its parameters`);
    const text = part.parameters.reduce((filled, parameter, at) => filled.replaceAll(parameter, () => values[at]), part.text);
    return text.replace(/^/gm, indentation);
  });
}

/**
 * Fills in the only place of a mark.
 * @param {string} page
 * @param {string} mark
 * @param {string} text
 */
function fill(page, mark, text) {
  if (page.split(mark).length !== 2) throw new Error(`${mark} must be in the page exactly once`);
  return page.replace(mark, () => text);
}

/** @param {string} text */
function policyHash(text) {
  return `'sha256-${createHash('sha256').update(text).digest('base64')}'`;
}

/**
 * The documents of a folder, by their names, as JSON that a page may contain.
 * @param {string} from
 */
function documentsIn(from) {
  const names = readdirSync(from).filter((name) => name.endsWith('.toml')).sort();
  return JSON.stringify(names.map((name) => [name.slice(0, -'.toml'.length), readFileSync(join(from, name), 'utf8')])).replaceAll('<', '\\u003c');
}

const [folder, wasm, scenarios, networks, out] = process.argv.slice(2);
const script = scriptOf(folder, 'main');
const style = `\n${readFileSync(join(folder, 'style.css'), 'utf8')}`;
let page = withParts(readFileSync(join(folder, 'index.html'), 'utf8'), readFileSync(join(folder, 'parts.html'), 'utf8'));
page = fill(page, '@POLICY@', `default-src 'none'; script-src 'wasm-unsafe-eval' ${policyHash(script)}; style-src ${policyHash(style)}; worker-src blob:; img-src blob: data:; base-uri 'none'; form-action 'none'`);
page = fill(page, '@STYLE@', style);
page = fill(page, '@MODULE@', deflateRawSync(readFileSync(wasm), { level: 9 }).toString('base64'));
page = fill(page, '@SCENARIOS@', documentsIn(scenarios));
page = fill(page, '@NETWORKS@', documentsIn(networks));
page = fill(page, '@WORKER@', scriptOf(folder, 'worker'));
page = fill(page, '@SCRIPT@', script);
writeFileSync(out, page);
