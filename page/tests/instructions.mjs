// Runs instructions.c as a module of WebAssembly, and writes its output: instructions.mjs MODULE OUTPUT
import { readFileSync, writeFileSync } from 'node:fs';

const [module, output] = process.argv.slice(2);
const parts = [];
const { instance } = await WebAssembly.instantiate(readFileSync(module), {
  host: { put: (at, count) => parts.push(Buffer.from(exported.memory.buffer.slice(at, at + count))) },
});
const exported = /** @type {{memory: WebAssembly.Memory, play: () => void}} */ (/** @type {unknown} */ (instance.exports));
exported.play();
writeFileSync(output, Buffer.concat(parts));
