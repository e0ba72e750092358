/** A view as a link: what it shows, in the part of the page's address after the #. */

/** A longer address is not made: mail and chat cut it. */
export const MOST_ADDRESS = 6000;

/**
 * @param {string} text
 * @returns {Promise<string>} the text, packed, in letters that an address may have
 */
export async function packed(text) {
  const bytes = await through(new TextEncoder().encode(text), new CompressionStream('deflate-raw'));
  let letters = '';
  for (let at = 0; at < bytes.length; at += 4096) letters += String.fromCharCode(...bytes.subarray(at, at + 4096));
  return btoa(letters).replaceAll('+', '-').replaceAll('/', '_').replaceAll('=', '');
}

/**
 * @param {string} letters
 * @returns {Promise<string | null>} the text, or nothing where these are not letters that `packed` makes
 */
export async function unpacked(letters) {
  try {
    const bytes = await unpackedBytes(letters.replaceAll('-', '+').replaceAll('_', '/'));
    return new TextDecoder('utf-8', { fatal: true }).decode(bytes);
  } catch {
    return null;
  }
}

/**
 * @param {string} letters base64
 * @returns {Promise<Uint8Array>} the bytes that are packed in them
 */
export async function unpackedBytes(letters) {
  return through(Uint8Array.from(atob(letters), (letter) => letter.charCodeAt(0)), new DecompressionStream('deflate-raw'));
}

/** @param {Uint8Array} bytes @param {ByteStream} stream */
async function through(bytes, stream) {
  return new Uint8Array(await new Response(new Blob([bytes]).stream().pipeThrough(stream)).arrayBuffer());
}

/**
 * The name of the view that an address names, and what it shows.
 * @param {string} hash
 */
export function parsed(hash) {
  const [name, ...rest] = hash.slice(1).split('&');
  return { name, what: Object.fromEntries(new URLSearchParams(rest.join('&'))) };
}

/** @typedef {Record<string, string | undefined>} Shown what an address says that a view shows, by names */

/** @param {string} name @param {Record<string, string | number>} what */
export function written(name, what) {
  const rest = new URLSearchParams(Object.entries(what).map(([key, value]) => [key, String(value)])).toString();
  return `#${name}${rest ? `&${rest}` : ''}`;
}

/**
 * A whole number in an address, if one stands there.
 * @param {string | undefined} text
 */
export function numberIn(text) {
  return text !== undefined && /^\d{1,9}$/.test(text) ? Number(text) : undefined;
}
