/** Elements, and what is done with a picture: copying and downloading. */

const SVG = 'http://www.w3.org/2000/svg';

/** The computed styles that a picture in a file of its own needs. */
const STYLES = [
  'fill', 'fill-opacity', 'stroke', 'stroke-width', 'stroke-dasharray', 'stroke-linejoin', 'font-family', 'font-size',
  'font-weight',
];

/** @typedef {Record<string, string | number | boolean>} Attributes of an element, by their names */

/** @typedef {Array<Node | string>} Inside what is inside an element, in order */

/**
 * @template {Element} T
 * @param {T} made
 * @param {Attributes} attributes
 * @param {Inside} inside
 * @returns {T}
 */
function filled(made, attributes, inside) {
  for (const [name, value] of Object.entries(attributes)) made.setAttribute(name, String(value));
  made.append(...inside);
  return made;
}

/**
 * @template {keyof SVGElementTagNameMap} N
 * @param {N} name
 * @param {Attributes} [attributes]
 * @param {Inside} [inside]
 * @returns {SVGElementTagNameMap[N]}
 */
export function svg(name, attributes = {}, inside = []) {
  return filled(document.createElementNS(SVG, name), attributes, inside);
}

/**
 * @template {keyof HTMLElementTagNameMap} N
 * @param {N} name
 * @param {Attributes} [attributes]
 * @param {Inside} [inside]
 * @returns {HTMLElementTagNameMap[N]}
 */
export function html(name, attributes = {}, inside = []) {
  return filled(document.createElement(name), attributes, inside);
}

/**
 * The element of the page with this name, which has this class.
 * @template {HTMLElement} T
 * @param {string} id
 * @param {new () => T} kind
 * @returns {T}
 */
function ofKind(id, kind) {
  const found = document.getElementById(id);
  if (!(found instanceof kind)) throw new Error(`the page has no ${id}`);
  return found;
}

/**
 * The element of the page with this name, and those that are inputs, texts, choices and buttons.
 * @param {string} id
 */
export const byId = (id) => ofKind(id, HTMLElement);
/** @param {string} id */
export const inputById = (id) => ofKind(id, HTMLInputElement);
/** @param {string} id */
export const textById = (id) => ofKind(id, HTMLTextAreaElement);
/** @param {string} id */
export const selectById = (id) => ofKind(id, HTMLSelectElement);
/** @param {string} id */
export const buttonById = (id) => ofKind(id, HTMLButtonElement);

/**
 * The element that matches a selector, and at or in which an event happened; none if there is none.
 * @param {Event} event
 * @param {string} selector
 * @returns {HTMLElement | SVGElement | null}
 */
export function closestTo({ target }, selector) {
  const found = target instanceof Element ? target.closest(selector) : null;
  return found instanceof HTMLElement || found instanceof SVGElement ? found : null;
}

/**
 * What went wrong, in the words of what was thrown.
 * @param {unknown} thrown
 */
export function messageOf(thrown) {
  return thrown instanceof Error ? thrown.message : String(thrown);
}

/**
 * Waits until what has changed is seen, and no longer than a tenth of a second: a page in the background is not.
 * @returns {Promise<void>}
 */
export function painted() {
  return new Promise((resolve) => {
    requestAnimationFrame(() => { setTimeout(resolve); });
    setTimeout(resolve, 100);
  });
}

/**
 * A picture as a file of its own, in the colours in which it is shown.
 * @param {SVGSVGElement} picture
 * @returns {string}
 */
export function asFile(picture) {
  const copy = /** @type {SVGSVGElement} */ (picture.cloneNode(true));
  const shown = picture.querySelectorAll('*');
  copy.querySelectorAll('*').forEach((element, index) => {
    const style = getComputedStyle(shown[index]);
    for (const name of STYLES) {
      const value = style.getPropertyValue(name);
      if (value !== '' && value !== 'none 0s') element.setAttribute(name, value);
    }
    for (const name of ['tabindex', 'aria-selected', 'role', 'class']) element.removeAttribute(name);
  });
  copy.setAttribute('xmlns', SVG);
  copy.setAttribute('role', 'img');
  copy.removeAttribute('class');
  const ground = svg('rect', { width: '100%', height: '100%', fill: getComputedStyle(document.body).backgroundColor });
  copy.prepend(ground);
  return new XMLSerializer().serializeToString(copy);
}

/**
 * Hands a text to the browser as a file to be kept.
 * @param {string} name
 * @param {string} type
 * @param {BlobPart} text
 */
export function download(name, type, text) {
  const address = URL.createObjectURL(new Blob([text], { type }));
  const link = html('a', { href: address, download: name });
  document.body.append(link);
  link.click();
  link.remove();
  setTimeout(() => URL.revokeObjectURL(address), 1000);
}

/**
 * Copies a text, if the browser allows it.
 * @param {string} text
 * @returns {Promise<boolean>}
 */
export async function copyText(text) {
  try {
    await navigator.clipboard.writeText(text);
    return true;
  } catch {
    return copySelected(text);
  }
}

/**
 * Copies a text by selecting it, as a page from disk may need.
 * @param {string} text
 * @returns {boolean}
 */
function copySelected(text) {
  const area = html('textarea', { 'aria-hidden': 'true', class: 'aside' });
  area.value = text;
  const { activeElement } = document;
  document.body.append(area);
  area.select();
  const copied = document.execCommand('copy');
  area.remove();
  if (activeElement instanceof HTMLElement || activeElement instanceof SVGElement) activeElement.focus();
  return copied;
}
