// Short names for what every part of the page does.

/** @type {(id: string) => any} */
export const $ = id => document.getElementById(id);

/** @type {(selector: string, root?: ParentNode) => any[]} */
export const all = (selector, root = document) => [...root.querySelectorAll(selector)];

export const decode = bytes => new TextDecoder().decode(bytes);
export const encode = text => new TextEncoder().encode(text);
export const fromBase64 = text => Uint8Array.from(atob(text), sign => sign.charCodeAt(0));

export function toBase64(bytes) {
  let text = '';
  for (let at = 0; at < bytes.length; at += 8192) text += String.fromCharCode(...bytes.subarray(at, at + 8192));
  return btoa(text);
}

export function button(words, act) {
  const made = document.createElement('button');
  made.type = 'button';
  made.textContent = words;
  made.onclick = act;
  return made;
}

/** Opens a dialog; a reader of screens begins with its heading. */
export function openBox(box) {
  box.showModal();
  box.querySelector('h2').focus();
}

/** Does something whenever an element has another size: in the next frame, since that may change the size again, which browsers report as an error. */
export function whenResized(element, act) {
  new ResizeObserver(() => requestAnimationFrame(() => act())).observe(element);
}

/** Does something whenever the screen has more or fewer dots in a pixel, as another screen has. */
export function whenSharper(act) {
  matchMedia(`(resolution: ${devicePixelRatio}dppx)`).addEventListener('change', () => { act(); whenSharper(act); }, { once: true });
}
