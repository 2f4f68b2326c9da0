// What is kept: the listing in this browser and in the address, and the listings before it; and the menu that brings them back.

import { $, decode, encode, fromBase64, toBase64 } from './basics.js';
import { EARLIER_LIMIT, editor, LINK_LIMIT, LISTING_LIMIT, LONG, notice, print, state, tellOnce, wave } from './page.js';
import { leaveReads, leaveSource, take } from './files.js';
import { showChoices } from './controls.js';
import { delaysOf, hasNames, PRESENT, STATUS } from './asked.js';

export let saving = 0, saves = 0;

/** The listing of somebody who is here for the first time; it is no wider than a phone. */
export const FIRST = `10 REM TYPE: THE PAPER FOLLOWS
20 OPEN 4,4
30 PRINT#4,CHR$(14);"PRINT1525"
40 PRINT#4,CHR$(15);
50 PRINT#4,"WHAT A C64 PRINTS"
60 PRINT#4,CHR$(18);" DOT BY DOT "
70 CLOSE 4
`;

/** The listing changed: it is kept, and printed. */
export function listingChanged() {
  clearTimeout(saving);
  saving = setTimeout(save, editor.text.length > LONG ? 2000 : 300);
  notice('passing', '');
  print();
}

/** What alone is shown in a frame of another page (?embed=paper, ?embed=wave), or nothing. Such a frame keeps nothing. */
export const embedded = ['paper', 'wave'].find(part => part === new URLSearchParams(location.search).get('embed')) ?? '';

export const store = {
  get(name) { if (embedded) return null; try { return JSON.parse(localStorage.getItem(`print1525.${name}`)); } catch { return null; } },
  set(name, value) {
    if (embedded) return true;
    try { localStorage.setItem(`print1525.${name}`, JSON.stringify(value)); return true; } catch { return false; }
  },
};

/** Whether this browser lets the page keep anything: a private window or a frame without an origin may not. */
const keeps = store.set('try', 1);

/** The listing of this tab alone, with the address beside which it was kept: a reload takes it before that address and other tabs' listings. */
export const own = {
  get() { if (embedded) return null; try { return JSON.parse(sessionStorage.getItem('print1525.listing')); } catch { return null; } },
  set(listing) {
    if (embedded) return;
    try { sessionStorage.setItem('print1525.listing', JSON.stringify({ ...listing, hash: location.hash })); } catch { this.remove(); }
  },
  remove() { try { sessionStorage.removeItem('print1525.listing'); } catch { /* nothing is kept here */ } },
};

/** The file that this tab shows, in base64. */
export const file = {
  get() { if (embedded) return null; try { return JSON.parse(sessionStorage.getItem('print1525.file')); } catch { return null; } },
  set(source) { if (embedded) return true; try { sessionStorage.setItem('print1525.file', JSON.stringify(source)); return true; } catch { this.remove(); return false; } },
  remove() { if (embedded) return; try { sessionStorage.removeItem('print1525.file'); } catch { /* nothing is kept here */ } },
};

/** Keeps the listing and the choices in this browser, and puts them into the address. */
export function save() {
  clearTimeout(saving);
  saving = 0;
  const { form, printers, status, delays, lists } = state, listing = { text: editor.text, form, printers, status, delays, lists };
  const kept = store.set('listing', listing);
  own.set(listing);
  notice('kept', kept || !keeps ? '' : 'This listing is too long for the browser to keep. Save it as a file.');
  $('not-kept').hidden = keeps;
  nameTab();
  const turn = ++saves;
  return address().then(hash => {
    const plain = hash.length <= LINK_LIMIT ? hash : '';
    if (turn !== saves) return plain;               // a later listing is kept by now
    try {
      history.replaceState(null, '', `${location.pathname}${location.search}${plain ? `#${plain}` : ''}`);
    } catch { /* (a frame without an address of its own) */ }
    if (isNewAddress()) own.set(listing);
    return plain;
  });
}

/** The first words of a listing: those of its first remark, or its first line. */
function firstWords(text) {
  const lines = text.slice(0, 4000).split('\n').map(line => line.trim()).filter(Boolean), remark = lines.find(line => /^\d*\s*rem\b/i.test(line));
  return (remark ?? lines[0] ?? '').replace(/^\d*\s*(rem\b)?\s*/i, '').slice(0, 50);
}

/** Gives the browser's tab the name of the file, or the first words of the listing. */
export function nameTab() {
  const words = state.source?.name ?? firstWords(editor.text);
  document.title = words ? `${words} – print1525` : 'print1525: what a Commodore 64 prints';
}

let lastHash = location.hash;

/** Whether the address is another one than the page itself has put there. */
export function isNewAddress() {
  const isNew = location.hash !== lastHash;
  lastHash = location.hash;
  return isNew;
}

/** What a stream makes of bytes; it throws where that is longer than a listing may be. */
export async function through(stream, bytes) {
  const parts = [], reader = new Blob([bytes]).stream().pipeThrough(stream).getReader();
  let length = 0;
  for (let part = await reader.read(); !part.done; part = await reader.read()) {
    parts.push(part.value);
    length += part.value.length;
    if (length > LISTING_LIMIT) {
      await reader.cancel();
      throw new Error('too long');
    }
  }
  return new Uint8Array(await new Blob(parts).arrayBuffer());
}

/** The state as the part of an address after `#`: the choices by their letters, and the listing, deflated, in base64url; empty for a long one. */
async function address() {
  if (editor.text.length > 10 * LINK_LIMIT) return '';
  const { form, printers, status, delays, lists } = state, parts = [`p=${PRESENT[printers]}`];
  if (form !== 'text') parts.push(`f=${form}`);
  if (status) parts.push(`s=${STATUS[status]}`);
  if (delays === 'lists') parts.push(`d=${delaysOf(lists)}`);
  const bytes = await through(new CompressionStream('deflate-raw'), encode(editor.text));
  parts.push(`t=${toBase64(bytes).replace(/\+/g, '-').replace(/\//g, '_').replace(/=+$/, '')}`);
  return parts.join('&');
}

/** Reads an address; null where it has no listing. If the listing cannot be read, a notice says so. */
export async function readAddress(hash) {
  const parts = new Map(hash.replace(/^#/, '').split('&').map(part => [part[0], part.slice(2)]));
  if (!parts.has('t')) return null;
  try {
    const text = decode(await through(new DecompressionStream('deflate-raw'), fromBase64(parts.get('t').replace(/-/g, '+').replace(/_/g, '/'))));
    const printers = PRESENT.indexOf(parts.get('p')), delays = decodeURIComponent(parts.get('d') || '');
    const isWord = /^[a-z]*$/.test(delays);      // (earlier pages had others)
    return {
      text, form: hasNames(parts.get('f')) ? parts.get('f') : 'text', printers: printers < 0 ? 3 : printers, status: Math.max(STATUS.indexOf(parts.get('s')), 0),
      delays: isWord ? 'typical' : 'lists', lists: isWord ? ['', '', ''] : [...delays.split('/'), '', ''].slice(0, 3),
    };
  } catch {
    tellOnce('link', 'The listing in this address cannot be read. A part of the link may be missing.');
    return null;
  }
}

/** Keeps the listing that another one is about to replace, unless it is an unchanged example. */
export function keepEarlier(text = editor.text, form = state.form) {
  if (!text.trim() || text === FIRST || examples.some(example => example.text === text)) return;
  const earlier = (store.get('earlier') || []).filter(kept => kept.text !== text);
  earlier.unshift({ text, form, when: Date.now() });
  while (earlier.length > EARLIER_LIMIT || (earlier.length > 1 && !store.set('earlier', earlier))) earlier.pop();
  store.set('earlier', earlier);
  fillMenu();
}

// the menu

export const examples = JSON.parse($('examples').textContent);

export function fillMenu() {
  const menu = $('menu'), groups = new Map();
  menu.replaceChildren(new Option('an example …', '', true, true));
  const add = (group, words, value) => {
    if (!groups.has(group)) {
      groups.set(group, Object.assign(document.createElement('optgroup'), { label: group }));
      menu.append(groups.get(group));
    }
    groups.get(group).append(new Option(words, value));
  };
  examples.forEach(({ group, name, title }, index) => add(group, title ? `${name}: ${title}` : name, `example ${index}`));
  add('New', 'an empty listing', 'empty');
  for (const [index, { text, when }] of (store.get('earlier') || []).entries()) {
    const first = text.split('\n').find(line => line.trim()) || '', then = new Date(when).toLocaleString([], { dateStyle: 'medium', timeStyle: 'short' });
    add('Your earlier listings', `${first.trim().slice(0, 40)} (${then})`, `earlier ${index}`);
  }
}

export function openFromMenu(value) {
  const [what, index] = value.split(' ');
  if (!what) return;
  const example = what === 'example' ? examples[index] : null;
  leaveReads();
  notice('file', '');
  if (example?.bytes) return take(fromBase64(example.bytes), example.name, example.kind);
  const { text, form = 'text' } = example || (what === 'earlier' ? store.get('earlier')[index] : { text: '' });
  leaveSource();
  keepEarlier();
  state.form = form;
  showChoices();
  editor.replace(text);
  wave.moved = false;
  listingChanged();
}

