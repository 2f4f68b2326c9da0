// The choices, the tabs, the bars and the buttons; and how the page begins.

import './inside.js';
import './printed.js';
import { CODES } from './reading.js';
import { $, all, button, decode, encode, fromBase64, openBox, whenResized } from './basics.js';
import { ask, editor, fillReader, hasWebAssembly, notice, openModule, paper, print, readers, state, tellBriefly, tellFailed, wave } from './page.js';
import { cover } from './telling.js';
import { useBounds } from './wire.js';
import { delaysOf } from './asked.js';
import { keptSource, leaveSource, showFile, takeFile, takeFiles } from './files.js';
import { keptCharacters } from './characters.js';
import { showCards } from './cards.js';
import { embedded, fillMenu, FIRST, isNewAddress, keepEarlier, listingChanged, openFromMenu, own, readAddress, save, saving, store, through } from './kept.js';

/** The delays that are chosen, as the option has them; without lists every delay is typical. */
export const chosenDelays = () => delaysOf(state.delays === 'lists' ? state.lists : ['', '', '']);

/** Whether the program takes the lists of delays; where it does not, the page says beside them which one is refused, and why. */
export async function judgeLists() {
  const delays = chosenDelays(), bad = state.delays === 'lists' ? await ask('delays', { lists: [...state.lists] }) : null;
  if (delays !== chosenDelays()) return true;       // (others are judged by then)
  const names = ['the computer', 'printer 4', 'printer 5'];
  $('lists-fault').textContent = bad ? `The list of ${names[bad.index]} must be ${bad.rule}, separated by commas.` : '';
  return !bad;
}

export function showChoices() {
  const form = $('options');
  form.elements.form.value = state.form;
  form.elements.printers.value = state.printers;
  form.elements.status.value = state.status;
  form.elements.delays.value = state.delays;
  ['computer', 'four', 'five'].forEach((name, index) => {
    if (form.elements[name].value !== state.lists[index]) form.elements[name].value = state.lists[index];
  });
  $('lists').hidden = state.delays !== 'lists';
  const printers = ['no printer', 'printer 4', 'printer 5', 'printers 4 and 5'][state.printers];
  $('bus-facts').textContent = [printers, state.status ? 'status kept' : '', state.delays === 'lists' ? 'delays by lists' : ''].filter(Boolean).join(', ');
}

$('options').addEventListener('submit', event => event.preventDefault());
$('options').addEventListener('input', () => {
  const form = $('options').elements;
  Object.assign(state, {
    form: form.form.value, printers: Number(form.printers.value), status: Number(form.status.value), delays: form.delays.value,
    lists: [form.computer.value, form.four.value, form.five.value],
  });
  showChoices();
  editor.draw();
  judgeLists().catch(tellFailed);
  leaveSource();
  listingChanged();
});

/** Reads the listing in another form. */
export function chooseForm(form) {
  state.form = form;
  showChoices();
  editor.draw();
  listingChanged();
}

// tabs, bars, downloads

export function showTab(section, tab) {
  state.tabs[section] = tab;
  for (const made of $(section).querySelectorAll('[role=tab]')) {
    const chosen = made.dataset.tab === tab;
    made.setAttribute('aria-selected', String(chosen));
    made.tabIndex = chosen ? 0 : -1;
    $(made.dataset.tab).hidden = !chosen;
  }
  $(section).dataset.tab = tab;
  fillReader(tab);
  if (readers[tab]) readers[tab].draw();
  if (tab === 'frames' && wave.chosen >= 0) readers.frames.mark(wave.frames.get(wave.chosen).line);
  store.set('view', { ...(store.get('view') || {}), tabs: state.tabs });
}

for (const section of ['pages', 'wire']) {
  $(section).querySelector('[role=tablist]').addEventListener('keydown', event => {
    const tabs = [...$(section).querySelectorAll('[role=tab]')], at = tabs.indexOf(document.activeElement);
    const to = { ArrowRight: at + 1, ArrowLeft: at - 1, Home: 0, End: tabs.length - 1 }[event.key];
    if (at < 0 || to === undefined) return;
    event.preventDefault();
    const tab = tabs[(to + tabs.length) % tabs.length];
    tab.focus();
    showTab(section, tab.dataset.tab);
  });
  for (const tab of $(section).querySelectorAll('[role=tab]')) tab.onclick = () => showTab(section, tab.dataset.tab);
}

/** A bar between two parts that is dragged or moved with the arrow keys; the size is a share of the window. */
function bar(id, variable, least, most, shareAt) {
  const element = $(id), across = element.getAttribute('aria-orientation') === 'vertical';
  const set = share => {
    const size = Math.min(Math.max(share, least), most);
    document.documentElement.style.setProperty(variable, `${(size * 100).toFixed(1)}%`);
    element.setAttribute('aria-valuenow', String(Math.round(size * 100)));
    store.set('view', { ...(store.get('view') || {}), [variable]: size });
    return size;
  };
  let share = store.get('view')?.[variable];
  share = share ? set(share) : null;
  // A separator's value is there before it is moved.
  whenResized($(across ? 'listing' : 'wire'), () => {
    const box = $('bench').getBoundingClientRect(), now = across ? $('listing').offsetWidth / box.width : $('wire').offsetHeight / box.height;
    element.setAttribute('aria-valuenow', String(Math.round(now * 100)));
  });
  element.setAttribute('aria-valuemin', String(least * 100));
  element.setAttribute('aria-valuemax', String(most * 100));
  element.addEventListener('pointerdown', event => {
    element.setPointerCapture(event.pointerId);
    event.preventDefault();
    element.focus();
    element.onpointermove = move => { share = set(shareAt(move)); };
  });
  element.addEventListener('pointerup', () => { element.onpointermove = null; });
  element.addEventListener('pointercancel', () => { element.onpointermove = null; });
  element.addEventListener('keydown', event => {
    const by = { [across ? 'ArrowLeft' : 'ArrowDown']: -.02, [across ? 'ArrowRight' : 'ArrowUp']: .02 }[event.key];
    if (!by) return;
    event.preventDefault();
    const box = $('bench').getBoundingClientRect();
    share = set((share ?? (across ? $('listing').offsetWidth / box.width : $('wire').offsetHeight / box.height)) + by);
  });
}

bar('bar-listing', '--listing', .18, .7, event => (event.clientX - $('bench').getBoundingClientRect().left) / $('bench').clientWidth);
bar('bar-wire', '--wire', .15, .7, event => ($('bench').getBoundingClientRect().bottom - event.clientY) / $('bench').clientHeight);

function download(bytes, name, type) {
  const anchor = document.createElement('a');
  anchor.href = URL.createObjectURL(new Blob([bytes], { type }));
  anchor.download = name;
  anchor.click();
  setTimeout(() => URL.revokeObjectURL(anchor.href), 10000);
}

export const FILES = {
  svg: ['svg', 'image/svg+xml'],
  png: ['png', 'image/png'],
  pdf: ['pdf', 'application/pdf'],
  text: ['txt', 'text/plain'],
  list: ['page', 'text/plain'],
  trace: ['trace', 'text/plain'],
  vcd: ['vcd', 'text/plain'],
  readings: ['frames', 'text/plain'],
  intervals: ['intervals', 'text/plain'],
  bytes: ['prn', 'application/octet-stream'],
  json: ['json', 'application/json'],
  story: ['story', 'text/plain'],
};

/** The words for a part of the pages: the `printer` or the `sheet` that is seen; none for all of them. */
function partOf(part) {
  const seen = part ? paper.seen() : null;
  if (!seen) return [];
  const printer = ['--device', String(seen.printer)];
  return part === 'sheet' ? [...printer, '--sheet', String(seen.number)] : printer;
}

/** What a file's name says of a part: its printer, and its sheet. */
const partName = words => words.filter(word => /^\d+$/.test(word)).map(word => `-${word}`).join('');

/** The name of what is shown, for files. */
const shownName = () => (state.source?.name || 'listing').replace(/\.[^.]*$/, '');

for (const made of all('[data-save]')) {
  made.onclick = async () => {
    const what = made.dataset.save, [ending, type] = FILES[what], part = partOf(made.dataset.part);
    try {
      const bytes = await ask('text', { what, delays: state.taken || chosenDelays(), part });
      if (bytes) download(bytes, `${shownName()}${partName(part)}.${ending}`, type);
    } catch (error) {
      tellFailed(error);
    }
  };
}

$('save-wave').onclick = () => download(wave.svg(), `${shownName()}-wave.svg`, 'image/svg+xml');

/** Puts the sheet that is seen on the clipboard as a picture. */
$('copy-picture').onclick = async () => {
  const picture = ask('text', { what: 'png', part: partOf('sheet') }).then(bytes => new Blob([bytes], { type: 'image/png' }));
  try {
    // (a browser wants the promise itself, so that the click still counts)
    await navigator.clipboard.write([new ClipboardItem({ 'image/png': picture })]);
    tellBriefly('The picture of the sheet is on the clipboard.');
  } catch {
    picture.catch(() => {});
    tellBriefly('The browser does not let this page copy a picture. Save it as PNG.');
  }
};

/** What a pane's Copy gives: the text of the tab that is seen, where it is a text, or else of its lines. */
const COPIES = {
  listing: async () => editor.text,
  pages: async () => decode(await ask('text', { what: state.tabs.pages === 'list' ? 'list' : 'text' }) ?? new Uint8Array(0)),
  wire: async () => decode(await ask('text', { what: { edges: 'trace', intervals: 'intervals' }[state.tabs.wire] ?? 'readings' }) ?? new Uint8Array(0)),
};

for (const made of all('[data-copy]')) {
  made.onclick = async () => {
    try {
      await copyText(await COPIES[made.dataset.copy](), made);
    } catch (error) {
      tellFailed(error);
    }
  };
}

/** Copies a text, and says so on its button for a moment. */
async function copyText(text, made) {
  try {
    await navigator.clipboard.writeText(text);
  } catch {
    tellBriefly('The browser does not let this page copy. Use Save.');
    return;
  }
  sayCopied(made);
}

function sayCopied(made) {
  made.dataset.words ??= made.textContent;
  made.dataset.label ??= made.getAttribute('aria-label') ?? '';
  made.textContent = 'Copied';
  made.removeAttribute('aria-label');
  setTimeout(() => {
    made.textContent = made.dataset.words;
    if (made.dataset.label) made.setAttribute('aria-label', made.dataset.label);
  }, 1600);
}

// A menu closes when something of it is chosen, by Escape, and by a click elsewhere.
for (const menu of all('.menu')) {
  menu.addEventListener('click', event => { if (event.target.closest('button')) menu.open = false; });
  menu.addEventListener('keydown', event => {
    if (event.key !== 'Escape' || !menu.open) return;
    menu.open = false;
    menu.querySelector('summary').focus();
  });
}
addEventListener('pointerdown', event => {
  for (const menu of all('.menu[open]')) if (!menu.contains(event.target)) menu.open = false;
});

$('save').onclick = () => download(encode(editor.text), state.form === 'petcat' ? 'listing.petcat' : 'listing.bas', 'text/plain');

// the other buttons, keys and dropped files

$('smaller').onclick = () => paper.zoom(1 / 1.25);
$('larger').onclick = () => paper.zoom(1.25);
$('fit').onclick = () => paper.fit();

/** Shows paper with green bars or without them, and keeps that. */
function showBars(hasBars) {
  $('bars').setAttribute('aria-pressed', String(hasBars));
  paper.showBars(hasBars);
  store.set('view', { ...(store.get('view') || {}), bars: hasBars });
}
$('bars').onclick = () => showBars(!paper.hasBars);
$('sheets').addEventListener('keydown', event => {
  if (event.ctrlKey || event.metaKey || event.altKey) return;
  const keys = {
    '+': () => paper.zoom(1.25),
    '=': () => paper.zoom(1.25),
    '-': () => paper.zoom(1 / 1.25),
    0: () => paper.fit(),
  };
  const act = keys[event.key];
  if (act) { event.preventDefault(); act(); }
});
for (const id of ['sheets', 'frames']) $(id).addEventListener('keydown', event => { if (/^([np]|Escape)$/i.test(event.key)) wave.key(event); });
$('wave-smaller').onclick = () => wave.zoom(1 / 1.6);
$('wave-larger').onclick = () => wave.zoom(1.6);
$('wave-fit').onclick = () => wave.all();
$('wave-mark').onclick = () => wave.toggleMark();
$('cards').onclick = () => showCards();
$('examples-box').addEventListener('click', event => { if (event.target === $('examples-box')) $('examples-box').close(); });
$('show-line').onclick = () => editor.chooseOwn();
// (the address has the listing, so the link does not go there)
document.querySelector('.skip').addEventListener('click', event => {
  event.preventDefault();
  editor.area.focus();
});
$('codes-box').querySelector('tbody').append(...CODES.map(([bytes, words]) => {
  const row = document.createElement('tr'), name = document.createElement('th');
  name.scope = 'row';
  name.textContent = bytes;
  row.append(name);
  row.insertCell().textContent = words;
  return row;
}));
for (const name of ['about', 'codes']) {
  const box = $(`${name}-box`);
  $(name).onclick = () => openBox(box);
  box.addEventListener('click', event => { if (event.target === box) box.close(); });
}
$('menu').onchange = () => { const { value } = $('menu'); $('menu').selectedIndex = 0; openFromMenu(value); };
$('open').onclick = () => $('file').click();
$('file').onchange = () => {
  const file = $('file').files[0];
  $('file').value = '';
  if (file) takeFile(file);
};
$('link').onclick = async () => {
  if (state.source) return tellBriefly(`A link carries a listing and its choices, but no file. Send ${state.source.name} itself.`);
  const plain = await save(), link = `${location.href.replace(/#.*/, '')}#${plain}`;
  if (!plain) return tellBriefly('This listing is too long for a link. Save it as a file.');
  try {
    await navigator.clipboard.writeText(link);
    sayCopied($('link'));
  } catch {
    showLink(link);
  }
};

/** Shows a link to be copied by hand, where the browser does not let the page copy. */
function showLink(link) {
  const field = Object.assign(document.createElement('input'), { type: 'text', readOnly: true, value: link });
  field.setAttribute('aria-label', 'Link to this listing');
  notice('link', 'The browser does not let this page copy. This is the link:', [field, button('Close', () => notice('link', ''))]);
  field.select();
}

let dragged = 0;
addEventListener('dragenter', event => { if (event.dataTransfer?.types.includes('Files')) { dragged++; $('drop').hidden = false; } });
addEventListener('dragleave', event => {
  if (!event.dataTransfer?.types.includes('Files')) return;
  dragged = Math.max(dragged - 1, 0);
  $('drop').hidden = dragged === 0;
});
addEventListener('dragover', event => { if (event.dataTransfer?.types.includes('Files')) event.preventDefault(); });
addEventListener('drop', event => {
  dragged = 0;
  $('drop').hidden = true;
  const files = [...(event.dataTransfer?.files ?? [])];
  if (!files.length) return;
  event.preventDefault();
  takeFiles(files);
});
addEventListener('pagehide', () => { if (saving) save(); });
document.addEventListener('visibilitychange', () => { if (document.hidden && saving) save(); });
addEventListener('hashchange', async () => {
  if (!isNewAddress()) return;
  const linked = await readAddress(location.hash);
  if (linked) { keepEarlier(); put(linked); listingChanged(); }
});

document.body.dataset.shows = 'script';
if (embedded) document.body.dataset.embed = embedded;

/** Puts a listing and its choices in. */
function put({ text, form = 'text', printers, status, delays, lists }) {
  // (other delays were kept by earlier pages)
  Object.assign(state, { form, printers, status, delays: delays === 'lists' ? delays : 'typical', lists });
  leaveSource();
  showChoices();
  editor.replace(text);
}

export let ready = false;

/** Whether this tab shows the page again, and was not sent to it by a link. */
const isLoadedAgain = () => performance.getEntriesByType('navigation').some(entry => /** @type {PerformanceNavigationTiming} */ (entry).type !== 'navigate');

/** Begins with the listing of the address, or with the one that was kept, or with an example; then makes the module ready. */
async function begin() {
  const mine = own.get(), isMine = mine?.hash === location.hash;
  const linked = isMine ? mine : await readAddress(location.hash), kept = store.get('listing'), source = isMine || isLoadedAgain() ? keptSource() : null;
  const first = { printers: 3, status: 0, delays: 'typical', lists: ['', '', ''] };
  const view = store.get('view');
  showTab('pages', view?.tabs?.pages || 'sheets');
  showTab('wire', view?.tabs?.wire || 'wave');
  showBars(Boolean(view?.bars));
  if (linked && kept && kept.text !== linked.text) keepEarlier(kept.text, kept.form || 'text');
  put({ ...first, ...(linked || kept || { text: FIRST }) });
  fillMenu();
  keptCharacters();
  if (source) showFile(source);
  if (!hasWebAssembly()) {
    notice('memory', 'This browser has no WebAssembly or cannot inflate it, and the proved code needs both. Chrome and Edge have them from ' +
      'version 103, Firefox from 114, Safari from 16.4. What you type here is kept all the same.');
    $('told').textContent = 'Nothing can be printed in this browser.';
    cover('Nothing can be printed in this browser.');
    return;
  }
  try {
    useBounds(await openModule(await through(new DecompressionStream('deflate-raw'), fromBase64($('module').textContent.trim()))));
  } catch (error) {
    notice('memory', `The module cannot run in this browser: ${error.message}`);
    return;
  }
  ready = true;
  document.body.classList.add('ready');
  print();
}

begin();
