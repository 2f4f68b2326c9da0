// Files that are dropped or opened: listings in each form, traces, recordings and a printer's bytes.

import { isTape, petcatOf, refusalOf } from './listing.js';
import { $, button, encode, fromBase64, toBase64 } from './basics.js';
import { ask, Cancelled, capital, clearPaper, editor, FILE_LIMIT, hasWebAssembly, LONG_FILE, notice, print, showPicture, state, tellFailed, tellOnce, wave } from './page.js';
import { cover, showWire, verdictWords } from './telling.js';
import { file, keepEarlier, listingChanged, nameTab } from './kept.js';
import { takeCharacters } from './characters.js';
import { lacksSignals, signalFields } from './signals.js';
import { inPageWords, pageHints } from './words.js';
import { ready, showChoices, showTab } from './controls.js';

const KINDS = { script: 'a listing', petcat: 'petcat\'s text', prg: 'a saved program', text: 'a trace', vcd: 'a Value Change Dump', csv: 'a table of samples', raw: 'a printer\'s bytes' };

/** What a file seems to be: the module says it, the next one where the worker is ended meanwhile. A name that ends in .bas is a listing's, saved or as text. */
async function kindOf(bytes, name) {
  let kind = hasWebAssembly() ? '' : 'script';
  while (!kind) {
    try { kind = await ask('kind', { bytes, name }); } catch (error) { if (!(error instanceof Cancelled)) throw error; }
  }
  return kind !== 'prg' && /\.bas$/i.test(name) ? 'script' : kind;
}

export let taking = 0;     // files that are read and not yet shown (the tests wait for them)
let taken = 0;                       // how many files were dropped

/** What is read by now is no longer wanted: something else was chosen. */
export const leaveReads = () => { taken++; notice('others', ''); };

/** Takes the first of some files; of the others it says that they are left out. */
export async function takeFiles(files) {
  const [first, ...others] = files;
  if (!first) return;
  await takeFile(first);
  if (others.length) tellOnce('others', `One file is shown at a time: ${first.name}. Left out: ${others.map(({ name }) => name).join(', ')}.`);
}

const LARGE = 10e6;        // bytes: a file that seems to be a printer's bytes, and is longer, is asked about first

/** Shows a file as what it seems to be; a large one that may be anything only when it is asked for. */
function takeOrAsk(bytes, name, kind) {
  if (kind === 'disk') return tellOnce('file', `${name} is a disk image: take the program out of it first, with VICE's c1541 for example.`);
  if (kind !== 'raw' || bytes.length <= LARGE) return take(bytes, name, kind);
  const size = `${(bytes.length / 1e6).toFixed(0)} MB`, shows = button('Print it', () => { notice('file', ''); take(bytes, name, kind); });
  notice('file', `${name} has ${size} and is no text, recording or saved program. Is it what a printer gets?`, [shows, button('Leave it', () => notice('file', ''))]);
}

/** Shows a file as what it seems to be. */
export async function takeFile(file) {
  const turn = ++taken, { source } = state, before = editor.text;
  // No later file was dropped, nothing was typed, and the file on show was not put away.
  const isWanted = () => turn === taken && source === state.source && before === editor.text;
  notice('others', '');
  taking++;
  try {
    const bytes = new Uint8Array(await file.arrayBuffer()), why = refusalOf(bytes, file.name), kind = why ? '' : await kindOf(bytes, file.name);
    if (!isWanted()) return;
    tellOnce('file', why);
    if (!why) await takeOrAsk(bytes, file.name, kind);
  } catch (error) {
    if (turn === taken) tellOnce('file', `${file.name} cannot be read: ${error.message}`);
  } finally {
    taking--;
  }
}

/** Says why a file cannot be read as a saved program. It may be a printer's bytes that begin so. */
function tellNoProgram(bytes, name, why) {
  const what = isTape(bytes) ? 'is a tape image whose first program cannot be read' : 'cannot be read as a saved program', leave = () => notice('file', '');
  const shows = button('Read it as a printer\'s bytes', () => { leave(); take(bytes, name, 'raw'); });
  notice('file', `${name} ${what}: ${why}.`, [...(isTape(bytes) ? [] : [shows]), button('Close', leave)]);
}

/** Says why a saved program is not run that is no script: at which place, and what its line is there. */
function tellNotRun(name, { words, more: [row = '', ...others] }) {
  const line = row && ` (${row.trim().replace(/ +/g, ' ')})`, why = pageHints(others.slice(-1)).map(hint => ` ${capital(hint.trim())}.`).join('');
  tellOnce('file', `${name} is a saved program that is not run here: ${words || 'out of memory'}${line}.${why}`);
}

/** What a saved program is shown as. */
function shownAs({ isSame, isRun, script, words, notes }) {
  if (isSame) return 'It is shown as petcat writes it, with names for codes and shifted characters.';
  if (!isRun) return 'It is shown as a script, since petcat\'s text of it would run as another program.';
  const error = words && `An error ended it: ${words.replace(/ +/g, ' ')}.`, said = pageHints(notes).map(note => `${capital(note)}.`);
  return [`The program was run, and ${script ? 'this is what it prints, as a script' : 'it prints nothing'}.`, error, ...said].filter(Boolean).join(' ');
}

/**
 * Shows a saved program as petcat writes it; as the script that the module makes of it, where that would be another program; and of
 * one that is no script what it prints.
 */
async function takeProgram(bytes, name) {
  if (!ready) return tellOnce('file', `${name} cannot be read before the page is ready.`);
  const listing = petcatOf(bytes), turn = taken, before = editor.text;
  let answer;
  try { answer = await ask('isSame', { program: bytes, listing: encode(listing ?? ''), form: 'petcat' }); } catch (error) { return tellFailed(error); }
  if (turn !== taken || before !== editor.text) return;   // another file was dropped, or more was typed
  if (answer.code && answer.isRun) return tellNotRun(name, answer);
  if (answer.code) return tellNoProgram(bytes, name, answer.words ? inPageWords(answer.words) : 'out of memory');
  leaveSource();
  keepEarlier();
  state.form = answer.isSame ? 'petcat' : 'text';
  showChoices();
  editor.replace(answer.isSame ? listing : answer.script);
  tellOnce('file', `${name} is a saved program. ${shownAs(answer)}`);
  return listingChanged();
}

/** Shows a file as what it is said to be. */
export function take(bytes, name, kind) {
  if (kind === 'characters') return takeCharacters(bytes, name);
  if (kind === 'prg') return takeProgram(bytes, name);
  if (kind === 'script' || kind === 'petcat') {
    leaveSource();
    keepEarlier();
    state.form = kind === 'petcat' ? 'petcat' : 'text';
    showChoices();
    let text, words = '';
    try {
      text = new TextDecoder('utf-8', { fatal: true }).decode(bytes);
    } catch {
      text = new TextDecoder('latin1').decode(bytes);
      words = 'The file has bytes above 127 that are not UTF-8; each is shown as the Latin-1 character of that number. ';
    }
    if (/\r(?!\n)/.test(text)) words += 'The file has carriage returns without line feeds; they are shown as line ends.';
    editor.replace(text);
    tellOnce('lines', words);
    return listingChanged();
  }
  // (another file begins with the project's own bounds)
  const bounds = state.source?.bytes === bytes ? state.source.bounds : undefined;
  showFile({ bytes, name, kind, set: 0, bounds, names: ['ATN', 'CLOCK', 'DATA'], inverted: false, start: 0, rate: 0 });
}

/** Shows a file instead of the listing, which is kept. */
export function showFile(source) {
  state.source = source;
  wave.moved = false;
  if (source.bytes.length > LONG_FILE) showWire(null);     // (until it is read nothing is said of it, nor of what was here before)
  notice('lines', '');
  notice('passing', '');
  tellSource();
  print();
}

/** A recording, and how it is read. */
export const recordingOf = ({ bytes, kind, bounds, names, inverted, start, rate }) => ({ bytes, bounds, input: kind, ...(kind === 'text' ? {} : { names, inverted, start, rate: kind === 'csv' ? rate : 0 }) });

/** A choice among some values, by a label. */
function choiceOf(words, values, value, act) {
  const label = document.createElement('label'), select = document.createElement('select');
  for (const [key, text] of Object.entries(values)) select.add(new Option(text, key, false, key === String(value)));
  select.onchange = () => act(select.value);
  label.append(words, select);
  return label;
}

/** Shows which file is on paper and on the wire, how it is read, and what came of it; the listing is one click away. */
function tellSource() {
  const { source } = state, box = $('recording'), kind = !source ? 'script' : source.kind === 'raw' ? 'raw' : 'recording';
  document.body.dataset.shows = kind;
  keepSource();
  $('listing-name').textContent = { script: 'Listing', raw: 'Printer\'s bytes', recording: 'Recording' }[kind];
  $('pages-facts').textContent = source ? source.name : '';
  nameTab();
  box.replaceChildren();
  if (!source) return editor.draw();
  if (kind === 'recording' && state.tabs.pages === 'list') showTab('pages', 'sheets');
  const name = document.createElement('h3'), text = document.createElement('p'), why = document.createElement('div');
  name.textContent = source.name;
  text.setAttribute('role', 'status');
  why.className = 'why';
  box.append(name, text, why, ...fieldsOf(source), button('Back to the listing', () => { notice('others', ''); leaveSource(); print(); }));
}

/** What can be chosen of a file. */
function fieldsOf(source) {
  const again = () => { keepSource(); print(); };
  /** @type {HTMLElement[]} */
  const fields = [choiceOf('Read as ', KINDS, source.kind, as => take(source.bytes, source.name, as))];
  if (source.kind === 'raw') {
    const sets = { 0: 'graphic/upper case', 1: 'lower/upper case' };
    return [...fields, choiceOf('Character set ', sets, source.set, set => { source.set = Number(set); again(); })];
  }
  const bounds = { profile: 'this project\'s profile', guide: 'the Programmer\'s Reference Guide' };
  fields.push(choiceOf('Bounds of ', bounds, source.bounds || 'profile', chosen => { source.bounds = chosen; again(); }));
  return source.kind === 'text' ? fields : [...fields, signalFields(source, again)];
}

/** Says what came of a file, what is to be noted of it, and why; its fields stay as they are. */
function tellOfSource(words, notes, why) {
  const box = $('recording'), place = box.querySelector('.why'), isOpen = place.querySelector('details')?.open;
  box.querySelector('[role=status]').textContent = [words, ...notes.map(note => `${capital(note)}.`)].filter(Boolean).join(' ');
  place.replaceChildren();
  if (!why) return;
  const more = Object.assign(document.createElement('details'), { open: Boolean(isOpen) });
  const [about, lines] = ['summary', 'pre'].map(kind => document.createElement(kind));
  about.textContent = 'Why';
  lines.textContent = why;
  more.append(about, lines);
  place.append(more);
}

/** Keeps the file that is shown for a reload of this tab. */
function keepSource() {
  const { source } = state;
  if (!source) { file.remove(); return notice('kept-file', ''); }
  const isKept = source.bytes.length <= FILE_LIMIT && file.set({ ...source, bytes: toBase64(source.bytes) });
  notice('kept-file', isKept ? '' : `${source.name} is too large to be here after a reload.`);
}

/** The file that was shown in this tab before it was loaded again, or null. */
export function keptSource() {
  const kept = file.get();
  return kept && { ...kept, bytes: fromBase64(kept.bytes) };
}

export function leaveSource() {
  notice('byte', '');
  notice('lines', '');
  if (!state.source) return;
  state.source = null;
  wave.moved = false;
  tellSource();
}

/** Shows what a file gives. */
export function showSource(answer) {
  const { source } = state;
  document.body.classList.remove('stale');
  const isUnchosen = answer.code === 2 && /no signal/.test(answer.words) && lacksSignals(source);
  const why = isUnchosen ? 'Choose which of its signals are ATN, CLOCK and DATA.' : answer.code === 2 ? `It cannot be read to its end: ${inPageWords(answer.words)}.` : answer.code > 2 ? 'Memory ran out.' : '';
  const { notes = [], odd = [], told = [] } = answer;
  tellOfSource(why || verdictWords(answer), pageHints([...notes, ...odd]), pageHints(told).join('\n'));
  if (answer.svg) showPicture(answer.svg); else clearPaper();
  if (source.kind === 'raw') { showWire(null); cover('A printer\'s bytes have no trace.'); return; }
  cover(isUnchosen ? 'The wave is here once the three signals are chosen.' : '');
  showWire(isUnchosen ? null : answer);
}
