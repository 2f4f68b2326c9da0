// The page: what is typed goes to the worker, and what comes back goes on paper and on the wire.

import { $, button, decode, encode } from './basics.js';
import { Reader } from './reader.js';
import { partsOf, wordsAt } from './reading.js';
import { formsIn, inPageWords, withCharacter } from './words.js';
import { Editor } from './editor.js';
import { Paper } from './paper.js';
import { spaced, Wave } from './wave.js';
import { frameChosen, lineChosen, linePointed, markClicked, markPointed } from './links.js';
import { cover, coverProgress, endLongJob, patiently, showWire, tellUnder, traceSoon } from './telling.js';
import { leaveSource, recordingOf, showSource } from './files.js';
import { embedded, listingChanged } from './kept.js';
import { chooseForm, ready } from './controls.js';

export const AUTOMATIC = 64 * 1024;       // a longer listing's trace is made only when it is asked for
export const LINK_LIMIT = 30000;          // characters of an address
export const LINES_LIMIT = 16 * 1024;     // bytes of a script whose lines are found for frames and marks
export const EARLIER_LIMIT = 20;
export const LONG = 200000;               // characters: a longer listing is printed and kept when no key is pressed for a moment
const TYPED_PAUSE = 250;                  // milliseconds of that moment
const TYPED_AFTER = 800;                  // milliseconds after a key until a refusal of its line is shown
export const LONG_FILE = 10 ** 6;         // bytes: reading a longer recording shows how far it is
export const FILE_LIMIT = 2 ** 21;        // bytes of a file that is here after a reload
export const LISTING_LIMIT = 16777216;    // bytes of a script, as the program has it (tests/evidence/once holds it equal)

/** The choices beside the listing, and what the paper and the wire show: the listing, or a file (`source`). */
export const state = { form: 'text', printers: 3, status: 0, delays: 'typical', lists: ['', '', ''], source: null, characters: null, tabs: { pages: 'sheets', wire: 'wave' } };

// the worker

/** What a job's answer is where the worker was ended before it came. */
export class Cancelled extends Error {}

const answers = new Map();
let jobs = 0, worker = startWorker(), module = null;      // `module`: the bytes of the WebAssembly module, for the next worker
export let onPaper = 0;            // the number of the print whose sheets are shown
export let scriptLength = 0;       // how many bytes the script has that was printed last: the listing, or what came of it

/** Gives the worker a message; what is handed over is the worker's from then on. */
const tell = (message, handedOver = []) => worker.postMessage(message, handedOver);

/**
 * Gives the worker a job, and returns its answer. `run` says which run the answer has to be of, by the number of its
 * print; the answer is null if the worker has another run by then. `onProgress` gets how far a long job is.
 */
export function ask(job, what, run = onPaper, onProgress = null) {
  return new Promise((resolve, reject) => {
    answers.set(++jobs, { resolve, reject, onProgress });
    tell({ number: jobs, job, ask: what, run }, what?.script ? [what.script.buffer] : []);
  });
}

/** Makes the module ready in the worker. */
export function openModule(bytes = module) {
  module = bytes;
  return ask('open', { bytes, characters: state.characters?.bytes ?? null });
}

/** Ends the worker with all that it was asked, and starts another one; what is shown has to be printed again. */
export function restartWorker() {
  worker.terminate();
  for (const { reject } of answers.values()) reject(new Cancelled('ended'));
  answers.clear();
  worker = startWorker();
  openModule().catch(tellFailed);
}

function startWorker() {
  const made = new Worker(URL.createObjectURL(new Blob([$('worker').textContent], { type: 'text/javascript' })));
  made.onmessage = ({ data: { number, answer, error, progress } }) => {
    const asked = answers.get(number);
    if (!asked) return;
    if (progress) { asked.onProgress?.(progress); return; }
    answers.delete(number);
    if (error === undefined) asked.resolve(answer); else asked.reject(new Error(error));
  };
  // A worker that cannot go on answers nothing more: what it was asked fails.
  made.onerror = event => {
    event.preventDefault();
    for (const { reject } of answers.values()) reject(new Error(event.message || 'its worker stopped'));
    answers.clear();
  };
  return made;
}

/** Whether the browser can run the module. */
export const hasWebAssembly = () => typeof WebAssembly === 'object' && typeof DecompressionStream === 'function';

// the parts of the page

export const editor = new Editor(document.querySelector('.editor'), () => { notice('others', ''); leaveSource(); listingChanged(); }, {
  form: () => state.form,
  parts: line => partsOf(line, state.form),
  words: (line, column) => wordsAt(line, column, state.form),
}, line => lineChosen(line), (line, column) => linePointed(line, column));
export const paper = new Paper($('sheets'), mark => markClicked(mark), mark => markPointed(mark), printers => showPrinters(printers));
export const wave = new Wave($('wave').querySelector('canvas'), under => tellUnder(under), frame => frameChosen(frame));
export const readers = {
  lines: new Reader($('lines')),
  list: new Reader($('list')),
  frames: new Reader($('frames'), line => {
    const frame = wave.frames.indexOfLine(line);
    if (frame >= 0) wave.choose(frame);
  }),
  edges: new Reader($('edges')),
};

/** A notice at the top, with buttons; a later one of the same name takes its place. */
export function notice(name, words, actions = []) {
  document.querySelector(`[data-notice="${name}"]`)?.remove();
  if (!words) return;
  const box = document.createElement('div'), text = document.createElement('p');
  box.className = 'notice';
  box.dataset.notice = name;
  text.textContent = words;
  box.append(text, ...actions);
  $('notices').append(box);
}

/** A notice that goes when it is closed. */
export const tellOnce = (name, words) => notice(name, words, [button('Close', () => notice(name, ''))]);

let passing = 0;

/** A notice on what was just asked for: it goes when it is closed, after ten seconds, and with the next listing or file. */
export function tellBriefly(words) {
  clearTimeout(passing);
  tellOnce('passing', words);
  passing = setTimeout(() => notice('passing', ''), 10000);
}

/** Says that a call of the module failed. */
export function tellFailed(error) {
  if (!(error instanceof Cancelled)) tellOnce('failed', `The module failed: ${error.message}`);
}

// printing

export let wanted = 0;
export let printed = 0, printing = false;     // (the tests wait for them)

/** Prints what is there now. While the worker prints, only the latest of what comes meanwhile is printed then. */
export async function print() {
  wanted++;
  hurry();
  endLongJob();
  if (printing || !ready) return;
  printing = true;
  const slow = setTimeout(() => document.body.classList.add('printing'), 250);
  try {
    while (printed !== wanted) {
      const version = wanted;
      // (the answer of an ended worker does not come: it was ended for what is wanted next)
      await printNow(version).catch(error => { if (!(error instanceof Cancelled)) throw error; });
      printed = version;
    }
  } catch (error) {
    printed = wanted;
    clearPaper();
    showWire(null);
    cover('');
    tellFailed(error);
  }
  clearTimeout(slow);
  document.body.classList.remove('printing');
  printing = false;
}

let hurry = () => {}, cursorMoved = () => {};
document.addEventListener('selectionchange', () => cursorMoved());

/** Waits for some milliseconds, or until there is more to print. */
const whileQuiet = milliseconds => new Promise(done => {
  hurry = () => done();
  setTimeout(done, milliseconds);
});

/** Waits while a line is typed: until its last key is some time ago, the cursor is on another line, or there is more to print. */
async function untilTyped(line, version) {
  const rest = () => TYPED_AFTER - (performance.now() - editor.typed);
  cursorMoved = () => { if (editor.cursorLine() !== line) hurry(); };
  while (version === wanted && rest() > 0 && editor.cursorLine() === line) await whileQuiet(rest());
  cursorMoved = () => {};
}

async function printNow(version) {
  const { source } = state;
  clearTimeout(screenSoon);
  if (!source) {
    // (what a long listing comes to takes the page some time to show: keys come first)
    if (editor.text.length > LONG) await whileQuiet(Math.min(TYPED_PAUSE - (performance.now() - editor.typed), TYPED_PAUSE));
    if (version !== wanted) return;
    const answer = await ask('print', { script: encode(editor.text), form: state.form, printers: state.printers, status: state.status }, version);
    if (version !== wanted && performance.now() - lastShown < 400) return;
    const isOfLine = answer.code === 2 || answer.isOfProgram;
    if (isOfLine) await untilTyped((answer.place?.line ?? answer.line) - 1, version);
    if (isOfLine && version !== wanted) return;
    lastShown = performance.now();
    showRun(answer, version);
    // (the end takes the worker as long again: it waits while a long listing is typed)
    if (answer.code <= 1 && answer.milliseconds > 100) await whileQuiet(Math.min(answer.milliseconds, 400));
    if (version !== wanted) return;
    const end = answer.code <= 1 ? await ask('end', {}, version) : {};
    if (version !== wanted || !end) return;
    Object.assign(answer, end);
    showScript(answer);
    if (answer.code <= 1) traceSoon(version, answer.length);
    return;
  }
  const answer = await patiently(readSource(source, version));
  if (version !== wanted || state.source !== source) return;
  onPaper = version;
  showSource(answer);
}

/** What a file gives; a long recording shows how far it is. */
function readSource(source, version) {
  const { name, kind, bytes, set } = source, isLong = bytes.length > LONG_FILE;
  const onProgress = isLong ? coverProgress(`${kind === 'raw' ? 'Printing' : 'Reading'} ${name}`, () => { leaveSource(); print(); }) : null;
  if (kind === 'raw') return ask('raw', { bytes, set }, version, onProgress);
  return ask('recording', recordingOf(source), version, onProgress);
}

export let firstPaper = 0;               // when there was paper first, in milliseconds from the page's start (the tests show it)
let lastShown = 0, ofSource = false;     // `ofSource`: a file is on paper
let screenSoon = 0;                      // what shows the screen a little later

/** Takes the sheets away. */
export function clearPaper() {
  ofSource = Boolean(state.source);
  paper.show('');
  $('no-sheet').hidden = true;
  for (const what of ['lines', 'list']) {
    readers[what].stale = 0;
    readers[what].show();
  }
}

/** Takes a file's sheets and wire away where the listing gives none. */
function leavePaper() {
  clearPaper();
  showWire(null);
  cover('There is no trace of this listing.');
}

/** Shows the sheets of a script's run; where the listing is refused, those of the run before stay. */
function showRun(answer, version) {
  document.body.classList.toggle('stale', answer.code > 1);
  if (answer.code > 1) {
    if (ofSource) leavePaper();
    else if ($('wire-cover').querySelector('button')) cover('There is no trace of this listing.');    // (it offered that of the one before)
    return;
  }
  onPaper = version;
  scriptLength = answer.length;
  showPicture(answer.svg);
  firstPaper ||= performance.now();
}

/** Offers the printers whose sheets lie one below the other. */
function showPrinters(printers) {
  const box = $('printers'), key = printers.join();
  if (box.dataset.key === key) return;
  box.dataset.key = key;
  box.hidden = !printers.length;
  box.replaceChildren(...printers.map(printer => button(`Printer ${printer}`, () => paper.turnTo(printer))));
}

/** What is written where there is no sheet. */
function emptyWords() {
  if (state.source) return 'No printer hears a byte of this file.';
  return editor.text.trim() ? 'No printer is on the bus, so there is no sheet.' : 'Type a listing, or open an example or a file. Its pages appear here.';
}

let texts = 0;     // how often a text of the tabs became another one

export const nextText = () => ++texts;

export function showPaper(svg) {
  ofSource = Boolean(state.source);
  paper.show(svg);
  const isNew = !state.source && !editor.text.trim();
  if (isNew) paper.show('');
  $('no-sheet').hidden = !isNew && (!paper.picture || paper.picture.sheets.length > 0);
  $('no-sheet').textContent = emptyWords();
  // (the words are at the left edge, wherever the sheets before were seen)
  if (!$('no-sheet').hidden) $('sheets').scrollTo(0, 0);
  paper.room.hidden = !paper.picture || !(paper.picture.sheets.length || paper.picture.notes);
  for (const what of ['lines', 'list']) readers[what].stale = nextText();
  fillReader(state.tabs.pages);
}

/** Shows the picture of the sheets; of one that is longer than a text can be in this browser it says so. */
export function showPicture(bytes) {
  let svg = '';
  try { svg = decode(bytes); } catch { /* (it is too long) */ }
  showPaper(svg);
  if (svg || !bytes.length) return;
  $('no-sheet').textContent = 'The picture of these sheets is longer than this browser can hold; “Lines” and “Page text” have all of them, and can be saved.';
  $('no-sheet').hidden = false;
  paper.room.hidden = true;
}

/** Fills the text of a tab, if it is the one that is seen. */
export async function fillReader(tab) {
  const what = { lines: 'text', list: 'list', edges: 'trace', frames: 'readings' }[tab], reader = readers[tab], version = reader?.stale;
  if (!what || !version || !ready) return;
  let text;
  try { text = await ask('lines', { what }); } catch (error) { return tellFailed(error); }
  if (reader.stale !== version || !text) return;
  reader.stale = 0;
  reader.show(text);
  if (tab === 'frames' && wave.frames.get(wave.chosen)) reader.mark(wave.frames.get(wave.chosen).line);
}

export const counted = (number, one, many = `${one}s`) => `${spaced(number)} ${number === 1 ? one : many}`;

let speaking = 0;

/** What a reader of screens hears of a listing: once nothing more is typed for a while. */
function speakSoon() {
  clearTimeout(speaking);
  speaking = setTimeout(() => { $('spoken').textContent = $('told').innerText; }, 900);
}

/** Shows how a script's run went: beside its lines, and below them. */
function showScript(answer) {
  const told = $('told'), words = (name, text) => {
    const line = document.createElement('p');
    line.className = name;
    line.textContent = text;
    told.append(line);
    return line;
  };
  told.replaceChildren();
  told.className = ['fine', 'stopped', 'refused', 'refused'][answer.code] || 'refused';
  editor.area.setAttribute('aria-invalid', String(answer.code === 2));
  $('listing-facts').textContent = `${answer.milliseconds.toFixed(answer.milliseconds < 10 ? 1 : 0)} ms`;
  if (answer.code === 2) tellRefusal(answer, words);
  else if (answer.code > 2) words('first', 'Memory ran out.');
  else tellStatuses(answer, words);
  if (answer.code <= 1) showScreenSoon(answer.screen);
  if (answer.code > 1 && embedded) tellInFrame(told.querySelector('.first').firstChild.textContent);
  speakSoon();
}

/** Says in a frame of another page, which has no listing, why there is nothing to see. */
function tellInFrame(words) {
  clearPaper();
  showWire(null);
  cover(words);
  $('no-sheet').textContent = words;
  $('no-sheet').hidden = false;
}

/** How many characters the first bytes of a text are. */
const charactersOf = (text, bytes) => decode(encode(text).subarray(0, bytes)).length;

/** Words with a capital. */
export const capital = words => words && words[0].toUpperCase() + words.slice(1);

/** A listing that cannot be read: its first fault, at its place. `place` is where the module finds it in a script. */
function tellRefusal(answer, words) {
  const { name, place, explanation } = answer;
  if (!place) return tellListingFault(answer, words);
  const { sentence, hints } = explanation, number = place.line - 1, text = editor.line(number), { from, to } = placeInLine(answer, text);
  tellFirst(words, capital(name), { line: number, shown: answer.inNamed ? from + 1 : place.column, from });
  words('', capital(withCharacter(sentence, text.slice(from))));
  hints.forEach(hint => tellHint(hint, words));
  tellStale(words);
  editor.tell(at(number, 'refused'), at(number, sentence), { line: number, from, to, words: name, kind: 'refused' });
}

/** Says what is wrong, and in which line and column; the place is one click away. */
function tellFirst(words, upper, { line, shown, from }) {
  const first = words('first', `${upper} in line ${line + 1}, column ${shown}`);
  first.append(' ', button('go there', () => editor.goTo(line, from)));
}

/** Says that the paper is another run's. */
const tellStale = words => { if (paper.picture) words('', 'The paper and the wire still show the run before.'); };

/** A list with one item, at a place. */
const at = (place, item) => Object.assign([], { [place]: item });

/** Where in its line the fault of a script is: the word there, or a character of a string. */
function placeInLine({ place, inNamed }, text) {
  const from = inNamed ? inNamed.from : charactersOf(text, place.column - 1), isQuoted = (text.slice(0, from).split('"').length - 1) % 2 === 1;
  const width = isQuoted ? 1 : Math.max(place.width, /^[a-z]*/i.exec(text.slice(from))[0].length, 1);
  return { from, to: Math.min(from + width, Math.max(text.length, from + 1)) };
}

/** A fault of the listing's own form: the name in braces, or the character, that it has not. */
function tellListingFault({ name, line, column, more }, words) {
  const upper = capital(name), signs = line ? at(line - 1, 'refused') : [], text = column ? editor.line(line - 1) : '', from = column ? charactersOf(text, column - 1) : 0;
  if (column) tellFirst(words, upper, { line: line - 1, shown: from + 1, from });
  else words('first', line ? `Line ${line}: ${name}` : upper);
  more.forEach(hint => tellHint(hint, words));
  tellStale(words);
  if (!column) return editor.tell(signs, [], null);
  const end = { '{': '}', '[': '>]' }[text[from]], last = end ? text.indexOf(end, from) + end.length - 1 : from;
  editor.tell(signs, [], { line: line - 1, from, to: Math.max(last, from) + 1, words: name, kind: 'refused' });
}

/** A run's statuses and its stop. */
function tellStatuses(answer, words) {
  const { statuses, code, statement, told, name } = answer, lines = Array.from(answer.lines, line => line - 1);
  const isKnown = lines.length > 0;
  const signs = [], titles = [], rank = ['', 'fine', 'unreached', 'unanswered', 'stopped'];
  const sign = (line, name, title) => {
    if (rank.indexOf(name) > rank.indexOf(signs[line] || '')) signs[line] = name;
    if (statuses.length <= 20000) titles[line] = titles[line] ? `${titles[line]}\n${title}` : title;
  };
  const unanswered = [];
  statuses.forEach((status, index) => {
    if (status) unanswered.push(index);
    if (!isKnown || (code === 1 && index === statement - 1)) return;
    sign(lines[index], status ? 'unanswered' : 'fine', `statement ${index + 1}: status ${status ? '128, no device answered' : '0'}`);
  });
  let note = null;
  if (code === 1) {
    // (the second line of an explanation is that of the listing)
    const [first, , ...hints] = told;
    words('first', first);
    hints.forEach(hint => tellHint(hint, words));
    // (an error of a program is known by its line alone)
    const line = answer.isOfProgram ? answer.line - 1 : lines[statement - 1];
    if (line >= 0) {
      const text = editor.line(line);
      sign(line, 'stopped', answer.isOfProgram ? name : `statement ${statement}: ${name}`);
      if (statement) lines.slice(statement).forEach((line, index) => sign(line, 'unreached', `statement ${statement + 1 + index}: not reached`));
      note = { line, from: text.length - text.trimStart().length, to: text.trimEnd().length, words: name, kind: 'stopped' };
    }
  } else if (statuses.length) words('first', `${counted(statuses.length, 'statement')} done`);
  else words('first', 'Nothing to print yet');
  const places = unanswered.slice(0, 4).map(index => isKnown ? `${index + 1} (line ${lines[index] + 1})` : index + 1).join(', ');
  const others = unanswered.length > 4 ? ` and ${spaced(unanswered.length - 4)} more` : '';
  if (unanswered.length) words('', `Status 128, no device answered: statement ${places}${others}`);
  answer.notes.forEach(note => tellNote(note, words));
  editor.tell(signs, titles, note);
}

const FORM_WORDS = { text: 'a script', petcat: 'petcat\'s text', magazine: 'a magazine\'s' };

/** A hint of the program in the page's words; each form of a listing that it names is one click away. */
function tellHint(hint, words, end = '') {
  const said = inPageWords(hint).trim();
  if (!said) return;
  const line = words('', `${capital(said)}${end}`);
  for (const form of formsIn(hint)) if (form !== state.form) line.append(' ', button(`Read it as ${FORM_WORDS[form]}`, () => chooseForm(form)));
}

/** A note of the program, as a sentence. */
const tellNote = (note, words) => tellHint(note, words, '.');

/** Shows the screen; where that moves the listing, once no key is pressed for a while. */
function showScreenSoon(bytes) {
  clearTimeout(screenSoon);
  const rest = $('screen').hidden === (bytes.length === 0) ? 0 : TYPED_AFTER - (performance.now() - editor.typed);
  if (rest <= 0) return showScreen(bytes);
  screenSoon = setTimeout(() => showScreen(bytes), rest);
}

/** The bytes on the screen: letters as they are, a return as a line's end, any other byte as its number. */
function showScreen(bytes) {
  $('screen').hidden = bytes.length === 0;
  const box = $('screen').querySelector('.crt');
  box.replaceChildren();
  let run = '';
  for (const byte of bytes.subarray(0, 20000)) {
    if (byte === 13 || (byte >= 32 && byte < 96)) { run += byte === 13 ? '\n' : String.fromCharCode(byte); continue; }
    const number = document.createElement('b');
    number.textContent = byte;
    box.append(run, number);
    run = '';
  }
  box.append(run, ...(bytes.length > 20000 ? [` … ${counted(bytes.length, 'byte')}`] : []));
}

