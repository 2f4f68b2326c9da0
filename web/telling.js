// What a recording or a run's trace says, beside the wave: the facts, the intervals, and what is chosen.

import { Frames, intervalsOf, measureBy, turnsOf } from './wire.js';
import { nameOf, spaced } from './wave.js';
import { $, all, button, encode } from './basics.js';
import { ask, AUTOMATIC, counted, editor, fillReader, nextText, print, readers, restartWorker, state, tellFailed, wanted, wave } from './page.js';
import { followsPointer, framePointed, leavePointed } from './links.js';
import { chosenDelays, judgeLists } from './controls.js';

export function cover(words, actions = []) {
  const box = $('wire-cover'), text = document.createElement('p');
  box.hidden = !words;
  text.textContent = words || '';
  box.replaceChildren(text, ...actions);
}

let waitingTrace = 0;
export let traced = 0;     // the number of the print whose trace is shown (the tests wait for it)
let began = 0;             // since when a job is under way that may take long, or 0

const PATIENCE = 600;      // milliseconds: such a job that takes longer is ended by the next print
// What a byte of a listing comes to, about: edges, seconds and bytes of memory (tests/browser/page measures them).
const COST = { edges: 17, seconds: 20e-6, memory: 2400 };
const MOST_EDGES = 33e6;   // a longer trace has more than the four gigabytes that the module can have

/** Makes the trace once nothing more is typed; a long one only when it is asked for, since it has its cost. */
export function traceSoon(version, length) {
  clearTimeout(waitingTrace);
  offerWire(false);
  if (length > AUTOMATIC) {
    showWire(null);
    const millions = (length * COST.edges / 1e6).toFixed(length < 6e5 ? 1 : 0), seconds = Math.max(Math.round(length * COST.seconds), 1), gigabytes = (length * COST.memory / 1e9).toFixed(1);
    const words = `The trace of this listing is long: about ${millions} million edges, which take ${counted(seconds, 'second')} or more and ${gigabytes} GB of memory.`;
    const isTooLong = length * COST.edges > MOST_EDGES, more = isTooLong ? ' The module has not so much memory: save the listing, and make its trace with the program.' : '';
    return cover(words + more, [button('Make the trace', () => trace(version, length))]);
  }
  waitingTrace = setTimeout(() => trace(version, length), 90);
}

/** The answer of a job that may take long. */
export async function patiently(job) {
  const mine = began = performance.now();
  try { return await job; } finally { if (began === mine) began = 0; }
}

/** Ends a job that takes long, since there is something else to print. */
export function endLongJob() {
  if (!began || performance.now() - began < PATIENCE) return;
  began = 0;
  cover('');
  restartWorker();
}

/** Shows how far a job is, with a way out, after which `next` is done. */
export function coverProgress(what, next) {
  const bar = document.createElement('progress'), words = document.createElement('p');
  bar.setAttribute('aria-label', what);
  const cancel = button('Cancel', () => {
    began = 0;
    cancel.disabled = true;
    cover('Cancelling …', [cancel]);
    restartWorker();
    next();
  });
  cover(`${what} …`, [bar, words, cancel]);
  return ({ done, words: said }) => { bar.value = done; words.textContent = said; };
}

async function trace(version, length) {
  if (version !== wanted || state.source) return;
  if (!await judgeLists().catch(tellFailed)) {
    if (version !== wanted || state.source) return;
    showWire(null);
    return cover('A list of delays cannot be read, so there is no trace.');
  }
  if (version !== wanted || state.source) return;
  const { printers, status } = state, delays = chosenDelays(), script = encode(editor.text);
  const onProgress = length > AUTOMATIC ? coverProgress('Making the trace', print) : null;
  try {
    const answer = await patiently(ask('trace', { script, form: state.form, printers, status, delays }, version, onProgress));
    if (version !== wanted || state.source || !answer) return;
    traced = version;
    state.taken = answer.delays;
    cover('');
    if (answer.code <= 1) showWire(answer);
    else { showWire(null); cover(answer.code === 3 ? 'Memory ran out, so there is no trace.' : 'There is no trace.'); }
  } catch (error) {
    tellFailed(error);
  }
}

const WIRE_TEXTS = ['trace', 'vcd', 'readings', 'intervals', 'json', 'story'];

/** Offers the texts of the wire for saving, or not: until a run's own trace is made, they are those of an earlier run. */
function offerWire(isThere) {
  for (const what of WIRE_TEXTS) all(`[data-save=${what}]`)[0].disabled = !isThere;
}

export let onWire = null;  // what the wire shows and what is said of it, or null (the tests look at it)

const NO_EDGES = { times: new Float64Array(0), levels: new Uint8Array(0) };
const NOTHING = { ...NO_EDGES, kinds: new Uint8Array(0), since: new Float64Array(0), turns: turnsOf(NO_EDGES), counts: [], verdict: '', isLawful: null };

/** Shows a trace with what is said of it, or none. */
export function showWire(answer) {
  onWire = answer;
  leavePointed();
  offerWire(Boolean(answer));
  const { times, levels, kinds, since, turns, rows, lines, verdict, isLawful, counts } = answer || NOTHING;
  measureBy(answer?.intervals, answer?.bounds === 'guide');
  wave.show({ times, levels }, { kinds, since }, new Frames(rows, lines), turns);
  $('wire-facts').textContent = !answer ? '' : [
    state.source?.name, counted(counts[0].count, 'byte'), counted(times.length, 'edge'),
    times.length ? `${spaced(Math.round(times[times.length - 1] / 100) / 10)} ms` : '',
  ].filter(Boolean).join(' · ');
  $('verdict').textContent = verdict.replace(/(?: at edge |[:,;]).*/, '');
  $('verdict').title = verdict;
  $('verdict').classList.toggle('unlawful', isLawful === false);
  tellUnder(null);
  tellChosen(-1);
  showIntervals(answer);
  for (const tab of ['frames', 'edges']) {
    readers[tab].stale = answer ? nextText() : 0;
    if (!answer) readers[tab].show();
  }
  fillReader(state.tabs.wire);
}

/** What is said of a recording's timing. A real bus hardly ever has this project's, so that is no failure. */
export function verdictWords({ verdict }) {
  if (!verdict) return '';
  return `Verdict: ${verdict}.${verdict.startsWith('differs ') ? ' A real bus differs so; its bytes and pages are here all the same.' : ''}`;
}

/** The intervals of a recording's bytes beside the profile's bounds. */
function showIntervals(answer) {
  const panel = $('intervals');
  panel.replaceChildren();
  if (!answer || !answer.intervals.length) return;
  // (on a phone a row is no row for the layout, so each part says what it is)
  const table = document.createElement('table'), row = (kind, cells, name = '') => {
    const line = table.insertRow();
    line.className = name;
    line.setAttribute('role', 'row');
    cells.forEach((cell, index) => {
      const made = document.createElement(index && kind === 'td' ? 'td' : 'th');
      made.setAttribute('role', kind === 'th' ? 'columnheader' : index ? 'cell' : 'rowheader');
      made.textContent = cell;
      line.append(made);
    });
  };
  table.setAttribute('role', 'table');
  row('th', ['Interval, in µs', 'bytes', 'least', 'middle', 'greatest', 'allowed', 'outside']);
  for (const { name, count, least, middle, greatest, from, to, outside } of answer.intervals) {
    if (!count) { row('td', [name, '–', '', '', '', '', '']); continue; }
    const bounds = Number.isFinite(to) ? `${from} to ${to}` : `${from} or more`, beyond = outside ? spaced(outside) : '–';
    row('td', [name, spaced(count), spaced(least), middle, spaced(greatest), bounds, beyond], outside ? 'bad' : '');
  }
  const counts = document.createElement('p');
  counts.textContent = answer.counts.filter(({ count }) => count).map(({ name, count }) => `${name}: ${spaced(count)}`).join(' · ');
  const verdict = document.createElement('p');
  verdict.textContent = verdictWords(answer);
  verdict.className = answer.isLawful ? 'lawful' : 'unlawful';
  panel.append(table, counts, verdict);
}

const boundsWords = bounds => !bounds ? '' : Number.isFinite(bounds[1]) ? ` (${bounds.join('–')})` : ` (${bounds[0]} or more)`;
const named = ({ name }, bit) => bit === null ? name : `${name} of bit ${bit}`;

/** What can be done on the wave, while nothing is pointed at. */
function hint() {
  if (!wave.frames.length) return '';
  if (matchMedia('(pointer: coarse)').matches) return 'Tap a frame for its marks.';
  const words = 'Point at the wave for its intervals; click a frame for its marks.';
  return followsPointer() ? words : `${words} In a trace this long pointing alone shows no marks and no line.`;
}

/** Says when what is pointed at elsewhere is on the wire, if the view of the wave does not have it. */
export function tellOutside(span) {
  if (wave.pointer) return;
  $('under').className = '';
  $('under').textContent = span ? `At ${(span[0] / 1000).toFixed(1)} ms, outside of the view.` : hint();
}

/** Shows what is under the pointer on the wave. */
export function tellUnder(under) {
  const line = $('under');
  line.className = '';
  framePointed(under ? under.frame : -1);
  if (!under) { line.textContent = hint(); return; }
  const since = wave.mark === null ? '' : ` (${spaced(Math.round(under.moment - wave.mark))} µs from the cursor)`, moment = `${spaced(Math.round(under.moment))} µs${since}`, { part, bit, level, wire } = under;
  if (part) {
    const long = part.to - part.from, bad = part.bounds && (long < part.bounds[0] || long > part.bounds[1]);
    line.textContent = `${moment}: ${named(part, bit)}, ${spaced(long)} µs${boundsWords(part.bounds)}${bad ? ', outside' : ''}`;
    line.className = bad ? 'bad' : '';
  } else if (level) {
    const long = Number.isFinite(level.to) ? ` for ${spaced(level.to - level.from)} µs` : '';
    line.textContent = `${moment}: ${wire.name} ${level.released ? 'released' : 'pulled'}${long}`;
  } else line.textContent = moment;
}

/** Shows a frame's byte, its moments and its intervals. */
export function tellChosen(index, more = '') {
  const frame = wave.frames.get(index), line = $('chosen');
  line.textContent = '';
  if (!frame) return;
  const says = `${nameOf(frame)}${frame.eoi ? ', end-or-identify' : ''}`;
  const strong = document.createElement('strong');
  strong.textContent = says;
  const end = Number.isFinite(frame.end) ? ` to ${spaced(frame.end)}` : '', fault = frame.fault ? `, ${frame.fault}` : '';
  line.append(strong, `  ${spaced(frame.look)}${end} µs${fault}${more}`);
  const list = document.createElement('span');
  list.className = 'items';
  for (const { name, least, greatest, bounds } of intervalsOf(frame)) {
    const item = document.createElement('span');
    item.className = bounds && (least < bounds[0] || greatest > bounds[1]) ? 'item bad' : 'item';
    item.textContent = `${name} ${[...new Set([least, greatest])].map(spaced).join('–')}${boundsWords(bounds)}`;
    list.append(item);
  }
  line.append(list);
}
