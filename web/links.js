// The links between the listing, the marks on the paper and the frames on the wave: what is clicked or pointed at in one of them is
// shown in the other two. Lines and marks are found by the module, which runs or decodes a part of what is shown.

import { $, button } from './basics.js';
import { ask, counted, editor, LINES_LIMIT, paper, readers, scriptLength, state, tellBriefly, tellFailed, tellOnce, wanted, wave } from './page.js';
import { bytesOfLine } from './reading.js';
import { tellChosen, tellOutside } from './telling.js';
import { byteWords } from './wave.js';

const POINTED_EDGES = 300000;      // of a longer trace nothing is found while the pointer moves
const POINTED_AFTER = 70;          // milliseconds until what is pointed at is looked for

let asked = 0;                     // how often something was chosen
let agreed = 0;                    // the print of a long listing whose lines somebody wants to be found

/** Whether what is pointed at is looked for: each answer decodes or runs a part of what is shown, which takes longer than a pointer rests. */
export const followsPointer = () => wave.edges.times.length <= POINTED_EDGES;

const hasTrace = () => !state.source && wave.frames.length > 0;
const isLong = () => scriptLength > LINES_LIMIT && agreed !== wanted;

/** Whether the lines of the listing that is shown can be found: each answer runs parts of it. */
const knowsLines = () => hasTrace() && !isLong();

/** Whether a listing has a trace that nobody has asked for yet; then it says so of what is found there. */
function isUntraced(what) {
  const isMissing = !state.source && !wave.frames.length && Boolean($('wire-cover').querySelector('button'));
  if (isMissing) tellBriefly(`${what} found in the trace: make it first.`);
  return isMissing;
}

/** Says of a long listing why a link is not followed, and offers it. */
function offer(words, act) {
  const find = button('Find it', () => { agreed = wanted; act(); });
  $('chosen').append(` ${words} is found by running parts of this long listing, which takes some time. `, find);
}

/** What a job gives, or null where it fails or something else was chosen meanwhile. */
async function found(job, what, turn) {
  let answer;
  try { answer = await ask(job, what); } catch (error) { tellFailed(error); return null; }
  return turn === asked ? answer : null;
}

/** The places of the characters in a line that its data bytes come from, by the bytes' frames; or nothing where that is not certain. */
function placesIn(line, from, to) {
  const data = Array.from({ length: to - from }, (_, index) => from + index).filter(index => wave.frames.get(index).kind === 'data');
  const places = bytesOfLine(editor.line(line), state.form, data.map(index => wave.frames.get(index).byte));
  return new Map(places ? data.map((index, at) => [index, places[at]]) : []);
}

/** The line whose own line end a frame is, where the line after it sends that: so it is after CMD, and after a PRINT that it leads there; or -1. */
function lineOfEnd({ line, from, to }, index) {
  const { kind, byte } = wave.frames.get(index);
  if (index !== from || kind !== 'data' || byte !== 13 || placesIn(line, from, to).get(index)) return -1;
  let above = line - 1;
  while (above >= 0 && !/^\s*\d*\s*(cmd|print)/i.test(editor.line(above))) above--;
  return above >= 0 && !/print\s*#/i.test(editor.line(above)) ? above : -1;
}

/** A line of the listing is chosen: its frames and its marks are shown. */
export async function lineChosen(line) {
  const turn = ++asked;
  if (isUntraced('The frames and marks of a line are') || !hasTrace()) return;
  const words = document.createElement('strong');
  words.textContent = `Line ${line + 1}`;
  $('chosen').replaceChildren(words);
  if (isLong()) return offer('What it sends', () => lineChosen(line));
  const answer = await found('line', { line }, turn);
  if (!answer) return;
  const { from, to, marks } = answer, first = wave.frames.get(from), last = wave.frames.get(to - 1);
  wave.choose(-1, false);
  readers.frames.mark(to > from ? first.line : -1);
  wave.showSpan(to > from ? [first.look, last.end] : null);
  paper.find(marks);
  editor.choose(line);
  $('chosen').replaceChildren(words, `  ${to > from ? `${counted(to - from, 'byte')} on the wire, ${counted(marks.length, 'mark')}` : 'sends nothing'}`);
}

/** Shows the line of a frame in the listing, and the character that it comes from. */
async function showLineOf(index, turn) {
  if (hasTrace() && isLong()) return offer('Its line', () => frameChosen(index));
  if (!knowsLines()) return;
  const answer = await found('lineOf', { frame: index }, turn);
  if (!answer) return;
  const before = answer.isMade ? -1 : lineOfEnd(answer, index);
  if (before >= 0) {
    editor.choose(before);
    $('chosen').append(` The line end of ${/cmd/i.test(editor.line(before)) ? 'CMD in ' : ''}line ${before + 1}, which the next one sends.`);
    return;
  }
  editor.choose(answer.line);
  if (!answer.isMade) editor.showPlace(answer.line, placesIn(answer.line, answer.from, answer.to).get(index));
}

/** A frame is chosen: its marks are shown on the sheets, and its line. */
export async function frameChosen(index) {
  const turn = ++asked, frame = wave.frames.get(index);
  readers.frames.mark(frame ? frame.line : -1);
  tellChosen(index);
  paper.find([]);
  editor.choose(-1);
  if (!frame) return;
  if (!frame.fault && frame.kind !== 'command') {
    tellChosen(index, ', looking on the paper …');
    const marks = await found('marks', { frame: index }, turn);
    if (turn !== asked) return;
    tellChosen(index, !marks ? '' : marks.length ? `, ${counted(marks.length, 'mark')}` : ', no mark that shows');
    paper.find(marks || []);
  }
  if (Number.isFinite(frame.end)) showLineOf(index, turn);
}

/** A mark is clicked: the frame of its byte is shown on the wave. */
export async function markClicked(mark) {
  const turn = ++asked;
  if (!mark) { wave.choose(-1); return; }
  const { source } = state, isRaw = source?.kind === 'raw';
  if (isUntraced('The byte of a mark is') || (!isRaw && !wave.frames.length)) return;
  document.body.classList.add('searching');
  const answer = await found('byte', { mark }, turn);
  document.body.classList.remove('searching');
  if (!answer) return;
  const { byte, frame } = answer;
  if (isRaw) tellOnce('byte', `This mark comes with byte ${byte + 1} of the file, ${byteWords(source.bytes[byte])}.`);
  else if (frame >= 0) wave.choose(frame);
}

// what is pointed at

let pointing = 0, pointed = '';
const NOTHING = { marks: [], frames: null, line: -1, place: null };

/** Shows what belongs together while it is pointed at. */
function showPointed({ marks, frames, line, place }) {
  paper.point(marks);
  wave.point(frames);
  tellOutside(wave.outside());
  editor.point(line, place);
}

/** Nothing is pointed at any more, or something else. */
export function leavePointed() {
  clearTimeout(pointing);
  if (pointed) showPointed(NOTHING);
  pointed = '';
}

/** Looks for what belongs to something that is pointed at, once the pointer rests; `name` is another one for something else. */
function pointSoon(name, look) {
  if (name === pointed) return;
  leavePointed();
  if (!name || !wave.frames.length || !followsPointer()) return;
  pointed = name;
  pointing = setTimeout(async () => {
    let answer = null;
    try { answer = await look(); } catch { /* (the worker was ended: there is something else to show) */ }
    if (name === pointed && answer) showPointed(answer);
  }, POINTED_AFTER);
}

/** A frame with its line and the character that it comes from. */
async function lineAround(frame, marks) {
  const found = knowsLines() ? await ask('lineOf', { frame }) : null, before = found && !found.isMade ? lineOfEnd(found, frame) : -1, line = before >= 0 ? before : found ? found.line : -1;
  if (before >= 0) return { marks, frames: [frame, frame + 1], line, place: null };
  return { marks, frames: [frame, frame + 1], line, place: found && !found.isMade ? placesIn(line, found.from, found.to).get(frame) ?? null : null };
}

/** The marks of a frame. */
async function marksOfFrame(index) {
  const frame = wave.frames.get(index);
  return frame.fault || frame.kind === 'command' ? [] : await ask('marks', { frame: index }) || [];
}

/** A mark is pointed at, or none. */
export function markPointed(mark) {
  if (state.source?.kind === 'raw') return;
  pointSoon(mark ? `mark ${mark.name}` : '', async () => {
    const answer = await ask('byte', { mark });
    return answer && answer.frame >= 0 ? lineAround(answer.frame, await marksOfFrame(answer.frame)) : null;
  });
}

/** A frame on the wave is pointed at, or none. */
export function framePointed(index) {
  pointSoon(index >= 0 ? `frame ${index}` : '', async () => lineAround(index, await marksOfFrame(index)));
}

/** A line of the listing is pointed at, at a column or at its number (-1); or none. */
export function linePointed(line, column) {
  if (!knowsLines()) return pointSoon('', null);
  pointSoon(line >= 0 ? `line ${line} ${column}` : '', async () => {
    const answer = await ask('line', { line });
    if (!answer) return null;
    const { from, to, marks } = answer;
    if (column < 0 || answer.isMade) return { marks, frames: [from, to], line, place: null };
    const [frame, place] = [...placesIn(line, from, to)].find(([, place]) => place && place.from <= column && column < place.to) ?? [];
    return frame === undefined ? null : { marks: await marksOfFrame(frame), frames: [frame, frame + 1], line, place };
  });
}
