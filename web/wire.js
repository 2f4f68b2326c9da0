// The bus for the drawing: where its edges, frames and intervals are. All of these are numbers that the module gives; nothing
// here reads a recording. An edge is a moment in microseconds and a level, which has 4 for ATN, 2 for CLOCK and 1 for DATA
// where they are released.

import { CODE_NAMES } from './codes.js';

export const ATN = 4, CLOCK = 2, DATA = 1;

/** The bounds of the profile's delays, in microseconds, by their kinds; `answers` is the length of an answer of two listeners. */
export let bounds = {};

/** The kinds of delay in the module's order, then `rest`. */
let kinds = [];

/** What is said of a delay of each kind, and the line on which it is shown. A delay before a byte or ATN is shown on the line that ends it. */
const DELAYS = {
  Bb: ['before the next byte or ATN', CLOCK], Aw: ['before a command', CLOCK], Ne: ['first pull', CLOCK], Ry: ['pull after answer', CLOCK],
  S: ['low half', CLOCK], V: ['high half', CLOCK], R: ['before ATN is released', ATN], Cr: ['from ATN to CLOCK, after UNLISTEN', CLOCK],
  At: ['a printer answers ATN', DATA], H: ['ready', DATA], Ye: ['answer', DATA], Ei: ['answer length', DATA], F: ['acknowledgement', DATA],
  Dr: ['printers that do not listen let DATA go', DATA], rest: ['rest', ATN],
};
const boundsOf = kind => (measured ? measured[kind] : bounds[kind === 'Ei' ? 'answers' : kind]) || null;
const nameOf = kind => DELAYS[kind][0];

/** Takes the bounds that the module gives: the least and the greatest delay of each kind, and then of the answers. */
export function useBounds(numbers) {
  kinds = Object.keys(DELAYS);
  bounds = Object.fromEntries([...kinds.slice(0, -1), 'answers'].map((kind, index) => [kind, Array.from(numbers.subarray(2 * index, 2 * index + 2))]));
}

/** The bounds of another table in the place of the profile's, by the kinds of delay that it has; or null. */
let measured = null;

/** Takes the bounds by which a recording's intervals are measured: those of its figures where they are the guide's, or the profile's. */
export function measureBy(figures, isGuide) {
  const kindsOfRows = ['H', 'Ne', 'Ye', 'Ei', 'Ry', 'S', 'S', 'V', 'V', 'F'];
  measured = isGuide ? Object.fromEntries(figures.flatMap(({ count, from, to }, row) => (count ? [[kindsOfRows[row], [from, to]]] : []))) : null;
}

/** The numbers of a reading's row, and how a byte ends. */
const ROW = ['end', 'endMoment', 'bits', 'byte', 'isCommand', 'readyToSend', 'readyForData', 'hasEoi', 'pulled', 'released', 'firstPull', 'lastPull',
  'shortestLow', 'longestLow', 'shortestHigh', 'longestHigh', 'printerListens', 'textLength'];
const ENDS = ['acknowledged', 'not acknowledged', 'ended by ATN', 'CLOCK released too long', 'cut'];

/** What the lengths of an interval come to, and the intervals of a byte. */
const FIGURES = ['count', 'least', 'middle', 'greatest', 'from', 'to', 'outside'];
const INTERVALS = ['ready', 'first pull', 'answer', 'answer length', 'pull after answer', 'shortest low half', 'longest low half', 'shortest high half',
  'longest high half', 'acknowledgement'];

/** Rows of numbers, each by these names. */
function rowsOf(numbers, names) {
  return Array.from({ length: numbers.length / names.length }, (_, row) => {
    /** @type {any} */
    const made = {};
    for (let i = 0; i < names.length; i++) made[names[i]] = numbers[row * names.length + i];
    return made;
  });
}

/** What the lengths of each interval come to, by the module's numbers. */
export const figuresOf = numbers => rowsOf(numbers, FIGURES).map((row, index) => ({ name: INTERVALS[index], ...row }));

/** The same by the table of a recording's text under --intervals, which has the guide's bounds under --bounds guide. */
export function figuresOfText(text) {
  const rows = new Map(Array.from(text.matchAll(/^([a-z ]+): (\d+), least (\d+), middle (?:over )?(\d+), greatest (\d+), outside (\d+) (?:to (\d+)|or more): (\d+)$/gm), row => [row[1], row]));
  return INTERVALS.map(name => {
    const [, , ...numbers] = rows.get(name) ?? [], [count = 0, least = 0, middle = 0, greatest = 0, from = 0, to = Infinity, outside = 0] = numbers.map(number => number && Number(number));
    return { name, count, least, middle, greatest, from, to, outside };
  });
}

/** Where each line of a text begins, and where the last one ends. */
export function lineStarts(bytes) {
  let count = 1;
  for (let at = bytes.indexOf(10); at >= 0; at = bytes.indexOf(10, at + 1)) count++;
  const starts = new Uint32Array(count + 1);
  for (let line = 1, at = bytes.indexOf(10); at >= 0; at = bytes.indexOf(10, at + 1)) starts[line++] = at + 1;
  starts[count] = bytes.length;
  return starts;
}

/** A trace text of the edges before an index. */
export function textOfEdges({ times, levels }, end) {
  const lines = [];
  for (let i = 0; i < end; i++) lines.push(`${times[i]} ${levels[i] >> 2}${levels[i] >> 1 & 1}${levels[i] & 1}\n`);
  return new TextEncoder().encode(lines.join(''));
}

/** The name of a command, by its number. */
function commandName(byte) {
  if (byte === 63) return 'UNLISTEN';
  if (byte === 95) return 'UNTALK';
  const channel = { 6: 'SECOND', 14: 'CLOSE', 15: 'OPEN' }[byte >> 4], device = { 1: 'LISTEN', 2: 'TALK' }[byte >> 5];
  return device ? `${device} ${byte & 31}` : channel ? `${channel} ${byte & 15}` : `command ${byte}`;
}

/** The name of a data byte: a character, or what a printer does with it while one listens. */
function dataName(byte, printerListens) {
  if (byte === 39) return '"\'"';
  if (byte > 31 && byte < 127) return `'${String.fromCharCode(byte)}'`;
  return (printerListens && CODE_NAMES[byte]) || `byte ${byte}`;
}

/** What is written at a reading's frame. */
function frameName({ end, bits, byte, isCommand, printerListens }) {
  if (ENDS[end] === 'acknowledged') return isCommand ? commandName(byte) : dataName(byte, printerListens);
  return bits === 8 ? `${isCommand ? 'command' : 'byte'} ${byte}` : bits === 1 ? '1 bit' : `${bits} bits`;
}

/** Where the numbers of a row are. */
const AT = Object.fromEntries(ROW.map((name, index) => [name, index]));

/** For each reading the index of its frame's own line in `text`, the bytes of all readings' lines: it is the last of its lines. */
export function frameLines(rows, text) {
  const lines = new Uint32Array(rows.length / ROW.length);
  for (let index = 0, from = 0, line = -1; index < lines.length; index++) {
    const to = from + rows[index * ROW.length + AT.textLength];
    for (let at = text.indexOf(10, from); at >= 0 && at < to; at = text.indexOf(10, at + 1)) line++;
    lines[index] = line;
    from = to;
  }
  return lines;
}

/**
 * The readings of a recording as frames: the module's rows, of which a frame is made when it is asked for, since a long trace has
 * millions. A frame is `{ look, end, kind, byte, name, eoi, fault, line }`, and the moments and lengths of its intervals. `end` is
 * Infinity where the recording ends before, and `kind` is `command`, `data` or `glitch`.
 */
export class Frames {
  constructor(rows = new Float64Array(0), lines = new Uint32Array(0)) {
    this.rows = rows;
    this.lines = lines;
  }

  get length() { return this.lines.length; }
  number(index, name) { return this.rows[index * ROW.length + AT[name]]; }
  look(index) { return this.number(index, 'readyToSend'); }
  end(index) { return ENDS[this.number(index, 'end')] === 'cut' ? Infinity : this.number(index, 'endMoment'); }
  isHeard(index) { return ENDS[this.number(index, 'end')] === 'acknowledged'; }

  /** The frame of an index, or undefined. */
  get(index) {
    if (!(index >= 0 && index < this.length)) return undefined;
    const [reading] = rowsOf(this.rows.subarray(index * ROW.length, (index + 1) * ROW.length), ROW), isHeard = this.isHeard(index), isWhole = reading.bits === 8;
    const fault = isHeard ? '' : this.end(index) === Infinity ? 'cut by the end' : ENDS[reading.end];
    return {
      look: reading.readyToSend, end: this.end(index), kind: !isWhole ? 'glitch' : reading.isCommand ? 'command' : 'data',
      byte: isWhole ? reading.byte : null, name: frameName(reading), eoi: isHeard && reading.hasEoi > 0, fault, line: this.lines[index],
      ready: reading.readyForData, pulled: reading.hasEoi ? reading.pulled : null, released: reading.released, pull: reading.firstPull, last: reading.lastPull,
      bits: reading.bits, low: [reading.shortestLow, reading.longestLow], high: [reading.shortestHigh, reading.longestHigh],
    };
  }

  * [Symbol.iterator]() { for (let index = 0; index < this.length; index++) yield this.get(index); }
  map(make) { return Array.from(this, make); }
  filter(test) { return [...this].filter(test); }

  /** The index of the first frame that passes a test, or -1. */
  findIndex(test) {
    for (let index = 0; index < this.length; index++) if (test(this.get(index))) return index;
    return -1;
  }

  /** The index of the last frame that passes a test, or -1. */
  findLastIndex(test) {
    for (let index = this.length - 1; index >= 0; index--) if (test(this.get(index))) return index;
    return -1;
  }

  /** The index of the first frame that ends after a moment, or how many frames there are. */
  endingAfter(moment) {
    let index = 0;
    while (index < this.length && !(this.end(index) > moment)) index++;
    return index;
  }

  /** The index of the last frame that begins at or before a moment, or -1. */
  indexAt(moment) {
    let low = 0, high = this.length;
    while (low < high) {
      const middle = (low + high) >> 1;
      if (this.look(middle) <= moment) low = middle + 1; else high = middle;
    }
    return low - 1;
  }

  /** The index of the frame whose own line has an index in the readings' text, or -1. */
  indexOfLine(line) { return this.lines.indexOf(line); }

  /** How many frames there are of each kind, as `{ name, count }`. */
  counts() {
    const found = { frames: 0, commands: 0, 'data bytes': 0, 'not acknowledged': 0, glitches: 0 };
    for (let index = 0; index < this.length; index++) {
      const isWhole = this.number(index, 'bits') === 8, end = ENDS[this.number(index, 'end')];
      if (isWhole) found.frames++; else found.glitches++;
      if (isWhole) found[this.number(index, 'isCommand') ? 'commands' : 'data bytes']++;
      if (isWhole && end === 'not acknowledged') found['not acknowledged']++;
    }
    return Object.entries(found).map(([name, count]) => ({ name, count }));
  }
}

/** For each line its first level, and the moments at which it turns. */
export function turnsOf({ times, levels }) {
  return [ATN, CLOCK, DATA].map(bit => {
    let count = 0, level = levels.length ? levels[0] & bit : bit;
    const first = level > 0;
    for (let i = 1; i < times.length; i++) if ((levels[i] & bit) !== level) { level ^= bit; count++; }
    const turns = new Float64Array(count);
    level = first ? bit : 0;
    for (let i = 1, at = 0; at < count; i++) if ((levels[i] & bit) !== level) { level ^= bit; turns[at++] = times[i]; }
    return { first, times: turns };
  });
}

/** The index of the last edge at or before a moment, or -1. */
export function edgeAt(times, moment) {
  let low = 0, high = times.length;
  while (low < high) {
    const middle = (low + high) >> 1;
    if (times[middle] <= moment) low = middle + 1; else high = middle;
  }
  return low - 1;
}

/** A part of the wave that is a delay of some kind: `{ kind, name, from, to, line, bounds }`, moments in microseconds. */
const partOf = (kind, from, to, line = DELAYS[kind][1]) => ({ kind, name: nameOf(kind), from, to, line, bounds: boundsOf(kind) });

/** The delays around a moment, of those that edges end: `delays` has the kind of each and since when it counts. */
export function delaysAt({ times, levels }, delays, moment) {
  const parts = [], first = Math.max(edgeAt(times, moment), 1);
  // A delay goes past one edge at most.
  for (let i = first; i < Math.min(first + 3, times.length); i++) {
    const kind = kinds[delays.kinds[i]], isOfAtn = ((levels[i] ^ levels[i - 1]) & ATN) > 0;
    if (!kind || delays.since[i] > moment || times[i] < moment) continue;
    parts.push(partOf(kind, delays.since[i], times[i], kind === 'Bb' && isOfAtn ? ATN : undefined));
  }
  return parts;
}

/** The intervals of a frame whose moments its reading has. */
export function momentsOf({ look, ready, pulled, released, pull, last, end, fault }) {
  const opening = pulled === null ? [partOf('Ne', ready, pull)] : [partOf('Ye', ready, pulled), partOf('Ei', pulled, released), partOf('Ry', released, pull)];
  return [partOf('H', look, ready), ...opening, ...(fault ? [] : [partOf('F', last, end)])];
}

/** The half of a bit that a level of CLOCK is, from one moment to another. */
export const halfOf = (isReleased, from, to) => partOf(isReleased ? 'V' : 'S', from, to);

/** The lengths of a frame's intervals in order: `{ name, least, greatest, bounds }`. */
export function intervalsOf(frame) {
  const lengths = momentsOf(frame).map(({ name, from, to, bounds }) => ({ name, least: to - from, greatest: to - from, bounds }));
  const half = (kind, [least, greatest]) => ({ name: nameOf(kind), least, greatest, bounds: boundsOf(kind) });
  const halves = frame.bits ? [half('S', frame.low), half('V', frame.high)] : [];
  return frame.fault ? [...lengths, ...halves] : [...lengths.slice(0, -1), ...halves, ...lengths.slice(-1)];
}
