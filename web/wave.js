// The wave of ATN, CLOCK and DATA on a canvas, with the frames named over it, a time axis, and the whole wave in a
// strip below. What is drawn takes as long for a million edges as for a hundred: a column of pixels in which a line
// turns more than once is one stroke.

import { whenResized, whenSharper } from './basics.js';
import { SvgPen } from './pen.js';
import { ATN, CLOCK, DATA, delaysAt, edgeAt, Frames, halfOf, momentsOf } from './wire.js';

const WIRES = [{ name: 'ATN', bit: ATN }, { name: 'CLOCK', bit: CLOCK }, { name: 'DATA', bit: DATA }];
const NAMES_WIDTH = 58, RIGHT = 10;
const BIT_WIDTH = 26;          // pixels: what the number and the value of a bit need
const DIGIT_WIDTH = 14;        // pixels between the edges of CLOCK around them, so that they lie on neither

/** A number with thin spaces between its thousands. */
export const spaced = number => String(number).replace(/\B(?=(\d{3})+$)/g, '\u2009');

/** A byte in two hexadecimal digits. */
export const hexadecimal = byte => byte.toString(16).toUpperCase().padStart(2, '0');

/** A byte as it is named everywhere: its number, and its name if it has one. */
export const byteWords = (byte, name = byte > 32 && byte < 127 ? `'${String.fromCharCode(byte)}'` : `byte ${byte}`) => `$${hexadecimal(byte)} ${name}`;

/** What a frame is called: its byte, or how many bits it has. */
export const nameOf = ({ byte, name }) => (byte === null ? name : byteWords(byte, name));

export class Wave {
  /** @type {HTMLCanvasElement} */ canvas;
  /** @type {(under: any) => void} */ onUnder;
  /** @type {(index: number) => void} */ onChoose;

  /** `onUnder` gets what is under the pointer, `onChoose` the index of the frame that is chosen, or -1. */
  constructor(canvas, onUnder, onChoose) {
    Object.assign(this, { canvas, onUnder, onChoose, frames: new Frames(), edges: null, delays: null, turns: [] });
    Object.assign(this, { begin: 0, end: 0, from: 0, to: 1, moved: false, isWhole: false, chosen: -1, pointer: null, mark: null, pointed: null });
    // What is seen at first fits the width, so that frames have room for their names.
    whenResized(canvas, () => { if (this.edges && !this.moved) this.front(); else this.draw(); });
    whenSharper(() => this.draw());
    for (const query of ['(prefers-color-scheme: dark)', '(forced-colors: active)']) matchMedia(query).addEventListener('change', () => this.draw());
    canvas.addEventListener('keydown', event => this.key(event));
    canvas.addEventListener('wheel', event => this.wheel(event), { passive: false });
    this.listen();
  }

  /** Shows edges, the delays that they end, and frames. What was chosen is no longer; the place stays where somebody has moved it. */
  show(edges, delays, frames, turns) {
    this.edges = edges;
    this.delays = delays;
    this.frames = frames;
    this.chosen = -1;
    this.span = null;
    this.pointed = null;
    this.mark = null;
    this.turns = turns;
    const last = edges.times.length ? edges.times[edges.times.length - 1] : 0;
    const begin = edges.times.length ? edges.times[0] : 0;
    this.begin = Math.min(begin, 0);
    this.end = Math.max(last + Math.max((last - begin) * .01, 100), this.begin + 1000);
    // (who saw all of a wave sees all of the next one)
    if (this.moved && this.isWhole) this.all();
    else if (!this.moved || this.from >= this.end) this.front();
    else this.draw();
  }

  /** The pixels that a frame needs for its name. */
  nameWidth(frame) {
    const pen = this.canvas.getContext('2d');
    pen.font = `600 12px ${getComputedStyle(this.canvas).fontFamily}`;
    return pen.measureText(nameOf(frame)).width + 14;
  }

  /** The beginning of a long wave, or all of a short one. */
  front() {
    // Each of the first frames has room for its name.
    const firsts = Array.from({ length: Math.min(this.frames.length, 10) }, (_, index) => this.frames.get(index)).filter(({ byte, end }) => byte !== null && Number.isFinite(end));
    const pixel = Math.min(...firsts.map(frame => (frame.end - frame.look) / this.nameWidth(frame)));
    this.moved = false;
    this.see(this.begin, Math.min(this.begin + pixel * Math.max(this.width, 64), this.end), false);
  }

  all() { this.see(this.begin, this.end); }

  /** Shows the time between two moments. */
  see(from, to, moved = true) {
    const width = Math.max(Math.min(to - from, this.end - this.begin), 20);
    this.from = Math.min(Math.max(from, this.begin), this.end - width);
    this.to = this.from + width;
    this.moved ||= moved;
    this.isWhole = width >= this.end - this.begin;
    this.draw();
  }

  /** The moment about which keys and buttons zoom: the middle of the frame that is chosen, if it is seen, or that of the window. */
  middle() {
    const frame = this.frames.get(this.chosen), middle = frame && (frame.look + Math.min(frame.end, this.end)) / 2;
    return frame && middle >= this.from && middle <= this.to ? middle : (this.from + this.to) / 2;
  }

  zoom(factor, at = this.middle()) {
    this.see(at - (at - this.from) / factor, at + (this.to - at) / factor);
  }

  pan(part) { const width = this.to - this.from; this.see(this.from + part * width, this.to + part * width); }

  /** Chooses a frame; where it is not seen the view moves to it, as wide as it is. `onChoose` is called if `tell`. */
  choose(index, tell = true) {
    this.chosen = index;
    this.span = null;
    const frame = this.frames.get(index);
    if (frame) {
      const end = Number.isFinite(frame.end) ? frame.end : frame.look + 1000, seen = this.to - this.from;
      // (of a frame that is wider than the view a part is enough)
      const isSeen = end - frame.look < seen ? frame.look >= this.from && end <= this.to : frame.look < this.to && end > this.from;
      const from = Math.min((frame.look + end - seen) / 2, frame.look - seen * .05);
      if (!isSeen) this.see(from, from + seen);
    }
    this.draw();
    if (tell) this.onChoose(index);
  }

  /** Marks the time of a line of the listing, or none. */
  showSpan(span) {
    this.span = span;
    if (span && (span[0] < this.from || span[1] > this.to)) this.see(span[0] - (span[1] - span[0]) * .1, span[1] + (span[1] - span[0]) * .1);
    this.draw();
  }

  /** Shows frames that belong to what is pointed at, as the first and the one after the last, or null. */
  point(frames) {
    const isOwn = this.pointer && frames && frames[1] - frames[0] === 1;
    this.pointed = isOwn ? null : frames;
    this.draw();
  }

  /** When what is pointed at begins and ends, if that is outside of the view; or null. */
  outside() {
    if (!this.pointed || this.pointed[1] <= this.pointed[0]) return null;
    const span = [this.frames.look(this.pointed[0]), Math.min(this.frames.end(this.pointed[1] - 1), this.end)];
    return span[1] < this.from || span[0] > this.to ? span : null;
  }

  /** Puts the second cursor at a moment, from which times are measured; or takes it away (null). */
  measureFrom(moment) {
    this.mark = moment;
    this.draw();
  }

  /** Puts the second cursor where the pointer is, or at the frame that is chosen, or in the middle; or takes it away. */
  toggleMark() {
    const frame = this.frames.get(this.chosen);
    this.measureFrom(this.mark !== null ? null : this.pointer ? this.momentAt(this.pointer.x) : frame ? frame.look : this.middle());
  }

  // places

  /** The wave's size on the page: where another tab is shown, the one that it had, or one that serves a picture. */
  get size() {
    const { clientWidth, clientHeight } = this.canvas;
    if (clientWidth > 0) this.lastSize = { clientWidth, clientHeight };
    return this.lastSize ?? { clientWidth: 1024, clientHeight: 220 };
  }
  get width() { return this.size.clientWidth - NAMES_WIDTH - RIGHT; }
  xOf(moment) { return NAMES_WIDTH + (moment - this.from) / (this.to - this.from) * this.width; }
  momentAt(x) { return this.from + (x - NAMES_WIDTH) / this.width * (this.to - this.from); }
  rows() {
    const height = this.size.clientHeight, top = 40, bottom = Math.max(height - 44, top + 36), each = (bottom - top) / 3;
    return { band: 8, top, bottom, each, axis: bottom + 4, strip: height - 14 };
  }

  /** The index of the frame at a moment, or -1. */
  frameUnder(moment) {
    const index = this.frames.indexAt(moment), frame = this.frames.get(index);
    return frame && (moment <= frame.end) ? index : -1;
  }

  /** The level of a line at a moment, and from when to when it keeps it. */
  levelAt(wire, moment) {
    const { first, times } = this.turns[WIRES.indexOf(wire)], next = edgeAt(times, moment) + 1;
    return { released: first === (next % 2 === 0), from: times[next - 1] ?? this.begin, to: times[next] ?? Infinity };
  }

  /** The half of a bit of a frame at a moment: a level of CLOCK between its first pull and its last. */
  halvesAt(frame, moment) {
    const { released, from, to } = this.levelAt(WIRES[1], moment);
    return frame.bits && from >= frame.pull && to <= frame.last ? [halfOf(released, from, to)] : [];
  }

  /** Which bit of a frame begins or goes on at a moment, from 0. */
  bitAt(frame, moment) { return (edgeAt(this.turns[1].times, moment) - edgeAt(this.turns[1].times, frame.pull)) >> 1; }

  /** The named intervals around a moment: the delays that the module knows there, or else the moments of the reading. */
  intervalsAt(moment) {
    const parts = delaysAt(this.edges, this.delays, moment), frame = this.frames.get(this.frameUnder(moment));
    if (parts.length || !frame) return parts;
    return [...momentsOf(frame), ...this.halvesAt(frame, moment)].filter(part => part.from <= moment && moment <= part.to);
  }

  /** What is under the pointer: the moment, the frame, the named interval, or else how long the line under it keeps its level. */
  under() {
    if (!this.pointer || !this.edges) return null;
    const { x, y } = this.pointer, { top, bottom, each } = this.rows();
    if (x < NAMES_WIDTH || x > this.canvas.clientWidth - RIGHT || y > bottom + 20) return null;
    const moment = this.momentAt(x), wire = y >= top && y < bottom ? WIRES[Math.floor((y - top) / each)] : null;
    const around = this.intervalsAt(moment);
    around.sort((a, b) => (a.to - a.from) - (b.to - b.from));
    const part = around.find(part => wire && part.line === wire.bit) || around[0] || null, frame = this.frameUnder(moment);
    const bit = part && frame >= 0 && 'SV'.includes(part.kind) ? this.bitAt(this.frames.get(frame), part.from) : null;
    return { moment, frame, part, bit, wire, level: !part && wire ? this.levelAt(wire, moment) : null };
  }

  // keys, wheel and pointers

  key(event) {
    const step = event.shiftKey ? .9 : .15, last = this.frames.length - 1;
    const next = () => this.chosen >= 0 ? this.chosen + 1 : Math.max(this.frames.indexAt(this.from) + (this.from > this.begin ? 1 : 0), 0);
    const before = () => this.chosen >= 0 ? this.chosen - 1 : next() - 1;
    const keys = {
      ArrowLeft: () => this.pan(-step),
      ArrowRight: () => this.pan(step),
      '+': () => this.zoom(1.5),
      '=': () => this.zoom(1.5),
      '-': () => this.zoom(1 / 1.5),
      0: () => this.all(),
      Home: () => this.all(),
      End: () => this.see(this.end - (this.to - this.from), this.end),
      Escape: () => { this.measureFrom(null); this.choose(-1); },
      m: () => this.toggleMark(),
      n: () => last >= 0 && this.choose(Math.min(next(), last)),
      p: () => last >= 0 && this.choose(Math.max(before(), 0)),
    };
    const act = !event.ctrlKey && !event.metaKey && !event.altKey && (keys[event.key] || keys[event.key.toLowerCase()]);
    if (!act) return;
    event.preventDefault();
    act();
  }

  wheel(event) {
    const scrolls = document.scrollingElement.scrollHeight > document.scrollingElement.clientHeight + 1;
    const across = event.shiftKey ? event.deltaX || event.deltaY : event.deltaX;
    if (Math.abs(across) > Math.abs(event.deltaY) || event.shiftKey) { event.preventDefault(); this.pan(across / 800); return; }
    if (scrolls && !event.ctrlKey && !event.metaKey) return;
    event.preventDefault();
    this.zoom(Math.exp(-event.deltaY / 250), this.momentAt(event.offsetX));
  }

  listen() {
    const canvas = this.canvas, held = new Map();
    let drag = null;
    const stripTo = x => {
      const middle = this.begin + (x - NAMES_WIDTH) / this.width * (this.end - this.begin), half = (this.to - this.from) / 2;
      this.see(middle - half, middle + half);
    };
    canvas.addEventListener('pointerdown', event => {
      canvas.setPointerCapture(event.pointerId);
      held.set(event.pointerId, event.offsetX);
      drag = { x: event.offsetX, from: this.from, to: this.to, far: false, strip: event.offsetY >= this.rows().strip - 4 };
      if (drag.strip) stripTo(event.offsetX);
    });
    canvas.addEventListener('pointermove', event => {
      this.pointer = { x: event.offsetX, y: event.offsetY };
      if (held.has(event.pointerId)) {
        if (held.size === 2) {
          const before = [...held.values()];
          held.set(event.pointerId, event.offsetX);
          const after = [...held.values()], span = list => Math.max(Math.abs(list[0] - list[1]), 10);
          this.zoom(span(after) / span(before), this.momentAt((after[0] + after[1]) / 2));
          drag = null;
          return;
        }
        held.set(event.pointerId, event.offsetX);
        if (drag?.strip) stripTo(event.offsetX);
        else if (drag && (drag.far || Math.abs(event.offsetX - drag.x) > 4)) {
          drag.far = true;
          const by = (drag.x - event.offsetX) / this.width * (drag.to - drag.from);
          this.see(drag.from + by, drag.to + by);
        }
      }
      this.draw();
    });
    const up = event => {
      held.delete(event.pointerId);
      const isClick = event.type === 'pointerup' && drag && !drag.far && !drag.strip, moment = this.momentAt(event.offsetX);
      if (isClick && event.shiftKey) this.measureFrom(moment);
      else if (isClick) this.choose(this.frameUnder(moment));
      drag = null;
    };
    canvas.addEventListener('pointerup', up);
    canvas.addEventListener('pointercancel', up);
    canvas.addEventListener('pointerleave', event => {
      if (event.pointerType === 'touch' && this.mark !== null) return;     // (a finger that is lifted has shown a place)
      this.pointer = null;
      this.draw();
      this.onUnder(null);
    });
  }

  // drawing

  /** The colours of the page by their names, as the pen takes them. In forced colours they are the system's. */
  inks(style) {
    const found = new Map();
    return name => {
      if (!found.has(name)) {
        this.canvas.style.color = `var(--${name})`;
        found.set(name, style.color);
        this.canvas.style.color = '';
      }
      return found.get(name);
    };
  }

  draw() {
    if (this.waiting) return;
    this.waiting = true;
    requestAnimationFrame(() => { this.waiting = false; this.drawNow(); });
  }

  drawNow() {
    const canvas = this.canvas, width = canvas.clientWidth, height = canvas.clientHeight, ratio = devicePixelRatio || 1;
    if (!width || !height) return;
    if (canvas.width !== Math.round(width * ratio) || canvas.height !== Math.round(height * ratio)) {
      canvas.width = Math.round(width * ratio);
      canvas.height = Math.round(height * ratio);
    }
    const pen = canvas.getContext('2d');
    pen.setTransform(ratio, 0, 0, ratio, 0, 0);
    pen.clearRect(0, 0, width, height);
    this.drawWith(pen, height);
    // (what is under the pointer is another thing once the wave has moved)
    if (this.pointer) this.onUnder(this.under());
  }

  /** Draws what is seen with a pen: that of the canvas, or one that writes a picture. */
  drawWith(pen, height) {
    const style = getComputedStyle(this.canvas);
    this.pen = pen;
    this.ink = this.inks(style);
    this.font = style.fontFamily;
    if (!this.edges) return;
    const places = this.rows();
    pen.save();
    pen.beginPath();
    pen.rect(NAMES_WIDTH, 0, this.width, height);
    pen.clip();
    this.drawAttention(places);
    this.drawAxis(places);
    this.drawChosen(places);
    WIRES.forEach((wire, number) => {
      const top = places.top + number * places.each;
      this.drawWire(this.turns[number], top + 8, top + places.each - 6);
    });
    this.drawFrames(places);
    this.drawBits(places);
    this.drawUnder(places);
    this.drawMark(places);
    this.drawStrip(places);
    pen.restore();
    pen.fillStyle = this.ink('muted');
    pen.font = `600 12px ${this.font}`;
    pen.textAlign = 'right';
    pen.textBaseline = 'middle';
    WIRES.forEach(({ name }, number) => pen.fillText(name, NAMES_WIDTH - 10, places.top + (number + .5) * places.each + 1));
  }

  /** What is seen of the wave, as an SVG document. */
  svg() {
    const { clientWidth, clientHeight } = this.size, pen = new SvgPen(clientWidth, clientHeight, this.canvas.getContext('2d'));
    pen.fillStyle = this.inks(getComputedStyle(this.canvas))('ground');
    pen.fillRect(0, 0, clientWidth, clientHeight);
    this.drawWith(pen, clientHeight);
    return pen.document();
  }

  /** The turns of a line in what can be seen, the first that is and the first that is no longer. */
  seen(times) { return [edgeAt(times, this.from) + 1, edgeAt(times, this.to) + 1]; }

  drawAttention({ top, bottom }) {
    const pen = this.pen, { first, times } = this.turns[0];
    let [i, to] = this.seen(times), right = -1;
    pen.fillStyle = this.ink('attention');
    if (first === (i % 2 !== 0)) i--;
    for (; i < to; i++) {
      if ((i % 2 === 0) !== first) continue;
      const x = Math.max(this.xOf(times[i] ?? this.begin), right), end = this.xOf(times[i + 1] ?? this.end);
      if (end - x < .5) continue;
      pen.fillRect(x, top - 2, Math.max(end - x, 1), bottom - top + 2);
      right = end;
    }
  }

  drawAxis({ top, bottom, axis }) {
    const pen = this.pen, rough = (this.to - this.from) / Math.max(this.width / 110, 1);
    const power = 10 ** Math.floor(Math.log10(rough)), step = Math.max([1, 2, 5, 10].find(n => n * power >= rough) * power, 1);
    const [unit, per] = step >= 1e6 ? ['s', 1e6] : step >= 1e3 ? ['ms', 1e3] : ['µs', 1];
    pen.font = `12px ${this.font}`;
    pen.textBaseline = 'top';
    // (counted: to a moment of some 2^64 a step adds nothing)
    for (let n = 0, first = Math.ceil(this.from / step); n <= (this.to - this.from) / step && (first + n) * step <= this.to; n++) {
      const moment = (first + n) * step;
      const x = Math.round(this.xOf(moment)) + .5;
      pen.strokeStyle = this.ink('line');
      pen.lineWidth = 1;
      pen.beginPath();
      pen.moveTo(x, top - 2);
      pen.lineTo(x, bottom + 3);
      pen.stroke();
      const words = `${spaced(moment / per)} ${unit}`, half = pen.measureText(words).width / 2;
      pen.textAlign = 'center';
      pen.fillStyle = this.ink('muted');
      pen.fillText(words, Math.min(Math.max(x, NAMES_WIDTH + half), NAMES_WIDTH + this.width - half), axis + 2);
    }
  }

  drawWire({ first, times }, high, low) {
    const pen = this.pen, [from, to] = this.seen(times), right = NAMES_WIDTH + this.width;
    const levelOf = turn => (first === (turn % 2 === 0)) ? high : low;
    pen.strokeStyle = this.ink('wave');
    pen.lineWidth = 1.5;
    pen.lineJoin = 'round';
    pen.beginPath();
    let y = levelOf(from);
    pen.moveTo(NAMES_WIDTH, y);
    if (to - from <= this.width / 3) {
      for (let i = from; i < to; i++) {
        const x = this.xOf(times[i]);
        pen.lineTo(x, y);
        pen.lineTo(x, y = levelOf(i + 1));
      }
      pen.lineTo(right, y);
      pen.stroke();
      return;
    }
    const dense = [];
    for (let x = NAMES_WIDTH, i = from; x < right; x++) {
      const next = Math.min(edgeAt(times, this.momentAt(x + 1)) + 1, to);
      if (next - i > 1) dense.push([x, next - i]);
      pen.lineTo(x, y);
      if (next > i) { pen.moveTo(x, high); pen.lineTo(x, low); pen.moveTo(x, y = levelOf(next)); }
      i = next;
    }
    pen.globalAlpha = .55;
    pen.stroke();
    pen.globalAlpha = 1;
  }

  /** The colour of the frame with an index, where there are too many to make each. */
  colourAt(index) { return this.ink(!this.frames.isHeard(index) ? 'bad' : this.frames.number(index, 'isCommand') ? 'command' : 'data'); }

  colourOf(frame) { return frame.fault ? this.ink('bad') : frame.kind === 'command' ? this.ink('command') : this.ink('data'); }

  drawFrames({ band }) {
    const pen = this.pen, first = Math.max(this.frames.indexAt(this.from), 0), last = this.frames.indexAt(this.to);
    if (last - first > this.width / 4) {
      for (let x = NAMES_WIDTH; x < NAMES_WIDTH + this.width; x++) {
        const index = this.frames.indexAt(this.momentAt(x + 1));
        if (index < 0 || Math.min(this.frames.end(index), this.end) < this.momentAt(x)) continue;
        pen.fillStyle = this.colourAt(index);
        pen.fillRect(x, band + 4, 1, 18);
      }
      return;
    }
    pen.textBaseline = 'middle';
    pen.textAlign = 'center';
    for (let index = first; index <= last; index++) {
      const frame = this.frames.get(index), x = Math.max(this.xOf(frame.look), NAMES_WIDTH - 6);
      const end = Math.min(this.xOf(Math.min(frame.end, this.end)), NAMES_WIDTH + this.width + 6);
      if (end > x) this.drawFrame(frame, x, Math.max(end - x, 1.5), band, index === this.chosen);
    }
  }

  drawFrame(frame, x, width, top, chosen) {
    const pen = this.pen, colour = this.colourOf(frame), eoi = frame.eoi ? Math.min(5, width) : 0;
    pen.beginPath();
    pen.roundRect(x + .5, top + .5, Math.max(width - 1, 1), 24, Math.min(4, width / 3));
    pen.fillStyle = colour;
    pen.globalAlpha = chosen ? 1 : .16;
    pen.fill();
    pen.globalAlpha = 1;
    pen.lineWidth = chosen ? 2 : 1;
    pen.strokeStyle = colour;
    pen.stroke();
    if (eoi) { pen.fillStyle = this.ink('eoi'); pen.fillRect(x + width - eoi - .5, top + 1, eoi, 23); }
    pen.font = `600 12px ${this.font}`;
    // (a frame has its whole name, or none where there is no room for it)
    const named = nameOf(frame), more = frame.eoi ? ' EOI' : frame.fault ? `, ${frame.fault}` : '';
    const fitting = [named + more, named].find(words => pen.measureText(words).width < width - eoi - 5);
    if (!fitting) return;
    pen.fillStyle = chosen ? this.ink('ground') : this.ink('text');
    pen.fillText(fitting, x + (width - eoi) / 2, top + 13);
  }

  /** Where CLOCK is released in a frame DATA has a bit: its number and its value, where there is room for them. */
  drawBits({ top, each }) {
    const pen = this.pen, { times } = this.turns[1], begin = Math.max(this.frames.indexAt(this.from), 0), end = this.frames.indexAt(this.to);
    if (end - begin > this.width / 8 / BIT_WIDTH + 2) return;
    pen.font = `600 12px ${this.font}`;
    pen.textAlign = 'center';
    pen.textBaseline = 'middle';
    for (let index = begin; index <= end; index++) {
      const frame = this.frames.get(index), first = edgeAt(times, frame.pull) + 1;
      if (!frame.bits || (this.xOf(frame.last) - this.xOf(frame.pull)) / frame.bits < BIT_WIDTH) continue;
      for (let bit = 0; bit < frame.bits; bit++) {
        const rise = times[first + 2 * bit], fall = times[first + 2 * bit + 1] ?? this.end, x = (this.xOf(rise) + this.xOf(fall)) / 2;
        if (!(rise < this.to && fall > this.from) || this.xOf(fall) - this.xOf(rise) < DIGIT_WIDTH) continue;
        pen.fillStyle = this.ink('muted');
        pen.fillText(String(bit), x, top + 1.5 * each + 1);
        pen.fillStyle = this.ink('data');
        pen.fillText(this.levelAt(WIRES[2], fall - 1e-3).released ? '1' : '0', x, top + 2.5 * each + 1);
      }
    }
  }

  /** The second cursor. */
  drawMark({ bottom }) {
    if (this.mark === null) return;
    const x = Math.round(this.xOf(this.mark)) + .5;
    this.pen.fillStyle = this.ink('accent');
    this.pen.fillRect(x - 1, 0, 2, bottom + 3);
    if (!this.pointer) return;
    const other = this.pointer.x, y = bottom - 1;
    this.pen.fillRect(Math.min(x, other), y, Math.abs(other - x), 2);
  }

  drawChosen({ band, bottom }) {
    const { frames } = this, pointed = this.pointed && this.pointed[1] > this.pointed[0] ? [frames.look(this.pointed[0]), frames.end(this.pointed[1] - 1)] : null;
    for (const span of [this.span, pointed].filter(Boolean)) {
      const [x, end] = span.map(moment => this.xOf(Math.min(moment, this.end)));
      this.pen.fillStyle = this.ink('found');
      this.pen.globalAlpha = .22;
      this.pen.fillRect(x, 2, Math.max(end - x, 2), bottom);
      this.pen.globalAlpha = 1;
    }
    const frame = this.frames.get(this.chosen);
    if (!frame) return;
    const x = this.xOf(frame.look), end = this.xOf(Math.min(frame.end, this.end));
    this.pen.fillStyle = this.colourOf(frame);
    this.pen.globalAlpha = .1;
    this.pen.fillRect(x, band + 26, Math.max(end - x, 1), bottom - band - 24);
    this.pen.globalAlpha = 1;
  }

  drawUnder({ top, bottom, each }) {
    const under = this.under(), pen = this.pen;
    if (!under) return;
    const x = Math.round(this.xOf(under.moment)) + .5;
    pen.strokeStyle = this.ink('muted');
    pen.lineWidth = 1;
    pen.setLineDash([2, 3]);
    pen.beginPath();
    pen.moveTo(x, top - 2);
    pen.lineTo(x, bottom);
    pen.stroke();
    pen.setLineDash([]);
    if (!under.part) return;
    const { from, to, line, bounds } = under.part, number = WIRES.findIndex(({ bit }) => bit === line);
    const left = this.xOf(from), right = this.xOf(to), y = top + (number + .5) * each + 1;
    const bad = bounds && (to - from < bounds[0] || to - from > bounds[1]);
    pen.strokeStyle = pen.fillStyle = this.ink(bad ? 'bad' : 'accent');
    pen.lineWidth = 1.5;
    pen.beginPath();
    for (const end of [left, right]) { pen.moveTo(end, y - each * .34); pen.lineTo(end, y + each * .34); }
    pen.moveTo(left, y);
    pen.lineTo(right, y);
    pen.stroke();
    const words = `${spaced(to - from)} µs`;
    pen.font = `600 12px ${this.font}`;
    const wide = pen.measureText(words).width + 10;
    const first = Math.max(left, NAMES_WIDTH), last = Math.min(right, NAMES_WIDTH + this.width), beside = last - first < wide + 6;
    const wanted = !beside ? (first + last) / 2 : last + wide + 8 < NAMES_WIDTH + this.width ? last + 6 + wide / 2 : first - 6 - wide / 2;
    const middle = Math.min(Math.max(wanted, NAMES_WIDTH + wide / 2), NAMES_WIDTH + this.width - wide / 2);
    pen.beginPath();
    pen.roundRect(middle - wide / 2, y - 9, wide, 18, 4);
    pen.fill();
    pen.fillStyle = this.ink('ground');
    pen.textAlign = 'center';
    pen.textBaseline = 'middle';
    pen.fillText(words, middle, y + .5);
  }

  drawStrip({ strip }) {
    const pen = this.pen, whole = this.end - this.begin;
    pen.fillStyle = this.ink('line');
    pen.fillRect(NAMES_WIDTH, strip, this.width, 8);
    for (let x = 0; x < this.width; x++) {
      const moment = this.begin + (x + 1) / this.width * whole, index = this.frames.indexAt(moment);
      if (index < 0 || Math.min(this.frames.end(index), this.end) < moment - whole / this.width) continue;
      pen.fillStyle = this.colourAt(index);
      pen.globalAlpha = .5;
      pen.fillRect(NAMES_WIDTH + x, strip, 1, 8);
    }
    pen.globalAlpha = 1;
    const outside = this.outside();
    if (outside) {
      const [left, right] = outside.map(moment => NAMES_WIDTH + (moment - this.begin) / whole * this.width);
      pen.fillStyle = this.ink('found');
      pen.fillRect(left - 1, strip - 2, Math.max(right - left, 3), 12);
    }
    const x = NAMES_WIDTH + (this.from - this.begin) / whole * this.width, width = Math.max((this.to - this.from) / whole * this.width, 4);
    pen.strokeStyle = this.ink('accent');
    pen.lineWidth = 2;
    pen.beginPath();
    pen.roundRect(x + 1, strip - 2, Math.max(width - 2, 2), 12, 3);
    pen.stroke();
  }
}
