// Shows a long text: only the lines that can be seen are in the page, and only they are made of its bytes.

import { decode, whenResized } from './basics.js';

const NO_TEXT = { bytes: new Uint8Array(0), starts: new Uint32Array(1) };
export const HIGHEST = 15e6;         // pixels: the highest element that browsers lay out

export class Reader {
  /** Shows texts in an element that scrolls. `onLine` gets the index of a line that is clicked. */
  constructor(element, onLine = null) {
    this.element = element;
    this.onLine = onLine;
    this.text = NO_TEXT;
    this.marked = -1;
    this.block = document.createElement('pre');
    this.room = document.createElement('div');
    this.room.className = 'room';
    this.room.append(this.block);
    element.append(this.room);
    element.addEventListener('scroll', () => this.draw(), { passive: true });
    whenResized(element, () => this.draw());
    if (onLine) {
      this.block.addEventListener('click', event => {
        const line = /** @type {any} */ (event.target).closest('[data-line]');
        if (line && !String(getSelection())) onLine(Number(line.dataset.line));
      });
    }
  }

  /** Shows a text, by its bytes and where each of its lines begins, and where the last one ends; or nothing. */
  show(text = NO_TEXT) {
    this.text = text;
    this.marked = -1;
    this.drawn = '';
    this.draw();
  }

  /** How many lines there are: after a last line's end there is none. */
  get length() {
    const { bytes, starts } = this.text, count = starts.length - 1;
    return count > 0 && starts[count - 1] === bytes.length ? count - 1 : count;
  }

  line(at) {
    const { bytes, starts } = this.text, to = starts[at + 1];
    return decode(bytes.subarray(starts[at], bytes[to - 1] === 10 ? to - 1 : to));
  }

  /** All lines (the tests look at them). */
  get lines() { return Array.from({ length: this.length }, (_, at) => this.line(at)); }

  /** Marks a line and brings it into view. */
  mark(line) {
    this.marked = line;
    this.drawn = '';
    const { element } = this, { height, crowding } = this.measures(), top = line * height / crowding;
    if (line >= 0 && element.clientHeight && (top < element.scrollTop || top + height > element.scrollTop + element.clientHeight)) {
      element.scrollTop = top - element.clientHeight / 3;
    }
    this.draw();
  }

  /** The height of a line, and how many lines go by for one that is scrolled: more than one where a browser has no element so high. */
  measures() {
    const height = parseFloat(getComputedStyle(this.block).lineHeight) || 20, whole = this.length * height, seen = this.element.clientHeight;
    return { height, crowding: whole > HIGHEST ? (whole - seen) / (HIGHEST - seen) : 1 };
  }

  draw() {
    const { scrollTop, clientHeight } = this.element;
    if (!clientHeight) return;
    const { height, crowding } = this.measures(), first = scrollTop * crowding / height, from = Math.max(Math.floor(first) - 20, 0);
    const to = Math.min(from + Math.ceil(clientHeight / height) + 40, this.length);
    const key = [from, to, height].join(' ');
    if (key === this.drawn) return;
    this.drawn = key;
    this.room.style.height = `${Math.min(this.length * height, HIGHEST)}px`;
    this.block.style.transform = `translateY(${scrollTop - (first - from) * height}px)`;
    this.block.replaceChildren(...Array.from({ length: Math.max(to - from, 0) }, (_, index) => this.rowOf(from + index)));
  }
  rowOf(line) {
    const row = document.createElement('span');
    row.dataset.line = String(line);
    row.textContent = `${this.line(line)}\n`;
    if (line === this.marked) row.className = 'marked';
    return row;
  }
}
