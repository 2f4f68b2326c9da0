// The listing: a text field with the numbers of its lines, a sign beside each for its statements' status, and notes at
// the place of a refusal or a stop. Only the lines that can be seen are drawn.

import { whenResized } from './basics.js';
import { isForLongField, LongField, MARK } from './longfield.js';

const COLOURED = 2000;         // characters: a longer line has no colours

/** Puts rows into an element, in their order. Those that are there already stay as they are, so that a key draws one line. */
function showRows(element, rows) {
  rows.forEach((row, place) => {
    const there = element.children[place];
    if (there === row) return;
    if (there && !rows.includes(there)) there.replaceWith(row); else element.insertBefore(row, there ?? null);
  });
  while (element.children.length > rows.length) element.lastChild.remove();
}

/** The browser's own text field, by the names that a field for many lines has. */
class ShortField {
  constructor(element) { this.element = element; }
  get text() { return this.element.value; }
  set text(text) { this.element.value = text; }
  get start() { return this.element.selectionStart; }
  select(from, to = from) { this.element.setSelectionRange(from, to); }
}

export class Editor {
  /**
   * `reading` gives a listing's form, the parts of a line with their kinds, and what the part at a column says; `onLine` gets the line
   * whose number is clicked, or on which the cursor is when Ctrl and Enter are pressed; `onPoint` the line and the column that are
   * pointed at, -1 for none.
   */
  constructor(element, onInput, reading, onLine, onPoint) {
    this.reading = reading;
    this.chosen = -1;
    this.colours = element.querySelector('.colours');
    this.short = new ShortField(element.querySelector('textarea'));
    this.long = new LongField(element.querySelector('#long-script'));
    this.field = this.short;   // that of them which is shown
    this.hasSwapped = false;   // whether the field for many lines took the place of the other one by an edit
    this.pasted = null;        // the text that has a mark for what was pasted, and the cursor's place
    this.numbers = element.querySelector('.numbers');
    this.notes = element.querySelector('.notes');
    this.starts = [0];
    this.signs = [];       // of each line: '', 'fine', 'unanswered', 'stopped', 'unreached', 'refused'
    this.titles = [];
    this.note = null;      // { line, from, to, words, kind }
    this.place = null;     // { line, from, to }: the character of what is chosen
    this.pointed = null;   // the same of what is pointed at, and its line
    this.rows = new Map(); // the elements of what is drawn, by what it shows
    // (a browser lays a long listing out anew before it can be drawn: the worker prints it meanwhile)
    this.typed = -Infinity;    // when a key was pressed last
    this.onInput = onInput;
    this.onLine = onLine;
    this.onPoint = onPoint;
    for (const field of [this.short, this.long]) this.listen(field);
    this.short.element.addEventListener('paste', event => this.paste(event));
    this.numbers.addEventListener('click', event => {
      const number = event.target.closest('.number');
      if (number) onLine(Number(number.textContent) - 1);
    });
    this.numbers.addEventListener('pointermove', event => onPoint(Number(event.target.closest('.number')?.textContent ?? 0) - 1, -1));
    this.numbers.addEventListener('pointerleave', () => onPoint(-1, -1));
    this.measure();
  }

  /** Follows what is done in a field. */
  listen(field) {
    const { element } = field;
    element.addEventListener('input', () => { if (!(field === this.long && this.long.isTakingOut)) this.typedIn(field); });
    element.addEventListener('scroll', () => { if (field === this.field) this.draw(); }, { passive: true });
    element.addEventListener('keydown', event => {
      if (event.key !== 'Enter' || !(event.ctrlKey || event.metaKey)) return;
      event.preventDefault();
      this.chooseOwn();
    });
    element.addEventListener('pointermove', event => this.tellUnder(event));
    element.addEventListener('pointerleave', () => this.onPoint(-1, -1));
    whenResized(element, () => { if (field === this.field) this.draw(); });
  }

  /** The element of the field that is shown. */
  get area() { return this.field.element; }

  /** Something was typed, pasted, undone or done again: also, where the field for many lines has taken its place, in the browser's own. */
  typedIn(field) {
    if (field !== this.field && !(field === this.short && this.hasSwapped)) return;
    this.typed = performance.now();
    const isPasted = field === this.short && this.pasted && field.text.includes(MARK), { text, start } = isPasted ? this.pasted : field;
    const isLong = field === this.long || isForLongField(text);
    if (isLong === (this.field === this.long)) this.measure();
    else this.swap(isLong, text, start);
    requestAnimationFrame(() => this.draw());
    this.onInput();
  }

  /** Shows the other field, with the cursor at a place of the text. The browser's undo leads back to the one before. */
  swap(isLong, text, start) {
    this.hasSwapped = isLong;
    if (isLong) this.long.text = text;
    this.show(isLong ? this.long : this.short);
    this.area.focus({ preventScroll: true });
    this.field.select(start);
    this.measure();
    this.reveal(this.lineAt(start));
  }

  /** Puts many lines into the field for them at once: for the browser's undo a mark takes their place in its own, where it would take seconds. */
  paste(event) {
    const pasted = event.clipboardData.getData('text/plain').replace(/\r\n?/g, '\n'), { value, selectionStart, selectionEnd } = this.short.element;
    const text = value.slice(0, selectionStart) + pasted + value.slice(selectionEnd);
    if (!isForLongField(text)) return;
    event.preventDefault();
    this.pasted = { text, start: selectionStart + pasted.length };
    document.execCommand('insertText', false, MARK);
  }

  /** Shows one of the fields. (A browser undoes nothing in a field that is hidden, so its own is only put aside.) */
  show(field) {
    const { element } = this.short, isAside = field !== this.short;
    this.field = field;
    this.long.element.hidden = field !== this.long;
    element.classList.toggle('aside', isAside);
    element.tabIndex = isAside ? -1 : 0;
    if (isAside) element.setAttribute('aria-hidden', 'true'); else element.removeAttribute('aria-hidden');
  }

  /** The text as it was measured last: a browser makes a long one anew each time it is asked. */
  get text() { return this.measured; }

  /** Puts another text in, so that the browser's own undo brings the old one back (a long one would take a browser too long). */
  replace(text) {
    const plain = text.replace(/\r\n?/g, '\n');
    if (plain === this.text) return;
    const field = isForLongField(plain) ? this.long : this.short;
    // (a browser takes seconds to insert a long text so that it can be undone)
    if (field === this.field && plain.length < 4000 && this.text && this.text.length < 4000) {
      const focused = /** @type {HTMLElement} */ (document.activeElement);
      this.area.focus({ preventScroll: true });
      this.area.select();
      document.execCommand(plain ? 'insertText' : 'delete', false, plain);
      if (focused && focused !== document.body) focused.focus({ preventScroll: true }); else this.area.blur();
    }
    this.hasSwapped = false;
    this.pasted = null;
    this.show(field);
    if (field.text !== plain) field.text = plain;
    if (document.activeElement === this.area || field === this.short) field.select(0);
    this.area.scrollTo(0, 0);
    this.measure();
    this.typed = -Infinity;
    this.tell([], [], null);
  }

  /** Takes the text, and finds where each line begins. */
  measure() {
    const text = this.measured = this.field.text, starts = [0];
    for (let at = text.indexOf('\n'); at >= 0; at = text.indexOf('\n', at + 1)) starts.push(at + 1);
    this.starts = starts;
    return this;
  }

  line(number) {
    return this.text.slice(this.starts[number], (this.starts[number + 1] ?? this.text.length + 1) - 1);
  }

  /** Shows signs beside the lines, with their words, and a note in a line. */
  tell(signs, titles, note) {
    Object.assign(this, { signs, titles, note, chosen: -1, place: null, pointed: null });
    this.draw();
  }

  /** Marks a line's number, and brings the line into view. */
  choose(line) {
    this.place = null;
    if (line === this.chosen) return this.draw();
    this.chosen = line;
    this.reveal(line);
    this.draw();
  }

  /** Brings a line into view. */
  reveal(line) {
    const height = parseFloat(getComputedStyle(this.area).lineHeight), top = line * height, { scrollTop, clientHeight } = this.area;
    if (line >= 0 && (top < scrollTop || top + 2 * height > scrollTop + clientHeight)) this.area.scrollTop = top - clientHeight / 3;
  }

  /** Shows the character of what is chosen, or none. */
  showPlace(line, place) {
    this.place = place ? { line, ...place } : null;
    this.draw();
  }

  /** Shows a line and a character that belong to what is pointed at, or none. */
  point(line, place) {
    this.pointed = line >= 0 ? { line, ...(place || { from: 0, to: 0 }) } : null;
    this.draw();
  }

  /** The line of a place in the text. */
  lineAt(place) {
    let low = 0, high = this.starts.length;
    while (low < high) {
      const middle = (low + high) >> 1;
      if (this.starts[middle] <= place) low = middle + 1; else high = middle;
    }
    return low - 1;
  }

  /** The line on which the cursor is. */
  cursorLine() { return this.lineAt(this.field.start); }

  /** Chooses the line on which the cursor is. */
  chooseOwn() { this.onLine(this.cursorLine()); }

  /** Puts the cursor at a place and shows it. */
  goTo(line, column) {
    const at = this.starts[line] + column;
    this.area.focus();
    this.field.select(at);
    this.reveal(line);
  }

  draw() {
    const style = getComputedStyle(this.area), height = parseFloat(style.lineHeight);
    const top = this.area.scrollTop, from = Math.max(Math.floor(top / height) - 2, 0);
    const to = Math.min(from + Math.ceil(this.area.clientHeight / height) + 4, this.starts.length);
    this.numbers.style.minWidth = `${Math.max(String(this.starts.length).length, 2)}ch`;
    this.numbers.style.transform = `translateY(${from * height - top}px)`;
    const numbers = Array.from({ length: to - from }, (_, index) => from + index), before = this.rows;
    this.rows = new Map();
    showRows(this.numbers, numbers.map(number => this.rowFor(before, ['number', number, this.kindOf(number), this.titles[number] ?? ''], () => this.numberOf(number))));
    this.drawColours(numbers, before, height, top);
    this.drawNote(height, top);
  }

  /** The element that shows something, by its name: the one that showed it before, or a new one. */
  rowFor(before, name, make) {
    const key = name.join(' '), row = before.get(key) ?? make();
    this.rows.set(key, row);
    return row;
  }

  kindOf(number) {
    return `number ${this.signs[number] || ''} ${number === this.chosen ? 'chosen' : ''} ${number === this.pointed?.line ? 'pointed' : ''}`;
  }

  /** The number of a line, with its sign. */
  numberOf(number) {
    const row = document.createElement('div');
    row.className = this.kindOf(number);
    row.textContent = String(number + 1);
    if (this.titles[number]) row.title = this.titles[number];
    return row;
  }

  /** Draws the lines that can be seen in their colours, below the text area, whose own letters are transparent then. */
  drawColours(numbers, before, height, top) {
    const lines = numbers.map(number => this.line(number)), isColoured = lines.every(line => line.length < COLOURED), form = this.reading.form();
    this.area.classList.toggle('coloured', isColoured);
    this.colours.style.transform = `translate(${-this.area.scrollLeft}px, ${(numbers[0] ?? 0) * height - top}px)`;
    showRows(this.colours, isColoured ? lines.map((line, index) => this.rowFor(before, ['line', numbers[index], form, line], () => this.colouredLine(line))) : []);
  }

  colouredLine(line) {
    const row = document.createElement('div');
    for (const { text, kind } of this.reading.parts(line)) {
      const span = document.createElement('span');
      span.className = kind;
      span.textContent = text;
      row.append(span);
    }
    return row;
  }

  /** Says what the code under the pointer does. */
  tellUnder({ clientX, clientY }) {
    const box = this.area.getBoundingClientRect(), [offsetX, offsetY] = [clientX - box.left, clientY - box.top];
    const style = getComputedStyle(this.area), number = Math.floor((offsetY + this.area.scrollTop - parseFloat(style.paddingTop)) / parseFloat(style.lineHeight));
    const line = number >= 0 && number < this.starts.length ? this.line(number) : '', row = this.colours.children[number - Math.max(Math.floor(this.area.scrollTop / parseFloat(style.lineHeight)) - 2, 0)];
    const width = row && line.length ? row.getBoundingClientRect().width / line.length : 0;
    const column = width ? Math.floor((offsetX + this.area.scrollLeft - parseFloat(style.paddingLeft)) / width) : -1;
    const isOn = column >= 0 && column < line.length && !line.includes('\t');
    this.area.title = isOn ? this.reading.words(line, column) : '';
    this.onPoint(isOn ? number : -1, isOn ? column : -1);
  }

  drawNote(height, top) {
    const { note, place, pointed } = this, kinds = [place && { ...place, kind: 'found' }, pointed && { ...pointed, kind: 'pointed' }, note];
    this.notes.replaceChildren(...kinds.filter(one => one && one.line < this.starts.length).map(one => this.rowOf(one, height, top)));
  }

  /** A line's letters, which are not seen, with a place among them, and words after them. */
  rowOf({ line, from, to, words = '', kind }, height, top) {
    const text = this.line(line), row = document.createElement('div');
    const part = (name, content) => {
      const span = document.createElement('span');
      span.className = name;
      span.textContent = content;
      row.append(span);
    };
    row.className = `note ${kind}`;
    part('', text.slice(0, from));
    if (from < to || words) part('place', text.slice(from, to) || ' ');
    part('', text.slice(to));
    if (words) part('words', words);
    row.style.transform = `translate(${-this.area.scrollLeft}px, ${line * height - top}px)`;
    return row;
  }
}
