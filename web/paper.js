// The sheets: the picture that the module gives, as it is. Of a long one only the rows are in the page that can
// be seen; they are cut from its text, and nothing is drawn anew.

import { DOT, LETTER_HEIGHT, markAt, MARKS_DOWN, MARKS_LEFT, SHEET_TOP, sheetsOf, STEP } from './sheets.js';
import { arrange, drawn, fanfold, SHEET_HEIGHT, sheetAt, WIDTH_BESIDE } from './fanfold.js';
import { whenResized, whenSharper } from './basics.js';
import { HIGHEST } from './reader.js';

const PICA = 210;              // units of the picture
const DOTS_ACROSS = 480;       // the dots of a line
const WHOLE_DOTS = 420;        // units, of which whole dots are made across and down
const DOT_DOWN = 20;           // units from a dot to the one below it
const WHOLE = 60000;           // characters: a shorter picture is in the page as a whole
const LEAST_BESIDE = 1 / DOT;  // pixels of a unit: sheets whose dots were smaller beside each other lie one below the other
const LOSS = .75;              // dots of less than a pixel become a whole number of the screen's dots, unless they become smaller than this
const ROUND_FROM = 3;          // dots of so many of the screen's, or fewer, are squares
const MARGIN = 10;             // pixels of the paper beside the printed width, where that fits the window
const HEADING = 12;            // pixels: the least height of the words above and below the sheets
const AROUND = 0.5;            // of a long picture, the rows of so much of the window's height are in the page above and below it

export class Paper {
  /**
   * `onMark` gets the mark that is clicked, or null; `onUnder` gets the mark under the pointer, or null; `onTabs` gets the printers
   * whose sheets lie one below the other.
   */
  constructor(element, onMark, onUnder, onTabs) {
    this.element = element;
    this.onTabs = onTabs;
    this.room = document.createElement('div');
    this.room.className = 'room';
    element.append(this.room);
    this.text = '';
    this.picture = null;
    this.places = null;        // where the sheets lie
    this.enlarged = 1;         // how much larger the words below them are than in the picture, so that they can be read
    this.hasBars = false;      // whether the paper has green bars
    this.size = 0;             // pixels of a pica; 0: the printed width is as wide as there is room
    this.isFitted = false;     // whether it fits even where a dot has less than one of the screen's
    this.found = [];
    this.pointed = [];         // the marks that belong to what is pointed at
    this.focused = '';
    element.addEventListener('scroll', () => this.drawPart(), { passive: true });
    const again = () => { this.lay(); if (this.picture && !this.size) this.showDots(); };
    whenResized(element, again);
    whenSharper(again);
    element.addEventListener('wheel', event => {
      if (!event.ctrlKey && !event.metaKey) return;
      event.preventDefault();
      this.zoom(Math.exp(-event.deltaY / 300), event.clientX, event.clientY);
    }, { passive: false });
    const markOf = event => this.markAt(event.clientX, event.clientY);
    this.room.addEventListener('click', event => { if (this.picture && !String(getSelection())) onMark(markOf(event)); });
    this.room.addEventListener('pointermove', event => { if (event.pointerType === 'mouse' && !event.buttons) onUnder(markOf(event)); });
    this.room.addEventListener('pointerleave', () => onUnder(null));
  }

  /** Shows a picture, or nothing. */
  show(text) {
    const wasLong = Boolean(this.part);
    clearTimeout(this.wider);
    this.text = text;
    this.found = [];
    this.pointed = [];
    this.part = null;
    this.picture = text ? sheetsOf(text) : null;
    this.places = null;
    if (!text) {
      this.svg = null;
      this.room.replaceChildren();
      this.room.removeAttribute('style');
      return this.onTabs([]);
    }
    if (text.length > WHOLE) this.part = { from: 0, to: 0, isNarrow: !wasLong };
    this.lay();
    this.focus();
  }

  /** Puts what lies between two heights into the page. What is there already stays, so that a key draws one row. */
  put(from, to) {
    const { frame, rows } = this.cut(from, to), defs = /<defs>\n([^]*?)<\/defs>/.exec(frame), shapes = defs ? defs[1].split('\n').filter(Boolean) : [];
    const plain = defs ? frame.replace(defs[0], '<defs></defs>') : frame;
    if (!this.svg || plain !== this.frame) {
      this.frame = plain;
      this.svg = document.importNode(new DOMParser().parseFromString(plain, 'image/svg+xml').documentElement, true);
      // The picture has what is printed as text too, for readers of screens.
      this.svg.setAttribute('role', 'group');
      this.svg.setAttribute('aria-label', this.picture.sheets.map(sheet => `Printer ${sheet.printer}`).join(' and ') || 'No printer');
      this.shapes = { elements: new Map(), places: [this.svg.querySelector('defs')] };
      this.rows = { elements: new Map(), places: [...this.svg.querySelectorAll(':scope > g > g > g')].slice(0, this.picture.sheets.length) };
      this.svg.setAttribute('preserveAspectRatio', 'none');
      this.back = null;
    }
    this.placeSheets();
    this.putParts(this.shapes, shapes.map(text => ({ place: 0, name: text, text })));
    this.putParts(this.rows, rows);
    this.drawFound();
  }

  /** Puts parts into their places, by their names, and takes out those that are not among them. */
  putParts({ elements, places }, parts) {
    const missing = parts.filter(part => !elements.has(part.name)), wanted = new Set(parts.map(part => part.name));
    for (const [name, element] of elements) {
      if (wanted.has(name)) continue;
      element.remove();
      elements.delete(name);
    }
    if (!missing.length) return;
    const made = document.createElementNS('http://www.w3.org/2000/svg', 'svg');
    made.innerHTML = missing.map(part => part.text).join('');
    [...made.children].forEach((element, index) => elements.set(missing[index].name, element));
    const next = places.map(place => place.firstChild);
    for (const { place, name } of parts) {
      const element = elements.get(name);
      if (element === next[place]) next[place] = element.nextSibling; else places[place].insertBefore(element, next[place]);
    }
  }

  /** Puts the sheets and the notes where they lie, and the paper below them. */
  placeSheets() {
    const { sheets, notes } = this.places, groups = [...this.svg.querySelectorAll(':scope > g[transform]')];
    sheets.forEach(({ sheet, right, down }, index) => {
      groups[index].setAttribute('transform', `translate(${sheet.x + right} ${sheet.y + down})`);
      // (its heading begins where its lines do, so that it is seen with them)
      const heading = groups[index].querySelector(':scope > text');
      heading.setAttribute('x', String(MARKS_LEFT));
      heading.setAttribute('font-size', String(Math.max(PICA, HEADING / this.scale())));
    });
    const words = this.picture.notes && this.svg.querySelector(':scope > text');
    if (words) words.setAttribute('transform', `translate(630 ${this.picture.notes.y + notes}) scale(${this.enlarged})`);
    const name = JSON.stringify([sheets.map(({ sheet, right, down, height }) => [sheet.x + right, sheet.y + down, height]), this.hasBars]);
    if (this.back && name === this.backName) return;
    this.backName = name;
    this.back = fanfold(this.places, this.hasBars);
    this.room.replaceChildren(this.back, this.svg);
  }

  /** The screen's dots that a dot of the printer has across where the printed width fits the window. */
  fitting() { return (this.element.clientWidth - 2 * MARGIN) * (devicePixelRatio || 1) / DOTS_ACROSS; }

  /**
   * The pixels of a unit, across and down. A dot has a whole number of the screen's dots, so that each is as sharp as the others, unless it
   * would be too small; and one at least, since reverse letters cannot be read else, unless somebody wants the printed width to fit.
   */
  scales() {
    const ratio = devicePixelRatio || 1, wanted = this.size ? this.size / PICA * DOT * ratio : this.fitting(), least = this.size || this.isFitted ? 0 : 1;
    const whole = Math.max(this.size ? Math.round(wanted) : Math.floor(wanted), least), isWhole = whole >= 1 && (whole >= ratio || whole / wanted >= LOSS);
    const across = (isWhole ? whole : wanted) / ratio / DOT, down = isWhole ? whole / ratio / DOT_DOWN : across;
    return { across: Math.min(across, HIGHEST / this.places.height), down: Math.min(down, HIGHEST / this.places.height) };
  }

  /** The pixels of a unit across. */
  scale() { return this.scales().across; }

  /** The sheet in the middle of the window: its printer and its number, from 1; null where there is none. */
  seen() {
    if (!this.places?.sheets.length) return null;
    const { across, down } = this.scales(), { clientWidth, clientHeight, scrollLeft, scrollTop } = this.element;
    const x = this.places.left + (scrollLeft + clientWidth / 2) / across, y = (scrollTop + Math.min(clientHeight, 300) / 2) / down;
    const placed = sheetAt(this.places, x, y) ?? this.places.sheets[0], row = (y - placed.down - placed.sheet.y) / SHEET_HEIGHT;
    const last = Math.max(...placed.sheet.rows.map(row => row.y * STEP), 0) + MARKS_DOWN;
    return { printer: placed.sheet.printer, number: 1 + Math.min(Math.max(Math.floor(row), 0), Math.floor(last / SHEET_HEIGHT)) };
  }

  /** Scrolls to a printer's sheet. */
  turnTo(printer) {
    const placed = this.places?.sheets.find(({ sheet }) => sheet.printer === printer);
    if (placed) this.element.scrollTop = (placed.sheet.y + placed.down - SHEET_TOP / 2) * this.scales().down;
  }

  /** Scrolls to the dots, where the whole sheet is wider than the window, when the sheets are others than before. */
  focus() {
    const name = this.picture.sheets.map(sheet => sheet.printer).join();
    if (name === this.focused) return;
    this.focused = name;
    this.showDots();
  }

  showDots() {
    const first = this.places?.sheets[0];
    if (first) this.element.scrollLeft = (first.sheet.x + MARKS_LEFT - this.places.left) * this.scale() - Math.max(this.element.clientWidth - DOTS_ACROSS * DOT * this.scale(), 2 * MARGIN) / 2;
  }

  /** Gives the picture its size, and its sheets their places. */
  lay() {
    if (!this.picture || !this.element.clientWidth) return;
    const isStacked = this.picture.sheets.length > 1 && this.element.clientWidth < WIDTH_BESIDE * LEAST_BESIDE;
    this.places = arrange(this.picture, isStacked);
    this.enlarged = Math.max(HEADING / PICA / this.scale(), 1);
    this.places = arrange(this.picture, isStacked, this.enlarged);
    const { across, down } = this.scales(), { left, width, height } = this.places;
    this.room.style.width = `${width * across}px`;
    this.room.style.height = `${height * down}px`;
    this.onTabs(isStacked ? this.picture.sheets.map(({ printer }) => printer) : []);
    if (this.part) { this.part.to = 0; return this.drawPart(this.part.isNarrow ? 0 : AROUND); }
    this.put(0, height);
    this.showSpan(left, 0, width, height);
  }

  /** Shows a part of the picture at its place. */
  showSpan(left, top, width, height) {
    const { across, down } = this.scales(), dots = Math.round(across * DOT * (devicePixelRatio || 1) * 10) / 10;
    // (round dots of a few of the screen's dots are grey where they meet)
    this.svg.classList.toggle('square', dots <= ROUND_FROM);
    this.svg.classList.toggle('whole', dots === Math.round(dots));
    for (const layer of [this.back, this.svg]) {
      layer.setAttribute('viewBox', `${left} ${top} ${width} ${height}`);
      Object.assign(layer.style, { top: `${top * down}px`, width: `${width * across}px`, height: `${height * down}px` });
    }
  }

  zoom(factor, x = null, y = null) {
    if (!this.picture) return;
    const box = this.element.getBoundingClientRect(), before = this.scales(), ratio = devicePixelRatio || 1;
    const left = (x ?? box.left + box.width / 2) - box.left, top = (y ?? box.top + box.height / 2) - box.top;
    const right = (this.element.scrollLeft + left) / before.across, down = (this.element.scrollTop + top) / before.down;
    this.isFitted = false;
    this.size = Math.min(Math.max((x !== null && this.size || before.across * PICA) * factor, 2), 120);
    // (a button makes a dot larger or smaller by one dot of the screen at least)
    const dots = before.across * DOT * ratio, step = PICA / DOT / ratio;
    if (x === null && dots >= 1) this.size = factor > 1 ? Math.max(this.size, (Math.round(dots) + 1) * step) : Math.min(this.size, Math.max(Math.round(dots) - 1, .7) * step);
    this.lay();
    const after = this.scales();
    this.element.scrollTo(right * after.across - left, down * after.down - top);
  }

  fit() {
    this.size = 0;
    this.isFitted = true;
    this.lay();
    if (this.picture) this.showDots();
  }

  /** Gives the paper green bars, or takes them away. */
  showBars(hasBars) {
    this.hasBars = hasBars;
    this.lay();
  }

  /** The mark at a place of the window, or null. */
  markAt(x, y) {
    if (!this.picture) return null;
    const box = this.room.getBoundingClientRect(), { across, down } = this.scales(), right = this.places.left + (x - box.left) / across, under = (y - box.top) / down;
    const placed = sheetAt(this.places, right, under);
    return placed ? markAt(this.text, placed.sheet, right - placed.right, under - placed.down) : null;
  }

  /** Draws the part of a long picture around what can be seen: `around` times as much above and below, which comes a little later in a new one. */
  drawPart(around = AROUND) {
    if (!this.part || !this.picture || !this.places) return;
    const scale = this.scales().down, seen = this.element.clientHeight / scale, { left, width, height } = this.places;
    // (in a window that becomes narrower the sheets are smaller before the scrolled place is)
    const top = Math.min(this.element.scrollTop / scale, Math.max(height - seen, 0));
    if (top >= this.part.from && top + seen <= this.part.to) return;
    const from = Math.floor(Math.max(top - around * seen, 0) / WHOLE_DOTS) * WHOLE_DOTS, to = Math.min(top + (1 + around) * seen, height);
    clearTimeout(this.wider);
    if (!around) this.wider = setTimeout(() => { this.part.to = 0; this.drawPart(); }, 100);
    this.part = { from, to, isNarrow: !around };
    this.put(from, to);
    this.showSpan(left, from, width, to - from);
  }

  /** The picture without its rows, and those of its rows that lie between two heights: `{ place, name, text }`, a place for each sheet. */
  cut(from, to) {
    const { notes } = this.picture, parts = [], rows = [];
    let at = 0;
    this.places.sheets.forEach(({ sheet, down }, number) => {
      const marks = sheet.y + down + MARKS_DOWN, [first, end] = [from - marks, to - marks];
      parts.push(this.text.slice(at, sheet.from));
      let low = 0, high = sheet.rows.length;
      while (low < high) {
        const middle = (low + high) >> 1;
        if (sheet.rows[middle].y * STEP + 2 * LETTER_HEIGHT < first) low = middle + 1; else high = middle;
      }
      for (; low < sheet.rows.length && sheet.rows[low].y * STEP < end + LETTER_HEIGHT; low++) {
        const row = sheet.rows[low];
        if (row.held) break;
        const text = `<g transform="translate(0 ${row.y * STEP})">\n${this.text.slice(row.from, row.to)}</g>`;
        rows.push({ place: number, name: `${number} ${low} ${text}`, text });
      }
      const last = sheet.rows.findLast(row => !row.held);
      parts.push(this.text.slice(last ? last.to + 5 : sheet.from, sheet.to));
      at = sheet.to;
    });
    if (!notes) return { frame: parts.join('') + this.text.slice(at), rows };
    parts.push(this.text.slice(at, notes.from));
    this.noteLines ??= null;
    if (this.noteLines?.text !== this.text) this.noteLines = { text: this.text, lines: this.text.slice(notes.from, notes.to).split('\n') };
    const lines = this.noteLines.lines, y = notes.y + this.places.notes, high = PICA * this.enlarged, first = Math.max(Math.floor((from - y) / high) - 2, 0);
    const some = lines.slice(first, Math.max(Math.ceil((to - y) / high) + 2, first));
    if (some.length && first) some[0] = some[0].replace('dy="210"', `dy="${210 * (first + 1)}"`);
    return { frame: parts.join('') + some.join('\n') + this.text.slice(notes.to), rows };
  }

  /** Where marks lie on the desk. */
  boxesOf(marks) {
    return marks.flatMap(({ printer, row, x, width }) => {
      const placed = this.places?.sheets.find(({ sheet }) => sheet.printer === printer), line = placed?.sheet.rows[row];
      return line ? [{ x: placed.sheet.x + placed.right + MARKS_LEFT + x * DOT, y: placed.sheet.y + placed.down + MARKS_DOWN + line.y * STEP, width: width * DOT }] : [];
    });
  }

  /** Shows where marks are, and brings the first of them into view. */
  find(marks) {
    this.found = this.boxesOf(marks);
    this.drawFound();
    const [first] = this.found;
    if (!first) return;
    const { across, down } = this.scales(), { x, y, width } = first, view = this.element, left = (x - this.places.left) * across, top = y * down;
    if (left < view.scrollLeft || left + width * across > view.scrollLeft + view.clientWidth) view.scrollLeft = left - view.clientWidth / 2;
    if (top < view.scrollTop || top + LETTER_HEIGHT * down > view.scrollTop + view.clientHeight) view.scrollTop = top - view.clientHeight / 3;
  }

  /** Shows marks that belong to what is pointed at, or none. */
  point(marks) {
    this.pointed = this.boxesOf(marks);
    this.drawFound();
  }

  drawFound() {
    if (!this.svg) return;
    for (const [name, boxes] of Object.entries({ found: this.found, pointed: this.pointed })) {
      this.svg.querySelector(`.${name}`)?.remove();
      this.svg.append(drawn('g', { class: name }, ...boxes.map(({ x, y, width }) => drawn('rect', { x, y, width, height: LETTER_HEIGHT }))));
    }
  }
}
