// A field for a listing of many lines. Chromium and WebKit lay out all lines of a textarea anew for each key. Here they are in parts,
// of which they lay out those that are seen or near the selection. Editing, undo, selections and searching are the browser's own.

import { $ } from './basics.js';

const PART = 250;              // lines of a part
const NEAR = 2;                // parts before and after the selection that are laid out
const LEAST = 2000;            // lines: a shorter listing is in a textarea

export const MARK = '\ufdd0';   // a character that no text has: Unicode leaves it to programs

const isPart = node => node.nodeName === 'DIV';

/** The text of nodes: parts begin lines of their own, and the last line's end before a part's end shows nothing. */
function textOf(nodes) {
  const lines = [];
  let open = null;
  const close = () => { if (open !== null) lines.push(open.endsWith('\n') ? open.slice(0, -1) : open); open = null; };
  for (const node of nodes) {
    if (isPart(node)) {
      close();
      if (node.firstChild) lines.push(textOf(node.childNodes));
    } else open = (open ?? '') + (node.nodeName === 'BR' ? '\n' : node.textContent);
  }
  close();
  return lines.join('\n');
}

/** Whether this browser edits such a field right. (Firefox joins the wrong lines where one is empty, but its textarea takes less.) */
const hasLongField = () => /AppleWebKit/.test(navigator.userAgent) && CSS.supports('content-visibility', 'auto') && $('long-script').isContentEditable;

/** Whether a listing belongs into such a field. */
export function isForLongField(text) {
  if (!hasLongField()) return false;
  let count = 1;
  for (let at = text.indexOf('\n'); at >= 0 && count <= LEAST; at = text.indexOf('\n', at + 1)) count++;
  return count > LEAST;
}

export class LongField {
  /** `element` is edited as plain text. */
  constructor(element) {
    this.element = element;
    this.texts = new WeakMap();       // the text of each part
    this.edited = new Set();          // the parts that were laid out for an edit: those that undo changes
    this.last = null;                 // the selection in the field, as it was last
    this.isTakingOut = false;         // whether an edit is done in several steps
    this.changes = new MutationObserver(records => this.forget(records));
    this.changes.observe(element, { childList: true, characterData: true, subtree: true });
    document.addEventListener('selectionchange', () => { if (!element.hidden) this.layOut(); });
    element.addEventListener('beforeinput', event => this.prepare(event));
    element.addEventListener('input', event => this.finish(event));
    for (const kind of ['copy', 'cut']) element.addEventListener(kind, event => this.copy(event));
  }

  /** Lays out what is about to be edited; where that is in several parts, takes it out first. */
  prepare(event) {
    const what = event.inputType;
    if (this.isTakingOut) return;
    if (/^history|Drop$|Drag$/.test(what)) return this.layOutEdited(what);
    this.layOut(true);
    const { selection } = this;
    if (!selection) return;
    if (this.partOf(selection.anchorNode) === this.partOf(selection.focusNode)) return this.join(event);
    this.takeOut(...this.places);
    if (what === 'insertText') document.execCommand('insertText', false, event.data);
    else if (/^insert(LineBreak|Paragraph)$/.test(what)) document.execCommand('insertLineBreak');
    else if (!what.startsWith('delete')) return;
    event.preventDefault();
  }

  /** Joins two parts, where the line's end between them is deleted. */
  join(event) {
    const [from, to] = this.places, isBackward = /^delete.*Backward$/.test(event.inputType), border = isBackward ? from : from + 1;
    if (from !== to || !(isBackward || /^delete.*Forward$/.test(event.inputType)) || !this.beginsPart(border)) return;
    event.preventDefault();
    this.takeOut(border - 1, border);
  }

  /** Whether a part begins at a place of the text, but the first. */
  beginsPart(place) {
    let at = 0;
    return this.runs.some((run, index) => {
      const isHere = index > 0 && at === place;
      at += this.textOfRun(run).length + 1;
      return isHere;
    });
  }

  /**
   * Takes out what lies between two places in different parts. Chromium joins the wrong lines where that begins at a line's begin, and
   * so it gets a character in front, which goes in the end.
   */
  takeOut(from, to) {
    this.isTakingOut = true;
    this.select(from);
    document.execCommand('insertText', false, MARK);
    this.select(from + 1, to + 1);
    document.execCommand('delete');
    this.select(from, from + 1);
    this.isTakingOut = false;
    document.execCommand('delete');
  }

  /** Undoes, or does again, all steps of an edit of several parts, once the first of them is. */
  finish({ inputType }) {
    this.layOut(true);
    const command = { historyUndo: 'undo', historyRedo: 'redo' }[inputType];
    if (!command || this.isTakingOut || !this.text.includes(MARK)) return;
    this.isTakingOut = true;
    // (within a command a browser does no other)
    queueMicrotask(() => {
      for (let turn = 0; turn < 3 && this.text.includes(MARK); turn++) document.execCommand(command);
      this.isTakingOut = false;
      this.element.dispatchEvent(new Event('input', { bubbles: true }));
    });
  }

  /** Forgets the texts of parts that have changed. */
  forget(records) {
    for (const { target } of records) {
      const part = this.partOf(target);
      if (part) this.texts.delete(part);
    }
  }

  /** The part that holds a node, or null. */
  partOf(node) {
    let at = node;
    while (at && at.parentNode !== this.element) at = at.parentNode;
    return at;
  }

  /** The text of what holds some lines: a part, or nodes beside parts, which are there after all text was deleted. */
  textOfRun(run) {
    if (!isPart(run[0])) return textOf(run);
    if (!this.texts.has(run[0])) this.texts.set(run[0], textOf(run));
    return this.texts.get(run[0]);
  }

  /** What holds the lines, in order: parts, and nodes beside each other. */
  get runs() {
    this.forget(this.changes.takeRecords());
    const runs = [];
    let isOpen = false;
    for (const node of this.element.childNodes) {
      if (isPart(node) && !node.firstChild) continue;
      if (isPart(node) || !isOpen) runs.push([]);
      runs[runs.length - 1].push(node);
      isOpen = !isPart(node);
    }
    return runs;
  }

  get text() { return this.runs.map(run => this.textOfRun(run)).join('\n'); }

  set text(text) {
    const lines = text.split('\n'), parts = [];
    for (let at = 0; at < lines.length; at += PART) {
      const some = lines.slice(at, at + PART), part = document.createElement('div'), own = some.join('\n');
      part.textContent = own;
      // (a browser shows no last line without letters)
      if (!some[some.length - 1]) part.append(document.createElement('br'));
      this.texts.set(part, own);
      parts.push(part);
    }
    this.edited.clear();
    this.last = null;
    this.element.replaceChildren(...parts);
    this.changes.takeRecords();
    for (const part of parts) this.lay(part, false);
  }

  // which parts are laid out

  /** Lays a part out, or only where it is seen: it has its size all the same. */
  lay(part, isNear) {
    if (part.classList.contains('far') !== isNear) return;
    part.classList.toggle('far', !isNear);
    if (isNear) return;
    const lines = this.textOfRun([part]).split('\n'), wide = line => line.length + (/[^\x20-\x7e]/.test(line) ? 8 * line.replace(/[\x20-\x7e]/g, '').length : 0);
    part.style.setProperty('--lines', String(lines.length));
    part.style.setProperty('--columns', String(lines.reduce((most, line) => Math.max(most, wide(line)), 0)));
  }

  /** The selection in the field, as it is or as it was last; or null. */
  get selection() {
    const { anchorNode, anchorOffset, focusNode, focusOffset } = document.getSelection();
    if (this.element.contains(anchorNode) && this.element.contains(focusNode)) this.last = { anchorNode, anchorOffset, focusNode, focusOffset };
    return this.last && this.element.contains(this.last.anchorNode) && this.element.contains(this.last.focusNode) ? this.last : null;
  }

  /** Lays out the parts around the selection: Chromium loses text where an edit goes beyond what is laid out. */
  layOut(isEdit = false) {
    const { selection } = this, parts = [...this.element.children];
    if (!selection) return;
    const placeOf = (node, offset) => (node === this.element ? Math.min(offset, parts.length - 1) : parts.indexOf(this.partOf(node)));
    const places = [placeOf(selection.anchorNode, selection.anchorOffset), placeOf(selection.focusNode, selection.focusOffset)];
    const from = Math.min(...places) - NEAR, to = Math.max(...places) + NEAR;
    parts.forEach((part, place) => {
      if (!isPart(part)) return;
      this.lay(part, place >= from && place <= to);
      if (isEdit && place >= from && place <= to) this.edited.add(part);
    });
  }

  /** Lays out what an undo may change, or all where letters are dragged. */
  layOutEdited(what) {
    for (const part of what.startsWith('history') ? this.edited : this.element.children) if (isPart(part)) this.lay(part, true);
  }

  // places

  /** The place in the text of a place in the page. */
  placeOf(node, offset) {
    const { runs } = this, at = node === this.element ? this.element.childNodes[offset] : node;
    const inside = run => run.some(one => one === at || one.contains(at)), index = at ? runs.findIndex(inside) : -1;
    const before = (index < 0 ? runs : runs.slice(0, index)).reduce((sum, run) => sum + this.textOfRun(run).length + 1, 0);
    if (index < 0) return Math.max(before - 1, 0);
    const range = document.createRange(), run = runs[index];
    if (isPart(run[0])) range.setStart(run[0], 0); else range.setStartBefore(run[0]);
    if (node === this.element) range.setEndBefore(at); else range.setEnd(node, offset);
    const breaks = run.flatMap(one => (one.nodeName === 'BR' ? [one] : isPart(one) ? [...one.querySelectorAll('br')] : [])).filter(one => range.intersectsNode(one) && range.comparePoint(one.parentNode, [...one.parentNode.childNodes].indexOf(one) + 1) <= 0);
    return before + Math.min(range.toString().length + breaks.length, this.textOfRun(run).length);
  }

  /** The place in the page of a place in the text, as a node and an offset. */
  pointOf(place) {
    let rest = place;
    const { runs } = this, run = runs.find(one => {
      const { length } = this.textOfRun(one);
      if (rest <= length) return true;
      rest -= length + 1;
      return false;
    });
    if (!run) return [this.element, this.element.childNodes.length];
    for (const node of isPart(run[0]) ? run[0].childNodes : run) {
      const length = node.nodeName === 'BR' ? 1 : node.textContent.length;
      if (node.nodeType === Node.TEXT_NODE && rest <= length) return [node, rest];
      rest -= length;
    }
    return [run[0], 0];
  }

  /** The two places of the text between which it is selected. */
  get places() {
    const { selection } = this;
    if (!selection) return [0, 0];
    return [this.placeOf(selection.anchorNode, selection.anchorOffset), this.placeOf(selection.focusNode, selection.focusOffset)].sort((a, b) => a - b);
  }

  get start() { return this.places[0]; }

  /** Selects what lies between two places of the text. */
  select(from, to = from) {
    const [first, last] = [this.pointOf(from), this.pointOf(to)];
    document.getSelection().setBaseAndExtent(first[0], first[1], last[0], last[1]);
    this.layOut();
  }

  /** Copies what is selected as text alone; and cuts it out. */
  copy(event) {
    const [from, to] = this.places;
    if (from === to) return;
    event.preventDefault();
    event.clipboardData.setData('text/plain', this.text.slice(from, to));
    if (event.type !== 'cut') return;
    const { anchorNode, focusNode } = this.selection;
    if (this.partOf(anchorNode) === this.partOf(focusNode)) document.execCommand('delete'); else this.takeOut(from, to);
  }
}
