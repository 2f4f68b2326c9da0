// The paper below the dots: fanfold sheets of eleven inches with their holes, margins and perforations, and green bars if they are
// wanted; and where the sheets of a picture lie on the desk, beside each other or one below the other.

import { SHEET_TOP } from './sheets.js';

const SHEET_WIDTH = 12600;         // nine and a half inches and a margin, in the picture's units
export const SHEET_HEIGHT = 13860;      // eleven inches
const EDGE = 630;                  // what is seen of the sheet after the last fold; the lines above the first row; the strips with the holes
export const WIDTH_BESIDE = 27090;      // the width of a desk with two sheets beside each other
const NAMESPACE = 'http://www.w3.org/2000/svg';

/** How high the paper of a sheet is: whole sheets, and an edge of the paper below. */
const heightOf = sheet => EDGE + SHEET_HEIGHT * Math.max(Math.ceil((sheet.height - EDGE) / SHEET_HEIGHT), 1);

/**
 * Where the sheets lie, one below the other where `isStacked`: `{ sheets, width, height, left, notes }`. Each sheet is
 * `{ sheet, right, down, height }`, how far it lies to the right and further down than in the picture, where all lie one below the
 * other; the notes lie further down too, and are `enlarged` times as high.
 */
export function arrange(picture, isStacked, enlarged = 1) {
  const placed = [];
  let bottom = 0, beside = 0;
  for (const sheet of picture.sheets) {
    const height = heightOf(sheet), y = isStacked ? bottom + SHEET_TOP : SHEET_TOP;
    placed.push({ sheet, right: beside, down: y - sheet.y, height });
    bottom = Math.max(bottom, y + height);
    if (!isStacked) beside += SHEET_WIDTH + EDGE;
  }
  if (!placed.length) return { sheets: placed, left: 0, width: picture.width, height: picture.height, notes: 0 };
  const last = picture.sheets.at(-1), under = picture.height - last.y - last.height, width = isStacked || placed.length === 1 ? picture.width : WIDTH_BESIDE;
  return { sheets: placed, left: 0, width, height: bottom + under * enlarged, notes: bottom + under - picture.height };
}

/** The sheet at a place of the desk, or undefined. */
export const sheetAt = ({ sheets }, x, y) => sheets.find(({ sheet, right, down, height }) => (
  x >= sheet.x + right && x < sheet.x + right + SHEET_WIDTH && y >= sheet.y + down && y < sheet.y + down + height));

/** An element of a picture with its attributes. */
export function drawn(name, attributes, ...parts) {
  const made = document.createElementNS(NAMESPACE, name);
  for (const [attribute, value] of Object.entries(attributes)) made.setAttribute(attribute, value);
  made.append(...parts);
  return made;
}

/** The paper of one printer. */
function paperOf({ sheet, right, down, height }, hasBars) {
  const folds = Array.from({ length: Math.round((height - EDGE) / SHEET_HEIGHT) }, (_, fold) => `M0 ${(fold + 1) * SHEET_HEIGHT}h${SHEET_WIDTH}`);
  const bars = drawn('rect', { width: SHEET_WIDTH, height, fill: 'url(#fanfold-bars)' });
  return drawn('g', { transform: `translate(${sheet.x + right} ${sheet.y + down})` },
    drawn('rect', { class: 'sheet', width: SHEET_WIDTH, height }),
    ...(hasBars ? [bars] : []),
    drawn('rect', { width: SHEET_WIDTH, height, fill: 'url(#fanfold-holes)' }),
    drawn('path', { class: 'fold', d: folds.join('') }));
}

/** The paper of a picture's sheets, as a picture that lies below it. */
export function fanfold({ sheets }, hasBars) {
  const holes = drawn('pattern', { id: 'fanfold-holes', width: SHEET_WIDTH, height: EDGE, patternUnits: 'userSpaceOnUse' },
    drawn('circle', { cx: EDGE / 2, cy: EDGE / 2, r: 100 }), drawn('circle', { cx: SHEET_WIDTH - EDGE / 2, cy: EDGE / 2, r: 100 }),
    drawn('path', { class: 'fold', d: `M${EDGE} 0v${EDGE}M${SHEET_WIDTH - EDGE} 0v${EDGE}` }));
  const bars = drawn('pattern', { id: 'fanfold-bars', y: EDGE, width: SHEET_WIDTH, height: 2 * EDGE, patternUnits: 'userSpaceOnUse' },
    drawn('rect', { class: 'bar-of-paper', width: SHEET_WIDTH, height: EDGE }));
  const made = drawn('svg', { class: 'fanfold', preserveAspectRatio: 'none' }, drawn('defs', {}, holes, bars), ...sheets.map(sheet => paperOf(sheet, hasBars)));
  made.setAttribute('aria-hidden', 'true');
  return made;
}
