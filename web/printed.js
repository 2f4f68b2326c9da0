// What a printer of today gets: each sheet of eleven inches on a page of its own, at true size, one printer after the other.

import { LETTER_HEIGHT, MARKS_DOWN, STEP } from './sheets.js';
import { $ } from './basics.js';
import { paper } from './page.js';

const SHEET_HEIGHT = 13860;    // eleven inches
const PAGE_WIDTH = 10710;      // eight and a half, with the eight inches of the marks in the middle
const PAGE_LEFT = 945;         // from a sheet's left edge to the page's
const MOST_PAGES = 120;        // a browser takes too long for more

/** The sheets of a picture that a printer printed on: the number of each, from 1, with its printer's. */
function printedSheets(picture) {
  const printed = picture.sheets.filter(sheet => sheet.rows.some(row => !row.held));
  return (printed.length ? printed : picture.sheets.slice(0, 1)).flatMap(sheet => {
    const last = sheet.rows.findLast(row => !row.held), height = last ? MARKS_DOWN + last.y * STEP + LETTER_HEIGHT : 1;
    return Array.from({ length: Math.ceil(height / SHEET_HEIGHT) }, (_, index) => ({ sheet, index }));
  });
}

/** One sheet as a picture of its own: the rows that are on it, and both halves of one that the fold cuts. */
function printedSheet(svg, { sheet, index }) {
  const top = index * SHEET_HEIGHT - MARKS_DOWN, isOn = row => !row.held && row.y * STEP + LETTER_HEIGHT > top && row.y * STEP < top + SHEET_HEIGHT;
  const frame = /<g [^>]*>\n<g [^>]*>\n$/.exec(svg.slice(sheet.from - 400, sheet.from))[0];
  const rows = sheet.rows.filter(isOn).map(row => `<g transform="translate(0 ${row.y * STEP})">\n${svg.slice(row.from, row.to)}</g>\n`);
  return `<svg viewBox="${PAGE_LEFT} ${MARKS_DOWN + top} ${PAGE_WIDTH} ${SHEET_HEIGHT}">${frame}${rows.join('')}</g></g></svg>`;
}

/** All pages, after the shapes of the characters, and words for sheets that are left out. */
function printedPages(svg, picture) {
  const sheets = printedSheets(picture), shapes = /<defs>[^]*?<\/defs>/.exec(svg)?.[0] || '';
  const more = sheets.length - MOST_PAGES;
  const words = more > 0 ? `<p>${more} more sheets are not printed from here. Save the pages as a PDF document and print that.</p>` : '';
  return `<svg class="shapes">${shapes}</svg>${sheets.slice(0, MOST_PAGES).map(one => printedSheet(svg, one)).join('')}${words}`;
}

addEventListener('beforeprint', () => {
  $('printed').innerHTML = paper.picture?.sheets.length ? printedPages(paper.text, paper.picture) : '<p>There is no sheet to print.</p>';
});
addEventListener('afterprint', () => { $('printed').replaceChildren(); });
