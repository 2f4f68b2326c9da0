// What is where in a picture of pages, as `--as svg` writes it: its sheets, their rows, and the marks in a row.
// Nothing here draws: it finds the places in the text, in the picture's units of 1/1260 inch.

export const DOT = 21;            // a dot column
export const STEP = 10;           // 1/126 inch down
export const MARKS_LEFT = 1260;   // from a sheet's left edge to its marks
export const SHEET_TOP = 1050;    // from the picture's top, or from the end of the sheet above, to a sheet; its printer's name is there
export const MARKS_DOWN = 630;    // from a sheet's upper edge to its marks
export const LETTER_HEIGHT = 140; // seven dots

/**
 * The sheets of a picture: `{ width, height, sheets, notes }`. A sheet is `{ printer, x, y, height, from, to, rows }`: its
 * number, its left and its upper edge, how high it is drawn, where the text of its rows begins and ends, and its rows as `{ y, from, to, held }`: the
 * distance from the top in 1/126 inch, and where the text of its marks begins and ends. `notes` is `{ y, from, to }`
 * for the lines below the sheets, or null where there are none.
 */
export function sheetsOf(svg) {
  const size = /viewBox="0 0 (\d+) (\d+)"/.exec(svg.slice(0, 400));
  const picture = { width: Number(size[1]), height: Number(size[2]), sheets: [], notes: null };
  const sheetStart = /<g transform="translate\((\d+) (\d+)\)">\n<text [^>]*>Printer (\d)<\/text>\n<rect width="\d+" height="(\d+)" [^>]*>\n<rect [^>]*>\n<g [^>]*>\n<g [^>]*>\n/g;
  let start;
  while ((start = sheetStart.exec(svg))) {
    const [x, y, printer, height] = start.slice(1).map(Number), sheet = { printer, x, y, height, from: sheetStart.lastIndex, to: 0, rows: [] };
    sheetStart.lastIndex = readRows(svg, sheet);
    picture.sheets.push(sheet);
  }
  const notes = svg.indexOf('<text font-size="210" fill="#555" transform="translate(630 ', sheetStart.lastIndex || 0);
  if (notes >= 0) {
    const from = svg.indexOf('\n', notes) + 1, to = svg.lastIndexOf('</text>');
    if (from < to) picture.notes = { y: Number(/translate\(630 (\d+)/.exec(svg.slice(notes, notes + 90))[1]), from, to };
  }
  return picture;
}

/** Where the next group ends. (Each mark has a <, and none a g: so a browser is there at once.) */
function endOf(svg, at) {
  let end = svg.indexOf('g>', at);
  while (!svg.startsWith('</', end - 2)) end = svg.indexOf('g>', end + 1);
  return end - 2;
}

/** Finds the rows of a sheet, and gives where its text ends. */
function readRows(svg, sheet) {
  let at = sheet.from;
  while (svg.startsWith('<g ', at)) {
    const begin = svg.indexOf('\n', at) + 1, end = endOf(svg, begin);
    const y = parseInt(svg.slice(svg.indexOf('(0 ', at) + 3, begin)) / STEP;
    sheet.rows.push({ y, from: begin, to: end, held: svg.startsWith('<g opacity', at) });
    at = end + 5;
  }
  sheet.to = at;
  return svg.indexOf('\n', at) + 1;
}

// The names of cells that are not reversed and show nothing: the space of both sets, and its doubles.
const BLANK = /^[ul]w?(32|160|224)$/;

/** The marks that show in the text of a row, in their order: `{ x, width, what }` in dots. `what` is the mark's name. */
function marksIn(text) {
  return Array.from(text.matchAll(/<use href="#([^"]*)" x="(\d+)"/g), ([, what, x]) => ({
    x: Number(x) / DOT, width: what.startsWith('d') ? 1 : what.includes('w') ? 12 : 6, what,
  })).filter(mark => !BLANK.test(mark.what));
}

/** How often each mark is in a picture, by a name of the mark: its printer, its row, its place and what it shows. */
export function marksOf(svg, among = null) {
  const counts = new Map();
  for (const sheet of sheetsOf(svg).sheets) {
    sheet.rows.forEach((row, number) => {
      if (among && (among.printer !== sheet.printer || among.row !== number)) return;
      for (const mark of marksIn(svg.slice(row.from, row.to))) {
        const name = [sheet.printer, number, mark.x, mark.width, mark.what].join(' ');
        counts.set(name, (counts.get(name) || 0) + 1);
      }
    });
  }
  return counts;
}

/** The marks of a picture that another one has not (or not as often): `{ printer, row, x, width }`. */
export function marksMore(before, after) {
  const had = marksOf(before), more = [];
  for (const [name, count] of marksOf(after)) {
    if (count <= (had.get(name) || 0)) continue;
    const [printer, row, x, width] = name.split(' ', 4).map(Number);
    more.push({ printer, row, x, width });
  }
  return more;
}

/** The mark at a place of a sheet, in the picture's units: `{ printer, row, name }`, or null. */
export function markAt(svg, sheet, x, y) {
  const dots = (x - sheet.x - MARKS_LEFT) / DOT;
  if (dots < -1 || dots > 481) return null;
  for (let number = sheet.rows.length - 1; number >= 0; number--) {
    const row = sheet.rows[number], down = y - sheet.y - MARKS_DOWN - row.y * STEP;
    if (down < -10 || down > LETTER_HEIGHT + 20) continue;
    const hit = marksIn(svg.slice(row.from, row.to)).reverse().find(mark => dots >= mark.x && dots < mark.x + mark.width);
    if (hit) return { printer: sheet.printer, row: number, name: [sheet.printer, number, hit.x, hit.width, hit.what].join(' ') };
  }
  return null;
}
