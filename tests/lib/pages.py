#!/usr/bin/env python3
"""pages.py svg|text|terminal|dots [present=both|4|5|none] [characters=FILE] [sheet=PRINTER,NUMBER] [top=LINES] [PAGE-TEXT]: a page text drawn once more.

It is written from docs/DEFINITIONS.md, and stays apart from the program on purpose: it takes nothing from the crates, and the
crates nothing from it. The pictures and lines of the program have to be the same, byte for byte. The shapes are those of
examples/characters.txt unless FILE has others. With `sheet` svg is one sheet of a printer. The first row is LINES lines of 1/6
inch below the upper edge of the paper, 3 unless said. `terminal` is the text as a terminal gets it. `dots` writes a line `PRINTER X Y`
for each dot. PAGE-TEXT is a file, or standard input."""

import os
import sys

CHARACTERS = os.path.dirname(os.path.abspath(__file__)) + "/../../examples/characters.txt"
# The Unicode characters of codes that are not their own; those that the lower/upper case set has for some of them.
GRAPHIC = dict(zip((92, 94, 95, 160, *range(161, 224)), (int(it) for it in """163 8593 8592 160 9612 9604 9620 9601 9615 9618 9621
129935 9700 129927 9500 9623 9492 9488 9602 9484 9524 9516 9508 9614 9613 129928 129922 129923 9603 129919 9622 9629 9496 9624 9626
9472 9824 129906 129912 129911 129910 129914 129905 129908 9582 9584 9583 129916 9586 9585 129917 129918 9679 129915 9829 129904
9581 9587 9675 9827 129909 9830 9532 129932 9474 960 9701""".split())))
LOWER = {169: 129945, 186: 10003, 222: 129942, 223: 129944}
STOPS = ("", "?TOO MANY FILES", "?FILE OPEN", "?FILE NOT OPEN", "", "?DEVICE NOT PRESENT", "?NOT INPUT FILE")
PAPER = """<desc>Pages of VIC-1525 printers. Each dot is where the hammer strikes.</desc>
<pattern id="paper" width="12600" height="630" patternUnits="userSpaceOnUse"><rect width="12600" height="630" fill="#fff"/><g \
fill="#e9e6df" stroke="#b4afa2" stroke-width="10"><circle cx="315" cy="315" r="100"/><circle cx="12285" cy="315" r="100"/><path \
stroke-dasharray="35" d="M630 0v630M11970 0v630"/></g></pattern>
<pattern id="folds" y="6930" width="12600" height="13860" patternUnits="userSpaceOnUse"><path stroke="#b4afa2" stroke-width="10" \
stroke-dasharray="70" d="M0 6930h12600"/></pattern>
"""
TOP = 3  # lines above the first row
INK = '<g stroke-width="29" stroke-linecap="round" fill-opacity="0" font-size="140">\n'


def shapes_of(path):
    """The rows of dots of each character, by its set and code."""
    found = {}
    with open(path, encoding="ascii") as file:
        for line in file.read().split("\n"):
            words = line.split()
            if len(words) == 2:
                rows = found[words[0], int(words[1])] = []
            elif found:
                rows.append(line)
    return found


def printed_as(code):
    """The code as which a code is printed."""
    if 96 <= code < 128:
        return code + 96
    return 222 if code == 255 else code - 64 if code >= 224 else code


def character(code, lower):
    code = printed_as(code)
    if lower and 65 <= code <= 90:
        return code + 32
    if lower and 193 <= code <= 218:
        return code - 128
    return LOWER[code] if lower and code in LOWER else GRAPHIC.get(code, code)


def escaped(sign):
    return f"&#{sign};" if sign > 126 or sign in (34, 38, 39, 60, 62) else chr(sign)


class Mark:
    """A cell or a column of dots, at its place on a line."""

    def __init__(self, words, shapes):
        self.place, self.is_cell, self.code = int(words[0]), words[1] == "cell", int(words[2])
        self.lower, self.reverse, self.wide = (it in words for it in ("lower", "reverse", "wide"))
        self.sign = character(self.code, self.lower) if self.is_cell else 0
        self.name = ("l" if self.lower else "u") + "r" * self.reverse + "w" * self.wide if self.is_cell else "d"
        self.name += str(self.code)
        self.width = 12 if self.wide else 6
        self.columns = self.drawn(shapes) if self.is_cell else [self.code]

    def drawn(self, shapes):
        """The columns of a cell, a dot a bit."""
        rows = shapes["lower" if self.lower else "upper", printed_as(self.code)]
        values = [sum((row[at : at + 1] == "#") << bit for bit, row in enumerate(rows[:7])) for at in range(6)]
        values = [127 - it if self.reverse else it for it in values]
        return [it for it in values for _ in range(1 + self.wide)]

    def definition(self):
        path = "".join(f"M{21 * at + 10} {20 * bit + 10}h0" for at, value in enumerate(self.columns) for bit in range(7) if value >> bit & 1)
        return f'<path stroke="#222" id="{self.name}" d="{path}"/>\n'


class Paper:
    """What a printer has printed: rows, each with its distance from the top and its marks; and marks that it still holds."""

    def __init__(self):
        self.rows, self.held = [], None

    def marks(self):
        return [mark for _, marks in self.rows for mark in marks] + (self.held or [])

    def length(self, top):
        """How long it is drawn, in sixths of an inch, with this many lines above its first row."""
        end = (self.rows[-1][0] + 21 if self.rows else 0) + 42 * (self.held is not None)
        return 3 * ((end + 21 * top + 125) // 63)


class Pages:
    """A page text."""

    def __init__(self, text, shapes):
        self.papers = {"4": Paper(), "5": Paper()}
        self.statuses = self.screen = self.stop = ""
        paper = None
        for line in text.split("\n"):
            words = line.split()
            if not words:
                continue
            if words[0] == "printer":
                paper = self.papers[words[1]]
            elif words[0] == "row":
                paper.rows.append((int(words[1]), []))
            elif words[0] == "held":
                paper.held = []
            elif words[0] == "status":
                self.statuses = line[7:]
            elif words[0] == "screen":
                self.screen = line[7:]
            elif words[0] == "stop":
                self.stop = f"{STOPS[int(words[1])]} in statement {words[3]}"
            else:
                (paper.rows[-1][1] if paper.held is None else paper.held).append(Mark(words, shapes))

    def noted(self):
        """The first four statuses that are not 0, with their statements."""
        found = [f"{it} in statement {at}" for at, it in enumerate(self.statuses.split(), 1) if it != "0"]
        return ", ".join(found[:4]) + ", and more" * (len(found) > 4)


def uses(marks):
    return "".join(f'<use href="#{it.name}" x="{21 * it.place}"/>\n' for it in marks)


def letters(marks):
    """The letters of marks: cells side by side of one width are one element."""
    made, at = "", 0
    while at < len(marks):
        first, until = marks[at], at + 1
        if first.is_cell:
            while until < len(marks) and marks[until].is_cell and marks[until].width == first.width:
                if marks[until].place != first.place + (until - at) * first.width:
                    break
                until += 1
            signs = [it.sign for it in marks[at:until]]
            if any(it not in (32, 160) for it in signs):
                text = "".join(" " if it == 160 else escaped(it) for it in signs)
                length = 21 * first.width * (until - at)
                made += f'<text x="{21 * first.place}" y="140" textLength="{length}" lengthAdjust="spacingAndGlyphs" xml:space="preserve">{text}</text>\n'
        at = until
    return made


def definitions(marks, defined):
    """The definitions of marks that none was made of."""
    made = ""
    for it in marks:
        if it.name not in defined:
            defined.add(it.name)
            made += it.definition()
    return made


def row_at(y, marks, front="<g"):
    return f'{front} transform="translate(0 {10 * y})">\n{uses(marks)}{letters(marks)}</g>\n'


def paper_drawn(printer, paper, above, top):
    """The continuous paper of a printer, below that of others with their names, which take so many sixths of an inch."""
    lines = paper.length(top)
    text = f'<g transform="translate(630 {210 * (above + 5)})">\n<text font-size="210" fill="#555" y="-210">Printer {printer}</text>\n'
    text += f'<rect width="12600" height="{210 * lines}" fill="url(#paper)" stroke="#b4afa2" stroke-width="10"/>\n'
    text += f'<rect y="1260" width="12600" height="{210 * (lines - 6)}" fill="url(#folds)"/>\n<g transform="translate(1260 {210 * top})">\n{INK}'
    text += "".join(row_at(y, marks) for y, marks in paper.rows)
    y = paper.rows[-1][0] + 21 if paper.rows else 0
    if paper.held is not None:
        text += row_at(y + 21, paper.held, '<g opacity=".4"')
    text += "</g>\n"
    if paper.held is not None:
        text += f'<g transform="translate(0 {10 * y})">\n<path stroke="#a33" stroke-width="20" stroke-dasharray="126" d="M0 60h10080"/>\n'
        text += '<text font-size="120" fill="#a33" x="7350" y="200">held by the printer, not yet printed</text>\n</g>\n'
    return text + "</g>\n</g>\n"


def svg(pages, present, top=TOP):
    """The picture of the pages."""
    there = [it for it in ("4", "5") if present in ("both", it)]
    shown = [it for it in there if pages.papers[it].rows or pages.papers[it].held is not None] or there
    papers, noted = "", pages.noted()
    lines = 0
    for it in shown:
        papers += paper_drawn(it, pages.papers[it], lines, top)
        lines += 5 + pages.papers[it].length(top)
    height = lines + 4 + (pages.stop != "") + (noted != "")
    text = f'<svg xmlns="http://www.w3.org/2000/svg" version="1.1" width="66pc" height="{height}pc" viewBox="0 0 13860 {210 * height}">\n'
    text += PAPER + '<rect width="100%" height="100%" fill="#e9e6df"/>\n<defs>\n'
    defined = set()
    text += "".join(definitions(pages.papers[it].marks(), defined) for it in shown) + "</defs>\n" + papers
    text += f'<text font-size="210" fill="#555" transform="translate(630 {210 * (lines + 1)})">\n'
    text += f'<tspan x="0" dy="210" fill="#a33">{pages.stop}</tspan>\n' * (pages.stop != "")
    text += f'<tspan x="0" dy="210">Status {noted}</tspan>\n' * (noted != "")
    return text + "</text>\n</svg>\n"


def sheet_svg(pages, printer, number, top=TOP):
    """One sheet of a printer, from 1: the rows that reach it."""
    begin = 13860 * (number - 1) + 630
    lowered = [(y + 21 * top, marks) for y, marks in pages.papers[printer].rows]
    rows = [it for it in lowered if number - 1 in (it[0] // 1386, (it[0] + 13) // 1386)]
    text = f'<svg xmlns="http://www.w3.org/2000/svg" version="1.1" width="60pc" height="66pc" viewBox="0 {begin} 12600 13860">\n{PAPER}<defs>\n'
    text += definitions([mark for _, marks in rows for mark in marks], set())
    text += f'</defs>\n<rect y="{begin}" width="12600" height="13860" fill="url(#paper)"/>\n<g transform="translate(1260 630)">\n{INK}'
    return text + "".join(row_at(y, marks) for y, marks in rows) + "</g>\n</g>\n</svg>\n"


def signs_of(mark, is_seen):
    """What a cell shows in its columns: each a character and whether a terminal shows it in reverse video; none where it changes nothing."""
    blank = mark.sign in (32, 160)
    if blank and not mark.reverse:
        return []
    if is_seen:
        return [(mark.sign, mark.reverse), (32, mark.reverse)][: 1 + mark.wide]
    return [(9608, False) if blank else (mark.sign, False), (9608 if blank else 32, False)][: 1 + mark.wide]


def line(marks, is_seen):
    """Marks as a line of eighty columns, for a terminal or a file."""
    columns = [((32, False), 0)] * 80
    for it in marks:
        at = it.place // 6
        if it.is_cell:
            for column, sign in enumerate(signs_of(it, is_seen), at):
                columns[column : column + 1] = [(sign, 0)] * (column < 80)
        elif it.code & 127:
            sign, ink = columns[at]
            columns[at] = sign, ink + bin(it.code & 127).count("1")
    made, blanks, video = "", "", False
    for sign, ink in columns:
        if ink:
            sign = 9617 if ink < 12 else 9618 if ink < 23 else 9619 if ink < 34 else 9608, False
        if sign == (32, False):
            blanks += " "
            continue
        if blanks and video:
            made, video = made + "\33[27m", False
        made += blanks
        if sign[1] != video:
            made, video = made + ("\33[7m" if sign[1] else "\33[27m"), sign[1]
        made, blanks = made + chr(sign[0]), ""
    return made + "\33[27m" * video + "\n"


def paper_lines(printer, paper, is_seen):
    text, free = f"Printer {printer}\n", 0
    for y, marks in paper.rows:
        while free + 21 <= y:
            text, free = text + "\n", free + 21
        text, free = text + line(marks, is_seen), y + 21
    return text + ("Held, not yet printed:\n" + line(paper.held, is_seen) if paper.held is not None else "")


def numbers(name, listed):
    """Numbers in lines of at most eighteen; the first has its name."""
    words = listed.split()
    return name + "".join(("\n" if at % 18 == 0 else "") + f" {it}" for at, it in enumerate(words, 1)) + ".\n"


def text_lines(pages, present, is_seen=False):
    text = "".join(paper_lines(it, pages.papers[it], is_seen) for it in ("4", "5") if present in ("both", it))
    text += numbers("Statuses:", pages.statuses) if pages.statuses else ""
    text += numbers("Screen:", pages.screen) if pages.screen else ""
    return text + (f"{pages.stop}.\n" if pages.stop else "")


def dots(pages):
    """Each dot of the rows, once, in the order in which it is first struck: printer, dot column, distance."""
    found = {}
    for printer, paper in pages.papers.items():
        for y, marks in paper.rows:
            for mark in marks:
                for at, value in enumerate(mark.columns):
                    found.update(((int(printer), mark.place + at, y + 2 * bit), True) for bit in range(7) if value >> bit & 1)
    return found


def main(form, *words):
    options = dict(it.split("=", 1) for it in words if it.startswith(("present=", "characters=", "sheet=", "top=")))
    files = [it for it in words if not it.startswith(("present=", "characters=", "sheet=", "top="))]
    with open(files[0] if files else 0, encoding="ascii") as file:
        pages = Pages(file.read(), shapes_of(options.get("characters", CHARACTERS)))
    if form == "dots":
        return "".join(f"{printer} {x} {y}\n" for printer, x, y in dots(pages))
    if "sheet" in options:
        printer, number = options["sheet"].split(",")
        return sheet_svg(pages, printer, int(number), int(options.get("top", TOP)))
    present = options.get("present", "both")
    return svg(pages, present, int(options.get("top", TOP))) if form == "svg" else text_lines(pages, present, form == "terminal")


if __name__ == "__main__":
    if len(sys.argv) < 2 or sys.argv[1] not in ("svg", "text", "terminal", "dots"):
        sys.exit(__doc__)
    sys.stdout.buffer.write(main(*sys.argv[1:]).encode())
