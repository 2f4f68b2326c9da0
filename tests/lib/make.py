#!/usr/bin/env python3
"""make.py WHAT SEED [FILE]: a made input, on standard output; the same seed makes the same, on every system.

    script     five files on devices 4 and 5, seldom on others, printed to, closed and opened again
    marks      a script that puts marks of all kinds on both pages, with codes, repeats, addresses and moves, and seldom stops
    dots       a script that prints six rows of columns of dots, 480 each
    noise      a script that prints a hundred rows of columns of dots, of which nothing repeats
    bytes      bytes of a printer: texts, columns of dots, codes and line ends
    inputs     such bytes in stretches of one character set: the script that sends them to printer 4; the inputs as numbers, a line
               each, go to FILE, with more selections or fewer than the script makes, which change nothing
    delays     delay numbers for the computer and both printers, as --delays takes them
    spoilt     the text on standard input (or in FILE) with a line that is left out, doubled, or has another character

A test in Python calls the functions instead."""

import sys

from codes import COMMANDS, CONTROLS, LINE_ENDS, MODES

CODES = (*MODES, *LINE_ENDS, 13, 13, *COMMANDS)


class Chance:
    """Numbers by a seed: those of the C library's random(), an additive feedback generator of 31 words."""

    def __init__(self, seed):
        words = [seed or 1]
        for _ in range(30):
            words.append(16807 * words[-1] % 2147483647)
        self.words = words + words[:3]
        for _ in range(310):
            self.step()

    def step(self):
        self.words.append((self.words[-31] + self.words[-3]) % 2**32)
        del self.words[: len(self.words) - 31]
        return self.words[-1]

    def pick(self, below):
        """A number from 0 to below - 1."""
        return int((self.step() >> 1) / 2147483647 * below)

    def one_of(self, choices):
        return choices[self.pick(len(choices))]


def script(seed):
    chance = Chance(seed)
    pick, lines = chance.pick, []

    def file():
        return 1 + pick(4) if pick(6) else 128

    def opened(number):
        device = 4 + pick(2) if pick(15) else 4 + pick(27)
        second = "" if pick(2) else f",{7 if pick(2) else pick(16)}"
        lines.append(f"OPEN {number},{device}{second}")

    def part():
        if pick(4) == 0:
            return f"CHR$({pick(256)})"
        return '"' + "".join(chr(32 + (3 + pick(94)) % 95) for _ in range(pick(12))) + '"'

    def listed():
        text = part()
        for _ in range(pick(3)):
            text += ";" * bool(pick(2)) + part()
        return text + ("" if pick(4) else ";")

    for number in (1, 2, 3, 4, 128):
        opened(number)
    for _ in range(4 + pick(12)):
        kind = pick(10)
        if kind < 4:
            lines.append(f"PRINT#{file()},{listed()}")
        elif kind < 7:
            lines.append(f"CMD {file()},{listed()}")
        elif kind < 9:
            lines.append(f"PRINT {listed()}")
        else:
            number = file()
            lines.append(f"CLOSE {number}")
            if pick(4):
                opened(number)
    return "\n".join(lines) + "\n"


def marks(seed):
    chance = Chance(seed)
    pick = chance.pick

    def byte():
        kind = pick(8)
        if kind < 3:
            return 32 + pick(96)
        if kind < 5:
            return 160 + pick(96)
        return pick(256) if kind < 6 else chance.one_of(CONTROLS)

    lines = ["OPEN 4,4" + ",7" * bool(pick(2)) + ":OPEN 5,5" + ",7" * bool(pick(2))]
    for _ in range(pick(40)):
        text = f"PRINT#{4 + pick(2) if pick(400) else 9},CHR$({byte()})"
        text += "".join(f"CHR$({byte()})" for _ in range(pick(60)))
        lines.append(text + ("" if pick(3) else ";"))
    if pick(2):
        lines.append('PRINT "THE SCREEN"')
    return "\n".join(lines) + "\n"


def dots(seed):
    pick, lines = Chance(seed).pick, ["OPEN 4,4:PRINT#4,CHR$(8);"]
    for _ in range(6):
        for part in range(4):
            lines.append("PRINT#4," + "".join(f"CHR$({128 + pick(128)})" for _ in range(120)) + ";" * (part < 3))
    return "\n".join(lines) + "\n"


def noise(seed):
    pick, lines = Chance(seed).pick, ["OPEN 4,4", "PRINT#4,CHR$(8);"]
    for part in range(1, 2401):
        lines.append("PRINT#4," + "".join(f"CHR$({128 + pick(128)})" for _ in range(20)) + ";" * bool(part % 24))
    return "\n".join(lines) + "\n"


def printed_byte(chance):
    kind = chance.pick(10)
    if kind < 5:
        return 32 + chance.pick(96)
    if kind < 7:
        return 128 + chance.pick(128)
    return chance.one_of(CODES) if kind < 9 else chance.pick(256)


def printed_bytes(seed):
    chance = Chance(seed)
    return bytes(printed_byte(chance) for _ in range(chance.pick(400)))


def inputs(seed):
    """The script, and the inputs as text."""
    chance = Chance(seed)
    pick, lines, numbers, is_lower = chance.pick, ["OPEN 1,4", "OPEN 2,4,7"], [], 0
    for _ in range(1 + pick(12)):
        was_lower, is_lower = is_lower, pick(2)
        if is_lower != was_lower or pick(4) == 0:
            numbers.append(256 + is_lower)
        for _ in range(pick(4) + 1):
            line = f"PRINT#{1 + is_lower},"
            for _ in range(1 + pick(12)):
                numbers.append(printed_byte(chance))
                line += f"CHR$({numbers[-1]});"
                if pick(40) == 0:
                    numbers.append(256 + is_lower)
            lines.append(line)
    return "\n".join(lines) + "\n", "".join(f"{it}\n" for it in numbers)


def delays(seed):
    pick = Chance(seed).pick
    return "/".join(",".join(str(pick(65536)) for _ in range(pick(120))) for _ in range(3))


def spoilt(seed, text):
    """A text of bytes with another line, each line with its end."""
    pick, lines = Chance(seed).pick, text.split(b"\n")
    lines = lines[:-1] if lines[-1] == b"" else lines
    at, kind = pick(len(lines)), pick(3)
    if lines and kind == 0:
        del lines[at]
    elif lines and kind == 1:
        lines.insert(at, lines[at])
    elif lines:
        place = pick(len(lines[at]))
        lines[at] = lines[at][:place] + bytes([33 + pick(94)]) + lines[at][place + 1 :]
    return b"".join(it + b"\n" for it in lines)


def main(what, seed, *file):
    seed = int(seed)
    if what == "inputs":
        text, numbers = inputs(seed)
        with open(*file, "w", encoding="ascii") as given:
            given.write(numbers)
    elif what == "spoilt":
        with open(file[0] if file else 0, "rb") as given:
            text = spoilt(seed, given.read())
    elif what == "delays":
        text = delays(seed) + "\n"
    elif what == "bytes":
        text = printed_bytes(seed)
    else:
        text = {"script": script, "marks": marks, "dots": dots, "noise": noise}[what](seed)
    sys.stdout.buffer.write(text if isinstance(text, bytes) else text.encode("latin-1"))


if __name__ == "__main__":
    if len(sys.argv) < 3:
        sys.exit(__doc__)
    main(*sys.argv[1:])
