#!/usr/bin/env python3
"""recordings.py FORM [WORD..]: recordings of the bus, read and written in other forms, on standard output.

    vcd [TRACE]         a trace text as a Value Change Dump in microseconds, released = 1, with a time stamp after the last edge
    csv [unit=U] [by=S] [rate=MHZ] [TRACE]
                        a trace text as a table, with times in s (unless given), ms, us, ns or ps, or without times: a row a sample
                        at this whole number of megahertz, up to 100 microseconds after the last edge
    trace COUNT         a lawful trace of data bytes: a printer listens, and takes the byte 72 over and over, at typical delays
    timed INTERVAL..    the edges of a data byte with these intervals: how long CLOCK is released before DATA is, from then to the
                        first pull of CLOCK, both halves of each bit, up to the acknowledgement; and, where there are eight, those
                        of end-or-identify: up to its answer, how long that is, and from its end to CLOCK's pull
    said                a recording of bytes, by what becomes of each. The input has a word and a code for each: `command 36` is
                        acknowledged under attention, `sent 72` after it, and `last 13` with end-or-identify; nobody acknowledges
                        `unheard 37` under attention, or `lost 66` after it; `begun 67` ends after three bits, since CLOCK stays
                        released; and after `cut 69` the recording ends

A TRACE is a file, or standard input. A test in Python calls the functions instead."""

import os
import sys

SIGNALS = ("ATN", "CLOCK", "DATA")
LISTENS = """0 111 100 001 200 000 1100 010 1150 011 1190 000 1260 010 1280 000 1350 010 1370 001 1440 011 1460 000 1530 010
1550 000 1620 010 1640 001 1710 011 1730 000 1800 010 1820 000 1890 010 1910 001 1930 000 2030 100""".split()
BYTE = """100 110 150 111 190 100 260 110 280 100 350 110 370 100 440 110 460 101 530 111 550 100 620 110 640 100 710 110
730 101 800 111 820 100 890 110 910 101 930 100""".split()


def edges_of(text):
    """The edges of a trace text: the time as it is written, and the levels."""
    return [tuple(line.split()) for line in text.splitlines()]


def vcd(edges):
    lines = ["$timescale 1 us $end", "$scope module bus $end"]
    lines += [f"$var wire 1 {it[0]} {it} $end" for it in SIGNALS] + ["$upscope $end", "$enddefinitions $end"]
    before = "???"
    for time, levels in edges:
        lines.append(f"#{time}")
        lines += [new + sign for new, old, sign in zip(levels, before, "ACD") if new != old]
        before = levels
    return "\n".join([*lines, f"#{int(edges[-1][0]) + 1000 if edges else 1000}"]) + "\n"


def csv(edges, unit="s", by=",", rate=0):
    lines, rate = [], int(rate)
    if rate:
        lines += [f"; Samplerate: {rate} MHz", by.join(SIGNALS)]
        ends = [int(time) for time, _ in edges[1:]] + [int(edges[-1][0]) + 100]
        sample = 0
        for (_, levels), end in zip(edges, ends):
            lines += [by.join(levels)] * (end * rate - sample)
            sample = max(sample, end * rate)
        return "\n".join(lines) + "\n"
    decimals, zeros = {"s": 6, "ms": 3}.get(unit, 0), {"ns": "000", "ps": "000000"}.get(unit, "")
    lines.append(by.join([f"Time [{unit}]", *SIGNALS]))
    for time, levels in edges:
        if decimals:
            time = f"{int(time) // 10**decimals}.{int(time) % 10**decimals:0{decimals}d}"
        lines.append(by.join([time + zeros, *levels]))
    return "\n".join(lines) + "\n"


def trace(count):
    """The trace in parts, since it may be long."""
    yield "".join(f"{time} {levels}\n" for time, levels in zip(LISTENS[::2], LISTENS[1::2]))
    edges = [(2030 + int(time), levels) for time, levels in zip(BYTE[::2], BYTE[1::2])]
    for start in range(0, 930 * count, 930):
        yield "".join([f"{start + time} {levels}\n" for time, levels in edges])


class Edges:
    """Edges one after the other, each some microseconds after the last."""

    def __init__(self, time):
        self.time, self.lines = time, []

    def add(self, wait, levels):
        self.time += wait
        self.lines.append(f"{self.time} {levels}")

    def text(self):
        return "".join(f"{it}\n" for it in self.lines)


def timed(ready, pull, low, high, acknowledged, answer=None, length=None, after=None):
    made = Edges(0)
    made.add(0, "100")
    made.add(1000, "110")
    made.add(ready, "111")
    if answer is not None:
        made.add(answer, "110")
        made.add(length, "111")
        pull = after
    wait = pull
    for n in range(8):
        level = int(n in (3, 6))
        made.add(wait, f"10{level}")
        made.add(low, f"11{level}")
        wait = high
    made.add(wait, "101")
    made.add(acknowledged, "100")
    return made.text()


def said(lines):
    made, atn = Edges(0), 1
    made.add(0, "111")
    for number, (word, code) in enumerate(it.split() for it in lines):
        is_command = word in ("command", "unheard")
        # Attention begins or ends; before the first byte CLOCK and DATA are pulled.
        if is_command and atn:
            made.add(100, "001")
            made.add(100, "000")
        elif not is_command and not atn:
            made.add(100, "100")
        elif number == 0:
            made.add(100, "101")
            made.add(100, "100")
        atn = int(not is_command)
        made.add(1000, f"{atn}10")
        made.add(50, f"{atn}11")
        if word == "last":
            made.add(250, f"{atn}10")
            made.add(80, f"{atn}11")
        wait = 40
        for bit in range(3 if word == "begun" else 8):
            level = int(code) >> bit & 1
            made.add(wait, f"{atn}0{level}")
            made.add(70, f"{atn}1{level}")
            wait = 20
        if word == "begun":
            made.add(3000, f"{atn}01")
            made.add(20, f"{atn}00")
            continue
        made.add(20, f"{atn}01")
        if word == "cut":
            break
        if word in ("unheard", "lost"):
            made.add(2000, f"{atn}11")
            made.add(20, f"{atn}01")
        made.add(20, f"{atn}00")
    return made.text()


def main(form, *words):
    if form == "trace":
        return trace(int(words[0]))
    if form == "timed":
        return [timed(*map(int, words))]
    if form == "said":
        return [said(sys.stdin)]
    options = dict(it.replace("\\t", "\t").split("=", 1) for it in words if it.startswith(("unit=", "by=", "rate=")))
    files = [it for it in words if not it.startswith(("unit=", "by=", "rate="))]
    with open(files[0] if files else 0, encoding="latin-1", newline="\n") as file:
        edges = edges_of(file.read())
    return [vcd(edges) if form == "vcd" else csv(edges, **options)]


if __name__ == "__main__":
    if len(sys.argv) < 2 or sys.argv[1] not in ("vcd", "csv", "trace", "timed", "said"):
        sys.exit(__doc__)
    try:
        sys.stdout.writelines(main(*sys.argv[1:]))
        sys.stdout.flush()
    except BrokenPipeError:  # `head` has what it wants
        os.dup2(os.open(os.devnull, os.O_WRONLY), sys.stdout.fileno())
