#!/usr/bin/env python3
"""tests/lib/readings.py [--frames|--fields|--odd [FORM]|--json] [--intervals] [--bounds profile|guide] [--fault WORDS] [--sigrok RULE..]
< TRACE: what a recording says, by docs/DEFINITIONS.md and not by the program's code. It stays apart from the program on purpose.

It goes through whole stretches (crates/pr_decode/specs/Readings.antt) and writes the lines of `print1525 decode`
(crates/pr_report/specs) up to and with the verdict, or with --odd those after it, on what is odd about the recording, of which the
trace is written so: text, signals or inverted. --intervals and --bounds guide are those of `decode`, --json is its `--as json`
without the verdict. The verdict by the profile names the fault of --fault, in the words of `check` (`edge 1: bad shape`); without
it the trace is lawful. With --frames it writes of each whole byte when it was ready, CLOCK's last pull, and the byte. The times of
the trace do not go back.

With --fields it writes of each reading how it ends and when, and all of its moments and bits, as `tests/c/calls.c` does.

With --sigrok the named rules are those of sigrok's decoder `ieee488`, all where none is named:
  silence   CLOCK may be released in a bit for as long as it likes
  call      ATN's pull may begin an opening, where CLOCK is released
  answer    DATA's third turn is end-or-identify, though it is not released again before CLOCK's first pull"""

import json
import os
import re
import sys

from codes import NAMES

LONGEST_BIT = 1000
SIGROK = ("silence", "call", "answer")

# The intervals, with their bounds: in the profile those of the delays, as the definitions say them.
DELAYS = {}
with open(os.path.dirname(os.path.abspath(__file__)) + "/../../crates/pr_wire/specs/Delays.antt", encoding="utf-8") as file:
    for kind, least, greatest in re.findall(r"^bounds_of (\w+) = \((\d+), \d+, (\d+)\)$", file.read(), re.M):
        DELAYS[kind] = (int(least), int(greatest))
PROFILE = {
    "ready": DELAYS["H"],
    "first pull": DELAYS["Ne"],
    "answer": DELAYS["Ye"],
    "answer length": (DELAYS["Ei"][0], DELAYS["Ye"][1] + DELAYS["Ei"][1] - DELAYS["Ye"][0]),
    "pull after answer": DELAYS["Ry"],
    "shortest low half": DELAYS["S"],
    "longest low half": DELAYS["S"],
    "shortest high half": DELAYS["V"],
    "longest high half": DELAYS["V"],
    "acknowledgement": DELAYS["F"],
}
# In the Programmer's Reference Guide's table of serial bus timing those of Th, Tne, Tye, Tei, Try, Ts, Tv and Tf. It has no
# least length of Tne: 1 here.
GUIDE = {
    "ready": (0, None),
    "first pull": (1, 200),
    "answer": (200, None),
    "answer length": (60, None),
    "pull after answer": (0, 60),
    "shortest low half": (20, None),
    "longest low half": (20, None),
    "shortest high half": (20, None),
    "longest high half": (20, None),
    "acknowledgement": (0, 1000),
}


class Edge:
    def __init__(self, line):
        time, levels = line.split()
        self.time = int(time)
        self.atn, self.clock, self.data = (level == "1" for level in levels)


class Stretch:
    """Neighbouring edges in which CLOCK stays as it is and ATN is not pulled."""

    def __init__(self, called, edge):
        self.called = called
        self.edges = [edge]
        self.clock = edge.clock
        self.time = edge.time

    def turns(self):
        """Where DATA turns: where CLOCK is released it is pulled first, where CLOCK is pulled it is released first."""
        level, found = not self.clock, []
        for edge in self.edges:
            if edge.data == level:
                found.append(edge)
                level = not level
        return found


def stretches_of(edges):
    found = []
    for n, edge in enumerate(edges):
        called = n > 0 and edges[n - 1].atn and not edge.atn
        if found and found[-1].clock == edge.clock and not called:
            found[-1].edges.append(edge)
        else:
            found.append(Stretch(called, edge))
    return found


def first_late(stretch, following):
    """When an edge first comes too late for a bit since CLOCK was released."""
    after = stretch.edges[1:] + [it.edges[0] for it in following[:1]]
    return next((edge.time for edge in after if edge.time - stretch.time > LONGEST_BIT), None)


class Reading:
    def __init__(self, turns, rules):
        self.look, self.ready = turns[0].time, turns[1].time
        self.is_command = not turns[1].atn
        self.pulse = (turns[2].time, turns[3].time) if len(turns) > 3 else None
        self.is_eoi = len(turns) > (2 if "answer" in rules else 3)
        self.bits, self.lows, self.highs = [], [], []
        self.acknowledged = None
        self.end = "cut"

    def is_whole(self):
        return len(self.bits) == 8

    def byte(self):
        return sum(bit << n for n, bit in enumerate(self.bits))

    def lengths(self):
        found = {"ready": self.ready - self.look}
        if self.pulse is None:
            found["first pull"] = self.pull - self.ready
        else:
            found["answer"] = self.pulse[0] - self.ready
            found["answer length"] = self.pulse[1] - self.pulse[0]
            found["pull after answer"] = self.pull - self.pulse[1]
        for word, halves in (("low", self.lows), ("high", self.highs)):
            if halves:
                found[f"shortest {word} half"] = min(halves)
                found[f"longest {word} half"] = max(halves)
        if self.acknowledged is not None:
            found["acknowledgement"] = self.acknowledged - self.last_pull
        return found


def reading_at(stretches, rules):
    """What begins with the first of some stretches, and how many stretches its bits are."""
    opening, after = stretches[0], stretches[1:]
    turns = opening.turns()
    if opening.called and "call" not in rules or not opening.clock or len(turns) < 2:
        return None
    if not after or any(stretch.called for stretch in after[:2]):
        return None
    reading = Reading(turns, rules)
    reading.pull = after[0].time
    at = 0
    while len(reading.bits) < 8 and at + 2 < len(after):
        low, high, following = after[at : at + 3]
        is_late = "silence" not in rules and first_late(high, [following]) is not None
        if high.called or following.called or is_late:
            break
        reading.bits.append(int(high.edges[0].data))
        reading.lows.append(high.time - low.time)
        reading.highs.append(following.time - high.time)
        at += 2
    last, rest = after[at], after[at + 1 :]
    reading.last_pull = last.time
    if reading.is_whole():
        end_frame(reading, last, rest)
    else:
        end_glitch(reading, rest, rules)
    return reading, at


def end_frame(reading, last, rest):
    turns = last.turns()
    if len(turns) > 1:
        reading.acknowledged = turns[1].time
        reading.end = "acknowledged"
    elif rest:
        reading.given_up = rest[0].time
        reading.end = "not acknowledged"


def end_glitch(reading, rest, rules):
    if not rest:
        return
    late = None if "silence" in rules else first_late(rest[0], rest[1:])
    if rest[0].called:
        reading.end, reading.ended = "ATN", rest[0].time
    elif late is not None:
        reading.end, reading.ended = "silence", late
    elif len(rest) > 1:
        reading.end, reading.ended = "ATN", rest[1].time


def readings_of(edges, rules):
    stretches = stretches_of(edges)
    found, at = [], 0
    while at < len(stretches):
        begun = reading_at(stretches[at:], rules)
        at += 1
        if begun:
            found.append(begun[0])
            at += begun[1]
    return found


def command_words(byte):
    if byte in (63, 95):
        return "UNLISTEN" if byte == 63 else "UNTALK"
    for word, first, last in (("LISTEN", 32, 62), ("TALK", 64, 94), ("SECOND", 96, 111), ("CLOSE", 224, 239), ("OPEN", 240, 255)):
        if first <= byte <= last:
            return f"{word} {byte - first}"
    return f"command {byte}"


def data_words(byte, is_printed):
    if byte == 39:
        return '"\'"'
    if 32 <= byte <= 126:
        return f"'{chr(byte)}'"
    return NAMES[byte] if is_printed and byte in NAMES else f"byte {byte}"


class Context:
    """What the acknowledged bytes so far come to: the last of them, whether a printer listens, and who talks."""

    def __init__(self):
        self.last, self.printer_listens, self.asked, self.talker = "", False, None, None

    def take(self, reading, byte):
        if not reading.is_command:
            self.last = "data"
        elif self.last == "command" and byte >= 96:
            self.last = ""
            if self.asked is not None:
                self.talker, self.asked = self.asked, None
        else:
            self.last = "" if byte == 63 else "command"
            self.asked = None
            if byte in (36, 37, 63):
                self.printer_listens = byte != 63
            if 64 <= byte <= 95:
                self.talker, self.asked = None, byte - 64 if byte < 95 else None


def line_of(context, reading):
    """The lines of a reading in a context, which then takes it."""
    if not reading.is_whole():
        ends = {"ATN": "ended by ATN at", "silence": "CLOCK released too long at"}
        end = "cut by the recording's end" if reading.end == "cut" else f"{ends[reading.end]} {reading.ended} us"
        return f"glitch at {reading.look} us, bits {len(reading.bits)}, {end}"
    byte = reading.byte()
    if reading.end != "acknowledged":
        end = "cut by the recording's end"
        if reading.end != "cut":
            end = f"not acknowledged, given up at {reading.given_up} us"
        return f"{'command' if reading.is_command else 'byte'} {byte} at {reading.look} us, {end}"
    says = command_words(byte) if reading.is_command else data_words(byte, context.printer_listens)
    line = f"{reading.look:12} {reading.acknowledged:12}  ${byte:02X}  {says}{', end-or-identify' if reading.is_eoi else ''}"
    heading = "attention\n"
    if not reading.is_command:
        sender = "data" if context.talker is None else f"data from {context.talker}"
        heading = "" if context.last == "data" else sender + "\n"
    elif context.last == "command" and byte >= 96:
        heading = ""
    context.take(reading, byte)
    return heading + line


def is_outside(length, bounds):
    least, greatest = bounds
    return length < least or greatest is not None and length > greatest


def bounds_text(bounds):
    least, greatest = bounds
    return f"{least} or more" if greatest is None else f"{least} to {greatest}"


def measures_of(reading, bounds):
    """The intervals of a reading outside these bounds, each with its length and the bounds."""
    owner = "guide" if bounds is GUIDE else "profile"
    for name, length in reading.lengths().items():
        if is_outside(length, bounds[name]):
            yield f"{name} {length} us, the {owner} has {bounds_text(bounds[name])}"


def place_of(reading):
    if not reading.is_whole():
        return f"glitch at {reading.look} us, bits {len(reading.bits)}"
    return f"{'command' if reading.is_command else 'byte'} ${reading.byte():02X} at {reading.look} us"


def guide_words(readings):
    for reading in readings:
        for measure in measures_of(reading, GUIDE):
            return f"outside the guide's bounds: {place_of(reading)}, {measure}"
    return "within the guide's bounds" if readings else "no byte to measure"


def damage_words(readings):
    """The first incomplete byte, or the one that the recording's end cuts."""
    for reading in readings:
        if not reading.is_whole():
            return f"damaged: {place_of(reading)}; "
        if reading.end == "cut":
            return f"damaged: {place_of(reading)}, cut by the recording's end; "
    return ""


def verdict_words(readings, bounds, fault):
    """The verdict by these bounds, with the first fault of the edges as `check` has it, or none."""
    if bounds is GUIDE:
        return damage_words(readings) + guide_words(readings)
    if not fault:
        return damage_words(readings) + "this project's timing"
    place, reason = fault.split(": ")
    timing = f"this project's timing, truncated at {place}" if reason == "truncated" else f"differs from this project's timing at {fault}"
    return damage_words(readings) + timing + "; " + guide_words(readings)


def tell(readings, bounds, has_intervals, fault=""):
    context = Context()
    for reading in readings:
        print(line_of(context, reading))
        if has_intervals:
            for measure in measures_of(reading, bounds):
                print("    " + measure)
    for name in bounds if has_intervals else ():
        lengths = sorted(it.lengths()[name] for it in readings if name in it.lengths())
        if not lengths:
            print(f"{name}: none")
            continue
        middle = lengths[(len(lengths) - 1) // 2]
        outside = sum(is_outside(length, bounds[name]) for length in lengths)
        print(
            f"{name}: {len(lengths)}, least {lengths[0]}, middle {middle if middle < 16384 else 'over 16383'}, "
            f"greatest {lengths[-1]}, outside {bounds_text(bounds[name])}: {outside}"
        )
    frames = [reading for reading in readings if reading.is_whole()]
    commands = sum(reading.is_command for reading in frames)
    print(f"frames: {len(frames)}, commands: {commands}, data bytes: {len(frames) - commands}")
    print("not acknowledged:", sum(reading.end == "not acknowledged" for reading in frames))
    print("glitches:", len(readings) - len(frames))
    print("verdict:", verdict_words(readings, bounds, fault))


# What to try of a recording, by its form.
ADVICE = {
    "text": "in a trace text the levels are those of ATN, CLOCK and DATA, and 1 is released",
    "signals": "try --invert for probes behind inverters, or other signals with --names",
    "inverted": "try without --invert, or other signals with --names",
}


def tell_oddities(edges, readings, form="text"):
    """Writes what is odd about a recording in this form, and what to try."""
    odd = []
    has_byte = any(reading.end == "acknowledged" for reading in readings)
    if not has_byte:
        odd.append("no byte is acknowledged")
    if all(edge.atn for edge in edges):
        odd.append("attention never comes: ATN is not pulled")
    for name, line in (("ATN", "atn"), ("CLOCK", "clock"), ("DATA", "data")):
        if edges and not getattr(edges[0], line) and not getattr(edges[-1], line):
            odd.append(name + " rests at 0")
    if odd:
        front = "if the bytes make no sense, " if has_byte and form != "text" else ""
        print(*odd, front + ADVICE[form], sep="\n")


def tell_json(readings):
    """Writes a line of JSON for each reading."""
    for reading in readings:
        ends = {"not acknowledged": "unacknowledged", "ATN": "attention", "silence": "clock timeout"}
        end = getattr(reading, "given_up", getattr(reading, "ended", reading.acknowledged))
        line = {
            "kind": "byte" if reading.is_whole() else "incomplete",
            "role": "command" if reading.is_command else "data",
            **({"value": reading.byte()} if reading.is_whole() else {"bits": len(reading.bits)}),
            "eoi": reading.is_eoi,
            "at": reading.look,
            "ready": reading.ready,
            "first pull": reading.pull,
            "last pull": reading.last_pull,
            "end": ends.get(reading.end, reading.end),
            "ended": None if reading.end == "cut" else end,
            "intervals": reading.lengths(),
        }
        print(json.dumps(line, separators=(",", ":")))


def fields_of(reading):
    """How a reading ends and when, and its byte's moments, halves, kind, end-or-identify, bits and number."""
    if reading.is_whole():
        ends = {"acknowledged": "acknowledged", "not acknowledged": "unacknowledged", "cut": "cut"}
        end = {"acknowledged": reading.acknowledged, "not acknowledged": getattr(reading, "given_up", 0), "cut": 0}[reading.end]
    else:
        ends = {"ATN": "attention", "silence": "silence", "cut": "cut-within"}
        end = 0 if reading.end == "cut" else reading.ended
    halves = [f(it) if it else 0 for it in (reading.lows, reading.highs) for f in (min, max)]
    moments = [reading.look, reading.ready, *(reading.pulse or (0, 0)), reading.pull, *halves, reading.last_pull]
    return [ends[reading.end], end, *moments, int(reading.is_command), int(reading.is_eoi), len(reading.bits), reading.byte()]


def main():
    words = sys.argv[1:]
    rules = ()
    if "--sigrok" in words:
        rules = tuple(words[words.index("--sigrok") + 1 :]) or SIGROK
    edges = [Edge(line) for line in sys.stdin]
    readings = readings_of(edges, rules)
    if words[:1] == ["--odd"]:
        tell_oddities(edges, readings, *words[1:2])
        return
    if words[:1] == ["--fields"]:
        for reading in readings:
            print(*fields_of(reading))
        return
    if words[:1] == ["--json"]:
        tell_json(readings)
        return
    if words[:1] != ["--frames"]:
        bounds = words[words.index("--bounds") + 1] if "--bounds" in words else "profile"
        fault = words[words.index("--fault") + 1] if "--fault" in words else ""
        tell(readings, {"profile": PROFILE, "guide": GUIDE}[bounds], "--intervals" in words, fault)
        return
    for reading in readings:
        if reading.is_whole():
            kind = "command" if reading.is_command else "data"
            print(reading.ready, reading.last_pull, kind, reading.byte(), *["eoi"] * reading.is_eoi)


if __name__ == "__main__":
    main()
