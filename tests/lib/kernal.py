#!/usr/bin/env python3
"""tests/lib/kernal.py SEED [--guide] | --prints TEXT: a made recording of a bus as a C64's KERNAL and its devices drive it, as a trace text.

It is no trace of the profile: ATN is pulled 20 microseconds before CLOCK, DATA is set after CLOCK's pull, a bit takes 60 to 90
microseconds, and listeners hold DATA for up to 20 ms. Before UNLISTEN the KERNAL lets CLOCK go, as if it sent one more byte. Some
recordings begin or end in the middle of a transfer; in some a byte is given up, is not acknowledged, or nobody answers a call; and
some talkers set DATA before CLOCK's first pull. The same seed makes the same recording.

In some bits CLOCK is released for 18 microseconds; with --guide for 20, as the Programmer's Reference Guide's table of the bus wants
it, and then all intervals of a byte are within that table's bounds where no byte is given up. With --prints printer 4 is alone on
the bus and gets a text and a carriage return, without a flaw and within the guide's bounds."""

import os
import sys

ATN, CLOCK, DATA = range(3)
COMPUTER = 0
LISTEN, UNLISTEN, TALK, UNTALK, SECOND, CLOSE = 32, 63, 64, 95, 96, 224


class Chance:
    """Numbers by a seed, the same with every version of Python."""

    def __init__(self, seed):
        self.state = seed * 2654435761 % 2**31
        for _ in range(5):
            self.number(2)

    def number(self, below):
        self.state = (self.state * 1103515245 + 12345) % 2**31
        return (self.state >> 8) % below

    def within(self, least, greatest):
        return least + self.number(greatest - least + 1)

    def happens(self, one_in):
        return self.number(one_in) == 0

    def one_of(self, choices):
        return choices[self.number(len(choices))]


class Wires:
    """What the parties do to the three lines, each of which is pulled while any party pulls it."""

    def __init__(self):
        self.acts = []

    def pull(self, time, line, party):
        self.acts.append((time, len(self.acts), line, party, True))

    def release(self, time, line, party):
        self.acts.append((time, len(self.acts), line, party, False))

    def edges(self):
        """The edges: a moment and the levels of ATN, CLOCK and DATA from then on, 1 released."""
        pulling = [set(), set(), set()]
        edges = [(0, "111")]
        for time, _, line, party, pulls in sorted(self.acts):
            if pulls:
                pulling[line].add(party)
            else:
                pulling[line].discard(party)
            levels = "".join("0" if parties else "1" for parties in pulling)
            if edges[-1][0] == time:
                edges.pop()
            if not edges or edges[-1][1] != levels:
                edges.append((time, levels))
        return edges


class Session:
    """A computer and its devices on the wires. `now` is the moment up to which all is done."""

    def __init__(self, seed, least_high=18):
        self.chance = Chance(seed)
        self.least_high = least_high
        self.wires = Wires()
        self.now = self.chance.within(100, 3000)
        self.devices = [device for device in (4, 5, 8) if self.chance.happens(2)] or [4]
        self.listeners = set()
        self.sets_data_early = self.chance.happens(8)
        self.is_flawed = self.chance.happens(2)

    def hold(self):
        """How long a listener holds DATA when a byte is to come."""
        return self.chance.within(1000, 20000) if self.chance.happens(8) else self.chance.within(20, 400)

    def flaw(self, one_in):
        return self.is_flawed and self.chance.happens(one_in)

    def call(self, unlisten=False, untalk=False):
        """ATN is pulled, 20 microseconds before CLOCK. Before UNLISTEN CLOCK is let go, and before UNTALK it is pulled."""
        chance, wires = self.chance, self.wires
        atn = self.now + chance.within(150, 2500)
        if unlisten:
            release = atn - chance.within(8, 14)
            wires.release(release, CLOCK, COMPUTER)
            for device in self.listeners:
                if chance.happens(2):
                    wires.release(release + chance.within(3, 45), DATA, device)
        if untalk:
            wires.pull(atn - chance.within(6, 10), CLOCK, COMPUTER)
        wires.pull(atn, ATN, COMPUTER)
        wires.pull(atn + 20, CLOCK, COMPUTER)
        wires.release(atn + 25, DATA, COMPUTER)
        for device in self.devices:
            wires.release(atn + chance.within(2, 20), CLOCK, device)
            wires.pull(atn + chance.within(60, 700), DATA, device)
        self.now = atn + 20

    def attention(self, *commands):
        """Commands under ATN, and its release: listeners hold DATA after it."""
        self.call(commands == (UNLISTEN,), commands == (UNTALK,))
        for command in commands:
            self.now += self.chance.within(1000, 1100)
            self.send(COMPUTER, set(self.devices), command)
            if command == UNLISTEN:
                self.listeners = set()
            elif LISTEN <= command < UNLISTEN and command - LISTEN in self.devices:
                self.listeners.add(command - LISTEN)
        if TALK <= commands[0] < UNTALK:
            return
        self.now += self.chance.within(40, 200)
        self.wires.release(self.now, ATN, COMPUTER)
        ends = commands in ((UNLISTEN,), (UNTALK,))
        for device in self.devices:
            if device not in self.listeners:
                self.wires.release(self.now + self.chance.within(15, 90), DATA, device)
        self.now += 100
        if ends:
            self.wires.release(self.now, CLOCK, COMPUTER)

    def call_nobody(self):
        """A call that no device answers."""
        atn = self.now + self.chance.within(150, 2500)
        self.wires.pull(atn, ATN, COMPUTER)
        self.wires.pull(atn + 20, CLOCK, COMPUTER)
        self.now = atn + self.chance.within(1020, 1100)
        self.wires.release(self.now, ATN, COMPUTER)
        self.wires.release(self.now + 15, CLOCK, COMPUTER)
        self.now += 100

    def be_ready(self, talker, listeners):
        """The talker lets CLOCK go, and the listeners let DATA go, each when it is ready."""
        look = self.now
        self.wires.release(look, CLOCK, talker)
        self.now = look
        for listener in listeners:
            ready = look + self.hold()
            self.wires.release(ready, DATA, listener)
            self.now = max(self.now, ready)

    def identify(self, listeners):
        """CLOCK stays released, and the listeners answer end-or-identify."""
        starts = [self.now + self.chance.within(200, 256) for _ in listeners]
        ends = [max(starts) + self.chance.within(60, 120) for _ in listeners]
        for listener, start, end in zip(listeners, starts, ends):
            self.wires.pull(start, DATA, listener)
            self.wires.release(end, DATA, listener)
        self.now = max(ends)

    def bit(self, talker, level):
        """CLOCK is pulled, DATA is set after it, and CLOCK is released: 60 to 90 microseconds."""
        low, high = self.chance.one_of(((42, 18), (50, 20), (62, 22), (66, 24), (30, 60)))
        self.wires.pull(self.now, CLOCK, talker)
        self.wires.release(self.now, DATA, talker)
        if not level:
            self.wires.pull(self.now + self.chance.within(8, 26), DATA, talker)
        self.now += low
        self.wires.release(self.now, CLOCK, talker)
        self.now += max(high, self.least_high)

    def give_up(self, talker, listeners, bits, value):
        """A byte that is given up after some bits, while CLOCK is pulled or released. True: the same byte comes anew."""
        for n in range(bits):
            self.bit(talker, value >> n & 1)
        way = self.chance.number(4)
        if way == 0:
            self.now -= self.chance.within(5, 15)
            return False
        self.wires.pull(self.now, CLOCK, talker)
        self.now += 40
        if way == 1:
            return False
        self.wires.release(self.now, CLOCK, talker)
        self.now += self.chance.within(1001, 4000)
        self.wires.release(self.now, DATA, talker)
        self.now += 10
        if way == 3 and talker == COMPUTER:
            for listener in listeners:
                self.wires.pull(self.now + self.chance.within(5, 60), DATA, listener)
            self.now += 100
            return True
        return False

    def send(self, talker, listeners, value, eoi=False, may_fail=False):
        """A byte from the talker to listeners. False: the talker gives it up, or nobody acknowledges it."""
        chance, wires = self.chance, self.wires
        self.be_ready(talker, listeners)
        if eoi:
            self.identify(listeners)
        self.now += chance.within(20, 60)
        if self.sets_data_early and not value & 1:
            wires.pull(self.now - chance.within(2, 9), DATA, talker)
        if may_fail and self.flaw(6):
            if not self.give_up(talker, listeners, chance.within(1, 7), value):
                return False
            return self.send(talker, listeners, value, eoi)
        for n in range(8):
            self.bit(talker, value >> n & 1)
        wires.pull(self.now, CLOCK, talker)
        wires.release(self.now, DATA, talker)
        if may_fail and self.flaw(8):
            self.now += 1100
            return False
        answers = [self.now + chance.within(15, 300) for _ in listeners]
        for listener, answer in zip(listeners, answers):
            wires.pull(answer, DATA, listener)
        self.now = max(answers)
        return True

    def write(self):
        """LISTEN, perhaps with a secondary address, data bytes, and UNLISTEN."""
        chance = self.chance
        device = chance.one_of(self.devices)
        second = chance.one_of((None, SECOND, SECOND + 7, SECOND + chance.number(16), CLOSE + chance.number(16)))
        self.attention(*((LISTEN + device,) if second is None else (LISTEN + device, second)))
        if second is None or second < CLOSE:
            count = chance.within(1, 8)
            for n in range(count):
                self.now += chance.within(80, 900)
                if not self.send(COMPUTER, self.listeners, chance.number(256), n == count - 1, True):
                    break
        self.attention(UNLISTEN)

    def read(self):
        """TALK with a secondary address, the turn of the bus, the talker's bytes, and UNTALK."""
        chance, wires = self.chance, self.wires
        device = chance.one_of(self.devices)
        self.attention(TALK + device, SECOND + chance.number(16))
        wires.pull(self.now + 10, DATA, COMPUTER)
        self.now += chance.within(20, 60)
        wires.release(self.now, ATN, COMPUTER)
        for party in self.devices:
            wires.release(self.now + chance.within(15, 60), DATA, party)
        self.now += 12
        wires.release(self.now, CLOCK, COMPUTER)
        self.now += chance.within(80, 300)
        wires.pull(self.now, CLOCK, device)
        count = chance.within(1, 6)
        is_heard = True
        for n in range(count):
            self.now += chance.within(100, 1500)
            is_heard = self.send(device, {COMPUTER}, chance.number(256), n == count - 1, True)
            if not is_heard:
                break
        if is_heard:
            self.now += chance.within(30, 90)
            wires.release(self.now, CLOCK, device)
            self.now += chance.within(30, 90)
            wires.release(self.now, DATA, COMPUTER)
        self.attention(UNTALK)

    def run(self):
        for _ in range(self.chance.within(1, 4)):
            way = self.chance.number(8)
            if way == 0 and not self.listeners:
                self.call_nobody()
            elif way < 5:
                self.write()
            else:
                self.read()
        return self.wires.edges()

    def part(self, edges):
        """The edges, or those from some moment on, or up to one. The recording then begins at 0 in the levels of that moment."""
        end = edges[-1][0]
        if self.chance.happens(3):
            start = self.chance.number(end // 2)
            before = [edge for edge in edges if edge[0] <= start][-1]
            edges = [(0, before[1])] + [(time - start, levels) for time, levels in edges if time > start]
        if self.chance.happens(4):
            end = edges[-1][0] - self.chance.number(edges[-1][0] // 2 + 1)
            edges = [edge for edge in edges if edge[0] <= end]
        return edges


def printing(text):
    """The edges of a session in which printer 4 gets a text and a carriage return."""
    session = Session(1525, 20)
    session.devices, session.sets_data_early, session.is_flawed = [4], False, False
    session.attention(LISTEN + 4)
    for value in text + b"\r":
        session.now += session.chance.within(80, 900)
        session.send(COMPUTER, session.listeners, value, value == 13)
    session.attention(UNLISTEN)
    return session.wires.edges()


def made():
    """The recording that the words ask for."""
    if sys.argv[1] == "--prints":
        return printing(sys.argv[2].encode("ascii"))
    session = Session(int(sys.argv[1]), 20 if "--guide" in sys.argv else 18)
    return session.part(session.run())


def main():
    try:
        for time, levels in made():
            print(time, levels)
        sys.stdout.flush()
    except BrokenPipeError:  # `head` has what it wants
        os.dup2(os.open(os.devnull, os.O_WRONLY), sys.stdout.fileno())


if __name__ == "__main__":
    main()
