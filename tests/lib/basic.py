#!/usr/bin/env python3
"""tests/lib/basic.py PROGRAM.bas: runs a program in BASIC of the Commodore 64 and writes the output statements that it performs.

Each is a line of a script for `print1525 pages`, with the number of the program's line in front; how the run ended goes
to standard error. It is written from docs/BASIC.md and stays apart from the crates on purpose: exact fractions and
intervals, and a statement that is a class with its own `perform`. tests/basic/README.md says what it takes for certain.

A value is known exactly, or as an interval in which the machine's value is. A use of it that has not one answer is
refused with its place. BASIC's own errors end the run at their statement."""

from __future__ import annotations

import math
import os
import re
import sys
from collections.abc import Sequence
from dataclasses import dataclass, field
from typing import Optional, Union

sys.path.insert(0, os.path.dirname(os.path.abspath(__file__)) + "/../basic")

from interpreter.expressions import Expression, Slot, Variable
from interpreter.reader import Reader
from interpreter.statements import Ended, Loop, Return, Statement
from interpreter.text import Lexeme, Name, lexemes_of, rows_of, size_of, string_of
from interpreter.values import ZERO, BasicError, NotCertain, Number, Refused, Value, exact, number_in, signed_whole, used_at, whole


@dataclass(frozen=True)
class Item:
    """An item of DATA as it is written, its place and its line."""

    text: bytes
    place: int
    line: int


def items_in(lexeme: Lexeme, line: int) -> tuple[list[Item], bool]:
    """The items of a DATA statement: a string that has quotes, or what comes before the next comma or colon. And
    whether they end at a colon in quotes: for the machine quotes then count the other way, and the line has no DATA."""
    text, at, items = lexeme.value, 0, []
    assert isinstance(text, bytes)
    while True:
        found = re.compile(rb'( *)("[^"]*"?[^,:]*|[^,:]*)').match(text, at)
        assert found
        items.append(Item(found[2], lexeme.place + found.start(2), line))
        at = found.end() + 1
        if text[found.end() : at] != b",":
            return items, found.end() < len(text)


def text_item(item: Item) -> tuple[Value, bool]:
    """An item as a string, where names of keys count in quotes alone; and whether that is all of it."""
    if not item.text.startswith(b'"'):
        return item.text, True
    _, text, *rest = item.text.split(b'"')
    return string_of(text, item.place + 1), not any(it.strip(b" ") for it in rest)


def number_item(item: Item, kind: str) -> tuple[Value, bool]:
    """The number at the front of an item, for a variable of a kind; and whether that is all of it."""
    with used_at(item.place):
        value, rest = number_in(item.text)
        return exact(signed_whole(value)) if kind == "%" else value, not rest


class Program:
    """A program: its statements, where its lines begin and end, the items of DATA, and how many bytes of memory it takes."""

    def __init__(self, text: bytes):
        self.code: list[Statement] = []
        self.starts: dict[int, int] = {}
        self.ends: dict[int, int] = {}
        self.items: list[Item] = []
        self.size = size_of(text)
        for line, (row, place) in rows_of(text).items():
            lexemes = lexemes_of(row, place)
            self.size += 5
            self.starts[line] = len(self.code)
            self.code += Reader(line, lexemes, place + len(row)).statements()
            self.ends[line] = len(self.code)
            for before, it in zip([Lexeme(":", place), *lexemes], lexemes):
                if it.word == "ITEMS" and before.word == ":":
                    items, is_last = items_in(it, line)
                    self.items += items
                    if is_last:
                        break


MEMORY = 38911 - 1100  # bytes for a program and what it keeps; the rest is for what an expression makes
STACK = 162  # bytes for loops, calls, and what waits in an expression


class Run:
    """A run of a program: its variables and files, what it has printed, and how it ended."""

    def __init__(self, program: Program):
        self.program, self.at = program, 0
        self.files: dict[int, int] = {}
        self.channel = self.device = 0  # of CMD; 0 is the screen
        self.is_left, self.has_sent = True, False
        self.performed: list[str] = []
        self.notes: list[str] = []
        self.waiting = 0  # bytes of the stack that wait for the part of an expression that is worked out
        self.strings = 0  # that the machine keeps for an expression
        self.clear()
        self.need_memory(0)

    def clear(self) -> None:
        self.variables: dict[Name, Value] = {}
        self.arrays: dict[Name, tuple[tuple[int, ...], dict]] = {}
        self.functions: dict[Name, tuple[Name, Expression]] = {}
        self.stack: list[Union[Loop, Return]] = []
        self.item = self.array_bytes = 0

    def need_memory(self, place: int) -> None:
        """Refuses what the machine may have no memory for: the program, variables, functions, arrays and strings."""
        values = [*self.variables.values(), *(it for _, values in self.arrays.values() for it in values.values())]
        strings = sum(len(it) for it in values if isinstance(it, bytes))
        names = len(self.variables) + len(self.functions)
        if self.program.size + 7 * names + self.array_bytes + strings > MEMORY:
            raise Refused(place, "the memory may be full")

    def need_stack(self, place: int, more: int = 0) -> None:
        """Refuses what the machine may have no stack for, if it takes so many bytes more."""
        opened = sum(18 if isinstance(it, Loop) else 7 for it in self.stack)
        if opened + self.waiting + more > STACK:
            raise Refused(place, "the stack may be full")

    def value(self, expression: Expression, waiting: int = 0) -> Value:
        """The value of an expression for which so many bytes wait on the stack."""
        self.waiting += waiting
        found = expression.evaluate(self)
        self.waiting -= waiting
        return found

    def made(self, text: bytes) -> bytes:
        """A string that the machine makes for an expression: it keeps at most three."""
        if self.strings == 3:
            raise BasicError("FORMULA TOO COMPLEX")
        self.strings += 1
        return text

    def free(self, *parts: Expression) -> None:
        """Strings that were made for these parts are kept no more."""
        self.strings -= sum(it.makes_text for it in parts)

    def number(self, expression: Expression, waiting: int = 0) -> Number:
        value = self.value(expression, waiting)
        if isinstance(value, bytes):
            raise BasicError("TYPE MISMATCH")
        return value

    def whole(self, expression: Expression, greatest: int = 255) -> int:
        """The value of an argument that has to be a whole number from 0 on."""
        value = self.number(expression)
        with used_at(expression.place):
            return whole(value, 0, greatest)

    def variable(self, name: Name) -> Number:
        value = self.variables.get(name, ZERO)
        assert isinstance(value, Number)
        return value

    def system_variable(self, name: Name, place: int) -> Value:
        """ST is 0 until something is sent; TI and TI$ are not known."""
        if name.letters == "TI" or self.has_sent:
            raise Refused(place, f"{name.letters}{name.kind} is not certain")
        return ZERO

    def make_array(self, name: Name, sizes: tuple[int, ...], place: int) -> None:
        self.array_bytes += 5 + 2 * len(sizes) + math.prod(it + 1 for it in sizes) * {"": 5, "%": 2, "$": 3}[name.kind]
        self.need_memory(place)
        self.arrays[name] = sizes, {}

    def element(self, name: Name, indices: tuple[int, ...], place: int) -> Slot:
        """Where an array's element is kept; an array that is not dimensioned has elements 0 to 10."""
        if name not in self.arrays:
            self.make_array(name, (10,) * len(indices), place)
        sizes, values = self.arrays[name]
        if len(sizes) != len(indices) or any(it > size for it, size in zip(indices, sizes)):
            raise BasicError("BAD SUBSCRIPT")
        return values, indices

    def target(self, target: Variable) -> Slot:
        """Where the value of a variable is kept that a statement names: TI and ST cannot be."""
        if target.is_system():
            if target.name.kind:
                raise Refused(target.place, "TI$ is not run")
            raise BasicError("SYNTAX")
        return target.slot(self)

    def keep(self, slot: Slot, value: Value, place: int) -> None:
        values, key = slot
        grows = isinstance(value, bytes) or values is self.variables and key not in values
        values[key] = value
        if grows:
            self.need_memory(place)

    def declare(self, name: Name, place: int) -> None:
        """There is a variable of this name, 0 or empty if there was none."""
        self.keep((self.variables, name), self.variables.get(name, name.first_value), place)

    def assign(self, target: Variable, expression: Expression) -> None:
        slot = self.target(target)
        value = expression.evaluate(self)
        if isinstance(value, bytes) != (target.name.kind == "$"):
            raise BasicError("TYPE MISMATCH")
        if target.name.kind == "%" and isinstance(value, Number):
            with used_at(expression.place):
                value = exact(signed_whole(value))
        self.keep(slot, value, expression.place)

    def read(self, target: Variable) -> None:
        """Reads the next item of DATA. Its value is kept before anything is said of what follows in the item."""
        slot = self.target(target)
        if self.item == len(self.program.items):
            raise BasicError("OUT OF DATA")
        item = self.program.items[self.item]
        self.item += 1
        value, is_all = text_item(item) if target.name.kind == "$" else number_item(item, target.name.kind)
        self.keep(slot, value, item.place)
        if not is_all:
            raise BasicError("SYNTAX", item.line)

    def push(self, frame: Union[Loop, Return]) -> None:
        self.stack.append(frame)
        self.need_stack(self.program.code[self.at].place)

    def find_loop(self, name: Optional[Name], and_itself: bool = False) -> Optional[Loop]:
        """The loop of a variable, or the last one, of those begun since the last GOSUB. Those inside it are left."""
        for at in range(len(self.stack) - 1, -1, -1):
            loop = self.stack[at]
            if isinstance(loop, Return):
                break
            if name in (None, loop.name):
                del self.stack[at + (not and_itself) :]
                return loop
        return None

    def column(self) -> Number:
        """The screen's column, which is known where all that the screen shows ends with a return."""
        if not self.is_left:
            raise NotCertain
        return ZERO

    def show(self, text: bytes) -> None:
        """What is printed goes to the screen where no device is the output's."""
        if text and not self.device:
            self.is_left = text.endswith(b"\r")

    def say(self, line: int, statement: str) -> None:
        self.performed.append(f"{line} {statement}")

    def steps(self, greatest: int) -> str:
        """Performs statements until the end, and says how that came."""
        for _ in range(greatest):
            if self.at == len(self.program.code):
                return "end of program"
            statement = self.program.code[self.at]
            try:
                following = statement.perform(self)
            except Ended as end:
                return f"{end.how} in {end.line}"
            except BasicError as error:
                return f"?{error.name} in {statement.line if error.line is None else error.line}"
            self.at = self.at + 1 if following is None else following
        return "too many steps"


@dataclass(frozen=True)
class Outcome:
    """What became of a program: the script's lines, how the run ended, and notes on what was left out."""

    script: list[str]
    end: str
    notes: list[str] = field(default_factory=list)


def run_program(text: bytes, steps: int = 1000000) -> Outcome:
    """Runs a program of so many steps at most."""
    run = None
    try:
        run = Run(Program(text))
        end = run.steps(steps)
    except Refused as refusal:
        before = re.split(rb"\r\n|\r|\n", text[: refusal.place])
        row, column = len(before), len(before[-1]) + 1
        end = f"refused at line {row}, column {column}: {refusal.reason}"
    return Outcome(run.performed, end, run.notes) if run else Outcome([], end)


def main(words: Sequence[str]) -> int:
    if len(words) != 1:
        print("usage: tests/lib/basic.py PROGRAM.bas", file=sys.stderr)
        return 2
    with open(words[0], "rb") as file:
        outcome = run_program(file.read())
    sys.stdout.write("".join(f"{it}\n" for it in outcome.script))
    sys.stderr.write("".join(f"{it}\n" for it in [*outcome.notes, outcome.end]))
    return 0 if outcome.end == "end of program" or outcome.end.startswith(("END", "BREAK")) else 1


if __name__ == "__main__":
    sys.exit(main(sys.argv[1:]))
