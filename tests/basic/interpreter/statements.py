"""Statements: each is performed by itself, on a run."""

from __future__ import annotations

import re
from collections.abc import Sequence
from dataclasses import dataclass
from typing import TYPE_CHECKING, Optional

from .expressions import Expression, Variable
from .text import Name
from .values import ONE, BasicError, NotCertain, Number, Refused, add, one_of, text_of, used_at, whole

if TYPE_CHECKING:
    from basic import Run


# ---- what a run keeps of GOSUB and FOR


class Ended(Exception):
    """The program's own end."""

    def __init__(self, how: str, line: int):
        super().__init__(how)
        self.how, self.line = how, line


@dataclass(frozen=True)
class Return:
    """Where a subroutine returns to: the number of a statement."""

    back: int


@dataclass(frozen=True)
class Loop:
    """A loop that has begun: its variable, its limit, its step with the sign, and where its body begins."""

    name: Name
    limit: Number
    step: Number
    sign: int
    back: int


# ---- statements


@dataclass(frozen=True)
class Statement:
    """A statement at a place, in a line of this number."""

    place: int
    line: int

    def perform(self, run: Run) -> Optional[int]:
        """Performs it. Gives which statement comes next, if it is not the one after it."""
        raise NotImplementedError


@dataclass(frozen=True)
class Failing(Statement):
    """What is no statement."""

    def perform(self, run: Run) -> Optional[int]:
        raise BasicError("SYNTAX")


@dataclass(frozen=True)
class NotRun(Statement):
    """A statement whose effect is not known here."""

    word: str

    def perform(self, run: Run) -> Optional[int]:
        raise Refused(self.place, f"{self.word} is not run")


@dataclass(frozen=True)
class NotRunAfter(Statement):
    """What is no statement after a value: that may fail before the machine comes to it."""

    def perform(self, run: Run) -> Optional[int]:
        raise Refused(self.place, "no statement after a value")


@dataclass(frozen=True)
class End(Statement):
    """END."""

    def perform(self, run: Run) -> Optional[int]:
        raise Ended("END", self.line)


@dataclass(frozen=True)
class Stop(Statement):
    """STOP."""

    def perform(self, run: Run) -> Optional[int]:
        raise Ended("BREAK", self.line)


@dataclass(frozen=True)
class Assign(Statement):
    """LET, with or without its word."""

    target: Variable
    value: Expression

    def perform(self, run: Run) -> Optional[int]:
        run.assign(self.target, self.value)
        return None


@dataclass(frozen=True)
class If(Statement):
    """The statements after THEN follow it; if the condition is false, the line's other statements are left out."""

    condition: Expression

    def perform(self, run: Run) -> Optional[int]:
        value = self.condition.evaluate(run)
        if isinstance(value, bytes) or value.low <= 0 <= value.high and not value.is_zero:
            raise Refused(self.condition.place, "not certain")
        return run.program.ends[self.line] if value.is_zero else None


@dataclass(frozen=True)
class Goto(Statement):
    """GOTO a line."""

    target: int

    def perform(self, run: Run) -> Optional[int]:
        if self.target not in run.program.starts:
            raise BasicError("UNDEF'D STATEMENT")
        return run.program.starts[self.target]


@dataclass(frozen=True)
class Gosub(Goto):
    """GOSUB: goes to a line, and notes where to come back."""

    def perform(self, run: Run) -> Optional[int]:
        run.push(Return(run.at + 1))
        return super().perform(run)


@dataclass(frozen=True)
class Leave(Statement):
    """RETURN: the loops begun since GOSUB are left."""

    def perform(self, run: Run) -> Optional[int]:
        while run.stack:
            frame = run.stack.pop()
            if isinstance(frame, Return):
                return frame.back
        raise BasicError("RETURN WITHOUT GOSUB")


@dataclass(frozen=True)
class On(Statement):
    """ON .. GOTO and ON .. GOSUB: the chosen jump, or none where the list is shorter."""

    selector: Expression
    jumps: Sequence[Goto]

    def perform(self, run: Run) -> Optional[int]:
        chosen = run.whole(self.selector)
        return self.jumps[chosen - 1].perform(run) if 1 <= chosen <= len(self.jumps) else None


@dataclass(frozen=True)
class For(Statement):
    """FOR: a loop of the same variable that has begun is dropped, with those inside it."""

    name: Name
    start: Expression
    limit: Expression
    step: Optional[Expression]

    def perform(self, run: Run) -> Optional[int]:
        run.assign(Variable(self.place, self.name), self.start)
        run.find_loop(self.name, and_itself=True)
        limit, step = run.number(self.limit), run.number(self.step) if self.step else ONE
        with used_at(self.step.place if self.step else self.place):
            sign = one_of((step.low > 0) - (step.low < 0), (step.high > 0) - (step.high < 0))
        run.push(Loop(self.name, limit, step, sign, run.at + 1))
        return None


@dataclass(frozen=True)
class Next(Statement):
    """NEXT with its variables; without one it has the last loop. No element and no variable with % has a loop."""

    variables: Sequence[Optional[Variable]]

    def perform(self, run: Run) -> Optional[int]:
        for it in self.variables:
            if it:
                run.target(it)
            loop = None if it and it.indices else run.find_loop(it.name if it else None)
            if not loop:
                raise BasicError("NEXT WITHOUT FOR")
            with used_at(it.place if it else self.place):
                value = add(run.variable(loop.name), loop.step)
                run.variables[loop.name] = value
                # it ends where the variable is past the limit; with STEP 0 where it is the limit
                orders, last = value.orders(loop.limit), "<=>"[loop.sign + 1]
                if last not in orders:
                    return loop.back
                if len(orders) > 1:
                    raise NotCertain
            run.stack.pop()
        return None


@dataclass(frozen=True)
class Read(Statement):
    """READ."""

    targets: Sequence[Variable]

    def perform(self, run: Run) -> Optional[int]:
        for it in self.targets:
            run.read(it)
        return None


@dataclass(frozen=True)
class Restore(Statement):
    """RESTORE."""

    def perform(self, run: Run) -> Optional[int]:
        run.item = 0
        return None


@dataclass(frozen=True)
class Dim(Statement):
    """DIM; a variable without indices is there after it."""

    variables: Sequence[Variable]

    def perform(self, run: Run) -> Optional[int]:
        for it in self.variables:
            if not it.indices:
                run.target(it)
                run.declare(it.name, it.place)
            else:
                sizes = it.named_indices(run)
                if it.name in run.arrays:
                    raise BasicError("REDIM'D ARRAY")
                run.make_array(it.name, sizes, it.place)
        return None


@dataclass(frozen=True)
class Clear(Statement):
    """CLR forgets which files are open as well, which no script can."""

    def perform(self, run: Run) -> Optional[int]:
        if run.files or run.device:
            raise Refused(self.place, "CLR while a file is open")
        run.clear()
        return None


@dataclass(frozen=True)
class Define(Statement):
    """DEF FN."""

    name: Name
    parameter: Name
    body: Expression

    def perform(self, run: Run) -> Optional[int]:
        for kind in (self.name.kind, self.parameter.kind):
            if kind:
                raise BasicError("SYNTAX" if kind == "%" else "TYPE MISMATCH")
        run.target(Variable(self.place, self.parameter))
        run.functions[self.name] = self.parameter, self.body
        run.declare(self.parameter, self.place)
        run.need_memory(self.place)
        return None


@dataclass(frozen=True)
class Poke(Statement):
    """Left out where it cannot change what is printed: in the screen's memory, in the chips for picture and sound, and
    in the colours. The chips after them have the lines of the bus."""

    address: Expression
    value: Expression

    def perform(self, run: Run) -> Optional[int]:
        address, _ = run.whole(self.address, 65535), run.whole(self.value)
        if not (1024 <= address <= 2023 or 53248 <= address <= 56319):
            raise Refused(self.place, f"POKE {address} is not run")
        run.notes.append(f"POKE {address} in {self.line} left out")
        return None


@dataclass(frozen=True)
class Open(Statement):
    """OPEN with file, device and perhaps a secondary address."""

    numbers: Sequence[Expression]

    def perform(self, run: Run) -> Optional[int]:
        found = [run.whole(it) for it in self.numbers[:3]]
        if len(self.numbers) > 3:
            raise Refused(self.numbers[3].place, "a file has a name")
        file, device = (found + [1])[:2]
        if not 4 <= device <= 30:
            raise Refused(self.numbers[1].place if found[1:] else self.place, f"device {device}")
        if found[2:] and found[2] > 15:
            raise Refused(self.numbers[2].place, f"secondary address {found[2]}")
        run.say(self.line, "OPEN " + ",".join(map(str, found)))
        if not file or file in run.files or len(run.files) == 10:
            raise BasicError("NOT INPUT FILE" if not file else "FILE OPEN" if file in run.files else "TOO MANY FILES")
        run.files[file] = device
        return None


@dataclass(frozen=True)
class Close(Statement):
    """CLOSE a file; further numbers, as OPEN has them, change nothing."""

    numbers: Sequence[Expression]

    def perform(self, run: Run) -> Optional[int]:
        file = [run.whole(it) for it in self.numbers[:3]][0]
        if len(self.numbers) > 3:
            raise Refused(self.numbers[3].place, "a file has a name")
        run.say(self.line, f"CLOSE {file}")
        run.files.pop(file, None)
        run.has_sent = True
        return None


@dataclass(frozen=True)
class Part:
    """A part of a list: `;`, `,`, TAB(, SPC(, or a value."""

    place: int
    word: str
    value: Optional[Expression] = None

    def printed(self, run: Run) -> bytes:
        step = b" " if run.channel else b"\x1d"
        if self.word == ";":
            return b""
        with used_at(self.place):
            if not self.value:  # a comma, in column 0
                run.column()
                return step * 10
            if self.word == "TAB(":
                count = whole(run.number(self.value))
                run.column()
                return step * count
            if self.word == "SPC(":
                return step * whole(run.number(self.value))
            value = self.value.evaluate(run)
            return value if isinstance(value, bytes) else text_of(value) + step


@dataclass(frozen=True)
class Output(Statement):
    """PRINT, PRINT# and CMD."""

    word: str
    file: Optional[Expression]
    parts: Sequence[Part]

    def perform(self, run: Run) -> Optional[int]:
        words = self.word
        if self.file:
            run.channel = whole_file = run.whole(self.file)
            words += f"{'' if self.word == 'PRINT#' else ' '}{whole_file}"
            if whole_file not in run.files:
                run.say(self.line, words)
                raise BasicError("FILE NOT OPEN")
            run.device, run.has_sent = run.files[whole_file], True
        found = b""
        for it in self.parts:
            piece = it.printed(run)
            found += piece
            if len(found) > 255:
                raise Refused(it.place, "a list of more than 255 bytes")
            run.show(piece)
        goes_on = bool(self.parts) and self.parts[-1].word != ""
        run.show(b"" if goes_on else b"\r")
        listed = ("," if self.file else " ") + script_list(found, goes_on)
        run.say(self.line, words + (listed if found or goes_on else ""))
        if self.word == "PRINT#":
            run.channel, run.device = 0, 0
        return None


ALONE = {"END": End, "STOP": Stop, "RETURN": Leave, "CLR": Clear}


def script_list(found: bytes, goes_on: bool) -> str:
    """Bytes as a list of a script."""
    parts = re.findall(rb'[ !#-~]+|[^ !#-~]', found)
    written = [f'"{it.decode()}"' if 32 <= it[0] <= 126 and it != b'"' else f"CHR$({it[0]})" for it in parts]
    return ";".join(written) + ";" * goes_on
