"""A line's statements, read from its lexemes."""

from __future__ import annotations

import re
from collections.abc import Callable, Sequence
from typing import Optional, TypeVar

from .expressions import COUNTS, FUNCTIONS, INEXACT, Binary, Call, Expression, Group, Literal, OwnCall, Unary, Variable, Whole
from .statements import (
    ALONE,
    Assign,
    Close,
    Define,
    Dim,
    Failing,
    For,
    Gosub,
    Goto,
    If,
    Next,
    NotRun,
    NotRunAfter,
    On,
    Open,
    Output,
    Part,
    Poke,
    Read,
    Restore,
    Statement,
)
from .text import Lexeme, Name
from .values import Constant, Refused

One = TypeVar("One")

BINDING = {"^": 8, "*": 6, "/": 6, "+": 5, "-": 5, "COMPARISON": 4, "AND": 2, "OR": 1}
MINUS, NOT = 7, 3  # how tightly they bind before an operand


class Unreadable(Exception):
    """A statement that is none: the machine says SYNTAX when it comes to it, unless what is before it fails."""


class Reader:
    """Reads a line's lexemes. What cannot be an expression is refused at its place."""

    def __init__(self, line: int, lexemes: Sequence[Lexeme], end: int):
        self.line, self.lexemes, self.end, self.at = line, lexemes, end, 0
        self.code: list[Statement] = []
        self.may_fail = False  # the machine works something out of this statement before it comes to what is next

    @property
    def next(self) -> Lexeme:
        return self.lexemes[self.at] if self.at < len(self.lexemes) else Lexeme("", self.end)

    def take(self) -> Lexeme:
        self.at += 1
        return self.lexemes[self.at - 1] if self.at <= len(self.lexemes) else Lexeme("", self.end)

    def accept(self, word: str) -> bool:
        """Takes the next lexeme if it is this one."""
        found = self.next.word == word
        self.at += found
        return found

    def expect(self, word: str) -> Lexeme:
        if self.next.word != word:
            raise Unreadable
        return self.take()

    def is_at_end(self) -> bool:
        return self.next.word in ("", ":")

    def require(self, word: str) -> None:
        """A sign that belongs to an expression."""
        if not self.accept(word):
            raise Refused(self.next.place, "no expression")

    def expression(self) -> Expression:
        """The expression at the front."""
        self.may_fail = True
        return Whole(self.next.place, self.operation(1))

    def operation(self, least: int) -> Expression:
        """The expression as far as its operators bind at least so tightly."""
        found = self.operand()
        while (binding := BINDING.get(self.next.word, 0)) >= least:
            sign = self.take()
            word = sign.value if isinstance(sign.value, str) else sign.word
            found = Binary(sign.place, word, found, self.operation(binding + 1))
        return found

    def operand(self) -> Expression:
        lexeme = self.take()
        if lexeme.word == "+":
            return self.operand()
        if lexeme.word in ("-", "NOT"):
            return Unary(lexeme.place, lexeme.word, self.operation((MINUS if lexeme.word == "-" else NOT) + 1))
        if lexeme.word == "(":
            found = Group(lexeme.place, self.operation(1))
            self.require(")")
            return found
        if isinstance(lexeme.value, (Constant, bytes)) and lexeme.word in ("CONSTANT", "TEXT"):
            return Literal(lexeme.place, lexeme.value)
        if isinstance(lexeme.value, Name):
            return Variable(lexeme.place, lexeme.value, self.arguments(1, 255) if self.next.word == "(" else ())
        if lexeme.word == "FN":
            return self.own_call(lexeme.place)
        if lexeme.word in FUNCTIONS or lexeme.word in INEXACT or lexeme.word == "POS":
            return Call(lexeme.place, lexeme.word, self.arguments(*COUNTS.get(lexeme.word, (1, 1))))
        raise Refused(lexeme.place, "no expression")

    def own_call(self, place: int) -> Expression:
        if not isinstance(self.next.value, Name):
            raise Refused(self.next.place, "no expression")
        name = self.take().value
        assert isinstance(name, Name)
        return OwnCall(place, name, self.arguments(1, 1)[0])

    def arguments(self, least: int, greatest: int) -> tuple[Expression, ...]:
        """Arguments in parentheses."""
        self.may_fail = True
        self.require("(")
        found = [self.operation(1)]
        while len(found) < greatest and self.accept(","):
            found.append(self.operation(1))
        if len(found) < least:
            raise Refused(self.next.place, "no expression")
        self.require(")")
        return tuple(found)

    # ---- statements

    def add(self, statement: Statement) -> None:
        self.code.append(statement)

    def statements(self) -> list[Statement]:
        """All statements of the line; where one cannot be read it is the last."""
        while True:
            try:
                self.statement()
                if not self.is_at_end():  # the machine may pass what follows these
                    self.may_fail = bool(self.code) and isinstance(self.code[-1], (Goto, On, Define))
                    raise Unreadable
            except Unreadable:
                self.add((NotRunAfter if self.may_fail else Failing)(self.next.place, self.line))
                return self.code
            if not self.accept(":"):
                return self.code

    def statement(self) -> None:
        self.may_fail = False
        place, word = self.next.place, self.next.word
        if self.is_at_end() or word in ("REMARK", "ITEMS"):
            self.at += not self.is_at_end()
        elif word in REFUSED:
            self.skip()
            self.add(NotRun(place, self.line, word))
        elif word in ALONE:
            self.take()
            if not self.is_at_end():
                raise Unreadable
            self.add(ALONE[word](place, self.line))
        elif word in READERS:
            self.take()
            READERS[word](self, place)
        else:
            self.accept("LET")
            target = self.variable()
            self.equals()
            self.add(Assign(place, self.line, target, self.expression()))

    def skip(self) -> None:
        """The rest of a statement, which the machine does not look at; there may be a colon in a remark."""
        while not self.is_at_end() and self.next.word != "REMARK":
            self.take()

    def equals(self) -> None:
        if self.expect("COMPARISON").value != "=":
            raise Unreadable

    def name(self) -> Name:
        value = self.expect("NAME").value
        assert isinstance(value, Name)
        return value

    def variable(self) -> Variable:
        place, name = self.next.place, self.name()
        return Variable(place, name, self.arguments(1, 255) if self.next.word == "(" else ())

    def number_name(self) -> Name:
        """A variable as FOR takes it: neither an array's element nor one with %."""
        name = self.name()
        if name.kind == "%" or self.next.word == "(":
            raise Unreadable
        return name

    def line_number(self) -> int:
        """A line's number: 0 where no digits are."""
        constant = self.next.value
        digits = re.split("[.E]", constant.written)[0] if isinstance(constant, Constant) else ""
        if int(digits or 0) > 63999:
            raise Unreadable
        self.at += isinstance(constant, Constant)
        return int(digits or 0)

    def list_of(self, one: Callable[[], One]) -> list[One]:
        """One or more, with commas between."""
        found = [one()]
        self.may_fail = True
        while self.accept(","):
            found.append(one())
        return found

    def read_if(self, place: int) -> None:
        condition = self.expression()
        if self.next.word != "GOTO":
            self.expect("THEN")
        self.add(If(place, self.line, condition))
        if isinstance(self.next.value, Constant) and self.next.value.written[0] != ".":
            self.read_goto(self.next.place)
        else:
            self.statement()

    def read_go(self, place: int) -> None:
        self.expect("TO")
        self.read_goto(place)

    def read_goto(self, place: int) -> None:
        self.add(Goto(place, self.line, self.line_number()))
        self.skip()

    def read_gosub(self, place: int) -> None:
        self.add(Gosub(place, self.line, self.line_number()))
        self.skip()

    def read_on(self, place: int) -> None:
        selector = self.expression()
        kind = {"GOTO": Goto, "GOSUB": Gosub}.get(self.next.word)
        if not kind:
            raise Unreadable
        self.take()
        self.add(On(place, self.line, selector, [kind(place, self.line, it) for it in self.list_of(self.line_number)]))

    def read_for(self, place: int) -> None:
        name = self.number_name()
        self.equals()
        start = self.expression()
        self.expect("TO")
        limit = self.expression()
        self.add(For(place, self.line, name, start, limit, self.expression() if self.accept("STEP") else None))

    def read_next(self, place: int) -> None:
        self.add(Next(place, self.line, [None] if self.is_at_end() else self.list_of(self.variable)))

    def read_read(self, place: int) -> None:
        self.add(Read(place, self.line, self.list_of(self.variable)))

    def read_dim(self, place: int) -> None:
        self.add(Dim(place, self.line, self.list_of(self.variable)))

    def read_restore(self, place: int) -> None:
        self.add(Restore(place, self.line))

    def read_def(self, place: int) -> None:
        self.expect("FN")
        name = self.name()
        self.may_fail = True
        self.expect("(")
        parameter = self.name()
        self.expect(")")
        self.equals()
        self.add(Define(place, self.line, name, parameter, self.expression()))

    def read_poke(self, place: int) -> None:
        address = self.expression()
        self.expect(",")
        self.add(Poke(place, self.line, address, self.expression()))

    def read_open(self, place: int) -> None:
        self.add(Open(place, self.line, self.last_list()))

    def read_close(self, place: int) -> None:
        self.add(Close(place, self.line, self.last_list()))

    def last_list(self) -> list[Expression]:
        """Values with nothing after them, which the machine looks at first."""
        found = self.list_of(self.expression)
        if not self.is_at_end():
            raise Unreadable
        return found

    def read_print(self, place: int) -> None:
        self.add(Output(place, self.line, "PRINT", None, self.items()))

    def read_to_file(self, place: int, word: str) -> None:
        file = self.expression()
        if not self.is_at_end():
            self.expect(",")
        self.add(Output(place, self.line, word, file, self.items()))

    def items(self) -> list[Part]:
        """The parts of a list of PRINT."""
        found = []
        while not self.is_at_end():
            place, word = self.next.place, self.next.word
            if word in (";", ","):
                self.take()
                found.append(Part(place, word))
            elif word in ("TAB(", "SPC("):
                self.take()
                found.append(Part(place, word, self.expression()))
                self.expect(")")
            else:
                found.append(Part(place, "", self.expression()))
        return found


READERS: dict[str, Callable[[Reader, int], None]] = {
    "IF": Reader.read_if,
    "GO": Reader.read_go,
    "GOTO": Reader.read_goto,
    "GOSUB": Reader.read_gosub,
    "ON": Reader.read_on,
    "FOR": Reader.read_for,
    "NEXT": Reader.read_next,
    "READ": Reader.read_read,
    "DIM": Reader.read_dim,
    "RESTORE": Reader.read_restore,
    "DEF": Reader.read_def,
    "POKE": Reader.read_poke,
    "OPEN": Reader.read_open,
    "CLOSE": Reader.read_close,
    "PRINT": Reader.read_print,
    "PRINT#": lambda reader, place: reader.read_to_file(place, "PRINT#"),
    "CMD": lambda reader, place: reader.read_to_file(place, "CMD"),
}
REFUSED = ("INPUT", "INPUT#", "GET", "SYS", "WAIT", "LOAD", "SAVE", "VERIFY", "LIST", "RUN", "NEW", "CONT")
