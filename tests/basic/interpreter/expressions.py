"""Expressions: each part is worked out by itself, with the variables of a run."""

from __future__ import annotations

from collections.abc import Callable
from dataclasses import dataclass
from typing import TYPE_CHECKING, Union

from .text import Name
from .values import (
    ZERO,
    BasicError,
    Constant,
    NotCertain,
    Number,
    Refused,
    Value,
    absolute,
    add,
    divide,
    exact,
    integer_part,
    multiply,
    negated,
    number_in,
    power,
    sign_number,
    signed_whole,
    square_root,
    subtract,
    text_of,
    used_at,
    whole,
)

if TYPE_CHECKING:
    from basic import Run

Slot = tuple[dict, object]  # of a value: where it is kept, and by what key


@dataclass(frozen=True)
class Expression:
    """A part of an expression; `place` is that of its sign, its name or its first character."""

    place: int

    def evaluate(self, run: Run) -> Value:
        raise NotImplementedError

    @property
    def makes_text(self) -> bool:
        """Whether it gives a string that the machine makes for the expression."""
        return False

    @property
    def gives_text(self) -> bool:
        return self.makes_text


@dataclass(frozen=True)
class Whole(Expression):
    """A whole expression, at its first character."""

    part: Expression

    def evaluate(self, run: Run) -> Value:
        found = self.part.evaluate(run)
        run.free(self.part)
        return found


@dataclass(frozen=True)
class Literal(Expression):
    """A constant or a string."""

    written: Union[Constant, bytes]

    def evaluate(self, run: Run) -> Value:
        run.need_stack(self.place)
        if isinstance(self.written, bytes):
            return run.made(self.written)
        with used_at(self.place):
            return self.written.number

    @property
    def makes_text(self) -> bool:
        return isinstance(self.written, bytes)


@dataclass(frozen=True)
class Variable(Expression):
    """A variable, or an array's element if it has indices."""

    name: Name
    indices: tuple[Expression, ...] = ()

    def is_system(self) -> bool:
        return not self.indices and (self.name.letters, self.name.kind) in (("TI", ""), ("TI", "$"), ("ST", ""))

    @property
    def gives_text(self) -> bool:
        return self.name.kind == "$"

    def whole_indices(self, run: Run, *waiting: int) -> tuple[int, ...]:
        """Its indices, where so many bytes wait on the machine's stack while each is worked out."""
        with used_at(self.place):
            return tuple(whole(run.number(it, size), 0, 32767) for it, size in zip(self.indices, waiting))

    def named_indices(self, run: Run) -> tuple[int, ...]:
        """Its indices where a statement names it, which has the stack for five."""
        if len(self.indices) > 5:
            raise Refused(self.place, "the stack may be full")
        return self.whole_indices(run, *(0 for _ in self.indices))

    def slot(self, run: Run) -> Slot:
        """Where its value is kept that a statement names."""
        if not self.indices:
            return run.variables, self.name
        return run.element(self.name, self.named_indices(run), self.place)

    def evaluate(self, run: Run) -> Value:
        if self.indices:
            waiting = (14 + 2 * at for at in range(len(self.indices)))
            values, key = run.element(self.name, self.whole_indices(run, *waiting), self.place)
            return values.get(key, self.name.first_value)
        run.need_stack(self.place)
        if self.is_system():
            return run.system_variable(self.name, self.place)
        return run.variables.get(self.name, self.name.first_value)


@dataclass(frozen=True)
class Group(Expression):
    """What is in parentheses."""

    part: Expression

    def evaluate(self, run: Run) -> Value:
        return run.value(self.part, 5)

    @property
    def makes_text(self) -> bool:
        return self.part.makes_text

    @property
    def gives_text(self) -> bool:
        return self.part.gives_text


@dataclass(frozen=True)
class Unary(Expression):
    """Minus or NOT."""

    word: str
    operand: Expression

    def evaluate(self, run: Run) -> Value:
        value = run.number(self.operand, WAITING)
        with used_at(self.place):
            return negated(value) if self.word == "-" else exact(~signed_whole(value))


WAITING = 13  # bytes of the stack that an operator takes until its last operand has a value
OPERATIONS: dict[str, Callable[[Number, Number], Number]] = {
    "^": power,
    "*": multiply,
    "/": divide,
    "+": add,
    "-": subtract,
    "AND": lambda a, b: exact(signed_whole(a) & signed_whole(b)),
    "OR": lambda a, b: exact(signed_whole(a) | signed_whole(b)),
}


@dataclass(frozen=True)
class Binary(Expression):
    """Two operands and an operator, or a comparison that accepts some of <, = and >."""

    word: str
    left: Expression
    right: Expression

    def evaluate(self, run: Run) -> Value:
        left = self.left.evaluate(run)
        if isinstance(left, bytes) and self.word in OPERATIONS and self.word != "+":
            raise BasicError("TYPE MISMATCH")
        right = run.value(self.right, WAITING)
        run.free(self.left, self.right)
        with used_at(self.place):
            if isinstance(left, bytes) and isinstance(right, bytes):
                return self.of_strings(run, left, right)
            if isinstance(left, bytes) or isinstance(right, bytes):
                raise BasicError("TYPE MISMATCH")
            if self.word in OPERATIONS:
                return OPERATIONS[self.word](left, right)
            return self.compared(left.orders(right))

    def of_strings(self, run: Run, left: bytes, right: bytes) -> Value:
        if self.word != "+":
            return self.compared({"<" if left < right else ">" if left > right else "="})
        if len(left + right) > 255:
            raise BasicError("STRING TOO LONG")
        return run.made(left + right)

    def compared(self, orders: set[str]) -> Number:
        """-1 where the comparison accepts all that may be, 0 where it accepts nothing of it."""
        accepted = orders & set(self.word)
        if accepted and accepted != orders:
            raise NotCertain
        return exact(-1 if accepted else 0)

    @property
    def makes_text(self) -> bool:
        return self.word == "+" and self.left.gives_text


@dataclass(frozen=True)
class Call(Expression):
    """A function of the language."""

    word: str
    arguments: tuple[Expression, ...]

    def evaluate(self, run: Run) -> Value:
        values = [run.value(it, 4 + 4 * at) for at, it in enumerate(self.arguments, 1)]
        if any(isinstance(it, bytes) != (self.word in OF_STRINGS and not at) for at, it in enumerate(values)):
            raise BasicError("TYPE MISMATCH")
        if self.word in INEXACT:
            raise Refused(self.place, f"{self.word} is not certain")
        with used_at(self.place):
            found = run.column() if self.word == "POS" else FUNCTIONS[self.word](*values)
        run.free(*self.arguments)
        return run.made(found) if isinstance(found, bytes) else found

    @property
    def makes_text(self) -> bool:
        return self.word.endswith("$")


OF_STRINGS = ("LEN", "VAL", "ASC", "LEFT$", "RIGHT$", "MID$")
INEXACT = ("USR", "FRE", "RND", "LOG", "EXP", "COS", "SIN", "TAN", "ATN", "PEEK")
COUNTS = {"LEFT$": (2, 2), "RIGHT$": (2, 2), "MID$": (2, 3)}  # of arguments; others have one


def first_byte(text: bytes) -> Number:
    if not text:
        raise BasicError("ILLEGAL QUANTITY")
    return exact(text[0])


def right(text: bytes, count: Number) -> bytes:
    return text[max(len(text) - whole(count), 0) :]


def middle(text: bytes, first: Number, count: Number = exact(255)) -> bytes:
    at = whole(first, 1)
    return text[at - 1 :][: whole(count)]


FUNCTIONS: dict[str, Callable[..., Value]] = {
    "SGN": sign_number,
    "INT": integer_part,
    "ABS": absolute,
    "SQR": square_root,
    "LEN": lambda text: exact(len(text)),
    "STR$": text_of,
    "VAL": lambda text: number_in(text)[0],
    "ASC": first_byte,
    "CHR$": lambda value: bytes([whole(value)]),
    "LEFT$": lambda text, count: text[: whole(count)],
    "RIGHT$": right,
    "MID$": middle,
}


@dataclass(frozen=True)
class OwnCall(Expression):
    """A function that DEF FN defines."""

    name: Name
    argument: Expression

    def evaluate(self, run: Run) -> Value:
        value = run.number(self.argument, 9)
        if self.name not in run.functions:
            raise BasicError("UNDEF'D FUNCTION")
        run.need_stack(self.place, 16)
        parameter, body = run.functions[self.name]
        before = run.variable(parameter)
        run.variables[parameter] = value
        found = run.number(body, 16)
        run.variables[parameter] = before
        return found
