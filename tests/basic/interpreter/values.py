"""Numbers of BASIC as what is certain of them, by docs/BASIC.md; and what ends a run.

A value is known exactly, or as an interval in which the machine's value is. A use of it that has not one answer raises
NotCertain."""

from __future__ import annotations

import math
import re
from collections.abc import Iterator
from contextlib import contextmanager
from dataclasses import dataclass
from decimal import Context, Decimal
from fractions import Fraction
from functools import cached_property
from typing import Optional, TypeVar, Union

# ---- what ends a run


class BasicError(Exception):
    """An error of the language, by its name; the line is that of DATA, or that of the statement where none is said."""

    def __init__(self, name: str, line: Optional[int] = None):
        super().__init__(name)
        self.name, self.line = name, line


class NotCertain(Exception):
    """The values that a number stands for do not give one answer."""


class Refused(Exception):
    """What is not run, with its place: how many bytes of the text are before it."""

    def __init__(self, place: int, reason: str):
        super().__init__(reason)
        self.place, self.reason = place, reason


@contextmanager
def used_at(place: int) -> Iterator[None]:
    """A use of values at a place: it is refused there where it has not one answer."""
    try:
        yield
    except NotCertain:
        raise Refused(place, "not certain") from None


# ---- numbers


@dataclass(frozen=True)
class Number:
    """What is certain of a value: it is between these ends. Where it may have either sign, `low` is `-high`."""

    low: Fraction
    high: Fraction

    @property
    def is_zero(self) -> bool:
        return not self.low and not self.high

    @property
    def sign(self) -> int:
        """1 where the value is 0 or more, -1 where it is 0 or less, 0 where neither is known."""
        return 1 if self.low >= 0 else -1 if self.high <= 0 else 0

    def magnitudes(self) -> tuple[Fraction, Fraction]:
        """The least magnitude and the greatest."""
        return {1: (self.low, self.high), -1: (-self.high, -self.low), 0: (Fraction(0), self.high)}[self.sign]

    def orders(self, other: Number) -> set[str]:
        """Which of <, = and > may be true of the two values."""
        found = {"<"} if self.low < other.high else set()
        found |= {">"} if self.high > other.low else set()
        return found | ({"="} if self.low <= other.high and other.low <= self.high else set())


Value = Union[Number, bytes]


def exact(value: Union[int, Fraction]) -> Number:
    return Number(Fraction(value), Fraction(value))


ZERO, ONE = exact(0), exact(1)
END_DIGITS = 40  # of the ends of an interval


def with_sign(sign: int, low: Fraction, high: Fraction) -> Number:
    """The number that has magnitudes between two and a sign as `Number.sign` says it."""
    return Number(low, high) if sign > 0 else Number(-high, -low) if sign < 0 else Number(-high, high)


def bit_length(value: Fraction) -> int:
    """The k for which a value above 0 is from 2 ** (k - 1) to below 2 ** k."""
    above, below = value.numerator, value.denominator
    k = above.bit_length() - below.bit_length()
    return k + (above >= below << k if k >= 0 else above << -k >= below)


def has_form(value: Fraction, digits: int) -> bool:
    """Whether a value above 0 has at most so many binary digits beside those that are 0 at its end."""
    above, below = value.numerator, value.denominator
    return not below & (below - 1) and (above // (above & -above)).bit_length() <= digits


def shortened(low: Fraction, high: Fraction) -> tuple[Fraction, Fraction]:
    """The ends, rounded outward to as many binary digits as ends have."""
    unit = Fraction(2) ** (bit_length(high) - END_DIGITS)
    return math.floor(low / unit) * unit, math.ceil(high / unit) * unit


def in_range(sign: int, low: Fraction, high: Fraction) -> Number:
    """The number, if the machine can hold it: below 2 ** 127, and 0 or at least 2 ** -128."""
    if low and bit_length(low) > 127:
        raise BasicError("OVERFLOW")
    if bit_length(high) > 127 or (low and bit_length(low) <= -128):
        raise NotCertain
    return with_sign(sign, low, high)


def near(sign: int, low: Fraction, high: Fraction, error: int) -> Number:
    """What differs from the magnitudes by at most one part in 2 ** error."""
    low, high = shortened(low, high)
    part = Fraction(1, 2**error)
    return in_range(sign, *shortened(low * (1 - part), high * (1 + part)))


def answer(sign: int, low: Fraction, high: Fraction, digits: int, error: int) -> Number:
    """What the machine may answer where the exact magnitude is between two: that itself if it has so many binary digits."""
    if not high:
        return ZERO
    if low == high and has_form(low, digits):
        return in_range(sign, low, high)
    return near(sign, low, high, error)


def add(a: Number, b: Number) -> Number:
    if a.is_zero or b.is_zero:
        return b if a.is_zero else a
    total = Number(a.low + b.low, a.high + b.high)
    if total.sign == 0:  # it is known by its magnitude alone
        return answer(0, Fraction(0), max(-total.low, total.high), 32, 30)
    return answer(total.sign, *total.magnitudes(), 32, 30)


def negated(a: Number) -> Number:
    return Number(-a.high, -a.low)


def subtract(a: Number, b: Number) -> Number:
    return add(a, negated(b))


def multiply(a: Number, b: Number) -> Number:
    if a.is_zero or b.is_zero:
        return ZERO
    (a_low, a_high), (b_low, b_high) = a.magnitudes(), b.magnitudes()
    return answer(a.sign * b.sign, a_low * b_low, a_high * b_high, 24, 30)


def divide(a: Number, b: Number) -> Number:
    (a_low, a_high), (b_low, b_high) = a.magnitudes(), b.magnitudes()
    if not b_low:
        if b_high:
            raise NotCertain
        raise BasicError("DIVISION BY ZERO")
    return ZERO if a.is_zero else answer(a.sign * b.sign, a_low / b_high, a_high / b_low, 32, 31)


PRECISE = Context(prec=60)


def real_power(base: Fraction, exponent: Fraction) -> tuple[Fraction, Fraction]:
    """Two numbers close together, between which the power of a base above 0 is: the same where it is exact.
    Of a power far outside what the machine can hold it is a number that is so too."""
    size = exponent * Fraction(math.log2(base))
    if abs(size) > 400:
        return (Fraction(2) ** (400 if size > 0 else -400),) * 2
    if exponent.denominator == 1:
        return base**exponent.numerator, base**exponent.numerator
    log = PRECISE.ln(PRECISE.divide(Decimal(base.numerator), Decimal(base.denominator)))
    power = PRECISE.divide(Decimal(exponent.numerator), Decimal(exponent.denominator))
    found = Fraction(PRECISE.exp(PRECISE.multiply(log, power)))
    return found * (1 - Fraction(1, 10**45)), found * (1 + Fraction(1, 10**45))


def power(a: Number, b: Number) -> Number:
    """EXP of LOG in the ROM, so right to one part in 2 ** 24; but 1 where the exponent is 0."""
    if b.is_zero:
        return ONE
    if a.is_zero and b.low > 0:
        return ZERO
    low, high = a.magnitudes()
    if not low:
        raise NotCertain
    sign = 1
    if a.sign < 0:
        if b.low.denominator != 1 and math.floor(b.low) == math.floor(b.high):  # no value is whole
            raise BasicError("ILLEGAL QUANTITY")
        if b.low != b.high:
            raise NotCertain
        sign = -1 if b.low.numerator % 2 else 1
    corners = [it for base in {low, high} for exponent in {b.low, b.high} for it in real_power(base, exponent)]
    return near(sign, min(corners), max(corners), 24)


def square_root(a: Number) -> Number:
    if a.high < 0:
        raise BasicError("ILLEGAL QUANTITY")
    if a.low < 0:
        raise NotCertain
    if a.is_zero:
        return ZERO
    low = Fraction(math.isqrt(math.floor(a.low * 4**300)), 2**300)
    root = math.isqrt(math.ceil(a.high * 4**300))
    return near(1, low, Fraction(root + (root * root < a.high * 4**300), 2**300), 24)


Answer = TypeVar("Answer")


def one_of(low: Answer, high: Answer) -> Answer:
    """The answer of both ends."""
    if low != high:
        raise NotCertain
    return low


def whole(a: Number, least: int = 0, greatest: int = 255) -> int:
    """The whole part where one of this range is needed, as an index, a file or a character's number."""
    if a.high < least or a.low >= greatest + 1:
        raise BasicError("ILLEGAL QUANTITY")
    if a.low < least or math.floor(a.low) != math.floor(a.high):
        raise NotCertain
    return math.floor(a.low)


def signed_whole(a: Number) -> int:
    """The whole part of what AND, OR, NOT and variables with % take."""
    return whole(a, -32768, 32767)


def integer_part(a: Number) -> Number:
    return exact(one_of(math.floor(a.low), math.floor(a.high)))


def sign_number(a: Number) -> Number:
    return exact(one_of((a.low > 0) - (a.low < 0), (a.high > 0) - (a.high < 0)))


def absolute(a: Number) -> Number:
    return Number(*a.magnitudes())


TEN_DIGITS = 16 * 10**9 - 8  # in sixteenths: from here on a value that is rounded has ten digits
NEXT_PLACE = 16 * 999999999 + 1  # from here on the machine may take one place more


def nine_digits(magnitude: Fraction) -> tuple[int, int]:
    """The nine digits that are printed of a magnitude above 0, and the power of ten of the last."""
    place = max(len(str(math.floor(magnitude * 10**37))) - 47, -37)
    while (count := math.floor(16 * magnitude / Fraction(10) ** place)) >= TEN_DIGITS:
        place += 1
    if place < -36 or count >= NEXT_PLACE:
        raise NotCertain
    return (count + 8) // 16, place


def text_of(a: Number) -> bytes:
    """A number as STR$ gives it: a minus or a blank, and its digits."""
    if a.is_zero:
        return b" 0"
    low, high = a.magnitudes()
    if not low:
        raise NotCertain
    digits, place = one_of(nine_digits(low), nine_digits(high))
    first, exponent = str(digits), place + 8
    if exponent < -2 or exponent > 8:
        text = first[0] + f".{first[1:]}".rstrip("0").rstrip(".") + f"E{'-' if exponent < 0 else '+'}{abs(exponent):02}"
    elif exponent < 0:
        text = "." + "0" * (-1 - exponent) + first.rstrip("0")
    else:
        text = first[: exponent + 1] + f".{first[exponent + 1 :]}".rstrip("0").rstrip(".")
    return ("-" if a.sign < 0 else " ").encode() + text.encode()


# ---- constants

CONSTANT = re.compile(r"(\d*)(?:(\.)(\d*))?(?:(E)([+-]?)(\d*))?")


@dataclass(frozen=True)
class Constant:
    """Digits that make a number below 2 ** 32, perhaps up to one more, times a power of ten that takes so many roundings."""

    written: str
    digits: int
    more: bool
    power: int
    roundings: int

    @cached_property
    def number(self) -> Number:
        if abs(self.power) > 37:
            raise NotCertain
        scale = Fraction(10) ** self.power
        error = 32 - max(self.roundings - 1, 0).bit_length()
        return answer(1, self.digits * scale, (self.digits + self.more) * scale, 32, error)


def constant_of(found: re.Match[str]) -> Optional[Constant]:
    """The constant that is found; none if its exponent has three digits or it has more than 255 signs."""
    before, _, after, _, sign, exponent = (it or "" for it in found.groups())
    digits, further, more = 0, 0, False
    for digit in before + after:
        if not further and digits < 429496729:
            digits = digits * 10 + int(digit)
        else:
            further, more = further + 1, more or digit != "0"
    if len(exponent.lstrip("0")) > 2 or len(before + after) + bool(found[2]) > 255:
        return None
    up, down = int(exponent or 0), len(after)
    if sign == "-":
        up, down = 0, down + up
    return Constant(found[0], digits, more, up + further - down, abs(up - down) + 2 * further)


def number_in(text: bytes) -> tuple[Number, str]:
    """The number at the front of a text, as VAL and READ find it, and what follows it; blanks do not matter."""
    signs = text.decode("latin-1").replace(" ", "")
    minus = signs.startswith("-")
    found = CONSTANT.match(signs, int(minus or signs.startswith("+")))
    assert found
    constant = constant_of(found)
    if not constant:
        raise NotCertain
    return (negated(constant.number) if minus else constant.number), signs[found.end() :]
