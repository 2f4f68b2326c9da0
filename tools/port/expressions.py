"""Values of WebAssembly as expressions of C, for c_of_wasm.py.

C's own conversions do what they can: numbers of 32 bits become ones of 64 where they meet those, and lose what is above where they are
assigned or given to a function. Where they would do something else, the expression says the type."""

import math
import re
import struct
from dataclasses import dataclass, replace

C_TYPES = {"i32": "I", "i64": "L", "f64": "F"}
SIGNED = {"i32": "T", "i64": "U"}
BITS = {"i32": 32, "i64": 64, "f64": 64}
# What binds how closely: what has the higher number needs no parentheses as an operand of what has the lower one.
LEVELS = {"?": 0, "||": 1, "&&": 2, "|": 3, "^": 4, "&": 5, "==": 6, "<": 7, "<<": 8, ">>": 8, "+": 9, "-": 9, "*": 10, "/": 10, "%": 10}
LEVELS |= {"!": 11, "cast": 11, "": 12}
# The types of an expression in C, of which two operands get the later one.
RANKS = ("int", "I", "L", "F")
# Operands that compilers want in parentheses all the same.
ODD = {("<<", "+"), ("<<", "-"), (">>", "+"), (">>", "-")} | {(sign, it) for sign in "&|^" for it in ("+", "-", "<", "==", "&", "|", "^", "!")}
ODD |= {("==", "<"), ("||", "&&")}
# Signs of which it does not matter which one is worked out first.
CHAINED = {(it, it) for it in ("&", "|", "^", "*", "&&", "||")} | {(one, other) for one in "+-" for other in "+-"}


@dataclass(frozen=True)
class Value:
    """A value of the module as an expression of C.

    `c`: the type that the expression has in C: I, L, F, or "int" where it has a sign. It need not be the one of the value: what counts is
    the expression's value as one of `type`, so that of a value of 32 bits the lowest 32, and one of 64 bits may be an I. `most`: the greatest
    number that the expression can be, where it is less than its type allows; one with a sign that has it is never negative. `sign`: the
    operator that is worked out last. `reads`: the variables that it reads, and "memory". `number`: a constant's. `below`: how far it is below
    the stack pointer that its function was called with, where it is made of that. `shifted`: what was shifted to the left, and how far."""

    text: str
    type: str
    c: str
    sign: str = ""
    reads: frozenset = frozenset()
    number: int = None
    most: int = None
    below: int = None
    shifted: tuple = None

    def bound(self):
        """The greatest number that the expression can be, or without one where that may be negative."""
        return self.most if self.most is not None else {"I": 2**32 - 1, "L": 2**64 - 1}.get(self.c)

    def is_exact(self):
        """Whether the expression's own value is the value, without a sign."""
        return self.c == "F" or (self.bound() is not None and self.bound() < 2 ** BITS[self.type])

    def is_small(self):
        """Whether C's int has the number, which is not below 0."""
        return self.bound() is not None and self.bound() < 2**31

    def is_truth(self):
        """Whether it is the answer of a comparison, 0 or 1."""
        return self.sign in ("<", "==", "!", "&&", "||")

    def as_c(self, kind):
        """The value as another type of C."""
        return replace(self, text=f"({kind}){self.within('cast')}", c=kind, sign="cast", most=None, number=None)

    def signed(self, name):
        """The lowest bits of the value as a number with a sign, by the name of its type."""
        return replace(self.as_c("int"), text=f"({name}){self.within('cast')}", shifted=None, below=None)

    def exact(self):
        """An expression whose own value is the value, without a sign."""
        return self if self.is_exact() else self.as_c(C_TYPES[self.type])

    def within(self, sign):
        """As an operand of a sign."""
        is_plain = LEVELS[self.sign] > LEVELS[sign] or LEVELS[self.sign] == LEVELS["cast"]
        return self.text if is_plain and (sign, self.sign) not in ODD else f"({self.text})"

    def condition(self):
        """As a condition, of which only counts whether it is 0."""
        value = self if self.c == "int" else self.exact()
        return value.text[2:] if re.fullmatch(r"!!\w+(\([^()]*\))?", value.text) else value.text


def constant(kind, number):
    """A number, with a sign where C has it so: beside numbers without one of its type it becomes one of them."""
    bits = BITS[kind]
    number &= (1 << bits) - 1
    signed = number - (1 << bits) if number >> (bits - 1) else number
    if number == 1 << (bits - 1):
        return Value(hex(number), kind, C_TYPES[kind], number=number, most=number)
    # (0x1e+1 would be one number to C.)
    if len(hex(number)) < len(str(signed)) and not hex(number).endswith("e"):
        c = "int" if number < 2**31 or 2**32 <= number < 2**63 else "I" if number < 2**32 else "L"
        return Value(hex(number), kind, c, number=number, most=number)
    return Value(str(signed), kind, "int", "cast" if signed < 0 else "", number=signed, most=signed if signed >= 0 else None)


def fraction(bits):
    """A fraction of 64 bits: as C writes it, or by its bits where it is none or no finite number."""
    number = struct.unpack("<d", bits.to_bytes(8, "little"))[0]
    return Value(repr(number) if math.isfinite(number) else f"real({bits}u)", "f64", "F", number=number)


def met(left, right):
    """Two values of which one is chosen, as expressions that C brings to one type without changing what they are."""
    if left.type == "i64" and {left.c, right.c} == {"int", "I"}:
        left, right = (it if it.c == "I" or it.is_small() else it.as_c("L") for it in (left, right))
    return left, right


def bound_of(what, left, right):
    """The greatest number that an operation in C can give, where it gives none below 0. It may be more than a type has."""
    one, other = left.bound(), right.bound()
    if what == "and" and (one is not None or other is not None):
        return min(it for it in (one, other) if it is not None)
    if one is None or other is None or what == "sub":
        return None
    return {"add": one + other, "mul": one * other}.get(what, (1 << max(one, other).bit_length()) - 1)


def joined(kind, what, left, right, most):
    """The operands of an operation, such that what C gives is right as a value of their type, and C's type of it. (A number with a sign has
    to be so small that C's int has the result; and of 64 bits, so must be that of operands that are none of 64 bits in C.)"""
    types, is_small = {left.c, right.c}, most is not None and most < 2**31
    if kind == "i32" and types == {"int"}:
        is_right = is_small or what in ("and", "or", "xor") or (what == "sub" and left.is_small() and right.is_small())
        left = left if is_right else left.as_c("I")
    elif kind == "i64" and "L" not in types:
        is_right = is_small or ("I" in types and most is not None and most < 2**32)
        if not is_right or not all(it.c == "I" or it.is_small() for it in (left, right)):
            left, right = (left.as_c("L"), right) if left.number is None else (left, right.as_c("L"))
    return left, right, max(left.c, right.c, key=RANKS.index)
