"""The text of a program: its lines by their numbers, and their lexemes."""

from __future__ import annotations

import re
from collections.abc import Iterator
from dataclasses import dataclass
from typing import NamedTuple, Optional, Union

from .values import CONSTANT, ZERO, Constant, Refused, Value, constant_of

WORDS = """END FOR NEXT DATA INPUT# INPUT DIM READ LET GOTO RUN IF RESTORE GOSUB RETURN REM STOP ON WAIT LOAD SAVE VERIFY DEF
POKE PRINT# PRINT CONT LIST CLR CMD SYS OPEN CLOSE GET NEW TAB( TO FN SPC( THEN NOT STEP + - * / ^ AND OR > = < SGN INT ABS
USR FRE POS SQR RND LOG EXP COS SIN TAN ATN PEEK LEN STR$ VAL ASC CHR$ LEFT$ RIGHT$ MID$ GO""".split()
# The names of keys that petcat writes in strings, each row from a byte on.
KEY_ROWS = {
    1: "CTRL-A CTRL-B STOP CTRL-D WHT CTRL-F CTRL-G DISH ENSH CTRL-J CTRL-K CTRL-L",
    14: "SWLC CTRL-O CTRL-P DOWN RVON HOME DEL CTRL-U CTRL-V CTRL-W CTRL-X CTRL-Y CTRL-Z ESC RED RGHT GRN BLU SPACE",
    129: "ORNG",
    133: "F1 F3 F5 F7 F2 F4 F6 F8 SRET SWUC",
    144: "BLK UP RVOF CLR INST BRN LRED GRY1 GRY2 LGRN LBLU GRY3 PUR LEFT YEL CYN SHIFT-SPACE",
    161: """CBM-K CBM-I CBM-T CBM-@ CBM-G CBM-+ CBM-M CBM-POUND SHIFT-POUND CBM-N CBM-Q CBM-D CBM-Z CBM-S CBM-P CBM-A CBM-E
        CBM-R CBM-W CBM-H CBM-J CBM-L CBM-Y CBM-U CBM-O SHIFT-@ CBM-F CBM-C CBM-X CBM-V CBM-B SHIFT-*""",
    193: " ".join(f"SHIFT-{chr(it)}" for it in range(65, 91)) + " SHIFT-+ CBM-- SHIFT--",
    223: "CBM-*",
}
KEYS = {name: first + at for first, row in KEY_ROWS.items() for at, name in enumerate(row.split())} | {"SPACES": 32}
KEY = re.compile(rb"\{(?:(\d+) )?(?:\$([0-9a-f]{2})|([^{}]+))\}", re.I)


def string_of(text: bytes, place: int) -> bytes:
    """The bytes of a string that is written at a place: keys have names in braces, other bytes are themselves."""
    found, at = bytearray(), 0
    while at < len(text):
        if text[at] != ord("{"):
            if not 32 <= text[at] <= 126:
                raise Refused(place + at, "bad byte")
            found.append(text[at])
            at += 1
            continue
        key = KEY.match(text, at)
        byte = key and (int(key[2], 16) if key[2] else KEYS.get(key[3].decode("latin-1").upper()))
        if not key or byte is None or not 1 <= int(key[1] or 1) <= 255:
            raise Refused(place + at, "unknown name")
        found += bytes([byte]) * int(key[1] or 1)
        at = key.end()
    return bytes(found)


def size_of(text: bytes) -> int:
    """How many bytes a program's text has, where each name of a key in quotes is as many as it stands for."""
    keys = (it for quoted in re.findall(rb'"[^"\r\n]*', text) for it in KEY.finditer(quoted))
    return len(text) + sum(int(it[1] or 1) - len(it[0]) for it in keys)


class Name(NamedTuple):
    """A variable's name as far as it counts: two characters, and `$` or `%` or nothing."""

    letters: str
    kind: str

    @property
    def first_value(self) -> Value:
        """Its value before it is given one."""
        return b"" if self.kind == "$" else ZERO


@dataclass(frozen=True)
class Lexeme:
    """A keyword or a sign by itself; or NAME, CONSTANT, COMPARISON, TEXT, ITEMS, REMARK with what they are."""

    word: str
    place: int
    value: Union[Name, Constant, str, bytes, None] = None


def keyword_at(row: bytes, at: int) -> str:
    """The keyword that begins there, the first in the order of tokens; nothing where none does."""
    front = row[at : at + 8].decode("latin-1").upper()
    return next((it for it in WORDS if front.startswith(it)), "")


def items_end(row: bytes, at: int) -> int:
    """Where the items of DATA end: at a colon outside strings, or with the row."""
    quoted = False
    for end in range(at, len(row)):
        quoted ^= row[end] == ord('"')
        if row[end] == ord(":") and not quoted:
            return end
    return len(row)


def symbols_of(row: bytes, start: int) -> Iterator[Lexeme]:
    """What the machine keeps of a row whose first byte is at a place: keywords, strings and single characters."""
    at = 0
    while at < len(row):
        place, word = start + at, "PRINT" if row[at] == ord("?") else keyword_at(row, at)
        if row[at] == ord('"'):
            end = (row + b'"').find(b'"', at + 1)
            yield Lexeme("TEXT", place, string_of(row[at + 1 : end], place + 1))
            at = end + 1
        elif word == "REM":
            yield Lexeme("REMARK", place)
            return
        elif word == "DATA":
            end = items_end(row, at + 4)
            yield Lexeme("ITEMS", place + 4, row[at + 4 : end])
            at = end
        else:
            if row[at] != ord(" "):
                yield Lexeme(word or (chr(row[at]).upper() if row[at] < 128 else "\0"), place)
            at += 1 if row[at] == ord("?") else len(word) or 1


NAME = re.compile(r"([A-Z][A-Z0-9]?)[A-Z0-9]*([$%]?)")


def grouped(codes: str, at: int, place: int) -> tuple[Optional[Lexeme], int]:
    """The name, constant or comparison that begins at a symbol, and the number of the symbol after it."""
    if name := NAME.match(codes, at):
        return Lexeme("NAME", place, Name(name[1], name[2])), name.end()
    if codes[at] in "0123456789.":
        constant = CONSTANT.match(codes, at)
        assert constant
        return Lexeme("CONSTANT" if constant_of(constant) else "\0", place, constant_of(constant)), constant.end()
    end = at
    while codes[end] in "<=>" and codes[end] not in codes[at:end]:
        end += 1
    return (Lexeme("COMPARISON", place, codes[at:end]), end) if end > at else (None, at)


def lexemes_of(row: bytes, place: int) -> list[Lexeme]:
    """The lexemes of a row whose first byte is at a place."""
    symbols = list(symbols_of(row, place))
    codes = "".join(it.word if len(it.word) == 1 else "\0" for it in symbols) + "\0"
    found, at = [], 0
    while at < len(symbols):
        lexeme, end = grouped(codes, at, symbols[at].place)
        found.append(lexeme or symbols[at])
        at = max(end, at + 1)
    return found


def rows_of(text: bytes) -> dict[int, tuple[bytes, int]]:
    """The lines of a program by their numbers: what follows the number, and its place. The last of a number counts."""
    lines: dict[int, tuple[bytes, int]] = {}
    for row in re.finditer(rb"[^\r\n]*[^\r\n ][^\r\n]*", text):
        front = re.match(rb" *([0-9 ]*)", row[0])
        assert front
        digits, place = front[1].replace(b" ", b""), row.start() + len(row[0]) - len(row[0].lstrip(b" "))
        if not digits:
            raise Refused(place, "no line number")
        if int(digits) > 63999:
            raise Refused(place, "line number above 63999")
        lines.pop(int(digits), None)
        if front.end() < len(row[0]):
            lines[int(digits)] = row[0][front.end() :], row.start() + front.end()
    return dict(sorted(lines.items()))
