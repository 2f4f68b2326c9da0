"""Texts: pages, traces, readings and edges."""

from __future__ import annotations

import ctypes
from ctypes import byref, c_char_p, c_size_t, c_uint16
from typing import TYPE_CHECKING, Any, Literal, NamedTuple, Optional, Sequence, TypedDict, Union, get_args

from . import _library
from ._faults import Fault
from ._library import LIBRARY, Details, checked, fitting, message, numbered

if TYPE_CHECKING:
    from typing_extensions import Unpack

Data = Union[str, bytes, bytearray, memoryview]

# The named values of settings, in the order of their numbers. The first one is the default.
As = Literal["usual", "list", "text", "frames", "story", "json", "vcd", "svg", "png", "pdf", "bytes", "script"]
From = Literal["usual", "auto", "text", "prg", "petcat", "magazine", "vcd", "csv", "basic", "bas"]
Present = Literal["both", "4", "5", "none"]
Status = Literal["each", "kept"]
Set = Literal["upper", "lower"]
Paper = Literal["continuous", "a4", "letter"]
Bounds = Literal["profile", "guide"]
Listening = Literal["none", "4", "5", "both"]
_NAMED = {"as": As, "from": From, "present": Present, "status": Status, "set": Set, "paper": Paper, "bounds": Bounds}
_NAMED["listening"] = Listening
_BITS = dict.fromkeys(("device", "scale", "holes", "intervals", "invert", "strict", "explain"), 8)
_BITS |= dict.fromkeys(("sheet", "from_time", "rate", "steps"), 64)
# `top` of paper whose first row is at its upper edge.
_TOP_EDGE = 255

SELECT_UPPER, SELECT_LOWER = 256, 257


class Settings(TypedDict, total=False):
    """The program's options. A setting that a call does not read is refused, unless it has its default."""

    as_: As  # what the text is; each call has its own, and refuses others
    from_: From  # what the input is
    present: Present  # the printers on the bus
    status: Status  # whether the status is cleared before each statement, or kept
    set: Set  # the character set before the first byte
    device: int  # the printer 4 or 5 alone; 0 for all
    paper: Paper  # of a PDF document
    holes: bool  # continuous paper with its holes and perforations
    top: int  # the lines of 1/6 inch from the paper's upper edge to the first row, at most 65; 3 if none are given
    scale: int  # the pixels of a PNG file for the place of a dot, 1 to 8; 2 if none are given
    bounds: Bounds  # of intervals: this project's, or those of the Programmer's Reference Guide
    intervals: bool  # also the intervals outside their bounds, and a table
    invert: bool  # the levels of a dump or a table are inverted
    listening: Listening  # the printers that listen when a recording begins
    strict: bool  # status 1 where pages or bytes leave out something of a recording
    explain: bool  # the text is what the program says with --explain
    sheet: int  # this sheet alone, from 1; 0 for all
    from_time: int  # the microsecond at which a dump or a table starts
    rate: int  # samples in a second, of a table without times; 0 where it says it
    delays: str  # as "900,999/9"
    names: str  # of ATN, CLOCK and DATA, as "A,C,D"
    characters: bytes  # a file of characters
    steps: int  # the steps that a program in BASIC has at most; 0 for 10,000,000


class Answer(NamedTuple):
    """What a call gives: its text; status 0, or 1 where a BASIC error stopped the run, or with `strict` something was
    left out; and of that error its words, its number (one of Fault) and the statement that it stopped."""

    text: bytes
    status: int = 0
    stop: Optional[str] = None
    fault: int = 0
    place: int = 0


class Edge(NamedTuple):
    """From this microsecond on the lines have these levels: 0 pulled, 1 released."""

    time: int
    atn: int
    clock: int
    data: int


def _words(text: Union[str, bytes]) -> bytes:
    """A text for C, which ends with a zero byte."""
    given = text.encode() if isinstance(text, str) else bytes(text)
    if b"\0" in given:
        raise ValueError("embedded null byte")
    return given


def _bytes(given: Data) -> bytes:
    return given.encode() if isinstance(given, str) else bytes(given)


def _settings(settings: Any) -> _library.Settings:
    made = _library.Settings()
    for word, value in settings.items():
        if word not in Settings.__annotations__:
            raise TypeError(f"no setting {word}")
        name = word.rstrip("_")
        if name in _NAMED:
            setattr(made, name, numbered(value, get_args(_NAMED[name])))
        elif name == "top":
            made.top = fitting(value, 7, name) or _TOP_EDGE
        elif name in _BITS:
            setattr(made, name, fitting(value, _BITS[name], name))
        elif name == "characters":
            made.characters = bytes(value)
            made.characters_length = len(bytes(value))
        else:
            setattr(made, name, _words(value))
    return made


def _text(call: Any, *given: Any) -> Answer:
    """Makes a call for a text, with a buffer that grows until the text fits."""
    room = 65536
    while True:
        text, length, details = ctypes.create_string_buffer(room), c_size_t(), Details()
        status = call(*given, text, room, byref(length), byref(details))
        if details.fault != Fault.TOO_SMALL:
            break
        room = length.value
    made = text.raw[: length.value]
    checked(status, details, made)
    return Answer(made, status, message(details) if details.fault else None, details.fault, details.place)


def answer(words: Sequence[Union[str, bytes]], data: Data = b"") -> Answer:
    """What the program print1525 does with the words of a command line, as ["pages", "--as", "svg"], over an input. No
    file is read or written: the word after --characters is the text of such a file. With --explain the text is what the
    program says."""
    given, data = [_words(it) for it in words], _bytes(data)
    return _text(LIBRARY.answer, (c_char_p * (len(given) + 1))(*given), data, len(data))


def _of_bytes(call: Any, given: Data, settings: Any) -> Answer:
    data = _bytes(given)
    return _text(call, data, len(data), byref(_settings(settings)))


def pages(script: Data, **settings: Unpack[Settings]) -> Answer:
    """The pages of a script, or of a listing with `from_`."""
    return _of_bytes(LIBRARY.pages, script, settings)


def bus(script: Data, **settings: Unpack[Settings]) -> Answer:
    """The trace of a script's run on the serial bus."""
    return _of_bytes(LIBRARY.bus, script, settings)


def check(trace: Data, **settings: Unpack[Settings]) -> Answer:
    """The frames of a trace, its story, or a line of JSON for each byte. Only this project's own timing is lawful."""
    return _of_bytes(LIBRARY.check, trace, settings)


def decode(recording: Data, **settings: Unpack[Settings]) -> Answer:
    """What a recording of any bus says, or the pages that it prints."""
    return _of_bytes(LIBRARY.decode, recording, settings)


def raw(data: Union[bytes, bytearray, memoryview], **settings: Unpack[Settings]) -> Answer:
    """The page of the bytes that a printer gets."""
    return _of_bytes(LIBRARY.raw, bytes(data), settings)


def listing(program: Data, **settings: Unpack[Settings]) -> Answer:
    """The text of the script that a listing says."""
    return _of_bytes(LIBRARY.listing, program, settings)


def print_inputs(inputs: Sequence[int], **settings: Unpack[Settings]) -> Answer:
    """The page of what a printer receives: bytes, and between them SELECT_UPPER (for each LISTEN) and SELECT_LOWER (for
    secondary address 7 directly after it)."""
    given = (c_uint16 * len(inputs))(*(fitting(it, 16, "an input") for it in inputs))
    return _text(LIBRARY.print, given, len(inputs), byref(_settings(settings)))


def edges(recording: Data, **settings: Unpack[Settings]) -> list[Edge]:
    """The edges of a recording in any format."""
    data, chosen, room = _bytes(recording), _settings(settings), 4096
    while True:
        made, length, details = (_library.Edge * room)(), c_size_t(), Details()
        status = LIBRARY.edges(data, len(data), byref(chosen), made, room, byref(length), byref(details))
        if details.fault != Fault.TOO_SMALL:
            break
        room = length.value
    found = [Edge(it.time, it.atn, it.clock, it.data) for it in made[: length.value]]
    checked(status, details, b"", found)
    return found
