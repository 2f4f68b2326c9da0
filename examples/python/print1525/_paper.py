"""Printers that are watched: the marks of each byte as it comes, and the pixels and pictures of the paper."""

from __future__ import annotations

import ctypes
import struct
from ctypes import byref, c_size_t, c_uint64
from typing import TYPE_CHECKING, Any, Callable, Literal, NamedTuple, Optional, Sequence, Union, get_args

from . import _library
from ._bus import _Kept
from ._library import called, fitting, numbered
from ._texts import Data, Set, Settings, _bytes, _settings

if TYPE_CHECKING:
    from typing_extensions import Unpack

Pixels = Literal["gray", "rgba", "bits"]
CELL, DOTS = 0, 1
# The height of a sheet of 11 inches, in 1/126 inch.
SHEET = 1386
# How many marks one call gives at most; a byte has no more than 255, and a mark 12 columns of dots.
_MARKS, _DOTS = 1024, 12
# A mark as the library has it.
_PACKED = struct.Struct("=QH5Bx")


class Mark(NamedTuple):
    """A mark on the paper: its row's distance from the top in 1/126 inch, the dot column at which it begins in 1/60
    inch; its kind, CELL or DOTS; a cell's code, or the dots of a column, bit 0 at the top; and how a cell looks."""

    y: int
    x: int
    kind: int
    value: int
    lower: int = 0
    reverse: int = 0
    wide: int = 0


class Region(NamedTuple):
    """A region of the paper in pixels, 120 to the inch across and 126 down, so that a dot is two by two; the paper is
    960 columns wide. In memory a line begins `stride` bytes after the one before it (0: with no byte between them),
    and a pixel is a byte ("gray", 0 where a dot is, else 255), four bytes ("rgba") or a bit ("bits", 1 where a dot is,
    the highest bit first)."""

    x: int
    y: int
    width: int
    height: int
    stride: int = 0
    pixels: Pixels = "gray"

    @property
    def size(self) -> int:
        """How many bytes of memory it needs, from its first pixel on."""
        line = {"rgba": 4 * self.width, "bits": (self.width + 7) // 8}.get(self.pixels, self.width)
        return (self.height - 1) * (self.stride or line) + line if self.width and self.height else 0


def _marks(marks: Sequence[Mark]) -> Any:
    try:
        packed = b"".join([_PACKED.pack(*it) for it in marks])
    except struct.error as why:
        raise OverflowError(f"a mark: {why}") from None
    return (_library.Mark * len(marks)).from_buffer_copy(packed)


def _made(marks: Any) -> list[Mark]:
    return [Mark(it.y, it.x, it.kind, it.value, it.lower, it.reverse, it.wide) for it in marks]


def _region(region: Region) -> _library.Region:
    *numbers, pixels = region
    return _library.Region(*(fitting(it, 64, "a region") for it in numbers), numbered(pixels, get_args(Pixels)))


class Printer(_Kept):
    """A printer that is watched; or the one whose state was kept. It keeps no marks: keep those to be drawn again."""

    def __init__(self, *, state: Optional[bytes] = None):
        self._kept = _library.Printer()
        if state is not None:
            self._load(state)
        else:
            called("printer_begin", byref(self._kept))

    @property
    def x(self) -> int:
        """The dot column to which the next mark goes."""
        return self._kept.x

    @property
    def y(self) -> int:
        """The line's distance from the top, in 1/126 inch."""
        return self._kept.y

    def select(self, set: Set = "upper") -> None:
        """Selects a character set: the graphic/upper case one with each LISTEN, the lower/upper case one with secondary
        address 7 directly after it."""
        called("printer_select", byref(self._kept), numbered(set, get_args(Set)))

    def print(self, data: Union[bytes, bytearray, memoryview]) -> list[Mark]:
        """The marks that bytes make, in order."""
        given, made, marks = bytes(data), [], (_library.Mark * _MARKS)()
        while given:
            taken, length = c_size_t(len(given)), c_size_t()
            called("printer_bytes", byref(self._kept), given, byref(taken), marks, _MARKS, byref(length))
            made += _made(marks[: length.value])
            given = given[taken.value :]
        return made

    def form_feed(self) -> None:
        """Feeds paper by hand, until the line is the first one of the next sheet."""
        called("printer_form_feed", byref(self._kept))

    def tear_off(self) -> int:
        """Tears off the sheets above the line, and gives how many they are: the `y` of the printer is smaller by SHEET
        for each, and so should be that of each mark that was kept of the rest."""
        sheets = c_uint64()
        called("printer_tear_off", byref(self._kept), byref(sheets))
        return sheets.value


def changed(marks: Sequence[Mark], stride: int = 0, pixels: Pixels = "gray") -> Region:
    """The smallest region that has all pixels of some marks: what a window shows anew. Of no mark it has no width."""
    made = _region(Region(0, 0, 0, 0, stride, pixels))
    called("printer_changed", _marks(marks), len(marks), byref(made))
    return Region(made.x, made.y, made.width, made.height, stride, pixels)


def pixels_of(marks: Sequence[Mark], region: Region) -> bytearray:
    """The pixels of a region of the paper with some marks."""
    made = bytearray(region.size)
    _drawn("printer_page", marks, region, made)
    return made


def draw(marks: Sequence[Mark], region: Region, memory: Any) -> None:
    """Draws marks over the pixels of a region: where a dot is they become black, all others stay as they were. The
    memory is a bytearray, or whatever else has writable bytes without gaps; it begins with the region's first
    pixel."""
    _drawn("printer_draw", marks, region, memory)


def _drawn(call: str, marks: Sequence[Mark], region: Region, memory: Any) -> None:
    size = memoryview(memory).nbytes
    pixels = (ctypes.c_char * size).from_buffer(memory)
    called(call, _marks(marks), len(marks), byref(_region(region)), pixels, size)


class Characters:
    """The characters of a file, or the project's own where it is empty: the dots that draw marks in them."""

    def __init__(self, file: Data = b""):
        self._kept, data = _library.Characters(), _bytes(file)
        called("characters_read", data, len(data), byref(self._kept))

    def dots(self, marks: Sequence[Mark]) -> list[Mark]:
        """The columns of dots that draw marks, for `draw`, `pixels_of` and `changed` in their place."""
        made, dots, length = [], (_library.Mark * _DOTS)(), c_size_t()
        for mark in _marks(marks):
            called("characters_dots", byref(self._kept), byref(mark), dots, _DOTS, byref(length))
            made += _made(dots[: length.value])
        return made


def write_picture(marks: Sequence[Mark], write: Callable[[bytes], Any], **settings: Unpack[Settings]) -> None:
    """Gives a picture of the paper with marks to a function, part after part: as_ is "svg", "png" or "pdf". None of
    the marks is above the one before it. What the function raises ends it."""
    raised: list[BaseException] = []

    def part(context: Any, data: int, length: int) -> int:
        try:
            write(ctypes.string_at(data, length))
        except BaseException as why:  # it goes on where the call ends
            raised.append(why)
        return len(raised)

    try:
        given = (_marks(marks), len(marks), byref(_settings(settings)), _library.WRITE(part), None)
        called("printer_picture", *given)
    except _library.Refused:
        if raised:
            raise raised[0] from None
        raise


def picture(marks: Sequence[Mark], **settings: Unpack[Settings]) -> bytes:
    """A picture of the paper with marks."""
    made = bytearray()
    write_picture(marks, made.extend, **settings)
    return bytes(made)
