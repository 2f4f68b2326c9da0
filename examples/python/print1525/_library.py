"""The C library by ctypes: where it is, its structures and its calls. Programs use the package's other names."""

from __future__ import annotations

import ctypes
import os
import sys
from ctypes import CFUNCTYPE, POINTER, Structure, byref, c_char_p, c_int, c_int32, c_size_t, c_uint8, c_uint16
from ctypes import c_uint32, c_uint64, c_void_p
from typing import Any, Optional

from ._faults import Fault

# The first number of the library's version, which is in the names of its files.
MAJOR = 1
FILES = {"win32": "print1525.dll", "darwin": f"libprint1525.{MAJOR}.dylib"}
# A number that no named value has: the library refuses it.
NO_VALUE = 255


class Details(Structure):
    _fields_ = [("status", c_int32), ("fault", c_int32), ("place", c_size_t), ("column", c_size_t)]


class Settings(Structure):
    _fields_ = [(it, c_uint8) for it in ("as", "from", "present", "status", "set", "device", "paper", "holes")]
    _fields_ += [(it, c_uint8) for it in ("top", "scale", "bounds", "intervals", "invert", "listening", "strict")]
    _fields_ += [("explain", c_uint8)]
    _fields_ += [(it, c_uint64) for it in ("sheet", "from_time", "rate")]
    _fields_ += [("delays", c_char_p), ("names", c_char_p), ("characters", c_char_p), ("characters_length", c_size_t)]
    _fields_ += [("steps", c_uint64), ("reserved", c_uint64 * 3)]


class Edge(Structure):
    _fields_ = [("time", c_uint64), ("atn", c_uint8), ("clock", c_uint8), ("data", c_uint8)]


class Received(Structure):
    _fields_ = [("kind", c_uint8), ("byte", c_uint8), ("eoi", c_uint8)]


class Timing(Structure):
    _fields_ = [(it, c_uint16) for it in ("attention", "hold", "wait", "answer", "accept", "leave")]


class Device(Structure):
    _fields_ = [("kept", c_uint64 * 8)]


class Step(Structure):
    _fields_ = [("wake", c_uint64), ("pulls_data", c_uint8), ("heard", Received)]


class Speed(Structure):
    _fields_ = [("columns", c_uint32), ("feed", c_uint32)]


class Byte(Structure):
    _fields_ = [(it, c_uint64) for it in ("look", "ready", "answered", "answer_ended", "pull", "shortest_low")]
    _fields_ += [(it, c_uint64) for it in ("longest_low", "shortest_high", "longest_high", "last_pull")]
    _fields_ += [(it, c_uint8) for it in ("command", "eoi", "bits", "byte")]


class Reading(Structure):
    _fields_ = [("byte", Byte), ("end", c_uint64), ("kind", c_uint8)]


class Decoder(Structure):
    _fields_ = [("kept", c_uint64 * 24)]


class Receiver(Structure):
    _fields_ = [("kept", c_uint64 * 25)]


class Mark(Structure):
    _fields_ = [("y", c_uint64), ("x", c_uint16)]
    _fields_ += [(it, c_uint8) for it in ("kind", "value", "lower", "reverse", "wide")]


class Printer(Structure):
    _fields_ = [("y", c_uint64), ("x", c_uint16)]
    _fields_ += [(it, c_uint8) for it in ("graphic", "wide", "reverse", "override_set", "lower", "pending")]
    _fields_ += [("parameter", c_uint8)]


class Region(Structure):
    _fields_ = [("x", c_uint64), ("y", c_uint64), ("width", c_size_t), ("height", c_size_t)]
    _fields_ += [("stride", c_size_t), ("pixels", c_uint8)]


class Characters(Structure):
    _fields_ = [("kept", c_uint8 * 1536)]


WRITE = CFUNCTYPE(c_int, c_void_p, c_void_p, c_size_t)
_GIVEN = [c_void_p, c_size_t, POINTER(Settings)]
_MADE = [c_void_p, c_size_t, POINTER(c_size_t), POINTER(Details)]
_SHOWN = [c_void_p, c_size_t, POINTER(Region)]
# What each call takes; those return a status that RESULTS has not.
CALLS: dict[str, list[Any]] = {
    "answer": [POINTER(c_char_p), c_void_p, c_size_t, *_MADE],
    **{it: [*_GIVEN, *_MADE] for it in ("pages", "bus", "check", "decode", "raw", "print", "listing", "edges")},
    "device_begin": [POINTER(Device), c_uint8, POINTER(Timing), POINTER(Details)],
    "device_step": [POINTER(Device), POINTER(Edge), POINTER(Step), POINTER(Details)],
    "device_busy": [POINTER(Device), c_uint64, POINTER(Details)],
    "decoder_begin": [POINTER(Decoder), POINTER(Details)],
    "decoder_edge": [POINTER(Decoder), POINTER(Edge), POINTER(Reading), POINTER(Details)],
    "decoder_end": [POINTER(Decoder), POINTER(Reading), POINTER(Details)],
    "receiver_begin": [POINTER(Receiver), c_uint8, POINTER(Details)],
    "receiver_edge": [POINTER(Receiver), POINTER(Edge), POINTER(Received), POINTER(Details)],
    "printer_begin": [POINTER(Printer), POINTER(Details)],
    "printer_select": [POINTER(Printer), c_uint8, POINTER(Details)],
    "printer_bytes": [POINTER(Printer), c_void_p, POINTER(c_size_t), *_MADE],
    "printer_form_feed": [POINTER(Printer), POINTER(Details)],
    "printer_tear_off": [POINTER(Printer), POINTER(c_uint64), POINTER(Details)],
    "printer_changed": [*_SHOWN, POINTER(Details)],
    "printer_page": [*_SHOWN, c_void_p, c_size_t, POINTER(Details)],
    "printer_draw": [*_SHOWN, c_void_p, c_size_t, POINTER(Details)],
    "printer_picture": [*_GIVEN, WRITE, c_void_p, POINTER(Details)],
    "characters_read": [c_void_p, c_size_t, POINTER(Characters), POINTER(Details)],
    "characters_dots": [POINTER(Characters), POINTER(Mark), *_MADE],
    "printing_time": [c_uint32, c_uint16, POINTER(Speed)],
    "message": [POINTER(Details), c_char_p, c_size_t],
    "version": [],
}
RESULTS = {"message": c_size_t, "version": c_char_p, "printing_time": c_uint64}


def place() -> str:
    """Where the library is: as PRINT1525_LIBRARY says, in the package or beside it, or where the system looks."""
    given, name = os.environ.get("PRINT1525_LIBRARY"), FILES.get(sys.platform, f"libprint1525.so.{MAJOR}")
    here = os.path.dirname(os.path.abspath(__file__))
    beside = [os.path.join(it, name) for it in (here, os.path.dirname(here))]
    return given or next(filter(os.path.exists, beside), name)


class Library:
    """The calls, each as a method without `print1525_`."""

    def __init__(self, path: str):
        try:
            library = ctypes.CDLL(path)
        except OSError as why:
            raise ImportError(f"{why} (PRINT1525_LIBRARY may name the library's file)") from why
        for name, takes in CALLS.items():
            try:
                call = getattr(library, f"print1525_{name}")
            except AttributeError as why:
                raise ImportError(f"{path} is another libprint1525: {why}") from why
            call.argtypes, call.restype = takes, RESULTS.get(name, c_int)
            setattr(self, name, call)

    def __getattr__(self, name: str) -> Any:
        raise AttributeError(f"print1525_{name} is no call")


LIBRARY = Library(place())


def message(details: Details) -> str:
    """The library's words for details."""
    text = ctypes.create_string_buffer(LIBRARY.message(byref(details), None, 0) + 1)
    LIBRARY.message(byref(details), text, len(text))
    return text.value.decode()


class Refused(Exception):
    """Why a call refuses, in the library's words, as `line 3: unknown word`.

    `fault` is one of Fault; `place` is the line, edge, input or setting that it names, else 0; `column` is that of a
    line, else 0. `text` is what comes before the fault of a recording, or with explain=True the explanation; `edges`
    are those before the fault, of `print1525.edges`."""

    def __init__(self, details: Details, text: bytes = b"", edges: Optional[list[Any]] = None):
        super().__init__(message(details))
        self.fault: int = details.fault
        self.place: int = details.place
        self.column: int = details.column
        self.text, self.edges = text, edges or []

    def __reduce__(self) -> Any:
        return Refused, (Details(2, self.fault, self.place, self.column), self.text, self.edges)


def checked(status: int, details: Details, text: bytes = b"", edges: Optional[list[Any]] = None) -> int:
    """The status of a call that has done what it was asked for. Raises Refused where it refuses."""
    if status < 2:
        return status
    if details.fault == Fault.NO_MEMORY:
        raise MemoryError
    raise Refused(details, text, edges)


def called(name: str, *given: Any) -> Details:
    """Makes a call whose last parameter is for details. Raises Refused where it refuses."""
    details = Details()
    checked(getattr(LIBRARY, name)(*given, byref(details)), details)
    return details


def fitting(value: int, bits: int, name: str) -> int:
    """A number that has room in so many bits; else OverflowError, as Python has it for numbers without room."""
    if not 0 <= value < 1 << bits:
        raise OverflowError(f"{name} has no room in {bits} bits: {value}")
    return int(value)


def numbered(value: str, names: tuple[str, ...]) -> int:
    """The number of a named value. Another name has a number that the library refuses."""
    return names.index(value) if value in names else NO_VALUE
