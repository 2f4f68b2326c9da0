"""The serial bus: devices that answer, and what any bus says, edge by edge. Times are microseconds; a level is 0 for
pulled and anything else for released. An object serves one thread at a time."""

from __future__ import annotations

from ctypes import byref, c_uint64, memmove, sizeof
from functools import partial
from typing import Any, Iterable, Iterator, Literal, NamedTuple, Optional, get_args

from . import _library
from ._library import LIBRARY, Details, called, checked, fitting

# What comes to a device, and how a byte ended, in the order of their numbers from 1 on.
Heard = Literal["byte", "select", "listen", "unlisten", "open", "close"]
Kind = Literal["acknowledged", "unacknowledged", "last", "incomplete-atn", "incomplete-silence", "incomplete-end"]
_HEARD, _KINDS = get_args(Heard), get_args(Kind)
_NO_WAKE = 2**64 - 1


class Received(NamedTuple):
    """What comes to a device; the byte or the number of the secondary address, else 0; and whether the byte is the last
    of its sender (end-or-identify)."""

    kind: Heard
    byte: int
    is_last: bool


class Timing(NamedTuple):
    """How long a device waits before each thing that it does to DATA; 0 is the typical delay."""

    attention: int = 0
    hold: int = 0
    wait: int = 0
    answer: int = 0
    accept: int = 0
    leave: int = 0


class Speed(NamedTuple):
    """How many columns of dots a printer prints in a second, and how long a line feed takes; 0 is the figure of the
    VIC-1525 User's Manual."""

    columns: int = 0
    feed: int = 0


def printing_time(columns: int, feeds: int = 1, speed: Speed = Speed()) -> int:
    """How long a printer takes for columns of dots from the left edge, blank ones too, and line feeds."""
    figures = _library.Speed(*(fitting(it, 32, "a speed") for it in speed))
    given = (fitting(columns, 32, "columns"), fitting(feeds, 16, "line feeds"))
    return int(LIBRARY.printing_time(*given, byref(figures)))


class Step(NamedTuple):
    """Whether a device pulls DATA from a moment on; when it wants to be shown the lines again if none changes before,
    or None; and what it hears."""

    pulls_data: bool
    wake: Optional[int]
    heard: Optional[Received]


class Reading(NamedTuple):
    """A byte on the wires as far as it came, how it ended, and when each thing happened; 0 for what did not come."""

    kind: Kind
    byte: int
    command: bool
    eoi: bool
    bits: int
    look: int
    ready: int
    answered: int
    answer_ended: int
    pull: int
    shortest_low: int
    longest_low: int
    shortest_high: int
    longest_high: int
    last_pull: int
    end: int


def _received(made: _library.Received) -> Optional[Received]:
    return Received(_HEARD[made.kind - 1], made.byte, bool(made.eoi)) if made.kind else None


def _reading(made: _library.Reading) -> Optional[Reading]:
    if not made.kind:
        return None
    it = made.byte
    times = [getattr(it, name) for name, kind in it._fields_ if kind is c_uint64]
    return Reading(_KINDS[made.kind - 1], it.byte, bool(it.command), bool(it.eoi), it.bits, *times, made.end)


class _Kept:
    """What the library keeps between two calls."""

    _kept: Any

    @property
    def state(self) -> bytes:
        """All that the library keeps, to be saved and given to `state=` later."""
        return bytes(self._kept)

    def _load(self, state: bytes) -> None:
        if len(state) != sizeof(self._kept):
            raise ValueError(f"a state has {sizeof(self._kept)} bytes")
        memmove(byref(self._kept), bytes(state), len(state))


class _Edges(_Kept):
    """What takes edges: the structures of its calls are made once."""

    def __init__(self, call: Any, kept: Any, made: Any) -> None:
        self._kept, self._made = kept, made
        self._lines, self._details = _library.Edge(), Details()
        self._call = partial(call, byref(kept), byref(self._lines), byref(made), byref(self._details))

    def _show(self, now: int, atn: int, clock: int, data: int) -> Any:
        lines = self._lines
        lines.time = fitting(now, 64, "a moment")
        lines.atn, lines.clock, lines.data = bool(atn), bool(clock), bool(data)
        checked(self._call(), self._details)
        return self._made


class Device(_Edges):
    """A device of 4 to 30 on the bus that hears and answers; or the one whose state was kept."""

    def __init__(self, address: int = 4, timing: Timing = Timing(), *, state: Optional[bytes] = None):
        super().__init__(LIBRARY.device_step, _library.Device(), _library.Step())
        if state is not None:
            self._load(state)
            return
        delays = _library.Timing(*(fitting(it, 16, "a delay") for it in timing))
        called("device_begin", byref(self._kept), fitting(address, 8, "an address"), byref(delays))

    def step(self, now: int, atn: int, clock: int, data: int) -> Step:
        """Shows the device the lines at a moment: whenever one changes, and at each `wake`. DATA is pulled as long as
        anybody pulls it, this device too."""
        made = self._show(now, atn, clock, data)
        return Step(bool(made.pulls_data), None if made.wake == _NO_WAKE else made.wake, _received(made.heard))

    def busy(self, until: int) -> None:
        """Lets the device print until a moment: it holds DATA before the next byte, and the talker waits."""
        called("device_busy", byref(self._kept), fitting(until, 64, "a moment"))


class Receiver(_Edges):
    """What comes to a device of 4 to 30 on any bus, edge by edge. It drives no line."""

    def __init__(self, device: int = 4, *, state: Optional[bytes] = None):
        super().__init__(LIBRARY.receiver_edge, _library.Receiver(), _library.Received())
        if state is not None:
            self._load(state)
        else:
            called("receiver_begin", byref(self._kept), fitting(device, 8, "a device"))

    def edge(self, time: int, atn: int, clock: int, data: int) -> Optional[Received]:
        """What comes to the device with the next edge, if anything does."""
        return _received(self._show(time, atn, clock, data))


class Decoder(_Edges):
    """What any recording of the bus says, edge by edge, wherever it begins."""

    def __init__(self, *, state: Optional[bytes] = None):
        super().__init__(LIBRARY.decoder_edge, _library.Decoder(), _library.Reading())
        if state is not None:
            self._load(state)
        else:
            called("decoder_begin", byref(self._kept))

    def edge(self, time: int, atn: int, clock: int, data: int) -> Optional[Reading]:
        """The reading that the next edge settles, if it settles one."""
        return _reading(self._show(time, atn, clock, data))

    def end(self) -> Optional[Reading]:
        """The reading that the end of the recording cuts, if it cuts one. More edges may follow."""
        called("decoder_end", byref(self._kept), byref(self._made))
        return _reading(self._made)


def readings(edges: Iterable[tuple[int, int, int, int]]) -> Iterator[Reading]:
    """The readings of a recording: each edge is its time and the levels of ATN, CLOCK and DATA."""
    decoder = Decoder()
    for edge in edges:
        reading = decoder.edge(*edge)
        if reading:
            yield reading
    last = decoder.end()
    if last:
        yield last


def received(edges: Iterable[tuple[int, int, int, int]], device: int = 4) -> Iterator[Received]:
    """What comes to a device on any bus."""
    receiver = Receiver(device)
    for edge in edges:
        heard = receiver.edge(*edge)
        if heard:
            yield heard
