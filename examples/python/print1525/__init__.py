"""What a Commodore 64 prints on VIC-1525 printers, and what is on its serial bus: libprint1525 for Python.

    >>> import print1525
    >>> picture = print1525.pages('OPEN 4,4\\nPRINT#4,"HELLO"\\n', as_="svg").text

pages, bus, check, decode, raw, listing and print_inputs give an Answer: a text as bytes. Settings are the program's
options, and `answer` takes the words of its command line. `edges` gives the edges of a recording; Decoder and Receiver,
or readings and received, say what edges mean. A Device is on a bus of yours and answers. A Printer gives the marks of
each byte; `draw` and `pixels_of` draw them, and `picture` and `write_picture` give their paper as SVG, PNG or PDF.

Where a call refuses, it raises Refused with the library's words; MemoryError where there is no memory. Where Python's
own values have no room in those of the library, it raises OverflowError or ValueError, as Python does.

The library is what PRINT1525_LIBRARY in the environment names, or it is beside the package, or where the system looks.
"""

from ._bus import Decoder, Device, Heard, Kind, Reading, Received, Receiver, Speed, Step, Timing
from ._bus import printing_time, readings, received
from ._faults import Fault
from ._library import LIBRARY as _LIBRARY
from ._library import Refused
from ._paper import CELL, DOTS, SHEET, Characters, Mark, Pixels, Printer, Region, changed, draw, picture
from ._paper import pixels_of, write_picture
from ._texts import SELECT_LOWER, SELECT_UPPER, Answer, Edge, Settings
from ._texts import answer, bus, check, decode, edges, listing, pages, print_inputs, raw

# The package's version, which is that of the library that it was written for.
__version__ = "1.0.0"

__all__ = [
    "CELL", "DOTS", "SELECT_LOWER", "SELECT_UPPER", "SHEET", "Answer", "Characters", "Decoder", "Device", "Edge",
    "Fault", "Heard", "Kind", "Mark", "Pixels", "Printer", "Reading", "Received", "Receiver", "Refused", "Region",
    "Settings", "Speed", "Step", "Timing", "answer", "bus", "changed", "check", "decode", "draw", "edges", "listing",
    "pages", "picture", "pixels_of", "print_inputs", "printing_time", "raw", "readings", "received", "version",
    "write_picture",
]  # fmt: skip


def version() -> str:
    """The version of the library that is loaded."""
    return _LIBRARY.version().decode()
