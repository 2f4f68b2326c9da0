"""The bounds of delays by the names of their kinds (AT, AW, ..), in microseconds, from the definitions."""

import os
import re

FILE = os.path.dirname(os.path.abspath(__file__)) + "/../../crates/pr_wire/specs/Delays.antt"
LEAST, TYPICAL, GREATEST = {}, {}, {}
with open(FILE, encoding="utf-8") as _file:
    for _kind, *_bounds in re.findall(r"(?m)^bounds_of (\w+) = \((\d+), (\d+), (\d+)\)$", _file.read()):
        LEAST[_kind.upper()], TYPICAL[_kind.upper()], GREATEST[_kind.upper()] = map(int, _bounds)
if len(LEAST) != 14:
    raise SystemExit(f"{FILE} has {len(LEAST)} delays")
