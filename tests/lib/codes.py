"""The printer's control codes, as the definitions have them: their names; those that set modes, end the line and begin commands."""

import os
import re

FILE = os.path.dirname(os.path.abspath(__file__)) + "/../../crates/pr_page/specs/Codes.antt"
NAMES, MODES, LINE_ENDS, COMMANDS = {}, [], [], []
with open(FILE, encoding="utf-8") as _file:
    _text = _file.read()
for _code, _name, _ends, _sets in re.findall(r'b == (\d+) then row \(codes "([^"]+)"\) (\w+)\s+\(λ m\. (.*)\)$', _text, re.M):
    NAMES[int(_code)] = _name
    (LINE_ENDS if _ends == "true" else COMMANDS if _sets == "m" else MODES).append(int(_code))
CONTROLS = (*MODES, *LINE_ENDS, *COMMANDS)
if len(NAMES) != _text.count("b == "):
    raise SystemExit(f"{FILE} has other rows than tests/lib/codes.py reads")
