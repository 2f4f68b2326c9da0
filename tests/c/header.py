#!/usr/bin/env python3
"""header.py HEADER [SOURCE]: the calls that a header declares, and what is wrong with them.

With a source it writes a line for each call that has more than seven parameters, and for each that the source does not make, and ends with
status 1 if there is one. Without a source it writes the names of the calls, a line each. Comments and strings make no call."""

import re
import sys

MOST_PARAMETERS = 7
NO_CODE = re.compile(r'"(?:\\.|[^"\\\n])*"|\'(?:\\.|[^\'\\\n])+\'|/\*.*?\*/|//[^\n]*', re.S)


def code_of(path):
    """A file's text without comments and strings."""
    with open(path, encoding="utf-8") as file:
        return NO_CODE.sub(" ", file.read())


def calls_of(header):
    """How many parameters each call of a header has, by its name."""
    found = re.findall(r"\b(print1525_\w+)\(([^()]*)\);", code_of(header))
    return {name: 0 if parameters.strip() == "void" else parameters.count(",") + 1 for name, parameters in found}


def faults_of(header, source):
    """What is wrong, a line each."""
    made = set(re.findall(r"\bprint1525_\w+", code_of(source)))
    for name, count in calls_of(header).items():
        if count > MOST_PARAMETERS:
            yield f"{name} has {count} parameters"
        if name not in made:
            yield f"{name} is not made"


def main(words):
    if len(words) not in (1, 2):
        sys.exit(__doc__)
    if not calls_of(words[0]):
        sys.exit(f"{words[0]} declares no call")
    lines = list(faults_of(*words) if len(words) == 2 else calls_of(words[0]))
    for line in lines:
        print(line)
    return len(words) == 2 and lines != []


if __name__ == "__main__":
    sys.exit(main(sys.argv[1:]))
