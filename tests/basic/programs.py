#!/usr/bin/env python3
"""tests/basic/programs.py PROGRAM: runs the programs of this folder and compares with what they have to print.

Each NAME.bas is run by tests/lib/basic.py, and by PROGRAM (--from basic), which has to perform the same and to end in
the same way: with the same error in the same line, or refused at the same place. The statements that it performs are
NAME.script, how it ends is NAME.end, and the lines that PROGRAM makes of the script are NAME.page; a program that is
refused has no page. Each list of lists.txt and each program of runs.txt prints what it says there, by both. Random
programs follow, whose scripts PROGRAM has to accept.

    tests/basic/programs.py --make N FIRST FOLDER

writes N random programs, the first from seed FIRST: FOLDER/SEED.bas, with SEED.script and SEED.end."""

from __future__ import annotations

import os
import re
import sys

HERE = os.path.dirname(os.path.abspath(__file__))
sys.path.insert(0, f"{HERE}/../lib")

from basic import Outcome, run_program
from checks import Checks, bytes_of, program_of, run
from made import made_program

MADE = 20  # random programs whose scripts are printed
STEPS = 5000  # of a random program


def script_text(outcome: Outcome) -> bytes:
    return "".join(f"{line}\n" for line in outcome.script).encode()


def said_of(end: str) -> str:
    """How the line begins that PROGRAM writes of a run that ends so; nothing where it is no error."""
    refused = re.match(r"refused at (line \d+, column \d+)", end)
    error = re.fullmatch(r"\?(.*) in (\d+)", end)
    if refused:
        return f"print1525: {refused[1]}: "
    return f"?{error[1]}  ERROR IN {error[2]}" if error else ""


def check_run(checks: Checks, program: str, name: str, text: bytes, outcome: Outcome) -> None:
    """PROGRAM runs a program itself, performs the same statements and ends in the same way."""
    ran = run(program, "pages", "--from", "basic", "--as", "script", data=text)
    is_refused = outcome.end.startswith("refused")
    checks.expect(ran.output == (b"" if is_refused else script_text(outcome)), f"{name}: --from basic performs others: {ran.error}")
    status = 2 if is_refused else int(outcome.end.startswith("?"))
    checks.expect(ran.status == status, f"{name}: --from basic ends with {ran.status}, not {status}: {ran.error}")
    said = ran.error.startswith(said_of(outcome.end)) if is_refused else ran.error == said_of(outcome.end)
    checks.expect(said, f"{name}: --from basic says {ran.error}, not {outcome.end}")


def check_program(checks: Checks, program: str, name: str) -> None:
    """A program of this folder performs, ends and prints as it should."""
    outcome = run_program(bytes_of(f"{HERE}/{name}.bas"))
    script = script_text(outcome)
    checks.expect(script == bytes_of(f"{HERE}/{name}.script"), f"{name}: other statements than {name}.script has")
    checks.expect(f"{outcome.end}\n".encode() == bytes_of(f"{HERE}/{name}.end"), f"{name}: '{outcome.end}'")
    check_run(checks, program, name, bytes_of(f"{HERE}/{name}.bas"), outcome)
    page = f"{HERE}/{name}.page"
    if outcome.end.startswith("refused"):
        checks.expect(not os.path.exists(page), f"{name}: it is refused, and has a page")
        return
    ran = run(program, "pages", "--as", "text", data=script)
    checks.expect(ran.output == bytes_of(page), f"{name}: another page than {name}.page, status {ran.status}: {ran.error}")


def printed(script: list[str]) -> str:
    """What a script prints on file 4: strings, and other bytes in braces."""
    found = ""
    for line in script:
        listed = re.fullmatch(r"\d+ (?:(?:PRINT#|CMD )4(?!\d),?|PRINT(?!#) ?)(.*)", line)
        if listed:
            found += listed[1] + ("" if listed[1].endswith(";") else ";CHR$(13);")
    return re.sub(r"CHR\$\((\d+)\)", r"{\1}", found).replace(";", "").replace('""', "")


def check_runs(checks: Checks, program: str) -> None:
    """Each program of runs.txt prints what stands beside it, and ends so."""
    for row in bytes_of(f"{HERE}/runs.txt").decode().splitlines():
        if row.startswith("#"):
            continue
        lines, wanted = row.split(" => ")
        text = f'1 OPEN 4,4:CMD 4,"";\n2 {lines}'.replace(" \\ ", "\n").encode()
        outcome = run_program(text)
        check_run(checks, program, lines, text, outcome)
        end = "" if outcome.end == "end of program" else outcome.end
        found = "refused" if end.startswith("refused") else f"{printed(outcome.script)} {end}".strip()
        checks.expect(found == wanted, f"{lines}: {found}, not {wanted}")


def check_lists(checks: Checks, program: str) -> None:
    """Each list of lists.txt prints what stands beside it, or ends so."""
    for row in bytes_of(f"{HERE}/lists.txt").decode().splitlines():
        if row.startswith("#"):
            continue
        listed, wanted = re.split(" +=> ", row)
        text = f"1 OPEN 4,4\n2 PRINT#4,{listed}\n".encode()
        outcome = run_program(text)
        check_run(checks, program, listed, text, outcome)
        found = "refused" if outcome.end.startswith("refused") else outcome.end.removesuffix(" in 2")
        if len(outcome.script) == 2:
            found = re.sub(r"CHR\$\((\d+)\)", r"{\1}", outcome.script[1].removeprefix("2 PRINT#4,")).replace(";", "")
        checks.expect(found == wanted, f"PRINT#4,{listed}: {found}, not {wanted}")


def made(seed: int) -> tuple[bytes, Outcome]:
    """A random program that ends within the steps."""
    for attempt in range(100):
        text = made_program(seed * 100 + attempt)
        outcome = run_program(text, STEPS)
        if outcome.end != "too many steps":
            return text, outcome
    raise SystemExit(f"no program of seed {seed} ends")


def check_made(checks: Checks, program: str, seed: int) -> None:
    """The script of a random program is one; it stops only where the run said so."""
    text, outcome = made(seed)
    check_run(checks, program, f"made program {seed}", text, outcome)
    ran = run(program, "pages", "--as", "text", data=script_text(outcome))
    stops = outcome.end.startswith(("?FILE", "?TOO MANY FILES", "?NOT INPUT FILE"))
    checks.expect(ran.status == int(stops), f"made program {seed}: status {ran.status}: {ran.error}")


def make(count: int, first: int, folder: str) -> int:
    """Writes random programs with what they perform and how they end."""
    os.makedirs(folder, exist_ok=True)
    for seed in range(first, first + count):
        text, outcome = made(seed)
        for ending, data in (("bas", text), ("script", script_text(outcome)), ("end", f"{outcome.end}\n".encode())):
            with open(f"{folder}/{seed}.{ending}", "wb") as file:
                file.write(data)
    return 0


def main(words: list[str]) -> int:
    if words[:1] == ["--make"] and len(words) == 4 and words[1].isdigit() and words[2].isdigit():
        return make(int(words[1]), int(words[2]), words[3])
    program = program_of(words, "tests/basic/programs.py PROGRAM | --make N FIRST FOLDER")
    checks = Checks()
    for it in sorted(os.listdir(HERE)):
        if it.endswith(".bas"):
            check_program(checks, program, it[:-4])
    check_runs(checks, program)
    check_lists(checks, program)
    for seed in range(1, MADE + 1):
        check_made(checks, program, seed)
    return checks.end()


if __name__ == "__main__":
    sys.exit(main(sys.argv[1:]))
