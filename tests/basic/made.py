"""Random programs in BASIC, from a seed: statements of all kinds, nested loops and subroutines, and text typed in many ways.

Most of them end, since loops are short and a subroutine calls only later ones. Values are mostly certain; now and then a
program does what is refused or what is an error."""

from __future__ import annotations

import random
from collections.abc import Callable

NUMBERS = ("A", "B", "K1", "X", "Y9", "Z", "COUNT")
WHOLES = ("P%", "Q%", "N1%")
STRINGS = ("A$", "B$", "N$", "T1$")
LOOPS = ("I", "J", "L", "M")
WORDS = ("HELLO", "VIC", "PRINTER 4", "A,B:C", "", "X", "DOTS", "1541", " PAD ", "{RVON}R{RVOF}", "{2 SPACES}!", "{$c0}", "(C) 84")
TEXTS = ("RED", " GREEN", '"A, B: C"', "", "TWO WORDS", '"{RVON}"', "12", '"OPEN"', '"Q" ')
FIGURES = ("1", "25", "-7", " 3.5", "+12", "", "1E1", "- 4", "0.25")
FAULTS = (
    "INPUT A", "PRINT#4,1/3*3;", "A=1/0", "E(11)=1", "PRINT RND(1)", 'A="X"', "NEXT Z9", "RETURN", "GOTO 9", "PRINT#4,CHR$(2^5)",
    "B$=CHR$(300)", "PRINT#9,A", "OPEN 4,4", "X=2 3 Y", "PRINT MID$(A$,0)", "A%=40000", "POKE 1,1", "IF 1/3=1/3 THEN A=1", "X=SQR(9)",
    "T1$=MID$(A$,1,-1)", "READ A,B,X,Y9,Z,A,B,X,Y9,Z,A,B,X,Y9,Z", "GOSUB 63000", "DIM E(3)", "PRINT#4,TAB(300)", "A=SIN(0)", "STOP", "END",
    "DIM Z(7600)", "DEF FNZ(X)=FNZ(X):A=FNZ(1)",
)  # fmt: skip


class Maker:
    """Makes one program: its lines are lists of statements, in which `<name>` stands for the line that has this label."""

    def __init__(self, seed: int):
        self.rng = random.Random(seed)
        self.lines: list[list[str]] = []
        self.labels: dict[str, int] = {}
        self.data: list[str] = []
        self.has_texts = self.chance(50)
        self.functions: list[str] = []
        self.later = 0  # subroutines with this number and later ones may be called
        self.subroutines = self.rng.randrange(4)

    def pick(self, *choices: Callable[[], str]) -> str:
        return self.rng.choice(choices)()

    def chance(self, percent: float) -> bool:
        return self.rng.random() * 100 < percent

    # ---- expressions

    def constant(self) -> str:
        return self.pick(
            lambda: str(self.rng.randrange(10)),
            lambda: str(self.rng.randrange(300)),
            lambda: self.rng.choice((".5", "2.25", "1E2", "0.125", "12.", "1000", ".1", "99.95", "-3", "7.5E1", "16384")),
        )

    def number(self, depth: int = 2) -> str:
        """An expression that gives a number."""
        if not depth or self.chance(30):
            return self.pick(self.constant, lambda: self.rng.choice(NUMBERS + LOOPS), lambda: self.rng.choice(WHOLES))
        a, b = self.number(depth - 1), self.number(depth - 1)
        return self.pick(
            lambda: f"{a}{self.rng.choice('+-')}{b}",
            lambda: f"({a})*{self.rng.randrange(1, 12)}",
            lambda: f"({a})/{self.rng.choice((2, 4, 8, 10, 3, 7))}",
            lambda: f"INT(({a})/{self.rng.choice((2, 10, 3, 16))})",
            lambda: f"{self.rng.choice(('ABS', 'SGN', 'INT'))}({a})",
            lambda: f"({a}{self.rng.choice(('<', '>', '=', '<=', '=>', '<>', '><'))}{b})",
            lambda: f"LEN({self.text(depth - 1)})",
            lambda: f'ASC({self.text(depth - 1)}+"A")',
            lambda: f"VAL({self.rng.choice((self.text(depth - 1), f'STR$({self.small()})'))})",
            lambda: f"({self.small()} {self.rng.choice(('AND', 'OR'))} {self.small()})",
            lambda: f"NOT {self.small()}",
            lambda: self.rng.choice((f"-{self.rng.choice(NUMBERS)}", f"({a})^0", "POS(0)", f"INT(SQR(ABS({a})+.5))")),
            lambda: f"E({self.small()})",
            lambda: f"F%({self.rng.randrange(3)},{self.rng.choice(LOOPS)} AND 1)",
            lambda: f"{self.rng.choice(self.functions)}({b})" if self.functions else a,
            lambda: f"({self.text(depth - 1)}{self.rng.choice('<>=')}{self.text(depth - 1)})",
        )

    def small(self) -> str:
        """A whole number from 0 to 7."""
        name = self.rng.choice(LOOPS + WHOLES + ("C1",))
        return self.pick(lambda: str(self.rng.randrange(8)), lambda: f"({name} AND 7)")

    def deep(self, depth: int) -> str:
        """A number for which more and more waits on the machine's stack."""
        a = self.deep(depth - 1) if depth else self.constant()
        return self.pick(
            lambda: f"({a})",
            lambda: f"{self.rng.randrange(3)}{self.rng.choice('+-<')}({a})",
            lambda: self.rng.choice((f"-{a}", f"NOT ({a})")),
            lambda: f"{self.rng.choice(('ABS', 'INT', 'SGN', *self.functions))}({a})",
            lambda: f"LEN({self.rng.choice(('STR$(', 'LEFT$(A$,', 'MID$(A$,1,'))}{a}))",
            lambda: f"E({a} AND 7)",
            lambda: f"F%({self.rng.randrange(3)},{a} AND 1)",
        )

    def text(self, depth: int = 2) -> str:
        """An expression that gives a string."""
        if not depth or self.chance(40):
            return self.pick(lambda: f'"{self.rng.choice(WORDS)}"', lambda: self.rng.choice(STRINGS))
        a = self.text(depth - 1)
        return self.pick(
            lambda: f"LEFT$({a},{self.small()})",
            lambda: f"RIGHT$({a},{self.small()})",
            lambda: f"MID$({a},{self.small()}+1,{self.small()})",
            lambda: f"MID$({a},{self.rng.randrange(1, 5)})",
            lambda: f"CHR$(65+{self.small()})",
            lambda: f"STR$({self.rng.choice((self.small(), self.number(1)))})",
            lambda: f"{a}+{self.text(depth - 1)}",
            lambda: f"S$({self.small()})",
        )

    def parts(self, on_screen: bool) -> str:
        """A list of PRINT."""
        found = ""
        for _ in range(self.rng.randrange(5)):
            item = self.pick(self.number, lambda: self.number(1), self.text, lambda: self.text(1), lambda: f'"{self.rng.choice(WORDS)}"')
            if not on_screen or not found:
                item = self.rng.choice(("", "", "", "", ",", f"TAB({self.rng.randrange(20)})", f"SPC({self.small()})")) + item
            found += item + self.rng.choice((";", ";", ";", "" if item.endswith('"') else ";"))
        return found.rstrip(";") + (";" if self.chance(25) and not on_screen else "")

    # ---- statements

    def assignment(self) -> str:
        number = self.rng.choice((self.number(), self.number(1), self.number(3)))
        short = f"LEFT$({self.text()},{self.rng.randrange(1, 24)})"
        return self.rng.choice(("", "", "", "LET ")) + self.pick(
            lambda: f"{self.rng.choice(NUMBERS)}={number}",
            lambda: f"{self.rng.choice(WHOLES)}={self.rng.choice((self.small(), f'({number})/99'))}",
            lambda: f"{self.rng.choice(STRINGS)}={short}",
            lambda: f"E({self.small()})={number}",
            lambda: f"F%({self.rng.randrange(3)},{self.rng.randrange(2)})={self.small()}",
            lambda: f"S$({self.small()})={short}",
            lambda: "C1=C1+1",
        )

    def reading(self) -> str:
        """READ, with the items for it: in some programs these are texts, which only strings can have."""
        targets = []
        for _ in range(self.rng.randrange(1, 4)):
            is_number = not self.has_texts and self.chance(70) or self.chance(0.2)
            targets.append(self.rng.choice(NUMBERS + ("E(3)", "P%") if is_number else STRINGS + ("S$(2)",)))
            self.data.append(self.rng.choice(TEXTS if self.has_texts else FIGURES))
        return ("RESTORE:" if self.chance(15) else "") + "READ " + ",".join(targets)

    def output(self) -> str:
        file = self.rng.choice(("4", "4", "4", "5", "C4", "2+2"))
        return self.pick(
            lambda: f"PRINT#{file},{self.parts(False)}".rstrip(","),
            lambda: f"PRINT#{file},{self.parts(False)}".rstrip(","),
            lambda: f"PRINT#{file}",
            lambda: f"PRINT {self.parts(True)}",
            lambda: f"CMD {file}:PRINT {self.parts(False)}:PRINT#{file}",
            lambda: f'CMD {file},"";:PRINT {self.parts(False)}:PRINT#{file},{self.parts(False)}'.rstrip(","),
        )

    def simple(self) -> str:
        """One statement that goes on with the next."""
        if self.chance(0.35):
            return self.rng.choice(FAULTS)
        if self.chance(0.5):
            return f"{self.rng.choice(NUMBERS)}={self.deep(self.rng.randrange(1, 16))}"
        return self.pick(
            self.assignment, self.assignment, self.assignment, self.output, self.output, self.output, self.reading, self.choice,
            lambda: f"POKE {self.rng.choice((53280, 1024, 55296))},{self.small()}",
            lambda: f"GOSUB <s{self.rng.randrange(self.later, self.subroutines)}>" if self.later < self.subroutines else "C1=C1+1",
            self.on,
        )  # fmt: skip

    def choice(self) -> str:
        """IF with statements; it has to be the last of its line."""
        return f"IF {self.number(1)}{self.rng.choice('<>=')}{self.number(1)} THEN {self.pick(self.assignment, self.output)}"

    def on(self) -> str:
        if self.later >= self.subroutines:
            return ""
        targets = [f"<s{self.rng.randrange(self.later, self.subroutines)}>" for _ in range(self.rng.randrange(1, 4))]
        return f"ON {self.small()} GOSUB {','.join(targets)}"

    # ---- lines

    def add(self, *statements: str) -> None:
        self.lines.append([it for it in statements if it])

    def label(self, name: str) -> None:
        self.labels[name] = len(self.lines)

    def block(self, depth: int, loops: tuple[str, ...]) -> None:
        """Some lines; loops inside have these variables."""
        for _ in range(self.rng.randrange(1, 5)):
            kind = self.rng.randrange(9 if depth else 3)
            if kind < 3:
                self.add(*(self.simple() for _ in range(self.rng.randrange(1, 4))))
            elif kind < 5 and loops:
                self.loop(depth, loops)
            elif kind == 5 and loops[1:]:
                self.joined_loops(depth, loops)
            elif kind == 6:
                self.skipped(depth, loops)
            elif kind == 7:
                self.chosen(depth, loops)
            else:
                self.counted(depth, loops)

    def loop(self, depth: int, loops: tuple[str, ...]) -> None:
        """FOR and NEXT; sometimes it is left by GOTO."""
        name, end = loops[0], f"l{len(self.lines)}"
        first, count, step = self.rng.randrange(-2, 5), self.rng.randrange(-1, 4), self.rng.choice((1, 1, 1, 2, -1, 0.5, -2))
        limit = str(first + count * step).replace("0.5", ".5")
        self.add(self.simple() if self.chance(20) else "", f"FOR {name}={first} TO {limit}" + ("" if step == 1 else f" STEP {step}"))
        self.block(depth - 1, loops[1:])
        if self.chance(15):
            self.add(f"IF {name}={first} AND C1>{self.rng.randrange(9)} THEN {self.rng.choice(('', 'GOTO '))}<{end}>")
        self.add(self.rng.choice(("NEXT", f"NEXT {name}")) if self.chance(85) else f"NEXT{name}")
        self.label(end)
        self.add("REM LEFT" if self.chance(50) else self.assignment())

    def joined_loops(self, depth: int, loops: tuple[str, ...]) -> None:
        """Two loops that one NEXT ends."""
        outer, inner = loops[:2]
        self.add(f"FOR {outer}=1 TO {self.rng.randrange(1, 3)}:FOR {inner}={outer} TO {self.rng.choice(('2', '.35 STEP .1', '0 STEP-1'))}")
        self.block(depth - 2 if depth > 1 else 0, loops[2:])
        self.add(f"NEXT {inner},{outer}")

    def chosen(self, depth: int, loops: tuple[str, ...]) -> None:
        """Lines of which ON chooses where to begin."""
        names = [f"o{len(self.lines)}_{at}" for at in range(self.rng.randrange(1, 4))]
        selector = self.rng.choice((self.small(), self.small(), f"{self.number(1)}", "1/3+1"))
        self.add(f"ON {selector} GOTO {','.join(f'<{it}>' for it in names)}")
        for name in names:
            self.block(0, loops)
            self.label(name)
            self.add(self.rng.choice((self.output(), self.assignment(), "REM HERE", "GO TO <" + names[-1] + ">" if name != names[-1] else "")))

    def skipped(self, depth: int, loops: tuple[str, ...]) -> None:
        """Lines that a condition leaves out."""
        end = f"i{len(self.lines)}"
        condition = f"{self.number(1)}{self.rng.choice(('<', '>', '=', '<>'))}{self.number(1)}"
        self.add(f"IF {condition} {self.rng.choice(('THEN ', 'GOTO ', 'THEN GOTO '))}<{end}>")
        self.block(depth - 1, loops)
        self.label(end)
        self.add(self.output())

    def counted(self, depth: int, loops: tuple[str, ...]) -> None:
        """Lines that are repeated by GOTO."""
        name = f"D{depth}"
        self.add(f"{name}=0")
        start = f"g{len(self.lines)}"
        self.label(start)
        self.add(f"{name}={name}+1", self.simple())
        self.block(depth - 1, loops)
        self.add(f"IF {name}<{self.rng.randrange(1, 4)} THEN <{start}>")

    def program(self) -> str:
        self.add("REM MADE")
        self.add("OPEN 4,4" + self.rng.choice(("", ",7", ",0")), "OPEN5,5:C4=4")
        self.add("DIM E(20),F%(3,2),S$(9)")
        for name in ("FNA", "FNQ")[: self.rng.randrange(3)]:
            self.add(f"DEF {name}(X)={self.number(1)}+X")
            self.functions.append(name)
        self.block(3, LOOPS)
        self.add(self.simple())
        self.block(2, LOOPS)
        self.add("CLOSE 4", self.rng.choice(("CLOSE5", "")), "END" if self.subroutines or self.chance(50) else "")
        for at in range(self.subroutines):
            self.later = at + 1
            self.label(f"s{at}")
            self.add(f"REM SUBROUTINE {at}")
            self.block(1, LOOPS[-1:])
            self.add(self.simple(), "RETURN")
        self.add_data()
        return self.typed()

    def add_data(self) -> None:
        """All items of DATA, more than once, on lines that may be anywhere."""
        items = self.data * 4
        while items:
            count = self.rng.randrange(1, 9)
            self.lines.append(["DATA " + ",".join(items[:count])])
            del items[:count]

    # ---- text

    def typed(self) -> str:
        """The lines with numbers, as somebody types them: some twice, some deleted, not always in order."""
        number, numbers = 0, []
        for _ in self.lines:
            number += self.rng.choice((1, 5, 10, 10, 10))
            numbers.append(number)
        rows = []
        for number, line in zip(numbers, self.lines):
            text = ":".join(line)
            for label, at in self.labels.items():
                text = text.replace(f"<{label}>", str(numbers[at]))
            if self.chance(4):
                rows.append(f'{number} PRINT"TYPED WRONG')
            if self.chance(2) and number + 1 not in numbers:
                rows += [f"{number + 1} GOTO 1", f"{number + 1}"]
            rows.append(f"{' ' * self.chance(3)}{number}{' ' * self.chance(70)}{self.styled(text) or ':'}")
        if self.chance(30):
            self.rng.shuffle(last := rows[-3:])
            rows[-3:] = last if not any('TYPED WRONG' in it or it.isdigit() for it in last) else rows[-3:]
        return "\n".join(rows) + "\n"

    def styled(self, text: str) -> str:
        """The same line: with ? for PRINT, without blanks, or in small letters outside strings."""
        style = self.rng.randrange(6)
        parts = text.split('"')
        if "DATA" in text or "REM" in text:
            return text
        for at in range(0, len(parts), 2):
            if style == 0:
                parts[at] = parts[at].replace("PRINT#", "\0").replace("PRINT", "?").replace("\0", "PRINT#")
            elif style == 1:
                parts[at] = parts[at].replace(" ", "")
            elif style == 2:
                parts[at] = parts[at].lower()
        return '"'.join(parts)


def made_program(seed: int) -> bytes:
    """The random program of a seed."""
    return Maker(seed).program().encode("ascii")
