#!/usr/bin/env python3
"""tests/rows/listings.py PROGRAM [COUNT]: one listing in four forms prints the same.

It makes COUNT listings (200 where none is given) of random statements from a fixed seed. Each is written as the text
of a script, as a saved program, as petcat's text and as a magazine prints it, and the saved program in a T64 file too;
PROGRAM prints all of them, and writes their traces. It also writes each byte in a string, as the three forms that can hold it, and cuts saved programs off at each
place: the exit status is 2, a line is on standard error, and nothing on standard output. It prints what differs and
ends with 1 then.

    tests/rows/listings.py --make SEED text|prg|petcat|magazine  writes one such listing in one form
    tests/rows/listings.py --prg < PETCAT > PROGRAM.prg      saves petcat's text as a program, as LOAD address $0801 wants it

The forms are made here from what the Commodore 64's manuals say of tokens and lines, and from petcat's names."""

import os
import random
import re
import subprocess
import sys

WORDS = """END FOR NEXT DATA INPUT# INPUT DIM READ LET GOTO RUN IF RESTORE GOSUB RETURN REM STOP ON WAIT LOAD SAVE VERIFY DEF
POKE PRINT# PRINT CONT LIST CLR CMD SYS OPEN CLOSE GET NEW TAB( TO FN SPC( THEN NOT STEP + - * / ^ AND OR > = < SGN INT ABS
USR FRE POS SQR RND LOG EXP COS SIN TAN ATN PEEK LEN STR$ VAL ASC CHR$ LEFT$ RIGHT$ MID$ GO""".split()
TOKENS = {word: 128 + i for i, word in enumerate(WORDS)}

NAMES = {3: "stop", 5: "wht", 8: "dish", 9: "ensh", 14: "swlc", 17: "down", 18: "rvon", 19: "home", 20: "del", 27: "esc",
    28: "red", 29: "rght", 30: "grn", 31: "blu", 129: "orng", 141: "sret", 142: "swuc", 160: "SHIFT-SPACE", 192: "SHIFT-*",
    219: "SHIFT-+", 220: "CBM--", 221: "SHIFT--", 223: "CBM-*"}
NAMES.update(zip(range(133, 141), "f1 f3 f5 f7 f2 f4 f6 f8".split()))
NAMES.update(zip(range(144, 160), "blk up rvof clr inst brn lred gry1 gry2 lgrn lblu gry3 pur left yel cyn".split()))
NAMES.update(zip(range(161, 192), """CBM-K CBM-I CBM-T CBM-@ CBM-G CBM-+ CBM-M CBM-POUND SHIFT-POUND CBM-N CBM-Q CBM-D
    CBM-Z CBM-S CBM-P CBM-A CBM-E CBM-R CBM-W CBM-H CBM-J CBM-L CBM-Y CBM-U CBM-O SHIFT-@ CBM-F CBM-C CBM-X CBM-V
    CBM-B""".split()))


def name_of(byte, rng):
    """A byte in petcat's text: as a character, by its name or by its number."""
    if 65 <= byte <= 90:
        return chr(byte + 32)
    if 193 <= byte <= 218:
        return chr(byte - 128) if rng.random() < 0.8 else "{SHIFT-%c}" % (byte - 128)
    if 32 <= byte <= 95 and byte != 34:
        return chr(byte)
    if byte in NAMES and rng.random() < 0.9:
        return "{%s}" % (NAMES[byte] if rng.random() < 0.5 else NAMES[byte].swapcase())
    if 1 <= byte <= 26 and byte not in NAMES and byte != 13:
        return "{CTRL-%c}" % (byte + 64)
    return "{$%02x}" % byte


MAGAZINE = {18: ["RVS", "RVS ON", "CTRL 9"], 146: ["OFF", "RVS OFF", "CTRL 0"], 29: ["RIGHT", "CRSR RT"], 222: ["PI"],
    94: ["UP ARROW"], 95: ["BACK ARROW"], 17: ["DOWN", "CRSR DN"], 145: ["UP", "CRSR UP"], 157: ["LEFT", "CRSR LF"],
    147: ["CLR", "SHIFT CLR/HOME"], 144: ["BLK", "CTRL 1"], 5: ["WHT", "CTRL 2", "E"], 28: ["RED", "CTRL 3"],
    159: ["CYN", "CTRL 4"], 156: ["PUR", "CTRL 5"], 30: ["GRN", "CTRL 6"], 31: ["BLU", "CTRL 7"], 158: ["YEL", "CTRL 8"],
    129: ["COMD 1"], 149: ["COMD 2"], 150: ["COMD 3"], 151: ["COMD 4"], 152: ["COMD 5"], 153: ["COMD 6"],
    154: ["COMD 7"], 155: ["COMD 8"], 32: ["SPACE"], 160: ["SHIFT-SPACE"], 27: ["ESC"], 148: ["INST"], 20: ["DEL", "T"]}


# Keys with the Commodore key, by their bytes: those that petcat names so, and the colours of the digits 1 to 8.
KEYS = {byte: name[-1] for byte, name in NAMES.items() if re.fullmatch("CBM-.", name)}
KEYS.update(zip([129] + list(range(149, 156)), "12345678"))


def magazine_name(byte, rng):
    """A byte in a magazine's listing: as a character, by a name or by its number, now and then with a count."""
    if 32 <= byte <= 95 and byte != 34 and rng.random() < 0.9:
        return chr(byte)
    names = MAGAZINE.get(byte, [])
    if byte in KEYS and rng.random() < 0.5:
        return rng.choice(["[<%s>]", "[<1 %s>]"]) % rng.choice([KEYS[byte], KEYS[byte].lower()])
    if 1 <= byte <= 26:
        names = names + [chr(byte + 64)]
    if 193 <= byte <= 218:
        names = names + ["SHIFT-%c" % (byte - 128)]
    name = rng.choice(names) if names and rng.random() < 0.9 else "$%02X" % byte
    if rng.random() < 0.2:
        name = "1 " + name + rng.choice(["", "S"])
    return "{%s}" % (name if rng.random() < 0.7 else name.lower())


# A statement is a list of parts: a keyword, a bytes object (a string), or other text.
def statement(rng):
    file = str(rng.choice([4, 5, 200, 7]))
    kind = rng.randrange(8)
    if kind == 0:
        return ["OPEN", file + "," + rng.choice(["4", "5", " 4"]) + rng.choice(["", ",7", ",0"])]
    if kind == 1:
        return ["CLOSE", file]
    if kind == 2:
        return ["REM", ' "{what} is this'] if rng.random() < 0.5 else ["REM", ""]
    if kind == 3:
        return ["CMD", file] + ([","] + items(rng) if rng.random() < 0.5 else [])
    if kind == 4:
        return ["PRINT"] + items(rng)
    return ["PRINT#", file + ","] + items(rng)


def items(rng):
    parts = []
    for _ in range(rng.randrange(1, 4)):
        if rng.random() < 0.7:
            length = rng.randrange(12)
            parts.append(bytes(rng.choice([b for b in range(1, 256) if b != 34]) for _ in range(length)))
        else:
            parts += ["CHR$", "(%d)" % rng.randrange(256)]
        parts.append(rng.choice([";", "", ";;"]))
    return parts


def listing(rng):
    lines = []
    for i in range(rng.randrange(1, 8)):
        statements = [["OPEN", "4,4"], ["OPEN", "5,5,7"]] if i == 0 else []
        for _ in range(rng.randrange(1, 4)):
            one = statement(rng)
            statements.append(one)
            if one[0] == "REM":
                break
        lines.append((rng.randrange(64000), statements))
    return lines


def as_text(lines):
    """The text of a script: bytes that its strings cannot hold are CHR$."""
    rows = []
    for number, statements in lines:
        texts = []
        for parts in statements:
            text = ""
            for part in parts:
                if isinstance(part, bytes):
                    text += '"' + "".join(chr(b) if 32 <= b <= 126 else '"CHR$(%d)"' % b for b in part) + '"'
                else:
                    text += part
            texts.append(text)
        rows.append("%d %s\n" % (number, ":".join(texts)))
    return "".join(rows).encode("latin-1")


def as_program(lines, rng):
    """A saved program. Some links are wrong, which nobody minds, and something may follow the end."""
    place, out = 0x0801, bytearray([1, 8])
    for number, statements in lines:
        body = bytearray()
        for i, parts in enumerate(statements):
            if i:
                body.append(58)
            for j, part in enumerate(parts):
                if isinstance(part, bytes):
                    body += b'"' + part + b'"'
                elif part in TOKENS and j == 0 or part == "CHR$":
                    body.append(TOKENS[part])
                else:
                    body += part.encode()
        if body.endswith(b'"') and statements[-1][0] != "REM" and rng.random() < 0.3:
            del body[-1]
        place += len(body) + 5
        link = place if rng.random() < 0.7 else rng.randrange(1, 65536)
        out += bytes([link & 255, link >> 8, number & 255, number >> 8]) + body + b"\0"
    out += b"\0\0"
    return bytes(out + rng.randbytes(rng.choice([0, 0, 5])))


def as_tape(program, rng):
    """A saved program in a T64 file: entries that are empty or a snapshot's, that of the program, and that of another
    program beside it. Some end addresses are one or two bytes too small, or the wrong one of old tools."""
    bytes_of_program, other = program[2:], bytes([14, 8, 10, 0, 153, 34, 78, 79, 34, 0, 0, 0])
    kinds = [rng.choice([0, 3]) for _ in range(rng.randrange(3))] + [1, 1]
    first = 64 + 32 * len(kinds)
    other_first = rng.random() < 0.5
    places = {True: first, False: first + (len(other) if other_first else len(bytes_of_program))}
    out = b"C64 tape image file".ljust(32, b"\0") + bytes([0, 1, len(kinds), 0, len(kinds), 0, 0, 0]) + b"TAPE".ljust(24)
    for i, kind in enumerate(kinds):
        is_program = i == len(kinds) - 2
        size = len(bytes_of_program) if is_program else len(other)
        stop = 0x0801 + size - rng.choice([0, 0, 1, 2]) if rng.random() < 0.7 else 0xC3C6
        place = places[other_first != is_program] if kind == 1 else first
        out += bytes([kind, 130, 1, 8, stop & 255, stop >> 8, 0, 0]) + place.to_bytes(4, "little") + bytes(4) + b"A".ljust(16)
    return out + (other + bytes_of_program if other_first else bytes_of_program + other)


def as_petcat(lines, rng):
    """petcat's text, with its heading; runs of one byte have a count now and then."""
    rows = ["\n", ";listing.prg ==0801==\n"] if rng.random() < 0.5 else []
    for number, statements in lines:
        texts = []
        for parts in statements:
            text = ""
            for part in parts:
                if isinstance(part, bytes):
                    names = [name_of(b, rng) for b in part]
                    if rng.random() < 0.5:
                        names = [re.sub(r"^\{(?=\D)", "{1 ", n) for n in names]
                    text += '"' + "".join(names) + '"'
                else:
                    text += part if parts[0] == "REM" and part != "REM" else part.lower()
            texts.append(text)
        rows.append("%5d %s%s" % (number, ":".join(texts), rng.choice(["\n", "\r\n"])))
    return "".join(rows).encode("latin-1")


def as_magazine(lines, rng):
    """The listing as a magazine prints it: capitals, and names of keys."""
    rows = []
    for number, statements in lines:
        texts = []
        for parts in statements:
            texts.append("".join('"%s"' % "".join(magazine_name(b, rng) for b in part) if isinstance(part, bytes) else part
                for part in parts))
        rows.append("%d %s%s" % (number, ":".join(texts), rng.choice(["\n", "\r\n"])))
    return "".join(rows).encode("latin-1")


def bytes_of(line):
    """The bytes of petcat's text in a string; only what the examples have."""
    out, rest = bytearray(), line
    codes = {name.lower(): code for code, name in NAMES.items()}
    while rest:
        found = re.match(r"\{(?:(\d+) )?([^}]*)\}", rest)
        if not found:
            c, rest = rest[0], rest[1:]
            out.append(ord(c.upper()) if c.islower() else ord(c) + 128 if c.isupper() else ord(c))
            continue
        name = found[2].lower()
        if name.startswith("$"):
            code = int(name[1:], 16)
        elif re.fullmatch(r"shift-[a-z]", name):
            code = ord(name[-1]) + 96
        else:
            code = codes[name]
        out += bytes([code]) * int(found[1] or 1)
        rest = rest[found.end():]
    return bytes(out)


def save(text):
    """petcat's text as a saved program."""
    place, out = 0x0801, bytearray([1, 8])
    words = sorted(TOKENS, key=len, reverse=True)
    for row in text.splitlines():
        if not row.strip() or row.startswith(";"):
            continue
        number, rest = re.match(r"\s*(\d+)\s?(.*)", row).groups()
        body = bytearray()
        while rest:
            if rest[0] == '"':
                string, _, rest = rest[1:].partition('"')
                body += b'"' + bytes_of(string) + b'"'
                continue
            word = next((w for w in words if rest.upper().startswith(w)), None)
            if word:
                body.append(TOKENS[word])
                rest = rest[len(word):]
                if word == "REM":
                    body += bytes_of(rest)
                    rest = ""
            else:
                body.append(ord(rest[0].upper()))
                rest = rest[1:]
        place += len(body) + 5
        out += bytes([place & 255, place >> 8, int(number) & 255, int(number) >> 8]) + body + b"\0"
    return bytes(out) + b"\0\0"


failed = 0


def fail(what):
    global failed
    failed += 1
    print("tests/rows/listings.py: " + what)


def run(program, words, data):
    done = subprocess.run([program] + words, input=data, stdout=subprocess.PIPE, stderr=subprocess.PIPE, check=False)
    return done.returncode, done.stdout, done.stderr


def main():
    if sys.argv[1:] == ["--prg"]:
        sys.stdout.buffer.write(save(sys.stdin.read()))
        return
    if sys.argv[1:2] == ["--make"]:
        rng = random.Random(int(sys.argv[2]))
        lines = listing(rng)
        sys.stdout.buffer.write({"text": lambda: as_text(lines), "prg": lambda: as_program(lines, rng),
            "petcat": lambda: as_petcat(lines, rng), "magazine": lambda: as_magazine(lines, rng)}[sys.argv[3]]())
        return
    if len(sys.argv) < 2 or not os.access(sys.argv[1], os.X_OK):
        sys.exit(__doc__ if len(sys.argv) < 2 else f"tests/rows/listings.py: no program {sys.argv[1]}")
    program, count = sys.argv[1], int(sys.argv[2]) if len(sys.argv) > 2 else 200
    rng = random.Random(1525)
    for i in range(count):
        lines = listing(rng)
        saved = as_program(lines, rng)
        forms = {"text": as_text(lines), "prg": saved, "petcat": as_petcat(lines, rng),
            "magazine": as_magazine(lines, rng), "auto": as_tape(saved, rng)}
        for words in (["pages"], ["bus"], ["pages", "--as", "text", "--status", "kept"]):
            answers = {form: run(program, words + ["--from", form], data) for form, data in forms.items()}
            if len(set(answers.values())) != 1:
                fail("listing %d, %s: %r\n  %r" % (i, words, forms, answers))
    for byte in range(256):
        say = [(4, [["OPEN", "4,4"], ["PRINT#", "4,", bytes([65, byte, 66])]])]
        wanted = run(program, ["bus"], b'OPEN4,4:PRINT#4,"A"CHR$(%d)"B"' % byte)
        petcat = b'open4,4:print#4,"a{$%02X}b"' % byte
        if run(program, ["bus", "--from", "petcat"], petcat) != wanted:
            fail("byte %d by its number in petcat's text" % byte)
        magazine = b'OPEN4,4:PRINT#4,"A{$%02X}B"' % byte
        if run(program, ["bus", "--from", "magazine"], magazine) != wanted:
            fail("byte %d by its number in a magazine's listing" % byte)
        if byte not in (0, 34) and run(program, ["bus", "--from", "prg"], as_program(say, rng)) != wanted:
            fail("byte %d in a saved program" % byte)
    whole = save('10 open 4,4\n20 print#4,"{rvon}a"\n30 close 4\n')
    for n in range(len(whole)):
        status, out, error = run(program, ["pages", "--from", "prg"], whole[:n])
        line = 0
        place = 2
        while n >= 2 and place <= n:
            line += 1
            stop = whole.find(b"\0", place + 4)
            if stop < 0 or stop >= n:
                break
            place = stop + 1
        wanted = b"print1525: not a saved program\n" if n < 2 else b"print1525: line %d: cut off\n" % line
        if (status, out, error) != (2, b"", wanted):
            fail("cut off after %d bytes: %r" % (n, (status, out, error, wanted)))
    print("%d listings in four forms, 256 bytes, %d cuts: %d passed, %d failed" % (count, len(whole), count + 256 + len(whole) - failed, failed))
    sys.exit(failed > 0)


main()
