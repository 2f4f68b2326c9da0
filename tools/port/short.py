"""Makes the C of c_of_wasm.py shorter: statements that stand beside each other become one, and functions, variables and labels get short
names. It knows statements by their text alone: a function is fN, a local vN, another variable tN and a label bN.

What a statement does stays as it is, and so does the order of all that reads and writes memory, but for this: stores in a row at known
places beside one variable, of which none reads memory and no two write the same byte, may be done in any order."""

import itertools
import re
from collections import Counter

# What copies a number from one place to another, as a store and a load, beside a variable each.
COPY = re.compile(r"N\(([vtSD]\d*)([-+]\d+)?,Q\(([vtSD]\d*)([-+]\d+)?\)\);")
# The most stores, or copies, that one statement does.
MOST = 6
LETTERS = "abcdefghijklmnopqrstuvwxyz"
# What may be no name: keywords of C, of C++ and of compilers.
KEYWORDS = {"do", "if", "or", "asm", "for", "int", "far", "new", "not", "xor", "and", "try", "near"}
WIDTHS = {"A": 1, "E": 2, "M": 4, "N": 8}
STORE = re.compile(r"([AEMN])\(([vtSD]\d*)([-+]\d+)?,(.*)\);")
FILL = re.compile(r"fill\(([vtSD]\d*)([-+]\d+)?,0,(\d+)\);")
NUMBER = re.compile(r"-?\d+|0x[0-9a-f]+")
# A call of any function, of which some read or write memory; and one that gives a variable its value.
CALLS = re.compile(r"[A-Za-z_]\w*\(")
CALL = re.compile(r"(t\d+)=(f\d+\(.*\));")
# The most bytes of a run of stores of constants for which all ways to write it are compared.
LONGEST = 400


def place(base, offset):
    """An address beside a variable."""
    return base + (f"{offset:+}" if offset else "")


def whole_number(number, width):
    """The shortest constant of C for a number of some bytes without a sign, where only those count."""
    signed = number - (1 << 8 * width) if number >> (8 * width - 1) else number
    texts = [str(number)] if number < 2**63 else []
    texts += [str(signed)] if signed > -(2**63) else []
    return min([*texts, hex(number)], key=len)


class Constants:
    """Bytes that a row of stores writes beside a variable, each known."""

    def __init__(self, base, literals):
        self.base, self.literals, self.bytes = base, literals, {}

    def add(self, offset, data):
        self.bytes |= {offset + at: byte for at, byte in enumerate(data)}

    def alone(self):
        """The places of numbers of 8 bytes that no other byte is beside."""
        begins = [it for it in self.bytes if it - 1 not in self.bytes]
        return [it for it in begins if all(it + at in self.bytes for at in range(8)) and it + 8 not in self.bytes]

    def taken(self, offset):
        """Such a number, which is left out here."""
        return whole_number(int.from_bytes((self.bytes.pop(offset + at) for at in range(8)), "little"), 8)

    def statements(self):
        """The shortest statements that write them."""
        found, at = [], min(self.bytes, default=0)
        while at in self.bytes:
            end = at
            while end in self.bytes and end < at + LONGEST:
                end += 1
            found += self.of_range(at, end)
            at = end if end in self.bytes else min((it for it in self.bytes if it >= end), default=None)
        return found

    def of_range(self, begin, end):
        data = bytes(self.bytes[it] for it in range(begin, end))
        # The shortest way from each byte to the end: its length, its first statement, and where that ends.
        best = {end: (0, "", end)}
        for at in reversed(range(begin, end)):
            best[at] = min((len(text) + cost + best[stop][0], text, stop) for text, cost, stop in self.ways(data, begin, at, end))
        at, found = begin, []
        while at < end:
            text, stop = best[at][1:]
            found.append(self.literal(data[at - begin : stop - begin], at) if text.startswith("O(") else text)
            at = stop
        return found

    def ways(self, data, begin, at, end):
        """Statements for the bytes from a place on, what else each costs, and where it ends."""
        rest = data[at - begin :]
        for name, width in WIDTHS.items():
            if width <= len(rest):
                yield f"{name}({place(self.base, at)},{whole_number(int.from_bytes(rest[:width], 'little'), width)});", 0, at + width
        zeros = len(rest) - len(rest.lstrip(b"\0"))
        if zeros > 2:
            yield f"Z({place(self.base, at)},{zeros});", 0, at + zeros
        for width in range(16, len(rest) + 1, 8) if rest[0] else ():
            yield f"O({place(self.base, at)},D+00000,{width});", 0 if rest[:width] in self.literals else 2 * width + 2, at + width

    def literal(self, data, at):
        return f"O({place(self.base, at)},D+{self.literals.place(data)},{len(data)});"


def store_of(line):
    """A store of a line: which, the variable, how far beside it, how many bytes, and the value's text."""
    found = FILL.fullmatch(line)
    if found and int(found[3]) <= LONGEST:
        return "Z", found[1], int(found[2] or 0), int(found[3]), "0"
    found = STORE.fullmatch(line)
    return (found[1], found[2], int(found[3] or 0), WIDTHS[found[1]], found[4]) if found else None


def with_runs(lines, literals):
    """The lines with stores of constants in a row as fewer ones."""
    made, row, taken = [], [], {}

    def end_row():
        if row:
            constants, others = Constants(row[0][1], literals), {}
            for _, _, offset, width, value, line in row:
                if NUMBER.fullmatch(value):
                    constants.add(offset, (int(value, 0) & ((1 << 8 * width) - 1)).to_bytes(width, "little"))
                else:
                    others[offset] = (width, value, line)
            for offset in constants.alone():
                number = constants.taken(offset)
                others[offset] = (8, number, f"N({place(row[0][1], offset)},{number});")
            made.extend([*constants.statements(), *side_by_side(row[0][1], others)])
            row.clear()
            taken.clear()

    for line in lines:
        store = store_of(line)
        if not store or CALLS.search(store[4]):
            end_row()
            made.append(line)
            continue
        bytes_ = range(store[2], store[2] + store[3])
        if row and (row[0][1] != store[1] or any(it in taken for it in bytes_)):
            end_row()
        row.append((*store, line))
        taken |= dict.fromkeys(bytes_)
    end_row()
    return made


def side_by_side(base, stores):
    """Stores beside a variable, by their place, as statements: those of 8 bytes beside each other as one."""
    found, values, ends = [], [], None
    for offset, (width, value, line) in sorted(stores.items()):
        if width == 8 and offset == ends and len(values) < MOST:
            values.append(value)
            found[-1] = f"N{len(values)}({place(base, ends - 8 * len(values) + 8)},{','.join(values)});"
        else:
            found.append(line)
            values = [value]
        ends = offset + 8 if width == 8 else None
    return found


def with_copies(lines):
    """The lines with copies in a row, of 8 bytes each, as one: upwards or downwards, in the same order."""
    made, ends, step, count = [], None, 0, 0
    for line in lines:
        found = COPY.fullmatch(line)
        to, source, offset, other = (found[1], found[3], int(found[2] or 0), int(found[4] or 0)) if found else (None,) * 4
        is_next = found and ends and ends[:3] == (to, source, offset - other) and abs(offset - ends[3]) == 8 and count < MOST
        if is_next and (count == 1 or offset - ends[3] == step):
            step, count = offset - ends[3], count + 1
            lowest = offset if step < 0 else offset - 8 * (count - 1)
            made[-1] = f"{'Y' if step > 0 else 'V'}{count}({place(to, lowest)},{place(source, lowest - offset + other)});"
        else:
            made.append(line)
            count = 1
        ends = (to, source, offset - other, offset) if found else None
    return made


def with_calls(lines):
    """The lines with a call in the place of the variable that holds its result, where the next line alone reads that, always, and calls
    nothing else."""
    count = Counter(re.findall(r"\bt\d+\b", "".join(lines)))
    made = []
    for line in lines:
        call = CALL.fullmatch(made[-1]) if made else None
        read = re.search(rf"\b{call[1]}\b(?!=[^=])", line) if call and count[call[1]] == 2 else None
        # (Of a statement its own word is no other call: but copies and fills take no result.)
        rest = re.sub(r"^(?:[AEMNJ]|if|switch|f\d+)\(", "", line)
        if read and not CALLS.search(rest) and not re.search(r"[?]|&&|\|\|", line) and "{" not in line[: read.start()]:
            made[-1] = line[: read.start()] + call[2] + line[read.end() :]
        else:
            made.append(line)
    return made


def with_phrases(lines):
    """The lines with what comes often as a word of the prelude: memory that is freed where there is some. Labels that nothing goes to any
    more are left out."""
    text = "\n".join(lines)
    text = re.sub(r"if\(([^\n]*)\)\{\ndrop\(([^\n]*)\);\n\}(?!else)", r"K(\1,\2)", text)
    text = re.sub(r"J\(!(\w+|[BHWQ]\([-\w+]*\)),(b\d+)\)\ndrop\(([^\n]*)\);\n(?=\2:|G \2;)", r"K(\1,\3)\n", text)
    text = re.sub(r"K\(Q\(([vt]\d+)([-+]\d+)?\),Q\(([vt]\d+)([-+]\d+)?\)\)", freed, text)
    used = set(re.findall(r"\bb\d+\b(?!:)", text))
    return [it for it in text.split("\n") if not re.fullmatch(r"b\d+:", it) or it[:-1] in used]


def freed(found):
    """The same of a text or a list: its first number is the place, and its third one is not 0 where there is memory."""
    at, start = int(found[2] or 0), int(found[4] or 0)
    return f"V({place(found[3], start)})" if found[1] == found[3] and at == start + 16 else found[0]


def with_labels(lines):
    """The lines with a statement after each label: an empty one at the end of a block."""
    return [f"{it};" if it.endswith(":") and following.startswith("}") else it for it, following in zip(lines, [*lines[1:], "}"])]


def shorter(lines, literals):
    """The lines of a function as fewer and shorter ones. `literals` are the data, for bytes that are copied from there."""
    return with_labels(with_phrases(with_copies(with_runs(with_calls(lines), literals))))


def local_names():
    """Names of variables and of labels: a, b, .. z, aa, ab, .."""
    for length in itertools.count(1):
        for letters in itertools.product(LETTERS, repeat=length):
            if "".join(letters) not in KEYWORDS:
                yield "".join(letters)


def function_names():
    """Names of functions: Aa, Ab, .. Zz, Aaa, Aab, .."""
    for length in itertools.count(1):
        for first in LETTERS.upper():
            for letters in itertools.product(LETTERS, repeat=length):
                yield first + "".join(letters)


def by_use(words, names):
    """Names of words, the shorter the oftener they come."""
    return dict(zip((it for it, _ in Counter(words).most_common()), names))


def names_of_functions(texts):
    """The name of each function, by its number."""
    words = [it for lines in texts for line in lines for it in re.findall(r"\bf(\d+)\b", line)]
    return {int(it): name for it, name in by_use(words, function_names()).items()}


def with_names(text, names):
    """A text with these names of functions."""
    return re.sub(r"\bf(\d+)\b", lambda found: names[int(found[1])], text)


def shortened(lines):
    """The lines of a function with short names of its variables and labels."""
    text = "".join(lines)
    names = by_use(re.findall(r"\b[vt]\d+\b", text), local_names()) | by_use(re.findall(r"\bb\d+\b", text), local_names())
    return [re.sub(r"\b[vtb]\d+\b", lambda found: names[found[0]], it) for it in lines]
