"""Translates a module of 64-bit WebAssembly that can lie anywhere (wasm.py) to C99 over the host's own memory.

An address of the module is a pointer of the host, kept as a number of 64 bits: the module's memory is the program's. So nothing is
copied, and a load or store of the module is one of the host. The parts of the result:

- Each function of the module that an export reaches is a static function, with the module's locals as variables and its blocks as labels.
  A value that the module leaves on its stack is an expression, written out where it is used: an assignment to what it reads, or a store
  if it reads memory, first puts it into a variable.
- In the place of the module's stack each function has an array of its own, as large as the part of the stack that it takes: S is the address
  of its end, where the module's stack pointer is when the function begins. How far it is below that is known at each place of the code.
- The module's data is a constant structure: bytes, and between them the addresses that the module's start function would write.

While it is made, a function is fN, a local vN, another variable tN and a label bN. At the end short.py puts statements together and gives
short names. expressions.py says how values are written."""

import re
from collections import Counter
from dataclasses import dataclass, field, replace

import short
from expressions import BITS, C_TYPES, CHAINED, RANKS, SIGNED, Value, bound_of, constant, fraction, joined, met

PLAIN = {"add": "+", "sub": "-", "mul": "*", "and": "&", "or": "|", "xor": "^", "div_u": "/", "rem_u": "%", "div": "/"}
COMPARED = {"eq": "==", "ne": "!=", "lt": "<", "gt": ">", "le": "<=", "ge": ">="}
SHIFTED = {"shl": "<<", "shr_u": ">>", "shr_s": ">>"}
UNARY = "eqz wrap_i64 extend_i32_u extend_i32_s clz ctz convert_i64_u reinterpret_i64 reinterpret_f64".split()
CALLED = {"clz": "clz", "ctz": "ctz", "rotl": "rotl", "rotr": "rotr"}
# The prelude's functions that read and write memory, by instruction, and the greatest number that those of a few bytes read.
LOADS = {"i32.load": "W", "i64.load": "Q", "i32.load8_u": "B", "i64.load8_u": "B", "i32.load16_u": "H", "i64.load16_u": "H"}
LOADS |= {"f64.load": "lf"}
LOADS |= {"i64.load32_u": "W", "i32.load8_s": "l1s", "i64.load8_s": "l1s", "i32.load16_s": "l2s", "i64.load16_s": "l2s", "i64.load32_s": "l4s"}
LOADED = {"B": ("I", 255), "H": ("I", 65535), "W": ("I", None), "Q": ("L", None), "lf": ("F", None)}
STORES = {"i32.store": "M", "i64.store": "N", "i32.store8": "A", "i64.store8": "A", "i32.store16": "E", "i64.store16": "E", "i64.store32": "M"}
STORES |= {"f64.store": "sf"}
MANY = {"memory.copy": "copy", "memory.fill": "fill"}
# A function that takes as many bytes of the stack stays one of its own where the compiler can be told so.
LARGE = 4096
# The most columns of a line of the result, and the most bytes of a string, of which C99 promises 4,095.
COLUMNS = 1000
LITERAL = 4000
# How far apart addresses in the data may be that are in one part of it.
NEAR = 32


class Untranslated(Exception):
    """The module has something that this translation does not serve."""


class Again(Exception):
    """At the head of a loop less is known than the translation took for granted."""


def assignment(variable, value):
    """The statement that gives a variable a value: shorter where that adds to it."""
    found = re.fullmatch(rf"{variable}([-+])(\w+)", value.text)
    if found:
        return f"{variable}{found[1]}{found[1]};" if found[2] == "1" else f"{variable}{found[1]}={found[2]};"
    return f"{variable}={value.text};"


@dataclass
class Block:
    """A block that is being translated: where a branch to it goes, the variable of its result, the line of its label, and what is known
    where it begins and wherever its end is reached: which variables hold places in the stack, and which have a value."""

    kind: str
    label: str
    result: str
    type: str
    height: int
    line: int
    known: tuple
    ends: list = field(default_factory=list)
    is_branched_to: bool = False


class Translation:
    """The C of one function."""

    def __init__(self, module, number):
        self.module, self.number = module, number
        function = module.functions[number]
        self.kinds = [*function.parameters, *function.locals]
        self.count, self.results = len(function.parameters), function.results
        # For each loop the variables that hold no one place in the stack at its head.
        self.unknown = {}
        while True:
            try:
                self.begin()
                for instruction in function.body:
                    self.translate(*instruction)
                self.finish()
                return
            except Again:
                pass

    def begin(self):
        self.lines, self.stack, self.blocks, self.temporaries = [], [], [], []
        self.labels = 0
        self.is_live, self.dead_depth = True, 0
        # The stack that the function takes, and how far below its beginning the stack pointer and the places are that variables hold.
        self.frame, self.places = 0, {"S": 0}
        # The locals that have a value, and those that may be read before, when they are 0.
        self.given, self.zeros = {f"v{at}" for at in range(self.count)}, set()

    # Variables, statements and the stack.

    def emit(self, text):
        self.lines.append(text)

    def temporary(self, kind):
        self.temporaries.append(kind)
        return f"t{len(self.temporaries)}"

    def push(self, text, kind, *of, **how):
        """Pushes an expression that reads what these values read."""
        reads = frozenset().union(*(it.reads for it in of), how.pop("reads", ()))
        c = how.pop("c", C_TYPES[kind])
        self.stack.append(Value(text, kind, c, reads=reads, **how))

    def pop(self):
        return self.stack.pop()

    def keep(self, variable=None):
        """Puts the values on the stack that read a variable into others before it changes, or without a name all that are not constant."""
        for at, it in enumerate(self.stack):
            is_own = re.fullmatch(r"t\d+", it.text)
            if it.number is None and not is_own and (variable is None or variable in it.reads):
                kept = self.temporary(it.type)
                self.emit(f"{kept}={it.text};")
                self.stack[at] = Value(kept, it.type, C_TYPES[it.type])

    # Blocks and branches.

    def known(self):
        return dict(self.places), set(self.given)

    def begin_block(self, kind, result):
        condition = self.pop() if kind == "if" else None
        self.keep()
        self.labels += 1
        variable = self.temporary(result) if result else ""
        label = f"b{self.labels}"
        for it in self.unknown.get(label, ()):
            self.places.pop(it, None)
        self.blocks.append(Block(kind, label, variable, result, len(self.stack), len(self.lines), self.known()))
        if kind == "loop":
            self.emit(f"{label}:")
        elif condition:
            self.emit(f"if({condition.condition()}){{")

    def leave_block(self, block):
        """At the end of a block or of its first part: its value goes into the variable, where the end is reached."""
        if self.is_live:
            block.ends.append(self.known())
            if block.result:
                self.emit(f"{block.result}={self.pop().text};")
        del self.stack[block.height :]

    def else_block(self):
        block = self.blocks[-1]
        self.leave_block(block)
        self.emit("}else{")
        block.kind, self.is_live = "else", True
        self.places, self.given = dict(block.known[0]), set(block.known[1])

    def end_block(self):
        if not self.blocks:
            return
        block = self.blocks.pop()
        self.leave_block(block)
        if block.kind in ("if", "else"):
            self.emit("}")
        if block.kind == "if":
            block.ends.append(block.known)
        if block.is_branched_to and block.kind != "loop":
            self.emit(f"{block.label}:")
        elif block.kind == "loop" and not block.is_branched_to:
            self.lines[block.line] = ""
        self.is_live, self.dead_depth = bool(block.ends), 0
        if self.is_live:
            places, given = block.ends[0]
            self.places = {it: place for it, place in places.items() if all(end[0].get(it) == place for end in block.ends)}
            self.given = given.intersection(*(it[1] for it in block.ends))
            if block.result:
                self.push(block.result, block.type)

    def skip(self, name):
        """Passes over an instruction that is never reached, up to the end of the block that it is in."""
        if name in ("block", "loop", "if"):
            self.dead_depth += 1
        elif name == "end" and self.dead_depth:
            self.dead_depth -= 1
        elif name == "end" or (name == "else" and not self.dead_depth):
            self.translate_control(name)

    def jump(self, depth):
        """The statement that leaves to a block, with its value, or returns."""
        if depth == len(self.blocks):
            return f"R {self.stack[-1].text};" if self.results else "R;"
        block = self.blocks[-1 - depth]
        block.is_branched_to = True
        if block.kind == "loop":
            self.return_to(block)
        else:
            block.ends.append(self.known())
        has_value = block.result and block.kind != "loop"
        return (f"{block.result}={self.stack[-1].text};" if has_value else "") + f"G {block.label};"

    def return_to(self, loop):
        """Notes which places are others at the head of a loop when it is entered again."""
        others = {it for it, place in loop.known[0].items() if self.places.get(it) != place}
        if others:
            self.unknown.setdefault(loop.label, set()).update(others)
            raise Again

    def branch_if(self, depth):
        condition = self.pop().condition()
        jump = self.jump(depth)
        if jump.startswith("G "):
            self.emit(f"J({condition},{jump[2:-1]})")
        else:
            self.emit(f"if({condition}){{{jump}}}")

    def branch_table(self, depths):
        chosen = self.pop()
        by_jump = {}
        for at, depth in enumerate(depths[:-1]):
            by_jump.setdefault(self.jump(depth), []).append(at)
        default = self.jump(depths[-1])
        by_jump.pop(default, None)
        cases = "".join("".join(f"C {it}:" for it in places) + jump for jump, places in by_jump.items())
        self.emit(f"switch({chosen.exact().text}){{{cases}Y:{default}}}")

    def stop_here(self):
        self.is_live, self.dead_depth = False, 0

    # Instructions.

    def translate(self, name, *rest):
        if not self.is_live:
            self.skip(name)
        elif name in ("block", "loop", "if"):
            self.begin_block(name, *rest)
        elif name in ("else", "end", "br", "br_if", "br_table", "return", "unreachable"):
            self.translate_control(name, *rest)
        elif name.split(".")[0] in ("local", "global"):
            self.translate_variable(name, *rest)
        elif name != "nop":
            self.translate_value(name, *rest)

    def translate_control(self, name, *rest):
        if name == "else":
            self.else_block()
        elif name == "end":
            self.end_block()
        elif name == "br_if":
            self.branch_if(*rest)
        elif name == "br_table":
            self.branch_table(*rest)
            self.stop_here()
        else:
            self.emit(self.jump(len(self.blocks) if name == "return" else rest[0]) if name != "unreachable" else "X;")
            self.stop_here()

    def translate_variable(self, name, number):
        if name == "global.get":
            which = self.module.globals[number]
            if which == "__stack_pointer":
                self.push_stack()
            elif which == "__memory_base":
                self.push("D", "i64")
            else:
                raise Untranslated(f"the global {which}")
        elif name == "global.set":
            self.set_stack(self.pop())
        elif name == "local.get":
            variable = f"v{number}"
            if variable not in self.given:
                self.zeros.add(variable)
            self.push(variable, self.kinds[number], reads=(variable,), below=self.places.get(variable))
        else:
            self.set_local(f"v{number}", self.pop())
            if name == "local.tee":
                self.translate_variable("local.get", number)

    def push_stack(self):
        """Pushes where the stack pointer is."""
        below = self.places.get("S")
        if below is None:
            raise Untranslated(f"f{self.number} reads a stack pointer that is not known")
        self.push(f"S-{below}" if below else "S", "i64", sign="-" if below else "", below=below)

    def set_stack(self, value):
        """Lowers or raises the stack pointer. Only what is known of it changes."""
        if value.below is None:
            raise Untranslated(f"f{self.number} moves the stack by {value.text}")
        self.places["S"] = value.below

    def set_local(self, variable, value):
        self.places.pop(variable, None)
        self.given.add(variable)
        if value.below is not None:
            self.places[variable] = value.below
        is_last = self.lines and re.fullmatch(r"t\d+", value.text) and self.lines[-1].startswith(f"{value.text}=")
        is_like = is_last and self.temporaries[int(value.text[1:]) - 1] == self.kinds[int(variable[1:])]
        if is_like and not any(variable in it.reads for it in self.stack):
            self.lines[-1] = variable + self.lines[-1][len(value.text) :]
            return
        self.keep(variable)
        self.emit(assignment(variable, value))

    def translate_value(self, name, *rest):
        kind, _, what = name.partition(".")
        if what == "const":
            self.stack.append(fraction(rest[0]) if kind == "f64" else constant(kind, rest[0]))
        elif name == "call":
            self.call(rest[0])
        elif name == "drop":
            self.pop()
        elif name == "select":
            self.select()
        elif name in LOADS:
            self.load(name, kind, rest[0])
        elif name in STORES:
            self.store(name, rest[0])
        elif name in MANY:
            length, source, place = self.pop(), self.pop(), self.pop()
            self.keep("memory")
            self.emit(f"{MANY[name]}({place.text},{source.text},{length.text});")
        elif what in UNARY:
            self.unary(kind, what, self.pop())
        else:
            right, left = self.pop(), self.pop()
            self.binary(kind, what, left, right)

    def call(self, number):
        function = self.module.functions[number]
        values = [self.pop() for _ in function.parameters][::-1]
        self.keep("memory")
        text = f"{function.imported or f'f{number}'}({','.join(it.text for it in values)})"
        if function.results:
            kept = self.temporary(function.results[0])
            self.emit(f"{kept}={text};")
            self.push(kept, function.results[0])
        else:
            self.emit(f"{text};")

    def select(self):
        condition, right, left = self.pop(), self.pop(), self.pop()
        test = condition.condition() if condition.is_truth() or condition.sign in ("cast", "") else f"({condition.condition()})"
        left, right = met(left, right)
        most = max(left.most, right.most) if None not in (left.most, right.most) else None
        c = max(left.c, right.c, key=RANKS.index)
        self.push(f"{test}?{left.text}:{right.text}", left.type, condition, left, right, sign="?", c=c, most=most)

    @staticmethod
    def address(value, offset):
        """The address of a load or a store. A sum needs no parentheses before another number is added."""
        if not offset:
            return value.text
        value = value if value.c == "L" else value.as_c("L")
        found = re.fullmatch(r"(\w+)([-+]\d+)", value.text)
        if found:
            offset += int(found[2])
            return found[1] + (f"{offset:+}" if offset else "")
        return f"{value.within('+')}+{offset}"

    def load(self, name, kind, offset):
        place, called = self.pop(), LOADS[name]
        c, most = LOADED.get(called, ("int", None))
        self.push(f"{called}({self.address(place, offset)})", kind, place, reads=("memory",), c=c, most=most)

    def store(self, name, offset):
        value, place = self.pop(), self.pop()
        self.keep("memory")
        self.emit(f"{STORES[name]}({self.address(place, offset)},{value.text});")

    def unary(self, kind, what, value):
        if what == "eqz":
            value = value if value.c == "int" else value.exact()
            self.push(f"!{value.within('cast')}", "i32", value, sign="!", c="int", most=1)
        elif what == "extend_i32_u":
            self.stack.append(replace(value.exact(), type="i64", below=None))
        elif what == "extend_i32_s":
            self.stack.append(replace(value if value.c == "int" else value.signed("T"), type="i64"))
        elif what == "wrap_i64":
            # (An "int" of 32 bits is no more than its type has.)
            value = value if value.c != "int" or value.is_small() else value.as_c("I")
            self.stack.append(replace(value, type="i32", below=None, shifted=None))
        elif what == "convert_i64_u":
            self.push(f"whole({value.text})", kind, value)
        elif what.startswith("reinterpret"):
            self.push(f"{'bits' if kind == 'i64' else 'real'}({value.text})", kind, value)
        else:
            self.push(f"{CALLED[what]}{4 if kind == 'i32' else 8}({value.text})", kind, value, most=BITS[kind])

    def binary(self, kind, what, left, right):
        stem, _, sign = what.partition("_")
        if stem in COMPARED:
            self.compare(kind, COMPARED[stem], sign == "s", left, right)
        elif what in SHIFTED:
            self.shift(kind, what, left, right)
        elif what in CALLED:
            self.push(f"{CALLED[what]}{4 if kind == 'i32' else 8}({left.text},{right.text})", kind, left, right)
        elif kind == "f64":
            text = f"mul({left.text},{right.text})" if what == "mul" else f"{left.within(PLAIN[what])}{PLAIN[what]}{right.within(PLAIN[what])}"
            self.push(text, kind, left, right, sign="" if what == "mul" else PLAIN[what])
        elif what in ("div_u", "rem_u"):
            self.divide(kind, PLAIN[what], left.exact(), right.exact())
        elif what in PLAIN:
            self.arithmetic(kind, what, left, right)
        else:
            raise Untranslated(f"the instruction {kind}.{what}")

    def compare(self, kind, sign, is_signed, left, right):
        level = "==" if sign in ("==", "!=") else "<"
        if is_signed:
            left, right = (it if it.c == "int" else it.signed(SIGNED[kind]) for it in (left, right))
        elif kind != "f64" and not (level == "==" and left.c == right.c == "int"):
            left, right = (it if it.c == "int" and other.c == C_TYPES[kind] else it.exact() for it, other in ((left, right), (right, left)))
        self.push(f"{left.within(level)}{sign}{right.within(level)}", "i32", left, right, c="int", sign=level, most=1)

    def shift(self, kind, what, left, right):
        last = BITS[kind] - 1
        if right.number is not None:
            count, furthest = str(right.number & last), right.number & last
        else:
            is_small = right.bound() is not None and right.bound() <= last
            count, furthest = right.within("<<") if is_small else f"({right.within('&')}&{last})", last
        if what == "shr_s":
            self.shift_signed(kind, left, right, count)
            return
        value, most = left, None
        if what == "shl":
            most = left.bound() << furthest if left.is_exact() else None
            # (What is above the lowest bits is of no account. An I may stay one where no bit of 64 is lost.)
            is_wide = left.c == C_TYPES[kind] or (left.c == "L" and kind == "i32") or (left.c == "I" and most is not None and most < 2**32 and furthest < 32)
        else:
            left = left.exact()
            most = left.bound() >> (furthest if right.number is not None else 0)
            is_wide = left.c in ("I", "L") and furthest < BITS["i64" if left.c == "L" else "i32"]
        left = left if is_wide else left.as_c(C_TYPES[kind])
        most = most if most is not None and most < 2 ** (32 if left.c == "I" else 64) else None
        shifted = (value, right.number) if what == "shl" and right.number is not None else None
        sign = SHIFTED[what]
        self.push(f"{left.within(sign)}{sign}{count}", kind, left, right, sign=sign, c=left.c, most=most, shifted=shifted)

    def shift_signed(self, kind, left, right, count):
        """Shifts a number with a sign to the right: or takes its lowest bits, where it was shifted to the left as far before."""
        name = {8: "int8_t", 16: "int16_t", 32: "T"}.get(BITS[kind] - right.number) if left.shifted and left.shifted[1] == right.number else None
        if name:
            self.stack.append(left.shifted[0].signed(name))
            return
        # (What has a sign in C may have only 32 bits there.)
        left = left if left.c == "int" and kind == "i32" else left.signed(SIGNED[kind])
        self.push(f"{left.within('>>')}>>{count}", kind, left, right, sign=">>", c="int")

    def divide(self, kind, sign, left, right):
        if left.c != C_TYPES[kind] and right.c != C_TYPES[kind] and not (left.c == "I" and right.bound() < 2**31):
            left = left.as_c(C_TYPES[kind])
        c = max(left.c, right.c, key=RANKS.index)
        most = left.bound() if sign == "/" else right.bound()
        self.push(f"{left.within(sign)}{sign}{right.within(sign)}", kind, left, right, sign=sign, c=c, most=most)

    def arithmetic(self, kind, what, left, right):
        if what in ("add", "sub") and right.number is not None and right.number < 0:
            what, right = "sub" if what == "add" else "add", constant(kind, -right.number)
        below = None
        if left.below is not None and right.number is not None and what in ("add", "sub"):
            below = left.below + (right.number if what == "sub" else -right.number)
            # (A function that calls none may use 128 bytes below the stack pointer without lowering it.)
            self.frame = max(self.frame, below)
        most = bound_of(what, left, right)
        left, right, c = joined(kind, what, left, right, most)
        how = {"c": c, "below": below, "most": most if most is not None and most < {"int": 2**31, "I": 2**32, "L": 2**64}[c] else None}
        sign = PLAIN[what] * (2 if what in ("and", "or") and left.is_truth() and right.is_truth() else 1)
        # (A number may be added to the one that the sum before it ends with.)
        found = re.fullmatch(r"(.*[\w)])([-+]\d+)", left.text) if left.sign and left.sign in "+-" and sign in "+-" else None
        if found and c == left.c == "L" and right.number is not None and right.text.isdigit():
            number = int(found[2]) + (right.number if sign == "+" else -right.number)
            self.push(found[1] + f"{number:+}" * bool(number), kind, left, right, sign=left.sign if number else "+", **how)
            return
        first = left.text if (left.sign, sign) in CHAINED else left.within(sign)
        is_chained = (sign, right.sign) in CHAINED and sign != "-" and left.c == right.c == c and (c != "int" or right.is_truth())
        self.push(f"{first}{sign}{right.text if is_chained else right.within(sign)}", kind, left, right, sign=sign, **how)

    # The function as a whole.

    def finish(self):
        if self.is_live and self.results and self.stack:
            self.emit(f"R {self.stack[-1].text};")
        while self.drop_unused():
            pass

    def drop_unused(self):
        """Leaves out a variable of a value that nothing reads; a call stays. Whether there was one."""
        text = "".join(self.lines)
        count = Counter(re.findall(r"\bt\d+\b", text)) - Counter(re.findall(r"\b(t\d+)=(?!=)", text))
        unused = {it for it in re.findall(r"\b(t\d+)=(?!=)", text) if it not in count}
        for at, line in enumerate(self.lines):
            found = re.search(r"(?:^|(?<=[;{}:]))(t\d+)=(?!=)([^;]*;)", line)
            if found and found[1] in unused:
                is_call = re.match(r"(f\d+|[a-z]+_[a-z]+)\(", found[2])
                self.lines[at] = line[: found.start()] + (found[2] if is_call else "") + line[found.end() :]
                return True
        return False

    def head(self):
        words = [f"{C_TYPES[kind]} v{at}" for at, kind in enumerate(self.kinds[: self.count])]
        apart = "APART " * (self.frame >= LARGE)
        return f"{apart}{C_TYPES[self.results[0]] if self.results else 'V'}F f{self.number}({','.join(words) or 'void'})"

    def declared(self):
        """The locals that are used, of which some begin at 0, and the variables that hold values."""
        used = set(re.findall(r"[A-Za-z_][A-Za-z_0-9]*", "".join(self.lines)))
        text = f"SK({(self.frame + 7) // 8})" if "S" in used else ""
        for kind in C_TYPES:
            names = [f"v{at}" for at, it in enumerate(self.kinds) if at >= self.count and it == kind and f"v{at}" in used]
            names = [f"{it}=0" if it in self.zeros else it for it in names]
            names += [f"t{at}" for at, it in enumerate(self.temporaries, 1) if it == kind and f"t{at}" in used]
            text += f"{C_TYPES[kind]} {','.join(names)};" if names else ""
        return text

    def text(self, literals):
        """The function's lines."""
        self.lines = short.shorter([it for it in self.lines if it], literals)
        return [self.head() + "{", self.declared(), *self.lines, "}"]


def folded(parts):
    """Parts of a text as lines."""
    line = ""
    for it in parts:
        if line and len(line) + len(it) > COLUMNS:
            yield line
            line = ""
        line += it
    if line:
        yield line


def calls_of(function):
    """The functions that a function calls."""
    return {it[1] for it in function.body if it[0] == "call"}


def reached(module):
    """The functions that exports reach and that are no imports."""
    found, left = set(), list(module.exports.values())
    while left:
        number = left.pop()
        if number not in found and not module.functions[number].imported:
            found.add(number)
            left += calls_of(module.functions[number])
    return found


def called_first(module):
    """The functions that exports reach, each after those that it calls where that can be, and those that are called before they come."""
    order, early, entered = [], set(), set()

    def enter(number):
        entered.add(number)
        for it in sorted(calls_of(module.functions[number])):
            if module.functions[it].imported:
                continue
            if it not in entered:
                enter(it)
            elif it not in order:
                early.add(it)
        order.append(number)

    for it in sorted(reached(module)):
        if it not in entered:
            enter(it)
    return order, early


class Data:
    """The module's data, with the addresses in it that its start function writes."""

    def __init__(self, module):
        self.module, self.addresses, self.locals = module, {}, {}
        if module.start >= 0:
            self.run(module.start)
        if module.alignment > 8 or any(it % 8 for it in self.addresses):
            raise Untranslated(f"data that has to be aligned to {module.alignment} bytes")
        # The data before its first address, and what the translation adds behind all.
        self.front, self.more = module.data[: min(self.addresses, default=None)], b""

    def run(self, number):
        """Runs a function that only stores addresses of the data in the data: places as (whether one of the data, offset)."""
        stack = []
        for name, *rest in self.module.functions[number].body:
            if name == "global.get" and self.module.globals[rest[0]] == "__memory_base":
                stack.append((1, 0))
            elif name == "i64.const":
                stack.append((0, rest[0]))
            elif name == "i64.add":
                right, left = stack.pop(), stack.pop()
                stack.append((left[0] + right[0], left[1] + right[1]))
            elif name in ("local.tee", "local.set"):
                self.locals[rest[0]] = stack[-1] if name == "local.tee" else stack.pop()
            elif name == "local.get":
                stack.append(self.locals[rest[0]])
            elif name == "i64.store":
                value, place = stack.pop(), stack.pop()
                if place[0] != 1 or value[0] != 1:
                    raise Untranslated("the start function writes something else than addresses")
                self.addresses[place[1] + rest[0]] = value[1]
            elif name == "call":
                self.run(rest[0])
            elif name != "end":
                raise Untranslated(f"the start function has {name}")

    def __contains__(self, data):
        """Whether bytes are in the data already."""
        return data in self.front or data in self.more

    def place(self, data):
        """Where bytes are in the data, to which they are added unless they are there."""
        if data in self.front:
            return self.front.index(data)
        if data not in self.more:
            self.more += data
        return len(self.module.data) + self.more.index(data)

    def groups(self):
        """The parts of the data with addresses, where each begins and ends: of words of 8 bytes, most of them addresses."""
        found = []
        for place in sorted(self.addresses):
            if found and place - found[-1][1] <= NEAR:
                found[-1][1] = place + 8
            else:
                found.append([place, place + 8])
        return found

    def words(self, begin, end):
        """The values of such a part: addresses and numbers."""
        for at in range(begin, end, 8):
            number = int.from_bytes(self.module.data[at : at + 8], "little")
            yield f"P({self.addresses[at]})," if at in self.addresses else f"N({short.whole_number(number, 8)}),"

    def text(self):
        fields, values, at = [], [], 0
        whole = self.module.data + self.more
        for begin, end in [*self.groups(), (len(whole),) * 2]:
            for place in range(at, begin, LITERAL):
                stop = min(place + LITERAL, begin)
                fields.append(f"unsigned char d{place}[{stop - place}];")
                values += shorter_of(whole[place:stop])
            if begin < end:
                fields.append(f"const void *d{begin}[{(end - begin) // 8}];")
                values += ["{", *self.words(begin, end), "},"]
            at = end
        lines = ["struct data {", *folded(["uint64_t aligned;", *fields]), "};", "static const struct data data;"]
        lines += ["#define P(n) (const char *)&data+8+n", "#define N(n) (const char *)n"]
        lines += ["static const struct data data={0,", *folded(values), "};"]
        return "\n".join([*lines, "#undef N", "#define D ((L)(uintptr_t)&data+8)"])


def shorter_of(data):
    """Bytes as an array's value, as numbers or as a string: what is shorter. Zeros at the end are left out."""
    kept = bytes(data).rstrip(b"\0") or b"\0"
    numbers = ["{", *(f"{it}," for it in kept[:-1]), f"{kept[-1]}", "},"]
    signs = []
    for byte, following in zip(kept, [*kept[1:], 0]):
        # (a question mark may begin a trigraph, and a digit would belong to the number before it)
        plain = 32 <= byte < 127 and chr(byte) not in '"\\?'
        signs.append(chr(byte) if plain else f"\\{byte:03o}" if 48 <= following < 58 else f"\\{byte:o}")
    strings, line = [], ""
    for sign in signs:
        if len(line) + len(sign) > COLUMNS - 3:
            strings, line = [*strings, f'"{line}"'], ""
        line += sign
    strings.append(f'"{line}",')
    return min(numbers, strings, key=lambda them: sum(map(len, them)))


class Source:
    """The C of a whole module."""

    def __init__(self, module):
        self.module = module
        self.data = Data(module)
        order, early = called_first(module)
        functions = [Translation(module, it) for it in order]
        # (Most functions come after those that they call. The others are declared.)
        texts = [*([it.head() + ";"] for it in functions if it.number in early), *(it.text(self.data) for it in functions)]
        self.names = short.names_of_functions(texts)
        self.texts = [short.with_names("\n".join(folded(short.shortened(it))), self.names) for it in texts]

    def call(self, name, words):
        """The statement of an export."""
        return f"{self.names[self.module.exports[name]]}({','.join(words)});"

    def text(self):
        return "\n".join([self.data.text(), *self.texts])
