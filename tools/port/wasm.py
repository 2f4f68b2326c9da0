"""Reads a WebAssembly module of 64-bit memory, as wasm-ld and wasm-opt write it: its functions, exports, data and imports.

Only what such modules have is read: numbers of 32 and 64 bits, one memory and its data. Anything else ends with `Unread`."""

import struct
from dataclasses import dataclass, field

TYPES = {0x7F: "i32", 0x7E: "i64", 0x7C: "f64"}
LOADS_AND_STORES = (
    "i32.load i64.load f32.load f64.load i32.load8_s i32.load8_u i32.load16_s i32.load16_u i64.load8_s i64.load8_u i64.load16_s i64.load16_u "
    "i64.load32_s i64.load32_u i32.store i64.store f32.store f64.store i32.store8 i32.store16 i64.store8 i64.store16 i64.store32"
).split()
COMPARISONS = "eqz eq ne lt_s lt_u gt_s gt_u le_s le_u ge_s ge_u".split()
ARITHMETIC = "clz ctz popcnt add sub mul div_s div_u rem_s rem_u and or xor shl shr_s shr_u rotl rotr".split()
# Instructions without an immediate, by their byte.
PLAIN = {0x00: "unreachable", 0x01: "nop", 0x05: "else", 0x0B: "end", 0x0F: "return", 0x1A: "drop", 0x1B: "select", 0xA7: "i32.wrap_i64"}
PLAIN |= {0xAC: "i64.extend_i32_s", 0xAD: "i64.extend_i32_u"}
PLAIN |= {0x45 + at: f"i32.{it}" for at, it in enumerate(COMPARISONS)} | {0x50 + at: f"i64.{it}" for at, it in enumerate(COMPARISONS)}
PLAIN |= {0x67 + at: f"i32.{it}" for at, it in enumerate(ARITHMETIC)} | {0x79 + at: f"i64.{it}" for at, it in enumerate(ARITHMETIC)}
PLAIN |= {0x61 + at: f"f64.{it}" for at, it in enumerate("eq ne lt gt le ge".split())}
PLAIN |= {0xA0 + at: f"f64.{it}" for at, it in enumerate("add sub mul div".split())}
PLAIN |= {0xBA: "f64.convert_i64_u", 0xBD: "i64.reinterpret_f64", 0xBF: "f64.reinterpret_i64"}
# Instructions with one number.
NUMBERED = {0x0C: "br", 0x0D: "br_if", 0x10: "call", 0x20: "local.get", 0x21: "local.set", 0x22: "local.tee", 0x23: "global.get", 0x24: "global.set"}
BLOCKS = {0x02: "block", 0x03: "loop", 0x04: "if"}


class Unread(Exception):
    """The module has something that no module of ours has."""


@dataclass
class Function:
    """A function: its types, and unless it is imported the types of its locals and its instructions, a name and its numbers each."""

    parameters: list
    results: list
    imported: str = ""
    locals: list = field(default_factory=list)
    body: list = field(default_factory=list)


@dataclass
class Module:
    """A module: functions by their index, exports of functions by name, names of globals, and the bytes at __memory_base."""

    functions: list = field(default_factory=list)
    exports: dict = field(default_factory=dict)
    globals: list = field(default_factory=list)
    alignment: int = 1
    start: int = -1
    data: bytes = b""


class Bytes:
    """Bytes that are read from their front."""

    def __init__(self, data):
        self.data, self.at = data, 0

    def byte(self):
        self.at += 1
        return self.data[self.at - 1]

    def unsigned(self):
        """A number of any length, seven bits in each byte, the lowest first."""
        value = shift = 0
        while True:
            byte = self.byte()
            value |= (byte & 0x7F) << shift
            shift += 7
            if byte < 0x80:
                return value

    def signed(self):
        began, value = self.at, self.unsigned()
        bits = 7 * (self.at - began)
        return value - (1 << bits) if value >> (bits - 1) else value

    def part(self, length):
        self.at += length
        return Bytes(self.data[self.at - length : self.at])

    def name(self):
        return self.part(self.unsigned()).data.decode()

    def is_at_end(self):
        return self.at == len(self.data)


def types_of(section):
    """The types of values in a list."""
    return [TYPES[section.byte()] for _ in range(section.unsigned())]


def instruction(code):
    """The next instruction: its name, then its numbers; of a block its type, or nothing."""
    byte = code.byte()
    if byte in PLAIN:
        return (PLAIN[byte],)
    if byte in NUMBERED:
        return NUMBERED[byte], code.unsigned()
    if byte in BLOCKS:
        kind = code.byte()
        return (BLOCKS[byte], "" if kind == 0x40 else TYPES[kind])
    if 0x28 <= byte < 0x28 + len(LOADS_AND_STORES):
        code.unsigned()  # the alignment, which is only a hint
        return LOADS_AND_STORES[byte - 0x28], code.unsigned()
    if byte == 0x0E:
        return "br_table", [code.unsigned() for _ in range(code.unsigned() + 1)]
    if byte in (0x41, 0x42):
        return ("i32.const", "i64.const")[byte - 0x41], code.signed()
    if byte == 0x44:
        return "f64.const", int.from_bytes(code.part(8).data, "little")
    if byte == 0xFC:
        return many_bytes(code)
    raise Unread(f"instruction {byte:#x}")


def many_bytes(code):
    """The instructions that copy and fill many bytes."""
    kind = code.unsigned()
    if kind not in (10, 11):
        raise Unread(f"instruction 0xfc {kind}")
    for _ in range(12 - kind):
        code.byte()
    return (("memory.copy", "memory.fill")[kind - 10],)


def read_imports(section, types, module):
    for _ in range(section.unsigned()):
        place, name, kind = section.name(), section.name(), section.byte()
        if kind == 0:
            parameters, results = types[section.unsigned()]
            module.functions.append(Function(parameters, results, imported=f"{place}.{name}"))
        elif kind == 3:
            section.part(2)
            module.globals.append(name)
        elif kind == 2:
            section.part(1)
            section.unsigned()
        else:
            raise Unread(f"an import of kind {kind}: {name}")


def read_code(section, kinds, types, module):
    for kind in kinds[: section.unsigned()]:
        code = section.part(section.unsigned())
        function = Function(*types[kind])
        for _ in range(code.unsigned()):
            count = code.unsigned()
            function.locals += [TYPES[code.byte()]] * count
        while not code.is_at_end():
            function.body.append(instruction(code))
        module.functions.append(function)


def read_exports(section, module):
    for _ in range(section.unsigned()):
        name, kind, index = section.name(), section.byte(), section.unsigned()
        if kind == 0:
            module.exports[name] = index


def read_data(section, module):
    """The one segment of data, which begins at the global __memory_base."""
    if section.unsigned() != 1 or section.unsigned() != 0 or section.byte() != 0x23:
        raise Unread("data that does not begin at __memory_base")
    if module.globals[section.unsigned()] != "__memory_base" or section.byte() != 0x0B:
        raise Unread("data that does not begin at __memory_base")
    module.data = section.part(section.unsigned()).data


def read_alignment(section, module):
    """How the data has to be aligned, of the section that linkers write for modules that can be anywhere."""
    if section.name() == "dylink.0" and section.byte() == 1:
        section.unsigned()
        section.unsigned()
        module.alignment = 1 << section.unsigned()


def read(data):
    """The module of these bytes."""
    whole, module, types, kinds = Bytes(data), Module(), [], []
    if whole.part(8).data != b"\0asm\1\0\0\0":
        raise Unread("no WebAssembly module of version 1")
    while not whole.is_at_end():
        kind, section = whole.byte(), None
        section = whole.part(whole.unsigned())
        if kind == 0:
            read_alignment(section, module)
        elif kind == 1:
            types = [(types_of(section), types_of(section)) for _ in range(section.unsigned()) if section.byte() == 0x60]
        elif kind == 2:
            read_imports(section, types, module)
        elif kind == 3:
            kinds = [section.unsigned() for _ in range(section.unsigned())]
        elif kind == 7:
            read_exports(section, module)
        elif kind == 8:
            module.start = section.unsigned()
        elif kind == 10:
            read_code(section, kinds, types, module)
        elif kind == 11:
            read_data(section, module)
        elif kind != 12:
            raise Unread(f"a section of kind {kind}")
    return module
