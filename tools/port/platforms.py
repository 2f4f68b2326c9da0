"""The platforms that `make dist` serves, and what changes in an LLVM module for each.

The code of a module stays as it is. The lines that change say for which processor it is, which attributes its functions have, and under
which names it is called: a proved export print1525_x is print1525_plain_x in the library, as tools/archive has it, and an export that
library/plain.h does not declare is left out."""

import os
import re
import subprocess
import sys
from dataclasses import dataclass, field

HERE = os.path.dirname(os.path.abspath(__file__))
sys.path.insert(0, os.path.dirname(HERE))
import crates  # noqa: E402
import llvm  # noqa: E402

# The crates whose exports the library has, and the program.
LIBRARIES = ("pr_ear", "pr_exports")
PROGRAM = "print1525"
# The functions by which proved code takes memory: heap.ll defines them.
HEAP = {"rattle_alloc", "rattle_dealloc", "rattle_realloc"}
# Clang as the compiler calls it, but for what is about one processor. These flags avoid passes that are known to be wrong.
COMMON = "-ffunction-sections -fdata-sections -mllvm -disable-machine-licm -mllvm -disable-postra-machine-licm -mllvm -sink-common-insts=false "
COMMON += "--no-default-config -no-canonical-prefixes -fintegrated-cc1 -Werror -Wno-unused-command-line-argument"
NATIVE = f"-O3 -c -x ir -mllvm -expand-div-rem-bits=64 -mllvm -trap-unreachable {COMMON}".split()
ATTRIBUTES = re.compile(r' "probe-stack"="inline-asm" "stack-probe-size"="\d+" "target-cpu"="[\w-]+"')
MODES = re.compile(r' "target-cpu"="[\w-]+"')


@dataclass(frozen=True)
class Platform:
    """A system and a processor: LLVM's name of them, clang's words, the compiler of C and what runs its programs here, as words."""

    triple: str
    words: list
    compiler: list
    runs: list = field(default_factory=list)
    has_program: bool = True

    @property
    def system(self):
        return "windows" if "windows" in self.triple else "macos" if "macosx" in self.triple else "linux"

    @property
    def processor(self):
        return self.triple.split("-")[0]


def linux(processor, words, cpu):
    gcc = [f"{processor}-linux-gnu-gcc"]
    return Platform(f"{processor}-unknown-linux-gnu", [cpu, *words.split(), "-fPIC"], gcc, [f"qemu-{processor}", "-L", f"/usr/{processor}-linux-gnu"])


def macos(processor, version, cpu):
    triple = f"{processor}-apple-macosx{version}"
    # (No C library of macOS is here: mac/ has what the header includes of one.)
    compiler = ["clang", f"--target={triple}", "-ffreestanding", "-isystem", f"{HERE}/mac"]
    return Platform(triple, [*cpu, "-fPIC"], compiler, has_program=False)


PLATFORMS = {
    "aarch64-linux": linux("aarch64", "", "-march=armv8-a"),
    "riscv64-linux": linux("riscv64", "-mabi=lp64d", "-march=rv64gc"),
    "x86_64-windows": Platform("x86_64-w64-windows-gnu", ["-march=x86-64"], ["x86_64-w64-mingw32-gcc"], ["/usr/lib/wine/wine64"]),
    "arm64-macos": macos("arm64", "11.0.0", []),
    "x86_64-macos": macos("x86_64", "11.0.0", ["-march=x86-64"]),
}


def write(path, text):
    with open(path, "w", encoding="utf-8") as file:
        file.write(text)


# The files of the library's C code, and the header of the proved calls that they make.
CODE = ("words", "bus", "device", "printer", "characters", "texts", "numbers")
PLAIN = f"{crates.ROOT}/library/plain.h"


def declared():
    """The names of the proved calls that the library's C code makes, without what all begin with."""
    return {*re.findall(r"^void print1525_plain_(\w+)\(", crates.text_of(PLAIN), re.M)}


def names():
    """The names that a shared library has: the calls of the header."""
    return sorted(re.findall(r"^(?:int|size_t|uint64_t|const char \*) ?(print1525_\w+)\(", crates.text_of(f"{crates.ROOT}/include/print1525.h"), re.M))


def layout(platform):
    """What clang takes as the layout of data on a platform, and its name of it."""
    words = [llvm.clang(), f"--target={platform.triple}", *platform.words, "-Wno-unused-command-line-argument", "-x", "c", "-", "-S", "-emit-llvm", "-o", "-"]
    said = subprocess.run(words, input="int x;", stdout=subprocess.PIPE, text=True, check=True).stdout
    return re.search(r'(?m)^target datalayout = "(.*)"$', said)[1], re.search(r'(?m)^target triple = "(.*)"$', said)[1]


def for_target(text, layout_, triple):
    """A module for another layout of data and another processor."""
    text, layouts = re.subn(r'^target datalayout = ".*"$', f'target datalayout = "{layout_}"', text, flags=re.M)
    text, triples = re.subn(r'^target triple = ".*"$', f'target triple = "{triple}"', text, flags=re.M)
    if (layouts, triples) != (1, 1):
        llvm.stop("a module has not one layout and one target")
    return text


def with_attributes(text, words):
    """A module whose functions have these attributes in the place of those about the stack and the processor."""
    return ATTRIBUTES.sub(words, text)


def for_platform(text, platform):
    """A module for a platform. Windows wants tables of how each function's stack is left, and its stack is probed by a function of the C
    compiler's library: `inline-asm` would be such a function's name."""
    text = for_target(text, *layout(platform))
    if platform.system == "windows":
        return with_attributes(text, " uwtable")
    return MODES.sub("", text)


def with_names(text, roots):
    """A module whose exports have the library's names; those that plain.h does not declare are none any more."""
    if not re.search(r"^define void @print1525_", text, re.M):
        llvm.stop("a module has no export")
    text = re.sub(r"@print1525_(\w+)\(", lambda found: f"@print1525_plain_{found[1]}(" if found[1] in roots else found[0], text)
    return re.sub(r"^define void @print1525_(?!plain_)", "define internal void @print1525_", text, flags=re.M)


def imports(text):
    """The functions that a module calls and does not define."""
    return {*re.findall(r"^declare (?!.*@llvm\.)[^@\n]*@([\w.]+)\(", text, re.M)}


def see(text, name, known=frozenset(HEAP)):
    """Ends where a module calls something that is not known here, or has code for one processor, threads or data of others."""
    left = re.search(r"\basm sideeffect|\bcall [^@\n]*asm |thread_local|external global|llvm\.x86", text)
    if left or not imports(text) <= known:
        llvm.stop(f"{name}: the LLVM module is not as expected: {imports(text) - known or ''} {left or ''}")


def compile_module(text, platform, out):
    """The object of a module for a platform."""
    write(f"{out}.ll", text)
    llvm.run([llvm.clang(), f"--target={platform.triple}", *platform.words, *NATIVE, f"{out}.ll", "-o", out])
    os.remove(f"{out}.ll")
    return out
