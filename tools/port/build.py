#!/usr/bin/env python3
"""build.py PLATFORM MODULES FOLDER: makes the library for C for a platform of platforms.py, and the program where it has one, of the kept LLVM
modules MODULES/CRATE.ll:

    FOLDER/lib/libprint1525.a           and the shared library: libprint1525.so.V (Linux), libprint1525.1.dylib (macOS) or
                                        print1525.dll with print1525.def and its import libraries (Windows)
    FOLDER/bin/print1525 or .exe        but for macOS, of which nothing here can run a program
    FOLDER.objects/                     the objects of all that, which tests/peers/platforms links once more

       build.py universal ONE OTHER FOLDER: makes the libraries of two folders for macOS, of one processor each, libraries of both

It needs the C compilers and linkers that platforms.py names (docs/PLATFORMS.md lists Debian's packages)."""

import os
import re
import shutil
import sys

HERE = os.path.dirname(os.path.abspath(__file__))
sys.path[:0] = [HERE, os.path.dirname(HERE)]
import crates  # noqa: E402
import llvm  # noqa: E402
import platforms  # noqa: E402

C_WORDS = "-std=c99 -O2 -Wall -Wextra -ffunction-sections -fno-stack-protector".split()
# The functions of the system that the program calls. system.h gives them names of their own, which linux.c and windows.c define.
CALLED = set("open read write close lseek isatty clock_gettime statx readlink ftruncate fchmod fsync fdatasync flock unlink rename".split())
CALLED |= {"__xpg_strerror_r"}
# What linux.c and windows.c define under the kit's own names.
KEPT = {"rattle_errno", "rattle_set_errno", "rattle_arg", "rattle_env", "rattle_env_at"}
LINKED = "-Wl,--version-script={map} -Wl,-Bsymbolic-functions -Wl,-z,defs -Wl,-z,text -Wl,-z,relro,-z,now -Wl,--gc-sections -Wl,--build-id=none"


def version():
    return re.search(r'^#define PRINT1525_VERSION "(.*)"', crates.text_of(f"{crates.ROOT}/include/print1525.h"), re.M)[1]


def tool(name):
    """A tool of LLVM, of the kit or of Debian, whose name may end with LLVM's version."""
    kit = f"{crates.kit()}/toolchain/bin/{name}"
    found = [it for it in (kit, name, *(f"{name}-{number}" for number in range(30, 13, -1))) if shutil.which(it)]
    return found[0] if found else llvm.stop(f"wants {name} (Debian's packages lld and llvm)")


def without_place():
    """The word by which the folder of this repository does not show in what is made."""
    return f"-ffile-prefix-map={crates.ROOT}=."


def objects(platform, modules, work):
    """The objects of the library: the heap, the proved crates, and its C code."""
    layout, triple = platforms.layout(platform)
    heap = f'target datalayout = "{layout}"\ntarget triple = "{triple}"\n{crates.text_of(f"{HERE}/heap.ll")}'
    found = [platforms.compile_module(heap, platform, f"{work}/heap.o")]
    for name in platforms.LIBRARIES:
        text = platforms.with_names(platforms.for_platform(crates.text_of(f"{modules}/{name}.ll"), platform), platforms.declared())
        platforms.see(text, name)
        found.append(platforms.compile_module(text, platform, f"{work}/{name}.o"))
    for name in platforms.CODE:
        pic = ["-fPIC"] * (platform.system == "linux")
        words = [*platform.compiler, *C_WORDS, *pic, "-I", "include", "-c", f"library/{name}.c", "-o", f"{work}/{name}.o"]
        llvm.run(words, cwd=crates.ROOT)
        found.append(f"{work}/{name}.o")
    return found


def archive(platform, parts, folder):
    kind = ["--format=darwin"] * (platform.system == "macos")
    llvm.run([tool("llvm-ar"), *kind, "rcsD", f"{folder}/libprint1525.a", *parts])


def shared_linux(platform, parts, folder, work):
    platforms.write(f"{work}/map", f"PRINT1525_1 {{ global: {' '.join(f'{it};' for it in platforms.names())} local: *; }};\n")
    words = LINKED.format(map=f"{work}/map").split()
    soname = f"libprint1525.so.{version().split('.')[0]}"
    made = f"{folder}/libprint1525.so.{version()}"
    llvm.run([*platform.compiler, "-shared", f"-Wl,-soname,{soname}", *words, *parts, "-s", "-o", made])
    for name, target in ((soname, os.path.basename(made)), ("libprint1525.so", soname)):
        os.symlink(target, f"{folder}/{name}")


def shared_windows(platform, parts, folder, work):
    """The library, the list of its names, and the import libraries for MinGW and for Microsoft's linker, which are one file."""
    platforms.write(f"{folder}/print1525.def", "\n".join(["LIBRARY print1525.dll", "EXPORTS", *(f"    {it}" for it in platforms.names())]) + "\n")
    # (without a base of our own the linker makes one of the file's path)
    words = "-shared -static-libgcc -s -Wl,--no-insert-timestamp -Wl,--image-base,0x2d1525000000 -Wl,--gc-sections".split()
    llvm.run([*platform.compiler, *words, f"{folder}/print1525.def", *parts, "-o", f"{folder}/print1525.dll"])
    llvm.run([tool("llvm-dlltool"), "-m", "i386:x86-64", "-d", f"{folder}/print1525.def", "-l", f"{folder}/print1525.lib"])
    shutil.copy(f"{folder}/print1525.lib", f"{folder}/libprint1525.dll.a")


def shared_macos(platform, parts, folder, work):
    platforms.write(f"{work}/names", "".join(f"_{it}\n" for it in platforms.names()))
    words = f"-arch {platform.processor} -platform_version macos 11.0 11.0 -dylib -dead_strip".split()
    words += ["-install_name", "@rpath/libprint1525.1.dylib", "-compatibility_version", "1", "-current_version", version()]
    made = f"{folder}/libprint1525.1.dylib"
    llvm.run([tool("ld64.lld"), *words, "-exported_symbols_list", f"{work}/names", "-o", made, *parts, f"{HERE}/mac/libSystem.tbd"])
    os.symlink(os.path.basename(made), f"{folder}/libprint1525.dylib")


SHARED = {"linux": shared_linux, "windows": shared_windows, "macos": shared_macos}


def program_module(platform, modules):
    """The program's module. Of its `main`, which refuses an x86-64 without what the kit's builds need, what it calls then is left."""
    text = platforms.for_platform(crates.text_of(f"{modules}/{platforms.PROGRAM}.ll"), platform)
    text, mains = re.subn(r"^define i32 @main\(\) [^\n]*\{\n.*?^\}\n", "", text, flags=re.M | re.S)
    text, starts = re.subn(r'^define internal ([^@\n]*)@"print1525::main\+start"\(', r"define \1@print1525_program(", text, flags=re.M)
    if (mains, starts) != (1, 1):
        llvm.stop("the program's module has another start")
    text = re.sub(r"^declare .*@(__sysv_signal|__x86_get_cpuid_feature_leaf|__write)\(.*\n", "", text, flags=re.M)
    text = re.sub(rf"@({'|'.join(sorted(CALLED))})\(", r"@print1525_os_\1(", text)
    platforms.see(text, platforms.PROGRAM, platforms.HEAP | KEPT | {f"print1525_os_{it}" for it in CALLED})
    return text


def program(platform, work, folder, more=()):
    """The program of a folder of objects: its module, the heap, and what it calls of its system; with further words of the linker for
    tests. It wants no library that a system may lack."""
    os.makedirs(f"{folder}/bin", exist_ok=True)
    words = [*platform.compiler, *C_WORDS[1:], without_place(), "-static", "-s", "-Wl,--gc-sections", *more]
    parts = [f"{HERE}/{platform.system}.c", f"{work}/program.o", f"{work}/heap.o"]
    if platform.system == "windows":
        words += ["-Wl,--no-insert-timestamp", "-Wl,--stack,8388608", *parts, "-lshell32"]
        llvm.run([*words, "-o", f"{folder}/bin/print1525.exe"])
    else:
        llvm.run([*words, "-Wl,--build-id=none", *parts, "-o", f"{folder}/bin/print1525"])


def universal(one, other, folder):
    """The libraries for two processors as libraries for both."""
    shutil.rmtree(folder, ignore_errors=True)
    os.makedirs(folder)
    for name in ("libprint1525.a", "libprint1525.1.dylib"):
        llvm.run([tool("llvm-lipo"), "-create", f"{one}/lib/{name}", f"{other}/lib/{name}", "-output", f"{folder}/{name}"])
    os.symlink("libprint1525.1.dylib", f"{folder}/libprint1525.dylib")


def build(platform, modules, folder):
    work = f"{folder}.objects"
    for it in (folder, work):
        shutil.rmtree(it, ignore_errors=True)
    os.makedirs(f"{folder}/lib")
    os.makedirs(work)
    parts = objects(platform, modules, work)
    archive(platform, parts, f"{folder}/lib")
    SHARED[platform.system](platform, parts, f"{folder}/lib", work)
    if platform.has_program:
        platforms.compile_module(program_module(platform, modules), platform, f"{work}/program.o")
        program(platform, work, folder)


def main(words):
    if len(words) == 4 and words[0] == "universal":
        universal(*words[1:])
    elif len(words) == 3 and words[0] in platforms.PLATFORMS:
        build(platforms.PLATFORMS[words[0]], words[1], os.path.abspath(words[2]))
    else:
        sys.exit(__doc__)


if __name__ == "__main__":
    crates.run(main, sys.argv[1:])
