"""The LLVM modules of proved crates, for the tools that compile them for other processors (web/module, tools/port).

The compiler gives clang one LLVM module of a whole static library or program, and keeps none. So a crate is proved and built with a
toolchain that is the kit's, but for a clang that first copies the module that it is given."""

import os
import re
import subprocess
import sys

import crates


def stop(why):
    """Ends with one error."""
    sys.exit(print(f"{os.path.relpath(sys.argv[0], crates.ROOT)}: {why}", file=sys.stderr) or 1)


def run(words, **how):
    """Runs a command, and returns what it says; what it says is shown only where it fails."""
    ran = subprocess.run(words, stdout=subprocess.PIPE, stderr=subprocess.STDOUT, text=True, errors="replace", check=False, **how)
    if ran.returncode:
        print(ran.stdout[-4000:], file=sys.stderr)
        stop(f"{' '.join(words[:3])} .. ends with status {ran.returncode}")
    return ran.stdout


def clang():
    """The kit's clang, which reads these modules."""
    return f"{crates.kit()}/toolchain/bin/clang"


def keeps_llvm(folder):
    """A toolchain as the kit's, whose clang keeps the LLVM module that it is given. What it makes of it itself is not used."""
    kit = f"{crates.kit()}/toolchain"
    os.makedirs(f"{folder}/bin")
    for it in os.listdir(kit):
        if it != "bin":
            os.symlink(f"{kit}/{it}", f"{folder}/{it}")
    for it in os.listdir(f"{kit}/bin"):
        if it != "clang":
            os.symlink(f"{kit}/bin/{it}", f"{folder}/bin/{it}")
    with open(f"{folder}/bin/clang", "w", encoding="utf-8") as file:
        file.write(f'#!/bin/sh\ncp module.bc "{folder}/kept.bc"\nexec "{kit}/bin/clang" "$@" -O0\n')
    os.chmod(f"{folder}/bin/clang", 0o755)
    return folder


def text_of(name, folder):
    """The text of the LLVM module of a static library or a program that is proved and built; `folder` is for its files."""
    at = f"{crates.ROOT}/crates/{name}"
    if not crates.has_gate_libraries(name):
        run(["rt", "check"], cwd=at)
    toolchain = keeps_llvm(f"{folder}/{name}")
    said = run([*crates.build_words(name), "--toolchain", toolchain, "-o", f"{folder}/{name}.built"], cwd=at)
    if not re.search(r"^logic=proved ", said, re.M):
        stop(f"{name} is not proved")
    words = ["-x", "ir", f"{toolchain}/kept.bc", "-S", "-emit-llvm", "-Xclang", "-disable-llvm-passes", "-Wno-override-module"]
    run([clang(), *words, "-o", f"{folder}/{name}.ll"])
    return crates.text_of(f"{folder}/{name}.ll")
