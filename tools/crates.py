"""The crates of this repository, for the tools: their order, their files, and the libraries that `rt ci` leaves."""

import functools
import hashlib
import os
import re
import subprocess
import sys

ROOT = os.path.dirname(os.path.dirname(os.path.abspath(__file__)))
PARTS = ("src", "specs", "proofs")
# The sum of the sources that the last whole gate proved (tools/library).
GATE_SUM = f"{ROOT}/out/gate.sum"


def run(main, *words):
    """Runs a tool and ends with its status. Where the reader of its output goes away, as `head` does, it ends quietly."""
    try:
        status = main(*words)
        sys.stdout.flush()
    except BrokenPipeError:
        os.dup2(os.open(os.devnull, os.O_WRONLY), sys.stdout.fileno())
        status = 1
    sys.exit(status)


def text_of(path):
    """A file's text."""
    with open(path, encoding="utf-8") as file:
        return file.read()


def said_by(*words):
    """What a command prints."""
    return subprocess.run(words, stdout=subprocess.PIPE, encoding="utf-8", check=True).stdout.strip()


def kit():
    """The folder of the kit."""
    return os.path.dirname(said_by("rt", "doc"))


def uses():
    """What each crate is built on, in the order of crates.txt."""
    found = {}
    for line in text_of(f"{ROOT}/crates.txt").split("\n"):
        name, colon, others = line.partition("#")[0].partition(":")
        if colon:
            found[name.split()[0]] = others.split()
    return found


def is_static(name):
    """Whether a crate is a static library, for programs in other languages."""
    return bool(re.search(rf"(?m)^{name} staticlib:", text_of(f"{ROOT}/crates.txt")))


def below(name, users=None):
    """All crates of the repository below a crate, each after those that it is built on."""
    users, found = users or uses(), []
    for it in users[name]:
        if it in users:
            found += [lower for lower in [*below(it, users), it] if lower not in found]
    return found


def sources(crate, parts=PARTS):
    """The source files of a crate, sorted."""
    found = []
    for part in parts:
        for at, _, names in os.walk(f"{ROOT}/crates/{crate}/{part}"):
            found += [f"{at}/{it}" for it in names if it.endswith((".rt", ".antt"))]
    return sorted(found)


def sum_of(files, text=text_of):
    """The sum of files and their texts."""
    found = hashlib.sha256()
    for it in files:
        found.update(repr((os.path.relpath(it, ROOT), text(it))).encode())
    return found.hexdigest()[:16]


def sum_of_all():
    """The sum of all sources and of the kit."""
    files = [f"{ROOT}/crates.txt", *[it for crate in uses() for it in sources(crate)]]
    return f"{said_by('rt', 'version')} {sum_of(files)}"


def moments(*tops):
    """The files and folders at and below some places: path, size and the moment of its last change, which no rename brings back."""
    found = [top for top in tops if os.path.lexists(top)]
    for top in tops:
        for at, folders, files in os.walk(top):
            found += [f"{at}/{it}" for it in (*folders, *files)]
    seen = ((it, os.lstat(it)) for it in sorted(found))
    return [(os.path.relpath(it, ROOT), how.st_size, how.st_ctime_ns) for it, how in seen]


def library_sum(name):
    """The sum of what lies in a crate's library, which is another one after each build. Its moments say nothing: another copy of
    the repository that takes the same library out of the kit's store links its files once more, which changes them."""
    top, found = f"{ROOT}/crates/{name}/out/rlib/{name}.rlib", hashlib.sha256()
    for at, folders, files in os.walk(top):
        folders.sort()
        for it in sorted(files):
            found.update(os.path.relpath(f"{at}/{it}", top).encode())
            with open(f"{at}/{it}", "rb") as file:
                found.update(hashlib.file_digest(file, "sha256").digest())
    return found.hexdigest()[:16]


def has_gate_libraries(name):
    """Whether the libraries below a crate are those of a whole gate over these very sources. Those have no stamp, by which
    other commands know what they built themselves."""
    if not os.path.exists(GATE_SUM):
        return False
    lines = text_of(GATE_SUM).split("\n")
    return lines[0] == sum_of_all() and all(f"{it} {library_sum(it)}" in lines[1:] for it in below(name))


@functools.cache
def has_gate_library(name):
    """Whether a crate's own library, and those below it, are those of a whole gate over these very sources."""
    is_there = os.path.isdir(f"{ROOT}/crates/{name}/out/rlib/{name}.rlib")
    return is_there and has_gate_libraries(name) and f"{name} {library_sum(name)}" in text_of(GATE_SUM).split("\n")


def words_over(name):
    """The words by which the kit's prover reads a crate over the libraries below it."""
    users, home = uses(), kit()
    is_program = os.path.isfile(f"{ROOT}/crates/{name}/src/main.rt")
    words = ["--crate-name", name, "src/main.rt" if is_program else "src/lib.rt", "-L", f"dependency={home}/rlibs"]
    words += ["--extern", f"std={home}/rlibs/std.rlib"]
    for it in users[name]:
        place = f"{ROOT}/crates/{it}/out/rlib" if it in users else f"{home}/rlibs"
        words += ["--extern", f"{it}={place}/{it}.rlib"]
    for it in below(name, users):
        words += ["-L", f"dependency={ROOT}/crates/{it}/out/rlib"]
    words += ["--antt-project", f"{home}/rattle/logic/antt-project.json", "--logic-built", f"{home}/logic_built"]
    words += ["--jobs", "1", "--links", f"{name}="]
    return words + ["--crate-type", "staticlib"] * is_static(name)


def check_words(name):
    """The words by which the kit's compiler proves a crate over the libraries below it."""
    return [f"{kit()}/bin/rattle", "check", *words_over(name)]


def build_words(name):
    """The words by which the kit's compiler proves and builds a static library over the libraries below it."""
    return [f"{kit()}/bin/rattle", "build", *words_over(name), "--incremental", "out/incremental", "--backend", "llvm"]
