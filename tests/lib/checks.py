"""What tests in Python share: counting what holds, and running programs over bytes."""

import os
import subprocess
import sys
import tempfile

ROOT = os.path.dirname(os.path.dirname(os.path.dirname(os.path.abspath(__file__))))
# The tree in which program, library and tests of crates are built (tests/run --built).
BUILT = os.environ.get("BUILT", ROOT)
EXAMPLES = f"{ROOT}/examples"
HELLO = b"printer 4\nrow 0\n 0 cell 72\n 6 cell 73\nprinter 5\nstatus 0 0\nscreen\n"
EMPTY = b"printer 4\nprinter 5\nstatus\nscreen\n"


def bytes_of(path):
    with open(path, "rb") as file:
        return file.read()


class Ran:
    """How a program ended, and what it wrote."""

    def __init__(self, status, output, error):
        self.status, self.output, self.error = status, output or b"", (error or b"").decode("utf-8", "replace").rstrip("\n")


def run(*words, data=b"", **how):
    """Runs a program over bytes, or over an open file that is given as stdin."""
    given = {} if "stdin" in how else {"input": data}
    ran = subprocess.run([os.fspath(it) for it in words], **{"stdout": subprocess.PIPE, "stderr": subprocess.PIPE, "check": False, **given, **how})
    return Ran(ran.returncode, ran.stdout, ran.stderr)


class Checks:
    """Counts what holds, says what does not, and has a folder for files."""

    def __init__(self):
        self.passed = self.failed = 0
        self.folder = tempfile.TemporaryDirectory()
        self.work = self.folder.name

    def expect(self, holds, what):
        self.passed, self.failed = self.passed + bool(holds), self.failed + (not holds)
        if not holds:
            print(f"FAILED: {what}", file=sys.stderr, flush=True)
        return holds

    def ends(self, ran, status, output, error, what):
        """A run ended so; the output is bytes."""
        is_so = (ran.status, ran.output, ran.error) == (status, output, error)
        return self.expect(is_so, f"{what}: status {ran.status}, {len(ran.output)} bytes, error '{ran.error}'")

    def place(self, name, data=None):
        """The path of a file in the folder; with bytes it is written."""
        path = f"{self.work}/{name}"
        if data is not None:
            with open(path, "wb") as file:
                file.write(data)
        return path

    def faults(self):
        """The library of faults, which refuses calls."""
        library = self.place("faults.so")
        if not os.path.exists(library):
            ran = run("cc", "-O1", "-shared", "-fPIC", "-o", library, f"{ROOT}/tests/lib/faults.c")
            if ran.status:
                self.expect(False, f"the library of faults does not compile: {ran.error}")
        return library

    def end(self):
        """The line of counts; the exit status."""
        print(f"{self.passed} passed, {self.failed} failed")
        self.folder.cleanup()
        return 1 if self.failed else 0


def program_of(words, usage):
    """The program that the words name; ends where there is none."""
    if len(words) != 1 or not os.access(words[0], os.X_OK):
        sys.exit(usage if len(words) != 1 else f"no program {words[0]}")
    return os.path.abspath(words[0])
