"""Runs the program without a proof: `rt try` compiles the sources with checks at run time, and runs them.

`./cpsolve` calls it where no proved program is built, with standard input as descriptor 3. The program's text alone
goes to standard output, and the status is the program's. A read or write that fails here counts as the program's own.
"""

import os
import re
import subprocess
import sys
import tempfile
import time
from contextlib import suppress
from pathlib import Path

from processes import CANNOT, begin, end, exit_on_signals

CRATE = Path(__file__).resolve().parent.parent / "crates" / "cpsolve"
INPUT, OUTPUT = 3, 1
# The commands that read their input. The others leave it alone, and so they do not wait at a terminal.
READING = ("solve", "validate", "print", "check")
# The most bytes of input that `rt try` hands on, which is also the most that the program takes.
MOST_INPUT = 64 << 20
PIECE = 1 << 20
# Those of the program's exit statuses that are told here.
USAGE_FAULT, READ_FAILED, WRITE_FAILED = 2, 3, 4
# One step keeps the interpreter, which cannot run this program, out of the way. The time is some thirty years.
LIMITS = ["--steps", "1", "--seconds", str(10**9)]
# The last line of `rt try` where the program ended.
ENDED = re.compile(rb"^run=ended status=(\d+) .*proved=no\n\Z", re.M)
# What it says of the interpreter, which is of no use here.
INTERPRETER = re.compile(rb"^interpreter: .*\n", re.M)
# What it says where the program wrote more than it hands on.
TOO_MUCH = b"checked: no-answer: the program wrote more than "


class InputTooLong(Exception):
    """The input has more bytes than are handed on."""


class ReadFault(Exception):
    """A read of the input failed."""


def tell(words):
    """Says something on standard error."""
    print(f"cpsolve: {words}", file=sys.stderr, flush=True)


def words_of(given):
    """The words that the program takes: none where one of them is no text, which `rt try` does not hand on."""
    try:
        return [os.fsencode(word).decode() for word in given]
    except UnicodeDecodeError:
        return []


def read_piece():
    """The next bytes of the input, none at its end. Raises ReadFault."""
    try:
        return os.read(INPUT, PIECE)
    except OSError as error:
        raise ReadFault from error


def read_input(words, given):
    """Copies the input to a file, where the command reads it. Raises ReadFault and InputTooLong."""
    if words and words[0] in READING:
        while piece := read_piece():
            given.write(piece)
            if given.tell() > MOST_INPUT:
                raise InputTooLong
    given.seek(0)


def show_seconds(run):
    """Waits for the end of a run. On a terminal the seconds that pass show that it is alive."""
    begun, shown = time.monotonic(), ""
    try:
        while run.poll() is None:
            if sys.stderr.isatty():
                shown = f"cpsolve: compiling and running, {time.monotonic() - begun:.0f} s"
                print(f"\r{shown}", end="", file=sys.stderr, flush=True)
            with suppress(subprocess.TimeoutExpired):
                run.wait(timeout=1)
    finally:
        if shown:
            print(f"\r{' ' * len(shown)}\r", end="", file=sys.stderr, flush=True)


def try_program(words, given):
    """Compiles and runs the program. Returns what it wrote, and what `rt try` said."""
    with tempfile.TemporaryFile() as wrote, tempfile.TemporaryFile() as said:
        run = begin(["rt", "try", *LIMITS, "--", *words], CRATE, stdin=given, stdout=wrote, stderr=said)
        try:
            show_seconds(run)
        finally:
            end(run)
        wrote.seek(0)
        said.seek(0)
        return wrote.read(), said.read()


def explain(said):
    """Says why the program did not run to its end."""
    if TOO_MUCH in said:
        tell("the output is over the 1 MiB that a run without proof hands on: run ./build first")
        return
    sys.stderr.buffer.write(INTERPRETER.sub(b"", said))
    tell("the program did not run to its end: see above what rt says of it")


def write(text):
    """Writes the program's text. Raises OSError."""
    while text:
        text = text[os.write(OUTPUT, text) :]


def run_program(words, given):
    """Runs the program on these words and this input, none where it cannot be read. Returns the exit status."""
    wrote, said = try_program(words, given or subprocess.DEVNULL)
    ended = ENDED.search(said)
    if not ended:
        explain(said)
        return CANNOT
    status = int(ended[1])
    # Words that are no command are refused before anything is read.
    if given is None and status != USAGE_FAULT:
        return READ_FAILED
    try:
        write(wrote)
    except OSError:
        return WRITE_FAILED
    return status


def main():
    exit_on_signals()
    # (Python has none where it is closed, and what is opened next takes its place)
    sys.stderr = sys.stderr or open(os.devnull, "w")
    words = words_of(sys.argv[1:])
    with tempfile.TemporaryFile() as given:
        try:
            read_input(words, given)
        except ReadFault:
            return run_program(words, None)
        except InputTooLong:
            tell("the input is over the 64 MiB that a run without proof hands on: run ./build first")
            return CANNOT
        return run_program(words, given)


sys.exit(main())
