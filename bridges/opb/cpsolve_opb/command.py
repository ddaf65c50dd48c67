"""The command `cpsolve-opb`: reads the words and the file, and writes the answer."""

from __future__ import annotations

import argparse
import os
import signal
import sys
from collections.abc import Callable
from pathlib import Path
from types import FrameType
from typing import NoReturn

from cpsolve_opb.answer import EXITS, answer_lines
from cpsolve_opb.dimacs import read_cnf, read_wcnf
from cpsolve_opb.instance import Instance, Refused, Unsupported
from cpsolve_opb.opb import read_opb
from cpsolve_opb.program import CallerGone, Program, ProgramFailed
from cpsolve_opb.search import GREATEST_BUDGET, Search, Status

READERS = {".opb": read_opb, ".cnf": read_cnf, ".wcnf": read_wcnf}
ENDING_SIGNALS = (signal.SIGTERM, signal.SIGINT, signal.SIGXCPU)
EPILOG = """exit status: 30 optimum found, 10 satisfiable, 20 unsatisfiable, 0 unknown, as in the competitions;
1 where the file is refused, and 2 for wrong words, each with one line on standard error"""


class Ended(Exception):
    """A signal asked the bridge to end."""


class Words(argparse.ArgumentParser):
    """A parser that says in one line what is wrong with the words."""

    def error(self, message: str) -> NoReturn:
        self.exit(2, f"cpsolve-opb: {message}\n")


def number(least: int, greatest: int) -> Callable[[str], int]:
    """A reader of whole numbers within bounds."""

    def read(word: str) -> int:
        if not word.isdecimal() or not least <= int(word) <= greatest:
            raise argparse.ArgumentTypeError(f"{word} is no number from {least} to {greatest}")
        return int(word)

    return read


def parse(words: list[str]) -> argparse.Namespace:
    """The words' meaning; wrong ones end the process with 2."""
    parser = Words(
        "cpsolve-opb",
        description="Solves a pseudo-Boolean, CNF or weighted CNF instance by cpsolve.",
        epilog=EPILOG,
        formatter_class=argparse.RawDescriptionHelpFormatter,
        allow_abbrev=False,
    )
    parser.add_argument("file", metavar="FILE", help="a file whose name ends in .opb, .cnf or .wcnf")
    parser.add_argument("--workers", type=number(1, 16), metavar="N", help="how many workers search, 1 to 16")
    conflicts = "ask once, with this budget of conflicts for each worker; else ask until the answer is known"
    parser.add_argument("--conflicts", type=number(0, GREATEST_BUDGET), metavar="N", help=conflicts)
    options = parser.parse_args(words)
    if Path(options.file).suffix not in READERS:
        parser.error(f"the name of {options.file} does not end in .opb, .cnf or .wcnf")
    return options


def read_file(name: str) -> Instance:
    """The instance of a file. Raises `Refused`."""
    try:
        text = Path(name).read_text(encoding="ascii", errors="replace")
    except OSError as error:
        raise Refused(f"cannot be read: {error.strerror}") from None
    return READERS[Path(name).suffix](text)


def say(line: str) -> None:
    """Writes a line of the answer at once."""
    print(line, flush=True)


def complain(why: object) -> None:
    """Writes a line to standard error."""
    print(f"cpsolve-opb: {why}", file=sys.stderr)


def hear(handler: Callable[[int, FrameType | None], None] | signal.Handlers) -> None:
    """What to do where a signal asks the bridge to end."""
    for one in ENDING_SIGNALS:
        signal.signal(one, handler)


def stop(*_: object) -> None:
    """Stops the search where it stands. No further signal is heard, so that what is known is written whole."""
    hear(signal.SIG_IGN)
    raise Ended


def solve(options: argparse.Namespace) -> int:
    """Reads the file, searches, and writes the answer; the exit status."""
    search = None
    try:
        search = Search(read_file(options.file), Program(options.workers), lambda cost: say(f"o {cost}"))
        status, exits = search.run(options.conflicts), EXITS
    except (Ended, CallerGone):
        status, exits = search.status() if search else Status.UNKNOWN, EXITS
    except ProgramFailed as failed:
        complain(failed)
        status, exits = search.status(), EXITS | {Status.UNKNOWN: 1}
    hear(signal.SIG_IGN)
    for line in answer_lines(status, search):
        say(line)
    return exits[status]


def main(words: list[str]) -> int:
    """Runs the command with these words, and gives its exit status."""
    options = parse(words)
    hear(stop)
    try:
        return solve(options)
    except Refused as refused:
        complain(f"{options.file}: {refused}")
        if isinstance(refused, Unsupported):
            say("s UNSUPPORTED")
    except OSError as error:
        # What is still to be written goes nowhere, so that the interpreter doesn't try it again at its end.
        os.dup2(os.open(os.devnull, os.O_WRONLY), sys.stdout.fileno())
        complain(f"cannot write: {error.strerror}")
    return 1
