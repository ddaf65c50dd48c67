"""Runs the program to each exit status but 5, and compares all that it writes. See scripts/exits."""

import os
import shutil
import sys
import tempfile
from contextlib import ExitStack
from dataclasses import dataclass
from pathlib import Path

from processes import TO_COMPILE, begin, exit_on_signals, lanes, side_by_side

TOP = Path(__file__).resolve().parent.parent
# The parts of the repository that ./cpsolve needs where no program is built.
PARTS = ("cpsolve", "crates.txt", "HANDLES", "scripts")
CLOSED = None
INVALID = b"status: MODEL_INVALID\n"
USAGE = b"usage: cpsolve solve|validate|print|gen|demo|check\n"
RESPONSE = b"%response\nstatus: OPTIMAL\n%log\no\nl\n%end\n"
DEMO = b"variables: 1\nconstraints: 1\nstatus: OPTIMAL\nobjective_value: 0\n"


@dataclass
class Case:
    """The words, what they read (a text, a path, or nothing at all) and write to, and what is to come of them."""

    what: str
    words: str
    status: int
    text: bytes = b""
    given: object = b""
    to: str = ""


CASES = [
    Case("a valid model", "validate", 0, b"valid\n"),
    Case("a model without variables", "solve", 0, b"status: OPTIMAL\n"),
    Case("a text fault", "solve", 1, INVALID + b"# text fault at byte 21\n", b"variables { domain: 0"),
    Case("a broken rule", "validate", 1, INVALID + b"# invalid V1 at variable 0\n", b"variables { domain: [3, 2] }"),
    Case("a log of a model without variables", "solve --workers 1 --log", 0, RESPONSE.removeprefix(b"%response\n")),
    Case("a response that its log verifies", "check", 0, b"verified\n", RESPONSE),
    Case("a response without its log", "check", 6, b"not verified at line 1\n"),
    Case("a fault of the model before a response", "check", 1, INVALID + b"# text fault at byte 0\n", b"x\n" + RESPONSE),
    Case("no command", "", 2, USAGE),
    Case("an option out of its range", "solve --workers 0", 2, USAGE),
    Case("a log of four workers", "solve --log", 2, USAGE),
    Case("a size that its family does not have", "gen tour 1 5", 2, USAGE),
    Case("a demonstration, whatever the input", "demo knapsack 1 7", 0, DEMO, CLOSED),
    Case("an input that is a folder", "print", 3, given="/"),
    Case("an input that is closed", "solve", 3, given=CLOSED),
    Case("a usage fault, whatever the input", "solves", 2, USAGE, CLOSED),
    Case("an option out of its range, whatever the input", "solve --workers 0", 2, USAGE, "/"),
    Case("an output that is full", "validate", 4, to="/dev/full"),
    Case("an output that is closed", "validate", 4, to="closed"),
    Case("a fault for which there is no room", "solve", 4, given=b"x", to="/dev/full"),
]


@dataclass
class Run:
    """A case, with the files that it reads and writes."""

    case: Case
    given: object
    wrote: object
    said: object

    def start(self, command):
        """Begins the run."""

        def close():
            if self.case.given is CLOSED:
                os.close(0)
            if self.case.to == "closed":
                os.close(1)

        how = {"stdin": self.given, "stdout": self.wrote, "stderr": self.said, "preexec_fn": close}
        return begin([command, *self.case.words.split()], "/", **how)

    def fault(self, status):
        """What came of the run where that is not as it is to be."""
        text = b"" if self.case.to else read_back(self.wrote)
        # (./cpsolve says on standard error that it compiles; the program says nothing there)
        said = [line for line in read_back(self.said).splitlines() if not line.startswith(b"cpsolve: ")]
        if (status, text, said) == (self.case.status, self.case.text, []):
            return None
        wanted = f"exit {self.case.status} with {self.case.text}"
        return f"exits: {self.case.what}: wanted {wanted}, and saw exit {status} with {text}, error {said}"


def read_back(file):
    """What was written to a file."""
    file.seek(0)
    return file.read()


def opened(case, files):
    """The files of a case."""
    if isinstance(case.given, str):
        given = os.open(case.given, os.O_RDONLY)
        files.callback(os.close, given)
    else:
        given = files.enter_context(tempfile.TemporaryFile())
        given.write(case.given or b"")
        given.seek(0)
    full = case.to if case.to.startswith("/") else ""
    wrote = files.enter_context(open(full, "wb") if full else tempfile.TemporaryFile())
    return Run(case, given, wrote, files.enter_context(tempfile.TemporaryFile()))


def copy_sources(files):
    """A copy of the repository without a program. Returns its ./cpsolve."""
    room = Path(files.enter_context(tempfile.TemporaryDirectory(prefix="exits-")))
    for part in PARTS:
        (shutil.copytree if (TOP / part).is_dir() else shutil.copy2)(TOP / part, room / part)
    left_out = shutil.ignore_patterns("out", "must-fail", "further-edits")
    shutil.copytree(TOP / "crates", room / "crates", ignore=left_out)
    return room / "cpsolve"


def main():
    exit_on_signals()
    wrong = 0
    with ExitStack() as files:
        command = copy_sources(files) if sys.argv[1:] else TOP / "cpsolve"
        runs = [opened(case, files) for case in CASES]
        starts = [lambda run=run: run.start(command) for run in runs]
        for number, process in side_by_side(starts, lanes(TO_COMPILE)):
            if fault := runs[number].fault(process.returncode):
                wrong += 1
                print(fault, file=sys.stderr, flush=True)
    print(f"exits: {len(runs)} runs, {wrong} wrong")
    return 1 if wrong else 0


sys.exit(main())
