"""Runs the program `cpsolve` once."""

import os
import re
import shutil
import subprocess
import time
from dataclasses import dataclass
from pathlib import Path

from .errors import Refused, Stopped, TimeIsUp
from .lifetime import Caller, ending_with_this_process

REPOSITORY = Path(__file__).resolve().parents[3]
BUILT_PROGRAM = REPOSITORY / "crates" / "cpsolve" / "out" / "cpsolve"
# The command of this repository, which may build the program first; a run of the bridge never does.
BUILDING_COMMAND = REPOSITORY / "cpsolve"

# The most bytes that the program reads, and its most workers and conflicts.
MAX_INPUT = 1 << 26
MAX_WORKERS = 16
MAX_CONFLICTS = 1_000_000_000
# Seconds after which it is looked again whether somebody still waits for the answer.
WATCH_INTERVAL = 0.25

STATUS = re.compile(r"^status: (\w+)", re.MULTILINE)
SOLUTION = re.compile(r"^solution: (-?\d+)$", re.MULTILINE)
BOUND = re.compile(r"^best_objective_bound: (-?\d+)$", re.MULTILINE)
BROKEN_RULE = re.compile(r"^# invalid (V\d+) at constraint (\d+)", re.MULTILINE)


@dataclass
class Answer:
    """What the program answers: a status, the values of a solution, a bound on the objective as the model shows it, and
    after how many seconds."""

    status: str
    values: list[int] | None
    bound: int | None
    seconds: float


class InvalidModel(Refused):
    """The program refuses the model; where a rule is broken at a constraint, which."""

    def __init__(self, cause: str) -> None:
        super().__init__(f"cpsolve refuses the model: {cause}")
        found = BROKEN_RULE.search(cause)
        self.rule, self.constraint = (found[1], int(found[2])) if found else ("", None)


def find_program(named: str) -> str:
    """The program: the one that is named, or that of the variable CPSOLVE, or on the PATH, or built in this repository."""
    named = named or os.environ.get("CPSOLVE", "")
    if named:
        return named
    found = shutil.which("cpsolve")
    if found and Path(found).resolve() != BUILDING_COMMAND:
        return found
    if os.access(BUILT_PROGRAM, os.X_OK):
        return str(BUILT_PROGRAM)
    raise Refused(
        "there is no program cpsolve: put it on the PATH, name it by CPSOLVE or --cpsolve, or build it by ./build"
    )


class Solver:
    """The program with its options. `seconds` is for how long it ran in all."""

    def __init__(self, program: str, options: list[str], caller: Caller) -> None:
        self.program, self.options, self.caller = program, options, caller
        self.seconds = 0.0

    def solve(self, text: str, conflicts: int, deadline: float | None) -> Answer:
        """Answers a model within a budget of conflicts. Where `deadline`, by the monotonic clock, comes first, the run is
        ended and `TimeIsUp` raised; `Stopped` where a signal comes or the caller is gone."""
        raw = text.encode()
        if len(raw) > MAX_INPUT:
            raise Refused(f"the CpModel has {len(raw)} bytes, and cpsolve reads {MAX_INPUT}")
        command = [self.program, "solve", "--conflicts", str(conflicts), *self.options]
        pipes = {"stdin": subprocess.PIPE, "stdout": subprocess.PIPE, "stderr": subprocess.PIPE}
        began = time.monotonic()
        try:
            process = subprocess.Popen(command, **pipes, preexec_fn=ending_with_this_process())
        except OSError as error:
            raise Refused(f"the program {self.program} was not started: {error.strerror}") from None
        try:
            output, errors = self.wait(process, raw, deadline)
        finally:
            if process.poll() is None:
                process.kill()
                process.wait()
            seconds = time.monotonic() - began
            self.seconds += seconds
        status, values, bound = self.read(process.returncode, output.decode(), errors.decode(errors="replace"))
        return Answer(status, values, bound, seconds)

    def wait(self, process: subprocess.Popen, raw: bytes, deadline: float | None) -> tuple[bytes, bytes]:
        """Gives the program its input and waits for what it writes."""
        given: bytes | None = raw
        while True:
            left = WATCH_INTERVAL if deadline is None else min(WATCH_INTERVAL, deadline - time.monotonic())
            try:
                return process.communicate(given, timeout=max(left, 0))
            except subprocess.TimeoutExpired:
                given = None
            if self.caller.is_gone():
                raise Stopped
            if deadline is not None and time.monotonic() >= deadline:
                raise TimeIsUp

    def read(self, code: int, output: str, errors: str) -> tuple[str, list[int] | None, int | None]:
        """The status, the values and the bound that the program wrote."""
        status = STATUS.search(output)
        if code == 1:
            cause = next((line for line in output.splitlines() if line.startswith("#")), output.strip())
            raise InvalidModel(cause)
        if code == 2:
            raise Refused(f"cpsolve does not know the options {' '.join(self.options)}")
        if code == 5:
            raise Refused("cpsolve ran out of memory")
        if code or not status:
            raise Refused(f"cpsolve ended with {code}, and wrote no answer: {errors.strip()[:200]}")
        values = None
        if status[1] in ("OPTIMAL", "FEASIBLE"):
            values = [int(value) for value in SOLUTION.findall(output)]
        bound = BOUND.search(output)
        return status[1], values, int(bound[1]) if bound else None
