"""Finds and runs the program, and ends it as soon as the bridge itself is ended."""

from __future__ import annotations

import ctypes
import os
import shutil
import signal
import subprocess
from dataclasses import dataclass
from pathlib import Path

from cpsolve_opb.instance import Refused

BUILT = Path(__file__).resolve().parents[3] / "crates" / "cpsolve" / "out" / "cpsolve"
# A Linux call: the kernel sends the process a signal when its parent is gone.
SET_PARENT_DEATH_SIGNAL = 1
LIBC = ctypes.CDLL(None)
# How often it looks whether its caller is still there, in seconds.
LOOK_EVERY = 0.1


class CallerGone(Exception):
    """The process that started the bridge has ended."""


class ProgramFailed(Exception):
    """The program gave no answer; why, in one line."""


@dataclass
class Response:
    """The program's answer."""

    status: str
    solution: list[bool]


def find_program() -> str:
    """The path of the program. Raises `Refused`."""
    named = os.environ.get("CPSOLVE")
    found = shutil.which(named or "cpsolve") or (str(BUILT) if not named and os.access(BUILT, os.X_OK) else None)
    if not found:
        nowhere = "there is no cpsolve on the PATH, none that CPSOLVE names, and none that is built here"
        raise Refused(f"cannot run {named}" if named else nowhere)
    return found


class Program:
    """The program with its options, and the process that it has while it runs."""

    def __init__(self, workers: int | None) -> None:
        self.words = [find_program(), "solve"] + (["--workers", str(workers)] if workers else [])
        self.caller = os.getppid()
        self.process: subprocess.Popen[str] | None = None

    def solve(self, model: str, conflicts: int) -> Response:
        """The answer to a model. Raises `ProgramFailed`, and `CallerGone`; on any exception no process is left."""
        own = os.getpid()

        def die_with_parent() -> None:
            LIBC.prctl(SET_PARENT_DEATH_SIGNAL, signal.SIGKILL)
            if os.getppid() != own:
                os._exit(1)

        words = [*self.words, "--conflicts", str(conflicts)]
        pipe = subprocess.PIPE
        try:
            self.process = subprocess.Popen(
                words, stdin=pipe, stdout=pipe, text=True, start_new_session=True, preexec_fn=die_with_parent
            )
            return read_response(self.wait(model), self.process.returncode)
        except OSError as error:
            raise ProgramFailed(f"cannot run {words[0]}: {error.strerror}") from None
        finally:
            self.end()

    def wait(self, model: str) -> str:
        """What the process writes until it ends."""
        text: str | None = model
        while True:
            try:
                return self.process.communicate(text, timeout=LOOK_EVERY)[0]
            except subprocess.TimeoutExpired:
                text = None
                if os.getppid() != self.caller:
                    raise CallerGone from None

    def end(self) -> None:
        """Kills the process and what it started, if it still runs."""
        if self.process and self.process.poll() is None:
            os.killpg(self.process.pid, signal.SIGKILL)
            self.process.wait()


def read_response(text: str, status: int) -> Response:
    """The response that the program wrote before it ended with `status`. Raises `ProgramFailed`."""
    if status:
        last = (text.strip().splitlines() or ["it wrote nothing"])[-1]
        raise ProgramFailed(f"cpsolve ended with status {status}: {last}")
    fields = [line.split(": ", 1) for line in text.splitlines()]
    values = [value == "1" for name, value in fields if name == "solution"]
    return Response(fields[0][1], values)
