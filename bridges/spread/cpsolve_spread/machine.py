"""What runs on a machine: the program, on the text of a cube.

The coordinator sends this module by value, so a machine needs Dask and the program, and nothing else of this package.
"""

from __future__ import annotations

import os
import shutil
import subprocess

from distributed import get_worker

# The status where there is no program to run, as of a shell.
NO_PROGRAM = 127
# The most bytes that the checker reads.
MOST_BYTES = 2**26
# How often it looks whether its answer is still wanted, in seconds.
LOOK_EVERY = 0.5
# The kernel kills the program where the worker ends, however that ends (util-linux).
WITH_PARENT = ("setpriv", "--pdeathsig", "KILL", "--")


def find_program(named: str | None = None) -> str | None:
    """The path of the program that is named here, or by the variable CPSOLVE, or else is the PATH's."""
    return shutil.which(named or os.environ.get("CPSOLVE") or "cpsolve")


def solve(text: bytes, conflicts: int, with_log: bool, named: str | None) -> tuple[int, bytes]:
    """Runs one worker of the program on a cube: its exit status, and what it wrote.

    The log comes along where the answer is closed and the checker can read it. A run that nobody waits for is ended.
    """
    program = find_program(named)
    if not program:
        return NO_PROGRAM, b"there is no cpsolve on the PATH, and none that CPSOLVE names"
    words = [*WITH_PARENT, program, "solve", "--workers", "1", "--conflicts", str(conflicts)]
    with subprocess.Popen(
        words + ["--log"] * with_log, stdin=subprocess.PIPE, stdout=subprocess.PIPE, stderr=subprocess.DEVNULL
    ) as process:
        try:
            output = wait(process, text)
        finally:
            process.kill()
    response, mark, log = output.partition(b"%log\n")
    is_closed = response.startswith((b"status: OPTIMAL\n", b"status: INFEASIBLE\n"))
    is_sent = is_closed and len(text) + len(output) < MOST_BYTES
    return process.returncode, output if is_sent else response


def wait(process: subprocess.Popen[bytes], text: bytes) -> bytes:
    """What a process writes until it ends, or nothing where its answer is no longer wanted."""
    worker = get_worker()
    task = worker.state.tasks[worker.get_current_task()]
    given: bytes | None = text
    while task.state == "executing":
        try:
            return process.communicate(given, timeout=LOOK_EVERY)[0]
        except subprocess.TimeoutExpired:
            given = None
    return b""
