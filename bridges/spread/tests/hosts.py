"""Machines of a cluster, as processes of Dask: on addresses of the loopback device, or in network namespaces."""

import contextlib
import json
import os
import signal
import subprocess
import sys
import tempfile
import time
from pathlib import Path

from cpsolve_spread.machine import WITH_PARENT

HERE = Path(__file__).resolve().parent
COMMAND = HERE.parent / "cpsolve-spread"
STAND_IN = HERE / "stand_in"
# How long anything may take here, in seconds. The machine of the tests may be busy.
PATIENCE = 120


WAIT = """
import asyncio, sys
from distributed import Client

async def wait(address, count, seconds):
    async with Client(address, asynchronous=True) as client:
        await client.wait_for_workers(int(count), timeout=int(seconds))

asyncio.run(wait(*sys.argv[1:]))
"""


def wait_for(condition):
    """Waits until a condition holds, and returns what it returned."""
    end = time.monotonic() + PATIENCE
    while not (held := condition()):
        if time.monotonic() > end:
            raise TimeoutError
        time.sleep(0.1)
    return held


class Host:
    """A host with an address. `prefix` are the words before a command that runs there."""

    def __init__(self, address, prefix=()):
        self.address, self.prefix = address, list(prefix)

    def begin(self, *words, **environment):
        """Begins a command there, which says nothing and ends with the tests."""
        quiet = {"stdout": subprocess.DEVNULL, "stderr": subprocess.DEVNULL}
        variables = os.environ | {"CPSOLVE": str(STAND_IN)} | environment
        return subprocess.Popen([*WITH_PARENT, *self.prefix, *words], env=variables, start_new_session=True, **quiet)


LOOPBACK = Host("127.0.0.1")


def end(process):
    """Kills a process with all that it started in its session."""
    with contextlib.suppress(ProcessLookupError):
        os.killpg(process.pid, signal.SIGKILL)
    process.wait()


@contextlib.contextmanager
def scheduler(host, *words):
    """A scheduler of Dask on a host; its process and its address."""
    with tempfile.TemporaryDirectory() as folder:
        file = Path(folder, "scheduler")
        process = host.begin(
            "dask-scheduler", "--host", host.address, "--port", "0", "--no-dashboard", "--scheduler-file", file, *words
        )
        try:
            text = wait_for(lambda: file.exists() and file.read_text())
            yield process, json.loads(text)["address"]
        finally:
            end(process)


@contextlib.contextmanager
def worker(host, address, *words, **environment):
    """A worker on a host with two slots; its process."""
    process = host.begin(
        "dask-worker", address, "--host", host.address, "--nthreads", "2", "--no-nanny", "--no-dashboard",
        "--memory-limit", "0", "--death-timeout", "60", *words, **environment,
    )  # fmt: skip
    try:
        yield process
    finally:
        end(process)


def wait_for_workers(address, count, host):
    """Waits until a scheduler, as seen from a host, has so many workers."""
    words = [*host.prefix, sys.executable, "-c", WAIT, address, str(count), str(PATIENCE)]
    subprocess.run(words, check=True)


def begin(model, *words, host=LOOPBACK, stdout=subprocess.PIPE, **environment):
    """The command, begun with a model."""
    process = subprocess.Popen(
        [*host.prefix, str(COMMAND), *words], env=os.environ | {"CPSOLVE": str(STAND_IN)} | environment,
        stdin=subprocess.PIPE, stdout=stdout, stderr=subprocess.PIPE, text=True,
    )  # fmt: skip
    process.stdin.write(model)
    process.stdin.close()
    process.stdin = None
    return process


def finish(process):
    """What a command writes that was begun, and how it ends."""
    stdout, stderr = process.communicate(timeout=10 * PATIENCE)
    return subprocess.CompletedProcess(process.args, process.returncode, stdout, stderr)


def solve(model, *words, **how):
    """What the command writes about a model, and how it ends."""
    return finish(begin(model, *words, **how))


def solvers():
    """The processes that solve by the stand-in."""
    found = []
    for command in Path("/proc").glob("[0-9]*/cmdline"):
        with contextlib.suppress(OSError):
            words = command.read_bytes().split(b"\0")
            if str(STAND_IN).encode() in words and b"solve" in words:
                found.append(int(command.parent.name))
    return found


def told(ended):
    """The lines of a response without the solution."""
    return [line for line in ended.stdout.splitlines() if not line.startswith("solution")]
