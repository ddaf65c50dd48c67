"""A solver ends when its caller is interrupted, in whatever way. These tests read /proc, so they
run on Linux alone."""

import os
import signal
import subprocess
import sys
import time
import unittest
from pathlib import Path

import cpsolve
from programs import pigeons

TESTS = Path(__file__).resolve().parent
# A caller that solves for as long as it is let.
CALLER = """
import sys
sys.path[:0] = {paths!r}
import cpsolve
from programs import pigeons
cpsolve.solve(pigeons(13), workers=2, conflicts=10**9)
"""
# How long a solver may take to begin and to end, in seconds.
PATIENCE = 20


def children(process):
    """The processes that a process started, by their ids."""
    found = set()
    for stat in Path("/proc").glob("[0-9]*/stat"):
        try:
            fields = stat.read_text().rpartition(")")[2].split()
        except (FileNotFoundError, ProcessLookupError):
            continue
        if int(fields[1]) == process:
            found.add(int(stat.parent.name))
    return found


def runs(process):
    """Whether a process exists and is no zombie."""
    try:
        return Path(f"/proc/{process}/stat").read_text().rpartition(")")[2].split()[0] != "Z"
    except (FileNotFoundError, ProcessLookupError):
        return False


def solves(process):
    """Whether a process is a solver: its first argument is `solve`."""
    try:
        return Path(f"/proc/{process}/cmdline").read_bytes().split(b"\0")[1] == b"solve"
    except (FileNotFoundError, ProcessLookupError, IndexError):
        return False


def wait_for(condition):
    """Waits until a condition holds; False where it does not in time."""
    end = time.monotonic() + PATIENCE
    while not (held := condition()) and time.monotonic() < end:
        time.sleep(0.02)
    return held


@unittest.skipUnless(sys.platform == "linux", "reads /proc")
class Interrupts(unittest.TestCase):
    def setUp(self):
        words = [sys.executable, "-c", CALLER.format(paths=[str(TESTS), *sys.path])]
        self.caller = subprocess.Popen(words, stderr=subprocess.PIPE)
        self.addCleanup(self.caller.stderr.close)
        self.addCleanup(self.caller.wait)
        self.addCleanup(self.caller.kill)

    def solver(self):
        """The solver that the caller started, as soon as it runs."""
        found = wait_for(lambda: list(filter(solves, children(self.caller.pid))))
        self.assertTrue(found, "no solver was started")
        return found[0]

    def end_caller_by(self, number):
        solver = self.solver()
        # By then it has read the model and searches.
        time.sleep(0.3)
        self.assertTrue(runs(solver))
        self.caller.send_signal(number)
        self.assertNotEqual(self.caller.wait(PATIENCE), 0)
        if not wait_for(lambda: not runs(solver)):
            os.kill(solver, signal.SIGKILL)
            self.fail("the solver still runs")

    def test_an_interrupt_from_the_keyboard(self):
        self.end_caller_by(signal.SIGINT)
        self.assertIn(b"KeyboardInterrupt", self.caller.stderr.read())

    def test_a_termination(self):
        self.end_caller_by(signal.SIGTERM)

    def test_a_kill(self):
        self.end_caller_by(signal.SIGKILL)

    def test_a_solver_that_is_killed_is_an_exception_of_its_caller(self):
        os.kill(self.solver(), signal.SIGKILL)
        self.assertEqual(self.caller.wait(PATIENCE), 1)
        said = self.caller.stderr.read()
        self.assertIn(b"ProgramFailedError: the program ended by signal 9", said)


@unittest.skipUnless(hasattr(signal, "setitimer"), "needs a timer")
class Exceptions(unittest.TestCase):
    def test_an_exception_of_a_signal_handler_ends_the_solver(self):
        def stop(*_):
            raise TimeoutError

        before = signal.signal(signal.SIGALRM, stop)
        self.addCleanup(signal.signal, signal.SIGALRM, before)
        signal.setitimer(signal.ITIMER_REAL, 0.5)
        with self.assertRaises(TimeoutError):
            cpsolve.solve(pigeons(13), workers=1, conflicts=10**9)
        self.assertEqual(list(filter(runs, children(os.getpid()))), [])


if __name__ == "__main__":
    unittest.main()
