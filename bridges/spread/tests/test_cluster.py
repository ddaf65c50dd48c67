"""The command over Dask, with the stand-in: machines are processes on addresses of the loopback device."""

import contextlib
import os
import shutil
import signal
import subprocess
import tempfile
import unittest
from pathlib import Path

from hosts import LOOPBACK, Host, begin, end, finish, scheduler, solve, solvers, told
from hosts import wait_for, wait_for_workers, worker
from models import knapsack, pigeons

ITEMS = knapsack([5, 4, 3, 2, 1], [7, 6, 4, 3, 2], 6)
ANSWER = ["status: OPTIMAL", "objective_value: 9", "best_objective_bound: 9"]


class Local(unittest.TestCase):
    def test_four_at_once(self):
        ended = solve(ITEMS, "--local", "4", "--cubes", "8")
        self.assertEqual((told(ended), ended.returncode), ([*ANSWER, "# cubes: 8 verified"], 0), ended.stderr)
        ended = solve(pigeons(3), "--local", "4")
        self.assertEqual((told(ended), ended.stderr), (["status: INFEASIBLE", "# cubes: 32 verified"], ""))

    def test_refused_by_name(self):
        for words, text, status, why in (
            (["--gap", "2"], ITEMS, 2, "--gap is not taken"),
            (["--gap=2"], ITEMS, 2, "--gap is not taken"),
            (["--cubes", "0"], ITEMS, 2, "0 is no number from 1"),
            ([], ITEMS + "assumptions: [0]\n", 1, "assumptions are not taken"),
            (["--journal", "/nowhere/journal"], ITEMS, 1, "/nowhere/journal: No such file"),
            (["--scheduler", "tcp://127.0.0.1:1"], ITEMS, 125, "no scheduler at tcp://127.0.0.1:1"),
        ):
            ended = solve(text, *words)
            self.assertEqual((ended.stdout, ended.returncode), ("", status))
            self.assertIn(why, ended.stderr)
            self.assertEqual(len(ended.stderr.splitlines()), 1)
        ended = solve(ITEMS, CPSOLVE="/nowhere/cpsolve")
        self.assertEqual((ended.stdout, ended.returncode), ("", 125))

    def test_output_that_cannot_be_written(self):
        with open("/dev/full", "w") as full:
            ended = finish(begin(ITEMS, "--local", "1", "--cubes", "2", stdout=full))
        why = "cpsolve-spread: cannot write: No space left on device\n"
        self.assertEqual((ended.stderr, ended.returncode), (why, 4))

    def test_interrupted(self):
        process = begin(pigeons(3), "--local", "1", "--cubes", "4", STAND_IN="slow")
        wait_for(solvers)
        process.send_signal(signal.SIGTERM)
        ended = finish(process)
        self.assertEqual((ended.stderr, ended.returncode), ("cpsolve-spread: interrupted\n", 125))
        self.assertEqual(told(ended)[0], "status: UNKNOWN")
        wait_for(lambda: not solvers())


class Machines(unittest.TestCase):
    """A scheduler, two honest machines, and in some tests a third one."""

    def setUp(self):
        self.stack = contextlib.ExitStack()
        self.addCleanup(self.stack.close)
        self.scheduler, self.address = self.stack.enter_context(scheduler(LOOPBACK))
        for number in (2, 3):
            self.stack.enter_context(worker(Host(f"127.0.0.{number}"), self.address))

    def add(self, fault):
        """A third machine that misbehaves; its process."""
        process = self.stack.enter_context(worker(Host("127.0.0.4"), self.address, STAND_IN=fault))
        wait_for_workers(self.address, 3, LOOPBACK)
        return process

    def begin(self, *words):
        """The command, begun with a model. A run that lasts three seconds begins elsewhere too."""
        return begin(ITEMS, "--scheduler", self.address, "--cubes", "12", "--patience", "3", *words)

    def assert_right(self, process):
        ended = finish(process)
        self.assertEqual((told(ended), ended.stderr, ended.returncode), ([*ANSWER, "# cubes: 12 verified"], "", 0))

    def test_one_forges(self):
        self.add("forge")
        self.assert_right(self.begin())

    def test_one_hangs(self):
        self.add("hang")
        self.assert_right(self.begin())
        # Machines stop solving what nobody waits for.
        wait_for(lambda: not solvers())

    def test_one_stops(self):
        """A worker that is stopped answers nothing, not even Dask."""
        os.killpg(self.add("slow").pid, signal.SIGSTOP)
        self.assert_right(self.begin())

    def test_one_is_killed(self):
        process = self.add("slow")
        coordinator = self.begin()
        wait_for(solvers)
        end(process)
        self.assert_right(coordinator)

    def test_coordinator_is_killed(self):
        self.add("")
        with tempfile.TemporaryDirectory() as folder:
            journal = Path(folder, "journal")
            coordinator = self.begin("--journal", str(journal))
            wait_for(lambda: journal.exists() and journal.read_text().count("closed") >= 3)
            coordinator.kill()
            finish(coordinator)
            wait_for(lambda: not solvers())
            closed = journal.read_text().count("closed")
            self.assert_right(self.begin("--journal", str(journal)))
            self.assertLess(closed, 12)
            self.assertEqual(journal.read_text().count("closed"), 12)

    def test_scheduler_is_killed(self):
        self.add("slow")
        coordinator = self.begin()
        wait_for(solvers)
        end(self.scheduler)
        ended = finish(coordinator)
        self.assertEqual((ended.stderr, ended.returncode), ("cpsolve-spread: the scheduler is gone\n", 125))


@unittest.skipUnless(shutil.which("openssl"), "certificates need openssl")
class Tls(unittest.TestCase):
    def test_only_with_a_certificate(self):
        with contextlib.ExitStack() as stack:
            folder = Path(stack.enter_context(tempfile.TemporaryDirectory()))
            certificate, key = folder / "certificate", folder / "key"
            made = ["openssl", "req", "-x509", "-newkey", "rsa:2048", "-nodes", "-subj", "/CN=spread", "-days", "2"]
            subprocess.run([*made, "-out", certificate, "-keyout", key], check=True, capture_output=True)
            words = ["--tls-ca-file", str(certificate), "--tls-cert", str(certificate), "--tls-key", str(key)]
            _, address = stack.enter_context(scheduler(LOOPBACK, *words))
            self.assertRegex(address, "^tls:")
            stack.enter_context(worker(Host("127.0.0.2"), address, *words))
            ended = solve(ITEMS, "--scheduler", address, "--cubes", "2", *words)
            self.assertEqual(told(ended), [*ANSWER, "# cubes: 2 verified"], ended.stderr)
            ended = solve(ITEMS, "--scheduler", address.replace("tls:", "tcp:"))
            self.assertEqual((ended.stdout, ended.returncode), ("", 125))


if __name__ == "__main__":
    unittest.main()
