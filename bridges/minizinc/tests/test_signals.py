"""A program that is ended ends the solver that it started at once, and what was found is not lost."""

import os
import shutil
import signal
import subprocess
import tempfile
import threading
import time
import unittest
from pathlib import Path

from fzn_cpsolve.solver import find_program

from .minizinc import BRIDGE, COMMAND

# Far more than the program closes in the time of this test: pigeons in holes, by differences, and a goal beside them.
COUNT = 14
PIGEONS = "".join(
    f"constraint int_ne(x{one}, x{other});\n" for one in range(1, COUNT + 1) for other in range(one + 1, COUNT + 1)
)
HARD = "".join(f"var 1..{COUNT - 1}: x{one};\n" for one in range(1, COUNT + 1)) + PIGEONS + "solve satisfy;\n"
GOAL = "var 0..9: x; solve minimize x;"
# A program that finds a solution in its first run, and comes to no end in its second.
SLOW_PROGRAM = """#!/bin/sh
cat >/dev/null
if [ -e "$0.ran" ]; then exec sleep 1000; fi
touch "$0.ran"
printf 'status: FEASIBLE\\nsolution: 5\\nobjective_value: 5\\nbest_objective_bound: 0\\n'
"""
QUICK = "var 3..5: x :: output_var;\nconstraint int_le(x, 3);\nsolve satisfy;\n"
# Seconds within which all has to be over.
AT_ONCE = 2
# Seconds within which an answer has to come.
PATIENCE = 30


def running(mark: str) -> list[int]:
    """The processes whose environment has this mark."""
    found = []
    for folder in Path("/proc").iterdir():
        if folder.name.isdigit():
            try:
                environment = (folder / "environ").read_bytes()
                state = (folder / "stat").read_text().rpartition(") ")[2][0]
            except OSError:
                continue
            if mark.encode() in environment and state != "Z":
                found.append(int(folder.name))
    return found


class Signals(unittest.TestCase):
    """Each way in which a run may be ended from outside."""

    def setUp(self) -> None:
        self.room = tempfile.TemporaryDirectory()
        self.addCleanup(self.room.cleanup)
        self.mark = f"CPSOLVE_TEST={self.room.name}"
        name, value = self.mark.split("=")
        self.environment = {**os.environ, name: value, "MZN_SOLVER_PATH": str(BRIDGE), "CPSOLVE": find_program("")}

    def launch(self, model: str, *options: str) -> subprocess.Popen:
        """Starts MiniZinc."""
        path = Path(self.room.name, "model.fzn" if model is HARD else "model.mzn")
        path.write_text(model)
        process = subprocess.Popen(
            ["minizinc", "--solver", "cpsolve", *options, str(path)],
            env=self.environment,
            stdout=subprocess.PIPE,
            stderr=subprocess.PIPE,
            text=True,
        )
        self.addCleanup(self.end, process)
        return process

    def start(self, model: str, *options: str) -> subprocess.Popen:
        """Starts MiniZinc, and waits until the solver runs."""
        process = self.launch(model, *options)
        self.wait_until(lambda: len(self.solvers()) == 1, PATIENCE)
        return process

    def use_slow_program(self) -> None:
        """From now on the program finds one solution and no end."""
        program = Path(self.room.name, "cpsolve")
        program.write_text(SLOW_PROGRAM)
        program.chmod(0o755)
        self.environment["CPSOLVE"] = str(program)

    def end(self, process: subprocess.Popen) -> None:
        """Leaves nothing behind, whatever failed."""
        process.kill()
        process.wait()
        for stream in (process.stdout, process.stderr):
            if stream:
                stream.close()
        for number in running(self.mark):
            os.kill(number, signal.SIGKILL)

    def solvers(self) -> list[int]:
        """The runs of the program, or of the slow one in its second run."""
        programs = {Path(name).resolve() for name in (find_program(""), shutil.which("sleep"))}
        return [number for number in running(self.mark) if Path(f"/proc/{number}/exe").resolve() in programs]

    def bridges(self) -> list[int]:
        """The runs of the bridge."""
        name = str(COMMAND).encode()
        return [n for n in running(self.mark) if name in Path(f"/proc/{n}/cmdline").read_bytes()]

    def wait_until(self, condition, seconds: float = AT_ONCE) -> None:
        """Waits until a condition holds, and fails where that takes too long."""
        end = time.monotonic() + seconds
        while not condition():
            self.assertLess(time.monotonic(), end, f"still running: {running(self.mark)}")
            time.sleep(0.05)

    def test_signals_to_minizinc(self) -> None:
        """MiniZinc is asked to end, or is killed without a word."""
        for number in (signal.SIGTERM, signal.SIGINT, signal.SIGKILL):
            with self.subTest(number):
                process = self.start(HARD)
                process.send_signal(number)
                process.wait(timeout=AT_ONCE)
                self.wait_until(lambda: not running(self.mark))

    def test_signals_to_bridge(self) -> None:
        """The bridge itself is ended; its solver goes with it, and MiniZinc comes to its end."""
        for number in (signal.SIGTERM, signal.SIGINT, signal.SIGHUP, signal.SIGKILL):
            with self.subTest(number):
                self.start(HARD)
                (bridge,) = self.bridges()
                os.kill(bridge, number)
                self.wait_until(lambda: not running(self.mark))

    def start_bridge(self, model: str) -> subprocess.Popen:
        """Starts the bridge itself."""
        path = Path(self.room.name, "model.fzn")
        path.write_text(model)
        return subprocess.Popen([str(COMMAND), str(path)], env=self.environment, stdout=subprocess.PIPE, text=True)

    def test_reader_gone(self) -> None:
        """Nobody reads the answer any more, though the caller is there."""
        process = self.start_bridge(HARD)
        self.addCleanup(self.end, process)
        self.wait_until(lambda: len(self.solvers()) == 1, PATIENCE)
        process.stdout.close()
        self.wait_until(lambda: not running(self.mark))
        process.wait()

    def test_thread_gone(self) -> None:
        """Where only the thread ended that called, the caller still gets its answer."""
        started: list[subprocess.Popen] = []
        thread = threading.Thread(target=lambda: started.append(self.start_bridge(QUICK)))
        thread.start()
        thread.join()
        output, _ = started[0].communicate(timeout=PATIENCE)
        self.assertEqual(output, "x = 3;\n----------\n")

    def test_time_limits(self) -> None:
        """`-t` of MiniZinc: what was found is written, and nothing is left."""
        self.use_slow_program()
        process = self.launch(GOAL, "-t", "2000")
        output, errors = process.communicate(timeout=PATIENCE)
        self.assertEqual(output, "x = 5;\n----------\n", errors)
        self.wait_until(lambda: not running(self.mark))

    def test_unknown_in_time(self) -> None:
        """Where nothing was found in time that is said."""
        process = self.launch(HARD, "-t", "500")
        output, _ = process.communicate(timeout=PATIENCE)
        self.assertIn("=====UNKNOWN=====", output)
        self.wait_until(lambda: not running(self.mark))

    def test_best_is_kept(self) -> None:
        """A bridge that is asked to end writes the best solution that it has."""
        self.use_slow_program()
        process = self.start(GOAL, "-t", "60000")
        os.kill(self.bridges()[0], signal.SIGTERM)
        output, errors = process.communicate(timeout=PATIENCE)
        self.assertEqual(output, "x = 5;\n----------\n", errors)
        self.wait_until(lambda: not running(self.mark))


if __name__ == "__main__":
    unittest.main()
