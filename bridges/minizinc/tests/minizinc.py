"""Runs MiniZinc with the bridge as its solver."""

import json
import os
import re
import subprocess
import tempfile
from pathlib import Path
from typing import Any, NamedTuple

BRIDGE = Path(__file__).resolve().parents[1]
CONFIGURATION = BRIDGE / "cpsolve.msc"
COMMAND = BRIDGE / "fzn-cpsolve"
# Seconds that one run may take.
PATIENCE = 60


class Run(NamedTuple):
    """What a run wrote, and its exit status."""

    output: str
    errors: str
    status: int

    def solutions(self) -> list[dict[str, Any]]:
        """The solutions, written as JSON."""
        return [json.loads(part) for part in self.output.split("----------\n")[:-1]]

    def last_line(self) -> str:
        """The last line that was written."""
        return self.output.rstrip("\n").rpartition("\n")[2]

    def statistics(self) -> dict[str, str]:
        """The statistics, by name."""
        return dict(re.findall(r"^%%%mzn-stat: (\w+)=(.*)$", self.output, re.MULTILINE))


def run(command: list[str], text: str, suffix: str) -> Run:
    """Runs a command with a file of this text as its last word."""
    with tempfile.TemporaryDirectory() as room:
        path = Path(room, f"model{suffix}")
        path.write_text(text)
        words = [*command, str(path)]
        done = subprocess.run(words, capture_output=True, text=True, timeout=PATIENCE, cwd="/", check=False)
    return Run(done.stdout, done.stderr, done.returncode)


def solve(model: str, *options: str) -> Run:
    """Answers a MiniZinc model; from another folder than the bridge's, by the name that README's line gives it."""
    os.environ["MZN_SOLVER_PATH"] = str(BRIDGE)
    return run(["minizinc", "--solver", "cpsolve", "--output-mode", "json", *options], model, ".mzn")


def solve_flat(model: str, *options: str) -> Run:
    """Answers a FlatZinc model."""
    return run([str(COMMAND), *options], model, ".fzn")
