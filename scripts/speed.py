"""Measures the built program, beside clasp where it is installed. See scripts/speed."""

from __future__ import annotations

import argparse
import os
import re
import resource
import shutil
import signal
import subprocess
import sys
import tempfile
from collections.abc import Callable, Iterable, Iterator
from dataclasses import dataclass
from pathlib import Path
from statistics import geometric_mean

import speed_models as models
from processes import CANNOT

CONFLICTS = 8_000
MOST = 1_000_000_000
CLOSED = re.compile(r"^(status: (OPTIMAL|INFEASIBLE)|s (OPTIMUM FOUND|UNSATISFIABLE|SATISFIABLE))$", re.M)
COUNTED = re.compile(r"^(?:c )?Conflicts\s*:\s*(\d+)", re.M)
COLLECTED = re.compile(r"Collected\s*:\s*(\d+)")


@dataclass
class Run:
    """What a run wrote, and what it took."""

    text: str
    status: int
    seconds: float
    kibibytes: int
    is_late: bool

    def is_closed(self) -> bool:
        return not self.is_late and bool(CLOSED.search(self.text))


def run(words: list[str], seconds: float = 600) -> Run:
    """Runs a command to its end, or kills it after so many seconds by the clock."""
    with tempfile.TemporaryFile("w+", errors="replace") as said:
        began = subprocess.Popen(words, stdout=said, stderr=subprocess.STDOUT, stdin=subprocess.DEVNULL)
        is_late = False

        def kill(*_: object) -> None:
            nonlocal is_late
            is_late = True
            began.kill()

        signal.signal(signal.SIGALRM, kill)
        signal.setitimer(signal.ITIMER_REAL, seconds)
        _, status, used = os.wait4(began.pid, 0)
        signal.setitimer(signal.ITIMER_REAL, 0)
        began.returncode = os.waitstatus_to_exitcode(status)
        said.seek(0)
        return Run(said.read(), began.returncode, used.ru_utime + used.ru_stime, used.ru_maxrss, is_late)


class Bench:
    """The program that is measured, its peer if there is one, and a folder for models."""

    def __init__(self, program: str, folder: Path) -> None:
        self.program, self.folder = program, folder
        self.clasp = shutil.which("clasp")
        self.valgrind = shutil.which("valgrind")

    def model(self, name: str, text: str) -> Path:
        path = self.folder / name
        path.write_text(text)
        return path

    def solve(self, model: Path, *words: str, seconds: float = 600) -> Run:
        """Runs the program on a model, which it reads from its standard input."""
        line = 'program=$1; model=$2; shift 2; exec "$program" solve "$@" <"$model"'
        return run(["sh", "-c", line, "sh", self.program, str(model), *words], seconds)

    def ask_clasp(self, model: Path, *words: str, seconds: float = 600) -> Run:
        return run([self.clasp, str(model), "--stats", "--quiet=2", *words], seconds)

    def instructions(self, words: list[str], given: Path | None = None) -> int:
        """How many instructions a command takes, by valgrind."""
        room = f"--callgrind-out-file={self.folder / 'callgrind'}"
        line = 'given=$1; shift; exec "$@" <"$given"'
        told = run(["sh", "-c", line, "sh", str(given or os.devnull), self.valgrind, "--tool=callgrind", room, *words])
        return int(COLLECTED.search(told.text)[1])


def conflicts(bench: Bench) -> Iterator[str]:
    """The cost of a conflict: one worker, its first conflicts, less the run that may have none."""
    yield "| model | us a conflict | clasp, us | times |"
    yield "|---|---|---|---|"
    times = []
    for name, instance in models.MIDDLE.items():
        ours = cost(bench, bench.model(f"{name}.txt", instance.text()))
        theirs = clasp_cost(bench, bench.model(f"{name}.opb", instance.opb()))
        if ours and theirs:
            times.append(ours / theirs)
        yield f"| {name} | {shown(ours)} | {shown(theirs)} | {shown(ours / theirs if ours and theirs else None)} |"
    if times:
        yield f"| geometric mean of {len(times)} | | | {geometric_mean(times):.1f} |"


def cost(bench: Bench, model: Path, budget: int = CONFLICTS) -> float | None:
    """Microseconds a conflict, or nothing where the search ends before its budget."""
    whole = bench.solve(model, "--workers", "1", "--conflicts", str(budget))
    if whole.is_closed():
        return None
    first = bench.solve(model, "--workers", "1", "--conflicts", "0")
    return (whole.seconds - first.seconds) * 1e6 / budget


def clasp_cost(bench: Bench, model: Path) -> float | None:
    """The same of clasp, by the conflicts that it counts."""
    if not bench.clasp:
        return None
    whole = bench.ask_clasp(model, f"--solve-limit={CONFLICTS}")
    first = bench.ask_clasp(model, "--solve-limit=0")
    found = COUNTED.search(whole.text)
    count = int(found[1]) if found else 0
    return (whole.seconds - first.seconds) * 1e6 / count if count >= CONFLICTS // 2 else None


def kinds(bench: Bench) -> Iterator[str]:
    """The same of models with kinds that clasp does not have, for fewer conflicts."""
    yield "| model | us a conflict |"
    yield "|---|---|"
    texts = {f"{family} {size}": generated(bench, family, size) for family, size in (("jobshop", 16), ("tour", 14))}
    texts |= {"products 12": models.products(12, 3), "queens 40": models.queens(40)}
    texts["tables 10000"] = models.tables(10_000, 1)
    for name, text in texts.items():
        yield f"| {name} | {shown(cost(bench, bench.model('model.txt', text), 1_000))} |"


def generated(bench: Bench, family: str, size: int) -> str:
    """A model that the program itself draws."""
    return run([bench.program, "gen", family, str(size), "1"]).text


def small(bench: Bench) -> Iterator[str]:
    """Instructions of a whole run, from start to answer."""
    if not bench.valgrind:
        yield "valgrind is not installed"
        return
    yield "| model | million instructions | clasp | times |"
    yield "|---|---|---|---|"
    times = []
    for name, instance in models.SMALL.items():
        model, opb = bench.model(f"{name}.txt", instance.text()), bench.model(f"{name}.opb", instance.opb())
        ours = bench.instructions([bench.program, "solve", "--workers", "1", "--conflicts", str(MOST)], model) / 1e6
        theirs = bench.instructions([bench.clasp, str(opb), "--quiet=2"]) / 1e6 if bench.clasp else None
        if theirs:
            times.append(ours / theirs)
        yield f"| {name} | {shown(ours)} | {shown(theirs)} | {shown(ours / theirs if theirs else None)} |"
    if times:
        over = sum(it > 1.5 for it in times)
        yield f"| geometric mean of {len(times)}, {over} of them over 1.5 | | | {geometric_mean(times):.2f} |"


def closed(bench: Bench) -> Iterator[str]:
    """How many of the middle models four workers close in five seconds by the clock."""
    yield "| model | four workers, s | clasp, s |"
    yield "|---|---|---|"
    ours = theirs = 0
    for name, instance in models.MIDDLE.items():
        mine = bench.solve(bench.model(f"{name}.txt", instance.text()), "--conflicts", str(MOST), seconds=5)
        other = bench.ask_clasp(bench.model(f"{name}.opb", instance.opb()), seconds=5) if bench.clasp else None
        ours, theirs = ours + mine.is_closed(), theirs + bool(other and other.is_closed())
        yield f"| {name} | {ended(mine)} | {ended(other)} |"
    yield f"| closed, of {len(models.MIDDLE)} | {ours} | {theirs if bench.clasp else '-'} |"


def ended(one: Run | None) -> str:
    return "-" if one is None else f"{one.seconds:.2f}" if one.is_closed() else "open"


def growth(bench: Bench) -> Iterator[str]:
    """Processor seconds at one size and at twice that size."""
    yield "| models | s | s at twice the size | times |"
    yield "|---|---|---|---|"
    families: dict[str, tuple[Callable[[int], str], int, tuple[str, ...]]] = {
        "knapsack, three workers, no conflict": (
            lambda n: generated(bench, "knapsack", n), 1000, ("--workers", "3", "--conflicts", "0")),
        "covers": (lambda n: models.covers(5 * n, n, 1).text(), 1000, ("--workers", "1", "--conflicts", "100")),
        "queens": (models.queens, 200, ("--workers", "1", "--conflicts", "100")),
        "tables": (lambda n: models.tables(n, 1), 3000, ("--workers", "1", "--conflicts", "200")),
    }  # fmt: skip
    for name, (text, size, words) in families.items():
        once, twice = (bench.solve(bench.model("model.txt", text(n)), *words).seconds for n in (size, 2 * size))
        yield f"| {name}: {size}, {2 * size} | {once:.2f} | {twice:.2f} | {twice / max(once, 0.001):.1f} |"


def memory(bench: Bench) -> Iterator[str]:
    """Room of a clause of three literals for each of four workers, by two models of which one has twice the clauses."""
    yield "| clauses of three literals, four workers | MiB |"
    yield "|---|---|"
    rooms = []
    for count in (50_000, 100_000):
        model = bench.model("model.txt", models.clauses(count // 3, count, 1).text())
        rooms.append(bench.solve(model, "--conflicts", "0").kibibytes)
        yield f"| {count} | {rooms[-1] / 1024:.0f} |"
    yield f"| a clause and worker, KiB | {(rooms[1] - rooms[0]) / 50_000 / 4:.2f} |"


ROWS = {it.__name__: it for it in (conflicts, kinds, small, closed, growth, memory)}


def shown(number: float | None) -> str:
    """Three digits of a number, or a dash where there is none."""
    return "-" if number is None else f"{number:.0f}" if number >= 100 else f"{number:.3g}"


def measure(bench: Bench, rows: Iterable[str]) -> None:
    """Prints a table for each of these rows."""
    for row in rows:
        print(f"\n## {row}\n\n{ROWS[row].__doc__}\n", flush=True)
        for line in ROWS[row](bench):
            print(line, flush=True)


def main(words: list[str]) -> int:
    parser = argparse.ArgumentParser("scripts/speed", description=__doc__, allow_abbrev=False)
    parser.add_argument("--program", default=str(Path(__file__).parent.parent / "crates/cpsolve/out/cpsolve"))
    parser.add_argument("rows", nargs="*", metavar="ROW", help=f"of {', '.join(ROWS)}; all where none is named")
    options = parser.parse_args(words)
    unknown = [it for it in options.rows if it not in ROWS]
    if unknown:
        parser.error(f"there is no row {unknown[0]}")
    if not os.access(options.program, os.X_OK):
        print(f"speed: {options.program} is no program: run ./build first", file=sys.stderr)
        return CANNOT
    resource.setrlimit(resource.RLIMIT_CORE, (0, 0))
    with tempfile.TemporaryDirectory() as folder:
        measure(Bench(options.program, Path(folder)), options.rows or ROWS)
    return 0


sys.exit(main(sys.argv[1:]))
