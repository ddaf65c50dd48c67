"""Runs the crates of tests by `rt try --test`, side by side. See scripts/test."""

import re
import sys
import tempfile
import time
from contextlib import ExitStack
from pathlib import Path
from subprocess import DEVNULL, STDOUT

from processes import TO_COMPILE, begin, exit_on_signals, lanes, side_by_side

TOP = Path(__file__).resolve().parent.parent
# The seconds that one test may take. The longest read 64 MiB, with every access checked.
SECONDS = "1200"
RESULT = re.compile(r"^test result: .*?(\d+) passed; (\d+) failed;", re.M)
# A test that failed, with what is said of it up to the next one.
FAILED = re.compile(r"^test \S+ \.\.\. FAILED\n(?:(?!test ).*\n)*", re.M)


def crates_below():
    """The crates that each crate is compiled with, itself among them. crates.txt has the lowest first."""
    below = {}
    for line in (TOP / "crates.txt").read_text().splitlines():
        head, colon, used = line.partition("#")[0].partition(":")
        if colon:
            crate = head.split()[0]
            below[crate] = {crate}.union(*(below.get(it, ()) for it in used.split()))
    return below


def slowest_first(crates):
    """Crates in the order in which they begin: those first that have the most source to compile."""
    below = crates_below()

    def size(crate):
        sources = (it for name in below.get(crate, ()) for it in (TOP / "crates" / name / "src").rglob("*.rt"))
        return sum(it.stat().st_size for it in sources)

    return sorted(crates, key=size, reverse=True)


def report(crate, said, status, seconds):
    """Tells what came of a crate. Returns how many of its tests passed and failed: one failed where the run did."""
    result = RESULT.search(said)
    passed, failed = map(int, result.groups()) if result else (0, 0)
    if status and not failed:
        print(f"{crate}: its tests did not run to their end, after {seconds:.0f} s\n{said}", end="", flush=True)
        return passed, 1
    print(f"{crate}: {passed} passed, {failed} failed, after {seconds:.0f} s", flush=True)
    print("".join(FAILED.findall(said)), end="", flush=True)
    return passed, failed


def run_tests(crates):
    """Runs the tests of these crates. Returns how many passed and failed."""
    counts, begun = [], time.monotonic()
    with ExitStack() as files:
        said = [files.enter_context(tempfile.TemporaryFile("w+", errors="replace")) for _ in crates]

        def start(crate, file):
            words = ["rt", "try", "--test", "--seconds", SECONDS]
            return lambda: begin(words, TOP / "crates" / crate, stdin=DEVNULL, stdout=file, stderr=STDOUT)

        for number, run in side_by_side(map(start, crates, said), lanes(TO_COMPILE)):
            said[number].seek(0)
            seconds = time.monotonic() - begun
            counts.append(report(crates[number], said[number].read(), run.returncode, seconds))
    return [sum(column) for column in zip(*counts)]


def main():
    exit_on_signals()
    named = sys.argv[1:] or [it.name for it in TOP.glob("crates/*_tests")]
    passed, failed = run_tests(slowest_first(set(named)))
    print(f"{passed} passed, {failed} failed")
    return 1 if failed else 0


sys.exit(main())
