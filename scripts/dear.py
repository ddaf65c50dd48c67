"""Lists what of a crate's proof takes five seconds or more. See scripts/dear."""

import os
import re
import shutil
import subprocess
import sys
import tempfile
import time
from collections import Counter, defaultdict
from pathlib import Path

TOP = Path(__file__).resolve().parent.parent
# The seconds from which a function is listed, and a goal of one that is.
DEAR, DEAR_GOAL = 5.0, 0.5
# A line of the kit's trace: a module of the crate's proofs, and the goal or lemma in it that is proved next.
TRACED = re.compile(r"antt: cache: Rattle-\w+-proofs\.(\S+): (?:(\S+): not reused)?")
# The modules in which the kit checks a function.
OF_FUNCTION = re.compile(
    r"(.+?)\.(Mir|Code|Lts|Goals|Answers|Proof|Symbol|TheLink|Tie|Layout|Named|Reads|Kinds|Met|Carried|Statement)\b.*$"
)


def link(one, other):
    """Gives a file of a library, which no check writes into, a second name, or copies it where the clone is elsewhere."""
    try:
        os.link(one, other)
    except OSError:
        shutil.copy2(one, other)


def clone_into(room):
    """Clones what is committed, with the libraries that are built here."""
    clone = room / "cpsolve"
    subprocess.run(["git", "clone", "-q", TOP, clone], check=True)
    for library in TOP.glob("crates/*/out/rlib"):
        shutil.copytree(library, clone / library.relative_to(TOP), copy_function=link)
    return clone


def forget(crate):
    """Has the crate's next check begin from nothing. A check takes what any checkout on the machine kept of the same text, so
    the text becomes another."""
    shutil.rmtree(crate / "out", ignore_errors=True)
    (crate / "out" / "incremental").mkdir(parents=True)
    [top] = [file for file in (crate / "src" / "lib.rt", crate / "src" / "main.rt") if file.exists()]
    top.write_text(top.read_text() + "\n// Priced.\n")


def stretches(crate, flags):
    """Yields the seconds between two lines of the trace of a check, and the module and the goal that the first line names."""
    words, trace = ["rt", "check", "--jobs", "1", *flags], {**os.environ, "ANTT_CACHE_DEBUG": "1"}
    how = {"stdout": subprocess.PIPE, "stderr": subprocess.STDOUT, "text": True, "errors": "replace"}
    with subprocess.Popen(words, cwd=crate, env=trace, **how) as check:
        before, found = time.monotonic(), None
        for line in check.stdout:
            now = time.monotonic()
            if found:
                yield now - before, found[1], found[2]
            before, found = now, TRACED.match(line)
    if check.returncode:
        sys.exit(f"dear: {crate.name} is not proved: rt check in its folder says why")


def prices(crate, flags):
    """The seconds of each function and each module of lemmas, and for each its goals with theirs."""
    forget(crate)
    functions, goals = Counter(), defaultdict(Counter)
    for seconds, module, goal in stretches(crate, flags):
        found = OF_FUNCTION.match(module)
        name, part = (found[1], found[2]) if found else (module, "lemmas")
        functions[name] += seconds
        goals[name][goal or f"({part})"] += seconds
    return functions, goals


def main(words):
    flags = [word for word in words if word == "--test"]
    names = [word for word in words if word != "--test"]
    if not names:
        sys.exit("usage: scripts/dear [--test] NAME..")
    with tempfile.TemporaryDirectory() as room:
        clone = clone_into(Path(room))
        for crate in names:
            functions, goals = prices(clone / "crates" / crate, flags)
            print(f"{crate}: {functions.total():.0f} s")
            for name, seconds in functions.most_common():
                if seconds < DEAR:
                    break
                print(f"  {seconds:6.1f} {name}")
                for goal, price in goals[name].most_common():
                    if price >= DEAR_GOAL:
                        print(f"         {price:6.1f} {goal}")


main(sys.argv[1:])
