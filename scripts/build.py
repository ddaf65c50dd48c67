"""Proves the crates of the program and builds it, with all processors. `./build` calls it.

It runs `rt ci`, as the gate does, over a copy of the program's crates without tests and wrong bodies. So crates are
proved side by side, those first on which the longest chain stands, and a crate reads of the libraries below it their
statements alone, where under `rt lib` and `rt run` it reads their proofs too. What is proved is kept on the machine at
once: a build that was interrupted goes on where it was, and one after a gate has next to nothing to prove. Where a kit
keeps nothing between runs of `rt ci`, each build is one from nothing.
"""

import os
import re
import shutil
import subprocess
import sys
import tempfile
import time
from collections import deque
from contextlib import contextmanager
from pathlib import Path

from processes import TO_CHECK, begin, end, exit_on_signals, free_memory, lanes

TOP = Path(__file__).resolve().parent.parent
NAME = "cpsolve"
OUT = TOP / "crates" / NAME / "out"
# The program, and a file whose time is when the build that made it began to read the sources.
PROGRAM, BEGAN = OUT / NAME, OUT / f"{NAME}.began"
# The bytes of memory from which `rt ci` by itself lets few crates wait, whatever the number of processors.
AMPLE = 24_000_000_000
# By how much, in seconds, the times of files may lag behind the clock.
TICK = 0.01
# What `rt ci` says where a crate is proved, in this run or in an earlier one, and where it is not.
PROVED = re.compile(r"rt: (\w+) (?:proved|is kept)\b")
REFUSED = re.compile(r"rt: (\w+) NOT PROVED")
# How many of the last lines that it said are shown where it failed.
LINES_SHOWN = 40


def lines_of_program():
    """The lines of crates.txt that are about the program's crates, by crate, lowest first."""
    lines, uses = {}, {}
    for line in (TOP / "crates.txt").read_text().splitlines():
        head, colon, used = line.partition("#")[0].partition(":")
        if colon:
            crate = head.split()[0]
            lines[crate], uses[crate] = line, used.split()
    reached = {NAME}
    for crate in reversed(lines):
        if crate in reached:
            reached.update(uses[crate])
    return {crate: line for crate, line in lines.items() if crate in reached}


def copy_crates(lines, copy):
    """Copies the sources of the program's crates to what is a repository of its own."""
    left_out = shutil.ignore_patterns("out", "must-fail", "further-edits")
    for crate in lines:
        shutil.copytree(TOP / "crates" / crate, copy / "crates" / crate, ignore=left_out)
    (copy / "crates.txt").write_text("".join(f"{line}\n" for line in lines.values()))
    shutil.copy2(TOP / "HANDLES", copy)
    # `rt ci` wants to stand at the top of a repository, and asks nothing of git.
    (copy / ".git").mkdir()


def tell(words):
    """Says where the build is."""
    print(f"build: {words}", file=sys.stderr, flush=True)


def follow(said, count):
    """Follows what `rt ci` says, and tells each time that one of `count` crates is proved, up to the end or to a crate
    that is refused. Returns the last lines, and whether a crate is refused."""
    start, proved, last = time.monotonic(), 0, deque(maxlen=LINES_SHOWN)
    for line in said:
        # Such a line begins what is said of one crate.
        if line.startswith("== "):
            last.clear()
        last.append(line)
        if found := PROVED.match(line):
            proved += 1
            minutes, seconds = divmod(int(time.monotonic() - start), 60)
            tell(f"proved {found[1]} ({proved} of {count}), {minutes} min {seconds:02} s")
        elif REFUSED.match(line):
            return last, True
    return last, False


def environment(room):
    """The environment of `rt ci`, with a folder for temporary files.

    By itself `rt ci` starts a check only where two to four times the memory that it takes is free. With little memory
    the largest crates then wait until last, and so does all that stands on them, while processors are idle. With
    RT_JOBS it reckons no memory, but gives each check one processor, and not several where few crates are left. So it is
    slower where memory is ample.
    """
    few = {"RT_JOBS": str(lanes(TO_CHECK))} if free_memory() < AMPLE else {}
    return {**few, **os.environ, "TMPDIR": str(room)}


def prove_all(copy, room, count):
    """Proves all crates and builds the program, with a folder for temporary files. Returns whether that went well."""
    how = {"stdin": subprocess.DEVNULL, "stdout": subprocess.PIPE, "stderr": subprocess.STDOUT}
    run = begin(["rt", "ci"], copy, text=True, errors="replace", env=environment(room), **how)
    try:
        last, is_refused = follow(run.stdout, count)
        if not is_refused:
            run.wait()
    finally:
        end(run)
    if run.returncode:
        said = "".join(last).replace(f"{copy}/", "")
        tell(f"the program is not proved:\n{said.rstrip()}")
    return not run.returncode


@contextmanager
def folder(where=None):
    """A folder that is removed at the end, though a check that was told to end may write there for a moment longer."""
    room = Path(tempfile.mkdtemp(prefix="build-", dir=where))
    # (`rt` runs a program as nobody, in a folder below)
    room.chmod(0o711)
    try:
        yield room
    finally:
        for _ in range(50):
            shutil.rmtree(room, ignore_errors=True)
            if not room.exists():
                break
            time.sleep(0.1)


def build():
    """Builds the program. Returns whether it is proved."""
    lines = lines_of_program()
    OUT.mkdir(exist_ok=True)
    began = time.time() - TICK
    with folder(OUT) as copy, folder() as room:
        copy_crates(lines, copy)
        if not prove_all(copy, room, len(lines)):
            return False
        # Until both files stand there the program does not count.
        BEGAN.unlink(missing_ok=True)
        shutil.move(copy / "crates" / NAME / "out" / NAME, PROGRAM)
        BEGAN.touch()
        os.utime(BEGAN, (began, began))
    return True


def main():
    exit_on_signals()
    tell("proving and building the program, some 40 minutes from nothing on four processors")
    try:
        if not build():
            return 1
    except SystemExit:
        tell("interrupted: the next ./build goes on with what is proved by now")
        raise
    tell(f"the program is {PROGRAM}, and ./cpsolve runs it")
    return 0


sys.exit(main())
