"""Finds the program and runs it."""

import os
import shutil
import subprocess
from functools import cache

from cpsolve._checkout import CHECKOUT
from cpsolve.errors import ProgramNotFoundError, error_of

# The environment variable that names the program.
VARIABLE = "CPSOLVE"
# Where `./build` puts the program.
BUILT = CHECKOUT / "crates" / "cpsolve" / "out" / "cpsolve"
# Runs a command that the kernel kills when its parent ends, however that ends (util-linux).
DEATH_SIGNAL = ["setpriv", "--pdeathsig", "KILL", "--"]


def find_program() -> str:
    """The path of the program.

    It is the one that the variable CPSOLVE names. Without this variable it is `cpsolve` on the
    PATH, or else what `./build` put into the checkout that the package was installed from.
    Raises ProgramNotFoundError where there is none, and where CPSOLVE names none.
    """
    named = os.environ.get(VARIABLE)
    for candidate in [named] if named else ["cpsolve", str(BUILT)]:
        if found := shutil.which(candidate):
            return found
    if named:
        raise ProgramNotFoundError(f"{VARIABLE} names no program: {named}")
    raise ProgramNotFoundError(
        f"no program cpsolve: run {CHECKOUT}/build, put it on the PATH, or name it in {VARIABLE}"
    )


@cache
def death_signal() -> list[str]:
    """The words before a command that let it end with its parent, where the system has them."""
    if not shutil.which(DEATH_SIGNAL[0]):
        return []
    tried = subprocess.run([*DEATH_SIGNAL, "true"], capture_output=True, check=False)
    return DEATH_SIGNAL if tried.returncode == 0 else []


def run(words: list[str], text: str) -> str:
    """What the program writes where its arguments are `words` and its input is `text`.

    Raises the exception of the exit status where that is not 0. An exception that interrupts the
    call, such as KeyboardInterrupt, ends the program. So does the end of the caller by a signal,
    where the system has `setpriv`.
    """
    command = [*death_signal(), find_program(), *words]
    done = subprocess.run(command, input=text.encode(), stdout=subprocess.PIPE, check=False)
    written = done.stdout.decode(errors="replace")
    if done.returncode != 0:
        raise error_of(done.returncode, words, text, written)
    return written
