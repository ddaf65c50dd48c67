"""The command that MiniZinc calls: reads a FlatZinc file, and writes its solutions.

What a CpModel cannot say is refused by the name of the constraint or the variable and its line: exit status 1,
`=====ERROR=====` on standard output, and the cause on standard error."""

import argparse
import os
import sys
import time
from pathlib import Path

from . import flatzinc
from .answers import ERROR, note, write
from .errors import Refused, Stopped
from .lifetime import Caller
from .session import Options, Session
from .solver import MAX_CONFLICTS, MAX_WORKERS, Solver, find_program
from .translation import Translation


def parser() -> argparse.ArgumentParser:
    """The options of the command."""
    found = argparse.ArgumentParser(prog="fzn-cpsolve", description="Solves a FlatZinc model by the program cpsolve.")
    found.add_argument("model", type=Path, help="the FlatZinc file")
    found.add_argument("-a", dest="all", action="store_true", help="all solutions, or each better one")
    found.add_argument("-n", dest="count", type=int, default=1, help="so many solutions; 0 is all")
    found.add_argument("-i", dest="intermediate", action="store_true", help="each better solution")
    found.add_argument("-f", dest="free", action="store_true", help="without the search annotations")
    found.add_argument("-p", dest="workers", type=int, default=0, help=f"workers, {MAX_WORKERS} at most")
    found.add_argument("-r", dest="seed", type=int, help="the seed")
    found.add_argument("-t", dest="milliseconds", type=int, default=0, help="the time limit, 0 for none")
    found.add_argument("-s", dest="statistics", action="store_true", help="write statistics")
    found.add_argument("-v", dest="verbose", action="store_true", help="say on standard error what is done")
    found.add_argument("--cpsolve", default="", help="the program")
    found.add_argument("--conflicts", type=int, default=0, help="conflicts of each worker; 0 for the most there are")
    found.add_argument("--gap", type=int, default=0, help="by how much the objective may miss the best one")
    found.add_argument("--interleave", nargs="?", const="true", default="false", help="workers take turns")
    found.add_argument("--model-only", action="store_true", help="write the CpModel, and do not solve it")
    return found


def program_options(arguments: argparse.Namespace) -> list[str]:
    """The options that the program itself takes."""
    found = []
    if arguments.workers > 0:
        found += ["--workers", str(min(MAX_WORKERS, arguments.workers))]
    if arguments.seed is not None:
        found += ["--seed", str(arguments.seed % (1 << 64))]
    if arguments.gap:
        found += ["--gap", str(arguments.gap)]
    if arguments.interleave == "true":
        found.append("--interleave")
    return found


def session_options(arguments: argparse.Namespace, began: float) -> Options:
    """What is asked for, in the words of a session."""
    return Options(
        count=0 if arguments.all else arguments.count,
        is_intermediate=arguments.all or arguments.intermediate,
        is_free=arguments.free,
        deadline=began + arguments.milliseconds / 1000 if arguments.milliseconds else None,
        conflicts=min(arguments.conflicts or MAX_CONFLICTS, MAX_CONFLICTS),
        has_statistics=arguments.statistics,
    )


def answer(arguments: argparse.Namespace, caller: Caller) -> None:
    """Translates the model and answers it."""
    began = time.monotonic()
    try:
        text = arguments.model.read_text(encoding="utf-8")
    except (OSError, UnicodeDecodeError) as error:
        raise Refused(f"it is not read: {error}") from None
    translation = Translation(flatzinc.read(text))
    if arguments.verbose:
        model = translation.model
        note(f"{len(model.domains)} variables, {len(model.constraints)} constraints, {time.monotonic() - began:.3f} s")
    if arguments.model_only:
        sys.stdout.write(translation.text(arguments.free))
        return
    solver = Solver(find_program(arguments.cpsolve), program_options(arguments), caller)
    Session(translation, solver, session_options(arguments, began)).run()


def main() -> int:
    """Answers a model; the exit status."""
    arguments = parser().parse_args()
    caller = Caller()
    caller.watch()
    try:
        answer(arguments, caller)
        sys.stdout.flush()
    except Refused as refused:
        write(ERROR)
        note(f"{arguments.model.name}: {refused}")
        return 1
    except Stopped:
        return 0
    except BrokenPipeError:
        # Nobody reads the answer; nothing more is written, at the end of the interpreter neither.
        os.dup2(os.open(os.devnull, os.O_WRONLY), sys.stdout.fileno())
    return 0


if __name__ == "__main__":
    sys.exit(main())
