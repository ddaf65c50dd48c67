"""The command `cpsolve-spread`: reads the words and the model, and writes the response."""

from __future__ import annotations

import argparse
import asyncio
import os
import signal
import sys
from collections.abc import Callable
from typing import NoReturn

from cpsolve_spread.cluster import ClusterGone, open_cluster
from cpsolve_spread.cubes import cut
from cpsolve_spread.journal import Journal
from cpsolve_spread.known import Known
from cpsolve_spread.model import Model, Refused
from cpsolve_spread.program import InvalidModel, Program, ProgramFailed
from cpsolve_spread.search import GREATEST_BUDGET, Check, Search, Settings

CUBES_A_SLOT = 8
TLS_WORDS = {"tls_ca_file": "tls_ca_file", "tls_cert": "tls_client_cert", "tls_key": "tls_client_key"}
EPILOG = """exit status: 0 the response is written, 1 the model is refused, 2 wrong words, 3 a read failed, 4 a write
failed, and 125 where the search did not come to its end; the response then says what is known. docs/CLUSTER.md says how
to set up machines."""


class Words(argparse.ArgumentParser):
    """A parser that says in one line what is wrong with the words."""

    def error(self, message: str) -> NoReturn:
        self.exit(2, f"cpsolve-spread: {message}\n")


def number(least: int, greatest: int) -> Callable[[str], int]:
    """A reader of whole numbers within bounds."""

    def read(word: str) -> int:
        if not word.isdecimal() or not least <= int(word) <= greatest:
            raise argparse.ArgumentTypeError(f"{word} is no number from {least} to {greatest}")
        return int(word)

    return read


def parse(words: list[str]) -> argparse.Namespace:
    """The words' meaning; wrong ones end the process with 2."""
    processors = len(os.sched_getaffinity(0))
    parser = Words(
        "cpsolve-spread",
        description="Solves a model on many machines, over a scheduler of Dask, and checks what they answer.",
        epilog=EPILOG,
        formatter_class=argparse.RawDescriptionHelpFormatter,
        allow_abbrev=False,
    )
    add = parser.add_argument
    where = parser.add_mutually_exclusive_group()
    where.add_argument("--scheduler", metavar="ADDRESS", help="Dask's scheduler, such as tcp://10.0.0.1:8786")
    here = "solve so many cubes at once on this machine, instead; by default one a processor"
    where.add_argument("--local", type=number(1, 1024), default=processors, metavar="N", help=here)
    add("--cubes", type=number(1, 2**20), metavar="K", help="cut into so many cubes; by default eight a slot")
    most = "a cube's greatest budget of conflicts; by default until the answer is known"
    add("--conflicts", type=number(0, GREATEST_BUDGET), default=GREATEST_BUDGET, metavar="N", help=most)
    logs = "which answers the checker judges, by default all"
    add("--check", choices=[it.value for it in Check], default=Check.ALWAYS.value, help=logs)
    add("--journal", metavar="FILE", help="keep there what is closed, and go on from what it has")
    patience = "how long a run may last before a machine that is idle begins it too; by default 60"
    add("--patience", type=number(1, 10**6), default=60, metavar="SECONDS", help=patience)
    for name in TLS_WORDS:
        add(f"--{name.replace('_', '-')}", metavar="FILE", help="as of Dask's own commands")
    add("--gap", nargs="?", const="", help=argparse.SUPPRESS)
    options = parser.parse_args(words)
    if options.gap is not None:
        parser.error("--gap is not taken: each cube is closed only where nothing better is left in it")
    return options


async def solve(options: argparse.Namespace, text: bytes) -> int:
    """Solves the model and writes the response; the exit status."""
    program = Program()
    model, canonical = await program.read(text)
    journal = await open_journal(options.journal, program, model, canonical) if options.journal else None
    tls = {key: file for word, key in TLS_WORDS.items() if (file := getattr(options, word))}
    async with open_cluster(options.scheduler, options.local, tls, program.path) as cluster:
        if not cluster.workers:
            complain("waiting for a machine")
        slots = await cluster.first_slots()
        count = options.cubes or (journal and journal.cubes) or CUBES_A_SLOT * slots
        known = Known(model, cut(model, count), journal)
        settings = Settings(Check(options.check), options.conflicts, options.patience)
        search = Search(known, cluster, program, settings)
        failures = await run(search)
    print(*known.response(), sep="\n", flush=True)
    for why in failures:
        complain(why)
    return 125 if failures else 0


async def open_journal(name: str, program: Program, model: Model, canonical: str) -> Journal:
    """The journal of a model, whose solution is tested again. Raises `Refused`."""
    journal = Journal(name, canonical)
    values = journal.solution
    if values is None or (model.has_values(values) and await program.verifies_solution(model, values)):
        return journal
    raise Refused(f"the solution in the journal {name} is none")


async def run(search: Search) -> list[str]:
    """Runs a search to its end, or up to a signal; why it did not come to its end, a line for each cause."""
    task = asyncio.ensure_future(search.run())
    for number in (signal.SIGINT, signal.SIGTERM):
        asyncio.get_running_loop().add_signal_handler(number, task.cancel)
    try:
        await task
    except asyncio.CancelledError:
        return ["interrupted"]
    except ExceptionGroup as group:
        gone, others = group.split(ClusterGone)
        if others:
            raise others from None
        return [str(gone.exceptions[0])]
    return search.given_up


def complain(why: object) -> None:
    """Writes a line to standard error."""
    print(f"cpsolve-spread: {why}", file=sys.stderr)


def main(words: list[str]) -> int:
    """Runs the command with these words, and gives its exit status."""
    options = parse(words)
    try:
        text = sys.stdin.buffer.read()
    except OSError as error:
        complain(f"cannot read: {error.strerror}")
        return 3
    try:
        return asyncio.run(solve(options, text))
    except InvalidModel as invalid:
        print(invalid, end="", flush=True)
        return 1
    except Refused as refused:
        complain(refused)
        return 1
    except (ProgramFailed, ClusterGone) as failed:
        complain(failed)
        return 125
    except OSError as error:
        # What is still to be written goes nowhere, so that the interpreter does not try it again at its end.
        os.dup2(os.open(os.devnull, os.O_WRONLY), sys.stdout.fileno())
        complain(f"cannot write: {error.strerror}")
        return 4
