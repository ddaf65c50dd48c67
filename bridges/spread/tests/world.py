"""Machines and a checker in this very process: for tests of the search without Dask, and without a clock."""

import asyncio
import importlib.machinery
import importlib.util
from collections import Counter
from pathlib import Path

from cpsolve_spread.cluster import Failed, Lost, Output
from cpsolve_spread.cubes import cut
from cpsolve_spread.known import Known
from cpsolve_spread.model import read_model
from cpsolve_spread.program import Program
from cpsolve_spread.search import Search, Settings


def load_stand_in():
    """The stand-in as a module."""
    loader = importlib.machinery.SourceFileLoader("stand_in", str(Path(__file__).parent / "stand_in"))
    module = importlib.util.module_from_spec(importlib.util.spec_from_loader("stand_in", loader))
    loader.exec_module(module)
    return module


stand_in = load_stand_in()


class Here(Program):
    """The stand-in's checker."""

    def __init__(self):
        self.checked = []

    async def verifies(self, text, response, log):
        self.checked.append(text)
        return stand_in.check((text + b"%response\n" + response + b"%log\n" + log).decode())


class Machines:
    """One worker with one slot on each machine, by its name; a machine may have a fault of the stand-in's.

    `sent` has for each run its machine, its text and its budget.
    """

    def __init__(self, **faults):
        self.faults = faults
        self.busy = {}
        self.sent = []
        self.count = 0

    @property
    def workers(self):
        return dict.fromkeys(self.faults, 1)

    def elsewhere(self, avoided):
        return [name for name in self.faults if name not in avoided]

    def new_key(self, cube):
        self.count += 1
        return f"{cube}-{self.count}"

    async def machine_of(self, key):
        return next((name for name, run in self.busy.items() if run == key), None)

    async def solve(self, key, text, conflicts, with_log, workers):
        while not (free := [it for it in workers or self.faults if it in self.faults and it not in self.busy]):
            await asyncio.sleep(0)
        name, fault = free[0], self.faults[free[0]]
        self.busy[name] = key
        self.sent.append((name, text.decode(), conflicts))
        try:
            await asyncio.sleep(0)
            while fault == "hang":
                await asyncio.sleep(0.01)
            if fault == "forget":
                self.faults[name] = None
                raise Lost
            if fault == "die":
                del self.faults[name]
                raise Failed("KilledWorker: 4")
            words = ["--conflicts", str(conflicts)] + ["--log"] * with_log
            output, exit_status = stand_in.solve(words, text.decode(), fault)
            return Output(name, exit_status, output.encode())
        finally:
            del self.busy[name]


def search(text, machines, cubes=6, journal=None, **settings):
    """Searches a model: the search when it ended, and its program."""
    model, program = read_model(text), Here()
    known = Known(model, cut(model, cubes), journal)
    searching = Search(known, machines, program, Settings(**settings))
    asyncio.run(searching.run())
    return searching, program


def counts(searching):
    """How many cubes stand on whose word."""
    return Counter(searching.known.closed)
