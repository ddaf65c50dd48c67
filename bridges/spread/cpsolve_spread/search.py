"""Sends cubes to machines, and judges what comes back.

A cube begins with a small budget of conflicts, and waits again with one four times as large where that was not enough;
small budgets come first. Each run asks for less than the best sum that is known when it is sent.

A run may last since its machine hangs. So where slots are free, the run that has lasted longest begins a second time
elsewhere, as the backup tasks of MapReduce do (Dean and Ghemawat 2004, section 3.6), and the first answer counts.
"""

from __future__ import annotations

import asyncio
import time
from contextlib import suppress
from dataclasses import dataclass, field
from enum import Enum
from heapq import heappop, heappush

from cpsolve_spread.cluster import Cluster, Failed, Lost
from cpsolve_spread.known import Known
from cpsolve_spread.model import Cuts
from cpsolve_spread.program import Program
from cpsolve_spread.response import Answer, Nonsense, read_answer

FIRST_BUDGET = 10_000
GROWTH = 4
GREATEST_BUDGET = 1_000_000_000
# How many runs of a cube may fail before it is given up.
MOST_FAILURES = 3
# How often it looks which machines there are, in seconds.
LOOK_EVERY = 1.0


class Check(Enum):
    """Which logs are checked: all, those that the checker can read, or none."""

    ALWAYS = "always"
    UNLESS_TOO_LARGE = "unless-too-large"
    NEVER = "never"


class Verdict(Enum):
    """What an answer is worth."""

    OPEN = "it does not close its cube"
    VERIFIED = "the checker says that it is right"
    REFUSED = "the checker does not say so"
    UNCHECKED = "the checker was not asked"


@dataclass
class Settings:
    """Which logs are checked, a cube's greatest budget, and how many seconds a run may last where slots are free."""

    check: Check = Check.ALWAYS
    conflicts: int = GREATEST_BUDGET
    patience: float = 60.0


@dataclass(eq=False)
class Cube:
    """A cube, its next budget, the machine whose log of it was refused, and its runs that go on."""

    number: int
    cuts: Cuts
    budget: int
    refused: str | None = None
    failures: int = 0
    is_done: bool = False
    runs: list[Run] = field(default_factory=list)


@dataclass(eq=False)
class Run:
    """A run of a cube. It is away while a machine has it, one of `workers` or any, and then its answer is judged."""

    cube: Cube
    key: str
    text: bytes
    workers: list[str]
    began: float = field(default_factory=time.monotonic)
    is_away: bool = True
    machine: str | None = None
    task: asyncio.Task[None] | None = None


class Search:
    """The cubes that wait, the runs that go on, and what became of machines and cubes."""

    def __init__(self, known: Known, cluster: Cluster, program: Program, settings: Settings) -> None:
        self.known, self.cluster, self.program, self.settings = known, cluster, program, settings
        # A heap: those of the least budget first.
        self.waiting: list[tuple[int, int, Cube]] = []
        self.runs: set[Run] = set()
        # Machines that failed, were overtaken, or were refused where another one was verified.
        self.shunned: set[str] = set()
        self.given_up: list[str] = []
        self.changed = asyncio.Event()
        for number, cuts in enumerate(known.open):
            self.wait(Cube(number, cuts, min(FIRST_BUDGET, settings.conflicts)))

    def wait(self, cube: Cube) -> None:
        """Lets a cube wait for a slot."""
        heappush(self.waiting, (cube.budget, cube.number, cube))

    async def run(self) -> None:
        """Searches until the answer is known, or every cube has spent its budget or was given up."""
        async with asyncio.TaskGroup() as self.group:
            while not self.known.is_over and (self.waiting or self.runs):
                self.changed.clear()
                self.recall_stranded()
                await self.begin_runs()
                with suppress(TimeoutError):
                    await asyncio.wait_for(self.changed.wait(), LOOK_EVERY)
            for run in self.runs:
                run.task.cancel()

    def recall_stranded(self) -> None:
        """Ends the runs for which none of their workers is left."""
        alive = self.cluster.workers
        for run in self.runs:
            if run.is_away and run.workers and alive and alive.keys().isdisjoint(run.workers):
                run.task.cancel()

    async def begin_runs(self) -> None:
        """Fills the free slots with cubes that wait, and else with those whose runs have lasted longest."""
        slots = self.cluster.workers
        trusted = self.cluster.elsewhere(self.shunned) or slots
        free = sum(slots[worker] for worker in trusted) - sum(run.is_away for run in self.runs)
        while free > 0 and self.waiting:
            self.begin(heappop(self.waiting)[-1], set())
            free -= 1
        late = time.monotonic() - self.settings.patience
        slow = [run for run in self.runs if run.is_away and run.began < late and run is run.cube.runs[-1]]
        for run in sorted(slow, key=lambda run: run.began)[: max(free, 0)]:
            for copy in run.cube.runs:
                copy.machine = await self.cluster.machine_of(copy.key)
            machines = {copy.machine for copy in run.cube.runs if copy.machine}
            if run.is_away and machines and self.cluster.elsewhere(machines):
                self.begin(run.cube, machines)

    def begin(self, cube: Cube, avoided: set[str]) -> None:
        """Sends a cube out, to none of these machines."""
        avoided = avoided | ({cube.refused} if cube.refused else set())
        # Those that are shunned, too, as far as others are left.
        wider = avoided | self.shunned
        workers = (self.cluster.elsewhere(wider) or self.cluster.elsewhere(avoided)) if wider else []
        text = self.known.model.cube(cube.cuts, self.known.total)
        run = Run(cube, self.cluster.new_key(cube.number), text, workers)
        cube.runs.append(run)
        self.runs.add(run)
        run.task = self.group.create_task(self.attempt(run))

    async def attempt(self, run: Run) -> None:
        """A run from its beginning to what becomes of its answer. Where its cube stays open, it waits again."""
        cube = run.cube
        wants_log = self.settings.check is not Check.NEVER
        try:
            output = await self.cluster.solve(run.key, run.text, cube.budget, wants_log, run.workers)
            run.is_away, run.machine = False, output.machine
            self.changed.set()
            await self.judge(run, read_answer(output.exit_status, output.text, self.known.model))
        except (Nonsense, Failed) as failure:
            self.fail(run, str(failure))
        except Lost:
            pass
        finally:
            self.runs.remove(run)
            cube.runs.remove(run)
            if not cube.is_done and not cube.runs:
                self.wait(cube)
            self.changed.set()

    async def judge(self, run: Run, answer: Answer) -> None:
        """Takes what an answer is worth. Raises `Nonsense` where its solution is none."""
        verdict = await self.verdict(run, answer)
        if answer.values is not None and self.known.is_better(answer.values):
            is_solution = verdict is Verdict.VERIFIED or await self.program.verifies_solution(
                self.known.model, answer.values
            )
            if not is_solution:
                raise Nonsense("the program wrote a solution that is none")
            self.known.offer(answer.values)
        if not run.cube.is_done:
            self.settle(run, verdict)

    async def verdict(self, run: Run, answer: Answer) -> Verdict:
        """What an answer is worth for its cube."""
        check = self.settings.check
        if not answer.status.is_closed or (answer.values is not None and not self.known.model.objective):
            # Without an objective a solution says nothing of its cube, and ends the search.
            return Verdict.OPEN
        if check is Check.NEVER or (check is Check.UNLESS_TOO_LARGE and answer.log is None):
            return Verdict.UNCHECKED
        is_verified = await self.program.verifies_answer(self.known.model, run.text, answer)
        return Verdict.VERIFIED if is_verified else Verdict.REFUSED

    def settle(self, run: Run, verdict: Verdict) -> None:
        """Closes a cube, or says how it is tried next."""
        cube = run.cube
        if verdict is Verdict.REFUSED and not cube.refused and self.cluster.elsewhere({run.machine}):
            cube.refused = run.machine
            return
        if verdict is Verdict.OPEN:
            cube.is_done = cube.budget >= self.settings.conflicts
            cube.budget = min(cube.budget * GROWTH, self.settings.conflicts)
        else:
            cube.is_done = True
            self.known.close(cube.cuts, None if verdict is Verdict.VERIFIED else run.machine)
            if verdict is Verdict.VERIFIED and cube.refused:
                self.shunned.add(cube.refused)
        self.end_copies(run)

    def end_copies(self, run: Run) -> None:
        """Ends the other runs of a cube. Machines that had begun earlier get no more cubes while others are left."""
        for other in run.cube.runs:
            if other is not run:
                other.task.cancel()
                if other.machine and other.began < run.began:
                    self.shunned.add(other.machine)

    def fail(self, run: Run, why: str) -> None:
        """Notes that a run gave no answer."""
        cube = run.cube
        cube.failures += 1
        if run.machine:
            self.shunned.add(run.machine)
        if cube.failures >= MOST_FAILURES and cube.runs == [run]:
            cube.is_done = True
            self.given_up.append(f"cube {cube.number}: {run.machine or 'a machine'}: {why}")
