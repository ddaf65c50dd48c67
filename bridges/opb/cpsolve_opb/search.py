"""Asks the program until the answer is known.

The program has a budget of conflicts and no clock. So it is asked with a small budget first, and then with one four
times as large, for something better than the last solution and near it. What it learnt is lost from one question to
the next, which costs a part of the time; in return each better solution is known at once.
"""

from __future__ import annotations

from collections.abc import Callable
from enum import Enum

from cpsolve_opb.instance import Instance
from cpsolve_opb.model import ModelText
from cpsolve_opb.program import Program, ProgramFailed, Response

FIRST_BUDGET = 10_000
GROWTH = 4
GREATEST_BUDGET = 1_000_000_000


class Status(Enum):
    """What is known of an instance."""

    OPTIMUM = "OPTIMUM FOUND"
    SATISFIABLE = "SATISFIABLE"
    UNSATISFIABLE = "UNSATISFIABLE"
    UNKNOWN = "UNKNOWN"


class Search:
    """An instance with the best solution that is known of it: the value of variable `v` at place `v`."""

    def __init__(self, instance: Instance, program: Program, found: Callable[[int], None]) -> None:
        self.instance = instance
        self.program = program
        self.found = found
        self.text = ModelText(instance)
        self.best: list[bool] | None = None
        self.cost: int | None = None

    def status(self) -> Status:
        """What is known where the search is ended now."""
        return Status.UNKNOWN if self.best is None else Status.SATISFIABLE

    def run(self, conflicts: int | None) -> Status:
        """Asks with growing budgets, or once with `conflicts`, and calls `found` with each better cost."""
        budget = FIRST_BUDGET if conflicts is None else conflicts
        hint = None
        while True:
            response = self.program.solve(self.text.question(self.cost, hint), budget)
            if response.status == "INFEASIBLE":
                return Status.UNSATISFIABLE if self.best is None else Status.OPTIMUM
            if response.status in ("OPTIMAL", "FEASIBLE"):
                self.take(response)
                hint = response.solution
                if self.instance.costs is None:
                    return Status.SATISFIABLE
                if response.status == "OPTIMAL":
                    return Status.OPTIMUM
            if conflicts is not None or budget >= GREATEST_BUDGET:
                return self.status()
            budget = min(budget * GROWTH, GREATEST_BUDGET)

    def take(self, response: Response) -> None:
        """Takes a solution, once it is seen that the file's own constraints hold. Raises `ProgramFailed`."""
        values = [False, *response.solution][: self.instance.variables + 1]
        if len(response.solution) != self.text.variables or not self.instance.is_solution(values):
            raise ProgramFailed("cpsolve answers what is no solution of the file")
        self.best = values
        if self.instance.costs is not None:
            self.cost = self.instance.cost(values)
            self.found(self.cost)
