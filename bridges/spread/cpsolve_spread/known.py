"""What is known of a model: its best solution, and which of its cubes are closed."""

from __future__ import annotations

from collections import Counter
from collections.abc import Iterator

from cpsolve_spread.journal import Journal
from cpsolve_spread.model import Cuts, Model
from cpsolve_spread.response import Status, response_lines


class Known:
    """The best solution with its sum, the cubes that are open, and by whose word the others are closed.

    A cube is closed where no solution in it has a sum less than the best one's. The best only falls, so a closed cube
    stays closed.
    """

    def __init__(self, model: Model, cubes: list[Cuts], journal: Journal | None) -> None:
        """Takes over what the journal has."""
        self.model = model
        self.open = dict.fromkeys(cubes)
        self.closed: Counter[str | None] = Counter()
        self.best: list[int] | None = None
        self.total: int | None = None
        self.journal: Journal | None = None
        if journal:
            journal.begin(len(cubes))
            if journal.solution is not None:
                self.offer(journal.solution)
            for cuts, by in journal.closed.items():
                self.close(cuts, by)
        self.journal = journal

    @property
    def is_over(self) -> bool:
        """Whether nothing is left to be found out."""
        return not self.open or (self.best is not None and self.model.objective is None)

    @property
    def status(self) -> Status:
        """What is known where the search ends now."""
        if self.is_over:
            return Status.INFEASIBLE if self.best is None else Status.OPTIMAL
        return Status.UNKNOWN if self.best is None else Status.FEASIBLE

    def total_of(self, values: list[int]) -> int:
        """The sum at a solution, 0 without an objective."""
        return self.model.objective.total(values) if self.model.objective else 0

    def is_better(self, values: list[int]) -> bool:
        """Whether a solution would be the best."""
        return self.total is None or self.total_of(values) < self.total

    def offer(self, values: list[int]) -> None:
        """Takes a solution, where it is the best."""
        if self.is_better(values):
            self.best, self.total = values, self.total_of(values)
            if self.journal:
                self.journal.write(solution=values)

    def close(self, cuts: Cuts, by: str | None) -> None:
        """Takes a cube for closed: by the word of a machine, or by that of the checker, which is None."""
        if cuts in self.open:
            del self.open[cuts]
            self.closed[by] += 1
            if self.journal:
                self.journal.write(closed=cuts, by=by)

    def bound(self) -> int | None:
        """A number below which no sum of the objective lies. It rests on closed cubes and on domains alone."""
        if not self.model.objective:
            return None
        totals = [] if self.total is None else [self.total]
        return min([*totals, *map(self.model.least, self.open)], default=None)

    def response(self) -> Iterator[str]:
        """The lines of a response, the last a comment that says how many cubes stand on whose word."""
        yield from response_lines(self.status, self.model, self.best, self.bound())
        told = [f"{self.closed[None]} verified"]
        told += [f"{cubes} by the word of {by}" for by, cubes in sorted(self.closed.items(), key=str) if by]
        told += [f"{len(self.open)} open"] * bool(self.open)
        yield f"# cubes: {', '.join(told)}"
