"""Asks the program as often as MiniZinc's options need, and writes what it finds.

The program has budgets of conflicts, no clock, and writes one solution when it ends. So all solutions are found one by
one, each excluding those before. Where a time limit or each better solution is asked for, the program runs with budgets
that grow, each run below the last objective and with the last solution as the hint."""

import time
from dataclasses import dataclass

from .answers import COMPLETE, UNKNOWN, UNSATISFIABLE, note, solution_text, write, write_statistics
from .errors import Refused, Stopped, TimeIsUp
from .references import WINDOW
from .solver import MAX_CONFLICTS, Answer, InvalidModel, Solver
from .translation import Translation

# The conflicts of the first run where runs follow one another, and by how much each has more than the one before.
FIRST_BUDGET = 100
BUDGET_FACTOR = 4
# Which share of the time that is left a run is to take at most, as fast as the one before was. What a run finds that is
# ended by the time limit is lost.
SHARE_OF_TIME = 0.7
# How many of the variables that nothing bounds are named.
MAX_NAMED = 5


@dataclass
class Options:
    """What MiniZinc asks for: `count` solutions, where 0 is all; `deadline` by the monotonic clock; `conflicts` at most."""

    count: int = 1
    is_intermediate: bool = False
    is_free: bool = False
    deadline: float | None = None
    conflicts: int = MAX_CONFLICTS
    has_statistics: bool = False


class Session:
    """A translated model and the program that answers it. `unwritten` is the best solution as long as it is not written,
    `best` its sum, `objective` and `bound` what is called so in the FlatZinc model."""

    def __init__(self, translation: Translation, solver: Solver, options: Options) -> None:
        self.translation, self.solver, self.options = translation, solver, options
        self.solutions = 0
        self.unwritten: list[int] | None = None
        self.best: int | None = None
        self.objective: int | None = None
        self.bound: int | None = None

    def run(self) -> None:
        """Answers the model, up to the end of the time or of its caller."""
        try:
            if self.translation.objective is None:
                self.satisfy()
            else:
                self.optimise()
        except (TimeIsUp, Stopped):
            self.give_up()
        if self.options.has_statistics:
            self.write_statistics()

    def ask(self, text: str, conflicts: int) -> Answer:
        """Runs the program once. A rule that is broken is refused by the constraint that it comes from."""
        try:
            answer = self.solver.solve(text, conflicts, self.options.deadline)
        except InvalidModel as invalid:
            origin = None if invalid.constraint is None else self.translation.origin(invalid.constraint)
            if origin is None:
                raise
            raise Refused(f"line {origin.line}: {origin.name}: it breaks rule {invalid.rule} of cpsolve") from None
        if answer.bound is not None:
            self.bound = answer.bound
        return answer

    def satisfy(self) -> None:
        """Finds solutions, one by one."""
        wanted, found = self.options.count, []
        seen = self.translation.seen_variables()
        while True:
            excluded = self.translation.exclusion_text(seen, found)
            answer = self.ask(self.translation.text(self.options.is_free) + excluded, self.options.conflicts)
            if answer.status == "INFEASIBLE":
                self.close()
                return
            if answer.values is None:
                self.give_up()
                return
            self.write_solution(answer.values)
            if self.solutions == wanted:
                return
            if not seen:
                self.close()
                return
            found.append(answer.values)

    def optimise(self) -> None:
        """Finds a best solution: in one run, or, where better ones have to be seen before, in runs whose budgets grow."""
        objective, limit = self.translation.objective, self.options.conflicts
        in_steps = self.options.is_intermediate or self.options.deadline is not None
        budget = min(limit, FIRST_BUDGET) if in_steps else limit
        values = None
        while True:
            answer = self.ask(self.translation.text(self.options.is_free, self.best, values), budget)
            if answer.status == "INFEASIBLE":
                self.bound = self.objective
                self.close()
                return
            if answer.values is not None:
                values, self.best = answer.values, objective.value(answer.values)
                self.objective, self.unwritten = objective.shown(self.best), values
                if self.options.is_intermediate:
                    self.write_unwritten()
            is_done = answer.status == "OPTIMAL"
            if is_done and answer.bound == self.objective:
                self.close()
                return
            if is_done or budget == limit:
                self.give_up()
                return
            budget = min(limit, self.next_budget(budget, answer.seconds))

    def next_budget(self, budget: int, seconds: float) -> int:
        """The budget after one that took so long: greater by a factor, or what the time that is left allows."""
        grown = budget * BUDGET_FACTOR
        if self.options.deadline is None:
            return grown
        left = self.options.deadline - time.monotonic()
        fitting = int(SHARE_OF_TIME * left * budget / max(seconds, 0.001))
        return min(grown, max(fitting, FIRST_BUDGET))

    def write_solution(self, values: list[int]) -> None:
        """Writes a solution."""
        write(solution_text(self.translation, values))
        self.solutions += 1

    def write_unwritten(self) -> None:
        """Writes the best solution, if that was not yet done."""
        values, self.unwritten = self.unwritten, None
        if values is not None:
            self.write_solution(values)

    def give_up(self) -> None:
        """Ends without a claim that there is nothing more."""
        self.write_unwritten()
        if not self.solutions:
            write(UNKNOWN)

    def close(self) -> None:
        """Ends with the claim that there is nothing more, unless variables are unbounded and that could be wrong."""
        self.write_unwritten()
        unclaimed = self.translation.unclaimed(self.best)
        if unclaimed:
            names = ", ".join(unclaimed[:MAX_NAMED])
            note(f"nothing bounds {names}; searched within {WINDOW}, and nothing is claimed beyond that")
            self.give_up()
        else:
            write(COMPLETE if self.solutions else UNSATISFIABLE)

    def write_statistics(self) -> None:
        """What is known of the run."""
        model = self.translation.model
        write_statistics(
            {
                "solveTime": f"{self.solver.seconds:.3f}",
                "solutions": self.solutions,
                "variables": len(model.domains),
                "propagators": len(model.constraints),
                "objective": self.objective,
                "objectiveBound": self.bound,
            }
        )
