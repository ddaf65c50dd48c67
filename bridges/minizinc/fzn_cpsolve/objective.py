"""What is minimised or maximised, as a sum of variables."""

from collections.abc import Sequence

from . import domains
from .cpmodel import Affine, Terms, collect, constant, domain_text, sum_text
from .errors import Refused
from .flatzinc import Call, FlatModel, Name
from .references import References

# The greatest magnitude of an objective's offset.
MAX_OFFSET = 1 << 53


class Objective:
    """The sum that the program minimises, and how that is seen by the FlatZinc model: `sign * (sum + offset)`."""

    def __init__(self, flat: FlatModel, references: References) -> None:
        self.model, self.unbounded = references.model, references.unbounded
        self.sign = -1 if flat.goal == "maximize" else 1
        self.goal = references.affine(flat.objective)
        coefficients, offset = collect(defining_sum(flat, references, self.goal))
        self.coefficients = {variable: self.sign * k for variable, k in coefficients.items()}
        self.offset = self.sign * offset
        reach = self.model.reach(self.coefficients)
        if reach > domains.MAX_MAGNITUDE:
            raise Refused(f"the objective may reach {reach} in magnitude, past 2^62 - 1")
        if abs(self.offset) > MAX_OFFSET:
            raise Refused(f"the objective has the constant {offset}, past 2^53 in magnitude")

    def value(self, values: Sequence[int]) -> int:
        """The sum that is minimised, at a solution."""
        return sum(k * values[variable] for variable, k in self.coefficients.items())

    def shown(self, total: int) -> int:
        """What the FlatZinc model calls a value of the sum."""
        return self.sign * (total + self.offset)

    def text(self, most: int | None = None) -> str:
        """The objective, at most `most` where that is given."""
        offset = f"offset: {self.offset} " if self.offset else ""
        factor = "scaling_factor: -1 " if self.sign < 0 else ""
        domain = f"domain: {domain_text([(domains.INT_MIN, most)])} " if most is not None else ""
        return f"objective {{ {sum_text(self.coefficients)}{offset}{factor}{domain}}}\n"

    def is_improved_by(self, root: str, best: int) -> bool:
        """Whether a solution where an unbounded root has a value that is left out could be better than one whose sum is
        `best`."""
        below, above = self.unbounded[root]
        scale, variable, _ = self.goal
        if variable is not None and self.model.names[variable] == root:
            return below if scale * self.sign > 0 else above
        is_open = {False: below, True: above}
        return any(is_open[is_high] and not self.is_worse_beyond(root, is_high, best) for is_high in is_open)

    def is_worse_beyond(self, root: str, is_high: bool, best: int) -> bool:
        """Whether no sum is below `best` where a root is greater than its greatest value, or less than its least."""
        variable = self.model.names.index(root)
        k = self.coefficients.get(variable, 0)
        rest = self.least_besides(variable)
        if rest is None or k == 0 or (k > 0) != is_high:
            return False
        domain = self.model.domains[variable]
        return k * (domain[-1][1] + 1 if is_high else domain[0][0] - 1) + rest >= best

    def least_besides(self, variable: int) -> int | None:
        """The least sum of all terms but one; None where it is not bounded."""
        total = 0
        for other, k in self.coefficients.items():
            if other != variable:
                below, above = self.unbounded.get(self.model.names[other], (False, False))
                if below if k > 0 else above:
                    return None
                domain = self.model.domains[other]
                total += k * (domain[0][0] if k > 0 else domain[-1][1])
        return total


def defining_sum(flat: FlatModel, references: References, goal: Affine) -> Terms:
    """The sum that defines the goal, which says more than its name; the goal itself where there is none."""
    for constraint in flat.constraints:
        if constraint.name != "int_lin_eq" or not any(
            isinstance(note, Call) and note.name == "defines_var" and note.arguments == [flat.objective]
            for note in constraint.annotations
        ):
            continue
        coefficients, parts, total = constraint.arguments
        terms = list(zip(references.numbers(coefficients), references.affines(parts)))
        own = [k for k, part in terms if part.variable == goal.variable]
        if isinstance(flat.objective, Name) and own in ([1], [-1]) and goal[::2] == (1, 0):
            others = [(-own[0] * k, part) for k, part in terms if part.variable != goal.variable]
            return [*others, (own[0], constant(references.number(total)))]
        break
    return [(1, goal)]
