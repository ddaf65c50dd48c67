"""An instance: clauses and sums over Boolean variables, and what is to be paid.

Literals are those of DIMACS: variable `v`, from 1 on, is the literal `v`, and its opposite is `-v`.
"""

from __future__ import annotations

from dataclasses import dataclass, field
from enum import Enum

Clause = list[int]
# The greatest magnitude to which the weights of a sum may add up, and how many variables and constraints a model has.
GREATEST_SUM = 2**62 - 1
MOST = 2**20


class Refused(Exception):
    """Why the bridge does not take a file, in one line."""


class Unsupported(Refused):
    """The file is well formed, but asks for what the program does not do."""


class Format(Enum):
    """The form of a file, which decides how the answer is written."""

    OPB = "pseudo-Boolean"
    CNF = "CNF"
    OLD_WCNF = "weighted CNF with top"
    WCNF = "weighted CNF"


@dataclass
class Sum:
    """Weights times literals, which add up to at least `bound`, or to exactly that."""

    terms: list[tuple[int, int]]
    is_equality: bool
    bound: int
    line: int


@dataclass
class Instance:
    """An instance. Each of `costs` is a weight that is paid where its clause is false; None asks for any solution."""

    format: Format
    variables: int
    clauses: list[Clause] = field(default_factory=list)
    sums: list[Sum] = field(default_factory=list)
    costs: list[tuple[int, Clause]] | None = None

    def cost(self, values: list[bool]) -> int:
        """What an assignment pays; `values[v]` is that of variable `v`."""
        return sum(weight for weight, clause in self.costs or [] if not is_true(clause, values))

    def is_solution(self, values: list[bool]) -> bool:
        """Whether an assignment satisfies all clauses and sums."""
        return all(is_true(clause, values) for clause in self.clauses) and all(holds(one, values) for one in self.sums)


def is_true(clause: Clause, values: list[bool]) -> bool:
    """Whether a literal of the clause is true."""
    return any(values[literal] if literal > 0 else not values[-literal] for literal in clause)


def holds(one: Sum, values: list[bool]) -> bool:
    """Whether a sum is what it must be."""
    total = sum(weight for weight, literal in one.terms if is_true([literal], values))
    return total == one.bound if one.is_equality else total >= one.bound
