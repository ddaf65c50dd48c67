"""Variables of FlatZinc that are one variable seen in several ways: `x = y`, `x = c - y`, a Boolean and its number."""

from typing import NamedTuple

from .flatzinc import Constraint, FlatModel, Name


class View(NamedTuple):
    """`scale * root + offset`, where `root` is the name of a variable and `scale` is 1 or -1."""

    scale: int
    root: str
    offset: int


class Aliases:
    """The view of its root that each name stands for, and the constraints that say nothing more than that."""

    def __init__(self, model: FlatModel) -> None:
        self.model = model
        self.parents: dict[str, View] = {}
        self.implied: set[int] = set()
        self.joined: set[str] = set()
        self.join_equalities()
        self.join_sums()

    def view(self, name: str) -> View:
        """What a variable's name stands for."""
        scale, offset, start = 1, 0, name
        while parent := self.parents.get(name):
            scale, name, offset = scale * parent.scale, parent.root, offset + scale * parent.offset
        found = View(scale, name, offset)
        if start != name:
            self.parents[start] = found
        return found

    def join(self, first: str, second: str, scale: int, offset: int) -> bool:
        """Takes in `first = scale * second + offset`, unless the two are views of one variable already."""
        a, b = self.view(first), self.view(second)
        if a.root == b.root:
            return False
        self.parents[a.root] = View(
            a.scale * scale * b.scale, b.root, a.scale * (scale * b.offset + offset - a.offset)
        )
        return True

    def are_variables(self, values: list) -> bool:
        """Whether all are names of variables."""
        variables = self.model.variables
        return all(isinstance(value, Name) and value in variables for value in values)

    def join_equalities(self) -> None:
        """Equalities of two variables, a Boolean and its number, and opposites."""
        for place, constraint in enumerate(self.model.constraints):
            if constraint.name in ("bool2int", "bool_eq", "int_eq", "bool_not"):
                first, *others = constraint.arguments
                if len(others) == 1 and self.are_variables(constraint.arguments):
                    scale, offset = (-1, 1) if constraint.name == "bool_not" else (1, 0)
                    if self.join(others[0], first, scale, offset):
                        self.implied.add(place)
        for name, value, _ in self.model.equalities:
            if self.are_variables([value]) and self.join(name, value, 1, 0):
                self.joined.add(name)

    def join_sums(self) -> None:
        """`x - y = c` and `x + y = c` between variables of which none is a Boolean."""
        booleans = {self.view(name).root for name, (kind, _, _) in self.model.variables.items() if kind == "bool"}
        for place, constraint in enumerate(self.model.constraints):
            if constraint.name != "int_lin_eq":
                continue
            if pair := self.pair_of(constraint):
                coefficients, names, total = pair
                if booleans.isdisjoint(self.view(name).root for name in names):
                    first, second = coefficients
                    if self.join(names[0], names[1], -first * second, first * total):
                        self.implied.add(place)

    def pair_of(self, constraint: Constraint) -> tuple[list[int], list[Name], int] | None:
        """Coefficients, variables and total of a sum of two variables whose coefficients are 1 or -1."""
        arrays = self.model.arrays
        coefficients, names, total = constraint.arguments
        if isinstance(coefficients, Name):
            coefficients = arrays.get(coefficients, [])
        if len(coefficients) != 2 or any(k not in (1, -1) for k in coefficients) or not isinstance(total, int):
            return None
        if isinstance(names, Name):
            names = arrays.get(names, [])
        return (coefficients, names, total) if self.are_variables(names) else None
