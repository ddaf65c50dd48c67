"""From a FlatZinc model to a CpModel."""

from .constraints import post
from .cpmodel import Affine, CpModel, expressions, numbers_text
from .encoding import Encoding
from .flatzinc import Constraint, FlatModel, Name
from .objective import Objective
from .references import References
from .search import hint_of, hint_text, strategies_of

# The constraints whose literals others share come first, and then those that make one literal serve two pairs.
FIRST = {"int_eq_reif": 0, "int_ne_reif": 0, "set_in_reif": 0, "cpsolve_inverse": 1}
LAST = 2


class Translation:
    """A FlatZinc model, and the CpModel that says the same."""

    def __init__(self, flat: FlatModel) -> None:
        self.flat, self.model = flat, CpModel()
        self.references = References(flat, self.model)
        self.encoding = Encoding(self.model)
        self.tie_equalities()
        self.post_constraints()
        self.objective = None if flat.objective is None else Objective(flat, self.references)
        self.strategies = strategies_of(flat.search, self.references)
        self.hint = hint_of(flat.search, self.references)
        self.body = self.model.text()

    def tie_equalities(self) -> None:
        """Variables that are declared equal to a value, and are not views of one variable."""
        for name, value, line in self.flat.equalities:
            if name not in self.references.aliases.joined:
                self.model.origin = Constraint(f"the value of {name}", [], [], line)
                terms = [(1, self.references.affine(name)), (-1, self.references.affine(value))]
                self.model.add_linear(terms, [(0, 0)])

    def post_constraints(self) -> None:
        """Says all constraints that the views of variables do not say already."""
        implied = self.references.aliases.implied
        stated = [c for place, c in enumerate(self.flat.constraints) if place not in implied]
        for constraint in sorted(stated, key=lambda constraint: FIRST.get(constraint.name, LAST)):
            self.model.origin = constraint
            post(self.references, self.encoding, constraint)
        self.model.origin = None

    def origin(self, number: int) -> Constraint | None:
        """The constraint of FlatZinc that a constraint of the CpModel comes from."""
        return self.model.origins[number] if number < len(self.model.origins) else None

    def text(self, is_free: bool = False, below: int | None = None, hint: list[int] | None = None) -> str:
        """The CpModel. `is_free` leaves out the strategies, `below` asks for a sum below that, and `hint` are values of
        all variables to begin with."""
        parts = [self.body]
        if self.objective:
            parts.append(self.objective.text(None if below is None else below - 1))
        if not is_free:
            parts += [strategy.text() for strategy in self.strategies]
        parts.append(hint_text(self.hint if hint is None else dict(enumerate(hint))))
        return "".join(parts)

    def seen_variables(self) -> list[int]:
        """The variables that tell one solution from another by what is written; all, where nothing is."""
        found: dict[int, None] = {}
        for name, index_sets in self.flat.outputs:
            values = [name] if index_sets is None else self.flat.arrays[name]
            for value in values:
                variable = self.references.affine(value).variable
                if variable is not None:
                    found[variable] = None
        if not self.flat.outputs:
            found = {self.references.affine(Name(name)).variable: None for name in self.flat.variables}
        return list(found)

    def exclusion_text(self, variables: list[int], solutions: list[list[int]]) -> str:
        """The constraint that these variables do not all have the values of one of the solutions again."""
        if not solutions:
            return ""
        cells = numbers_text(values[variable] for values in solutions for variable in variables)
        columns = expressions("exprs", [Affine(1, variable, 0) for variable in variables])
        return f"constraints {{ table {{ {columns} values: {cells} negated: true }} }}\n"

    def unclaimed(self, best: int | None) -> list[str]:
        """The unbounded variables whose values beyond the window might change what is claimed: that nothing is better than
        a solution whose sum is `best`, or, where that is None, that there are no further solutions."""
        unbounded = self.references.unbounded
        if best is None or self.objective is None:
            return list(unbounded)
        return [root for root in unbounded if self.objective.is_improved_by(root, best)]
