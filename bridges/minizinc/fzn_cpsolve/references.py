"""What each name and value of FlatZinc is in the CpModel: an expression of one variable, a literal, a number, a set."""

from . import domains
from .aliases import Aliases
from .bounds import Bounds
from .cpmodel import Affine, CpModel, Literals, constant, numbers_text
from .domains import MAX_MAGNITUDE, Domain
from .errors import Refused
from .flatzinc import Element, FlatModel, FloatSet, IntSet, Name, Value

# How far a variable is searched that nothing bounds.
WINDOW = 10**9


class References:
    """The variables of a FlatZinc model in a CpModel. `unbounded` are the roots that nothing bounds, each with whether it
    is open below and above."""

    def __init__(self, flat: FlatModel, model: CpModel) -> None:
        self.flat, self.model = flat, model
        self.aliases = Aliases(flat)
        self.unbounded: dict[str, tuple[bool, bool]] = {}
        # What is known already, by name or number.
        self.known: dict[Value, Affine] = {}
        # The texts of arrays of numbers, by name.
        self.texts: dict[Name, str] = {}
        self.add_variables(self.domains_of_roots())

    # Variables

    def declared_domains(self) -> dict[str, Domain | None]:
        """The domain of each root by the declarations of all its views, None where there is none."""
        found: dict[str, Domain | None] = {}
        for name, (kind, domain, _) in self.flat.variables.items():
            scale, root, offset = self.aliases.view(name)
            stated = [(0, 1)] if kind == "bool" else domain
            if stated is None:
                found.setdefault(root, None)
                continue
            stated = domains.image(stated, scale, -scale * offset)
            known = found.get(root)
            found[root] = stated if known is None else domains.intersection(known, stated)
        return found

    def domains_of_roots(self) -> dict[str, Domain]:
        """The domain of each root; where none is declared by the constraints, and within the window where these say
        nothing."""
        found = self.declared_domains()
        without = [root for root, domain in found.items() if domain is None]
        if without:
            bounds = Bounds(self.flat, self.aliases, found)
            bounds.find()
            for root in without:
                low, high = bounds.ranges[root]
                if low is None or high is None:
                    self.unbounded[root] = low is None, high is None
                bottom = min(-WINDOW, 0 if high is None else high - WINDOW) if low is None else low
                top = max(WINDOW, 0 if low is None else low + WINDOW) if high is None else high
                found[root] = [(bottom, top)] if bottom <= top else []
        return found

    def add_variables(self, found: dict[str, Domain]) -> None:
        """A variable for each root, and for each name what it is of it."""
        numbers: dict[str, int] = {}
        for name, (_, _, line) in self.flat.variables.items():
            scale, root, offset = self.aliases.view(name)
            if root not in numbers:
                numbers[root] = self.add_root(root, found[root], line)
            self.known[name] = Affine(scale, numbers[root], offset)

    def add_root(self, root: str, domain: Domain, line: int) -> int:
        """A root's variable. One with an empty domain makes the model infeasible."""
        if not domain:
            self.model.add_false([])
            domain = [(0, 0)]
        low, high = domain[0][0], domain[-1][1]
        if low < -MAX_MAGNITUDE or high > MAX_MAGNITUDE:
            raise Refused(f"line {line}: variable {root} may be from {low} to {high}, past 2^62 - 1 in magnitude")
        return self.model.add_variable(list(domain), root)

    # Values

    def affine(self, value: Value) -> Affine:
        """A value as an expression of one variable."""
        if isinstance(value, int):
            found = constant(int(value))
        elif isinstance(value, Element):
            return self.affine(self.array(value.array)[value.index - 1])
        elif isinstance(value, Name):
            if value in self.known:
                return self.known[value]
            if value not in self.flat.constants:
                self.model.refuse(f"{value} is no variable of whole numbers")
            found = self.affine(self.flat.constants[value])
        elif isinstance(value, float):
            self.model.refuse("a float, and cpsolve has whole numbers and Booleans")
        else:
            self.model.refuse("an argument that is neither a number nor a Boolean")
        self.known[value] = found
        return found

    def affines(self, value: Value) -> list[Affine]:
        """An array as expressions."""
        members, known = self.array(value), self.known
        try:
            return [known[member] for member in members]
        except (KeyError, TypeError):
            return [self.affine(member) for member in members]

    def array(self, value: Value) -> list[Value]:
        """The members of an array."""
        if isinstance(value, Name):
            if value in self.flat.arrays:
                return self.flat.arrays[value]
            value = self.flat.constants.get(value)
        if isinstance(value, list) and not isinstance(value, (IntSet, FloatSet)):
            return value
        self.model.refuse("an argument that is no array")

    def number(self, value: Value) -> int:
        """A number, or a variable that is fixed."""
        low, high = self.model.bounds(self.affine(value))
        if low != high:
            self.model.refuse("a variable where a number has to stand")
        return low

    def numbers(self, value: Value) -> list[int]:
        """An array of numbers."""
        members = self.array(value)
        return members if set(map(type, members)) == {int} else [self.number(member) for member in members]

    def numbers_text(self, value: Value) -> str:
        """An array of numbers as text, which is kept where the array has a name, since tables share it."""
        if not isinstance(value, Name):
            return numbers_text(self.numbers(value))
        if value not in self.texts:
            self.texts[value] = numbers_text(self.numbers(value))
        return self.texts[value]

    def set(self, value: Value) -> Domain:
        """A set of whole numbers."""
        if isinstance(value, Name):
            value = self.flat.constants.get(value)
        if not isinstance(value, IntSet):
            self.model.refuse("a set that is no constant set of whole numbers")
        return list(value)

    def literal(self, value: Value) -> int:
        """A Boolean as a literal."""
        scale, variable, offset = self.affine(value)
        if variable is None:
            truth = self.model.true_literal()
            return truth if offset >= 1 else -truth - 1
        domain = self.model.domains[variable]
        if domain[0][0] < 0 or domain[-1][1] > 1 or (scale, offset) not in ((1, 0), (-1, 1)):
            self.model.refuse("a number where a Boolean has to stand")
        return variable if scale == 1 else -variable - 1

    def literals(self, value: Value) -> Literals:
        """An array of Booleans as literals."""
        return [self.literal(member) for member in self.array(value)]
