"""A CpModel in text: variables, expressions of one variable, and constraints, each with what it comes from."""

from collections.abc import Iterable, Sequence
from typing import NamedTuple, NoReturn

from . import domains
from .domains import INT_MAX, INT_MIN, MAX_MAGNITUDE, Domain
from .errors import Refused
from .flatzinc import Constraint

# Most values of a domain that are listed one by one, and most rows of a table that is made here.
MAX_LISTED = 100_000


class Affine(NamedTuple):
    """`scale * variable + offset`; the number `offset` where `variable` is None."""

    scale: int
    variable: int | None
    offset: int

    def negated(self) -> "Affine":
        """The opposite number."""
        return Affine(-self.scale, self.variable, -self.offset)

    def times(self, factor: int) -> "Affine":
        """A multiple."""
        return Affine(self.scale * factor, self.variable, self.offset * factor)


Terms = Iterable[tuple[int, Affine]]
Literals = list[int]


def constant(value: int) -> Affine:
    """A number as an expression."""
    return Affine(0, None, value)


def opposite(literals: Iterable[int]) -> Literals:
    """The literals that are true where these are false."""
    return [-literal - 1 for literal in literals]


def of_literal(literal: int) -> Affine:
    """1 where the literal is true, and 0 where it is false."""
    return Affine(1, literal, 0) if literal >= 0 else Affine(-1, -literal - 1, 1)


def numbers_text(values: Iterable[int]) -> str:
    """A list of numbers."""
    return f"[{', '.join(map(str, values))}]"


def domain_text(domain: Domain) -> str:
    """A domain as the list of its intervals' ends."""
    return f"[{', '.join([f'{low}, {high}' for low, high in domain])}]"


def sum_text(coefficients: dict[int, int]) -> str:
    """The fields of a sum: coefficients by variable."""
    if not coefficients:
        return ""
    return f"vars: {numbers_text(coefficients)} coeffs: {numbers_text(coefficients.values())} "


def collect(terms: Terms) -> tuple[dict[int, int], int]:
    """A sum's coefficients by variable, none of them 0, and its offset."""
    coefficients: dict[int, int] = {}
    total = 0
    for factor, (scale, variable, offset) in terms:
        total += factor * offset
        if variable is not None:
            coefficients[variable] = coefficients.get(variable, 0) + factor * scale
    if 0 in coefficients.values():
        coefficients = {variable: k for variable, k in coefficients.items() if k}
    return coefficients, total


def expression(*parts: Affine) -> str:
    """The text of a sum of expressions."""
    coefficients, offset = collect([(1, part) for part in parts])
    constant_text = f"offset: {offset} " if offset else ""
    return f"{{ {sum_text(coefficients)}{constant_text}}}"


def expressions(field: str, parts: Iterable[Affine]) -> str:
    """A field for each of these expressions."""
    return " ".join([f"{field} {expression(part)}" for part in parts])


class CpModel:
    """The model that is being written. `origin` is the constraint of FlatZinc that is being said."""

    def __init__(self) -> None:
        self.domains: list[Domain] = []
        self.names: list[str] = []
        self.constraints: list[str] = []
        self.origins: list[Constraint | None] = []
        self.origin: Constraint | None = None
        self.fixed: dict[int, int] = {}

    def refuse(self, why: str) -> NoReturn:
        """Refuses the model, by the name and the line of the constraint that is being said."""
        if self.origin is None:
            raise Refused(why)
        raise Refused(f"line {self.origin.line}: {self.origin.name}: {why}")

    # Variables

    def add_variable(self, domain: Domain, name: str = "") -> int:
        """A new variable's number."""
        self.domains.append(domain)
        self.names.append(name)
        return len(self.domains) - 1

    def new_integer(self, low: int, high: int) -> Affine:
        """A new variable from `low` to `high`."""
        if low < -MAX_MAGNITUDE or high > MAX_MAGNITUDE:
            self.refuse(f"a variable that it needs may be from {low} to {high}, past 2^62 - 1 in magnitude")
        return Affine(1, self.add_variable([(low, high)]), 0)

    def new_literal(self) -> int:
        """A new Boolean variable."""
        return self.add_variable([(0, 1)])

    def fixed_variable(self, value: int) -> int:
        """A variable that is this number, one for each."""
        if value not in self.fixed:
            self.fixed[value] = self.add_variable([(value, value)])
        return self.fixed[value]

    def true_literal(self) -> int:
        """A literal that is true."""
        return self.fixed_variable(1)

    def known(self, literal: int) -> bool | None:
        """The truth of a literal, where its variable is fixed."""
        domain = self.domains[literal if literal >= 0 else -literal - 1]
        if domain[0][0] != domain[-1][1]:
            return None
        return (domain[0][0] == 1) == (literal >= 0)

    def bounds(self, part: Affine) -> tuple[int, int]:
        """The least and the greatest value of an expression."""
        scale, variable, offset = part
        if variable is None:
            return offset, offset
        domain = self.domains[variable]
        low, high = scale * domain[0][0] + offset, scale * domain[-1][1] + offset
        return (low, high) if scale >= 0 else (high, low)

    def domain(self, part: Affine) -> Domain:
        """The values of an expression, or, where these are too many to be listed, an interval around them."""
        scale, variable, offset = part
        if variable is None:
            return [(offset, offset)]
        if scale in (1, -1):
            return domains.image(self.domains[variable], scale, offset)
        if domains.size(self.domains[variable]) > MAX_LISTED:
            return [self.bounds(part)]
        return domains.of_values(scale * value + offset for value in domains.values_of(self.domains[variable]))

    def narrow(self, part: Affine, domain: Domain) -> None:
        """Leaves an expression only the values of a domain; at once, where its scale is 1 or -1."""
        scale, variable, offset = part
        if variable is not None and scale not in (1, -1):
            self.add_sum({variable: scale}, domains.shift(domain, -offset), [])
            return
        left = domains.intersection(self.domain(part), domain)
        if not left:
            self.add_false([])
        elif variable is not None:
            self.domains[variable] = domains.image(left, scale, -scale * offset)

    # Constraints

    def add(self, enforcement: Sequence[int], body: str) -> int:
        """A constraint that has to hold where all literals of `enforcement` are true; its number."""
        head = f"enforcement_literal: {numbers_text(enforcement)} " if enforcement else ""
        self.constraints.append(f"constraints {{ {head}{body} }}")
        self.origins.append(self.origin)
        return len(self.constraints) - 1

    def add_false(self, enforcement: Sequence[int]) -> None:
        """Not all literals of `enforcement` are true."""
        self.add(enforcement, "bool_or { }")

    def add_literals(self, kind: str, literals: Sequence[int], enforcement: Sequence[int] = ()) -> None:
        """A constraint over literals: `bool_or`, `bool_and`, `bool_xor`, `at_most_one` or `exactly_one`."""
        fields = f"literals: {numbers_text(literals)} " if literals else ""
        self.add(enforcement, f"{kind} {{ {fields}}}")

    def add_linear(self, terms: Terms, domain: Domain, enforcement: Sequence[int] = ()) -> None:
        """A sum lies in a domain. Without enforcement one over a single variable narrows that at once, and a sum of
        Booleans becomes a Boolean kind where one says the same."""
        coefficients, offset = collect(terms)
        domain = domains.shift(domain, -offset) if offset else domain
        if not coefficients:
            if not domains.contains(domain, 0):
                self.add_false(enforcement)
            return
        if not enforcement and len(coefficients) == 1:
            ((variable, scale),) = coefficients.items()
            self.narrow(Affine(scale, variable, 0), domain)
        elif not self.add_as_literals(coefficients, domain, enforcement):
            self.add_sum(coefficients, domain, enforcement)

    def add_sum(self, coefficients: dict[int, int], domain: Domain, enforcement: Sequence[int]) -> None:
        """A `linear` as it stands."""
        reach = self.reach(coefficients)
        if reach > MAX_MAGNITUDE:
            self.refuse(f"its sum may reach {reach} in magnitude, past 2^62 - 1")
        self.add(enforcement, f"linear {{ {sum_text(coefficients)}domain: {domain_text(domain)} }}")

    def reach(self, coefficients: dict[int, int]) -> int:
        """The greatest magnitude of the terms of a sum together."""
        total = 0
        for variable, scale in coefficients.items():
            domain = self.domains[variable]
            total += abs(scale) * max(abs(domain[0][0]), abs(domain[-1][1]))
        return total

    def add_as_literals(self, coefficients: dict[int, int], domain: Domain, enforcement: Sequence[int]) -> bool:
        """Says a sum of Booleans by a Boolean kind, where one says the same, and answers whether one does."""
        count = len(coefficients)
        if len(domain) != 1 or count < 2:
            return False
        for variable, scale in coefficients.items():
            if scale not in (1, -1) or self.domains[variable] != [(0, 1)]:
                return False
        literals = [variable if scale == 1 else -variable - 1 for variable, scale in coefficients.items()]
        negatives = sum(scale == -1 for scale in coefficients.values())
        low, high = max(domain[0][0] + negatives, 0), min(domain[0][1] + negatives, count)
        match (low, high):
            case _ if low > high:
                self.add_false(enforcement)
            case (_, 0):
                self.add_literals("bool_and", opposite(literals), enforcement)
            case _ if low == count:
                self.add_literals("bool_and", literals, enforcement)
            case (_, 1) if low == 1 or count > 2:
                self.add_literals("exactly_one" if low == 1 else "at_most_one", literals, enforcement)
            case (1, _) if high == count:
                self.add_literals("bool_or", literals, enforcement)
            case (0, _) if high == count - 1:
                self.add_literals("bool_or", opposite(literals), enforcement)
            case _:
                return low == 0 and high == count
        return True

    def add_interval(self, start: Affine, length: Affine, presence: Sequence[int] = ()) -> int:
        """An interval that is present where all literals of `presence` are true; the number of its constraint."""
        end = expression(start, length)
        return self.add(presence, f"interval {{ start {expression(start)} size {expression(length)} end {end} }}")

    def add_arguments(self, kind: str, target: Affine, parts: Iterable[Affine], enforcement: Sequence[int]) -> None:
        """A constraint of a target and expressions: `int_div`, `int_mod`, `int_prod` or `lin_max`."""
        self.add(enforcement, f"{kind} {{ target {expression(target)} {expressions('exprs', parts)} }}")

    # Text

    def text(self) -> str:
        """The variables and constraints."""
        lines = []
        for domain, name in zip(self.domains, self.names):
            name_text = f'name: "{name}" ' if name else ""
            lines.append(f"variables {{ {name_text}domain: {domain_text(domain)} }}")
        return "\n".join(lines + self.constraints) + "\n"
