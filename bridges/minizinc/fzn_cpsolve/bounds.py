"""Bounds of variables that are declared without, from the constraints on them."""

from collections.abc import Callable

from .aliases import Aliases, View
from .domains import Domain
from .flatzinc import Constraint, Element, FlatModel, IntSet, Name, Value

# How often the constraints are gone through, while that gives bounds to variables that had none.
MAX_ROUNDS = 50

Bound = int | None
Range = tuple[Bound, Bound]
Rule = Callable[["Bounds", list[Value]], None]

RULES: dict[str, Rule] = {}


def bounds_by(*names: str) -> Callable[[Rule], Rule]:
    """Registers how constraints of these names bound their arguments."""

    def register(rule: Rule) -> Rule:
        RULES.update(dict.fromkeys(names, rule))
        return rule

    return register


class Bounds:
    """What is known of the least and the greatest value of each root."""

    def __init__(self, model: FlatModel, aliases: Aliases, declared: dict[str, Domain | None]) -> None:
        self.model, self.aliases = model, aliases
        self.ranges: dict[str, Range] = {}
        for root, domain in declared.items():
            self.ranges[root] = (domain[0][0], domain[-1][1]) if domain else (None, None) if domain is None else (0, 0)
        self.open = {root for root, domain in declared.items() if domain is None}
        self.is_new = True

    def find(self) -> None:
        """Goes through the constraints until they bound no further variable."""
        stated = [(RULES[c.name], c.arguments) for c in self.model.constraints if c.name in RULES]
        for _ in range(MAX_ROUNDS):
            if not self.is_new:
                return
            self.is_new = False
            for rule, arguments in stated:
                rule(self, arguments)

    def view(self, value: Value) -> View | int | None:
        """A number, or the view of a root; None of anything else."""
        if isinstance(value, int):
            return int(value)
        if isinstance(value, Name):
            if value in self.model.variables:
                return self.aliases.view(value)
            return self.view(self.model.constants.get(value))
        if isinstance(value, Element) and value.array in self.model.arrays:
            return self.view(self.model.arrays[value.array][value.index - 1])
        return None

    def is_open(self, value: Value) -> bool:
        """Whether the value is a variable that was declared without bounds."""
        view = self.view(value)
        return isinstance(view, View) and view.root in self.open

    def range(self, value: Value) -> Range:
        """The least and the greatest value, where known."""
        view = self.view(value)
        if not isinstance(view, View):
            return view, view
        low, high = self.ranges[view.root]
        if view.scale < 0:
            low, high = high, low
        return plus(times(low, view.scale), view.offset), plus(times(high, view.scale), view.offset)

    def number(self, value: Value) -> int:
        """A number, 0 where it is none."""
        return self.range(value)[0] or 0

    def array(self, value: Value) -> list[Value]:
        """The members of an array."""
        if isinstance(value, Name):
            return self.model.arrays.get(value, [])
        return value if isinstance(value, list) else []

    def restrict(self, value: Value, low: Bound, high: Bound) -> None:
        """Takes in that a value is from `low` to `high`, of which each may be unknown."""
        view = self.view(value)
        if not isinstance(view, View) or view.root not in self.open:
            return
        low, high = times(plus(low, -view.offset), view.scale), times(plus(high, -view.offset), view.scale)
        if view.scale < 0:
            low, high = high, low
        old_low, old_high = self.ranges[view.root]
        self.is_new |= low is not None and old_low is None or high is not None and old_high is None
        self.ranges[view.root] = greater(old_low, low), lesser(old_high, high)

    def restrict_sum(self, terms: list[tuple[int, Value]], total: int, is_equal: bool) -> None:
        """Takes in that a sum is `total`, or is at most that."""
        if not any(self.is_open(value) for _, value in terms):
            return
        least, greatest = [], []
        for factor, value in terms:
            low, high = self.range(value)
            first, second = times(low, factor), times(high, factor)
            least.append(second if factor < 0 else first)
            greatest.append(first if factor < 0 else second)
        for place, (factor, value) in enumerate(terms):
            if factor and self.is_open(value):
                top = left_of(total, least, place)
                bottom = left_of(total, greatest, place) if is_equal else None
                if factor < 0:
                    top, bottom = times(bottom, -1), times(top, -1)
                step = abs(factor)
                self.restrict(
                    value, None if bottom is None else -(-bottom // step), None if top is None else top // step
                )

    def restrict_to_any(self, value: Value, others: list[Value]) -> None:
        """Takes in that a value is that of one of several."""
        ranges = [self.range(other) for other in others]
        if ranges:
            lows, highs = [low for low, _ in ranges], [high for _, high in ranges]
            self.restrict(value, None if None in lows else min(lows), None if None in highs else max(highs))


def plus(bound: Bound, offset: int) -> Bound:
    """A bound and a number."""
    return None if bound is None else bound + offset


def times(bound: Bound, factor: int) -> Bound:
    """A bound times a number."""
    return None if bound is None else bound * factor


def greater(first: Bound, second: Bound) -> Bound:
    """The greater of two lower bounds."""
    return second if first is None else first if second is None else max(first, second)


def lesser(first: Bound, second: Bound) -> Bound:
    """The lesser of two upper bounds."""
    return second if first is None else first if second is None else min(first, second)


def left_of(total: int, parts: list[Bound], place: int) -> Bound:
    """What is left of a total without all parts but one."""
    others = parts[:place] + parts[place + 1 :]
    return None if None in others else total - sum(others)


def magnitude(found: Range) -> Bound:
    """The greatest magnitude in a range."""
    low, high = found
    return None if low is None or high is None else max(abs(low), abs(high))


@bounds_by("int_lin_eq", "int_lin_le")
def linear(bounds: Bounds, arguments: list[Value], is_equal: bool = True) -> None:
    """A sum is, or is at most, its total."""
    coefficients, values, total = arguments
    factors = [bounds.number(k) for k in bounds.array(coefficients)]
    bounds.restrict_sum(list(zip(factors, bounds.array(values))), bounds.number(total), is_equal)


RULES["int_lin_le"] = lambda bounds, arguments: linear(bounds, arguments, False)


def boolean_sum(is_equal: bool) -> Rule:
    """The rule of a sum of Booleans whose total may be a variable."""

    def rule(bounds: Bounds, arguments: list[Value]) -> None:
        coefficients, values, total = arguments
        factors = [bounds.number(k) for k in bounds.array(coefficients)]
        bounds.restrict_sum([*zip(factors, bounds.array(values)), (-1, total)], 0, is_equal)

    return rule


RULES["bool_lin_eq"], RULES["bool_lin_le"] = boolean_sum(True), boolean_sum(False)


def comparison(total: int, is_equal: bool) -> Rule:
    """The rule of `x - y <= total`, or `x - y = total`."""

    def rule(bounds: Bounds, arguments: list[Value]) -> None:
        first, second = arguments[:2]
        bounds.restrict_sum([(1, first), (-1, second)], total, is_equal)

    return rule


RULES["int_le"], RULES["int_lt"] = comparison(0, False), comparison(-1, False)
RULES["int_eq"] = RULES["bool2int"] = comparison(0, True)


@bounds_by("int_plus")
def plus_rule(bounds: Bounds, arguments: list[Value]) -> None:
    """The third is the sum of the first two."""
    first, second, total = arguments
    bounds.restrict_sum([(1, first), (1, second), (-1, total)], 0, True)


@bounds_by("set_in")
def membership(bounds: Bounds, arguments: list[Value]) -> None:
    """A value is one of a fixed set."""
    value, members = arguments
    if isinstance(members, Name):
        members = bounds.model.constants.get(members)
    if isinstance(members, IntSet) and members:
        bounds.restrict(value, members[0][0], members[-1][1])


@bounds_by("int_abs")
def absolute(bounds: Bounds, arguments: list[Value]) -> None:
    """The second is the magnitude of the first."""
    value, result = arguments
    bounds.restrict(result, 0, magnitude(bounds.range(value)))
    high = bounds.range(result)[1]
    bounds.restrict(value, times(high, -1), high)


@bounds_by("int_max")
def maximum(bounds: Bounds, arguments: list[Value]) -> None:
    """The third is the greater of the first two."""
    (low, high), (other_low, other_high) = map(bounds.range, arguments[:2])
    top = None if high is None or other_high is None else max(high, other_high)
    bounds.restrict(arguments[2], greater(low, other_low), top)


@bounds_by("int_min")
def minimum(bounds: Bounds, arguments: list[Value]) -> None:
    """The third is the lesser of the first two."""
    (low, high), (other_low, other_high) = map(bounds.range, arguments[:2])
    bottom = None if low is None or other_low is None else min(low, other_low)
    bounds.restrict(arguments[2], bottom, lesser(high, other_high))


@bounds_by("int_mod")
def modulus(bounds: Bounds, arguments: list[Value]) -> None:
    """The third is the remainder by the second."""
    most = magnitude(bounds.range(arguments[1]))
    if most:
        bounds.restrict(arguments[2], 1 - most, most - 1)


@bounds_by("int_div")
def quotient(bounds: Bounds, arguments: list[Value]) -> None:
    """The third is the first divided by the second."""
    most = magnitude(bounds.range(arguments[0]))
    bounds.restrict(arguments[2], times(most, -1), most)


@bounds_by("int_times")
def product(bounds: Bounds, arguments: list[Value]) -> None:
    """The third is the product of the first two."""
    first, second = map(bounds.range, arguments[:2])
    if None not in first and None not in second:
        corners = [a * b for a in first for b in second]
        bounds.restrict(arguments[2], min(corners), max(corners))


@bounds_by("int_pow", "cpsolve_pow")
def power(bounds: Bounds, arguments: list[Value]) -> None:
    """The third is the first to the power of the second."""
    base, (low, high) = magnitude(bounds.range(arguments[0])), bounds.range(arguments[1])
    if base is not None and low is not None and high is not None and 0 <= high <= 62:
        most = max(base, 1) ** high
        bounds.restrict(arguments[2], -most, most)


@bounds_by("array_int_maximum", "array_int_minimum")
def extreme(bounds: Bounds, arguments: list[Value]) -> None:
    """The first is one of the second."""
    bounds.restrict_to_any(arguments[0], bounds.array(arguments[1]))


@bounds_by("array_int_element", "array_var_int_element")
def element(bounds: Bounds, arguments: list[Value]) -> None:
    """The third is the second's member at the first, counted from 1."""
    index, values, result = arguments
    bounds.restrict(index, 1, len(bounds.array(values)))
    bounds.restrict_to_any(result, bounds.array(values))


@bounds_by("cpsolve_element")
def element_from(bounds: Bounds, arguments: list[Value]) -> None:
    """The fourth is the third's member at the first, counted from the second."""
    index, first, values, result = arguments
    low = bounds.number(first)
    bounds.restrict(index, low, low + len(bounds.array(values)) - 1)
    bounds.restrict_to_any(result, bounds.array(values))


@bounds_by("cpsolve_element2d")
def element_of_matrix(bounds: Bounds, arguments: list[Value]) -> None:
    """The seventh is one of the sixth."""
    bounds.restrict_to_any(arguments[6], bounds.array(arguments[5]))


@bounds_by("cpsolve_if_int")
def conditional(bounds: Bounds, arguments: list[Value]) -> None:
    """The third is one of the second."""
    bounds.restrict_to_any(arguments[2], bounds.array(arguments[1]))


@bounds_by("cpsolve_table_int")
def table(bounds: Bounds, arguments: list[Value]) -> None:
    """The first are a row of the second."""
    columns = bounds.array(arguments[0])
    cells = [bounds.number(cell) for cell in bounds.array(arguments[1])]
    for place, value in enumerate(columns):
        column = cells[place :: len(columns)]
        if column:
            bounds.restrict(value, min(column), max(column))


@bounds_by("cpsolve_automaton")
def automaton(bounds: Bounds, arguments: list[Value]) -> None:
    """The first are labels."""
    labels = [bounds.number(label) for label in bounds.array(arguments[4])]
    for value in bounds.array(arguments[0]) if labels else []:
        bounds.restrict(value, min(labels), max(labels))


@bounds_by("cpsolve_circuit", "cpsolve_subcircuit")
def tour(bounds: Bounds, arguments: list[Value]) -> None:
    """The first are places of a list as long as theirs."""
    restrict_to_places(bounds, arguments[0], arguments[1])


@bounds_by("cpsolve_inverse")
def inverse(bounds: Bounds, arguments: list[Value]) -> None:
    """The first and the third are places of each other."""
    direct, first_direct, inverted, first_inverted = arguments
    restrict_to_places(bounds, direct, first_inverted)
    restrict_to_places(bounds, inverted, first_direct)


def restrict_to_places(bounds: Bounds, values: Value, first: Value) -> None:
    """Takes in that values are places of a list as long as theirs, which begins at `first`."""
    members, low = bounds.array(values), bounds.number(first)
    for member in members:
        bounds.restrict(member, low, low + len(members) - 1)


@bounds_by("fzn_count_eq", "count")
def count(bounds: Bounds, arguments: list[Value]) -> None:
    """The third counts members of the first."""
    bounds.restrict(arguments[2], 0, len(bounds.array(arguments[0])))


@bounds_by("fzn_among", "fzn_nvalue")
def count_first(bounds: Bounds, arguments: list[Value]) -> None:
    """The first counts members of the second."""
    bounds.restrict(arguments[0], 0, len(bounds.array(arguments[1])))


@bounds_by("fzn_global_cardinality", "fzn_global_cardinality_closed")
def cardinalities(bounds: Bounds, arguments: list[Value]) -> None:
    """The third count members of the first."""
    for value in bounds.array(arguments[2]):
        bounds.restrict(value, 0, len(bounds.array(arguments[0])))


@bounds_by("cpsolve_bin_packing_load")
def loads(bounds: Bounds, arguments: list[Value]) -> None:
    """The first are sums of weights, and the third places among them."""
    load, first, bins, weights = arguments
    low = bounds.number(first)
    for value in bounds.array(bins):
        bounds.restrict(value, low, low + len(bounds.array(load)) - 1)
    for value in bounds.array(load):
        bounds.restrict(value, 0, sum(bounds.number(weight) for weight in bounds.array(weights)))
