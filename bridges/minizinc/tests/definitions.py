"""What each constraint means, and how its arguments are drawn."""

import itertools
import operator
from collections.abc import Callable, Sequence
from typing import Any, NamedTuple

from .drawing import Draw


class Case(NamedTuple):
    """A constraint: how its arguments are drawn, what it means, and how it is reified: not at all, `_imp` or `_reif`."""

    draw: Callable[[Draw], list[Any]]
    means: Callable[..., bool]
    reified: str


CASES: dict[str, Case] = {}
PLAIN, HALF, BOTH = ("",), ("", "_imp"), ("", "_imp", "_reif")


def case(name: str, draw: Callable[[Draw], list], means: Callable[..., bool], ways: Sequence[str] = PLAIN) -> None:
    """Registers a constraint in these ways."""
    for way in ways:
        CASES[name + way] = Case(draw, means, way)


# Definitions


def quotient(a: int, b: int) -> int:
    """Division that rounds towards zero."""
    return abs(a) // abs(b) * (1 if (a < 0) == (b < 0) else -1)


def power(a: int, b: int) -> int | None:
    """A power; of an exponent below 0 the rounded one."""
    if b >= 0:
        return a**b
    return None if a == 0 else a**-b if abs(a) == 1 else 0


def weighted(factors: list[int], values: list[int]) -> int:
    """A sum."""
    return sum(map(operator.mul, factors, values))


def is_tour(successors: list[int], first: int, has_loops: bool) -> bool:
    """Whether successors form one circuit, through all nodes or beside loops."""
    places = [value - first for value in successors]
    if sorted(places) != list(range(len(places))):
        return False
    moved = [node for node, place in enumerate(places) if place != node]
    if not has_loops and len(moved) < len(places):
        return False
    if not moved:
        return True
    node, length = places[moved[0]], 1
    while node != moved[0]:
        node, length = places[node], length + 1
    return length == len(moved)


def are_inverse(direct: list[int], first: int, inverted: list[int], first_inverted: int) -> bool:
    """Whether each of two lists says where the other has the place."""
    count = len(direct)
    return all(
        0 <= value - other_first < count and other[value - other_first] == place
        for values, own_first, other, other_first in (
            (direct, first, inverted, first_inverted),
            (inverted, first_inverted, direct, first),
        )
        for place, value in enumerate(values, own_first)
    )


def are_apart(starts: list[int], lengths: list[int], is_strict: bool, there: list[int] | None = None) -> bool:
    """Whether no two tasks overlap."""
    tasks = [
        (start, start + length)
        for place, (start, length) in enumerate(zip(starts, lengths))
        if (is_strict or length > 0) and (there is None or there[place])
    ]
    return all(a[1] <= b[0] or b[1] <= a[0] for a, b in itertools.combinations(tasks, 2))


def fits(starts: list[int], lengths: list[int], demands: list[int], capacity: int, there: list[int] | None = None) -> bool:
    """Whether the tasks that run never demand more than the capacity."""
    tasks = [
        task for place, task in enumerate(zip(starts, lengths, demands)) if there is None or there[place]
    ]
    return capacity >= 0 and all(
        sum(demand for start, length, demand in tasks if start <= time < start + length) <= capacity
        for time, _, _ in tasks
    )


def are_disjoint(xs: list[int], ys: list[int], widths: list[int], heights: list[int], is_strict: bool) -> bool:
    """Whether no two boxes overlap."""
    boxes = [box for box in zip(xs, ys, widths, heights) if is_strict or box[2] > 0 and box[3] > 0]
    return all(
        a[0] + a[2] <= b[0] or b[0] + b[2] <= a[0] or a[1] + a[3] <= b[1] or b[1] + b[3] <= a[1]
        for a, b in itertools.combinations(boxes, 2)
    )


def accepts(word: list[int], start: int, finals: list[int], tails: list[int], labels: list[int], heads: list[int]) -> bool:
    """Whether an automaton accepts a word."""
    states = {start}
    for letter in word:
        states = {h for t, label, h in zip(tails, labels, heads) if t in states and label == letter}
    return bool(states & set(finals))


def is_chosen(conditions: list[int], values: list[int], result: int) -> bool:
    """Whether the result is the value at the first condition that is true."""
    return next((value == result for condition, value in zip(conditions, values) if condition), True)


def is_row(values: list[int], cells: list[int]) -> bool:
    """Whether values are a row of a table."""
    width = len(values)
    return any([int(cell) for cell in cells[at : at + width]] == values for at in range(0, len(cells), width))


def are_counted(values: list[int], cover: list[int], counts: list[int]) -> bool:
    """Whether each value of a cover occurs so often."""
    return all(values.count(value) == count for value, count in zip(cover, counts))


def are_bounded(values: list[int], cover: list[int], lows: list[int], highs: list[int]) -> bool:
    """Whether each value of a cover occurs at least and at most so often."""
    return all(low <= values.count(value) <= high for value, low, high in zip(cover, lows, highs))


def loads(bins: list[int], weights: list[int]) -> dict[int, int]:
    """The weight of the items in each bin that has some."""
    return {place: sum(w for b, w in zip(bins, weights) if b == place) for place in bins}


def are_loaded(load: list[int], first: int, bins: list[int], weights: list[int]) -> bool:
    """Whether loads are those of the items, which are all in one of the bins."""
    found = loads(bins, weights)
    places = range(first, first + len(load))
    return set(bins) <= set(places) and all(found.get(p, 0) == value for p, value in zip(places, load))


def is_within(capacities: list[int], first: int, bins: list[int], weights: list[int]) -> bool:
    """Whether no bin has more than its capacity, and all items are in one of the bins."""
    found = loads(bins, weights)
    places = range(first, first + len(capacities))
    return set(bins) <= set(places) and all(found.get(p, 0) <= c for p, c in zip(places, capacities))


# How some arguments are drawn


def draw_automaton(draw: Draw, is_deterministic: bool = False) -> list[Any]:
    """A word of three, and an automaton of three states."""
    rows = {(draw.number(1, 3), draw.number(-1, 3)): draw.number(1, 3) for _ in range(draw.number(0, 7))}
    ways = [(tail, label, head) for (tail, label), head in rows.items()]
    if not is_deterministic:
        ways += [(tail, label, draw.number(1, 3)) for tail, label, _ in ways[:2]]
    columns = [[way[place] for way in ways] for place in range(3)]
    return [draw.integers(3), draw.number(1, 3), draw.numbers(draw.number(0, 2), 1, 3), *columns]


def draw_inverse(draw: Draw) -> list[Any]:
    """Two lists, and the numbers from which their places are counted."""
    count = draw.number(1, 3)
    lists = draw.integers(count, -1, 3, 4), draw.integers(count, -1, 3, 4)
    return [lists[0], draw.rng.choice((0, 1, 1)), lists[1], draw.rng.choice((0, 1, 1))]


def draw_cover(draw: Draw) -> list[Any]:
    """A list, and different values."""
    return [draw.integers(3), draw.rng.sample(range(-3, 5), draw.number(1, 3))]


def draw_counts(draw: Draw) -> list[Any]:
    """A list, different values, and how often each occurs."""
    values, cover = draw_cover(draw)
    return [values, cover, draw.integers(len(cover), 0, 3, 2)]


def draw_ranges(draw: Draw) -> list[Any]:
    """A list, different values, and how often each occurs at least and at most."""
    values, cover = draw_cover(draw)
    return [values, cover, draw.numbers(len(cover), 0, 1), draw.numbers(len(cover), 0, 3)]


def draw_matrix(draw: Draw) -> list[Any]:
    """A row, a column, where these begin, how many columns there are, cells, and one of these."""
    first_row, first_column = draw.number(0, 1), draw.number(0, 1)
    cells = draw.integers(6, -1, 3, 1, 0.8)
    return [draw.integer(0, 3), draw.integer(0, 4), first_row, first_column, 2, cells, draw.integer(-1, 3)]


def draw_signed_booleans(draw: Draw) -> list[Any]:
    """A sum of Booleans with signs, and its total."""
    return [[draw.rng.choice((1, 1, -1)) for _ in range(3)], draw.booleans(3), draw.number(-2, 3)]


RELATIONS = {"eq": operator.eq, "ne": operator.ne, "le": operator.le, "lt": operator.lt}
COUNT_RELATIONS = {
    "eq": operator.eq,
    "neq": operator.ne,
    "leq": operator.le,
    "lt": operator.lt,
    "geq": operator.ge,
    "gt": operator.gt,
}

# Comparisons and sums
for _name, _holds in RELATIONS.items():
    case(f"int_{_name}", lambda d: d.integers(2), _holds, BOTH)
    case(f"bool_{_name}", lambda d: d.booleans(2), _holds, BOTH)
    case(
        f"int_lin_{_name}",
        lambda d: [d.numbers(3), d.integers(3), d.number(-9, 9)],
        lambda k, x, c, holds=_holds: holds(weighted(k, x), c),
        BOTH,
    )
    case(
        f"bool_lin_{_name}",
        lambda d: [d.numbers(3), d.booleans(3), d.integer()],
        lambda k, x, c, holds=_holds: holds(weighted(k, x), c),
    )
for _name in ("eq", "le"):
    case(
        f"bool_lin_{_name}",
        draw_signed_booleans,
        lambda k, x, c, holds=RELATIONS[_name]: holds(weighted(k, x), c),
        ("_imp", "_reif"),
    )
case("int_eq", lambda d: [d.integer(fixed=0), d.number()], operator.eq, ("_reif",))
case("set_in", lambda d: [d.integer(), d.set()], lambda x, s: x in s, BOTH)
case("bool2int", lambda d: [d.boolean(), d.integer(0, 2)], operator.eq)
case("int_plus", lambda d: d.integers(3), lambda a, b, c: a + b == c)

# Booleans
case("bool_not", lambda d: d.booleans(2), operator.ne, ("", "_reif"))
case("bool_and", lambda d: d.booleans(3), lambda a, b, r: r == (a and b))
case("bool_or", lambda d: d.booleans(3), lambda a, b, r: r == (a or b))
case("bool_xor", lambda d: d.booleans(3), lambda a, b, r: r == (a != b))
case("bool_xor", lambda d: d.booleans(2), operator.ne, ("_imp",))
case("bool_and", lambda d: d.booleans(2), lambda a, b: a and b, ("_imp",))
case("bool_or", lambda d: d.booleans(2), lambda a, b: a or b, ("_imp",))
case("array_bool_and", lambda d: [d.booleans(3), d.boolean()], lambda a, r: r == all(a))
case("array_bool_or", lambda d: [d.booleans(3), d.boolean()], lambda a, r: r == any(a))
case("array_bool_and", lambda d: [d.booleans(3)], all, ("_imp",))
case("array_bool_or", lambda d: [d.booleans(3)], any, ("_imp",))
case("array_bool_xor", lambda d: [d.booleans(4)], lambda a: sum(a) % 2 == 1)
case("bool_clause", lambda d: [d.booleans(2), d.booleans(2)], lambda a, b: any(a) or not all(b), BOTH)

# Arithmetic
case("int_abs", lambda d: d.integers(2), lambda a, b: abs(a) == b)
case("int_times", lambda d: [*d.integers(2), d.integer(-9, 12, 8)], lambda a, b, c: a * b == c)
case(
    "int_div", lambda d: [d.integer(-9, 9, 8), *d.integers(2)], lambda a, b, c: b != 0 and quotient(a, b) == c, HALF
)
case(
    "int_mod",
    lambda d: [d.integer(-9, 9, 8), *d.integers(2)],
    lambda a, b, c: b != 0 and a - b * quotient(a, b) == c,
    HALF,
)
case("int_min", lambda d: d.integers(3), lambda a, b, c: min(a, b) == c)
case("int_max", lambda d: d.integers(3), lambda a, b, c: max(a, b) == c)
case("int_pow", lambda d: [*d.integers(2, -2, 3), d.integer(-9, 12, 12)], lambda a, b, c: power(a, b) == c)
case(
    "cpsolve_pow", lambda d: [d.integer(), d.number(2, 3), d.integer(-9, 12, 12)], lambda a, b, c: a**b == c
)
case("array_int_maximum", lambda d: [d.integer(), d.integers(3)], lambda m, x: m == max(x))
case("array_int_minimum", lambda d: [d.integer(), d.integers(3)], lambda m, x: m == min(x))

# Elements and conditions
for _name, _draw in {
    "array_int_element": lambda d: [d.integer(0, 5), d.numbers(4), d.integer()],
    "array_var_int_element": lambda d: [d.integer(0, 4), d.integers(3), d.integer()],
    "array_bool_element": lambda d: [d.integer(0, 4), d.truths(3), d.boolean()],
    "array_var_bool_element": lambda d: [d.integer(0, 4), d.booleans(3), d.boolean()],
}.items():
    case(_name, _draw, lambda i, a, c: 1 <= i <= len(a) and a[i - 1] == c)
case(
    "cpsolve_element",
    lambda d: [d.integer(), d.number(-2, 2), d.integers(3), d.integer()],
    lambda i, first, a, c: 0 <= i - first < len(a) and a[i - first] == c,
)
case(
    "cpsolve_element2d",
    draw_matrix,
    lambda i, j, p, q, n, a, c: 0 <= i - p < len(a) // n and 0 <= j - q < n and a[(i - p) * n + j - q] == c,
)
case("cpsolve_if_int", lambda d: [[*d.booleans(2), True], d.integers(3, width=1), d.integer()], is_chosen)
case("cpsolve_if_bool", lambda d: [[*d.booleans(2), True], d.booleans(3), d.boolean()], is_chosen)

# Tables and automata
case("cpsolve_table_int", lambda d: [d.integers(2), d.numbers(2 * d.number(0, 5))], is_row, BOTH)
case("cpsolve_table_bool", lambda d: [d.booleans(2), d.truths(2 * d.number(0, 3))], is_row, BOTH)
case("cpsolve_automaton", draw_automaton, accepts, HALF)
case("cpsolve_automaton", lambda d: draw_automaton(d, True), accepts, ("_reif",))

# Counting
case("count", lambda d: [d.integers(3), d.integer(), d.integer(0, 3)], lambda x, y, c: x.count(y) == c)
for _name, _holds in COUNT_RELATIONS.items():
    case(
        f"fzn_count_{_name}",
        lambda d: [d.integers(3), d.integer(), d.integer(0, 3)],
        lambda x, y, c, holds=_holds: holds(c, x.count(y)),
        BOTH,
    )
case(
    "fzn_among",
    lambda d: [d.integer(0, 3), d.integers(3), d.set()],
    lambda n, x, s: n == sum(value in s for value in x),
    BOTH,
)
case("fzn_nvalue", lambda d: [d.integer(0, 3), d.integers(3)], lambda n, x: n == len(set(x)), BOTH)
case("fzn_global_cardinality", draw_counts, are_counted, HALF)
case(
    "fzn_global_cardinality_closed",
    draw_counts,
    lambda x, cover, counts: set(x) <= set(cover) and are_counted(x, cover, counts),
    HALF,
)
case("fzn_global_cardinality_low_up", draw_ranges, are_bounded, HALF)
case(
    "fzn_global_cardinality_low_up_closed",
    draw_ranges,
    lambda x, cover, low, high: set(x) <= set(cover) and are_bounded(x, cover, low, high),
    HALF,
)
case(
    "fzn_bin_packing",
    lambda d: [d.number(0, 6), d.integers(3, 0, 3), d.numbers(3, 0, 4)],
    lambda c, bins, weights: all(load <= c for load in loads(bins, weights).values()),
    HALF,
)
case(
    "cpsolve_bin_packing_capa",
    lambda d: [d.numbers(3, 0, 6), d.number(0, 1), d.integers(3, 0, 3), d.numbers(3, 0, 4)],
    is_within,
    HALF,
)
case(
    "cpsolve_bin_packing_load",
    lambda d: [d.integers(2, 0, 6, 4), d.number(0, 1), d.integers(2, 0, 2), d.numbers(2, 0, 4)],
    are_loaded,
    HALF,
)

# Permutations
case("fzn_all_different_int", lambda d: [d.integers(3)], lambda x: len(set(x)) == len(x), HALF)
case(
    "cpsolve_circuit",
    lambda d: [d.integers(d.number(1, 4), 0, 4, 4), d.number(0, 1)],
    lambda x, first: is_tour(x, first, False),
    HALF,
)
case(
    "cpsolve_subcircuit",
    lambda d: [d.integers(d.number(1, 4), 0, 4, 4), d.number(0, 1)],
    lambda x, first: is_tour(x, first, True),
    HALF,
)
case("cpsolve_inverse", draw_inverse, are_inverse, HALF)

# Scheduling
for _name, _strict in (("disjunctive", False), ("disjunctive_strict", True)):
    case(
        f"fzn_{_name}",
        lambda d: [d.integers(3, 0, 4), d.lengths(3)],
        lambda s, d, strict=_strict: are_apart(s, d, strict),
        HALF,
    )
    case(
        f"cpsolve_{_name}_opt",
        lambda d: [d.booleans(2), d.integers(2, 0, 4), d.lengths(2)],
        lambda b, s, d, strict=_strict: are_apart(s, d, strict, b),
    )
case(
    "fzn_cumulative", lambda d: [d.integers(3, 0, 4), d.lengths(3), d.lengths(3), d.integer(-1, 4)], fits, HALF
)
case(
    "cpsolve_cumulative_opt",
    lambda d: [d.booleans(2), d.integers(2, 0, 4), d.lengths(2), d.lengths(2), d.integer(-1, 4)],
    lambda b, s, d, r, c: fits(s, d, r, c, b),
)
for _name, _strict in (("diffn", True), ("diffn_nonstrict", False)):
    case(
        f"fzn_{_name}",
        lambda d: [d.integers(2, 0, 3), d.integers(2, 0, 3), d.lengths(2), d.lengths(2)],
        lambda x, y, w, h, strict=_strict: are_disjoint(x, y, w, h, strict),
        HALF,
    )
