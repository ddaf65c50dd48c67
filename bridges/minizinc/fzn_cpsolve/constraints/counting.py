"""Counting of values: sums of the literals that `encoding` shares."""

from collections.abc import Callable

from .. import domains
from ..cpmodel import Affine, Literals, constant, of_literal, opposite
from ..domains import Domain
from .comparisons import RELATIONS
from .registry import FAILS, HOLDS, Posting, Rule, holds

# Most pairs of variable and value that one constraint makes literals for.
MAX_PAIRS = 1_000_000

Terms = list[tuple[int, Affine]]
TermsOf = Callable[[Posting], Terms]


def as_terms(literals: Literals, factor: int = 1) -> Terms:
    """How many of the literals are true, times a factor."""
    return [(factor, of_literal(literal)) for literal in literals]


def occurrences(p: Posting, parts: list[Affine], value: Affine) -> Literals:
    """For each expression that can have a value the literal that says whether it has."""
    found = [p.encoding.equal(part, value) for part in parts]
    return [literal for literal in found if literal is not None]


def register_count(name: str, terms_of: TermsOf, domain: Domain) -> None:
    """Registers a constraint that a sum lies in a domain, where the sum's literals are defined whether it holds or not."""

    def rule(wanted: Domain) -> Rule:
        return lambda p: p.model.add_linear(terms_of(p), wanted, p.enforcement)

    HOLDS[name], FAILS[name] = rule(domain), rule(domains.complement(domain))


def count(p: Posting) -> Terms:
    """A number without how often a value occurs in a list."""
    return [(1, p.affine(2)), *as_terms(occurrences(p, p.affines(0), p.affine(1)), -1)]


def among(p: Posting) -> Terms:
    """A number without how many of a list are in a set."""
    return [(1, p.affine(0)), *as_terms(p.encoding.counted(p.affines(1), p.set(2)), -1)]


def distinct(p: Posting) -> Terms:
    """A number without how many values occur in a list."""
    parts = p.affines(1)
    found = [p.model.domain(part) for part in parts]
    if sum(map(domains.size, found)) > MAX_PAIRS:
        p.model.refuse(f"more than {MAX_PAIRS} pairs of variable and value")
    values = sorted({value for domain in found for value in domains.values_of(domain)})
    used = [any_of(p, occurrences(p, parts, constant(value))) for value in values]
    return [(1, p.affine(0)), *as_terms(used, -1)]


def any_of(p: Posting, literals: Literals) -> int:
    """A literal that says whether one of these is true at least."""
    if len(literals) == 1:
        return literals[0]
    if any(p.model.known(literal) for literal in literals):
        return p.model.true_literal()
    result = p.model.new_literal()
    p.model.add_literals("bool_or", literals, [result])
    p.model.add_literals("bool_and", opposite(literals), [-result - 1])
    return result


for _relation, _name in {"eq": "eq", "ne": "neq", "le": "leq", "lt": "lt", "ge": "geq", "gt": "gt"}.items():
    register_count(f"fzn_count_{_name}", count, RELATIONS[_relation])
register_count("count", count, RELATIONS["eq"])
register_count("fzn_among", among, RELATIONS["eq"])
register_count("fzn_nvalue", distinct, RELATIONS["eq"])


def add_cardinality(p: Posting, parts: list[Affine], value: int, total: Affine) -> None:
    """`total` is how often a value occurs."""
    literals = occurrences(p, parts, constant(value))
    p.model.add_linear([(1, total), *as_terms(literals, -1)], [(0, 0)], p.enforcement)


def close(p: Posting) -> None:
    """All of the first list are values of the second."""
    cover = domains.of_values(p.numbers(1))
    for part in p.affines(0):
        p.model.add_linear([(1, part)], cover, p.enforcement)


@holds("fzn_global_cardinality")
def cardinality(p: Posting) -> None:
    """Each value of a cover occurs as often as its count says."""
    parts = p.affines(0)
    for value, total in zip(p.numbers(1), p.affines(2), strict=True):
        add_cardinality(p, parts, value, total)


@holds("fzn_global_cardinality_closed")
def closed_cardinality(p: Posting) -> None:
    """As above, and no other value occurs."""
    close(p)
    cardinality(p)


@holds("fzn_global_cardinality_low_up")
def bounded_cardinality(p: Posting) -> None:
    """Each value of a cover occurs at least and at most so often."""
    parts = p.affines(0)
    for value, low, high in zip(p.numbers(1), p.numbers(2), p.numbers(3), strict=True):
        wanted = [(low, high)] if low <= high else []
        p.model.add_linear(as_terms(occurrences(p, parts, constant(value))), wanted, p.enforcement)


@holds("fzn_global_cardinality_low_up_closed")
def closed_bounded_cardinality(p: Posting) -> None:
    """As above, and no other value occurs."""
    close(p)
    bounded_cardinality(p)


def weight_in(p: Posting, bins: list[Affine], weights: list[int], place: int) -> Terms:
    """The weight of the items in the bin `place`."""
    found = [(weight, p.encoding.value(part, place)) for part, weight in zip(bins, weights, strict=True)]
    return [(weight, of_literal(literal)) for weight, literal in found if literal is not None]


@holds("fzn_bin_packing")
def bin_packing(p: Posting) -> None:
    """No bin has items of more than one capacity."""
    capacity, bins, weights = p.number(0), p.affines(1), p.numbers(2)
    if sum(domains.size(p.model.domain(part)) for part in bins) > MAX_PAIRS:
        p.model.refuse(f"more than {MAX_PAIRS} pairs of item and bin")
    places = {value for part in bins for value in domains.values_of(p.model.domain(part))}
    for place in sorted(places):
        p.model.add_linear(weight_in(p, bins, weights, place), [(domains.INT_MIN, capacity)], p.enforcement)


def within_bins(p: Posting, bins: list[Affine], first: int, count_of_bins: int) -> None:
    """Each item is in one of the bins."""
    for part in bins:
        p.model.add_linear([(1, part)], [(first, first + count_of_bins - 1)], p.enforcement)


@holds("cpsolve_bin_packing_capa")
def bin_packing_by_capacities(p: Posting) -> None:
    """No bin has items of more than its capacity."""
    capacities, first, bins, weights = p.numbers(0), p.number(1), p.affines(2), p.numbers(3)
    within_bins(p, bins, first, len(capacities))
    for place, capacity in enumerate(capacities, first):
        p.model.add_linear(weight_in(p, bins, weights, place), [(domains.INT_MIN, capacity)], p.enforcement)


@holds("cpsolve_bin_packing_load")
def bin_packing_by_loads(p: Posting) -> None:
    """Each bin's load is the weight of its items; together they are that of all items."""
    loads, first, bins, weights = p.affines(0), p.number(1), p.affines(2), p.numbers(3)
    within_bins(p, bins, first, len(loads))
    for place, load in enumerate(loads, first):
        p.model.add_linear([*weight_in(p, bins, weights, place), (-1, load)], [(0, 0)], p.enforcement)
    total = sum(weights)
    p.model.add_linear([(1, load) for load in loads], [(total, total)], p.enforcement)
