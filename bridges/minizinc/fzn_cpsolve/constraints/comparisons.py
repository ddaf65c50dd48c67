"""Comparisons, sums and membership: `linear`, or literals that are shared."""

from .. import domains
from ..cpmodel import Affine, opposite
from ..domains import INT_MAX, INT_MIN, Domain
from .registry import FAILS, HOLDS, Posting, Rule, holds, whole

# Where a difference lies of which a relation holds.
RELATIONS: dict[str, Domain] = {
    "eq": [(0, 0)],
    "ne": [(INT_MIN, -1), (1, INT_MAX)],
    "le": [(INT_MIN, 0)],
    "lt": [(INT_MIN, -1)],
    "ge": [(0, INT_MAX)],
    "gt": [(1, INT_MAX)],
}


def difference_in(domain: Domain) -> Rule:
    """Says that the first argument minus the second lies in a domain."""

    def rule(p: Posting) -> None:
        first, second = p.scalars()
        p.model.add_linear([(1, first), (-1, second)], domain, p.enforcement)

    return rule


def sum_in(domain: Domain) -> Rule:
    """Says that a sum minus its total lies in a domain."""

    def rule(p: Posting) -> None:
        terms = list(zip(p.numbers(0), p.affines(1), strict=True))
        p.model.add_linear([*terms, (-1, p.affine(2))], domain, p.enforcement)

    return rule


for _relation, _domain in RELATIONS.items():
    for _kind in ("int", "bool"):
        HOLDS[f"{_kind}_{_relation}"] = difference_in(_domain)
        FAILS[f"{_kind}_{_relation}"] = difference_in(domains.complement(_domain))
        HOLDS[f"{_kind}_lin_{_relation}"] = sum_in(_domain)
        FAILS[f"{_kind}_lin_{_relation}"] = sum_in(domains.complement(_domain))


@holds("bool2int")
def same_number(p: Posting) -> None:
    """A Boolean and its number."""
    difference_in([(0, 0)])(p)


@holds("bool_not")
def different(p: Posting) -> None:
    """Two Booleans that are opposites."""
    first, second = p.scalars()
    p.model.add_linear([(1, first), (1, second)], [(1, 1)], p.enforcement)


@holds("int_plus")
def total(p: Posting) -> None:
    """The third is the sum of the first two."""
    first, second, result = p.scalars()
    p.model.add_linear([(1, first), (1, second), (-1, result)], [(0, 0)], p.enforcement)


def define_equality(p: Posting, first: Affine, second: Affine, literal: int) -> None:
    """A literal says whether two expressions are equal."""
    if first.variable is None:
        first, second = second, first
    if second.variable is None:
        p.encoding.define(literal, first, [(second.offset, second.offset)])
    else:
        p.encoding.define_equal(literal, first, second)


@whole("int_eq_reif")
def equality(p: Posting) -> None:
    """A Boolean says whether two are equal, and serves all that ask for this."""
    define_equality(p, p.affine(0), p.affine(1), p.literal(2))


@whole("int_ne_reif")
def inequality(p: Posting) -> None:
    """A Boolean says whether two differ; its opposite serves all that ask whether they are equal."""
    define_equality(p, p.affine(0), p.affine(1), -p.literal(2) - 1)


@whole("bool_eq_reif")
def same_truth(p: Posting) -> None:
    """A Boolean says whether two Booleans are equal."""
    p.model.add_literals("bool_xor", [p.literal(0), p.literal(1), p.literal(2)])


@whole("bool_ne_reif", "bool_not_reif")
def different_truth(p: Posting) -> None:
    """A Boolean says whether two Booleans differ."""
    p.model.add_literals("bool_xor", [p.literal(0), p.literal(1), *opposite([p.literal(2)])])


@holds("set_in")
def member(p: Posting) -> None:
    """An expression has one of the values of a set."""
    p.model.add_linear([(1, p.affine(0))], p.set(1), p.enforcement)


@whole("set_in_reif")
def membership(p: Posting) -> None:
    """A Boolean says whether an expression has one of the values of a set."""
    p.encoding.define(p.literal(2), p.affine(0), p.set(1))
