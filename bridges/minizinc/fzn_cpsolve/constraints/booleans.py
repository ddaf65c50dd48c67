"""Clauses, conjunctions, disjunctions and parities."""

from ..cpmodel import Literals, opposite
from .registry import HOLDS, Posting, Rule, fails, holds


@holds("bool_clause")
def clause(p: Posting) -> None:
    """One of the first is true or one of the second is false."""
    p.model.add_literals("bool_or", p.literals(0) + opposite(p.literals(1)), p.enforcement)


@fails("bool_clause")
def no_clause(p: Posting) -> None:
    """All of the first are false and all of the second are true."""
    p.model.add_literals("bool_and", opposite(p.literals(0)) + p.literals(1), p.enforcement)


def define_all(p: Posting, result: int, literals: Literals) -> None:
    """`result` is true exactly where all the literals are."""
    truth = p.model.known(result)
    if truth is not False:
        p.model.add_literals("bool_and", literals, p.under(result))
    if truth is not True:
        kept = [] if truth is False else [result]
        p.model.add_literals("bool_or", opposite(literals) + kept, p.enforcement)


def joined(is_list: bool, is_conjunction: bool) -> Rule:
    """Says that a Boolean, or `true` where none is given, is the conjunction or the disjunction of some."""

    def rule(p: Posting) -> None:
        literals = p.literals(0) if is_list else p.references.literals(list(p.arguments[:2]))
        place = 1 if is_list else 2
        result = p.literal(place) if len(p.arguments) > place else p.model.true_literal()
        if is_conjunction:
            define_all(p, result, literals)
        else:
            define_all(p, -result - 1, opposite(literals))

    return rule


for _name, _is_conjunction in (("and", True), ("or", False)):
    HOLDS[f"array_bool_{_name}"] = joined(True, _is_conjunction)
    HOLDS[f"bool_{_name}"] = joined(False, _is_conjunction)


@holds("bool_xor")
def parity_of_two(p: Posting) -> None:
    """Two Booleans differ, or a third says whether they do."""
    result = p.literal(2) if len(p.arguments) > 2 else p.model.true_literal()
    p.model.add_literals("bool_xor", [p.literal(0), p.literal(1), -result - 1], p.enforcement)


@holds("array_bool_xor")
def parity(p: Posting) -> None:
    """An odd number of Booleans are true."""
    p.model.add_literals("bool_xor", p.literals(0), p.enforcement)
