"""Products, quotients, powers, magnitudes, and the greatest and least of a list."""

from .. import domains
from ..cpmodel import MAX_LISTED, Affine, CpModel, numbers_text
from ..domains import MAX_MAGNITUDE
from .registry import Posting, holds
from .tables import add_table


@holds("int_abs")
def magnitude(p: Posting) -> None:
    """The second is the magnitude of the first."""
    value, result = p.scalars()
    p.model.add_arguments("lin_max", result, [value, value.negated()], p.enforcement)


def greatest(p: Posting, target: Affine, parts: list[Affine]) -> None:
    """`target` is the greatest of `parts`."""
    if parts:
        p.model.add_arguments("lin_max", target, parts, p.enforcement)
    else:
        p.model.add_false(p.enforcement)


def least(p: Posting, target: Affine, parts: list[Affine]) -> None:
    """`target` is the least of `parts`."""
    greatest(p, target.negated(), [part.negated() for part in parts])


@holds("int_max")
def greater_of_two(p: Posting) -> None:
    """The third is the greater of the first two."""
    first, second, result = p.scalars()
    greatest(p, result, [first, second])


@holds("int_min")
def lesser_of_two(p: Posting) -> None:
    """The third is the lesser of the first two."""
    first, second, result = p.scalars()
    least(p, result, [first, second])


@holds("array_int_maximum")
def maximum(p: Posting) -> None:
    """The first is the greatest of the second."""
    greatest(p, p.affine(0), p.affines(1))


@holds("array_int_minimum")
def minimum(p: Posting) -> None:
    """The first is the least of the second."""
    least(p, p.affine(0), p.affines(1))


def add_product(p: Posting, target: Affine, factors: list[Affine]) -> None:
    """`target` is the product of `factors`."""
    reach = 1
    for factor in factors:
        reach *= max(1, *map(abs, p.model.bounds(factor)))
    if reach > MAX_MAGNITUDE:
        p.model.refuse(f"its product may reach {reach} in magnitude, past 2^62 - 1")
    p.model.add_arguments("int_prod", target, factors, p.enforcement)


@holds("int_times")
def product(p: Posting) -> None:
    """The third is the product of the first two."""
    first, second, result = p.scalars()
    add_product(p, result, [first, second])


@holds("cpsolve_pow")
def fixed_power(p: Posting) -> None:
    """The third is the first to a fixed power."""
    add_product(p, p.affine(2), [p.affine(0)] * p.number(1))


def divisor(p: Posting, part: Affine) -> Affine | None:
    """A divisor without the value 0, which no solution has where the constraint must hold; None where it has no other
    value. Where the constraint is only enforced, a variable of its own stands in for it."""
    model = p.model
    domain = model.domain(part)
    if domain == [(0, 0)]:
        return None
    if not domains.contains(domain, 0):
        return part
    nonzero = domains.intersection(domain, domains.complement([(0, 0)]))
    if not p.enforcement and part.scale in (1, -1):
        model.narrow(part, nonzero)
        return part
    copy = Affine(1, model.add_variable(nonzero), 0)
    model.add_linear([(1, copy), (-1, part)], [(0, 0)], p.enforcement)
    return copy


@holds("int_div")
def quotient(p: Posting) -> None:
    """The third is the first divided by the second, rounded towards zero."""
    first, second, result = p.scalars()
    nonzero = divisor(p, second)
    if nonzero is None:
        p.model.add_false(p.enforcement)
    else:
        p.model.add_arguments("int_div", result, [first, nonzero], p.enforcement)


@holds("int_mod")
def remainder(p: Posting) -> None:
    """The third is what the division of the first by the second leaves, with the sign of the first."""
    first, second, result = p.scalars()
    nonzero = divisor(p, second)
    if nonzero is None:
        p.model.add_false(p.enforcement)
        return
    low, high = p.model.bounds(nonzero)
    if high < 0:
        low, nonzero = -high, nonzero.negated()
    if low >= 1:
        p.model.add_arguments("int_mod", result, [first, nonzero], p.enforcement)
    else:
        remainder_of_either_sign(p, first, nonzero, result)


def remainder_of_either_sign(p: Posting, first: Affine, second: Affine, result: Affine) -> None:
    """The remainder by a divisor that may be above or below 0: what is left of the first without quotient times divisor."""
    most = max(map(abs, p.model.bounds(first)))
    whole, multiple = p.model.new_integer(-most, most), p.model.new_integer(-most, most)
    p.model.add_arguments("int_div", whole, [first, second], p.enforcement)
    add_product(p, multiple, [whole, second])
    p.model.add_linear([(1, first), (-1, multiple), (-1, result)], [(0, 0)], p.enforcement)


def power_of(base: int, exponent: int) -> int | None:
    """A power as MiniZinc rounds it, None where there is none or where it is too great."""
    if exponent < 0:
        if base == 0:
            return None
        return base**-exponent if abs(base) == 1 else 0
    if abs(base) > 1 and exponent > 62:
        return None
    value = base**exponent
    return value if abs(value) <= MAX_MAGNITUDE else None


@holds("int_pow")
def power(p: Posting) -> None:
    """The third is the first to the power of the second, which may vary: a table of the cases."""
    base, exponent, result = p.scalars()
    low, high = p.model.bounds(exponent)
    if low == high and low >= 1:
        add_product(p, result, [base] * low)
        return
    cases = count_of(p.model, base) * count_of(p.model, exponent)
    if cases > MAX_LISTED:
        p.model.refuse(f"a power with {cases} cases, and at most {MAX_LISTED} are listed")
    cells: list[int] = []
    for first in domains.values_of(p.model.domain(base)):
        for second in domains.values_of(p.model.domain(exponent)):
            value = power_of(first, second)
            if value is not None:
                cells += [first, second, value]
    add_table(p, [base, exponent, result], numbers_text(cells))


def count_of(model: CpModel, part: Affine) -> int:
    """How many values an expression may have."""
    return domains.size(model.domain(part))
