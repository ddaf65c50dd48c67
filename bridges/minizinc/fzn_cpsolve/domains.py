"""Sets of whole numbers as lists of intervals, rising and apart."""

from collections.abc import Iterable, Iterator

Domain = list[tuple[int, int]]

# The ends of what a CpModel's domains of sums can name.
INT_MAX = (1 << 63) - 1
INT_MIN = -INT_MAX - 1
# The greatest magnitude of a variable's bounds, and of all that a sum or a product can reach.
MAX_MAGNITUDE = (1 << 62) - 1


def of_values(values: Iterable[int]) -> Domain:
    """The domain of these numbers, in any order."""
    found: Domain = []
    for value in sorted(set(values)):
        if found and found[-1][1] == value - 1:
            found[-1] = (found[-1][0], value)
        else:
            found.append((value, value))
    return found


def values_of(domain: Domain) -> Iterator[int]:
    """The numbers of a domain, rising."""
    for low, high in domain:
        yield from range(low, high + 1)


def size(domain: Domain) -> int:
    """How many numbers it has."""
    return sum(high - low + 1 for low, high in domain)


def contains(domain: Domain, value: int) -> bool:
    """Whether it has this number."""
    return any(low <= value <= high for low, high in domain)


def clip(domain: Domain, low: int, high: int) -> Domain:
    """Its numbers from `low` to `high`."""
    return [(max(a, low), min(b, high)) for a, b in domain if a <= high and b >= low]


def intersection(first: Domain, second: Domain) -> Domain:
    """The numbers of both."""
    return [part for low, high in second for part in clip(first, low, high)]


def complement(domain: Domain) -> Domain:
    """All other 64-bit numbers."""
    found: Domain = []
    start = INT_MIN
    for low, high in domain:
        if start < low:
            found.append((start, low - 1))
        start = high + 1
    if start <= INT_MAX:
        found.append((start, INT_MAX))
    return found


def image(domain: Domain, sign: int, offset: int) -> Domain:
    """The numbers `sign * value + offset`, where `sign` is 1 or -1."""
    if sign > 0:
        return [(low + offset, high + offset) for low, high in domain]
    return [(offset - high, offset - low) for low, high in reversed(domain)]


def shift(domain: Domain, offset: int) -> Domain:
    """All numbers plus `offset`, within 64 bits; an end that is the least or greatest of these stays so."""
    moved = [
        (
            low if low == INT_MIN else max(INT_MIN, low + offset),
            high if high == INT_MAX else min(INT_MAX, high + offset),
        )
        for low, high in domain
    ]
    return [(low, high) for low, high in moved if low <= high]
