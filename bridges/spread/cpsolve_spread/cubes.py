"""Cuts a model into cubes.

A tree of bisections: at each inner node some variable is at most a number in one branch, and more than it in the other.
So each assignment lies in exactly one leaf, whatever the variable and the number are: the leaves, which are the cubes,
cover the model by construction.

As in cube-and-conquer (Heule, Kullmann, Wieringa and Biere 2011), with a count in place of its look-ahead: the variable
comes first that most constraints read, and with each cut of it the count is halved.
"""

from __future__ import annotations

from collections import Counter, deque
from heapq import nlargest

from cpsolve_spread.model import GREATEST, LEAST, Cut, Cuts, Domain, Model, within

# How many variables may be cut. The tree is less deep, so those that most constraints read suffice.
CANDIDATES = 64


def size(domain: Domain) -> int:
    """How many values a domain has."""
    return sum(greatest - least + 1 for least, greatest in domain)


def median(domain: Domain) -> int:
    """The greatest value of the lower half of a domain, which has at least two values."""
    left = size(domain) // 2
    for least, greatest in domain:
        if left <= greatest - least + 1:
            break
        left -= greatest - least + 1
    return least + left - 1


def bisect(model: Model, candidates: list[int], cuts: Cuts) -> tuple[Cut, Cut] | None:
    """The two cuts of a variable into halves, below a node with these cuts; None where all variables are fixed."""
    domains = {v: model.domains[v] for v in candidates}
    times = Counter(cut.variable for cut in cuts)
    for variable, least, greatest in cuts:
        domains[variable] = within(domains[variable], least, greatest)
    wide = [v for v in candidates if size(domains[v]) > 1]
    if not wide:
        return None
    # The first of the best, and candidates stand in order.
    chosen = max(wide, key=lambda v: model.readers[v] / 2 ** times[v])
    middle = median(domains[chosen])
    return Cut(chosen, LEAST, middle), Cut(chosen, middle + 1, GREATEST)


def cut(model: Model, count: int) -> list[Cuts]:
    """Cubes that cover the model: `count`, or fewer where there are no more assignments."""
    wide = [v for v, domain in enumerate(model.domains) if size(domain) > 1]
    candidates = nlargest(CANDIDATES, wide, key=lambda v: (model.readers[v], -v))
    leaves: deque[Cuts] = deque([()])
    points: list[Cuts] = []
    while leaves and len(leaves) + len(points) < count:
        cuts = leaves.popleft()
        if halves := bisect(model, candidates, cuts):
            leaves.extend((*cuts, half) for half in halves)
        else:
            points.append(cuts)
    return points + list(leaves)
