"""Which intervals share a colour.

Where all have names and these fall into groups by what stands before their last separator, as `hull_2` and `hull_3`
do, these are the groups. Else they are the chains of intervals that sums of two variables keep in order, as the
operations of a job. Where there are no such groups either, each interval has a colour of its own.
"""

from __future__ import annotations

import re

from planning.model import Interval, Plan, terms_of

LAST_PART = re.compile(r"[ _.:/-][^ _.:/-]*$|\d+$")
# More groups than colours can't be told apart.
MOST_GROUPS = 10


class Groups:
    """The group of each interval, by number, and the names of the groups where they mean something."""

    def __init__(self, plan: Plan, intervals: list[Interval]) -> None:
        self.names: list[str] = []
        self.heading = ""
        self.of: dict[int, int] = {one.number: place for place, one in enumerate(intervals)}
        by_name = {one.number: LAST_PART.sub("", one.label) for one in intervals}
        if not any(one.label == str(one.number) for one in intervals) and self.take(by_name):
            self.heading = "name"
            return
        chains = chains_of(plan, intervals)
        if self.take(chains):
            labels: dict[str, list[str]] = {}
            for one in intervals:
                labels.setdefault(chains[one.number], []).append(one.label)
            self.names = [", ".join(of_chain) for of_chain in labels.values()]
            self.heading = "chain of intervals"

    def take(self, keys: dict[int, str]) -> bool:
        """Groups by these keys, where they make a few groups of more than one interval."""
        names = list(dict.fromkeys(keys.values()))
        if not (1 < len(names) <= MOST_GROUPS and len(names) < len(keys)):
            return False
        self.names = names
        self.of = {number: names.index(key) for number, key in keys.items()}
        return True


def chains_of(plan: Plan, intervals: list[Interval]) -> dict[int, str]:
    """For each interval the chain that it stands in. A bound on a difference of two intervals' variables links them."""
    owners: dict[int, set[int]] = {}
    for one in intervals:
        body = plan.model.constraints[one.number].body
        for _, reference in terms_of(body.message("start")) + terms_of(body.message("end")):
            owners.setdefault(plan.variable(reference), set()).add(one.number)
    chain = {one.number: one.number for one in intervals}
    for constraint in plan.model.constraints:
        if constraint.kind != "linear" or constraint.enforcement:
            continue
        terms = terms_of(constraint.body)
        if len(terms) != 2 or terms[0][0] * terms[1][0] >= 0:
            continue
        linked = [owners.get(plan.variable(reference), set()) for _, reference in terms]
        if all(len(one) == 1 for one in linked):
            join(chain, *linked[0], *linked[1])
    return {number: str(root(chain, number)) for number in chain}


def root(chain: dict[int, int], number: int) -> int:
    """The interval that stands for the chain of interval `number`."""
    while chain[number] != number:
        chain[number] = chain[chain[number]]
        number = chain[number]
    return number


def join(chain: dict[int, int], first: int, second: int) -> None:
    """Makes one chain of two."""
    one, other = root(chain, first), root(chain, second)
    chain[max(one, other)] = min(one, other)
