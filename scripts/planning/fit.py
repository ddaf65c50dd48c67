"""Tests a response against the model that it answers.

Every value must lie in its domain, every constraint must hold, and the objective's value must be the one stated. What
nobody can see from a solution, as that no other is better, is listed as not tested.
"""

from __future__ import annotations

from collections.abc import Callable
from itertools import combinations
from math import prod

from planning.model import KINDS, Interval, Model, Plan, Response, pairs, terms_of
from planning.textproto import Message, TextError

TRUE = ("true", "True", "t", "1")


class Unfit(ValueError):
    """The response is no answer to the model."""


def fit(model: Model, response: Response) -> tuple[Plan, list[str]]:
    """The plan that the response holds, and what was not tested. Raises `Unfit`, and `TextError` for a faulty model."""
    if response.status not in ("OPTIMAL", "FEASIBLE"):
        raise Unfit(f"there is no plan in the response: its status is {response.status}")
    if len(response.solution) != len(model.variables):
        raise Unfit(f"the solution has {len(response.solution)} values for {len(model.variables)} variables")
    for number, (value, variable) in enumerate(zip(response.solution, model.variables)):
        if not inside(value, variable.domain):
            raise Unfit(f"variable {number} is {value}, outside its domain")
    plan = Plan(model, response.solution)
    for number, constraint in enumerate(model.constraints):
        try:
            if plan.all_true(constraint.enforcement) and not holds(plan, constraint.kind, constraint.body):
                raise Unfit(f"constraint {number} ({constraint.kind}) does not hold")
        except TextError as error:
            raise TextError(f"constraint {number}: {error}") from None
    for literal in model.assumptions:
        if not plan.is_true(literal):
            raise Unfit(f"the assumption {literal} is not true")
    test_objective(plan, response)
    return plan, not_tested(model, response)


def test_objective(plan: Plan, response: Response) -> None:
    """Raises `Unfit` where the objective's value or its bound cannot be what the response states."""
    objective = plan.model.objective
    if objective is None:
        return
    total = plan.total(objective.terms)
    if objective.domain and not inside(total, objective.domain):
        raise Unfit(f"the objective's sum is {total}, outside its domain")
    shown = objective.shown(total)
    if response.objective_value is not None and response.objective_value != shown:
        raise Unfit(f"the objective's value is {shown}, not {response.objective_value}")
    bound = response.best_bound
    if bound is not None and (bound > shown if objective.scaling > 0 else bound < shown):
        raise Unfit(f"the value {shown} is better than the bound {bound}")


def not_tested(model: Model, response: Response) -> list[str]:
    """What of the response and the model was not tested, in words."""
    skipped = []
    if model.objective is not None:
        skipped.append("that no plan is better" if response.status == "OPTIMAL" else "how good the plan is")
    unknown = sorted({c.kind for c in model.constraints if c.kind and c.kind not in KINDS})
    skipped += [f"constraints of the kind {kind}" for kind in unknown]
    skipped += [f"the model's {name}" for name in model.unread]
    return skipped


def inside(value: int, domain: list[tuple[int, int]]) -> bool:
    """Whether `value` lies in one of the intervals of `domain`."""
    return any(low <= value <= high for low, high in domain)


def holds(plan: Plan, kind: str, body: Message) -> bool:
    """Whether the constraint of this kind and body holds; one of a kind that isn't known counts as one that does."""
    test = TESTS.get(kind)
    return test is None or test(plan, body)


def count_true(plan: Plan, body: Message) -> int:
    return sum(plan.is_true(literal) for literal in body.numbers("literals"))


def linear(plan: Plan, body: Message) -> bool:
    return inside(plan.total(terms_of(body)), pairs(body.numbers("domain")))


def quotient(dividend: int, divisor: int) -> int:
    """The quotient rounded towards zero."""
    size = abs(dividend) // abs(divisor)
    return size if (dividend < 0) == (divisor < 0) else -size


def division(plan: Plan, body: Message, is_remainder: bool) -> bool:
    values = plan.expressions(body)
    if len(values) != 2:
        raise TextError("a division has two expressions")
    dividend, divisor = values
    if divisor == 0:
        return False
    whole = quotient(dividend, divisor)
    return plan.expression(body.message("target")) == (dividend - divisor * whole if is_remainder else whole)


def lin_max(plan: Plan, body: Message) -> bool:
    return plan.expression(body.message("target")) == max(plan.expressions(body), default=None)


def element(plan: Plan, body: Message) -> bool:
    if set(body.names()) & {"index", "target", "vars"}:
        index, target = plan.value(body.number("index")), plan.value(body.number("target"))
        values = [plan.value(reference) for reference in body.numbers("vars")]
    else:
        index, target = (plan.expression(body.message(f"linear_{name}")) for name in ("index", "target"))
        values = plan.expressions(body)
    return 0 <= index < len(values) and values[index] == target


def columns(plan: Plan, body: Message) -> list[int]:
    """The values of `exprs`, or of the older `vars`."""
    return plan.expressions(body) + [plan.value(reference) for reference in body.numbers("vars")]


def table(plan: Plan, body: Message) -> bool:
    row, values = columns(plan, body), body.numbers("values")
    if not row:
        return True
    found = any(values[place : place + len(row)] == row for place in range(0, len(values), len(row)))
    return found != (body.values("negated")[-1:] in [[word] for word in TRUE])


def all_diff(plan: Plan, body: Message) -> bool:
    values = plan.expressions(body)
    return len(set(values)) == len(values)


def taken_arcs(plan: Plan, body: Message) -> list[tuple[int, int, int]]:
    """Tail, head and literal of each arc that is taken."""
    lists = [body.numbers(name) for name in ("tails", "heads", "literals")]
    if len({len(one) for one in lists}) != 1:
        raise TextError("tails, heads and literals are of different lengths")
    return [arc for arc in zip(*lists) if plan.is_true(arc[2])]


def circuit(plan: Plan, body: Message) -> bool:
    nodes = set(body.numbers("tails")) | set(body.numbers("heads"))
    arcs = taken_arcs(plan, body)
    after = {tail: head for tail, head, _ in arcs}
    if not len(arcs) == len(after) == len(set(after.values())) == len(nodes):
        return False
    return len(tour(after)) == sum(tail != head for tail, head in after.items())


def tour(after: dict[int, int]) -> list[int]:
    """The nodes from the least one that is left for another, in the order in which they are reached."""
    moving = [tail for tail, head in after.items() if tail != head]
    order, node = [], min(moving, default=None)
    while node is not None and (not order or node != order[0]):
        order.append(node)
        node = after[node]
    return order


def interval(plan: Plan, body: Message) -> bool:
    start, end, size = (plan.expression(body.message(name)) for name in ("start", "end", "size"))
    return size >= 0 and start + size == end


def one_before_other(first: Interval, second: Interval) -> bool:
    return first.end <= second.start or second.end <= first.start


def no_overlap(plan: Plan, body: Message) -> bool:
    present = sorted((one.start, one.end) for one in plan.intervals(body) if one.is_present)
    return all(end <= start for (_, end), (start, _) in zip(present, present[1:]))


def no_overlap_2d(plan: Plan, body: Message) -> bool:
    boxes = present_boxes(plan, body)
    return all(
        one_before_other(first[1], second[1]) or one_before_other(first[2], second[2])
        for first, second in combinations(boxes, 2)
    )


def present_boxes(plan: Plan, body: Message) -> list[tuple[int, Interval, Interval]]:
    """Number and both intervals of each box that is present."""
    x, y = (plan.intervals(body, name) for name in ("x_intervals", "y_intervals"))
    if len(x) != len(y):
        raise TextError("x_intervals and y_intervals are of different lengths")
    return [(k, a, b) for k, (a, b) in enumerate(zip(x, y)) if a.is_present and b.is_present]


def demands(plan: Plan, body: Message) -> list[tuple[Interval, int]]:
    """Each present interval of a `cumulative` with its demand."""
    intervals, amounts = plan.intervals(body), plan.expressions(body, "demands")
    if len(intervals) != len(amounts):
        raise TextError("intervals and demands are of different lengths")
    return [(one, amount) for one, amount in zip(intervals, amounts) if one.is_present]


def cumulative(plan: Plan, body: Message) -> bool:
    capacity = plan.expression(body.message("capacity"))
    changes: dict[int, int] = {}
    for one, amount in demands(plan, body):
        if one.start < one.end:
            changes[one.start] = changes.get(one.start, 0) + amount
            changes[one.end] = changes.get(one.end, 0) - amount
    level = 0
    for time in sorted(changes):
        level += changes[time]
        if level > capacity:
            return False
    return capacity >= 0


def reservoir(plan: Plan, body: Message) -> bool:
    times, changes = plan.expressions(body, "time_exprs"), plan.expressions(body, "level_changes")
    active = [plan.is_true(literal) for literal in body.numbers("active_literals")] or [True] * len(times)
    if not len(times) == len(changes) == len(active):
        raise TextError("the lists of events are of different lengths")
    by_time: dict[int, int] = {}
    for time, change, is_active in zip(times, changes, active):
        if is_active:
            by_time[time] = by_time.get(time, 0) + change
    level, low, high = 0, body.number("min_level"), body.number("max_level")
    for time in sorted(by_time):
        level += by_time[time]
        if not low <= level <= high:
            return False
    return True


def inverse(plan: Plan, body: Message) -> bool:
    direct, back = ([plan.value(r) for r in body.numbers(name)] for name in ("f_direct", "f_inverse"))
    if any(not 0 <= j < len(back) for j in direct) or any(not 0 <= i < len(direct) for i in back):
        return False
    return all(back[j] == i for i, j in enumerate(direct)) and all(direct[i] == j for j, i in enumerate(back))


def automaton(plan: Plan, body: Message) -> bool:
    names = ("transition_tail", "transition_label", "transition_head")
    steps: dict[tuple[int, int], set[int]] = {}
    for tail, label, head in zip(*(body.numbers(name) for name in names)):
        steps.setdefault((tail, label), set()).add(head)
    states = {body.number("starting_state")}
    for label in columns(plan, body):
        states = set().union(*(steps.get((state, label), set()) for state in states))
    return not states.isdisjoint(body.numbers("final_states"))


TESTS: dict[str, Callable[[Plan, Message], bool]] = {
    "bool_or": lambda plan, body: count_true(plan, body) >= 1,
    "bool_and": lambda plan, body: plan.all_true(body.numbers("literals")),
    "at_most_one": lambda plan, body: count_true(plan, body) <= 1,
    "exactly_one": lambda plan, body: count_true(plan, body) == 1,
    "bool_xor": lambda plan, body: count_true(plan, body) % 2 == 1,
    "linear": linear,
    "int_div": lambda plan, body: division(plan, body, is_remainder=False),
    "int_mod": lambda plan, body: division(plan, body, is_remainder=True),
    "int_prod": lambda plan, body: plan.expression(body.message("target")) == prod(plan.expressions(body)),
    "lin_max": lin_max,
    "element": element,
    "table": table,
    "all_diff": all_diff,
    "circuit": circuit,
    "interval": interval,
    "no_overlap": no_overlap,
    "no_overlap_2d": no_overlap_2d,
    "cumulative": cumulative,
    "reservoir": reservoir,
    "inverse": inverse,
    "automaton": automaton,
}
