"""What `docs/MODELS.md` says of each kind of constraint, over the values of all variables, and all
solutions of small models."""

from itertools import combinations, product


def intervals_of(domain):
    """The intervals of a domain, each with its least and its greatest value."""
    return list(zip(domain[::2], domain[1::2]))


def values_of(domain):
    return [value for low, high in intervals_of(domain) for value in range(low, high + 1)]


def is_in(value, domain):
    return any(least <= value <= greatest for least, greatest in intervals_of(domain))


def number(values, reference):
    return values[reference] if reference >= 0 else -values[-reference - 1]


def is_true(values, literal):
    return values[literal] == 1 if literal >= 0 else values[-literal - 1] == 0


def total(values, variables, coefficients):
    terms = zip(variables, coefficients, strict=True)
    return sum(coefficient * number(values, variable) for variable, coefficient in terms)


def worth(values, expression):
    return total(values, expression.vars, expression.coeffs) + expression.offset


def worths(values, expressions):
    return [worth(values, expression) for expression in expressions]


def quotient(dividend, divisor):
    """Rounded towards zero."""
    size = abs(dividend) // abs(divisor)
    return size if (dividend < 0) == (divisor < 0) else -size


def count_true(values, literals):
    return sum(is_true(values, literal) for literal in literals)


def divides(body, values, remainder):
    dividend, divisor = worths(values, body.exprs)
    divided = quotient(dividend, divisor)
    return worth(values, body.target) == (dividend - divided * divisor if remainder else divided)


def multiplies(body, values):
    left = 1
    for factor in worths(values, body.exprs):
        left *= factor
    return worth(values, body.target) == left


def is_greatest(body, values):
    return worth(values, body.target) == max(worths(values, body.exprs))


def has_element(body, values):
    place, target = worth(values, body.linear_index), worth(values, body.linear_target)
    return 0 <= place < len(body.exprs) and worth(values, body.exprs[place]) == target


def has_row(body, values):
    width = len(body.exprs)
    rows = [list(body.values[at : at + width]) for at in range(0, len(body.values), width)]
    return (worths(values, body.exprs) in rows) != body.negated


def is_circuit(body, values):
    arcs = list(zip(body.tails, body.heads, body.literals, strict=True))
    nodes = sorted({node for tail, head, _ in arcs for node in (tail, head)})
    taken = [(tail, head) for tail, head, literal in arcs if is_true(values, literal)]
    if sorted(tail for tail, _ in taken) != nodes or sorted(head for _, head in taken) != nodes:
        return False
    after = {tail: head for tail, head in taken if tail != head}
    return not after or round_trip(after, min(after)) == len(after)


def round_trip(after, start):
    """How many arcs lead back to the start."""
    node, arcs = after[start], 1
    while node != start:
        node, arcs = after[node], arcs + 1
    return arcs


def is_interval(body, values):
    start, size, end = (worth(values, part) for part in (body.start, body.size, body.end))
    return size >= 0 and start + size == end


def span(model, number_, values):
    """Start and end of a present interval, and None for an absent one."""
    constraint = model.constraints[number_]
    if not all(is_true(values, literal) for literal in constraint.enforcement_literal):
        return None
    return worth(values, constraint.interval.start), worth(values, constraint.interval.end)


def are_apart(one, other):
    return one[1] <= other[0] or other[1] <= one[0]


def do_not_overlap(model, body, values):
    spans = [found for i in body.intervals if (found := span(model, i, values))]
    return all(are_apart(one, other) for one, other in combinations(spans, 2))


def are_boxes_apart(model, body, values):
    pairs = zip(body.x_intervals, body.y_intervals, strict=True)
    sides = [(span(model, x, values), span(model, y, values)) for x, y in pairs]
    boxes = [(x, y) for x, y in sides if x and y]
    return all(are_apart(a[0], b[0]) or are_apart(a[1], b[1]) for a, b in combinations(boxes, 2))


def fits(model, body, values):
    capacity = worth(values, body.capacity)
    demands = zip(body.intervals, worths(values, body.demands), strict=True)
    running = [(*found, demand) for i, demand in demands if (found := span(model, i, values))]
    times = [start for start, _, _ in running]
    loads = [sum(demand for start, end, demand in running if start <= time < end) for time in times]
    return capacity >= 0 and all(load <= capacity for load in loads)


def keeps_levels(body, values):
    active = body.active_literals
    changes = zip(worths(values, body.time_exprs), worths(values, body.level_changes), strict=True)
    events = [event for i, event in enumerate(changes) if not active or is_true(values, active[i])]
    levels = [sum(change for at, change in events if at <= time) for time, _ in events]
    return all(body.min_level <= level <= body.max_level for level in levels)


def are_inverse(body, values):
    direct = [number(values, i) for i in body.f_direct]
    inverse = [number(values, i) for i in body.f_inverse]
    places = range(len(direct))
    if not all(value in places for value in direct + inverse):
        return False
    return all((direct[i] == j) == (inverse[j] == i) for i in places for j in places)


def is_accepted(body, values):
    arcs = list(zip(body.transition_tail, body.transition_label, body.transition_head, strict=True))
    states = {body.starting_state}
    for label in worths(values, body.exprs):
        states = {head for tail, label_, head in arcs if tail in states and label_ == label}
    return bool(states & set(body.final_states))


HOLDS = {
    "bool_or": lambda model, body, values: count_true(values, body.literals) >= 1,
    "bool_and": lambda model, body, values: count_true(values, body.literals) == len(body.literals),
    "bool_xor": lambda model, body, values: count_true(values, body.literals) % 2 == 1,
    "at_most_one": lambda model, body, values: count_true(values, body.literals) <= 1,
    "exactly_one": lambda model, body, values: count_true(values, body.literals) == 1,
    "linear": lambda model, body, values: is_in(total(values, body.vars, body.coeffs), body.domain),
    "int_div": lambda model, body, values: divides(body, values, remainder=False),
    "int_mod": lambda model, body, values: divides(body, values, remainder=True),
    "int_prod": lambda model, body, values: multiplies(body, values),
    "lin_max": lambda model, body, values: is_greatest(body, values),
    "all_diff": lambda model, body, values: len(set(worths(values, body.exprs))) == len(body.exprs),
    "element": lambda model, body, values: has_element(body, values),
    "table": lambda model, body, values: has_row(body, values),
    "circuit": lambda model, body, values: is_circuit(body, values),
    "interval": lambda model, body, values: is_interval(body, values),
    "no_overlap": do_not_overlap,
    "no_overlap_2d": are_boxes_apart,
    "cumulative": fits,
    "reservoir": lambda model, body, values: keeps_levels(body, values),
    "inverse": lambda model, body, values: are_inverse(body, values),
    "automaton": lambda model, body, values: is_accepted(body, values),
}


def is_satisfied(model, constraint, values):
    """Whether a constraint of the model holds, or is not enforced."""
    kind = constraint.WhichOneof("constraint")
    is_enforced = all(is_true(values, literal) for literal in constraint.enforcement_literal)
    return not kind or not is_enforced or HOLDS[kind](model, getattr(constraint, kind), values)


def is_solution(model, values):
    """Whether the values are in the domains, satisfy the constraints and meet the assumptions."""
    for variable, value in zip(model.variables, values, strict=True):
        if not is_in(value, variable.domain):
            return False
    if not all(is_satisfied(model, constraint, values) for constraint in model.constraints):
        return False
    return all(is_true(values, literal) for literal in model.assumptions)


def objective(model, values):
    """The sum that is minimised."""
    return total(values, model.objective.vars, model.objective.coeffs)


def solutions(model):
    """All solutions of a small model."""
    domains = (values_of(variable.domain) for variable in model.variables)
    return [values for values in product(*domains) if is_solution(model, values)]
