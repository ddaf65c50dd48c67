"""Small models of each kind of constraint, drawn at random. All are valid."""

from cpsolve.cp_model_pb2 import CpModelProto

# Variables 0 to 3 are numbers, 4 to 6 are 0 or 1.
NUMBERS, LITERALS = range(4), range(4, 7)


def domain(rng):
    """One interval or two with a gap, of at most four values."""
    least = rng.randint(-2, 1)
    return [least, least + 2] if rng.random() < 0.6 else [least, least + 1, least + 3, least + 4]


def literal(rng):
    variable = rng.choice(LITERALS)
    return variable if rng.random() < 0.5 else -variable - 1


def literals(rng, count):
    return [literal(rng) for _ in range(count)]


def expression(rng, least=-2):
    """Of at most two terms; never below `least` where that is 0 or more."""
    if least >= 0:
        terms, offset = [rng.choice(LITERALS)], least + rng.randint(0, 1)
        coeffs = [rng.randint(0, 2)]
    else:
        terms, offset = rng.sample(NUMBERS, rng.randint(0, 2)), rng.randint(least, 2)
        coeffs = [rng.choice([-2, -1, 1, 2]) for _ in terms]
    return {"vars": terms, "coeffs": coeffs, "offset": offset}


def expressions(rng, count, least=-2):
    return [expression(rng, least) for _ in range(count)]


def of_literals(rng):
    return {"literals": literals(rng, rng.randint(0, 4))}


def linear(rng):
    terms = rng.sample(range(7), rng.randint(0, 4))
    coeffs = [rng.choice([-3, -1, 1, 2]) for _ in terms]
    return {"vars": terms, "coeffs": coeffs, "domain": domain(rng)}


def division(rng):
    return {"target": expression(rng), "exprs": [expression(rng), expression(rng, 1)]}


def of_expressions(rng):
    return {"target": expression(rng), "exprs": expressions(rng, rng.randint(1, 3))}


def element(rng):
    return {
        "linear_index": expression(rng),
        "linear_target": expression(rng),
        "exprs": expressions(rng, 3),
    }


def table(rng):
    width = rng.randint(1, 3)
    values = [rng.randint(-2, 3) for _ in range(width * rng.randint(0, 6))]
    return {"exprs": expressions(rng, width), "values": values, "negated": rng.random() < 0.5}


def circuit(rng):
    arcs = [(tail, head) for tail in range(3) for head in range(3) if rng.random() < 0.8]
    return {
        "tails": [tail for tail, _ in arcs],
        "heads": [head for _, head in arcs],
        "literals": literals(rng, len(arcs)),
    }


def inverse(rng):
    return {"f_direct": [0, 1], "f_inverse": rng.choice([[2, 3], [1, 0], [0, 2]])}


def automaton(rng):
    arcs = sorted({(rng.randint(0, 2), rng.randint(-2, 3)) for _ in range(6)})
    return {
        "starting_state": 0,
        "final_states": rng.sample(range(3), rng.randint(1, 2)),
        "transition_tail": [tail for tail, _ in arcs],
        "transition_label": [label for _, label in arcs],
        "transition_head": [rng.randint(0, 2) for _ in arcs],
        "exprs": expressions(rng, rng.randint(0, 3)),
    }


def reservoir(rng):
    events = rng.randint(1, 3)
    return {
        "min_level": rng.randint(-2, 0),
        "max_level": rng.randint(0, 2),
        "time_exprs": expressions(rng, events),
        "level_changes": expressions(rng, events),
        "active_literals": literals(rng, events) if rng.random() < 0.5 else [],
    }


def interval(rng):
    start, size = rng.choice(NUMBERS), rng.randint(0, 2)
    return {
        "start": {"vars": [start], "coeffs": [1]},
        "size": {"offset": size},
        "end": {"vars": [start], "coeffs": [1], "offset": size},
    }


def loose_interval(rng):
    """An interval whose start, size and end are not tied together by its form."""
    return {"start": expression(rng), "size": expression(rng), "end": expression(rng)}


# How the kinds that name no intervals are drawn.
BODIES = {
    **dict.fromkeys(["bool_or", "bool_and", "bool_xor", "at_most_one", "exactly_one"], of_literals),
    "linear": linear,
    "int_div": division,
    "int_mod": division,
    "int_prod": of_expressions,
    "lin_max": of_expressions,
    "all_diff": lambda rng: {"exprs": expressions(rng, rng.randint(0, 4))},
    "element": element,
    "table": table,
    "circuit": circuit,
    "interval": loose_interval,
    "inverse": inverse,
    "automaton": automaton,
    "reservoir": reservoir,
}
# How those that name intervals are drawn.
SCHEDULES = {
    "no_overlap": lambda rng, names: {"intervals": names},
    "no_overlap_2d": lambda rng, names: {"x_intervals": names[::2], "y_intervals": names[1::2]},
    "cumulative": lambda rng, names: {
        "intervals": names,
        "demands": expressions(rng, len(names), 0),
        "capacity": expression(rng),
    },
}
KINDS = [*BODIES, *SCHEDULES]


def add_constraint(made, rng, kind, body):
    """Adds a constraint, which may have an enforcement literal, and returns its number."""
    enforcement = literals(rng, 1) if rng.random() < 0.4 else []
    made.constraints.add(enforcement_literal=enforcement, **{kind: body})
    return len(made.constraints) - 1


def model(rng, kind):
    """A model with two constraints of a kind, and mostly with an objective."""
    made = CpModelProto()
    for _ in NUMBERS:
        made.variables.add(domain=domain(rng))
    for _ in LITERALS:
        made.variables.add(domain=[0, 1])
    for _ in range(2):
        if kind in BODIES:
            add_constraint(made, rng, kind, BODIES[kind](rng))
        else:
            add_schedule(made, rng, kind)
    if rng.random() < 0.8:
        made.objective.vars.extend(range(7))
        made.objective.coeffs.extend(rng.randint(-3, 3) for _ in range(7))
    return made


def add_schedule(made, rng, kind):
    """Adds four intervals, and a constraint of a kind that names them."""
    names = [add_constraint(made, rng, "interval", interval(rng)) for _ in range(4)]
    add_constraint(made, rng, kind, SCHEDULES[kind](rng, names))
