"""Models of the tests, in canonical form, and what is compared of responses."""

BOOLEAN_KINDS = ("bool_or", "bool_and", "at_most_one", "exactly_one", "bool_xor")


def variables(*domains):
    return "".join(f"variables {{\n  domain: {list(domain)}\n}}\n" for domain in domains)


def kind(name, enforcement=(), **fields):
    """A constraint of a kind whose fields are lists of numbers."""
    enforced = f"  enforcement_literal: {list(enforcement)}\n" if enforcement else ""
    body = "".join(f"    {field}: {list(values)}\n" for field, values in fields.items() if values)
    return f"constraints {{\n{enforced}  {name} {{\n{body}  }}\n}}\n"


def objective(references, coeffs, **fields):
    rest = "".join(f"  {name}: {value}\n" for name, value in fields.items())
    return f"objective {{\n  vars: {list(references)}\n  coeffs: {list(coeffs)}\n{rest}}}\n"


def knapsack(weights, values, room):
    """What to take: the greatest value whose weight is at most `room`."""
    items = range(len(weights))
    return (
        variables(*[(0, 1)] * len(weights))
        + kind("linear", vars=items, coeffs=weights, domain=(0, room))
        + objective(items, [-value for value in values], scaling_factor=-1)
    )


def pigeons(count):
    """`count` pigeons in one hole fewer, as clauses: infeasible."""
    holes = count - 1
    at = [[pigeon * holes + hole for hole in range(holes)] for pigeon in range(count)]
    text = variables(*[(0, 1)] * (count * holes)) + "".join(kind("bool_or", literals=row) for row in at)
    return text + "".join(kind("at_most_one", literals=[row[hole] for row in at]) for hole in range(holes))


def drawn_model(rng):
    """A model of sums and Boolean kinds over six variables, none twice in a constraint, perhaps with an objective."""
    text = variables(*[(0, 1)] * 4, (0, 3), (-2, 1))
    for _ in range(rng.randint(2, 9)):
        chosen = [rng.choice((v, -v - 1)) for v in rng.sample(range(4), rng.randint(2, 4))]
        enforcement = [chosen.pop()] if rng.random() < 0.3 else []
        if rng.random() < 0.4:
            end = rng.randint(-2, 4)
            coeffs = rng.choices((-2, -1, 1, 2, 3), k=3)
            text += kind("linear", enforcement, vars=rng.sample(range(6), 3), coeffs=coeffs, domain=(end - 3, end))
        else:
            text += kind(rng.choice(BOOLEAN_KINDS), enforcement, literals=chosen)
    if rng.random() < 0.6:
        coeffs = [rng.randint(-5, 5) for _ in range(4)]
        text += objective(rng.sample(range(6), 4), coeffs, offset=rng.randint(-3, 3))
    return text


def without_solution(response):
    """The lines of a response but for the solution, of which there may be several, and comments."""
    lines = response.splitlines() if isinstance(response, str) else response
    return [line for line in lines if not line.startswith(("solution", "#"))]
