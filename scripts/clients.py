"""Random models through protobuf's printers and `cpsolve print`, and back: each must be the same model. With a field that is
closed, each must be refused at that field's name."""
import random
import subprocess
import sys

import cp_model_pb2 as pb
from google.protobuf import text_format

WORDS = ["", "x", "shift 1", 'quote " and \'', "back\\slash", "line\nbreak\ttab\r", "gr\u00fc\u00df", "\u65e5\u672c", "\U0001f600", "\x00\x01\x7f"]
WHOLE = [0, 1, -1, 2, 7, 10**6, -(10**9), 2**53, -(2**53), 2**62, -(2**63), 2**63 - 1]
EXACT = [0.0, 1.0, -1.0, 3.0, 1e6, -1e15, float(2**53), -float(2**53)]


def numbers(rng, low, high, most=4):
    return [rng.randint(low, high) for _ in range(rng.randint(0, most))]


def wholes(rng, most=4):
    return [rng.choice(WHOLE) for _ in range(rng.randint(0, most))]


def references(rng):
    return numbers(rng, -(2**31), 2**31 - 1)


def expression(rng):
    return pb.LinearExpressionProto(vars=references(rng), coeffs=wholes(rng), offset=rng.choice(WHOLE))


def set_expression(rng, field):
    """A single expression. One that says nothing is left out, as the printed form does."""
    made = expression(rng)
    if made != pb.LinearExpressionProto():
        field.CopyFrom(made)


def set_whole(rng):
    """A single number."""
    return rng.choice(WHOLE)


def expressions(rng):
    return [expression(rng) for _ in range(rng.randint(0, 3))]


# How the fields of each kind are drawn. A kind that is no message of literals has a line here.
DRAWN = {
    "linear": {"vars": references, "coeffs": wholes, "domain": wholes},
    "int_div": {"target": set_expression, "exprs": expressions},
    "int_mod": {"target": set_expression, "exprs": expressions},
    "int_prod": {"target": set_expression, "exprs": expressions},
    "lin_max": {"target": set_expression, "exprs": expressions},
    "all_diff": {"exprs": expressions},
    "element": {"linear_index": set_expression, "linear_target": set_expression, "exprs": expressions},
    "circuit": {"tails": references, "heads": references, "literals": references},
    "table": {"exprs": expressions, "values": wholes},
    "interval": {"start": set_expression, "end": set_expression, "size": set_expression},
    "no_overlap": {"intervals": references},
    "cumulative": {"capacity": set_expression, "intervals": references, "demands": expressions},
    "inverse": {"f_direct": references, "f_inverse": references},
    "automaton": {
        "starting_state": set_whole,
        "final_states": wholes,
        "transition_tail": wholes,
        "transition_head": wholes,
        "transition_label": wholes,
        "exprs": expressions,
    },
    "reservoir": {
        "min_level": set_whole,
        "max_level": set_whole,
        "time_exprs": expressions,
        "level_changes": expressions,
        "active_literals": references,
    },
    "no_overlap_2d": {"x_intervals": references, "y_intervals": references},
}
# The fields of a model that no worker serves: a model with one is refused. One that is opened is drawn like the others.
CLOSED = []
LITERALS = ["bool_or", "bool_and", "bool_xor", "at_most_one", "exactly_one"]


def fill(rng, message, fields):
    message.SetInParent()
    for name, draw in fields.items():
        if draw is set_expression:
            draw(rng, getattr(message, name))
        elif draw is set_whole:
            setattr(message, name, draw(rng))
        else:
            getattr(message, name).extend(draw(rng))


def constraint(rng):
    made = pb.ConstraintProto(name=rng.choice(WORDS), enforcement_literal=references(rng))
    kind = rng.choice(LITERALS + list(DRAWN) + [None])
    if kind in DRAWN:
        fill(rng, getattr(made, kind), DRAWN[kind])
    elif kind:
        fill(rng, getattr(made, kind), {"literals": references})
    if kind == "table" and rng.random() < 0.5:
        made.table.negated = True
    return made


def strategy(rng):
    made = pb.DecisionStrategyProto(
        variable_selection_strategy=rng.randint(0, 4), domain_reduction_strategy=rng.randint(0, 4)
    )
    made.exprs.extend(expression(rng) for _ in range(rng.randint(0, 2)))
    return made


def model(rng):
    made = pb.CpModelProto(name=rng.choice(WORDS))
    for _ in range(rng.randint(0, 3)):
        made.variables.add(name=rng.choice(WORDS), domain=wholes(rng))
    made.constraints.extend(constraint(rng) for _ in range(rng.randint(0, 4)))
    if rng.random() < 0.7:
        made.objective.SetInParent()
        made.objective.vars.extend(references(rng))
        made.objective.coeffs.extend(wholes(rng))
        made.objective.domain.extend(wholes(rng))
        made.objective.offset = rng.choice(EXACT)
        made.objective.scaling_factor = rng.choice(EXACT)
    made.search_strategy.extend(strategy(rng) for _ in range(rng.randint(0, 2)))
    if rng.random() < 0.5:
        made.solution_hint.SetInParent()
        made.solution_hint.vars.extend(references(rng))
        made.solution_hint.values.extend(wholes(rng))
    if "assumptions" not in CLOSED:
        made.assumptions.extend(references(rng))
    return made


def closed_model(rng, made, name):
    """The model with a field that is closed, which holds a list of references."""
    more = pb.CpModelProto()
    more.CopyFrom(made)
    getattr(more, name).extend(references(rng) + [rng.randint(-3, 2)])
    return more


def meant(made):
    """The model in the form that is printed: a scaling factor of 0 counts as 1, and one of 1 is left out."""
    same = pb.CpModelProto()
    same.CopyFrom(made)
    if same.objective.scaling_factor == 1.0:
        same.objective.scaling_factor = 0.0
    return same


def printed(rng, made):
    """The model as one of protobuf's printers writes it."""
    return text_format.MessageToString(
        made,
        as_utf8=rng.random() < 0.5,
        as_one_line=rng.random() < 0.3,
        use_short_repeated_primitives=rng.random() < 0.5,
        pointy_brackets=rng.random() < 0.3,
        use_index_order=rng.random() < 0.5,
    )


def run(words, text):
    done = subprocess.run(words, input=text, stdout=subprocess.PIPE, check=False)
    return done.returncode, done.stdout


def check(program, protoc, made, text, what):
    code, ours = run([program, "print"], text)
    assert code == 0, (what, text, ours)
    back = text_format.Parse(ours.decode(), pb.CpModelProto())
    assert meant(back) == meant(made), (what, text, ours)
    code, encoded = run(protoc + ["--encode=operations_research.sat.CpModelProto"], ours)
    assert code == 0, (what, ours)
    assert meant(pb.CpModelProto.FromString(encoded)) == meant(made), (what, ours)
    code, again = run([program, "print"], ours)
    assert (code, again) == (0, ours), (what, ours, again)


def check_refused(program, text, name, what):
    """No word of a drawn model is the name of a closed field, so the field stands where its name first does."""
    fault = b"status: MODEL_INVALID\n# field fault Unsupported at byte %d\n" % text.index(name.encode())
    assert run([program, "print"], text) == (1, fault), (what, text)
    assert run([program, "validate"], text) == (1, fault), (what, text)


def main():
    here, count = sys.argv[1], int(sys.argv[2])
    program = here + "/cpsolve"
    protoc = ["protoc", "--proto_path=" + here + "/docs", here + "/docs/cp_model.proto"]
    for seed in range(count):
        rng = random.Random(seed)
        made = model(rng)
        check(program, protoc, made, printed(rng, made).encode(), ("python", seed))
        code, text = run(protoc + ["--decode=operations_research.sat.CpModelProto"], made.SerializeToString())
        assert code == 0, seed
        check(program, protoc, made, text, ("protoc", seed))
        for name in CLOSED:
            check_refused(program, printed(rng, closed_model(rng, made, name)).encode(), name, (name, seed))
    print(count, "models, each as python's and as protoc's printer writes it: the same model both ways")
    print(count * len(CLOSED), "models with a closed field: refused at its name")


main()
