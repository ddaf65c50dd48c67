"""Tables and automata."""

from collections.abc import Iterable

from .. import domains
from ..cpmodel import MAX_LISTED, Affine, expressions, numbers_text
from .registry import FAILS, HOLDS, Posting, Rule, fails, holds

# Most transitions of an automaton that is completed here.
MAX_TRANSITIONS = 1_000_000


def add_table(p: Posting, columns: list[Affine], cells: str, is_negated: bool = False) -> None:
    """The values of `columns` are a row of `cells`, or none of these."""
    rows = f"values: {cells} " if cells != "[]" else ""
    mark = "negated: true " if is_negated else ""
    p.model.add(p.enforcement, f"table {{ {expressions('exprs', columns)} {rows}{mark}}}")


def table(is_negated: bool) -> Rule:
    """Says that a list is a row of a table, or none of its rows."""

    def rule(p: Posting) -> None:
        columns = p.affines(0)
        if not columns:
            p.model.refuse("a table without columns")
        add_table(p, columns, p.references.numbers_text(p.arguments[1]), is_negated)

    return rule


for _name in ("cpsolve_table_int", "cpsolve_table_bool"):
    HOLDS[_name], FAILS[_name] = table(False), table(True)


Transition = tuple[int, int, int]


def add_automaton(p: Posting, start: int, finals: Iterable[int], transitions: list[Transition]) -> None:
    """The first argument, read as labels, leads from `start` to one of `finals` by transitions of tail, label, head."""
    tails, labels, heads = zip(*transitions) if transitions else ((), (), ())
    fields = {
        "final_states": tuple(finals),
        "transition_tail": tails,
        "transition_head": heads,
        "transition_label": labels,
    }
    parts = [f"starting_state: {start}"]
    parts += [f"{name}: {numbers_text(values)}" for name, values in fields.items() if values]
    p.model.add(p.enforcement, f"automaton {{ {' '.join(parts)} {expressions('exprs', p.affines(0))} }}")


def transitions_of(p: Posting) -> list[Transition]:
    """Transitions of tail, label and head."""
    return list(zip(p.numbers(3), p.numbers(4), p.numbers(5), strict=True))


@holds("cpsolve_automaton")
def automaton(p: Posting) -> None:
    """A list is accepted."""
    add_automaton(p, p.number(1), p.numbers(2), transitions_of(p))


@fails("cpsolve_automaton")
def no_automaton(p: Posting) -> None:
    """A list is not accepted, by an automaton that has one way for each label: the other states are final, among them one
    to which all ways lead that it has not."""
    start, finals, transitions = p.number(1), set(p.numbers(2)), transitions_of(p)
    step = {(tail, label): head for tail, label, head in transitions}
    if len(step) < len(set(transitions)):
        p.model.refuse("the opposite of an automaton in which a label has two ways")
    states = {start} | finals | {tail for tail, _ in step} | set(step.values())
    labels = labels_of(p)
    if len(labels) * len(states) > MAX_TRANSITIONS:
        p.model.refuse(f"more than {MAX_TRANSITIONS} transitions")
    sink = max(states) + 1
    complete = [(s, label, step.get((s, label), sink)) for s in sorted(states) + [sink] for label in labels]
    add_automaton(p, start, sorted(states - finals) + [sink], complete)


def labels_of(p: Posting) -> list[int]:
    """All values that the list's members may have."""
    found: set[int] = set()
    for part in p.affines(0):
        domain = p.model.domain(part)
        if domains.size(domain) > MAX_LISTED:
            p.model.refuse(f"more than {MAX_LISTED} labels")
        found.update(domains.values_of(domain))
    return sorted(found)
