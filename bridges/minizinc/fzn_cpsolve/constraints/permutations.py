"""All different, tours and inverse lists."""

from ..cpmodel import Affine, Literals, expressions, numbers_text
from .registry import Posting, Rule, holds

Arc = tuple[int, int, int]


@holds("fzn_all_different_int", "all_different_int")
def all_different(p: Posting) -> None:
    """No two of a list are equal."""
    parts = p.affines(0)
    if len(parts) > 1:
        p.model.add(p.enforcement, f"all_diff {{ {expressions('exprs', parts)} }}")


def arcs_of(p: Posting, parts: list[Affine], first: int, has_loops: bool) -> list[Arc]:
    """Tail, head and literal of each arc that a list of successors may take."""
    found = []
    for tail, part in enumerate(parts):
        for head in range(len(parts)):
            if tail != head or has_loops:
                literal = p.encoding.value(part, first + head)
                if literal is not None:
                    found.append((tail, head, literal))
    return found


def add_tour(p: Posting, has_loops: bool) -> None:
    """A list of successors is one circuit; with loops for the nodes that it leaves out, where it may leave out some."""
    parts, first = p.affines(0), p.number(1)
    if not p.enforcement:
        for own, part in enumerate(parts, first):
            last = first + len(parts) - 1
            others = [(first, own - 1), (own + 1, last)]
            p.model.narrow(part, [(first, last)] if has_loops else [(a, b) for a, b in others if a <= b])
    arcs = arcs_of(p, parts, first, has_loops)
    tails, heads = [arc[0] for arc in arcs], [arc[1] for arc in arcs]
    if len(set(tails)) < len(parts) or len(set(heads)) < len(parts):
        p.model.add_false(p.enforcement)
    elif parts:
        literals = [arc[2] for arc in arcs]
        fields = {"tails": tails, "heads": heads, "literals": literals}
        body = " ".join(f"{name}: {numbers_text(values)}" for name, values in fields.items())
        p.model.add(p.enforcement, f"circuit {{ {body} }}")


@holds("cpsolve_circuit")
def circuit(p: Posting) -> None:
    """All nodes are on one circuit."""
    add_tour(p, False)


@holds("cpsolve_subcircuit")
def subcircuit(p: Posting) -> None:
    """All nodes but those that are their own successors are on one circuit."""
    add_tour(p, True)


@holds("cpsolve_inverse")
def inverse(p: Posting) -> None:
    """Each of two lists says where the other has the place. A CpModel's has references and counts from 0: where both lists
    begin with the same small number they are filled with fixed pairs, and else there are variables of its own."""
    direct, first, inverted, first_inverted = p.affines(0), p.number(1), p.affines(2), p.number(3)
    plain = all(part.variable is not None and part[::2] == (1, 0) for part in direct + inverted)
    if plain and first == first_inverted and 0 <= first <= len(direct) + 8:
        fill = [p.model.fixed_variable(place) for place in range(first)]
        lists = [fill + [part.variable for part in parts] for parts in (direct, inverted)]
    else:
        lists = [places_from_zero(p, direct, first_inverted), places_from_zero(p, inverted, first)]
    p.model.add(p.enforcement, f"inverse {{ f_direct: {numbers_text(lists[0])} f_inverse: {numbers_text(lists[1])} }}")
    if not p.enforcement:
        link(p, direct, first, inverted, first_inverted)


def places_from_zero(p: Posting, parts: list[Affine], first: int) -> Literals:
    """Variables for places that are counted from 0."""
    found = []
    for part in parts:
        place = p.model.new_integer(0, len(parts) - 1)
        p.model.add_linear([(1, part), (-1, place)], [(first, first)], p.enforcement)
        found.append(place.variable)
    return found


def link(p: Posting, direct: list[Affine], first: int, inverted: list[Affine], first_inverted: int) -> None:
    """One literal serves `direct[i] = j` and `inverted[j] = i`."""
    for i, part in enumerate(direct, first):
        for j, other in enumerate(inverted, first_inverted):
            if part.variable is not None and other.variable is not None and abs(part.scale) == abs(other.scale) == 1:
                p.encoding.link(
                    (part.variable, part.scale * (j - part.offset)), (other.variable, other.scale * (i - other.offset))
                )
