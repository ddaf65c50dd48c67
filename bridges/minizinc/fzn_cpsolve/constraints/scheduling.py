"""Tasks on machines, tasks that share a resource, and boxes: constraints over intervals."""

from collections.abc import Sequence

from ..cpmodel import Affine, Literals, expression, expressions, numbers_text
from ..domains import INT_MAX, INT_MIN
from .registry import HOLDS, Posting, holds


def require_nonnegative(p: Posting, lengths: list[Affine], what: str) -> None:
    """No length is below 0. One that could be where the constraint is not enforced is refused."""
    for length in lengths:
        if p.model.bounds(length)[0] < 0:
            p.model.add_linear([(1, length)], [(0, INT_MAX)], p.enforcement)
            if p.model.bounds(length)[0] < 0:
                p.model.refuse(f"a {what} that may be below 0")


def presence_of(p: Posting, literals: Sequence[int]) -> Literals | None:
    """The literals under which an interval is present, without those that are true; None where one is false."""
    truths = [p.model.known(literal) for literal in literals]
    if False in truths:
        return None
    return [literal for literal, truth in zip(literals, truths) if truth is None]


def is_positive(p: Posting, length: Affine) -> int:
    """A literal that says whether a length is above 0."""
    low, high = p.model.bounds(length)
    truth = p.model.true_literal()
    if low >= 1:
        return truth
    if high <= 0:
        return -truth - 1
    literal = p.model.new_literal()
    p.model.add_linear([(1, length)], [(1, INT_MAX)], [literal])
    p.model.add_linear([(1, length)], [(INT_MIN, 0)], [-literal - 1])
    return literal


def add_cumulative(p: Posting, there: list[Literals], tasks: Sequence[list[Affine]], capacity: Affine) -> None:
    """The demands of the tasks that run sum to `capacity` at most, at each time. `tasks` are starts, lengths, demands."""
    starts, lengths, demands = tasks
    require_nonnegative(p, lengths, "duration")
    kept = []
    for literals, start, length, demand in zip(there, starts, lengths, demands, strict=True):
        presence = presence_of(p, literals)
        if presence is None or p.model.bounds(demand)[1] <= 0 or p.model.bounds(length)[1] <= 0:
            continue
        if p.model.bounds(demand)[0] < 0:
            p.model.refuse("a demand that may be below 0")
        kept.append((p.model.add_interval(start, length, presence), demand))
    if not starts:
        return
    fields = f"intervals: {numbers_text(number for number, _ in kept)} " if kept else ""
    fields += expressions("demands", [demand for _, demand in kept])
    p.model.add(p.enforcement, f"cumulative {{ capacity {expression(capacity)} {fields} }}")


@holds("fzn_cumulative")
def cumulative(p: Posting) -> None:
    """Tasks that share a resource."""
    tasks = p.affines(0), p.affines(1), p.affines(2)
    add_cumulative(p, [[] for _ in tasks[0]], tasks, p.affine(3))


@holds("cpsolve_cumulative_opt")
def optional_cumulative(p: Posting) -> None:
    """Tasks of which each may be absent."""
    there = [[literal] for literal in p.literals(0)]
    add_cumulative(p, there, (p.affines(1), p.affines(2), p.affines(3)), p.affine(4))


def add_disjunctive(p: Posting, there: list[Literals], starts: list[Affine], lengths: list[Affine], is_strict: bool) -> None:
    """No two tasks overlap. A task that takes no time may lie within another one, unless strictly none may."""
    require_nonnegative(p, lengths, "duration")
    kept = []
    for literals, start, length in zip(there, starts, lengths, strict=True):
        presence = presence_of(p, literals if is_strict else [*literals, is_positive(p, length)])
        if presence is not None:
            kept.append(p.model.add_interval(start, length, presence))
    if len(kept) > 1:
        p.model.add(p.enforcement, f"no_overlap {{ intervals: {numbers_text(kept)} }}")


def register_disjunctive(name: str, is_strict: bool) -> None:
    """Registers a constraint that no two tasks overlap, and the one whose tasks may be absent."""

    def plain(p: Posting) -> None:
        starts, lengths = p.lists()
        add_disjunctive(p, [[] for _ in starts], starts, lengths, is_strict)

    def optional(p: Posting) -> None:
        there = [[literal] for literal in p.literals(0)]
        add_disjunctive(p, there, p.affines(1), p.affines(2), is_strict)

    HOLDS[f"fzn_{name}"], HOLDS[f"cpsolve_{name}_opt"] = plain, optional


register_disjunctive("disjunctive", False)
register_disjunctive("disjunctive_strict", True)


def add_boxes(p: Posting, is_strict: bool) -> None:
    """No two boxes overlap. One without area may lie within another one, unless strictly none may."""
    xs, ys, widths, heights = p.lists()
    require_nonnegative(p, widths + heights, "size")
    horizontal, vertical = [], []
    for x, y, width, height in zip(xs, ys, widths, heights, strict=True):
        presence = [] if is_strict else presence_of(p, [is_positive(p, width), is_positive(p, height)])
        if presence is not None:
            horizontal.append(p.model.add_interval(x, width, presence))
            vertical.append(p.model.add_interval(y, height, presence))
    if len(horizontal) > 1:
        fields = f"x_intervals: {numbers_text(horizontal)} y_intervals: {numbers_text(vertical)}"
        p.model.add(p.enforcement, f"no_overlap_2d {{ {fields} }}")


@holds("fzn_diffn")
def boxes(p: Posting) -> None:
    """Boxes, of which none without area may lie within another."""
    add_boxes(p, True)


@holds("fzn_diffn_nonstrict")
def loose_boxes(p: Posting) -> None:
    """Boxes, of which those without area may lie anywhere."""
    add_boxes(p, False)
