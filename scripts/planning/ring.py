"""Draws a `circuit` as a ring: its nodes in the order of the tour, clockwise from the least one."""

from __future__ import annotations

from dataclasses import dataclass
from math import cos, pi, sin

from planning.canvas import MARGIN, Canvas, colour, shortened, text_colour, text_width
from planning.fit import taken_arcs, tour
from planning.model import Constraint, Plan

NODE_SPACING = 62.0
LEAST_RADIUS, GREATEST_RADIUS = 110.0, 620.0
NODE_RADIUS = 15.0


@dataclass
class Ring:
    """A tour: `arcs` are the arc taken from each node of `order`, by its literal; `skipped` the nodes with a loop."""

    label: str
    order: list[int]
    arcs: list[int]
    skipped: list[int]


def rings_of(plan: Plan) -> list[Ring]:
    """The ring of each circuit that has to hold."""
    rings = []
    for number, constraint in enumerate(plan.model.constraints):
        if constraint.kind == "circuit" and plan.all_true(constraint.enforcement):
            rings.append(ring_of(plan, constraint, constraint.name or f"circuit {number}"))
    return rings


def ring_of(plan: Plan, constraint: Constraint, label: str) -> Ring:
    """The ring of one circuit."""
    arcs = taken_arcs(plan, constraint.body)
    after = {tail: head for tail, head, _ in arcs}
    literals = {tail: literal for tail, _, literal in arcs}
    order = tour(after)
    return Ring(label, order, [literals[node] for node in order], sorted(t for t, h in after.items() if t == h))


def costs_of(plan: Plan) -> dict[int, int]:
    """What each literal adds to the objective where it is true."""
    costs: dict[int, int] = {}
    for coeff, reference in plan.model.objective.terms if plan.model.objective else []:
        literal, cost = (reference, coeff) if reference >= 0 else (-reference - 1, -coeff)
        costs[literal] = costs.get(literal, 0) + cost
    return costs


class Drawing:
    """A ring on a canvas: its centre and its radius."""

    def __init__(self, canvas: Canvas, plan: Plan, ring: Ring, top: float) -> None:
        self.canvas, self.plan, self.ring = canvas, plan, ring
        nodes = max(len(ring.order), 1)
        self.radius = min(max(LEAST_RADIUS, nodes * NODE_SPACING / (2 * pi)), GREATEST_RADIUS)
        self.spacing = 2 * pi * self.radius / nodes
        self.node_radius = min(NODE_RADIUS, self.spacing / 3)
        self.costs = costs_of(plan)
        self.labels = [self.arc_label(literal) for literal in ring.arcs]
        self.margin = max([text_width(label) for label in self.labels] + [20.0]) + 16
        canvas.widen(MARGIN + 2 * (self.radius + self.margin))
        self.centre = (MARGIN + self.radius + self.margin, top + self.radius + 34)

    def arc_label(self, literal: int) -> str:
        """The arc's cost, or the name of its variable where it costs nothing."""
        cost = self.costs.get(literal, 0)
        name = self.plan.model.variables[self.plan.variable(literal)].name
        return str(cost) if cost else shortened(name, 110)

    def point(self, angle: float, radius: float) -> tuple[float, float]:
        """The point at `angle` clockwise from the top."""
        return self.centre[0] + radius * sin(angle), self.centre[1] - radius * cos(angle)

    def draw(self) -> float:
        """Draws the ring, and gives the height at which it ends."""
        step = 2 * pi / max(len(self.ring.order), 1)
        for place, literal in enumerate(self.ring.arcs):
            self.draw_arc(place * step, (place + 1) * step, place)
        for place, node in enumerate(self.ring.order):
            self.draw_node(place * step, node)
        self.draw_middle()
        bottom = self.centre[1] + self.radius + 34
        if self.ring.skipped:
            skipped = "left out: " + ", ".join(map(str, self.ring.skipped))
            self.canvas.heading(bottom + 8, skipped, "ink")
            bottom += 24
        return bottom

    def draw_arc(self, start: float, end: float, place: int) -> None:
        """An arc of the ring with its head at the next node, and its label outside."""
        gap, radius = (self.node_radius + 2) / self.radius, self.radius
        head = min(9.0, self.spacing / 5) / radius
        first, last = self.point(start + gap, radius), self.point(end - gap - head, radius)
        is_large = int(end - start - 2 * gap - head > pi)
        path = f"M {first[0]:.1f} {first[1]:.1f} A {radius:.1f} {radius:.1f} 0 {is_large} 1 {last[0]:.1f} {last[1]:.1f}"
        order = self.ring.order
        label = self.labels[place]
        note = f"<title>{order[place]} to {order[(place + 1) % len(order)]}</title>"
        self.canvas.add("path", {"d": path, "class": "axis", "stroke-width": 2}, note)
        half = head * radius / 2
        corners = [self.point(end - gap, radius)] + [
            self.point(end - gap - head, radius + side) for side in (half, -half)
        ]
        self.canvas.add("polygon", {"points": " ".join(f"{x:.1f},{y:.1f}" for x, y in corners), "class": "faint"})
        if label and self.spacing > 34:
            middle = (start + end) / 2
            x, y = self.point(middle, radius + 14)
            anchor = "middle" if abs(sin(middle)) < 0.3 else "start" if sin(middle) > 0 else "end"
            self.canvas.text((x, y + 5), label, "ink", anchor)

    def draw_node(self, angle: float, node: int) -> None:
        """A node with its number, where there is room for it."""
        x, y = self.point(angle, self.radius)
        at: dict[str, object] = {"cx": x, "cy": y, "r": self.node_radius, "fill": colour(0)}
        self.canvas.add("circle", at, f"<title>node {node}</title>")
        if text_width(str(node)) <= 2 * self.node_radius:
            self.canvas.text((x, y + 4.7), str(node), "label", "middle", fill=text_colour(colour(0)))

    def draw_middle(self) -> None:
        """How many nodes there are, and what their arcs cost."""
        x, y = self.centre
        nodes = len(self.ring.order)
        self.canvas.text((x, y), f"{nodes} node{'' if nodes == 1 else 's'}", "ink", "middle")
        cost = sum(self.costs.get(literal, 0) for literal in self.ring.arcs)
        if cost:
            self.canvas.text((x, y + 20), f"cost {cost}", "faint", "middle")


def draw(canvas: Canvas, plan: Plan, ring: Ring, top: float) -> float:
    """Draws one ring from the height `top` on, and gives the height at which it ends."""
    canvas.heading(top + 14, ring.label, "heading ink", 14)
    return Drawing(canvas, plan, ring, top + 14).draw()
