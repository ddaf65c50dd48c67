"""Puts the pictures of a plan on one page, below its title."""

from __future__ import annotations

from planning import boxes, chart, ring
from planning.canvas import Canvas, document
from planning.model import Plan, Response


class NothingToDraw(ValueError):
    """The model has no interval and no circuit."""


def page(plan: Plan, response: Response, name: str, comments: list[str]) -> str:
    """The SVG of a plan. `name` is that of the model's file. Raises `NothingToDraw`."""
    lanes, rings, sheets = chart.lanes_of(plan), ring.rings_of(plan), boxes.sheets_of(plan)
    if not (lanes or rings or sheets):
        raise NothingToDraw("there is nothing to draw: the model has no interval and no circuit")
    canvas = Canvas()
    title = plan.model.name or name
    canvas.heading(40, title, "title ink", 18)
    canvas.heading(62, summary(plan, response), "faint")
    bottom = 66.0
    if lanes:
        bottom = chart.draw(canvas, plan, lanes, bottom + 20)
    for one in sheets:
        bottom = boxes.draw(canvas, one, bottom + 20)
    for one in rings:
        bottom = ring.draw(canvas, plan, one, bottom + 20)
    return document(canvas, bottom + 12, title, comments)


def summary(plan: Plan, response: Response) -> str:
    """The response's status and the objective's value, in words."""
    objective = plan.model.objective
    if objective is None:
        return response.status
    return f"{response.status}, objective {objective.shown(plan.total(objective.terms))}"
