"""Draws the boxes of a `no_overlap_2d` as rectangles over two axes, x to the right and y upwards."""

from __future__ import annotations

from dataclasses import dataclass

from planning.canvas import MARGIN, Canvas, colour, text_width, ticks
from planning.fit import present_boxes
from planning.model import Interval, Plan, terms_of

GREATEST_WIDTH, GREATEST_HEIGHT = 760.0, 480.0
# Where one side is this much longer than the other the axes have units of their own.
GREATEST_RATIO = 6


@dataclass
class Sheet:
    """The boxes of a constraint: a label, and the interval along each axis."""

    label: str
    boxes: list[tuple[str, Interval, Interval]]
    low: tuple[int, int]
    high: tuple[int, int]


def sheets_of(plan: Plan) -> list[Sheet]:
    """The sheet of each constraint that has to hold."""
    sheets = []
    for number, constraint in enumerate(plan.model.constraints):
        if constraint.kind != "no_overlap_2d" or not plan.all_true(constraint.enforcement):
            continue
        boxes = [(label_of(k, x, y), x, y) for k, x, y in present_boxes(plan, constraint.body)]
        spans = [[box[axis] for box in boxes] for axis in (1, 2)]
        low = tuple(min([least_start(plan, one) for one in along], default=0) for along in spans)
        high = tuple(max([one.end for one in along] + [low[axis] + 1]) for axis, along in enumerate(spans))
        sheets.append(Sheet(constraint.name or f"no_overlap_2d {number}", boxes, low, high))
    return sheets


def label_of(number: int, x: Interval, y: Interval) -> str:
    """The name of one of the box's intervals, or the box's number."""
    return next((one.label for one in (x, y) if one.label != str(one.number)), str(number))


def least_start(plan: Plan, one: Interval) -> int:
    """The least time at which the interval could start, by the domains; where they say little, when it does."""
    message = plan.model.constraints[one.number].body.message("start")
    least = message.number("offset")
    for coeff, reference in terms_of(message):
        domain = plan.model.variables[plan.variable(reference)].domain
        ends = (domain[0][0], domain[-1][1]) if reference >= 0 else (-domain[-1][1], -domain[0][0])
        least += min(coeff * end for end in ends)
    return least if one.start - least <= 100 * max(one.size, 1) else one.start


class Drawing:
    """A sheet on a canvas: where it stands and the size of a unit along each axis."""

    def __init__(self, canvas: Canvas, sheet: Sheet, top: float) -> None:
        self.canvas, self.sheet = canvas, sheet
        wide, high = (sheet.high[axis] - sheet.low[axis] for axis in (0, 1))
        units = (GREATEST_WIDTH / wide, GREATEST_HEIGHT / high)
        is_long = wide > GREATEST_RATIO * high or high > GREATEST_RATIO * wide
        self.unit = units if is_long else (min(units), min(units))
        self.width, self.height = wide * self.unit[0], high * self.unit[1]
        self.left = MARGIN + 10 + max(text_width(str(end), 12) for end in (sheet.low[1], sheet.high[1]))
        canvas.widen(self.left + self.width + text_width(str(sheet.high[0])) / 2)
        self.top = top

    def x(self, at: int) -> float:
        return self.left + (at - self.sheet.low[0]) * self.unit[0]

    def y(self, at: int) -> float:
        return self.top + self.height - (at - self.sheet.low[1]) * self.unit[1]

    def draw(self) -> float:
        """Draws the sheet, and gives the height at which it ends."""
        self.canvas.rectangle((self.left, self.top), (self.width, self.height), **{"class": "lane"})
        self.draw_axes()
        for number, (label, x, y) in enumerate(self.sheet.boxes):
            left, top = self.x(x.start), self.y(y.end)
            box = (left + 1, top + 1, max(x.size * self.unit[0] - 2, 1.5), max(y.size * self.unit[1] - 2, 1.5))
            note = f"{label}: x {x.span}, y {y.span}"
            self.canvas.block(box, label, note, colour(number))
        return self.top + self.height + 42

    def draw_axes(self) -> None:
        """Both axes, with lines at their ticks."""
        (low_x, low_y), (high_x, high_y) = self.sheet.low, self.sheet.high
        right, bottom = self.left + self.width, self.top + self.height
        room = text_width(str(high_x)) + 16
        for tick in ticks(low_x, high_x, int(self.width / room)):
            self.canvas.line((self.x(tick), self.top), (self.x(tick), bottom), "grid")
            self.canvas.text((self.x(tick), bottom + 16), str(tick), "small faint", "middle")
        for tick in ticks(low_y, high_y, int(self.height / 26)):
            self.canvas.line((self.left, self.y(tick)), (right, self.y(tick)), "grid")
            self.canvas.text((self.left - 7, self.y(tick) + 4), str(tick), "small faint", "end")
        self.canvas.line((self.left, bottom), (right, bottom), "axis")
        self.canvas.line((self.left, self.top), (self.left, bottom), "axis")
        self.canvas.text(((self.left + right) / 2, bottom + 35), "x", "small faint", "middle")
        self.canvas.text((self.left - 7, self.top - 14), "y", "small faint", "end")


def draw(canvas: Canvas, sheet: Sheet, top: float) -> float:
    """Draws one sheet from the height `top` on, and gives the height at which it ends."""
    canvas.heading(top + 14, sheet.label, "heading ink", 14)
    return Drawing(canvas, sheet, top + 54).draw()
