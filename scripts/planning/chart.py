"""Draws intervals as bars over time, a lane for each `no_overlap` and `cumulative` and one for those in neither."""

from __future__ import annotations

from dataclasses import dataclass, field

from planning.canvas import FONT_SIZE, MARGIN, WIDTH, Canvas, colour, shortened, text_width, ticks
from planning.fit import demands
from planning.groups import Groups
from planning.model import Interval, Plan

BAR_HEIGHT = 32.0
UNIT_HEIGHT = 26.0
LANE_HEIGHT = 220.0
LANE_GAP = 12.0
WIDEST_LABEL = 220.0


@dataclass
class Bar:
    """An interval in a lane, over units from `low` on and below `high`."""

    interval: Interval
    low: int
    high: int
    note: str


@dataclass
class Lane:
    """A resource: its name, how many units it has, and the bars that use them."""

    label: str
    units: int
    has_scale: bool = False
    bars: list[Bar] = field(default_factory=list)

    @property
    def unit_height(self) -> float:
        return min(UNIT_HEIGHT if self.units > 1 else BAR_HEIGHT, LANE_HEIGHT / self.units)

    @property
    def height(self) -> float:
        return self.unit_height * self.units


def lanes_of(plan: Plan) -> list[Lane]:
    """The lanes of a plan. Intervals that only `no_overlap_2d` names are in none."""
    lanes, seen = [], set()
    for number, constraint in enumerate(plan.model.constraints):
        body = constraint.body
        if constraint.kind == "no_overlap_2d":
            seen.update(body.numbers("x_intervals") + body.numbers("y_intervals"))
        if constraint.kind not in ("no_overlap", "cumulative"):
            continue
        seen.update(body.numbers("intervals"))
        if not plan.all_true(constraint.enforcement):
            continue
        label = constraint.name or f"{constraint.kind} {number}"
        if constraint.kind == "no_overlap":
            present = [one for one in plan.intervals(body) if one.is_present]
            lanes.append(Lane(label, 1, False, [Bar(one, 0, 1, "") for one in present]))
        else:
            capacity = max(plan.expression(body.message("capacity")), 1)
            lanes.append(Lane(label, capacity, True, packed(demands(plan, body))))
    others = [n for n, c in enumerate(plan.model.constraints) if c.kind == "interval" and n not in seen]
    present = [one for one in map(plan.interval, others) if one.is_present]
    if present:
        bars = packed([(one, 1) for one in present])
        lanes.append(Lane("in no resource", max(bar.high for bar in bars), False, bars))
    return lanes


def packed(uses: list[tuple[Interval, int]]) -> list[Bar]:
    """Gives each interval as many units as it demands, the lowest free ones, perhaps in several pieces.

    So never more units are in use than the demands of the intervals that run at some time sum to.
    """
    bars: list[Bar] = []
    running: list[Bar] = []
    for one, amount in sorted(uses, key=lambda use: (use[0].start, use[0].end)):
        running = [bar for bar in running if bar.interval.end > one.start]
        note = f", demand {amount}" if amount != 1 else ""
        pieces = [Bar(one, low, high, note) for low, high in free_units(running, amount)]
        bars += pieces
        running += pieces
    return bars


def free_units(running: list[Bar], amount: int) -> list[tuple[int, int]]:
    """The first free range of `amount` units among those that are in use, else the lowest free units."""
    taken = sorted((bar.low, bar.high) for bar in running)
    top = max((high for _, high in taken), default=0)
    gaps, at = [], 0
    for low, high in taken:
        if low > at:
            gaps.append((at, low))
        at = max(at, high)
    whole = next((low for low, high in gaps if high - low >= amount), None)
    if whole is not None or not gaps:
        low = at if whole is None else whole
        return [(low, low + amount)]
    pieces = []
    for low, high in gaps + [(top, top + amount)]:
        used = min(high - low, amount)
        pieces += [(low, low + used)] if used else []
        amount -= used
    return pieces


class Chart:
    """The axes of a chart whose lanes begin at the height `top`."""

    def __init__(self, canvas: Canvas, lanes: list[Lane], top: float) -> None:
        self.canvas = canvas
        self.lanes = lanes
        bars = [bar for lane in lanes for bar in lane.bars]
        first = min((bar.interval.start for bar in bars), default=0)
        self.high = max([first + 1] + [bar.interval.end for bar in bars])
        # The axis begins at 0 where that takes no more than half of it.
        self.low = 0 if 0 <= first <= self.high - first else first
        widest = max(text_width(lane.label) for lane in lanes)
        scale = max((text_width(str(lane.units)) for lane in lanes if lane.has_scale), default=0.0)
        self.label_width = min(max(widest, text_width("capacity 00")), WIDEST_LABEL)
        self.left = MARGIN + self.label_width + 14 + scale
        self.right = WIDTH - MARGIN - text_width(str(self.high)) / 2
        self.top = top
        self.bottom = top + sum(lane.height + LANE_GAP for lane in lanes)

    def x(self, time: int) -> float:
        """Where a time is, from the left."""
        return self.left + (self.right - self.left) * (time - self.low) / (self.high - self.low)

    def draw(self, groups: Groups) -> float:
        """Draws lanes and axis, and gives the height at which they end."""
        top = self.top
        for lane in self.lanes:
            self.canvas.rectangle((self.left, top), (self.right - self.left, lane.height), **{"class": "lane"})
            top += lane.height + LANE_GAP
        self.draw_axis()
        top = self.top
        for lane in self.lanes:
            self.draw_label(lane, top)
            for bar in lane.bars:
                self.draw_bar(bar, top + lane.height, lane.unit_height, groups)
            top += lane.height + LANE_GAP
        return self.bottom + 42

    def draw_axis(self) -> None:
        """The axis of time, with a line through the lanes at each tick."""
        room = max(text_width(str(end)) for end in (self.low, self.high)) + 16
        for tick in ticks(self.low, self.high, int((self.right - self.left) / room)):
            self.canvas.line((self.x(tick), self.top), (self.x(tick), self.bottom), "grid")
            self.canvas.text((self.x(tick), self.bottom + 16), str(tick), "small faint", "middle")
        self.canvas.line((self.left, self.bottom), (self.right, self.bottom), "axis")
        self.canvas.text(((self.left + self.right) / 2, self.bottom + 35), "time", "small faint", "middle")

    def draw_label(self, lane: Lane, top: float) -> None:
        """The name of a lane, and the scale of one with a capacity."""
        middle = top + lane.height / 2 + 0.36 * FONT_SIZE
        self.canvas.text((MARGIN, middle), shortened(lane.label, self.label_width), "ink")
        if not lane.has_scale:
            return
        for tick in ticks(0, lane.units, int(lane.height / 18)):
            height = top + lane.height - tick * lane.unit_height
            self.canvas.line((self.left - 4, height), (self.left, height), "axis")
            self.canvas.text((self.left - 7, height + 4), str(tick), "small faint", "end")
        self.canvas.line((self.left, top), (self.left, top + lane.height), "axis")

    def draw_bar(self, bar: Bar, bottom: float, unit_height: float, groups: Groups) -> None:
        """One bar; an interval that takes no time is a thin one."""
        one = bar.interval
        left, height = self.x(one.start), (bar.high - bar.low) * unit_height
        width = max(self.x(one.end) - left - 1, 1.5)
        box = (left + 0.5, bottom - bar.high * unit_height + 1, width, max(height - 2, 1.0))
        self.canvas.block(box, one.label, f"{one.label}: {one.span}{bar.note}", colour(groups.of[one.number]))


def draw(canvas: Canvas, plan: Plan, lanes: list[Lane], top: float) -> float:
    """Draws the lanes from the height `top` on, with what the colours mean, and gives the height at which they end."""
    canvas.widen(WIDTH - MARGIN)
    drawn = {bar.interval.number: bar.interval for lane in lanes for bar in lane.bars}
    groups = Groups(plan, [drawn[number] for number in sorted(drawn)])
    bottom = Chart(canvas, lanes, top).draw(groups)
    return draw_legend(canvas, groups, bottom + 14) if groups.heading else bottom


def draw_legend(canvas: Canvas, groups: Groups, top: float) -> float:
    """A square of each group's colour with its name, in as many lines as they take."""
    left, right = float(MARGIN), WIDTH - MARGIN
    heading = f"colour: {groups.heading}"
    canvas.text((left, top + 11), heading, "small faint")
    left += text_width(heading, 12) + 14
    first = left
    for number, name in enumerate(groups.names):
        short = shortened(name, 180, 12) or "…"
        width = 18 + text_width(short, 12) + 16
        if left + width > right and left > first:
            left, top = first, top + 20
        canvas.rectangle((left, top), (12, 12), name, rx=2, fill=colour(number))
        canvas.text((left + 18, top + 11), short, "small ink")
        left += width
    return top + 24
