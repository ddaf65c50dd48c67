"""A surface that collects the elements of an SVG, with the colours, the sizes of text and the ticks of axes."""

from __future__ import annotations

import re
from collections.abc import Iterable
from xml.sax.saxutils import escape

WIDTH = 960
MARGIN = 24
FONT_SIZE = 13
COLOURS = ("#4e79a7", "#f28e2b", "#59a14f", "#e15759", "#76b7b2", "#edc948", "#b07aa1", "#ff9da7", "#9c755f", "#bab0ac")
# Colours after these are none that the eye tells apart, so they begin again.
DARK_TEXT, LIGHT_TEXT = "#1f2328", "#ffffff"
STYLE = """
  text { font-family: Helvetica, Arial, "DejaVu Sans", sans-serif; font-size: 13px; }
  .title { font-size: 18px; font-weight: bold; }
  .heading { font-size: 14px; font-weight: bold; }
  .small { font-size: 12px; }
  .page { fill: #ffffff; } .ink { fill: #1f2328; } .faint { fill: #59636e; }
  .lane { fill: #eef1f4; } .grid { stroke: #d1d9e0; } .axis { stroke: #59636e; fill: none; }
  @media (prefers-color-scheme: dark) {
    .page { fill: #0d1117; } .ink { fill: #f0f6fc; } .faint { fill: #9198a1; }
    .lane { fill: #1c232b; } .grid { stroke: #3d444d; } .axis { stroke: #9198a1; }
  }
"""
NOT_XML = re.compile("[^\t\n\r\x20-\ud7ff\ue000-\ufffd\U00010000-\U0010ffff]")


def plain(text: str) -> str:
    """`text` as XML holds it."""
    return escape(NOT_XML.sub("\ufffd", text), {'"': "&quot;"})


def text_width(text: str, size: int = FONT_SIZE) -> float:
    """About how wide `text` is, rather too wide than too narrow."""
    widths = {**dict.fromkeys("ijlI.,:;|!'()[] ", 0.4), **dict.fromkeys("mwMW@%", 1.0)}
    return size * sum(widths.get(c, 0.78 if c.isupper() else 0.66 if ord(c) < 0x2E80 else 1.05) for c in text)


def shortened(text: str, room: float, size: int = FONT_SIZE) -> str:
    """`text`, or its beginning and an ellipsis where it is wider than `room`; "" where not two letters of it fit."""
    if text_width(text, size) <= room:
        return text
    while text and text_width(text + "…", size) > room:
        text = text[:-1]
    return text.rstrip() + "…" if len(text) > 1 else ""


def colour(number: int) -> str:
    """The colour of group `number`."""
    return COLOURS[number % len(COLOURS)]


def text_colour(background: str) -> str:
    """Black or white, whichever reads better on `background`."""
    red, green, blue = (int(background[k : k + 2], 16) for k in (1, 3, 5))
    return DARK_TEXT if 299 * red + 587 * green + 114 * blue > 130_000 else LIGHT_TEXT


def ticks(low: int, high: int, most: int) -> list[int]:
    """Round numbers from `low` to `high`, at most `most` of them where `most` is 2 or more."""
    step, factors = 1, (2, 5, 10)
    while (high - low) // step + 1 > max(most, 2):
        power = 10 ** (len(str(step)) - 1)
        step = next(power * factor for factor in factors if power * factor > step)
    return list(range(-(-low // step) * step, high + 1, step))


class Canvas:
    """The elements of a picture, which grows downwards from the height 0."""

    def __init__(self) -> None:
        self.elements: list[str] = []
        self.width = 2.0 * MARGIN

    def widen(self, right: float) -> None:
        """Makes the page wide enough for what reaches to `right`, with a margin beside it."""
        self.width = max(self.width, right + MARGIN)

    def add(self, tag: str, attributes: dict[str, object], inside: str = "") -> None:
        """Adds an element; numbers are rounded to a tenth."""
        written = " ".join(
            f'{name}="{value:.1f}"' if isinstance(value, float) else f'{name}="{plain(str(value))}"'
            for name, value in attributes.items()
        )
        self.elements.append(f"<{tag} {written}>{inside}</{tag}>" if inside else f"<{tag} {written}/>")

    def rectangle(
        self, corner: tuple[float, float], size: tuple[float, float], note: str = "", **style: object
    ) -> None:
        """A rectangle by its upper left corner; `note` shows where it is pointed at."""
        box = {"x": float(corner[0]), "y": float(corner[1]), "width": float(size[0]), "height": float(size[1])}
        self.add("rect", box | style, f"<title>{plain(note)}</title>" if note else "")

    def line(self, start: tuple[float, float], end: tuple[float, float], kind: str) -> None:
        """A straight line of the class `kind`."""
        ends = {"x1": float(start[0]), "y1": float(start[1]), "x2": float(end[0]), "y2": float(end[1])}
        self.add("line", ends | {"class": kind})

    def text(self, place: tuple[float, float], text: str, kind: str, anchor: str = "start", **style: object) -> None:
        """A line of text of the class `kind` whose baseline is at `place`."""
        at: dict[str, object] = {"x": float(place[0]), "y": float(place[1]), "class": kind}
        if anchor != "start":
            at["text-anchor"] = anchor
        self.add("text", at | style, plain(text))

    def heading(self, height: float, text: str, kind: str, size: int = FONT_SIZE) -> None:
        """A line of text at the left margin, for which the page is widened."""
        fitting = shortened(text, WIDTH - 2 * MARGIN, size)
        self.widen(MARGIN + text_width(fitting, size))
        self.text((MARGIN, height), fitting, kind)

    def block(self, box: tuple[float, float, float, float], label: str, note: str, fill: str) -> None:
        """A coloured block (left, top, width, height) with its label in the middle, as far as it fits."""
        left, top, width, height = box
        self.rectangle((left, top), (width, height), note, rx=3, fill=fill)
        fitting = shortened(label, width - 6)
        if fitting and height >= FONT_SIZE:
            middle = (left + width / 2, top + height / 2 + 0.36 * FONT_SIZE)
            self.text(middle, fitting, "label", "middle", fill=text_colour(fill))


def document(canvas: Canvas, height: float, title: str, comments: Iterable[str]) -> str:
    """The whole SVG."""
    width = f"{canvas.width:.0f}"
    said = "\n".join(comments).replace("--", "- -")
    lines = [
        f'<svg xmlns="http://www.w3.org/2000/svg" viewBox="0 0 {width} {height:.0f}" width="{width}" '
        f'height="{height:.0f}" role="img">',
        f"<!--\n{NOT_XML.sub('?', said)}\n-->",
        f"<title>{plain(title)}</title>",
        f"<style>{STYLE}</style>",
        '<rect class="page" width="100%" height="100%"/>',
        *canvas.elements,
        "</svg>",
    ]
    return "\n".join(lines) + "\n"
