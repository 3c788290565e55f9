"""Pictures as SVG: panels over one axis of time, with steps, bars and marks."""

from __future__ import annotations

from bisect import bisect_right
from collections.abc import Callable, Iterable, Sequence
from dataclasses import dataclass, field
from html import escape
from itertools import groupby, pairwise
from math import hypot

# The places at which all panels begin and end, and the width of a picture without a column at the right.
LEFT, END, WIDTH = 150, 936, 960
# How wide a letter of a heading is, at most, on average.
HEAD_WIDTH = 7.9
INK, FAINT, GRID = "#222222", "#777777", "#e4e4e4"
# Colours that people with any sight of colour tell apart (Okabe and Ito).
BLUE, ORANGE, GREEN, RED, PURPLE, SKY, YELLOW = (
    "#0072b2",
    "#e69f00",
    "#009e73",
    "#d55e00",
    "#aa4499",
    "#56b4e9",
    "#ddcc77",
)
STYLE = f"""
  text {{ font: 12px 'DejaVu Sans', Verdana, Helvetica, sans-serif; fill: {INK} }}
  .title {{ font-size: 16px; font-weight: bold }} .head {{ font-size: 13px; font-weight: bold }}
  .small {{ font-size: 11px; fill: {FAINT} }} .grid {{ stroke: {GRID} }} .axis {{ stroke: {FAINT} }}
"""

Point = tuple[float, float]
# From a moment to another in a colour.
Bar = tuple[float, float, str]
# Points of a curve of steps: from the first number on it has the second.
Steps = Sequence[Point]


def number(value: float) -> str:
    """A number with as many digits as it needs, and a space between thousands."""
    if value == int(value):
        return f"{int(value):,}".replace(",", "\u2009")
    return f"{value:.6f}".rstrip("0").rstrip(".")


def ticks(least: float, greatest: float, about: int, bases: Sequence[float] = (1, 2, 5, 10)) -> list[float]:
    """Round numbers from the least to the greatest, about as many as wanted."""
    span = (greatest - least) or 1.0
    scale = 1.0
    while scale * bases[-1] * about < span:
        scale *= bases[-1]
    while scale * about > span:
        scale /= bases[-1]
    step = scale * next(it for it in bases if scale * it * about >= span)
    first = -(-least // step)
    count = int((greatest - first * step) / step + 1e-9) + 1
    return [(first + it) * step for it in range(max(count, 0))]


@dataclass(slots=True)
class Axis:
    """A range of values over a range of places in the picture."""

    least: float
    greatest: float
    start: float
    end: float

    def place(self, value: float) -> float:
        span = (self.greatest - self.least) or 1.0
        return self.start + (value - self.least) / span * (self.end - self.start)


def thinned(points: list[Point]) -> list[Point]:
    """Of the corners in one column of half a pixel: the first, the highest, the lowest and the last."""
    kept: list[Point] = []
    for _, column in groupby(points, key=lambda it: int(it[0] * 2)):
        corners = list(column)
        heights = [it[1] for it in corners]
        wanted = {0, heights.index(min(heights)), heights.index(max(heights)), len(corners) - 1}
        kept += [corners[it] for it in sorted(wanted)]
    return straightened(kept)


def is_near(point: Point, start: Point, end: Point) -> bool:
    """Whether a point is within half a pixel of the line from the start to the end."""
    across, up = end[0] - start[0], end[1] - start[1]
    length = hypot(across, up)
    if not length:
        return hypot(point[0] - start[0], point[1] - start[1]) <= 0.5
    return abs(across * (point[1] - start[1]) - up * (point[0] - start[0])) <= 0.5 * length


def straightened(points: list[Point]) -> list[Point]:
    """Without the corners between two that a straight line joins as well."""
    kept = points[:1]
    between: list[Point] = []
    for start, end in pairwise(points):
        if len(between) >= 64 or not all(is_near(it, kept[-1], end) for it in between):
            kept.append(start)
            between = []
        between.append(end)
    return kept + points[-1:] if len(points) > 1 else kept


@dataclass(slots=True)
class Picture:
    """A picture that grows downwards. Its curves end at the last moment that is told, a little before its border."""

    title: str
    subtitle: str
    time: Axis
    last: float
    width: int = WIDTH
    elements: list[str] = field(default_factory=list)
    y: float = 62

    def add(self, element: str) -> None:
        self.elements.append(element)

    def text(self, x: float, y: float, text: str, kind: str = "", anchor: str = "start") -> None:
        shape = (f' class="{kind}"' if kind else "") + (f' text-anchor="{anchor}"' if anchor != "start" else "")
        self.add(f'<text x="{x:.1f}" y="{y:.1f}"{shape}>{escape(text)}</text>')

    def line(self, x1: float, y1: float, x2: float, y2: float, kind: str) -> None:
        self.add(f'<line x1="{x1:.1f}" y1="{y1:.1f}" x2="{x2:.1f}" y2="{y2:.1f}" class="{kind}"/>')

    def heading(self, text: str, legend: Iterable[tuple[str, str]] = (), dashed: str = "") -> None:
        """A panel's heading, with the colours of its curves and bars named at the right, one of them as dashes.

        Where both have no room in one line the names stand below it.
        """
        names = list(legend)
        self.y += 26
        self.text(LEFT, self.y, text, "head")
        x = float(END)
        if LEFT + HEAD_WIDTH * len(text) > x - sum(6.9 * len(name) + 30 for _, name in names):
            self.y += 18
        for colour, name in reversed(names):
            x -= 6.9 * len(name)
            self.text(x, self.y, name)
            if name == dashed:
                path, style = f"M{x - 18:.1f} {self.y - 4:.1f}h13", f'stroke="{colour}" stroke-width="2"'
                self.add(f'<path d="{path}" {style} stroke-dasharray="5 3"/>')
            else:
                self.add(f'<rect x="{x - 16:.1f}" y="{self.y - 9:.1f}" width="11" height="9" fill="{colour}"/>')
            x -= 30
        self.y += 10

    def time_axis(self, unit: str, per_unit: float) -> None:
        """The axis of time at the foot of a panel; the axis itself counts in seconds."""
        bases = (1, 2, 5, 10) if per_unit == 1 else (1, 2, 5, 10, 15, 30, 60)
        for value in ticks(self.time.least / per_unit, self.time.greatest / per_unit, 9, bases):
            x = self.time.place(value * per_unit)
            self.line(x, self.y, x, self.y + 4, "axis")
            self.text(x, self.y + 17, number(round(value, 9)), "small", "middle")
        self.text(LEFT - 10, self.y + 17, unit, "small", "end")
        self.y += 22

    def plane(self, height: float, greatest: float) -> Axis:
        """An empty panel for curves from 0 to the greatest value."""
        axis = Axis(0, greatest, self.y + height, self.y)
        for value in ticks(0, greatest, 4):
            y = axis.place(value)
            self.line(LEFT, y, END, y, "grid")
            self.text(LEFT - 6, y + 4, number(round(value, 9)), "small", "end")
        self.y += height
        self.line(LEFT, self.y, END, self.y, "axis")
        return axis

    def steps(self, axis: Axis, steps: Steps, colour: str, filled: bool = False, dashes: str = "") -> None:
        """A curve that stays as it is until its next step, to the last moment."""
        corners: list[Point] = []
        for at, value in [*steps, (self.last, steps[-1][1])] if steps else []:
            x, y = self.time.place(at), axis.place(value)
            if corners:
                corners.append((x, corners[-1][1]))
            corners.append((x, y))
        self.curve(axis, corners, colour, filled, dashes)

    def slopes(self, axis: Axis, points: Steps, colour: str, dashes: str = "") -> None:
        """A curve of straight pieces."""
        places = [(self.time.place(at), axis.place(value)) for at, value in points]
        self.curve(axis, places, colour, False, dashes)

    def curve(self, axis: Axis, places: list[Point], colour: str, filled: bool, dashes: str) -> None:
        kept = thinned(places)
        if not kept:
            return
        path = "M" + "L".join(f"{x:.1f} {y:.1f}" for x, y in kept)
        if filled:
            closed = f"{path}L{kept[-1][0]:.1f} {axis.start:.1f}L{kept[0][0]:.1f} {axis.start:.1f}Z"
            self.add(f'<path d="{closed}" fill="{colour}" fill-opacity="0.25"/>')
        shape = f' stroke-dasharray="{dashes}"' if dashes else ""
        self.add(f'<path d="{path}" fill="none" stroke="{colour}" stroke-width="1.6"{shape}/>')

    def clipped(self, axis: Axis) -> None:
        """Begins a part that is cut off at the panel's border; `whole` ends it."""
        name = f"c{len(self.elements)}"
        height = axis.start - axis.end
        box = f'<rect x="{LEFT}" y="{axis.end:.1f}" width="{END - LEFT}" height="{height:.1f}"/>'
        self.add(f'<clipPath id="{name}">{box}</clipPath><g clip-path="url(#{name})">')

    def whole(self) -> None:
        self.add("</g>")

    def marks(self, name: str, moments: Iterable[float], colour: str) -> None:
        """A row of marks, with its name and their number at the left."""
        moments = list(moments)
        self.y += 15
        self.text(LEFT - 6, self.y, f"{name} {number(len(moments))}", "small", "end")
        self.line(LEFT, self.y - 4, END, self.y - 4, "grid")
        places = sorted({round(self.time.place(it) * 2) / 2 for it in moments})
        path = "".join(f"M{x:g} {self.y - 10:.1f}v11" for x in places)
        self.add(f'<path d="{path}" stroke="{colour}" stroke-width="2"/>')

    def bars(self, name: str, bars: Iterable[Bar], cells: Iterable[tuple[float, str]] = ()) -> None:
        """A row of bars, each from a moment to another in a colour, with the row's name at the left.

        Cells are texts at places behind its end.
        """
        self.y += 18
        self.text(LEFT - 6, self.y, name, "small", "end")
        for start, end, colour in bars:
            x, width = self.time.place(start), self.time.place(end) - self.time.place(start)
            size = f'width="{max(width, 0.5):.1f}" height="13"'
            self.add(f'<rect x="{x:.1f}" y="{self.y - 11:.1f}" {size} fill="{colour}"/>')
        for place, text in cells:
            self.text(END + place, self.y, text, "small", "end")

    def band(self, axis: Axis, start: float, end: float, name: str) -> None:
        """A time that is marked in a panel, with its name at its foot."""
        x, width = self.time.place(start), self.time.place(end) - self.time.place(start)
        size = f'width="{max(width, 0.5):.1f}" height="{axis.start - axis.end:.1f}"'
        self.add(f'<rect x="{x:.1f}" y="{axis.end:.1f}" {size} fill="{FAINT}" fill-opacity="0.15"/>')
        self.text(x + 3, axis.start - 4, name, "small")

    def note(self, axis: Axis, moment: float, text: str, row: int = 1) -> None:
        """A moment that is marked in a panel, with a text beside its foot."""
        x = self.time.place(moment)
        path = f"M{x:.1f} {axis.end:.1f}V{axis.start:.1f}"
        self.add(f'<path d="{path}" stroke="{FAINT}" stroke-dasharray="2 3"/>')
        self.text(x + 3, axis.start - 4 - 13 * row, text, "small")

    def counted(self, moments: Sequence[bytes], digits_of: Callable[[float], bytes]) -> Steps:
        """How many of the moments, in sorted digits, had come at each place of the axis at which there are more."""
        points: list[Point] = []
        span = (self.time.greatest - self.time.least) / (2 * (END - LEFT))
        for column in range(2 * (END - LEFT) + 1):
            at = self.time.least + span * column
            count = bisect_right(moments, digits_of(at))
            if count and (not points or count > points[-1][1]):
                points.append((at, float(count)))
        return points

    def svg(self) -> str:
        height = int(self.y + 24)
        head = (
            f'<svg xmlns="http://www.w3.org/2000/svg" width="{self.width}" height="{height}"'
            f' viewBox="0 0 {self.width} {height}">'
        )
        paper = f'<rect width="{self.width}" height="{height}" fill="#ffffff"/>'
        title = f'<text x="{LEFT}" y="28" class="title">{escape(self.title)}</text>'
        subtitle = f'<text x="{LEFT}" y="48" class="small">{escape(self.subtitle)}</text>'
        return "\n".join([head, f"<style>{STYLE}</style>", paper, title, subtitle, *self.elements, "</svg>", ""])
