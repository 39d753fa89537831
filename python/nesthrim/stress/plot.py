"""Margins of bundles against the spread, as a table and as a picture."""

from __future__ import annotations

from typing import TYPE_CHECKING, Dict, List, Sequence, Tuple
from xml.sax.saxutils import escape

from .answer import number

if TYPE_CHECKING:
    from .ask import Question

# the points of a line, from the first spread to the last one
Lines = Dict[str, List[Tuple[float, float]]]

_STEPS = 10
_WIDTH, _HEIGHT, _LEFT, _TOP, _RIGHT, _BOTTOM = 720, 420, 60, 20, 150, 50

# how many bundles, the weakest ones, have a name and a colour
_NAMED = 8
_COLOURS = ("#b2182b", "#2166ac", "#1b7837", "#762a83", "#b35806", "#01665e", "#4d4d4d", "#c51b7d")


def margins(question: Question, last: float) -> Lines:
    """The worst margin that is found of each bundle, at spreads from 0 to the last one, all with one graph."""
    lines: Lines = {}
    for step in range(_STEPS + 1):
        percent = last * step / _STEPS
        for bundle in question.bundles(percent, last):
            if bundle.worst is not None:
                lines.setdefault(bundle.name, []).append((percent, bundle.worst))
    return lines


def table(lines: Lines) -> str:
    """A table of comma-separated values: a row for each spread, a column for each bundle."""
    spreads = [percent for percent, _ in next(iter(lines.values()), [])]
    rows = [["spread", *lines]]
    rows += [[number(percent), *(number(points[place][1]) for points in lines.values())] for place, percent in enumerate(spreads)]
    return "".join(",".join(row) + "\n" for row in rows)


def picture(lines: Lines) -> str:
    """An SVG picture: the spread to the right, the margin above the setup upwards, a line at 0, and the weakest bundles by name."""
    weakest = sorted(lines, key=lambda name: (lines[name][-1][1], name))[:_NAMED]
    values = [margin for points in lines.values() for _, margin in points] + [0.0]
    axes = _Axes(max((points[-1][0] for points in lines.values()), default=0) or 1, min(values), max(values))
    parts = [*axes.drawn(), *(axes.line(lines[name], "#bbbbbb", 1) for name in lines if name not in weakest)]
    for place, name in enumerate(weakest):
        colour = _COLOURS[place % len(_COLOURS)]
        parts.append(axes.line(lines[name], colour, 2))
        y = _TOP + 14 + 20 * place
        x = _WIDTH - _RIGHT + 12
        parts.append(f'<line x1="{x}" y1="{y - 4}" x2="{x + 18}" y2="{y - 4}" stroke="{colour}" stroke-width="2"/>')
        parts.append(f'<text x="{x + 24}" y="{y}">{escape(name)} {number(lines[name][-1][1])}</text>')
    size = f'width="{_WIDTH}" height="{_HEIGHT}" viewBox="0 0 {_WIDTH} {_HEIGHT}"'
    head = f'<svg xmlns="http://www.w3.org/2000/svg" {size} font-family="sans-serif" font-size="12">'
    return "\n".join([head, f'<rect width="{_WIDTH}" height="{_HEIGHT}" fill="white"/>', *parts, "</svg>"]) + "\n"


class _Axes:
    def __init__(self, spread: float, least: float, most: float) -> None:
        self.spread, self.least, self.most = spread, least, most if most > least else least + 1

    def place(self, percent: float, margin: float) -> Tuple[float, float]:
        """Where a point is drawn."""
        x = _LEFT + (_WIDTH - _LEFT - _RIGHT) * percent / self.spread
        y = _TOP + (_HEIGHT - _TOP - _BOTTOM) * (self.most - margin) / (self.most - self.least)
        return x, y

    def line(self, points: Sequence[Tuple[float, float]], colour: str, width: float) -> str:
        """A line through points."""
        places = " ".join(f"{x:.1f},{y:.1f}" for x, y in (self.place(*point) for point in points))
        return f'<polyline points="{places}" fill="none" stroke="{colour}" stroke-width="{width}"/>'

    def drawn(self) -> List[str]:
        """The frame, the line at 0, and what stands at both axes."""
        parts = [self.line([(0, 0), (self.spread, 0)], "#000000", 1)]
        parts.append(self.line([(0, self.least), (0, self.most)], "#000000", 1))
        for step in range(6):
            percent = self.spread * step / 5
            x, y = self.place(percent, self.least)
            parts.append(f'<text x="{x:.1f}" y="{y + 18:.1f}" text-anchor="middle">{number(round(percent, 2))}</text>')
            margin = self.least + (self.most - self.least) * step / 5
            x, y = self.place(0, margin)
            parts.append(f'<text x="{x - 8:.1f}" y="{y + 4:.1f}" text-anchor="end">{number(round(margin, 2))}</text>')
        middle = _LEFT + (_WIDTH - _LEFT - _RIGHT) / 2
        parts.append(f'<text x="{middle}" y="{_HEIGHT - 10}" text-anchor="middle">spread of all delays, in per cent</text>')
        turned = f'text-anchor="middle" transform="rotate(-90 16 {_HEIGHT / 2})"'
        parts.append(f'<text x="16" y="{_HEIGHT / 2}" {turned}>worst margin above the setup, in units</text>')
        return parts
