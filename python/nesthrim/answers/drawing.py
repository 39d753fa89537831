"""Waves as a picture for a notebook, drawn from the answer alone. `svg` has the program's picture, with what is wrong marked in it."""

from __future__ import annotations

from typing import Iterator, List, Sequence, Tuple

# the name of a wire, its level at time 0, and its changes
Line = Tuple[str, int, Sequence[Tuple[int, int]]]

# in pixels: the waves' width, the height of a row and of what is above the rows, of a wave in its row, and a letter's width
_WIDTH, _ROW, _TOP, _HIGH, _LETTER = 640, 24, 20, 14, 7

# so many wires are drawn, and a wire with more changes is a bar
_MOST_WIRES, _MOST_CHANGES = 64, 2_000

_HEAD = '<svg xmlns="http://www.w3.org/2000/svg" width="{0}" height="{1}" viewBox="0 0 {0} {1}" font-family="monospace" font-size="12">'
_STYLE = '<g fill="none" stroke="black" stroke-width="1">'


def drawn(lines: Sequence[Line]) -> str:
    """An SVG file of waves, one below the other, from time 0 to a little behind the last change."""
    shown = lines[:_MOST_WIRES]
    last = max((changes[-1][0] for _, _, changes in shown if changes), default=0)
    names = max((len(name) for name, _, _ in shown), default=0)
    picture = _Picture(_LETTER * (names + 2), last + max(1, last // 20))
    more = len(lines) - len(shown)
    height = _TOP + _ROW * (len(shown) + bool(more))
    parts = [_HEAD.format(picture.left + _WIDTH + 10, height), f'<rect width="100%" height="{height}" fill="white"/>']
    parts += [_text(picture.x(time), 13, str(time)) for time in sorted({0, last // 2, last})]
    for place, line in enumerate(shown):
        parts += picture.row(line, _TOP + _ROW * place)
    if more:
        parts.append(_text(0, height - 8, f"and {more} more"))
    return "\n".join([*parts, "</svg>", ""])


def _text(x: float, y: int, text: str) -> str:
    return f'<text x="{x:g}" y="{y}">{text}</text>'


class _Picture:
    """Where times are in a picture."""

    def __init__(self, left: int, end: int) -> None:
        self.left = left
        self._end = end

    def x(self, time: int) -> float:
        return round(self.left + _WIDTH * time / self._end, 1)

    def row(self, line: Line, top: int) -> Iterator[str]:
        """A wire's name and its wave."""
        name, initial, changes = line
        yield _text(0, top + _HIGH, name)
        yield _STYLE
        if len(changes) > _MOST_CHANGES:
            yield self._box(changes[0][0], changes[-1][0], top, "lightgrey")
        elif initial <= 1 and all(level <= 1 for _, level in changes):
            yield self._steps(initial, changes, top)
        else:
            yield from (self._box(start, end, top, "white") for start, end, _ in self._levels(initial, changes))
        yield "</g>"
        if len(changes) > _MOST_CHANGES:
            yield _text(self.x(changes[0][0]) + 3, top + _HIGH, f"{len(changes)} changes")
        elif initial > 1 or any(level > 1 for _, level in changes):
            yield from self._numbers(initial, changes, top)

    def _levels(self, initial: int, changes: Sequence[Tuple[int, int]]) -> List[Tuple[int, int, int]]:
        """Each level with the times from which and before which the wire has it."""
        starts = [(0, initial), *changes]
        ends = [*(time for time, _ in changes), self._end]
        return [(start, end, level) for (start, level), end in zip(starts, ends)]

    def _steps(self, initial: int, changes: Sequence[Tuple[int, int]], top: int) -> str:
        path = f"M{self.x(0):g} {self._y(initial, top)}"
        for time, level in changes:
            path += f"H{self.x(time):g}V{self._y(level, top)}"
        return f'<path d="{path}H{self.x(self._end):g}"/>'

    def _y(self, level: int, top: int) -> int:
        return top + 3 + (0 if level else _HIGH)

    def _box(self, start: int, end: int, top: int, fill: str) -> str:
        return f'<rect x="{self.x(start):g}" y="{top + 3}" width="{self.x(end) - self.x(start):.1f}" height="{_HIGH}" fill="{fill}"/>'

    def _numbers(self, initial: int, changes: Sequence[Tuple[int, int]], top: int) -> Iterator[str]:
        """The levels, as far as there is room for them."""
        for start, end, level in self._levels(initial, changes):
            if _LETTER * len(str(level)) + 4 < self.x(end) - self.x(start):
                yield _text(self.x(start) + 3, top + _HIGH, str(level))
