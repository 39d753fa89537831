"""Points of the ranges: values of all delays, of which those of a group have one factor."""

from __future__ import annotations

from typing import Dict, Iterable, List, Mapping, Sequence, Tuple

from .delays import Factor, Ranges
from .separation import Ends
from .timing import Timing

# values of all delays by place
Point = Tuple[int, ...]


class Space:
    """The points of ranges, in finer units, with the corner's factor in them.

    A unit is what varies by itself: a delay, or a group. Units are numbered; `units_of` has that of each place.
    """

    def __init__(self, timing: Timing, ranges: Ranges) -> None:
        self.timing, self.ranges, self.ends = timing, ranges, timing.ends(ranges)
        self.nominal: Point = tuple(timing.nominal)
        free = len(timing.delays)
        grouped = {place + 1: number for number, group in enumerate(ranges.groups) for place in group.places}
        self.units: List[Tuple[int, ...]] = [tuple(place + 1 for place in group.places) for group in ranges.groups]
        self.units_of: Dict[int, int] = dict(grouped)
        for place in range(1, free + 1):
            if place not in grouped:
                self.units_of[place] = len(self.units)
                self.units.append((place,))
        self.factors = sorted({timing.corner[0], 100.0, timing.corner[1]})

    def group(self, unit: int) -> Factor:
        """The group that a unit is."""
        return self.ranges.groups[unit]

    def ends_of(self, unit: int, factor: float) -> Tuple[Tuple[int, ...], Tuple[int, ...]]:
        """The values of a unit's places at its low and at its high end."""
        places = self.units[unit]
        if unit < len(self.ranges.groups):
            low, high = self.group(unit).low, self.group(unit).high
            return self._scaled(places, 1 + low, factor), self._scaled(places, 1 + high, factor)
        place = places[0]
        return (self._at(place, self.ends.low[place], factor),), (self._at(place, self.ends.high[place], factor),)

    def _scaled(self, places: Iterable[int], own: float, factor: float) -> Tuple[int, ...]:
        low, high = self.ends
        values = [min(max(round(self.nominal[place] * own), low[place]), high[place]) for place in places]
        return tuple(self._at(place, value, factor) for place, value in zip(places, values))

    def _at(self, place: int, value: float, factor: float) -> int:
        if factor == 100:
            return round(value)
        return max(0 if self.timing.delay_at(place).is_input else 1, round(value * factor / 100))

    def point(self, values: Sequence[float], factor: float) -> Point:
        """The point with these values before the corner's factor; gaps of stimuli stay."""
        free = len(self.timing.delays)
        return (0, *(self._at(place, values[place], factor) for place in range(1, free + 1)), *self.nominal[free + 1 :])

    def corner(self, weights: Mapping[int, int], factor: float) -> Point:
        """The point at which each unit is at its high end if its delays have a positive weight, by place, and at its low one if not."""
        point = list(self.nominal)
        sums = self.sums(weights)
        for unit, places in enumerate(self.units):
            low, high = self.ends_of(unit, factor)
            for place, value in zip(places, high if sums.get(unit, 0) > 0 else low):
                point[place] = value
        return tuple(point)

    def sums(self, weights: Mapping[int, int]) -> Dict[int, int]:
        """The weight of each unit: of a group, the sum of its delays, each as often as its weight says."""
        sums: Dict[int, int] = {}
        for place, weight in weights.items():
            if place in self.units_of:
                unit = self.units_of[place]
                sums[unit] = sums.get(unit, 0) + weight * (self.nominal[place] if len(self.units[unit]) > 1 else 1)
        return sums

    def moved(self, point: Sequence[int], weights: Mapping[int, int], factor: float) -> Point:
        """A point with the units of these weights moved to an end: up where the weight is above 0, down where it is below."""
        moved = list(point)
        for unit, weight in self.sums(weights).items():
            if weight:
                for place, value in zip(self.units[unit], self.ends_of(unit, factor)[weight > 0]):
                    moved[place] = value
        return tuple(moved)
