"""Texts for other tools: dumps with a unit of time, and WaveJSON, read as WaveDrom reads it."""

from __future__ import annotations

import functools
import json
import os
import tempfile
from typing import Any, Dict, Iterator, List, Tuple

from nesthrim import Netlist, ProgramFailed, Session
from tests.support import Case, example, examples, needs
from tests.test_netlist import ALL_KINDS

# changes of all sorts: none, one and several in columns of five units, also at the end of one and at the begin of the next
BUSY = """horizon 40
wire a 1 0
wire d 8 7
stim a 4=1 6=0 7=1 8=0 20=1 24=0 25=1 39=0
stim d 3=12 5=200 6=7 12=255 30=0 31=255
"""


@needs("dump", "unit")
class Dumps(Case):
    def test_all_timescales(self) -> None:
        n = Netlist.read(example("ring.net"))
        first, others = n.dump().split("\n", 1)
        self.assertEqual("$timescale 1 ns $end", first)
        for number in ("1", "10", "100"):
            for unit in ("s", "ms", "us", "ns", "ps", "fs"):
                self.assertEqual(f"$timescale {number} {unit} $end\n{others}", n.dump(unit=number + unit))

    def test_other_words(self) -> None:
        n = Netlist.read(example("ring.net"))
        for word in ("", "1", "ns", "0ns", "2ns", "01ns", "1000ns", "10 ns", " 10ns", "10ns ", "1NS", "10nss", "1m", "10as", "-1ns", "1.0ns", "1e1ns"):
            fault = self.fault(ProgramFailed, functools.partial(n.dump, unit=word))
            self.assertEqual(2, fault.status)
            self.assertIn(f"invalid value '{word}' for '--unit <UNIT>'", fault.said)

    def test_file_and_session(self) -> None:
        n = Netlist.read(example("ring.net"))
        with tempfile.TemporaryDirectory() as folder, Session(n) as session:
            path = os.path.join(folder, "it.vcd")
            self.assertEqual(n.dump(unit="10ps"), session.dump(path, unit="10ps"))
            with open(path, encoding="utf-8", newline="") as file:
                self.assertEqual(n.dump(unit="10ps"), file.read())


def shown(wave: str) -> Iterator[str]:
    """What each column shows: its character, or where it is a `.` that of the column before."""
    before = ""
    for character in wave:
        before = before if character == "." else character
        yield before


def values(signal: Dict[str, Any]) -> Iterator[str]:
    """The value that each column of a wider wire shows: each `=` shows the next one."""
    left, value = iter(signal["data"]), ""
    for character in signal["wave"]:
        value = next(left) if character == "=" else value
        yield value
    if list(left):
        raise AssertionError("values are left")


@needs("show", "json")
class WaveJson(Case):
    def columns(self, head: Dict[str, Any], end: int) -> List[Tuple[int, int]]:
        """The first unit of each column and the one behind its last, from the head."""
        units = int(head["text"].replace("time in units of ", ""))
        return [(begin, min(begin + units, end)) for begin in range(head["tick"] * units, end, units)]

    def check(self, n: Netlist, start: int = 0, end: int = 2**64 - 1, columns: int = 72) -> None:
        read = json.loads(n.wave_json(start, end, columns=columns))
        self.assertEqual({"signal", "head"}, set(read))
        waves, spans = n.waves(), self.columns(read["head"], min(end, n.horizon))
        self.assertLessEqual(len(spans), columns)
        self.assertEqual(list(waves), [signal["name"] for signal in read["signal"]])
        for signal in read["signal"]:
            wave, width = waves[signal["name"]], n[signal["name"]].width
            events = [sum(begin <= time < stop and time > spans[0][0] for time in wave.times) for begin, stop in spans]
            levels = [wave.level(stop - 1) for _, stop in spans]
            self.assertEqual(len(spans), len(signal["wave"]))
            if width == 1:
                self.assertEqual(["x" if count > 1 else str(level) for count, level in zip(events, levels)], list(shown(signal["wave"])))
                self.assertNotIn("data", signal)
            else:
                self.assertEqual(list(map(str, levels)), list(values(signal)))
                self.assertEqual([bool(count) or not column for column, count in enumerate(events)], [each == "=" for each in signal["wave"]])

    def test_columns_show_the_waves(self) -> None:
        for text in [BUSY, ALL_KINDS, *map(example, examples())]:
            n = Netlist.read(text)
            for columns in (1, 7, 72):
                self.check(n, columns=columns)
                self.check(n, 5, 23, columns)

    def test_wires_and_numerals(self) -> None:
        n = Netlist.read(BUSY)
        read = json.loads(n.wave_json(3, 8, wires=["d", "a", "d"], hex=True))
        wanted = [{"name": "d", "wave": "=.==.", "data": ["0xc", "0xc8", "0x7"]}, {"name": "a", "wave": "01.01"}]
        self.assertEqual({"signal": wanted, "head": {"text": "time in units of 1", "tick": 3}}, read)
        self.assertEqual([], json.loads(Netlist.read("horizon 4\n").wave_json())["signal"])
