"""Answers as rows of a table, graphs of `networkx`, and what a notebook shows."""

from __future__ import annotations

import csv
import importlib
import io
import os
import pickle
import shutil
import sys
import tempfile
import unittest
import xml.etree.ElementTree
from typing import Any, Dict, List
from unittest import mock

from nesthrim import Netlist, PackageMissing, Page, Program, ProgramFailed, Refused, Session, find_program
from nesthrim.answers.measure import read_measure
from nesthrim.answers.report import read_check
from nesthrim.answers.waves import read_wave, read_waves
from tests.support import TOP, Case, example, examples
from tests.test_netlist import ALL_KINDS, all_kinds

try:
    networkx: Any = importlib.import_module("networkx")
except ImportError:
    networkx = None


class Rows(Case):
    def test_rows_of_texts(self) -> None:
        waves = read_waves("r 0 1=1 4=0\nd 5\n", "waves")
        wanted: List[Dict[str, Any]] = [
            {"wire": "r", "time": 0, "level": 0}, {"wire": "r", "time": 1, "level": 1}, {"wire": "r", "time": 4, "level": 0},
            {"wire": "d", "time": 0, "level": 5},
        ]  # fmt: skip
        self.assertEqual(wanted, waves.rows())
        self.assertEqual(wanted[3:], waves["d"].rows())
        measure = read_measure("wire w 3 4 9 2 3\nwire v 0\nbundle b 2 setup 1 response 3 4\n", "measure")
        w = {"name": "w", "events": 3, "first": 4, "last": 9, "least": 2, "most": 3, "period": 2.5}
        self.assertEqual([w, {**dict.fromkeys(w), "name": "v", "events": 0}], measure.wires.rows())
        b = {"name": "b", "requests": 2, "setup": 1, "least_response": 3, "most_response": 4, "late": None}
        self.assertEqual([b], measure.bundles.rows())
        keys = dict.fromkeys(["sort", *w, *b])
        self.assertEqual([{**keys, **w, "sort": "wire"}, {**keys, **b, "sort": "bundle"}], measure.rows()[::2])

    def test_rows_of_a_check(self) -> None:
        lines = ["9 bundle b setup", "22 bundle b late 4", "0 deadlock c3 waits for q4, c4 waits for q3", "note wire r is unused"]
        rows = read_check("".join(f"{line}\n" for line in lines), "check").rows()
        wanted = [
            (9, "bundle", "b", "setup", None), (22, "bundle", "b", "late", 4), (0, "module", "c3", "deadlock", "waits for q4"),
            (0, "module", "c4", "deadlock", "waits for q3"), (None, "wire", "r", "note", "is unused"),
        ]  # fmt: skip
        self.assertEqual(wanted, [tuple(row.values()) for row in rows])
        self.assertEqual(["time", "sort", "name", "code", "more"], list(rows[0]))

    def test_rows_of_answers(self) -> None:
        n = Netlist.read(example("slow-stage.net"))
        first = {"wire": "q1", "time": 105, "level": 1, "cause": "events", "module": "c1", "kind": "C", "delay": 2, "events": "q2 103=0"}
        self.assertEqual(first, n.why("q1", 110, 3).rows()[0])
        self.assertEqual("q2 89=1, q4 89=0", n.why("q1", 110, 3).rows()[2]["events"])
        self.assertEqual({"module": "c3", "units": 96, "steps": 8}, n.path("q1", 119).rows()[0])
        self.assertEqual({"name", "kind", "does", "wire", "level", "since"}, set(n.waits().rows()[0]))
        self.assertEqual({"time": 9, "sort": "bundle", "name": "transfer", "code": "setup"}, Netlist.read(example("late-data.net")).report().rows()[0])
        with Session(n) as session:
            session.edit("delay c3 0 6")
            self.assertEqual([{"number": 1, "line": "delay c3 0 6", "who": None}], session.edits().rows())
            self.assertEqual(["module", "start", "end"], list(session.work().rows()[0]))

    def test_the_rows_of_an_answer_have_the_same_keys(self) -> None:
        for name in examples():
            n = Netlist.read(example(name))
            measure = n.measure()
            for rows in (n.rows(), n.waves().rows(), n.check().rows(), measure.rows(), measure.wires.rows(), measure.bundles.rows(), n.waits().rows()):
                self.assertLessEqual(len({tuple(row) for row in rows}), 1)

    def test_the_modules_as_a_file_of_rows(self) -> None:
        rows = all_kinds().rows()
        self.assertEqual({"name": "m4", "kind": "C", "params": "1 0 1", "inputs": "a b/4", "outputs": "y4/2"}, rows[3])
        file = io.StringIO()
        writer = csv.DictWriter(file, rows[0])
        writer.writeheader()
        writer.writerows(rows)
        self.assertEqual("m5,TOGGLE,,a,y5/3 -/3", file.getvalue().splitlines()[5])

    def test_an_answer_goes_to_another_process(self) -> None:
        n = Netlist.read(example("slow-stage.net"))
        answers: List[Any] = [n.waves(), n.why("q1"), n.check(), n.latency("q1", "q3")]
        for answer in answers:
            self.assertEqual(answer.rows(), pickle.loads(pickle.dumps(answer)).rows())


class Graphs(Case):
    @unittest.skipIf(networkx is None, "networkx isn't installed")
    def test_nodes_and_edges(self) -> None:
        n = all_kinds()
        graph = n.networkx()
        self.assertIs(type(graph), networkx.DiGraph)
        self.assertEqual({"horizon": 90}, graph.graph)
        self.assertEqual({"name": "d", "sort": "wire", "width": 8, "level": 5}, graph.nodes["wire d"])
        self.assertEqual({"name": "m4", "sort": "module", "kind": "C", "params": (1, 0, 1)}, graph.nodes["module m4"])
        self.assertEqual({"ports": (1,), "delay": 4}, graph.edges["wire b", "module m4"])
        self.assertEqual({"ports": (0,), "delay": 3}, graph.edges["module m5", "wire y5"])
        self.assertEqual({"ports": (1,), "delay": 1}, graph.edges["module m6", "wire y6"])
        self.assertEqual(len(n.known_wires) + len(n.known_modules), len(graph))
        n.xor("both", n["a"] / 5, n["a"] / 3)
        self.assertEqual({"ports": (0, 1), "delay": 3}, n.networkx().edges["wire a", "module both"])

    @unittest.skipIf(networkx is None, "networkx isn't installed")
    def test_the_cycle_of_a_ring(self) -> None:
        n = Netlist(50)
        n.ring("t", 3)
        cycles = [sorted(node for node in cycle if node.startswith("module ")) for cycle in networkx.simple_cycles(n.networkx())]
        self.assertIn(["module t1", "module t2", "module t3"], cycles)

    def test_without_the_package(self) -> None:
        with mock.patch.dict(sys.modules, {"networkx": None}):
            fault = self.fault(PackageMissing, all_kinds().networkx)
        self.assertIsInstance(fault, ImportError)
        self.assertIn("pip install networkx", str(fault))


class Notebooks(Case):
    def test_a_netlist_shows_its_statements(self) -> None:
        shown = all_kinds()._repr_html_()
        self.assertIn("16 wires, 13 modules and 1 bundles", shown)
        self.assertIn("module m4 C 1 0 1 : a b/4 &gt; y4/2\n", shown)
        n = Netlist(9)
        n.wires(*(f"w{number}" for number in range(100)))
        self.assertIn("wire w58 1 0\nand 41 more</pre>", n._repr_html_())

    def test_waves_show_themselves(self) -> None:
        svg = xml.etree.ElementTree.fromstring(read_waves("r 0 5=1 20=0\nd 5 10=255\n", "waves")._repr_svg_())
        space = "{http://www.w3.org/2000/svg}"
        self.assertEqual(["0", "10", "20", "r", "d", "5", "255"], [text.text for text in svg.iter(f"{space}text")])
        left, scale = 21, 640 / 21
        path = f"M{left} 37H{left + 5 * scale:.1f}V23H{left + 20 * scale:.1f}V37H{left + 640}"
        self.assertEqual([path], [each.get("d") for each in svg.iter(f"{space}path")])
        boxes = [(each.get("x"), each.get("width")) for each in svg.iter(f"{space}rect")][1:]
        self.assertEqual([(f"{left}", f"{10 * scale:.1f}"), (f"{left + 10 * scale:.1f}", f"{11 * scale:.1f}")], boxes)

    def test_many_waves_and_many_changes(self) -> None:
        lines = "".join(f"w{number} 0\n" for number in range(70)) + "v 0\n"
        self.assertIn("and 7 more", read_waves(lines, "waves")._repr_svg_())
        busy = read_wave("w 0" + "".join(f" {time}={time % 2}" for time in range(1, 5_001)), "wave")
        self.assertIn("5000 changes", busy._repr_svg_())
        self.assertLess(len(busy._repr_svg_()), 1_000)
        xml.etree.ElementTree.fromstring(read_waves("", "waves")._repr_svg_())

    def test_waves_of_a_program(self) -> None:
        for text in (ALL_KINDS, example("register-pipeline.net")):
            svg = xml.etree.ElementTree.fromstring(Netlist.read(text).waves()._repr_svg_())
            self.assertEqual("svg", svg.tag.split("}")[1])

    def test_a_page_shows_itself(self) -> None:
        page = Page("<p>a \"page\" & more</p>")
        self.assertIn('<iframe srcdoc="&lt;p&gt;a &quot;page&quot; &amp; more&lt;/p&gt;"', page._repr_html_())
        self.assertEqual("<page of 22 bytes>", repr(page))

    def test_the_script_makes_pages(self) -> None:
        n = Netlist.read(example("slow-stage.net"))
        with tempfile.TemporaryDirectory() as folder:
            n.program = script_over(find_program(), folder)
            page = n.page()
            self.assertIn(str(n), page.text)
            page.save(os.path.join(folder, "page.html"))
            with open(os.path.join(folder, "page.html"), encoding="utf-8") as file:
                self.assertEqual(str(page), file.read())
            with Session(n) as session:
                session.edit("delay c3 0 6")
                self.assertIn("> q3/6", session.page().text)
            n.module("c3").delay = 0
            self.assertEqual(8, self.fault(Refused, n.page).code)

    @unittest.skipIf(find_program().is_script(), "the program is the script")
    def test_a_compiled_program_makes_no_pages(self) -> None:
        fault = self.fault(ProgramFailed, all_kinds().page)
        self.assertIn("only the script makes pages", str(fault))
        self.assertEqual(2, fault.status)


def script_over(program: Program, folder: str) -> Program:
    """The script `./mpwb`, as it is installed over a compiled program; the program itself if it is the script."""
    if program.is_script():
        return program
    for part in ("launcher", "viewer"):
        shutil.copytree(os.path.join(TOP, part), os.path.join(folder, part))
    os.mkdir(os.path.join(folder, "bin"))
    os.symlink(program.path, os.path.join(folder, "bin", "mpwb"))
    return Program(shutil.copy(os.path.join(TOP, "mpwb"), folder))
