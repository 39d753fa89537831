"""The example notebook: its cells run one after the other, as in Jupyter, and print what stands below each."""

from __future__ import annotations

import ast
import contextlib
import io
import os
import re
import xml.etree.ElementTree
from typing import Any, Dict, List, Tuple

from tests.support import EXAMPLES, Case


def cells() -> List[Tuple[str, str]]:
    """The cells of code, and what each prints."""
    with open(os.path.join(EXAMPLES, "notebook.py"), encoding="utf-8") as file:
        texts = re.split(r"^# %%", file.read(), flags=re.MULTILINE)[1:]
    codes = [text.partition("\n")[2] for text in texts if not text.startswith(" [markdown]")]
    return [(code, "".join(f"{line[3:]}\n" for line in code.splitlines() if line.startswith("#> "))) for code in codes]


def run(code: str, names: Dict[str, Any]) -> Tuple[str, Any]:
    """What a cell prints, and the value of the expression that it ends with."""
    tree = ast.parse(code)
    end = tree.body[-1]
    last = ast.Expression(end.value) if isinstance(end, ast.Expr) else None
    if last is not None:
        tree.body.pop()
    printed = io.StringIO()
    with contextlib.redirect_stdout(printed):
        exec(compile(tree, "notebook", "exec"), names)
        value = None if last is None else eval(compile(last, "notebook", "eval"), names)
    return printed.getvalue(), value


class Notebook(Case):
    def test_cells_print_and_show_what_they_should(self) -> None:
        names: Dict[str, Any] = {}
        shown: List[str] = []
        for code, wanted in cells():
            printed, value = run(code, names)
            self.assertEqual(wanted, printed, code)
            if hasattr(value, "_repr_svg_"):
                shown.append(xml.etree.ElementTree.fromstring(value._repr_svg_()).tag.split("}")[1])
            elif hasattr(value, "_repr_html_"):
                shown.append(value._repr_html_().split(">")[0])
        self.assertEqual(["<p", "svg", "svg"], shown)
