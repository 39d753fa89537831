"""Files that show something: timing diagrams as pictures, and pages. A notebook shows them."""

from __future__ import annotations

import html
import os
from dataclasses import dataclass
from typing import Union

from ..system import asking_the_system

# the height of a page in a notebook, in pixels
_HEIGHT = 480


@dataclass(frozen=True)
class Document:
    """A file, complete in itself."""

    text: str

    def save(self, path: Union[str, "os.PathLike[str]"]) -> None:
        """Writes the file."""
        with asking_the_system(), open(path, "w", encoding="utf-8", newline="\n") as file:
            file.write(self.text)

    def __str__(self) -> str:
        return self.text

    def __repr__(self) -> str:
        return f"<{type(self).__name__.lower()} of {len(self.text)} bytes>"


class Picture(Document):
    """An SVG file."""

    def _repr_svg_(self) -> str:
        return self.text


class Page(Document):
    """An HTML file with waves to look at in a browser."""

    def _repr_html_(self) -> str:
        return f'<iframe srcdoc="{html.escape(self.text)}" width="100%" height="{_HEIGHT}" style="border: 0"></iframe>'
