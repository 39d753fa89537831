"""Makes what pip installs of the package, with the standard library alone (PEP 517 and PEP 660): pyproject.toml names this module."""

from __future__ import annotations

import ast
import base64
import hashlib
import io
import os
import tarfile
import zipfile
from typing import Any, Dict, List, Optional

TOP = os.path.dirname(os.path.abspath(__file__))
PACKAGE = "nesthrim"

Settings = Optional[Dict[str, Any]]
Files = Dict[str, bytes]


def build_wheel(wheel_directory: str, config_settings: Settings = None, metadata_directory: Optional[str] = None) -> str:
    """Writes a wheel of the package, and gives its name."""
    return _write_wheel(wheel_directory, _package_files())


def build_editable(wheel_directory: str, config_settings: Settings = None, metadata_directory: Optional[str] = None) -> str:
    """Writes a wheel that leads to the package where it is now, and gives its name."""
    return _write_wheel(wheel_directory, {f"{PACKAGE}.pth": f"{TOP}\n".encode()})


def build_sdist(sdist_directory: str, config_settings: Settings = None) -> str:
    """Writes the sources of the package, and gives the name of their file."""
    files = {**_package_files(), **{name: _bytes_of(name) for name in ("README.md", "packing.py", "pyproject.toml")}, "PKG-INFO": _metadata()}
    stem = _stem()
    with tarfile.open(os.path.join(sdist_directory, f"{stem}.tar.gz"), "w:gz", format=tarfile.PAX_FORMAT) as archive:
        for name, content in files.items():
            entry = tarfile.TarInfo(f"{stem}/{name}")
            entry.size = len(content)
            archive.addfile(entry, io.BytesIO(content))
    return f"{stem}.tar.gz"


def _write_wheel(folder: str, files: Files) -> str:
    about = f"{_stem()}.dist-info"
    files = {**files, f"{about}/METADATA": _metadata(), f"{about}/WHEEL": _wheel()}
    record = f"{about}/RECORD"
    files[record] = "".join(f"{line}\n" for line in [*map(_recorded, files, files.values()), f"{record},,"]).encode()
    name = f"{_stem()}-py3-none-any.whl"
    with zipfile.ZipFile(os.path.join(folder, name), "w", zipfile.ZIP_DEFLATED) as archive:
        for path, content in files.items():
            entry = zipfile.ZipInfo(path)
            entry.external_attr = 0o644 << 16
            entry.compress_type = zipfile.ZIP_DEFLATED
            archive.writestr(entry, content)
    return name


def _recorded(name: str, content: bytes) -> str:
    """The line of a file in the record of a wheel."""
    digest = base64.urlsafe_b64encode(hashlib.sha256(content).digest()).rstrip(b"=").decode()
    return f"{name},sha256={digest},{len(content)}"


def _package_files() -> Files:
    names: List[str] = []
    for folder, _, found in os.walk(os.path.join(TOP, PACKAGE)):
        names += (os.path.relpath(os.path.join(folder, name), TOP) for name in found if name.endswith((".py", ".typed")))
    return {name: _bytes_of(name) for name in sorted(names)}


def _bytes_of(name: str) -> bytes:
    with open(os.path.join(TOP, name), "rb") as file:
        return file.read()


def _project() -> Dict[str, Any]:
    """What `[project]` of pyproject.toml says: each of its lines is a name, ` = `, and a text or a list of texts, as Python writes them too."""
    table = _bytes_of("pyproject.toml").decode().split("[project]\n")[1].split("\n[")[0]
    pairs = (line.split(" = ", 1) for line in table.splitlines() if line)
    return {name: ast.literal_eval(value) for name, value in pairs}


def _stem() -> str:
    project = _project()
    return f"{project['name']}-{project['version']}"


def _metadata() -> bytes:
    """The core metadata, version 2.1."""
    project = _project()
    head = [
        "Metadata-Version: 2.1",
        f"Name: {project['name']}",
        f"Version: {project['version']}",
        f"Summary: {project['description']}",
        f"License: {project['license']}",
        f"Requires-Python: {project['requires-python']}",
        *(f"Classifier: {each}" for each in project["classifiers"]),
        "Description-Content-Type: text/markdown",
    ]
    return "\n".join([*head, "", ""]).encode() + _bytes_of(project["readme"])


def _wheel() -> bytes:
    return b"Wheel-Version: 1.0\nGenerator: packing\nRoot-Is-Purelib: true\nTag: py3-none-any\n"
