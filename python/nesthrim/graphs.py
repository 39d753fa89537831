"""A netlist as a graph of the package `networkx`."""

from __future__ import annotations

import importlib
from typing import TYPE_CHECKING, Any, Dict, Iterator, List, Tuple

from .errors import PackageMissing

if TYPE_CHECKING:
    from .contents import Contents
    from .modules import Module

# an edge, and for each of its ports the number and the delay
_Edges = Dict[Tuple[str, str], List[Tuple[int, int]]]


def digraph(netlist: Contents) -> Any:
    """The `networkx.DiGraph` of a netlist. `PackageMissing` if `networkx` can't be imported."""
    try:
        networkx = importlib.import_module("networkx")
    except ImportError as error:
        raise PackageMissing("the graph is one of the package networkx, which isn't installed: pip install networkx") from error
    graph = networkx.DiGraph(horizon=netlist.horizon)
    for wire in netlist.known_wires.values():
        graph.add_node(f"wire {wire.name}", name=wire.name, sort="wire", width=wire.width, level=wire.level)
    for module in netlist.known_modules.values():
        graph.add_node(f"module {module.name}", name=module.name, sort="module", kind=module.kind, params=module.params)
        for (tail, head), ports in _edges(module).items():
            graph.add_edge(tail, head, ports=tuple(port for port, _ in ports), delay=min(delay for _, delay in ports))
    return graph


def _edges(module: Module) -> _Edges:
    """The edges of a module: a module may read a wire by several inputs."""
    edges: _Edges = {}
    for edge, port, delay in _ends(module):
        edges.setdefault(edge, []).append((port, delay))
    return edges


def _ends(module: Module) -> Iterator[Tuple[Tuple[str, str], int, int]]:
    node = f"module {module.name}"
    for port, (wire, delay) in enumerate(module.inputs):
        yield (f"wire {wire}", node), port, delay
    for port, (output, delay) in enumerate(module.outputs):
        if output is not None:
            yield (node, f"wire {output}"), port, delay
