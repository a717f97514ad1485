"""GraphML whose nodes have graphs in them, as the groups and folders of yEd."""

from __future__ import annotations

import warnings
from collections.abc import Iterator
from io import BytesIO
from typing import Any
from xml.etree import ElementTree
from xml.etree.ElementTree import Element

from ..engine.faults import PlanarWarning

#: The attribute by which a node that has a graph in it is known, and the value with which networkx reads that graph.
FOLDER_TYPE, GROUP = "yfiles.foldertype", "group"
#: The attribute of a node that says in which group it is.
MEMBER = "group"


def read_graphml(data: bytes) -> Any:
    """The graph of a GraphML file, with the nodes and edges of all graphs within its nodes.

    A node with a graph in it stays a node where it has edges, and is left out where it has none. Each node in it has
    its id as the attribute `group`, but where it has an attribute of this name already. A PlanarWarning says what is
    left out or not held. ValueError where there are several graphs side by side.
    """
    import networkx

    root = ElementTree.fromstring(data)
    if sum(_is(child, "graph") for child in root) > 1:
        raise ValueError("it has several graphs side by side")
    groups = {element.get("id", ""): element for element in root.iter() if _is(element, "node") and _inner(element)}
    if not groups:
        return networkx.read_graphml(BytesIO(data))
    for element in groups.values():
        element.set(FOLDER_TYPE, GROUP)
    graph = networkx.read_graphml(BytesIO(ElementTree.tostring(root)))
    _hold(graph, groups)
    return graph


def _is(element: Element, tag: str) -> bool:
    """Whether an element has this tag, in whatever space of names."""
    return str(element.tag).rpartition("}")[2] == tag


def _inner(element: Element) -> list[Element]:
    """The graphs in a node."""
    return [child for child in element if _is(child, "graph")]


def _members(element: Element) -> Iterator[str]:
    """The ids of the nodes in a group that are in none within it."""
    return (child.get("id", "") for graph in _inner(element) for child in graph if _is(child, "node"))


def _hold(graph: Any, groups: dict[str, Element]) -> None:
    """Notes in which group each node is, and leaves out the groups that have no edges."""
    taken = {node for element in groups.values() for node in _members(element) if MEMBER in graph.nodes[node]}
    for group, element in groups.items():
        for node in _members(element):
            graph.nodes[node].setdefault(MEMBER, group)
        label = next((it.text for it in _own(element) if _is(it, "NodeLabel") and it.text), None)
        if label is not None:
            graph.nodes[group].setdefault("label", label.strip())
    bare = [group for group in groups if graph.degree(group) == 0]
    graph.remove_nodes_from(bare)
    told = [f"{len(bare)} groups without edges are left out: what is in them stays"] if bare else []
    told += [f"of {len(taken)} nodes it is not held in which group they are"] if taken else []
    if told:
        warnings.warn("; ".join(told), PlanarWarning, stacklevel=2)


def _own(element: Element) -> Iterator[Element]:
    """The elements in a node that are in no graph within it."""
    for child in element:
        if not _is(child, "graph"):
            yield from child.iter()
