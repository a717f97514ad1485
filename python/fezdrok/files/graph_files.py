"""Files of graphs in the formats of networkx, which reads and writes them here.

A format is known by its name or by the suffix of a file. Files are read as a whole, and a graph is written as the bytes
of one; these are read again, so that what the format cannot hold is told.
"""

from __future__ import annotations

import json
import re
import warnings
from collections import Counter
from collections.abc import Callable
from contextlib import redirect_stdout
from io import BytesIO, StringIO
from pathlib import Path
from typing import Any, NamedTuple

from ..engine.faults import PlanarError, PlanarWarning, wanted
from .graphml_groups import read_graphml


class GraphFileError(PlanarError, ValueError):
    """A file is not of its format, or its format is not known or cannot be written."""


class Format(NamedTuple):
    """How a graph is read from the bytes of a file, and how its bytes are made, or None where networkx only reads."""

    name: str
    suffixes: tuple[str, ...]
    read: Callable[[bytes], Any]
    write: Callable[[Any], bytes] | None


def format_of(path: str, name: str | None = None) -> Format:
    """The format of this name, or without one that of the path's suffix; GraphFileError where none is known."""
    if name is not None:
        if name not in FORMATS:
            raise GraphFileError(f"the format {name!r} is not known: it is {', '.join(FORMATS)}")
        return FORMATS[name]
    suffix = Path(path).suffix.lower()
    found = next((it for it in FORMATS.values() if suffix in it.suffixes), None)
    if found is None:
        raise GraphFileError(f"the suffix {suffix!r} says no format that is known: name one by --format")
    return found


def graph_of(data: bytes, form: Format) -> Any:
    """The graph of the bytes of a file; GraphFileError where they are not of this format.

    A graph without parallel edges is no multigraph, whatever the format says. A PlanarWarning says what of the file is
    not in the graph.
    """
    try:
        with warnings.catch_warnings(record=True) as told:
            warnings.simplefilter("ignore")
            warnings.simplefilter("always", PlanarWarning)
            graph = form.read(data)
    except (PlanarError, MemoryError, KeyboardInterrupt):
        raise
    except Exception as fault:  # the readers of networkx raise whatever comes
        said = " ".join(str(fault).split())
        raise GraphFileError(f"it is no {form.name}: {said[:200] or type(fault).__name__}") from fault
    for it in told:
        warnings.warn(str(it.message), PlanarWarning, stacklevel=2)
    return _simple(graph)


def _simple(graph: Any) -> Any:
    """The graph, as no multigraph where it has no parallel edges and no key that says something."""
    import networkx

    if not graph.is_multigraph() or any(key != 0 for *_, key in graph.edges(keys=True)):
        return graph
    return networkx.DiGraph(graph) if graph.is_directed() else networkx.Graph(graph)


def bytes_of(graph: Any, form: Format) -> bytes:
    """The bytes of a file with this graph; a PlanarWarning says what the format does not hold. GraphFileError where
    networkx does not write it."""
    if form.write is None:
        raise GraphFileError(f"the format {form.name} is only read")
    try:
        with warnings.catch_warnings():
            warnings.simplefilter("ignore")
            data = form.write(graph)
    except (PlanarError, MemoryError, KeyboardInterrupt):
        raise
    except Exception as fault:  # as where names are of no kind that the format has
        raise GraphFileError(f"it cannot be written as {form.name}: {' '.join(str(fault).split())[:200]}") from fault
    try:
        lost = _lost(graph, graph_of(data, form))
    except GraphFileError as fault:
        raise GraphFileError(f"it cannot be written as {form.name}: {fault}") from fault
    if lost:
        warnings.warn(f"{form.name} does not hold {', '.join(lost)}", PlanarWarning, stacklevel=2)
    return data


def _lost(graph: Any, again: Any) -> list[str]:
    """What of a graph is not in the one that was read again, in words."""
    lost: list[str] = []
    if graph.is_directed() and not again.is_directed():
        lost.append("the directions of edges")
    if {str(node) for node in graph} != {str(node) for node in again}:
        lost.append("the names of nodes" if len(graph) == len(again) else "nodes without edges")
    if graph.number_of_edges() > again.number_of_edges():
        lost.append("parallel edges")
    for word, mine, others in (
        ("nodes", graph.nodes(data=True), again.nodes(data=True)),
        ("edges", graph.edges(data=True), again.edges(data=True)),
    ):
        left = _attributes(mine) - _attributes(others)
        if left:
            lost.append(f"attributes of {word} ({', '.join(sorted({key for key, _ in left}))})")
    return lost


def _attributes(rows: Any) -> Counter[tuple[str, str]]:
    """How often each attribute has each value, as text: numbers that are equal are the same."""
    found: Counter[tuple[str, str]] = Counter()
    for name, *_, data in rows:
        for key, value in data.items():
            if key == "label" and str(value) == str(name):
                continue  # which says no more than the name
            is_whole = isinstance(value, float) and value.is_integer()
            found[str(key), str(int(value) if is_whole or isinstance(value, bool) else value)] += 1
    return found


# ---- What each format takes


def _text(data: bytes) -> str:
    try:
        return data.decode("utf-8-sig")
    except UnicodeDecodeError as fault:
        raise GraphFileError(f"it is no UTF-8: {fault}") from None


def _plain(graph: Any, known: Callable[[str, Any], Any]) -> Any:
    """A copy of a graph with the attributes that this function gives a value for, and no others."""

    def kept(data: dict[Any, Any]) -> dict[str, Any]:
        rows = {str(key): known(str(key), value) for key, value in data.items()}
        return {key: value for key, value in rows.items() if value is not None}

    copy = graph.__class__(**{key: value for key, value in kept(graph.graph).items() if key.isidentifier()})
    copy.add_nodes_from((node, kept(data)) for node, data in graph.nodes(data=True))
    if graph.is_multigraph():
        copy.add_edges_from((u, v, key, kept(data)) for u, v, key, data in graph.edges(keys=True, data=True))
    else:
        copy.add_edges_from((u, v, kept(data)) for u, v, data in graph.edges(data=True))
    return copy


def _scalar(key: str, value: Any) -> Any:
    """A text, a number or a truth value; no other."""
    return value if isinstance(value, (str, int, float)) else None


def _with_texts(graph: Any, known: Callable[[str, Any], Any]) -> Any:
    """The same with texts for names; GraphFileError where two nodes have the same one."""
    import networkx

    (name, often), *_ = Counter(map(str, graph)).most_common(1) or [("", 1)]
    if often > 1:
        raise GraphFileError(f"{often} nodes have the name {name!r} as text")
    return networkx.relabel_nodes(_plain(graph, known), {node: str(node) for node in graph})


def _write_graphml(graph: Any) -> bytes:
    import networkx

    file = BytesIO()
    networkx.write_graphml_xml(_with_texts(graph, _scalar), file)
    return file.getvalue()


#: The keys that say something else in GML, as attributes with one more letter.
_GML_KEYS = {"id", "label", "source", "target", "key"}


def _read_gml(data: bytes) -> Any:
    """By the labels of the nodes, or where these are missing or twice by their numbers."""
    import networkx

    lines = _text(data).splitlines()
    try:
        graph = networkx.parse_gml(lines, label="label")
    except networkx.NetworkXError as fault:
        if "label" not in str(fault):
            raise
        graph = networkx.parse_gml(lines, label="id")
    for *_, row in (*graph.nodes(data=True), *graph.edges(data=True)):
        for key in _GML_KEYS & {it[:-1] for it in row if it.endswith("_")}:
            row[key] = row.pop(f"{key}_")
    return graph


def _write_gml(graph: Any) -> bytes:
    import networkx

    def known(key: str, value: Any) -> Any:
        return value if re.fullmatch("[A-Za-z][0-9A-Za-z_]*", key) and isinstance(value, (str, int, float)) else None

    plain = _with_texts(graph, known)
    for *_, row in (*plain.nodes(data=True), *plain.edges(data=True)):
        for key in _GML_KEYS & set(row):
            row[f"{key}_"] = row.pop(key)
    return "".join(line + "\n" for line in networkx.generate_gml(plain)).encode()


def _read_gexf(data: bytes) -> Any:
    """With the keys of parallel edges as they were written, and without labels that are the names themselves."""
    import networkx

    graph = networkx.read_gexf(BytesIO(data))
    for node, row in graph.nodes(data=True):
        if row.get("label") == str(node):
            del row["label"]
    keys = {"keys": True} if graph.is_multigraph() else {}
    copy = graph.__class__()
    copy.add_nodes_from(graph.nodes(data=True))
    for u, v, *key, row in graph.edges(data=True, **keys):
        name = row.pop("networkx_key", key[0] if key else None)
        row.pop("id", None)
        named = {"key": int(name) if str(name).isdecimal() else name} if key else {}
        copy.add_edges_from([(u, v, *named.values(), row)])
    return copy


def _write_gexf(graph: Any) -> bytes:
    import networkx

    plain = _with_texts(graph, _scalar)
    if plain.is_multigraph():
        for number, (_, _, key, data) in enumerate(plain.edges(keys=True, data=True)):
            data.update(id=number, networkx_key=str(key))
    file = BytesIO()
    networkx.write_gexf(plain, file)
    return file.getvalue()


def _read_pajek(data: bytes) -> Any:
    import networkx

    text = _text(data)
    if "*vertices" not in text.lower():
        raise GraphFileError("it is no pajek: it has no line *Vertices")
    return networkx.parse_pajek(text.splitlines())


def _write_pajek(graph: Any) -> bytes:
    import networkx

    plain = _with_texts(graph, lambda key, value: None if _scalar(key, value) is None else str(value))
    return "".join(line + "\n" for line in networkx.generate_pajek(plain)).encode()


def _read_leda(data: bytes) -> Any:
    import networkx

    return networkx.parse_leda(_text(data).splitlines())


def _words_only(graph: Any) -> Any:
    """The graph, with numbers for names where one is no word of its own."""
    import networkx

    are_words = all(re.fullmatch(r"[^\s#{}]+", str(node)) for node in graph)
    return graph if are_words else networkx.convert_node_labels_to_integers(graph)


def _read_edge_list(data: bytes) -> Any:
    """With the attributes of a line as networkx writes them, or with a number as `weight`."""
    import networkx

    lines = _text(data).splitlines()
    pairs = Counter(frozenset(line.partition("#")[0].split()[:2]) for line in lines)
    pairs.pop(frozenset(), None)
    kind = networkx.MultiGraph if max(pairs.values(), default=0) > 1 else None
    try:
        return networkx.parse_edgelist(lines, create_using=kind)
    except (TypeError, ValueError):
        return networkx.parse_edgelist(lines, create_using=kind, data=[("weight", float)])


def _write_edge_list(graph: Any) -> bytes:
    import networkx

    return "".join(line + "\n" for line in networkx.generate_edgelist(_words_only(graph))).encode()


def _read_adjacency_list(data: bytes) -> Any:
    import networkx

    return networkx.parse_adjlist(_text(data).splitlines())


def _write_adjacency_list(graph: Any) -> bytes:
    import networkx

    return "".join(line + "\n" for line in networkx.generate_adjlist(_words_only(graph))).encode()


def _one_line(data: bytes) -> bytes:
    """The only line; GraphFileError where there are several graphs, or none."""
    lines = data.split()
    if len(lines) != 1:
        raise GraphFileError(f"it has {len(lines)} graphs, and one is wanted")
    return lines[0]


def _read_graph6(data: bytes) -> Any:
    import networkx

    return networkx.from_graph6_bytes(_one_line(data))


def _write_graph6(graph: Any) -> bytes:
    import networkx

    simple = networkx.convert_node_labels_to_integers(networkx.Graph(graph))
    return bytes(networkx.to_graph6_bytes(simple, header=False))


def _read_sparse6(data: bytes) -> Any:
    import networkx

    return networkx.from_sparse6_bytes(_one_line(data))


def _write_sparse6(graph: Any) -> bytes:
    import networkx

    kind = networkx.MultiGraph if graph.is_multigraph() else networkx.Graph
    return bytes(networkx.to_sparse6_bytes(networkx.convert_node_labels_to_integers(kind(graph)), header=False))


def _read_node_link(data: bytes) -> Any:
    """With the edges as `edges` or as `links`, which versions of networkx call differently."""
    import networkx

    value = json.loads(_text(data))
    edges = value["edges"] if "edges" in value else value["links"]
    return networkx.node_link_graph({**value, "edges": edges, "links": edges})


def _write_node_link(graph: Any) -> bytes:
    import networkx

    value = networkx.node_link_data(graph)
    value["edges"] = value.pop("links") if "links" in value else value["edges"]
    return (json.dumps(value, ensure_ascii=False, allow_nan=False) + "\n").encode()


def _read_dot(data: bytes) -> Any:
    import networkx

    with redirect_stdout(StringIO()):  # on which pydot says what is wrong
        found = wanted("pydot", "DOT files").graph_from_dot_data(_text(data))
    if not found:
        raise GraphFileError("it is no dot")
    graph = networkx.nx_pydot.from_pydot(found[0])
    graph.remove_nodes_from([node for node in list(graph) if node == "\\n"])
    for *_, row in (*graph.nodes(data=True), *graph.edges(data=True)):
        row.update({key: value.strip('"') for key, value in row.items() if isinstance(value, str)})
    return graph


def _write_dot(graph: Any) -> bytes:
    import networkx

    wanted("pydot", "DOT files")

    def quoted(value: Any) -> str:
        return '"' + str(value).replace("\\", "\\\\").replace('"', '\\"') + '"'

    plain = _with_texts(graph, lambda key, value: None if _scalar(key, value) is None else quoted(value))
    plain.graph.clear()
    named = networkx.relabel_nodes(plain, {node: quoted(node) for node in plain})
    return str(networkx.nx_pydot.to_pydot(named).to_string()).encode()


def _read_cytoscape(data: bytes) -> Any:
    import networkx

    return networkx.cytoscape_graph(json.loads(_text(data)))


def _write_cytoscape(graph: Any) -> bytes:
    import networkx

    value = networkx.cytoscape_data(_with_texts(graph, lambda key, value: value))
    return (json.dumps(value, ensure_ascii=False, allow_nan=False) + "\n").encode()


FORMATS = {
    form.name: form
    for form in (
        Format("graphml", (".graphml",), read_graphml, _write_graphml),
        Format("gml", (".gml",), _read_gml, _write_gml),
        Format("gexf", (".gexf",), _read_gexf, _write_gexf),
        Format("pajek", (".net", ".pajek", ".paj"), _read_pajek, _write_pajek),
        Format("leda", (".lgr", ".leda", ".gw"), _read_leda, None),
        Format("edgelist", (".edges", ".edgelist", ".el"), _read_edge_list, _write_edge_list),
        Format("adjlist", (".adjlist", ".adj"), _read_adjacency_list, _write_adjacency_list),
        Format("graph6", (".g6", ".graph6"), _read_graph6, _write_graph6),
        Format("sparse6", (".s6", ".sparse6"), _read_sparse6, _write_sparse6),
        Format("json", (".json",), _read_node_link, _write_node_link),
        Format("dot", (".dot", ".gv"), _read_dot, _write_dot),
        Format("cyjs", (".cyjs",), _read_cytoscape, _write_cytoscape),
    )
}
