"""What a planarization is: a graph with a picture of it, and one for a whole graph from those of its parts."""

from __future__ import annotations

from collections.abc import Callable, Sequence
from dataclasses import dataclass
from functools import partial
from pathlib import Path
from typing import Any, ClassVar

from .faults import read_as
from .graph_edges import GraphEdge, Node, Price
from .graph_pictures import GraphPicture
from .graph_session import GraphSession
from .pictures import Crossing, Edge, Picture, Point, json_text
from .program import PathLike
from .reports import Limits, Report  # the fields that are inherited name Report
from .saved_graphs import edges_of, graph_from_json, graph_json
from .verification import verify
from .whole_files import write_whole

#: What the first two words of a saved planarization say.
SAVED, SAVED_VERSION = "planarization", 1
#: The suffix of the file of a planarization.
SUFFIX = ".planar.json"
#: Up to how many points a notebook draws a planarization.
SHOWN = 300


@dataclass(frozen=True, eq=False, repr=False)
class Planarization(GraphPicture):
    """A graph with a picture of it.

    `node_of[v]` is the node of vertex v and `vertex_of` leads back; `edge_of[e]` is the edge of the graph that has the
    id e in the picture, as the graph's `edges` gives it, and `id_of` leads back. `prices` are those of the kinds.
    `reports` are those of the sessions that lead to this picture, each of which starts where the one before it ended; a
    search has none, and `verify` judges its picture. `tries` has the crossings to which each attempt of the search
    came, in one part of the graph after another.

    Where the graph is not connected, `parts` has the planarization of each of its parts, in the order of their first
    nodes. The picture then has the rows of all parts side by side, each with an outer face of its own, and is none that
    the program takes. Where the graph is connected, `parts` is empty.

    Planarizations are equal where graph, picture, names and prices are; reports and `tries` count for nothing.

    Examples
    --------
    >>> import networkx as nx
    >>> from fezdrok import planarize
    >>> result = planarize(nx.petersen_graph())
    >>> result
    <Planarization: 10 nodes, 15 edges, 2 crossings>
    >>> result.crossing_pairs
    [((0, 1), (7, 9)), ((2, 3), (6, 8))]
    >>> [segment.end for segment in result.segments(7, 9)]
    [x0, 9]
    """

    parts: tuple["Planarization", ...] = ()

    #: What draws a planarization as SVG, for notebooks: the package sets it.
    painter: ClassVar[Callable[[Any], str] | None] = None

    def _repr_svg_(self) -> str | None:
        """The drawing that a notebook shows, or None where there are many points: then it shows the one line."""
        paint, points = type(self).painter, len(self.node_of) + self.crossings
        return paint(self) if paint is not None and self.picture.edges and points <= SHOWN else None

    @property
    def offsets(self) -> list[tuple[int, int, int]]:
        """For each of `parts` how much larger the ids of its vertices, edges and crossings are here than there."""
        return _offsets(self.parts)

    def session(
        self,
        prices: Sequence[Price] = (),
        limits: Limits | None = None,
        program: PathLike | None = None,
        process: bool = False,
    ) -> GraphSession["Planarization"]:
        """A session that goes on from here, in which edges are inserted and taken out by the names of their nodes.

        An edge that it inserts has one of the prices of this planarization, one of `prices`, or 1. `limits`,
        `program` and `process` are those of Session; the limits that this planarization was made with count for
        nothing. ValueError where the graph is not connected (then take one of `parts`) or has no edge, and where there
        are more than 64 prices in all. The program's exceptions are those of Session.
        """
        return GraphSession(self, prices, limits, program, process)

    # ---- Kept, and judged

    def save(self, path: PathLike) -> None:
        """Write the planarization as a file, with its graph, from which `load` makes it again, but for its reports.

        Parameters
        ----------
        path : str or os.PathLike
            The file. It is written wholly or not at all.

        Raises
        ------
        ValueError
            Where a name of a node is no text, no number and no tuple of these.
        OSError
            Where the file cannot be written.

        Warns
        -----
        PlanarWarning
            Where attributes are left out, since JSON does not know their values.

        Examples
        --------
        >>> import networkx as nx
        >>> from fezdrok import load, planarize
        >>> result = planarize(nx.petersen_graph())
        >>> result.save("petersen.planar.json")
        >>> load("petersen.planar.json") == result
        True
        """
        write_whole(path, self.saved_text() + "\n")

    def saved_text(self) -> str:
        """What `save` writes, one line of JSON."""
        place_of = {node: place for place, node in enumerate(self.graph)}
        edge_place = {edge: place for place, edge in enumerate(edges_of(self.graph))}
        parts = [
            {
                "nodes": [place_of[node] for node in part.node_of],
                "edges": [[edge_id, edge_place[edge]] for edge_id, edge in part.edge_of.items()],
                "picture": part.picture.to_json(),
                "tries": list(part.tries),
            }
            for part in self.parts or (self,)
        ]
        return json_text(
            {
                "fezdrok": SAVED,
                "version": SAVED_VERSION,
                "graph": graph_json(self.graph),
                "prices": list(self.prices),
                "parts": parts,
                "tries": list(self.tries),
                "crossings": self.crossings,
                "cost": self.cost,
            }
        )

    def verify(self, graph: Any = None, program: PathLike | None = None) -> None:
        """Judge whether the planarization is whole, and true of its graph.

        The program judges the picture of each part, as `planar check`. Each node and each edge of the graph is there
        once, with its ends, a kind and a price; an edge that must not be crossed has no crossing; the whole has the
        crossings and the cost of its parts.

        Parameters
        ----------
        graph : networkx.Graph, optional
            The graph of which it is to be true, if it is another than its own. Its loops count for nothing.
        program : str or os.PathLike, optional
            The path of `planar`; see `find_program`.

        Raises
        ------
        VerificationError
            Where it is not; the message says where.

        Examples
        --------
        >>> import networkx as nx
        >>> from fezdrok import planarize
        >>> result = planarize(nx.petersen_graph())
        >>> result.verify()
        >>> result.verify(nx.complete_graph(10))
        Traceback (most recent call last):
            ...
        fezdrok.engine.faults.VerificationError: the edge (0, 2) is there 0 times, and in the graph 1 times
        """
        verify(self, graph, program)

    # ---- As one JSON object

    def to_json(self) -> dict[str, Any]:
        """The planarization as one object that `json.dumps` takes, with the nodes as the graph names them.

        `nodes` and `crossings` have the darts that leave them, clockwise, each as `[EDGE,SEGMENT,"forward"]` or
        `"back"`. `edges` have the nodes at their ends as the graph's `edges` gives them, the key in a multigraph, the
        price of a crossing, and their segments from the first of these nodes to the other, with the faces on their left
        and right. `faces` have the darts along them, each face on its darts' left, and `outer_faces` are the places of
        those that drawings have outside: one, or where the graph is not connected one for each part with an edge.
        A node that is no JSON value, as an object of a class, stands there by its `str`.
        """
        return {
            "nodes": [
                {"id": _plain(node), "darts": self._darts_json(Point(False, vertex))}
                for vertex, node in enumerate(self.node_of)
            ],
            "crossings": [
                {"id": row.id, "darts": self._darts_json(Point(True, row.id))} for row in self.picture.crossings
            ],
            "edges": [self._edge_json(row.id) for row in self.picture.edges],
            "faces": [[dart.to_json() for dart in face] for face in self.picture.faces],
            "outer_faces": list(self.outer_faces),
        }

    def _darts_json(self, point: Point) -> list[Any]:
        """The darts that leave a point, clockwise."""
        return [dart.to_json() for dart in self.picture.around(point)]

    def _edge_json(self, edge_id: int) -> dict[str, Any]:
        """An edge with its segments."""
        edge = self.edge_of[edge_id]
        row: dict[str, Any] = {"id": edge_id, "ends": [_plain(node) for node in edge[:2]]}
        if len(edge) > 2:
            row["key"] = _plain(edge[2])
        row["price"] = self.prices[self.picture.edge(edge_id).kind]
        row["segments"] = [
            {"dart": it.dart.to_json(), "left": it.left, "right": it.right} for it in self.segments(*edge)
        ]
        return row


def _plain(value: Any) -> Any:
    """A value as JSON has it: tuples are lists, and what JSON does not know is its `str`."""
    if value is None or isinstance(value, (bool, int, float, str)):
        return value
    return [_plain(part) for part in value] if isinstance(value, (tuple, list)) else str(value)


# ---- Parts


#: The picture of a node without edges, which the program does not know.
LONELY = Picture(((),), ())


def single(graph: Any, node: Node, prices: tuple[Price, ...]) -> Planarization:
    """The planarization of such a node."""
    return Planarization(graph, LONELY, (node,), {}, prices, ())


def joined_parts(
    graph: Any, prices: tuple[Price, ...], parts: Sequence[Planarization], tries: tuple[int, ...] = ()
) -> Planarization:
    """One planarization of a graph from those of its parts: the only one, or one whose rows come one after another, and
    are made when one is first looked at."""
    if len(parts) == 1:
        return parts[0]
    *offsets, (_, next_edge, next_crossing) = _offsets([*parts, parts[0]])
    pictures = [part.picture for part in parts]
    make = partial(_joined, pictures, offsets, next_edge, next_crossing)
    picture = Picture.later(make, next_edge, next_crossing, sum([it.crossing_count for it in pictures]))
    nodes: list[Node] = []
    edge_of: dict[int, GraphEdge] = {}
    for part, (_, edge, _) in zip(parts, offsets):
        nodes += part.node_of
        edge_of.update([(edge + edge_id, it) for edge_id, it in part.edge_of.items()])
    return Planarization(graph, picture, tuple(nodes), edge_of, prices, (), tries, tuple(parts))


def _joined(
    pictures: Sequence[Picture], offsets: Sequence[tuple[int, int, int]], next_edge: int, next_crossing: int
) -> Picture:
    """The picture of the whole."""
    rotations: list[tuple[int, ...]] = []
    edges: list[Edge] = []
    crossings: list[Crossing] = []
    for picture, (vertex, edge, crossing) in zip(pictures, offsets):
        rotations += [tuple(edge + it for it in around) for around in picture.rotations]
        edges += [
            Edge(edge + row.id, vertex + row.a, vertex + row.b, row.kind, tuple(crossing + it for it in row.crossings))
            for row in picture.edges
        ]
        crossings += [
            Crossing(crossing + row.id, edge + row.crossed, edge + row.newcomer, row.sign) for row in picture.crossings
        ]
    return Picture(tuple(rotations), tuple(edges), tuple(crossings), next_edge, next_crossing)


def _offsets(parts: Sequence[Planarization]) -> list[tuple[int, int, int]]:
    """For each part how many vertices, edge ids and crossing ids those before it have."""
    found = [(0, 0, 0)]
    for part in parts[:-1]:
        vertex, edge, crossing = found[-1]
        picture = part.picture
        found.append((vertex + len(part.node_of), edge + picture.next_edge, crossing + picture.next_crossing))
    return found


# ---- Planarizations that were saved


def load(path: PathLike) -> Planarization:
    """Read a planarization that `Planarization.save` wrote. What it says is judged by `verify`.

    Parameters
    ----------
    path : str or os.PathLike
        The file.

    Returns
    -------
    Planarization
        It has no reports.

    Raises
    ------
    NoReport
        Where the file is no planarization, or of a version that is not known; it is a ValueError.
    OSError
        Where the file cannot be read.

    Examples
    --------
    >>> import networkx as nx
    >>> from fezdrok import load, planarize
    >>> planarize(nx.complete_graph(5)).save("k5.planar.json")
    >>> load("k5.planar.json")
    <Planarization: 5 nodes, 10 edges, 1 crossings>
    """
    return planarization_of(Path(path).read_bytes())


def planarization_of(data: bytes) -> Planarization:
    """The planarization of the bytes of a file that `save` wrote; NoReport where they are none."""
    return read_as("planarization", data.decode(errors="replace"), _from_saved)


def _from_saved(value: dict[str, Any]) -> Planarization:
    """The planarization of such an object; ValueError where its numbers are not those of its pictures."""
    if value["fezdrok"] != SAVED or value["version"] != SAVED_VERSION:
        raise ValueError(f"it is a {value['fezdrok']!r} of version {value['version']!r}, and not of {SAVED_VERSION}")
    graph = graph_from_json(value["graph"])
    prices = tuple(value["prices"])
    nodes, edges = dict(enumerate(graph)), dict(enumerate(edges_of(graph)))
    parts = []
    for row in value["parts"]:
        node_of = tuple(nodes[place] for place in row["nodes"])
        edge_of = {edge_id: edges[place] for edge_id, place in row["edges"]}
        part_graph = graph if len(value["parts"]) == 1 else graph.subgraph(node_of)
        picture = Picture.from_json(row["picture"])
        parts.append(Planarization(part_graph, picture, node_of, edge_of, prices, (), tuple(row["tries"])))
    result = joined_parts(graph, prices, parts, tuple(value["tries"]))
    for name, number in (("crossings", result.crossings), ("cost", result.cost)):
        if value[name] != number:
            raise ValueError(f"its {name} are {value[name]!r}, and those of its pictures {number}")
    return result
