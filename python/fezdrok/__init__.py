"""Planarization of graphs by the proved program `planar`.

`planarize` takes a networkx graph and gives a picture of it with few crossings; `planarize_many` takes many.
`Planarizer` collects single commands, and a `Session` answers each at once. It needs networkx, which is
imported when it is first used, and matplotlib for `draw` alone.
"""

from .drawing.drawings import Drawing, FalseDrawing, draw, drawing_of, to_svg
from .drawing.orthogonal_layout import Box, OrthogonalDrawing, orthogonal_drawing
from .drawing.position_pictures import DegeneratePositionsError, from_positions
from .drawing.qualities import Quality, quality
from .drawing.step_pages import to_html
from .drawing.straight_layout import chain, positions
from .drawing.verification import Defect
from .engine.answers import About, EdgeAnswer, Meeting, Renumbered, Route, Undone, VertexAnswer
from .engine.faults import (
    Fault, FaultError, MemoryFault, MemoryFaultError, ModuleMissing, ModuleMissingError, NoReport, NoReportError,
    NotPlanarized, NotPlanarizedError, OtherReport, OtherReportError, PlanarError, PlanarWarning, ProgramFailed,
    ProgramFailedError, ProgramNotFound, ProgramNotFoundError, ProgramNotStarted, ProgramNotStartedError,
    SessionClosed, SessionClosedError, SessionInUse, SessionInUseError, Unfinished, UnfinishedError, UsageRefused,
    UsageRefusedError, VerificationError,
)
from .engine.graph_pictures import Dummy, Segment
from .engine.graph_session import GraphSession
from .engine.pictures import Counts, Crossing, Dart, Edge, Picture, Point
from .engine.planarizer import Planarizer
from .engine.program import Program, find_program
from .engine.reports import Delete, Deleted, Entry, Grow, Grown, Insert, Inserted, Limits, Planned, Refused, Report
from .engine.results import Planarization, load
from .engine.session import Session
from .files.embeddings import from_networkx_embedding, to_networkx_embedding
from .files.multigraphs import to_networkx_graph
from .layouts import layout
from .search.batches import Bar, iter_planarize, planarize_many
from .search.planarization import Prepared, planarize, prepare, reinsert
from .search.progress import Progress

__all__ = [
    "About",
    "Bar",
    "Box",
    "Counts",
    "Crossing",
    "Dart",
    "Defect",
    "DegeneratePositionsError",
    "Delete",
    "Deleted",
    "Drawing",
    "Dummy",
    "Edge",
    "EdgeAnswer",
    "Entry",
    "FalseDrawing",
    "Fault",
    "FaultError",
    "GraphSession",
    "Grow",
    "Grown",
    "Insert",
    "Inserted",
    "Limits",
    "Meeting",
    "MemoryFault",
    "MemoryFaultError",
    "ModuleMissing",
    "ModuleMissingError",
    "NoReport",
    "NoReportError",
    "NotPlanarized",
    "NotPlanarizedError",
    "OrthogonalDrawing",
    "OtherReport",
    "OtherReportError",
    "Picture",
    "PlanarError",
    "PlanarWarning",
    "Planarization",
    "Planarizer",
    "Planned",
    "Point",
    "Prepared",
    "Program",
    "ProgramFailed",
    "ProgramFailedError",
    "ProgramNotFound",
    "ProgramNotFoundError",
    "ProgramNotStarted",
    "ProgramNotStartedError",
    "Progress",
    "Quality",
    "Refused",
    "Renumbered",
    "Report",
    "Route",
    "Segment",
    "Session",
    "SessionClosed",
    "SessionClosedError",
    "SessionInUse",
    "SessionInUseError",
    "Undone",
    "Unfinished",
    "UnfinishedError",
    "UsageRefused",
    "UsageRefusedError",
    "VertexAnswer",
    "VerificationError",
    "chain",
    "draw",
    "drawing_of",
    "find_program",
    "from_networkx_embedding",
    "from_positions",
    "iter_planarize",
    "layout",
    "load",
    "orthogonal_drawing",
    "planarize",
    "planarize_many",
    "positions",
    "prepare",
    "quality",
    "reinsert",
    "to_html",
    "to_networkx_embedding",
    "to_networkx_graph",
    "to_svg",
]

#: That of the program and of this package: it is what the file VERSION of the repository says.
__version__ = "0.5.0"

Planarization.painter = staticmethod(to_svg)
Session.pager = staticmethod(to_html)
