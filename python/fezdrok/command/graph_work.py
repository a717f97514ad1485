"""What the command does with graph files: it planarizes, draws, judges and converts one after another."""

from __future__ import annotations

import argparse
import re
import signal
import warnings
from collections.abc import Callable, Iterator
from contextlib import contextmanager
from typing import Any

from ..drawing.drawings import drawing_of, to_svg
from ..drawing.step_pages import to_html
from ..engine.faults import ModuleMissing, PlanarError, PlanarWarning
from ..engine.reports import Report
from ..engine.results import SUFFIX, Planarization, single
from ..engine.whole_files import write_whole
from ..files.graph_files import FORMATS, Format, GraphFileError, bytes_of, format_of
from ..files.multigraphs import to_networkx_graph
from ..search.planarization import planarize
from .graph_inputs import (
    DASH, Outputs, inputs_of, is_saved, name_of, read_bytes, read_graph, read_saved, without_loops,
)
from .streams import FAILED, NO_MEMORY, WELL, OutputLostError, complain, say, say_bytes


class Run:
    """A run of the command over several inputs: its status, and whether Ctrl-C came."""

    def __init__(self) -> None:
        self.status = WELL
        self.is_interrupted = False
        self._current = ""

    def each(self, paths: list[str], work: Callable[[str], None]) -> int:
        """Does the work for each input; one that fails has a line and does not stop the others. The status."""
        with self._watched():
            for path in paths:
                self._current = name_of(path)
                try:
                    work(path)
                except (OutputLostError, KeyboardInterrupt):
                    raise
                except Exception as fault:  # any failure of one input is told in its line
                    self.failed(fault)
                if self.is_interrupted:
                    raise KeyboardInterrupt
        return self.status

    def failed(self, fault: Exception, name: str | None = None) -> None:
        """Says why an input failed."""
        is_known = isinstance(fault, (PlanarError, OSError, ValueError))
        words = str(getattr(fault, "strerror", None) or fault) if is_known else f"{type(fault).__name__} {fault}"
        if isinstance(fault, OSError) and fault.filename not in (None, name or self._current):
            words = f"{fault.filename}: {words}"
        self.status = max(self.status, NO_MEMORY if isinstance(fault, MemoryError) else FAILED)
        complain(f"{name or self._current}: {words or type(fault).__name__}")

    @contextmanager
    def _watched(self) -> Iterator[None]:
        """Notes Ctrl-C, also where it only ends a search, and has each warning be a line that names the input."""

        def interrupt(number: int, frame: Any) -> None:
            self.is_interrupted = True
            raise KeyboardInterrupt

        def show(message: Any, category: Any, *_: Any, **__: Any) -> None:
            if issubclass(category, PlanarWarning):
                complain(f"{self._current}: warning: {message}")

        with warnings.catch_warnings():
            warnings.simplefilter("always", PlanarWarning)
            warnings.showwarning = show
            before = signal.signal(signal.SIGINT, interrupt)
            try:
                yield
            finally:
                signal.signal(signal.SIGINT, before)


# ---- Graphs and their planarizations


def search_options(words: argparse.Namespace, graph: Any) -> dict[str, Any]:
    """The options of `planarize` that the words of the command stand for."""
    names = ("effort", "objective", "seconds", "seed", "program")
    options: dict[str, Any] = {name: getattr(words, name) for name in names}
    if words.price is not None:
        options.update(price=_prices(graph, words.price), round_prices=True)
    if words.forbid is not None:
        _judge_attribute(graph, words.forbid)
        rows = graph.edges(keys=True, data=True) if graph.is_multigraph() else graph.edges(data=True)
        options["forbidden"] = [row[:-1] for row in rows if _is_true(row[-1].get(words.forbid))]
    return options


def _judge_attribute(graph: Any, name: str) -> None:
    """ValueError where no edge has the attribute."""
    if not any(name in data for *_, data in graph.edges(data=True)):
        raise ValueError(f"no edge has the attribute {name!r}")


def _prices(graph: Any, name: str) -> Callable[[Any, Any, dict[str, Any]], Any]:
    """The price of an edge by its attribute, which some formats give as a text."""
    _judge_attribute(graph, name)

    def price(u: Any, v: Any, data: dict[str, Any]) -> Any:
        value = data.get(name, 1)
        try:
            return float(value) if isinstance(value, str) else value
        except ValueError:
            return value

    return price


def _is_true(value: Any) -> bool:
    """Whether an attribute says yes, also as a text."""
    return str(value).strip().lower() not in ("none", "false", "no", "0", "0.0", "")


def planarized(path: str, words: argparse.Namespace) -> Planarization:
    """The planarization of an input: one that was saved, or that of its graph."""
    if words.format == "planar" or (words.format is None and is_saved(path, None) and path != DASH):
        return read_saved(path)
    graph = without_loops(read_graph(path, words.format))
    return planarize(graph, **search_options(words, graph))


def bytes_in(result: Planarization, form: str | Format) -> bytes:
    """A planarization as the bytes of a file."""
    if form == "planar":
        return result.saved_text().encode() + b"\n"
    if form == "svg":
        return to_svg(result).encode()
    return bytes_of(to_networkx_graph(result), form if isinstance(form, Format) else FORMATS[form])


def output_form(words: argparse.Namespace, otherwise: str | None = None) -> str | Format:
    """The format of the outputs: by its name, or by the suffix of the one file. GraphFileError where none is known, and
    there is none to be taken otherwise."""
    name, target = getattr(words, "to", None), words.output or DASH
    if name is not None:
        return name if name in ("planar", "svg") else format_of("", name)
    if target.endswith(SUFFIX):
        return "planar"
    if target.lower().endswith(".svg"):
        return "svg"
    try:
        return format_of(target)
    except GraphFileError:
        if otherwise is None:
            raise
        return otherwise


def suffix_of(form: str | Format) -> str:
    """The suffix of files of a format."""
    return {"planar": SUFFIX, "svg": ".svg"}[form] if isinstance(form, str) else form.suffixes[0]


def put(data: bytes, place: str, line: str) -> None:
    """Writes an output, and says its line: on standard output, or where the output goes there on standard error."""
    if place == DASH:
        say_bytes(data)
        complain(line)
    else:
        write_whole(place, data)
        say(f"{line} -> {place}\n")


def line_of(path: str, result: Planarization) -> str:
    """The line of an input that was planarized."""
    counts = f"{len(result.node_of)} nodes, {len(result.edge_of)} edges, {result.crossings} crossings"
    return f"{name_of(path)}: {counts}" + (f", cost {result.cost}" if result.cost != result.crossings else "")


# ---- The commands


def planarize_files(words: argparse.Namespace) -> int:
    """`fezdrok planarize`."""
    inputs = inputs_of(words.files)
    outputs = Outputs(words.output, inputs, SUFFIX)
    form = "planar" if outputs.is_folder else output_form(words, "planar")

    def work(path: str) -> None:
        place = outputs.place_for(path)
        result = planarized(path, words)
        put(bytes_in(result, form), place, line_of(path, result))

    return Run().each(inputs, work)


def draw_files(words: argparse.Namespace) -> int:
    """`fezdrok draw`."""
    inputs = inputs_of(words.files)
    outputs = Outputs(words.output, inputs, ".svg")

    def work(path: str) -> None:
        place = outputs.place_for(path)
        result = planarized(path, words)
        put(drawn(result, place, words), place, line_of(path, result))

    return Run().each(inputs, work)


def verify_file(words: argparse.Namespace) -> int:
    """`fezdrok verify`."""

    def work(path: str) -> None:
        result = read_saved(path)
        graph = None if words.graph is None else read_graph(words.graph, words.format)
        result.verify(graph, words.program)
        say(f"{line_of(path, result)}, whole and true\n")

    return Run().each([words.file], work)


def convert_files(words: argparse.Namespace) -> int:
    """`fezdrok convert`."""
    inputs = inputs_of(words.files)
    form = output_form(words)
    outputs = Outputs(words.output, inputs, suffix_of(form))

    def work(path: str) -> None:
        place = outputs.place_for(path)
        if is_saved(path, words.format):
            result = read_saved(path)
            put(bytes_in(result, form), place, line_of(path, result))
        elif isinstance(form, str):
            raise ValueError(f"only a planarization is written as {form}: planarize it first")
        else:
            graph = read_graph(path, words.format)
            line = f"{name_of(path)}: {len(graph)} nodes, {graph.number_of_edges()} edges"
            put(bytes_of(graph, form), place, line)

    return Run().each(inputs, work)


def view_files(words: argparse.Namespace) -> int:
    """`fezdrok view`."""
    outputs = Outputs(words.output, words.files, ".html")

    def work(path: str) -> None:
        place = outputs.place_for(path)
        report = Report.from_text(read_bytes(path).decode(errors="replace"))
        page = to_html(report, title=name_of(path), program=words.program)
        line = f"{name_of(path)}: {len(report.history)} calls, {len(report.picture.crossings)} crossings at the end"
        put(page.encode(), place, line)

    return Run().each(words.files, work)


# ---- Drawings


def drawn(result: Planarization, place: str, words: argparse.Namespace) -> bytes:
    """The drawing as a file with such a name holds it: PDF, PNG, or else SVG. Its nodes have the labels and the colours
    that attributes of theirs say."""
    if words.color is not None and not any(words.color in row for _, row in result.graph.nodes(data=True)):
        raise ValueError(f"no node has the attribute {words.color!r}")
    options = {"style": words.style, "labels": words.labels, "node_size": words.node_size}
    drawing = drawing_of(result, **{name: value for name, value in options.items() if value is not None})
    paint = {} if words.color is None else {"node_color": words.color}
    if place.lower().endswith(".pdf"):
        return drawing.to_pdf(**paint)
    return drawing.to_png(**paint) if place.lower().endswith(".png") else drawing.to_svg(**paint).encode()


def drawing_fault(words: argparse.Namespace) -> str | None:
    """Why nothing can be drawn with these words, be it for want of a package, or None."""
    import networkx

    try:
        plain = argparse.Namespace(**{**vars(words), "labels": None, "color": None})
        drawn(single(networkx.empty_graph(1), 0, ()), words.output or DASH, plain)
    except (ValueError, ModuleMissing) as fault:
        return str(fault)
    return None
