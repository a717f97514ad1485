"""The words of the command, and what is done with them."""

from __future__ import annotations

import argparse
import math
import sys
from collections.abc import Callable, Iterable
from typing import Any, NoReturn, TextIO, get_args

from ..engine.faults import ProgramNotFound
from ..engine.program import Program
from ..files.graph_files import FORMATS, GraphFileError
from ..files.graphs import Objective
from ..search.options import EffortName
from .graph_work import convert_files, draw_files, drawing_fault, output_form, planarize_files, verify_file, view_files
from .lines import answer_lines
from .statistics import show_statistics
from .streams import INTERRUPTED, REFUSED, OutputLostError, complain, let_go, say

DESCRIPTION = "Draw graphs with few crossings: they are planarized by the proved program planar."
STATUSES = """\
statuses:
  0  all is well          2  the words are refused, or there is no program
  1  an input failed, or something could not be written
  3  out of memory        130  interrupted, with the best so far written        141  nobody reads the output"""
FORMAT_WORDS = f"the format of the inputs, else by their suffixes: {', '.join(FORMATS)}"


class Parser(argparse.ArgumentParser):
    """A parser that says its help so that a lost output is noticed, and refuses words in one line."""

    def _print_message(self, message: str, file: Any = None) -> None:
        if file is sys.stdout:
            say(message)
        elif message and sys.stderr is not None:
            super()._print_message(message, sys.stderr)

    def error(self, message: str) -> NoReturn:
        """Refuses the words."""
        complain(f"{self.prog.removeprefix('fezdrok').strip()} {message} (see fezdrok --help)")
        raise SystemExit(REFUSED)


def _seconds(text: str) -> float:
    value = float(text)
    if math.isnan(value) or value < 0:
        raise ValueError
    return value


def _jobs(text: str) -> int:
    value = int(text)
    if value < 1:
        raise ValueError
    return value


def _port(text: str) -> int:
    value = int(text)
    if not 0 <= value < 65536:
        raise ValueError
    return value


_seconds.__name__, _jobs.__name__, _port.__name__ = "number of seconds", "number of processes", "port"


def _parser(version: str) -> Parser:
    """The parser of all commands."""
    parser = Parser(
        prog="fezdrok",
        description=DESCRIPTION,
        epilog=STATUSES,
        formatter_class=argparse.RawDescriptionHelpFormatter,
        allow_abbrev=False,
    )
    parser.add_argument("--version", action="version", version=f"fezdrok {version}")
    commands = parser.add_subparsers(dest="command", metavar="COMMAND", required=True)

    def command(name: str, does: str, work: Callable[[Any], int]) -> argparse.ArgumentParser:
        added: argparse.ArgumentParser = commands.add_parser(name, help=does, description=does, allow_abbrev=False)
        added.set_defaults(work=work)
        added.add_argument("--program", metavar="PATH", help="the program planar; without it the one that is found")
        return added

    _add_planarize(command("planarize", "planarize graphs, and write each with its picture", planarize_files))
    _add_draw(command("draw", "planarize graphs, and draw each as SVG, PDF or PNG", draw_files))
    _add_stats(command("stats", "how large graphs are, and how few crossings they have", show_statistics))
    verify = command("verify", "judge whether a planarization is whole, and true of its graph", verify_file)
    verify.add_argument("file", metavar="PLANARIZATION", help="a file that fezdrok planarize wrote, or -")
    verify.add_argument("graph", metavar="GRAPH", nargs="?", help="the graph that it is to be of")
    verify.add_argument("--format", choices=[*FORMATS], metavar="FORMAT", help="the format of the graph")
    _add_convert(command("convert", "write planarizations, or graphs, in other formats", convert_files))
    view = command("view", "make pages of HTML that step through the calls of reports", view_files)
    view.add_argument("files", metavar="REPORT", nargs="+", help="reports, as planar run prints them, or -")
    view.add_argument("-o", "--output", metavar="PLACE", help="a file as page.html, a folder, or - for standard output")
    _add_edit(command("edit", "edit a picture on a page of the browser", _work_edit))
    command("lines", "answer scripts, one a line, each by one line", _work_lines)
    return parser


def _add_files(parser: argparse.ArgumentParser, output: str | None) -> None:
    """The inputs, and the output, if there is one."""
    parser.add_argument("files", metavar="FILE", nargs="+", help="graph files, folders of these, or - (standard input)")
    parser.add_argument("--format", choices=[*FORMATS, "planar"], metavar="FORMAT", help=FORMAT_WORDS)
    if output is not None:
        parser.add_argument("-o", "--output", metavar="PLACE", help=output)


def _add_search(parser: argparse.ArgumentParser) -> None:
    """What `planarize` takes."""
    parser.add_argument("--seconds", type=_seconds, help="when they are over, the best so far is taken")
    parser.add_argument("--effort", choices=get_args(EffortName), default="default", help="how much is tried")
    parser.add_argument("--objective", choices=get_args(Objective), help="what is to be as small as can be")
    parser.add_argument("--price", metavar="ATTR", help="the attribute of edges that says what crossing one costs")
    parser.add_argument("--forbid", metavar="ATTR", help="the attribute of edges that must not be crossed")
    parser.add_argument("--seed", type=int, default=1, help="what the choices of the search begin with")


def _add_planarize(parser: argparse.ArgumentParser) -> None:
    _add_files(parser, "a file as g.planar.json or g.graphml, a folder, or - for standard output")
    _add_search(parser)


def _add_draw(parser: argparse.ArgumentParser) -> None:
    _add_files(parser, "a file as g.svg, g.pdf or g.png (these two want cairosvg), a folder, or - for standard output")
    parser.add_argument("--style", help="the style of the drawing: straight, curved (the default) or orthogonal")
    size_help = "in the style orthogonal: small nodes (fixed, the default), or such that edges bend little (grow)"
    parser.add_argument("--node-size", choices=("fixed", "grow"), help=size_help)
    parser.add_argument("--labels", metavar="ATTR", help="the attribute of nodes that is their label")
    parser.add_argument("--color", metavar="ATTR", help="the attribute of nodes by which they are coloured")
    _add_search(parser)


def _add_stats(parser: argparse.ArgumentParser) -> None:
    _add_files(parser, None)
    form = parser.add_mutually_exclusive_group()
    form.add_argument("--json", action="store_true", help="a JSON object a line")
    form.add_argument("--csv", action="store_true", help="comma-separated values")
    parser.add_argument("-j", "--jobs", type=_jobs, default=1, help="how many processes work at once")
    _add_search(parser)


def _add_convert(parser: argparse.ArgumentParser) -> None:
    _add_files(parser, "a file, a folder, or - for standard output")
    parser.add_argument("--to", choices=[*FORMATS, "planar", "svg"], metavar="FORMAT", help="the format of the outputs")


def _add_edit(parser: argparse.ArgumentParser) -> None:
    parser.add_argument("file", metavar="FILE", nargs="?", help="a graph or a planarization; without it, two nodes")
    parser.add_argument("--format", choices=[*FORMATS, "planar"], metavar="FORMAT", help="the format of the file")
    parser.add_argument("--port", type=_port, default=0, help="the port of this machine; without it a free one")
    parser.add_argument("--no-browser", action="store_true", help="open no browser, but say the address")
    parser.add_argument("--record", metavar="REPORT", help="write the report at the end, for fezdrok view")


def _work_edit(words: argparse.Namespace) -> int:
    from .editing import edit_file

    return edit_file(words)


def _work_lines(words: argparse.Namespace) -> int:
    if words.source is None and sys.stdin is None:
        complain("standard input is closed")
        return 1
    return answer_lines(Program(words.program), words.source or sys.stdin.buffer, words.target)


def _judge(parser: Parser, words: argparse.Namespace) -> None:
    """Refuses what argparse lets pass."""
    files = getattr(words, "files", [])
    if hasattr(words, "output") and words.output in (None, "-") and len(files) > 1:
        parser.error(f"{words.command}: several files want a folder: -o FOLDER")
    if files.count("-") > 1:
        parser.error(f"{words.command}: standard input can be read only once")
    if words.command == "draw" and (fault := drawing_fault(words)):
        parser.error(f"draw: {fault}")
    if words.command == "convert":
        try:
            output_form(words)
        except GraphFileError as fault:
            parser.error(f"convert: of the output {words.output or '-'}: {str(fault).replace('--format', '--to')}")
    else:
        try:
            words.program = Program(words.program).path
        except ProgramNotFound as missing:
            parser.error(f"{words.command}: {missing}")


def main(
    words: list[str] | None, version: str, source: Iterable[bytes] | None = None, target: TextIO | None = None
) -> int:
    """Does what the words of a command line say, and gives the status."""
    parser = _parser(version)
    try:
        understood = parser.parse_args(words)
        _judge(parser, understood)
        understood.source, understood.target = source, target
        status: int = understood.work(understood)
        return status
    except OutputLostError as lost:
        let_go()
        if lost.status != 141:
            complain(str(lost))
        return lost.status
    except KeyboardInterrupt:
        complain("interrupted")
        return INTERRUPTED
