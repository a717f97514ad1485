"""The examples of README.md, docs/PYTHON.md, docs/CLUSTER.md, docs/RATTLE.md, docs/C.md, python/README.md and
clients/node/README.md, run as they are written there."""

import doctest
import os
import re
import shutil
import subprocess
import sys
import tempfile
import unittest
from importlib.util import find_spec
from pathlib import Path
from xml.etree import ElementTree

from fezdrok import find_program

from .support import ROOT, needs_program

PYTHON_PAGES = ("README.md", "docs/PYTHON.md", "docs/CLUSTER.md", "python/README.md")
RATTLE_PAGES = ("README.md", "docs/RATTLE.md")
#: The C library of these sources, where the gate has built it.
LIBRARY = os.environ.get("FEZDROK_C_LIBRARY", "")
MARK = "-- the next command --"

#: What stands for GNU parallel where it is not there: it does what the two lines of the page want of it, one after
#: another.
STAND_IN = r"""
parallel() {
    if [ "$1" = --pipepart ]; then
        while [ "$1" != -a ]; do shift; done
        "${@:3}" < "$2"
        return
    fi
    local joblog=$3 template=$4 script command base failed=0
    printf '%s\t' Seq Host Starttime JobRuntime Send Receive Exitval Signal > "$joblog"
    echo Command >> "$joblog"
    shift 5
    for script in "$@"; do
        base=${script##*/}
        command=${template//'{}'/$script}
        command=${command//'{/.}'/${base%.*}}
        local status=0
        bash -c "$command" || status=$?
        failed=$((failed + (status != 0)))
        printf '1\t:\t0\t0\t0\t0\t%s\t0\t%s\n' "$status" "$command" >> "$joblog"
    done
    return "$failed"
}
"""


def python_examples(page: str) -> doctest.DocTest:
    """The examples in Python; without matplotlib those that draw are left out."""
    found = doctest.DocTestParser().get_doctest((ROOT / page).read_text(), {}, page, page, 0)
    if find_spec("matplotlib") is None:
        found.examples = [example for example in found.examples if not re.search(r"\bdraw\b", example.source)]
    return found


def commands(page: str) -> list[tuple[str, str]]:
    """The commands of a page, which begin with `$`, each with what it prints; `./test` itself is left out, and without a
    C compiler or node what wants it.

    Lines that begin with `>` go on with a command. The lines below it, up to an empty one, are what it prints; where
    there are none, nothing is said of what it prints.
    """
    found: list[tuple[list[str], list[str]]] = []
    is_open = False
    for line in (ROOT / page).read_text().splitlines():
        if line.startswith("    $ "):
            found.append(([line[6:]], []))
        elif is_open and (line.startswith("    > ") or line == "    >"):
            found[-1][0].append(line[6:])
        elif is_open and line.startswith("    "):
            found[-1][1].append(line[4:])
        is_open = line.startswith("    $ ") or is_open and line.startswith("    ")
    joined = [("\n".join(lines), "\n".join(printed)) for lines, printed in found]
    in_c = ("cc ", "./session ") if shutil.which("cc") is None else ()
    in_node = ("node ",) if shutil.which("node") is None else ()
    over_library = ("cc -O2 -Ic ", "./editor", "./judge") if in_c or not LIBRARY else ()
    return [it for it in joined if not it[0].startswith(("./test", *in_c, *in_node, *over_library))]


def pattern_of(printed: str) -> str:
    """A pattern of what a command prints, in which two dots and the space before them are any text."""
    return re.escape(printed).replace(re.escape(" .."), ".*")


@needs_program
class Pages(unittest.TestCase):
    def setUp(self):
        folder = tempfile.TemporaryDirectory()
        self.addCleanup(folder.cleanup)
        self.folder = folder.name

    def test_python(self):
        os.environ.setdefault("MPLBACKEND", "Agg")
        self.addCleanup(os.chdir, os.getcwd())
        os.chdir(self.folder)
        for page in PYTHON_PAGES:
            told = []
            examples = python_examples(page)
            self.assertTrue(examples.examples, page)
            result = doctest.DocTestRunner(optionflags=doctest.ELLIPSIS, verbose=False).run(examples, out=told.append)
            self.assertEqual(result.failed, 0, "".join(told))
        self.check_pictures(Path(self.folder))

    def check_pictures(self, folder: Path):
        """The pictures that pages show are small, and are those that the examples and `tools/pictures` wrote: with as
        many lines, nodes and marks, and the same names. Points may differ a little from machine to machine."""
        subprocess.run([sys.executable, "-W", "ignore", ROOT / "tools" / "pictures", folder], check=True)
        pages = "".join(page.read_text() for page in sorted((ROOT / "docs").glob("*.md")))
        all_shown = re.findall(r"!\[[^]]+\]\((pictures/\S+)\)", pages)
        shown = [name for name in all_shown if name.endswith(".svg")]
        self.assertEqual(
            sorted(all_shown), sorted(f"pictures/{file.name}" for file in (ROOT / "docs" / "pictures").iterdir())
        )
        self.assertEqual((len(shown), len(all_shown)), (15, 22))
        for name in all_shown:
            self.assertLess((ROOT / "docs" / name).stat().st_size, 60000)
        for name in shown:
            kept, written = ROOT / "docs" / name, folder / Path(name).name
            self.assertLess(kept.stat().st_size, 40000)
            shown_there, written_now = (
                [(it.tag, it.text) for it in ElementTree.parse(file).iter() if it.get("id") is None]
                for file in (kept, written)
            )
            self.assertEqual(shown_there, written_now)

    def test_the_picture_of_the_crates(self):
        """Each arrow leads from a crate to one that it uses."""
        rows = [line.split(":") for line in (ROOT / "crates.txt").read_text().splitlines() if ":" in line]
        uses = {crate.split()[0]: used.split() for crate, used in rows}
        picture = ElementTree.parse(ROOT / "docs" / "pictures" / "crates.svg")
        arrows = [(it.get("data-from"), it.get("data-to")) for it in picture.iterfind(".//*[@class='edge']")]
        self.assertEqual(len(arrows), 25)
        self.assertEqual([(start, end) for start, end in arrows if end not in uses[start]], [])

    def test_pictures_for_no_folder(self):
        tool = [sys.executable, ROOT / "tools" / "pictures", Path(self.folder) / "none"]
        wrong = subprocess.run(tool, capture_output=True, text=True)
        self.assertEqual((wrong.returncode, wrong.stderr), (2, "usage: tools/pictures [FOLDER]\n"))

    def checkout(self) -> Path:
        """A folder that is as the repository, with the program that the tests call as the one that is built there and the
        one that lies there: so the commands build nothing."""
        folder = Path(self.folder) / "checkout"
        folder.mkdir()
        for file in ROOT.iterdir():
            if file.name not in ("out", "prebuilt"):
                (folder / file.name).symlink_to(file)
        for place in ("out", "prebuilt/x86_64-linux"):
            (folder / place).mkdir(parents=True)
            (folder / place / "planar").symlink_to(Path(find_program()).resolve())
        if LIBRARY:
            (folder / "prebuilt/x86_64-linux/libfezdrok.a").symlink_to(LIBRARY)
        (folder / "out" / "planar.sources").write_bytes(subprocess.check_output([".ci/sources", "planar"], cwd=folder))
        return folder

    def check_commands(self, page: str):
        todo = commands(page)
        self.assertTrue(todo, page)
        script = "" if shutil.which("parallel") else STAND_IN
        script += "\n".join(f"{{ {command}\n}} 2>&1\necho '{MARK}'" for command, _ in todo)
        words = {"HOME": self.folder, "PATH": os.path.dirname(sys.executable) + os.pathsep + os.environ["PATH"]}
        ran = subprocess.run(
            ["bash", "-c", script],
            cwd=self.checkout(),
            env={**os.environ, **words},
            stdout=subprocess.PIPE,
            universal_newlines=True,
        )
        told = ran.stdout.split(MARK + "\n")
        self.assertEqual(len(told), len(todo) + 1, ran.stdout)
        for (command, printed), text in zip(todo, told):
            if printed:
                self.assertRegex(text.rstrip("\n"), re.compile(rf"\A{pattern_of(printed)}\Z", re.DOTALL), command)

    def test_readme_commands(self):
        self.check_commands("README.md")

    def test_python_commands(self):
        self.check_commands("docs/PYTHON.md")

    def test_cluster_commands(self):
        self.check_commands("docs/CLUSTER.md")

    def test_node_commands(self):
        if not commands("clients/node/README.md"):
            self.skipTest("left out: there is no node")
        self.check_commands("clients/node/README.md")

    def test_c_commands(self):
        if not commands("docs/C.md"):
            self.skipTest("left out: there is no C compiler, or FEZDROK_C_LIBRARY names no library")
        self.check_commands("docs/C.md")

    def test_shown_code(self):
        """The code that is shown is that of the program or the tests it is from, which the gate proves and runs."""
        folders = [
            ROOT / "crates" / name / "src"
            for name in ("planar_book", "planar_editors", "topo_test_support", "topo_tests")
        ]
        sources = "".join(file.read_text() for folder in folders for file in sorted(folder.glob("*.rt")))
        for page in RATTLE_PAGES:
            shown = re.findall(r"```rust\n(.*?)```", (ROOT / page).read_text(), re.DOTALL)
            self.assertTrue(shown, page)
            for text in shown:
                self.assertTrue(text in sources, text)
        for name in ("planar_book", "planar_editors"):
            stdout = (ROOT / "crates" / name / "stdout").read_text()
            self.assertIn(
                "".join(f"    {line}\n" for line in stdout.splitlines()), (ROOT / "docs" / "RATTLE.md").read_text()
            )

    def test_readme_script(self):
        """The script that is shown with words beside it is the example file that the commands below it name."""
        page = (ROOT / "README.md").read_text()
        shown = page[page.index('    {"prices":') :].split("\n\n")[0]
        script = "".join(line.strip().split("   ")[0] for line in shown.splitlines())
        file = ROOT / "crates" / "topo_examples" / "data" / "across_the_cheap_side.json"
        self.assertEqual("".join(script.split()), "".join(file.read_text().split()))


if __name__ == "__main__":
    unittest.main()
