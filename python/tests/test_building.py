"""The script `planar` in a folder that is like the repository, with a toolchain that proves nothing: the program that lies
there is taken where it is of the sources, else one is built beside the one that is there, and the package builds none."""

import hashlib
import os
import shutil
import signal
import subprocess
import tempfile
import time
import unittest
import warnings
from pathlib import Path
from unittest import mock

from fezdrok import PlanarWarning, Program, ProgramNotFound, find_program
from fezdrok.engine import program as program_module

from .support import ROOT

#: Stands for the command rt: it waits for the file `go`, and makes a program that says the source, in the crate's folder.
TOOLCHAIN = """#!/bin/sh
top=$(dirname "$0")/..
echo called >> $top/calls
while [ ! -e $top/go ]; do sleep 0.05; done
[ ! -e $top/fails ] || { echo "no proof"; exit 1; }
cd crates/planar
mkdir -p out
printf '#!/bin/sh\\necho "%s" "$@"\\n' "$(cat src/main.rt)" > out/planar
chmod +x out/planar
"""

SCRIPTS = ("planar", ".ci/program", ".ci/build", ".ci/sources", ".ci/below", ".ci/copy", ".ci/place")


class Folder(unittest.TestCase):
    def setUp(self):
        folder = tempfile.TemporaryDirectory()
        self.addCleanup(folder.cleanup)
        self.root = Path(folder.name).resolve()
        for name in SCRIPTS:
            (self.root / name).parent.mkdir(exist_ok=True)
            shutil.copy(ROOT / name, self.root / name)
        (self.root / "crates.txt").write_text("# programs\nplanar: std\nother: std\n")
        (self.root / "HANDLES").write_text("Handles allowed: none.\n")
        for name, text in {"crates/planar/src/main.rt": "first", "crates/topo_examples/data/bipyramid.json": "{}", "bin/rt": TOOLCHAIN}.items():
            (self.root / name).parent.mkdir(parents=True)
            (self.root / name).write_text(text)
        (self.root / "bin" / "rt").chmod(0o755)
        self.script, self.built = self.root / "planar", self.root / "out" / "planar"
        self.prebuilt = self.root / "prebuilt" / "x86_64-linux" / "planar"
        (self.root / "scratch").mkdir()
        self.environment = {
            "PATH": f"{self.root / 'bin'}{os.pathsep}{os.environ['PATH']}", "TMPDIR": os.fspath(self.root / "scratch")
        }
        self.start(mock.patch.dict(os.environ, self.environment))
        self.start(mock.patch.object(program_module, "_chosen", {}))
        self.allow()

    def start(self, patch):
        patch.start()
        self.addCleanup(patch.stop)

    def allow(self, name: str = "go"):
        """Makes the file that the toolchain looks for."""
        (self.root / name).touch()

    def edit(self):
        """Changes the sources, and holds the toolchain back."""
        (self.root / "crates/planar/src/main.rt").write_text("second")
        (self.root / "go").unlink()

    def said(self, program: Path) -> str:
        """What a program prints."""
        return subprocess.run([program, "word"], stdout=subprocess.PIPE, stderr=subprocess.PIPE, timeout=60, check=True).stdout.decode()

    def calls(self) -> int:
        """How often the toolchain was called."""
        file = self.root / "calls"
        return len(file.read_text().splitlines()) if file.exists() else 0

    def left(self) -> "list[Path]":
        """The temporary folders that are there."""
        return [it for it in (self.root / "scratch").iterdir() if it.is_dir()]

    def wait_for_calls(self, count: int):
        end = time.monotonic() + 20
        while self.calls() < count and time.monotonic() < end:
            time.sleep(0.02)
        self.assertEqual(self.calls(), count)

    def begin(self) -> "subprocess.Popen[str]":
        """A call of the script that goes on."""
        process = subprocess.Popen([self.script, "word"], stdout=subprocess.PIPE, stderr=subprocess.PIPE, text=True)
        self.addCleanup(lambda: (process.kill(), process.communicate()))
        return process


class Building(Folder):
    def test_it_is_built_once(self):
        self.assertEqual([self.said(self.script) for _ in range(2)], ["first word\n"] * 2)
        self.assertEqual(self.calls(), 1)
        self.assertEqual(sorted(os.listdir(self.root / "out")), ["planar", "planar.choice", "planar.lock", "planar.sources"])
        self.assertEqual(self.left(), [])

    def test_the_old_one_stays_until_the_new_one_is_built(self):
        self.said(self.script)
        self.edit()
        with open(self.built) as old:
            process = self.begin()
            self.wait_for_calls(2)
            self.assertEqual(self.said(self.built), "first word\n")
            self.allow()
            self.assertEqual(process.communicate(timeout=60)[0], "second word\n")
            self.assertIn("first", old.read())
        self.assertEqual(self.said(self.built), "second word\n")

    def test_the_old_one_stays_where_the_new_one_is_not_proved(self):
        self.said(self.script)
        self.edit()
        self.allow()
        self.allow("fails")
        process = self.begin()
        told = process.communicate(timeout=60)[1]
        self.assertEqual(process.returncode, 2)
        self.assertIn("no proof\nplanar: the program is not proved, so it was not built\n", told)
        self.assertEqual(self.said(self.built), "first word\n")
        (self.root / "fails").unlink()
        self.assertEqual(self.said(self.script), "second word\n")

    def test_of_two_calls_one_builds(self):
        (self.root / "go").unlink()
        processes = [self.begin(), self.begin()]
        self.wait_for_calls(1)
        self.allow()
        self.assertEqual([process.communicate(timeout=60)[0] for process in processes], ["first word\n"] * 2)
        self.assertEqual(self.calls(), 1)

    def test_a_call_that_is_ended_ends_its_build(self):
        (self.root / "go").unlink()
        process = self.begin()
        self.wait_for_calls(1)
        process.send_signal(signal.SIGTERM)
        process.communicate(timeout=5)   # its streams are closed only when the toolchain has ended too
        self.assertEqual((process.returncode, self.left()), (130, []))
        self.allow()
        self.assertEqual(self.said(self.script), "first word\n")


class Prebuilt(Folder):
    """The program that lies in the repository."""

    def setUp(self):
        super().setUp()
        self.folder = self.root / "prebuilt" / "x86_64-linux"
        self.folder.mkdir(parents=True)
        self.lay("#!/bin/sh\necho prebuilt $@\n")

    def lay(self, text: str):
        """Puts a program there, with its MANIFEST."""
        self.program = self.folder / "planar"
        self.program.write_text(text)
        self.program.chmod(0o755)
        sources = subprocess.check_output([self.root / ".ci/sources", "planar"], text=True).strip()
        checksum = hashlib.sha256(text.encode()).hexdigest()
        (self.folder / "MANIFEST").write_text(f"kit none\nglibc 2.34\nplanar {checksum} {sources}\n")

    def ended(self, **variables: str) -> "subprocess.CompletedProcess[str]":
        """A call of the script, where there is no toolchain."""
        words = {**os.environ, "PATH": "/usr/bin:/bin", **variables}
        return subprocess.run([self.script, "word"], capture_output=True, text=True, timeout=60, env=words)

    def test_it_is_taken_and_nothing_is_built(self):
        self.assertEqual([self.said(self.script) for _ in range(2)], ["prebuilt word\n"] * 2)
        self.assertEqual((self.calls(), os.listdir(self.root / "out")), (0, ["planar.choice"]))

    def test_without_the_toolchain(self):
        self.assertEqual((self.ended().stdout, self.ended().stderr), ("prebuilt word\n", ""))

    def test_where_the_sources_are_others(self):
        self.said(self.script)
        self.edit()
        done = self.ended()
        self.assertEqual((done.returncode, done.stdout), (2, ""))
        self.assertRegex(done.stderr, "^planar: the sources are not those of prebuilt/.* rt .*not in PATH\n$")
        self.allow()
        self.assertEqual(self.said(self.script), "second word\n")

    def test_one_that_was_changed_is_not_run(self):
        self.said(self.script)
        for change in (lambda: self.program.write_text("#!/bin/sh\necho other\n"), lambda: self.program.chmod(0o644), self.program.unlink):
            change()
            done = self.ended()
            self.assertEqual((done.returncode, done.stdout), (2, ""))
            self.assertIn("prebuilt/x86_64-linux/planar is not the file that", done.stderr)
        self.assertEqual(self.said(self.script), "first word\n")

    def test_one_that_does_not_run_here(self):
        self.lay("#!/nowhere\n")
        done = self.ended()
        self.assertEqual((done.returncode, done.stdout), (2, ""))
        self.assertIn("does not run here: it wants glibc 2.34 or later", done.stderr)

    def test_another_system(self):
        uname = self.root / "bin" / "uname"
        uname.write_text("#!/bin/sh\necho Darwin arm64\n")
        uname.chmod(0o755)
        done = self.ended(PATH=f"{self.root / 'bin'}:/usr/bin:/bin")
        self.assertEqual((done.returncode, done.stdout, self.calls()), (2, "", 0))
        self.assertRegex(done.stderr, "^planar: the program is for Linux on x86_64, and this is Darwin arm64: Containerfile .*\n$")

    def test_a_manifest_that_is_not_there(self):
        (self.folder / "MANIFEST").unlink()
        done = self.ended()
        self.assertEqual((done.returncode, done.stdout), (2, ""))
        self.assertIn("MANIFEST is not there, or cannot be read", done.stderr)

    def test_a_repository_that_cannot_be_written(self):
        (self.root / "out").write_text("no folder")
        cache = self.root / "cache"
        for variables in ({"XDG_CACHE_HOME": os.fspath(cache)}, {"XDG_CACHE_HOME": "", "HOME": "/dev/null"}):
            self.assertEqual([self.ended(**variables).stdout for _ in range(2)], ["prebuilt word\n"] * 2)
        self.assertEqual(len(os.listdir(cache / "fezdrok")), 1)


class Package(Folder):
    def test_it_builds_nothing(self):
        neither = f"{self.built} nor {self.prebuilt} is there: run {self.script}, which gets one"
        with self.assertRaisesRegex(ProgramNotFound, neither):
            Program(self.script).run("{}")
        with mock.patch.dict(os.environ, {"FEZDROK_PLANAR": os.fspath(self.script)}), self.assertRaisesRegex(
            ProgramNotFound, "FEZDROK_PLANAR .* is there"
        ):
            find_program()
        self.assertEqual(self.calls(), 0)

    def test_it_takes_what_the_script_has_built(self):
        self.said(self.script)
        with warnings.catch_warnings():
            warnings.simplefilter("error")
            self.assertEqual(find_program(self.script), os.fspath(self.built))
        self.assertEqual(Program(self.script).run(""), "first run\n")

    def test_an_old_one_is_told_of_once_and_used(self):
        self.said(self.script)
        self.edit()
        with warnings.catch_warnings(record=True) as told:
            warnings.simplefilter("always")
            self.assertEqual([Program(self.script).run("") for _ in range(3)], ["first run\n"] * 3)
        self.assertEqual([warning.category for warning in told], [PlanarWarning])
        self.assertIn(f"run {self.script}, which builds it anew", str(told[0].message))
        self.assertEqual(self.calls(), 1)

    def test_it_is_used_while_a_new_one_is_built(self):
        self.said(self.script)
        self.edit()
        self.begin()
        self.wait_for_calls(2)
        with self.assertWarns(PlanarWarning):
            self.assertEqual(Program(self.script).run(""), "first run\n")
        self.allow()

    def test_the_checkout_is_one_place_of_several(self):
        words = {"FEZDROK_PLANAR": "", "PATH": os.environ["PATH"] + os.pathsep + os.fspath(self.root)}
        with mock.patch.dict(os.environ, words), mock.patch.object(
            program_module, "repository_script", return_value=self.script
        ):
            with self.assertRaisesRegex(ProgramNotFound, "PATH .* is there.* or the checkout .* is there"):
                find_program()
            self.said(self.script)
            self.assertEqual(find_program(), os.fspath(self.built))

    def put_prebuilt(self, sources: str):
        """Puts a program into `prebuilt/` that is said to be built from sources of this checksum."""
        self.prebuilt.parent.mkdir(parents=True, exist_ok=True)
        self.prebuilt.write_text('#!/bin/sh\necho "prebuilt $@"\n')
        self.prebuilt.chmod(0o755)
        lines = ["kit some kit", "glibc 2.34", f"planar 0123 {sources}", "libfezdrok.a 4567 89ab", "libfezdrok.so 4567 89ab", ""]
        self.prebuilt.with_name("MANIFEST").write_text("\n".join(lines))

    def sources(self) -> str:
        """The checksum of the sources that are there now."""
        return subprocess.check_output([self.root / ".ci" / "sources", "planar"], text=True).strip()

    def test_it_takes_the_prebuilt_one(self):
        self.put_prebuilt(self.sources())
        with warnings.catch_warnings():
            warnings.simplefilter("error")
            self.assertEqual(Program(self.script).run(""), "prebuilt run\n")
        self.assertEqual(self.calls(), 0)

    def test_of_two_it_takes_the_one_of_these_sources(self):
        self.said(self.script)
        self.put_prebuilt("none")
        with warnings.catch_warnings():
            warnings.simplefilter("error")
            self.assertEqual(find_program(self.script), os.fspath(self.built))
            self.edit()
            self.put_prebuilt(self.sources())
            with mock.patch.object(program_module, "_chosen", {}):
                self.assertEqual([find_program(self.script) for _ in range(2)], [os.fspath(self.prebuilt)] * 2)

    def test_an_old_prebuilt_one_is_told_of_and_used(self):
        self.put_prebuilt("none")
        with self.assertWarns(PlanarWarning):
            self.assertEqual(Program(self.script).run(""), "prebuilt run\n")


if __name__ == "__main__":
    unittest.main()
