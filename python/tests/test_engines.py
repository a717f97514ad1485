"""Many graphs by engines of others: dask.distributed, MPI and GNU parallel, each run for real where it is there."""

import json
import logging
import os
import shutil
import signal
import subprocess
import sys
import tempfile
import time
import unittest
from importlib.util import find_spec
from pathlib import Path

import networkx as nx

from fezdrok import iter_planarize, load, planarize_many

from .engine_runs import OPTIONS, sparse_graphs, told
from .support import ROOT, needs_program

#: How many graphs are given to each engine; 500 in a longer run.
COUNT = int(os.environ.get("FEZDROK_ENGINE_GRAPHS", "100"))
ENVIRONMENT = {**os.environ, "PYTHONPATH": os.fspath(ROOT / "python")}
#: What OpenMPI wants to be told, so that it runs for root and with more processes than processors, and does not spin.
MPI = {
    "OMPI_ALLOW_RUN_AS_ROOT": "1",
    "OMPI_ALLOW_RUN_AS_ROOT_CONFIRM": "1",
    "OMPI_MCA_rmaps_base_oversubscribe": "1",
    "OMPI_MCA_mpi_yield_when_idle": "1",
}


@needs_program
class Engines(unittest.TestCase):
    def setUp(self):
        folder = tempfile.TemporaryDirectory(ignore_cleanup_errors=True)  # what was stopped may write still
        self.addCleanup(folder.cleanup)
        self.folder = Path(folder.name)

    def begun(self, *words: str) -> "subprocess.Popen[bytes]":
        """A process that ends with the test."""
        process = subprocess.Popen(
            words, cwd=self.folder, env=ENVIRONMENT, stdout=subprocess.DEVNULL, stderr=subprocess.DEVNULL
        )
        self.addCleanup(process.wait)
        self.addCleanup(process.kill)
        return process

    def one_process(self) -> list:
        """What the graphs come to in one process."""
        return told(planarize_many(sparse_graphs(COUNT), processes=1, progress=False, **OPTIONS))

    @unittest.skipUnless(find_spec("distributed"), "left out: distributed is not there")
    def test_dask(self):
        """A scheduler and three workers over TCP, of which one is killed in the middle: nothing is lost."""
        from distributed import Client

        file, python = os.fspath(self.folder / "scheduler.json"), (sys.executable, "-m")
        quiet = ("--no-dashboard", "--scheduler-file", file, "--host", "127.0.0.1")
        self.begun(*python, "distributed.cli.dask_scheduler", "--port", "0", *quiet)
        worker = (*python, "distributed.cli.dask_worker", "--nthreads", "1", "--no-nanny", *quiet)
        workers = [self.begun(*worker, "--name", str(number)) for number in range(3)]
        end = time.monotonic() + 60
        while not os.path.exists(file) and time.monotonic() < end:
            time.sleep(0.05)
        log = logging.getLogger("distributed")  # which warns of the worker that is killed
        self.addCleanup(log.setLevel, log.level)
        log.setLevel(logging.CRITICAL)
        outcomes = {}
        with Client(scheduler_file=file, timeout=60, set_as_default=False) as client:
            client.wait_for_workers(3, timeout=60)
            for place, outcome in iter_planarize(sparse_graphs(COUNT), executor=client, **OPTIONS):
                outcomes[place] = outcome
                if len(outcomes) == COUNT // 5:
                    workers[0].send_signal(signal.SIGKILL)
            self.assertEqual(len(client.scheduler_info()["workers"]), 2)
        self.assertEqual(sorted(outcomes), list(range(COUNT)))
        self.assertEqual(told(outcomes[place] for place in range(COUNT)), self.one_process())

    @unittest.skipUnless(find_spec("mpi4py") and shutil.which("mpiexec"), "left out: mpi4py or mpiexec is not there")
    def test_mpi(self):
        words = ["mpiexec", "-n", "3", sys.executable, "-m", "mpi4py.futures", "-m", "tests.engine_runs", str(COUNT)]
        environment = {**ENVIRONMENT, **MPI}
        done = subprocess.run(words, cwd=ROOT / "python", env=environment, capture_output=True, text=True, timeout=300)
        self.assertEqual(done.returncode, 0, done.stderr)
        self.assertEqual(json.loads(done.stdout), [2, self.one_process()])

    @unittest.skipUnless(shutil.which("parallel"), "left out: GNU parallel is not there")
    def test_parallel(self):
        """Stopped in the middle and begun again by the same line: what was done is not done again."""
        graphs = sparse_graphs(max(8, COUNT // 8))
        for number, graph in enumerate(graphs):
            nx.write_graphml(graph, self.folder / f"g{number:03}.graphml")
        command = self.folder / "fezdrok"
        command.write_text(f'#!/bin/sh\nexec "{sys.executable}" -m fezdrok "$@"\n')
        command.chmod(0o755)
        line = "exec parallel -j 2 --joblog log --resume ./fezdrok planarize {} -o {/.}.planar.json ::: *.graphml"
        words = {"cwd": self.folder, "env": {**ENVIRONMENT, "HOME": os.fspath(self.folder)}}
        quiet = {"stdout": subprocess.DEVNULL, "stderr": subprocess.DEVNULL}
        process = subprocess.Popen(["bash", "-c", line], start_new_session=True, **words, **quiet)
        end = time.monotonic() + 120
        while len(self.logged()) < 4 and time.monotonic() < end:
            time.sleep(0.02)
        os.killpg(process.pid, signal.SIGKILL)
        process.wait()
        before = {file: file.stat().st_mtime_ns for file in self.folder.glob("*.planar.json")}
        logged = self.logged()
        self.assertTrue(4 <= len(logged) < len(graphs))
        subprocess.run(["bash", "-c", line], check=True, timeout=300, **words, **quiet)
        self.assertEqual(len(self.logged()), len(graphs))
        for number, graph in enumerate(graphs):
            file = self.folder / f"g{number:03}.planar.json"
            load(file).verify(nx.relabel_nodes(graph, str))
            if file.with_suffix("").stem in logged:
                self.assertEqual(file.stat().st_mtime_ns, before[file])

    def logged(self) -> set[str]:
        """The names of the graphs that GNU parallel noted as done."""
        log = self.folder / "log"
        rows = [line.split("\t") for line in log.read_text().splitlines()[1:]] if log.exists() else []
        return {row[8].split()[2].partition(".")[0] for row in rows if len(row) == 9 and row[6] == "0"}


if __name__ == "__main__":
    unittest.main()
