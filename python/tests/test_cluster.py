"""Runs by a Dask scheduler with four workers on this machine, of which one is killed in the middle: the same answers, none lost or twice.

Skipped where dask.distributed isn't installed for this Python or for /usr/bin/python3, and where the program isn't built.
"""
from __future__ import annotations

import os
import re
import shutil
import signal
import subprocess
import sys
import tempfile
import time
import unittest
from pathlib import Path
from typing import Dict, List, Optional

from searching import PROGRAM, Answer, environment, needs_program, tool

COUNT, WORKERS = 16, 4
# Far from closed after so many pairs, which take about a second.
ENDLESS = "object V\nmap a b c : V -> V\nassume a b a = b a b\nassume b c b = c b c\nassume a c a = c a c\nclaim a^{n} b = b a^{n}\n"
NORMAL = "object V\nmap a x : V -> V\npinv a x\nassume a a' = a' a\nclaim a x = x a\n"


def python_with_dask() -> Optional[str]:
    for python in (sys.executable, "/usr/bin/python3"):
        if shutil.which(python) and subprocess.run([python, "-c", "import distributed"], stderr=subprocess.DEVNULL).returncode == 0:
            return python
    return None


class Cluster:
    """A scheduler and workers on this machine."""

    def __init__(self, python: str, folder: Path, workers: int, **more: str) -> None:
        self.python, self.folder, self.more = python, folder, {"OPPROVE": PROGRAM, **more}
        file = folder / "scheduler.json"
        words = ("--host", "127.0.0.1", "--port", "0", "--no-dashboard", "--scheduler-file", str(file))
        self.processes = [self.start("dask_scheduler", *words)]
        wait_for(file.exists)
        text = file.read_text()
        wait_for(lambda: '"address"' in file.read_text())
        text = file.read_text()
        match = re.search('"address": "([^"]+)"', text)
        assert match, text
        self.address = match.group(1)
        self.workers = [self.worker() for _ in range(workers)]

    def start(self, module: str, *words: str) -> "subprocess.Popen[bytes]":
        command = [self.python, "-m", f"distributed.cli.{module}", *words]
        # A worker has nothing of the package, and its own program.
        variables = {key: value for key, value in os.environ.items() if key != "PYTHONPATH"}
        return subprocess.Popen(
            command, cwd=self.folder, env={**variables, **self.more}, stdout=subprocess.DEVNULL, stderr=subprocess.DEVNULL
        )

    def worker(self) -> "subprocess.Popen[bytes]":
        folder = tempfile.mkdtemp(dir=self.folder)
        process = self.start("dask_worker", self.address, "--nthreads", "1", "--no-nanny", "--no-dashboard", "--local-directory", folder)
        self.processes.append(process)
        return process

    def close(self) -> None:
        for process in self.processes[::-1]:
            process.kill()
            process.wait()


def wait_for(is_met: "object", seconds: float = 60) -> None:
    until = time.monotonic() + seconds
    while not is_met():  # type: ignore[operator]
        if time.monotonic() > until:
            raise TimeoutError("the cluster doesn't start")
        time.sleep(0.1)


class Clusters(unittest.TestCase):
    python: str

    def setUp(self) -> None:
        needs_program(self)
        python = python_with_dask()
        if python is None:
            self.skipTest("dask.distributed isn't installed: apt-get install python3-distributed")
        self.python = python
        holder = tempfile.TemporaryDirectory()
        self.addCleanup(holder.cleanup)
        self.folder = Path(holder.name)

    def cluster(self, workers: int = WORKERS, **more: str) -> Cluster:
        found = Cluster(self.python, self.folder, workers, **more)
        self.addCleanup(found.close)
        return found

    def statements(self, name: str) -> Path:
        folder = self.folder / name
        folder.mkdir()
        for number in range(COUNT):
            text = "language 2\n" + ENDLESS.format(n=number + 2) if number % 2 else f"# {number}\n{NORMAL}"
            (folder / f"s{number:02}.op").write_text(text)
        return folder

    def prove_all(self, folder: Path, *words: str) -> "subprocess.Popen[bytes]":
        command = [self.python, "-m", "opprove", "prove-all", str(folder), "--no-models", "--pairs", "8000", *words]
        return subprocess.Popen(command, env=environment(), stdout=subprocess.PIPE, stderr=subprocess.PIPE)

    def reports(self, folder: Path) -> Dict[str, str]:
        return {path.name: path.read_text() for path in folder.glob("*.report")}

    def test_a_worker_dies(self) -> None:
        here, away = self.statements("here"), self.statements("away")
        process = self.prove_all(here, "--jobs", "4")
        expected = process.communicate(timeout=400)
        cluster = self.cluster()
        process = self.prove_all(away, "--scheduler", cluster.address)
        wait_for(lambda: any(away.glob("*.report")), 100)
        self.assertLess(len(self.reports(away)), COUNT)  # it is in the middle
        cluster.workers[0].send_signal(signal.SIGKILL)
        out, error = process.communicate(timeout=400)
        self.assertEqual((out, error, process.returncode), (*expected, 12))
        self.assertEqual(out.decode().rstrip().split("\n")[-1][:45], f"{COUNT} statements, {COUNT} of them proved anew; claims")
        self.assertEqual(self.reports(away), self.reports(here))

    def test_search_and_needed(self) -> None:
        path = self.folder / "normal.op"
        path.write_text(NORMAL)
        address = self.cluster().address
        for words in (["search", path, "--seconds", 30, "--jobs", 2], ["needed", path]):
            here, away = tool(*words), tool(*words, "--scheduler", address, python=self.python)
            self.assertEqual(away.status, 0, away)
            self.assertEqual(self.told(away), self.told(here))

    def told(self, answer: Answer) -> List[str]:
        return [line for line in answer.out.split("\n") if re.match("# (claim|ended|follows|in each|.* needed)", line)]

    def test_a_worker_without_the_program(self) -> None:
        path = self.folder / "normal.op"
        path.write_text(NORMAL)
        cluster = self.cluster(1, OPPROVE="/nowhere/opprove")
        answer = tool("needed", path, "--scheduler", cluster.address, python=self.python)
        self.assertEqual((answer.status, answer.out), (1, ""))
        self.assertRegex(answer.error, "^the worker on .* has no opprove in PATH, and OPPROVE names none there\n$")

    def test_no_scheduler(self) -> None:
        path = self.folder / "normal.op"
        path.write_text(NORMAL)
        answer = tool("needed", path, "--scheduler", "tcp://127.0.0.1:9", python=self.python)
        self.assertEqual((answer.status, answer.out), (1, ""))
        self.assertRegex(answer.error, "^no Dask scheduler answers at tcp://127.0.0.1:9: .*\n$")
