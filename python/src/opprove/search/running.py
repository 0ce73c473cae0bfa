"""Runs of opprove side by side, for the tool `search`: each with a bound of processor time and memory, and none left behind."""
from __future__ import annotations

import ctypes
import os
import resource
import signal
import subprocess
import sys
import time
from pathlib import Path
from typing import IO, Any, Callable, Dict, Iterator, List, NamedTuple, Optional, Tuple, Union

MEMORY = 2 << 30  # bytes that a run may have
PARENT_DEATH_SIGNAL = 1  # of prctl
WORKER, WORKER_MODULE = "worker", "opprove.search.worker"
PACKAGE = str(Path(__file__).resolve().parents[2])  # the folder from which the package is imported


class Unusable(Exception):
    """A line on why nothing can be run."""


class Program:
    """The built program, tried once: whether it runs, with a bound of memory, and whether it reads `eliminate`."""

    def __init__(self, path: Path) -> None:
        self.path, self.memory, self.patience = path, MEMORY, 1
        libc = ctypes.CDLL(None) if sys.platform.startswith("linux") else None
        self.prctl: Optional[Callable[[int, int], int]] = libc.prctl if libc else None
        if self.answer(["bench", "1"]) != 10:
            self.memory, self.patience = 0, 8  # a program with checks of its own reserves more than it uses, and is slow
            if self.answer(["bench", "1"]) != 10:
                raise Unusable(f"{path} isn't there: ./opprove build makes it in a checkout, and OPPROVE may name another one")

    def answer(self, words: List[str], seconds: int = 120) -> int:
        """The status of a short run whose report nobody reads."""
        return self.report(words, seconds)[0]

    def report(self, words: List[str], seconds: int = 120) -> Tuple[int, bytes]:
        try:
            with self.start(words, subprocess.PIPE, seconds) as process:
                text = process.communicate()[0]
                return process.returncode, text
        except OSError:
            return 1, b""

    def start(self, words: List[str], out: Union[int, IO[bytes]], seconds: int) -> "subprocess.Popen[bytes]":
        """Starts a run that ends with this program, and that ends after so many seconds of processor time. Where the first word
        is `worker` it is one of the searches in Python."""
        is_worker = words[:1] == [WORKER]
        command = [sys.executable, "-m", WORKER_MODULE, *words[1:]] if is_worker else [str(self.path), *words]
        return subprocess.Popen(
            command, stdin=subprocess.DEVNULL, stdout=out, stderr=subprocess.DEVNULL, preexec_fn=lambda: self.bound(seconds),
            env={**os.environ, "PYTHONPATH": os.pathsep.join([PACKAGE, *os.environ.get("PYTHONPATH", "").split(os.pathsep)])},
        )  # fmt: skip

    def bound(self, seconds: int) -> None:
        resource.setrlimit(resource.RLIMIT_CPU, (seconds, seconds))
        resource.setrlimit(resource.RLIMIT_CORE, (0, 0))
        if self.memory:
            resource.setrlimit(resource.RLIMIT_AS, (self.memory, self.memory))
        if self.prctl:
            self.prctl(PARENT_DEATH_SIGNAL, signal.SIGKILL)


class Run(NamedTuple):
    """A run that goes on: what it is for, and the file of its report."""

    job: Any
    process: "subprocess.Popen[bytes]"
    report: Path


class Runs:
    """Runs side by side. Used in a `with`, it ends them all."""

    def __init__(self, program: Program, folder: Path) -> None:
        self.program, self.folder = program, folder
        self.going: List[Run] = []
        self.count = 0

    def __enter__(self) -> "Runs":
        return self

    def __exit__(self, *what: object) -> None:
        self.end(lambda job: True)

    def has_room(self, jobs: int) -> bool:
        return len(self.going) < jobs

    def under_way(self) -> List[Any]:
        """What runs go on for."""
        return [run.job for run in self.going]

    def start(self, job: Any, words: List[str], seconds: int) -> None:
        self.count += 1
        report = self.folder / f"{self.count}.report"
        with open(report, "wb") as out:
            self.going.append(Run(job, self.program.start(words, out, seconds * self.program.patience), report))

    def ended(self) -> Iterator[Tuple[Any, int, Path]]:
        """The runs that have ended by themselves, each with its status and its report."""
        for run in list(self.going):
            status = run.process.poll()
            if status is not None:
                self.going.remove(run)
                yield run.job, status, run.report

    def end(self, is_idle: Callable[[Any], bool]) -> None:
        """Ends the runs whose jobs are idle."""
        idle = [run for run in self.going if is_idle(run.job)]
        for run in idle:
            run.process.kill()
        for run in idle:
            run.process.wait()
            run.report.unlink()
            self.going.remove(run)


class Interrupts:
    """Used in a `with`: signals that end a program are kept, to be asked for."""

    SIGNALS = [signal.SIGINT, signal.SIGTERM, signal.SIGHUP]

    def __init__(self) -> None:
        self.is_met = False
        self.before: Dict[int, Any] = {}

    def __enter__(self) -> "Interrupts":
        self.before = {number: signal.signal(number, self.meet) for number in self.SIGNALS}
        return self

    def __exit__(self, *what: object) -> None:
        for number, handler in self.before.items():
            signal.signal(number, handler)

    def meet(self, *what: object) -> None:
        self.is_met = True


class Progress:
    """A line on standard error on what is under way, rewritten where that is a terminal. Elsewhere nothing is written."""

    PAUSE = 0.2  # seconds

    def __init__(self, name: str, most: int = 0) -> None:
        """With so many seconds where there is a limit."""
        self.name, self.is_terminal = name, sys.stderr.isatty()
        self.limit = f" of {most}" if most else ""
        self.start = self.last = time.monotonic()

    def seconds(self) -> float:
        return time.monotonic() - self.start

    def tell(self, text: str, is_news: bool = False) -> None:
        if self.is_terminal and (is_news or time.monotonic() - self.last >= self.PAUSE):
            self.last = time.monotonic()
            self.write("\r\033[K" + f"{self.name}: {self.seconds():.0f}{self.limit} s, {text}"[: os.get_terminal_size(2).columns - 1])

    def clear(self) -> None:
        if self.is_terminal:
            self.write("\r\033[K")

    def write(self, text: str) -> None:
        try:
            sys.stderr.write(text)
            sys.stderr.flush()
        except OSError:
            pass  # nobody listens
