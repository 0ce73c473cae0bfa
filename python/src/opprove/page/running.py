"""Runs for the page to work in: each with a limit of time and memory, in a group of processes of its own, and none left over."""
from __future__ import annotations

import fcntl
import os
import pty
import re
import signal
import struct
import subprocess
import sys
import termios
import threading
import time
from pathlib import Path
from typing import IO, Dict, List, NamedTuple, Optional, Set, Tuple, Union

PATIENCE = 2  # seconds between a request to end and the end
COLUMNS, LINES = 1000, 60  # of the terminals of runs, and of what they said
KEPT = 64  # runs whose reports are there to be looked at
# What a shell does before it becomes the program: not all systems know each limit.
BOUNDED = 'ulimit -c 0; ulimit -v "$1" 2>/dev/null; ulimit -t "$2"; shift 2; exec "$@"'


class Limits(NamedTuple):
    """Of each run: seconds, and bytes of memory; and of runs side by side."""

    seconds: int
    memory: int
    runs: int


class Call(NamedTuple):
    """A command, the folder that it runs in, and its environment."""

    command: List[str]
    folder: Path
    environment: Dict[str, str]


def started(call: Call, limits: Limits, out: Union[int, IO[bytes]], told: int) -> "subprocess.Popen[bytes]":
    """Starts a call within limits, as the first process of a group; its output and what it tells of itself go there."""
    bounds = [str(limits.memory // 1024), str(limits.seconds)]
    return subprocess.Popen(
        ["/bin/sh", "-c", BOUNDED, "sh", *bounds, *call.command], stdin=subprocess.DEVNULL, stdout=out, stderr=told,
        cwd=str(call.folder), env=call.environment, start_new_session=True,
    )  # fmt: skip


def send(process: "subprocess.Popen[bytes]", number: int) -> None:
    """Sends a signal to a process and all of its group."""
    try:
        os.killpg(process.pid, number)
    except (ProcessLookupError, PermissionError):
        pass


class Told:
    """What a run says of itself: on standard error, and where that is to be a terminal, on one of its own."""

    def __init__(self, is_terminal: bool) -> None:
        self.lines: Dict[str, str] = {}  # the last ones, by what they say behind the time
        self.mine, self.theirs = pty.openpty() if is_terminal else os.pipe()
        if is_terminal:
            fcntl.ioctl(self.theirs, termios.TIOCSWINSZ, struct.pack("HHHH", 24, COLUMNS, 0, 0))

    def read(self) -> None:
        """Reads until all that can write have ended, in a thread of its own."""
        os.close(self.theirs)
        rest = b""
        try:
            while True:
                data = os.read(self.mine, 1 << 16)
                if not data:
                    break
                *pieces, rest = re.split(b"\r?\n|\r\x1b\\[K", rest + data)
                for piece in [*pieces, rest]:
                    self.add(piece.decode("utf-8", "replace").strip())
        except OSError:
            pass  # the terminal has nobody left who writes
        os.close(self.mine)

    def add(self, line: str) -> None:
        what = re.sub(r"^\w+: [0-9]+ s, ", "", line)
        if what:
            self.lines.pop(what, None)
            self.lines[what] = line
            for old in list(self.lines)[:-LINES]:
                del self.lines[old]


class Run:
    """A run over a statement. Its report goes to a file of its folder. One that is talking tells on a terminal what it does."""

    def __init__(self, call: Call, limits: Limits, is_talking: bool) -> None:
        self.folder, self.limits, self.told = call.folder, limits, Told(is_talking)
        self.report = call.folder / "statement.report"
        self.start, self.end = time.monotonic(), 0.0
        self.ended_by = ""  # what ended it, if it didn't end by itself
        with open(self.report, "wb") as out:
            self.process = started(call, limits, out, self.told.theirs)
        for work in (self.watch, self.told.read):
            threading.Thread(target=work, daemon=True).start()

    def watch(self) -> None:
        """Waits for the end, and ends a run whose time is over."""
        try:
            self.process.wait(self.limits.seconds)
        except subprocess.TimeoutExpired:
            self.stop("time")
        send(self.process, signal.SIGKILL)  # what the run may have left in its group
        self.end = time.monotonic()

    def stop(self, why: str) -> None:
        """Ends the run and all that it started, and returns when that has happened."""
        if self.is_going():
            self.ended_by = self.ended_by or why
            send(self.process, signal.SIGTERM)
            try:
                self.process.wait(PATIENCE)
            except subprocess.TimeoutExpired:
                pass
        send(self.process, signal.SIGKILL)
        self.process.wait()

    def is_going(self) -> bool:
        return self.process.poll() is None

    def state(self) -> Dict[str, object]:
        """What is known of the run, for the page."""
        seconds = (self.end or time.monotonic()) - self.start
        found: Dict[str, object] = {"seconds": round(seconds, 1), "bytes": self.memory(), "told": list(self.told.lines.values())}
        found["going"] = self.is_going()
        if not found["going"]:
            found.update(status=self.process.returncode, ended=self.ended_by)
        return found

    def memory(self) -> int:
        """The bytes that the run and what it started have now, where the system says so."""
        total = 0
        for entry in Path("/proc").glob("[0-9]*/stat") if sys.platform.startswith("linux") and self.is_going() else []:
            try:
                fields = entry.read_text("utf-8", "replace").rpartition(")")[2].split()
            except OSError:
                continue
            if int(fields[2]) == self.process.pid:
                total += int(fields[21]) * os.sysconf("SC_PAGE_SIZE")
        return total


class Runs:
    """All runs of a server, by their numbers, and the short calls beside them."""

    def __init__(self, folder: Path, limits: Limits) -> None:
        self.folder, self.limits = folder, limits
        self.lock, self.count, self.is_closed = threading.Lock(), 0, False
        self.runs: Dict[int, Run] = {}
        self.calls: "Set[subprocess.Popen[bytes]]" = set()
        self.room = threading.BoundedSemaphore(limits.runs)  # for short calls

    def start(self, statement: bytes, command: List[str], environment: Dict[str, str], is_talking: bool) -> Optional[int]:
        """Starts a run, whose command names the statement as statement.op, and gives its number; none where as many go on as may."""
        with self.lock:
            if self.is_closed or sum(run.is_going() for run in self.runs.values()) >= self.limits.runs:
                return None
            self.count += 1
            folder = self.folder / str(self.count)
            folder.mkdir()
            (folder / "statement.op").write_bytes(statement)
            self.runs[self.count] = Run(Call(command, folder, environment), self.limits, is_talking)
            self.forget()
            return self.count

    def forget(self) -> None:
        """Removes the oldest runs that have ended, beyond those that are kept."""
        for number in list(self.runs)[:-KEPT]:
            run = self.runs[number]
            if not run.is_going():
                for path in run.folder.iterdir():
                    path.unlink()
                run.folder.rmdir()
                del self.runs[number]

    def get(self, number: int) -> Optional[Run]:
        return self.runs.get(number)

    def answer(self, call: Call, seconds: int) -> Tuple[int, bytes, bytes]:
        """Status, output and standard error of a short call; after so many seconds it is ended, with a status below 0."""
        with self.room:
            with self.lock:
                if self.is_closed:
                    return -signal.SIGTERM, b"", b""
                process = started(call, self.limits._replace(seconds=seconds), subprocess.PIPE, subprocess.PIPE)
                self.calls.add(process)
            try:
                out, error = process.communicate(timeout=seconds)
            except subprocess.TimeoutExpired:
                out = error = b""
            finally:
                send(process, signal.SIGKILL)
                process.wait()
                self.calls.discard(process)
            return process.returncode, out, error

    def close(self) -> None:
        """Ends all runs and calls, and lets none begin."""
        with self.lock:
            self.is_closed = True
        for run in list(self.runs.values()):
            run.stop("end")
        for process in list(self.calls):
            send(process, signal.SIGKILL)
            process.wait()
