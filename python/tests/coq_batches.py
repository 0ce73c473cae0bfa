"""Exports that coqc checks, many in one run: each in a module of its own, those that have to be refused up to where Coq fails."""
from __future__ import annotations

import os
import re
import shutil
import subprocess
from pathlib import Path
from typing import List, NamedTuple

from opprove.coq.export import HEAD, compiled

CLOSED = "Closed under the global context\n"
SECONDS = 600  # that coqc may take


class Done(NamedTuple):
    """What coqc answers."""

    status: int
    out: str
    error: str
    seconds: float  # of the processor


class Coq:
    """A folder in which coqc runs."""

    def __init__(self, folder: Path) -> None:
        self.folder, self.count = folder, 0
        self.pages: List[str] = []
        self.accepted = 0

    def compile(self, name: str) -> Done:
        """What coqc answers about a file in the folder."""
        before = os.times()
        command = ["coqc", "-q", "-Q", "theories", "Opprove", "-Q", "examples", "Examples", name]
        done = subprocess.run(command, cwd=self.folder, stdin=subprocess.DEVNULL, capture_output=True, timeout=SECONDS, text=True)
        after = os.times()
        spent = after.children_user + after.children_system - before.children_user - before.children_system
        return Done(done.returncode, done.stdout, done.stderr, spent)

    def library(self) -> float:
        """Compiles the library, and gives the seconds that it takes."""
        (self.folder / "examples").mkdir()
        before = os.times()
        compiled(str(self.folder / "theories"))
        after = os.times()
        return after.children_user + after.children_system - before.children_user - before.children_system

    def add(self, text: str, is_right: bool) -> None:
        """An export that has to be accepted, or one of a single block whose proof has to fail."""
        body = text[text.index(HEAD) + len(HEAD) :]
        if is_right:
            self.accepted += 1
        else:
            body = body[: body.index("Qed.")] + "Fail Qed. Abort."
        self.pages.append(f"Module Part_{len(self.pages) + 1}.\n{body}\nEnd Part_{len(self.pages) + 1}.")

    def run(self) -> float:
        """Has coqc check all that was added, and gives the seconds."""
        self.count += 1
        path = self.folder / f"batch_{self.count}.v"
        path.write_text("\n".join([HEAD, *self.pages, ""]), encoding="utf-8")
        done, accepted = self.compile(path.name), self.accepted
        self.pages, self.accepted = [], 0
        if done.status:
            place = re.match(r'File ".*", line ([0-9]+)', done.error)
            lines = path.read_text(encoding="utf-8").split("\n")[: int(place[1]) if place else 0]
            part = "\n".join(lines[max((n for n, line in enumerate(lines) if line.startswith("Module Part_")), default=0) :])
            raise AssertionError(f"{part}\n{done.error}")
        if done.out != accepted * CLOSED:
            raise AssertionError(f"{path}: {accepted} to be accepted, but {done.out}")
        return done.seconds


def is_installed() -> bool:
    """Whether there is a coqc."""
    return shutil.which("coqc") is not None


def has_mathcomp() -> bool:
    """Whether coqc finds MathComp."""
    where = subprocess.run(["coqc", "-where"], capture_output=True, text=True).stdout.strip()
    return (Path(where) / "user-contrib" / "mathcomp" / "algebra").is_dir()
