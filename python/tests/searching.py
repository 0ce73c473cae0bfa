"""What the tests of the searches share: the program, a tool that is run as a user runs it, and blocks that are checked."""
from __future__ import annotations

import os
import re
import subprocess
import sys
import tempfile
import unittest
from pathlib import Path
from typing import List, NamedTuple

import opprove
from opprove import program
from trying import PATIENCE

ROOT = Path(opprove.__file__).resolve().parents[3]
SOURCES = str(Path(opprove.__file__).resolve().parents[1])
PROGRAM = program.path()
COMMANDS = {"certificate": "check", "cancellation": "cancel", "model": "model", "basis": "confirm"}


def needs_program(case: unittest.TestCase) -> None:
    if not os.access(PROGRAM, os.X_OK):
        case.skipTest("opprove isn't built: OPPROVE names a program")


class Asking(unittest.TestCase):
    """Tests that ask the program, each with a folder of its own."""

    def setUp(self) -> None:
        needs_program(self)
        holder = tempfile.TemporaryDirectory()
        self.addCleanup(holder.cleanup)
        self.folder = Path(holder.name)

    def file(self, text: str, name: str = "asked.op") -> Path:
        path = self.folder / name
        path.write_text(text)
        return path


class Answer(NamedTuple):
    status: int
    out: str
    error: str

    @property
    def heads(self) -> List[str]:
        return re.findall("^# claim .*", self.out, re.MULTILINE)

    @property
    def last(self) -> str:
        return self.out.rstrip("\n").split("\n")[-1]

    @property
    def blocks(self) -> List[str]:
        """The blocks of evidence, whose comments are left out."""
        text = re.sub("^#.*\n", "", self.out, flags=re.MULTILINE)
        return [f"{block}end\n" for block in re.split(r"^end\n", text, flags=re.MULTILINE) if block.strip()]


def environment(**more: str) -> "dict[str, str]":
    return {**os.environ, "PYTHONPATH": SOURCES, "OPPROVE": PROGRAM, **more}


def tool(*words: object, seconds: int = 200, python: str = sys.executable) -> Answer:
    """The answer of `opprove WORD ..`."""
    command = [python, "-m", "opprove", *map(str, words)]
    done = subprocess.run(command, stdout=subprocess.PIPE, stderr=subprocess.PIPE, env=environment(), timeout=seconds * PATIENCE, cwd=ROOT)
    return Answer(done.returncode, done.stdout.decode(), done.stderr.decode())


def accepted(statement: str, block: str) -> bool:
    """Whether the program, where it reads such blocks, and the second checker accept a block."""
    with tempfile.TemporaryDirectory() as folder:
        paths = [str(Path(folder, "asked.op")), str(Path(folder, "asked.cert"))]
        for path, text in zip(paths, (statement, block)):
            Path(path).write_text(text)
        command = COMMANDS.get(block.split(" ")[0])
        if command and subprocess.run([PROGRAM, command, *paths], stdout=subprocess.DEVNULL).returncode != 0:
            return False
        return tool("second-check", *paths).status == 0


def own_statement(answer: Answer) -> str:
    """The statement that a report has as comments."""
    lines = re.search(r"^# of the statement:\n((?:#   .*\n)+)", answer.out, re.MULTILINE)
    assert lines, answer.out
    return re.sub("^#   ", "", lines.group(1), flags=re.MULTILINE)
