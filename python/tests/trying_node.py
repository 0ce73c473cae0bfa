"""check.js under node, for the tests: in one process, asked of the files that the other programs are asked of."""
from __future__ import annotations

import atexit
import functools
import json
import shutil
import subprocess
from pathlib import Path
from typing import List, Optional

from trying import TOP, Answer, Skipped, need

COMMANDS = ("check", "model", "confirm", "cancel")
CHECKER = TOP / "python" / "src" / "opprove" / "page" / "check.js"
ASKED: List[str] = []  # the commands of all answers
# Answers lines that name a command and two files, each by a line.
DRIVER = """
const Opprove = require(process.argv[1]), { readFileSync } = require("fs");
require("readline").createInterface({ input: process.stdin }).on("line", (line) => {
  const [command, ...paths] = JSON.parse(line), { status, lines } = Opprove.report(command, ...paths.map((path) => readFileSync(path)));
  console.log(JSON.stringify([status, lines.map((told) => told + "\\n").join("")]));
});
"""


@functools.lru_cache(maxsize=None)
def started() -> "Optional[subprocess.Popen[str]]":
    """The process; none where node isn't installed."""
    node = shutil.which("node")
    if not node:
        return None
    process = subprocess.Popen(
        [node, "-e", DRIVER, str(CHECKER)], stdin=subprocess.PIPE, stdout=subprocess.PIPE, encoding="utf-8", bufsize=1
    )
    atexit.register(process.kill)
    return process


def answered(command: str, statement: Path, evidence: Path) -> Optional[Answer]:
    """What check.js answers; none where node isn't installed."""
    process = started()
    if process is None or process.stdin is None or process.stdout is None:
        return None
    process.stdin.write(json.dumps([command, str(statement), str(evidence)]) + "\n")
    line = process.stdout.readline()
    need(line != "", ("check.js has ended", command, statement.read_bytes()[:3000], evidence.read_bytes()[:3000]))
    status, out = json.loads(line)
    return Answer(status, out, "")


def agrees(command: str, statement: Path, evidence: Path, want: Answer) -> None:
    """Fails where check.js answers something else."""
    found = answered(command, statement, evidence)
    if found is not None:
        ASKED.append(command)
        need(found == want, (command, statement.read_bytes()[:3000], evidence.read_bytes()[:3000], want.out[:3000], found.out[:3000]))


def count(folder: Path) -> str:
    """Of this run of the tests."""
    if started() is None:
        raise Skipped("node is not installed, and check.js isn't asked")
    return f"{len(ASKED)} answers are those of check.js under node"


def by_node() -> str:
    return "and check.js under node" if started() else "without check.js, as node is not installed"
