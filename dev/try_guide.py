"""Runs the commands of docs/GUIDE.md and of the tutorials, and compares what they print with what stands there: try.py guide

A block of the guide that begins with `# NAME.op` or `# NAME.opn` is that file. In a block of commands each line that begins with `$ ` is one,
and what stands below it is its output. They run in a temporary folder that has these files, the examples and the sources for
Coq; `./opprove` is the built program there, and a tool of the package this checkout's. Where the program isn't built the tools of
Python run all the same: what it prints into a file by `tee` is then taken from the guide.
"""
from __future__ import annotations

import re
import shlex
import shutil
import tempfile
from pathlib import Path
from typing import Callable, Dict, List, NamedTuple

from opprove import cli
from trying import EXAMPLES, PROGRAM, SOURCE, TOP, built as built_program, installed, is_built, need, run, tool

GUIDE, README = TOP / "docs" / "GUIDE.md", TOP / "README.md"
TUTORIALS = sorted((TOP / "docs" / "tutorials").glob("*.md"))
TOOLS = "|".join(tool.word for tool in cli.TOOLS)
ASKING = "|".join(tool.word for tool in cli.TOOLS if tool.asks)  # tools that run the program


class Command(NamedTuple):
    line: str
    shown: str

    def asks_program(self) -> bool:
        return re.search(rf"\./opprove (?!({TOOLS}) )|\./opprove ({ASKING}) ", self.line) is not None

    def asks_coq(self) -> bool:
        return self.line.startswith("coqc ") or " coq --library " in self.line


class Guide(NamedTuple):
    files: Dict[str, str]
    commands: List[Command]


def read(text: str) -> Guide:
    """The files and the commands of the guide; a block is nothing else."""
    files: Dict[str, str] = {}
    commands: List[Command] = []
    for block in re.findall(r"^```\n(.*?)^```$", text, re.MULTILINE | re.DOTALL):
        name = re.match(r"# (\w+\.opn?): ", block)
        need(bool(name) or block.startswith("$ "), f"a block of the guide: {block}")
        if name:
            need(name[1] not in files, f"{name[1]} stands twice")
            files[name[1]] = block
            continue
        for part in re.split(r"^\$ ", block, flags=re.MULTILINE)[1:]:
            line, _, shown = part.partition("\n")
            commands.append(Command(line, shown))
    return Guide(files, commands)


def as_run(line: str) -> str:
    """The line with the program, and the tools of this checkout by this Python."""
    line = re.sub(rf"\./opprove ({TOOLS})(?= )", lambda match: " ".join(map(shlex.quote, tool(match[1]))), line)
    return line.replace("./opprove ", f"env OPPROVE={shlex.quote(str(PROGRAM))} OPPROVE_QUIET=1 {shlex.quote(str(TOP / 'opprove'))} ")


def has_files(line: str, folder: Path) -> bool:
    """Whether the files are there that the line reads."""
    return all((folder / word).exists() for word in line.split() if re.fullmatch(r"[\w/]+\.(opn?|report|model|v)", word))


def followed(folder: Path, is_wanted: Callable[[Command, Path], bool], page: Path = GUIDE) -> int:
    """Runs the commands of a page that are wanted at their place, and tells how many they were."""
    guide, count = read(page.read_text(encoding="utf-8")), 0
    place = Path(tempfile.mkdtemp(dir=folder))
    for name, text in guide.files.items():
        (place / name).write_text(text, encoding="utf-8")
    for name in ("examples", "library"):
        (place / name).symlink_to(TOP / name)
    coq_files = SOURCE / "opprove" / "coq" / "theories"
    others = lambda _, names: {name for name in names if name[-2:] != ".v"}
    shutil.copytree(coq_files, place / coq_files.relative_to(TOP), ignore=others)
    for command in guide.commands:
        stored = re.search(r" \| tee (\S+)$", command.line)
        if is_wanted(command, place):
            answer = run("bash", "-c", as_run(command.line), folder=place, seconds=600)
            need(answer.out == command.shown, f"$ {command.line}\n{answer.out}{answer.error}and {page.name} has\n{command.shown}")
            error = "".join(line for line in answer.error.splitlines(True) if not line.startswith("# expanded "))
            need(not error or "./opprove search " in command.line, f"$ {command.line}\n{error}")
            count += 1
        elif stored:
            (place / stored[1]).write_text(command.shown, encoding="utf-8")
    return count


def alone(folder: Path) -> str:
    """The tools of Python, on reports as they stand in the guide."""

    def is_of_python(command: Command, place: Path) -> bool:
        return not command.asks_program() and not command.asks_coq() and has_files(command.line, place)

    count = followed(folder, is_of_python)
    need(count >= 8, f"{count} commands")
    return f"{count} commands of the guide that want Python alone print what stands there"


def built(folder: Path) -> str:
    built_program()
    count = followed(folder, lambda command, _: not command.asks_coq())
    commands = read(GUIDE.read_text(encoding="utf-8")).commands
    need(count == sum(not command.asks_coq() for command in commands), f"{count} commands")
    return f"{count} commands of the guide print what stands there"


def tutorials(folder: Path) -> str:
    """Each of the tutorials, which asks the program."""
    built_program()
    counts = [followed(folder, lambda *_: True, page) for page in TUTORIALS]
    need(len(counts) == 3 and min(counts) >= 9, counts)
    return f"{sum(counts)} commands of {len(counts)} tutorials print what stands there"


def coq(folder: Path) -> str:
    """What Coq is asked, with the reports that it wants, which are made where the program is built."""
    installed("coqc")
    lines = [command.line for command in read(GUIDE.read_text(encoding="utf-8")).commands if "./opprove coq " in command.line]
    asked = {name for line in lines for name in re.findall(r"\w+\.(?:report|model)\b", line)}

    def is_wanted(command: Command, place: Path) -> bool:
        if is_built() and asked & {*re.findall(r"(?:>|tee )(\w+\.\w+)", command.line)}:
            return True
        return (command.asks_coq() or "./opprove coq " in command.line) and has_files(command.line.split(">")[0], place)

    count = followed(folder, is_wanted)
    need(count >= 2, f"{count} commands")
    return "the theorems of the guide are accepted by coqc"


def readme(folder: Path) -> str:
    """The commands of README, whose statement is an example."""
    built_program()
    blocks = re.findall(r"^```\n(.*?)^```$", README.read_text(encoding="utf-8"), re.MULTILINE | re.DOTALL)
    statement = (EXAMPLES / "pseudoinverses.op").read_text(encoding="utf-8")
    need(blocks[0] in statement, "the statement of README")
    place = Path(tempfile.mkdtemp(dir=folder))
    for name in ("examples", "library"):
        (place / name).symlink_to(TOP / name)
    parts = [part.partition("\n") for block in blocks if block[:2] == "$ " for part in re.split(r"^\$ ", block, flags=re.MULTILINE)[1:]]
    for line, _, shown in parts:
        answer = run("bash", "-c", as_run(line), folder=place)
        need(answer.out == shown and not answer.error, (line, answer))
    need(len(parts) == 3, parts)
    return f"{len(parts)} commands of README print what stands there"


def table(folder: Path) -> str:
    """Each call of the table of tools runs, and each tool is in the table; serve, which doesn't end, has trials of its own."""
    calls = re.findall(r"^\|.*\| `(.*)` \|$", (TOP / "docs" / "TOOLS.md").read_text(encoding="utf-8"), re.MULTILINE)
    words = {call.split()[1] for call in calls}
    need(words == {it.word for it in cli.TOOLS}, words ^ {it.word for it in cli.TOOLS})
    built_program()
    place = Path(tempfile.mkdtemp(dir=folder))
    for name in ("examples", "library"):
        shutil.copytree(TOP / name, place / name)
    for call in calls:
        if call != "./opprove serve":
            answer = run("bash", "-c", as_run(call), folder=place, seconds=300)
            need(answer.status in (0, 10, 11, 12, 13) and answer.out != "" and "Traceback" not in answer.error, (call, answer))
    return f"{len(calls)} calls of the table of tools are made as they stand there"


CHECKS: List[Callable[[Path], str]] = [alone, built, tutorials, coq, readme, table]
