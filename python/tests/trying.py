"""What tests share: programs that are run, what is needed of them, and checks that are made one after another."""
from __future__ import annotations

import functools
import os
import re
import shutil
import subprocess
import sys
import tempfile
from pathlib import Path
from typing import Callable, Iterable, Iterator, List, NamedTuple, Sequence, Tuple

from opprove.checkers.check import Refusal

TOP = Path(__file__).resolve().parents[2]
EXAMPLES, LIBRARY, SOURCE, TESTS = TOP / "examples", TOP / "library", TOP / "python" / "src", TOP / "python" / "tests"
DATA = TESTS / "data"
# The statements of the library that the gate's tables have too, by name.
GALLERY = {
    name: next(path for path in LIBRARY.glob(f"*/{name}.op") if path.parent.name != "harder")
    for name in "adjoint_of_pseudoinverse braid_relation common_solution commutator_square drazin_commutes evaluation_idempotent"
    " full_rank_factorization jacobson_lemma left_and_right_inverse moore_penrose_unique normal_equations one_sided_inverse"
    " pseudoinverse_of_row push_through resolvent reverse_order_inverse short_five_lemma two_sided_equation"
    " two_sided_equation_condition woodbury".split()
}  # fmt: skip
STATEMENTS = sorted([*EXAMPLES.glob("**/*.op"), *GALLERY.values(), *LIBRARY.glob("harder/*.op")])  # that tools are tried on
os.environ["PYTHONPATH"] = f"{SOURCE}:{TESTS}"  # for the scripts that are run
# The program that OPPROVE names, and else that of a gate here, or of `./opprove build`.
BUILT = [TOP / "crates" / "opprove" / "out" / "opprove", TOP / "out" / "opprove"]
PATIENCE = int(os.environ.get("OPPROVE_PATIENCE") or 1)  # how many times the seconds that programs have, on a busy machine
PROGRAM = Path(os.environ.get("OPPROVE") or str(next((path for path in BUILT if path.exists()), BUILT[1]))).resolve()


class Failed(Exception):
    """What a tool did, and should not do."""


@functools.lru_cache(maxsize=None)
def usage_line() -> str:
    """What the program answers to words that are no call, as its page has it."""
    page = (TOP / "docs" / "COMMANDS.md").read_text(encoding="utf-8")
    return page[page.index("# usage: ") :].split("`")[0].replace("\\|", "|") + "\n"


class Skipped(Exception):
    """What is not there."""


class Answer(NamedTuple):
    status: int
    out: str
    error: str


def run(*words: object, folder: Path = TOP, seconds: int = 120) -> Answer:
    """The answer of a program, which gets no input, and two minutes times the patience where nothing else is said."""
    command = [str(word) for word in words]
    environment = {**os.environ, "LC_ALL": "C.UTF-8", "PYTHONDONTWRITEBYTECODE": "1"}
    done = subprocess.run(
        command, cwd=folder, env=environment, stdin=subprocess.DEVNULL, capture_output=True, timeout=seconds * PATIENCE
    )
    return Answer(done.returncode, done.stdout.decode(), done.stderr.decode())


def is_built() -> bool:
    return os.access(PROGRAM, os.X_OK)


def built() -> Path:
    """The program, without which a check is skipped."""
    if not is_built():
        raise Skipped("opprove is not built, and what is asked of it is not tried")
    return PROGRAM


def by_whom(tool: str) -> str:
    return f"by {tool} and by opprove" if is_built() else f"by {tool} alone, as opprove is not built"


def is_second(statement: Path) -> bool:
    """Whether a statement is of language 2, as one that faulty bytes stand in isn't."""
    return b"\nlanguage 2\n" in b"\n" + statement.read_bytes()


def decided() -> List[Path]:
    """The statements of the examples and the gallery that prove decides by default: all but those for searches around the program."""
    return sorted([*EXAMPLES.glob("*.op"), *GALLERY.values()])


def typeset(bodies: Iterable[str], folder: Path, *packages: str) -> None:
    """Has pdflatex set them; skipped where that isn't installed."""
    head = [r"\documentclass{article}", *(rf"\usepackage{{{name}}}" for name in ("amsmath", *packages)), r"\allowdisplaybreaks"]
    (folder / "typeset.tex").write_text("\n\n".join([*head, r"\begin{document}", *bodies, r"\end{document}"]))
    words = ["-interaction=nonstopmode", "-halt-on-error", "typeset.tex"]
    answer = run(installed("pdflatex"), *words, folder=folder, seconds=600)
    need(answer.status == 0, answer)


def stored() -> Iterator[Tuple[Path, Path]]:
    """The certificates of both folders of examples, each with its statement, whose name its own begins with."""
    statements = sorted([*EXAMPLES.glob("*.op"), *EXAMPLES.glob("tools/*.op")], key=lambda path: -len(path.stem))
    evidence_texts = sorted([*EXAMPLES.glob("*.cert"), *EXAMPLES.glob("tools/*.cert")])
    for evidence in (path for path in evidence_texts if b"\ncertificate " in b"\n" + path.read_bytes()):
        yield next(path for path in statements if evidence.stem.startswith(path.stem)), evidence


def rows_of(name: str) -> List[Tuple[str, List[str]]]:
    """The rows of a file of data: a line, and those that are set in below it."""
    found = re.findall(r"^(\S.*)\n((?:    .*\n)+)", (DATA / name).read_text(encoding="utf-8"), re.MULTILINE)
    return [(first, re.findall("^    (.*)$", more, re.MULTILINE)) for first, more in found]


def expanded(text: str) -> bytes:
    """What a text of a file of data stands for, in which {{TEXT|N}} is N times the text and {{0xNN}} a byte."""

    def repeated(match: "re.Match[str]") -> str:
        return "".join(match.group(1).replace("#", str(time)) for time in range(1, int(match.group(2)) + 1))

    text = re.sub(r"\{\{(.*?)\|([0-9]+)\}\}", repeated, text + "\n" if text else "", flags=re.DOTALL)
    parts = re.split(r"\{\{0x(..)\}\}", text)
    return b"".join(bytes([int(part, 16)]) if place % 2 else part.encode() for place, part in enumerate(parts))


NUMBER = r"(?<![^ (])-?[0-9]+(?![^ )])"  # in a line of evidence
LETTER = r"(?<=[( ])[^ ()0-9]+(?=[^()]*\) )|(?<=[( ])[^ ()0-9]+(?=[^()]*\)$)"  # in a row


def with_line(text: str, others: Callable[[str], Iterable[List[str]]]) -> Iterator[str]:
    """The text with one change: in the place of each line stands each of those lists of lines that are made of it."""
    lines = text.split("\n")
    for place, line in enumerate(lines):
        for instead in others(line):
            yield "\n".join([*lines[:place], *instead, *lines[place + 1 :]])


def twice_or_not(line: str) -> List[List[str]]:
    """What may stand in the place of a line: nothing, or the line twice."""
    return [[], [line, line]]


def replaced(line: str, pattern: str, others: Callable[[str], Iterable[object]]) -> Iterator[List[str]]:
    """The line with others in the place of what fits the pattern."""
    for match in re.finditer(pattern, line):
        yield from ([f"{line[: match.start()]}{other}{line[match.end() :]}"] for other in others(match.group()))


def lowered(text: str, begins: Tuple[str, ...] = ("",)) -> Iterator[str]:
    """The text with a line that begins so below the one after it."""
    lines = text.split("\n")
    for place, (line, below) in enumerate(zip(lines, lines[1:])):
        if line.startswith(begins):
            yield "\n".join([*lines[:place], below, line, *lines[place + 2 :]])


def tool(word: str) -> List[str]:
    """The call of the tool with this word."""
    return [sys.executable, "-IB", str(SOURCE), word]


def checker(name: str) -> List[str]:
    """The call of the second checker with this name, which runs by itself."""
    return [sys.executable, str(SOURCE / "opprove" / "checkers" / f"{name}.py")]


def need(condition: object, what: object) -> None:
    if not condition:
        raise Failed(str(what))


def wrong_words(name: str, *calls: Sequence[object]) -> None:
    """Fails unless a tool answers each of these words by how it is called."""
    for words in calls:
        answer = run(*tool(name), *words)
        need(answer.status == 2 and not answer.out and answer.error.startswith(f"usage: opprove {name} "), (words, answer))


def parts_of(pattern: str, text: str) -> Tuple[str, ...]:
    """Those of a pattern, which the whole text has to fit."""
    match = re.fullmatch(pattern, text)
    if not match:
        raise Failed(f"{text!r} isn't {pattern}")
    return match.groups()


def build(name: str, folder: Path) -> str:
    """A plain program of dev/, built by rustc, which a busy machine may keep for minutes."""
    program = folder / name
    answer = run(installed("rustc"), "--edition", "2021", "-O", TOP / "dev" / f"{name}.rs", "-o", program, seconds=600)
    need(answer.status == 0, answer.error)
    return str(program)


def installed(name: str) -> str:
    path = shutil.which(name)
    if not path:
        raise Skipped(f"{name} is not installed")
    return path


def run_checks(name: str, checks: Iterable[Callable[[], str]]) -> int:
    """Makes checks, each of which has a line behind the name, to the first that fails, and gives the status."""
    for check in checks:
        try:
            print(f"{name}: {check()}", flush=True)
        except Skipped as what:
            print(f"skipped: {what}", flush=True)
        except (Failed, Refusal, OSError, subprocess.TimeoutExpired) as what:
            print(f"failed: {what}", flush=True)
            return 1
    return 0


def main(checks: Iterable[Callable[[Path], str]]) -> int:
    """Makes checks in a folder of their own, to the first that fails, and gives the status."""
    with tempfile.TemporaryDirectory() as name:
        return run_checks("ok", (functools.partial(check, Path(name)) for check in checks))
