"""The program opprove, as it is run on texts."""
from __future__ import annotations

import os
import shutil
import subprocess
import tempfile
from contextlib import contextmanager, suppress
from itertools import chain
from pathlib import Path
from typing import Iterator, List, Mapping, Optional, Sequence, Union

# The program of this checkout, where the package stands in one.
BUILT = Path(__file__).resolve().parents[3] / "out" / "opprove"
# By what statuses without a line were caused.
CAUSES = {5: "standard output failed", 6: "no memory"}


class Refused(Exception):
    """What the program, or a checker in Python, refuses: its status and its line, and in words what that means."""

    def __init__(self, status: int, line: str, words: str = "") -> None:
        super().__init__(words or line)
        self.status, self.line = status, line


@contextmanager
def files(*texts: str) -> Iterator[List[str]]:
    """The paths of files with these texts, which are there for a while."""
    with tempfile.TemporaryDirectory(prefix="opprove-") as folder:
        paths = [Path(folder, name) for name, _ in zip(("statement.op", "evidence.cert"), texts)]
        for path, text in zip(paths, texts):
            path.write_bytes(text.encode())
        yield [str(path) for path in paths]


def is_own(path: str) -> bool:
    """Whether a file is a script that pip made of this package, which would call itself in the program's place."""
    with suppress(OSError), open(path, "rb") as file:
        text = file.read(4096)
        return text.startswith(b"#!") and b"opprove.cli" in text
    return False


def path() -> str:
    """The program that OPPROVE names, or that of this checkout, or that in PATH; and where there is none, what this checkout would have."""
    folders = os.environ.get("PATH", os.defpath).split(os.pathsep)
    in_path = (shutil.which("opprove", path=folder) for folder in folders)
    built = [str(BUILT)] * os.access(BUILT, os.X_OK)
    places = chain([os.environ.get("OPPROVE")], built, in_path)
    return next((place for place in places if place and not is_own(place)), str(BUILT))


def found(program: Optional[str]) -> str:
    """The program that is named, or else that of `path`."""
    if program and is_own(program):
        raise FileNotFoundError(f"{program} runs the tools of this package, and isn't the program")
    if not program and not shutil.which(path()):
        raise FileNotFoundError("opprove isn't in PATH: name the program by program=, or by OPPROVE")
    return program or path()


def run(program: Optional[str], word: str, texts: List[str], options: Sequence[object], seconds: Optional[float]) -> str:
    """What the program writes. Raised are statuses that come with no report."""
    with files(*texts) as paths:
        words = [word, *paths, *map(str, options)]
        command = [found(program), *words]
        done = subprocess.run(command, stdin=subprocess.DEVNULL, stdout=subprocess.PIPE, stderr=subprocess.PIPE, timeout=seconds)
        out, error = (text.decode("utf-8", "replace") for text in (done.stdout, done.stderr))
        if done.returncode == 0 or done.returncode >= 10:
            return out
        lines = out.split("\n") if done.returncode in (2, 3, 4, 7) else error.split("\n")
        line = next((line for line in reversed(lines) if line), f"status {done.returncode}")
        raise Refused(done.returncode, CAUSES.get(done.returncode, line), in_words(words, done.returncode, out))


def in_words(words: List[str], status: int, report: str) -> str:
    """What an answer of the program means, which is asked for its files while they are there."""
    from opprove.words import why
    from opprove.words.parts import Screen, on_screen

    folder = os.path.join(os.path.dirname(words[1]), "")
    return "\n".join(on_screen(why.explanation(words, why.Answer(status, report)), Screen())).replace(folder, "")


def words_of(options: Mapping[str, Union[int, bool, None]]) -> List[str]:
    """Options by their names, as the program takes them: pairs=10 as --pairs 10, no_models=True as --no-models."""
    found: List[str] = []
    for name, value in options.items():
        word = f"--{name.replace('_', '-')}"
        found += [word] if value is True else [] if value is None or value is False else [word, str(value)]
    return found
