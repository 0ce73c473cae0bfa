"""Tries `opprove why`: each case of data/words.txt, random edits of the gallery, its line for editors, and ./opprove on a terminal.

A case is a name, the words, the files s.op and e.cert as far as it has them, the program's status and report, and what is
told. In files `{{TEXT|N}}` stands for N times the text, each # in it being the number of the time, and `{{0xNN}}` for a byte;
`{{usage}}` is the usage line, and `{{calls}}` the forms of all calls.
`python3 test_words.py --write` writes what is told anew, and the reports where the program is built.
"""
from __future__ import annotations

import contextlib
import os
import random
import re
import sys
from pathlib import Path
from typing import Callable, Dict, Iterator, List, NamedTuple, Tuple
from unittest.mock import patch

from opprove.words import calls, why
from opprove.words.statement import RULES
from opprove.checkers.check import Problem, Refusal
from trying import (
    DATA, GALLERY, PROGRAM, SOURCE, TOP, Answer, Skipped, decided, expanded, installed, is_built, main, need, rows_of, run, tool, usage_line,
)  # fmt: skip
from opprove.words.parts import Screen, on_screen

CASES = DATA / "words.txt"
SCREEN = Screen(100, 60)
NOT_RUN = ("5", "6", "C5", "C11", "E4", "K5: rows", "12: a large certificate", "12: many terms")  # of devices and memory, and what takes long


class Case(NamedTuple):
    name: str
    words: List[str]
    files: Dict[str, str]
    status: int
    report: str
    told: str


# ---- Cases as text


def short_texts() -> Dict[str, str]:
    """What stands for the texts that name all commands."""
    return {"{{usage}}": usage_line()[:-1], "{{calls}}": "\n  ".join(map(calls.form, calls.COMMANDS))}


def cases() -> List[Case]:
    found = []
    whole = CASES.read_text()
    for short, text in short_texts().items():
        whole = whole.replace(short, text)
    for part in whole.split("\n==== ")[1:]:
        head, *sections = part.split("\n---- ")
        name, words = head.split("\n$ ")
        files, status, report, told = {}, 0, "", ""
        for section in sections:
            title, _, text = section.partition("\n")
            if title.startswith("answer "):
                status, report = int(title[7:]), text + "\n" if text else ""
            elif title == "words":
                told = text
            else:
                files[title] = text
        found.append(Case(name, words.split(), files, status, report, told))
    return found


def as_text(case: Case) -> str:
    files = [f"---- {name}\n{text}" for name, text in case.files.items()]
    answer = f"---- answer {case.status}" + (f"\n{case.report[:-1]}" if case.report else "")
    return "\n".join([f"==== {case.name}", f"$ {' '.join(case.words)}", *files, answer, "---- words", case.told])


@contextlib.contextmanager
def inside(folder: Path, case: Case) -> Iterator[None]:
    """The files of the case, in the folder, which is the current one meanwhile."""
    for name, text in case.files.items():
        (folder / name).write_bytes(expanded(text))
    before = os.getcwd()
    os.chdir(folder)
    try:
        yield
    finally:
        os.chdir(before)
        for name in case.files:
            (folder / name).unlink()


def told(case: Case) -> str:
    parts = why.explanation(case.words, why.Answer(case.status, case.report))
    return "\n".join(on_screen(parts, SCREEN)).replace(os.getcwd(), "FOLDER")


def asked(case: Case) -> Tuple[int, str]:
    answer = run(PROGRAM, *case.words, folder=Path.cwd())
    return answer.status, answer.out


def is_run(case: Case) -> bool:
    """Whether the program is built, and takes no long time for the case."""
    return case.name not in NOT_RUN and is_built()


def write(folder: Path) -> str:
    texts = []
    for case in cases():
        with inside(folder, case):
            if is_run(case):
                status, report = asked(case)
                case = case._replace(status=status, report=report)
            texts.append(as_text(case._replace(told=told(case))))
    front, whole = CASES.read_text().split("\n==== ")[0], "\n".join(texts)
    for short, text in short_texts().items():
        whole = whole.replace(text, short)
    CASES.write_text(f"{front}\n{whole}")
    return f"{len(texts)} answers are written"


# ---- What is often typed

BEFORE = "object U V\nmap a b : U -> V\nmap x y : V -> U\n"


def typed_mistakes(folder: Path) -> str:
    """Each row: the line is refused at its place, and what is said is what is stored."""
    rows, path = rows_of("typed.txt"), folder / "typed.op"
    for row, (said,) in rows:
        line = row.replace("[2] ", "")
        path.write_text("language 2\n" * (line != row) + BEFORE + line + "\n" + "claim a = b\n" * (not line.startswith("claim")))
        told = why.explanation(["prove", str(path)], why.Answer(3, answer_of(path)))
        need(len(told) == 1 and told[0].sentence == said, (line, told))
        need(not re.search("token|begins no", said), said)
    need(len(rows) >= 60, len(rows))
    return f"of {len(rows)} lines that are often typed it is said what is meant"


# ---- Edits of the gallery


def edited(text: str, chance: random.Random) -> str:
    """The text with one change: of a letter, of a sign, or of a line."""
    kind, lines = chance.choice(["letter", "sign", "line"]), text.split("\n")
    if kind == "line":
        place = chance.randrange(len(lines))
        return "\n".join(lines[:place] + chance.choice([[], [lines[place]] * 2, lines[place + 1 : place + 2]]) + lines[place + 1 :])
    places = [match.start() for match in re.finditer(r"[a-zA-Z]" if kind == "letter" else r"[^a-zA-Z\n#]", text)]
    place, others = chance.choice(places), "abcxyzUVW\u00e9\u5b57" if kind == "letter" else "+-=()[]':,*\t0 "
    return text[:place] + chance.choice([chance.choice(others), ""]) + text[place + 1 :]


def answer_of(path: Path) -> str:
    """The line of opprove on a statement, or that of check.py where it isn't built."""
    if is_built():
        return run(PROGRAM, "prove", path, "--no-models", "--pairs", 1).out
    try:
        Problem(str(path))
    except Refusal as refusal:
        return f"{refusal}\n"
    return ""


def edits(folder: Path, count: int = 100, seed: int = 1) -> str:
    chance, path, faults = random.Random(seed), folder / "edited.op", 0
    gallery = [path for path in decided() if path in GALLERY.values()]
    for _ in range(count):
        text = edited(chance.choice(gallery).read_text(), chance)
        path.write_text(text)
        line = answer_of(path)
        place = re.match("# refused (S[0-9]+)(?: line ([0-9]+) column ([0-9]+))?", line)
        if not place:
            continue
        faults += 1
        told = why.explanation(["prove", str(path)], why.Answer(3, line))
        need(len(told) == 1 and told[0].sentence.startswith(place[1] + ": "), (text, line, told))
        need(told[0].sentence[len(place[1]) + 2 :] != RULES[place[1]].text, (text, line, told))
        if place[2]:
            need_caret(on_screen(told, SCREEN), text.split("\n")[int(place[2]) - 1], int(place[3]))
    return f"{faults} faults of {count} edits of the gallery are told with a caret at their column"


def need_caret(lines: List[str], text: str, column: int) -> None:
    """The line, and a caret under this column, behind four blanks."""
    before = text[: column - 1]
    wide = sum(8 - (len(text[:place].replace("\u5b57", "..")) % 8) - 1 for place, sign in enumerate(before) if sign == "\t")
    want = 4 + len(before.replace("\u5b57", "..")) + (wide if before.count("\t") < 2 else lines[2].index("^") - 4 - len(before))
    need(lines[2].rstrip() == " " * want + "^", (lines, text, column))


# ---- The line for editors

FAULTY = "object U\nmap é a : U -> U\nclaim\té b = a\n"
STAND_IN = "#!/bin/sh\necho '# refused S6 line 3 column 9'\nexit 3\n"
SENTENCE = "S6: 'b' is not declared (did you mean 'a' or 'é'?)"


def editor(folder: Path) -> str:
    """The line counts characters, and with --bytes bytes; Vim, where it is installed, goes to that place."""
    statement, program = folder / "faulty.op", folder / "stand-in.sh"
    statement.write_text(FAULTY)
    program.write_text(STAND_IN)
    program.chmod(0o755)
    with patch.dict(os.environ, OPPROVE=str(program)):
        for words, column in ((["--editor"], 9), (["--editor", "--bytes"], 10)):
            answer = run(*tool("why"), *words, statement)
            need(answer == Answer(3, f"{statement}:3:{column}: error: {SENTENCE}\n", ""), answer)
        try:
            vim(folder, statement)
        except Skipped as what:
            return f"a fault is told to editors by its line and column; {what}"
    return "a fault is told to editors by its line and column, and vim goes there"


def vim(folder: Path, statement: Path) -> None:
    """Runs it as README has it, and looks where the cursor is."""
    steps = [
        f"set makeprg={sys.executable}\\ {SOURCE}\\ why\\ --editor\\ --bytes\\ %", "set errorformat=%f:%l:%c:\\ error:\\ %m",
        f"edit {statement}", "silent make", "call writefile([line('.') . ' ' . col('.') . ' ' . getqflist()[0].text], 'cursor')",
        "quitall!",
    ]  # fmt: skip
    words = [word for step in steps for word in ("-c", step)]
    run(installed("vim"), "-u", "NONE", "-es", "--cmd", "set nocompatible", *words, folder=folder)
    found = folder / "cursor"
    need(found.exists() and found.read_text() == f"3 10 {SENTENCE}\n", found.exists() and found.read_text())


# ---- Checks


def stored_words(folder: Path) -> str:
    by_both, found = 0, cases()
    for case in found:
        with inside(folder, case):
            if is_run(case):
                need(asked(case) == (case.status, case.report), (case.name, asked(case)))
                by_both += 1
            need(told(case) == case.told, (case.name, told(case)))
    codes = {match for case in found for match in re.findall("^([A-Z][0-9]+): ", case.told, re.MULTILINE)}
    page = (TOP / "docs" / "FORMATS.md").read_text()
    of_page = set(re.findall(r"^\|(?: [0-9] \|)? (?:`# block B refused )?([A-Z][0-9]+)\b", page, re.MULTILINE))
    need(codes == {code for code in of_page if code[0] not in "NP"}, codes ^ of_page)  # these are of what tools alone read
    need({case.status for case in found} == {0, 2, 3, 4, 5, 6, 7, 10, 11, 12, 13}, "statuses")
    return f"{len(found)} answers are told in the words that are stored, {by_both} of them as opprove gives them"


CHECKS: List[Callable[[Path], str]] = [stored_words, typed_mistakes, edits, editor]

if __name__ == "__main__":
    sys.exit(main([write, *CHECKS] if sys.argv[1:] == ["--write"] else CHECKS))
