"""Tries cancel.py, and `opprove chain` on proofs that take letters off: test_cancel.py

The reports that cancel_rows.py has are asked of cancel.py, and with them go the proofs of the gallery, random proofs and changed
ones; check.py has to answer by the same line where no number is too large. Where opprove is built and has `cancel`, or the variable
OPPROVE names such a program, it prints the same bytes; so does plain.rs, of proofs that it reads, where rustc is.
"""
from __future__ import annotations

import itertools
import re
from pathlib import Path
from random import Random
from typing import Callable, Dict, Iterator, List, Tuple

from opprove.checkers import cancel
import cancel_rows
import drawing
import test_chains
from opprove.checkers.check import DONE, REFUSED, Problem, sum_text
from trying import GALLERY, LETTER, NUMBER, Answer, checker, lowered, need, replaced, run, tool, twice_or_not, with_line
from trying_second import Files, Second, files_in

COUNT = 60  # random proofs
LARGE = 2**16  # bytes of a text that is asked of other scripts
UNREAD_EVIDENCE = re.compile(rb"\[|'|^[ \t]*#|\r|^(?:model|basis|certificate) ", re.MULTILINE)
SECOND = Second(cancel, unread_evidence=UNREAD_EVIDENCE)
EXCHANGED = {"left": "right", "right": "left", "monic": "epic", "epic": "monic"}
BOUNDS = re.compile("refused (?:K4|C4|C5|C9|C11) ")  # what check.py and `opprove chain` don't look at


def cancelled(files: Files) -> Answer:
    answer = SECOND.answered(files)
    need(answer.status in (DONE, REFUSED) and (answer.status == DONE) == (" refused " not in answer.out), answer)
    return answer


def rows(folder: Path) -> str:
    return SECOND.rows(folder, cancel_rows.runs())


def told(files: Files) -> int:
    """Fails unless `opprove chain` writes text that is read back, and the same proofs. Gives the number of proofs."""
    words, problem = [str(files.statement), str(files.evidence)], Problem(str(files.statement))
    found = list(test_chains.groups_of(test_chains.written(files.statement, files.evidence)))
    for groups in found:
        test_chains.read_proof(problem, groups)
    report, text = cancelled(files), "\n".join(test_chains.written(files.statement, files.evidence, "certificate")) + "\n"
    files.evidence.write_text(text, encoding="utf-8")
    need(cancelled(files) == report, (text, report))
    return len(found)


def gallery_proofs() -> List[Path]:
    """The proofs of the gallery that cancel, each beside its statement."""
    stored = [path.with_suffix(".cert") for path in GALLERY.values()]
    return sorted(path for path in stored if path.exists() and "cancellation 1\n" in path.read_text(encoding="utf-8"))


def chains(folder: Path) -> str:
    files, count = Files(folder, None), 0
    cases = [(row.statement, row.proof) for row in cancel_rows.runs() if " refused " not in row.report and len(row.proof) < LARGE]
    for evidence in gallery_proofs():
        cases.append((evidence.with_suffix(".op").read_text("utf-8"), evidence.read_text("utf-8")))
    for statement, proof in cases:
        if len(statement) < LARGE and "m200" not in statement:
            files.write(statement, proof)
            count += told(files)
    files.write(cancel_rows.J, cancel_rows.proof(cancel_rows.J1))
    answer = run(*tool("chain"), files.statement, files.evidence)
    need(answer == Answer(0, TEXT, ""), answer)
    files.write(cancel_rows.J, cancel_rows.proof(cancel_rows.edited(cancel_rows.J1, "monic k =>")))
    answer = run(*tool("chain"), files.statement, files.evidence)
    need(answer == Answer(7, "", "# block 1 refused X2 item 3\n"), answer)
    return f"{count} proofs that take letters off are written as chains and read back"


TEXT = """Claim 1, where m and k are monic: x = y

Assumptions that are used
(1) m k x = m k y   line 5
Not used: none

Lemma [1]: m k y = m k x
  m k y
= m k x   by (1)

Lemma [2], by [1], since m is monic: k y = k x

Lemma [3], by [2], since k is monic: y = x

Proof
  x
= y   by [3]
"""


def calls(folder: Path) -> str:
    return SECOND.calls(folder, cancel_rows.J, cancel_rows.proof(cancel_rows.J1), ["--workers", 2])


def others(folder: Path) -> str:
    """What other scripts make of the text: check.py checks it, and explain.py, confirm.py and check_model.py read others."""
    files = Files(folder, None)
    files.write(cancel_rows.J, cancel_rows.proof(cancel_rows.J1))
    want = {"check": (0, "# block 1 accepted claim 1 denominator 1 monic m k\n"), "confirm": (7, "# refused K7\n")}
    for name, status in (("check", 0), ("explain", 7), ("confirm", 7), ("check_model", 7)):
        answer = run(*checker(name), files.statement, files.evidence)
        need(answer == Answer(status, want.get(name, (status, "# refused K2 line 1\n"))[1], ""), (name, answer))
    return "4 other scripts answer a text of such proofs as they should"


def gallery(folder: Path) -> str:
    files, claims = files_in(folder), 0
    for evidence in gallery_proofs():
        files.write(evidence.with_suffix(".op").read_text("utf-8"), evidence.read_text("utf-8"))
        answer = cancelled(files)
        need(answer.status == DONE, (evidence, answer))
        claims += answer.out.count(" accepted ")
    need(claims >= 4, claims)
    return f"{claims} claims of the gallery are accepted by {SECOND.by_whom()}"


# ---- Changed proofs


def changed(text: str, letters: List[str]) -> Iterator[str]:
    """The text with one change: of a number, a letter or a side, or of a line that is left out, comes twice or goes down."""

    def others(line: str) -> Iterator[List[str]]:
        yield from replaced(line, NUMBER, lambda number: [int(number) + 1, 0, int(number) * (2**127 - 1)])
        for pattern in (LETTER, r"(?<=ic )\S+", r"(?<=l [0-9] )\S+"):
            yield from replaced(line, pattern, lambda found: [letter for letter in letters if letter != found][:2])
        yield from replaced(line, r"\b(?:left|right|monic|epic)\b", lambda word: [EXCHANGED[word]])
        yield from twice_or_not(line)

    return itertools.chain(with_line(text, others), lowered(text))


def changes(folder: Path) -> str:
    files, count, accepted = files_in(folder), 0, 0
    for row in [row for row in cancel_rows.runs() if " refused " not in row.report and len(row.proof) < 400][::3]:
        files.write(row.statement, row.proof)
        letters = Problem(str(files.statement)).names
        for text in list(changed(row.proof, letters))[::2]:
            files.write(row.statement, text)
            count += 1
            accepted += cancelled(files).status == DONE
    need(count >= 300 and accepted >= 10, (count, accepted))
    return f"{count} changed proofs, {accepted} of which are accepted, are answered by {SECOND.by_whom()}"


# ---- Random proofs


class Maker:
    """A statement whose claim follows by taking letters off, and the proof."""

    def __init__(self, draw: Random) -> None:
        self.draw, self.objects = draw, ["U", "V", "W"][: draw.randrange(1, 4)]
        self.maps, self.is_starred = drawing.maps(draw, "abcdefgh", self.objects), draw.random() < 0.3
        stars = {f"{name}'": (target, source) for name, (source, target) in self.maps.items()} if self.is_starred else {}
        self.letters = {**self.maps, **stars}

    def made(self) -> Tuple[str, str]:
        draw, ends = self.draw, [self.draw.choice(self.objects), self.draw.choice(self.objects)]
        words = {" ".join(drawing.path(draw, self.letters, ends[0], ends[1], 1)) for _ in range(4)}
        claim = {word: draw.choice([1, 1, -1, 2, -3]) for word in sorted(words)}
        front: List[str] = []
        behind: List[str] = []
        steps: List[Tuple[str, bool]] = []
        for _ in range(draw.randrange(4)):
            is_left = draw.random() < 0.5
            letter, pair = draw.choice([(name, pair) for name, pair in self.letters.items() if pair[not is_left] == ends[is_left]])
            ends[is_left] = pair[is_left]
            front, behind = ([letter, *front], behind) if is_left else (front, [*behind, letter])
            steps.insert(0, (letter, is_left))
        scale = draw.choice([1, 1, 2])
        return self.text(claim, {" ".join([*front, word, *behind]): scale * value for word, value in claim.items()}), self.proof(steps, scale)

    def text(self, claim: Dict[str, int], longer: Dict[str, int]) -> str:
        """The statement. The assumption is split into a part and what is left of it."""
        part = self.draw.choice([0, 1, -2])
        parts = [[(word, factor * value) for word, value in longer.items()] for factor in (1 - part, part)]
        star = ["assume a' = a'"] if self.is_starred else []
        lines = [*drawing.declared(self.objects, self.maps), *(f"assume {sum_text(terms)} = 0" for terms in parts), *star]
        return "\n".join([*lines, f"claim {sum_text(claim.items())} = 0", ""])

    def proof(self, steps: List[Tuple[str, bool]], scale: int) -> str:
        names = list(dict.fromkeys(f"{'monic' if is_left else 'epic'} {letter}" for letter, is_left in steps))
        self.draw.shuffle(names)
        items = ["lemma 1 scale 1", "row 1 () 1 ()", "row 1 () 2 ()"]
        items += [f"cancel {number} {letter} {'left' if is_left else 'right'} {number - 1}" for number, (letter, is_left) in enumerate(steps, 2)]
        goal = [f"goal scale {scale}", f"row 1 () lemma {len(steps) + 1} ()"]
        return "\n".join(["cancellation 1", "claim 1", f"denominator {scale}", *names, *items, *goal, "end", ""])


def random_proofs(folder: Path, count: int = COUNT) -> str:
    files, random = files_in(folder), Random(1)
    accepted = changes_made = 0
    for _ in range(count):
        statement, text = Maker(random).made()
        files.write(statement, text)
        answer = cancelled(files)
        need(answer.status == DONE, (statement, text, answer))
        accepted += told(files)
        letters = Problem(str(files.statement)).names
        for other in random.sample(list(changed(text, letters)), 6):
            files.write(statement, other)
            cancelled(files)
            changes_made += 1
    return f"{accepted} random proofs are accepted, written as chains and read back, and {changes_made} changed ones answered by {SECOND.by_whom()}"


CHECKS: List[Callable[[Path], str]] = [calls, others, gallery, rows, chains, changes, random_proofs]
