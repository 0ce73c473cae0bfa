"""check.js as a program: its size, its words and statuses, and its time. dev/try.py compares what it says with the other checkers."""
from __future__ import annotations

import resource
import subprocess
import tempfile
import unittest
from pathlib import Path
from random import Random
from typing import List, Tuple

from browser import needed

CHECKER = Path(__file__).resolve().parents[1] / "src" / "opprove" / "page" / "check.js"
EXAMPLES = Path(__file__).resolve().parents[2] / "examples"
LETTERS = [f"a{number}" for number in range(20)]
STATEMENT = f"object U\nmap {' '.join(LETTERS)} : U -> U\nassume a0 a1 = a1 a0 + 2 a2\nclaim a0 = a0\n"


def rows(count: int, letters: int) -> str:
    """A certificate of 0 whose rows, with so many letters each, cancel in pairs."""
    random, found = Random(1), []
    for _ in range(count // 2):
        left, right = (" ".join(random.choice(LETTERS) for _ in range(letters // 2)) for _ in range(2))
        coefficient = random.randrange(1, 10**30)
        found += [f"row {sign}{coefficient} ({left}) 1 ({right})" for sign in ("", "-")]
    random.shuffle(found)
    return "\n".join(["certificate 1", "claim 1", "denominator 1", *found, "end", ""])


class Checks(unittest.TestCase):
    def setUp(self) -> None:
        (self.node,) = needed("node")

    def answer(self, words: List[object]) -> Tuple[int, str, str]:
        done = subprocess.run([self.node, str(CHECKER), *map(str, words)], stdout=subprocess.PIPE, stderr=subprocess.PIPE, encoding="utf-8")
        return done.returncode, done.stdout, done.stderr

    def test_it_is_one_short_file(self) -> None:
        lines = CHECKER.read_text("utf-8").splitlines()
        self.assertLessEqual(len(lines), 900)
        self.assertLessEqual(max(map(len, lines)), 140)
        self.assertNotIn("import ", CHECKER.read_text("utf-8"))

    def test_words_and_statuses(self) -> None:
        statement, evidence = EXAMPLES / "pasted_squares.op", EXAMPLES / "pasted_squares.cert"
        with tempfile.TemporaryDirectory() as folder:
            long = Path(folder, "long")
            with long.open("wb") as file:
                file.truncate(2**20 + 1)
            usage = "# usage: check.js check|model|confirm|cancel STATEMENT EVIDENCE\n"
            cases: List[Tuple[List[object], int, str]] = [
                ([], 2, usage), (["check", statement], 2, usage), (["prove", statement, evidence], 2, usage),
                (["check", statement, evidence, "x"], 2, usage), (["check", "missing", evidence], 4, "# load failed missing\n"),
                (["check", statement, folder], 4, f"# load failed {folder}\n"), (["check", long, "missing"], 4, "# load failed missing\n"),
                (["check", long, evidence], 4, f"# too long {long} limit 1048576\n"),
                (["check", statement, evidence], 0, "# block 1 accepted claim 1 denominator 1\n"),
                (["model", statement, evidence], 7, "# refused K7\n"), (["check", evidence, statement], 3, "# refused S3 line 1 column 1\n"),
                (["check", statement, statement], 7, "# refused K2 line 1\n"),
            ]  # fmt: skip
            for words, status, out in cases:
                with self.subTest(words):
                    self.assertEqual(self.answer(words), (status, out, ""))
        with open("/dev/full", "wb") as full:
            self.assertEqual(subprocess.run([self.node, str(CHECKER), "check", str(statement), str(evidence)], stdout=full).returncode, 5)

    def test_a_million_letters_of_rows(self) -> None:
        with tempfile.TemporaryDirectory() as folder:
            statement, evidence = Path(folder, "s"), Path(folder, "e")
            statement.write_text(STATEMENT)
            for count, letters in ((50000, 20), (2000, 500)):
                evidence.write_text(rows(count, letters))
                before = resource.getrusage(resource.RUSAGE_CHILDREN)
                self.assertEqual(self.answer(["check", statement, evidence])[:2], (0, "# block 1 accepted claim 1 denominator 1\n"))
                after = resource.getrusage(resource.RUSAGE_CHILDREN)
                # Processor time, as the machine may be busy with others.
                self.assertLess(after.ru_utime - before.ru_utime, 3)
