"""The tool `search`: steps that cancel, stars, rational matrices, and how it ends. What is found is checked by the program."""
from __future__ import annotations

import os
import pty
import re
import select
import signal
import subprocess
import sys
import tempfile
import time
import unittest
from pathlib import Path

from searching import ROOT, accepted, environment, needs_program, tool

LIBRARY = ROOT / "library"
NILPOTENT = "object V\nmap a : V -> V\nassume a a' = a' a\nassume a a = 0\nclaim a = 0\n"
SUM = "object U V\nmap a b : V -> V\nassume a a' + b b' = 0\nclaim a = 0\nclaim b a = 0\n"
SHEAR = "object V\nmap a x : V -> V\npinv a x\nassume a x = x a\nclaim a a' = a' a\n"
DIVIDED = "object U V W\nmap x y : U -> V\nmap a : V -> W\nassume a x = a y\nclaim x = y\n"
UNIT = "object V\nmap a b : V -> V\nassume a b - b a = [V]\nclaim a = 0\n"  # of no rational matrices, by their traces
OPEN = "object V\nmap a b : V -> V\nassume a b a = b a b\nclaim a b = b a\n"


class Search(unittest.TestCase):
    def setUp(self) -> None:
        needs_program(self)
        self.folder = tempfile.TemporaryDirectory()
        self.addCleanup(self.folder.cleanup)

    def file(self, text: str, name: str = "asked.op") -> Path:
        path = Path(self.folder.name, name)
        path.write_text(text)
        return path

    def test_named_letters(self) -> None:
        for path, words, granted in (
            (LIBRARY / "other_inverses" / "full_rank_factorization.op", ["--monic", "f", "--epic", "g"], ["monic f epic g"]),
            (LIBRARY / "linear_equations" / "normal_equations.op", ["--monic", "r'"], ["monic r'"]),
            (LIBRARY / "diagrams" / "short_five_lemma.op", ["--monic", "a,c,j"], ["monic c", "monic j a"]),
        ):
            answer = tool("search", path, "--seconds", 30, "--jobs", 2, *words)
            self.assertEqual((answer.status, answer.last), (0, "# ended: each claim is settled"), answer.out)
            self.assertEqual([head.split(" by ")[1] for head in answer.heads], granted)
            for block in answer.blocks:
                self.assertTrue(accepted(path.read_text(), block), block)

    def test_any_letters(self) -> None:
        """The least set is named, and settles nothing."""
        answer = tool("search", self.file(DIVIDED), "--seconds", 20, "--jobs", 2)
        self.assertEqual(answer.status, 11, answer.out)
        self.assertIn("# claim 1 follows where a is monic", answer.heads)
        self.assertEqual([accepted(DIVIDED, block) for block in answer.blocks], [True])
        proof = re.search(r"^#   cancellation 1\n(#   .*\n)*?#   end\n", answer.out, re.MULTILINE)
        self.assertTrue(proof and accepted(DIVIDED, re.sub("^#   ", "", proof.group(), flags=re.MULTILINE)), answer.out)

    def test_named_letters_that_do_not_do(self) -> None:
        """The matrices that break the claim have a of full column rank: with one column it isn't zero."""
        statement = DIVIDED.replace("a x = a y", "y a = x a").replace("W\nassume", "U\nassume")
        answer = tool("search", self.file(statement), "--monic", "a", "--seconds", 20, "--jobs", 2)
        self.assertEqual((answer.status, answer.heads), (11, ["# claim 1 refuted over q monic a"]), answer.out)

    def test_modulo_a_prime_alone(self) -> None:
        """What the matrices say nothing of is told."""
        answer = tool("search", self.file(UNIT), "--only", "models", "--seconds", 30, "--jobs", 2)
        self.assertEqual((answer.status, answer.heads), (11, ["# claim 1 refuted"]), answer.out)
        self.assertEqual([accepted(UNIT, block) for block in answer.blocks], [True])
        self.assertIn("\n# matrices modulo a prime say nothing of complex ones: --over q looks for rational ones\n", answer.out)

    def test_stars(self) -> None:
        for statement, granted in ((NILPOTENT, ["proper"]), (SUM, ["positive", "positive"])):
            path = self.file(statement)
            answer = tool("search", path, "--complex", "--seconds", 30, "--jobs", 2, "--keep", self.folder.name)
            self.assertEqual(answer.status, 0, answer.out)
            self.assertEqual([head.split(" by ")[1] for head in answer.heads], granted)
            for block in answer.blocks:
                self.assertTrue(accepted(statement, block), block)
            for number in range(1, len(granted) + 1):
                whole = Path(self.folder.name, f"claim_{number}_for_matrices")
                matrices = whole.with_suffix(".op").read_text()
                self.assertTrue(accepted(matrices, whole.with_suffix(".cert").read_text()))
                claims = [line for line in statement.split("\n") if line.startswith("claim")]
                self.assertEqual([line for line in matrices.split("\n") if line.startswith("claim")], claims)

    def test_over_q(self) -> None:
        answer = tool("search", self.file(SHEAR), "--over", "q", "--seconds", 30, "--jobs", 2)
        self.assertEqual((answer.status, answer.heads), (11, ["# claim 1 refuted over q"]), answer.out)
        self.assertTrue(accepted(SHEAR, answer.blocks[0]))

    def test_time_is_over(self) -> None:
        start = time.monotonic()
        answer = tool("search", self.file(OPEN), "--monic", "b", "--only", "cancellations,whole", "--seconds", 3, "--jobs", 2)
        self.assertLess(time.monotonic() - start, 30)
        self.assertEqual(answer.status, 12)
        left = "claim 1 is undecided, and no proof, model or step that cancels was found"
        self.assertEqual(answer.last, f"# ended: the 3 s are over; {left}")

    def test_stars_that_nobody_asked_for(self) -> None:
        answer = tool("search", self.file(NILPOTENT), "--only", "given,written", "--seconds", 20, "--jobs", 2)
        said = "claim 1 is not derivable, and no proof, model or step that cancels was found"
        self.assertEqual(answer.last, f"# ended: nothing is left to try; {said}; --complex takes stars off too, as is right for complex matrices")

    def test_silent_in_a_pipe(self) -> None:
        answer = tool("search", self.file(NILPOTENT), "--complex", "--seconds", 20, "--jobs", 2)
        self.assertEqual(answer.error, "")

    def command(self, path: Path, *words: str) -> "list[str]":
        return [sys.executable, "-m", "opprove", "search", str(path), *words]

    def test_progress_on_a_terminal(self) -> None:
        ours, theirs = pty.openpty()
        words = self.command(self.file(OPEN), "--only", "whole", "--seconds", "3", "--jobs", "1")
        process = subprocess.Popen(words, stdout=subprocess.DEVNULL, stderr=theirs, env=environment())
        os.close(theirs)
        text = b""
        while process.poll() is None or select.select([ours], [], [], 0)[0]:
            try:
                text += os.read(ours, 65536) if select.select([ours], [], [], 0.1)[0] else b""
            except OSError:
                break  # the other end is closed
        process.wait()
        os.close(ours)
        self.assertRegex(text.decode(), r"search: [0-9]+ of 3 s, claim 1 open; [0-9]+ runs, now whole [a-z]+ [(][0-9]+ pairs[)]")

    def test_interrupt(self) -> None:
        """What was found before is printed."""
        statement = OPEN + "claim b a b = a b a\n"
        words = self.command(self.file(statement), "--only", "whole", "--seconds", "100", "--jobs", "2", "--keep", self.folder.name)
        process = subprocess.Popen(words, stdout=subprocess.PIPE, stderr=subprocess.DEVNULL, env=environment())
        for _ in range(600):  # until a claim is settled
            time.sleep(0.1 if not Path(self.folder.name, "claim_2.certificate").exists() else 0)
        process.send_signal(signal.SIGINT)
        out = process.communicate(timeout=30)[0].decode()
        self.assertEqual(process.returncode, 12)
        self.assertIn("# claim 2 proved denominator 1 rows 1\n", out)
        self.assertTrue(re.search("# ended: interrupted after [0-9]+ s; claim 1 is undecided", out), out)

    def test_words(self) -> None:
        path = self.file(SHEAR)
        for words in (["--over", "r"], ["--seconds", "0"], ["--monic"], ["--only", "none"]):
            answer = tool("search", path, *words)
            self.assertEqual((answer.status, answer.out, answer.error[:21]), (2, "", "usage: opprove search"))
        answer = tool("search", path, "--monic", "z")
        self.assertEqual((answer.status, answer.out, answer.error), (1, "", f"# no map z in {path}\n"))
        answer = tool("search", self.file(SHEAR + "claim z = a\n"))
        self.assertEqual((answer.status, answer.out), (3, "# refused S6 line 6 column 7\n"))
