"""Star proofs and rational models: reports of star.py and check_model.py that were worked out by hand."""
from __future__ import annotations

import subprocess
import sys
import tempfile
import unittest
from pathlib import Path
from typing import Tuple

import opprove
from opprove.checkers import check_model, star
from opprove.checkers.check import DONE, REFUSED
from opprove.tool import answer
from opprove.translations import chain

ZERO = "object U V\nmap a : U -> V\nassume a' a = 0\nclaim a = 0\n"
ZERO_PROOF = """star proof 1
claim 1
denominator 1
lemma 1 scale 1
row 1 () 1 ()
root 2 left 1
square 1 a
goal scale 1
row 1 () lemma 2 ()
end
"""
# r = a - a'a: r'r is - (a'a' - a') a + a' (a a' - a'a) a + (a'a' - a') a a
NORMAL = "object V\nmap a : V -> V\nassume a a = a\nassume a a' = a' a\nclaim a = a' a\n"
NORMAL_PROOF = """star proof 1
claim 1
denominator 1
lemma 1 scale 1
row -1 () 3 (a)
row 1 (a') 2 (a)
row 1 () 3 (a a)
root 2 left 1
square 1 a - a' a
goal scale 1
row 1 () lemma 2 ()
end
"""
# 2 a'a + b'b + b'c + c'b + c'c is 2 a'a and the square of b + c
SUM = "object U V W\nmap a : U -> V\nmap b c : U -> W\nassume 2 a' a + (b + c)' (b + c) = 0\nclaim a = 0\nclaim b = 0 - c\n"
SUM_PROOF = """star proof 1
claim 1
denominator 1
lemma 1 scale 1
row 1 () 1 ()
root 2 left 1
square 2 a
square 1 b + c
goal scale 1
row 1 () lemma 2 ()
end
star proof 1
claim 2
denominator 1
lemma 1 scale 1
row 1 () 1 ()
root 2 left 1
square 1 c + b
square 2 a
goal scale 1
row 1 () lemma 2 ()
end
"""
# b a a' = 0 gives (b a) (b a)' = 0 and so b a = 0, and f b a = 0 does where f is monic
MIXED = "object U V W X\nmap a : U -> V\nmap b : V -> W\nmap f : W -> X\nassume f b a a' = 0\nclaim b a = 0\n"
MIXED_PROOF = """star proof 1
claim 1
denominator 1
monic f
lemma 1 scale 1
row 1 () 1 ()
cancel 2 f left 1
lemma 3 scale 1
row 1 () lemma 2 (b')
root 4 right 3
square 1 b a
goal scale 1
row 1 () lemma 4 ()
end
"""
PLAIN = "object V\nmap a : V -> V\nassume a a = 0\nclaim a = 0\n"

REPORTS = [  # statement, proof, what is replaced in it by what, and the last line of the report
    (ZERO, ZERO_PROOF, "", "", "# block 1 accepted claim 1 denominator 1 proper"),
    (NORMAL, NORMAL_PROOF, "", "", "# block 1 accepted claim 1 denominator 1 proper"),
    (SUM, SUM_PROOF, "", "", "# block 2 accepted claim 2 denominator 1 positive"),
    (MIXED, MIXED_PROOF, "", "", "# block 1 accepted claim 1 denominator 1 proper monic f"),
    (ZERO, ZERO_PROOF, "square 1 a", "square 1 2 a", "# block 1 refused P5 item 2 word a' a want 4 got 1"),
    (ZERO, ZERO_PROOF, "square 1 a", "square 1 - a", "# block 1 refused C6 word a want 1 got -1"),
    (ZERO, ZERO_PROOF, "square 1 a", "square 2 a", "# block 1 refused P2 item 2"),
    (ZERO, ZERO_PROOF, "square 1 a", "square 0 a", "# block 1 refused P2 item 2"),
    (ZERO, ZERO_PROOF, "square 1 a", "square 1 a - a", "# block 1 refused P3 item 2"),
    (ZERO, ZERO_PROOF, "square 1 a", "square 1 a + a'", "# block 1 refused P3 item 2"),
    (ZERO, ZERO_PROOF, "left", "right", "# block 1 refused P5 item 2 word a a' want 1 got 0"),
    (ZERO, ZERO_PROOF, "root 2 left 1", "root 2 left 2", "# block 1 refused X1 item 2"),
    (ZERO, ZERO_PROOF, "root 2 left 1", "root 3 left 1", "# refused K2 line 6"),
    (ZERO, ZERO_PROOF, "root 2 left 1", "root 2 left 5000000000", "# refused K4 line 6"),
    (ZERO, ZERO_PROOF, "square 1 a\n", "", "# refused K2 line 7"),
    (ZERO, ZERO_PROOF, "square 1 a", "square 1 a +", "# refused K2 line 7"),
    (ZERO, ZERO_PROOF, "square 1 a", "square 1 0", "# refused K2 line 7"),
    (ZERO, ZERO_PROOF, "square 1 a", "square 1 d", "# refused K3 line 7"),
    (ZERO, ZERO_PROOF, "star proof 1", "star proof 2", "# refused K2 line 1"),
    (ZERO, ZERO_PROOF, "star proof 1", "cancellation 1", "# refused K7"),
    (ZERO, ZERO_PROOF, "end\n", "", "# refused K6"),
    (PLAIN, ZERO_PROOF, "", "", "# block 1 refused P1 item 2"),
    (MIXED, MIXED_PROOF, "monic f\n", "", "# block 1 refused X2 item 2"),
    (SUM, SUM_PROOF, "square 2 a\nsquare 1 b + c", "square 2 a\nsquare 1 b - c", "# block 1 refused P5 item 2 word b' c want -1 got 1"),
]  # fmt: skip

SHEAR = "object V\nmap a x : V -> V\npinv a x\nassume a x = x a\nclaim a a' = a' a\n"
SHEAR_MODEL = "rational model 1\nclaim 1\nside V 2\nmap a = 1 1 ; 0 1\nmap x = 1 -1 ; 0 1\nend\n"
# the pseudoinverse of the row 1 2 is its column divided by 5
ROW = "object U V\nmap a : U -> V\nmap x : V -> U\npinv a x\nclaim x = a'\n"
ROW_MODEL = "rational model 1\nclaim 1\nside U 2\nmap a = 1 2\nmap x = 1/5 ; 2/5\nend\n"
MODELS = [
    (SHEAR, SHEAR_MODEL, "", "", "# block 1 confirmed claim 1"),
    (ROW, ROW_MODEL, "", "", "# block 1 confirmed claim 1"),
    (ROW, ROW_MODEL, "2/5", "4/10", "# block 1 confirmed claim 1"),
    (ROW, ROW_MODEL, "2/5", "2/6", "# block 1 refused M4 assumption 1"),
    (ROW, ROW_MODEL, "2/5", "2/0", "# refused K2 line 5"),
    (ROW, ROW_MODEL, "2/5", "2/-5", "# refused K2 line 5"),
    (ROW, ROW_MODEL, "2/5", "2/" + 1001 * "1", "# refused K4 line 5"),
    (ROW, ROW_MODEL, "1 2\n", "0 0\n", "# block 1 refused M4 assumption 2"),
    (ROW, ROW_MODEL.replace("1/5 ; 2/5", "1 ; 0"), "1 2\n", "1 0\n", "# block 1 refused M5"),
    (ROW, ROW_MODEL, "side U 2", "side U 3", "# block 1 refused M3 map a"),
    (ROW, ROW_MODEL, "rational", "model", "# refused K2 line 1"),
    (ROW, ROW_MODEL, "claim 1", "claim 1\nmodulus 7", "# refused K2 line 3"),
]  # fmt: skip


def written(folder: str, statement: str, evidence: str) -> Tuple[str, str]:
    paths = Path(folder, "asked.op"), Path(folder, "asked.cert")
    paths[0].write_text(statement)
    paths[1].write_text(evidence)
    return str(paths[0]), str(paths[1])


class Reports(unittest.TestCase):
    def test_star_proofs(self) -> None:
        for statement, proof, old, new, last in REPORTS:
            with self.subTest(old=old, new=new, last=last), tempfile.TemporaryDirectory() as folder:
                self.assertIn(old, proof)
                status, lines = answer(star.report, [*written(folder, statement, proof.replace(old, new) if old else proof)])
                self.assertEqual(lines[-1], last)
                self.assertEqual(status, DONE if " accepted " in last else REFUSED)

    def test_rational_models(self) -> None:
        for statement, model, old, new, last in MODELS:
            with self.subTest(old=old, new=new, last=last), tempfile.TemporaryDirectory() as folder:
                self.assertIn(old, model)
                status, lines = answer(check_model.report, [*written(folder, statement, model.replace(old, new) if old else model)])
                self.assertEqual((lines[-1], status), (last, DONE if " confirmed " in last else REFUSED))

    def test_chains(self) -> None:
        """A proof is read line by line, and written as the same proof."""
        with tempfile.TemporaryDirectory() as folder:
            for statement, proof, granted in ((ZERO, ZERO_PROOF, "proper"), (MIXED, MIXED_PROOF, "proper monic f"), (SUM, SUM_PROOF, "positive")):
                paths = written(folder, statement, proof)
                lines = list(chain.written(*paths))
                again = "\n".join(chain.written(*paths, form="certificate")) + "\n"
                report = list(star.report(*written(folder, statement, again)))
                self.assertEqual(report[0], f"# block 1 accepted claim 1 denominator 1 {granted}")
                self.assertTrue(any(line.startswith("Lemma [") and ", since " in line for line in lines), lines)
            text = list(chain.written(*written(folder, ZERO, ZERO_PROOF)))
        self.assertEqual(text[0], "Claim 1, where the involution is proper: a = 0")
        self.assertIn("Lemma [2], by [1], since r' r = 0 gives r = 0: a = 0", text)

    def test_alone(self) -> None:
        """The checker is a file that runs by itself."""
        file = Path(opprove.__file__).parent / "checkers" / "star.py"
        with tempfile.TemporaryDirectory() as folder:
            words = [sys.executable, str(file), *written(folder, ZERO, ZERO_PROOF)]
            done = subprocess.run(words, stdout=subprocess.PIPE, stderr=subprocess.PIPE, cwd=folder, env={"LC_ALL": "C"})
        self.assertEqual((done.returncode, done.stdout, done.stderr), (0, b"# block 1 accepted claim 1 denominator 1 proper\n", b""))
