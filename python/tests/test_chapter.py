"""Papers of chapters: sentences with formulas, theorems and proofs of each kind, names of maps, and what is wrong with a folder."""
from __future__ import annotations

import os
import re
import unittest
from pathlib import Path
from tempfile import TemporaryDirectory

from opprove.program import path as path_of_program
from opprove.translations import sentences
from opprove.translations.latex import broken, lines_of, width_of
from trying import Answer, Skipped, installed, run, tool

SENTENCES = (
    ("a+ = g a h for a {1,4}-inverse g.", r"$a^{\dagger} = g \, a \, h$ for a $\{1,4\}$-inverse $g$."),
    ("a' a x = a' makes x a {1,3}-inverse, and a normal.", r"$a^{*} \, a \, x = a^{*}$ makes $x$ a $\{1,3\}$-inverse, and $a$ normal."),
    ("A map a isn't 2 by 2: [a b; 0 -c], [ai, b ai] and [d, x] = 0.",
     r"A map $a$ isn't 2 by 2: $\left[\begin{smallmatrix}a & b \\ 0 & - c\end{smallmatrix}\right]$, $[\mathit{ai}, b \, \mathit{ai}]$ "
     "and $[d, x] = 0$."),
    ("b1+ w- (a b)# is 1 + n + .. + n^5; 50% of a^-1.",
     r"$b_{1}^{\dagger} \, w^{-} \, (a \, b)^{\#}$ is $1 + n + \cdots + n^{5}$; 50\% of $a^{-1}$."),
    ("where a commutes with a normal map", r"where $a$ commutes with a normal map"),
)  # fmt: skip
LAW = """# THEOREM: A left inverse is the inverse.
# SOURCE: Somebody 1900
# LEAVES OUT: a + b
object U V
map a : U -> V
map x y : V -> U
inverse a x
assume y a = [U]
claim y = x
claim a y = [V]
"""
FILES = {
    "law.op": LAW,
    "shift.op": "# VERDICT: refuted\nobject U V\nmap a : U -> V\nmap b : V -> U\nassume a b = [V]\nclaim b a = [U]\n",
    "shift.model": "model 1\nclaim 1\nmodulus 2\nside U 2\nside V 1\nmap a = 1 0\nmap b = 1 ; 0\nend\n",
    "rules.op": "object X Y\nmap f g : X -> Y\nmap h : Y -> X\nassume f h g = g\nclaim h f h g = 0\n",
    "rules.cert": "basis 1\nclaim 1\nrule f h g - g\nrest h g\nend\n",
    "monic.op": "object X Y\nmap f : X -> Y\nmap g : Y -> X\nassume f g = 0\nclaim g = 0\n",
    "monic.cert": "cancellation 1\nclaim 1\ndenominator 1\nmonic f\nlemma 1 scale 1\nrow 1 () 1 ()\ncancel 2 f left 1\ngoal scale 1\n"
    "row 1 () lemma 2 ()\nend\n",
    "cases.opn": "a : V -> V\npinv a x\nequivalent:\n  (i) hermitian a\n  (ii) a = a' with define p = a x\n",
}  # fmt: skip


class Papers(unittest.TestCase):
    def setUp(self) -> None:
        if not os.access(path_of_program(), os.X_OK):
            print("skipped: opprove is not built", flush=True)
            raise unittest.SkipTest("opprove is not built")
        made = TemporaryDirectory(prefix="opprove-chapter-")
        self.addCleanup(made.cleanup)
        self.folder = Path(made.name)

    def paper(self, *names: str, more: "dict[str, str]" = {}, words: "tuple[str, ...]" = ()) -> Answer:
        """What is written of these files, and others."""
        chapter = self.folder / "some_laws"
        chapter.mkdir(exist_ok=True)
        for name, text in {**{name: FILES[name] for name in names}, **more}.items():
            (chapter / name).write_text(text, "utf-8")
        return run(*tool("chapter"), chapter, "--jobs", 2, *words)

    def test_theorems(self) -> None:
        answer = self.paper("law.op")
        self.assertEqual((answer.status, answer.error), (0, ""))
        for part in (
            r"\section*{Some laws}", "\\begin{theorem}[Somebody 1900]\\label{law}\nA left inverse is the inverse.\nLeft out: $a + b$.\n",
            r"Let $a\colon U \to V$; $a^{-1}, \allowbreak y\colon V \to U$.",
            r"\item[(1)--(2)] $a^{-1}$ is the inverse of $a$: $a \,\allowbreak a^{-1} = 1_{V}$",
            r"\item[(3)] $y \,\allowbreak a = 1_{U}$", r"\text{\upshape(ii)} \quad & a \, y = 1_{V}",
            r"\begin{proof}[Proof of {\upshape(i)}]", r"\text{by (3)}", r"\qedhere",
        ):  # fmt: skip
            self.assertIn(part, answer.out)
        self.assertNotIn("line 5", answer.out)

    def test_names(self) -> None:
        table = self.folder / "names"
        table.write_text("x \\hat{a} # as said\nb c\n")
        answer = self.paper("law.op", words=("--names", str(table), "--title", "Laws & more"))
        self.assertIn(r"$\hat{a}$ is the inverse of $a$", answer.out)
        self.assertIn(r"\section*{Laws \& more}", answer.out)
        named = LAW.replace("A left inverse", "A left inverse y of a with the inverse x")
        self.assertIn("$x$ is the inverse of $a$", self.paper(more={"law.op": named}).out)

    def test_other_verdicts(self) -> None:
        answer = self.paper(*FILES)
        self.assertEqual((answer.status, answer.error), (0, ""))
        for part in (
            r"\begin{statement}\label{shift}", r"\noindent The claim is", r"\begin{proof}[Counterexample]",
            r"$a = \begin{pmatrix} 1 & 0 \end{pmatrix}$", "modulo 2",
            r"\begin{proof}[Not derivable]", r"f \, h \, g & \to g", r"\begin{proof}[Proof, where $f$ is monic]",
            "by Lemma 1, since $f$ is monic.",
            r"Let $a\colon V \to V$.", "Assume that $x$ is the Moore--Penrose inverse of $a$.", r"\item[(i)] $a$ is Hermitian",
            r"\item[(ii)] $a = a^{*}$ where $p = a \, x$", r"\begin{proof}[Proof that {\upshape(i)} gives {\upshape(ii)}]",
        ):  # fmt: skip
            self.assertIn(part, answer.out)
        self.set_by_pdflatex(answer.out)

    def set_by_pdflatex(self, text: str) -> None:
        """It is set with no box that is too wide by more than a few points."""
        try:
            program = installed("pdflatex")
        except Skipped as what:
            raise unittest.SkipTest(str(what))
        (self.folder / "paper.tex").write_text(text, "utf-8")
        answer = run(program, "-interaction=nonstopmode", "-halt-on-error", "paper.tex", folder=self.folder, seconds=600)
        self.assertEqual(answer.status, 0, answer.out[-800:])
        wide = re.findall(r"Overfull \\hbox \(([0-9.]+)pt", answer.out)
        self.assertFalse([points for points in wide if float(points) > 3], answer.out)

    def test_faults(self) -> None:
        table = self.folder / "names"
        table.write_text("x\n")
        said = LAW.replace("# SOURCE", "# VERDICT: refuted\n# SOURCE")
        for answer, status, line in (
            (run(*tool("chapter"), self.folder / "none"), 4, "# load failed "),
            (self.paper("law.op", words=("--names", str(table))), 7, "# refused names line 1"),
            (self.paper(more={"law.op": "object V\nclaim a = 0\n"}), 3, "law: # refused S6 line 2 column 7"),
            (self.paper(more={"law.op": said}), 7, "law: claim 1 is proved, and its comments say: refuted"),
            (self.paper("law.op", more={"x.opn": "a b : \n"}), 3, "x.opn: # refused S3 line 1 column 6"),
        ):  # fmt: skip
            self.assertEqual(answer.status, status, answer)
            self.assertIn(line, answer.error)
            self.assertEqual(answer.error.count("\n"), 1, answer.error)


class Formulas(unittest.TestCase):
    def test_sentences(self) -> None:
        for sentence, latex in SENTENCES:
            with self.subTest(sentence=sentence):
                self.assertEqual(sentences.in_latex(sentence, sentences.plain({}), {"ai"}.__contains__), latex)
        self.assertEqual(sentences.named_in("x is a map of a1 and b", {"a", "b", "a1"}.__contains__), {"a1", "b"})
        self.assertIn("$a^{-1}$", sentences.in_latex("of x", sentences.plain({"x": "a^{-1}"}), {"x"}.__contains__))

    def test_lines(self) -> None:
        long = "+ " + r" \, ".join(["a^{*}"] * 40)
        self.assertEqual(lines_of(["+ a", "- b"]), ["a - b"])
        self.assertEqual(lines_of([]), ["0"])
        self.assertEqual(r" \, ".join(broken(long, 100)).replace(r"\cdot ", ""), long)
        lines = lines_of(["- b", long, "+ c"], 100)
        self.assertTrue(all(width_of(line) <= 110 for line in lines) and lines[0] == "- b" and len(lines) > 4, lines)
