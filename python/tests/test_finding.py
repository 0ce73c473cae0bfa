"""The tools that answer one question each: express, exists, needed, denominator, conjecture and prove-all.

What they ought to find is known from the literature or by hand; that it holds is checked by the program and the second checkers.
"""
from __future__ import annotations


from searching import Answer, Asking, accepted, own_statement, tool

NORMAL = "object V\nmap a x : V -> V\npinv a x\nassume a a' = a' a\nclaim a x = x a\n"
# Urquhart: the pseudoinverse by a {1,4}-inverse g and a {1,3}-inverse h
URQUHART = """object U V
map a : U -> V
map g h x : V -> U
inner a g
inner a h
assume (g a)' = g a
assume (a h)' = a h
pinv a x
claim 0 x = 0
"""
# MacDuffee: the pseudoinverse by a full rank factorization f g
MACDUFFEE = """object U R V
map f : R -> V
map g : U -> R
map a : U -> V
map x : V -> U
map p q : R -> R
assume a = f g
pinv a x
assume f' f p = [R]
assume p f' f = [R]
assume g g' q = [R]
assume q g g' = [R]
claim 0 x = 0
"""
TWO = "object V\nmap a b : V -> V\nassume 2 a = 0\nassume 3 a b = 0\nclaim a b = 0\n"


class Finding(Asking):
    def check_own(self, answer: Answer) -> str:
        """The statement of the answer, for which its certificate is accepted."""
        statement = own_statement(answer)
        self.assertTrue(accepted(statement, answer.blocks[0]), answer.out)
        return statement


class Express(Finding):
    def test_urquhart(self) -> None:
        answer = tool("express", self.file(URQUHART), "x", "--by", "a,g,h")
        self.assertEqual(answer.status, 0, answer)
        self.assertIn(f"\nclaim {answer.out.splitlines()[0][2:]}\n", self.check_own(answer))
        self.assertNotRegex(answer.out.splitlines()[0].split("=")[1], "x")

    def test_full_rank_factorization(self) -> None:
        answer = tool("express", self.file(MACDUFFEE), "x", "--by", "f,g,p,q", "--keep", self.folder / "kept")
        self.assertEqual((answer.status, answer.out.splitlines()[0]), (0, "# x = g' q p f'"), answer)
        self.check_own(answer)
        kept = [self.folder / "kept" / f"express_x.{ending}" for ending in ("op", "cert")]
        self.assertTrue(accepted(*(path.read_text() for path in kept)))

    def test_none(self) -> None:
        """An inner inverse isn't determined by its map."""
        answer = tool("express", self.file("object U V\nmap a : U -> V\nmap x : V -> U\ninner a x\nclaim a = a\n"), "x")
        self.assertEqual((answer.status, answer.out), (12, "# x: no formula: the rules are closed, and leave it\n"))

    def test_words(self) -> None:
        path = self.file(NORMAL)
        self.assertEqual(tool("express", path).status, 2)
        answer = tool("express", path, "z")
        self.assertEqual((answer.status, answer.error), (1, "# no map z\n"))
        self.assertEqual(tool("express", self.folder / "none", "x").status, 4)


class Exists(Finding):
    def test_on_the_left(self) -> None:
        """a x = a^2 has a = a^2 k: w a a = 0 gives w a = 0."""
        text = "object V Z\nmap a x : V -> V\nmap w : V -> Z\nassume a = a a x\nassume w a a = 0\nclaim w a = 0\n"
        answer = tool("exists", self.file(text))
        self.assertEqual((answer.status, answer.out.splitlines()[0]), (0, "# claim 1: (a) = (a a) (x) with k = x"), answer)
        statement = self.check_own(answer)
        self.assertIn("claim (a) = (a a) (x)", statement)
        self.assertNotIn("w", statement)

    def test_on_both_sides(self) -> None:
        """u = a k + l b for u = a x + y b."""
        text = "object V\nmap a b x y u : V -> V\nassume u = a x + y b\nclaim u = 0\n"
        answer = tool("exists", self.file(text), "--left", "a", "--right", "b")
        self.assertEqual(answer.status, 0, answer)
        self.assertIn("(u) = (a) (x) + (y) (b) with k = x, l = y", answer.out.splitlines()[0])
        self.check_own(answer)

    def test_denominator(self) -> None:
        text = "object V\nmap a b u : V -> V\nassume 3 u = a b\nclaim u = 0\n"
        answer = tool("exists", self.file(text), "--left", "a")
        self.assertEqual((answer.status, answer.out.splitlines()[0]), (0, "# claim 1: 3 (u) = (a) (b) with k = b"), answer)
        self.check_own(answer)

    def test_factors(self) -> None:
        path = self.file(NORMAL)
        for factor, line in (("a - a", "is zero"), ("z", "doesn't fit the statement: S6\n"), ("a (", "doesn't fit the statement: S3\n")):
            answer = tool("exists", path, "--left", factor)
            self.assertEqual((answer.status, answer.out), (1, ""))
            self.assertTrue(answer.error.startswith(f"# the factor {factor} {line}"), answer.error)

    def test_not_written_so(self) -> None:
        answer = tool("exists", self.file(NORMAL))
        self.assertEqual(answer.status, 12)
        self.assertIn("no new map stands in front", answer.out)


class Needed(Finding):
    def test_normal(self) -> None:
        """The second equation of Penrose isn't needed, and the others are: (1,3,4) determine a x and x a."""
        path = self.file(NORMAL)
        answer = tool("needed", path, "--keep", self.folder / "kept")
        self.assertEqual(answer.status, 0, answer)
        given = "(1) of `pinv a x`, (3) of `pinv a x`, (4) of `pinv a x`, `assume a a' = a' a`"
        for line in (f"# follows from {given}", f"# in each of these sets: {given}", "# (2) of `pinv a x` isn't needed"):
            self.assertIn(line + "\n", answer.out)
        self.assertEqual([accepted(NORMAL, block) for block in answer.blocks], [True])
        fails = sorted((self.folder / "kept").glob("asked_1_fails_*.op"))
        self.assertEqual(len(fails), 4)
        for fail in fails:
            self.assertTrue(accepted(fail.read_text(), fail.with_suffix(".cert").read_text()))

    def test_two_ways(self) -> None:
        """a = 0 follows from either of two, and from one of them with a third one."""
        text = "object V\nmap a b : V -> V\nassume a = b\nassume b = 0\nassume a b = a\nassume a = 0\nclaim a = 0\n"
        answer = tool("needed", self.file(text))
        self.assertEqual(answer.status, 0, answer)
        sets = {line for line in answer.out.splitlines() if line.startswith("# follows")}
        expected = {"`assume a = 0`", "`assume a = b`, `assume b = 0`", "`assume b = 0`, `assume a b = a`"}
        self.assertEqual(sets, {f"# follows from {one}" for one in expected})

    def test_not_proved(self) -> None:
        answer = tool("needed", self.file("object V\nmap a : V -> V\nassume a a = 0\nclaim a = 0\n"))
        self.assertEqual(answer.status, 12)
        self.assertIn("# isn't proved from all assumptions\n", answer.out)


class Denominator(Finding):
    def test_combination(self) -> None:
        """Once is three times less twice."""
        statement = self.file(TWO)
        twice = "certificate 1\nclaim 1\ndenominator 2\nrow 1 () 1 (b)\nend\n"
        report = self.file(f"{twice}certificate 1\nclaim 1\ndenominator 3\nrow 1 () 2 ()\nend\n", "report")
        answer = tool("denominator", statement, report)
        self.assertEqual((answer.status, answer.out.splitlines()[0]), (0, "# claim 1 denominator 1, and 2 before"), answer)
        self.assertEqual([accepted(TWO, block) for block in answer.blocks], [True])

    def test_model(self) -> None:
        """2 a = 0 gives a = 0 where 2 cancels, and doesn't modulo 2."""
        text = "object V\nmap a : V -> V\nassume 2 a = 0\nclaim a = 0\n"
        report = self.file("certificate 1\nclaim 1\ndenominator 2\nrow 1 () 1 ()\nend\n", "report")
        answer = tool("denominator", self.file(text), report, "--seconds", 20, "--keep", self.folder / "kept")
        self.assertEqual(answer.status, 0, answer)
        self.assertIn("#   2 has to divide it: ", answer.out)
        kept = [self.folder / "kept" / f"claim_1_modulo_2.{ending}" for ending in ("op", "cert")]
        self.assertTrue(accepted(*(path.read_text() for path in kept)))

    def test_refused(self) -> None:
        report = self.file("certificate 1\nclaim 1\ndenominator 2\nrow 1 () 2 ()\nend\n", "report")
        answer = tool("denominator", self.file(TWO), report)
        self.assertEqual((answer.status, answer.error), (7, "# the certificate of claim 1 is refused by `check`\n"))


class Conjecture(Finding):
    def test_projections(self) -> None:
        """Two commuting idempotents: the equations of words of two letters, and no more."""
        text = "object V\nmap p q : V -> V\nassume p p = p\nassume q q = q\nassume p q = q p\nclaim p = p\n"
        answer = tool("conjecture", self.file(text), "--length", 4, "--keep", self.folder)
        self.assertEqual(answer.status, 0, answer)
        self.assertEqual(sorted(answer.out.splitlines()), ["p p = p  # given", "q p = p q  # given", "q q = q  # given"])

    def test_group(self) -> None:
        """In the group with a a = b b = 1 and (a b)^3 = 1 the words a b a and b a b are equal."""
        text = "object V\nmap a b : V -> V\nassume a a = [V]\nassume b b = [V]\nassume a b a b a b = [V]\nclaim a = a\n"
        answer = tool("conjecture", self.file(text), "--length", 3, "--keep", self.folder)
        self.assertIn("b a b = a b a", answer.out.splitlines())
        self.assertEqual(tool("prove-all", self.folder).status, 0)


class ProveAll(Finding):
    def test_folder(self) -> None:
        (self.folder / "inner").mkdir()
        one, two = self.file(NORMAL, "one.op"), self.file("object V\nmap a : V -> V\nclaim a = 0\n", "inner/two.op")
        first = tool("prove-all", self.folder)
        self.assertEqual(first.status, 10, first)
        last = "2 statements, 2 of them proved anew; claims: 1 proved, 1 not derivable\n"
        self.assertEqual(first.out, f"inner/two.op  not derivable\none.op        proved\n{last}")
        self.assertTrue(accepted(NORMAL, one.with_suffix(".report").read_text().split("\n", 1)[1].split("\n", 1)[1]))
        again = tool("prove-all", self.folder)
        self.assertEqual(again.out, first.out.replace("2 of them", "0 of them"))
        two.write_text(two.read_text().replace("claim a = 0", "claim a = a"))
        changed = tool("prove-all", self.folder)
        self.assertEqual((changed.status, changed.out.splitlines()[-1]), (0, "2 statements, 1 of them proved anew; claims: 2 proved"))
        self.assertEqual(tool("prove-all", self.folder, "--pairs", 7).out.splitlines()[-1][:33], "2 statements, 2 of them proved an")

    def test_faults(self) -> None:
        self.file("object V\n", "bad.op")
        answer = tool("prove-all", self.folder)
        self.assertEqual((answer.status, answer.out.splitlines()[0]), (12, "bad.op  # refused S15"))
        self.assertEqual(list(self.folder.glob("*.report")), [])
        self.assertEqual(tool("prove-all", self.folder, "--jobs", "0").status, 2)
        self.assertEqual(tool("prove-all", self.folder, "--none").status, 2)
        self.assertEqual(tool("prove-all").status, 2)
        self.assertEqual(tool("prove-all", self.folder / "none").status, 1)
