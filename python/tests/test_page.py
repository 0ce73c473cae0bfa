"""Pages in a browser: what they show, that they check themselves and load nothing, and that what is changed is refused."""
from __future__ import annotations

import base64
import os
import re
import socket
import subprocess
import sys
import tempfile
import unittest
from pathlib import Path
from typing import List, Optional, Tuple

from browser import Browser
from opprove.checkers.check import Refusal
from opprove.page.page import page_of
from opprove.program import path as path_of_program
from trying import EXAMPLES, GALLERY, STATEMENTS

STORED = EXAMPLES / "tools" / "pseudoinverses.html"
INVERSES = "object U V\nmap a : U -> V\nmap b : V -> U\nassume a b = [V]\nclaim b a = [U]\n"
MODEL = "# claim 1 refuted\nmodel 1\nclaim 1\nmodulus 2\nside U 2\nside V 1\nmap a = 1 0\nmap b = 1 ; 0\nend\n"
RULES = "object X Y\nmap f g : X -> Y\nmap h : Y -> X\nassume f h g = g\nclaim h f h g = 0\nclaim f h g h = g h\nclaim h f = h g\n"
BASIS = "basis 1\nclaim 1\nrule f h g - g\nrest h g\nend\n"
UNDECIDED = "# claim 1 undecided pairs 2 least b a b\n"
MOST = 150_000  # bytes of the page of moore_penrose_unique
BUSY = (os.cpu_count() or 1) * 0.75  # the load above which times aren't compared


def said_to(listener: socket.socket) -> bytes:
    """What comes within two seconds over the connections that are made; Chromium opens some before it looks at the policy."""
    listener.settimeout(2)
    said = b""
    try:
        while True:
            connection, _ = listener.accept()
            with connection:
                connection.settimeout(2)
                said += connection.recv(1000)
    except OSError:
        return said


def program() -> str:
    """The program, where it is built."""
    found = path_of_program()
    if not os.access(found, os.X_OK):
        print("skipped: opprove is not built", flush=True)
        raise unittest.SkipTest("opprove is not built")
    return found


class Shown(unittest.TestCase):
    """A page in a window."""

    browser: Browser
    folder: "tempfile.TemporaryDirectory[str]"

    @classmethod
    def setUpClass(cls) -> None:
        cls.browser, cls.folder = Browser(), tempfile.TemporaryDirectory(prefix="opprove-pages-")

    @classmethod
    def tearDownClass(cls) -> None:
        cls.browser.close()
        cls.folder.cleanup()

    def written(self, name: str, text: str) -> Path:
        path = Path(self.folder.name, name)
        path.write_text(text, "utf-8")
        return path

    def page(self, statement: str, *reports: str) -> str:
        paths = [self.written(f"report{number}", report) for number, report in enumerate(reports, 1)]
        return page_of(self.written("statement.op", statement), paths)

    def show(self, text: str) -> None:
        """Opens a page, which may write nothing to the console and ask for nothing but itself."""
        path = self.written("page.html", text)
        self.browser.open("about:blank")
        self.browser.logs(), self.browser.requests()
        self.browser.open(path.as_uri())
        self.browser.wait("return document.readyState === 'complete' && document.querySelector('#checked').textContent")
        self.assertEqual([address for address in self.browser.requests() if not address.startswith("data:")], [path.as_uri()])
        self.assertEqual(self.browser.logs(), [])

    def checks(self) -> List[Tuple[str, str]]:
        """Of each block the kind of its sign, and the line of the checker."""
        found = "return [...document.querySelectorAll('.check')].map((at) => [at.className, (at.querySelector('code') || at).textContent])"
        return [(kind, line) for kind, line in self.browser.run(found)]

    def texts(self, selector: str) -> List[str]:
        """The texts of the elements that a selector finds."""
        return list(self.browser.run("return [...document.querySelectorAll(arguments[0])].map((at) => at.textContent)", selector))

    def reduce(self, word: str) -> None:
        """Has the box of a closed rule set reduce a word."""
        put = "const box = document.querySelector('.reduce'); box.querySelector('input').value = arguments[0]; box.requestSubmit()"
        self.browser.run(put, word)

    def all_right(self, count: int) -> None:
        checks = self.checks()
        self.assertEqual([kind for kind, _ in checks], ["check right"] * count, checks)
        self.assertEqual(self.browser.run("return document.querySelector('#checked').className"), "right" if count else "")


    def all_recomputed(self) -> None:
        """Each step that the page shows was recomputed by it."""
        told = self.browser.run("return [...document.querySelectorAll('.check')].map((at) => at.textContent).join(' ')")
        counts = [int(number or 1) for number in re.findall("the (?:([0-9]+) )?steps? shown", told)]
        self.assertEqual(sum(counts), self.browser.run("return document.querySelectorAll('.chain .by').length"))


class Pages(Shown):
    def test_proofs_of_the_gallery(self) -> None:
        opprove, count = program(), 0
        for statement in sorted(GALLERY.values()):
            for number in ("1", "2"):
                words = [opprove, "prove", str(statement), "--format", number, "--pairs", "2000", "--no-models"]
                report = subprocess.run(words, stdout=subprocess.PIPE, timeout=120).stdout.decode()
                with self.subTest(statement=statement.stem, format=number):
                    self.show(self.page(statement.read_text("utf-8"), report))
                    self.all_right(len(re.findall("^(?:certificate|model|basis) ", report, re.MULTILINE)))
                    self.all_recomputed()
                    count += 1
        self.assertGreaterEqual(count, 40)

    def test_stored_proofs(self) -> None:
        for statement in STATEMENTS:
            evidence = statement.with_suffix(".cert")
            if evidence.exists() and not evidence.read_text("utf-8").startswith("rational model"):  # which check.js doesn't read
                with self.subTest(statement=statement.stem):
                    self.show(page_of(statement, [evidence]))
                    self.all_right(evidence.read_text("utf-8").count("\nend"))
                    self.all_recomputed()

    def test_a_proof_that_cancels_shows_its_letters(self) -> None:
        statement = GALLERY["full_rank_factorization"]
        self.show(page_of(statement, [statement.with_suffix(".cert")]))
        self.assertEqual(self.checks(), [("check right", "# block 1 accepted claim 1 denominator 1 monic f epic g")])
        meaning = self.browser.run("return document.querySelector('.meaning').textContent")
        self.assertIn("f is monic (f n = 0 only for n = 0)", meaning)
        self.assertIn("g is epic (n g = 0 only for n = 0)", meaning)
        self.assertEqual(sorted(set(self.texts(".off u"))), ["f", "g"])

    def test_a_refutation_shows_its_products(self) -> None:
        self.show(self.page(INVERSES, MODEL))
        self.assertEqual(self.checks(), [("check right", "# block 1 confirmed claim 1")])
        # b a is a column times a row: of its entries and those of the identity the last two differ.
        self.assertEqual(self.browser.run("return [...document.querySelectorAll('.lit')].map((at) => at.textContent)"), ["0", "1"])
        self.assertIn("They differ in row 2, column 2: 0 and 1.", self.browser.run("return document.body.textContent"))

    def test_a_word_is_reduced_by_closed_rules(self) -> None:
        self.show(self.page(RULES, BASIS))
        self.assertEqual(self.checks(), [("check right", "# block 1 closed claim 1 sharp")])
        for word, want in (
            ("f h f h g", ["f h f h g", "f h gby rule 1, f h g in f h f h g", "gby rule 1, f h g in f h g"]),
            ("h f h g - h g", ["h f h g - h g", "0by rule 1, f h g in h f h g"]), ("h f", ["h f"]),
        ):  # fmt: skip
            self.reduce(word)
            self.assertEqual(self.texts(".steps li"), want)
        ends = "g doesn’t compose with what stands before it."
        for word, told in (("f q", "q isn’t declared."), ("f g", ends), ("f $", "$ begins no letter.")):
            self.reduce(word)
            self.assertEqual(self.texts("output"), [told])

    def test_an_undecided_claim_names_its_budget(self) -> None:
        self.show(self.page("object V\nmap a b : V -> V\nassume b a b = a b a\nclaim a = b\n", UNDECIDED))
        self.all_right(0)
        told = self.browser.run("return document.querySelector('.claim').textContent")
        for words in ("undecided", "as many overlaps and inclusions of leading words are treated as --pairs says, 2", "below b a b."):
            self.assertIn(words, told)

    def test_evidence_that_the_checker_does_not_read(self) -> None:
        squares = "object U V W\nmap a : U -> V\nmap b : U -> W\nassume 2 a' a + b' b = 0\nclaim a = 0\n"
        head = "star proof 1\nclaim 1\ndenominator 1\nlemma 1 scale 1\nrow 1 () 1 ()\nroot 2 left 1\n"
        proof = f"{head}square 2 a\nsquare 1 b\ngoal scale 1\nrow 1 () lemma 2 ()\nend\n"
        matrices = "rational model 1\nclaim 1\nside U 2\nside V 1\nmap a = 1/2 0\nmap b = 2 ; -1/3\nend\n"
        for statement, report, words in (
            (squares, proof, ["an involution that is positive", "[2] a = 0, since [1] is 2 (a)∗ (a) + (b)∗ (b)"]),
            (INVERSES, matrices, ["matrices of rational numbers", "They differ in row 2, column 1: -1/6 and 0."]),
        ):
            self.show(self.page(statement, report))
            self.assertEqual([kind for kind, _ in self.checks()], ["check"])
            for said in ["whose checker doesn’t read evidence of this kind", *words]:
                self.assertIn(said, self.browser.run("return document.querySelector('.claim').textContent"))

    def test_several_reports(self) -> None:
        other = BASIS.replace("claim 1", "claim 3").replace("h g\nend", "- h g + h f\nend")
        self.show(self.page(RULES, BASIS, other, UNDECIDED.replace("1 ", "2 ", 1)))
        self.all_right(2)
        self.assertEqual(self.texts(".verdict"), ["not derivable", "undecided", "not derivable"])

    def test_keys_lead_along_the_steps(self) -> None:
        self.show(page_of(EXAMPLES / "pseudoinverses.op", [EXAMPLES / "pseudoinverses.cert"]))
        focused = "const at = document.activeElement; return [...document.querySelectorAll('.chain .by')].indexOf(at)"
        self.browser.run("document.querySelector('.chain .by').focus()")
        for key, want in (("\ue015", 1), ("\ue015", 2), ("\ue013", 1), ("\ue011", 0)):  # down, down, up, home
            self.browser.press(":focus", key)
            self.assertEqual(self.browser.run(focused), want)
        seen = "return getComputedStyle(document.activeElement.closest('.step').querySelector('.more')).display"
        self.assertEqual(self.browser.run(seen), "block")
        self.assertEqual(self.browser.run("return document.querySelectorAll('.equations .used').length"), 1)
        self.assertEqual(self.browser.run("return document.querySelector('.chain').querySelectorAll('[tabindex=\"0\"]').length"), 1)

    def test_what_is_checked_within_a_second(self) -> None:
        if os.getloadavg()[0] > BUSY:
            self.skipTest(f"the machine is busy (load {os.getloadavg()[0]:.0f}), and no time is compared")
        statement = GALLERY["two_sided_equation_condition"]
        report = subprocess.run([program(), "prove", str(statement)], stdout=subprocess.PIPE, timeout=120).stdout.decode()
        self.show(self.page(statement.read_text("utf-8"), report))
        self.assertLess(self.browser.run("return performance.getEntriesByType('navigation')[0].loadEventEnd"), 1000)


class Changed(Shown):
    def test_a_changed_coefficient_is_refused(self) -> None:
        statement, evidence = EXAMPLES / "pasted_squares.op", EXAMPLES / "pasted_squares.cert"
        text, before = page_of(statement, [evidence]), evidence.read_bytes()
        after = before.replace(b"row 1 ", b"row 2 ", 1)
        self.assertNotEqual(before, after)
        changed = text.replace(base64.b64encode(before).decode(), base64.b64encode(after).decode())
        self.assertNotEqual(text, changed)
        self.show(changed)
        ((kind, line),) = self.checks()
        # The first row counts twice: what it adds is not in the claim.
        self.assertEqual(kind, "check wrong")
        self.assertRegex(line, "^# block 1 refused C6 word .* want [-0-9]+ got [-0-9]+$")
        self.assertEqual(self.browser.run("return document.querySelector('#checked').className"), "wrong")

    def test_a_changed_step_is_refused(self) -> None:
        text = page_of(EXAMPLES / "pseudoinverses.op", [EXAMPLES / "pseudoinverses.cert"])
        steps = re.findall('<div class="step" role="listitem"><span>=</span>.*', text)
        changed = [(steps[4], steps[4].replace(">a<", ">x<", 1)), (steps[2], re.sub('#a[0-9]+"', '#a1"', steps[2])), (steps[-1] + "\n", "")]
        for old, new in changed:
            self.assertEqual((text.count(old), old == new), (1, False))
            self.show(text.replace(old, new))
            self.assertEqual(self.browser.run("return document.querySelector('.check').className"), "check wrong")
            self.assertEqual(self.browser.run("return document.querySelector('#checked').className"), "wrong")
            self.assertRegex(self.texts(".check")[0], "; what is shown is not a proof: (step [0-9]+|the ends)")

    def test_a_changed_statement_is_refused(self) -> None:
        statement, evidence = EXAMPLES / "pasted_squares.op", EXAMPLES / "pasted_squares.cert"
        before = statement.read_bytes()
        faulty, other = before.replace(b"claim", b"clam"), before.replace(b"= b2 b1 x", b"= z a2 a1")
        for after, want in ((faulty, "# refused S3 line 11 column 1"), (other, "C6")):
            text = page_of(statement, [evidence]).replace(base64.b64encode(before).decode(), base64.b64encode(after).decode())
            self.show(text)
            ((kind, line),) = self.checks()
            self.assertEqual(kind, "check wrong")
            self.assertIn(want, line)

    def test_text_of_a_statement_is_text(self) -> None:
        marks = "<script>document.title = 'met'</script><img src=x onerror=\"document.title = 'met'\"> & &lt;"
        statement = f"# {marks}\nobject U\nmap a : U -> U\n# </pre>{marks}\nclaim a = a\n"
        path = self.written("a <b> & \"c\".op", statement)
        report = self.written("<i>.cert", f"# {marks}\ncertificate 1\nclaim 1\ndenominator 1\nend\n")
        self.show(page_of(path, [report], title=marks, comment="--> " + marks, links=[(marks, "other.html\"><b>")]))
        self.all_right(1)
        self.assertEqual(self.browser.run("return document.title"), marks)
        self.assertEqual(self.browser.run("return document.querySelector('.source').textContent"), statement.rstrip("\n"))
        self.assertEqual(self.browser.run("return document.querySelectorAll('script').length"), 3)
        self.assertEqual(self.browser.run("return document.querySelectorAll('img, b:not(.w b), i:not(.meaning i)').length"), 0)
        names = self.browser.run("return [...document.querySelectorAll('a.file')].map((at) => at.download)")
        self.assertEqual(names, [path.name, report.name])

    def test_a_page_can_load_nothing(self) -> None:
        self.show(self.page(INVERSES, MODEL))
        with socket.socket() as listener:
            listener.bind(("127.0.0.1", 0))
            listener.listen()
            self.browser.run(
                "window.refused = 0; document.addEventListener('securitypolicyviolation', () => { window.refused++; });"
                "const add = (name, more) => document.body.append(Object.assign(document.createElement(name), more));"
                "const there = `http://127.0.0.1:${arguments[0]}/`; fetch(there).catch(() => {});"
                "add('img', { src: there }); add('script', { textContent: 'window.ran = true' }); add('iframe', { src: there });",
                listener.getsockname()[1],
            )
            self.browser.wait("return window.refused >= 4")
            self.assertIsNone(self.browser.run("return window.ran === undefined ? null : window.ran"))
            self.assertEqual(said_to(listener), b"")


class Written(unittest.TestCase):
    """What needs no browser."""

    def test_the_stored_page_is_made_again(self) -> None:
        again = page_of(EXAMPLES / "pseudoinverses.op", [EXAMPLES / "pseudoinverses.cert"], title="Moore-Penrose inverses that commute")
        self.assertEqual(STORED.read_text("utf-8"), again, "the stored page is another one: see docs/GUIDE.md for the call that makes it")

    def test_a_page_is_small_and_holds_its_bytes(self) -> None:
        statement = GALLERY["moore_penrose_unique"]
        evidence = EXAMPLES / "pseudoinverses.cert"
        self.assertLess(len(page_of(EXAMPLES / "pseudoinverses.op", [evidence]).encode()), MOST)
        text = page_of(EXAMPLES / "pseudoinverses.op", [evidence])
        held = re.findall('href="data:application/octet-stream;base64,([^"]*)"', text)
        self.assertEqual([base64.b64decode(data) for data in held], [(EXAMPLES / "pseudoinverses.op").read_bytes(), evidence.read_bytes()])
        report = subprocess.run([program(), "prove", str(statement)], stdout=subprocess.PIPE, timeout=120).stdout
        with tempfile.TemporaryDirectory() as folder:
            path = Path(folder, "report")
            path.write_bytes(report)
            self.assertLess(len(page_of(statement, [path]).encode()), MOST)

    def test_what_is_wrong_is_told_with_the_statuses_of_the_program(self) -> None:
        with tempfile.TemporaryDirectory() as name:
            folder = Path(name)
            (folder / "bad.op").write_text("object U\nclaim\n")
            (folder / "good.op").write_text(INVERSES)
            (folder / "empty").write_text("# nothing\n")
            (folder / "latin").write_bytes(b"# \xff\n")
            (folder / "bad.cert").write_text("certificate 1\nclaim 1\ndenominator 1\nend\n")
            for words, status, line in (
                (["good.op"], 2, "(?s:usage: .*)"), (["good.op", "--what", "x"], 2, "(?s:usage: .*)"),
                (["bad.op", "bad.cert"], 3, "# refused S3 line 2 column 6"), (["good.op", "none"], 4, "# load failed none"),
                (["good.op", "good.op"], 7, "# refused K2 line 1"), (["good.op", "empty"], 7, "# refused K7"),
                (["good.op", "latin"], 7, "# refused K1"),
                (["good.op", "bad.cert"], 7, "# block 1 refused C6 word .U. want -1 got 0"),
            ):  # fmt: skip
                done = self.run_in(folder, words)
                self.assertEqual((done.returncode, done.stdout), (status, ""), words)
                self.assertRegex(done.stderr, f"^{line}\n$")

    def run_in(self, folder: Path, words: List[str], out: Optional[int] = subprocess.PIPE) -> "subprocess.CompletedProcess[str]":
        package = str(Path(__file__).resolve().parents[1] / "src")
        return subprocess.run(
            [sys.executable, "-m", "opprove", "page", *words], cwd=str(folder), stdout=out, stderr=subprocess.PIPE, encoding="utf-8",
            env={**os.environ, "PYTHONPATH": package},
        )  # fmt: skip

    def test_a_refusal_is_raised(self) -> None:
        with self.assertRaises(Refusal):
            page_of(EXAMPLES / "equal_maps.op", [EXAMPLES / "equal_maps_refused.cert"])
