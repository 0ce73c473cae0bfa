"""A small library as a site: its lines and statuses, its links, and in a browser the index, its box, and that each page checks itself."""
from __future__ import annotations

import os
import re
import subprocess
import sys
import tempfile
import unittest
from pathlib import Path
from typing import Dict
from urllib.parse import unquote

from browser import Browser, Links
from opprove.page.pages import fields_of
from opprove.program import path as path_of_program

PACKAGE = str(Path(__file__).resolve().parents[1] / "src")
MARKS = "<b onclick=\"x\">'&amp;"
HEAD = f"# THEOREM: A product of {MARKS} units\n#   is a unit.\n# SOURCE: folklore\n"
HEAD += "# LEAVES OUT: the converse\n# VERDICT: proved, by --pairs 500\n"
UNIT = "object V\nmap a x b y : V -> V\ninverse a x\ninverse b y\nclaim a b y x = [V]\n"
SPLIT = "object U V\nmap a : U -> V\nmap b : V -> U\nassume a b = [V]\nclaim b a = [U]\n"
MODEL = "model 1\nclaim 1\nmodulus 2\nside U 2\nside V 1\nmap a = 1 0\nmap b = 1 ; 0\nend\n"
RULES = "object X Y\nmap f g : X -> Y\nmap h : Y -> X\nassume f h g = g\nclaim h f h g = 0\nclaim h f h g = h g\n"
BASIS = "basis 1\nclaim 1\nrule f h g - g\nrest h g\nend\n"
FILES = {
    "rings/unit.op": HEAD + UNIT,
    "what_is_false/right_inverse.op": f"# VERDICT: refuted\n{SPLIT}",
    "what_is_false/right_inverse.model": MODEL,
    "rules.op": f"# A closed set of rules.\n{RULES}",
    "rules.cert": BASIS,
    "lemmas.tsv": "theorem\tlemma\tmaps\nrings/unit\trules\ta = s t, b = b\nrings/unit\trules\ta = t, b = s\n"
    "what_is_false/right_inverse\trings/unit\ta = a\nwhat_is_false/right_inverse\trules\ta = a\nno/page\trules\ta = a\n",
    "rings/cases.opn": "# THEOREM: when a is its square.\na : V -> V\nequivalent:\n  (i) a a = a\n  (ii) a - a a = 0\n",
}
LINES = [
    "rules.html  not derivable, proved", "rings/cases-i-ii.html  proved", "rings/cases-ii-i.html  proved", "rings/unit.html  proved",
    "what_is_false/right_inverse.html  refuted",
]  # fmt: skip


class Site(unittest.TestCase):
    folder: "tempfile.TemporaryDirectory[str]"
    out: Path
    said: "subprocess.CompletedProcess[str]"

    @classmethod
    def setUpClass(cls) -> None:
        if not os.access(path_of_program(), os.X_OK):
            print("skipped: opprove is not built", flush=True)
            raise unittest.SkipTest("opprove is not built")
        cls.folder = tempfile.TemporaryDirectory(prefix="opprove-pages-")
        cls.out = Path(cls.folder.name, "site")
        cls.said = cls.made("library", FILES, cls.out)

    @classmethod
    def tearDownClass(cls) -> None:
        cls.folder.cleanup()

    @classmethod
    def made(cls, name: str, files: Dict[str, str], out: Path) -> "subprocess.CompletedProcess[str]":
        library = Path(cls.folder.name, name)
        for place, text in files.items():
            (library / place).parent.mkdir(parents=True, exist_ok=True)
            (library / place).write_text(text, "utf-8")
        command = [sys.executable, "-m", "opprove", "pages", str(library), str(out), "--jobs", "2"]
        return subprocess.run(command, env={**os.environ, "PYTHONPATH": PACKAGE}, capture_output=True, encoding="utf-8", timeout=120)

    def test_a_line_for_each_statement(self) -> None:
        self.assertEqual((self.said.returncode, self.said.stdout.splitlines(), self.said.stderr), (0, LINES, ""))

    def test_links_lead_to_what_is_there(self) -> None:
        pages = sorted(self.out.rglob("*.html"))
        self.assertEqual(len(pages), 1 + len(LINES))
        read = {page.resolve(): Links(page.read_text("utf-8")) for page in pages}
        reached = set()
        for page, links in read.items():
            for address in links.addresses:
                place, _, anchor = address.partition("#")
                target = (page.parent / unquote(place)).resolve() if place else page
                self.assertIn(target, read, address)
                self.assertTrue(not anchor or unquote(anchor) in read[target].anchors, address)
                reached |= {target} if page.name == "index.html" else set()
        self.assertEqual(reached, set(read))

    def test_text_is_no_markup(self) -> None:
        for page in (self.out / "index.html", self.out / "rings" / "unit.html"):
            text = page.read_text("utf-8")
            self.assertNotIn("<b onclick", text)
            bare = re.sub('<span class="w">([^<]*)</span>', r"\1", text)
            self.assertIn("&lt;b onclick=&quot;x&quot;&gt;&#x27;&amp;amp; units is a unit.", bare)

    def test_what_is_proved_from_what(self) -> None:
        unit, index = (self.out.joinpath(name).read_text("utf-8") for name in ("rings/unit.html", "index.html"))
        put = '<span class="w">a = s t</span>; <span class="w">a = t</span>, <span class="w">b = s</span>'  # but for b = b
        self.assertIn(f'<p class="about">Proved from <a href="../rules.html">rules</a> with {put}</p>', unit)
        self.assertIn('<p class="about">Used in <a href="../what_is_false/right_inverse.html">right inverse</a></p>', unit)
        groups = re.findall('<g>(<path d="([^"]*)"/>)?<a href="([^"]*)">', index)
        arrows = {address: path.count("M") for _, path, address in groups}
        # That from rules to right inverse is left out, as unit lies between.
        self.assertEqual(arrows, {"rules.html": 1, "rings/unit.html": 1, "what_is_false/right_inverse.html": 0})

    def test_comments_by_their_words(self) -> None:
        want = {"THEOREM": "It holds.", "SOURCE": "A 1900", "ASSUMES": "", "LEAVES OUT": "", "VERDICT": "proved"}
        self.assertEqual(fields_of(["THEOREM: It", "holds.", "SOURCE: A 1900", "VERDICT: proved"]), want)
        self.assertEqual(fields_of(["It", "holds."])["THEOREM"], "It holds.")

    def test_faults_are_said_at_the_end(self) -> None:
        braid = "# VERDICT: proved, by --pairs 2 --no-models\nobject V\nmap a b : V -> V\nassume b a b = a b a\nclaim a = b\n"
        for files, status, line in (
            ({"s.op": "object V\nclaim a = [V]\n", "t.op": UNIT}, 3, "s.html: # refused S6 line 2 column 7"),
            ({"s.op": SPLIT, "s.model": MODEL.replace("1 ; 0", "0 ; 0")}, 7, "s.html: # block 1 refused "),
            ({"s.op": HEAD + SPLIT, "s.model": MODEL}, 7, "s.html: claim 1 is refuted, and its comments say: proved, by --pairs 500"),
            ({"s.opn": "a b : \n"}, 3, "s.opn: # refused S3 line 1 column 6"), ({"s.op": braid}, 7, "s.html: claim 1 is undecided"),
            ({"index.op": UNIT}, 5, "# not written index.html: two pages have this name"), ({"s.txt": ""}, 4, "# load failed "),
        ):  # fmt: skip
            with tempfile.TemporaryDirectory(dir=self.folder.name) as folder:
                said = self.made(f"{folder}/library", files, Path(folder, "site"))
                self.assertEqual(said.returncode, status, said.stderr)
                self.assertIn(line, said.stderr)
                self.assertNotIn("Traceback", said.stderr)

    def test_in_a_browser(self) -> None:
        browser = Browser()
        self.addCleanup(browser.close)
        for page in sorted(self.out.rglob("*.html")):
            browser.open("about:blank")
            browser.requests(), browser.logs()
            browser.open(page.resolve().as_uri())
            if page.name != "index.html":
                self.assertEqual(browser.wait("return document.querySelector('#checked').className"), "right", page)
            self.assertEqual([it for it in browser.requests() if not it.startswith("data:")], [page.resolve().as_uri()])
            self.assertEqual(browser.logs(), [])

    def test_the_box_finds_theorems(self) -> None:
        browser = Browser()
        self.addCleanup(browser.close)
        browser.open((self.out / "index.html").resolve().as_uri())
        find = "const box = document.querySelector('#find'); box.value = arguments[0]; box.dispatchEvent(new Event('input'));"
        seen = "return [...document.querySelectorAll('.theorem:not([hidden])')].map((at) => at.querySelector('a').textContent)"
        for asked, want in (
            ("UNIT product", ["unit"]), ("q r = [W]", ["unit", "right inverse"]), ("[W] = q r", ["unit", "right inverse"]),
            ("s : P -> Q, false", []), ("s : P -> Q", ["rules", "right inverse"]), ("e e = e", ["cases-i-ii"]), ("q r = r q", []),
            ("", ["rules", "cases-i-ii", "unit", "right inverse"]),
        ):  # fmt: skip
            self.assertEqual(browser.run(find + seen, asked), want, asked)
        shown = "return [...document.querySelectorAll('section:not([hidden])')].map((at) => at.id)"
        self.assertEqual(browser.run(f"{find} {shown}", "product"), ["rings"])
        self.assertEqual(browser.run("return document.querySelector('#count').textContent"), "1 of 4 theorems")
        browser.run(find, "")
        signs = "return [...document.querySelectorAll('.theorem > .verdict')].map((at) => at.textContent)"
        self.assertEqual(browser.run(signs), ["not derivable", "proved", "2 proved", "proved", "refuted"])
