"""Tries what all tools have in common: words and pages, statuses, files that are pipes, and how the package is found."""
from __future__ import annotations

import ast
import os
import re
import subprocess
import sys
import textwrap
import unittest
from pathlib import Path
from typing import List
from unittest.mock import patch

import opprove
from opprove.cli import TOOLS
from trying import EXAMPLES, GALLERY, PROGRAM, SOURCE, TOP, Answer, checker, run, tool

STATEMENT, EVIDENCE = EXAMPLES / "pseudoinverses.op", EXAMPLES / "pseudoinverses.cert"
OF_FILES = {"chain": 2, "coq": 2, "latex": 2, "singular": 2, "sympy": 2, "second-check": 2, "picture": 1, "shorten": 1, "candidates": 1}
FAULTY = "object U\nclaim a = 0\n"
REFUSED = EXAMPLES / "equal_maps_refused.cert"


def answer(*words: object, **more: str) -> Answer:
    """The answer of a tool, by its word, with no program but the one that is named."""
    command = [*tool(str(words[0])), *map(str, words[1:])]
    environment = {**{name: value for name, value in os.environ.items() if name != "OPPROVE"}, **more}
    done = subprocess.run(command, stdin=subprocess.DEVNULL, capture_output=True, env=environment, timeout=120)
    return Answer(done.returncode, done.stdout.decode(), done.stderr.decode())


class Words(unittest.TestCase):
    def test_pages(self) -> None:
        """`help WORD`, `WORD --help` and `WORD -h` show one page, and `help` has a line for each tool."""
        listed = answer("help").out
        for one in TOOLS:
            with self.subTest(tool=one.word):
                pages = [answer("help", one.word), answer(one.word, "--help"), answer(one.word, "-h")]
                self.assertEqual(pages[1:], pages[:1] * 2)
                self.assertEqual((pages[0].status, pages[0].error), (0, ""))
                self.assertGreater(len(pages[0].out.splitlines()), 4)
                self.assertRegex(listed, rf"(?m)^  {one.word} +\S")

    def test_unknown(self) -> None:
        for word, meant in (("chian", "chain"), ("Picture", "picture"), ("second_check", "second-check"), ("qqqqqq", "")):
            with self.subTest(word=word):
                found = answer(word, "x", OPPROVE=str(TOP / "none"))
                self.assertEqual(found.status, 2)
                self.assertEqual(re.findall("did you mean '(.*)'", found.error), [meant] * (meant != ""))
        found = answer("prove", "x", OPPROVE=str(TOP / "none"))
        self.assertEqual((found.status, found.error.split(",")[0]), (2, "opprove: 'prove' is a command of the program"))

    def test_version(self) -> None:
        version = (TOP / "VERSION").read_text().strip()
        self.assertEqual(answer("version").out.split("\n")[0], f"opprove {version}")
        self.assertEqual((opprove.__version__, answer("--version").out), (version, answer("version").out))

    def test_wrong_words(self) -> None:
        for one in TOOLS:
            if one.word != "why":  # all words are the program's
                with self.subTest(tool=one.word):
                    found = answer(one.word, "--no-such-word")
                    self.assertEqual((found.status, found.out, "Traceback" in found.error), (2, "", False))
                    self.assertTrue(found.error.startswith(("usage: ", "opprove ")), found.error)


class Statuses(unittest.TestCase):
    def tried(self, words: List[object], status: int, line: str) -> None:
        with self.subTest(words=words):
            found = run(*words)
            self.assertEqual((found.status, (found.out + found.error).split("\n")[0].split(": there")[0]), (status, line))

    def test_tools(self) -> None:
        faulty, none = Path(self.file(FAULTY)), TOP / "none"
        for word, files in OF_FILES.items():
            self.tried([*tool(word), none, EVIDENCE][: 4 + files], 4, f"# load failed {none}")
            self.tried([*tool(word), faulty, EVIDENCE][: 4 + files], 3, "# refused S6 line 2 column 7")
            if files == 2:
                self.tried([*tool(word), STATEMENT, none], 4, f"# load failed {none}")
                self.tried([*tool(word), STATEMENT, os.devnull], 7, "# refused K7")
        self.tried([*tool("second-check"), EXAMPLES / "equal_maps.op", REFUSED], 7, "# block 1 refused C6 word b want 0 got -1")
        self.tried([*tool("chain"), EXAMPLES / "equal_maps.op", REFUSED], 7, "# block 1 refused C6 word b want 0 got -1")

    def test_second_checkers(self) -> None:
        """Each is run by itself, and has the statuses of the program."""
        faulty, none = self.file(FAULTY), TOP / "none"
        for name in ("check", "check_model", "confirm", "cancel", "explain", "star"):
            self.tried([*checker(name), faulty, EVIDENCE], 3, "# refused S6 line 2 column 7")
            self.tried([*checker(name), STATEMENT, none], 4, f"# load failed {none}")
            self.tried([*checker(name), STATEMENT, os.devnull], 7, "# refused K7")
            found = run(*checker(name), STATEMENT)
            self.assertEqual((found.status, found.out.startswith(f"# usage: {name}.py STATEMENT ")), (2, True), found)
        self.tried([*checker("tree"), faulty], 3, "# refused S6 line 2 column 7")
        self.tried([*checker("candidates"), faulty], 3, "# refused S6 line 2 column 7")

    def file(self, text: str) -> Path:
        path = Path(self.id().split(".")[-1] + ".op")
        path = Path(os.environ.get("TMPDIR", "/tmp"), f"opprove-{os.getpid()}-{path}")
        path.write_text(text)
        self.addCleanup(path.unlink)
        return path

    def test_no_proof(self) -> None:
        """A report without a proof is answered in words."""
        report = self.file("# claim 1 not derivable rules 7\nbasis 1\nclaim 1\nrest b a - [U]\nend\n")
        for word in ("chain", "latex", "singular", "sympy"):
            found = run(*tool(word), GALLERY["one_sided_inverse"], report)
            said = "# refused K7: there is no proof to be written: claim 1 is not derivable\n"
            self.assertEqual(found, Answer(7, "", said), word)

    def test_pipes(self) -> None:
        """What is read is read once, so that a pipe does as well as a file."""
        for word, files in OF_FILES.items():
            if word != "shorten":
                with self.subTest(tool=word):
                    want = run(*tool(word), *[STATEMENT, EVIDENCE][:files])
                    paths = [f"<(cat {path})" for path in (STATEMENT, EVIDENCE)][:files]
                    found = run("bash", "-c", " ".join([*tool(word), *paths]))
                    self.assertEqual(found, want)
        for command in (tool("second-check"), checker("check")):
            with EVIDENCE.open("rb") as file:
                done = subprocess.run([*command, STATEMENT, "/dev/stdin"], stdin=file, capture_output=True)
            self.assertEqual((done.returncode, done.stdout), (0, b"# block 1 accepted claim 1 denominator 1\n"))


class Package(unittest.TestCase):
    def test_example(self) -> None:
        """The example of `help(opprove)` has ten lines, and runs."""
        lines = textwrap.dedent(re.findall(r"\n\n((?:    .*\n|\n)+)", opprove.__doc__ or "")[0]).strip().split("\n")
        self.assertEqual(len([line for line in lines if line]), 10)
        if not os.access(PROGRAM, os.X_OK):
            self.skipTest("opprove isn't built")
        with patch.dict(os.environ, OPPROVE=str(PROGRAM)):
            done = run(sys.executable, "-c", "\n".join(lines))
        self.assertEqual((done.status, done.out.split("\n")[0].split(" Claim")[0], done.error), (0, "x = y: proved denominator 1 rows 23 True", ""))

    def test_help(self) -> None:
        done = run(sys.executable, "-c", "import opprove; help(opprove)")
        self.assertEqual(done.status, 0)
        self.assertIn("from opprove import Statement", done.out[:400])

    def test_no_patches(self) -> None:
        """No file changes where modules are found, or how they are imported."""
        for path in [*SOURCE.glob("**/*.py"), *(TOP / "dev").glob("*.py"), *(TOP / "python" / "tests").glob("*.py")]:
            for node in ast.walk(ast.parse(path.read_text(encoding="utf-8"))):
                found = [node.value.id, node.attr] if isinstance(node, ast.Attribute) and isinstance(node.value, ast.Name) else []
                self.assertNotIn(found, (["sys", "path"], ["builtins", "__import__"]), path)
                self.assertFalse(isinstance(node, ast.Name) and node.id == "__import__", path)

    def test_start(self) -> None:
        """A tool loads no module of another one: not that of the searches, of pages, of words or of notebooks."""
        code = "import sys; from opprove import cli; cli.main(sys.argv[1:]); print(*sorted(sys.modules), file=sys.stderr)"
        loaded = run(sys.executable, "-c", code, "picture", STATEMENT).error.split()
        others = {"opprove.search", "opprove.page", "opprove.notation", "opprove.statements", "opprove.verdicts", "http.server"}
        self.assertEqual(others & {*loaded}, set())

    @unittest.skipIf(sys.version_info < (3, 10), "this Python doesn't list its library")
    def test_independence(self) -> None:
        """A second checker imports nothing but the standard library and files of its own folder."""
        folder = SOURCE / "opprove" / "checkers"
        own = {path.stem for path in folder.glob("*.py")}
        for path in folder.glob("*.py"):
            for node in ast.walk(ast.parse(path.read_text(encoding="utf-8"))):
                if isinstance(node, ast.ImportFrom) and node.level == 0 or isinstance(node, ast.Import):
                    names = [node.module or ""] if isinstance(node, ast.ImportFrom) else [name.name for name in node.names]
                    self.assertTrue({name.split(".")[0] for name in names} <= own | {*sys.stdlib_module_names}, (path, names))
                elif isinstance(node, ast.ImportFrom):
                    names = [node.module] if node.module else [name.name for name in node.names]
                    self.assertTrue(node.level == 1 and {*names} <= own, (path, names))

    def test_lines(self) -> None:
        """The header of a second checker says how many lines a referee reads: those of the file, and of what it imports."""
        for name, files in read_files().items():
            text = (SOURCE / "opprove" / "checkers" / f"{name}.py").read_text(encoding="utf-8")
            lines = sum((SOURCE / "opprove" / "checkers" / f"{file}.py").read_text(encoding="utf-8").count("\n") for file in files)
            said = re.search(r"A referee reads ([0-9,]+) lines", text)
            self.assertTrue(said, name)
            self.assertLessEqual(abs(int(said[1].replace(",", "")) - lines), 20, (name, lines))  # type: ignore[index]


def read_files() -> "dict[str, set[str]]":
    """The files of the second checkers, each with those that it stands on and itself."""
    folder = SOURCE / "opprove" / "checkers"
    uses = {path.stem: {*re.findall(r"^    from \.(\w+) import ", path.read_text(encoding="utf-8"), re.MULTILINE)} for path in folder.glob("*.py")}
    found = {name: {name} for name in uses if name not in ("__init__", "chain_text", "tree")}
    for files in found.values():
        while not files >= {other for name in files for other in uses[name]}:
            files |= {other for name in files for other in uses[name]}
    return found
