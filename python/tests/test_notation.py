"""The notation: expansions and faults that were worked out by hand, and random files whose equations have the same values."""
from __future__ import annotations

import os
import re
import subprocess
import sys
import tempfile
import unittest
from typing import Callable, List, Sequence, Tuple, Union

from notation_rows import FILES, ROWS, SHORT, USED
from notation_values import Written, generators_of, is_zero, values_of
from opprove import Refused, Statement, program
from opprove.checkers import check
from opprove.checkers.check import Refusal
from opprove.notation.expand import as_statement
from opprove.notation.expansion import Expansion
from opprove.notation.implications import circles
from opprove.notation.parts import SENTENCES
from opprove.notation.reader import TABLE, table
from opprove.notation.shorten import Shortener

TOP = os.path.join(os.path.dirname(os.path.abspath(__file__)), "..", "..")
LIBRARY, FORMATS = os.path.join(TOP, "library"), os.path.join(TOP, "docs", "FORMATS.md")
SCRIPT = os.path.join(TOP, "opprove")
ENVIRONMENT = {**os.environ, "PYTHONPATH": os.environ.get("PYTHONPATH", "")}
COUNT = int(os.environ.get("OPPROVE_RANDOM", "100"))  # of random files


def lines(text: str) -> str:
    return "".join(line.strip() + "\n" for line in text.split("|"))


def told(path: str) -> Union[str, List[str]]:
    """The expansion of a file in the form of the rows, or its fault."""
    try:
        statements = Expansion(path).statements()
    except Refusal as refusal:
        return fault(refusal)
    texts = [re.sub(r"# expanded from f.opn\n|language 2\n", "", each.text).strip("\n").replace("\n", " | ") for each in statements]
    return texts[0] if len(texts) == 1 else [f"{each.name}: {text}" for each, text in zip(statements, texts)]


def fault(refusal: Refusal) -> str:
    return re.sub(r" (line|column) |:.*|# refused ", lambda found: " " * (found.group(1) is not None), str(refusal))


def shortened(path: str) -> str:
    try:
        return Shortener(path).written().strip("\n").replace("\n", " | ")
    except Refusal as refusal:
        return fault(refusal)


class Rows(unittest.TestCase):
    def compare(self, rows: Sequence[Tuple[str, object]], told: Callable[[str], object] = told) -> None:
        with tempfile.TemporaryDirectory() as folder:
            os.mkdir(os.path.join(folder, "more"))
            for name, text in FILES.items():
                with open(os.path.join(folder, name), "w", encoding="utf-8") as file:
                    file.write(lines(text))
            for text, want in rows:
                path = os.path.join(folder, "f.opn")
                with open(path, "w", encoding="utf-8") as file:
                    file.write(lines(text))
                with self.subTest(text):
                    self.assertEqual(told(path), want)

    def test_rows(self) -> None:
        self.compare(ROWS)

    def test_each_fault_has_a_row(self) -> None:
        """Each code of the page has a sentence, and each a row but S1, which no text has, S13, which is left to the program, and N12."""
        with open(FORMATS, encoding="utf-8") as file:
            page = set(re.findall(r"^\| (N[0-9]+) \|", file.read(), re.MULTILINE))
        self.assertEqual(page, {code for code in SENTENCES if code[0] == "N"})
        rows = {want.split()[0] for _, want in [*ROWS, *USED] if isinstance(want, str)}
        self.assertEqual({*SENTENCES} - rows, {"S1", "N12"})
        with self.assertRaisesRegex(Refusal, "^# refused S1 byte 4$"):
            Expansion("", b"a : \xff").statements()

    def test_pages_and_editors_have_each_word(self) -> None:
        names = {" ".join(word.opening()) for word in table()}
        with open(FORMATS, encoding="utf-8") as file:
            page = file.read().partition("\n### Words\n")[2].partition("\n### ")[0]
        told = {" ".join(part.split()) for part in re.findall(r"`([a-z0-9][a-z0-9 ]*?)(?: [a-z](?![a-z])|`)", page)}
        self.assertEqual(names - told, set())
        for path, blanks in (("vim/syntax/opprovenotation.vim", r"\s\+"), ("textmate/opn.tmLanguage.json", r"\\s+")):
            with open(os.path.join(TOP, "editors", path), encoding="utf-8") as file:
                text = file.read()
            told = {part.replace(blanks, " ") for part in re.split(r"[|()]|\\[|()]", text.replace("\\|", "|"))}
            self.assertEqual(names - told, set())

    def test_words_that_are_too_large(self) -> None:
        doubled = "".join(f"let w{n + 1} (a): w{n} (a a) | " for n in range(20))
        deep = "".join(f"let w{n + 1} (a): w{n} a | " for n in range(400))
        nested = "".join(f"let w{n + 1} (a): w{n} (a + 1) | " for n in range(400))
        for text, want in ((doubled + "w20 b", "N12 23 1"), (deep + "w100 b", "N12 403 1"), (nested + "w65 b", "S5 403 1")):
            self.compare([(f"let w0 (a): a = 0 | b : V -> V | {text} | claim b = 0", want)])
        self.compare([(f"let w0 (a): a = 0 | b : V -> V | {deep}w99 b | claim b", "N4 404 7")])

    @unittest.skipUnless(os.access(program.path(), os.X_OK), "no program is here")
    def test_the_program_reads_expansions(self) -> None:
        """What `check` says of an expansion and an empty evidence text is that of the text."""
        for text, want in ROWS:
            if not isinstance(want, str) or want.startswith("object"):
                with self.subTest(text), tempfile.TemporaryDirectory() as folder:
                    for statement in Expansion(os.path.join(folder, "f.opn"), lines(text).encode()).statements():
                        with self.assertRaisesRegex(Refused, r"\bK7\b"):
                            program.run(None, "check", [statement.text, ""], (), 60)

    def test_files_that_are_used(self) -> None:
        self.compare(USED)

    def test_shorten(self) -> None:
        self.compare(SHORT, shortened)


class Tools(unittest.TestCase):
    def run_tool(self, *words: str) -> Tuple[int, str, str]:
        done = subprocess.run([sys.executable, "-m", "opprove", *words], stdout=subprocess.PIPE, stderr=subprocess.PIPE, env=ENVIRONMENT)
        return done.returncode, done.stdout.decode(), done.stderr.decode()

    def setUp(self) -> None:
        folder = tempfile.TemporaryDirectory()
        self.addCleanup(folder.cleanup)
        self.path = os.path.join(folder.name, "f.opn")

    def write(self, text: str) -> None:
        with open(self.path, "w", encoding="utf-8") as file:
            file.write(lines(text))

    def test_statements_are_printed(self) -> None:
        self.write("a b : V -> V | range a in b | claim a = b | claim x: a = 0")
        status, out, error = self.run_tool("expand", self.path)
        names = [line for line in out.split("\n") if line.startswith("# statement")]
        self.assertEqual((status, names, error), (0, ["# statement f", "# statement f-x"], "# made k line 2 column 1\n"))
        self.assertEqual(self.run_tool("expand", self.path, "--only", "f-x")[1].split("\n")[-2], "claim a = 0")
        self.assertEqual(self.run_tool("expand", self.path, "--only", "g")[0], 5)

    def test_the_table_is_a_file_that_is_used(self) -> None:
        self.write(f"use {TABLE} | a b : V -> V | commute a b | claim a = b")
        self.assertEqual(self.run_tool("expand", self.path)[0], 0)
        with open(TABLE, encoding="utf-8") as file:
            self.assertEqual(self.run_tool("expand", "--words"), (0, file.read(), ""))

    @unittest.skipUnless(os.access(program.path(), os.X_OK), "no program is here")
    def test_commands_take_files_of_the_notation(self) -> None:
        self.write("pinv a x | normal a | claim a x = x a")
        folder = os.path.dirname(self.path)
        environment = {**ENVIRONMENT, "OPPROVE": program.path(), "OPPROVE_QUIET": "1"}

        def run(*words: str) -> Tuple[int, List[str], List[str]]:
            done = subprocess.run([SCRIPT, *words], stdout=subprocess.PIPE, stderr=subprocess.PIPE, env=environment, cwd=folder)
            return done.returncode, done.stdout.decode().splitlines(), done.stderr.decode().splitlines()

        status, report, told = run("prove", "f.opn")
        self.assertEqual((status, report[0]), (0, "# claim 1 proved denominator 1 rows 22"))
        self.assertEqual(told, ["# made V line 1 column 6", "# expanded f.opn: f.op"])
        with open(os.path.join(folder, "report"), "w", encoding="utf-8") as file:
            file.write("\n".join(report) + "\n")
        self.assertEqual(run("check", "f.opn", "report")[:2], (0, ["# block 1 accepted claim 1 denominator 1"]))
        self.write("a b : V -> V | claim a = 0 if a = b, b = 0 | claim a = b if a = 0 | claim b = 0 if a = b")
        status, report, told = run("prove", "--no-models", "f.opn", "--pairs", "10")
        heads = [line for line in report if line.startswith("# statement") or line.startswith("# claim")]
        self.assertEqual(heads[::2], ["# statement f-1.op", "# statement f-2.op", "# statement f-3.op"])
        self.assertEqual((status, [head.split()[3] for head in heads[1::2]]), (10, ["proved", "not", "not"]))
        self.write("a : V -> V | claim a = b")
        self.assertEqual(run("prove", "f.opn"), (3, [], [f"# refused S6 line 2 column 11: {SENTENCES['S6']}"]))

    def test_circles_of_cases(self) -> None:
        marks, yes = ["i", "ii", "iii", "iv"], {("i", "ii"), ("ii", "iii"), ("iii", "i"), ("iii", "iv")}
        answers = {(one, two): "yes" if (one, two) in yes else "yes/2" for one in marks for two in marks}
        self.assertEqual(circles(marks, answers), [["i", "ii", "iii"]])

    @unittest.skipUnless(os.access(program.path(), os.X_OK), "no program is here")
    def test_implications(self) -> None:
        self.write("a b : V -> V | equivalent: (i) a = 0 (ii) 2 a = 0 (iii) b = 0 | equivalent x: (i) a b = b a (ii) commute b a, a = a")
        table = ["f      (i)    (ii)   (iii)", "(i)           yes    -", "(ii)   yes/2         -", "(iii)  -      -"]
        table += ["f-x   (i)   (ii)", "(i)         yes", "(ii)  yes", "equivalent: (i) (ii)"]
        self.assertEqual(self.run_tool("implications", self.path, "--no-models"), (0, "".join(f"{line}\n" for line in table), ""))

    def test_many_files(self) -> None:
        for number in range(51):
            with open(os.path.join(os.path.dirname(self.path), f"w{number}.opn"), "w", encoding="utf-8") as file:
                file.write(f"let w{number} (a): a = 0\n")
        used = " | ".join(f"use w{number}.opn" for number in range(51))
        self.write(f"{used} | w0 b | claim b = 0")
        self.assertRegex(self.run_tool("expand", self.path)[2], "^# refused N1 line 51 column 1: ")
        self.write(f"{used[:-12]} | w49 b | claim b = 0")
        self.assertEqual(self.run_tool("expand", self.path)[0], 0)

    def test_many_statements(self) -> None:
        self.write("a : V -> V | " + " | ".join(f"claim l{number}: a = 0" for number in range(401)))
        self.assertRegex(self.run_tool("expand", self.path)[2], "^# refused S8 line 402 column 1 limit 400: ")

    def test_statements_are_written(self) -> None:
        self.write("a b : V -> V | equivalent: (i) a = 0 (ii) b = 0")
        place = os.path.join(os.path.dirname(self.path), "made")
        paths = [os.path.join(place, f"f-{name}.op") for name in ("i-ii", "ii-i")]
        told = "".join(f"# expanded {self.path}: {path}\n" for path in paths)
        self.assertEqual(self.run_tool("expand", "--folder", place, self.path), (0, "".join(f"{path}\n" for path in paths), told))
        self.assertEqual(self.run_tool("expand", "--folder", place, self.path)[0], 0)  # over its own statements
        with open(paths[0], "w", encoding="utf-8") as file:
            file.write("object V\n")
        status, out, error = self.run_tool("expand", "--folder", place, self.path)
        self.assertEqual((status, out, error), (5, "", f"# not written {paths[0]}: it is there, and was written by hand\n"))

    def test_what_is_refused(self) -> None:
        self.assertEqual(self.run_tool("expand", self.path), (4, "", f"# load failed {self.path}\n"))
        self.write("a : V -> V | claim a = b")
        self.assertEqual(self.run_tool("expand", self.path), (3, "", f"# refused S6 line 2 column 11: {SENTENCES['S6']}\n"))
        self.assertEqual(self.run_tool("picture", self.path)[::2], (3, f"# refused S6 line 2 column 11: {SENTENCES['S6']}\n"))
        self.assertEqual(self.run_tool("expand")[0], 2)
        self.assertEqual(self.run_tool("shorten")[0], 2)
        self.assertEqual(self.run_tool("implications")[0], 2)

    def test_tools_take_files_of_the_notation(self) -> None:
        self.write("pinv a x | normal a | claim a x = x a")
        status, out, error = self.run_tool("picture", self.path, "--dot")
        path = os.path.join(os.path.dirname(self.path), "f.op")
        self.assertEqual((status, error), (0, f"# made V line 1 column 6\n# expanded {self.path}: {path}\n"))
        self.assertEqual(out, self.run_tool("picture", path, "--dot")[1])

    def test_texts_are_statements(self) -> None:
        statement = "# a\n object V\nmap a : V -> V\nclaim a = 0\n"
        self.assertEqual(as_statement(statement.encode()), statement.encode())
        want = "# expanded from a text\nlanguage 2\nobject V\nmap a : V -> V\nclaim a = 0\n"
        self.assertEqual(as_statement(b"a : V -> V\nclaim a = 0\n").decode(), want)
        self.assertRaisesRegex(Refusal, "^# refused N1 line 1 column 1", as_statement, b"use words.opn\nclaim a = 0\n")
        self.assertRaisesRegex(Refusal, "2 statements", as_statement, b"a : V -> V\nclaim a = 0\nclaim x: a = 1\n")

    def test_notebooks_read_them(self) -> None:
        self.write("a b : V -> V | equivalent: (i) a = 0 (ii) b = 0")
        self.assertEqual([*Statement.read_all(self.path)], ["f-i-ii", "f-ii-i"])
        self.assertEqual(Statement.read(self.path, "f-i-ii").claims, ["b = 0"])
        self.assertRaises(ValueError, Statement.read, self.path)
        self.write("a : V -> V | claim a = b")
        self.assertRaises(Refused, Statement.read, self.path)


class Values(unittest.TestCase):
    def test_random_files(self) -> None:
        """Assumptions, claims and generators of random files have the values that were computed without `expand`."""
        with tempfile.TemporaryDirectory() as folder:
            for seed in range(COUNT):
                with self.subTest(seed):
                    self.compare(Written(seed), folder)

    def compare(self, written: Written, folder: str) -> None:
        path = os.path.join(folder, "f.opn")
        with open(path, "w", encoding="utf-8") as file:
            file.write("".join(line + "\n" for line in written.lines))
        statements = Expansion(path).statements()
        self.assertEqual([each.name for each in statements], [each.name for each in written.statements])
        for statement, stated in zip(statements, written.statements):
            place = os.path.join(folder, "f.op")
            with open(place, "w", encoding="utf-8") as file:
                file.write(statement.text)
            problem = check.Problem(place)
            assumed, claimed = (
                [value for value in (each(written.values) for each in functions) if not is_zero(value)]
                for functions in (written.assumptions + stated.assumptions, stated.claims)
            )
            self.assertEqual(values_of(problem, problem.assumptions, written), assumed)
            self.assertEqual(values_of(problem, problem.claims, written), claimed)
            self.assertEqual(values_of(problem, problem.generators(), written), generators_of(assumed) if problem.is_starred else assumed)




@unittest.skipUnless(os.access(program.path(), os.X_OK) and os.path.isdir(LIBRARY), "no program, or no library, is here")
class Library(unittest.TestCase):
    def test_cases_give_one_another(self) -> None:
        """Each statement of the files with cases is proved with the denominator 1, and a second program accepts the certificates."""
        paths = [os.path.join(folder, name) for folder, _, names in os.walk(LIBRARY) for name in names if name.endswith(".opn")]
        for path in sorted(paths):
            for statement in Expansion(path).statements():
                with self.subTest(statement.name):
                    report = program.run(None, "prove", [statement.text], ("--no-models",), 60)
                    heads = [line for line in report.split("\n") if line.startswith("# claim")]
                    self.assertTrue(all(" proved denominator 1 " in head for head in heads), heads)
                    with program.files(statement.text, report) as files:
                        problem = check.Problem(files[0])
                        for certificate in check.Evidence(problem, files[1]).certificates:
                            check.judge(problem, certificate, "")
