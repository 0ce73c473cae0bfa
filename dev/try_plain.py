"""Tries the plain programs plain_run.rs and plain_models.rs.

Compares plain_models.rs with candidates.py, byte for byte, on the searches of test_models.py, on the examples and on
500 random statements of both languages: full and drawn, over all moduli, with self maps, adjoints, powers,
abbreviations, maps that are solved for, several claims and shapes, and three seeds. Of searches that would try
thousands of candidates in Python to the end one in five is made. Compares plain_run.rs with itself, where it looks for
overlaps in two ways, and with head lines that documents show. Where opprove is built, or the variable OPPROVE names a
program, both are compared with that too. It wants rustc.
"""
from __future__ import annotations

import itertools
import random
import re
import sys
from pathlib import Path
from typing import Callable, Dict, Iterator, List, NamedTuple, Tuple

from opprove.checkers import candidates
from opprove.notation import expand
import presentations
import try_guide
import test_models
import test_words
from opprove.checkers.check import MODULI, Problem, Refusal
from measuring import OPPROVE, build, write_tree
from trying import EXAMPLES, GALLERY, LIBRARY, TOP, Answer, by_whom, checker, is_built, need, run

SEEDS = [1, 7, 2**64 - 1]
COUNT = 500  # random statements
MANY = 3000  # candidates that candidates.py tries soon
EXAMPLE_FILES = sorted([*EXAMPLES.glob("*.op"), *GALLERY.values()])


# ---- Random statements


class Map(NamedTuple):
    name: str
    source: str
    target: str
    is_self: bool


class Maker:
    """Makes random statements: typed equations of words of at most three letters."""

    def __init__(self, seed: int) -> None:
        self.random = random.Random(seed)

    def statement(self) -> str:
        chance = self.random
        self.is_second = chance.random() < 0.4
        objects = ["U", "V", "W"][: chance.choice([1, 1, 2, 2, 3])]
        self.maps = [self.map(name, objects) for name in "abcd"[: chance.randint(1, 4)]]
        self.words = self.words_of(objects, chance.random() < 0.5)
        lines = ["language 2"] * self.is_second + [f"object {' '.join(objects)}", *map(self.declaration, self.maps)]
        lines += [line for line in (self.abbreviation() for _ in range(chance.choice([0, 0, 1, 1, 2]))) if line]
        lines += [f"assume {self.equation()}" for _ in range(chance.choice([0, 1, 1, 2, 3]))]
        lines += [f"claim {self.equation()}" for _ in range(chance.choice([1, 1, 2, 3]))]
        names = [one.name for one in self.maps if chance.random() < 0.3]
        lines += [f"solve {' '.join(names)}"] if names and chance.random() < 0.6 else []
        lines += [self.order()] if chance.random() < 0.3 + 0.2 * self.is_second else []
        lines += [self.shape(objects) for _ in range(chance.choice([0, 1, 1, 2, 3]))]
        return "".join(line + "\n" for line in lines)

    def map(self, name: str, objects: List[str]) -> Map:
        source, target = self.random.choice(objects), self.random.choice(objects)
        return Map(name, source, target, source == target and self.random.random() < 0.3)

    def declaration(self, one: Map) -> str:
        return f"map {one.name} : {one.source} -> {one.target}{' self' if one.is_self else ''}"

    def words_of(self, objects: List[str], has_marks: bool) -> Dict[Tuple[str, str], List[str]]:
        letters = [(f"[{name}]", name, name) for name in objects] + [one[:3] for one in self.maps]
        letters += [(f"{one.name}'", one.target, one.source) for one in self.maps if has_marks]
        found: Dict[Tuple[str, str], List[str]] = {}
        for length in (1, 2, 3):
            for word in itertools.product(letters, repeat=length):
                if all(left[1] == right[2] for left, right in zip(word, word[1:])):
                    found.setdefault((word[-1][1], word[0][2]), []).append(" ".join(letter[0] for letter in word))
        return found

    def equation(self) -> str:
        ends = self.random.choice(list(self.words))
        words = self.words[ends]
        sides = [" + ".join(self.term(words, ends[0] == ends[1]) for _ in range(self.random.choice([1, 1, 2]))) for _ in range(2)]
        return f"{sides[0]} = {sides[1] if self.random.random() < 0.8 else '0'}"

    def term(self, words: List[str], is_loop: bool) -> str:
        """With powers in language 2: of a letter that stands there twice, and of the word."""
        coefficient, word = self.random.choice(["", "", "", "2 ", "3 ", "5 ", "101 ", "65536 "]), self.random.choice(words)
        if self.is_second and self.random.random() < 0.7:
            word = re.sub(r"(\S+) \1(?= |$)", r"\1^2", word)
        if self.is_second and is_loop and self.random.random() < 0.2:
            word = f"({word})^{self.random.choice([1, 2, 2, 3])}"
        return coefficient + word

    def abbreviation(self) -> str:
        word = self.random.choice(["pinv", "inverse", "inner", "projection"])
        pairs = [(one, other) for one, other in itertools.permutations(self.maps, 2) if one[1:3] == other[2:0:-1]]
        own = [one.name for one in self.maps if one.source == one.target]
        if word == "projection":
            return f"projection {self.random.choice(own)}" if own else ""
        return f"{word} {' '.join(one.name for one in self.random.choice(pairs))}" if pairs else ""

    def order(self) -> str:
        if self.is_second and self.random.random() < 0.7:
            return "eliminate " + " ".join(one.name for one in self.random.sample(self.maps, self.random.randint(1, len(self.maps))))
        return "order weight " + " ".join(f"{one.name} {self.random.choice([1, 2, 3, 7])}" for one in self.maps)

    def shape(self, objects: List[str]) -> str:
        """Sides up to 3, and up to 2 where there would be too many unknowns for Python."""
        most = 3 if len(self.maps) < 3 else 2
        sides = [f" {name} {self.random.randint(1, most)}" for name in objects if self.random.random() < 0.9]
        return f"model {self.random.choice(MODULI)}{''.join(sides)}"


# ---- Searches


def is_long(problem: Problem, out: str) -> bool:
    """Whether candidates.py would try thousands of candidates to the end."""
    counts = [candidates.Search(problem, shape).count for shape in candidates.shapes_of(problem)]
    return " not refuted " in out and sum(counts) > MANY or any(count > MANY and count != 4096 for count in counts)


def searched(statement: Path, seed: int, plain: str, skips: Callable[[], bool]) -> bool:
    """Fails unless all programs print one report. Whether candidates.py was asked."""
    problem = Problem(str(statement))
    answer = run(plain, write_tree(statement), "--seed", seed)
    if is_built():
        other = run(OPPROVE, "refute", statement, "--seed", seed, "--workers", 1)
        need(other == answer, (statement.read_text(encoding="utf-8"), seed, answer, other))
    if is_long(problem, answer.out) and skips():
        return False
    lines, status = candidates.report(str(statement), seed)
    want = Answer(status, "".join(f"{line}\n" for line in lines), "")
    need(answer == want, (statement.read_text(encoding="utf-8"), seed, want, answer))
    return True


def refusal(statement: Path) -> str:
    """The line on a statement that is refused, which has no tree."""
    try:
        Problem(str(statement))
        return ""
    except Refusal as line:
        return str(line)


def texts() -> Iterator[Tuple[str, int]]:
    """Statements, each with a seed."""
    yield from ((text, seed) for text, seeds in test_models.SEARCHED for seed in seeds)
    yield from ((path.read_text(encoding="utf-8"), 1) for path in EXAMPLE_FILES)
    maker = Maker(1)
    yield from ((maker.statement(), SEEDS[number % 3]) for number in range(COUNT))


def searches(folder: Path) -> str:
    plain, statement = build("plain_models", folder), folder / "statement.op"
    long_ones, made, asked = itertools.count(1), 0, 0
    for text, seed in texts():
        statement.write_text(text, encoding="utf-8")
        line = refusal(statement)
        if line:
            answer = run(*checker("tree"), statement)
            need(answer == Answer(3, line + "\n", ""), (text, line, answer))
            continue
        made += 1
        asked += searched(statement, seed, plain, lambda: next(long_ones) % 5 > 0)
    return f"{made} searches are answered by plain_models.rs as {by_whom('candidates.py')}, which was asked {asked} times"


# ---- Runs

RUN: List[Tuple[Callable[..., str], Tuple[int, ...]]] = [
    (presentations.braid, (4,)), (presentations.plactic, (4,)), (presentations.coxeter, (3, 7)), (presentations.coxeter, (4, 3, 5)),
    (presentations.triangle, (2, 3, 7)), (presentations.fibonacci, (5,)), (presentations.fibonacci, (7,)), (presentations.quad, (8,)),
]  # fmt: skip


ONE = "object U\nmap a : U -> U\n"
TWO = "object V\nmap a b : V -> V\n"
PAIR = "object U V\nmap a : U -> V\nmap x : V -> U\n"
GREATEST = 2**127 - 1
POWER = f"{ONE}assume {'a ' * 34}= 0\nclaim a = 0\n"

# Statements with words of the run, and the head lines: worked out by hand.
HEADS: List[Tuple[str, str, List[str]]] = [
    (f"{ONE}claim a = a\n", "", ["proved denominator 1 rows 0"]),
    (f"{ONE}assume 2 a = 0\nclaim a = 0\nclaim a a = 0\n", "--format 1", ["proved denominator 2 rows 1"] * 2),
    (f"{ONE}assume 2 a = 0\nclaim a = 0\n", "", ["proved denominator 2 rows 2"]),
    (f"{PAIR}pinv a x\nclaim a' x' a' = a'\n", "", ["proved denominator 1 rows 4"]),
    (f"{PAIR}pinv a x\nclaim a' x' a' = a'\n", "--format 1", ["proved denominator 1 rows 1"]),
    (f"{TWO}order weight b 3\nassume a a = b\nclaim b b = a a a a\n", "--format 1", ["proved denominator 1 rows 2"]),
    (f"language 2\n{TWO}eliminate b\nassume a^2 = b\nclaim b^2 = a^4\n", "--format 1", ["proved denominator 1 rows 2"]),
    (f"{PAIR}assume a x = [V]\nclaim x a = [U]\n", "", ["not derivable rules 7"]),
    (POWER, "--pairs 33", ["not derivable rules 1"]),
    (POWER, "--pairs 32", [f"undecided pairs 32 least {' '.join('a' * 67)}"]),
    (f"{TWO}assume b a b = a b a\nclaim a = b\nclaim b a b = a b a\n", "--pairs 1", ["undecided pairs 1 least b a a b a b", "proved denominator 1 rows 1"]),
    (f"{TWO}assume {GREATEST} a = b\nclaim b b = 0\n", "", [f"undecided overflow {GREATEST} times -{GREATEST} at claim after round 0"]),
    (f"{ONE}assume a a = a\nclaim a a a = a\n", "--steps 1", ["undecided steps 1 at claim after round 0"]),
    (f"{ONE}assume a a = a\nassume a a a a = a\nclaim a = 0\n", "--steps 1", ["undecided steps 1 at round 0"]),
    (f"{ONE}assume {'a ' * 300}= 0\nclaim a = 0\n", "", [f"undecided size letters 500 at round 7 least {' '.join('a' * 493)}"]),
]  # fmt: skip

# Of the files of the gallery that are of language 2 the words and the head lines.
SECOND: List[Tuple[str, str, List[str]]] = [
    ("drazin_commutes", "", ["proved denominator 1 rows 66"]),
    ("common_solution", "--pairs 64", ["proved denominator 1 rows 49", "proved denominator 1 rows 76"]),
    ("two_sided_equation", "--pairs 1", ["proved denominator 1 rows 74"]),
    ("two_sided_equation_condition", "--pairs 1834", ["not derivable rules 194"]),
    ("pseudoinverse_of_row", "--pairs 672", [f"proved denominator 1 rows {rows}" for rows in (40, 50, 46, 171, 136, 129, 184, 156)]),
]


def by_hand(folder: Path) -> str:
    plain, statement = build("plain_run", folder), folder / "statement.op"
    gallery = [(GALLERY[name].read_text(encoding="utf-8"), words, want) for name, words, want in SECOND]
    for text, words, want in HEADS + gallery:
        statement.write_text(text, encoding="utf-8")
        answer = run(plain, write_tree(statement), *words.split())
        need(heads(answer.out) == [f"# claim {number} {said}" for number, said in enumerate(want, 1)], (text, words, want, answer))
    return f"{len(HEADS)} runs of plain_run.rs have the head lines that were worked out by hand, and {len(SECOND)} those of the gallery"


class Told(NamedTuple):
    """A run of `prove` that a document shows, with those of its words that plain_run.rs takes."""

    statement: bytes
    words: List[str]
    report: str


def words_kept(line: str) -> List[str]:
    """The words of a run that plain_run.rs has too."""
    return [word for pair in re.findall(r"(--(?:pairs|steps|format))[ =](\d+)", line) for word in pair]


def told_runs() -> Iterator[Told]:
    """Those of examples/words.txt and of the guide, with the files that stand there; of files of the notation what they stand for."""
    for case in test_words.cases():
        if case.words[:1] == ["prove"] and "s.op" in case.files and case.name not in test_words.NOT_RUN:
            yield Told(test_words.expanded(case.files["s.op"]), words_kept(" ".join(case.words)), case.report)
    guide = try_guide.read(try_guide.GUIDE.read_text(encoding="utf-8"))
    for command in guide.commands:
        name = re.match(r"\./opprove prove ([^ ;]+\.opn?)\b", command.line)
        path = TOP / (name[1] if name else "")
        if name and (name[1] in guide.files or path.exists()):
            text = guide.files[name[1]].encode() if name[1] in guide.files else path.read_bytes()
            yield Told(expand.as_statement(text), words_kept(command.line), command.shown)


def documents(folder: Path) -> str:
    """The head lines that documents show, but for claims that are refuted, of which plain_run.rs says what halted their run."""
    plain, statement = build("plain_run", folder), folder / "statement.op"
    count = 0
    for told in told_runs():
        statement.write_bytes(told.statement)
        wanted = heads(told.report)
        if wanted and not refusal(statement):
            answer = run(plain, write_tree(statement), *told.words)
            found = heads(answer.out)
            is_same = [want == line or " refuted" in want and " proved " not in line for want, line in zip(wanted, found)]
            need(len(found) == len(wanted) and all(is_same), (told, found))
            count += len(found)
    need(count > 30, count)
    return f"{count} head lines of the guide and of examples/words.txt are those of plain_run.rs"


def heads(text: str) -> List[str]:
    return [line for line in text.split("\n") if line.startswith("# claim ")]


def same_run(statement: Path, plain: str) -> None:
    """Fails unless both ways to look for overlaps, and opprove where it is asked, give the same head lines."""
    lines = write_tree(statement)
    for number in (1, 2):
        words = ["--pairs", 150, "--steps", 500, "--format", number]
        answer, pairwise = run(plain, lines, *words), run(plain, lines, *words, "--pairwise")
        need(answer.status == 0 and answer.out.split("seconds")[0] == pairwise.out.split("seconds")[0], (statement, answer, pairwise))
        if is_built():
            other = run(OPPROVE, "prove", statement, *words, "--no-models", "--workers", 1)
            need(heads(other.out) == heads(answer.out), (statement.read_text(encoding="utf-8"), answer.out, other.out))


def runs(folder: Path) -> str:
    plain, statement = build("plain_run", folder), folder / "statement.op"
    maker, made = Maker(2), 0
    examples = [path.read_text(encoding="utf-8") for path in [*EXAMPLE_FILES, *sorted(LIBRARY.glob("harder/*.op"))]]
    for text in [*examples, *(make(*numbers) for make, numbers in RUN), *(maker.statement() for _ in range(COUNT))]:
        statement.write_text(text, encoding="utf-8")
        if not refusal(statement):
            same_run(statement, plain)
            made += 1
    return f"{made} runs in both formats have the same head lines {by_whom('plain_run.rs --pairwise')}"


def words(folder: Path) -> str:
    """The words of presentations.py and tree.py that aren't taken."""
    cases = [["presentations.py"], ["presentations.py", "braid"], ["presentations.py", "braid", "x"], ["presentations.py", "coxeter", "1"]]
    for case in cases:
        answer = run(sys.executable, TOP / "dev" / case[0], *case[1:])
        need(answer.status == 1 and answer.error.startswith("usage: ") and "Traceback" not in answer.error, (case, answer))
    answer = run(*checker("tree"), folder / "missing")
    need(answer == Answer(4, f"# load failed {folder / 'missing'}\n", ""), answer)
    return f"{len(cases) + 1} faulty calls of presentations.py and tree.py are told"


CHECKS: List[Callable[[Path], str]] = [words, by_hand, documents, runs, searches]
