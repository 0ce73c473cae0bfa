"""Tries `opprove search`, join.py and their variants: test_harder.py [table]

Random pairs of a lemma and a claim are joined, and changed ones. What asks opprove is skipped where that is not built; OPPROVE
names another one than this checkout's. The table is that of examples/README.md.
"""
from __future__ import annotations

import contextlib
import os
import re
import signal
import subprocess
import sys
import time
from pathlib import Path
from random import Random
from typing import Callable, Dict, FrozenSet, List, NamedTuple, Optional, Tuple

from opprove.search import join, variants
import drawing
from drawing import Rows
from opprove.checkers.check import Certificate, Evidence, Poly, Problem, Refusal, Row, Share, add, judge, sum_text
from trying import EXAMPLES, GALLERY, LIBRARY, PROGRAM, Answer, Skipped, built, checker, is_built, main, need, run, tool, wrong_words

os.environ["OPPROVE"] = str(PROGRAM)
COUNT = 20  # random pairs


# ---- Variants

SMALL = """object U V
map a : U -> V
map x y : V -> U
map c d : V -> V
pinv a x
inverse c d
assume y = x c
assume c y' a' c = 0
claim y = x
"""

SELECTIONS = [  # the selection, a label, and the numbers of the equations of SMALL that it has, with the lemma a y a = a
    ("lemmas", "", [9]), ("inside", "0", []), ("inside", "1", [1, 2, 3, 4, 7, 8, 9]), ("paired", "0", [1, 2, 3, 4, 9]),
    ("paired", "1", [1, 2, 3, 4, 5, 6, 7, 8, 9]), ("near", "1", [1, 2, 3, 4, 7, 8, 9]), ("near", "2", list(range(1, 10))),
    ("light", "2", [1, 2, 3, 4, 7, 9]), ("light", "8", list(range(1, 10))), ("given", "", [1, 2, 3, 4, 5, 6, 7, 8]),
    ("whole", "", list(range(1, 10))),
]  # fmt: skip
ORDERS: List[Tuple[str, Optional[List[str]], bool, bool]] = [  # the order, its lines on all of SMALL, whether maps come from the last to the first, whether adjoints are below
    ("written", [], False, False), ("defined", ["order weight y 3"], False, False),
    ("eliminated", ["eliminate y"], False, False), ("hidden", ["order weight a 4 c 4 d 4"], False, False),
    ("second", ["order weight d 3 x 3"], False, False), ("shown", ["order weight x 4 y 4"], False, False),
    ("adjoints", [], False, True), ("backwards", [], True, False), ("degree", None, False, False),
]  # fmt: skip


SECOND = "# of language 2\nlanguage 02\n" + SMALL.replace("y = x c", "y = x c'^2") + "eliminate y\n"
ORDERS_OF_SECOND: List[Tuple[str, Optional[List[str]], bool, bool]] = [  # the same of SECOND
    ("written", ["eliminate y"], False, False), ("defined", ["order weight y 4"], False, False),
    ("eliminated", ["eliminate y"], False, False), ("adjoints", ["eliminate y"], False, True),
    ("backwards", ["eliminate y"], True, False), ("degree", [], False, False),
]  # fmt: skip


def small(folder: Path, text: str = SMALL) -> variants.Statement:
    path = folder / "small.op"
    path.write_text(text)
    return variants.Statement(str(path))


def selections(folder: Path) -> str:
    statement = small(folder)
    lemmas = folder / "lemmas"
    lemmas.write_text("# a comment\nlanguage 2\nclaim a^1 y a = a\n")
    pool = statement.assumptions + statement.lemmas(str(lemmas))
    for name, label, numbers in SELECTIONS:
        found = dict(getattr(variants, name)(pool, statement.claims[0]))
        shown = [pool.index(equation) + 1 for equation in found.get(label, [])]
        need(shown == numbers, (name, label, numbers, {label: len(chosen) for label, chosen in found.items()}, shown))
    need({name for name, _, _ in SELECTIONS} == {one.__name__ for one in variants.FEWER + variants.ALL}, "all selections")
    return f"{len(SELECTIONS)} selections have what they should"


def orders(folder: Path) -> str:
    """Each order, and that the variant has the same generators, but for zeros, under the names of the statement."""
    path = folder / "variant.op"
    for statement, table in ((small(folder), ORDERS), (small(folder, SECOND), ORDERS_OF_SECOND)):
        whole, goal = statement.assumptions, statement.claims[0]
        for name, lines, is_backwards, is_starred in table:
            order = getattr(variants, name)(statement, whole, goal)
            need(order == (variants.Order(lines, is_backwards, is_starred) if lines is not None else None), (name, order))
            texts = [variants.text_of(statement, whole, [goal], order)] if order else []
            texts += [variants.reordered(statement, order)] if order and not is_backwards and not is_starred else []
            for text in texts:
                path.write_text(text)
                is_second = text.startswith("language 2\n")
                need(is_second == (table is ORDERS_OF_SECOND or name == "eliminated"), (name, text))
                need(same_values(statement, str(path), order), (name, text))
    need([name for name, _, _, _ in ORDERS] == [order.__name__ for order in variants.ORDERS], "all orders")
    return f"{len(ORDERS) + len(ORDERS_OF_SECOND)} orders are as they should, of the same generators"


def same_values(statement: variants.Statement, path: str, order: variants.Order) -> bool:
    problem, names = Problem(path), variants.letter_names(statement, order)
    numbers = [statement.problem.numbers[names.get(name, name)] for name in problem.names]

    def moved(poly: Poly) -> FrozenSet[Tuple[Tuple[int, ...], int]]:
        return frozenset((tuple(numbers[letter] for letter in word), value) for word, value in poly.items())

    mine = {frozenset(poly.items()) for poly in statement.problem.generators()}
    claims = [frozenset(poly.items()) for poly in statement.problem.claims]
    return {moved(poly) for poly in problem.generators() if poly} == mine and list(map(moved, problem.claims)) == claims


def shapes(folder: Path) -> str:
    statement = small(folder)
    texts = [variants.model_text(statement, 1, level) for level in range(8)]
    for text in texts:
        path = folder / "shapes.op"
        path.write_text(text)
        need(Problem(str(path)).generators() == statement.problem.generators(), text)
    lines = {line for text in texts for line in text.split("\n") if line.startswith("model")}
    sides = {number for line in lines for number in re.findall(r" [A-Z] ([0-9])", line)}
    need(len(lines) >= 20 and sides == {"1", "2", "3"}, lines)
    return f"{len(lines)} shapes for models are asked for"


# ---- Compositions

LETTERS = ["a", "a'", "b", "b'", "c", "c'"]


class Pair(NamedTuple):
    """A statement with a claim that follows by way of a lemma, and evidence in two pieces, each with its statement."""

    statement: str
    pieces: List[Tuple[str, str]]


def drawn_sum(draw: Random) -> str:
    return " ".join(f"{draw.choice('+-')} {draw.randint(1, 4)} {drawing.word(draw, LETTERS, 3)}" for _ in range(2))


def text_with(assumptions: List[str], claim: str) -> str:
    lines = [f"assume {text} = 0" for text in assumptions] + [f"claim {claim} = 0"]
    return "\n".join(["object V", "map a b c : V -> V", "assume 0 a'' = 0", *lines, ""])


def drawn_rows(source: Rows) -> List[Row]:
    """Rows, the first of which is over the first assumption after the one that names adjoints."""
    return [source.row(1, source.pair(), number) for number in [2] + [0] * source.draw.randint(0, 3)]


def drawn_pair(draw: Random) -> Optional[Pair]:
    """The lemma is a sum of rows, divided by its scale; its adjoint, its negative or a double may be what is assumed."""
    sums = [drawn_sum(draw) for _ in range(draw.randint(1, 4))]
    first = Problem(text_with(sums, "a").encode())

    def text(poly: Poly) -> str:
        return sum_text((first.text(word), value) for word, value in poly.items())

    scale, source = draw.choice([1, 1, 2, 3]), Rows(draw, first)
    rows = drawn_rows(source)
    total = source.total(rows)
    lemma = {word: value // scale for word, value in total.items()}
    if not lemma or any(value % scale for value in total.values()) or lemma in first.generators():
        return None
    one = evidence(first, Certificate(1, scale, [Share(scale, rows)]))
    assumed = text(add({}, draw.choice([1, -1, 2]), draw.choice([lemma, first.star(lemma)])))
    others = draw.sample(sums, draw.randint(0, len(sums)))
    second = Rows(draw, Problem(text_with([assumed, *others], "a").encode()))
    steps = drawn_rows(second)
    claim, two = text(second.total(steps)), evidence(second.problem, Certificate(1, 1, [Share(1, steps)]))
    pieces = [(text_with(sums, text(lemma)), one), (text_with([assumed, *others], claim), two)]
    return Pair(text_with(draw.sample(sums, len(sums)), claim), pieces) if claim != "0" else None


def evidence(problem: Problem, certificate: Certificate) -> str:
    return "\n".join(join.written(problem, certificate)) + "\n"


def joined(pair: Pair, folder: Path) -> str:
    """The composition, by the script's own call."""
    paths = [folder / "whole.op"]
    paths[0].write_text(pair.statement)
    for number, piece in enumerate(pair.pieces, 1):
        for ending, text in zip(("op", "cert"), piece):
            paths.append(folder / f"piece{number}.{ending}")
            paths[-1].write_text(text)
    return "\n".join(join.report(str(paths[0]), [str(path) for path in paths[1:]])) + "\n"


def is_accepted(folder: Path, text: str) -> bool:
    """By both checkers, which have to agree; by check.py alone where opprove is not built."""
    statement, path = folder / "whole.op", folder / "whole.cert"
    path.write_text(text)
    problem = Problem(str(statement))
    try:
        for certificate in Evidence(problem, str(path)).certificates:
            judge(problem, certificate, "")
        answer = True
    except Refusal:
        answer = False
    if is_built():
        status = run(PROGRAM, "check", statement, path).status
        need(status == (0 if answer else 7), (statement.read_text(), text, status))
    return answer


def changed(draws: Random, pair: Pair) -> Pair:
    """The pair with another coefficient in the last row of one of its pieces."""
    place = draws.randrange(2)
    statement, text = pair.pieces[place]
    rows = re.findall(r"^row .*$", text, flags=re.MULTILINE)
    words = rows[-1].split(" ")
    other = " ".join([words[0], str(int(words[1]) + 6), *words[2:]])
    pieces = list(pair.pieces)
    pieces[place] = (statement, text[: text.rindex(rows[-1])] + other + text[text.rindex(rows[-1]) + len(rows[-1]) :])
    return Pair(pair.statement, pieces)


def compositions(folder: Path, count: int = COUNT) -> str:
    """Pairs lemma by lemma, each accepted for its whole, and refused where a piece that is used was changed."""
    draws, done, by_join = Random(3), 0, 0
    while done < count:
        pair = drawn_pair(draws)
        text = joined(pair, folder) if pair else ""
        if pair and "lemma" in text:
            need(is_accepted(folder, text), (pair, text))
            try:
                other = joined(changed(draws, pair), folder)
                # a claim that is a multiple of the lemma needs no second piece
                need(other == text or not is_accepted(folder, other), (pair, other))
                done += other != text
            except Refusal:
                by_join, done = by_join + 1, done + 1  # a scale that doesn't divide
    asked = "both checkers" if is_built() else "check.py alone, as opprove is not built"
    return f"{count} compositions are accepted by {asked}, and changed ones refused, {by_join} of them by join.py"


JOIN_REFUSED = [  # the statements of two pieces and their evidence, and the beginning of the line
    (["object V\n", "", "", ""], "# refused S15 ("),
    ([text_with(["a"], "a"), "certificate 1\nclaim 1\n", "", ""], "# refused K6 ("),
    ([text_with(["b"], "a"), "certificate 1\nclaim 1\ndenominator 1\nrow 1 () 2 ()\nend\n", "", ""], "# no generator 2 of a piece"),
]


def join_refusals(folder: Path) -> str:
    whole = folder / "whole.op"
    whole.write_text(text_with(["a"], "a b"))
    for texts, line in JOIN_REFUSED:
        for name, text in zip(("one.op", "one.cert"), texts):
            (folder / name).write_text(text)
        answer = run(*tool("join"), whole, folder / "one.op", folder / "one.cert")
        is_line = answer.error.startswith(line) and answer.error.count("\n") == 1
        need(answer.status in (3, 4, 7) and not answer.out and is_line, (texts, answer))
    wrong_words("join", [whole])
    return f"{len(JOIN_REFUSED) + 1} faults of pieces are told by one line"


# ---- Searches


def search(*words: object, **more: str) -> "subprocess.Popen[str]":
    environment = {**os.environ, "LC_ALL": "C.UTF-8", **more}
    command = [*tool("search"), *map(str, words)]
    return subprocess.Popen(command, stdout=subprocess.PIPE, stderr=subprocess.PIPE, text=True, env=environment)


def answer_of(process: "subprocess.Popen[str]") -> Answer:
    out, error = process.communicate(timeout=300)
    return Answer(process.returncode, out, error)


# The statements of library/harder, each with the status of `opprove search`.
SETTLED = {
    "commuting_inverses": 0, "common_solution": 0, "halved_lemma": 0, "normal_pseudoinverse": 0, "one_sided_beside": 10,
    "pseudoinverse_chain": 0, "pseudoinverse_of_row": 0, "twice_a_braid": 11,
}  # fmt: skip


def settled(folder: Path, statement: Path) -> Tuple[float, Answer]:
    """The search of a minute on a statement, whose report `check` and `model` read whole."""
    start = time.monotonic()
    answer = answer_of(search(statement, "--seconds", 60))
    seconds = time.monotonic() - start
    report = folder / "report"
    report.write_text(answer.out)
    heads = re.findall("^# claim [0-9]+ (proved|refuted|not derivable|undecided)", answer.out, flags=re.MULTILINE)
    for word, kind, name in (("check", "proved", "check"), ("model", "refuted", "check_model")):
        want = 0 if kind in heads else 7
        need(run(built(), word, statement, report).status == want, (statement, word, answer))
        need(run(*checker(name), statement, report).status == want, (statement, name, answer))
    return seconds, answer


def statements(folder: Path) -> str:
    built()
    times = []
    for path in sorted((LIBRARY / "harder").glob("*.op")):
        seconds, answer = settled(folder, path)
        times.append(seconds)
        need(answer.status == SETTLED[path.stem], (path, seconds, answer.status, answer.error[-500:]))
    return f"{len(times)} statements that prove leaves undecided are settled, the last in {max(times):.0f} s"


BY_LEMMA = """object U V
map a : U -> V
map x y : V -> U
map b : U -> U
pinv a x
pinv a y
assume b b = b
claim b x = b y
"""


def lemmas(folder: Path) -> str:
    """Lemmas of a file are tried first, and the claim goes through by one of them alone."""
    built()
    statement, file = folder / "by_lemma.op", folder / "lemmas"
    statement.write_text(BY_LEMMA)
    file.write_text("claim x = y # the first\n\nclaim a x = 0\n")
    answer = answer_of(search(statement, "--lemmas", file, "--only", "inside,lemmas,written"))
    parts = ["\ngoal scale 1\nrow 1 (b) lemma ", "\n#   assume x = y  # a lemma\n", "\n# lemma x = y\n"]
    need(answer.status == 0 and all(part in answer.out for part in parts) and "a x = 0" not in answer.out, answer)
    return "a claim goes through by a lemma of a file"


def kept(folder: Path) -> str:
    """The variants that are kept can be run by hand; a basis of another order has a statement file with that order."""
    built()
    statement, keep = LIBRARY / "harder" / "one_sided_beside.op", folder / "kept"
    answer = answer_of(search(statement, "--keep", keep, "--only", "given,defined"))
    need(answer.status == 10 and answer.out.startswith("# claim 1 not derivable rules 14\nbasis 1\n"), answer)
    (words,) = re.findall("^# found by given defined: opprove (.*)$", answer.out, flags=re.MULTILINE)
    block = answer.out[: answer.out.index("# found")]
    for command in (words.split(" "), ["prove", str(keep / "claim_1_order.op")]):
        again = run(PROGRAM, *command)
        need(again.status == 10 and again.out == block, (command, block, again))
    return "variants that are kept give the same answer by hand"


def by_lemmas(folder: Path) -> str:
    """Later claims go through by the first one alone, and by its adjoint; a claim has the denominator of a lemma's scale."""
    built()
    by_first = ["# found by lemmas written: ", "goal scale 1\n", "# a lemma\n"]
    parts = {
        "pseudoinverse_chain": (by_first, 2), "normal_pseudoinverse": (by_first, 1),
        "halved_lemma": (["denominator 2\nlemma 1 scale ", "assume e = x  # a lemma\n", " scale 2\n"], 1),
    }  # fmt: skip
    for name, (texts, count) in parts.items():
        words = ["--only", "lemmas,inside,written", "--jobs", 1]
        answer = answer_of(search(LIBRARY / "harder" / f"{name}.op", *words))
        need(answer.status == 0 and all(answer.out.count(text) >= count for text in texts), (name, answer))
    return f"{len(parts)} statements go through by lemmas"


def table(folder: Path) -> str:
    """What prove says without a search for models, which variants did it, how long that took, and how many rows."""
    for path in sorted((LIBRARY / "harder").glob("*.op")):
        default = run(built(), "prove", path, "--workers", "1", "--no-models")
        said = [" ".join(line.split(" ")[3:6]) for line in default.out.split("\n") if line.startswith("# claim ")]
        seconds, answer = settled(folder, path)
        found = sorted(set(re.findall("^# found by (.*):", answer.out, flags=re.MULTILINE)))
        rows = re.findall("^# claim [0-9]+ (?:proved .*rows ([0-9]+)|(.*))$", answer.out, flags=re.MULTILINE)
        cells = [f"`{path.name}`", ", ".join(f"`{one}`" for one in sorted(set(said))), ", ".join(found)]
        print("| " + " | ".join([*cells, f"{seconds:.1f}", ", ".join(one or other for one, other in rows)]) + " |", flush=True)
    return "the table of examples/README.md"


def faults(folder: Path) -> str:
    """Bad input ends with the line of prove and its status, and what can't be run or written with one line."""
    built()
    faulty, lemmas, fine = folder / "faulty.op", folder / "faulty_lemmas", EXAMPLES / "pasted_squares.op"
    faulty.write_text("object U\nclaim a = a\n")
    lemmas.write_text("\nassume y a1 = b1 x\n")
    cases: List[Tuple[List[object], int, str, str]] = [
        ([faulty], 3, "# refused S6 line 2 column 7\n", ""), ([folder / "missing"], 4, f"# load failed {folder / 'missing'}\n", ""),
        ([fine, "--lemmas", lemmas], 3, "", "# refused S3 line 2 column 1\n"),
        ([fine, "--lemmas", folder / "missing"], 4, "", f"# load failed {folder / 'missing'}\n"),
        ([fine, "--keep", fine], 1, "", "search: "),
    ]  # fmt: skip
    for words, status, out, error in cases:
        answer = answer_of(search(*words))
        is_line = answer.error.startswith(error) and answer.error.count("\n") == (error != "")
        need((answer.status, answer.out) == (status, out) and is_line, (words, answer))
    wrong_words("search", [fine, "--only", "nothing"], [])
    answer = answer_of(search(fine, OPPROVE=str(folder / "missing")))
    need(answer.status == 1 and not answer.out and answer.error.count("\n") == 1, answer)
    return f"{len(cases) + 3} faults of a search are told by one line"


def processes() -> Dict[int, List[str]]:
    """For each process of /proc its state, its parent and what stands there after these."""
    found = {}
    for path in Path("/proc").glob("[0-9]*/stat"):
        with contextlib.suppress(OSError):  # it has ended
            found[int(path.parent.name)] = path.read_text().rsplit(")", 1)[1].split()
    return found


def interrupts(folder: Path) -> str:
    """Runs that are interrupted print what was settled, and leave no process."""
    built()
    if not Path("/proc/self/stat").exists():
        raise Skipped("there is no /proc")
    statement = GALLERY["braid_relation"]
    undecided = folder / "undecided.op"
    undecided.write_text(statement.read_text().replace("claim a = b", "claim a b a = b a b\nclaim a = b"))
    for number in (signal.SIGINT, signal.SIGTERM, signal.SIGKILL):
        keep = folder / f"interrupted_{number}"
        process = search(undecided, "--seconds", 100, "--only", "whole", "--jobs", 2, "--keep", keep)
        try:
            for _ in range(1000):  # until a claim is settled
                time.sleep(0.1 if not (keep / "claim_1.certificate").exists() else 0)
            started = [number for number, fields in processes().items() if int(fields[1]) == process.pid]
            process.send_signal(number)
            answer = answer_of(process)
        finally:
            process.kill()
        time.sleep(0.2)
        need(all(fields[0] == "Z" for one, fields in processes().items() if one in started), (number, started))
        is_told = number == signal.SIGKILL or (answer.status == 12 and "# claim 1 proved" in answer.out)
        need(is_told and "Traceback" not in answer.error, (number, answer))
    return "runs that are ended leave no process, and print what was settled"


def stand_ins(folder: Path) -> str:
    """A program whose runs are killed leaves the claim undecided; one that can't write its reports ends the search."""
    statement, stand_in = GALLERY["braid_relation"], folder / "stand_in"
    for line, status, beginning in (("kill -9 $$", 12, ""), ("exit 5", 1, "search: [Errno 28] ")):
        stand_in.write_text(f'#!/bin/sh\ncase "$*" in *"--pairs 1 "*|bench*) exec {built()} "$@";; *) {line};; esac\n')
        stand_in.chmod(0o700)
        answer = answer_of(search(statement, "--seconds", 3, OPPROVE=str(stand_in)))
        need(answer.status == status and re.fullmatch("(# claim 1 undecided seconds [0-9]+\n# ended: .*\n)?", answer.out), answer)
        need(answer.error.startswith(beginning) and answer.error.count("\n") <= 1, answer)
    return "runs that are killed or have no space end no search with a trace"


def full_disk(folder: Path) -> str:
    built()
    if not Path("/dev/full").exists():
        raise Skipped("there is no /dev/full")
    with open("/dev/full", "wb") as full:
        command = [*tool("search"), str(EXAMPLES / "pasted_squares.op")]
        done = subprocess.run(command, stdout=full, stderr=subprocess.PIPE, text=True, timeout=120)
    need(done.returncode == 5 and "Traceback" not in done.stderr and "# standard output failed" in done.stderr, done)
    return "a full disk ends a search with status 5"


CHECKS: List[Callable[[Path], str]] = [
    selections, orders, shapes, compositions, join_refusals, faults, lemmas, kept, by_lemmas, interrupts, stand_ins, full_disk, statements,
]  # fmt: skip

if __name__ == "__main__":
    sys.exit(main([table] if sys.argv[1:] == ["table"] else CHECKS))
