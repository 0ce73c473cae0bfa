"""Tries check_model.py and candidates.py, and compares them with `model` and `refute` of opprove where these are built."""
from __future__ import annotations

import itertools
import re
from pathlib import Path
from typing import Callable, Dict, Iterator, List, Optional, Tuple

import trying_node
from opprove.checkers import candidates, check_model, tree
from opprove.checkers.check import Problem, Refusal
from trying import GALLERY, PROGRAM, Answer, built, by_whom, checker, decided, is_built, need, run, twice_or_not, with_line
from trying_second import Second

SECOND = Second(check_model)

MAPS = b"object U V\nmap p : U -> U self\nmap a : U -> V\nclaim a = 0\n"
RIGHT = b"object U V\nmap a : U -> V\nmap b : V -> U\nassume a b = [V]\nclaim b a = [U]\n"
STARRED = b"object U V\nmap a : U -> V\nmap x : V -> U\npinv a x\nclaim a a' = [V]\nclaim x = a'\n"
SIDES = b"side U 2\nside V 1\n"
SWAP = b"map p = 0 1 ; 1 0\n"
ONES = b"map p = 1\nmap a = 1\nend\n"
CONFIRMED = "# block 1 confirmed claim 1\n"


def model(maps: bytes, modulus: int = 3, claim: int = 1) -> bytes:
    return b"model 1\nclaim %d\nmodulus %d\n%s" % (claim, modulus, maps)


# A statement, an evidence text, and what is said of its models: worked out by hand from docs/FORMATS.md.
MODELS: List[Tuple[bytes, bytes, str]] = [
    (RIGHT, model(SIDES + b"map a = 1 0\nmap b = 1 ; 0\nend\n", 2), CONFIRMED),
    (RIGHT, model(SIDES + b"map a = 1 0\nmap b = 0 ; 0\nend\n", 2), "# block 1 refused M4 assumption 1\n"),
    (RIGHT, model(SIDES + b"map a = 1 0\nend\n", 2), "# block 1 refused M2 map b\n"),
    # an object without a line has side 1, where a right inverse is a left inverse
    (RIGHT, model(b"map a = 1\nmap b = 1\nend\n", 2), "# block 1 refused M5\n"),
    # a modulus that is no prime, and the greatest one
    (RIGHT, model(SIDES + b"map a = 3 2\nmap b = 3 ; 0\nend\n", 4), CONFIRMED),
    (RIGHT, model(SIDES + b"map a = 2147483646 0\nmap b = 2147483646 ; 5\nend\n", 2**31 - 1), CONFIRMED),
    # an adjoint is the transpose: of a row that has a pseudoinverse modulo 3
    (STARRED, model(b"side U 2\nmap a = 1 1\nmap x = 2 ; 2\nend\n"), CONFIRMED),
    (STARRED, model(b"side U 2\nmap a = 1 1\nmap x = 2 ; 2\nend\n", 3, 2), "# block 1 confirmed claim 2\n"),
    (STARRED, model(b"side U 2\nmap a = 1 1\nmap x = 1 ; 0\nend\n", 3, 2), "# block 1 refused M4 assumption 4\n"),
    (STARRED, model(b"side U 2\nmap a = 1 0\nmap x = 1 ; 0\nend\n"), "# block 1 refused M5\n"),
    (MAPS, model(SIDES + SWAP + b"map a = 1 0\nend\n"), CONFIRMED),
    (MAPS, model(SIDES + b"map p = 0 1 ; 2 0\nmap a = 1 0\nend\n"), "# block 1 refused M6 map p\n"),
    (MAPS, model(SIDES + SWAP + b"map a = 0 0\nend\n"), "# block 1 refused M5\n"),
    (MAPS, model(SIDES + SWAP + b"map a = 1\nend\n"), "# block 1 refused M3 map a\n"),
    (MAPS, model(SIDES + SWAP + b"map a = 1 ; 0\nend\n"), "# block 1 refused M3 map a\n"),
    (MAPS, model(SIDES + SWAP + b"map a = 1 0\nend\n", 3, 2), "# block 1 refused M1\n"),
    (MAPS, model(b"end\n", 3, 0), "# block 1 refused M1\n"),
    (MAPS, model(b"end\n", 3, 2**32 - 1), "# block 1 refused M1\n"),
    # the first map that fails is told, and the tests of one map come before those of the next
    (MAPS, model(b"side U 2\nmap a = 1\nend\n"), "# block 1 refused M2 map p\n"),
    (MAPS, model(b"side U 64\nmap p = 1\nend\n"), "# block 1 refused M3 map p\n"),
    (MAPS, model(b"side U 2\nmap p = 0 1 ; 2 0\nend\n"), "# block 1 refused M6 map p\n"),
    # lines in another order, blanks, tabs, comments, CR LF, leading zeros, no LF at the end
    (
        MAPS,
        b"# a model\n\n model\t1 \r\nclaim 01\nmodulus 003\nmap a=1 0\nside V 01\n#\nmap  p = 0 1;1 0\nside U 2\r\nend",
        CONFIRMED,
    ),
    # blocks of other kinds are skipped, and blocks are judged up to the first that is refused
    (
        MAPS,
        b"certificate 1\nclaim 1\nthis is no line\nend\nbasis 1\nend\n"
        + model(b"side U 2\nmap p = 1 1 ; 1 1\nmap a = 0 1\nend\n"),
        CONFIRMED,
    ),
    (MAPS, model(ONES) + model(b"map p = 1\nmap a = 0\nend\n") + model(ONES), CONFIRMED + "# block 2 refused M5\n"),
    (MAPS, model(ONES) * 100, "".join(f"# block {block} confirmed claim 1\n" for block in range(1, 101))),
    (MAPS, model(ONES) * 101, "# refused K5 line 601 limit 100\n"),
    (MAPS, model(ONES) * 100 + b"modle 1\n", "# refused K2 line 601\n"),
    # faults of the statement come before all of these
    (b"object U\nclaim\n", model(ONES), "# refused S3 line 2 column 6\n"),
    (MAPS, b"", "# refused K7\n"),
    (MAPS, b"certificate 1\nend\n", "# refused K7\n"),
    (MAPS, b"# \xff\n", "# refused K1\n"),
    # the text ends inside a block
    (MAPS, b"model 1", "# refused K6\n"),
    (MAPS, b"model 1\nclaim 1\n", "# refused K6\n"),
    (MAPS, model(b""), "# refused K6\n"),
    (MAPS, model(b"side U 1\nmap a = 1\n"), "# refused K6\n"),
    (MAPS, b"basis 1\nclaim 1\n", "# refused K6\n"),
    # a line that doesn't fit the grammar at its place: the first, one in the middle, the last
    (MAPS, b"modle 1\n", "# refused K2 line 1\n"),
    (MAPS, b"model 01\n", "# refused K2 line 1\n"),
    (MAPS, b"model\n", "# refused K2 line 1\n"),
    (MAPS, b"claim 1\n", "# refused K2 line 1\n"),
    (MAPS, b"model 1\nmodulus 3\n", "# refused K2 line 2\n"),
    (MAPS, b"model 1\nclaim 1\nend\n", "# refused K2 line 3\n"),
    (MAPS, b"model 1\nclaim 1\nmodulus 1\n", "# refused K2 line 3\n"),
    (MAPS, b"model 1\nclaim 4294967296\n", "# refused K4 line 2\n"),
    (MAPS, b"model 1\nclaim 1\nmodulus 2147483648\n", "# refused K4 line 3\n"),
]
# Of MAPS what stands behind the head of a model, by what is said of it: lines that don't fit the grammar, names that are not declared or
# of the other kind, numbers past their bounds, and too many of them.
FAULTY_LINES: Dict[str, List[bytes]] = {
    "# refused K2 line 4\n": [
        b"claim 1\n", b"side U 0\n", b"side [U] 1\n", b"map a =\n", b"map a 1\n", b"map a = 1 ;\n", b"map a = ; 1\n",
        b"map a = -1\n", b"map q = 7 0 ; 7\n", b"map a' = 1\n", b"map %s = 1\n" % (b"a" * 33), b"end 1\n",
    ],
    "# refused K2 line 5\n": [b"side U 1\nside U 1\n", b"map a = 1\nmap a = 3\n"],
    "# refused K3 line 4\n": [b"side W 65\n", b"side a 1\n", b"map U = 1\n", b"map %s = 3\n" % (b"a" * 32)],
    "# refused K4 line 4\n": [b"map a = 1 3\n", b"map a = 3" + b" 1" * 64 + b"\n"],
    "# refused K5 line 4 limit 64\n": [b"side U 65\n", b"map a = 1" + b" 1" * 64 + b"\n", b"map a = 1" + b" ; 1" * 64 + b"\n"],
    "# refused K6\n": [b"map a = 1" + b" ; 1" * 63 + b"\nmap p = 1" + b" 1" * 63 + b"\n"],
}  # fmt: skip
MODELS += [(MAPS, model(text), want) for want, texts in FAULTY_LINES.items() for text in texts]

# Statements of searches, each with seeds: all candidates of a shape and draws, maps that are solved for and maps that
# aren't, generators that have solutions and some that have none, claims that are refuted and claims that aren't.
SEARCHED: List[Tuple[str, List[int]]] = [
    ("object V\nmap a b : V -> V\nassume b a b = a b a\nclaim a = b\n", [1]),
    ("object V\nmap a b : V -> V\nclaim a b = b a\nmodel 101 V 3\n", [0, 1, 2**64 - 1]),
    (
        "object U V\nmap a : U -> V\nmap x : V -> U\npinv a x\nclaim a x = [V]\nclaim x = a'\nclaim a x a = a\n"
        "model 3\nmodel 2 V 3 U 2\n",
        [1],
    ),
    ("object U V\nmap a : U -> V\nmap x : V -> U\npinv a x\nclaim a x = [V]\nclaim x = a'\nmodel 3 U 3 V 2\n", [1, 7]),
    ("object V\nmap a x y : V -> V\ninverse a x\nclaim x y = y x\nclaim [V] = a\nmodel 7 V 3\n", [1, 5]),
    ("object U V\nmap a : U -> V\nmap x : V -> U\ninner a x\nclaim x a x = x\nmodel 3 U 2 V 3\n", [1, 2]),
    ("object V\nmap p q : V -> V self\nprojection p\nprojection q\nclaim p q = q p\nmodel 5\nmodel 3 V 2\n", [1]),
    (
        "object V\nmap h : V -> V self\nmap b : V -> V\nsolve h\nassume h b = b h\nclaim h = [V]\nclaim h b' = b' h\n"
        "model 32003 V 2\n",
        [1],
    ),
    ("object V\nmap a b x : V -> V\nsolve x\nassume a b = 0\nassume a x = [V]\nclaim x = x x\nmodel 65537\n", [1]),
    (
        "object V\nmap a b c : V -> V\nassume a b = [V]\nclaim a b = 2 [V]\nclaim b a c = a b c\nclaim a c = c a\n"
        "model 3\nmodel 101\nmodel 2 V 2\n",
        [1],
    ),
    ("object V W\nmap \u03b1 : V -> W\nclaim 3 [V] = 0\nclaim 0 = 2 \u03b1' \u03b1\nmodel 3 V 2\nmodel 2 W 6\nmodel 7\n", [1]),
    ("object U V\nmap p : U -> V self\nclaim p = 0\n", [1]),
    ("object U\nclaim [U] = 0\nmodel 6\n", [1]),
]

# The report on library/false/one_sided_inverse.op: the first of 16 candidates in which a b is 1.
ONE_SIDED = "# claim 1 refuted\nmodel 1\nclaim 1\nmodulus 2\nside U 2\nside V 1\nmap a = 1 0\nmap b = 1 ; 0\nend\n"

PCG32 = [0xA15C02B7, 0x7B47F409, 0xBA1D3330, 0x83D2F293, 0xBFA4784B, 0xCBED606E]  # for the seed 42 and the stream 54

# Statements with small shapes, whose linear generators are solved from random draws.
GREEDY: List[str] = [
    "object U V\nmap a : U -> V\nmap x : V -> U\npinv a x\nclaim x = 0\nmodel 2 U 2 V 2\nmodel 3 U 2 V 2\nmodel 5 U 2\n",
    "object U V\nmap a : U -> V\nmap x : V -> U\ninner a x\nclaim x = 0\nmodel 2 U 2 V 2\nmodel 2 U 3 V 2\n",
    "object U V\nmap a : U -> V\nmap x : V -> U\ninverse a x\nclaim x = 0\nmodel 2 U 2 V 2\nmodel 3 V 2\nmodel 7\n",
    "object V\nmap h : V -> V self\nmap b : V -> V\nsolve h\nassume h b = b h\nclaim h = 0\nmodel 5 V 2\nmodel 2 V 3\n",
    "object V\nmap h : V -> V self\nmap b c : V -> V\nsolve c h\nassume 2 h b = 3 b' c + c - b\nassume h h = c c\n"
    "claim h = 0\nmodel 5\nmodel 2 V 2\n",
    "object U V\nmap a : U -> V\nmap x y : V -> U\nsolve x y\nassume a x = a y\nassume [U] x = y\nassume x a x = 0\n"
    "claim x = 0\nmodel 2 U 2 V 2\nmodel 3 V 2\nmodel 7\n",
]


# ---- Models


def models(folder: Path) -> str:
    statement, text = folder / "statement.op", folder / "models"
    for words, evidence, want in MODELS:
        statement.write_bytes(words)
        text.write_bytes(evidence)
        said = SECOND.agreed(statement, text).out
        need(said == want, (words, evidence, want, said))
    answer = run(*checker("check_model"), statement, text)
    need(answer == Answer(7, said, ""), answer)
    return f"{len(MODELS)} texts of models are answered as worked out by hand, by {SECOND.by_whom()}"


def changed(text: str) -> Iterator[str]:
    """The text with one change: a line twice or not at all, or other numbers or names in it."""

    def others(line: str) -> Iterator[List[str]]:
        found = [re.sub("[0-9]+", "0", line), re.sub("[0-9]+", lambda match: str(int(match.group()) + 1), line)]
        found += [re.sub(rf"\b{name}\b", other, line) for name, other in zip("UVaxbbp", "VUxaapa")]
        yield from [*twice_or_not(line), *([other] for other in found if other != line)]

    return with_line(text, others)


def changed_models(folder: Path) -> str:
    statement, text = folder / "statement.op", folder / "models"
    count = 0
    for words, evidence, want in MODELS:
        for other in changed(evidence.decode()) if want == CONFIRMED else []:
            statement.write_bytes(words)
            text.write_text(other)
            need(SECOND.agreed(statement, text).out.startswith("# "), (words, other))
            count += 1
    return f"{count} changed models are answered by {SECOND.by_whom()}"


# ---- Searches


def confirmed(statement: Path, out: str, folder: Path) -> None:
    """Fails unless the report has a model for each claim that is refuted, and all models are confirmed."""
    text = folder / "report"
    text.write_text(out, encoding="utf-8")
    claims = re.findall("^# claim ([0-9]+) refuted$", out, re.MULTILINE)
    want = "".join(f"# block {block} confirmed claim {claim}\n" for block, claim in enumerate(claims, 1))
    said = SECOND.agreed(statement, text).out
    need(said == (want or "# refused K7\n"), (statement, out, said))


def refuted_claims(statement: Path, out: str, folder: Path) -> None:
    """Fails unless the models in a report of `prove` are confirmed, and are those that candidates.py finds."""
    blocks = re.findall(r"^# claim [0-9]+ refuted\nmodel 1\n(?:.*\n)*?end\n", out, re.MULTILINE)
    if blocks:
        confirmed(statement, out, folder)
        found = "".join(f"{line}\n" for line in candidates.report(str(statement), 1)[0])
        need(all(block in found for block in blocks), (statement, out, found))


def searched(statement: Path, seed: int, folder: Path) -> None:
    """Fails unless opprove, where it is asked, gives the report of candidates.py, and its models are confirmed."""
    try:
        lines, status = candidates.report(str(statement), seed)
    except Refusal as refusal:
        lines, status = [str(refusal)], 3
    out = "".join(f"{line}\n" for line in lines)
    if is_built():
        other = run(PROGRAM, "refute", statement, "--seed", seed)
        need(other == Answer(status, out, ""), (statement.read_bytes(), seed, out, other))
    if status != 3:
        confirmed(statement, out, folder)


def searches(folder: Path) -> str:
    statement, count = folder / "statement.op", 0
    for text, seeds in SEARCHED:
        statement.write_text(text, encoding="utf-8")
        for seed in seeds:
            searched(statement, seed, folder)
            count += 1
    answer = run(*checker("candidates"), GALLERY["one_sided_inverse"], "--seed", 5)
    need(answer == Answer(11, ONE_SIDED, ""), answer)
    return f"{count} searches are made, and their models are confirmed, {by_whom('candidates.py')}"


def example_searches(folder: Path) -> str:
    built()
    statements = decided()
    for statement in statements:
        searched(statement, 1, folder)
    return f"{len(statements)} searches on the examples are made by candidates.py and by opprove"


# ---- Draws and greedy solutions


def by_definition(search: candidates.Search, draws: List[int]) -> Optional[List[int]]:
    """The greedy solution, from a list of all solutions."""
    is_solved = {place: letter in search.solved for (letter, _, _), place in search.places.items()}
    choices = [range(search.shape.modulus) if is_solved[place] else [draw] for place, draw in enumerate(draws)]
    solutions = []
    for values in itertools.product(*choices):
        arrows = check_model.Arrows(search.problem, search.model(list(values)))
        if all(map(arrows.is_zero, search.linear)):
            solutions.append(values)
    chosen: Tuple[int, ...] = ()
    for draw in draws if solutions else []:
        allowed = {values[len(chosen)] for values in solutions if values[: len(chosen)] == chosen}
        chosen += (draw if draw in allowed else min(allowed),)
    return list(chosen) if solutions else None


def greedy_solutions(folder: Path) -> str:
    """The first words of PCG32, as its author's program prints them, and greedy solutions for others."""
    words = candidates.words_of(42, 54)
    need([next(words) for _ in PCG32] == PCG32, "other words than those of PCG32")
    statement, found = folder / "statement.op", []
    for text in GREEDY:
        statement.write_text(text)
        problem = Problem(str(statement))
        for search in [candidates.Search(problem, shape) for shape in tree.shapes_of(problem)]:
            for _ in range(12):
                draws = [next(words) % search.shape.modulus for _ in range(search.entries)]
                found.append(search.greedy_values(draws))
                want = by_definition(search, draws)
                need(found[-1] == want, (text, search.shape, draws, found[-1], want))
    return f"{len(found)} draws are solved for as defined by candidates.py, {found.count(None)} of them with no solution"


CHECKS: List[Callable[[Path], str]] = [models, changed_models, searches, example_searches, greedy_solutions, trying_node.count]
