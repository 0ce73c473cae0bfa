"""Tries each bound of docs/FORMATS.md at its last value and at the next one, by check.py and, where it is built, by opprove.

check.py has no bounds on numbers and on sums of rows: there it has to take the next value, which opprove refuses. The bounds
of models are in the table of test_models.py.
"""
from __future__ import annotations

from pathlib import Path
from typing import Callable, Iterator, List, NamedTuple, Optional, Tuple

from trying import PROGRAM, by_whom, checker, is_built, need, run

MOST = 2**127 - 1  # of coefficients
ACCEPTED = "# block 1 accepted claim 1 denominator 1"
Texts = Tuple[str, str]  # a statement and evidence


class Bound(NamedTuple):
    last: Texts
    next: Texts
    refused: str  # what opprove says of the next ones
    kept: str = ACCEPTED  # what is said of the last ones
    taken: Optional[str] = None  # what check.py says of the next ones, where that is something else


def bound(make: Callable[[int], Texts], last: int, refused: str, kept: str = ACCEPTED, taken: Optional[str] = None) -> Bound:
    return Bound(make(last), make(last + 1), refused, kept, taken)


def endomaps(*lines: str, claim: str = "a = a") -> str:
    """A statement, whose third line is the first of these."""
    return "object U\nmap a b c d : U -> U\n" + "".join(line + "\n" for line in lines) + f"claim {claim}\n"


def rows(*texts: str, denominator: int = 1, claim: int = 1, middle: str = "") -> str:
    """A certificate whose fourth line is the first row; in format 2 something stands before it."""
    head = f"certificate {2 if middle else 1}\nclaim {claim}\ndenominator {denominator}\n{middle}"
    return head + "".join(f"row {text}\n" for text in texts) + "end\n"


def lemmas(*texts: str) -> str:
    """Rows of lemmas, and a goal with none."""
    parts = [f"lemma {number} scale 1\nrow {text}\n" for number, text in enumerate(texts, 1)]
    return rows(middle="".join(parts) + "goal scale 1\n")


NONE = rows()  # for a claim that is 0
SIMPLE = endomaps("assume a = 0", claim="a = 0")
ZERO = endomaps("assume a = 0")


# ---- Statements


def listed(kind: str, count: int, width: int) -> str:
    """Names as long as the width says, with a blank in front of each."""
    return "".join(f" {kind}{number:0{width - 1}}" for number in range(count))


def counts() -> Iterator[Bound]:
    yield bound(lambda n: (f"object {'U' * n}\nclaim [{'U' * n}] = [{'U' * n}]\n", NONE), 32, "# refused S2 line 1 column 8")
    yield bound(lambda n: (endomaps(claim="(" * n + "a" + ")" * n + " = a"), NONE), 64, "# refused S5 line 3 column 71")
    objects = bound(lambda n: (f"object{listed('V', n, 3)}\nclaim [V00] = [V00]\n", NONE), 64, "# refused S8 line 1 column 264 limit 64")
    maps = bound(
        lambda n: (f"object V\nmap{listed('a', n, 4)} : V -> V\nclaim [V] = [V]\n", NONE), 200, "# refused S8 line 2 column 1005 limit 200"
    )
    yield from (objects, maps)
    yield bound(lambda n: (endomaps(*["assume a = b"] * n), NONE), 500, "# refused S8 line 503 column 1 limit 500")
    pseudoinverses = ["pinv a b"] * 124
    last, past = endomaps(*pseudoinverses, "pinv a b"), endomaps(*pseudoinverses, "assume a = b", "pinv a b")
    yield Bound((last, NONE), (past, NONE), "# refused S8 line 128 column 1 limit 500")
    yield bound(lambda n: (endomaps(*["claim a = b"] * (n - 1)), rows(claim=100)), 100, "# refused S8 line 103 column 1 limit 100",
                "# block 1 accepted claim 100 denominator 1")  # fmt: skip
    yield bound(lambda n: (endomaps(*["model 2"] * n), NONE), 16, "# refused S8 line 19 column 1 limit 16")


def search_lines() -> Iterator[Bound]:
    lines = [("order weight a 1000", "order weight a 1001", 16), ("order weight a 1 b 1", "order weight a 1 b 0", 20)]
    lines += [(f"model {modulus}", f"model {modulus + 1}", 7) for modulus in (3, 5, 7, 101, 32003, 65537)]
    lines += [("model 2", "model 1", 7), ("model 2 U 6", "model 2 U 7", 11), ("model 2 U 1", "model 2 U 0", 11)]
    for last, past, column in lines:
        yield Bound((endomaps(last), NONE), (endomaps(past), NONE), f"# refused S16 line 3 column {column}")
    twice = [("order weight a 1 b 1", "order weight a 1 a 1", 18), ("solve a b", "solve a a", 9), ("model 2", "model 2 U 1 U 1", 13)]
    for last, past, column in twice:
        yield Bound((endomaps(last), NONE), (endomaps(past), NONE), f"# refused S7 line 3 column {column}")
    one = endomaps("order degree", "solve a", "solve a")
    yield Bound((one, NONE), (one + "order degree\n", NONE), "# refused S7 line 7 column 1")
    yield Bound((one, NONE), (endomaps("order weight a 0") + "order degree\n", NONE), "# refused S16 line 3 column 16")


def sized(first: int, second: int, more: str = "") -> str:
    """A statement with 200 maps, of which the assumption has as many terms as the product says, and more."""
    names = listed("m", 200, 4).split()
    factors = f"({' + '.join(names[:first])}) ({' + '.join(names[:second])})"
    return f"object U\nmap {' '.join(names)} : U -> U\nassume {factors}{more}\nassume m199 = 0\nclaim m000 = m000\n"


def sizes() -> Iterator[Bound]:
    refused = "# refused S14 line 3 column 1"
    yield Bound((sized(160, 125, " = 0"), NONE), (sized(177, 113, " = 0"), NONE), refused)
    single = listed("m", 126, 4).split()
    for sign, right in ((" + ", " = 0"), (" = ", "")):
        last, past = (sized(159, 125, sign + " + ".join(single[:count]) + right) for count in (125, 126))
        yield Bound((last, NONE), (past, NONE), refused)
    yield bound(lambda n: (endomaps("assume a = " + "a " * n), NONE), 500, refused)
    # 20,001 terms on the way, of which one goes again; and a fault of signatures, which comes before the size
    yield bound(lambda n: (sized(159, 125, "".join(f" + {name}" for name in single[: n - 19875]) + " - m000 = 0"), NONE), 20000, refused)
    last = sized(160, 125, " = 0")
    past = sized(177, 113, " = 0").replace("claim m000", "claim m000 + [V]").replace("object U", "object U V")
    yield Bound((last, NONE), (past, NONE), "# refused S11 line 5 column 14 left U -> U right V -> V")


def numbers() -> Iterator[Bound]:
    yield bound(lambda n: (endomaps(claim=f"{n} a = {n} a"), NONE), MOST, "# refused S4 line 3 column 7", taken=ACCEPTED)
    refused = "# refused S13 line 3 column 1"
    for form in ("{0} a + a", "- {0} a - a"):
        yield bound(lambda n: (endomaps(claim=" = ".join([form.format(n - 1)] * 2)), NONE), MOST, refused, taken=ACCEPTED)
    yield bound(lambda n: (endomaps(claim=f"{n} (2 a) = {n} (2 a)"), NONE), 2**126 - 1, refused, taken=ACCEPTED)
    yield bound(lambda n: (endomaps(f"assume {n - 1} a = - a"), NONE), MOST, refused, taken=ACCEPTED)


# ---- Evidence text


def evidence_numbers() -> Iterator[Bound]:
    name = "b" * 32
    named = SIMPLE.replace("b c", f"{name} c")
    yield bound(lambda n: (named, rows("1 () 1 ()", f"1 ({'b' * n}) 1 ()", f"-1 ({'b' * n}) 1 ()")), 32, "# refused K2 line 5")
    refused = [f"# block 1 refused {code}" for code in ("C1", "C2 row 1", "C7 row 1")]
    yield bound(lambda n: (SIMPLE, rows(claim=n)), 2**32 - 1, "# refused K4 line 2", refused[0], refused[0])
    yield bound(lambda n: (SIMPLE, rows(f"1 () {n} ()")), 2**32 - 1, "# refused K4 line 4", refused[1], refused[1])
    goal = "goal scale 1\n"
    yield bound(lambda n: (SIMPLE, rows(f"1 () lemma {n} ()", middle=goal)), 2**32 - 1, "# refused K4 line 5", refused[2], refused[2])
    accepted = "# block 1 accepted claim 1 denominator {}"
    said = accepted.format(MOST), accepted.format(MOST + 1)
    yield bound(lambda n: (SIMPLE, rows(f"{n} () 1 ()", denominator=n)), MOST, "# refused K4 line 3", *said)
    for sign, other in (("", "-"), ("-", "")):
        last = rows(f"{sign}{MOST} () 1 ()", f"{other}{MOST} () 1 ()", "1 () 1 ()")
        past = rows(f"{sign}{MOST + 1} () 1 ()", f"{other}{MOST} () 1 ()", f"{other}1 () 1 ()", "1 () 1 ()")
        yield Bound((SIMPLE, last), (SIMPLE, past), "# refused K4 line 4", taken=ACCEPTED)
    for middle, place in ((f"goal scale {MOST}\n", 4), (f"lemma 1 scale {MOST}\ngoal scale {MOST}\n", 4)):
        last = rows(f"{MOST} () 1 ()", denominator=MOST, middle=middle)
        past = last.replace(f"scale {MOST}", f"scale {MOST + 1}", 1)
        code = "# block 1 refused C10 lemma " + ("1" if "lemma" in middle else "0")
        yield Bound((SIMPLE, last), (SIMPLE, past), f"# refused K4 line {place}", accepted.format(MOST), code)


def evidence_counts() -> Iterator[Bound]:
    def word(count: int) -> str:
        return " ".join("a" * count)

    limit = "# refused K5 line {} limit {}"
    yield bound(lambda n: (ZERO, rows(f"1 ({word(n)}) 1 ()", f"-1 ({word(n)}) 1 ()")), 500, limit.format(4, 500))
    yield bound(lambda n: (ZERO, rows(f"1 () 1 ({word(n)})", f"-1 () 1 ({word(n)})")), 500, limit.format(4, 500))
    yield bound(lambda n: (ZERO, rows(*["0 () 1 ()"] * n)), 200000, limit.format(200004, 200000))
    half = "lemma 1 scale 1\n" + "row 0 () 1 ()\n" * 100000 + "goal scale 1\n"
    yield bound(lambda n: (ZERO, rows(*["0 () 1 ()"] * (n - 100000), middle=half)), 200000, limit.format(200006, 200000))
    yield bound(
        lambda n: (ZERO, rows(middle="".join(f"lemma {k} scale 1\n" for k in range(1, n + 1)) + "goal scale 1\n")),
        200000,
        limit.format(200004, 200000),
    )
    full = [f"0 ({word(500)}) 1 ({word(500)})"] * 1000
    for more, most in ((1, 1000000), (501, 500)):
        yield Bound((ZERO, rows(*full)), (ZERO, rows(*full, f"0 () 1 ({word(more)})")), limit.format(1004, most))
    yield bound(lambda n: (ZERO, NONE * n), 100, limit.format(401, 100), "# block 100 accepted claim 1 denominator 1")


# ---- Sums of rows


def overflows() -> Iterator[Bound]:
    refused, half = "# block 1 refused C4 row ", 2**126
    doubled = "# block 1 accepted claim 1 denominator 2"
    yield bound(
        lambda n: (endomaps("assume a = 0", claim=f"{n} a = 0"), rows(f"{n} () 1 ()", f"{n} () 1 ()", denominator=2)),
        half - 1, f"{refused}0 2 times {half}", doubled, doubled,
    )  # fmt: skip
    two = endomaps("assume 2 a = 0")
    yield bound(lambda n: (two, rows(f"{n} () 1 ()", f"-{n} () 1 ()")), half - 1, f"{refused}1 {half} times 2", taken=ACCEPTED)
    for sign, other in (("", "-"), ("-", "")):
        yield bound(
            lambda n: (ZERO, rows(*(f"{text} () 1 ()" for text in (f"{sign}{n - 1}", f"{sign}1", f"{other}1", f"{other}{n - 1}")))),
            MOST, f"{refused}2 {sign}{MOST} plus {sign}1", taken=ACCEPTED,
        )  # fmt: skip


def sums() -> Iterator[Bound]:
    statement = sized(160, 125, " = 0")
    ten = [[f"{sign} (m{number:03}) 1 ()" for number in range(10)] for sign in (1, -1)]
    last, past = rows(*ten[0], *ten[1]), rows(*ten[0], "1 () 2 ()", "-1 () 2 ()", *ten[1])
    yield Bound((statement, last), (statement, past), "# block 1 refused C5 row 11 limit 200000", taken=ACCEPTED)
    full = "1 () 1 ()"
    last, past = lemmas(full), lemmas(full + "\nrow 1 () 2 ()")
    yield Bound((statement, last), (statement, past), "# block 1 refused C9 lemma 1", taken=ACCEPTED)
    yield bound(lambda n: (ZERO, lemmas(f"1 ({' '.join('a' * (n - 1))}) 1 ()")), 500, "# block 1 refused C9 lemma 1", taken=ACCEPTED)
    last, past = lemmas(*[full] * 50), lemmas(*[full] * 50, "1 () 2 ()")
    yield Bound((statement, last), (statement, past), "# block 1 refused C11 row 51 limit 1000000", taken=ACCEPTED)


def tried(texts: Texts, said: str, by_opprove: str, folder: Path) -> None:
    """Fails unless the last lines are these, and, where they are the same, the whole reports."""
    statement, evidence = folder / "bound.op", folder / "bound.cert"
    statement.write_text(texts[0])
    evidence.write_text(texts[1])
    answer = run(*checker("check"), statement, evidence)
    shown = [text if len(text) < 3000 else text[:1500] + " .. " + text[-1500:] for text in texts]
    need(answer.out.split("\n")[-2:] == [said, ""] and not answer.error, (shown, said, answer))
    if is_built():
        other = run(PROGRAM, "check", statement, evidence)
        need(other.out.split("\n")[-2:] == [by_opprove, ""], (shown, by_opprove, other))
        need(said != by_opprove or other.out == answer.out, (shown, answer, other))


def bounds(folder: Path) -> str:
    count = free = 0
    for group in (counts, search_lines, sizes, numbers, evidence_numbers, evidence_counts, overflows, sums):
        for one in group():
            tried(one.last, one.kept, one.kept, folder)
            tried(one.next, one.taken or one.refused, one.refused, folder)
            count, free = count + 1, free + (one.taken is not None)
    return f"{count} bounds are tried {by_whom('check.py')}, {free} of them on numbers and sums, which check.py doesn't have"


CHECKS: List[Callable[[Path], str]] = [bounds]
