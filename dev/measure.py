#!/usr/bin/env -S PYTHONPATH=python/src:python/tests python3 -B
"""Measures opprove beside plain programs: measure.py [WORD | TABLE [NAME] ..], with prove, counts, workers, orders, refute, explain,
confirm, reductions or cancel for TABLE

Makes statements and certificates that are small and cost much, or are as large as may be, runs `opprove check` and
dev/plain.rs on each, and prints a table in Markdown: processor time and peak memory of both, the least of three
runs or of those that begin within ten seconds, and the quotient of the times. With a word it makes the rows alone whose
name begins with it: those that begin with `powers`, and `order` and `maps` of `measure_commands.py`, are of language 2. It
wants rustc and the program that is built, or another one that the variable OPPROVE names. A run may take 8 GB of memory.
Memory is seen from that of this script upwards. `measure_commands.py`, `measure_prove.py`, `measure_refute.py`,
`measure_explain.py`, `measure_confirm.py` and `measure_cancel.py` have the tables of the other commands.
"""
from __future__ import annotations

import itertools
import os
import string
import subprocess
import sys
import tempfile
from pathlib import Path
from typing import Callable, List, NamedTuple, Optional, Tuple

import measure_cancel
import measure_commands
import measure_confirm
import measure_explain
import measure_prove
import measure_refute
from measuring import OPPROVE, Text, bound, build, head, least, line, quotient_text, told, write
from trying import Failed, Skipped, need

STATEMENT_LIMIT, EVIDENCE_LIMIT = 2**20, 2**26
FINE, FAULTY, REFUSED = 0, 3, 7
MAPS = string.ascii_lowercase + "A"
HEAD = f"object U\nmap {' '.join(MAPS)} : U -> U\n"
ZERO_CLAIM = "claim a = a\n"


class Case(NamedTuple):
    name: str
    statement: Callable[[], Text]
    evidence: Optional[Callable[[], Text]] = None
    answer: str = "# refused K7\n"  # how the report of opprove begins
    plain_status: int = FINE


# ---- Statements

POWER = "(a+b)" * 14  # 16,384 terms
CUBE = f"({'+'.join(MAPS)})" * 3  # 19,683 terms
WORDS = [word for count in (1, 2, 3) for word in itertools.product(MAPS, repeat=count)]


def claim(left: str) -> Callable[[], Text]:
    return lambda: iter([HEAD, f"claim {left} = 0\n"])


def long_sum() -> Text:
    """A sum of 19,990 words, and then a letter added and taken off to the end of the file."""
    front = f"{HEAD}claim {'+'.join(' '.join(word) for word in WORDS[:19_990])}"
    yield front
    yield "+a-a" * ((STATEMENT_LIMIT - len(front) - len(" = 0\n")) // 4)
    yield " = 0\n"


def powers_of_one() -> str:
    """Forty words, times seven sums of the powers up to the 64th of one letter, every other one with changing signs."""
    powers = [f"{f'(a{sign}a' * 63}(a){')' * 63}" for sign in "+-"]
    return f"({'+'.join(' '.join(word) for word in WORDS[:40])})" + "".join((powers * 4)[:7])


def nested(level: str, count: int) -> str:
    """A polynomial of 16,384 terms in so many brackets."""
    return "(" * count + POWER + level * count


def assumptions(length: int, last: str = ZERO_CLAIM) -> Callable[[], Text]:
    """500 assumptions of 16,384 terms, each word of which has so many letters."""
    line = f"assume {POWER}{' a' * (length - 14)} = 0\n"
    return lambda: itertools.chain([HEAD], itertools.repeat(line, 500), [last])


STATEMENTS = [
    *(Case(f"growth: {count} brackets `(a+b)`", claim("(a+b)" * count)) for count in range(10, 15)),
    Case("word: 14 brackets and 20 letters behind", claim(POWER + " a" * 20)),
    Case("word: 19,683 terms and 480 letters behind", claim(CUBE + " a" * 480)),
    Case("word: 19,683 terms and 300 times `(a)` behind", claim(CUBE + "(a)" * 300)),
    Case("sum: 19,990 terms and then `+a-a` up to 1 MiB", long_sum),
    Case("cancel: 16,384 terms less themselves, 20 times", claim("+".join([f"({POWER}-{POWER})"] * 20))),
    Case("cancel: seven sums of powers of one letter", claim(powers_of_one())),
    Case("nested: 16,384 terms in 64 brackets", claim(nested(")", 63))),
    Case("nested: the same, `+c-c` in each", claim(nested("+c-c)", 63))),
    Case("nested: the same, `c` behind each", claim(nested(")c", 63))),
    Case("marks: 16,384 terms and 1,000 times `'`", claim(f"({POWER})" + "'" * 1000)),
    Case("three: `(a+..)(a+..)(a+..)` of 27 letters each", claim(CUBE)),
    *(
        Case(f"assumptions: 500 of 16,384 words of {length} letters", assumptions(length))
        for length in (20, 100, 200, 500)
    ),
    Case("assumptions: 500 of 16,384 words of 20 letters, starred", assumptions(20, "claim a' = a'\n")),
]


# ---- Language 2

SECOND = "language 2\n" + HEAD
TOO_LARGE = "# refused S14 line 4 column 1\n"


def second(left: str, more: str = "") -> Callable[[], Text]:
    """A claim of language 2, in which something is repeated to the end of 1 MiB, where there is something."""
    front, back = f"{SECOND}claim {left}", " = 0\n"
    return lambda: iter([front, more * ((STATEMENT_LIMIT - len(front + back)) // max(len(more), 1)), back])


def powers(base: str, times: int) -> Case:
    """So many times one power in a sum, added and taken off in turn, as the coefficients are large."""
    terms = [f"{'-+'[number % 2]} {base}" for number in range(1, times + 1)]
    return Case(f"powers: `{base}`" + f", {times:,} times in a sum" * (times > 1), second(" ".join(terms)))


def assumed_powers() -> Text:
    return itertools.chain([SECOND], itertools.repeat("assume (a+b)^14 c^486 = 0\n", 500), [ZERO_CLAIM])


POWERS = [
    Case("powers: `a` and then `'` up to 1 MiB", second("a", "'")),
    Case("powers: `a` and then `'^1` up to 1 MiB", second("a", "'^1")),
    Case("powers: `(a - a)` and then `^500` up to 1 MiB", second("(a - a)", "^500")),
    Case("powers: `a^500` and then `+a^500` up to 1 MiB", second("a^500", "+a^500")),
    *(powers(base, times) for base in ("(a+b)^14", "(a+a^2)^130") for times in (1, 100, 1000)),
    Case("powers: `(a+b)^500`", second("(a+b)^500"), None, TOO_LARGE, REFUSED),
    Case("powers: 500 assumptions `(a+b)^14 c^486 = 0`", assumed_powers),
]


# ---- Evidence


def of(*lines: str) -> Callable[[], Text]:
    return lambda: iter([HEAD, *(line + "\n" for line in lines), ZERO_CLAIM])


CYCLE = of("assume a = b", "assume b = c", "assume c = a")
START = "certificate {}\nclaim 1\ndenominator 1\n"
END = "end\n"


def word(number: int, length: int) -> str:
    """The word with this number among those of so many letters; words that follow each other stand far apart."""
    number = number * 7919 % 26**length
    return " ".join(MAPS[number // 26**place % 26] for place in range(length))


def distinct_rows() -> Text:
    """Each word with the three generators of a cycle, whose sum is zero: 199,998 rows of five letters."""
    yield START.format(1)
    for generator in (1, 2, 3):
        for number in range(66_666):
            text = word(number, 5)
            yield f"row 1 ({text[:3]}) {generator} ({text[4:]})\n"
    yield END


def rows_in_turn(count: int, words: List[Tuple[str, str]]) -> Text:
    """Rows over the first generator with these words, which are added and then taken off, again and again."""
    yield START.format(1)
    for number in range(count):
        turn, place = divmod(number, len(words))
        left, right = words[place]
        yield f"row {-1 if turn % 2 else 1} ({left}) 1 ({right})\n"
    yield END


def few_words() -> Text:
    return rows_in_turn(200_000, [("", ""), ("a", ""), ("", "b"), ("a", "b")])


def long_words() -> Text:
    """2,000 rows whose two words have 500 letters, which are added and then taken off."""
    texts = [" ".join(word(number * 5 + part, 50) for part in range(10)) for number in range(200)]
    return rows_in_turn(2000, [(text[:499], text[500:]) for text in texts])


def large_generators() -> Text:
    return rows_in_turn(200, [(" ".join("a" * count), "") for count in range(10)])


def many_blocks() -> Text:
    """A hundred blocks in 64 MiB, each of words of four letters that are added and then taken off."""
    row = len("row -1 (a b) 1 (c d)\n")
    count = (EVIDENCE_LIMIT // 100 - len(START.format(1) + END)) // (2 * row)
    words = [(text[:3], text[4:]) for text in (word(number, 4) for number in range(count))]
    return itertools.chain.from_iterable(rows_in_turn(2 * count, words) for _ in range(100))


def brackets() -> Text:
    return itertools.repeat("(" * 2**16, EVIDENCE_LIMIT // 2**16)


def long_row() -> Text:
    yield START.format(1) + "row 1 ("
    yield from itertools.repeat("a " * 2**15, EVIDENCE_LIMIT // 2**16 - 1)
    yield ") 1 ()\n" + END


def many_lemmas() -> Text:
    """20,000 lemmas, each from the one before with nine rows, and a goal of 20,000 rows that takes half of them off."""
    yield START.format(2)
    for number in range(1, 20_001):
        rows = [f"row 1 ({word(number, 3)}) 1 ()"]
        if number > 1:
            rows += [f"row 1 () lemma {number - 1} ()", f"row -1 ({word(number - 1, 3)}) 1 ()"]
        rows += [f"row {sign} (a) 1 ({letter})" for sign in (1, -1) for letter in "xyz"]
        yield f"lemma {number} scale 1\n" + "".join(row + "\n" for row in rows)
    yield "goal scale 1\n"
    for number in range(1, 10_001):
        yield f"row 1 () lemma {number} ()\nrow -1 ({word(number, 3)}) 1 ()\n"
    yield END


ACCEPTED = "# block 1 accepted"
EVIDENCE = [
    Case("rows: 200,000 with 1,000,000 letters of distinct words", CYCLE, distinct_rows, ACCEPTED),
    Case("rows: 200,000 over four words", CYCLE, few_words, ACCEPTED),
    Case("rows: 2,000 of 500 letters", CYCLE, long_words, ACCEPTED),
    Case("rows: 200 over a generator of 16,384 terms", of(f"assume {POWER} = 0"), large_generators, ACCEPTED),
    Case("rows: 100 blocks in 64 MiB", CYCLE, many_blocks, ACCEPTED),
    Case("lemmas: 20,000 with 200,000 rows", CYCLE, many_lemmas, ACCEPTED),
    Case("line: 64 MiB of `(`", CYCLE, brackets, "# refused K2 line 1\n", REFUSED),
    Case("line: a row of 33 million letters", CYCLE, long_row, "# refused K5 line 4 limit 500\n", REFUSED),
]


CASES = STATEMENTS + EVIDENCE + POWERS


# ---- Runs


def row(case: Case, plain: str, folder: Path) -> str:
    statement, evidence, out = folder / "statement.op", folder / "evidence.cert", folder / "out"
    size = write(statement, case.statement()) + write(evidence, case.evidence() if case.evidence else iter(()))
    files = [str(statement)] + ([str(evidence)] if case.evidence else [])
    other = least([plain, *files], out, lambda status, text: status == case.plain_status)
    want = FINE if case.answer == ACCEPTED else FAULTY if case.answer.startswith("# refused S") else REFUSED
    is_right = lambda status, text: status == want and text.startswith(case.answer)
    own = least([str(OPPROVE), "check", str(statement), str(evidence)], out, is_right)
    return line(case.name, f"{size:,}", told(own), told(other), quotient_text(own, other))


def check_rows(words: List[str], folder: Path) -> Text:
    """The table of `check` and that of other commands, or the rows whose names begin with the word."""
    cases = [case for case in CASES if case.name.startswith("".join(words[:1]))]
    plain = build("plain", folder) if cases else ""
    bound()
    if cases:
        yield head("bytes", "`opprove` s", "MB", "plain s", "MB", "quotient")
    yield from (row(case, plain, folder) for case in cases)
    yield from [""] * (not words)
    yield from measure_commands.rows(words, folder)


TABLES = {
    "prove": measure_prove.rows, "counts": measure_prove.count_rows, "workers": measure_prove.worker_rows,
    "orders": measure_prove.order_rows, "refute": measure_refute.rows,
    "explain": measure_explain.rows, "confirm": measure_confirm.rows, "reductions": measure_confirm.reduction_rows, "cancel": measure_cancel.rows,
}  # fmt: skip


def main(words: List[str]) -> int:
    rows = TABLES.get(words[0], check_rows) if words else check_rows
    try:
        need(os.access(OPPROVE, os.X_OK), f"{OPPROVE} is not built")
        with tempfile.TemporaryDirectory() as name:
            for line in rows(words if rows is check_rows else words[1:], Path(name)):
                print(line, flush=True)
    except (Failed, Skipped, subprocess.TimeoutExpired) as reason:
        print(reason, file=sys.stderr)
        return 1
    return 0


if __name__ == "__main__":
    sys.exit(main(sys.argv[1:]))
