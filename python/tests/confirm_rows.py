"""Runs of `confirm` whose reports were worked out by hand, for test_confirm.py: statements, texts of bases and what is printed of them."""
from __future__ import annotations

import itertools
from typing import List, NamedTuple, Tuple

from row_parts import lines

GREATEST = 2**127 - 1
M, M1 = str(GREATEST), str(GREATEST + 1)
CLOSED, NOT_SHARP = "closed claim 1 sharp", "closed claim 1"


class Run(NamedTuple):
    """Its name, the statement, the text of bases, the report and the status. The text may be the report of `prove`."""

    name: str
    statement: str
    basis: str
    report: str
    status: int
    is_proved: bool = False  # whether `prove` writes the text


def times(count: int, letter: str = "t") -> str:
    return " ".join([letter] * count)


def block(claim: int, rules: str, rest: str) -> str:
    return lines(" / ".join(["basis 1", f"claim {claim}", *(f"rule {rule}" for rule in rules.split(" / ") if rule), f"rest {rest}", "end"]))


def numbered(letter: str, count: int) -> List[str]:
    return [f"{letter}{number}" for number in range(count)]


# ---- Statements

P = lines("object X Y / map f g : X -> Y / map h : Y -> X / assume f h g = g / claim h f h g = 0 / claim f h g h = g h / claim h f = h g")
Q = lines("object A / map s t : A -> A / assume t t = s / claim t s = s t / claim s s s = 0")
L = lines("object A / map s t : A -> A / claim s = 0")
F = lines("object A / map r s t : A -> A / assume 3 t = 2 s / assume r r = s / claim t r = 0")
O = lines("object A / map k l : A -> A / order weight k 5 / assume l l l = k / claim k = l l / claim k l = l k")
S = lines("object X Y / map c : X -> Y / map d : X -> X self / assume c' c = d / claim c d = 0")
I = lines("object X Y / map m : X -> Y / map n : Y -> X / assume n m = [X] / claim m n = [Y]")
E = lines("language 2 / object A / map v w : A -> A / eliminate v / assume v = w^3 / claim v = w")
H = lines(f"object A / map s t : A -> A / assume {M} t = s / assume s s = t / claim s = 0")
J = lines(f"object A / map s t : A -> A / assume s s = t / assume {M} t = s / claim s = 0")
G = lines(f"object A / map s t : A -> A / claim {M} s + t = 0")
K = lines("object X Y / map f : X -> Y / map h : Y -> X / claim f h f = 0")
STARRED = "object X Y / map c : X -> Y / map d : X -> X{} / assume d d = d / claim c d = 0"
V = lines("object X Y / map c : X -> Y / claim c' c = 0")
Z = lines("object X Y / map m : X -> Y / map w : Y -> Y / assume [X] = 0 / claim w w = w")
N = lines("object X Y / map m : X -> Y / map n : Y -> X / assume n m = [X] / claim m n = 2 m n")
A = lines("object U V / map a b : U -> V / claim a = 0")
ZERO = lines("object U V / map z : V -> V / map x : U -> U / assume z = [V] / assume z = 0 / claim x = 0")
BRAID = lines("object V / map a b : V -> V / assume b a b = a b a / claim a = b")
WEIGHTED = "object A / map k l : A -> A / order weight k 5 / claim {} = l"
SQUARE = lines(f"object A / map {' '.join(numbered('m', 150))} w : A -> A / claim w w = 0")
SORTED = "object A / map {} s t : A -> A / claim ({}) {} = 0"


def sorted_words(count: int) -> Tuple[str, str]:
    """A statement, and the rest that its claim leaves."""
    letters, word = numbered("c", count), f"{times(250)} {times(249, 's')}"
    rest = " + ".join(f"{letter} {times(249, 's')} {times(250)}" for letter in reversed(letters))
    return lines(SORTED.format(" ".join(letters), " + ".join(letters), word)), rest


# ---- Faults of a line

GOOD = block(1, "f h g - g", "h g")
MISSPELT = [
    "f h g -g", "f h g - - g", "- + g", "2 f h g - 1 g", "f h g - 01 g", "f h g - 0 g", "g + f h g", "f h g - g - g", "0 + g", "- 0", "0 0",
    "3 0", "f h g = g", "g''", "[g']", "[X]'", "+", "g - 7", "f h g - g +", "g 2 f", "2 3 g", "f ' g", f"{M1} g + f h g",
    "aaaaaaaaaabbbbbbbbbbccccccccccdddd",
]  # fmt: skip
UNKNOWN = ["k", "X", "[h]", "[Z]", "k' + g", f"{M1} k - g", "g - k + f h g"]
LARGE = [f"f h g - {M1} g", f"{'9' * 60} g", f"f h g - 000{M1} g"]


def rows_of_lines() -> List[Run]:
    cases = [(code, line) for code, found in (("K2", MISSPELT), ("K3", UNKNOWN), ("K4", LARGE)) for line in found]
    return [Run(f"line: rule {line}", P, block(1, line, "h g"), f"# refused {code} line 3\n", 7) for code, line in cases]


# ---- Faults of a text

SPACED = "# a comment\n\n\tbasis  1 \n \t\n  # another one\nclaim\t001\n rule\tf  h g\t-  g\n\nrest h g \t\nend"


def rows_of_texts() -> List[Run]:
    faults = [
        ("a comment with the byte FF", "# \udcff\n" + GOOD, "K1"),
        ("a rule in front", lines("rule f h g - g") + GOOD, "K2 line 1"),
        ("basis 01", lines("basis 01 / claim 1 / rest 0 / end"), "K2 line 1"),
        ("basis 1 1", GOOD.replace("basis 1", "basis 1 1"), "K2 line 1"),
        ("no claim", lines("basis 1 / rule f h g - g"), "K2 line 2"),
        ("claim -1", lines("basis 1 / claim -1"), "K2 line 2"),
        ("two claims", lines("basis 1 / claim 1 / claim 1"), "K2 line 3"),
        ("no rest", lines("basis 1 / claim 1 / end"), "K2 line 3"),
        ("end 1", lines("basis 1 / claim 1 / rest h g / end 1"), "K2 line 4"),
        ("a second end", GOOD + "end\n", "K2 line 6"),
        ("a name and then a form", block(1, "k / f h g - - g", "h g"), "K3 line 3"),
        ("a large claim", GOOD.replace("claim 1", "claim 04294967296"), "K4 line 2"),
        ("a large number in the rest", block(1, "f h g - g", f"{M1} h g"), "K4 line 4"),
        ("an open model", GOOD + lines("model 1 / claim 1"), "K6"),
        ("a head alone", "basis 1\n", "K6"),
        ("a model alone", lines("model 1 / claim 1 / end / # nothing else"), "K7"),
        ("nothing", "", "K7"),
        ("another kind", lines("theorem 1 / end"), "K2 line 1"),
        ("CR in the place of the last LF", GOOD[:-1] + "\r", "K2 line 5"),
    ]
    good = [
        ("CR LF", GOOD.replace("\n", "\r\n")), ("blanks and comments", SPACED), ("101 models", lines("model 1 / end") * 101 + GOOD),
    ]  # fmt: skip
    return [
        *(Run(f"text: {name}", P, text, f"# refused {told}\n", 7) for name, text, told in faults),
        *(Run(f"text: {name}", P, text, f"# block 1 {CLOSED}\n", 0) for name, text in good),
        Run("text: an adjoint of a self map", S, block(1, "c' c - d'", "c d"), "# refused K2 line 3\n", 7),
    ]


# ---- Limits

GREATEST_WORDS = [" ".join(word) for word in itertools.islice(itertools.product("ts", repeat=15), 20001)]


def rows_of_limits() -> List[Run]:
    many, claims = "rule 0\n" * 100000, block(1, "", "s")
    front, back = "basis 1\nclaim 1\n", "rest s\nend\n"
    words = [" + ".join(GREATEST_WORDS[:count]) for count in (20000, 20001)]
    blocks = "".join(f"# block {number} {CLOSED}\n" for number in range(1, 101))
    cases = [
        ("rule t^500", block(1, times(500), "s"), "# block 1 refused B7 overlap 1 1 1 size letters 500\n"),
        ("rule t^501", block(1, times(501), "s"), "# refused K5 line 3 limit 500\n"),
        ("rest M1 t^501 + s", block(1, "", f"{M1} {times(501)} + s"), "# refused K4 line 3\n"),
        ("rest s + t^501", block(1, "", f"s + {times(501)}"), "# refused K2 line 3\n"),
        ("rest t^501 + q", block(1, "", f"{times(501)} + q"), "# refused K3 line 3\n"),
        ("a rest of 20,000 words", block(1, "", words[0]), "# block 1 refused B5 got s\n"),
        ("a rest of 20,001 words", block(1, "", words[1]), "# refused K5 line 3 limit 20000\n"),
        ("t^501 and 20,000 words", block(1, "", f"{times(501)} + {words[0]}"), "# refused K5 line 3 limit 20000\n"),
        ("100,000 rules 0", front + many + back, "# block 1 refused B2 rule 1\n"),
        ("100,001 rules 0", front + many + "rule 0\n" + back, "# refused K5 line 100003 limit 100000\n"),
        ("100,000 rules 0 and t^501", f"{front}{many}rule {times(501)}\n{back}", "# refused K5 line 100003 limit 500\n"),
        ("100,000 rules 0 and M1 s", f"{front}{many}rule {M1} s\n{back}", "# refused K4 line 100003\n"),
        ("101 blocks", claims * 101, "# refused K5 line 401 limit 100\n"),
    ]
    runs = [Run(f"limit: {name}", L, text, report, 7) for name, text, report in cases]
    return [*runs, Run("limit: 100 blocks", L, claims * 100, blocks, 0)]


# ---- Judgements

Z_RULES = "[X] [X] - [X] / m [X] - m / [X] / m"
N_RULES = "[X] [X] - [X] / m [X] - m / [X] n - n / n m - [X]"
JUDGED: List[Tuple[str, int, str, str, str]] = [  # the statement, the claim, the rules, the rest, and what is said
    ("P", 1, "f h g - g", "h g", CLOSED),
    ("P", 3, "f h g - g", "- h g + h f", "closed claim 3 sharp"),
    ("P", 5, "0", "h g", "refused B1"),
    ("P", 1, "f h g - g / - h + g / 2 h", "h g", "refused B2 rule 2"),
    ("P", 1, "4 f h g - 6 g", "h g", "refused B2 rule 1"),
    ("P", 1, "f h g - g / 0", "h g", "refused B2 rule 2"),
    ("P", 1, "3 h", "h g", "refused B2 rule 1"),
    ("P", 1, "h g - f", "h g", "refused B3 generator 1 rest f f - g"),
    ("P", 1, "", "h g", "refused B3 generator 1 rest f h g - g"),
    ("P", 1, "f h g - g / h f h", "h f h g", "refused B4 overlap 2 1 1 rest h g"),
    ("F", 1, "2 t - s / r r - s", "2 s r", "refused B3 generator 1 rest - s"),
    ("F", 1, "3 t - 2 s", "2 s r", "refused B3 generator 2 rest r r - s"),
    ("F", 1, "3 t - 2 s / r r - s", "2 s r", "refused B4 overlap 2 2 1 rest - s r + r s"),
    ("F", 1, "3 t - 2 s / r r - s / s r - r s", "2 r s", CLOSED),
    ("F", 1, "3 t - 2 s / r r - s / s r - r s", "r s", "refused B5 got 2 r s"),
    ("Q", 2, "t t - s", "s s s", "refused B4 overlap 1 1 1 rest t s - s t"),
    ("Q", 2, "t t - s / t s - s t", "s s s", "closed claim 2 sharp"),
    ("Q", 2, "t s - s t / t t - s", "s s s", "closed claim 2 sharp"),
    ("Q", 2, "t t - s / t s - s t / t t t - s t", "s s s", "closed claim 2 sharp"),
    ("Q", 2, "t t - s / t t - s / t s - s t", "s s s", "closed claim 2 sharp"),
    ("Q", 2, "t t - s / t s - s t / t t - t", "s s s", "refused B4 inclusion 1 3 0 rest t - s"),
    ("Q", 2, "t t - s / t s - s t / 2 t s t - s", "s s s", "refused B4 inclusion 3 2 0 rest 2 s s - s"),
    ("Q", 2, "t t - s / t s - s t / s s - s", "s", "closed claim 2 sharp"),
    ("Q", 2, "t t - s / t s - s t / s s", "0", "refused B6"),
    ("Q", 1, "t t - s / t s - s t", "0", "refused B6"),
    ("Q", 1, "t t - s / t s - s t", "t s - s t", "refused B5 got 0"),
    ("Q", 2, "t t - s / t s - s t", "0", "refused B5 got s s s"),
    ("L", 1, "t s t s - s / s t t - t", "s", "refused B4 overlap 2 1 2 rest s t s - s"),
    ("L", 1, "s t s - t / t s t - s", "s", "refused B4 overlap 1 2 1 rest - t t + s s"),
    ("L", 1, "s t s - t / s t - s / t s - s", "s", "refused B4 inclusion 1 2 0 rest s s - t"),
    ("L", 1, "s t s - s s / s t - s / t s - t", "s", "refused B4 inclusion 1 3 1 rest - s s + s"),
    ("L", 1, "t s t - s / t - s", "s", "refused B4 inclusion 1 2 0 rest s s s - s"),
    ("L", 1, "t t s t - s / t s - s / s s t - s", "s", "refused B4 overlap 3 2 2 rest s s s - s s"),
    ("L", 1, "t t s - s / s t t - s", "s", CLOSED),
    ("L", 1, "", "s", CLOSED),
    ("O", 1, "l l l - k", "l l l - l l", "refused B2 rule 1"),
    ("O", 1, "- l l l + k", "l l l - l l", CLOSED),
    ("O", 1, "- l l l + k / k l - l / l l k - l", "l l l - l l", "refused B4 inclusion 2 1 0 rest l l l l - l"),
    ("E", 1, "- w w w + v", "w w w - w", CLOSED),
    ("S", 1, "c' c - d", "c d", CLOSED),
    ("S", 1, "c c' - d", "c d", "refused B3 generator 1 rest c' c - d"),
    ("H", 1, "2 t - 3 s", "s", f"refused B7 generator 1 overflow {M} times 2"),
    ("J", 1, "2 t - 3 s", "s", "refused B3 generator 1 rest 2 s s - 3 s"),
    ("G", 1, "t - s", "s", f"refused B7 claim overflow {M} plus 1"),
    ("G", 1, "t t", f"t + {M} s", CLOSED),
    ("L", 1, f"t s - {M} s / 2 s t - t", "s", f"refused B7 overlap 2 1 1 overflow -2 times -{M}"),
    ("L", 1, f"t s - {M} s / 2 s t - t / s s", "s", "refused B4 overlap 3 2 1 rest t"),
    ("L", 1, f"t {times(498, 's')} t", "s", "refused B7 overlap 1 1 499 size letters 500"),
]  # fmt: skip
TYPED: List[Tuple[str, int, str, str, str]] = [  # the same, of closed bases whose rules are typed and in play, or not
    ("P", 1, "f h g - g / f h f - f", "h g", CLOSED),
    ("P", 1, "f h g - g / g g", "h g", NOT_SHARP),
    ("P", 1, "f h g - g / f'", "h g", NOT_SHARP),
    ("P", 1, "f h g - g / [Y]", "h g", NOT_SHARP),
    ("P", 1, "f h g - g / f' f' / [X]", "h g", NOT_SHARP),
    ("P", 2, "f h g - g", "h g", "refused B5 got 0"),
    ("K", 1, "", "f h f", CLOSED),
    ("K", 1, "f h f", "0", "refused B6"),
    ("K", 1, "h - f", "f f f", NOT_SHARP),
    ("K", 1, "f f h", "f h f", NOT_SHARP),
    ("K", 1, "h f h - h", "f h f", CLOSED),
    ("Q", 2, "t t - s / t s - s t / s s s s", "s s s", "closed claim 2 sharp"),
    ("Q", 2, "t t - s / t s - s t / [A]", "s s s", "closed claim 2"),
    ("self", 1, "d d - d / c c'", "c d", CLOSED),
    ("other", 1, "d d - d / c c'", "c d", NOT_SHARP),
    ("V", 1, "c c' c - c", "c' c", CLOSED),
    ("Z", 1, Z_RULES, "w w - w", CLOSED),
    ("N", 1, N_RULES, "- m n", CLOSED),
    ("N", 1, f"{N_RULES} / m'", "- m n", NOT_SHARP),
    ("A", 1, "b b", "a", NOT_SHARP),
]  # fmt: skip
STATEMENTS = {"self": lines(STARRED.format(" self")), "other": lines(STARRED.format("")), "K": K, "V": V, "Z": Z, "N": N, "A": A}
STATEMENTS.update({"P": P, "Q": Q, "L": L, "F": F, "O": O, "S": S, "I": I, "E": E, "H": H, "J": J, "G": G})


def said(what: str, number: int = 1) -> str:
    return f"# block {number} {what}\n"


def rows_of_judgements() -> List[Run]:
    long_rule, letters = "- l l l l + k", numbered("m", 150)
    swapped = "t s - s t"
    large = [
        (lines(WEIGHTED.format(times(126, "k"))), long_rule, "l", "refused B7 claim size letters 500"),
        (lines(WEIGHTED.format(times(125, "k"))), long_rule, f"{times(500, 'l')} - l", CLOSED),
        (SQUARE, " - ".join(["w", *reversed(letters)]), "w", "refused B7 claim size terms 20000"),
        (sorted_words(16)[0], swapped, sorted_words(16)[1], CLOSED),
        (sorted_words(17)[0], swapped, sorted_words(17)[1], "refused B7 claim steps 1000000"),
    ]
    cases = [(STATEMENTS[name], claim, rules, rest, what) for name, claim, rules, rest, what in JUDGED + TYPED]
    cases += [(statement, 1, rules, rest, what) for statement, rules, rest, what in large]
    return [
        Run(f"judged: {rules[:50]}, {rest[:50]}", statement, block(claim, rules, rest), said(what), 0 if what.startswith("closed") else 7)
        for statement, claim, rules, rest, what in cases
    ]


# ---- Reports and several blocks

Q_PROVED = lines(
    "# claim 1 proved denominator 1 rows 3 / certificate 2 / claim 1 / denominator 1 / lemma 1 scale 1 / row 1 () 1 (t) / row -1 (t) 1 () /"
    " goal scale 1 / row 1 () lemma 1 () / end"
)
Q_REPORT = Q_PROVED + lines("# claim 2 not derivable rules 2") + block(2, "t t - s / t s - s t", "s s s")
I_RULES = "[X] [X] - [X] / m [X] - m / [X] n - n / [Y] [Y] - [Y] / [Y] m - m / n [Y] - n / n m - [X]"
I_REPORT = lines("# claim 1 not derivable rules 7") + block(1, I_RULES, "m n - [Y]")
ZERO_RULES = "[V] [V] - [V] / [V] z - z / z [V] - z / z - [V] / [V]"
ZERO_REPORT = lines("# claim 1 not derivable rules 5") + block(1, ZERO_RULES, "x")


def without(text: str, line: str) -> str:
    return text.replace(f"{line}\n", "", 1)


def rows_of_reports() -> List[Run]:
    closed, bad = block(2, "t t - s / t s - s t", "s s s"), block(2, "t t - s", "s s s")
    swapped = I_REPORT.replace("rest m n - [Y]", "rest {}")
    return [
        Run("report: Q", Q, Q_REPORT, said("closed claim 2 sharp"), 0, True),
        Run("report: I", I, I_REPORT, said(CLOSED), 0, True),
        Run("report: no rule n [Y]", I, without(I_REPORT, "rule n [Y] - n"), said("refused B3 generator 7 rest n [Y] - n"), 7),
        Run("report: a rule more", I, I_REPORT.replace("rule n m - [X]\n", "rule n m - [X]\nrule m n m - m\n"), said(CLOSED), 0),
        Run("report: a negated rest", I, swapped.format("- m n + [Y]"), said("refused B5 got m n - [Y]"), 7),
        Run("report: an ascending rest", I, swapped.format("[Y] - m n"), "# refused K2 line 11\n", 7),
        Run("report: no basis", without(Q, "claim s s s = 0"), Q_PROVED, "# refused K7\n", 7, True),
        Run(
            "blocks: three", Q, closed + bad + block(9, "", "s"),
            said("closed claim 2 sharp") + said("refused B4 overlap 1 1 1 rest t s - s t", 2), 7,
        ),
        Run("blocks: faulty", Q, bad + lines("basis 1 / claim 2 / rule t t -s"), "# refused K2 line 8\n", 7),
        Run(
            "statement: faulty", lines("object A / map s : A -> A / claim s = q"), "# \udcff\n", "# refused S6 line 3 column 11\n", 3,
        ),
        Run("report: a zero object", Z, lines("# claim 1 not derivable rules 4") + block(1, Z_RULES, "w w - w"), said(CLOSED), 0, True),
        Run("report: an object that isn't marked", N, lines("# claim 1 not derivable rules 4") + block(1, N_RULES, "- m n"), said(CLOSED), 0, True),
        Run(
            "blocks: sharp and not", P, block(1, "f h g - g / g g", "h g") + GOOD + block(3, "f h g - g", "- h g + h f"),
            said(NOT_SHARP) + said(CLOSED, 2) + said("closed claim 3 sharp", 3), 0,
        ),
        Run("report: zero", ZERO, ZERO_REPORT, said(CLOSED), 0, True),
        Run("report: zero without a rule", ZERO, without(ZERO_REPORT, "rule [V]"), said("refused B3 generator 2 rest [V]"), 7),
        Run("braid", BRAID, block(1, "b a b - a b a", "- b + a"), said("refused B4 overlap 1 1 2 rest b a a b a - a b a a b"), 7),
    ]  # fmt: skip


def runs() -> List[Run]:
    return rows_of_lines() + rows_of_texts() + rows_of_limits() + rows_of_judgements() + rows_of_reports()
