"""Runs of `cancel` whose reports were worked out by hand, for test_cancel.py: statements, texts of proofs and what is printed of them."""
from __future__ import annotations

from typing import List, NamedTuple, Tuple

from confirm_rows import M, M1
from row_parts import lines


class Run(NamedTuple):
    name: str
    statement: str
    proof: str
    report: str


def edited(text: str, *edits: str) -> str:
    """The text with edits, each `OLD => NEW`, where OLD occurs once; an empty NEW leaves its line out."""
    for edit in edits:
        old, new = edit.split(" => ") if " => " in edit else (edit[: -len(" =>")], "")
        parts = f" / {text} / ".split(f" / {old} / ")
        assert len(parts) == 2, (text, edit)
        text = (f" / {new} / " if new else " / ").join(parts)[3:-3]
    return text


def proof(body: str, claim: int = 1, denominator: int = 1) -> str:
    return lines(f"cancellation 1 / claim {claim} / denominator {denominator} / {body} / end")


def said(what: str, claim: int = 1, denominator: int = 1, block: int = 1) -> str:
    """The line on a block that is accepted, or refused, or on the text (K)."""
    word, *rest = what.split(" ")
    if word == "accepted":
        return " ".join([f"# block {block} accepted claim {claim} denominator {denominator}", *rest]) + "\n"
    return f"# refused {what}\n" if word[0] == "K" else f"# block {block} refused {what}\n"


# ---- Statements

J = lines(
    "object P Q R / map k : P -> Q / map m : Q -> R / map x y : P -> P / assume m k x = m k y / claim x = y / claim 2 x = 2 y /"
    f" claim {M} x = {M} y"
)
F = lines("object U V W / map g : U -> W / map f : W -> V / map x : V -> U / assume f g x f g = f g / claim g x f = [W]")
SEVEN = (
    "object T A B C D E F / map i : A -> B / map p : B -> C / map j : D -> E / map n : E -> F / map a : A -> D / map b : B -> E /"
    " map c : C -> F"
)
SQUARES = "assume b i = j a / assume n b = c p"
L = lines(f"{SEVEN} / map x : T -> B / map y : T -> A / {SQUARES} / assume b x = 0 / assume x = i y / claim p x = 0 / claim x = 0")
E = lines(f"{SEVEN} / map z : E -> T / map w : F -> T / {SQUARES} / assume z b = 0 / assume z = w n / claim z j = 0 / claim z = 0")
N = lines(
    "object T U V W / map q : W -> V / map r : U -> W / map x y : T -> U / assume q' q = [W] / assume (q r)' (q r) x = (q r)' (q r) y /"
    " claim q r x = q r y"
)
K = lines(
    f"object P / map h : P -> P self / map u v : P -> P / assume h u h = h v h / assume 2 h u = 0 / assume {M} u = 0 / assume u = u /"
    " claim u = v / claim u = 0"
)
G = lines("object U V W / map a : U -> V / map x y : W -> U / assume a' a x = a' a y / claim a x = a y / claim x = y")
H = "object P / map h u : P -> P / assume {} = 0 / claim u = 0"
UNSTARRED = lines("object P Q / map a : P -> Q / map u : P -> P / assume a u = 0 / claim u = 0")


def large() -> str:
    """X: a statement whose assumption has 20,000 terms."""
    maps = [f"m{number}" for number in range(1, 201)]
    product = f"({' + '.join(maps[:100])}) ({' + '.join(maps)})"
    return lines(f"object P / map {' '.join(maps)} : P -> P / assume m1 {product} = 0 / claim {product} = 0")


# ---- Proofs

J1 = (
    "monic m / monic k / lemma 1 scale 1 / row 1 () 1 () / cancel 2 m left 1 / cancel 3 k left 2 / goal scale 1 / row 1 () lemma 3 ()"
)
ROW10 = (
    "monic f / epic g / lemma 1 scale 1 / row 1 () 1 () / row -1 () 4 (g) / cancel 2 f left 1 / cancel 3 g right 2 / goal scale 1 /"
    " row 1 () lemma 3 ()"
)
ROW15 = (
    "monic c / lemma 1 scale 1 / row 1 (n) 3 () / row -1 () 2 (x) / cancel 2 c left 1 / goal scale 1 / row 1 () lemma 2 ()"
)
ROW16 = (
    "monic j / monic a / lemma 1 scale 1 / row 1 () 3 () / row -1 (b) 4 () / row -1 () 1 (y) / cancel 2 j left 1 / cancel 3 a left 2 /"
    " goal scale 1 / row 1 () 4 () / row 1 (i) lemma 3 ()"
)
ROW17 = (
    "epic a / lemma 1 scale 1 / row 1 () 3 (i) / row -1 (z) 1 () / cancel 2 a right 1 / goal scale 1 / row 1 () lemma 2 ()"
)
ROW18 = (
    "epic p / epic c / lemma 1 scale 1 / row 1 () 3 () / row -1 () 4 (b) / row -1 (w) 2 () / cancel 2 p right 1 / cancel 3 c right 2 /"
    " goal scale 1 / row 1 () 4 () / row 1 () lemma 3 (n)"
)
ROW19 = (
    "monic r' / lemma 1 scale 1 / row 1 () 2 () / row -1 (r') 1 (r x) / row 1 (r') 1 (r y) / row -1 (r') 7 (x) / row 1 (r') 7 (y) /"
    " cancel 2 r' left 1 / goal scale 1 / row 1 (q) lemma 2 ()"
)
ROW21 = "monic a' / lemma 1 scale 1 / row 1 () 1 () / cancel 2 a' left 1 / goal scale 1 / row 1 () lemma 2 ()"
ROW24 = (
    "monic h / epic h' / lemma 1 scale 1 / row 1 () 1 () / cancel 2 h left 1 / cancel 3 h right 2 / goal scale 1 / row 1 () lemma 3 ()"
)
ROW26 = "monic h / lemma 1 scale 2 / row 1 () 2 () / cancel 2 h left 1 / goal scale 1 / row 1 () lemma 2 ()"
SCALED = edited(ROW26, "lemma 1 scale 2 => lemma 1 scale 1", "goal scale 1 => goal scale 2")
# Items 1 to 3 are zero.
ROW28 = (
    "monic h / epic v' / lemma 1 scale 1 / cancel 2 h left 1 / cancel 3 v' right 2 / lemma 4 scale 1 / row 1 () 2 () / cancel 5 h left 4 /"
    " goal scale 2 / row 1 () lemma 5 () / row 9 (u) lemma 3 (v)"
)
ROW33 = (
    "monic a / monic a' / epic a' / lemma 1 scale 1 / row 1 () 1 () / lemma 2 scale 1 / row 1 (a') lemma 1 () / cancel 3 a' left 2 /"
    " cancel 4 a left 3 / goal scale 1 / row 1 () lemma 4 ()"
)
UNTYPED_LEMMA = "lemma 4 scale 1 / row 1 (y) 1 () / goal scale 1 / row 2 (k) lemma 4 () / row -2 (k y) 1 ()"
GOAL = "goal scale 1 / row 1 () lemma 3 ()"
# J1 in CR LF, with a comment, blanks and a tab.
SPACED = proof(edited(J1, "cancel 3 k left 2 => cancel  03 k\tleft  02 ", "monic k => monic k / # a comment")).replace("\n", "\r\n")


def off(letter: str, count: int, first: int = 2) -> str:
    """Items, from the one with this number on, each of which takes the letter off the one before."""
    return " / ".join(f"cancel {number} {letter} left {number - 1}" for number in range(first, first + count))


def stripped(count: int) -> str:
    return f"monic h / lemma 1 scale 1 / row 1 () 1 () / {off('h', count)} / goal scale 1 / row 1 () lemma {count + 1} ()"


Case = Tuple[str, str, str, Tuple[int, ...], str]  # the number of the row, a statement, a proof, claim and denominator, what is said


def cases_that_add_up() -> List[Case]:
    two = "lemma 3 scale 1 / row 1 () lemma 2 () / cancel 4 a left 3 / goal scale 1 / row 1 () lemma 4 ()"
    exchanged = ["monic m => epic x' / monic k / epic y", "monic k / lemma 1 scale 1 => monic m / lemma 1 scale 1"]
    items = "lemma 4 scale 1 / row 1 (y) lemma 3 (x) / goal scale 1 / row 1 () lemma 4 () / row -1 (y) lemma 3 (x)"
    mirrored = "cancel 2 f left 1 / cancel 3 g right 2 => cancel 2 g right 1 / cancel 3 f left 2"
    six = "lemma 1 scale 1 / row 1 () 1 () / row -1 () 4 (g) => lemma 1 scale 6 / row 6 () 1 () / row -6 () 4 (g)"
    both = "monic a' => monic a' / monic a"
    plain = "goal scale 1 / row 1 () lemma 2 ()"
    return [
        ("1", J, J1, (), "accepted monic m k"),
        ("2", J, edited(J1, *exchanged), (), "accepted monic k m epic x' y"),
        ("3", J, edited(J1, "monic k => monic k / epic m"), (), "accepted monic m k epic m"),
        ("3", J, edited(J1, "monic m => monic m / monic m'"), (), "accepted monic m m' k"),
        ("4", J, edited(J1, "row 1 () lemma 3 () => row 2 () lemma 3 ()"), (2,), "accepted monic m k"),
        ("5", J, edited(J1, f"{GOAL} => goal scale 2 / row 2 () lemma 3 ()"), (1, 4), "accepted monic m k"),
        ("5", J, edited(J1, "lemma 1 scale 1 / row 1 () 1 () => lemma 1 scale 3 / row 3 () 1 ()"), (1, 3), "accepted monic m k"),
        ("7", J, edited(J1, "row 1 () 1 () => row 1 () 1 () / row 1 (m) 1 () / row -1 (m) 1 ()"), (), "accepted monic m k"),
        ("8", J, edited(J1, f"goal scale 1 => {UNTYPED_LEMMA}"), (), "accepted monic m k"),
        ("9", J, edited(J1, f"goal scale 1 => {items}"), (), "accepted monic m k"),
        ("10", F, ROW10, (), "accepted monic f epic g"),
        ("11", F, edited(ROW10, mirrored), (), "accepted monic f epic g"),
        ("12", F, edited(ROW10, six), (1, 12), "accepted monic f epic g"),
        ("15", L, ROW15, (), "accepted monic c"),
        ("16", L, ROW16, (2,), "accepted monic j a"),
        ("17", E, ROW17, (), "accepted epic a"),
        ("18", E, ROW18, (2,), "accepted epic p c"),
        ("19", N, ROW19, (), "accepted monic r'"),
        ("21", G, ROW21, (), "accepted monic a'"),
        ("22", G, edited(ROW21, both, f"{plain} => {two}"), (2,), "accepted monic a' a"),
        ("22", G, edited(ROW21, both, f"{plain} => cancel 3 a left 2 / {GOAL}"), (2,), "accepted monic a' a"),
        ("24", K, ROW24, (), "accepted monic h epic h"),
        ("24", K, edited(ROW24, "monic h => monic h'", "cancel 2 h left 1 => cancel 2 h' left 1"), (), "accepted monic h epic h"),
        ("26", K, ROW26, (2, 2), "accepted monic h"),
        ("26", K, SCALED, (2, 2), "accepted monic h"),
        ("28", K, ROW28, (2, 2), "accepted monic h epic v'"),
        ("31", lines(H.format("h h u")), stripped(2), (), "accepted monic h"),
        ("33", UNSTARRED, ROW33, (), "accepted monic a a' epic a'"),
    ]


def cases_of_letters() -> List[Case]:
    return [
        ("13", F, edited(ROW10, "row -1 () 4 (g) =>"), (), "X4 item 3"),
        ("14", F, edited(ROW10, "epic g =>"), (), "X2 item 3"),
        ("14", F, edited(ROW10, "monic f / epic g => epic f / monic g"), (), "X2 item 2"),
        ("20", N, edited(ROW19, "monic r' => monic r"), (), "X2 item 2"),
        ("20", N, edited(ROW19, "monic r' => epic r"), (), "X2 item 2"),
        ("23", G, edited(ROW21, "monic a' => epic a"), (), "X2 item 2"),
        ("29", K, "lemma 1 scale 1 / cancel 2 h left 1 / goal scale 1", (2,), "X2 item 2"),
        ("30", K, "monic u / lemma 1 scale 1 / row 1 () 3 () / cancel 2 u left 1 / goal scale 1", (2,), "X4 item 2"),
        ("30", K, "epic u / lemma 1 scale 1 / row 1 () 3 () / cancel 2 u right 1 / goal scale 1", (2,), "X4 item 2"),
        ("32", lines(H.format("h h h")), stripped(3), (), "X4 item 4"),
        ("34", J, edited(J1, "cancel 3 k left 2 => cancel 3 k left 3"), (), "X1 item 3"),
        ("34", J, edited(J1, "cancel 3 k left 2 => cancel 3 k left 0"), (), "X1 item 3"),
        ("34", J, edited(J1, "cancel 2 m left 1 => cancel 2 m left 5"), (), "X1 item 2"),
        ("34", J, edited(J1, "cancel 2 m left 1 => cancel 2 m left 4294967295"), (), "X1 item 2"),
        ("35", J, edited(J1, "monic k =>", "cancel 3 k left 2 => cancel 3 k left 4"), (), "X1 item 3"),
        ("36", J, edited(J1, "monic k => epic k"), (), "X2 item 3"),
        ("36", J, edited(J1, "monic k => monic k'"), (), "X2 item 3"),
        ("37", J, edited(J1, "cancel 2 m left 1 => cancel 2 m right 1"), (), "X2 item 2"),
        ("37", J, edited(J1, "cancel 2 m left 1 => cancel 2 x left 1"), (), "X2 item 2"),
        ("38", J, edited(J1, "monic m =>", "row 1 () 1 () => row 1 (x) 1 ()"), (), "X2 item 2"),
        ("39", J, edited(J1, "row 1 () 1 () => row 1 (m) 1 ()"), (), "X3 item 2"),
        ("39", J, edited(J1, "row 1 () 1 () => row 1 (k) 1 ()"), (), "X3 item 2"),
        ("39", J, edited(J1, "row 1 () 1 () => row 1 () 1 () / row 1 (m k x) 1 () / row 1 (m) 1 (x)"), (), "X3 item 2"),
        ("40", J, edited(J1, "cancel 3 k left 2 => cancel 3 m left 2"), (), "X4 item 3"),
        ("40", J, edited(J1, "monic k => monic k / epic x", "cancel 3 k left 2 => cancel 3 x right 2"), (), "X4 item 3"),
        ("41", J, edited(J1, "monic k => monic k / monic x", "goal scale 1 => cancel 4 x left 3 / goal scale 1"), (), "X4 item 4"),
        ("42", J, edited(J1, "cancel 3 k left 2 => cancel 3 m left 2", "row 1 () lemma 3 () => row 1 () lemma 9 ()"), (), "X4 item 3"),
    ]  # fmt: skip


def cases_of_sums() -> List[Case]:
    return [
        ("25", K, edited(ROW24, "epic h' =>", "monic h => monic h / monic h'"), (), "K2 line 5"),
        ("25", K, "monic u' / monic u / goal scale 1 / row 0 () 1 ()", (), "C6 word u want 1 got 0"),
        ("27", K, SCALED, (2, 3), "C10 lemma 0"),
        ("43", J, J1, (4,), "C1"),
        ("43", J, J1, (0, 0), "C1"),
        ("44", J, J1, (1, 0), "C3"),
        ("44", J, edited(J1, "lemma 1 scale 1 => lemma 1 scale 0"), (), "C3"),
        ("44", J, edited(J1, "goal scale 1 => goal scale 0"), (), "C3"),
        ("44", J, edited(J1, "lemma 1 scale 1 => lemma 1 scale 2", "goal scale 1 => goal scale 0"), (), "C3"),
        ("45", J, edited(J1, "lemma 1 scale 1 => lemma 1 scale 2"), (), "C10 lemma 1"),
        ("45", J, edited(J1, "goal scale 1 => lemma 4 scale 2 / goal scale 1"), (), "C10 lemma 4"),
        ("46", J, edited(J1, "goal scale 1 => goal scale 3"), (1, 2), "C10 lemma 0"),
        ("46", J, edited(J1, "goal scale 1 => lemma 4 scale 5 / goal scale 3"), (1, 2), "C10 lemma 4"),
        ("47", J, edited(J1, "goal scale 1 => goal scale 2"), (3, 3), "C10 lemma 0"),
        ("47", J, edited(J1, "goal scale 1 => goal scale 2"), (3, 2), f"C4 row 0 2 times -{M}"),
        ("47", J, edited(J1, "goal scale 1 => goal scale 2", "cancel 2 m left 1 => cancel 2 m left 2"), (3, 2), f"C4 row 0 2 times -{M}"),
        ("48", J, edited(J1, "row 1 () 1 () => row 1 () 0 ()"), (), "C2 row 1"),
        ("48", J, edited(J1, "row 1 () 1 () => row 1 () 1 () / row 1 () 2 ()"), (), "C2 row 2"),
        ("49", J, edited(J1, "row 1 () 1 () => row 1 () lemma 1 ()"), (), "C7 row 1"),
        ("49", J, edited(J1, "row 1 () lemma 3 () => row 1 () lemma 4 ()"), (), "C7 row 2"),
        ("49", J, edited(J1, "row 1 () lemma 3 () => row 1 () lemma 3 () / row 1 () lemma 0 ()"), (), "C7 row 3"),
        ("50", J, edited(J1, f"row 1 () 1 () => row {M} () 1 () / row 1 () 1 ()"), (), f"C4 row 2 -{M} plus -1"),
        ("50", K, "lemma 1 scale 1 / row 2 () 3 () / goal scale 1", (), f"C4 row 1 2 times {M}"),
        ("51", J, edited(J1, "lemma 1 scale 1 => lemma 1 scale 2"), (1, 2), "C8 lemma 1 word m k x got 1"),
        ("51", J, edited(J1, "goal scale 1 => lemma 4 scale 2 / row 1 () lemma 3 () / goal scale 1"), (1, 2), "C8 lemma 4 word x got 1"),
        ("52", J, edited(J1, "row 1 () lemma 3 () => row 1 () lemma 2 ()"), (), "C6 word x want 1 got 0"),
        ("52", J, "goal scale 1", (), "C6 word x want 1 got 0"),
    ]  # fmt: skip


def cases_of_limits() -> List[Case]:
    front, statement = "monic m1 / lemma 1 scale 1 / row 1 () 1 ()", large()
    none = "C6 word x want 1 got 0"
    chain = f"monic m / lemma 1 scale 1 / {off('m', 199_999)}"
    rows = " / ".join(["row 0 () 1 ()"] * 199_999)
    word = " ".join(["x"] * 500)
    long_rows = " / ".join([f"row 0 ({word}) 1 ({word})"] * 999)
    longs = " / ".join(f"row 1 (m{number}) 1 ()" for number in range(1, 12))
    fifty, more = (" / ".join([front, *(f"cancel {number} m1 left 1" for number in range(2, last))]) for last in (51, 52))
    return [
        ("53", statement, f"{fifty} / goal scale 1 / row 1 () lemma 50 ()", (), "accepted monic m1"),
        ("53", statement, f"{more} / goal scale 1 / row 1 () lemma 50 ()", (), "C11 row 1 limit 1000000"),
        ("54", statement, f"{fifty} / cancel 51 m2 left 1 / goal scale 1", (), "X2 item 51"),
        ("54", statement, f"monic m2 / {fifty} / cancel 51 m2 left 1 / goal scale 1", (), "X4 item 51"),
        ("55", statement, edited(front, "row 1 () 1 () => row 1 () 1 () / row 1 (m2) 1 ()") + " / goal scale 1", (), "C9 lemma 1"),
        ("55", statement, f"lemma 1 scale 1 / {longs} / goal scale 1", (), "C5 row 11 limit 200000"),
        ("56", J, f"{chain} / goal scale 1 / row 1 () 1 ()", (), none),
        ("56", J, f"{chain} / cancel 200001 m left 200000 / goal scale 1", (), "K5 line 200005 limit 200000"),
        ("57", J, f"lemma 1 scale 1 / {rows} / goal scale 1 / row 0 () 1 ()", (), none),
        ("57", J, f"lemma 1 scale 1 / {rows} / goal scale 1 / row 0 () 1 () / row 0 () 1 ()", (), "K5 line 200006 limit 200000"),
        ("58", J, f"lemma 1 scale 1 / {long_rows} / goal scale 1 / row 0 ({word}) 1 ({word})", (), none),
        ("58", J, f"lemma 1 scale 1 / {long_rows} / row 0 ({word}) 1 ({word}) / goal scale 1 / row 0 (x) 1 ()", (), "K5 line 1006 limit 1000000"),
    ]  # fmt: skip


def cases_of_lines() -> List[Case]:
    second = [("MISSPELT", "K2 line 8"), ("left 1 1", "K2 line 8"), ("left -1", "K2 line 8"), ("left 4294967296", "K4 line 8")]
    names = [("[P]", "K2"), ("P", "K3"), ("z", "K3"), ("k''", "K2"), ("m", "K2")]
    third = [("[P] left 2", "K2"), ("P left 2", "K3"), ("z left 4294967296", "K3")]
    word = " ".join(["x"] * 501)
    return [
        ("59", J, edited(J1, "monic k / lemma 1 scale 1 => lemma 1 scale 1 / monic k"), (), "K2 line 6"),
        ("59", J, edited(J1, "lemma 1 scale 1 =>"), (), "K2 line 6"),
        ("60", J, edited(J1, "cancel 2 m left 1 => cancel 2 m left 1 / row 1 () 1 ()"), (), "K2 line 9"),
        ("60", J, f"{J1} / cancel 4 m left 1", (), "K2 line 12"),
        ("60", J, f"{J1} / goal scale 1", (), "K2 line 12"),
        ("60", J, edited(J1, "goal scale 1 =>"), (), "K2 line 10"),
        ("61", J, edited(J1, "cancel 3 k left 2 => cancel 2 k left 2"), (), "K2 line 9"),
        ("61", J, edited(J1, "cancel 3 k left 2 => cancel 4294967297 k left 2"), (), "K2 line 9"),
        ("61", J, edited(J1, "goal scale 1 => lemma 2 scale 1 / goal scale 1"), (), "K2 line 10"),
        *(("62", J, edited(J1, f"cancel 2 m left 1 => cancel 2 m {text.replace('MISSPELT', 'LEFT 1')}"), (), code) for text, code in second),
        *(("63", J, edited(J1, f"monic k => monic {name}"), (), f"{code} line 5") for name, code in names),
        *(("64", J, edited(J1, f"cancel 3 k left 2 => cancel 3 {text}"), (), f"{code} line 9") for text, code in third),
        ("65", J, edited(J1, "monic m => monic m k"), (), "K2 line 4"),
        ("65", J, edited(J1, "lemma 1 scale 1 => lemma 1 scale -1"), (), "K2 line 6"),
        ("65", J, edited(J1, f"lemma 1 scale 1 => lemma 1 scale {M1}"), (), "K4 line 6"),
        ("65", J, edited(J1, f"row 1 () 1 () => row 1 ({word}) 1 ()"), (), "K5 line 7 limit 500"),
    ]  # fmt: skip


def runs_of_texts() -> List[Run]:
    """Texts that aren't one block as it should be, or are several."""
    whole, accepted = proof(J1), "accepted monic m k"
    row4 = proof(edited(J1, "row 1 () lemma 3 () => row 2 () lemma 3 ()"), 2)
    missing, unknown = proof(edited(J1, "monic k =>")), proof(edited(J1, "monic k => monic z"))
    behind = said("X2 item 3", block=2)
    hundred = "".join(said(accepted, block=block) for block in range(1, 101))
    texts = [
        ("6", SPACED, said(accepted)),
        ("66", whole.replace("cancellation 1", "cancellation 2"), said("K2 line 1")),
        ("66", whole.replace("cancellation 1", "cancellation 01"), said("K2 line 1")),
        ("66", lines("chain 1 / end") + whole, said("K2 line 1")),
        ("67", whole[: -len("end\n")], said("K6")),
        ("67", whole + lines("basis 1 / claim 1"), said("K6")),
        ("67", lines("certificate 1 / claim 1 / denominator 1 / end"), said("K7")),
        ("68", whole * 100, hundred),
        ("68", whole * 101, said("K5 line 1201 limit 100")),
        ("69", whole + proof(edited(J1, "cancel 3 k left 2 => cancel 3 k right 2")), said(accepted) + behind),
        ("69", whole + row4 + lines("certificate 1 / ?? (( / end"), said(accepted) + said(accepted, 2, block=2)),
        ("70", missing + unknown, said("K3 line 16")),
        ("71", "", said("K7")),
    ]
    return [Run(f"row {number}", J, text, report) for number, text, report in texts]


def runs() -> List[Run]:
    cases = [*cases_that_add_up(), *cases_of_letters(), *cases_of_sums(), *cases_of_limits(), *cases_of_lines()]
    found = [Run(f"row {number}", statement, proof(body, *places), said(what, *places)) for number, statement, body, places, what in cases]
    return found + runs_of_texts()
