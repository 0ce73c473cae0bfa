"""Runs of `prove`, `refute` and `bench` that were worked out by hand, for test_rows.py."""
from __future__ import annotations

from typing import List

from row_parts import Row, USAGE, lines, numbers, times

REFLEXIVE = lines("object U / map a : U -> U / claim a = a")
# Twice a map is zero.
DOUBLED = lines("object U / map x : U -> U / assume 2 x = 0 / claim x = 0")
BRAID = lines("object V / map a b : V -> V / assume b a b = a b a / claim a = b")
# A letter 34 times, which overlaps itself at 33 places.
POWER = lines("object U / map a : U -> U / assume a a a a a a a a a a a a a a a a a a a a a a a a a a a a a a a a a a = 0 / claim a = 0")
BROKEN_BRAID = lines("11 # claim 1 refuted / model 1 / claim 1 / modulus 2 / side V 1 / map a = 1 / map b = 0 / end")
# Two Moore-Penrose inverses of one map are equal.
MOORE_PENROSE_UNIQUE = lines(
    "# The Moore-Penrose inverse is unique. / object U V / map a : U -> V / map x y : V -> U / pinv a x / pinv a y / "
    "claim x = y"
)

# Claims that a small model breaks, and claims that none of the candidates does.
BROKEN: List[Row] = [
    ("refute s", BRAID, "", BROKEN_BRAID),
    # a matrix of side 1 with a power that is zero is zero; one of side 2 needn't be
    ("prove s --pairs 32", POWER, "", "11 # claim 1 refuted / model 1 / claim 1 / modulus 2 / side U 2 / map a = 0 1 ; 0 0 / end"),
    # 2 does not cancel modulo 2: the claim is proved with denominator 2, and broken there
    ("refute s", DOUBLED, "", "11 # claim 1 refuted / model 1 / claim 1 / modulus 2 / side U 1 / map x = 1 / end"),
    # the adjoint is the transpose, and the columns of 1 0 ; 1 0 are orthogonal modulo 2
    (
        "refute s", lines("object U / map a : U -> U / assume a' a = 0 / claim a = 0 / model 2 U 2"), "",
        "11 # claim 1 refuted / model 1 / claim 1 / modulus 2 / side U 2 / map a = 1 0 ; 1 0 / end",
    ),
    # no map: one candidate a shape, in which nothing is but identities
    (
        "refute s", lines("object U / claim [U] = 0 / model 3 U 1"), "",
        "11 # claim 1 refuted / model 1 / claim 1 / modulus 3 / side U 1 / end",
    ),
    ("refute s", lines("object U / claim [U] = [U] / model 3 U 1"), "", "13 # claim 1 not refuted candidates 1"),
    # two claims, of which one is broken
    (
        "refute s", lines("object U / map a : U -> U / claim a = a / claim a = 0 / model 2 U 1"), "",
        "13 # claim 1 not refuted candidates 2 / # claim 2 refuted / model 1 / claim 2 / modulus 2 / side U 1 / map a = 1 / end",
    ),
    # 2 of side 1 and 16 of side 2
    ("refute s", REFLEXIVE, "", "13 # claim 1 not refuted candidates 18"),
    # a proved claim beside one that is broken
    (
        "prove s --pairs 1", lines("object V / map a b : V -> V / assume b a b = a b a / claim b a b = a b a / claim a = b"), "",
        (
            "11 # claim 1 proved denominator 1 rows 1 / certificate 2 / claim 1 / denominator 1 / goal scale 1 / row 1 () 1 () / "
            "end / # claim 2 refuted / model 1 / claim 2 / modulus 2 / side V 1 / map a = 1 / map b = 0 / end"
        ),
    ),
    # no candidate breaks what is true
    (
        "prove s --steps 1", lines("object U / map a : U -> U / assume a a = a / claim a a a = a"), "",
        "12 # claim 1 undecided steps 1 at claim after round 0",
    ),
]

# Runs of `bench`, and words that are not taken.
WITHOUT_FILES: List[Row] = [
    ("bench 0", "", "", USAGE),
    ("prove s --workers 65", "", "", USAGE),
    ("prove s --format 3", "", "", USAGE),
    ("prove --help", "", "", USAGE),
    ("-h", "", "", USAGE),
    ("--version", "", "", USAGE),
    ("-V", "", "", USAGE),
    ("prove", "", "", USAGE),
]

# The words, a file, and the status with the head lines. The verdicts are known from algebra, and the numbers of rows from another
# program.
KNOWN: List[Row] = [
    (
        "prove s",
        lines(
            "# The pseudoinverse of the adjoint is the adjoint of the pseudoinverse. / object U V / map a : U -> V / "
            "map x : V -> U / pinv a x / claim a' x' a' = a' / claim x' a' x' = x' / claim (a' x')' = a' x' / "
            "claim (x' a')' = x' a'"
        ),
        "",
        (
            "0 # claim 1 proved denominator 1 rows 4 / # claim 2 proved denominator 1 rows 4 / # claim 3 proved denominator 1 rows "
            "1 / # claim 4 proved denominator 1 rows 1"
        ),
    ),
    (
        "prove s --pairs 1 --no-models",
        lines("# The braid relation does not make its letters equal. / object V / map a b : V -> V / assume b a b = a b a / claim a = b"),
        "", "12 # claim 1 undecided pairs 1 least b a a b a b",
    ),
    (
        "prove s",
        lines("# [d, x^2] = 2 x from [d, x] = 1. / object V / map d x : V -> V / assume d x - x d = [V] / claim d x x - x x d = 2 x"), "",
        "0 # claim 1 proved denominator 1 rows 4",
    ),
    (
        "prove s",
        lines(
            "# With d after the integral i equal to 1, the evaluation e = 1 - i d is idempotent, and d e = 0. / object V / "
            "map d i : V -> V / assume d i = [V] / claim ([V] - i d) ([V] - i d) = [V] - i d / claim d ([V] - i d) = 0 / "
            "claim ([V] - i d) i = 0"
        ),
        "", "0 # claim 1 proved denominator 1 rows 5 / # claim 2 proved denominator 1 rows 3 / # claim 3 proved denominator 1 rows 3",
    ),
    (
        "prove s",
        lines(
            "# Jacobson's lemma: where 1 - a b has the inverse c, 1 - b a has the inverse 1 + b c a. / object U V / "
            "map a : V -> U / map b : U -> V / map c : U -> U / assume ([U] - a b) c = [U] / assume c ([U] - a b) = [U] / "
            "claim ([V] - b a) ([V] + b c a) = [V] / claim ([V] + b c a) ([V] - b a) = [V]"
        ),
        "", "0 # claim 1 proved denominator 1 rows 7 / # claim 2 proved denominator 1 rows 7",
    ),
    (
        "prove s",
        lines(
            "# A left inverse equals a right inverse. / object U V / map l : V -> U / map a : U -> V / map r : V -> U / "
            "assume l a = [U] / assume a r = [V] / claim l = r"
        ),
        "", "0 # claim 1 proved denominator 1 rows 5",
    ),
    ("prove s", MOORE_PENROSE_UNIQUE, "", "0 # claim 1 proved denominator 1 rows 23"),
    (
        "prove s",
        lines(
            "# A right inverse is no left inverse. / object U V / map a : U -> V / map b : V -> U / assume a b = [V] / "
            "claim b a = [U] / model 2 U 2 V 1"
        ),
        "", "10 # claim 1 not derivable rules 7",
    ),
    (
        "prove s",
        lines(
            "# Push-through: a (1 + b a)^-1 = (1 + a b)^-1 a. / object U V / map a : U -> V / map b : V -> U / map s : U -> U / "
            "map t : V -> V / assume ([U] + b a) s = [U] / assume t ([V] + a b) = [V] / claim a s = t a"
        ),
        "", "0 # claim 1 proved denominator 1 rows 9",
    ),
    (
        "prove s",
        lines(
            "# The resolvent identity: r - s = r (b - a) s for r = a^-1 and s = b^-1. / object V / map a b r s : V -> V / "
            "inverse a r / inverse b s / claim r - s = r (b - a) s"
        ),
        "", "0 # claim 1 proved denominator 1 rows 4",
    ),
    (
        "prove s",
        lines(
            "# The inverse of a product is the product of the inverses in reverse order. / object U V W / map a : V -> W / "
            "map b : U -> V / map x : W -> V / map y : V -> U / inverse a x / inverse b y / claim a b y x = [W] / "
            "claim y x a b = [U]"
        ),
        "", "0 # claim 1 proved denominator 1 rows 3 / # claim 2 proved denominator 1 rows 3",
    ),
    (
        "prove s",
        lines(
            "# Woodbury: (a + u c v)^-1 = x - x u m v x, with x = a^-1 and m = (c^-1 + v x u)^-1. / object U V / "
            "map a x : U -> U / map u : V -> U / map v : U -> V / map c y m : V -> V / inverse a x / inverse c y / "
            "assume (y + v x u) m = [V] / assume m (y + v x u) = [V] / claim (a + u c v) (x - x u m v x) = [U] / "
            "claim (x - x u m v x) (a + u c v) = [U]"
        ),
        "", "0 # claim 1 proved denominator 1 rows 7 / # claim 2 proved denominator 1 rows 7",
    ),
    (
        "prove s --pairs 64",
        lines(
            "language 2 / # Where a x b = c and d x e = f are solvable each by itself, the condition of Mitra (1973) and van der "
            "Woude (1987) / # gives a solution of both: with the pseudoinverses of s = d (1 - a+ a) and t = (1 - b b+) e. / "
            "object U V W Z P Q / map a : V -> P / map b : Q -> W / map c : Q -> P / map d : V -> Z / map e : U -> W / "
            "map f : U -> Z / map ai : P -> V / map bi : W -> Q / map di : Z -> V / map ei : W -> U / pinv a ai / pinv b bi / "
            "pinv d di / pinv e ei / map s : V -> Z / map si : Z -> V / map t : U -> W / map ti : W -> U / "
            "assume s = d ([V] - ai a) / assume t = ([W] - b bi) e / pinv s si / pinv t ti / map x h : W -> V / "
            "assume a ai c bi b = c / assume d di f ei e = f / assume h = di f ei - ai c bi / "
            "assume ([Z] - s si) d h e ([U] - ti t) = 0 / "
            "assume x = ai c bi + ([V] - ai a) si d h ([W] - e ti ([W] - b bi)) + h e ti ([W] - b bi) / claim a x b = c / "
            "claim d x e = f / eliminate x h"
        ),
        "", "0 # claim 1 proved denominator 1 rows 49 / # claim 2 proved denominator 1 rows 76",
    ),
    (
        "prove s --pairs 1",
        lines(
            "language 2 / "
            "# a x b + c y d = e is solvable under the four conditions of Baksalary and Kala (1980), here with pseudoinverses, / "
            "# g = (1 - a a+) c and h = d (1 - b+ b): this x and this y solve it. / object U V W P Q / map a : V -> P / "
            "map b : Q -> W / map c : U -> P / map d : Q -> U / map e : Q -> P / map ai : P -> V / map bi : W -> Q / "
            "map ci : P -> U / map di : U -> Q / pinv a ai / pinv b bi / pinv c ci / pinv d di / map g : U -> P / "
            "map gi : P -> U / map h : Q -> U / map hi : U -> Q / assume g = ([P] - a ai) c / assume h = d ([Q] - bi b) / "
            "pinv g gi / pinv h hi / assume ([P] - g gi)([P] - a ai) e = 0 / assume ([P] - a ai) e ([Q] - di d) = 0 / "
            "assume ([P] - c ci) e ([Q] - bi b) = 0 / assume e ([Q] - bi b)([Q] - hi h) = 0 / map x : W -> V / map y : U -> U / "
            "assume y = gi ([P] - a ai) e di + ([U] - gi g) ci e ([Q] - bi b) hi / assume x = ai (e - c y d) bi / "
            "eliminate x y g h / claim a x b + c y d = e"
        ),
        "", "0 # claim 1 proved denominator 1 rows 74",
    ),
    (
        "prove s --pairs 1834",
        lines(
            "language 2 / # Without the third of the conditions of Baksalary and Kala (1980), (1 - c c+) e (1 - b+ b) = 0, that x "
            "and that y / "
            "# don't solve a x b + c y d = e: no sum of the assumptions gives it, and matrices of one entry modulo 2 break it. / "
            "object U V W P Q / map a : V -> P / map b : Q -> W / map c : U -> P / map d : Q -> U / map e : Q -> P / "
            "map ai : P -> V / map bi : W -> Q / map ci : P -> U / map di : U -> Q / pinv a ai / pinv b bi / pinv c ci / "
            "pinv d di / map g : U -> P / map gi : P -> U / map h : Q -> U / map hi : U -> Q / assume g = ([P] - a ai) c / "
            "assume h = d ([Q] - bi b) / pinv g gi / pinv h hi / assume ([P] - g gi)([P] - a ai) e = 0 / "
            "assume ([P] - a ai) e ([Q] - di d) = 0 / assume e ([Q] - bi b)([Q] - hi h) = 0 / map x : W -> V / map y : U -> U / "
            "assume y = gi ([P] - a ai) e di + ([U] - gi g) ci e ([Q] - bi b) hi / assume x = ai (e - c y d) bi / "
            "eliminate x y g h / claim a x b + c y d = e"
        ),
        "", "10 # claim 1 not derivable rules 194",
    ),
    (
        "prove s --pairs 672",
        lines(
            "language 2 / # Cline (1964): the pseudoinverse of the row [a b] has the blocks u and v. / object U V W / "
            "map a : U -> W / map b : V -> W / map ai : W -> U / map c : V -> W / map ci : W -> V / map d : V -> U / "
            "map k ki : V -> V / map u : W -> U / map v : W -> V / pinv a ai / pinv c ci / inverse k ki / assume d = ai b / "
            "assume c = b - a d / assume k = [V] + ([V] - ci c) d' d ([V] - ci c) / "
            "assume v = ci + ([V] - ci c) ki d' ai ([W] - b ci) / assume u = ai - d v / eliminate u v / claim a u a + b v a = a / "
            "claim a u b + b v b = b / claim (a u + b v)' = a u + b v / claim u a u + u b v = u / claim v a u + v b v = v / "
            "claim (u a)' = u a / claim (v b)' = v b / claim (u b)' = v a"
        ),
        "",
        (
            "0 # claim 1 proved denominator 1 rows 40 / # claim 2 proved denominator 1 rows 50 / # claim 3 proved denominator 1 "
            "rows 46 / # claim 4 proved denominator 1 rows 171 / # claim 5 proved denominator 1 rows 136 / # claim 6 proved "
            "denominator 1 rows 129 / # claim 7 proved denominator 1 rows 184 / # claim 8 proved denominator 1 rows 156"
        ),
    ),
    (
        "prove s",
        lines(
            "language 2 / # The Drazin inverse d of a map a of index 4 commutes with all that commutes with a. / object U / "
            "map a d b : U -> U / assume a d = d a / assume d a d = d / assume a^5 d = a^4 / assume a b = b a / claim d b = b d"
        ),
        "", "0 # claim 1 proved denominator 1 rows 66",
    ),
]

# The greatest number of maps.
MANY_MAPS = "language 2\nobject U\nmap " + numbers("k", 1, 1000, "", " ") + lines(" : U -> U / claim [U] k1 k2 = k2 k1")

ROWS: List[Row] = [*BROKEN, *WITHOUT_FILES, ("prove s --no-models", MANY_MAPS, "", "12 # claim 1 undecided pairs 5000 least k3 [U] k997")]
