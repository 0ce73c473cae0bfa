"""Statements and evidence for test_coq.py: of all kinds, with odd names, and random ones."""
from __future__ import annotations

import random
from itertools import chain
from typing import Tuple

from drawing import Rows
from opprove.checkers.check import Problem
from opprove.coq.names import RESERVED
from opprove.translations.chain import certificate_text

ODD = """C I U nat list Type conj sigs hyps claim_1 claim_1_2 claim_1_holds lemmas_1 lemma_1_1 goal_1 checked_1 cancel h1 h2 h_p theorems
Row Share Var EVar EComp Z pair S O tt Logic x_ _x _1 __ é α𝔸 א 中文 ß x̄ ⅷ क्षि ª a· ꞹ 𐍁 㐀""".split()
CASES = {
    "self maps": (
        "object U V\nmap p q : U -> U self\nmap a : U -> V\nassume p q = q p\nassume a p = a\n"
        "claim (p q)' = p q\nclaim p a' = a'\nclaim (a p)' = p' a'\n",
        "certificate 1\nclaim 1\ndenominator 1\nrow -1 () 1 ()\nend\ncertificate 1\nclaim 2\ndenominator 1\nrow 1 () 3 ()\nend\n"
        "certificate 1\nclaim 3\ndenominator 1\nend\ncertificate 2\nclaim 2\ndenominator 1\ngoal scale 1\nrow 1 () 3 ()\nend\n",
    ),
    "a denominator": (
        "object U V\nmap a b : U -> V\nassume 2 a = 6 b\nclaim a = 3 b\n",
        "certificate 1\nclaim 1\ndenominator 2\nrow 1 () 1 ()\nend\n",
    ),
    "a denominator with lemmas": (
        "object U\nmap p q cancel : U -> U self\nassume 2 p = 2 q\nassume 3 q = 3 cancel\nclaim p = cancel\n",
        "certificate 2\nclaim 1\ndenominator 6\nlemma 1 scale 2\nrow 1 () 1 ()\nlemma 2 scale 3\nrow 1 () 2 ()\n"
        "goal scale 1\nrow 1 () lemma 1 ()\nrow 1 () lemma 2 ()\nend\n",
    ),
    "a lemma of two signatures": (
        "object U V\nmap a c : U -> V\nmap b d : V -> U\nassume a = c\nassume b = d\nclaim a b = c d\n",
        "certificate 2\nclaim 1\ndenominator 1\nlemma 1 scale 1\nrow 1 () 1 ()\nrow 1 () 2 ()\ngoal scale 1\nrow 1 () lemma 1 (b)\n"
        "row 1 (c) lemma 1 ()\nrow -1 () 2 (b)\nrow -1 (c) 1 ()\nend\n",
    ),
    "lemmas of two signatures on others": (
        "object U V\nmap a c : U -> V\nmap b d : V -> U\nassume 2 a = 2 c\nassume 2 b = 2 d\nclaim a b = c d\n",
        "certificate 2\nclaim 1\ndenominator 2\nlemma 1 scale 2\nrow 1 () 1 ()\nrow 1 () 2 ()\nlemma 2 scale 1\nrow -1 () lemma 1 ()\n"
        "row 0 () 1 ()\ngoal scale 2\nrow -2 () lemma 2 (b)\nrow 2 (c) lemma 1 ()\nrow -1 () 2 (b)\nrow -1 (c) 1 ()\nend\n",
    ),
    "identities in rows": (
        "object U V\nmap a : U -> V\nmap b : V -> U\nassume a b = [V]\nclaim [V] a b a [U] = [V] a\n",
        "certificate 1\nclaim 1\ndenominator 1\nrow 1 ([V]) 1 (a [U])\nrow 1 () 5 (a [U])\nrow 1 ([V]) 3 ()\nend\n",
    ),
    "abbreviations": (
        "object U V\nmap a : U -> V\nmap x y : V -> U\nmap p : U -> U\n"
        "projection p\ninverse a x\ninner a y\npinv a x\nclaim p' p a' = p a'\n",
        "certificate 1\nclaim 1\ndenominator 1\nrow 1 () 2 (p a')\nrow 1 () 1 (a')\nend\n",
    ),
    "zeros": (
        "object U V\nmap a : U -> V\nassume 0 a = 00\nassume a = a\nassume a = 0\n"
        "claim 0 = - a\nclaim - (0)' + 2 a = (a - a) + 0\nclaim (0)'' = 0 a'\n",
        "certificate 1\nclaim 1\ndenominator 1\nrow 1 () 3 ()\nrow 7 () 1 ()\nend\ncertificate 1\nclaim 2\ndenominator 1\nrow 2 () 3 ()\n"
        "row 5 () 2 ()\nend\ncertificate 1\nclaim 3\ndenominator 1\nend\n",
    ),
    "powers": (
        "language 2\nobject U\nmap a b : U -> U\nassume a^2 = b\nassume (a + 2 a)^3 = 0\n"
        "claim a^4 = b b\nclaim (a')^2' = a^2\nclaim (a^2)^2' - (a^4)' = 0\nclaim 27 b^1 a' = 27 a a a' + (b - a^2) a'\nclaim 27 a^3 = 0\n",
        "certificate 1\nclaim 1\ndenominator 1\nrow 1 () 1 (a a)\nrow 1 (b) 1 ()\nend\ncertificate 1\nclaim 2\ndenominator 1\nend\n"
        "certificate 1\nclaim 3\ndenominator 1\nend\ncertificate 1\nclaim 4\ndenominator 1\nrow -26 () 1 (a')\nend\n"
        "certificate 1\nclaim 5\ndenominator 1\nrow 1 () 2 ()\nend\n",
    ),
    "stars on the right, and sums": (
        "object U V W\nmap a : U -> V\nmap b c : U -> W\nmap d : W -> V\nassume 2 a' a + (b + c)' (b + c) = 0\nassume 3 a a' + 4 d d' = 0\n"
        "claim a = 0\nclaim b = 0 - c\nclaim d' = 0\n",
        "star proof 1\nclaim 1\ndenominator 1\nlemma 1 scale 1\nrow 1 () 1 ()\nroot 2 left 1\nsquare 2 a\nsquare 1 b + c\n"
        "goal scale 1\nrow 1 () lemma 2 ()\nend\n"
        "star proof 1\nclaim 2\ndenominator 1\nlemma 1 scale 1\nrow 1 () 1 ()\nroot 2 left 1\nsquare 1 c + b\nsquare 2 a\n"
        "goal scale 1\nrow 1 () lemma 2 ()\nend\n"
        "star proof 1\nclaim 3\ndenominator 1\nlemma 1 scale 1\nrow 1 () 2 ()\nroot 2 right 1\nsquare 4 d\nsquare 3 a\n"
        "root 3 left 1\nsquare 4 d'\nsquare 3 a'\ngoal scale 1\nrow 1 () lemma 3 ()\nend\n",
    ),
}


def named() -> Tuple[str, str]:
    """A statement whose objects and maps have odd names, and two certificates of its claim."""
    names = list(dict.fromkeys([*RESERVED, *ODD]))
    pairs = list(zip(names, names[1:]))
    lines = ["object ℂ𝟙 Prop_ V", f"map {' '.join(names)} : Prop_ -> Prop_"]
    lines += [f"assume {left} {right}' = {right}' {left}" for left, right in pairs]
    left_side, right_side = " + ".join("{0} {1}'".format(*pair) for pair in pairs), " + ".join("{1}' {0}".format(*pair) for pair in pairs)
    rows = [f"row 1 () {number} ()" for number in range(1, len(pairs) + 1)]
    block = "\n".join(["certificate 1", "claim 1", "denominator 1", *rows, "end", ""])
    return "\n".join([*lines, f"claim {left_side} = {right_side}", ""]), block + block


NAMED = """object all C nat Z
map Map : all -> C
map derivable : C -> all
map fails prime objs any cancel h1 less rules_1 sharp_1 let Plain Var ob nth a_star : nat -> nat
map a ⅷ : nat -> nat
map identities by_rows matrices_modulo of_letter : Z -> Z
assume Map derivable = [C]
assume fails prime' = objs
assume a a' = a
claim derivable Map = [all]
claim let = Plain
"""


def expression(draw: random.Random, source: str, target: str, depth: int) -> str:
    """A random expression of this signature over the objects U and V and a map for each pair of them."""
    kinds = ["map", "adjoint"] + ["identity"] * (source == target) + ["sum", "product", "scaled", "bracket", "star"] * (depth > 0)
    kind = draw.choice(kinds)
    if kind == "map":
        return f"{source}{target}".lower()
    if kind == "adjoint":
        return f"{target}{source}'".lower()
    if kind == "identity":
        return f"[{source}]"
    if kind == "star":
        return f"({expression(draw, target, source, depth - 1)})'"
    one, other = (expression(draw, *ends, depth - 1) for ends in ((source, target), (source, target)))
    if kind == "sum":
        return f"({draw.choice(['', '-', '+'])} {one} {draw.choice('+-')} {other} {draw.choice(['', '+ 0', '- 0'])})"
    if kind == "product":
        middle = draw.choice("UV")
        return f"({expression(draw, middle, target, depth - 1)} {expression(draw, source, middle, depth - 1)})"
    return f"({draw.choice([0, 1, 2, 37])} {one})" if kind == "scaled" else f"({one})"


QUIVER = ["object U V", "map uu : U -> U", "map uv : U -> V", "map vu : V -> U", "map vv : V -> V self"]


def expressions() -> Tuple[str, str]:
    """Claims E = E, which have no rows: that the theorem says what the checker reads is for Coq to find."""
    draw, claims = random.Random(1), []
    for _ in range(100):
        one = expression(draw, draw.choice("UV"), draw.choice("UV"), 5)
        claims.append(f"claim {one} = {one}")
    blocks = [f"certificate 1\nclaim {number}\ndenominator 1\nend" for number in range(1, 101)]
    return "\n".join([*QUIVER, *claims, ""]), "\n".join([*blocks, ""])


def random_proofs(seed: int, count: int) -> Tuple[str, str]:
    """Random assumptions, with claims that random certificates over them add up to."""
    draw, head = random.Random(seed), [*QUIVER, "assume [U] uu [U] = uu"]
    for _ in range(6):
        ends = draw.choice("UV"), draw.choice("UV")
        head.append(f"assume {expression(draw, *ends, 3)} = {expression(draw, *ends, 3)}")
    source = Rows(draw, Problem("\n".join([*head, "claim vv' [V] = vv", ""]).encode()))
    claims, certificates = zip(*(source.certificate(number) for number in range(1, count + 1)))
    texts = [*head, *(f"claim {text}" for text in claims)], chain.from_iterable(certificate_text(source.problem, one) for one in certificates)
    statement, evidence = ("\n".join([*lines, ""]) for lines in texts)
    return statement, evidence


def random_statement(draw: random.Random) -> str:
    """Two assumptions and two claims, over two objects; small, so that each verdict comes up."""
    lines = ["object U V", "map a : U -> V", "map b : V -> U", "map p : U -> U"]
    words = {
        "UU": ["p", "b a", "p p", "b a p", "[U]", "p b a"], "UV": ["a", "a p", "a b a", "a p p"],
        "VU": ["b", "p b", "b a b"], "VV": ["a b", "[V]", "a p b"],
    }  # fmt: skip
    is_starred = draw.random() < 0.3
    for word in ("assume", "assume", "claim", "claim"):
        ends = draw.choice(list(words))
        left, right = draw.sample(words[ends], 2)
        scale = draw.choice(["", "", "", "2 ", "3 "])
        if is_starred and draw.random() < 0.5:
            left = f"({draw.choice(words[ends[::-1]])})'"
        more = draw.choice(["", "", f" + {draw.choice(words[ends])}", f" - {draw.choice(words[ends])}"])
        lines.append(f"{word} {scale}{left}{more} = {right}")
    return "\n".join([*lines, ""])


def many_rows() -> Tuple[str, str]:
    """10,000 rows: between all pairs of ten maps to the left and ten to the right, x1 to x101 are the same."""
    left, right, middle = ([f"{name}{number}" for number in range(1, count + 1)] for name, count in (("l", 10), ("r", 10), ("x", 101)))
    lines = ["object U", f"map {' '.join(left + right + middle)} : U -> U"]
    lines += [f"assume {one} = {other}" for one, other in zip(middle, middle[1:])]
    lines += [f"claim ({' + '.join(left)}) x1 ({' + '.join(right)}) = ({' + '.join(left)}) x101 ({' + '.join(right)})", ""]
    rows = [f"row 1 ({one}) {number} ({other})" for number in range(1, 101) for one in left for other in right]
    return "\n".join(lines), "\n".join(["certificate 1", "claim 1", "denominator 1", *rows, "end", ""])


def right_inverses(size: int) -> Tuple[str, str]:
    """The statement of `bench`, a chain of maps with right inverses, and the closed rules by which the last isn't a left inverse too."""
    places = range(1, size + 1)
    lines = [f"object {' '.join(f'O{place}' for place in range(size + 1))}"]
    lines += [line for place in places for line in (f"map a{place} : O{place} -> O{place - 1}", f"map r{place} : O{place - 1} -> O{place}")]
    lines += [f"assume a{place} r{place} = [O{place - 1}]" for place in places]
    rules = [f"[O{place}] [O{place}] - [O{place}]" for place in range(size + 1)]
    for place in places:
        rules += [f"[O{place - 1}] a{place} - a{place}", f"a{place} [O{place}] - a{place}", f"[O{place}] r{place} - r{place}"]
        rules += [f"r{place} [O{place - 1}] - r{place}", f"a{place} r{place} - [O{place - 1}]"]
    block = ["basis 1", "claim 1", *(f"rule {rule}" for rule in rules), f"rest r{size} a{size} - [O{size}]", "end", ""]
    return "\n".join([*lines, f"claim r{size} a{size} = [O{size}]", ""]), "\n".join(block)


def large_model(side: int, modulus: int) -> Tuple[str, str]:
    """A matrix with a right inverse that is no left one, and assumptions that multiply random matrices."""
    draw, less = random.Random(side), side - 1
    lines = ["object U V", "map a : U -> V", "map b : V -> U", "map p q r : V -> V"]
    lines += ["assume a b = [V]", "assume p q r = (p q) r", "assume a b p = p"]
    unit = [[int(row == column) for column in range(side)] for row in range(less)]
    squares = {name: [[draw.randrange(modulus) for _ in range(less)] for _ in range(less)] for name in "pqr"}
    matrices = {"a": unit, "b": [list(column) for column in zip(*unit)], **squares}
    maps = [f"map {name} = {' ; '.join(' '.join(map(str, row)) for row in rows)}" for name, rows in matrices.items()]
    block = ["model 1", "claim 1", f"modulus {modulus}", f"side U {side}", f"side V {less}", *maps, "end", ""]
    return "\n".join([*lines, "claim b a = [U]", ""]), "\n".join(block)
