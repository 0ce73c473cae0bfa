"""Files of the notation with their expansions, or with the fault that is told of them, all worked out by hand.

Lines are parted by `|`. An expansion stands without its first comment and without `language 2`. Of several statements each has its
name in front: `NAME: ..`. A fault is its code, line, column, and what stands behind them.
"""
from typing import Dict, List, Tuple, Union

ENDS = "a b c : V -> V | "
HEAD = "object V | map a b c : V -> V | "

ROWS: List[Tuple[str, Union[str, List[str]]]] = [
    # Declarations
    ("a : U -> V | claim a = 0", "object U V | map a : U -> V | claim a = 0"),
    ("claim a b = b a | a b : V -> V", "object V | map a b : V -> V | claim a b = b a"),
    ("a : U -> V, x : V -> U | pinv a x | claim x = 0", "object U V | map a : U -> V | map x : V -> U | pinv a x | claim x = 0"),
    ("object W V | a b : V -> W | claim a = b", "object W V | map a b : V -> W | claim a = b"),
    ("map a b : V -> V self | claim a b = b a", "object V | map a b : V -> V self | claim a b = b a"),
    ("h : V -> V self, a : V -> W | claim a h = 0", "object V W | map h : V -> V self | map a : V -> W | claim a h = 0"),
    ("map a b | claim a b = b a", "object V | map a b : V -> V | claim a b = b a"),
    ("map a b | claim a b a = a", "object V W | map a : V -> W | map b : W -> V | claim a b a = a"),
    ("pinv a x | claim x a = a x", "object V | map a x : V -> V | pinv a x | claim x a = a x"),
    ("a : U -> V | pinv a x | claim a x a = a", "object U V | map a : U -> V | map x : V -> U | pinv a x | claim a x a = a"),
    ("language 2 | object V | map a : V -> V | claim a^2 = a a", "object V | map a : V -> V | claim a^2 = a a"),
    ("matrices n over C | a : V -> V | claim a = 0", "# matrices n over C | object V | map a : V -> V | claim a = 0"),
    ("matrices > | operators : V -> V | claim operators = 0", "# matrices > | object V | map operators : V -> V | claim operators = 0"),
    ("operators | a : V -> V | claim a = 0", "# operators | object V | map a : V -> V | claim a = 0"),
    ("# one | a : V -> V # two | claim a = 0 # three", "# one | # two | object V | map a : V -> V | # three | claim a = 0"),
    ("map V : A -> B | pinv V x | map y | claim x = y V y", "object A B | map V : A -> B | map y x : B -> A | pinv V x | claim x = y V y"),
    ("map a V | claim a V = V a", "object W | map a V : W -> W | claim a V = V a"),
    ("model 2 V 2 | a : V -> V | solve a | claim a = 0", "object V | map a : V -> V | model 2 V 2 | solve a | claim a = 0"),
    # Definitions
    (
        "a : U -> V, b : V -> W | define m = b a | claim m = 0",
        "object U V W | map a : U -> V | map b : V -> W | map m : U -> W | assume m = b a | claim m = 0 | eliminate m",
    ),
    (
        ENDS + "define m = a b | define n = m - m' | claim n = 0",
        "object V | map a b c m n : V -> V | assume m = a b | assume n = m - m' | claim n = 0 | eliminate n m",
    ),
    (
        ENDS + "eliminate c | assume c = a | define m = a b | claim m = c",
        "object V | map a b c m : V -> V | assume c = a | assume m = a b | claim m = c | eliminate m c",
    ),
    (ENDS + "order degree | define m = a a | claim m = 0", "object V | map a b c m : V -> V | order degree | assume m = a a | claim m = 0"),
    (ENDS + "define m = 1 - a | claim m a = 0", "object V | map a b c m : V -> V | assume m = [V] - a | claim m a = 0 | eliminate m"),
    ("a : U -> V | define m = a | m : U -> V | claim m = a", "object U V | map a m : U -> V | assume m = a | claim m = a | eliminate m"),
    # Words
    (ENDS + "group a c | claim a = c", HEAD + "# group a c | assume a c a = a | assume c a c = c | assume a c = c a | claim a = c"),
    (ENDS + "drazin a c 2 | claim a = c", HEAD + "# drazin a c 2 | assume a c = c a | assume c a c = c | assume a^3 c = a^2 | claim a = c"),
    (ENDS + "drazin a c 1 | claim a = c", HEAD + "# drazin a c 1 | assume a c = c a | assume c a c = c | assume a^2 c = a | claim a = c"),
    (
        ENDS + "core a c | claim a = c",
        HEAD + "# core a c | assume a c a = a | assume c a c = c | assume (a c)' = a c | assume c a a = a | assume a c c = c | claim a = c",
    ),
    (
        ENDS + "dual  core a c | claim a = c",
        HEAD + "# dual core a c | assume a c a = a | assume c a c = c | assume (c a)' = c a | assume a a c = a"
        " | assume c c a = c | claim a = c",
    ),
    (ENDS + "reflexive a c | claim a = c", HEAD + "# reflexive a c | assume a c a = a | assume c a c = c | claim a = c"),
    (ENDS + "outer a c | claim a = c", HEAD + "# outer a c | assume c a c = c | claim a = c"),
    (ENDS + "13 a c | claim a = c", HEAD + "# 13 a c | assume a c a = a | assume (a c)' = a c | claim a = c"),
    (ENDS + "14 a c | claim a = c", HEAD + "# 14 a c | assume a c a = a | assume (c a)' = c a | claim a = c"),
    (ENDS + "123 a c | claim a = c", HEAD + "# 123 a c | assume a c a = a | assume c a c = c | assume (a c)' = a c | claim a = c"),
    (ENDS + "124 a c | claim a = c", HEAD + "# 124 a c | assume a c a = a | assume c a c = c | assume (c a)' = c a | claim a = c"),
    (
        "a : U -> V | weighted pinv a x m n | claim x = 0",
        "object U V | map a : U -> V | map x : V -> U | map m : V -> V | map n : U -> U | # weighted pinv a x m n | assume a x a = a"
        " | assume x a x = x | assume (m a x)' = m a x | assume (n x a)' = n x a | claim x = 0",
    ),
    (
        ENDS + "bott duffin a b c | claim a = c",
        HEAD + "# bott duffin a b c | assume c b = b | assume b c = b | assume b a c = c | assume c a b = c | claim a = c",
    ),
    (
        "a : U -> V | along a x d by s t | claim x = d",
        "object U V | map a : U -> V | map x d : V -> U | map s : V -> V | map t : U -> U | # along a x d by s t | assume x a d = d"
        " | assume d a x = d | assume x = d s | assume x = t d | claim x = d",
    ),
    (
        "a : U -> V | along a x d | claim x = d",
        "object U V | map a : U -> V | map x d : V -> U | map k : V -> V | map l : U -> U | # along a x d | assume x a d = d"
        " | assume d a x = d | assume x = d k | assume x = l d | claim x = d",
    ),
    (
        ENDS + "bc a b c a | claim a = c",
        "object V | map a b c k l : V -> V | # bc a b c a | assume b a c = c | assume a a b = a | assume b = c k b"
        " | assume b = b l a | claim a = c",
    ),
    (ENDS + "hermitian a b | claim a = c", HEAD + "# hermitian a b | assume a' = a | assume b' = b | claim a = c"),
    (ENDS + "normal a, normal b | claim a = c", HEAD + "# normal a | assume a a' = a' a | # normal b | assume b b' = b' b | claim a = c"),
    (
        "u : V -> W | unitary u | claim u = 0",
        "object V W | map u : V -> W | # unitary u | assume u u' = [W] | assume u' u = [V] | claim u = 0",
    ),
    ("u : V -> W | isometry u | claim u = 0", "object V W | map u : V -> W | # isometry u | assume u' u = [V] | claim u = 0"),
    (ENDS + "partial isometry a | claim a = c", HEAD + "# partial isometry a | assume a a' a = a | claim a = c"),
    (ENDS + "ep a b | claim a† = c", HEAD + "# ep a b | pinv a b | assume a b = b a | claim b = c"),
    (ENDS + "idempotent a b | claim a = c", HEAD + "# idempotent a b | assume a a = a | assume b b = b | claim a = c"),
    (ENDS + "projection a b | claim a = c", HEAD + "# projection a b | projection a | projection b | claim a = c"),
    (ENDS + "commute a b c | claim a = c", HEAD + "# commute a b c | assume a b = b a | assume a c = c a | assume b c = c b | claim a = c"),
    (ENDS + "orthogonal a b | claim a = c", HEAD + "# orthogonal a b | assume a b = 0 | assume b a = 0 | claim a = c"),
    (ENDS + "range a in b by c | claim a = c", HEAD + "# range a in b by c | assume a = b c | claim a = c"),
    (ENDS + "range a in b | claim a = c", "object V | map a b c k : V -> V | # range a in b | assume a = b k | claim a = c"),
    (ENDS + "kernel a in b by c | claim a = c", HEAD + "# kernel a in b by c | assume b = c a | claim a = c"),
    (
        "k : V -> W, b : V -> U | kernel k in b | claim b = 0",
        "object V W U | map k : V -> W | map b : V -> U | map k1 : W -> U | # kernel k in b | assume b = k1 k | claim b = 0",
    ),
    ("inner a x | a : U -> V | claim a = 0", "object U V | map a : U -> V | map x : V -> U | inner a x | claim a = 0"),
    (
        "a : V -> W, b : U -> V | pinv (a b) u | claim u = 0",
        "object V W U | map a : V -> W | map b : U -> V | map u : W -> U | # pinv (a b) u | assume a b u a b = a b | assume u a b u = u"
        " | assume (a b u)' = a b u | assume (u a b)' = u a b | claim u = 0",
    ),
    (ENDS + "range (a' b) in c by b | claim a = c", HEAD + "# range (a' b) in c by b | assume a' b = c b | claim a = c"),
    (ENDS + "idempotent (a + b) | claim a = c", HEAD + "# idempotent (a + b) | assume (a + b) (a + b) = (a + b) | claim a = c"),
    (ENDS + "commute a' (1 - b) | claim a = c", HEAD + "# commute a' (1 - b) | assume a' ([V] - b) = ([V] - b) a' | claim a = c"),
    (ENDS + "claim group a b", HEAD + "# group a b | claim a b a = a | claim b a b = b | claim a b = b a"),
    # Marks and identities
    (ENDS + "claim a^* b^*^2 = (a b)^*", HEAD + "claim a' b'^2 = (a b)'"),
    (ENDS + "pinv a b | claim a† = b^+", HEAD + "pinv a b | claim b = a"),
    (ENDS + "inverse a b | claim a^-1' c^-1 = 0 | inverse c b", HEAD + "inverse a b | claim b' b = 0 | inverse c b"),
    ("a : U -> V, b : V -> U | assume 1 - a b = 0 | claim (1 - b a) b = b",
     "object U V | map a : U -> V | map b : V -> U | assume [V] - a b = 0 | claim ([U] - b a) b = b"),
    (ENDS + "claim a = 2 | claim 0 = 3 a - 1", HEAD + "claim a = 2 [V] | claim 0 = 3 a - [V]"),
    (ENDS + "claim (1)' a = -[V] + (-a)^2 (b) (c a)", HEAD + "claim ([V])' a = - [V] + (- a)^2 (b) (c a)"),
    # Chains, conditions and cases
    (ENDS + "assume a = b = c | claim a a = b b = c c", HEAD + "assume a = b | assume b = c | claim a a = b b | claim b b = c c"),
    (
        ENDS + "assume a b = b a, commute a c | claim a = b, b = c",
        HEAD + "assume a b = b a | # commute a c | assume a c = c a | claim a = b | claim b = c",
    ),
    (
        ENDS + "assume a = b | = c | claim commute a b,| a = c",
        HEAD + "assume a = b | assume b = c | # commute a b | claim a b = b a | claim a = c",
    ),
    (
        "a b : V -> V | claim a = b if normal a | c : V -> V | claim c = 0 | claim a = 0 if b = 0, a = b",
        [
            "f: object V | map c : V -> V | claim c = 0",
            "f-1: object V | map a b : V -> V | # normal a | assume a a' = a' a | claim a = b",
            "f-3: object V | map a b : V -> V | assume b = 0 | assume a = b | claim a = 0",
        ],
    ),
    (
        "a : V -> V | claim x: a = 0 | claim y: a = 1",
        ["f-x: object V | map a : V -> V | claim a = 0", "f-y: object V | map a : V -> V | claim a = [V]"],
    ),
    (
        "a b : V -> V | claim a = b | if a = 0, b = 0",
        "object V | map a b : V -> V | assume a = 0 | assume b = 0 | claim a = b",
    ),
    (
        "a b : V -> V | equivalent: | (i) a = b (ii) a a = b, commute a b | (iii) b = 0",
        [
            "f-i-ii: object V | map a b : V -> V | assume a = b | claim a a = b | # commute a b | claim a b = b a",
            "f-ii-iii: object V | map a b : V -> V | assume a a = b | # commute a b | assume a b = b a | claim b = 0",
            "f-iii-i: object V | map a b : V -> V | assume b = 0 | claim a = b",
        ],
    ),
    (
        "a b i : V -> V | assume a i = 0 | equivalent ab: (i) a = 0 (ii) b = 0",
        [
            "f-ab-i-ii: object V | map a b i : V -> V | assume a i = 0 | assume a = 0 | claim b = 0",
            "f-ab-ii-i: object V | map a b i : V -> V | assume a i = 0 | assume b = 0 | claim a = 0",
        ],
    ),
    (
        "a b c : V -> V | eliminate c | claim a = b if c = a | claim b = 0 if a = 0",
        [
            "f-1: object V | map a b c : V -> V | assume c = a | claim a = b | eliminate c",
            "f-2: object V | map a b : V -> V | assume a = 0 | claim b = 0",
        ],
    ),
    (
        "a : V -> V | equivalent: (i) a = 0 with define e = a a, pinv e x | (ii) a a = 0 | (iii) a = -a with a a a = 0",
        [
            "f-i-ii: object V | map a e x : V -> V | assume e = a a | pinv e x | assume a = 0 | claim a a = 0 | eliminate e",
            "f-ii-iii: object V | map a : V -> V | assume a a a = 0 | assume a a = 0 | claim a = - a",
            "f-iii-i: object V | map a e x : V -> V | assume a a a = 0 | assume e = a a | pinv e x | assume a = - a | claim a = 0"
            " | eliminate e",
        ],
    ),
    # Words that are made
    (
        "let half (h): h + h = 1 | h : V -> V | half h | claim h = 0",
        "object V | map h : V -> V | # half h | assume h + h = [V] | claim h = 0",
    ),
    (
        "let factor (a): a = f g | a : U -> V | factor a | factor a | claim a = 0",
        "object U V W X | map a : U -> V | map f1 : W -> V | map g1 : U -> W | map f2 : X -> V | map g2 : U -> X"
        " | # factor a | assume a = f1 g1"
        " | # factor a | assume a = f2 g2 | claim a = 0",
    ),
    (
        "let nil (a) of index (k): a^k = 0 | let deep (a): nil a of index 3 | a : V -> V | deep a | claim a = 0",
        "object V | map a : V -> V | # deep a | assume a^3 = 0 | claim a = 0",
    ),
    (
        "let equal (a) (b) ..: a = b | " + ENDS + "equal a b c | claim a = c",
        HEAD + "# equal a b c | assume a = b | assume a = c | assume b = c | claim a = c",
    ),
    # Faults: tokens and grammar
    ("a : V -> V | claim a$ = 0", "S2 2 8"),
    ("a : V -> V | claim a * a = 0", "S3 2 9"),
    ("claim 170141183460469231731687303715884105728 a = 0", "S4 1 7"),
    ("a : V -> V | claim a =", "S3 2 10"),
    ("a : V -> V | assume a | claim a = 0", "N4 2 8"),
    ("a : V - > V | claim a = 0", "S2 1 9"),
    ("language 3 | a : V -> V | claim a = 0", "S3 1 1"),
    ("a : V -> V | language 2 | claim a = 0", "S3 2 1"),
    ("a : V -> V | claim a^-2 = 0", "S3 2 10"),
    ("a : V -> V | claim a^k = 0", "S3 2 9"),
    ("a : V -> V | claim " + "(" * 65 + "a" + ")" * 65 + " = 0", "S5 2 71"),
    ("group a | claim a = 0", "S3 1 8"),
    ("group a b c | claim a = 0", "S3 1 11"),
    ("range a to b | claim a = 0", "S3 1 9"),
    ("gruop a b | claim a = 0", "N4 1 1 near group"),
    ("let group (b) (c): b = c | claim a = 0", "S7 1 5"),
    ("let (a) (b): b = a | claim a = 0", "N11 1 5"),
    ("let same (a) (a): a = a | claim a = 0", "N11 1 5"),
    ("let same: a = b | claim a = 0", "N11 1 5"),
    ("let all (a) (b) (c) ..: a = b | claim a = 0", "N11 1 5"),
    (ENDS + "equivalent: (i) a = b", "N10 2 1"),
    (ENDS + "equivalent: (i) a = b, | (iii) b = c", "N10 2 1"),
    (ENDS + "equivalent: a = b (ii) b = c", "S3 2 13"),
    # Faults: names
    ("a : V -> V | claim a = b", "S6 2 11"),
    ("a : V -> V | claim a = [W]", "S6 2 12"),
    ("object V | a : V -> W | claim a = 0", "S6 2 10"),
    ("a : V -> V | pinv a x | claim [a] = x", "S6 3 8"),
    ("a : V -> V | a : V -> V | claim a = 0", "S7 2 1"),
    ("object V V | a : V -> V | claim a = 0", "S7 1 10"),
    ("a V : V -> V | claim a = 0", "S7 1 3"),
    ("a : V -> V | define m = m a | claim m = 0", "N8 2 12"),
    ("a : V -> V | define m = n | define n = a | claim m = 0", "N8 2 12"),
    ("a : V -> V | define m = a | define m = a a | claim m = 0", "S7 3 8"),
    ("a : V -> V | solve b | claim a = 0", "S6 2 7"),
    ("a : V -> V | claim x: a = 0 | claim x: a = 1", "S7 3 1"),
    (ENDS + "claim pinv a x", "S6 2 14"),
    # Faults: words and ends
    (ENDS + "drazin a b c | claim a = 0", "N5 2 12"),
    (ENDS + "group 2 b | claim a = 0", "N5 2 7"),
    (ENDS + "claim range a in b", "N9 2 7"),
    (ENDS + "equivalent: (i) a = 0 (ii) range a in b by d", "N9 2 28"),
    (ENDS + "drazin a b 0 | claim a = 0", "S16 2 12"),
    (ENDS + "claim a^-1 = b", "N7 2 8"),
    (ENDS + "inverse a b, inverse a c | claim a^-1 = b", "N7 3 8"),
    (ENDS + "inverse a b | claim (a)^-1 = b", "N7 3 10"),
    (ENDS + "claim a = 0 | claim 1 = 1", "N6 3 7"),
    ("a : U -> V | claim 1 - a = 0", "S11 2 11 left U -> U right U -> V"),
    ("a : U -> V | group a x | claim a = 0", "S11 2 1 left V -> V right U -> U"),
    ("a : U -> V, b : V -> W | claim a b = 0", "S10 2 9 left U -> V right V -> W"),
    ("a : U -> V | claim a^2 = 0", "S10 2 8 left U -> V right U -> V"),
    # Faults of the language, at the place that was written
    (" ".join(f"a{number}" for number in range(1001)) + " : V -> V | claim a1 = 0", "S8 1 4891 limit 1000"),
    ("a : U -> V self | claim a = 0", "S9 1 1"),
    ("a : V -> V | claim 0 = 0", "S12 2 7"),
    ("a b : V -> V | claim (a + b)^20 = 0", "S14 2 7"),
    ("a : V -> V | claim a^501 = 0", "S16 2 9"),
    ("a : V -> V | model 4 | claim a = 0", "S16 2 7"),
    ("a : V -> V | assume a = 0", "S15"),
    ("a : V -> V | order degree | order degree | claim a = 0", "S7 3 1"),
    ("a : V -> V | order degree | eliminate a | claim a = 0", "S7 3 1"),
    ("a b : V -> V | eliminate a | eliminate b | claim a = 0", "S7 3 1"),
]

# Files that are used: by their names, and rows as above.
FILES: Dict[str, str] = {
    "words.opn": "# words | let same (a) (b): a = b | use more/words.opn",
    "more/words.opn": "let nilpotent (a): a a = 0",
    "both.opn": "use words.opn | use more/words.opn",
    "loop.opn": "use f.opn",
    "lines.opn": "let same (a) (b): a = b | assume a = b",
    "bad.opn": "let same (a) (b): a b",
}
USED: List[Tuple[str, str]] = [
    (
        "use words.opn | " + ENDS + "same a b, nilpotent c | claim a = c",
        HEAD + "# same a b | assume a = b | # nilpotent c | assume c c = 0 | claim a = c",
    ),
    ("use both.opn | use words.opn | " + ENDS + "nilpotent c | claim a = c", HEAD + "# nilpotent c | assume c c = 0 | claim a = c"),
    ("use nosuch.opn | claim a = 0", "N1 1 1"),
    ("use f.opn | claim a = 0", "N2 1 1"),
    ("use loop.opn | claim a = 0", "N2 file loop.opn 1 1"),
    ("use lines.opn | claim a = 0", "N3 file lines.opn 2 1"),
    ("use bad.opn | claim a = 0", "N4 file bad.opn 1 19"),
    ("use  # none | claim a = 0", "S3 1 4"),
]

# Statements with what `shorten` writes for them.
SHORT: List[Tuple[str, str]] = [
    ("object V | map a x : V -> V | pinv a x | assume a a' = a' a | claim a x = x a", "pinv a x | normal a | claim a x = x a"),
    ("object V | map a x : V -> V | pinv a x | assume x a = a x | claim a = 0", "ep a x | claim a = 0"),
    (
        "# of c | object U V | map a : U -> V | map b : V -> U | map c g : V -> V # both | assume c = [V] - a b | assume c g c = c"
        " | assume g c = c g | claim a b g = g a b | assume g c g = g",
        "# of c | # both | a : U -> V, b : V -> U | define c = 1 - a b | group c g | claim a b g = g a b | order degree",
    ),
    (
        "language 2 | object V | map a d : V -> V | assume a d = d a | assume d a d = d | assume a^3 d = a^2 | claim d = 0",
        "drazin a d 2 | claim d = 0",
    ),
    (
        "object V | map p q s : V -> V | projection p | projection q | assume s = p + q | claim s s = s | order weight s 2",
        "projection p q | define s = p + q | claim s s = s | order weight s 2",
    ),
    (
        "language 2 | object V | map a b c d : V -> V | assume c = a b | assume d = b a | eliminate d | claim c a = a d",
        "a b c : V -> V | assume c = a b | define d = b a | claim c a = a d",
    ),
    ("object U V | map a b c : U -> V | assume a = b | assume b = c | claim c = a", "a b c : U -> V | assume a = b = c | claim c = a"),
    ("object V | map a x : V -> V | claim x a x = x | claim a x a = a | claim x a = a x", "a x : V -> V | claim group a x"),
    (
        "object V | map a b c d : V -> V | assume a b = b a | assume c d = d c | assume c a = a c | assume b c = c b | claim a = d",
        "commute a b c, commute c d | claim a = d",
    ),
    ("object V | map a b : V -> V | assume a a = [V] | claim a = [V]", "a b : V -> V | assume a a = 1 | claim a = 1"),
    ("object V | map a b : V -> V | assume a a = a | claim a = 0", "idempotent a | claim a = 0"),
    ("object U V | map a : U -> V self | claim a = 0", "S9 2 5"),
    ("object V | map a if : V -> V | claim a if = 0", "# not written in the notation"),
    ("object V W | map h : V -> V self | map a : V -> W | claim a h = a", "h : V -> V self, a : V -> W | claim a h = a"),
]
