"""Tries `opprove chain`: reads its texts back, and has its certificates checked and its LaTeX typeset.

What is read back is read by check.py alone. Each chain has to lead from one side of its claim or lemma to the other, and each
step has to be the assumption, the adjoint or the lemma that it names, at one place and times an integer.
"""
from __future__ import annotations

import itertools
import re
from pathlib import Path
from random import Random
from typing import Callable, Dict, Iterable, Iterator, List, NamedTuple, Optional, Set, Tuple

from opprove.translations import chain as to_chain
from opprove.checkers.check import Evidence, Line, Poly, Problem, Signature, Value, add, judge, loaded, tokens_of
import trying
from drawing import Rows
from trying import EXAMPLES, GALLERY, PROGRAM, Answer, built, decided, is_built, need, parts_of, run, tool, typeset, wrong_words

TOOL = tool("chain")
STORED = {"pseudoinverses": EXAMPLES / "pseudoinverses.cert", "halved": EXAMPLES / "tools" / "halved.cert"}


# ---- Reading texts


class Reading(NamedTuple):
    problem: Problem
    polys: Dict[str, Poly]  # by what they are called: (n), (n)' and [k]

    def value(self, text: str) -> Value:
        """The signature and the polynomial of a sum, without identities."""
        line = Line(tokens_of(text, 1, 2), self.problem)
        ends, poly = line.sum()
        need(line.is_at("end"), text)
        return ends, bare(self.problem, poly)

    def equation(self, text: str) -> Tuple[Signature, Poly, Poly]:
        (left_ends, left), (right_ends, right) = map(self.value, text.split(" = "))
        need(left_ends is None or right_ends is None or left_ends == right_ends, text)
        return left_ends or right_ends or (0, 0), left, right


def bare(problem: Problem, poly: Poly) -> Poly:
    total: Poly = {}
    for word, coefficient in poly.items():
        add(total, coefficient, {tuple(letter for letter in word if problem.names[letter][0] != "["): 1})
    return total


def is_at_one_place(change: Poly, poly: Poly) -> bool:
    """Whether the change is the polynomial between two words, times an integer."""
    long = max(change, key=len)
    for word, coefficient in poly.items():
        for place in range(len(long) - len(word) + 1):
            factor, rest = divmod(change[long], coefficient)
            if long[place : place + len(word)] == word and rest == 0:
                if add({}, factor, poly, long[:place], long[place + len(word) :]) == change:
                    return True
    return False


def sums_of(lines: List[str]) -> Iterator[Tuple[str, str]]:
    """Each sum of a chain, and what it is by."""
    joined: List[str] = []
    for line in lines:
        if line[:4] == "    ":
            joined[-1] += " " + line.strip()
        else:
            joined.append(line)
    for place, line in enumerate(joined):
        sign, text, by = parts_of(r"(  |= )(\S.*?)(?: +by (\S+))?", line)
        need((sign == "= ") == (place > 0) == bool(by), line)
        yield text, by


def read_chain(reading: Reading, lines: List[str], ends: Signature) -> Tuple[Poly, Poly, List[str]]:
    """The first sum, the last one, and what the steps are by, each of which is looked at."""
    sums = list(sums_of(lines))
    polys: List[Poly] = []
    for text, by in sums:
        found, poly = reading.value(text)
        need(found in (None, ends), (text, found, ends))
        change = add(dict(polys[-1]), -1, poly) if by else {}
        need(not by or (change and is_at_one_place(change, reading.polys[by])), (text, by, lines))
        need(poly not in polys, ("a sum that comes back", lines))
        polys.append(poly)
    return polys[0], polys[-1], [by for _, by in sums[1:]]


def scale_of(head: str) -> int:
    match = re.search(r", (?:as|where) ([0-9]+) cancels\b", head)
    return int(match.group(1)) if match else 1


def read_assumptions(reading: Reading, lines: List[str]) -> Set[str]:
    """The numbers of the assumptions that are said to be used, which stand for what the statement says."""
    problem = reading.problem
    found, (others,) = set(), [line for line in lines if line.startswith("Not used: ")]
    for line in lines[1:-1]:
        name, equation, number = parts_of(r"(\([0-9]+\)) (.*?) +line ([0-9]+)(?:, .*)?", line)
        _, left, right = reading.equation(equation)
        need(add(left, -1, right) == reading.polys[name], line)
        places = [line.tokens[0].line for line in problem.lines for _ in problem.equations(line) if line.tokens[0].text != "claim"]
        need(places[int(name[1:-1]) - 1] == int(number), line)
        found.add(name)
    listed = [] if others == "Not used: none" else others[10:].split(", ")
    need(sorted([*found, *listed]) == sorted(f"({number})" for number, _ in enumerate(problem.assumptions, 1)), lines)
    return found


def read_proof(problem: Problem, groups: List[List[str]], is_turned: Optional[bool] = None) -> int:
    """Reads the groups of lines of a proof, and gives the number of its steps. Where nothing is said of it, it is read from the
    side of the claim with more terms."""
    assumptions = [bare(problem, poly) for poly in problem.assumptions]
    polys = {f"({number})": poly for number, poly in enumerate(assumptions, 1)}
    polys.update({f"({number})'": problem.star(poly) for number, poly in enumerate(assumptions, 1) if problem.is_starred})
    reading = Reading(problem, polys)
    head, equation = groups[0][0].split(": ", 1)
    claim = int(parts_of("Claim ([0-9]+)(?:, where .*)?", head)[0])
    ends, *sides = reading.equation(equation)
    need(add(dict(sides[0]), -1, sides[1]) == bare(problem, problem.claims[claim - 1]), groups)
    used, named, steps = read_assumptions(reading, groups[1]), [], 0
    for place, lines in enumerate(groups[2:], 1):
        if lines[0].startswith("Lemma "):
            name, equation = parts_of(r"Lemma (\[[0-9]+\])(?:, .*)?: (.*)", lines[0])
            chain_ends, *chain_sides = reading.equation(equation)
            scale = scale_of(lines[0].split(": ")[0])
            need(name == f"[{place}]", lines)
            cancelled = re.match(r"Lemma \S+, by (\[[0-9]+\]), since (\S+) is (monic|epic): ", lines[0])
            if cancelled:
                polys[name] = without_letter(reading, *cancelled.groups())
                need(len(lines) == 1 and polys[name] == add(dict(chain_sides[0]), -1, chain_sides[1]), lines)
                need(cancelled.group(2) in head and cancelled.group(3) in head, (head, lines))
                named.append(cancelled.group(1))
                continue
        else:
            need(lines[0].startswith("Proof") and place == len(groups) - 2, lines)
            turned = len(sides[1]) > len(sides[0]) if is_turned is None else is_turned
            chain_ends, chain_sides, scale = ends, sides[::-1] if turned else sides, scale_of(lines[0])
        need(scale_of(head) % scale == 0, groups)
        first, last, by = read_chain(reading, lines[1:], chain_ends)
        need([first, last] == [add({}, scale, side) for side in chain_sides], (lines, chain_sides))
        polys[f"[{place}]"] = add(dict(chain_sides[0]), -1, chain_sides[1])
        named += by
        steps += len(by)
    lemmas = {f"[{number}]" for number in range(1, len(groups) - 2)}
    need({name.rstrip("'") for name in named} == used | lemmas, (groups, named))
    return steps


def without_letter(reading: Reading, name: str, letter: str, kind: str) -> Poly:
    """The polynomial that is called so without a letter, in front or behind, with the sign of its greatest word as lemmas have it."""
    number, poly = reading.problem.numbers[letter], reading.polys[name]
    need(all(word[0 if kind == "monic" else -1] == number for word in poly), (name, letter, kind))
    return {word[1:] if kind == "monic" else word[:-1]: value for word, value in poly.items()}


def groups_of(lines: List[str]) -> Iterator[List[List[str]]]:
    """The lines of each proof, in groups with a blank line between them."""
    groups: List[List[str]] = []
    for text in "\n".join(lines).split("\n\n"):
        if text.startswith("Claim ") and groups:
            yield groups
            groups = []
        groups.append(text.split("\n"))
    yield groups


# ---- What is tried


def written(statement: Path, evidence: Path, form: str = "text") -> List[str]:
    """What the tool writes, in this process."""
    return list(to_chain.written(*loaded([str(statement), str(evidence)]), form=form))


def tried(statement: Path, evidence: Path, folder: Path) -> Tuple[int, int]:
    """Fails unless the text is read back, and each certificate that is written is accepted and has no more rows than before.
    Gives the numbers of proofs and of steps."""
    problem, short = Problem(str(statement)), folder / "short.cert"
    steps = [read_proof(problem, groups) for groups in groups_of(written(statement, evidence))]
    short.write_text("\n".join(written(statement, evidence, "certificate")), encoding="utf-8")
    before, after = (Evidence(problem, str(path)).certificates for path in (evidence, short))
    need(len(before) == len(after) == len(steps), (statement, evidence))
    for old, new in zip(before, after):
        judge(problem, new, str(statement))
        counts = [sum(len(share.rows) for share in certificate.shares) for certificate in (old, new)]
        need(counts[1] <= counts[0] and old[:2] == new[:2], (statement, counts))
    if is_built():
        answer = run(PROGRAM, "check", statement, short)
        need(answer.status == 0, (statement.read_bytes(), evidence.read_bytes(), short.read_bytes(), answer))
    return len(steps), sum(steps)


ENDS = "object U V\nmap a b e : U -> V\nmap c d : V -> U\nassume a = b\nassume c = d\n"
LOOPS = "object V\nmap a b c x : V -> V\nassume a = b\nassume b = c\nassume a = c\n"
LONG = " ".join(["x"] * 300)


def rows(*texts: str) -> str:
    return "".join(f"row {text}\n" for text in texts)


def share(head: str, *texts: str) -> str:
    return f"{head}\n{rows(*texts)}"


def certificate(*shares: str, claim: int = 1, denominator: int = 1) -> str:
    return f"certificate 2\nclaim {claim}\ndenominator {denominator}\n{''.join(shares)}end\n"


def in_a_circle(front: str) -> Tuple[str, str, str]:
    """Rows over the assumptions of LOOPS that add up to 0."""
    return f"1 ({front}) 1 ()", f"1 ({front}) 2 ()", f"-1 ({front}) 3 ()"


CASES: List[Tuple[str, str]] = [
    # a lemma of two signatures, which another one names whole, and rows that are no paths
    (
        ENDS + "claim a c = b d\nclaim a = b\n",
        "".join(
            certificate(share("lemma 1 scale 1", "1 () 1 ()", "1 () 2 ()"), share("lemma 2 scale 1", "1 () lemma 1 ()"), goal, claim=n)
            for n, goal in enumerate(
                [
                    share("goal scale 1", "1 () lemma 2 (c)", "-1 () 2 (c)", "1 (b) lemma 2 ()", "-1 (b) 1 ()"),
                    share("goal scale 1", "1 () lemma 2 ()", "-1 () 2 ()"),
                ],
                1,
            )
        ),
    ),
    # adjoints in a statement that isn't starred, and an identity in one that doesn't name it
    (LOOPS + "claim a = c\n", certificate(share("goal scale 1", *in_a_circle("a a'"), "1 () 3 ()"))),
    (LOOPS + "claim a = c\n", certificate(share("goal scale 1", *in_a_circle("[V]"), "1 ([V]) 3 ()", "-1 ([V]) 3 ()", "1 () 3 ()"))),
    # lemmas that are 0, that no row names, and that are too long for their place unless their loop is cut
    (
        LOOPS + "claim a = c\n",
        certificate(
            share("lemma 1 scale 1", *in_a_circle("x")),
            share("lemma 2 scale 1", "2 () 1 ()", "3 (x) lemma 1 ()"),
            share("lemma 3 scale 1", "1 () 1 ()"),
            share("goal scale 1", "1 () lemma 1 ()", "1 () lemma 1 (x)", "1 () lemma 3 ()", "1 () 2 ()", "-1 () lemma 1 (x)"),
        ),
    ),
    (
        LOOPS + f"claim {LONG} a = {LONG} c\n",
        certificate(
            share("lemma 1 scale 1", *in_a_circle(LONG), "1 () 3 ()"),
            share("goal scale 1", f"1 ({LONG}) lemma 1 ()", *in_a_circle(LONG + " x")),
        ),
    ),
    # claims that read from the right side, that are 0, and that are relations of identities
    (
        LOOPS + "claim 0 = a - b\nclaim a x = b x + 2 a - 2 c\nclaim a = a\nclaim [V] a [V] = a\nclaim - a = - b\nclaim 2 [V] a = 2 b\n",
        certificate(share("goal scale 1", "-1 () 1 ()"))
        + certificate(share("goal scale 1", "1 () 1 (x)", "-2 () 3 ()"), claim=2)
        + certificate("goal scale 1\n", claim=3)
        + certificate(share("goal scale 1", "1 () 5 ([V])", "1 () 6 ()"), claim=4)
        + certificate(share("goal scale 1", "-1 () 1 ()"), claim=5)
        + certificate(share("goal scale 1", "2 () 5 ()", "2 () 1 ()"), claim=6),
    ),
    # scales that don't divide the coefficient at the lemma's place, of a lemma and of the goal, and a negative lemma
    (
        LOOPS + "assume 12 a = 0\nclaim 2 a = 0\nclaim a = b\n",
        certificate(
            share("lemma 1 scale 3", "-1 () 4 ()"),
            share("lemma 2 scale 1", "-1 () lemma 1 ()", "2 () lemma 1 ()"),
            share("goal scale 2", "-1 () lemma 2 ()"),
            denominator=6,
        )
        + certificate(share("goal scale 2", "2 () 1 ()"), claim=2, denominator=2),
    ),
    # names beyond ASCII, a map that is its own adjoint, and identities as sums
    (
        "object V \u03b1\nmap p : V -> V self\nmap \u4e2d \u6587 : V -> \u03b1\nmap x_1 : \u03b1 -> V\nassume p p = [V]\n"
        "assume \u4e2d p = \u6587\nassume x_1 \u4e2d = 2 [V]\nclaim p' p p' = p\nclaim x_1 \u6587 p = 2 [V]\nclaim p \u4e2d' = \u6587'\n",
        certificate(share("goal scale 1", "1 () 1 (p)", "1 () 7 (p)", "-1 () 7 (p)", "1 () 7 ()"))
        + certificate(share("goal scale 1", "-1 (x_1) 2 (p)", "1 (x_1 \u4e2d) 1 ()", "1 (x_1) 9 ()", "1 () 3 ()"), claim=2)
        + certificate(share("goal scale 1", "1 () 4 ()"), claim=3),
    ),
]


# ---- Random certificates

RANDOM = """object U V
map a b : U -> V
map c d : V -> U
map e f : V -> V
map h : U -> U{self}
assume a c = e e - 2 [V]
assume c a = 2 h{star}
assume e f a - a {back} a = b
assume d e = 3 c f - d
assume [U] d = c e{star}
"""


def drawn(draw: Random, template: str = RANDOM) -> Tuple[str, Rows]:
    """The statement of a template without a claim, with adjoints or without, and rows over it."""
    is_starred = template == RANDOM and draw.random() < 0.5
    text = template.format(self=" self" * is_starred, star="'" * is_starred, back="b'" if is_starred else "d")
    return text, Rows(draw, Problem((text + "claim 0 a = 0\n").encode()))


# ---- The checks


def all_tried(what: str, pairs: Iterable[Tuple[Path, Path]], folder: Path, least: int = 1) -> str:
    """Tries statements with evidence, each when it has been written, among which are so many proofs."""
    found = [tried(statement, evidence, folder) for statement, evidence in pairs]
    proofs, steps = map(sum, zip(*found))
    need(proofs >= least, f"{proofs} proofs")
    asked = "" if is_built() else "; their certificates are accepted by check.py alone, as opprove is not built"
    return f"{proofs} chains of {what} are read back, with {steps} steps{asked}"


def random_certificates(folder: Path, count: int = 90) -> str:
    statement, evidence, draw = folder / "random.op", folder / "random.cert", Random(1)

    def made() -> Iterator[Tuple[Path, Path]]:
        for _ in range(count):
            text, source = drawn(draw)
            claim, certificate = source.certificate()
            statement.write_text(f"{text}claim {claim}\n")
            evidence.write_text("\n".join(to_chain.certificate_text(source.problem, certificate)))
            judge(Problem(str(statement)), certificate, claim)
            yield statement, evidence

    return all_tried("random certificates", made(), folder)


def stored(folder: Path) -> str:
    """The certificates of both folders of examples, and texts that are stored."""
    pairs = list(trying.stored())
    for statement, evidence in (pair for pair in pairs if "refused" in pair[1].stem):
        answer = run(*TOOL, statement, evidence)
        need(answer == Answer(7, "", "# block 1 refused C6 word b want 0 got -1\n"), answer)
    for name, evidence in STORED.items():
        want = (EXAMPLES / "tools" / f"{name}.chain").read_text()
        need(run(*TOOL, evidence.with_suffix(".op"), evidence) == Answer(0, want, ""), name)
    return all_tried("the examples", (pair for pair in pairs if "refused" not in pair[1].stem), folder)


def case_files(folder: Path) -> Iterator[Tuple[Path, Path]]:
    """The files of each of the cases."""
    for number, texts in enumerate(CASES):
        statement, evidence = folder / f"typeset{number}.op", folder / f"typeset{number}.cert"
        for path, text in zip((statement, evidence), texts):
            path.write_text(text, encoding="utf-8")
        yield statement, evidence


def cases(folder: Path) -> str:
    wrong_words("chain", [], ["x"], ["x", "y", "--text"], ["x", "y", "--latex", "--certificate"])
    return all_tried("hard certificates", case_files(folder), folder)


def reports(folder: Path) -> str:
    """The reports of prove on the examples, in both formats."""
    program = built()

    def made() -> Iterator[Tuple[Path, Path]]:
        for statement, number in itertools.product(decided(), (1, 2)):
            evidence = folder / f"{statement.stem}{number}.cert"
            evidence.write_text(run(program, "prove", statement, "--pairs", 2000, "--format", number).out)
            if statement.stem == "moore_penrose_unique":
                text = "\n".join(written(statement, evidence)) + "\n"
                need(text == (EXAMPLES / "tools" / "moore_penrose_unique.chain").read_text(), text)
            if "\ncertificate " in evidence.read_text():
                yield statement, evidence

    return all_tried("reports", made(), folder, 30)


def latex(folder: Path) -> str:
    """All chains above that have names of ASCII."""
    bodies: List[str] = []
    statements = [*EXAMPLES.glob("*.op"), *EXAMPLES.glob("tools/*.op"), *GALLERY.values(), *(path for path, _ in case_files(folder))]
    statements = sorted((path for path in statements if path.read_text("utf-8").isascii()), key=lambda path: -len(path.stem))
    for evidence in sorted([*EXAMPLES.glob("*.cert"), *EXAMPLES.glob("tools/*.cert"), *folder.glob("*[0-9].cert")]):
        fitting = [path for path in statements if evidence.stem.startswith(path.stem)]
        if fitting and "certificate " in evidence.read_text("utf-8") and "refused" not in evidence.stem:
            bodies += written(fitting[0], evidence, "latex")
    typeset(["\n".join(bodies)], folder)
    return f"{sum(line[:8] == '% claim ' for line in bodies)} chains are typeset by pdflatex"


CHECKS: List[Callable[[Path], str]] = [stored, cases, random_certificates, reports, latex]
