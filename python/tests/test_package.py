"""Tries the package of Python.

The package is installed by pip, without network, into a fresh venv, and what stands below is tried there too. The program is that of
OPPROVE or the built one; what needs one is skipped where there is none.
Each check gives a line, and raises Failed where the package doesn't do what it should. The status is 0 where nothing failed.
"""
from __future__ import annotations

import dataclasses
import os
import re
import shutil
import subprocess
import sys
import xml.etree.ElementTree
from pathlib import Path
from functools import reduce
from operator import mul
from random import Random
from typing import Any, Callable, Dict, List, NamedTuple, Tuple, Type, Union
from unittest import mock

import test_types
from opprove import program as programs, text
from opprove.checkers import check
from opprove.text import StatementText
from opprove import Equation, Expression, NotTyped, Object, Refused, Report, Statement, Verdict, from_sympy
from trying import EXAMPLES, GALLERY, STATEMENTS, TESTS, TOP, Failed, Skipped, built, decided, need, run, tool, typeset, usage_line


def program() -> str:
    return str(built())


# ---- Statements, built from objects


def commutator_square(s: Statement) -> None:
    V = s.object("V")
    d, x = s.maps("d x", V, V)
    s.assume(d * x - x * d == 1)
    s.claim(d * x**2 - x**2 * d == 2 * x)


def evaluation_idempotent(s: Statement) -> None:
    V = s.object("V")
    d, i = s.maps("d i", V, V)
    s.assume(d * i == 1)
    s.claim((1 - i * d) ** 2 == 1 - i * d, d * (1 - i * d) == 0, (1 - i * d) * i == 0)


def moore_penrose_unique(s: Statement) -> None:
    U, V = s.objects("U V")
    a, (x, y) = s.map("a", U, V), s.maps("x y", V, U)
    s.pinv(a, x)
    s.pinv(a, y)
    s.claim(x == y)


def one_sided_inverse(s: Statement) -> None:
    U, V = s.objects("U V")
    a, b = s.map("a", U, V), s.map("b", V, U)
    s.assume(a * b == 1)
    s.claim(b * a == 1)
    s.shape(2, (U, 2), (V, 1))


def woodbury(s: Statement) -> None:
    U, V = s.objects("U V")
    a, x = s.maps("a x", U, U)
    u, v, (c, y, m) = s.map("u", V, U), s.map("v", U, V), s.maps("c y m", V, V)
    s.inverse(a, x)
    s.inverse(c, y)
    s.assume((y + v * x * u) * m == 1, m * (y + v * x * u) == 1)
    s.claim((a + u * c * v) * (x - x * u * m * v * x) == 1, (x - x * u * m * v * x) * (a + u * c * v) == 1)


WRITTEN: List[Callable[["Statement"], None]] = [
    commutator_square, evaluation_idempotent, moore_penrose_unique, one_sided_inverse, woodbury,
]  # fmt: skip


class Builder:
    """Builds the statement of a file by the operators of Python. What is declared comes first."""

    def __init__(self, path: Path) -> None:
        self.statement = s = Statement()
        text = StatementText.read(str(path))
        s.objects(" ".join(text.objects))
        for one in text.maps.values():
            s.map(one.name, s[one.source], s[one.target], self_adjoint=one.is_self)
        equations = {"assume": (one for one in text.assumptions if one.word == "assume"), "claim": iter(text.claims)}
        for line in text.lines:
            words = [token.text for token in line.tokens[1:-1]]
            if line.word in equations:
                getattr(s, line.word)(self.equation(next(equations[line.word])))
            elif line.word in ("pinv", "inverse", "inner", "projection", "solve", "eliminate"):
                getattr(s, line.word)(*(s[name] for name in words))
            elif line.word == "model":
                s.shape(int(words[0]), *((s[name], int(side)) for name, side in zip(words[1::2], words[2::2])))
            elif words[:1] == ["weight"]:
                s.weights(*((s[name], int(weight)) for name, weight in zip(words[1::2], words[2::2])))
            elif line.word == "order":
                s.write("order degree")

    def equation(self, one: text.Equation) -> Any:
        left, right = self.value(one.left), self.value(one.right)
        return (left * right if isinstance(left, int) else left) == right  # as 0 alone has no ends

    def value(self, node: text.Expression) -> Any:
        parts = [self.value(part) for part in node.parts]
        if node.kind == "sum":
            pairs = zip(node.parts[1:], parts[1:])
            return reduce(lambda total, pair: total - -pair[1] if pair[0].kind == "negative" else total + pair[1], pairs, parts[0])
        ways: Dict[str, Callable[[], Any]] = {
            "map": lambda: self.statement[node.name], "identity": lambda: self.statement[node.name].id, "zero": lambda: 0,
            "product": lambda: reduce(mul, parts), "scaled": lambda: node.number * parts[0], "negative": lambda: -parts[0],
            "adjoint": lambda: parts[0].H, "power": lambda: parts[0] ** node.number,
        }  # fmt: skip
        return ways[node.kind]()


def polys(problem: check.Problem) -> Tuple[object, ...]:
    return problem.names, problem.ends, problem.is_starred, problem.assumptions, problem.claims


def problem_of(text: str) -> check.Problem:
    return check.Problem(text.encode())


def gallery(folder: Path) -> str:
    """The statements from objects are those of the files, which are read and written back."""
    for build in WRITTEN:
        build(made := Statement())
        path = GALLERY[build.__name__]
        need(polys(problem_of(str(made))) == polys(check.Problem(str(path))), (path, str(made)))
    for path in STATEMENTS:
        made, read, problem = Builder(path).statement, Statement.read(path), check.Problem(str(path))
        need(polys(problem_of(str(made))) == polys(problem), (path, str(made)))
        need(str(read) == path.read_text() and str(Statement.parse(str(read))) == str(read), path)
        need(len(read.claims) == len(problem.claims) == len(made.claims), path)
        lines = [[token.text for token in check.tokens_of(line, 1)] for line in str(made).split("\n")]
        need({token for line in lines for token in line} >= {*made.names} and {*made.names} == {*read.names}, path)
    return f"{len(STATEMENTS)} statements are built from objects, {len(WRITTEN)} of them by hand, and read and written"


def heads(folder: Path) -> str:
    """Of what is built from objects: the head lines of the page, and verdicts that the checkers in Python confirm."""
    rows = re.findall(r"^\| `(\w+)\.op`: [^|]* \| (.*) \|$", (EXAMPLES / "README.md").read_text(), re.MULTILINE)
    rows = [(name, text) for name, text in rows if text.startswith("`# claim ")]
    wanted = {name: (re.findall("`# ([^`]*)`", text), "".join(re.findall(r"\(`([^`]*)`\)", text))) for name, text in rows}
    count = 0
    paths = [path for path in decided() if GALLERY.get(path.stem) == path and path.stem in wanted]
    proofs: List[str] = []
    for path in paths:
        lines, options = wanted[path.stem]
        s = Builder(path).statement
        verdicts = s.prove(*options.split(), program=program())
        found = [f"claim {verdict.number} {verdict.kind} {verdict.detail}" for verdict in verdicts]
        need(found == lines, (path, found, lines))
        is_false = path.stem in ("braid_relation", "one_sided_inverse", "two_sided_equation_condition")
        more = s.refute(program=program()) if is_false else s.prove("--format", 1, *options.split(), program=program())
        count += sum([confirmed(verdict) for verdict in verdicts + more])
        proofs += [verdict._repr_latex_() or "" for verdict in verdicts if verdict]
    need(count >= 38 and len(paths) >= 12, (count, paths))
    if shutil.which("pdflatex"):
        typeset(proofs, folder)
    return f"{len(paths)} statements of the gallery have the head lines of its page; {count} verdicts are confirmed, and not with a change"


def confirmed(verdict: Verdict) -> bool:
    """Whether the verdict is one that is checked in Python, where it has to be accepted, and each changed one not."""
    is_checked = verdict.kind in ("proved", "refuted", "not derivable")
    need(verdict.recheck() is (True if is_checked else None), (verdict, verdict.block))
    need(bool(verdict) == (verdict.kind == "proved"), verdict)
    if verdict.kind == "not derivable":
        need(f"rules {len(verdict.rules)}" == verdict.detail and bool(verdict.rest), verdict)
    for block in changes(verdict.block) if is_checked else ():
        need(dataclasses.replace(verdict, block=block).recheck() is False, (verdict, block))
    if verdict.kind == "proved":
        need(f"Claim {verdict.number}" in verdict.chain() and verdict.certificate == verdict.block, verdict)
        need(all(f"({number}) {text}" in verdict.chain() for number, text in verdict.assumptions.items()), verdict)
    return is_checked


def changes(block: str) -> List[str]:
    """The block with a changed row, with one row less, and of another claim."""
    found = [re.sub(r"^claim (\d+)$", lambda match: f"claim {int(match.group(1)) + 1}", block, flags=re.MULTILINE)]
    row = re.search(r"^row (-?\d+) .*\n", block, re.MULTILINE)
    if row:
        start, end = row.span(1)
        found += [block[: row.start()] + block[row.end() :], f"{block[:start]}{int(row.group(1)) + 1}{block[end:]}"]
    return found


MATRICES = r"""\begin{align*}
a &= \begin{pmatrix}1 & 0\end{pmatrix} \\
b &= \begin{pmatrix}1 \\ 0\end{pmatrix} \pmod{2}
\end{align*}"""


def stored(folder: Path) -> str:
    """What verdicts are made of, from stored reports."""
    rows = [("pasted_squares", {1, 2}), ("one_sided_inverses", {1, 2}), ("pseudoinverses", {*range(1, 9)})]
    for name, numbers in rows:
        s = Statement.read(EXAMPLES / f"{name}.op")
        text = (EXAMPLES / f"{name}.cert").read_text()
        verdict = Verdict(1, s.claims[0], "proved", "denominator 1 rows 2", text, str(s))
        need(confirmed(verdict) and {*verdict.assumptions} == numbers, (name, verdict.assumptions))
        need(dataclasses.replace(verdict, detail="denominator 2 rows 2").recheck() is False, name)
    s = Statement.read(EXAMPLES / "equal_maps.op")
    text = (EXAMPLES / "equal_maps_refused.cert").read_text()
    wrong = Verdict(1, s.claims[0], "proved", "denominator 1 rows 1", text, str(s))
    need(wrong.recheck() is False, wrong)
    raised(lambda: wrong.chain(), Refused, "# block 1 refused C6 word b want 0 got -1")
    s = Statement.read(GALLERY["one_sided_inverse"])
    text = "model 1\nclaim 1\nmodulus 2\nside U 2\nside V 1\nmap a = 1 0\nmap b = 1 ; 0\nend\n"
    refuted = Verdict(1, s.claims[0], "refuted", "", text, str(s))
    need(confirmed(refuted) and refuted.model == {"a": [[1, 0]], "b": [[1], [0]]}, refuted.model)
    need((refuted.modulus, refuted.sides, refuted._repr_latex_()) == (2, {"U": 2, "V": 1}, MATRICES), refuted._repr_latex_())
    need(dataclasses.replace(refuted, block=text.replace("a = 1", "a = 0")).recheck() is False, refuted)
    raised(refuted.chain, ValueError, "claim 1 is refuted, and has no chain")
    return f"{len(rows) + 2} stored certificates and models are verdicts that are confirmed, and not with a change"


# ---- Expressions


class Sample(NamedTuple):
    """An expression, and what it has to multiply out to."""

    expression: Expression
    poly: check.Poly


class Samples:
    """Random expressions over one statement: by the operators of Python, and multiplied out apart from them."""

    def __init__(self, seed: int) -> None:
        self.random, self.statement = Random(seed), Statement()
        U, V = self.objects = self.statement.objects("U V")
        maps = [*self.statement.maps("a b", U, V), self.statement.map("c", V, U), self.statement.map("e", U, U)]
        maps.append(self.statement.map("p", V, V, self_adjoint=True))
        self.statement.claim(maps[0] == 0)
        self.problem = problem_of(str(self.statement))
        self.maps = [Sample(one, {(self.problem.numbers[one.text],): 1}) for one in [*maps, U.id, V.id]]

    def sample(self, source: Object, target: Object, depth: int) -> Sample:
        fitting = [one for one in self.maps if (one.expression.source, one.expression.target) == (source, target)]
        if depth == 0:
            return self.random.choice(fitting)
        ways = [self.sum, self.product, self.scaled, self.adjoint, self.signed]
        ways += [self.power, self.beside_integer] if source is target else []
        return self.random.choice(ways)(source, target, depth - 1)

    def sum(self, source: Object, target: Object, depth: int) -> Sample:
        left, right = (self.sample(source, target, self.random.randint(0, depth)) for _ in range(2))
        sign = self.random.choice((1, -1))
        result = left.expression + right.expression if sign == 1 else left.expression - right.expression
        return Sample(result, check.add(dict(left.poly), sign, right.poly))

    def product(self, source: Object, target: Object, depth: int) -> Sample:
        middle = self.random.choice(self.objects)
        left, right = self.sample(middle, target, depth), self.sample(source, middle, self.random.randint(0, depth))
        return Sample(left.expression * right.expression, times(left.poly, right.poly))

    def scaled(self, source: Object, target: Object, depth: int) -> Sample:
        one, scale = self.sample(source, target, depth), self.random.randint(-3, 3)
        result = scale * one.expression if self.random.random() < 0.5 else one.expression * scale
        return Sample(result, check.add({}, scale, one.poly) if scale else {})

    def adjoint(self, source: Object, target: Object, depth: int) -> Sample:
        one = self.sample(target, source, depth)
        return Sample(one.expression.H, self.problem.star(one.poly))

    def signed(self, source: Object, target: Object, depth: int) -> Sample:
        one = self.sample(source, target, depth)
        return Sample(-(+one.expression), check.add({}, -1, one.poly))

    def power(self, source: Object, target: Object, depth: int) -> Sample:
        one, exponent = self.sample(source, target, depth), self.random.randint(0, 2)
        poly = one.poly if exponent else {(self.problem.numbers[f"[{source}]"],): 1}
        for _ in range(exponent - 1):
            poly = times(poly, one.poly)
        return Sample(one.expression**exponent, poly)

    def beside_integer(self, source: Object, target: Object, depth: int) -> Sample:
        one, number = self.sample(source, target, depth), self.random.randint(-3, 3)
        unit: check.Poly = {(self.problem.numbers[f"[{source}]"],): number} if number else {}
        e = one.expression
        result, signs = self.random.choice([(e + number, (1, 1)), (number + e, (1, 1)), (e - number, (1, -1)), (number - e, (-1, 1))])
        return Sample(result, check.add(check.add({}, signs[0], one.poly), signs[1], unit))


def times(left: check.Poly, right: check.Poly) -> check.Poly:
    total: check.Poly = {}
    for word, coefficient in left.items():
        check.add(total, coefficient, right, left=word)
    return total


def expressions(folder: Path) -> str:
    """The written text of random expressions has, by check.py, the polynomial that they were multiplied out to."""
    samples = Samples(7)
    problem = samples.problem
    for number in range(1000):
        source, target = (samples.random.choice(samples.objects) for _ in range(2))
        one = samples.sample(source, target, samples.random.randint(1, 5))
        line = check.Line(check.tokens_of(one.expression.text, 1), problem)
        ends, poly = line.sum()
        need(line.is_at("end") and poly == one.poly, (one, poly))
        need(ends == (problem.numbers[f"[{source}]"], problem.numbers[f"[{target}]"]), (one, ends))
    return f"{number + 1} random expressions are written as what they multiply out to"


def raised(action: Callable[[], object], kind: Type[Exception], message: str, status: int = 0) -> None:
    try:
        found: object = action()
    except kind as error:
        found = getattr(error, "line", str(error)), status and getattr(error, "status", 0)
        need(found == (message, status), (error, message))
        return
    raise Failed(f"{message}: not raised, but {found!r}")


def refusals(folder: Path) -> str:
    """What doesn't fit is refused at once, and faults of files by their lines."""
    s, other = Statement(), Statement()
    U, V = s.objects("U V")
    a, x, b = s.map("a", U, V), s.map("x", V, U), other.map("b", other.object("U"), other.object("V"))
    cases: List[Tuple[Callable[[], object], str]] = [
        (lambda: a * a, "a : U -> V doesn't compose with a : U -> V"),
        (lambda: a**2, "a : U -> V doesn't compose with a : U -> V"),
        (lambda: a**0, "a : U -> V doesn't compose with a : U -> V"),
        (lambda: a + x, "a : U -> V, but x : V -> U"),
        (lambda: a * x == x * a, "a x : V -> V, but x a : U -> U"),
        (lambda: a - a.H, "a : U -> V, but a' : V -> U"),
        (lambda: a == 1, "a : U -> V, and no identity beside it, of which there would be 1"),
        (lambda: a + b, "a : U -> V, but b : U -> V of another statement"),
        (lambda: b.H * a, "b' : V -> U doesn't compose with a : U -> V of another statement"),
        (lambda: s.claim(b == 0), "U is an object of another statement"),
        (lambda: s.pinv(a, a), "a : U -> V, but a : U -> V"),
        (lambda: s.projection(a), "a : U -> V doesn't compose with a : U -> V"),
        (lambda: s.map("p", U, V, self_adjoint=True), "p : U -> V, but its adjoint : V -> U"),
    ]
    for action, message in cases:
        raised(action, NotTyped, message)
    raised(lambda: bool(a == 0), TypeError, "a = 0 is assumed or claimed, and neither true nor false by itself")
    raised(lambda: s.assume(a == "b"), TypeError, "False is no equation of two expressions")
    raised(lambda: s.pinv(2 * a, x), TypeError, "2 a is no map that is declared")
    for names, message in {"a": "a is declared twice", "c c": "c is declared twice", "2c": "2c is no name", "": "there is no name"}.items():
        raised(lambda: s.maps(names, U, V), ValueError, message)
    need(str(s) == "object U V\nmap a : U -> V\nmap x : V -> U\n", str(s))
    (folder / "faulty.op").write_text("object U\nclaim a = a\n")
    raised(lambda: Statement.read(folder / "faulty.op"), Refused, "# refused S6 line 2 column 7", 3)
    raised(lambda: Statement.read(folder / "missing"), Refused, f"# load failed {folder / 'missing'}", 4)
    return f"{len(cases) + 9} things that don't fit are refused at once"


def sympy(folder: Path) -> str:
    try:
        import sympy
    except ImportError:
        raise Skipped("sympy is not installed") from None
    A, X = sympy.symbols("a x", commutative=False)
    s = Statement()
    U, V = s.objects("U V")
    a, x = s.map("a", U, V), s.map("x", V, U)
    maps = {"a": a, X: x}
    problem = problem_of(f"{s}claim a = a\n")
    cases = [
        (A * X * A - 2 * A, a * x * a - 2 * a), (1 - A * X, 1 - a * x), (3 * (A * X) ** 2 + A * X - 5, 3 * (a * x) ** 2 + a * x - 5),
        (sympy.adjoint(A * X), (a * x).H), (sympy.adjoint(A) * A, a.H * a), (A * (1 - X * A) * X, a * (1 - x * a) * x),
    ]  # fmt: skip
    for expression, want in cases:
        found = from_sympy(expression, maps)
        values = [check.Line(check.tokens_of(text, 1), problem).sum() for text in (str(found), str(want))]
        need(values[0] == values[1], (expression, found, want))
    equation = sympy.Eq(A * X, 1)  # type: ignore[no-untyped-call]
    need(from_sympy(sympy.Integer(2), maps) == 2, "an integer")
    need(str(from_sympy(equation, maps)) == "a x = [V]", "an equation")
    for expression in (A / 2, sympy.symbols("a") * A, A**-1, sympy.symbols("q", commutative=False), sympy.sin(A)):
        try:
            need(False, (expression, from_sympy(expression, maps)))
        except TypeError:
            pass
    raised(lambda: from_sympy(A * A, maps), NotTyped, "a : U -> V doesn't compose with a : U -> V")
    return f"{len(cases) + 2} expressions of SymPy {sympy.__version__} are read"


# ---- The program, pictures and proofs

FAKE = """#!/bin/sh
printf '%s' "$OPPROVE_SAYS"
printf '%s' "$OPPROVE_TELLS" >&2
exit "$OPPROVE_STATUS"
"""


def statuses(folder: Path) -> str:
    """Each status from 2 to 7 is raised with the program's line, from a stand-in; and those of the program that can be had."""
    fake = folder / "opprove"
    fake.write_text(FAKE)
    fake.chmod(0o755)
    s = Statement.read(EXAMPLES / "equal_maps.op")
    cases = [
        (2, "# usage: opprove prove\n", "", "# usage: opprove prove"), (3, "# refused S15\n", "", "# refused S15"),
        (4, "# too long x limit 1\n", "", "# too long x limit 1"), (5, "# claim 1 pro", "", "standard output failed"),
        (6, "", "", "no memory"), (7, "# block 1 accepted claim 1\n# block 2 refused C1\n", "", "# block 2 refused C1"),
        (1, "", "opprove: proving\nopprove: lists could not be proved\n", "opprove: lists could not be proved"), (-9, "", "", "status -9"),
    ]  # fmt: skip
    for status, says, tells, line in cases:
        os.environ.update(OPPROVE_SAYS=says, OPPROVE_TELLS=tells, OPPROVE_STATUS=str(status))
        if status < 0:
            fake.write_text(f"#!/bin/sh\nkill -{-status} $$\n")
        for action in (lambda: s.prove(program=str(fake)), lambda: s.check("", program=str(fake))):
            raised(action, Refused, line, status)
    none = str(folder / "none")
    raised(lambda: s.prove(program=none), FileNotFoundError, f"[Errno 2] No such file or directory: '{none}'")
    return f"{len(cases)} statuses of a stand-in are raised with their lines"


SCRIPT = f"#!{sys.executable}\nimport sys\nfrom opprove.cli import entry\nsys.exit(entry())\n"


def scripts(folder: Path) -> str:
    """A script that pip makes of the package isn't taken for the program, by whatever name: a call would call itself."""
    paths = [folder / name / "opprove" for name in ("scripts", "programs")]
    for path, text in zip(paths, (SCRIPT, FAKE)):
        path.parent.mkdir()
        path.write_text(text)
        path.chmod(0o755)
    script, other = map(str, paths)
    s, none = Statement.read(EXAMPLES / "equal_maps.op"), "opprove isn't in PATH: name the program by program=, or by OPPROVE"
    with mock.patch.object(programs, "BUILT", folder / "none"):
        for named in ("", script):
            with mock.patch.dict(os.environ, PATH=f"{paths[0].parent}:{paths[1].parent}", OPPROVE=named):
                need(programs.path() == other, (named, programs.path()))
            with mock.patch.dict(os.environ, PATH=str(paths[0].parent), OPPROVE=named):
                need(programs.path() == str(folder / "none"), (named, programs.path()))
                raised(s.prove, FileNotFoundError, none)
    raised(lambda: s.prove(program=script), FileNotFoundError, f"{script} runs the tools of this package, and isn't the program")
    return "a script of the package in PATH, or that OPPROVE or a call names, isn't taken for the program"


def real_statuses(folder: Path) -> str:
    s = Statement.read(EXAMPLES / "equal_maps.op")
    usage = usage_line()[:-1]
    raised(lambda: s.prove("--paris", program=program()), Refused, usage, 2)
    raised(lambda: Statement().prove(program=program()), Refused, "# refused S15", 3)
    refused = (EXAMPLES / "equal_maps_refused.cert").read_text()
    raised(lambda: s.check(refused, program=program()), Refused, "# block 1 refused C6 word b want 0 got -1", 7)
    long = Statement.read(EXAMPLES / "equal_maps.op")
    long.lines += ["#" * 1048576]
    try:
        raise Failed(f"not raised, but {long.prove(program=program())}")
    except Refused as error:
        need(error.status == 4 and re.fullmatch("# too long .*/statement.op limit 1048576", error.line), error)
    accepted = s.check((EXAMPLES / "equal_maps_untyped.cert").read_text(), program=program())
    need(accepted == ["# block 1 accepted claim 1 denominator 1"], accepted)
    return "statuses 2, 3, 4 and 7 of opprove are raised with its lines"


def notebook(folder: Path) -> str:
    """What a notebook shows: pictures that are XML, and proofs that are typeset."""
    for path in STATEMENTS:
        found = xml.etree.ElementTree.fromstring(Statement.read(path)._repr_svg_() or "")
        need(found.tag == "{http://www.w3.org/2000/svg}svg", path)
    need(Statement()._repr_svg_() is None, "a picture of nothing")
    proofs = []
    for path in sorted(EXAMPLES.glob("*.cert")):
        if path.stem in ("pasted_squares", "one_sided_inverses", "pseudoinverses"):
            s = Statement.read(path.with_suffix(".op"))
            proofs.append(Verdict(1, s.claims[0], "proved", "denominator 1", path.read_text(), str(s))._repr_latex_() or "")
    typeset(proofs, folder)
    return f"pictures are XML, and {len(proofs)} proofs are typeset by pdflatex"


SHOWN = """\
statement.op:3:11
    claim a = a'
              ^
S11: both sides of an equation have one source and one target: a goes U -> V, and a' goes V -> U; the adjoint of the second goes as the
first does"""


def in_words(folder: Path) -> str:
    """Options are taken by their names, a refusal says in words what is wrong, and what is claimed is text."""
    s = Statement.read(GALLERY["one_sided_inverse"])
    need((s.assumptions, s.claims) == (["a b = [V]"], ["b a = [U]"]), (s.assumptions, s.claims))
    by_name = s.prove(pairs=10, no_models=True, format=1, program=program())
    need(by_name == s.prove("--pairs", 10, "--no-models", "--format", 1, program=program()) and isinstance(by_name, Report), by_name)
    need(repr(by_name).startswith("1. b a = [U]: undecided pairs 10 "), by_name)
    made = Statement()
    V = made.object("V")
    p, q = made.maps("p q", V, V)
    made.projection(p)
    made.assume(p * q == q)
    need((made.assumptions, made.claims) == (["projection p", "p q = q"], []), made.assumptions)
    try:
        Statement.parse("object U V\nmap a : U -> V\nclaim a = a'\n")
    except Refused as refused:
        need(" ".join(str(refused).split()) == " ".join(SHOWN.split()) and refused.status == 3, str(refused))
    return "options by their names, a refusal in words, and claims as text"


# ---- In a fresh venv

ALONE = """
import opprove
from pathlib import Path
print(*sorted(path.name.split("-")[0] for path in Path(opprove.__file__).parents[1].iterdir() if "opprove" in path.name or path.suffix == ".py"))
"""
HERE = "import sys, test_package, trying; sys.exit(trying.main(test_package.CHECKS[:-2]))"


def builder() -> str:
    """A Python that has setuptools and wheel, with which pip needs no network: this one, or that of the system."""
    for python in (sys.executable, "/usr/bin/python3"):
        if os.access(python, os.X_OK) and run(python, "-c", "import setuptools, wheel, venv").status == 0:
            return python
    raise Skipped("no Python has setuptools and wheel")


def in_venv(folder: Path) -> str:
    """Installs the package, and tries it there."""
    room = folder / "venv"
    own = room / "bin" / "python"
    patiently(builder(), "-m", "venv", "--system-site-packages", room)
    source = shutil.copytree(TOP / "python", folder / "source", ignore=shutil.ignore_patterns("tests", "build", "*.egg-info"))
    patiently(own, "-m", "pip", "install", "--no-index", "--no-build-isolation", "--quiet", "--disable-pip-version-check", source)
    answer = run(own, "-I", "-c", ALONE, folder=folder)
    need(answer.status == 0 and answer.out == "opprove opprove\n", answer)
    answer = run(room / "bin" / "opprove-tools", "chain", EXAMPLES / "pseudoinverses.op", EXAMPLES / "pseudoinverses.cert")
    need(answer == run(*tool("chain"), EXAMPLES / "pseudoinverses.op", EXAMPLES / "pseudoinverses.cert"), answer)
    patiently(own, "-B", "-c", HERE, PYTHONPATH=str(TESTS))
    version = run(own, "--version").out.strip()
    return f"{version} has the package from pip, with no network and no other name"


def patiently(*words: object, **more: str) -> None:
    """A command that may take longer than two minutes on a busy machine."""
    done = subprocess.run([str(word) for word in words], timeout=1200, env={**os.environ, **more})
    need(done.returncode == 0, words)


CHECKS: List[Callable[[Path], str]] = [
    gallery, expressions, refusals, stored, statuses, scripts, sympy, notebook, real_statuses, heads, in_words, in_venv,
    lambda folder: test_types.types(folder, TESTS),
]  # fmt: skip
