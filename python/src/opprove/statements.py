"""Statements: lines of the statement languages that are written from objects, or read from a file."""
from __future__ import annotations

import os
from html import escape
from typing import Any, Dict, List, Optional, Tuple, Union

from opprove.checkers import check
from opprove.expressions import FACTOR, Equation, Expression, NotTyped, Object
from opprove.notation import expand
from opprove.program import Refused, files, in_words, run, words_of
from opprove.text import StatementText
from opprove.translations import picture
from opprove.translations.latex import formula
from opprove.verdicts import Report, verdicts

Anything = object  # which inside of Statement is the name of a method
Number = Union[int, bool, None]


class Statement:
    """Objects, maps, assumptions and claims, in the order in which they are written. s["a"] is what has the name a."""

    def __init__(self) -> None:
        self.lines: List[str] = []
        self.assumptions: List[str] = []  # as text; of pinv and its like the line
        self.claims: List[str] = []
        self.names: Dict[str, Union[Object, Expression]] = {}

    @classmethod
    def read(cls, path: Union[str, "os.PathLike[str]"], name: str = "") -> Statement:
        """The statement of a file or a pipe, with its comments; of a file of the notation (.opn) its expansion, or the one of this name
        where it has several, which `read_all` has by their names."""
        if os.fspath(path).endswith(expand.ENDING):
            found = cls.read_all(path)
            if name not in found and (name or len(found) > 1):
                raise ValueError(f"{os.fspath(path)} has the statements {', '.join(found)}: name one")
            return found[name or next(iter(found))]
        try:
            return cls.parse(check.loaded([os.fspath(path)])[0])
        except check.Refusal as refusal:
            raise Refused(check.NOT_LOADED, str(refusal)) from None

    @classmethod
    def read_all(cls, path: Union[str, "os.PathLike[str]"], all_pairs: bool = False) -> Dict[str, Statement]:
        """The statements of a file of the notation, by their names; of cases that are equivalent a circle, or all pairs."""
        try:
            expanded = expand.read(os.fspath(path), all_pairs).statements
        except check.Refusal as refusal:
            raise Refused(4 if check.status_of(str(refusal)) == check.NOT_LOADED else 3, str(refusal)) from None
        return {statement.name: cls.parse(statement.text) for statement in expanded}

    @classmethod
    def parse(cls, text: Union[str, bytes]) -> Statement:
        """The statement that is a text."""
        data = text.encode() if isinstance(text, str) else text
        try:
            return cls._of(StatementText(data))
        except check.Refusal as refusal:
            with files(data.decode(errors="surrogateescape")) as paths:
                words = in_words(["prove", *paths], 3, f"{refusal}\n")
            raise Refused(3, str(refusal), words) from None

    @classmethod
    def _of(cls, text: StatementText) -> Statement:
        made = cls()
        made.lines = [line.text for line in text.lines]
        made.lines = made.lines[:-1] if made.lines[-1] == "" else made.lines
        ends = {name: Object(name) for name in text.objects}
        made.names.update(ends)
        made.names.update({one.name: Expression(ends[one.source], ends[one.target], one.name, FACTOR) for one in text.maps.values()})
        made.claims = [claim.text for claim in text.claims]
        for line in text.lines:
            if line.word == "assume" or line.word in check.ABBREVIATIONS:
                first = line.tokens[1 if line.word == "assume" else 0]
                made.assumptions.append(line.text[first.column - 1 : line.tokens[-1].column - 1])
        return made

    def __getitem__(self, name: str) -> Any:
        return self.names[name]

    def __str__(self) -> str:
        return "".join(f"{line}\n" for line in self.lines)

    def __repr__(self) -> str:
        return str(self).rstrip("\n")

    # ---- Declarations

    def declare(self, names: str) -> List[str]:
        """The names, if all of them are names that are free."""
        words = names.split()
        for place, name in enumerate(words):
            if not check.is_name(name):
                raise ValueError(f"{name} is no name")
            if name in self.names or name in words[:place]:
                raise ValueError(f"{name} is declared twice")
        if not words:
            raise ValueError("there is no name")
        return words

    def objects(self, names: str) -> List[Object]:
        """New objects with these names, between which blanks stand."""
        words = self.declare(names)
        self.lines.append(f"object {' '.join(words)}")
        made = [Object(name) for name in words]
        self.names.update(zip(words, made))
        return made

    def object(self, name: str) -> Object:
        """A new object."""
        (made,) = self.objects(name)
        return made

    def maps(self, names: str, source: Object, target: Object, self_adjoint: bool = False) -> List[Expression]:
        """New maps with these names, between which blanks stand."""
        words = self.declare(names)
        for end in (source, target):
            self.own(end)
        if self_adjoint and source is not target:
            raise NotTyped(f"{words[0]} : {source} -> {target}, but its adjoint : {target} -> {source}")
        self.lines.append(f"map {' '.join(words)} : {source} -> {target}{' self' * self_adjoint}")
        made = [Expression(source, target, name, FACTOR) for name in words]
        self.names.update(zip(words, made))
        return made

    def map(self, name: str, source: Object, target: Object, self_adjoint: bool = False) -> Expression:
        """A new map."""
        (made,) = self.maps(name, source, target, self_adjoint)
        return made

    def own(self, end: Anything) -> None:
        """Raises what is no object of this statement."""
        if not isinstance(end, Object):
            raise TypeError(f"{end!r} is no object")
        if self.names.get(end.name) is not end:
            raise NotTyped(f"{end} is an object of another statement")

    # ---- Assumptions and claims

    def written(self, equations: Tuple[Equation, ...]) -> List[str]:
        """The equations as text, if they are equations of this statement."""
        for equation in equations:
            if not isinstance(equation, Equation):
                raise TypeError(f"{equation!r} is no equation of two expressions")
            self.own(equation.left.source)
        return [str(equation) for equation in equations]

    def assume(self, *equations: Equation) -> None:
        """Adds assumptions."""
        texts = self.written(equations)
        self.lines += [f"assume {text}" for text in texts]
        self.assumptions += texts

    def claim(self, *equations: Equation) -> None:
        """Adds claims."""
        texts = self.written(equations)
        self.lines += [f"claim {text}" for text in texts]
        self.claims += texts

    def own_map(self, a: Expression) -> str:
        """The name of a map of this statement."""
        found = self.names.get(a.text) if isinstance(a, Expression) else None
        if not isinstance(found, Expression):
            raise TypeError(f"{a!r} is no map that is declared")
        self.own(a.source)
        return a.text

    def abbreviation(self, word: str, a: Expression, x: Expression) -> None:
        """Of equations for maps that lead to and fro."""
        names = [self.own_map(a), self.own_map(x)]
        if a.source is not x.target or a.target is not x.source:
            raise NotTyped(f"{a.typed()}, but {x.typed()}")
        self.assumed(f"{word} {' '.join(names)}")

    def assumed(self, line: str) -> None:
        self.lines.append(line)
        self.assumptions.append(line)

    def pinv(self, a: Expression, x: Expression) -> None:
        """x is the Moore-Penrose inverse of a."""
        self.abbreviation("pinv", a, x)

    def inverse(self, a: Expression, x: Expression) -> None:
        """x is the inverse of a."""
        self.abbreviation("inverse", a, x)

    def inner(self, a: Expression, x: Expression) -> None:
        """x is an inner inverse of a: a x a = a."""
        self.abbreviation("inner", a, x)

    def projection(self, p: Expression) -> None:
        """p is idempotent and its own adjoint."""
        if p.source is not p.target:
            raise NotTyped(f"{p.typed()} doesn't compose with {p.typed()}")
        self.assumed(f"projection {self.own_map(p)}")

    def write(self, line: str) -> None:
        """A line of a statement as it is."""
        self.lines.append(line)

    # ---- How opprove goes about it

    def weights(self, *pairs: Tuple[Expression, int]) -> None:
        """Words are compared by weight; all other letters weigh 1."""
        self.lines.append(" ".join(["order weight", *(f"{self.own_map(a)} {weight}" for a, weight in pairs)]))

    def eliminate(self, *maps: Expression) -> None:
        """Words with fewer of these maps and of their adjoints are smaller. The statement is then of language 2."""
        self.lines.append(" ".join(["eliminate", *(self.own_map(a) for a in maps)]))
        if all(line.split("#")[0].split()[:1] != ["language"] for line in self.lines):
            self.lines.insert(0, "language 2")

    def solve(self, *maps: Expression) -> None:
        """Maps that a search of models is to solve for."""
        self.lines.append(" ".join(["solve", *(self.own_map(a) for a in maps)]))

    def shape(self, modulus: int, *pairs: Tuple[Object, int]) -> None:
        """A shape for models: a modulus, and objects with their sides, which else are 1."""
        for end, _ in pairs:
            self.own(end)
        self.lines.append(" ".join([f"model {modulus}", *(f"{end} {side}" for end, side in pairs)]))

    # ---- What is answered

    def prove(self, *words: Anything, program: Optional[str] = None, seconds: Optional[float] = None, **options: Number) -> Report:
        """Has opprove prove the claims, with its options by their names: pairs, steps, workers, seed, format, no_models=True."""
        return self.answered("prove", words, program, seconds, options)

    def refute(self, *words: Anything, program: Optional[str] = None, seconds: Optional[float] = None, **options: Number) -> Report:
        """Has opprove look for matrices that break the claims, with its options by their names: workers, seed."""
        return self.answered("refute", words, program, seconds, options)

    def answered(
        self, command: str, words: Tuple[Anything, ...], program: Optional[str], seconds: Optional[float], options: Dict[str, Number]
    ) -> Report:
        """The verdicts of a command. A status that comes with no report is raised as `Refused`."""
        report = run(program, command, [str(self)], [*words, *words_of(options)], seconds)
        return Report(verdicts(str(self), self.claims, report))

    def check(self, evidence: str, program: Optional[str] = None, seconds: Optional[float] = None) -> List[str]:
        """Has opprove check certificates, and gives its lines on them if it accepts all."""
        return run(program, "check", [str(self), evidence], (), seconds).splitlines()

    # ---- In a notebook

    def _repr_svg_(self) -> Optional[str]:
        objects = [name for name, found in self.names.items() if isinstance(found, Object)]
        maps = [(a.text, a.source.name, a.target.name) for a in self.names.values() if isinstance(a, Expression)]
        return picture.svg(picture.picture(objects, maps)) if objects else None

    def _repr_html_(self) -> str:
        rows = [("assumed", self.assumptions), ("claimed", self.claims)]
        lines = [f"<div>{word} <code>{escape(text)}</code></div>" for word, texts in rows for text in texts]
        return f"<div>{self._repr_svg_() or ''}{''.join(lines)}</div>"

    def _repr_latex_(self) -> Optional[str]:
        """The assumptions and the claims; none of a statement that has a fault, as one without a claim."""
        try:
            text = StatementText(str(self).encode())
        except check.Refusal:
            return None
        rows = [("assumed", text.assumptions), ("claimed", text.claims)]
        lines = [rf"\text{{{word}}} && {formula(one.left)} &= {formula(one.right)}" for word, found in rows for one in found]
        return "\\begin{align*}\n" + " \\\\\n".join(lines) + "\n\\end{align*}"
