"""The proofs of chain.py in LaTeX, for the body of a paper that loads amsmath."""
from __future__ import annotations

import re
from typing import Dict, Iterator, List, Optional, Set

from opprove.checkers.check import Poly, Problem, Refusal, Signature
from opprove.translations.chain import Chain, Equation, Proof, Reader, Writer, granted, has_powers, listed, not_used, reason, used
from opprove.translations.latex import WIDTH, letter_in_latex, lines_of

# What an abbreviation says of its maps.
SAID = {
    "pinv": "${x}$ is the Moore--Penrose inverse of ${a}$", "inverse": "${x}$ is the inverse of ${a}$",
    "inner": "${x}$ is an inner inverse of ${a}$", "projection": "${x}$ is a projection",
}  # fmt: skip
LINES = 100  # in a display, after which another one begins
Names = Dict[str, str]  # how maps and objects are written, by their names


def names_of(problem: Problem, text: str) -> Names:
    """A table of names: a line each, as `x a^{\\dagger}`. Raises a `Refusal` at a line that names no map or object."""
    return table(text, {name.strip("[']") for name in problem.names})


def table(text: str, known: Optional[Set[str]] = None) -> Names:
    """The names of a table, which are all known where these are given."""
    names = {}
    for number, line in enumerate(text.split("\n"), 1):
        words = line.split("#")[0].split(None, 1)
        if words and (len(words) < 2 or (known is not None and words[0] not in known)):
            raise Refusal(f"# refused names line {number}")
        names.update({words[0]: words[1].strip()} if words else {})
    return names


def letter(written: str, names: Names) -> str:
    """A letter as the table has its name: [V] is 1_V, and an adjoint has a star."""
    name = names.get(written.strip("[']"))
    if name is None:
        return letter_in_latex(written)
    if written[0] == "[":
        return f"1_{{{name}}}"
    return name if written[-1] != "'" else f"({name})^{{*}}" if "^" in name else f"{name}^{{*}}"


def latex(reader: Reader, proof: Proof, names: Names) -> Iterator[str]:
    """The proof in lines: the claim, the assumptions that are used by their numbers, lemmas and the proof, over pages where it is long."""
    writer = Writer([letter(name, names) for name in reader.problem.names], r" \, ", power if has_powers(reader.problem) else None)
    number, denominator = proof.certificate.claim, proof.certificate.denominator
    claim, numbers = reader.claims[number - 1], used(reader, proof)
    conditions = granted(reader, proof, [f"${name}$" for name in writer.letters])
    yield f"% claim {number}, denominator {denominator}"
    yield r"\begingroup\allowdisplaybreaks"
    yield rf"\noindent\textbf{{Claim {number}.}}" + (f" Where {listed(conditions)}," if conditions else "")
    yield from aligned([equation(writer, claim, "", "")])
    if numbers:
        yield r"\noindent Used are"
        yield from aligned(list(assumptions(reader, writer, numbers)))
    yield rf"\noindent {not_used(reader, numbers)}.".replace("Not used: none", "All assumptions are used")
    for place, chain in enumerate(proof.chains, 1):
        yield ""
        if chain is proof.chains[-1]:
            yield rf"\medskip\noindent\textit{{Proof of claim {number}.}}"
        else:
            why = reason(chain.cancelled, [f"${name}$" for name in writer.letters], is_latex=True) if chain.cancelled else ""
            why = re.sub(r"^by \[(\d+)\](.*)", r" (by Lemma \1\2)", why)
            yield rf"\medskip\noindent\textbf{{Lemma {place}.}}{why}"
            yield from aligned([equation(writer, Equation(chain.ends, chain.left, chain.right, []), "", "")])
            yield from [] if chain.cancelled else [r"\noindent\textit{Proof.}"]
        yield from [] if chain.cancelled else [*aligned(list(steps(reader, writer, chain))), r"\hfill\rule{1ex}{1ex}"]
    if proof.is_told and denominator > 1:
        yield f"and ${denominator}$ cancels."
    yield r"\par\endgroup"


def assumptions(reader: Reader, writer: Writer, numbers: List[int]) -> Iterator[str]:
    """Each assumption that is used with its number, and at the first of an abbreviation what that says."""
    last = 0
    letters = dict(zip(reader.problem.names, writer.letters))
    for number in numbers:
        other = reader.assumptions[number - 1]
        word, line = other.line[0].text, other.line[0].line
        maps = [letters[token.text] for token in other.line if token.text in letters]
        said = SAID[word].format(a=maps[0], x=maps[-1]) if word in SAID and line != last else ""
        last = line
        yield equation(writer, other, f"({number})", rf" && \text{{{said}}}" if said else "")


def steps(reader: Reader, writer: Writer, chain: Chain, width: int = WIDTH) -> Iterator[str]:
    """The sums of a chain, each with the number of what it is by."""
    yield r"  & \phantom{{} = {}} " + in_lines(writer, chain.start(), chain.ends, width)
    for step in chain.steps:
        number, is_adjoint = (step.row.number, False) if step.row.is_lemma else reader.sources[step.row.number - 1]
        by = f"Lemma {number}" if step.row.is_lemma else f"({number})" + "${}^{*}$" * is_adjoint
        yield rf"  & = {in_lines(writer, step.total, chain.ends, width)} && \text{{by {by}}}"


def power(name: str, count: int) -> str:
    return f"({name})^{{{count}}}" if "^" in name else f"{name}^{{{count}}}"


def aligned(rows: List[str]) -> List[str]:
    """The rows of a display, and of several where they are long, since TeX holds each whole."""
    parts: List[List[str]] = [[]]
    for row in rows:
        if sum(it.count("\n") + 1 for it in parts[-1]) > LINES:
            parts.append([])
        parts[-1].append(row)
    return [line for part in parts for line in (r"\begin{align*}", " \\\\\n".join(part), r"\end{align*}")]


def in_lines(writer: Writer, poly: Poly, ends: Signature, width: int) -> str:
    return " \\\\\n  & \\quad ".join(lines_of(writer.terms(poly, ends), width))


def equation(writer: Writer, shown: Equation, name: str, said: str, width: int = WIDTH) -> str:
    """An equation after its name, with what is said of it."""
    left, right = (lines_of(writer.terms(poly, shown.ends), width) for poly in (shown.left, shown.right))
    lines = [*left, "= " + right[0], *right[1:]]
    lines = [" ".join(lines)] if len(lines) == 2 else lines
    return f"  {name + ' ' if name else ''}{'' if not name else chr(92) + 'quad '}& " + " \\\\\n  & \\quad ".join(lines) + said
