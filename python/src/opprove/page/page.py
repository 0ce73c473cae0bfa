"""A statement and its evidence as one HTML file that checks itself.

The page loads nothing. It shows the statement and its quiver, and of each claim what was found: a proof as its chain, matrices
with the products worked out, a closed set of rules, a proof that takes letters off, or what stopped the search. It holds the bytes
of all files, which can be saved from it, and a checker (check.js), which reads these bytes where the page is opened. The reports are
what `prove`, `refute` and `search` print, or other evidence that `check`, `model`, `confirm` and `cancel` read; all have to be
accepted. Statuses are those of the commands: 2 other words, 3 a statement with a fault, 4 a file isn't loaded, 7 evidence is refused.
"""
from __future__ import annotations

import base64
import hashlib
import re
import shlex
from html import escape
from pathlib import Path
from typing import Callable, Dict, Iterator, List, NamedTuple, Optional, Sequence, Tuple

from opprove.checkers import cancel, check_model, confirm, star
from opprove.checkers.chain_text import Lines
from opprove.checkers.check import MOST_BYTES, Evidence, Problem, Signature, judge, loaded
from opprove.page import meanings
from opprove.page.formulas import HTML, MATHML, Writer, equation, math
from opprove.page.proofs import ProofWriter, StarWriter
from opprove.page.refutations import BasisWriter, ModelWriter
from opprove.text import EvidenceText
from opprove.tool import ended, parser
from opprove.translations.chain import EFFORT, Proof, Reader, place_of
from opprove.translations.picture import STYLE, picture_of, svg
from opprove.words.outcomes import outcomes

HERE = Path(__file__).parent
# What reads blocks: a command of the program, or a second program.
KINDS = {"certificate": "check", "model": "model", "basis": "confirm", "cancellation": "cancel", "star": "star", "rational": "rational"}
COMMANDS = ("check", "model", "confirm", "cancel")  # those that check.js has too
OPEN_LINES = 40  # a longer text of a statement is folded


class Piece(NamedTuple):
    """What a report has of a claim: the verdict, what that means, and lines of HTML; and the block that shows it, where there is one."""

    claim: int
    verdict: str
    meaning: List[str]
    lines: List[str]
    report: int = 0
    command: str = ""
    block: int = 0


# ---- Reports


def pieces_of(reader: Reader, number: int, report: bytes) -> Iterator[Piece]:
    """Those of a report with this number, from 0. All of its evidence has to be right."""
    readers: Dict[str, Callable[[Reader, int, bytes], Iterator[Piece]]] = {
        "check": certificates, "model": models, "confirm": bases, "cancel": cancellations, "star": star_proofs, "rational": rational_models,
    }  # fmt: skip
    kinds = dict.fromkeys(KINDS.get(block.kind, "check") for block in EvidenceText(report).blocks)
    found = outcomes(report.decode(errors="replace"))
    for command in kinds or ([] if found else ["check"]):
        yield from readers[command](reader, number, report)
    for outcome in found:
        if outcome.kind in ("undecided", "not refuted") and 1 <= outcome.claim <= len(reader.claims):
            meaning = meanings.undecided(outcome) if outcome.kind == "undecided" else meanings.not_refuted(outcome)
            yield Piece(outcome.claim, outcome.kind, meaning, [])


def certificates(reader: Reader, number: int, report: bytes) -> Iterator[Piece]:
    for block, certificate in enumerate(Evidence(reader.problem, report).certificates, 1):
        judge(reader.problem, certificate, f"# block {block} refused")
        meaning = meanings.proved(reader.problem, certificate.denominator)
        lines = proof_lines(reader, reader.proof(certificate), number, block)
        yield Piece(certificate.claim, "proved", meaning, lines, number, "check", block)


def proof_lines(reader: Reader, proof: Proof, number: int, block: int) -> List[str]:
    return list(ProofWriter(reader, proof, f"p{number}-{block}-").written())


def cancellations(reader: Reader, number: int, report: bytes) -> Iterator[Piece]:
    problem, lines, html = reader.problem, Lines(reader.problem), Writer(reader.problem, HTML)
    for block, proof in enumerate(cancel.Cancellations(problem, report).proofs, 1):
        polys = cancel.judge(lines, proof, f"# block {block} refused")
        names = [[f'<span class="w">{html.letters[letter]}</span>' for letter in letters] for letters in (proof.monic, proof.epic)]
        meaning = meanings.proved(problem, proof.denominator, names[0], names[1])
        shown = proof_lines(reader, reader.cancelled(proof, polys), number, block)
        yield Piece(proof.claim, "proved by cancelling", meaning, shown, number, "cancel", block)


def models(reader: Reader, number: int, report: bytes) -> Iterator[Piece]:
    for block, model in enumerate(check_model.Models(reader.problem, report).models, 1):
        check_model.judge(reader.problem, model, f"# block {block} refused")
        meaning, lines = meanings.refuted(reader.problem, model.modulus), list(ModelWriter(reader, model).written())
        yield Piece(model.claim, "refuted", meaning, lines, number, "model", block)


def star_proofs(reader: Reader, number: int, report: bytes) -> Iterator[Piece]:
    problem, lines, html = reader.problem, Lines(reader.problem), Writer(reader.problem, HTML)
    for block, proof in enumerate(star.StarProofs(problem, report).proofs, 1):
        polys = cancel.judge(lines, proof, f"# block {block} refused", star.StarItems)
        names = [[f'<span class="w">{html.letters[letter]}</span>' for letter in letters] for letters in (proof.monic, proof.epic)]
        meaning = meanings.proved(problem, proof.denominator, names[0], names[1], star.granted(proof).strip())
        shown = list(StarWriter(reader, proof, polys, f"p{number}-{block}-").written())
        yield Piece(proof.claim, "proved by taking stars off", meaning, shown, number, "star", block)


def rational_models(reader: Reader, number: int, report: bytes) -> Iterator[Piece]:
    for block, model in enumerate(check_model.RationalModels(reader.problem, report).models, 1):
        check_model.judge(reader.problem, model, f"# block {block} refused")
        meaning, lines = meanings.refuted(reader.problem, 0), list(ModelWriter(reader, model).written())
        yield Piece(model.claim, "refuted", meaning, lines, number, "rational", block)


def bases(reader: Reader, number: int, report: bytes) -> Iterator[Piece]:
    order = confirm.Order(reader.problem)
    for block, basis in enumerate(confirm.Bases(reader.problem, report).bases, 1):
        confirm.judge(reader.problem, order, basis, f"# block {block} refused")
        meaning = meanings.not_derivable(reader.problem, confirm.is_sharp(reader.problem, basis))
        lines = list(BasisWriter(reader, basis, number, block).written())
        yield Piece(basis.claim, "not derivable", meaning, lines, number, "confirm", block)


# ---- The statement


def comments_of(text: str) -> List[str]:
    """The comments in front of a statement, line by line."""
    lines = [line.strip() for line in re.split("\r?\n", text) if line.split()[:1] != ["language"]]
    first = next((number for number, line in enumerate(lines) if line and line[0] != "#"), len(lines))
    return [line.lstrip("#").strip() for line in lines[:first]]


class StatementWriter:
    """Writes a statement: as formulas, as a quiver, and as it stands in its file."""

    def __init__(self, reader: Reader, text: str, about: Optional[Sequence[str]] = None) -> None:
        self.reader, self.text = reader, text
        self.about = [escape(" ".join(comments_of(text)).strip())] if about is None else about
        self.writer = Writer(reader.problem, MATHML)

    def glance(self) -> Iterator[str]:
        """Its maps, its quiver and its assumptions."""
        yield '<div class="beside"><div>'
        yield from self.maps()
        yield "</div>" + svg(picture_of(self.reader.problem)).replace(f"<style>{STYLE}</style>\n", "") + "</div>"
        if self.reader.assumptions:
            yield "<h3>Assumptions</h3><ol class=\"equations\">"
            for number, found in enumerate(self.reader.assumptions, 1):
                place = f'<a class="place" href="#L{found.line[0].line}">{escape(place_of(found))}</a>'
                shown = equation(self.writer, found.left, found.right, found.ends)
                yield f'<li id="a{number}"><span>({number})</span> <span>{shown}</span> {place}</li>'
            yield "</ol>"

    def written(self) -> Iterator[str]:
        yield '<section class="statement"><h2>The statement</h2>'
        yield from (f'<p class="about">{line}</p>' for line in self.about if line)
        yield from self.glance()
        lines = re.split("\r?\n", self.text)
        lines = lines[:-1] if len(lines) > 1 and not lines[-1] else lines
        is_open = " open" if len(lines) <= OPEN_LINES else ""
        yield f'<details{is_open}><summary>As it is written</summary><pre class="source">'
        shown = "\n".join(f'<span id="L{number}">{escape(line)}</span>' for number, line in enumerate(lines, 1))
        yield f"{shown}</pre></details></section>"

    def maps(self) -> Iterator[str]:
        problem, writer = self.reader.problem, self.writer
        objects = [name[1:-1] for name in problem.names if name[0] == "["]
        yield f"<p>Objects {', '.join(math(writer.name(name)) for name in objects)}; maps</p><ul class=\"maps\">"
        groups: Dict[Tuple[Signature, bool], List[int]] = {}
        for letter in check_model.declared_maps(problem):
            groups.setdefault((problem.ends[letter], problem.stars[letter] == letter), []).append(letter)
        for ((source, target), is_self), letters in groups.items():
            names = ", ".join(math(writer.letters[letter]) for letter in letters)
            ends = math(f"<mo>:</mo>{writer.name(objects[source])}<mo>→</mo>{writer.name(objects[target])}")
            own = ", each its own adjoint" if len(letters) > 1 else ", its own adjoint"
            yield f"<li>{names}{ends}{own if is_self else ''}</li>"
        yield "</ul>"


# ---- The page


def verdicts_of(pieces: Sequence[Piece]) -> List[str]:
    return list(dict.fromkeys(piece.verdict for piece in pieces)) or ["no evidence"]


def badge(verdict: str, text: str = "") -> str:
    """The sign of a verdict."""
    return f'<span class="verdict {verdict.split(" ")[0]}">{text or verdict}</span>'


def claim_lines(reader: Reader, number: int, pieces: Sequence[Piece]) -> Iterator[str]:
    """The section of a claim."""
    found = reader.claims[number - 1]
    badges = " ".join(map(badge, verdicts_of(pieces)))
    yield f'<section class="claim" id="claim{number}"><h2>Claim {number} {badges}</h2>'
    yield f'<p class="formula">{equation(Writer(reader.problem, MATHML), found.left, found.right, found.ends)}</p>'
    for piece in pieces:
        yield from (f'<p class="meaning">{sentence}</p>' for sentence in piece.meaning)
        if piece.command in COMMANDS:
            data = f'data-report="{piece.report}" data-command="{piece.command}" data-block="{piece.block}"'
            yield f'<p class="check" {data}>Not checked in this page: that takes JavaScript.</p>'
        elif piece.command:
            yield '<p class="check">Not checked in this page, whose checker doesn’t read evidence of this kind.</p>'
        yield from piece.lines
    if not pieces:
        yield '<p class="meaning">The reports say nothing of this claim.</p>'
    yield "</section>"


def saved(path: Path, content: bytes, kind: str) -> str:
    """A link by which the bytes of a file are saved."""
    name, data = escape(path.name), base64.b64encode(content).decode()
    return f'<a class="file {kind}" download="{name}" href="data:application/octet-stream;base64,{data}">Save {name}</a>'


def footer(paths: Sequence[Path], contents: Sequence[bytes], pieces: Sequence[Piece]) -> Iterator[str]:
    """The files, of which the statement is the first, and how they are checked elsewhere."""
    statement, *reports = paths
    yield '<footer><h2>Files, and other checkers</h2><p class="files">'
    yield from (saved(path, content, "report" if number else "statement") for number, (path, content) in enumerate(zip(paths, contents)))
    yield "</p>"
    calls = dict.fromkeys((piece.command, piece.report) for piece in pieces if piece.command)
    if calls:
        words = [[command if command in COMMANDS else "second-check", statement.name, reports[number].name] for command, number in calls]
        lines = [" ".join(map(shlex.quote, ["opprove", *call])) for call in words]
        told = "The program <code>opprove</code> checks the same; all of its commands are proved but <code>second-check</code>:"
        yield f"<p>{told}</p><pre>{escape(chr(10).join(lines))}</pre>"
    yield "</footer>"


def digest(text: str) -> str:
    return f"'sha256-{base64.b64encode(hashlib.sha256(text.encode()).digest()).decode()}'"


def part(name: str) -> str:
    return (HERE / name).read_text("utf-8").strip()


def head(title: str, style: str, programs: Sequence[str]) -> str:
    """The head of a page that loads nothing and runs these scripts alone."""
    allowed = f"script-src {' '.join(map(digest, programs))}; style-src {digest(style)}"
    policy = f"default-src 'none'; {allowed}; base-uri 'none'; form-action 'none'"
    return (
        f'<head><meta charset="utf-8"><meta http-equiv="Content-Security-Policy" content="{policy}">'
        f'<meta name="viewport" content="width=device-width, initial-scale=1"><title>{escape(title)}</title><style>{style}</style></head>'
    )


class Found(NamedTuple):
    """A statement and its reports as they were read, and what the reports have of its claims."""

    paths: List[Path]
    contents: List[bytes]
    reader: Reader
    pieces: List[Piece]

    def of_claim(self, number: int) -> List[Piece]:
        return [piece for piece in self.pieces if piece.claim == number]

    def is_map(self, name: str) -> bool:
        return name in self.reader.problem.numbers

    def verdicts(self) -> List[List[str]]:
        """Those on each claim, each once."""
        return [verdicts_of(self.of_claim(number)) for number in range(1, len(self.reader.claims) + 1)]


def found_in(statement: Path, reports: Sequence[Path], effort: int = EFFORT) -> Found:
    """Reads and checks a statement and its reports, with this effort for short chains. A Refusal is raised for what is wrong with the
    files."""
    paths = [statement, *reports]
    contents = loaded(list(map(str, paths)), [*MOST_BYTES[:1], *MOST_BYTES[1:] * len(reports)])
    reader = Reader(Problem(contents[0]), effort)
    pieces = [piece for number, report in enumerate(contents[1:]) for piece in pieces_of(reader, number, report)]
    return Found(paths, contents, reader, pieces)


def navigation(links: Sequence[Tuple[str, str]]) -> List[str]:
    """Links, each a name and an address, on a line; none where there are none."""
    around = " ".join(f'<a href="{escape(address)}">{escape(name)}</a>' for name, address in links)
    return [f"<nav>{around}</nav>"] * bool(links)


def page_with(
    found: Found, title: str = "", comment: str = "", links: Sequence[Tuple[str, str]] = (), about: Optional[Sequence[str]] = None
) -> str:
    """The page of what was found. Its title is the name of the statement where none is given; links, each a name and an address, stand
    above it, the comment in front of all, and paragraphs about the statement in the place of its first comments."""
    shown = title or found.paths[0].stem.replace("_", " ")
    style, programs = part("style.css"), [part("check.js"), part("shown.js"), part("view.js")]
    lines = ["<!doctype html>"] + [f"<!-- {comment.replace('--', '- -').replace('>', '')} -->"] * bool(comment)
    lines += [f'<html lang="en">{head(shown, style, programs)}<body>']
    lines += ["<header>", *navigation(links), f"<h1>{escape(shown)}</h1>"]
    lines += ['<p id="checked" role="status"></p></header><main>']
    lines += StatementWriter(found.reader, found.contents[0].decode(), about).written()
    for number in range(1, len(found.reader.claims) + 1):
        lines += claim_lines(found.reader, number, found.of_claim(number))
    lines += ["</main>", *footer(found.paths, found.contents, found.pieces)]
    return "\n".join([*lines, *(f"<script>{program}</script>" for program in programs), "</body></html>"]) + "\n"


def page_of(
    statement: Path, reports: Sequence[Path], title: str = "", comment: str = "", links: Sequence[Tuple[str, str]] = ()
) -> str:
    """The page of a statement and its reports. A Refusal is raised for what is wrong with the files."""
    return page_with(found_in(statement, reports), title, comment, links)


def main(words: List[str]) -> int:
    """Writes the page, and gives the status."""
    made = parser("page", __doc__)
    made.add_argument("statement", type=Path)
    made.add_argument("reports", type=Path, nargs="+", metavar="report", help="what prove, refute or search printed, or other evidence")
    made.add_argument("--title", default="", help="of the page; the name of the statement where none is given")
    given = made.parse_args(words)
    return ended(lambda: [page_of(given.statement, given.reports, given.title)[:-1]])
