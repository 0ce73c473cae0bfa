"""A folder of statements as a paper in LaTeX: theorems with their proofs

Each statement of FOLDER is a theorem: the sentence, the source and the rest of its first comments, its maps, its assumptions with numbers
and the notions that they say, and its claims; then the proof of each as a chain of equal expressions, or the matrices that break it, or
the closed set of rules which shows that it can't be derived. Evidence is that which lies beside the statement, as for `opprove pages`, and
for other claims what `prove` finds. A file of the notation is one theorem, with a proof of each of its statements.

A map that is a Moore-Penrose inverse, an inverse or the like of one other map is written as such, unless the sentence names it; --names
FILE has a line for each map that is written in another way, as `x a^{\\dagger}`. The paper is for pdflatex; it loads amsmath and amsthm.
Statuses are those of `opprove pages`.
"""
from __future__ import annotations

import re
import tempfile
from concurrent.futures import ProcessPoolExecutor
from itertools import groupby
from pathlib import Path
from typing import Dict, Iterator, List, NamedTuple, Sequence, Set, Tuple

from opprove.checkers import cancel, check_model, confirm, star
from opprove.checkers.chain_text import Lines
from opprove.checkers.check import DONE, NO_OUTPUT, NOT_LOADED, REFUSED, Evidence, Problem, Refusal, content, judge, status_of, written
from opprove.notation.shorten import Shortener, either, named
from opprove.page.page import Found, Piece
from opprove.page.pages import NO_VERDICT, Entry, Job, add_runs, another, files_of, found_for, jobs_of, title_of, titles_of
from opprove.page.refutations import ModelWriter
from opprove.tool import parser, say
from opprove.translations import chain_latex, sentences
from opprove.translations.chain import Chain, Equation, Proof, Reader, Writer, granted, has_powers, listed, reason, used
from opprove.translations.chain_latex import Names, aligned, letter, power
from opprove.translations.latex import lines_of, width_of

WIDTH = 345  # of sums, in points
SHORT = 100  # of the first sum of a chain, where the second one stands beside it
PROOFS = ("check", "cancel", "star")  # what reads them
MOST_RULES = 20  # of a closed set that is shown
HEAD = r"""\documentclass[10pt]{article}
\usepackage{amsmath,amsthm,amssymb}
\usepackage[a4paper,hmargin=25mm,vmargin=25mm]{geometry}
\newtheorem{theorem}{Theorem}
\newtheorem{statement}[theorem]{Statement}
\allowdisplaybreaks
\setlength{\emergencystretch}{3em}
\AtBeginDocument{\setlength{\abovedisplayskip}{4pt plus 2pt}\setlength{\belowdisplayskip}{4pt plus 2pt}}
\newenvironment{assumptions}{\begin{list}{}{\setlength{\labelwidth}{4.5em}\setlength{\leftmargin}{5em}%
  \setlength{\itemsep}{0pt}\setlength{\parsep}{0pt}\setlength{\topsep}{3pt}\setlength{\partopsep}{0pt}\raggedright
  \renewcommand{\makelabel}[1]{\textup{##1}\hfil}}}{\end{list}}
\begin{document}"""
# What the words of the notation say of their maps, by a form, and how the second one is written where it is no letter of its own.
SAID = {
    "pinv": "{1} is the Moore--Penrose inverse of {0}", "inverse": "{1} is the inverse of {0}",
    "inner": "{1} is an inner inverse of {0}", "outer": "{1} is an outer inverse of {0}", "reflexive": "{1} is a reflexive inverse of {0}",
    "13": r"{1} is a $\{{1,3\}}$-inverse of {0}", "14": r"{1} is a $\{{1,4\}}$-inverse of {0}",
    "123": r"{1} is a $\{{1,2,3\}}$-inverse of {0}", "124": r"{1} is a $\{{1,2,4\}}$-inverse of {0}",
    "weighted pinv": "{1} is the Moore--Penrose inverse of {0} with the weights {2} and {3}", "group": "{1} is the group inverse of {0}",
    "drazin": "{1} is the Drazin inverse of {0}, of index at most {2}", "core": "{1} is the core inverse of {0}",
    "dual core": "{1} is the dual core inverse of {0}", "along": "{1} is the inverse of {0} along {2}",
    "bc": "{1} is the $({2},{3})$-inverse of {0}", "bott duffin": "{1} is the Bott--Duffin inverse of {0} by {2}",
    "ep": "{0} commutes with its Moore--Penrose inverse {1}", "commute": "{0} and {1} commute", "orthogonal": "{0} and {1} are orthogonal",
    "hermitian": "{0} is Hermitian", "normal": "{0} is normal", "unitary": "{0} is unitary", "isometry": "{0} is an isometry",
    "partial isometry": "{0} is a partial isometry", "idempotent": "{0} is idempotent", "projection": "{0} is a projection",
}  # fmt: skip
INVERSES = {"pinv": r"\dagger", "inverse": "-1", "inner": "-", "group": r"\#", "drazin": r"\mathrm{D}"}
SIGNATURE = re.compile(r"([\w ]+) : (\w+) -> (\w+)( self)?")


class Word(NamedTuple):
    """Assumptions by their numbers, and the word of the notation that says them with its maps, or an empty one."""

    numbers: List[int]
    word: str
    maps: List[str]


class Made(NamedTuple):
    """What came of a statement: its maps, what it assumes and claims, its proofs, whether there is one of each claim, and what is wrong."""

    maps: Set[str]
    given: List[str]
    proofs: List[str]
    is_proved: bool
    fault: str = ""
    status: int = DONE


# ---- What a statement assumes


def words_of(problem: Problem, text: str) -> List[Word]:
    """The assumptions in their order, those together that a word of the notation says."""
    shortener = Shortener(text.encode("utf-8", "surrogateescape"))
    shortener.find_words("assume")
    numbers: Dict[object, List[int]] = {}
    for number, poly in enumerate(problem.assumptions, 1):
        numbers.setdefault(either(named(problem, poly)), []).append(number)
    found = []
    for entry in shortener.entries:
        here = sorted(numbers[either(poly)].pop(0) for poly in entry.polys) if entry.kind in ("word", "assume") else []
        word = next((word for word in sorted(SAID, key=len, reverse=True) if f"{entry.text} ".startswith(f"{word} ")), "")
        is_word = entry.kind == "word" and word
        found += [Word(here, word if is_word else "", entry.text[len(word) :].split() if is_word else [])] * bool(here)
    return sorted(found)


def names_of(words: Sequence[Word], sentence: str, problem: Problem) -> Names:
    """The maps that are written as inverses of others: of a map that isn't one itself, where no second map is the same of it."""
    own = {name.strip("[']") for name in problem.names}
    kept = sentences.named_in(sentence, own.__contains__)
    counts: Dict[Tuple[str, str], List[str]] = {}
    for word in words:
        if word.word in INVERSES and len(word.maps) > 1:
            counts.setdefault((word.word, word.maps[0]), []).append(word.maps[1])
    found: Names = {}
    for (kind, base), maps in counts.items():
        if len(maps) == 1 and maps[0] not in kept and maps[0] not in found and base not in found and maps[0] != base:
            found[maps[0]] = f"{letter(base, {})}^{{{INVERSES[kind]}}}"
    bases = {base for (_, base) in counts}
    return {name: text for name, text in found.items() if name not in bases}


# ---- A statement


class StatementWriter:
    """Writes a statement and its proofs."""

    def __init__(self, found: Found, text: str, sentence: str, names: Names, renames: bool) -> None:
        self.found, self.reader, problem = found, found.reader, found.reader.problem
        self.words = words_of(problem, text)
        self.names = {**(names_of(self.words, sentence, problem) if renames else {}), **names}
        letters = [letter(name, self.names) for name in problem.names]
        self.writer = Writer(letters, r" \, ", power if has_powers(problem) else None)

    def inline(self, shown: Equation) -> str:
        """An equation in a line of text, which may break between factors."""
        left, right = (re.sub("^[+] ", "", " ".join(self.writer.terms(side, shown.ends)) or "0") for side in (shown.left, shown.right))
        return f"${left} = {right}$".replace(r" \, ", r" \,\allowbreak ")

    def maps(self) -> str:
        """The maps with their objects, in lines that may break between them."""
        problem = self.reader.problem
        objects = [letter(name[1:-1], self.names) for name in problem.names if name[0] == "["]
        parts = []
        maps = check_model.declared_maps(problem)
        for ends in dict.fromkeys(problem.ends[one] for one in maps):
            names = r", \allowbreak ".join(self.writer.letters[one] for one in maps if problem.ends[one] == ends)
            parts.append(f"${names}\\colon {objects[ends[0]]} \\to {objects[ends[1]]}$")
        return "; ".join(parts)

    def assumptions(self, shown: Sequence[int]) -> Iterator[str]:
        """A list of the assumptions of which one is shown, with their numbers and what they say."""
        lines = []
        for word in self.words:
            if any(number in shown for number in word.numbers):
                equations = [self.inline(self.reader.assumptions[number - 1]) for number in word.numbers]
                said = self.said(word)
                lines.append(rf"\item[{ranges(word.numbers)}] {said}{': ' if said else ''}{', '.join(equations)}")
        yield from [r"\begin{assumptions}", *lines, r"\end{assumptions}"] if lines else []

    def said(self, word: Word) -> str:
        if not word.word:
            return ""
        is_inside = word.word in ("bc",)
        maps = [name if name.isdigit() else letter(name, self.names) for name in word.maps]
        shown = [text if is_inside and place > 1 or text.isdigit() else f"${text}$" for place, text in enumerate(maps)]
        return SAID[word.word].format(*shown, *["", "", "", ""])

    def claims(self) -> Iterator[str]:
        rows, several = [], len(self.reader.claims) > 1
        for number, claim in enumerate(self.reader.claims, 1):
            mark = rf"\text{{\upshape({roman(number)})}} \quad " if several else ""
            left, right = (lines_of(self.writer.terms(side, claim.ends), WIDTH) for side in (claim.left, claim.right))
            rows.append(f"{mark}& " + " \\\\\n  & \\quad ".join([*left[:-1], f"{left[-1]} = {right[0]}", *right[1:]]))
        yield from aligned(rows)

    def given(self) -> Iterator[str]:
        """The maps, the assumptions and the claims."""
        yield rf"\par\smallskip\noindent\upshape Let {self.maps()}."
        numbers = range(1, len(self.reader.assumptions) + 1)
        yield from ["Assume", *self.assumptions(numbers)] if numbers else []
        is_proved = all(piece.command in PROOFS for piece in self.found.pieces)
        yield r"\noindent Then" if is_proved else r"\noindent The claim is" if len(self.reader.claims) == 1 else r"\noindent The claims are"
        yield from self.claims()

    # ---- Proofs

    def proofs(self, is_alone: bool, title: str = "") -> Iterator[str]:
        """A proof of each claim, or what shows that there is none."""
        for number in range(1, len(self.reader.claims) + 1):
            pieces = [piece for piece in self.found.of_claim(number) if piece.command]
            of = f" of {{\\upshape({roman(number)})}}" if len(self.reader.claims) > 1 else ""
            for piece in pieces[:1]:
                yield from self.shown(piece, title + of, not is_alone)
            yield from [] if pieces else [rf"\noindent What holds{of} is undecided.", ""]

    def shown(self, piece: Piece, of: str, lists: bool) -> Iterator[str]:
        """The proof of a claim; it lists the assumptions that are used where the theorem doesn't."""
        report, problem, place = self.found.contents[piece.report + 1], self.reader.problem, piece.block - 1
        lines = Lines(problem)
        if piece.command == "check":
            yield from self.proof(self.reader.proof(Evidence(problem, report).certificates[place]), of, lists)
        elif piece.command in ("cancel", "star"):
            read, items = (cancel.Cancellations, cancel.Items) if piece.command == "cancel" else (star.StarProofs, star.StarItems)
            proof = read(problem, report).proofs[place]
            yield from self.proof(self.reader.cancelled(proof, cancel.judge(lines, proof, "", items)), of, lists)
        elif piece.command in ("model", "rational"):
            models = check_model.Models if piece.command == "model" else check_model.RationalModels
            yield from self.model(models(problem, report).models[place], of)
        else:
            yield from self.basis(confirm.Bases(problem, report).bases[place], of)

    def proof(self, proof: Proof, of: str, lists: bool) -> Iterator[str]:
        numbers = used(self.reader, proof)
        conditions = granted(self.reader, proof, self.letters())
        where = f", where {listed(conditions)}" if conditions else ""
        yield rf"\begin{{proof}}[Proof{of}{where}]"
        if lists and numbers:
            yield from ["Used are", *self.assumptions(numbers)]
        *lemmas, claim = proof.chains
        for place, chain in enumerate(lemmas, 1):
            shown = self.inline(Equation(chain.ends, chain.left, chain.right, []))
            why = reason(chain.cancelled, self.letters(), is_latex=True) if chain.cancelled else ""
            why = re.sub("^by .([0-9]+).(.*)", r", by Lemma \1\2", why)
            yield rf"\par\smallskip\noindent\textbf{{Lemma {place}.}} {shown}{why}."
            yield from [] if chain.cancelled else self.chain(chain)
        if lemmas and len(claim.steps) == 1 and claim.steps[0].row.is_lemma:
            yield rf"This is the claim, by Lemma {claim.steps[0].row.number}."
        else:
            yield from [r"\par\smallskip\noindent The claim:"] * bool(lemmas)
            *lines, last, end = self.chain(claim)
            yield from [*lines, rf"{last} \qedhere", end]
        yield r"\end{proof}"

    def letters(self) -> List[str]:
        return [f"${name}$" for name in self.writer.letters]

    def chain(self, chain: Chain) -> List[str]:
        """The sums of a chain; the first one stands in front of the second where it is short."""
        first, *others = chain_latex.steps(self.reader, self.writer, chain, WIDTH)
        start = " ".join(self.writer.terms(chain.start(), chain.ends))
        if others and width_of(start) <= SHORT:
            start = re.sub("^[+] ", "", start or "0")
            rows = [f"  {start} {others[0].lstrip()}", *others[1:]]
        else:
            rows = [first, *others]
        return aligned(rows)

    def model(self, model: check_model.Model, of: str) -> Iterator[str]:
        """Matrices for the maps, and the values of both sides of the claim."""
        shown, problem = ModelWriter(self.reader, model), self.reader.problem
        over = f"modulo {model.modulus}" if model.modulus else "of rational numbers"
        claim = self.reader.claims[model.claim - 1]
        yield rf"\begin{{proof}}[Counterexample{of}]"
        texts = [f"${self.writer.letters[one]} = {matrix(shown.arrows.matrices[one])}$" for one in check_model.declared_maps(problem)]
        yield rf"With the matrices {over}"
        yield r"\begin{center}" + ",\\quad\n".join(texts) + r"\end{center}"
        sides = [matrix(shown.value(side, claim.ends)) for side in (claim.left, claim.right)]
        yield f"the assumptions are true, and the two sides of the claim are ${sides[0]}$ and ${sides[1]}$."
        yield r"\end{proof}"

    def basis(self, basis: confirm.Basis, of: str) -> Iterator[str]:
        """A closed set of rules, and what it leaves of the claim."""
        order = confirm.Order(self.reader.problem)
        yield rf"\begin{{proof}}[Not derivable{of}]"
        left = self.rule_sum(confirm.terms_of(basis.rest))
        told = "no multiple of the claim is a sum of the assumptions"
        yield rf"A set of {len(basis.rules)} rules that is closed leaves of the left side minus the right side ${left}$, and so {told}."
        rows = []
        for rule in basis.rules if len(basis.rules) <= MOST_RULES else ():
            lead = min(rule, key=order.rank)
            others = [(word, -value) for word, value in confirm.terms_of(rule) if word != lead]
            rows.append(rf"  {self.rule_sum([(lead, rule[lead])])} & \to {self.rule_sum(others)}")
        yield from aligned(rows) if rows else []
        yield r"\end{proof}"

    def rule_sum(self, terms: Sequence[Tuple[str, int]]) -> str:
        texts = []
        for word, value in terms:
            number = [] if abs(value) == 1 else [str(abs(value))]
            factors = self.writer.factors(tuple(confirm.FIRST - ord(one) for one in word))
            texts.append(f"{'-' if value < 0 else '+'} " + r" \, ".join([*number, *factors]))
        return " \\\\\n & \\quad ".join(lines_of(texts, WIDTH // 2)) if texts else "0"


def matrix(rows: check_model.Matrix) -> str:
    inside = r" \\ ".join(" & ".join(map(str, row)) for row in rows)
    return rf"\begin{{pmatrix}} {inside} \end{{pmatrix}}"


def roman(number: int) -> str:
    """A number as claims have it, in small Roman numerals."""
    text = ""
    for value, sign in ((100, "c"), (90, "xc"), (50, "l"), (40, "xl"), (10, "x"), (9, "ix"), (5, "v"), (4, "iv"), (1, "i")):
        text += sign * (number // value)
        number %= value
    return text


def ranges(numbers: Sequence[int]) -> str:
    """Numbers in brackets, several that follow one another as the first and the last."""
    texts: List[str] = []
    for _, run in groupby(enumerate(numbers), key=lambda pair: pair[1] - pair[0]):
        found = [number for _, number in run]
        texts.append(f"({found[0]})" if len(found) == 1 else f"({found[0]})--({found[-1]})")
    return ", ".join(texts)


# ---- Files of the notation


class Cases(NamedTuple):
    """Of a file of the notation the signatures, what is assumed, and the cases that are equivalent, as text with formulas."""

    signatures: List[str]
    assumed: List[str]
    cases: List[str]


def cases_of(text: str) -> Cases:
    """What a file of the notation says, which has cases."""
    lines = [line.split("#")[0].strip() for line in text.split("\n")]
    lines = [line for line in lines if line and not line.startswith("order ")]
    place = lines.index("equivalent:")
    cases = [re.sub(r"^\([ivxl]+\) ", "", line) for line in lines[place + 1 :]]
    parts = [part for line in lines[:place] for part in parts_of(line)]
    signatures = [part for part in parts if SIGNATURE.fullmatch(part)]
    return Cases(list(map(phrase, signatures)), [phrase(part) for part in parts if part not in signatures], list(map(phrases, cases)))


def parts_of(line: str) -> List[str]:
    """What stands between the commas of a line."""
    return re.split(r", (?![^()]*\))", line)


def phrases(line: str) -> str:
    """The parts of a line: signatures, words with their maps, and equations."""
    main, _, given = line.partition(" with ")
    found = listed(list(map(phrase, parts_of(main))))
    return f"{found} where {phrases(given)}" if given else found


def phrase(part: str) -> str:
    """A signature, an equation, or a word with its maps."""
    part = re.sub("^(define|assume) ", "", part)
    signature = SIGNATURE.fullmatch(part)
    if signature:
        names, (source, target) = signature[1].split(), (formula_of(signature[place]) for place in (2, 3))
        return rf"${', '.join(map(formula_of, names))}\colon {source} \to {target}$"
    word = next((word for word in sorted(SAID, key=len, reverse=True) if part.startswith(f"{word} ")), "")
    if not word:
        return f"${formula_of(part)}$"
    maps = [formula_of(one.strip("()")) for one in re.findall(r"\([^()]*\)|\S+", part[len(word) :])]
    if len(maps) > SAID[word].count("{") - 2 * SAID[word].count("{{"):
        return listed([SAID[word].format(f"${one}$") for one in maps])
    return SAID[word].format(*(f"${one}$" for one in maps), *[""] * 4)


def formula_of(text: str) -> str:
    return sentences.formula(sentences.pieces(text, lambda name: True), sentences.plain({}))


# ---- The paper


def made(job: Job, table: str, is_alone: bool) -> Made:
    """What a statement gives for the paper; one that isn't alone in its file is a step between two of its conditions."""
    try:
        with tempfile.TemporaryDirectory(prefix="opprove-") as folder:
            found, missing = found_for(job, Path(folder))
        names = {name: text for name, text in chain_latex.table(table).items() if name in found.reader.problem.numbers}
        writer = StatementWriter(found, job.statement.text, job.fields["THEOREM"], names, is_alone)
        fault = missing or another(found, job.fields["VERDICT"])
        verdicts = [piece.command in PROOFS for piece in found.pieces]
        proofs = list(writer.proofs(is_alone, step_of(job.statement.name)))
        given = writer.given() if is_alone else []
        maps = {name.strip("[']") for name in found.reader.problem.names}
        return Made(maps, list(given), proofs, all(verdicts), fault, NO_VERDICT if missing else REFUSED if fault else DONE)
    except (Refusal, MemoryError) as what:
        fault = str(what) or "# no memory"
        return Made(set(), [], [rf"\noindent\texttt{{{sentences.escaped_text(fault)}}}", ""], False, fault, status_of(fault))


def step_of(name: str) -> str:
    """Which conditions a statement leads from and to, by its name."""
    match = re.search("-([ivxl]+)-([ivxl]+)$", name)
    return rf" that {{\upshape({match[1]})}} gives {{\upshape({match[2]})}}" if match else ""


def theorem(entry: Entry, found: Sequence[Made]) -> Iterator[str]:
    """A theorem and its proofs."""
    kind = "theorem" if all(one.is_proved for one in found) else "statement"
    source = entry.fields["SOURCE"]
    yield ""
    yield rf"\begin{{{kind}}}{f'[{sentences.escaped_text(source)}]' if source else ''}\label{{{entry.path.stem}}}"
    own = {name for one in found for name in one.maps}
    for word, before in (("THEOREM", ""), ("ASSUMES", "Assumed besides: "), ("LEAVES OUT", "Left out: ")):
        said = sentences.in_latex(before + entry.fields[word], sentences.plain({}), own.__contains__) if entry.fields[word] else ""
        yield from [said if said.endswith(".") else f"{said}."] if said else []
    if len(entry.statements) > 1:
        found_cases = cases_of(content(str(entry.path)).decode())
        yield r"\par\smallskip\noindent\upshape"
        for word, parts in (("Let", found_cases.signatures), ("Assume that", found_cases.assumed)):
            yield from [f"{word} {listed(parts)}."] if parts else []
        yield r"Equivalent are"
        yield r"\begin{assumptions}"
        yield from (rf"\item[({roman(number)})] {case}" for number, case in enumerate(found_cases.cases, 1))
        yield r"\end{assumptions}"
    for one in found:
        yield from one.given
    yield rf"\end{{{kind}}}"
    for one in found:
        yield from one.proofs


def paper(title: str, entries: Sequence[Entry], table: str, count: int, seconds: int) -> Tuple[List[str], List[Tuple[int, str]]]:
    """The lines of the paper, and what is wrong with statuses."""
    jobs = jobs_of(entries, seconds)
    alone = [len(entry.statements) == 1 for entry in entries for _ in entry.statements]
    with ProcessPoolExecutor(count) as pool:
        found = list(pool.map(made, jobs, [table] * len(jobs), alone))
    lines = [HEAD, rf"\section*{{{sentences.escaped_text(title)}}}"]
    faults = [(status_of(one.fault), f"{one.path}: {one.fault}") for one in entries if one.fault]
    faults += [(one.status, f"{job.statement.name}: {one.fault}") for job, one in zip(jobs, found) if one.fault]
    for entry in (entry for entry in entries if entry.statements):
        own, found = found[: len(entry.statements)], found[len(entry.statements) :]
        lines += theorem(entry, own)
    return [*lines, r"\end{document}"], faults


def main(words: List[str]) -> int:
    """Writes the paper, and gives the status."""
    asked = parser("chapter", __doc__)
    asked.add_argument("folder", type=Path, metavar="FOLDER", help="a folder of statements")
    asked.add_argument("--title", metavar="TEXT", help="of the paper (the folder's name)")
    asked.add_argument("--names", metavar="FILE", default="", help="how LaTeX has names, a line each, as `x a^{\\dagger}`")
    add_runs(asked)
    given = asked.parse_args(words)
    entries = files_of(given.folder)
    if not entries:
        return NOT_LOADED
    try:
        table = content(given.names).decode() if given.names else ""
        chain_latex.table(table)
    except Refusal as refusal:
        say(str(refusal))
        return status_of(str(refusal))
    folder = given.folder.resolve()
    title = given.title or titles_of(folder.parent).get(folder.name) or title_of(folder.name).capitalize()
    lines, faults = paper(title, entries, table, given.jobs, given.seconds)
    for _, line in faults:
        say(line)
    return max([status for status, _ in faults] + [DONE if written(lines) else NO_OUTPUT])
