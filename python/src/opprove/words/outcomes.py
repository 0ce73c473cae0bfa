"""What why.py tells of the outcomes of claims: what was shown, by what, and what may help, as docs/COMMANDS.md and README have it."""
from __future__ import annotations

import functools
import itertools
import re
import subprocess
from typing import Callable, Dict, Iterator, List, NamedTuple, Optional, Tuple

from opprove.checkers import check_model
from opprove.checkers.check import Line, Problem
from opprove.program import files, path
from opprove.text import sections
from opprove.translations import chain
from opprove.words.calls import COMMANDS, Call, typed
from opprove.words.evidence import Text, matrices
from opprove.words.parts import Quote, Rule, Told, counted, few, is_are, listed
from opprove.words.statement import Statement

SMALL_OBJECTS, SMALL_MAPS, SEARCH_SECONDS = 4, 10, 3  # of statements for which matrices are looked for at once
SHAPES = ((1, (2, 3, 5, 7)), (2, (2, 3)))  # sides, and moduli for them
MODULI_TRIED = "2, 3, 5 and 7"
SHORT_LINES, LONG_ROWS = 14, 500  # of chains that are shown whole, and of certificates whose chain isn't made


class Outcome(NamedTuple):
    """What a report says of a claim."""

    claim: int
    kind: str
    rest: str
    block: Tuple[str, ...]

    def number(self, word: str) -> int:
        return int(re.search(rf"\b{word} ([0-9]+)", self.rest).group(1))  # type: ignore[union-attr]


def outcomes(report: str) -> List[Outcome]:
    """What a report says of its claims."""
    return [Outcome(head.claim, head.verdict, head.detail, tuple(filter(None, text.split("\n")))) for head, text in sections(report)]


class Asked(NamedTuple):
    """What is asked for: a call, and its statement; bench has none."""

    call: Call
    statement: Optional[Statement]
    is_waited_for: bool = False  # whether somebody at a terminal waits, for whom some seconds of search pay

    def problem(self) -> Optional[Problem]:
        return self.statement.problem if self.statement else None

    def quote(self, claim: int) -> Optional[Quote]:
        """The line of a claim."""
        lines = [line for line in self.statement.lines if line.tokens[0].text == "claim"] if self.statement else []
        return self.statement.quote(lines[claim - 1].tokens[0].line) if self.statement and claim <= len(lines) else None


# ---- proved


def sources(problem: Problem) -> List[Tuple[int, str]]:
    """For each generator the line of the statement that it stems from, and what it is of that line; 0 for a relation of identities."""
    reader = chain.Reader(problem)
    found = [(reader.assumptions[number - 1].line[0].line, "adjoint" * is_adjoint) for number, is_adjoint in reader.sources]
    return found + [(0, "")] * (len(problem.generators()) - len(found))


def used_generators(block: Tuple[str, ...]) -> List[int]:
    rows = [re.match(r"row \S+ \([^()]*\) ([0-9]+) \(", line) for line in block]
    return sorted({int(row.group(1)) for row in rows if row})


def proved(asked: Asked, outcome: Outcome) -> Told:
    denominator, rows = outcome.number("denominator"), outcome.number("rows")
    told = f"claim {outcome.claim} is proved, by a certificate of {counted(rows, 'row')}: it is zero wherever the generators are"
    more = []
    if denominator != 1:
        more.append(f"The denominator is {denominator}: it has to cancel, which says that {denominator} m = 0 for m = 0 only.")
        more.append(f"Modulo a divisor of {denominator} other than 1 it does not.")
    problem = asked.problem()
    if problem and asked.statement and outcome.block:
        more += chain_shown(asked, problem, outcome) or assumptions(problem, used_generators(outcome.block))
    return Told(told + (" and the denominator cancels" if denominator != 1 else ""), asked.quote(outcome.claim), tuple(more))


def chain_shown(asked: Asked, problem: Problem, outcome: Outcome) -> List[str]:
    """The proof as a chain where it is short; of a long one the assumptions that it uses, its steps, and the call that prints it."""
    if outcome.number("rows") > LONG_ROWS:
        return []
    reader = chain.Reader(problem)
    proof = chain.proofs_of(reader, ("\n".join(outcome.block) + "\n").encode("utf-8", "surrogateescape"))[0]
    lines = [line for line in chain.text(reader, proof) if line][1:]
    if len(lines) <= SHORT_LINES:
        return ["  " + "\n  ".join(lines)]
    steps = sum(len(part.steps) for part in proof.chains)
    head = [line for line in itertools.takewhile(lambda line: not line.startswith(("Proof", "Lemma")), lines)]
    report = f"`{typed(['prove', *asked.call.operands])} >report`"
    told = f"The chain has {counted(steps, 'step')}; after {report} it is printed by"
    return ["  " + "\n  ".join(head), told, f"  {typed(['chain', *asked.call.operands, 'report'])}"]


def assumptions(problem: Problem, used: List[int]) -> List[str]:
    """Which lines of the statement the rows name, and which they don't."""
    origin = sources(problem)
    lines = sorted({line for line, _ in origin if line})
    named = {origin[number - 1][0] for number in used if number <= len(origin)}
    adjoints = sorted({origin[number - 1][0] for number in used if origin[number - 1][1]})
    if not lines:
        return []
    inside, outside = [str(it) for it in lines if it in named], [str(it) for it in lines if it not in named]
    told = f"Used are the assumptions of {on_lines(inside)}" if inside else "No assumption is used"
    told += f" (of {few([str(it) for it in adjoints], 12)} the adjoint too)" if adjoints else ""
    told += ", and relations of identities" if 0 in named else ""
    return [f"{told}; not those of {on_lines(outside)}." if outside and inside else f"{told}."]


def on_lines(numbers: List[str]) -> str:
    return f"line{'s' if len(numbers) > 1 else ''} {few(numbers, 12)}"


# ---- refuted


def refuted(asked: Asked, outcome: Outcome) -> Told:
    modulus = next((line.split()[1] for line in outcome.block if line.startswith("modulus ")), "")
    told = f"claim {outcome.claim} is refuted: these matrices modulo {modulus}, with transposes for adjoints, make all assumptions zero"
    rational = ["Of complex matrices this says nothing. Rational ones that break it are looked for by"]
    rational.append(f"  {typed(['search', *asked.call.operands[:1], '--over', 'q'])}")
    return Told(told + ", and the claim not", asked.quote(outcome.claim), (*shown_model(asked, outcome), *rational))


def shown_model(asked: Asked, outcome: Outcome) -> Iterator[str]:
    """The matrices, and the values of both sides of the claim."""
    shown = [(line.split()[1], rows_of(line)) for line in outcome.block if line.startswith("map ")]
    yield matrices(shown)
    problem = asked.problem()
    if problem is None:
        return
    tokens = [line.tokens for line in problem.lines if line.tokens[0].text == "claim"][outcome.claim - 1]
    (model,) = check_model.Models(problem, "\n".join([*outcome.block, ""]).encode(errors="surrogateescape")).models
    arrows = check_model.Arrows(problem, model)
    equals = next(place for place, token in enumerate(tokens) if token.kind == "=")
    text = asked.statement.texts[tokens[0].line - 1] if asked.statement else ""
    source = [text[tokens[1].column - 1 : tokens[equals].column - 1], text[tokens[equals + 1].column - 1 : tokens[-1].column - 1]]
    sides = [side for _, side in Line(tokens, problem).sides()]
    columns, rows = (len(arrows.matrices[end]) for end in next(signature for signature, _ in sides if signature))
    values = [arrows.total(poly) or [[0] * columns for _ in range(rows)] for _, poly in sides]
    yield "The sides of the claim are then"
    yield matrices([(" ".join(it.split()), value) for it, value in zip(source, values)])


def rows_of(line: str) -> check_model.Matrix:
    return [[int(number) for number in row.split()] for row in line.split("=")[1].split(";")]


def not_refuted(asked: Asked, outcome: Outcome) -> Told:
    tried = counted(outcome.number("candidates"), "candidate")
    told = f"claim {outcome.claim} is not refuted: none of {tried} makes all assumptions zero and the claim not; this says nothing of it"
    shapes = "Other shapes may: a line such as `model 3"
    objects = asked.statement.named("object") if asked.statement else []
    shapes += "".join(f" {name} 2" for name in objects[:3]) + "` in the file names one"
    seed = int(asked.call.options.get("--seed", "1")) + 1
    draws = "and where a shape has too many candidates to try them all, so may other draws:"
    return Told(told, asked.quote(outcome.claim), (f"{shapes}; {draws}", f"  {asked.call.with_option('--seed', str(seed))}"))


# ---- not derivable


def not_derivable(asked: Asked, outcome: Outcome) -> Told:
    told = f"claim {outcome.claim} is not derivable: no positive multiple of it is a sum of rows over the generators, whatever their words"
    problem = asked.problem()
    others = "involutions for which r' r = 0 gives r = 0" if problem and problem.is_starred else "star representations"
    more = [f"This says nothing of matrices of finite size, nor of {others}: the claim may hold in all of these all the same."]
    if problem and asked.call.command == "prove":
        missing = ["that a map has an inverse on one side (`assume x a = [V]`), where one is to cancel it"]
        if not problem.is_starred:
            without = "the file has no ', `self`, `pinv` or `projection`, so no assumption has its adjoint among the generators"
            missing.append(f"a law of adjoints: {without}")
        else:
            missing.append("positivity, which the language doesn't have: a' a = 0 does not give a = 0")
        more.append(f"What may be missing: {'; or '.join(missing)}.")
        more += searched(asked, outcome, problem) + beyond_rows(asked, problem)
    return Told(told, asked.quote(outcome.claim), tuple(more))


def beyond_rows(asked: Asked, problem: Problem) -> List[str]:
    """The calls that look for proofs which are no sums of rows."""
    search = ["search", *asked.call.operands]
    lines = ["Which maps have to be monic or epic for it to follow, as it may once they are cancelled, is looked for by", f"  {typed(search)}"]
    if problem.is_starred:
        lines += ["and proofs by `r' r = 0 gives r = 0`, which holds for complex matrices, by", f"  {typed([*search, '--complex'])}"]
    return lines


def searched(asked: Asked, outcome: Outcome, problem: Problem) -> List[str]:
    """What a search for matrices of some seconds found, where the statement is small and on a terminal; else its call."""
    call, objects = ["refute", *asked.call.operands], asked.statement.named("object") if asked.statement else []
    maps = asked.statement.named("map") if asked.statement else []
    if not asked.is_waited_for or len(objects) > SMALL_OBJECTS or len(maps) > SMALL_MAPS:
        return ["Matrices that break it are looked for by", f"  {typed(call)}"]
    shapes = [f"model {modulus}{''.join(f' {name} {side}' for name in objects)}" for side, moduli in SHAPES for modulus in moduli]
    text = asked.statement.data.decode(errors="surrogateescape") if asked.statement else ""
    own = "" if re.search(r"^[ \t]*solve\b", text, re.MULTILINE) or not maps else f"\nsolve {' '.join(maps)}"
    with files(text + own + "".join(f"\n{shape}" for shape in shapes) + "\n") as paths:
        try:
            done = subprocess.run([path(), "refute", *paths], stdin=subprocess.DEVNULL, capture_output=True, timeout=SEARCH_SECONDS)
        except (OSError, subprocess.TimeoutExpired):
            return [f"A search for matrices that break it hadn't ended after {SEARCH_SECONDS} seconds.", f"  {typed(call)}"]
    if done.returncode not in (11, 13):
        return ["Matrices that break it are looked for by", f"  {typed(call)}"]
    found = [it for it in outcomes(done.stdout.decode(errors="surrogateescape")) if it.claim == outcome.claim]
    if found[0].kind != "refuted":
        tried = counted(found[0].number("candidates"), "candidate")
        told = f"A search for matrices found none that break it: {tried} of {len(shapes)} shapes, modulo {MODULI_TRIED},"
        return [f"{told} none larger than 2 by 2."]
    model = next(line.split()[1] for line in found[0].block if line.startswith("modulus "))
    sides = " ".join(" ".join(line.split()[1:]) for line in found[0].block if line.startswith("side "))
    head = f"A search for matrices found some that break it all the same, modulo {model}, with transposes for adjoints:"
    lines = f"With the line `model {model} {sides}` in the file{own and ', and `' + own[1:] + '`,'} they are printed as evidence by"
    return [head, *shown_model(asked, found[0]), lines, f"  {typed(call)}"]


# ---- undecided


def undecided(asked: Asked, outcome: Outcome) -> Told:
    cause = outcome.rest.strip()
    told = f"claim {outcome.claim} is undecided: {stopped(cause)}"
    more = []
    least = re.search(" least (.*)$", cause)
    if least:
        below = f"in which all words are below {least.group(1)}"
        more.append(f"No positive multiple of the claim is a sum of rows over the generators {below}.")
    if " at certificate after round " in cause:
        more.append("Some positive multiple of the claim is a sum of rows over the generators.")
    if "--no-models" not in asked.call.options and asked.call.command == "prove":
        shapes = "A line `model MODULUS OBJECT SIDE ..` in the file names other shapes"
        more.append(f"None of the candidates for a model breaks the claim. {shapes}; --no-models leaves this search out, which is faster.")
    return Told(told, asked.quote(outcome.claim), tuple(more + helps(asked, cause)))


CAUSES: List[Tuple[str, str]] = [
    (r"pairs ([0-9]+)", "as many overlaps and inclusions of leading words are treated as --pairs says, {0}, and some are left"),
    (r"steps ([0-9]+)", "a reduction has made as many steps as --steps says, {0}, and a word can still be reduced"),
    (r"size letters ([0-9]+)", "a word has more than {0} letters"),
    (r"size terms ([0-9]+)", "a polynomial has more than {0} terms"),
    (r"rows letters ([0-9]+)", "the certificate would have more than {0} letters in all its words"),
    (r"rows ([0-9]+)", "the certificate would have more than {0} rows"),
    (r"overflow (-?[0-9]+ (?:times|plus) -?[0-9]+)", "the coefficient {0} leaves ±(2^127 - 1)"),
]
PLACES = {
    " at round ": "in round {0}, which is given up", " at claim after round ": "in the reduction of the claim after round {0}",
    " at certificate after round ": "in its certificate after round {0}",
}  # fmt: skip


def stopped(cause: str) -> str:
    match, text = next((found, text) for pattern, text in CAUSES for found in [re.match(pattern, cause)] if found)
    told = text.format(match.group(1))
    for place, where in PLACES.items():
        at = re.search(place + "([0-9]+)", cause)
        if at:
            told += "; that was " + where.format(at.group(1))
    return told


def helps(asked: Asked, cause: str) -> List[str]:
    """What may help, with the command to type."""
    if asked.call.command != "prove":
        return []
    kind, call = cause.split()[0], asked.call
    lines = []
    if kind in ("pairs", "steps"):
        now = int(cause.split()[1])
        if now < 1000000:
            lines.append(f"  {call.with_option('--' + kind, str(min(now * 10, 1000000)))}")
    if kind == "rows" and call.options.get("--format") == "1":
        lines.append(f"  {call.with_option('--format', '2')}")
    told = ["More may do:" if kind in ("pairs", "steps") else "Lemmas make a certificate shorter:"] + lines if lines else []
    if kind != "rows":
        told.append(
            "Another order may do, since it makes other words leading: `order weight NAME N ..` in the file gives maps a weight, "
            "and `eliminate NAME ..`, where its first line is `language 2`, puts maps that others define above all others."
        )
    told += ["Fewer assumptions, other orders, lemmas and larger budgets are tried, for a minute, by"]
    return [*told, f"  {typed(['search', call.operands[0], '--seconds', '60'])}"]


# ---- All claims

KINDS: Dict[str, Callable[[Asked, Outcome], Told]] = {
    "undecided": undecided, "refuted": refuted, "not derivable": not_derivable, "not refuted": not_refuted, "proved": proved,
}  # fmt: skip


def told_of(asked: Asked, report: str, briefly: bool = False) -> List[Told]:
    """Of each kind of outcome the first claim, or briefly its outcome alone, and the numbers of the others."""
    found, told = outcomes(report), []
    for kind, tell in KINDS.items():
        of_kind = [outcome for outcome in found if outcome.kind == kind]
        for first in of_kind[:1]:
            told.append(Rule(f"claim {first.claim} is {kind}", functools.partial(tell, asked)).told(first, None, briefly))
        numbers = [str(outcome.claim) for outcome in of_kind[1:]]
        if numbers:
            told.append(Told(f"{'Claims' if len(numbers) > 1 else 'Claim'} {few(numbers, 12)} {is_are(len(numbers))} {kind} too."))
    return told


JUDGED = [(command.reads, command.judged) for command in COMMANDS.values() if command.judged]
BLOCK = re.compile(
    f"^# block [0-9]+ ({'|'.join(sorted({judged.word for _, judged in JUDGED}))})"
    " claim ([0-9]+)(?: denominator ([0-9]+))?( sharp)?", re.MULTILINE,
)  # fmt: skip


def told_of_blocks(text: Text, report: str) -> List[Told]:
    """What the lines on blocks that pass say."""
    found = BLOCK.findall(report)
    judged = next((it for kind, it in JUDGED if found and (kind, it.word) == (text.kind, found[0][0])), None)
    if not judged:
        return []
    scales = sorted({int(scale) for _, _, scale, _ in found if scale not in ("", "1")})
    said = {
        "claims": claims([claim for _, claim, _, _ in found]), "count": len(found), "sharp": sum(it != "" for _, _, _, it in found),
        "cancels": " and its denominator cancels" if scales else "", "besides": ", its denominator cancels" if scales else "",
    }  # fmt: skip
    told = f"{len(found):,} {judged.nouns[len(found) != 1]} {judged.told}".format(**said)
    return [Told(told, None, (*(it.format(**said) for it in judged.more), *denominators(scales)))]


def denominators(scales: List[int]) -> Tuple[str, ...]:
    names = [str(it) for it in scales]
    return (f"A denominator D other than 1 ({listed(names)}) has to cancel: D m = 0 for m = 0 only.",) if scales else ()


def claims(numbers: List[str]) -> str:
    known = sorted(set(numbers), key=int)
    return f"claim{'s' if len(known) > 1 else ''} {few(known, 12)}"
