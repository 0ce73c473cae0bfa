"""What why.py tells of evidence that is refused: the codes K1 to K7, C1 to C11, E1 to E4, M1 to M6, B1 to B7 and X1 to X4, in one
table, with functions for those that take more than a sentence."""
from __future__ import annotations

import functools
import re
from typing import Iterator, List, NamedTuple, Optional, Tuple

from opprove.checkers import cancel, check_model, confirm
from opprove.checkers.chain_text import BOUNDS, Lines
from opprove.checkers.check import Evidence, Poly, Problem, add, greatness, is_letter, sum_text
from opprove.checkers.confirm import is_number
from opprove.words import calls
from opprove.words.parts import LIMIT_OF_NUMBERS, Quote, Rule, Told, article, counted, did_you_mean, few, listed, short
from opprove.words.statement import Statement

OTHER_ORDER = "`opprove chain` finds an order of rows in which the sums stay short"
HAS_LEMMAS = "explain takes certificates without lemmas, which prove writes with --format 1; `opprove chain` reads both formats"
HOLDS = " holds in this model: both of its sides have one value"
LARGE_STEP = " has a word of more than 500 letters, or the line after it has more than 20,000 terms"
LARGE_LEMMA = " has more than 20,000 terms, or a word of more than 500 letters"
LARGE_LEMMAS = "the polynomials of the lemmas so far have more than 1,000,000 terms"
LARGE = 400000  # bytes: sums of larger evidence are not made again
ITEMS = ("lemma", "cancel")  # the words that items of a block begin with
ROW, LEMMA_ROW = "`row C (LETTERS) G (LETTERS)`", "`row C (LETTERS) lemma K (LETTERS)`"


# The blocks that a command reads, and those that are skipped then.
READS = {name: command.reads for name, command in calls.COMMANDS.items() if command.reads}
OTHERS = {
    "certificate": ("model", "basis"), "model": ("certificate", "basis"), "basis": ("certificate", "model", "cancellation"),
    "cancellation": ("certificate", "model", "basis"),
}  # fmt: skip


class Entry(NamedTuple):
    """A line of evidence that isn't skipped."""

    line: int
    words: List[str]
    block: int  # of the kind that is read, from 1; 0 in a skipped one
    begins: int  # the line in which the block begins
    may: Tuple[str, ...]  # the lines that may stand here


class Text:
    """An evidence text: its lines, and for each what may stand at its place."""

    def __init__(self, path: str, data: bytes, kind: str) -> None:
        self.path, self.data, self.kind = path, data, kind
        self.texts = re.split("\r?\n", data.decode(errors="surrogateescape"))

    @functools.cached_property
    def entries(self) -> List[Entry]:
        return list(self.read())

    def read(self) -> Iterator[Entry]:
        others = OTHERS[self.kind]
        blocks = begins = lemmas = 0
        may, is_second, is_goal, is_skipped = self.first(), False, False, False
        for line, text in enumerate(self.texts, 1):
            words = re.findall(r"[();=]|[^ \t();=]+", text)
            if not words or words[0][0] == "#":
                continue
            if not begins:
                begins, is_skipped, lemmas, is_goal = line, words[0] in others, 0, False
                blocks, is_second = blocks + (not is_skipped), words[1:] == ["2"] or self.kind == "cancellation"
            yield Entry(line, words, 0 if is_skipped else blocks, begins, () if is_skipped else may)
            lemmas, is_goal = lemmas + (words[0] in ITEMS), is_goal or words[0] == "goal"
            begins = 0 if words[0] == "end" else begins
            may = self.after(words[0], is_second, is_goal, lemmas)

    def first(self) -> Tuple[str, ...]:
        return ("`certificate 1`", "`certificate 2`") if self.kind == "certificate" else (f"`{self.kind} 1`",)

    def after(self, word: str, is_second: bool, is_goal: bool, lemmas: int) -> Tuple[str, ...]:
        if self.kind == "model":
            within: Tuple[str, ...] = ("`side NAME S`", "`map NAME = X .. ; X ..`", "`end`")
            return {"model": ("`claim N`",), "claim": ("`modulus M`",), "end": self.first()}.get(word, within)
        if self.kind == "basis":
            within = ("`rule POLYNOMIAL`", "`rest POLYNOMIAL`")
            return {"basis": ("`claim N`",), "rest": ("`end`",), "end": self.first()}.get(word, within)
        is_cancelled = self.kind == "cancellation"
        cancels = tuple(f"`cancel {lemmas + 1} LETTER {side} J`" for side in ("left", "right") if is_cancelled)
        more = ("`end`",) if is_goal or not is_second else (f"`lemma {lemmas + 1} scale S`", *cancels, "`goal scale S`")
        declared = ("`monic LETTER`", "`epic LETTER`") if is_cancelled and word in ("denominator", "monic", "epic") else ()
        rows = declared if word in ("denominator", "monic", "epic", "cancel") and is_second else (ROW, LEMMA_ROW) if is_second else (ROW,)
        return {self.kind: ("`claim N`",), "claim": ("`denominator D`",), "end": self.first()}.get(word, rows + more)

    def quote(self, line: int, place: int = -1) -> Optional[Quote]:
        """The line, with a caret under the token at this place where there is one."""
        if not 1 <= line <= len(self.texts):
            return None
        text = self.texts[line - 1]
        starts = [match.start() + 1 for match in re.finditer(r"[();=]|[^ \t();=]+", text)]
        return Quote(self.path, line, text, starts[place] if 0 <= place < len(starts) else 0)

    def of_block(self, block: int, word: str = "") -> List[Entry]:
        """The lines of a block, or those of them that begin with a word."""
        return [entry for entry in self.entries if entry.block == block and (not word or entry.words[0] == word)]

    def items_of(self, block: int) -> List[Entry]:
        """The lines of its lemmas and, where letters are taken off, of these items."""
        return [entry for entry in self.of_block(block) if entry.words[0] in ITEMS]


class Fault(NamedTuple):
    """A fault of evidence, or a block that is refused."""

    statement: Statement
    text: Text
    line: int  # of a fault; 0 for none
    block: int  # that is refused; 0 for none
    rest: str  # of the program's line, behind the place

    def entry(self) -> Entry:
        return next(entry for entry in self.text.entries if entry.line == self.line)

    def problem(self) -> Problem:
        if self.statement.problem is None:
            raise LookupError
        return self.statement.problem

    def found(self, pattern: str) -> Tuple[str, ...]:
        """The groups of a pattern that the program's line has."""
        return re.search(pattern, self.rest).groups()  # type: ignore[union-attr]

    def number(self, word: str) -> int:
        """The number after a word of the program's line."""
        return int(self.found(rf"\b{word} (-?[0-9]+)")[0])

    def operation(self) -> str:
        return self.found("(-?[0-9]+ (?:times|plus) -?[0-9]+)")[0]

    def first(self, *words: str) -> Entry:
        """The first line of the block that begins with the first of these words for which there is one, or its first line."""
        return next(entry for word in words or ("",) for entry in self.text.of_block(self.block, word))

    def row(self) -> Entry:
        return self.text.of_block(self.block, "row")[self.number("row") - 1]

    def item(self, word: str) -> Entry:
        """The line of the lemma or the item whose number stands after the word, or that of the goal for 0."""
        number = self.number(word)
        return self.text.items_of(self.block)[number - 1] if number else self.first("goal")

    def of_row(self, sentence: str) -> Told:
        """A sentence on the row that is named, in which its number stands for `{row}`."""
        return self.told(sentence.format(row=self.number("row")), self.row())

    def told(self, sentence: str, entry: Entry, place: int = -1, more: Tuple[str, ...] = ()) -> Told:
        return Told(sentence, self.text.quote(entry.line, place), more)


# ---- K1 to K7: the text


def utf8(fault: Fault) -> Told:
    text = fault.text
    place = next(line for line, it in enumerate(text.texts, 1) if re.search("[\udc80-\udcff]", it))
    column = re.search("[\udc80-\udcff]", text.texts[place - 1]).start() + 1  # type: ignore[union-attr]
    quote = Quote(text.path, place, text.texts[place - 1], column)
    return Told("evidence is UTF-8, and here stands a byte that begins no character of it", quote)


def grammar(fault: Fault) -> Told:
    entry = fault.entry()
    forms = [form for form in entry.may if form.strip("`").split()[0] == entry.words[0]]
    if not forms:
        skipped = "; blocks of other kinds are skipped" if entry.begins == entry.line else ""
        if entry.begins == entry.line and entry.words[0] == "cancellation":
            skipped = "; `./opprove cancel` reads proofs of this kind"
        return fault.told(f"here may stand {listed(entry.may, 'or')}, and not this line{skipped}", entry)
    place, more = detail(fault, entry)
    return fault.told(f"this line has not the form {listed(forms, 'or')}{more}", entry, place)


def detail(fault: Fault, entry: Entry) -> Tuple[int, str]:
    """The place of a token that doesn't fit, and what is said of it."""
    words = entry.words
    if words[0] == "row":
        for place in letters_of(words):
            if not is_letter(words[place]):
                return place, f": `{short(words[place], 30)}` is no letter, which is a name, [NAME], or one of them with ' after it"
    if words[0] in ("rule", "rest"):
        return polynomial_detail(fault, words)
    if words[0] in ("monic", "epic", "cancel"):
        return letter_detail(fault, entry)
    if words[0] in ("side", "map"):
        earlier = [it.line for it in fault.text.of_block(entry.block) if it.words[:2] == words[:2] and it.line < entry.line]
        if earlier:
            return 1, f": '{words[1]}' has a line already, line {earlier[0]}"
        lengths = [len(row.split()) for row in " ".join(words[3:]).split(";")]
        if len(set(lengths)) > 1:
            return -1, f": its rows have {few([str(length) for length in lengths])} numbers, and have to be of one length"
    if words[0] == "modulus" and len(words) == 2 and words[1].isdigit():
        return 1, ": a modulus is 2 at least"
    if words[0] == "side" and words[2:] == ["0"]:
        return 2, ": a side is 1 at least"
    return -1, ""


def letter_detail(fault: Fault, entry: Entry) -> Tuple[int, str]:
    """A letter that isn't one of a map, or that has such a line already."""
    words, place = entry.words, letter_place(entry.words)
    if len(words) > place and (words[place][0] == "[" or not is_letter(words[place])):
        return place, f": `{short(words[place], 30)}` is no map or adjoint, which is a name, or one with ' after it"
    numbers = fault.problem().numbers if words[0] != "cancel" else {}
    letter = numbers.get(words[place]) if len(words) == 2 else None
    earlier = [it.line for it in fault.text.of_block(entry.block, words[0]) if it.line < entry.line and numbers.get(it.words[-1]) == letter]
    return (1, f": '{words[1]}' has a line `{words[0]}` already, line {earlier[0]}") if letter is not None and earlier else (-1, "")


def letter_place(words: List[str]) -> int:
    """Where the letter stands in a line on one alone."""
    return 2 if words[0] == "cancel" else 1


def polynomial_detail(fault: Fault, words: List[str]) -> Tuple[int, str]:
    """The first token of a polynomial that doesn't fit, or the first term that isn't smaller than the one before it."""
    begins, before = 1 + (words[1:2] == ["-"]), None
    for place in range(begins, len(words) + 1):
        if place < len(words) and words[place] not in ("+", "-"):
            if not is_number(words[place]) and not confirm.is_written(words[place]):
                return place, f": `{short(words[place], 30)}` is no letter as it is written, which is a name, a name with ' after it, or [NAME]"
            if is_number(words[place]) and (place > begins or words[place].lstrip("0") in ("", "1")):
                return place, f": `{short(words[place], 30)}` stands here, and a number is above 1, in front of its letters alone"
            continue
        names = words[begins + is_number(words[begins]) : place] if begins < place else []
        if not names:
            return min(begins, len(words) - 1), ": a term has one or more letters"
        problem = fault.statement.problem
        if problem and all(name in problem.numbers for name in names):
            numbers = [problem.numbers[name] for name in names]
            other = next((at for at, name in enumerate(names) if problem.names[numbers[at]] != name), -1)
            if other >= 0:
                return place - len(names) + other, f": this letter is written `{problem.names[numbers[other]]}`"
            if before and (len(names), numbers) >= before:
                return begins, ": the words of a polynomial descend, and this one isn't smaller than the one before it"
            before = (len(names), numbers)
        begins = place + 1
    return -1, ""


def letters_of(words: List[str]) -> List[int]:
    """The places of letters in a polynomial, and elsewhere of what stands between brackets."""
    if words[0] in ("rule", "rest"):
        return [place for place, word in enumerate(words) if place and word not in ("+", "-") and not is_number(word)]
    depth, places = 0, []
    for place, word in enumerate(words):
        depth += {"(": 1, ")": -1}.get(word, 0)
        places += [place] if depth and word != "(" else []
    return places


def undeclared(fault: Fault) -> Told:
    entry, declared = fault.entry(), fault.statement.declared
    for place in letters_of(entry.words) if entry.words[0] in ("row", "rule", "rest") else [letter_place(entry.words)]:
        letter = entry.words[place]
        kind = "object" if letter[0] == "[" or entry.words[0] == "side" else "map"
        name = letter.rstrip("'").strip("[]")
        if name not in declared:
            return fault.told(f"'{name}' is not declared in the statement{did_you_mean(name, fault.statement.named(kind))}", entry, place)
        other = declared[name]
        if other.kind != kind:
            told = f"{article(kind)} has to stand here, and '{name}' is {article(other.kind)} by line {other.token.line} of the statement"
            return fault.told(told, entry, place)
    raise LookupError


def bound(fault: Fault) -> Told:
    entry = fault.entry()
    words = entry.words
    if words[0] == "map":
        modulus = int(fault.text.of_block(entry.block, "modulus")[0].words[1])
        place = next(place for place, word in enumerate(words) if place > 2 and word.isdigit() and int(word) >= modulus)
        told = f"the numbers of a matrix are below the modulus {modulus}, and here stands {short(words[place], 40)}"
        return fault.told(told, entry, place)
    places = [place for place, word in enumerate(words) if re.fullmatch("-?[0-9]+", word)]
    bounds = BOUNDS.get(words[0]) or [2**31 - 1 if words[0] == "modulus" else LIMIT_OF_NUMBERS] * len(places)
    place, most = next((place, most) for place, most in zip(places, bounds) if abs(int(words[place])) > most)
    size = f"this number is at most {'2^127 - 1' if most > 2**32 else f'{most:,}'}"
    return fault.told(f"{size}, and {short(words[place], 60)} stands here", entry, place)


def limit(fault: Fault) -> Told:
    entry, most = fault.entry(), fault.number("limit")
    if entry.words[0] in ("rule", "rest"):
        return polynomial_limit(fault, entry, most)
    if most == 500:
        longest = max(len(word.split()) for word in re.findall(r"\( ([^()]*)\)", " ".join(entry.words)))
        return fault.told(f"a word has at most 500 letters, and one of this row has {longest}", entry)
    if most == 64:
        return fault.told("sides, and the rows and columns of a matrix, are at most 64", entry)
    if most == 100:
        nouns = "bases" if fault.text.kind == "basis" else f"{fault.text.kind}s"
        return fault.told(f"a text has at most 100 {nouns}, and here begins the 101st", entry)
    counted_items = "items" if fault.text.kind == "cancellation" else "lemmas"
    what = "letters in the words of its rows" if most == 1000000 else counted_items if entry.words[0] in ITEMS else "rows"
    return fault.told(f"a block has at most {most:,} {what}, and with this line it has more", entry)


def polynomial_limit(fault: Fault, entry: Entry, most: int) -> Told:
    terms = [len(term.split()) for term in re.split(r" [+-](?= )", " ".join(entry.words[1:]))]
    if most == 500:
        return fault.told(f"a word has at most 500 letters, and one of this polynomial has {max(terms)}", entry)
    if most == 20000:
        return fault.told(f"a polynomial has at most 20,000 terms, and this one has {len(terms):,}", entry)
    return fault.told(f"a basis has at most {most:,} rules, and with this line it has more", entry)


def unended(fault: Fault) -> Told:
    line = fault.text.quote(fault.text.entries[-1].begins)
    return Told("the text ends inside the block that begins here: the line `end` after it is missing", line)


def none_there(fault: Fault) -> Told:
    kinds = [entry.words[0] for entry in fault.text.entries if entry.line == entry.begins]
    found = [counted(kinds.count(kind), f"`{kind}` block") for kind in (*OTHERS,) if kind in kinds]
    other = next((command for command, kind in READS.items() if kinds[:1] == [kind] and kind != fault.text.kind), "")
    more = f", which `./opprove {other}` reads" if other else ""
    size = "it is empty" if not fault.text.data.strip() else "it has no block"
    return Told(f"there is no {fault.text.kind} in {fault.text.path}: {'it has ' + few(found) if found else size}{more}")


# ---- C1 to C11: certificates


def shown(problem: Problem, poly: Poly, least: Tuple[int, ...] = (), most: int = 5) -> str:
    """A polynomial from the greatest word down; of a long one some terms, the one of the word among them."""
    words = sorted(poly, key=greatness, reverse=True)
    kept = words if len(words) <= most else words[: most - 1] + [word for word in words[most - 1 :] if word == least]
    text = sum_text((short(problem.text(word), 50), poly[word]) for word in kept)
    left_out = f" and {len(words) - len(kept)} more terms" if len(kept) < len(words) else ""
    return re.sub("^- ", "-", text) + left_out


def letters(problem: Problem, text: str) -> Tuple[int, ...]:
    return tuple(problem.numbers[letter] for letter in text.split())


def claim_number(fault: Fault) -> Told:
    entry, claims = fault.first("claim"), len(fault.problem().claims)
    return fault.told(f"the {fault.text.kind} names claim {entry.words[1]}, and the statement has {counted(claims, 'claim')}", entry, 1)


def generator(fault: Fault) -> Told:
    row = fault.row()
    place = row.words.index(")") + 1
    there = counted(len(fault.problem().generators()), "generator")
    return fault.told(f"row {fault.number('row')} names generator {row.words[place]}, and the statement has {there}", row, place)


def zero_scale(fault: Fault) -> Told:
    entries = [it for it in fault.text.of_block(fault.block) if it.words[0] in ("denominator", "lemma", "goal")]
    entry = next(it for it in entries if int(it.words[-1]) == 0)
    return fault.told("the denominator and all scales are 1 at least", entry, len(entry.words) - 1)


def overflow(fault: Fault) -> Told:
    row = fault.number("row")
    entry = fault.row() if row else fault.first("goal", "denominator")
    where = f"at row {row}" if row else "where the claim is multiplied by the denominator"
    return fault.told(f"{where} {fault.operation()} leaves ±(2^127 - 1); `opprove second-check` has no such limit", entry)


def sum_differs(fault: Fault) -> Told:
    word, want, got = fault.found("word (.*) want (-?[0-9]+) got (-?[0-9]+)")
    entry, scale = fault.first("claim"), int(fault.first("goal", "denominator").words[-1])
    times = "the claim" if scale == 1 else f"{scale} times the claim"
    front = f"the rows don't add up to {times.replace('the claim', 'claim')} {entry.words[1]}"
    return fault.told(f"{front}: at the word {word} they have {got}, and {times} has {want}", entry, more=both_sums(fault, word, times))


def both_sums(fault: Fault, word: str, times: str) -> Tuple[str, ...]:
    """Both sides, where the evidence isn't large."""
    if len(fault.text.data) > LARGE:
        return ()
    problem, proof = fault.problem(), proof_of(fault)
    goal, total = proof.items[-1], sums_of(fault).sum(proof.items[-1])
    want = add({}, goal.scale, problem.claims[proof.claim - 1])
    least = letters(problem, word)
    return f"  {'the rows:'.ljust(len(times) + 1)} {shown(problem, total, least)}", f"  {times}: {shown(problem, want, least)}"


def lemma_number(fault: Fault) -> Told:
    row = fault.row()
    place = row.words.index("lemma") + 1
    before = sum(it.line < row.line for it in fault.text.items_of(fault.block))
    in_goal = any(it.line < row.line for it in fault.text.of_block(fault.block, "goal"))
    earlier = before if in_goal else before - 1
    there = {0: "there is no lemma before it", 1: "the only lemma before it is 1"}.get(earlier, f"the lemmas before it are 1 to {earlier}")
    return fault.told(f"row {fault.number('row')} names lemma {row.words[place]}, and {there}", row, place)


def lemma_divides(fault: Fault) -> Told:
    (word, got), entry = fault.found("word (.*) got (-?[0-9]+)"), fault.item("lemma")
    front = f"the rows of lemma {fault.number('lemma')} have {got} at the word {word}"
    told = f"{front}, which the lemma's scale {entry.words[-1]} doesn't divide"
    return fault.told(told, entry, len(entry.words) - 1)


def lemma_scale(fault: Fault) -> Told:
    lemma, entry, denominator = fault.number("lemma"), fault.item("lemma"), fault.first("denominator").words[1]
    what = f"lemma {lemma}" if lemma else "the goal"
    return fault.told(f"the scale {entry.words[-1]} of {what} doesn't divide the denominator {denominator}", entry, len(entry.words) - 1)


# ---- M1 to M6: models


def model_of(fault: Fault) -> check_model.Model:
    return check_model.Models(fault.problem(), fault.text.path).models[fault.block - 1]


def map_entry(fault: Fault) -> Tuple[str, Entry]:
    (name,) = fault.found("map ([^ ]+)")
    return name, next(entry for entry in fault.text.of_block(fault.block, "map") if entry.words[1] == name)


def no_matrix(fault: Fault) -> Told:
    (name,) = fault.found("map ([^ ]+)")
    ends = fault.statement.declared[name].ends or ("?", "?")
    return fault.told(f"'{name}', which goes {ends[0]} -> {ends[1]}, has no line `map {name} = ..` in this model", fault.first())


def wrong_shape(fault: Fault) -> Told:
    problem, model = fault.problem(), model_of(fault)
    name, entry = map_entry(fault)
    letter = problem.numbers[name]
    source, target = (problem.names[end][1:-1] for end in problem.ends[letter])
    rows, columns = check_model.sides_of(problem, model.sides, letter)
    matrix = model.maps[letter]
    want = f"{counted(rows, 'row')} (the side of {target}) and {counted(columns, 'column')} (that of {source})"
    told = f"'{name}' goes {source} -> {target}, so its matrix has {want}, and this one has {len(matrix)} and {len(matrix[0])}"
    return fault.told(told, entry)


def unequal_transpose(fault: Fault) -> Told:
    problem, model = fault.problem(), model_of(fault)
    name, entry = map_entry(fault)
    matrix = model.maps[problem.numbers[name]]
    row, column = next((i, j) for i, it in enumerate(matrix) for j in range(len(it)) if matrix[i][j] != matrix[j][i])
    one, other = (f"row {i + 1} has {matrix[i][j]} at column {j + 1}" for i, j in ((row, column), (column, row)))
    return fault.told(f"'{name}' is its own adjoint, so its matrix is its own transpose; {one}, and {other}", entry)


def broken_assumption(fault: Fault) -> Told:
    number, problem, model = fault.number("assumption"), fault.problem(), model_of(fault)
    line = [line for line in problem.lines for _ in (problem.equations(line) if line.tokens[0].text != "claim" else [])][number - 1]
    quote = fault.statement.quote(line.tokens[0].line)
    poly = problem.assumptions[number - 1]
    value = check_model.Arrows(problem, model).total(poly)
    which = "" if line.tokens[0].text == "assume" else f", which is {shown(problem, poly)} = 0 of this line,"
    told = f"assumption {number}{which} doesn't hold in this model: modulo {model.modulus} its left side minus its right side is"
    return Told(told, quote, (matrices([("", value)]),))


def matrices(named: List[Tuple[str, check_model.Matrix]], width: int = 76) -> str:
    """Matrices set out in rows, side by side as far as they fit; those of more than 6 rows or columns by their size."""
    bands: List[List[str]] = []
    for name, matrix in named:
        front = f"{name} = " if name else ""
        if len(matrix) > 6 or any(len(row) > 6 for row in matrix):
            block = [f"{front}({len(matrix)} rows of {len(matrix[0])} numbers)"]
        else:
            wide = max(len(str(number)) for row in matrix for number in row)
            block = [" ".join(str(number).rjust(wide) for number in row) for row in matrix]
            block = [(front if place == 0 else " " * len(front)) + row for place, row in enumerate(block)]
        if not bands or len(bands[-1][0]) + len(block[0]) + 4 > width:
            bands.append(block)
            continue
        last, wide = bands[-1], max(map(len, bands[-1]))
        height = max(len(last), len(block))
        rows = [(last + [""] * height)[at].ljust(wide) + "    " + (block + [""] * height)[at] for at in range(height)]
        bands[-1] = rows
    return "\n".join("    " + row for band in bands for row in band)


# ---- B1 to B7: bases

def basis_of(fault: Fault) -> confirm.Basis:
    return confirm.Bases(fault.problem(), fault.text.path).bases[fault.block - 1]


def rule_entry(fault: Fault, number: int) -> Entry:
    return fault.text.of_block(fault.block, "rule")[number - 1]


def written_rule(fault: Fault, number: int) -> str:
    return f"  rule {number}: {short(' '.join(rule_entry(fault, number).words[1:]), 80)}"


def bad_rule(fault: Fault) -> Told:
    number = fault.number("rule")
    poly, order = basis_of(fault).rules[number - 1], confirm.Order(fault.problem())
    content = confirm.gcd_of(poly)
    if not poly:
        told = f"rule {number} is zero"
    elif content > 1:
        told = f"all coefficients of rule {number} are multiples of {content}, and a rule is divided by what divides it"
    else:
        word = confirm.text_of(fault.problem(), {min(poly, key=order.rank): 1})
        told = f"rule {number} has a negative coefficient at `{short(word, 40)}`, which is its greatest word in the order of the statement"
    return fault.told(told, rule_entry(fault, number))


def left_over(fault: Fault) -> str:
    return short(fault.rest.split(" rest ", 1)[1], 80)


def generator_stays(fault: Fault) -> Told:
    number, problem = fault.number("generator"), fault.problem()
    told = f"the rules don't reduce generator {number} to zero, but leave {left_over(fault)}"
    more = f"  generator {number}: {shown(problem, problem.generators()[number - 1])}"
    return fault.told(told, fault.first(), more=(more,))


def ambiguity(kind: str, first: str, second: str, place: str) -> str:
    rules = f"rule {first} with itself" if first == second else f"rules {first} and {second}"
    return f"the {kind} of {rules} at place {place}"


def ambiguity_stays(fault: Fault) -> Told:
    kind, first, second, place = fault.found("(overlap|inclusion) ([0-9]+) ([0-9]+) ([0-9]+)")
    where = ambiguity(kind, first, second, place)
    told = f"the rules aren't closed: {where} leaves {left_over(fault)}, and has to leave 0"
    more = tuple(written_rule(fault, int(number)) for number in dict.fromkeys((first, second)))
    return fault.told(told, rule_entry(fault, int(first)), more=more)


def rest_differs(fault: Fault) -> Told:
    told = f"the rules leave {short(fault.rest.split('got ', 1)[1], 80)} of claim {fault.first('claim').words[1]}, and not this rest"
    return fault.told(told, fault.first("rest"))


def zero_rest(fault: Fault) -> Told:
    told = f"the rules reduce claim {fault.first('claim').words[1]} to zero, so some positive multiple of it is a combination of the rules"
    return fault.told(told, fault.first("rest"))


def basis_stops(fault: Fault) -> Told:
    part, number = fault.found("^(claim|[a-z]+ [0-9]+(?: [0-9]+ [0-9]+)?) (.*)")
    words = part.split()
    where = {"claim": "the claim", "generator": f"generator {words[-1]}"}.get(words[0])
    where = where or ambiguity(*words)
    causes = {
        "steps": "it takes more than 1,000,000 steps", "size letters": "a word has more than 500 letters",
        "size terms": "there are more than 20,000 terms",
    }  # fmt: skip
    cause = next((told for front, told in causes.items() if number.startswith(front)), "")
    told = f"the reduction of {where} stops: {cause or number.replace('overflow ', '') + ' leaves ±(2^127 - 1)'}"
    return fault.told(f"{told}; so it isn't known whether the basis is closed", fault.first())


# ---- X1 to X4: letters that are taken off


def proof_of(fault: Fault) -> cancel.Cancellation:
    """The proof of a block; a certificate is one that takes no letters off."""
    if fault.text.kind == "cancellation":
        return cancel.Cancellations(fault.problem(), fault.text.path).proofs[fault.block - 1]
    claim, denominator, shares = Evidence(fault.problem(), fault.text.path).certificates[fault.block - 1]
    return cancel.Cancellation(claim, denominator, [], [], [*shares])


def sums_of(fault: Fault, count: int = 0) -> cancel.Items:
    """The polynomials of so many items of a proof; without a number of all but the goal."""
    proof = proof_of(fault)
    items = cancel.Items(Lines(fault.problem()), proof, "")
    for item in proof.items[: count or len(proof.items) - 1]:
        items.add(item)
    return items


def no_item(fault: Fault) -> Told:
    entry, number = fault.item("item"), fault.number("item")
    there = "there is no item before it" if number == 1 else "the only item before it is 1" if number == 2 else f"those before it are 1 to {number - 1}"
    return fault.told(f"item {number} takes a letter off item {entry.words[-1]}, and {there}", entry, len(entry.words) - 1)


def not_declared(fault: Fault) -> Told:
    entry = fault.item("item")
    letter, (where, word, other) = entry.words[2], (("in front", "monic", "epic") if entry.words[3] == "left" else ("at the end", "epic", "monic"))
    numbers = fault.problem().numbers
    has_other = any(numbers.get(it.words[1]) == numbers[letter] for it in fault.text.of_block(fault.block, other))
    more = f"; `{other}` says it of the other side" if has_other else ""
    return fault.told(f"{letter} is taken off {where}, and the proof has no line `{word} {letter}`{more}", entry, 2)


def stripped_of(fault: Fault, entry: Entry) -> Poly:
    """The polynomial of the item that this one takes a letter off."""
    return sums_of(fault, fault.number("item") - 1).polys[int(entry.words[-1]) - 1]


def not_typed(fault: Fault) -> Told:
    entry = fault.item("item")
    told = f"item {entry.words[-1]} isn't typed: its words aren't all maps with the same ends, so nothing is taken off it"
    more = f"  item {entry.words[-1]}: {shown(fault.problem(), stripped_of(fault, entry))}"
    return fault.told(told, entry, len(entry.words) - 1, more=(more,))


def not_stripped(fault: Fault) -> Told:
    entry, problem = fault.item("item"), fault.problem()
    letter, is_left, poly = entry.words[2], entry.words[3] == "left", stripped_of(fault, entry)
    end, number = 0 if is_left else -1, problem.numbers[letter]
    word = max((word for word in poly if len(word) == 1 or word[end] != number), key=lambda word: (len(word), word))
    what = f"is {letter} alone" if word == (number,) else f"doesn't {'begin' if is_left else 'end'} with {letter}"
    more = (f"  item {entry.words[-1]}: {shown(problem, poly, word)}",)
    return fault.told(f"the word {short(problem.text(word), 50)} of item {entry.words[-1]} {what}", entry, 2, more)


# ---- The table

NO_CLAIM = Rule("the statement has no claim of this number", claim_number)
RULES = {
    "K1": Rule("evidence is UTF-8, and this text is not", utf8),
    "K2": Rule("the line doesn't fit the grammar at its place", grammar),
    "K3": Rule("a name of this line isn't declared in the statement, or is of the other kind", undeclared),
    "K4": Rule("a number of this line exceeds its bound", bound),
    "K5": Rule("a limit is passed: of letters, rows, lemmas, blocks, sides or matrices", limit),
    "K6": Rule("the text ends inside a block", unended),
    "K7": Rule("the text has no block of the kind that is asked for", none_there),
    "C1": NO_CLAIM,
    "C2": Rule("a row names no generator of the statement", generator),
    "C3": Rule("the denominator or a scale is 0", zero_scale),
    "C4": Rule("a product or a sum leaves ±(2^127 - 1)", overflow),
    "C5": Rule(
        "the running sum has more than 200,000 terms", lambda it: it.of_row("after row {row} the running sum has more than 200,000 terms")
    ),
    "C6": Rule("the rows don't add up to the claim", sum_differs),
    "C7": Rule("a row names no lemma that stands before it", lemma_number),
    "C8": Rule("the scale of a lemma doesn't divide its rows' sum", lemma_divides),
    "C9": Rule(
        f"the polynomial of a lemma{LARGE_LEMMA}",
        lambda it: it.told(f"the polynomial of lemma {it.number('lemma')}{LARGE_LEMMA}", it.item("lemma")),
    ),
    "C10": Rule("the scale of a lemma or of the goal doesn't divide the denominator", lemma_scale),
    "C11": Rule(LARGE_LEMMAS, lambda it: it.told(LARGE_LEMMAS, it.row() if it.number("row") else it.first())),
    "E1": Rule("a certificate with lemmas has no chain", lambda it: it.told(HAS_LEMMAS, it.first("lemma", "certificate"))),
    "E2": Rule(
        "a line of the chain has a coefficient that leaves ±(2^127 - 1)",
        lambda it: it.of_row(f"in the line after row {{row}} {it.operation()} leaves ±(2^127 - 1); {OTHER_ORDER}"),
    ),
    "E3": Rule(
        "a step has a word of more than 500 letters, or a line of the chain more than 20,000 terms",
        lambda it: it.of_row(f"row {{row}}{LARGE_STEP}; {OTHER_ORDER}"),
    ),
    "E4": Rule(
        "the lines of the chain have more than 10,000,000 letters",
        lambda it: it.of_row(f"the lines up to that after row {{row}} have more than 10,000,000 letters; {OTHER_ORDER}"),
    ),
    "M1": NO_CLAIM,
    "M2": Rule("a map has no matrix", no_matrix),
    "M3": Rule("a matrix has other numbers of rows and columns than the sides of its map's target and source", wrong_shape),
    "M4": Rule("an assumption isn't zero in the model", broken_assumption),
    "M5": Rule(
        "the claim is zero in the model",
        lambda it: it.told(f"claim {it.first('claim').words[1]}{HOLDS}", it.first("claim"), 1),
    ),
    "M6": Rule("the matrix of a `self` map isn't its own transpose", unequal_transpose),
    "B1": NO_CLAIM,
    "B2": Rule("a rule is zero, has a content above 1, or a negative leading coefficient", bad_rule),
    "B3": Rule("the rules don't reduce a generator to zero", generator_stays),
    "B4": Rule("the rules aren't closed: an ambiguity leaves more than 0", ambiguity_stays),
    "B5": Rule("the rules leave another rest of the claim", rest_differs),
    "B6": Rule("the rules reduce the claim to zero", zero_rest),
    "B7": Rule("a reduction stops at a limit", basis_stops),
    "X1": Rule("a letter is taken off what is no earlier item", no_item),
    "X2": Rule("a letter is taken off in front that has no line `monic`, or at the end that has no line `epic`", not_declared),
    "X3": Rule("a letter is taken off an item whose words aren't all maps with the same ends", not_typed),
    "X4": Rule("a word doesn't begin or end with the letter that is taken off, or is that letter alone", not_stripped),
}
LINE = re.compile(r"# (?:block (?P<block>[0-9]+) )?refused (?P<code>[A-Z][0-9]+)(?: line (?P<line>[0-9]+))?(?P<rest>.*)")


def told_of(statement: Statement, text: Text, report: str, briefly: bool = False) -> Optional[Told]:
    """What is told of the program's line on evidence, or briefly its place and the rule; none where it is no such line."""
    match = LINE.fullmatch(report)
    if not match or match["code"] not in RULES:
        return None
    fault = Fault(statement, text, int(match["line"] or 0), int(match["block"] or 0), match["rest"].strip())
    told = RULES[match["code"]].told(fault, text.quote(fault.line), briefly)
    where = f"block {fault.block}, " if fault.block else ""
    return told._replace(sentence=f"{match['code']}: {where}{told.sentence}")
