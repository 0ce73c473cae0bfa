"""What why.py tells of a statement that is refused: a function for each code, S1 to S16, in one table."""
from __future__ import annotations

import contextlib
import functools
import itertools
import re
import unicodedata
from collections import defaultdict
from typing import Dict, List, NamedTuple, Optional, Set, Tuple

from opprove.checkers.check import WORDS, Line, Problem, Refusal, Token, language_of, tokens_of
from opprove.text.expressions import Parser
from opprove.words.meant import Typed, meant
from opprove.words.parts import LIMIT_OF_NUMBERS, Quote, Rule, Told, article, counted, did_you_mean, few, listed, ordinal, short

NESTED = "round brackets are nested at most 64 deep"
MODULI = "2, 3, 5, 7, 101, 32003 and 65537"
Ends = Tuple[str, str]


class Declared(NamedTuple):
    kind: str  # object or map
    token: Token
    ends: Optional[Ends]  # of a map: its source and its target


class Watched(Line):
    """A line that remembers what had to stand at the token that does not fit."""

    wanted: str = ""

    def take(self, role: str, words: object = ()) -> str:
        self.wanted = role
        return super().take(role, words)  # type: ignore[arg-type]


class Statement:
    """A statement file as text, and what it declares as far as check.py reads it."""

    def __init__(self, path: str, data: bytes) -> None:
        self.path, self.data = path, data
        self.texts = re.split("\r?\n", data.decode(errors="surrogateescape"))
        self.language = 1
        with contextlib.suppress(Refusal):
            self.language = language_of(next(filter(None, map(tokens_of, self.texts, itertools.count(1))), []))

    def quote(self, line: int, column: int = 0) -> Optional[Quote]:
        return Quote(self.path, line, self.texts[line - 1], column) if 1 <= line <= len(self.texts) else None

    def tokens(self, line: int) -> List[Token]:
        """The tokens of a line with an "end" after them; none where check.py reads none."""
        try:
            return tokens_of(self.texts[line - 1], line, self.language)
        except (Refusal, IndexError):
            return []

    @functools.cached_property
    def lines(self) -> List[Line]:
        """The lines that fit the grammar."""
        found = []
        for line in range(1, len(self.texts) + 1):
            tokens = self.tokens(line)
            with contextlib.suppress(Refusal):
                found += [Line(tokens).statement(self.language)] if tokens else []
        return found

    @functools.cached_property
    def declared(self) -> Dict[str, Declared]:
        """The first declaration of each name."""
        names: Dict[str, Declared] = {}
        for line in self.lines:
            ends = line.with_role("object")
            for token, role in line.roles:
                if role in ("new_object", "new_map"):
                    pair = (ends[0], ends[1]) if role == "new_map" and len(ends) == 2 else None
                    names.setdefault(token.text, Declared(role[4:], token, pair))
        return names

    def named(self, kind: str) -> List[str]:
        return [name for name, declared in self.declared.items() if declared.kind == kind]

    @functools.cached_property
    def problem(self) -> Optional[Problem]:
        """What check.py makes of the file; none where it makes nothing of it."""
        with contextlib.suppress(Refusal):
            return Problem(self.path)
        return None


class Fault(NamedTuple):
    """A fault of a statement with what stands at its place."""

    statement: Statement
    line: int
    column: int  # 1 where the place has none
    rest: str  # of the program's line, behind the place

    def tokens(self) -> List[Token]:
        return self.statement.tokens(self.line)

    def place(self) -> int:
        """The number of the token at the column, or of the last one."""
        tokens = self.tokens()
        return next((place for place, token in enumerate(tokens) if token.column >= self.column), len(tokens) - 1)

    def token(self) -> Token:
        return self.tokens()[self.place()]

    def word(self) -> str:
        """The first word of the line."""
        return self.tokens()[0].text

    def role(self) -> str:
        """What the token is in its line."""
        roles = next(line.roles for line in self.statement.lines if line.tokens[0].line == self.line)
        return next(role for token, role in roles if token.column == self.column)

    def sides(self) -> Tuple[Ends, Ends]:
        """The two signatures that the program tells."""
        names = re.findall("[^ ]+", self.rest)
        return (names[1], names[3]), (names[5], names[7])

    def text(self, first: int, last: int) -> str:
        """The source from a token to before another one."""
        tokens = self.tokens()
        return short(self.statement.texts[self.line - 1][tokens[first].column - 1 : tokens[last].column - 1], 40)


def leads(ends: Ends) -> str:
    return f"{ends[0]} -> {ends[1]}"


# ---- Characters and numbers

POWERS = {1: "powers are written out, as a a, unless the file's first line is `language 2`", 2: "powers are written with ^, as a^2"}
def named_sign(char: str) -> str:
    name = unicodedata.name(char, "")
    return f"'{char}' (U+{ord(char):04X}{', ' + name.lower() if name and ord(char) > 126 else ''})"


def utf8(fault: Fault) -> Told:
    data, byte = fault.statement.data, int(re.findall("[0-9]+", fault.rest)[0])
    before = data[:byte].decode(errors="replace")
    line = len(re.findall("\n", before)) + 1
    column = len(re.split("\n", before)[-1]) + 1
    more = ""
    if data[:2] in (b"\xff\xfe", b"\xfe\xff"):
        more = "; the file begins as UTF-16 does"
    elif 0xA0 <= data[byte]:
        more = f"; in Latin-1 it would be '{chr(data[byte])}'"
    sentence = f"a statement is UTF-8, and byte {byte + 1:,} of this one, {data[byte]:#04x}, begins no character of it{more}"
    return Told(sentence, fault.statement.quote(line, column))


def character(fault: Fault) -> str:
    text = fault.statement.texts[fault.line - 1][fault.column - 1 :]
    if not text:
        return RULES["S2"].text
    name = next((text[:end] for end in range(len(text), 0, -1) if text[:end].isidentifier()), "")
    if name:
        return f"a name has at most 32 bytes, and '{short(name)}' has {len(name.encode())}"
    char, language = text[0], fault.statement.language
    if char == "^" or unicodedata.category(char) == "No":
        return POWERS[language]
    signs = ": -> = + - ( ) [ ] '" + " ^" * (language == 2)
    return f"{named_sign(char)} has no meaning here: names have letters, digits and _, and the signs are {signs}"


def meant_by(fault: Fault) -> Optional[str]:
    """What is meant by what is often typed in the place of a fault; none where that isn't known."""
    text, place = fault.statement.texts[fault.line - 1], fault.column - 1
    maps = {name: it.ends for name, it in fault.statement.declared.items() if it.ends}
    return meant(Typed(text[:place], text[place:], maps))


def number(fault: Fault) -> str:
    digits = re.match("[0-9]*", fault.statement.texts[fault.line - 1][fault.column - 1 :]).group()  # type: ignore[union-attr]
    return f"a number is at most 2^127 - 1 = {LIMIT_OF_NUMBERS}, and this one has {counted(len(digits.lstrip('0')), 'digit')}"


# ---- The grammar

WANTED = {
    "new_object": "the name of an object", "new_map": "the name of a map", "object": "the name of an object",
    "map": "a map, `[OBJECT]` or a bracket", "literal": "a number", "exponent": "a number", "end": "the end of the line",
    "self": "`self` or the end of the line", "way": "`degree` or `weight`", "=": "the equals sign",
}  # fmt: skip
FORMS = {
    "object": "object NAME ..", "map": "map NAME .. : NAME -> NAME", "assume": "assume E = E", "claim": "claim E = E",
    "pinv": "pinv NAME NAME", "inverse": "inverse NAME NAME", "inner": "inner NAME NAME", "projection": "projection NAME",
    "order": "order degree`, or `order weight NAME NUMBER ..", "solve": "solve NAME ..", "model": "model NUMBER NAME NUMBER ..",
    "eliminate": "eliminate NAME ..",
}  # fmt: skip


def grammar(fault: Fault) -> str:
    tokens, place = fault.tokens(), fault.place()
    token, word = tokens[place], fault.word()
    found = "the end of the line" if token.kind == "end" else "the mark '" if token.kind == "'" else f"'{short(token.text, 30)}'"
    if place == 0:
        return first_word(token, found, fault.statement.language)
    line = Watched(tokens)
    with contextlib.suppress(Refusal):
        line.statement(fault.statement.language)
    if line.place != place:
        return f"{found} fits the grammar of `{FORMS[word]}` no more"
    wanted = WANTED.get(line.wanted, f"'{line.wanted}'")
    if word not in ("assume", "claim") and line.wanted == "map":
        wanted = "the name of a map"
    return f"{wanted} has to stand here, and {found} does{hint(tokens, place, word, line.wanted)}"


def first_word(token: Token, found: str, language: int) -> str:
    """Of a word that begins no line of this language."""
    if token.text == "language":
        return "`language 2` has to be the first line of its file, and stands there alone"
    if token.text in WORDS[2]:
        return f"a line begins with {found} only where the first line of the file is `language 2`"
    return f"a line begins with {listed(WORDS[language], 'or')}, and here stands {found}{did_you_mean(token.text, WORDS[language])}"


def hint(tokens: List[Token], place: int, word: str, wanted: str) -> str:
    """What may be meant, in words after the sentence."""
    before, token = tokens[place - 1], tokens[place]
    if before.kind == "^":
        return ": an exponent is from 1 to 500, and an inverse is a map of its own, which `inverse a x` declares to be one"
    if before.kind == "literal" and word in ("assume", "claim") and wanted == "map":
        times = f"{before.text} times the identity of V is {before.text} [V]"
        return f": a number stands before a factor, and alone only where it is 0; {times}"
    if token.kind == "literal" and word in ("assume", "claim"):
        return ": a number stands in front of its term"
    if before.kind == "=" and token.kind == "=":
        return ": an equation has one ="
    if word in ("pinv", "inverse", "inner", "projection") and wanted in ("map", "end"):
        return f": it is `{FORMS[word]}`, with names of maps alone"
    return f": the line is `{FORMS[word]}`"


# ---- Names and limits


def name(fault: Fault) -> str:
    token, role, declared = fault.token(), fault.role(), fault.statement.declared
    known = [it for it in declared if declared[it].kind == role]
    if token.text in declared:
        other = declared[token.text]
        more = f"; the identity of {token.text} is [{token.text}]" if role == "map" and fault.word() in ("assume", "claim") else ""
        return f"{article(role)} has to stand here, and '{token.text}' is {article(other.kind)} by line {other.token.line}{more}"
    parts = split_in(token.text, set(known)) if role == "map" else []
    if parts:
        return f"'{token.text}' is not declared, and is one name: a product is written with blanks, as {' '.join(parts)}"
    return f"'{token.text}' is not declared{did_you_mean(token.text, known) or one_of(known, role)}"


def one_of(known: List[str], kind: str) -> str:
    return f": the {kind}s are {few(known)}" if known else f": the file declares no {kind}"


def split_in(text: str, known: Set[str]) -> List[str]:
    """The text as two or more of the names, from the left the shortest first; none where it isn't."""
    ways: Dict[int, List[str]] = {0: []}
    for start in range(len(text)):
        for end in range(start + 1, len(text) + 1):
            if start in ways and end not in ways and text[start:end] in known:
                ways[end] = ways[start] + [text[start:end]]
    return ways.get(len(text), [])


def twice(fault: Fault) -> str:
    token, word, place = fault.token(), fault.word(), fault.place()
    if place == 0:
        orders = ["order", "eliminate"][: fault.statement.language]
        first = next(line.tokens[0].line for line in fault.statement.lines if line.tokens[0].text in orders)
        return f"a file has one line {listed([f'`{it}`' for it in orders], 'or')} at most, and there is one in line {first}"
    if word in ("order", "eliminate", "solve", "model"):
        first_column = next(other.column for other in fault.tokens()[1:] if other.text == token.text)
        return f"'{token.text}' stands twice in this line, first at column {first_column}"
    other = fault.statement.declared[token.text]
    return f"'{token.text}' is declared twice: first in line {other.token.line}, column {other.token.column}, as {article(other.kind)}"


LIMITED = {
    64: "objects,", 200: "maps unless its first line is `language 2`,", 1000: "maps,",
    500: "assumptions, abbreviations written out,", 100: "claims,", 16: "shapes for models,",
}  # fmt: skip


def limit(fault: Fault) -> str:
    most = int(fault.rest.split()[-1])
    here = f"'{fault.token().text}' is" if most in (64, 200, 1000) else "this line has"
    return f"a file has at most {most:,} {LIMITED[most]} and {here} the {ordinal(most + 1)}"


def own_adjoint(fault: Fault) -> str:
    token = fault.token()
    ends = fault.statement.declared[token.text].ends or ("?", "?")
    return f"a map that is its own adjoint (`self`) has one object at both ends, and '{token.text}' goes {leads(ends)}"


def range_of(fault: Fault) -> str:
    token, word, place = fault.token(), fault.word(), fault.place()
    if word in ("assume", "claim"):
        return f"an exponent is from 1 to 500, and here stands {short(token.text, 30)}"
    if word == "order":
        return f"a weight is from 1 to 1,000, and here stands {short(token.text, 30)}"
    if place == 1:
        return f"the modulus of a shape is one of {MODULI}, and here stands {short(token.text, 30)}"
    return f"the side of an object is from 1 to 6 in a shape, and here stands {short(token.text, 30)}"


# ---- Signatures


def term_start(tokens: List[Token], place: int) -> int:
    """Where the factors begin of the term that has this token."""
    depth = 0
    for start in range(place - 1, -1, -1):
        kind = tokens[start].kind
        depth += {")": 1, "(": -1}.get(kind, 0)
        if depth < 0 or start == 0 or (depth == 0 and kind in ("+", "-", "=")):
            return start + 1 + (tokens[start + 1].kind == "literal")
    return place


def primary_end(tokens: List[Token], place: int) -> int:
    """Behind the last token of the primary that begins here."""
    depth, end = 0, place
    while end < len(tokens) - 1:
        depth += {"(": 1, "[": 1, ")": -1, "]": -1}.get(tokens[end].kind, 0)
        end += 1
        if depth == 0:
            break
    return end


def end_of(part: str, tokens: List[Token], place: int) -> int:
    """Behind the last token of the factor, or the term, that begins here."""
    parser = Parser(tokens, defaultdict(lambda: ("", "")), place)
    getattr(parser, part)()
    return parser.place


def base_start(tokens: List[Token], place: int) -> int:
    """Where the factor begins of which this is a mark."""
    depth, start = 0, place - 1
    while depth or tokens[start].kind not in ("name", "[", "("):
        depth += {")": 1, "]": 1}.get(tokens[start].kind, 0)
        start -= 1
        depth -= tokens[start].kind in ("(", "[")
    return start


def composed(fault: Fault) -> str:
    """Of a product, or of an abbreviation, whose faults stand at its first word."""
    left, right = fault.sides()
    tokens, place = fault.tokens(), fault.place()
    if place == 0:
        return abbreviated(fault)
    if tokens[place].kind == "^":
        base = fault.text(base_start(tokens, place), place)
        return f"{base}^{tokens[place + 1].text}: a power asks for a map from one object to itself, and {base} goes {leads(left)}"
    start = term_start(tokens, place)
    front, factor = fault.text(start, place), fault.text(place, end_of("factor", tokens, place))
    goes = f"{front} goes {leads(left)}, so the one after it has to end at {left[0]}, and {factor} ends at {right[1]}"
    return f"{short(f'{front} {factor}')}: {goes}"


def abbreviated(fault: Fault) -> str:
    maps = [token.text for token in fault.tokens()[1:-1]]
    declared, word = fault.statement.declared, fault.word()
    ends = [declared[it].ends or ("?", "?") for it in maps]
    if len(maps) == 1:
        one = maps[0]
        return f"{word} {one}: it asks for {one} {one} = {one}, so {one} has to end where it begins, and goes {leads(ends[0])}"
    want = leads((ends[0][1], ends[0][0]))
    return f"{word} {' '.join(maps)}: {maps[0]} goes {leads(ends[0])}, so {maps[1]} has to go {want}, and goes {leads(ends[1])}"


def equal_ends(fault: Fault) -> str:
    left, right = fault.sides()
    tokens, place = fault.tokens(), fault.place()
    more = ""
    if tokens[place - 1].kind == "=":
        equals = place - 1
        sides = fault.text(1, equals), fault.text(place, len(tokens) - 1)
        one, goes = "both sides of an equation", f"{sides[0]} goes {leads(left)}, and {sides[1]} goes {leads(right)}"
    else:
        term = fault.text(place, end_of("term", tokens, place))
        one, goes = "the terms of a sum", f"before this one it goes {leads(left)}, and {term} goes {leads(right)}"
    if left == right[::-1]:
        more = "; the adjoint of the second goes as the first does"
    return f"{one} have one source and one target: {goes}{more}"


def open_zero(fault: Fault) -> str:
    tokens, place = fault.tokens(), fault.place()
    equals = next((at for at, token in enumerate(tokens) if token.kind == "="), 0)
    end = primary_end(tokens, place)
    if any(token.kind == "literal" and int(token.text) > 1 for token in tokens[end : end_of("factor", tokens, place)]):
        base = fault.text(place, end)
        return f"the base of a power has a source and a target, and {base} has none: a 0 alone takes those of what it is added to"
    first = "factor" if tokens[place].kind in ("name", "[", "(") else "term"
    if place == 1 and tokens[end_of(first, tokens, place + (tokens[place].kind in ("+", "-")))].kind not in ("name", "[", "("):
        sides = f"neither {fault.text(1, equals)} nor {fault.text(equals + 1, len(tokens) - 1)} does"
        return f"one side of an equation has to say its source and target, and {sides}: 0 alone has none"
    factor = fault.text(place, end_of("factor", tokens, place))
    return f"a factor of a product has a source and a target, and {factor} has none: a 0 alone takes those of what it is added to"


def equation(fault: Fault) -> str:
    text = short(fault.statement.texts[fault.line - 1].split("#")[0], 50)
    return text if fault.word() in ("assume", "claim") else f"one of the equations of {text}"


def large_number(fault: Fault) -> str:
    return f"multiplied out, {equation(fault)} has a coefficient, in the end or on the way, that leaves ±(2^127 - 1)"


def large_polynomial(fault: Fault) -> str:
    return f"multiplied out, {equation(fault)} has a polynomial of more than 20,000 terms, or a word of more than 500 letters"


def claim(fault: Fault) -> Told:
    texts = fault.statement.texts
    told = "the file has no claim: a line `claim E = E` says what is to be decided"
    for line, text in enumerate(texts, 1):
        if re.match(r"[ \t]*#[# \t]*claim\b", text):
            return Told(f"{told}; here one stands in a comment", fault.statement.quote(line))
    return Told(told)


# ---- The table

RULES = {
    "S1": Rule("a statement is UTF-8, and this file is not", utf8),
    "S2": Rule(
        "this character has no meaning in a statement, or the name that begins here has more than 32 bytes",
        lambda it: meant_by(it) or character(it),
    ),
    "S3": Rule("this doesn't fit the grammar", lambda it: meant_by(it) or grammar(it)),
    "S4": Rule("a number is at most 2^127 - 1", number),
    "S5": Rule(NESTED, lambda _: f"{NESTED}, and this one is the 65th"),
    "S6": Rule(
        "this name isn't declared, or names an object where a map has to stand, or a map where an object has to",
        lambda it: meant_by(it) or name(it),
    ),
    "S7": Rule(
        "a name is declared once; a file has one line `order` or `eliminate`; and a name stands once in these, `solve` or `model`", twice
    ),
    "S8": Rule("a file has at most 64 objects, 200 maps (1,000 in language 2), 500 assumptions, 100 claims and 16 shapes", limit),
    "S9": Rule("a map that is its own adjoint has one object at both ends", own_adjoint),
    "S10": Rule("in a product, and so in a power, the source of each part is the target of the one after it", composed),
    "S11": Rule("the terms of a sum, and both sides of an equation, have one source and one target", equal_ends),
    "S12": Rule(
        "a 0 alone has no source and target of its own, and can't be a factor or the base of a power, or stand on both sides", open_zero
    ),
    "S13": Rule("a coefficient leaves ±(2^127 - 1)", large_number),
    "S14": Rule("a polynomial has more than 20,000 terms, or a word more than 500 letters", large_polynomial),
    "S15": Rule("the file has no claim", claim),
    "S16": Rule(f"a weight is from 1 to 1,000, a modulus one of {MODULI}, a side from 1 to 6, and an exponent from 1 to 500", range_of),
}
LINE = re.compile(r"# refused (?P<code>[A-JL-Z][0-9]+)(?: line (?P<line>[0-9]+) column (?P<column>[0-9]+))?(?P<rest>.*)")


def told_of(path: str, data: bytes, report: str, briefly: bool = False) -> Optional[Told]:
    """What is told of the program's line on a statement, or briefly its place and the rule; none where it is no such line."""
    match = LINE.fullmatch(report)
    if not match or match["code"] not in RULES:
        return None
    statement, code = Statement(path, data), match["code"]
    fault = Fault(statement, int(match["line"] or 1), int(match["column"] or 1), match["rest"].strip())
    told = RULES[code].told(fault, statement.quote(fault.line, fault.column) if match["line"] else None, briefly)
    return told._replace(sentence=f"{code}: {told.sentence}")
