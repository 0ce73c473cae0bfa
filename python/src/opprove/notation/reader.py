"""Files of the notation as they are read: tokens, lines, and expressions, with one function for each rule of docs/FORMATS.md."""
from __future__ import annotations

import difflib
import functools
import os
import re
from typing import Callable, Dict, List, Optional, Sequence, Set, Tuple, Union

from opprove.checkers import check
from opprove.checkers.check import Refusal, Token
from opprove.notation.parts import Case, Cases, Claim, Definition, Equation, File, Given, Item, Kept, Mark, Node, Use, Word, fault

SIGNS = r":=+\-()\[\]'^,*†."
TABLE = os.path.join(os.path.dirname(os.path.abspath(__file__)), "words.opn")
STOPS = ("if", "with")  # behind an item
LARGEST, NESTED, USED_FILES = 2**127 - 1, 64, 50  # a literal, round brackets, and files that are used
ROMAN = "i ii iii iv v vi vii viii ix x xi xii xiii xiv xv xvi xvii xviii xix xx".split()


def written(tokens: Sequence[Token]) -> str:
    """Tokens with a blank where some space stood between them."""
    gaps = [one.line != two.line or one.column + len(one.text) < two.column for one, two in zip(tokens, tokens[1:])]
    return "".join(token.text + " " * gap for token, gap in zip(tokens, [*gaps, False]))


@functools.lru_cache(maxsize=None)
def table() -> Sequence[Word]:
    """The words that every file has."""
    words: List[Word] = []
    Reader(TABLE, None, [TABLE], words).read()
    return words


class Reader:
    """Reads a file, with the words of the files that it uses. `above` are the files that use this one."""

    def __init__(self, path: str, source: Optional[bytes] = None, above: Sequence[str] = (), words: Optional[List[Word]] = None,
                 used: Optional[Set[str]] = None) -> None:
        self.path, self.source, self.above, self.file = path, source, [*above, os.path.realpath(path)], File()
        self.words: List[Word] = [*table()] if words is None else words
        self.used = {self.above[0], os.path.realpath(TABLE)} if used is None else used
        self.parameters: Optional[List[str]] = None  # of the line `let` that is read
        self.case = 0  # how many cases of the line were begun, where it has cases
        self.is_first = True  # whether no line but comments was read

    def read(self) -> File:
        """Reads all lines."""
        texts = list(check.read_lines(self.path if self.source is None else self.source, "# refused S1 byte {}"))
        for self.tokens in self.joined([(self.line_tokens(text, number), text) for number, text in texts]):
            self.place = 0
            word = self.next().text if self.is_at("name") else ""
            if len(self.above) > 1 and word not in ("let", "use", "#"):
                raise fault("N3", self.next())
            LINES.get(word, Reader.other)(self)
            self.is_first = self.is_first and word == "#"
        return self.file

    def line_tokens(self, text: str, number: int) -> List[Token]:
        """The tokens of a line without its end; of a line `use`, `matrices` or `operators` its first one, and the rest as one more."""
        found = re.match(r"[ \t]*(?:(use)[ \t]+|(matrices|operators)\b[ \t]*(?![:=]))([^ \t:=#][^#]*?)?[ \t]*(#|$)", text)
        if found and (found.group(2) or found.group(3)):
            word = found.group(1) or found.group(2)
            more = [Token("text", found.group(3), number, found.start(3) + 1)] if found.group(3) else []
            return [Token("name", word, number, found.start(2 - bool(found.group(1))) + 1), *more]
        tokens = check.tokens_of(text, number, signs=SIGNS)[:-1]
        for token in tokens:
            self.file.names.update({token.text: None} if token.kind == "name" else {})
            if token.kind == "literal" and int(token.text) > LARGEST:
                raise fault("S4", token)
        return tokens

    def joined(self, lines: List[Tuple[List[Token], str]]) -> List[List[Token]]:
        """The lines that have a token, with those behind them that go on. A comment is a line with the one token `#`."""
        found: List[List[Token]] = []
        last: List[Token] = []
        for number, (tokens, text) in enumerate(lines, 1):
            if "#" in text and len(self.above) == 1:
                found.append([Token("name", "#", number, 1), Token("comment", text.split("#", 1)[1], number, 1)])
            if last and tokens and (last[-1].kind in (",", ":") or tokens[0].text in ("(", "=", "+", "-", ",", *STOPS)):
                last.extend(tokens)
            elif tokens:
                found.append(tokens)
                last = tokens
        return [line + [Token("end", "", line[-1].line, line[-1].column + len(line[-1].text))] for line in found]

    # ---- Tokens

    def next(self) -> Token:
        return self.tokens[self.place]

    def is_at(self, *kinds: str) -> bool:
        return self.next().kind in kinds

    def take(self, kind: str, *texts: str) -> Token:
        """The next token, if it is of this kind, and one of these where there are any."""
        token = self.next()
        if token.kind != kind or (texts and token.text not in texts):
            raise fault("S3", token)
        self.place += 1
        return token

    def take_some(self, kind: str) -> List[Token]:
        tokens = [self.take(kind)]
        while self.is_at(kind):
            tokens.append(self.take(kind))
        return tokens

    def is_word(self, text: str) -> bool:
        return self.is_at("name") and self.next().text == text

    def is_case(self, place: int) -> bool:
        """Whether the next case of a line with cases begins here."""
        if not 0 < self.case < len(ROMAN):
            return False
        return [token.text for token in self.tokens[place : place + 3]] == ["(", ROMAN[self.case], ")"]

    def is_end(self) -> bool:
        """Whether an item ends here."""
        return self.is_at(",", "end") or self.next().text in STOPS or self.is_case(self.place)

    # ---- Lines

    def language(self) -> None:
        """`language 2` as the first line says nothing more."""
        word = self.take("name")
        if not self.is_first or int(self.take("literal").text) != 2:
            raise fault("S3", word)
        self.take("end")

    def comment(self) -> None:
        self.file.entries.append(Kept([], self.tokens[1].text))
        self.file.heading += self.is_first

    def setting(self) -> None:
        """`matrices ..` or `operators ..`: said for the reader alone, unless it declares a map of this name."""
        if self.tokens[1].kind not in ("text", "end"):
            return self.other()
        self.file.entries.append(Kept([], " " + written(self.tokens)))
        self.file.heading += self.is_first

    def objects(self) -> None:
        self.take("name")
        self.file.declared += self.take_some("name")
        self.file.objects += self.file.declared[len(self.file.declared) - self.place + 1 :]
        self.take("end")

    def maps(self) -> None:
        self.place += self.is_word("map") and self.tokens[1].kind == "name"
        if not any(token.kind == ":" for token in self.tokens):
            self.file.maps += [(token, None) for token in self.take_some("name")]
        else:
            self.signature()
            while self.is_at(","):
                self.take(",")
                self.signature()
        self.take("end")

    def signature(self) -> None:
        names = self.take_some("name")
        self.take(":")
        source = self.take("name")
        self.take("->")
        target, is_own = self.take("name"), self.is_at("name")
        if is_own:
            self.take("name", "self")
        self.file.objects += [source, target]
        self.file.maps += [(name, (source, target, is_own)) for name in names]

    def define(self) -> None:
        self.file.entries.append(self.definition())
        self.take("end")

    def definition(self) -> Definition:
        self.take("name", "define")
        name = self.take("name")
        self.take("=")
        return Definition(name, self.sum())

    def assume(self) -> None:
        self.take("name")
        self.file.entries.append(Given(self.items()))
        self.take("end")

    def claim(self) -> None:
        word, label = self.take("name"), self.label()
        items, conditions = self.items(), []
        if self.is_word("if"):
            self.take("name")
            conditions = self.items()
        self.take("end")
        self.file.entries.append(Claim(word, label, items, conditions))

    def label(self) -> str:
        """The name before a colon, and the colon, or nothing."""
        has_label = [token.kind for token in self.tokens[self.place : self.place + 2]] == ["name", ":"]
        self.place += 2 * has_label
        return self.tokens[self.place - 2].text if has_label else ""

    def equivalent(self) -> None:
        word, label, cases = self.take("name"), self.label(), []
        if not label:
            self.take(":")
        for self.case in range(1, len(ROMAN) + 1):
            if self.is_at("("):
                self.take("(")
                self.take("name", ROMAN[self.case - 1])
                self.take(")")
                cases.append(Case(self.items(), self.given()))
        self.case = 0
        if len(cases) < 2 or not self.is_at("end"):
            raise fault("N10", word) if self.is_at("end", "(") else fault("S3", self.next())
        self.file.entries.append(Cases(word, label, cases))

    def given(self) -> List[Union[Definition, Given]]:
        """What stands behind `with`: definitions and items."""
        found: List[Union[Definition, Given]] = []
        while self.is_word("with") if not found else self.is_at(","):
            self.place += 1
            found.append(self.definition() if self.is_word("define") else Given([self.item()]))
        return found

    def let(self) -> None:
        self.take("name")
        first, head = self.next(), []
        while not self.is_at(":", "."):
            is_parameter = self.is_at("(")
            self.place += is_parameter
            head.append((self.take("name" if is_parameter or not self.is_at("literal") else "literal").text, is_parameter))
            if is_parameter:
                self.take(")")
        is_many = self.is_at(".")
        for sign in "..:"[2 * (not is_many) :]:
            self.take(sign)
        word = Word(head, is_many, [])
        parameters = word.parameters()
        is_bad = not word.opening() or not parameters or len(set(parameters)) < len(parameters)
        if is_bad or (is_many and (len(parameters) > 2 or not all(part[1] for part in head[-len(parameters) :]))):
            raise fault("N11", first)
        if any(self.shape(word) == self.shape(other) for other in self.words):
            raise fault("S7", first)
        self.parameters = parameters
        word.items = self.items()
        self.parameters = None
        self.take("end")
        self.words.append(word)

    @staticmethod
    def shape(word: Word) -> List[str]:
        """A head, whatever its parameters are named."""
        return ["()" if is_parameter else text for text, is_parameter in word.head]

    def use(self) -> None:
        word, path = self.tokens[:2]
        if path.kind != "text":
            raise fault("S3", path)
        path_used = os.path.join(os.path.dirname(self.path), path.text)
        real = os.path.realpath(path_used)
        if real in self.above:
            raise fault("N2", word)
        if real in self.used:
            return
        self.used.add(real)
        is_text = self.source is not None and not os.path.isfile(self.path)
        if is_text or not os.path.isfile(path_used) or len(self.used) > USED_FILES + 2:
            raise fault("N1", word)
        try:
            Reader(path_used, check.loaded([path_used])[0], self.above, self.words, self.used).read()
        except Refusal as refusal:
            if not str(refusal).startswith("# refused"):
                raise fault("N1", word) from None
            code = re.match(r"# refused \w+ (?!file )", str(refusal))
            raise Refusal(f"{code.group()}file {path.text} {str(refusal)[code.end() :]}" if code else str(refusal)) from None

    def kept(self) -> None:
        """`order`, `solve` or `model`, as in language 2."""
        check.Line(self.tokens).statement(2)
        self.file.entries.append(Kept(self.tokens[:-1]))

    def other(self) -> None:
        """Signatures, or words."""
        if any(token.kind == ":" for token in self.tokens):
            return self.maps()
        given: List[Item] = [self.use_of()]
        while self.is_at(","):
            self.take(",")
            given.append(self.use_of())
        self.take("end")
        self.file.entries.append(Given(given))

    # ---- Items

    def items(self) -> List[Item]:
        found = [self.item()]
        while self.is_at(","):
            self.take(",")
            found.append(self.item())
        return found

    def item(self) -> Item:
        if not self.is_equation():
            return self.use_of()
        first, sides = self.next(), [self.sum()]
        while len(sides) == 1 or self.is_at("="):
            self.take("=")
            sides.append(self.sum())
        return Equation(first, sides)

    def is_equation(self) -> bool:
        """Whether the item that begins here has `=`."""
        depth, start = 0, self.place
        for place in range(start, len(self.tokens)):
            token = self.tokens[place]
            if token.kind in (",", "end") or (token.text in STOPS and place > start) or (place > start and self.is_case(place)):
                return False
            if token.kind == "=":
                return True
        return False

    def use_of(self) -> Use:
        """A use of the word that fits, of those that begin so."""
        start, first, furthest = self.place, self.next(), None
        texts = [token.text for token in self.tokens[start : start + max(len(word.head) for word in self.words)]]
        words = [word for word in self.words if word.opening() == texts[: len(word.opening())]]
        longest = max((len(word.opening()) for word in words), default=0)
        for word in [word for word in words if len(word.opening()) == longest]:
            self.place = start
            try:
                arguments = self.arguments(word)
                return Use(first, word, arguments, written(self.tokens[start : self.place]))
            except Refusal as refusal:
                furthest = max(furthest or (self.place, refusal), (self.place, refusal), key=lambda pair: pair[0])
        near = difflib.get_close_matches(first.text, [word.opening()[0] for word in self.words], n=1, cutoff=0.75)
        raise furthest[1] if furthest else fault("N4", first, f" near {near[0]}" if near else "")

    def arguments(self, word: Word) -> List[Node]:
        found = []
        for text, is_parameter in word.head:
            if is_parameter:
                found.append(self.argument())
            elif self.next().text == text:
                self.place += 1
            else:
                raise fault("S3", self.next())
        while word.is_many and not self.is_end():
            found.append(self.argument())
        if not self.is_end():
            raise fault("S3", self.next())
        return found

    def argument(self) -> Node:
        if self.is_at("literal"):
            token = self.take("literal")
            return Node("number", token, number=int(token.text))
        if self.is_end():
            raise fault("S3", self.next())
        return self.factor(0)

    # ---- Expressions

    def sum(self, depth: int = 0) -> Node:
        first, signs = self.next(), []
        terms: List[Node] = []
        while not terms or self.is_at("+", "-"):
            signs.append(-1 if self.is_at("-") else 1)
            self.place += self.is_at("+", "-")
            terms.append(self.term(depth))
        return Node("sum", first, parts=terms, signs=signs)

    def term(self, depth: int) -> Node:
        first, number = self.next(), int(self.take("literal").text) if self.is_at("literal") else None
        factors: List[Node] = []
        while self.is_at("name", "[", "(") and not self.is_case(self.place):
            if self.next().text in STOPS and (factors or number is not None):
                break
            factors.append(self.factor(depth))
        if not factors:
            if number is None:
                raise fault("S3", self.next())
            return Node("number", first, number=number)
        return Node("product", first, number=number, parts=factors)

    def factor(self, depth: int) -> Node:
        first, base = self.next(), self.primary(depth)
        marks: List[Mark] = []
        while self.is_at("'", "^", "†"):
            token = self.next()
            self.place += 1
            marks.append(self.exponent(token) if token.kind == "^" else Mark(token, token.kind))
        return Node("factor", first, parts=[base], marks=marks) if marks else base

    def primary(self, depth: int) -> Node:
        first = self.next()
        if self.is_at("("):
            if depth == NESTED:
                raise fault("S5", first)
            self.take("(")
            value = self.sum(depth + 1)
            self.take(")")
            return value
        if self.is_at("["):
            self.take("[")
            name = self.take("name")
            self.take("]")
            return Node("object", first, name.text, name=name)
        return Node("map", first, self.take("name").text)

    def exponent(self, token: Token) -> Mark:
        """What stands behind ^ : a literal, * or +, -1, and in a `let` a parameter, or (PARAMETER + literal)."""
        if self.is_at("*", "+"):
            return Mark(token, {"*": "'", "+": "†"}[self.take(self.next().kind).kind])
        if self.is_at("-"):
            self.take("-")
            self.take("literal", "1")
            return Mark(token, "-1")
        if self.is_at("literal") or self.parameters is None:
            literal = self.take("literal")
            return Mark(token, "^", int(literal.text), literal)
        has_brackets, number = self.is_at("("), 0
        self.place += has_brackets
        name = self.take("name", *self.parameters)
        if has_brackets:
            self.take("+")
            number = int(self.take("literal").text)
            self.take(")")
        return Mark(token, "^", number, name, True)


LINES: Dict[str, Callable[[Reader], None]] = {
    "language": Reader.language, "#": Reader.comment, "matrices": Reader.setting, "operators": Reader.setting, "object": Reader.objects,
    "map": Reader.maps, "define": Reader.define, "assume": Reader.assume, "claim": Reader.claim, "equivalent": Reader.equivalent,
    "let": Reader.let, "use": Reader.use, "order": Reader.kept, "solve": Reader.kept, "model": Reader.kept, "eliminate": Reader.kept,
}  # fmt: skip
