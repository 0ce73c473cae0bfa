"""The statements of language 2 that a file of the notation stands for, and what is refused of it behind its grammar."""
from __future__ import annotations

import os
import re
from itertools import combinations, groupby
from typing import Dict, Iterable, Iterator, List, NamedTuple, Optional, Sequence, Set, Tuple, Union

from opprove.checkers import check
from opprove.checkers.check import Refusal, Token
from opprove.notation.ends import Ends
from opprove.notation.parts import Cases, Claim, Definition, Equation, Given, Item, Kept, Mark, Node, Use, fault
from opprove.notation.reader import NESTED, ROMAN, Reader

Piece = Tuple[str, Optional[Token]]  # of a line that is written, and the token of the file that it stands for
NATIVE = {"pinv": 2, "inverse": 2, "inner": 2, "projection": 1}  # the words of the language, with the number of their maps
OBJECTS = "V W U X Y Z".split()  # the first names that are made for objects
HEAD = "# expanded from "  # how each statement begins
STATEMENTS = 400  # of a file, which is more than those of all pairs of twenty cases
SIZE, LEVELS = 100000, 100  # parts of expressions that all words together stand for, and words of words


class Fact(NamedTuple):
    """Equations that are assumed or claimed together: of a word of the language, with its maps, or one equation."""

    token: Token
    equations: List[Equation]
    word: str = ""
    maps: Sequence[str] = ()
    note: str = ""  # a comment above its lines


class Plan(NamedTuple):
    """What a statement has besides the lines that stand in each: what is given with its cases, conditions, and claims."""

    name: str
    token: Token
    given: List[Union[Definition, Given]]
    conditions: List[Item]
    claims: List[Item]


class Expanded(NamedTuple):
    """A statement with its name."""

    name: str
    text: str


def nodes(node: Node) -> Iterator[Node]:
    """A part of an expression and all its parts, from the left."""
    yield node
    for part in node.parts:
        yield from nodes(part)


def depth(node: Node) -> int:
    """How many sums stand in one another."""
    return (node.kind == "sum") + max(map(depth, node.parts), default=0)


class Expansion:
    """Statements of a file. `made` are the names that are in no file, each with the token that asked for it."""

    def __init__(self, path: str, source: Optional[bytes] = None) -> None:
        """Of the file at a path, or of a text that is to be read as if it stood there."""
        self.file = Reader(path, source).read()
        self.stem = os.path.splitext(os.path.basename(path))[0]
        self.names, self.size, self.level = set(self.file.names), 0, 0
        self.made: Dict[str, Token] = {}
        self.maps: Dict[str, Token] = {}  # in the order in which they stand in statements
        self.entries = [part for entry in self.file.entries for part in self.parts(entry)]
        self.definitions = [entry for entry in self.entries if isinstance(entry, Definition)]
        self.check_declarations()
        self.introduce()
        objects = {token.text for token in self.file.objects}
        for entry in self.entries:
            self.check_names(entry, objects)
        self.facts: Dict[int, List[Fact]] = {}  # by the item
        self.ends = Ends()
        for item in (item for entry in self.entries for item in self.items(entry)):
            self.facts[id(item)] = self.facts_of(item)
        self.find_ends()

    # ---- Names

    def check_declarations(self) -> None:
        """Refuses a second order of words, an object that lines `object` leave out, and what is declared twice or as both kinds."""
        orders = [entry.tokens[0] for entry in self.entries if isinstance(entry, Kept) and entry.tokens]
        for token in [token for token in orders if token.text in ("order", "eliminate")][1:2]:
            raise fault("S7", token)
        declared = {token.text for token in self.file.declared}
        for token in self.file.objects if declared else ():
            if token.text not in declared:
                raise fault("S6", token)
        seen: Set[str] = set()
        objects = {token.text for token in self.file.objects}
        for tokens in (self.file.declared, [token for token, _ in self.file.maps], [entry.name for entry in self.definitions]):
            for token in tokens:
                if token.text in seen or (tokens is not self.file.declared and token.text in objects):
                    raise fault("S7", token)
                seen.add(token.text)
            seen = set()

    def introduce(self) -> None:
        """Maps: of signatures, of definitions, and those that are arguments of words that are assumed."""
        self.maps.update({token.text: token for token, _ in self.file.maps})
        for entry in self.entries:
            if isinstance(entry, Definition):
                self.maps.setdefault(entry.name.text, entry.name)
            items = entry.conditions if isinstance(entry, Claim) else self.items(entry)
            for argument in (node for item in items if isinstance(item, Use) for node in item.arguments if node.kind == "map"):
                self.maps.setdefault(argument.text, argument.token)

    def parts(self, entry: object) -> List[object]:
        """A line, or of one with cases its cases and what is given with them."""
        return [part for case in entry.cases for part in (Given(case.items), *case.given)] if isinstance(entry, Cases) else [entry]

    def items(self, entry: object) -> List[Item]:
        """The items of a part of a line, in their order; a definition has none."""
        if isinstance(entry, Claim):
            return entry.items + entry.conditions
        return entry.items if isinstance(entry, Given) else []

    def check_names(self, entry: object, objects: Set[str]) -> None:
        """Refuses what isn't declared, or is of the other kind, and definitions that go round."""
        expressions = [entry.value] if isinstance(entry, Definition) else []
        for item in self.items(entry):
            expressions += item.sides if isinstance(item, Equation) else item.arguments
        for node in (node for expression in expressions for node in nodes(expression)):
            if (node.kind == "map" and node.text not in self.maps) or (node.kind == "object" and node.text not in objects):
                raise fault("S6", node.name or node.token)
        if isinstance(entry, Definition):
            later = [other.name.text for other in self.definitions[self.definitions.index(entry) :]]
            for node in nodes(entry.value):
                if node.kind == "map" and node.text in later:
                    raise fault("N8", node.token)

    def make(self, base: str, token: Token, others: Sequence[str] = ()) -> str:
        """A name that the file doesn't have: one of the others, or the base with a number behind it."""
        short = base.encode()[:24].decode(errors="ignore")
        numbered = (f"{short}{number}" for number in range(1, len(self.names) + 2))
        name = next(name for name in [*others, base, *numbered] if name not in self.names)
        self.names.add(name)
        self.made[name] = token
        return name

    # ---- Words

    def facts_of(self, item: Item) -> List[Fact]:
        """What an item stands for."""
        if isinstance(item, Equation):
            sides = item.sides
            return [Fact(item.token, [Equation(item.token, list(pair))]) for pair in zip(sides, sides[1:])]
        first, *others = self.applied(item)
        is_native = not others and first.word
        return [first if is_native else first._replace(note=item.text), *others]

    def applied(self, use: Use) -> List[Fact]:
        """What a word stands for; with more arguments than parameters, for each of them, or for each two."""
        parameters, arguments = use.word.parameters(), use.arguments
        lists: Iterable[Sequence[Node]] = combinations(arguments, len(parameters)) if use.word.is_many else [arguments]
        self.level += 1
        if self.level > LEVELS:
            raise fault("N12", use.token)
        found = [fact for given in lists for fact in self.applied_once(use, dict(zip(parameters, given)))]
        self.level -= 1
        return found

    def applied_once(self, use: Use, given: Dict[str, Node]) -> List[Fact]:
        """What a word stands for with as many arguments as it has parameters."""
        local: Dict[str, Node] = {}
        found: List[Fact] = []
        for item in use.word.items:
            if isinstance(item, Equation):
                sides = [self.put_side(side, given, local, use.token) for side in item.sides]
                found += [Fact(use.token, [Equation(use.token, list(pair))]) for pair in zip(sides, sides[1:])]
            else:
                arguments = [self.put_argument(argument, given, local, use.token) for argument in item.arguments]
                found += self.applied(Use(use.token, item.word, arguments))
        names, values = [text for text, _ in use.word.head], list(given.values())
        is_native = NATIVE.get(names[0]) == len(names) - 1 and all(value.kind == "map" for value in values)
        if is_native and [name for name in names[1:] if name not in given] == []:
            return [Fact(use.token, [fact.equations[0] for fact in found], names[0], [value.text for value in values])]
        return found

    def put(self, node: Node, given: Optional[Dict[str, Node]], local: Dict[str, Node], token: Token) -> Node:
        """A part of an equation of a word, with arguments for its parameters and new maps for its other names; or an argument."""
        self.size += 1
        if self.size > SIZE:
            raise fault("N12", token)
        if node.kind == "map" and given is not None:
            if node.text not in given:
                local[node.text] = local.get(node.text) or Node("map", token, self.new_map(node.text, token))
            value = given.get(node.text) or local[node.text]
            if value.kind == "number":
                raise fault("N5", value.token)
            return self.put(value, None, {}, token)
        parts = [self.put(part, given, local, token) for part in node.parts]
        marks = [self.put_mark(mark, given, token) for mark in node.marks]
        marks = [mark for mark in marks if mark.kind != "^" or mark.number != 1 or given is None]
        if node.kind == "product":
            parts = [factor for part in parts for factor in self.spliced(part)]
        return parts[0] if node.kind == "factor" and not marks else Node(node.kind, token, node.text, node.number, parts, node.signs, marks)

    def put_argument(self, node: Node, given: Dict[str, Node], local: Dict[str, Node], token: Token) -> Node:
        """An argument of a word in the equations of a word, which may be a literal."""
        value = given.get(node.text) if node.kind == "map" else node
        return value if value and value.kind == "number" else self.put_side(node, given, local, token)

    def put_side(self, node: Node, given: Dict[str, Node], local: Dict[str, Node], token: Token) -> Node:
        """An expression of an equation of a word; refused where it nests too many brackets."""
        value = self.put(node, given, local, token)
        if depth(value) > NESTED + 1:
            raise fault("S5", token)
        return value

    def spliced(self, part: Node) -> Sequence[Node]:
        """The factors of a bracket that is a product and no more."""
        is_product = part.kind == "sum" and len(part.parts) == 1 and part.signs[0] > 0
        return part.parts[0].parts if is_product and part.parts[0].kind == "product" and part.parts[0].number is None else [part]

    def put_mark(self, mark: Mark, given: Optional[Dict[str, Node]], token: Token) -> Mark:
        """A mark with the exponent that its parameter stands for."""
        if not mark.has_parameter or mark.exponent is None or given is None:
            return mark._replace(token=token)
        value = given[mark.exponent.text]
        if value.kind != "number" or value.number is None:
            raise fault("N5", value.token)
        return Mark(token, "^", value.number + mark.number, value.token)

    def new_map(self, base: str, token: Token) -> str:
        """The name of a new map."""
        name = self.make(base, token)
        self.maps[name] = token
        return name

    # ---- Ends

    def find_ends(self) -> None:
        """Finds the ends of all maps, and makes names for objects that have none."""
        ends = self.ends
        for token in self.file.objects:
            ends.named(token.text)
        signatures = {token.text: signature for token, signature in self.file.maps}
        for name in self.maps:
            signature = signatures.get(name)
            named = [ends.named(end.text) for end in signature[:2]] if signature else [ends.new(), ends.new()]
            ends.maps[name] = named[0], named[1]
        for entry in self.entries:
            if isinstance(entry, Definition):
                ends.equal("S11", entry.value.token, ends.maps[entry.name.text], ends.value(entry.value))
            for equation in (each for item in self.items(entry) for fact in self.facts[id(item)] for each in fact.equations):
                ends.equation(equation.sides)
        for name, token in self.maps.items():
            for end in ends.maps[name]:
                if ends.of(end) not in ends.names:
                    made = self.make(OBJECTS[0], token, OBJECTS)
                    ends.join(end, ends.named(made))

    # ---- Statements

    def statements(self, all_pairs: bool = False) -> List[Expanded]:
        """The statement of all claims without a condition, one for each claim with one or with a label, and those of cases."""
        plain = [item for entry in self.claims() if entry.is_plain() for item in entry.items]
        plans = [Plan(self.stem, Token("", "", 0, 0), [], [], plain)] if plain else []
        for number, claim in enumerate(self.claims(), 1):
            if not claim.is_plain():
                plans.append(Plan(f"{self.stem}-{claim.label or number}", claim.token, [], claim.conditions, claim.items))
        for entry in self.equivalences():
            numbers = range(len(entry.cases))
            pairs = [(one, two) for one in numbers for two in numbers if one != two]
            for one, two in pairs if all_pairs else [(one, (one + 1) % len(numbers)) for one in numbers]:
                first, second = entry.cases[one], entry.cases[two]
                name = f"{self.stem_of(entry)}-{ROMAN[one]}-{ROMAN[two]}"
                plans.append(Plan(name, entry.token, [*first.given, *second.given], first.items, second.items))
        if not plans:
            raise Refusal("# refused S15")
        names: Set[str] = set()
        for plan in plans:
            if plan.name in names:
                raise fault("S7", plan.token)
            names.add(plan.name)
            if len(names) > STATEMENTS:
                raise fault("S8", plan.token, f" limit {STATEMENTS}")
        return [Statement(self, plan, len(plans) == 1, plan.claims is plain).expanded() for plan in plans]

    def claims(self) -> List[Claim]:
        """The lines `claim`, in their order."""
        return [entry for entry in self.file.entries if isinstance(entry, Claim)]

    def equivalences(self) -> List[Cases]:
        """The lines `equivalent`, in their order."""
        return [entry for entry in self.file.entries if isinstance(entry, Cases)]

    def stem_of(self, entry: Cases) -> str:
        """How the names of its statements begin."""
        return f"{self.stem}-{entry.label}" if entry.label else self.stem


class Statement:
    """One statement as it is written, and of each piece of its lines the token that it stands for."""

    def __init__(self, whole: Expansion, plan: Plan, is_alone: bool, is_plain: bool) -> None:
        self.whole, self.plan, self.is_alone, self.is_plain, self.ends = whole, plan, is_alone, is_plain, whole.ends
        self.body: List[List[Piece]] = []
        self.used: Dict[str, None] = {}  # maps and objects
        self.entries = [*whole.file.entries, *plan.given]
        self.assumed = [item for entry in self.entries if isinstance(entry, Given) for item in entry.items] + plan.conditions
        self.inverses: Dict[Tuple[str, str], Set[str]] = {}
        for fact in self.facts(self.assumed):
            kind = {"inverse": "-1", "pinv": "†"}.get(fact.word)
            for one, two in zip(fact.maps, reversed(fact.maps)) if kind else ():
                self.inverses.setdefault((kind or "", one), set()).add(two)

    def facts(self, items: List[Item]) -> List[Fact]:
        """What items stand for."""
        return [fact for item in items for fact in self.whole.facts[id(item)]]

    def expanded(self) -> Expanded:
        """The statement, if the language takes it."""
        defined = [entry.name for entry in self.entries if isinstance(entry, Definition)][::-1]
        kept = [entry.tokens for entry in self.entries if isinstance(entry, Kept) and entry.tokens]
        for entry in self.entries[self.whole.file.heading :]:
            self.entry(entry)
        self.assumptions(self.plan.conditions)
        self.claims([item for item in self.plan.claims if not self.is_plain])
        self.check_claims()
        named = [token for tokens in kept if tokens[0].text == "eliminate" for token in tokens[1:]]
        named = [token for token in named if self.is_alone or token.text in self.used]
        names = defined + [token for token in named if token.text not in [name.text for name in defined]]
        if names and not any(tokens[0].text == "order" for tokens in kept):
            self.body.append([("eliminate", names[0]), *((f" {token.text}", token) for token in names)])
        lines = self.heading() + self.declarations() + self.body
        text = "".join("".join(piece for piece, _ in line) + "\n" for line in lines)
        self.check(text, lines)
        return Expanded(self.plan.name, text)

    def heading(self) -> List[List[Piece]]:
        """The comments that stand in front of everything, and the language."""
        notes = [entry.text for entry in self.entries[: self.whole.file.heading] if isinstance(entry, Kept)]
        name = f"{self.whole.stem}.opn" if self.whole.stem else "a text"
        return [[(line, None)] for line in [f"{HEAD}{name}", *(f"#{note}" for note in notes), "language 2"]]

    def declarations(self) -> List[List[Piece]]:
        """Objects and maps of this statement: a file with one statement has all its maps, and others have those that they use."""
        whole, ends = self.whole, self.ends
        everywhere = {name for name in whole.maps if self.is_alone}
        maps = [name for name in whole.maps if name in self.used or name in everywhere]
        own = {token.text for token, signature in whole.file.maps if signature and signature[2]}
        kinds = [(name, tuple(ends.name(end) for end in ends.maps[name]), name in own) for name in maps]
        needed = {end for _, pair, _ in kinds for end in pair} | set(self.used)
        places = {token.text: token for token in reversed(whole.file.objects)}
        objects = {token.text: token for token in whole.file.objects if token.text in needed or self.is_alone}
        objects.update({name: whole.made[name] for name in whole.made if name in needed and name not in whole.maps})
        named: List[Piece] = [(f" {name}", places.get(name, token)) for name, token in objects.items()]
        lines = [[("object", None), *named]] if named else []
        for (pair, is_own), group in groupby(kinds, key=lambda kind: kind[1:]):
            named = [(f" {name}", whole.maps[name]) for name, _, _ in group]
            lines.append([("map", None), *named, (f" : {pair[0]} -> {pair[1]}{' self' * is_own}", named[0][1])])
        return lines

    def entry(self, entry: object) -> None:
        """The lines of an entry; of claims those without a label and a condition, where the statement is theirs."""
        if isinstance(entry, Definition):
            self.equation("assume", Equation(entry.name, [Node("map", entry.name, entry.name.text), entry.value]))
        elif isinstance(entry, Given):
            self.assumptions(entry.items)
        elif isinstance(entry, Kept) and entry.tokens and entry.tokens[0].text != "eliminate":
            self.used.update({token.text: None for token in entry.tokens})
            self.body.append([(" " * (place > 0) + token.text, token) for place, token in enumerate(entry.tokens)])
        elif isinstance(entry, Kept) and not entry.tokens:
            self.body.append([(f"#{entry.text}", None)])
        elif isinstance(entry, Claim) and self.is_plain and entry.is_plain():
            self.claims(entry.items)

    def assumptions(self, items: List[Item]) -> None:
        """Writes the lines of items that are assumed."""
        for fact in self.facts(items):
            self.note(fact)
            if fact.word:
                self.used.update(dict.fromkeys(fact.maps))
                self.body.append([(fact.word, fact.token), *((f" {name}", fact.token) for name in fact.maps)])
            else:
                self.equation("assume", fact.equations[0])

    def note(self, fact: Fact) -> None:
        """Writes what was written in the place of a word."""
        self.body += [[(f"# {fact.note}", None)]] if fact.note else []

    def claims(self, items: List[Item]) -> None:
        """Writes the lines of items that are claimed."""
        for fact in self.facts(items):
            self.note(fact)
            for equation in fact.equations:
                self.equation("claim", equation)

    def check_claims(self) -> None:
        """Refuses a map of a claim of which nothing is said."""
        known = {token.text for token, _ in self.whole.file.maps}
        known |= {entry.name.text for entry in self.entries if isinstance(entry, Definition)}
        known |= {node.text for node in self.maps_of(self.assumed)}
        for node in self.maps_of(self.plan.claims):
            if node.text not in known:
                raise fault("N9", node.token)

    def maps_of(self, items: List[Item]) -> Iterator[Node]:
        """The maps of items, wherever they stand."""
        sides = [side for fact in self.facts(items) for equation in fact.equations for side in equation.sides]
        return (node for side in sides for node in nodes(side) if node.kind == "map")

    def check(self, text: str, lines: List[List[Piece]]) -> None:
        """Refuses what the language refuses, at the place in the file that was written."""
        try:
            check.Problem(text.encode())
        except Refusal as refusal:
            found = re.match(r"(# refused \w+) line ([0-9]+) column ([0-9]+)(.*)", str(refusal))
            if not found:
                raise
            start, token = 1, Token("", "", 1, 1)
            for piece, origin in lines[int(found.group(2)) - 1]:
                token = origin if origin and start <= int(found.group(3)) else token
                start += len(piece)
            raise Refusal(f"{found.group(1)} line {token.line} column {token.column}{found.group(4)}") from None

    # ---- Expressions

    def equation(self, word: str, equation: Equation) -> None:
        """Writes a line with an equation."""
        left, right = (self.pieces(side) for side in equation.sides)
        self.body.append([(f"{word} ", equation.token), *left, (" = ", equation.token), *right])

    def pieces(self, node: Node) -> List[Piece]:
        """An expression as it is written, without brackets around it."""
        if node.kind == "map":
            self.used[node.text] = None
            return [(node.text, node.token)]
        if node.kind == "object":
            self.used[node.text] = None
            return [(f"[{node.text}]", node.token)]
        if node.kind == "number":
            return [(self.number(node), node.token)]
        if node.kind == "factor":
            return self.marked(node)
        found: List[Piece] = [(f"{node.number} ", node.token)] if node.kind == "product" and node.number is not None else []
        for place, part in enumerate(node.parts):
            sign = {1: " + " * (place > 0), -1: " - " if place else "- "}[node.signs[place]] if node.kind == "sum" else " " * (place > 0)
            found += [(sign, node.token)] if sign else []
            found += self.pieces(part) if node.kind == "sum" else self.bracketed(part)
        return found

    def bracketed(self, node: Node) -> List[Piece]:
        """A factor: in brackets where it is a sum or a number."""
        return [("(", node.token), *self.pieces(node), (")", node.token)] if node.kind == "sum" else self.pieces(node)

    def number(self, node: Node) -> str:
        """So many times the identity of the object that was found, or a zero."""
        if node.number == 0:
            return "0"
        if self.ends.of(node.end) not in self.ends.names:
            raise fault("N6", node.token)
        self.used[self.ends.name(node.end)] = None
        return (f"{node.number} " if node.number != 1 else "") + f"[{self.ends.name(node.end)}]"

    def marked(self, node: Node) -> List[Piece]:
        """A factor with its marks, or the map that is its inverse."""
        base, marks = node.parts[0], list(node.marks)
        if marks[0].kind in ("-1", "†"):
            names = [*self.inverses.get((marks[0].kind, base.text), ())] if base.kind == "map" else []
            if len(names) != 1:
                raise fault("N7", marks[0].token)
            base, marks = Node("map", base.token, names[0]), marks[1:]
        found = self.bracketed(base)
        for mark in marks:
            if mark.kind in ("-1", "†"):
                raise fault("N7", mark.token)
            found += [("'", mark.token)] if mark.kind == "'" else [("^", mark.token), (str(mark.number), mark.exponent)]
        return found
