"""The ends of maps and expressions: which objects are the same, by what stands beside one another."""
from __future__ import annotations

from typing import Callable, Dict, List, Tuple

from opprove.checkers.check import Token
from opprove.notation.parts import Node, fault

Signature = Tuple[int, int]  # source and target, by the numbers of ends


class Ends:
    """Ends with numbers, in classes of those that are the same object, and the names of classes that have one."""

    def __init__(self) -> None:
        self.above: List[int] = []  # each end leads to its class
        self.names: Dict[int, str] = {}
        self.numbers: Dict[str, int] = {}
        self.maps: Dict[str, Signature] = {}

    def new(self) -> int:
        """A new end, in a class of its own."""
        self.above.append(len(self.above))
        return self.above[-1]

    def named(self, name: str) -> int:
        """The end that is the object of this name."""
        if name not in self.numbers:
            self.numbers[name] = self.new()
            self.names[self.numbers[name]] = name
        return self.numbers[name]

    def of(self, end: int) -> int:
        """The class of an end."""
        while self.above[end] != end:
            self.above[end] = self.above[self.above[end]]
            end = self.above[end]
        return end

    def name(self, end: int) -> str:
        """The name of an end, or ? where it has none."""
        return self.names.get(self.of(end), "?")

    def join(self, left: int, right: int) -> bool:
        """Makes two ends the same; false where they have different names."""
        left, right = self.of(left), self.of(right)
        names = {self.names.get(left), self.names.get(right)} - {None}
        if len(names) == 2:
            return False
        self.above[right] = left
        self.names.update({left: name for name in names if name})
        return True

    def meet(self, code: str, token: Token, pairs: List[Tuple[int, int]], left: Signature, right: Signature) -> None:
        """Makes the ends of each pair the same, and refuses where that can't be, with both signatures."""
        if not all([self.join(*pair) for pair in pairs]):
            ends = [self.name(end) for end in left + right]
            raise fault(code, token, " left {} -> {} right {} -> {}".format(*ends))

    def equal(self, code: str, token: Token, left: Signature, right: Signature) -> None:
        """Makes two signatures the same."""
        self.meet(code, token, list(zip(left, right)), left, right)

    def equation(self, sides: List[Node]) -> None:
        """Makes the ends of all sides the same."""
        first = self.value(sides[0])
        for side in sides[1:]:
            self.equal("S11", side.token, first, self.value(side))

    def value(self, node: Node) -> Signature:
        """The ends of an expression."""
        rules: Dict[str, Callable[[Node], Signature]] = {
            "map": self.map, "object": self.object, "number": self.number, "sum": self.sum, "product": self.product, "factor": self.factor,
        }  # fmt: skip
        return rules[node.kind](node)

    def map(self, node: Node) -> Signature:
        if node.text not in self.maps:
            raise fault("S6", node.token)
        return self.maps[node.text]

    def object(self, node: Node) -> Signature:
        if node.text not in self.numbers:
            raise fault("S6", node.token)
        return self.numbers[node.text], self.numbers[node.text]

    def number(self, node: Node) -> Signature:
        """A number is so many times the identity; a zero leads from anywhere to anywhere."""
        node.end = self.new()
        return node.end, node.end if node.number else self.new()

    def sum(self, node: Node) -> Signature:
        values = [self.value(term) for term in node.parts]
        for term, value in zip(node.parts[1:], values[1:]):
            self.equal("S11", term.token, values[0], value)
        return values[0]

    def product(self, node: Node) -> Signature:
        values = [self.value(factor) for factor in node.parts]
        source, target = values[0]
        for factor, value in zip(node.parts[1:], values[1:]):
            self.meet("S10", factor.token, [(source, value[1])], (source, target), value)
            source = value[0]
        return source, target

    def factor(self, node: Node) -> Signature:
        source, target = self.value(node.parts[0])
        for mark in node.marks:
            if mark.kind == "^" and mark.number > 1:
                self.meet("S10", mark.token, [(source, target)], (source, target), (source, target))
            elif mark.kind != "^":
                source, target = target, source
        return source, target
