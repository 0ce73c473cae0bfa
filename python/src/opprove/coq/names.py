"""What the letters of a statement are called in Coq."""
from __future__ import annotations

import re
import unicodedata
from typing import Dict, List, Set

from opprove.checkers.check import Problem

# Words of Coq, and those of exported files and of the library that a theorem or its proof uses.
RESERVED = """_ as at by cofix else end exists exists2 fix for forall fun if in is let match mod of open return then using where with
Axiom CoFixpoint Definition Fixpoint Hypothesis Parameter Prop SProp Set Theorem Type Variable
preadditive involution cancels cancels_one cancel proper positive monic epic is_proper is_positive by_certificate by_starred_certificate
by_proper_certificate by_positive_certificate sigs hyps matrices_modulo transposes_modulo by_rows inverses_cancel derivable
with_adjoints identities of_letter Map Self power scale Z nat""".split()
DEFINED = "(claim|checked|items?|rows|rest|rules|steps|matrix)_[0-9](.*[0-9a-z])?"  # names of exported definitions


def is_read(name: str) -> bool:
    """Whether Coq surely reads a name: its letters are of Unicode 3.2, and still letters."""
    categories = (unicodedata.category, unicodedata.ucd_3_2_0.category)
    signs = [sign for sign in name if not sign.isascii()]
    return all(sign < "\U0002f800" and all(of(sign) in ("Lu", "Ll", "Lo") for of in categories) for sign in signs)


class Names:
    """What the letters of a problem are called, and the places of objects and maps, from 0."""

    def __init__(self, problem: Problem) -> None:
        self.objects = [letter for letter, name in enumerate(problem.names) if name[0] == "["]
        self.maps = [letter for letter, name in enumerate(problem.names) if name[0] != "[" and name[-1] != "'"]
        self.place = {letter: place for letters in (self.objects, self.maps) for place, letter in enumerate(letters)}
        self.stars = {problem.stars[letter]: letter for letter in self.maps}  # the maps of adjoints
        self.taken: Set[str] = set(RESERVED)
        self.of: Dict[int, str] = {}
        self.notes: List[str] = []  # on names that aren't those of the statement
        for kind, letters in (("object", self.objects), ("map", self.maps)):
            for letter in letters:
                name = problem.names[letter].strip("[]")
                self.of[letter] = self.fresh(name if is_read(name) else f"{kind}_{self.place[letter] + 1}")
                if self.of[letter] != name:
                    self.notes.append(f"(* {self.of[letter]} is the {kind} {name}. *)")

    def fresh(self, name: str) -> str:
        """The name, with _ appended until it is new. Names such as claim_1 and rows_1_2 are for definitions."""
        while name in self.taken or re.fullmatch(DEFINED, name):
            name += "_"
        self.taken.add(name)
        return name

    def star_or_map(self, letter: int) -> str:
        """A map or its adjoint, as theorems have it."""
        return self.of[letter] if letter in self.of else f"{self.of[self.stars[letter]]}†"
