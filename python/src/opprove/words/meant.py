"""What is often typed in a statement, and how a statement has it: a table of patterns around the place of a fault."""
from __future__ import annotations

import re
from typing import Dict, List, NamedTuple, Optional, Tuple

from opprove.words.parts import listed

AT = "\0"  # stands at the place of the fault, and `~` in the patterns
FACTOR = r"(?P<base>\w+|\([^()]*\)|\[\w+\])"
STAR = r"(?:\*(?!\s*[\w(\[])|\*(?=\s)|†|T\b|t\b|H\b)"
OTHERS = r"\b(?:rank|trace|tr|det|norm|ker|im|dim|exp|range|lim)\b"
HAS = "sums, products, adjoints and identities of maps, and nothing else"
Ends = Tuple[str, str]


class Typed(NamedTuple):
    """A line with its fault: its text in front of the place and from there on, and the source and target of each map declared."""

    before: str
    after: str
    maps: Dict[str, Ends]

    def marked(self) -> str:
        return f"{self.before}{AT}{self.after}"


ADJOINT = "the adjoint is written with ', as {base}'"
WORDS: Dict[str, str] = {  # instead of the first word of a line
    **dict.fromkeys("given suppose hypothesis hyp if assumption assumptions axiom where with relation".split(), "assume"),
    **dict.fromkeys("prove show theorem lemma then thus goal conclude conclusion conjecture so".split(), "claim"),
}
SAID = {"assume": "an assumption", "claim": "a claim"}
IMPLIES = r"=>|⇒|⟹|⊢|\b(?:implies|then)\b"
SEVERAL = (  # of lines with several equations: how they look, and what stands between the equations
    (r"=~>|~(?:⇒|⟹|⊢)|\b(?:implies|then)\b.*~=", IMPLIES), (r"=.*~[,;&]", "[,;&]"), (r"=.*\band\b.*~=", r"\band\b"),
    (r"=[^=]*[^=~\s>]\s*~=", "="),
)  # fmt: skip
MEANT: List[Tuple[str, str]] = [
    (r"(?:^\s*|\s)~(?://|%|/\*)|^\s*~--|\s-~-\s", "a comment begins with #"),
    (r"^\s*map\b.*(?:=~>|~(?:⇒|→|⟶|↦|>))", "the arrow is written ->"),
    (r"^\s*map\b.*->.*~,", "a line `map` declares maps alone; what they satisfy has a line `assume E = E` of its own"),
    (r"^\s*(?:object|map|pinv|inverse|inner|projection|solve|model|order|eliminate)\b[^=]*~,", "names are separated by blanks"),
    (FACTOR + r"\^?~\^?\{?\\dagger\b\}?|" + FACTOR.replace("base", "other") + r"\^?~\^?†",
     ADJOINT + "; a Moore-Penrose inverse is `pinv {base} x`"),
    (FACTOR + r"\^?~\^?\{?(?:" + STAR + r"|\\(?:ast|top|intercal)\b)\}?|" + FACTOR.replace("base", "other") + r"\^~'|"
     + FACTOR.replace("base", "third") + r"~\^'", ADJOINT),  # fmt: skip
    (r"(?P<base>\b\w+)\^?~\^?[({]?-\s*1[)}]?|~inv\w*\s*\(\s*(?P<other>\w+)\)",
     "an inverse is a map of its own: `inverse {base} x` says that x is that of {base}"),
    (r"\)\^?~\^?[({]?-\s*1[)}]?|~inv\w*\s*\(",
     "an inverse is that of a map with a name: `assume c = E`, then `inverse c x` says that x is that of c"),
    (r"\b(?:if|iff|whenever|where)\b.*~=|~<=>|~⇔",
     "each assumption has a line `assume E = E` of its own, and what follows from them a line `claim E = E`"),
    (r"~/\s*(?P<base>[0-9]+)", "coefficients are integers: multiply the equation by {base}"),
    (r"[0-9]~\.[0-9]", "coefficients are integers: multiply the equation until all of them are"),
    (r"\[\s*(?P<base>\w+)\s*~,\s*(?P<other>\w+)\s*\]", "a commutator is written out, as {base} {other} - {other} {base}"),
    (r"=~=|~(?:≡|:=|≔)|:~=", "an equation is written with one ="),
    (r"~(?:!=|≠|<>|<|≤|≥|≼|>|∈|∼)", "a line has an equation, and nothing else between its sides"),
    (r"^\s*(?P<base>assume|claim)\s*~:", "no colon stands after `{base}`"),
    (r"^\s*~(?:let|define|def|set|put)\b", "an abbreviation is a map, `map c : V -> W`, and an assumption, `assume c = E`"),
    (r"^\s*~self\b", "`self` ends a line `map h : V -> V self`"),
    (r"~(?:⊗|⊕|\||‖)", f"a statement has {HAS}"),
    (r"\[[^\]\[]*~[-+]", "sums stand in round brackets, and [V] is the identity of an object V"),
    (r"\s~(?:\*|\.)\s|~(?:\*|\.)(?=[\w(\[])|~(?:·|∘|×|⋅|•)|~\w+[·∘]\w", "products are written side by side, as a b"),
    (r"~[{}]", "brackets are round"),
    (r"~[−–—]", "minus is -"),
    (r"~[`’′´]", "the adjoint is written with '"),
    (r"~;", "each equation and each declaration has a line of its own"),
    (r"~,", "names are separated by blanks"),
    (r"~/", "nothing is divided: an inverse is a map of its own, which `inverse a x` declares to be one"),
    (r"~\ufeff", "this is a byte order mark; the file has to be saved without one"),
    (r"~\u00a0", "blanks and tabs separate, and this is a no-break space"),
    (r"~\r", "this carriage return has no line feed after it, so it doesn't end the line"),
]  # fmt: skip


def meant(typed: Typed) -> Optional[str]:
    """How a statement has what is typed at this place; none where nothing is known to be meant."""
    text = typed.marked()
    word = re.match(r"\s*\0(\w+)", text)
    if word and word.group(1).lower() in WORDS:
        return f"{SAID[WORDS[word.group(1).lower()]]} is written `{WORDS[word.group(1).lower()]} E = E`"
    if re.match(r"\s*(?:assume|claim)\b", text):
        for pattern, sign in SEVERAL:
            if re.search(pattern.replace("~", AT), text):
                return separate(typed, sign)
    return of_no_map(typed) or identity(typed) or by_pattern(typed.marked())


def of_no_map(typed: Typed) -> Optional[str]:
    """Of what no map is, as a rank."""
    found = re.search(OTHERS, typed.before + re.split(r"\W", typed.after)[0])
    is_said = found and found.group() not in typed.maps
    return f"{found.group()} can't be said: a statement has {HAS}" if found and is_said else None


def separate(typed: Typed, pattern: str) -> str:
    """Of several equations in a line, each in a line of its own: what implies another one is an assumption."""
    word, text = re.match(r"\s*(\w*)(.*)", typed.before + typed.after).groups()  # type: ignore[union-attr]
    parts = [part.strip() for part in re.split(pattern, text.split("#")[0]) if part.strip()]
    if pattern == "=":
        parts = [f"{one} = {other}" for one, other in zip(parts, parts[1:])]
    words = ["assume"] * (len(parts) - 1) + ["claim"] if pattern == IMPLIES else [word] * len(parts)
    return f"each equation has a line of its own: {listed([f'`{it} {part}`' for it, part in zip(words, parts)])}"


def by_pattern(text: str) -> Optional[str]:
    for pattern, sentence in MEANT:
        found = re.search(pattern.replace("~", AT), text)
        if found:
            groups = found.groupdict()
            base = next((groups[name] for name in ("base", "other", "third") if groups.get(name)), "")
            return sentence.format(base=base, other=groups.get("other") or "")
    return None


def identity(typed: Typed) -> Optional[str]:
    """Of an identity that names no object: a number alone, or I."""
    is_number = re.search(r"(?:^|[=+\-(\s])[0-9]+\s*$", typed.before) and re.match(r"\s*(?:[=+\-)#]|$)", typed.after)
    is_name = re.match(r"(?:I|Id|id|ID|E|e|one|1)(?:\b|_)", typed.after) and re.match(r"\s*(?:assume|claim)\b", typed.before)
    if not is_number and not is_name:
        return None
    found = object_of(re.sub(r"^\s*\w+", "", typed.before + typed.after), typed.maps)
    return f"the identity of {found} is [{found}]" if found else "the identity of an object V is [V]"


def object_of(text: str, maps: Dict[str, Ends]) -> str:
    """The object that some product in an equation leads from and to; empty where none is seen."""
    for term in re.split(r"[=+\-]", text):
        factors = re.findall(r"([^\W\d]\w*)('*)", term)
        if factors and all(name in maps for name, _ in factors):
            ends = [maps[name][:: -1 if len(marks) % 2 else 1] for name, marks in factors]
            if ends[0][1] == ends[-1][0]:
                return ends[0][1]
    return ""
