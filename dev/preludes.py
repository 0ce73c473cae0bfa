#!/usr/bin/env python3
"""What the proofs of a crate take from elsewhere, named once: preludes.py [--write]

`proofs/Prelude.antt` of a crate names each lemma and definition of std, of the crates below and of the crate's own definitions that its
proofs take; a file of proofs takes them from there, and else only names of its crate's own proofs. A name with two meanings in a crate has
one in the prelude, that which more files take when it gets there, and files with the other import that one themselves. So do the files that
definitions and clauses stand on.

Prints each file that takes a name past its prelude, and each name of a prelude that no file takes; the status is 1 where there is one.
With --write the preludes and the imports are written anew.
"""
from __future__ import annotations

import re
import shutil
import sys
from collections import Counter, defaultdict
from functools import lru_cache
from pathlib import Path
from typing import Dict, Iterator, List, NamedTuple, Optional, Set, Tuple

TOP = Path(__file__).resolve().parents[1]
CRATES = TOP / "crates"
IMPORT = re.compile(r"^((?:unfoldable )?pub |ghost )?use (Rattle\.[^{ ]+)\.\{(.*)\};?$")
# The definitions that a proof opens.
OPENED = re.compile(r"^\s*unfolding (.*)$", re.M)
COMMENT = "-- What the proofs here take from std, from the crates below and from this crate's definitions, each name once."
# The module that defines a name, and the name there.
Meaning = Tuple[str, str]


class Item(NamedTuple):
    path: str
    given: str
    name: str

    def __str__(self) -> str:
        return self.name if self.given == self.name else f"{self.given} as {self.name}"


@lru_cache(maxsize=None)
def crates() -> List[str]:
    """The crates, each after those that it stands on."""
    return [re.split(r"[: ]", line)[0] for line in (TOP / "crates.txt").read_text(encoding="utf-8").splitlines() if line]


def kit() -> Path:
    """The sources of std, which pass on names of their own; `rt` stands beside them."""
    command = shutil.which("rt")
    if command is None:
        raise SystemExit("preludes.py: rt is not installed, which has the names that std passes on")
    return Path(command).resolve().parents[1] / "rattle"


def items(line: str) -> Tuple[bool, List[Item]]:
    """Whether the line of imports passes its names on, and what it imports; nothing where it is none."""
    found = IMPORT.match(line)
    if not found:
        return False, []
    parts = (part.strip().partition(" as ") for part in found[3].split(", "))
    return bool(found[1]), [Item(found[2], given, name or given) for given, _, name in parts]


def lines_of(path: str) -> List[str]:
    """The lines of the module of this path, or none where it is declared by code."""
    inner = "/".join(path.split(".")[1:]) + ".antt"
    file = next((it for it in (CRATES / inner, kit() / inner) if it.is_file()), None)
    return file.read_text(encoding="utf-8").splitlines() if file else []


@lru_cache(maxsize=None)
def home(path: str) -> str:
    """The module that the path means, where a crate passes on one of another crate as its own."""
    start, _, rest = path.replace(".", "/", 2).partition(".")
    listing = start.replace("/", ".") + ".Lib"
    passed = (re.match(r"pub use (Rattle\.\S+)\.(\w+)$", line) for line in lines_of(listing))
    module = rest.split(".")[0]
    other = next((found[1] for found in passed if found and found[2] == module), None)
    return home(f"{other}.{rest}") if other else path


@lru_cache(maxsize=None)
def passed_on(path: str) -> Dict[str, Meaning]:
    """The names that the module of this path passes on, with what they are."""
    return {it.name: (it.path, it.given) for is_public, found in map(items, lines_of(path)) if is_public for it in found}


def meaning(item: Item) -> Meaning:
    """The module and the name under which the item was defined."""
    path, name = home(item.path), item.given
    while name in passed_on(path):
        path, name = passed_on(path)[name]
        path = home(path)
    return path, name


@lru_cache(maxsize=None)
def cited() -> Set[str]:
    """The modules of proofs that definitions and clauses stand on: whoever reads those reads these too, so they import by themselves what
    they take, and lead to no module that is made for proofs.
    """
    found: Set[str] = set()
    files = [*CRATES.glob("*/specs/**/*.antt"), *CRATES.glob("*/src/**/*.rt")]
    texts = [file.read_text(encoding="utf-8").splitlines() for file in files]
    while texts:
        modules = {meaning(it)[0] for line in texts.pop() for it in items(line)[1]}
        new = {path for path in modules if path.split(".")[2] == "proofs" and path.split(".")[1] in crates()} - found
        texts += [lines_of(path) for path in new]
        found |= new
    return found


class Room:
    """The proofs of a crate."""

    def __init__(self, crate: str) -> None:
        self.crate = crate
        self.folder = CRATES / crate / "proofs"
        self.prelude, self.path = self.folder / "Prelude.antt", f"Rattle.{crate}.proofs.Prelude"
        every = {file: file.read_text(encoding="utf-8").splitlines() for file in self.files()}
        self.apart = {file: lines for file, lines in every.items() if f"Rattle.{crate}.proofs.{file.stem}" in cited()}
        self.texts = {file: lines for file, lines in every.items() if file not in self.apart}
        self.opened = {(it.name, meaning(it)) for lines in self.texts.values() for it in self.opened_in(lines)}
        self.chosen = self.choice()

    def files(self) -> Iterator[Path]:
        return (file for file in sorted(self.folder.rglob("*.antt")) if file.name != "Lib.antt" and file != self.prelude)

    def taken(self, line: str) -> List[Item]:
        """What the line imports that a prelude may name, whether it takes it from there or not."""
        is_public, found = items(line)
        own = f"Rattle.{self.crate}.proofs."
        return [] if is_public else [it for it in found if it.path == self.path or not it.path.startswith(own)]

    def opened_in(self, lines: List[str]) -> Iterator[Item]:
        """What the file imports of the definitions that its proofs open."""
        names = {name for found in OPENED.findall("\n".join(lines)) for name in found.split()}
        return (it for line in lines for it in self.taken(line) if it.name in names)

    def choice(self) -> Dict[str, Item]:
        """The item that each name of the prelude stands for."""
        counts: Dict[str, Counter[Meaning]] = defaultdict(Counter)
        ways: Dict[Tuple[str, Meaning], Counter[Item]] = defaultdict(Counter)
        for it in (it for lines in self.texts.values() for line in lines for it in self.taken(line)):
            counts[it.name][meaning(it)] += 1
            if it.path != self.path:
                ways[it.name, meaning(it)][it] += 1
        old = {it.name: it for line in self.written() for it in items(line)[1]}
        chosen: Dict[str, Item] = {}
        for name, found in counts.items():
            again = old.get(name)
            if again and found[meaning(again)]:
                chosen[name] = again
            else:
                found_by = ways[name, max(found, key=lambda it: (found[it], it))]
                chosen[name] = max(found_by, key=lambda it: (found_by[it], it))
        return chosen

    def written(self) -> List[str]:
        return self.prelude.read_text(encoding="utf-8").splitlines() if self.prelude.is_file() else []

    def rank(self, path: str) -> Tuple[int, int, str]:
        """Modules of std come first, then those of the crates below, then the crate's own."""
        crate = path.split(".")[1]
        below = crates().index(crate) if crate in crates() else -1
        return (1 + (crate == self.crate) if below >= 0 else 0, below, path)

    def names(self) -> List[str]:
        """The lines of the prelude."""
        groups: Dict[Tuple[str, bool], List[Item]] = defaultdict(list)
        for item in self.chosen.values():
            groups[item.path, (item.name, meaning(item)) in self.opened].append(item)
        order = sorted(groups, key=lambda it: (*self.rank(it[0]), it[1]))
        words = {it: "unfoldable pub use" if it[1] else "pub use" for it in order}
        lines = [f"{words[it]} {it[0]}.{{{', '.join(map(str, sorted(groups[it])))}}}" for it in order]
        return [COMMENT, *lines] if lines else []

    def imports(self, lines: List[str]) -> List[str]:
        """The lines of a file that takes all it can from the prelude."""
        out: List[str] = []
        got: List[str] = []
        place: Optional[int] = None
        for line in lines:
            found = self.taken(line)
            if not found:
                out.append(line)
                continue
            place = len(out) if place is None else place
            other = [it for it in found if meaning(it) != meaning(self.chosen[it.name])]
            got += [it.name for it in found if it not in other and it.name not in got]
            if other:
                out.append(f"use {found[0].path}.{{{', '.join(map(str, other))}}}")
        if got:
            out.insert(place or 0, f"use {self.path}.{{{', '.join(got)}}}")
        return out

    def direct(self, lines: List[str]) -> List[str]:
        """The lines of a file that takes nothing from the prelude."""
        given = {it.name: it for line in self.written() for it in items(line)[1]}
        out: List[str] = []
        for line in lines:
            found = [it for it in items(line)[1] if it.path == self.path]
            groups: Dict[str, List[Item]] = defaultdict(list)
            for it in found:
                groups[given[it.name].path].append(given[it.name])
            out += [f"use {path}.{{{', '.join(map(str, groups[path]))}}}" for path in sorted(groups, key=self.rank)] or [line]
        return out

    def changes(self) -> Dict[Path, List[str]]:
        """The files that are to be written anew, with their lines."""
        new = {file: self.imports(lines) for file, lines in self.texts.items()}
        new.update((file, self.direct(lines)) for file, lines in self.apart.items())
        changed = {file: lines for file, lines in new.items() if lines != self.texts.get(file, self.apart.get(file))}
        if self.names() != self.written():
            changed[self.prelude] = self.names()
        listing = self.folder / "Lib.antt"
        modules = listing.read_text(encoding="utf-8").splitlines() if listing.is_file() else []
        if self.names() and "mod Prelude" not in modules:
            changed[listing] = ["mod Prelude", *modules]
        return changed


def main() -> int:
    changes: Dict[Path, List[str]] = {}
    for crate in (it for it in crates() if (CRATES / it / "proofs").is_dir()):
        changes.update(Room(crate).changes())
    if sys.argv[1:] == ["--write"]:
        for file, lines in changes.items():
            file.write_text("".join(f"{line}\n" for line in lines), encoding="utf-8")
        return 0
    for file in changes:
        print(f"{file.relative_to(TOP)}: {'names what no file takes' if file.name == 'Prelude.antt' else 'takes names past the prelude'}")
    return int(bool(changes))


if __name__ == "__main__":
    sys.exit(main())
