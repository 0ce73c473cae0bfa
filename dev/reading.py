#!/usr/bin/env python3
"""Prints what a promise says, from its page down to the first definitions, and nothing that it doesn't need.

usage: reading.py [PROMISE]

PROMISE is a page of `command_runs/specs/Promises/` (Proved, say); without it all of them are printed. A file of definitions serves many
promises, so of each file stand there what it takes from others, and the declarations that this promise names, itself or by others that it
names; the types, which stand in code, come last. What `std` and crates that aren't of this repository define is taken as known.
"""
from __future__ import annotations

import re
import signal
import sys
from functools import lru_cache
from pathlib import Path
from typing import Counter, Dict, FrozenSet, Iterator, List, NamedTuple, Optional, Set, Tuple

import modules

CONVENTIONS = """\
A name that is given as NAME : TYPE is what its equations say; a record is all of its fields, and a type with cases one of them.
Of a type T of the code, T' makes a value of its fields; where T holds values of T, Row_of-T is a list of them, end_of-T and more_of-T
are its cases, and roll-T and out-T lead to it and back. In definitions a vector, a slice and a list of the code is a list, a text the list
of its characters, and a number of any width an integer."""
# What a declaration of definitions begins with, at the left edge; its equations, cases and fields follow until the next one.
BEGINS = re.compile(r"(?:abbrev|pub|record|data|module)\b(?! use\b)|[^\s(){}]+ : ")
# Where a name is given: of a record or a type, by a signature, or of a case.
GIVES = re.compile(r"( *)(?:abbrev )?(?:pub )?(?:abbrev )?(?:(record|data) ([^\s:({]+)|([^\s:(){}]+) :)")
# A word of a definition, with what follows it after a point: a field, or a name of the file that the word is short for.
WORD = re.compile(r"[^\s(){}\[\];,]+")
# A file, or a type of the code, under a short name.
SHORT = re.compile(r"^\s*(?:pub )?(?:ghost )?use Rattle\.(\w+)\.specs\.([\w.]+) as (\w+);?$", re.M)
# A type of the code, with its remarks and attributes.
TYPE = re.compile(r"^(?:(?:///|#\[).*\n)*(?:pub )?(?:struct|enum|trait) (\w+)[^\n]*(?:;|\{\}|\{\n(?:.*\n)*?\})", re.M)
# What a file of code takes of another crate, or of another file of its own.
TAKES = re.compile(r"^use (\w+)::([^;]*);", re.M)


class Declaration(NamedTuple):
    names: FrozenSet[str]
    text: str
    words: FrozenSet[str]


class Need(NamedTuple):
    """A declaration by its file and its place there."""

    path: Path
    place: int


@lru_cache(maxsize=None)
def text_of(path: Path) -> str:
    return path.read_text(encoding="utf-8")


def is_code(path: Path) -> bool:
    return path.suffix == ".rt"


def given_by(lines: List[str]) -> FrozenSet[str]:
    """The names that a declaration gives: its own, and those inside of types with cases, modules, and declarations of one another. The fields
    of a record aren't names."""
    found: Set[str] = set()
    field_depth = 1000
    for line in lines:
        it = GIVES.match(line)
        if it and len(it[1]) < field_depth:
            field_depth = len(it[1]) + 1 if it[2] == "record" else 1000
            found.add(it[3] or it[4])
    return frozenset(found)


def words_of(lines: List[str]) -> FrozenSet[str]:
    return frozenset(word for line in lines if not line.lstrip().startswith("--") for word in WORD.findall(line))


@lru_cache(maxsize=None)
def declarations(path: Path) -> List[Declaration]:
    """The declarations of a file, each with the remarks before it: of definitions, or the types of a file of code."""
    if is_code(path):
        return [Declaration(frozenset([it[1]]), it[0], frozenset(re.findall(r"[\w◌-]+", it[0]))) for it in TYPE.finditer(text_of(path))]
    parts: List[List[str]] = []
    remarks: List[str] = []
    for line in text_of(path).splitlines():
        if line.startswith("--"):
            remarks.append(line)
        elif BEGINS.match(line):
            parts.append(remarks + [line])
            remarks = []
        elif line and parts:
            parts[-1] += remarks + [line]
            remarks = []
        elif not parts:
            remarks = []
    return [Declaration(given_by(part), "\n".join(part), words_of(part)) for part in parts]


@lru_cache(maxsize=None)
def taken(path: Path) -> Dict[str, Tuple[modules.Import, str]]:
    """The names that a file takes from definitions of this repository, each with where it stands and its name there, which a short name of
    a file has not."""
    pairs = [(it, said.strip()) for it in modules.imports(text_of(path)) for said in it.names.split(",")]
    pairs += [(modules.Import(crate, tuple(module.split(".")), ""), f" as {short}") for crate, module, short in SHORT.findall(text_of(path))]
    named = ((it, said.partition(" as ")) for it, said in pairs if (modules.CRATES / it.crate).is_dir())
    return {short or name: (it, name) for it, (name, _, short) in named}


def places(path: Path, name: str) -> List[Need]:
    return [Need(path, place) for place, it in enumerate(declarations(path)) if name in it.names]


def of_type(it: modules.Import) -> List[Need]:
    """The declaration of a type that definitions take from code: its name follows the path of the file in that of the module."""
    path = modules.declaring(it)
    return [need for name in it.module for need in places(path, name)]


def of_code(path: Path, name: str) -> List[Need]:
    """The type that a file of code names, and takes from its own crate or another one."""
    for crate, names in TAKES.findall(text_of(path)):
        folder = path.parents[len(path.relative_to(modules.CRATES).parts) - 3] if crate == "crate" else modules.CRATES / crate / "src"
        if re.search(rf"\b{re.escape(name)}\b", names):
            return [need for file in sorted(folder.rglob("*.rt")) for need in places(file, name)]
    return []


def meant(path: Path, word: str) -> List[Need]:
    """What a word means in this file: a declaration here, or in a file that it is taken from, which may pass it on."""
    name, _, inner = word.partition(".")
    here = places(path, name) or places(path, f"◌{name}◌")
    it, there = taken(path).get(name) or taken(path).get(f"◌{name}◌") or (None, "")
    if here or not it:
        return here or (of_code(path, name) if is_code(path) else [])
    return of_type(it) if it.module[0] == "declared" else meant(modules.home(it), there or inner)


def declared(need: Need) -> Declaration:
    return declarations(need.path)[need.place]


def needed(page: Path) -> List[Need]:
    """All that the page names, and all that this names, in the order in which they are met."""
    met: Dict[Need, None] = {}
    work = [Need(page, place) for place in range(len(declarations(page)))]
    while work:
        need = work.pop(0)
        if need not in met:
            met[need] = None
            work += [found for word in sorted(declared(need).words) for found in meant(need.path, word)]
    return list(met)


def by_file(page: Path) -> Dict[Path, List[Declaration]]:
    """The declarations that the page needs by files, these in the order in which they are met, definitions before types."""
    files: Dict[Path, Set[int]] = {}
    for need in needed(page):
        files.setdefault(need.path, set()).add(need.place)
    return {path: [declarations(path)[place] for place in sorted(files[path])] for path in sorted(files, key=is_code)}


def lines(page: Path) -> Counter[str]:
    """The lines that a reader of the page reads, by the suffixes of their files."""
    found: Counter[str] = Counter()
    for path, parts in by_file(page).items():
        found[path.suffix] += sum(len(it.text.splitlines()) for it in parts)
    return found


def imports(path: Path, parts: List[Declaration]) -> Iterator[str]:
    """What these declarations of a file take from others, a line for each of those."""
    words = {word.partition(".")[0] for it in parts for word in it.words}
    sources: Dict[str, List[str]] = {}
    for short, (it, name) in taken(path).items():
        if {short, short.strip("◌")} & words:
            said = short if short == name else f"{name} as {short}".strip()
            sources.setdefault(f"{it.crate}.{'.'.join(it.module)}", []).append(said)
    return (f"from {source}: {', '.join(names)}" for source, names in sources.items())


def printed(page: Path) -> str:
    texts = [CONVENTIONS]
    for path, parts in by_file(page).items():
        head = [f"== {path.relative_to(modules.CRATES)}", *([] if is_code(path) else imports(path, parts))]
        texts += ["\n".join(head), *(it.text for it in parts)]
    return "\n\n".join(texts)


def page_of(words: List[str]) -> Optional[Path]:
    """The page that the words ask for."""
    pages = {page.stem: page for page in modules.PAGES.glob("*.antt")}
    pages[""] = modules.PAGES.with_suffix(".antt")
    return pages.get("".join(words)) if len(words) < 2 else None


def main(words: List[str]) -> int:
    page = page_of(words)
    if not page:
        print("usage: reading.py [PROMISE]; the promises are the files of crates/command_runs/specs/Promises", file=sys.stderr)
        return 2
    print(printed(page))
    return 0


if __name__ == "__main__":
    # (a reader that closes the pipe, as head, ends it)
    signal.signal(signal.SIGPIPE, signal.SIG_DFL)
    sys.exit(main(sys.argv[1:]))
