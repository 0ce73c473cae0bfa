#!/usr/bin/env python3
"""The public functions that no row of docs/PROOF_MAP.md names.

usage: unmapped.py

Public is what a crate hands out: a `pub fn` whose name the crate's root passes on, and each `pub fn` of an `impl` of a type that it passes on.
A row names a function where it has, in backquotes, the function's name and that of its type, or of its crate where it is no method. Tests
and programs hand out nothing.
Each function that no row names is printed as `crate::name` or `crate::Type::name`. The status is 1 where there is one.
"""
from __future__ import annotations

import re
import sys
from pathlib import Path
from typing import Iterator, List, NamedTuple, Set

TOP = Path(__file__).resolve().parents[1]
CRATES, DOCUMENT = TOP / "crates", TOP / "docs" / "PROOF_MAP.md"
IMPL = re.compile(r"^impl(?:<[^{]*?>)? (?:[\w:<>, ]+ for )?(\w+)", re.M)
FUNCTION = re.compile(r"^( *)pub fn (\w+)", re.M)
PASSED_ON = re.compile(r"^pub use ([^;]+);", re.M)


class Call(NamedTuple):
    crate: str
    type: str
    name: str

    def __str__(self) -> str:
        return "::".join(part for part in self if part)


def passed_on(root: Path) -> Set[str]:
    """The names that a crate's root hands out, as they are written there."""
    return {word for use in PASSED_ON.findall(root.read_text(encoding="utf-8")) for word in re.findall(r"\w+", use)}


def calls() -> Iterator[Call]:
    for root in sorted(CRATES.glob("*/src/lib.rt")):
        crate = root.parents[1].name
        if crate.endswith("_tests"):
            continue
        names = passed_on(root)
        for path in sorted(root.parent.rglob("*.rt")):
            text = path.read_text(encoding="utf-8")
            for found in FUNCTION.finditer(text):
                indent, name = found.groups()
                types = IMPL.findall(text[: found.start()]) if indent else [""]
                owner = types[-1] if types else ""
                if (owner or name) in names or path == root:
                    yield Call(crate, owner, name)


def rows() -> List[Set[str]]:
    """The words in backquotes of each row."""
    lines = (line for line in DOCUMENT.read_text(encoding="utf-8").splitlines() if line.startswith("|"))
    return [{word for code in re.findall(r"`([^`]+)`", line) for word in re.findall(r"\w+", code)} for line in lines]


def unmapped() -> Iterator[Call]:
    found = rows()
    return (call for call in calls() if not any({call.name, call.type or call.crate} <= words for words in found))


if __name__ == "__main__":
    missing = [f"{call}\n" for call in unmapped()]
    sys.stdout.writelines(missing)
    sys.exit(int(bool(missing)))
