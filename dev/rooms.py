#!/usr/bin/env python3
"""What tells how much of the crates stands twice or is hard to change: rooms.py

A table of the crates, the lines of their folders, conversions between the two notions of what holds of all elements of a list, enums for
what goes wrong, and functions with more than six parameters. Lines of the small kind of block `shifts` show what a kind costs.
"""
from __future__ import annotations

import re
from pathlib import Path
from typing import Iterator, List

TOP = Path(__file__).resolve().parents[1]
CRATES = TOP / "crates"
IMPORT = re.compile(r"(?:unfoldable )?(?:pub )?use ")
CONVERSION = re.compile(r"\b(?:All-from_recursion|recursion_from_All)\b")
WRONG = re.compile(r"\benum (\w*(?:Fault|Flaw|Stop|Refusal|Misfit|Cause|Error))\b")
# A function of Rust, up to its result or its body; the parameters are what stands in its outer brackets.
FUNCTION = re.compile(r"\bfn (\w+)(?:<[^{;]*?>)?\(((?:[^()]|\([^()]*\))*)\)")
SHIFTS = re.compile(r"[Ss]hift")


def files(folder: str, suffix: str) -> Iterator[Path]:
    """The files of this folder of all crates."""
    for crate in sorted(CRATES.iterdir()):
        yield from sorted((crate / folder).rglob(f"*{suffix}"))


def text(path: Path) -> str:
    return path.read_text(encoding="utf-8")


def lines(paths: List[Path]) -> int:
    return sum(len(text(path).splitlines()) for path in paths)


def conversions() -> int:
    """How often one notion is made of the other, lines that import them left out."""
    found = 0
    for path in files("proofs", ".antt"):
        uses = (line for line in text(path).splitlines() if not line.lstrip().startswith(("use ", "pub use ")))
        found += sum(len(CONVERSION.findall(line)) for line in uses)
    return found


def long_functions() -> List[str]:
    """The functions with more than six parameters, `self` and generic ones left out."""
    found = []
    for path in files("src", ".rt"):
        for name, parameters in FUNCTION.findall(text(path)):
            outer = re.sub(r"\([^()]*\)", "", parameters)
            count = len([it for it in re.split(r",(?![^<\[]*[>\]])", outer) if it.strip() and not it.strip().endswith("self")])
            if count > 6:
                found.append(f"{path.relative_to(CRATES).parts[0]}::{name}")
    return found


def of_shifts(path: Path) -> bool:
    """Whether the file is part of the small kind of block; its tests aren't."""
    inner = path.relative_to(CRATES)
    return inner.parts[0].endswith("_tests") and "test" not in inner.stem and any(SHIFTS.search(part) for part in inner.parts[1:])


def main() -> None:
    crates = [line for line in text(TOP / "crates.txt").splitlines() if line]
    enums = sorted({name for path in files("src", ".rt") for name in WRONG.findall(text(path))})
    functions = long_functions()
    shifts = [path for folder in ("src", "specs", "proofs") for path in files(folder, "") if path.is_file() and of_shifts(path)]
    rows = [
        ("crates", len(crates)),
        ("lines of code", lines(list(files("src", ".rt")))),
        ("lines of definitions", lines(list(files("specs", ".antt")))),
        ("lines of proofs", lines(list(files("proofs", ".antt")))),
        ("of them imports", sum(bool(IMPORT.match(line)) for path in files("proofs", ".antt") for line in text(path).splitlines())),
        ("lines of `shifts` with its laws", lines(shifts)),
        ("conversions between notions of all", conversions()),
        ("enums for what goes wrong", len(enums)),
        ("functions with more than 6 parameters", len(functions)),
    ]
    for name, count in rows:
        print(f"| {name} | {count:,} |")
    print(f"\nenums: {', '.join(enums)}\nfunctions: {', '.join(functions)}")


if __name__ == "__main__":
    main()
