#!/usr/bin/env python3
"""The files that the clauses of `run`, and the laws beside it, stand on: the table of docs/DEFINITIONS.md.

usage: trusted.py [--write]

A clause of a public function cites words that its file imports from `specs/`; a file of definitions stands on those that it imports, and
one that wants a proof on the file of that too. The first table has what each promise stands on: the lines that reading.py prints for it, and
the lines of the whole files, those of its page, of all that this imports one after another, and of the code in which the types stand that
they speak of. The other has each file that some clause stands on. With --write they are put into the document, between the lines that begin and end them; else they are printed. The
status is 1 where the document has others.
"""
from __future__ import annotations

import re
import signal
import sys
from pathlib import Path
from typing import Dict, Iterator, List, NamedTuple, Set

import reading
from modules import CRATES, PAGES, TOP, Import, declaring, home, imports

DOCUMENT = TOP / "docs" / "DEFINITIONS.md"
# The public functions whose clauses are the main theorem and the laws for users.
STARTS = ("command_runs/src/whole_run.rt", "*_command/src/laws.rt", "evidence_commands/src/laws.rt", "command_runs/src/laws.rt")
BEGINS, ENDS = "<!-- dev/trusted.py begins -->", "<!-- dev/trusted.py ends -->"
LEMMA = re.compile(r"^\s*(?:pub )?use Rattle\.(\w+)\.proofs\.([\w.]+?)(?:\.\{[^}]*\}| as .*|\s*)?$", re.M)
# A clause ends before the next one, a remark, the body or an empty line.
CLAUSES = re.compile(r"^\s*(?:ensures|requires)\b.*(?:\n(?!\s*(?:ensures|requires|[{}/]|$)).*)*", re.M)


class Trusted(NamedTuple):
    definitions: Set[Path]
    proofs: Set[Path]
    types: Set[Path]
    foreign: Set[str]


def cited(path: Path) -> Iterator[Import]:
    """The imports of a file of code of which a clause of a public function holds a name."""
    text = path.read_text(encoding="utf-8")
    public = "\n".join(part for part in re.split(r"^(?=(?:pub )?fn )", text, flags=re.M) if part.startswith("pub fn"))
    words = set(re.findall(r"[\w◌-]+", "\n".join(CLAUSES.findall(public))))
    return (it for it in imports(text) if words & {name.split(" as ")[-1].strip() for name in it.names.split(",")})


def lemmas(text: str) -> Iterator[Path]:
    """The files of proofs of the repository that the text imports."""
    for crate, module in LEMMA.findall(text):
        if (CRATES / crate).is_dir():
            yield CRATES / crate / "proofs" / (module.replace(".", "/") + ".antt")


def reached(work: List[Import], pages: Set[Path]) -> Trusted:
    """What these imports and pages stand on."""
    found = Trusted(set(), set(), set(), set())
    files = list(pages)
    while work or files:
        if files:
            path = files.pop()
            kind = found.proofs if path.parts[len(CRATES.parts) + 1] == "proofs" else found.definitions
            if path not in kind:
                kind.add(path)
                text = path.read_text(encoding="utf-8")
                work.extend(imports(text))
                files.extend(lemmas(text))
            continue
        it = work.pop()
        if not (CRATES / it.crate).is_dir():
            found.foreign.add(it.crate)
        elif it.module[0] == "declared":
            found.types.add(declaring(it))
        else:
            files.append(home(it))
    return found


def trusted() -> Trusted:
    paths = sorted(path for pattern in STARTS for path in CRATES.glob(pattern))
    return reached([it for path in paths for it in cited(path)], set())


def promises() -> List[str]:
    """A row for each page, and one for all of them with what says when they hold."""
    pages = [page for page in sorted(PAGES.glob("*.antt")) if page.stem not in ("Faultless", "Lines")]
    rows = []
    for title, page in [*((f"`{page.stem}`", page) for page in pages), ("all, by `Promises`", PAGES.with_suffix(".antt"))]:
        found = reached([], {page})
        read = reading.lines(page)
        counts = (read[".antt"], read[".rt"], *(sum(map(lines, files)) for files in (found.definitions, found.proofs, found.types)))
        rows.append(f"| {title} | " + " | ".join(f"{count:,}" for count in counts) + f" | {len(found.definitions)} |")
    return rows


def lines(path: Path) -> int:
    return len(path.read_text(encoding="utf-8").splitlines())


def by_crate(paths: Set[Path], with_lines: bool) -> Dict[str, str]:
    """The files of each crate, by their paths in its folder."""
    crates: Dict[str, List[str]] = {}
    for path in sorted(paths):
        name, _, *inner = path.relative_to(CRATES).parts
        stem = "/".join(inner).rpartition(".")[0]
        crates.setdefault(name, []).append(f"`{stem}` {lines(path)}" if with_lines else f"`{stem}`")
    return {name: ", ".join(files) for name, files in crates.items()}


def table() -> str:
    found = trusted()
    total = sum(map(lines, found.definitions))
    foreign = ", ".join(f"`{name}`" for name in sorted(found.foreign - {"std"}))
    definitions, types = by_crate(found.definitions, True), by_crate(found.types, False)
    return "\n".join([
        "| Promise | Lines of definitions | Lines of types | Whole files of `specs/` | of proofs | of types | Files of `specs/` |", "|---|---|---|---|---|---|---|",
        *promises(), "",
        f"All clauses: {len(found.definitions)} files of `specs/` with {total:,} lines, with the lines of each, and"
        f" {len(found.types)} files of `src/` that declare the types that they speak of.",
        f"They cite stated contracts of {foreign} and of `std`.",
        f"One of them, `normal_forms/specs/Descents`, imports proofs: {len(found.proofs)} files with"
        f" {sum(map(lines, found.proofs)):,} lines, as the making of a normal form ends by one.", "",
        "| Crate | Files of `specs/` | Files of `src/` |", "|---|---|---|",
        *(f"| `{name}` | {definitions.get(name, '')} | {types.get(name, '')} |" for name in sorted({*definitions, *types})),
    ])  # fmt: skip


def main(words: List[str]) -> int:
    if words not in ([], ["--write"]):
        print("usage: trusted.py [--write]", file=sys.stderr)
        return 2
    text = DOCUMENT.read_text(encoding="utf-8")
    front, begins, rest = text.partition(BEGINS)
    _, ends, back = rest.partition(ENDS)
    if not begins or not ends:
        print(f"trusted.py: {DOCUMENT} has no place for the table", file=sys.stderr)
        return 1
    new = f"{front}{BEGINS}\n{table()}\n{ENDS}{back}"
    if words:
        DOCUMENT.write_text(new, encoding="utf-8")
        return 0
    print(table())
    return int(new != text)


if __name__ == "__main__":
    # (a reader that closes the pipe, as head, ends it)
    signal.signal(signal.SIGPIPE, signal.SIG_DFL)
    sys.exit(main(sys.argv[1:]))
