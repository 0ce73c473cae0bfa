#!/usr/bin/env -S PYTHONPATH=python/src:python/tests python3
"""Makes library/README.md and library/index.tsv: library_index.py [page | --check]

Each file of the library opens with comments of one form, `# FIELD: text` with the fields below, which go on in lines `#   text`. The index
is a table with a row for each: chapter, name, verdict, denominators, rows of all claims, steps of the longest chain (of the proofs that a
page shows: what lies beside the file, or else what `prove` finds), seconds, the sections of the documents where it stands, the files that
it is proved from and is used in, which library/lemmas.tsv says, theorem and source. With `page` the page alone is made, which no run is
needed for, and with --check both are compared, but for the seconds. The program is that which OPPROVE names, or the built one.
"""
from __future__ import annotations

import functools
import re
import subprocess
import sys
import tempfile
import textwrap
import time
from concurrent.futures import ProcessPoolExecutor
from pathlib import Path
from typing import Dict, List, NamedTuple, Sequence, Set, Tuple

from opprove.checkers.check import Problem
from opprove.notation.expansion import HEAD, Expansion
from opprove.page.pages import LEMMAS, lemmas_of, ordered, table_of, titles_of
from opprove.translations.chain import EFFORT, Reader, proofs_of
from trying import LIBRARY, PROGRAM, TOP, is_built

INDEX = LIBRARY / "index.tsv"
FIELDS = ("THEOREM", "SOURCE", "ASSUMES", "LEAVES OUT", "VERDICT")
COLUMNS = ("chapter", "name", "verdict", "denominators", "rows", "steps", "seconds", "documents", "proved from", "used in", "theorem", "source")
BESIDE = re.compile("proved by (cancelling|search)|proved for complex|refuted")  # what evidence beside the file says alone
PROOF = r"^((?:certificate|cancellation|star proof) .*\n(?:.*\n)*?claim ([0-9]+)\n(?:.*\n)*?end)$"
DOCUMENTS = [TOP / "README.md", *(TOP / "docs" / f"{name}.md" for name in ("GUIDE", "TOOLS", "COMMANDS"))]  # where theorems stand
DOCUMENTS += sorted((TOP / "docs" / "tutorials").glob("*.md"))


class Fault(Exception):
    """What is wrong with a file of the library."""


class Part(NamedTuple):
    """A verdict on some claims, or on all where none is named."""

    claims: Tuple[int, ...]
    kind: str


def paths() -> List[Path]:
    """The files of the library, by chapters."""
    return sorted(path for path in LIBRARY.glob("*/*.op*") if not is_expansion(path))


def is_expansion(path: Path) -> bool:
    """Whether a file was written by `expand`."""
    return path.suffix == ".op" and path.read_text("utf-8").startswith(HEAD)


def header(path: Path) -> Dict[str, str]:
    """The fields of a file: what it says and by whom, what it assumes and leaves out, and its verdict."""
    fields: Dict[str, str] = {}
    name = ""
    for line in path.read_text("utf-8").split("\n"):
        found = re.fullmatch("# ([A-Z ]+): (.*)", line)
        if found:
            name = found[1]
            if name not in FIELDS or name in fields:
                raise Fault(f"{path}: field {name}")
            fields[name] = found[2]
        elif line.startswith("#   ") and name:
            fields[name] += " " + line[4:]
        else:
            break
    if not {"THEOREM", "VERDICT"} <= {*fields}:
        raise Fault(f"{path}: the theorem or the verdict is missing")
    return fields


def verdicts(text: str) -> List[Part]:
    """The parts of a verdict: `claims 1 2: proved, denominator 1; claim 3: not derivable`."""
    parts = []
    for part in text.split("; "):
        found = re.fullmatch(r"(?:claims? ([0-9 ]+): )?(.*)", part)
        assert found
        parts.append(Part(tuple(map(int, (found[1] or "").split())), found[2]))
    return parts


def words_of(verdict: str) -> List[str]:
    """The words for `prove` that a verdict names."""
    found = re.search(r"\bby (--.*?)(?:;|$)", verdict)
    return found[1].split(" ") if found else []


def names(path: Path) -> List[str]:
    """The names of the statements of a file."""
    return [one.name for one in Expansion(str(path)).statements()] if path.suffix == ".opn" else [path.stem]


def statements(path: Path) -> List[str]:
    """The statements of a file: itself, with the order that its verdict names, or those that a file of the notation stands for."""
    if path.suffix == ".opn":
        return [one.text for one in Expansion(str(path)).statements()]
    return [ordered(path.read_text("utf-8"), header(path)["VERDICT"])]


class Proved(NamedTuple):
    """What `prove` says of a statement: its head lines without `# claim N`, its report and the seconds."""

    statement: str
    heads: List[str]
    report: str
    seconds: float


def proved(path: Path, words: List[str]) -> List[Proved]:
    """Runs `prove` on each statement of a file."""
    found = []
    with tempfile.TemporaryDirectory() as folder:
        for text in statements(path):
            place = Path(folder, "statement.op")
            place.write_text(text, encoding="utf-8")
            start = time.monotonic()
            done = subprocess.run([str(PROGRAM), "prove", str(place), "--no-models", *words], stdin=subprocess.DEVNULL, capture_output=True)
            report = done.stdout.decode()
            heads = re.findall("^# claim [0-9]+ (.*)$", report, re.MULTILINE)
            found.append(Proved(text, heads, report, time.monotonic() - start))
    return found


def evidence(path: Path) -> List[str]:
    """The proofs that lie beside a file, but for shorter ones."""
    files = [path.with_suffix(suffix) for suffix in (".cert", ".star")]
    return [file.read_text("utf-8") for file in files if file.exists()]


def shorter(path: Path) -> List[List[str]]:
    """The shorter proofs beside a file, by its statements."""
    files = [path.with_name(f"{name}.report") for name in names(path)]
    return [[file.read_text("utf-8")] if file.exists() else [] for file in files]


def asked(path: Path) -> List[Proved]:
    """What `prove` says of the statements of a file, but for those that evidence beside it says alone."""
    verdict = header(path)["VERDICT"]
    return [] if all(BESIDE.match(part.kind) for part in verdicts(verdict)) else proved(path, words_of(verdict))


class Shown(NamedTuple):
    """Of the proofs of a statement: their denominators, their rows, and the steps of the longest chain."""

    denominators: Set[int]
    rows: int
    steps: int


def shown(statement: str, texts: Sequence[str], effort: int) -> Shown:
    """Each claim's proof is the first one in these texts, with the effort for a shorter chain."""
    seen: Set[str] = set()
    kept: List[str] = []
    longest = [0]
    for text in texts:
        blocks = re.findall(PROOF, text, re.MULTILINE)
        new = [block for block, claim in blocks if claim not in seen]
        seen |= {claim for _, claim in blocks}
        kept += new
        proofs = proofs_of(Reader(Problem(statement.encode()), effort), "\n".join(new).encode()) if new else []
        longest += [len(chain.steps) for proof in proofs for chain in proof.chains]
    found = "\n".join(kept)
    denominators = {int(number) for number in re.findall("^denominator ([0-9]+)$", found, re.MULTILINE)}
    return Shown(denominators, len(re.findall("^row ", found, re.MULTILINE)), max(longest))


def documents(path: Path) -> str:
    """The sections of the documents in which a file stands."""
    found: Dict[str, None] = {}
    for document in DOCUMENTS:
        title, section = document.stem, ""
        for line in document.read_text("utf-8").split("\n"):
            title = line[len("# Tutorial: ") :] if line.startswith("# Tutorial: ") else title
            section = line.lstrip("# ") if line.startswith("## ") else section
            if f"{path.parent.name}/{path.name}" in line:
                found[f"{title}, {section}" if section else title] = None
    return "; ".join(found)


@functools.lru_cache(maxsize=None)
def lemmas() -> List[Tuple[str, str]]:
    """The files that are used as lemmas, with those where they are."""
    files = {f"{path.parent.name}/{name}": f"{path.parent.name}/{path.name}" for path in paths() for name in names(path)}
    return sorted({(files[one.lemma], files[one.theorem]) for one in lemmas_of(LIBRARY)})


def row(path: Path, found: List[Proved], effort: int = EFFORT) -> Dict[str, str]:
    """The row of a file in the index, of which `prove` said this; with less effort it may have more steps."""
    fields = header(path)
    texts = zip(statements(path), shorter(path), [one.report for one in found] or [""])
    proofs = [shown(statement, [*evidence(path), *better, report], effort) for statement, better, report in texts]
    denominators = sorted(set().union(*(one.denominators for one in proofs)))
    rows, steps = sum(one.rows for one in proofs), max(one.steps for one in proofs)
    own = f"{path.parent.name}/{path.name}"
    uses = [lemma for lemma, one in lemmas() if one == own], [one for lemma, one in lemmas() if lemma == own]
    cells = (
        path.parent.name, path.name, fields["VERDICT"], " ".join(map(str, denominators)), str(rows or ""),
        str(steps or ""), f"{sum(one.seconds for one in found):.2f}" if found else "",
        documents(path), *map("; ".join, uses), fields["THEOREM"], fields.get("SOURCE", ""),
    )  # fmt: skip
    return dict(zip(COLUMNS, cells))


def fresh_row(path: Path) -> Dict[str, str]:
    """The row of a file, which is proved now."""
    return row(path, asked(path))


def table(rows: List[Dict[str, str]]) -> str:
    """The index, a line for each row with tabs between its cells."""
    return "".join("\t".join(cells) + "\n" for cells in [COLUMNS, *([one[name] for name in COLUMNS] for one in rows)])


def stored() -> Dict[str, Dict[str, str]]:
    """The rows of the table that is stored, by chapter and name."""
    return {f"{chapter}/{name}": found for (chapter, name), found in table_of(LIBRARY).items()}


def different(rows: List[Dict[str, str]], but_for: Sequence[str] = ("seconds",)) -> List[str]:
    """The files whose rows aren't those that are stored, but for these columns."""
    known, left_out = stored(), dict.fromkeys(but_for, "")
    found = {f"{one['chapter']}/{one['name']}": {**one, **left_out} for one in rows}
    return [name for name, one in found.items() if {**known.get(name, {}), **left_out} != one]


INTRODUCTION = """# The library

Theorems on matrices and operators, a file each, in chapters. A file opens with its theorem, its source where that is certain, what is
assumed besides, what is left out, and the verdict,
which `dev/try.py library` compares with what the program and the second checkers say.
What `prove` doesn't find by its defaults has its evidence beside it: `.cert` for `check`, `cancel` or, with rational matrices,
`check_model.py`; `.model` for `model`; `.star` for `star.py`. The verdict of the others is that of `./opprove prove FILE`.
A `.report` has shorter proofs than `prove` prints, by `./opprove shortest`.
Files end in `.opn` where the notation says in fewer lines what a mathematician would write: definitions by sums, words of generalized
inverses, identities without objects. Files with evidence beside them, and those that the gate's tables and documents name, are plain.

[index.tsv](index.tsv) has a row for each file, with the denominators, rows and longest chain of the proofs that its page shows, the
seconds of `prove`, the sections of the documents where it stands, and the files that it is proved from and is used in;
`dev/library_index.py` writes it and this page. [lemmas.tsv](lemmas.tsv) says what is proved from what, and what is put for maps there;
`dev/library_lemmas.py` looks for that in some minutes, and doesn't find all.
"""
INTRODUCTION += textwrap.fill(LEMMAS, 140) + "\n"


def page(rows: List[Dict[str, str]]) -> str:
    """The index as a page."""
    parts = [INTRODUCTION]
    for chapter, title in titles_of(LIBRARY).items():
        parts.append(f"\n## {title}\n\n| Theorem | Verdict |\n|---|---|\n")
        for one in (one for one in rows if one["chapter"] == chapter):
            source = f" {one['source']}." if one["source"] else ""
            theorem = one["theorem"].replace("|", "\\|")
            parts.append(f"| [{one['name']}]({chapter}/{one['name']}): {theorem}{source} | {one['verdict']} |\n")
    return "".join(parts)


def named(path: Path) -> Dict[str, str]:
    """What the page has of a file."""
    fields = header(path)
    cells = (path.parent.name, path.name, fields["VERDICT"], fields["THEOREM"], fields.get("SOURCE", ""))
    return dict(zip(("chapter", "name", "verdict", "theorem", "source"), cells))


def main(words: List[str]) -> int:
    """Writes the page and the table, or compares them."""
    if words not in ([], ["page"], ["--check"]):
        print("usage: library_index.py [page | --check]")
        return 2
    if words != ["page"] and not is_built():
        print(f"library_index.py: {PROGRAM} is not built, and OPPROVE names no other", file=sys.stderr)
        return 1
    readme, text = LIBRARY / "README.md", page([named(path) for path in paths()])
    with ProcessPoolExecutor() as pool:
        rows = [] if words == ["page"] else list(pool.map(fresh_row, paths()))
    if words == ["--check"]:
        others = [*different(rows), *(["README.md"] if readme.read_text("utf-8") != text else [])]
        print(f"{len(rows)} files are as the index has them" if not others else f"not as stored: {', '.join(others)}")
        return 1 if others else 0
    readme.write_text(text, encoding="utf-8")
    if rows:
        INDEX.write_text(table(rows), encoding="utf-8")
    return 0


if __name__ == "__main__":
    sys.exit(main(sys.argv[1:]))
