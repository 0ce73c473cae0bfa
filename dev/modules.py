"""The files of definitions: where they stand, and what they import."""
from __future__ import annotations

import re
from pathlib import Path
from typing import Iterator, NamedTuple, Tuple

TOP = Path(__file__).resolve().parents[1]
CRATES = TOP / "crates"
# A page for each promise.
PAGES = CRATES / "command_runs" / "specs" / "Promises"
IMPORT = re.compile(r"^\s*(?:ghost |pub )?use Rattle\.(\w+)\.specs\.([\w.]+?)(?:\.\{([^}]*)\}| as .*|\s*)?;?\s*$", re.M)


class Import(NamedTuple):
    crate: str
    module: Tuple[str, ...]
    names: str


def imports(text: str) -> Iterator[Import]:
    for crate, module, names in IMPORT.findall(text):
        yield Import(crate, tuple(module.split(".")), names)


def home(it: Import) -> Path:
    """The file of the module, which the file that lists a crate's modules may take from another crate."""
    for count in range(len(it.module), 0, -1):
        path = CRATES / it.crate / "specs" / ("/".join(it.module[:count]) + ".antt")
        if path.exists():
            return path
    listing = (CRATES / it.crate / "specs" / "Lib.antt").read_text(encoding="utf-8")
    passed_on = re.search(rf"^pub use Rattle\.(\w+)\.specs\.{it.module[0]}$", listing, re.M)
    if not passed_on:
        raise SystemExit(f"modules.py: no file has the module {it.crate}.specs.{'.'.join(it.module)}")
    return home(Import(passed_on[1], it.module, it.names))


def declaring(it: Import) -> Path:
    """The file of code that declares a type: all but the last word of the module's path are that of the file."""
    for count in range(len(it.module), 1, -1):
        path = CRATES / it.crate / "src" / ("/".join(it.module[1:count]) + ".rt")
        if path.exists():
            return path
    return CRATES / it.crate / "src" / "lib.rt"
