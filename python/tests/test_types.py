"""Tries the types of the package: mypy --strict has nothing to say. test_package.py has the same of the tests, which takes longer."""
from __future__ import annotations

import os
from pathlib import Path
from typing import Callable, List

from trying import SOURCE, TESTS, TOP, installed, need, run


def types(folder: Path, *places: Path) -> str:
    os.environ["MYPYPATH"] = ":".join(map(str, (SOURCE, TESTS, TOP / "dev")))
    answer = run(installed("mypy"), "--strict", "--cache-dir", folder / "cache", SOURCE, *places, folder=TOP, seconds=600)
    need(answer.status == 0, answer.out + answer.error)
    return f"mypy --strict: {answer.out.strip()}"


CHECKS: List[Callable[[Path], str]] = [types]
