"""Tries the package in a real notebook: examples/notebook.ipynb is run by nbconvert, and its outputs are those that are stored."""
from __future__ import annotations

import json
import os
from pathlib import Path
from typing import Any, Callable, Dict, List, Tuple

from trying import EXAMPLES, PROGRAM, Skipped, installed, need, run

NOTEBOOK = EXAMPLES / "notebook.ipynb"


def outputs(path: Path) -> List[Tuple[int, Dict[str, str]]]:
    """What the cells show, by the numbers of the cells and the kinds of what is shown."""
    found = []
    for number, cell in enumerate(json.loads(path.read_text(encoding="utf-8"))["cells"], 1):
        for output in cell.get("outputs", []):
            found.append((number, {kind: joined(text) for kind, text in output.get("data", {output.get("name"): output.get("text")}).items()}))
    return found


def joined(text: Any) -> str:
    return "".join(text) if isinstance(text, list) else str(text)


def notebook(folder: Path) -> str:
    if not os.access(PROGRAM, os.X_OK):
        raise Skipped("opprove is not built, and the notebook is not run")
    os.environ["OPPROVE"] = str(PROGRAM)
    words = ["--to", "notebook", "--execute", NOTEBOOK, "--output-dir", folder, "--output", "run.ipynb", "--log-level", "ERROR"]
    answer = run(installed("jupyter-nbconvert"), *words, folder=EXAMPLES, seconds=600)
    if "No such kernel" in answer.error:
        raise Skipped("ipykernel is not installed")
    need(answer.status == 0, answer.error)
    found, stored = outputs(folder / "run.ipynb"), outputs(NOTEBOOK)
    need(found == stored, [(one, other) for one, other in zip(found, stored) if one != other][:1])
    kinds = {kind for _, shown in found for kind in shown}
    need(kinds >= {"text/html", "text/latex", "image/svg+xml", "text/plain"}, kinds)
    return f"{len(found)} outputs of the notebook are those that are stored"


CHECKS: List[Callable[[Path], str]] = [notebook]
