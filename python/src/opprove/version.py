"""The version of the package, and the program that the tools run"""
from __future__ import annotations

from pathlib import Path
from typing import List

from opprove.program import path
from opprove.tool import ended, parser

VERSION = Path(__file__).with_name("VERSION").read_text(encoding="utf-8").strip()


def main(words: List[str]) -> int:
    """Writes both."""
    parser("version", __doc__).parse_args(words)
    return ended(lambda: (f"opprove {VERSION}", f"program {path()}"))
