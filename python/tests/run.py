#!/usr/bin/env python3
"""Runs the tests of the package: run.py [--quick | NAME ..], each a file test_NAME.py beside this one; all where none is named.

--quick runs those that the gate names, in under two minutes. A test that wants a program which isn't installed says so in a line.
OPPROVE names the program that answers are compared with; where none is built, what asks for it is skipped. OPPROVE_PATIENCE=10 waits ten
times as long, on a busy machine. The status is 0 where nothing failed.
"""
from __future__ import annotations

import argparse
import os
import subprocess
import sys
import time
import unittest
from concurrent.futures import ThreadPoolExecutor
from importlib import import_module
from pathlib import Path
from typing import List

TESTS = Path(__file__).resolve().parent
QUICK = ["check", "models", "language", "types", "tools", "text", "notation", "star", "library", "rows"]


def run(name: str) -> bool:
    """Runs a test, tells what it says when it has ended, and whether it passed. It finds the package, what the tests share, and what
    the developers' folder has."""
    places = [TESTS.parent / "src", TESTS, TESTS.parents[1] / "dev"]
    environment = {**os.environ, "PYTHONPATH": ":".join(map(str, places)), "PYTHONDONTWRITEBYTECODE": "1"}
    start, command = time.monotonic(), [sys.executable, __file__, "--here", name]
    done = subprocess.run(command, env=environment, stdin=subprocess.DEVNULL, stdout=subprocess.PIPE, stderr=subprocess.STDOUT)
    said, passed = done.stdout.decode(errors="replace"), done.returncode == 0
    print(f"---- {name}: {'passed' if passed else 'FAILED'} in {time.monotonic() - start:.0f} s\n{said}", end="", flush=True)
    return passed


def here(name: str) -> int:
    """Runs a test in this process: the checks that it lists, its `main`, or what unittest finds in it, which has to be something."""
    module = import_module(f"test_{name}")
    if hasattr(module, "CHECKS") or hasattr(module, "main"):
        status: int = import_module("trying").main(module.CHECKS) if hasattr(module, "CHECKS") else module.main([])
        return status
    result = unittest.main(module, argv=[name], exit=False).result
    return int(not result.wasSuccessful() or not (result.testsRun or result.skipped))


def main(words: List[str]) -> int:
    """Runs the tests that are named, side by side, and gives the status."""
    if words[:1] == ["--here"]:
        return here(words[1])
    names = [path.stem[5:] for path in sorted(TESTS.glob("test_*.py"))]
    parser = argparse.ArgumentParser(description=(__doc__ or "").partition("\n")[2], formatter_class=argparse.RawDescriptionHelpFormatter)
    parser.add_argument("--quick", action="store_true", help="those that the gate names")
    parser.add_argument("--jobs", type=int, default=os.cpu_count() or 1, help="how many run at a time (as many as there are processors)")
    parser.add_argument("names", metavar="NAME", nargs="*", choices=[*names, []], help=", ".join(names))
    given = parser.parse_args(words)
    asked = given.names or (QUICK if given.quick else names)
    with ThreadPoolExecutor(max(1, given.jobs)) as pool:
        passed = dict(zip(asked, pool.map(run, asked)))
    failed = [name for name in asked if not passed[name]]
    print(f"failed: {', '.join(failed)}" if failed else f"{len(asked)} tests passed", flush=True)
    return 1 if failed else 0


if __name__ == "__main__":
    sys.exit(main(sys.argv[1:]))
