"""The tools of the package by their words: `opprove WORD ..`, or `python3 -m opprove WORD ..`.

Each tool is a module with `main(words) -> int`, which gives the status: 0 fine, 2 wrong words, 3 the statement is refused, 4 a file
isn't loaded, 5 the output fails, 6 no memory, 7 evidence is refused, 10 and above a verdict, as the program's.
"""
from __future__ import annotations

import difflib
import os
import signal
import subprocess
import sys
from importlib import import_module
from typing import Dict, List, NamedTuple

from opprove.program import path
from opprove.words.calls import COMMANDS

MISSING = 75  # a status that no tool has


class Tool(NamedTuple):
    """A tool: its word, the module that is loaded for it, and what it is for."""

    word: str
    module: str
    summary: str
    asks: bool = False  # whether it runs the program
    takes_notation: bool = False  # whether it reads files of the notation itself; others are given their expansions


TOOLS: List[Tool] = [
    Tool("chain", "translations.chain", "a proof as a chain of equal expressions, in text or LaTeX"),
    Tool("coq", "coq.export", "each proof, model and basis as a theorem for Coq, with its proof"),
    Tool("latex", "translations.latex", "the sum of a certificate as displayed formulas"),
    Tool("chapter", "translations.chapter", "a folder of statements with their proofs as a paper in LaTeX", asks=True),
    Tool("singular", "translations.singular", "a certificate as a script that Singular adds up"),
    Tool("sympy", "translations.sympy", "a certificate as a script that SymPy adds up"),
    Tool("picture", "translations.picture", "the quiver of a statement as SVG, TikZ or a graph"),
    Tool("page", "page.page", "a statement and its evidence as one HTML file that checks itself"),
    Tool("pages", "page.pages", "a folder of statements as a site of pages, with an index", asks=True),
    Tool("serve", "page.serve", "a page to work in, on this machine alone", asks=True),
    Tool("expand", "notation.expand", "the statements that a file of the notation stands for", takes_notation=True),
    Tool("implications", "notation.implications", "which of the cases of a file of the notation follow from which", asks=True, takes_notation=True),
    Tool("shorten", "notation.shorten", "a statement written in the notation"),
    Tool("search", "search.search", "searches around the program for what `prove` leaves undecided", asks=True),
    Tool("express", "search.express", "formulas for maps by the others", asks=True),
    Tool("exists", "search.exists", "solutions k of u = v k, read off a proof", asks=True),
    Tool("needed", "search.needed", "the least sets of assumptions from which a claim follows", asks=True),
    Tool("denominator", "search.denominator", "certificates with smaller denominators, or why there are none", asks=True),
    Tool("shortest", "search.shortest", "certificates with shorter chains", asks=True),
    Tool("conjecture", "search.conjecture", "equations between short words that follow from the assumptions"),
    Tool("prove-all", "search.prove_all", "the statements of a folder proved side by side, here or by a cluster", asks=True),
    Tool("join", "search.join", "one certificate from evidence for lemmas and evidence that assumes them"),
    Tool("why", "words.why", "an answer of the program, and what it means in words", asks=True),
    Tool("second-check", "second_check", "checks evidence by a second program, in Python"),
    Tool("candidates", "checkers.candidates", "a second search for matrices that break a claim"),
    Tool("version", "version", "the version of the package and of the program"),
    Tool("completions", "completions", "the file that completes words in bash, zsh or fish"),
    Tool("manual", "manual", "the manual page, for man"),
    Tool("help", "help", "the tools and commands, or the page of one"),
]
BY_WORD: Dict[str, Tool] = {tool.word: tool for tool in TOOLS}


def main(words: List[str]) -> int:
    """Runs the tool that the first word names, with the others, and gives its status; 2 where there is none of that name."""
    word = {"-h": "help", "--help": "help", "--version": "version"}.get(words[0], words[0]) if words else "help"
    if word in BY_WORD:
        return run("help", [word]) if words[1:2] in (["--help"], ["-h"]) else run(word, words[1:])
    sys.stderr.write(f"opprove: {unknown(word)}\n")
    return usage()


def entry() -> int:
    """Runs the tool that the words of the call name. An interrupt ends it with no word."""
    signal.signal(signal.SIGINT, signal.SIG_DFL)
    return main(sys.argv[1:])


def run(word: str, words: List[str]) -> int:
    """Runs a tool. One that asks the program ends with MISSING where the script opprove has to build it first."""
    tool, how = BY_WORD[word], os.environ.get("OPPROVE_HOW")
    if tool.asks and how == "missing":
        return MISSING
    if tool.asks and how == "unproved":
        sys.stderr.write("opprove: this program isn't proved on this machine\n")
    module = import_module(f"opprove.{tool.module}")
    try:
        if not tool.takes_notation and any(name.endswith(".opn") for name in words):
            statuses: int = import_module("opprove.notation.expand").run_on(words, module.main)
            return statuses
        status: int = module.main(words)
    except SystemExit as end:  # of argparse: a page, or wrong words
        return int(end.code or 0)
    return status


def usage() -> int:
    """Has the program answer as it does to words that it doesn't know; where there is none, that answer is written here."""
    program = path()
    if os.access(program, os.X_OK):
        return subprocess.call([program])
    sys.stdout.write(f"# usage: opprove {'|'.join(COMMANDS)}\n")
    return 2


def unknown(word: str) -> str:
    """What is said of a word that no tool has, with the nearest that the program or a tool has."""
    if word in COMMANDS:
        return f"{word!r} is a command of the program, and this runs the tools: call {path()} {word} .."
    near = difflib.get_close_matches(word.lower(), [*COMMANDS, *BY_WORD, "build"], n=1)
    return f"there is no command or tool {word!r}" + (f"; did you mean {near[0]!r}?" if near else "") + " (opprove help lists them)"
