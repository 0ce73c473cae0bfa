#!/usr/bin/env -S PYTHONPATH=python/src:python/tests python3 -B
"""Tries what stands in the repository: try.py [NAME ..], with all names where none is named.

A name is a file python/tests/test_NAME.py, or one of these: `checker`, what the gate runs, `files`, `opprove`, `guide`, `release`,
`library`, all of it, `plain`, `editors` and `others`. What isn't installed is skipped with a line. The status is 0 where nothing failed, and else 1.
"""
from __future__ import annotations

import functools
import json
import re
import subprocess
import sys
import tempfile
from pathlib import Path
from typing import Callable, Dict, List

import try_guide
import try_library
import try_opprove
import try_plain
import try_release
from opprove.cli import TOOLS
from opprove.words.calls import OPTIONS
from trying import TESTS, TOP, Answer, Skipped, build, built, installed, is_built, need, run, run_checks, stored, tool

def plain(folder: Path) -> str:
    """The program that opprove is measured by, and a row of the table where opprove is built."""
    program = build("plain", folder)
    cases = [words for words in stored() if words[0].stem in ("pasted_squares", "equal_maps", "halved")]
    for statement, evidence in cases:
        answer = run(program, statement, evidence)
        need((answer.status == 0) == ("refused" not in evidence.stem), (evidence, answer))
    if is_built():
        answer = run(sys.executable, TOP / "dev" / "measure.py", "growth: 10")
        need(answer.status == 0 and answer.out.count("\n") == 3, answer)
    return f"{len(cases)} certificates are answered right by plain.rs"


def manual(folder: Path) -> str:
    """It has a section for each tool and each option, and neither man nor mandoc complains."""
    page = folder / "opprove.1"
    page.write_text(run(*tool("manual")).out)
    answer = run(installed("man"), "--warnings", "-E", "UTF-8", "-l", "-Tutf8", page)
    shown = re.sub(".\b", "", answer.out)
    need(answer.status == 0 and not answer.error, answer)
    missing = [it.word for it in TOOLS if f"opprove {it.word}\n" not in shown] + [it for it in OPTIONS if f" {it} N" not in shown]
    need(not missing, missing)
    answer = run(installed("mandoc"), "-T", "lint", "-W", "warning", page)
    need(answer == Answer(0, "", ""), answer)
    return f"the manual page has a section for each of {len(TOOLS)} tools and no warnings"


def shell(name: str, folder: Path) -> str:
    file = folder / name
    file.write_text(run(*tool("completions"), name).out)
    answer = run(installed(name), "-n", file)
    missing = [it.word for it in TOOLS if it.word not in file.read_text()]
    need(answer == Answer(0, "", "") and not missing, (answer, missing))
    return f"{name} reads its completions, which have each tool"


COMPLETED = {  # of words, the last of which is begun, what is offered
    "pro": {"prove", "prove-all"}, "--ver": {"--version"}, "he": {"help"}, "help chai": {"chain"}, "prove --fo": {"--format"},
    "prove --format ": {"1", "2"}, "chain --la": {"--latex"}, "completions f": {"fish"}, "check ": {"s.op", "s.opn", "s.report", "s.cert", "folder"}, "check s.op s.c": {"s.cert"},
    "prove --pairs ": set(),
}  # fmt: skip


def offered_by_fish(folder: Path) -> str:
    for name in ("s.op", "s.opn"):
        (folder / name).touch()
    (folder / "words.fish").write_text(run(*tool("completions"), "fish").out)
    for words, want in (("pict", {"picture"}), ("completions z", {"zsh"}), ("prove --fo", {"--format"}), ("check s.o", {"s.op", "s.opn"})):
        answer = run(installed("fish"), "-c", f"source words.fish; complete -C 'opprove {words}'", folder=folder)
        need({line.split("\t")[0] for line in answer.out.split("\n") if line} == want, (words, answer))
    return "fish offers what it should"


def offered(folder: Path) -> str:
    for name in ("s.op", "s.opn", "s.report", "s.cert", "s.txt"):
        (folder / name).touch()
    (folder / "folder").mkdir()
    (folder / "words.bash").write_text(run(*tool("completions"), "bash").out)
    ask = 'source words.bash; COMP_WORDS=(opprove "$@"); COMP_CWORD=$#; _opprove; printf "%s\\n" "${COMPREPLY[@]}"'
    for words, want in COMPLETED.items():
        answer = run(installed("bash"), "-c", ask, "opprove", *words.split(" "), folder=folder)
        need({*answer.out.split("\n")} - {""} == want, (words, answer))
    return f"bash offers what it should for {len(COMPLETED)} beginnings"


HIGHLIGHTED = [  # a text, its kind, and for some of its places, each a line and a column, what stands there for Vim
    ("object U # c\nmap p : U -> U self\norder weight p 2\n", "op", {
        "1,1": "opproveStatement", "1,10": "opproveComment", "2,11": "opproveSign", "2,16": "opproveOption", "3,7": "opproveOption",
    }),
    ("# c\n language 2 # c\nobject language\neliminate b\nclaim a'^2 = [U]\n", "op", {
        "2,2": "opproveStatement", "2,11": "opproveNumber", "3,8": "", "4,1": "opproveStatement", "5,9": "opproveSign",
        "5,10": "opproveNumber", "5,15": "opproveIdentity",
    }),
    ("language 2 x\n", "op", {"1,1": ""}),
    ("a : V -> V self, b : V -> W\n13 a x, group a g # c\nclaim group a x = 1 if normal a\nequivalent: (i) a = 0 with define e = a (ii) ep a x\n", "opn", {
        "1,12": "opnOption", "2,1": "opnWord", "2,9": "opnWord", "2,19": "opnComment", "3,1": "opnLine", "3,7": "", "3,19": "opnNumber", "3,21": "opnLine",
        "3,24": "opnWord", "4,1": "opnLine", "4,13": "opnCase", "4,23": "opnLine", "4,28": "opnLine", "4,41": "opnCase", "4,46": "opnWord",
    }),
    ("use words.opn # c\nmatrices n\nrange a in b by k\nlet nil (a): a^2 = 0\n", "opn", {
        "1,1": "opnLine", "1,5": "opnPath", "1,15": "opnComment", "2,1": "opnSetting", "3,1": "opnWord", "3,9": "opnInner", "3,14": "opnInner",
        "4,1": "opnLine", "4,15": "opnSign",
    }),
    ("certificate 2\nlemma 1 scale 2\nrow -1 () lemma 1 ([U])\n", "cert", {
        "1,1": "opprovecertBlock", "2,1": "opprovecertWord", "3,5": "opprovecertNumber", "3,11": "opprovecertLemma",
        "3,20": "opprovecertIdentity",
    }),
    ("basis 1\nclaim 2\nrule - 2 f [U] + g\nrest 0\nend\n", "cert", {
        "1,1": "opprovecertBlock", "2,7": "opprovecertNumber", "3,1": "opprovecertWord", "3,6": "opprovecertSign", "3,8": "opprovecertNumber",
        "3,10": "", "3,12": "opprovecertIdentity", "3,16": "opprovecertSign", "4,1": "opprovecertWord", "4,6": "opprovecertNumber",
        "5,1": "opprovecertBlock",
    }),
    ("cancellation 1\nmonic m'\ncancel 2 m' left 1\nend\n", "cert", {
        "1,1": "opprovecertBlock", "2,1": "opprovecertWord", "2,7": "", "3,1": "opprovecertWord", "3,8": "opprovecertNumber",
        "3,10": "", "3,13": "opprovecertLemma", "3,18": "opprovecertNumber", "4,1": "opprovecertBlock",
    }),
    ("star proof 1\nroot 2 left 1\nsquare 3 - a + b\nrational model 1\nmap a = -1/2\nend\n", "cert", {
        "1,1": "opprovecertBlock", "2,1": "opprovecertWord", "2,6": "opprovecertNumber", "2,8": "opprovecertLemma", "2,13": "opprovecertNumber",
        "3,1": "opprovecertWord", "3,10": "opprovecertSign", "4,1": "opprovecertBlock", "5,1": "opprovecertWord", "5,9": "opprovecertNumber",
    }),
    ("chain 1\nline - 2 f [U] + g\nuse -1 (f) 2 ()\nend\n", "cert", {
        "1,1": "opprovecertBlock", "2,1": "opprovecertWord", "2,8": "opprovecertNumber", "2,12": "opprovecertIdentity",
        "3,1": "opprovecertWord", "3,5": "opprovecertNumber", "3,12": "opprovecertNumber", "4,1": "opprovecertBlock",
    }),
]  # fmt: skip


def vim(folder: Path) -> str:
    steps, want = [f"set runtimepath+={TOP}/editors/vim", "filetype on", "syntax on"], []
    for number, (text, kind, places) in enumerate(HIGHLIGHTED):
        (folder / f"{number}.{kind}").write_text(text)
        shown = ", ".join(f"synIDattr(synID({place}, 1), 'name')" for place in places)
        steps += [f"edit {number}.{kind}", f"call writefile([{shown}], 'shown', 'a')"]
        want += places.values()
    (folder / "steps.vim").write_text("\n".join([*steps, "quitall!"]) + "\n")
    answer = run(installed("vim"), "-u", "NONE", "-es", "--cmd", "set nocompatible", "-S", "steps.vim", folder=folder)
    shown = folder / "shown"
    need(shown.exists() and shown.read_text().split("\n")[:-1] == want, (answer, shown.exists() and shown.read_text(), want))
    return f"vim highlights {len(want)} places of statements of both languages, of the notation and of evidence"


def grammars() -> str:
    for path in (TOP / "editors" / "textmate").glob("*.json"):
        json.loads(path.read_text())
    return "the TextMate grammars are JSON"


def gate_time() -> str:
    if not Path("/proc/self/stat").exists():
        raise Skipped("there is no /proc")
    work = "import time\nwhile time.process_time() < 2: pass"
    answer = run(sys.executable, TOP / "dev" / "gate_time.py", sys.executable, "-c", work, "--crate-name", "lists")
    row = re.search(r"^\| `lists` \| [12] \|  \|  \|$", answer.out, re.MULTILINE)
    chain = re.search(r"^the longest chain of libraries took [12] seconds: .*\blists\b", answer.out, re.MULTILINE)
    need(answer.status == 0 and not answer.error and bool(row) and bool(chain), answer)
    return "the time of a process is counted by its crate, and the longest chain by crates.txt"


def trusted_files() -> str:
    answer = run(sys.executable, TOP / "dev" / "trusted.py")
    need(answer.status == 0 and not answer.error, "docs/DEFINITIONS.md has other files to trust: dev/trusted.py --write")
    return "docs/DEFINITIONS.md lists the files to be trusted, by promise"


def mapped_calls() -> str:
    answer = run(sys.executable, TOP / "dev" / "unmapped.py")
    need(answer == Answer(0, "", ""), f"no row of docs/PROOF_MAP.md names {', '.join(answer.out.split())}")
    return "each public function has a row of docs/PROOF_MAP.md"


def preludes() -> str:
    installed("rt")
    answer = run(sys.executable, TOP / "dev" / "preludes.py")
    need(answer == Answer(0, "", ""), f"imports of proofs aren't in order: dev/preludes.py --write: {answer.out}")
    return "what proofs take from elsewhere is named once in each crate"


def costly_files() -> str:
    sizes = {
        "overlaps 500": 496_540, "sorted 498": 287_613, "unending 100": 57_068, "rests 100": 429_121, "rows 10": 41_295,
        "powers 500": 13_051,
    }  # fmt: skip
    for name, size in sizes.items():
        answer = run(sys.executable, TOP / "dev" / "costly.py", *name.split())
        need(answer.status == 0 and len(answer.out) == size and f"{size:,}" in (TOP / "docs" / "COMMANDS.md").read_text(), (name, size))
    return f"{len(sizes)} costly files are as long as docs/COMMANDS.md says"


def devices() -> str:
    built()
    answer = run(sys.executable, TOP / "dev" / "try_devices.py")
    need(answer.status == 0 and not answer.error, answer)
    lines = answer.out.splitlines()
    return f"{sum(': skipped, ' not in line for line in lines)} of {len(lines)} trials of devices are as they should be"


def groups(folder: Path) -> Dict[str, List[Callable[[], str]]]:
    """The checks that stand in this folder, by their words."""
    return {
        "files": [trusted_files, mapped_calls, preludes],
        **{
            word: [functools.partial(check, folder) for check in checks]
            for word, checks in (
                ("opprove", try_opprove.CHECKS), ("guide", try_guide.CHECKS), ("plain", try_plain.CHECKS),
                ("release", try_release.CHECKS), ("library", try_library.CHECKS),
            )
        },
        "editors": [
            lambda: manual(folder), *(lambda name=name: shell(name, folder) for name in ("bash", "zsh", "fish")), lambda: offered(folder),
            lambda: offered_by_fish(folder), lambda: vim(folder), grammars,
        ],
        "others": [lambda: plain(folder), gate_time, costly_files, devices],
    }  # fmt: skip


def tested(words: List[str]) -> int:
    return subprocess.call([sys.executable, str(TESTS / "run.py"), *words])


def main(words: List[str]) -> int:
    tests = [path.stem[5:] for path in sorted(TESTS.glob("test_*.py"))]
    with tempfile.TemporaryDirectory() as name:
        checks = groups(Path(name))
        if not {"checker", *tests, *checks} >= {*words}:
            print(f"try: usage: try.py [{' | '.join(dict.fromkeys(['checker', *checks, *tests]))}] ..", flush=True)
            return 1
        for word in words or dict.fromkeys([*tests, *checks]):
            own = checks["files"] if word == "checker" else checks.get(word, [])
            failed = word not in checks and tested(["--quick"] if word == "checker" else [word])
            if failed or run_checks("ok", own):
                return 1
    return 0


if __name__ == "__main__":
    sys.exit(main(sys.argv[1:]))
