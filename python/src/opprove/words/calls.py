"""What why.py tells of words that are no call (2), of files that aren't loaded (4), and of the statuses 5 and 6."""
from __future__ import annotations

import os
import re
import shlex
from typing import Dict, List, NamedTuple, Optional, Tuple

from opprove.words.parts import Told, counted, did_you_mean, is_are, listed, near, quoted

NAME = os.environ.get("OPPROVE_NAME", "opprove")  # what is typed to call the program and the tools
Span = Tuple[int, int]
OPTIONS: Dict[str, Span] = {
    "--pairs": (1, 1000000), "--steps": (1, 1000000), "--workers": (1, 64), "--seed": (0, 2**64 - 1), "--format": (1, 2),
}  # fmt: skip
SAID_OF: Dict[str, str] = {  # what an option is for, and what stands where it is left out
    "--pairs": "how many overlaps and inclusions of leading words are treated (5,000)",
    "--steps": "how many steps a reduction makes (20,000)",
    "--workers": "threads, on which no answer depends (4)",
    "--seed": "what the entries of models are drawn by where there are too many to try them all (1)",
    "--format": "certificates over generators alone (1), or with lemmas (2)",
    "--no-models": "looks for no model of a claim that the rules leave",
}
LIMITS: Dict[str, str] = {  # of the script opprove
    "--seconds": "ends the run after N seconds, with status 1", "--memory": "ends the run at N megabytes, with status 1",
}  # fmt: skip


class Judged(NamedTuple):
    """What a command of evidence says of a block that passes, by one word; the noun for one and for several; what the lines on several say
    together, and more sentences. `claims`, `count`, `sharp` stand for the numbers of claims, of blocks and of sharp ones, `cancels` and
    `besides` for that a denominator cancels, as a second and as a further premise."""

    word: str
    nouns: Tuple[str, str]
    told: str
    more: Tuple[str, ...] = ()


class Command(NamedTuple):
    """A command of the program: its files, what it does, its statuses, its options with a number and without, the word of the blocks that it
    reads, what it says of one that passes, and the second program that reads them."""

    operands: Tuple[str, ...]
    summary: str
    about: str
    statuses: Tuple[Tuple[int, str], ...]
    options: Tuple[str, ...] = ()
    flags: Tuple[str, ...] = ()
    reads: str = ""
    judged: Optional[Judged] = None
    second: str = ""


COMMANDS: Dict[str, Command] = {
    "prove": Command(
        ("FILE",), "decides each claim of a statement",
        "Decides each claim by completing the rules that the assumptions give. A claim is proved, with a certificate; or not derivable,"
        " with the closed rules that show it; or refuted, with matrices; or undecided, with what stopped the search.",
        ((0, "each claim is proved"), (10, "some claim isn't derivable, none is refuted or undecided"),
         (11, "some is refuted, none is undecided"), (12, "some claim is undecided")),
        ("--pairs", "--steps", "--workers", "--seed", "--format"), ("--no-models",),
    ),
    "check": Command(
        ("STATEMENT", "CERTIFICATE"), "adds up certificates, and says whether they prove their claims",
        "Reads certificates, of either format, and says of each whether its rows add up to its denominator times its claim.",
        ((0, "each is accepted"), (7, "one is refused, or its text has a fault")), reads="certificate", second="check",
        judged=Judged("accepted", ("certificate is", "certificates are"),
                      "accepted, of {claims}: each adds up to its claim, so it is zero wherever the generators are{cancels}"),
    ),
    "refute": Command(
        ("FILE",), "looks for matrices that make the assumptions true and a claim false",
        "Looks through matrices of the shapes that the file's `model` lines name, or modulo 2 with all sides 1 and with all sides 2.",
        ((11, "each claim is refuted"), (13, "some claim isn't, which says nothing of it")), ("--workers", "--seed"),
    ),
    "model": Command(
        ("STATEMENT", "MODEL"), "says of matrices whether they refute their claims",
        "Reads models, and says of each whether it makes all assumptions zero and its claim not.",
        ((0, "each is confirmed"), (7, "one is refused, or its text has a fault")), reads="model", second="check_model",
        judged=Judged("confirmed", ("model is", "models are"),
                      "confirmed, of {claims}: the matrices make all assumptions zero, and the claim not"),
    ),
    "bench": Command(
        ("N",), "decides a statement of size N, 1 to 60, that the program makes",
        "Decides the two claims of a chain of N maps with right inverses, and prints the head lines alone.",
        ((10, "the first is proved, and the second isn't derivable"),), ("--workers",),
    ),
    "confirm": Command(
        ("STATEMENT", "BASIS"), "says of rule sets whether they are closed, so that no sum of rows gives the claim",
        "Reads rule sets, and says of each whether it reduces all assumptions and all its own ambiguities to zero, and the claim not.",
        ((0, "each is closed"), (7, "one is refused, or its text has a fault")), reads="basis", second="confirm",
        judged=Judged("closed", ("basis is", "bases are"),
                      "closed, of {claims}: no positive multiple of it is a sum of rows over the generators, whatever their words",
                      ("{sharp:,} of {count:,} sharp: the rules make a preadditive category that tells the claim from zero, and one with an"
                       " involution where the file is starred.",
                       "This says nothing of matrices of finite size, nor of involutions for which r' r = 0 gives r = 0.")),
    ),
    "explain": Command(
        ("STATEMENT", "CERTIFICATE"), "prints certificates without lemmas as chains of equations",
        "Prints each certificate over generators alone, as `prove --format 1` writes it, as a chain of equations from the claim down to 0."
        " `opprove chain` reads both formats.",
        ((0, "each is explained"), (7, "one has lemmas or is refused, or its text has a fault")), reads="certificate", second="explain",
        judged=Judged("explained", ("chain", "chains"),
                      "of {claims}: each leads from its claim down to 0, so it is zero wherever the generators are{cancels}"),
    ),
    "cancel": Command(
        ("STATEMENT", "PROOF"), "checks proofs that take monic and epic maps off",
        "Reads proofs that may take a letter off each word of an equation, in front where they declare it monic and at the end where epic.",
        ((0, "each is accepted; the line names the letters"), (7, "one is refused, or its text has a fault")),
        reads="cancellation", second="cancel",
        judged=Judged("accepted", ("proof is", "proofs are"),
                      "accepted, of {claims}: each adds up to its claim, so it is zero wherever the generators are{besides} and the maps are"
                      " monic and epic that its line names so",
                      ("A map m is monic where m n = 0 holds for n = 0 only, and epic where n m = 0 does.",)),
    ),
}  # fmt: skip
ALL_STATUSES: Tuple[Tuple[int, str], ...] = (
    (2, "the words are no call"), (3, "the statement has a fault"), (4, "a file isn't loaded"), (5, "standard output failed"),
    (6, "no memory"),
)  # fmt: skip


class Call(NamedTuple):
    """The words of a call, taken apart: what is wrong with them stands in `wrong`."""

    words: List[str]
    command: str
    operands: List[str]
    options: Dict[str, str]
    wrong: str

    def files(self) -> List[str]:
        return [] if self.command == "bench" else self.operands

    def with_option(self, name: str, value: str) -> str:
        """The command to type with another value of an option, or with the option `name` alone."""
        words = [word for word in self.words if not word.startswith(name + "=")]
        if name in words:
            place = words.index(name)
            del words[place : place + 1 + bool(value)]
        return typed(words + [name] + ([value] if value else []))


def typed(words: List[str]) -> str:
    """A call to type: by the name that the script was called by."""
    return " ".join([NAME, *(shlex.quote(word) for word in words)])


def form(name: str) -> str:
    command = COMMANDS[name]
    parts = [name, *command.operands] + [f"[{it} N]" for it in command.options] + [f"[{it}]" for it in command.flags]
    return f"{NAME} {' '.join(parts)}"


def number_fault(name: str, value: str, span: Span) -> str:
    if not re.fullmatch(r"\+?[0-9]+", value):
        return f"{name} takes a number in plain digits, from {span[0]:,} to {span[1]:,}, and '{value}' is none"
    return "" if span[0] <= int(value) <= span[1] else f"{name} takes a number from {span[0]:,} to {span[1]:,}, and {value} is beyond"


def call_of(words: List[str]) -> Call:
    call = Call(words, words[0] if words and words[0] in COMMANDS else "", [], {}, "")
    if not words:
        return call._replace(wrong="a command is missing")
    if not call.command:
        return call._replace(wrong=f"'{words[0]}' is no command{did_you_mean(words[0], COMMANDS)}")
    wrong, rest = "", words[1:]
    while rest:
        word = rest.pop(0)
        if word == "--":
            call.operands.extend(rest)
            break
        if word.startswith("-") and word != "-":
            wrong = wrong or option_fault(call, word, rest)
        else:
            call.operands.append(word)
    return call._replace(wrong=wrong or operands_fault(call))


def option_fault(call: Call, word: str, rest: List[str]) -> str:
    """Takes an option, and its value from the words after it, and says what is wrong."""
    command = COMMANDS[call.command]
    name, equals, value = word.partition("=")
    known = command.options + command.flags
    if name not in known:
        others = [other for other, it in COMMANDS.items() if name in it.options + it.flags]
        if others:
            return f"{name} is an option of {listed(others)}, and not of {call.command}"
        return f"{name} is no option of {call.command}{did_you_mean(name, near(name, known) and known)}"
    if name in call.options:
        return f"{name} stands twice"
    if name in command.flags:
        call.options[name] = ""
        return f"{name} takes no value" if equals else ""
    if not equals and not rest:
        return f"{name} has no number after it"
    value = value if equals else rest.pop(0)
    call.options[name] = value
    return number_fault(name, value, OPTIONS[name])


def operands_fault(call: Call) -> str:
    wanted, given = COMMANDS[call.command].operands, call.operands
    if len(given) != len(wanted):
        noun = "number" if call.command == "bench" else "file"
        told = f"{counted(len(given), 'word')} {is_are(len(given))} given: {listed(quoted(given))}" if given else "none is given"
        return f"{call.command} takes {counted(len(wanted), noun)}, and {told}"
    return number_fault("bench", given[0], (1, 60)) if call.command == "bench" else ""


# ---- The statuses


def words(call: Call) -> List[Told]:
    first = call.words[0] if call.words else ""
    if first in ("--help", "-h", "--version", "-V", "help"):
        told = f"'{first}' is answered by the line of usage; {NAME} help lists the commands, and {NAME} help COMMAND shows one"
        return [Told(told)]
    forms = [form(call.command)] if call.command else [form(name) for name in COMMANDS]
    wrong = call.wrong or "these words are no call"
    return [Told(f"status 2: {wrong}", None, ("  " + "\n  ".join(forms), f"{NAME} help says more"))]


def not_loaded(report: str) -> List[Told]:
    match = re.fullmatch(r"# (load failed|too long) (.*?)(?: limit ([0-9]+))?\n?", report, re.DOTALL)
    if not match:
        return [Told("status 4: a file could not be loaded, or is longer than its limit")]
    what, name, limit = match.groups()
    if what == "too long":
        size = f", and it has {os.path.getsize(name):,}" if os.path.isfile(name) else ""
        return [Told(f"status 4: '{name}' may have {int(limit):,} bytes at most{size}")]
    return [Told(f"status 4: {why_not(name)}")]


def why_not(name: str) -> str:
    """Why a file is not loaded, as far as it is seen now."""
    if not name:
        return "the name of a file is empty"
    if os.path.isdir(name):
        return f"'{name}' is a folder, and a file has to be named; COMMANDS.md has how a folder of statements is proved"
    if os.path.exists(name):
        return f"'{name}' is there, and may not be read" if not os.access(name, os.R_OK) else f"'{name}' could not be read whole"
    folder, base = os.path.split(name)
    if not os.path.isdir(folder or "."):
        return f"there is no folder '{folder}' in {os.getcwd()}"
    found = near_file(base, os.listdir(folder or "."))
    others = listed(quoted(os.path.join(folder, other) for other in found), "or")
    return f"there is no file '{name}' in {os.getcwd()}" + (f" (did you mean {others}?)" if found else "")


def near_file(name: str, names: List[str]) -> List[str]:
    stem = os.path.splitext(name)[0]
    same = [other for other in names if os.path.splitext(other)[0] == stem]
    return sorted(same)[:3] or near(name, names)[:3]


TOLD = {  # of statuses that say nothing of the files
    5: Told(
        "status 5: standard output failed, and what was written is a beginning of the report", None,
        ("It was full, say, or its reader has closed it: run the same words again, with standard output where there is room.",),
    ),
    6: Told(
        "status 6: there was no memory, and nothing was written", None,
        ("More memory may do, or fewer runs side by side, or a higher `ulimit -v` where one is set. A short file can ask for much,"
         " since its expressions are multiplied out: docs/COMMANDS.md, \"What a statement can cost\", has what they take.",),
    ),
}  # fmt: skip
