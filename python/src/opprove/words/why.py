"""An answer of the program, and what it means in words: why WORDS..

Runs the program with the words, passes its report and its status on as they are, and says on standard error what they mean: of a
statement or evidence that is refused the line, a caret and the rule; of a claim what was shown, by which assumptions or matrices,
or what stopped the search and what may help; and what other statuses ask for.

why --editor STATEMENT [EVIDENCE] writes the first fault as FILE:LINE:COLUMN: error: CODE: .. for editors, and nothing where there is
none; with --bytes after --editor the column counts bytes, as Vim does. Its status is then 0, and else the program's.
The script opprove calls why --told STATUS REPORT WORDS.. for a run that has ended, with its report in a file.

With NO_COLOR in the environment the words have no colour.
"""
from __future__ import annotations

import os
import signal
import subprocess
import sys
from typing import List, NamedTuple, Optional

from opprove.program import path as path_of_program
from opprove.text import EvidenceText
from opprove.words import calls, evidence, outcomes, statement
from opprove.words.parts import Screen, Told, on_screen

PROGRAM = path_of_program()
PATIENCE = 2  # seconds for an explanation, and three times as many at a terminal; what takes longer is told by its status alone
REPORTED = (0, 2, 3, 4, 5, 7, 10, 11, 12, 13)  # statuses that come with a report
KEPT = 1 << 26  # bytes of a report that are read


class TooLong(Exception):
    """An explanation takes longer than anybody waits."""


class Answer(NamedTuple):
    status: int
    report: Optional[str]  # none where it isn't known


# ---- What is told

STATUSES = {  # where the report isn't known
    3: "status 3: the statement has a fault",
    7: "status 7: the evidence has a fault, or a block of it is refused",
    10: "status 10: no claim is undecided or refuted, and some claim isn't derivable",
    11: "status 11: no claim is undecided, and some claim is refuted",
    12: "status 12: some claim is undecided; more --pairs or --steps, or another order, may do",
    13: "status 13: some claim isn't refuted, which says nothing of it",
}


def explanation(words: List[str], answer: Answer, briefly: bool = False, is_waited_for: bool = False) -> List[Told]:
    """What an answer means. Reads the files that the words name again. Where somebody waits at a terminal, matrices are looked for too."""
    call = calls.call_of(words)
    status, report = answer
    if status == 2:
        return calls.words(call)
    if status == 4:
        return calls.not_loaded(report or "")
    if status in calls.TOLD:
        return [calls.TOLD[status]]
    told = told_of_report(call, report, briefly, is_waited_for) if report is not None else []
    return told or ([Told(STATUSES[status])] if status in STATUSES else [])


def told_of_report(call: calls.Call, report: str, briefly: bool, is_waited_for: bool) -> List[Told]:
    files = [(name, content(name)) for name in call.files()]
    lines = report.split("\n")
    last = lines[-2] if len(lines) > 1 else ""
    read = statement.Statement(*files[0]) if files else None
    if read and call.command in evidence.READS:
        text = evidence.Text(files[1][0], files[1][1], evidence.READS[call.command])
        refused = statement.told_of(*files[0], last, briefly) or evidence.told_of(read, text, last, briefly)
        return outcomes.told_of_blocks(text, report) + ([refused] if refused else [])
    refused = statement.told_of(*files[0], last, briefly) if files else None
    return [refused] if refused else outcomes.told_of(outcomes.Asked(call, read, is_waited_for), report, briefly)


def content(name: str) -> bytes:
    """The bytes of a file that can be read again; else none."""
    if not os.path.isfile(name):
        return b""
    with open(name, "rb") as file:
        return file.read()


# ---- The program


def run_and_pass(words: List[str]) -> Answer:
    """Runs the program, and writes its report where its own would go. What fails there fails as it does for the program."""
    try:
        program = subprocess.Popen([PROGRAM, *words], stdout=None if sys.stdout is None else subprocess.PIPE, close_fds=False)
    except OSError as error:
        raise SystemExit(told_failure(error)) from None
    hand_on_signals(program)
    parts: List[bytes] = []
    failed = sys.stdout is None
    while program.stdout:
        part = program.stdout.read1(1 << 16)  # type: ignore[attr-defined]
        if not part:
            break
        parts += [part] if sum(map(len, parts)) < KEPT else []
        failed = failed or not is_written(part)
        if failed:
            program.stdout.close()
            break
    status = program.wait()
    for number in (signal.SIGINT, signal.SIGTERM, signal.SIGHUP):
        signal.signal(number, signal.SIG_DFL)
    return Answer(5 if failed and status in REPORTED else status, b"".join(parts).decode(errors="surrogateescape"))


def hand_on_signals(program: "subprocess.Popen[bytes]") -> None:
    """An interrupt reaches the program by itself; what ends this script is sent to it."""
    signal.signal(signal.SIGINT, signal.SIG_IGN)
    for number in (signal.SIGTERM, signal.SIGHUP):
        signal.signal(number, lambda it, _: program.send_signal(it))


def is_written(part: bytes) -> bool:
    try:
        while part:
            part = part[os.write(1, part) :]
    except OSError:
        return False
    return True


def told_failure(error: OSError) -> int:
    if isinstance(error, FileNotFoundError):
        say("opprove: the program isn't there; OPPROVE may name it")
    else:
        say(f"opprove: the program could not be run: {error.strerror}")
    return 1


# ---- What is written


def screen() -> Screen:
    """The terminal of standard error."""
    is_terminal = sys.stderr is not None and sys.stderr.isatty()
    try:
        size = os.get_terminal_size(2) if is_terminal else os.terminal_size((100, 40))
    except OSError:
        size = os.terminal_size((80, 24))
    has_colour = is_terminal and not os.environ.get("NO_COLOR") and os.environ.get("TERM", "dumb") != "dumb"
    encoding = getattr(sys.stderr, "encoding", None) or "ascii"
    return Screen(min(max(size.columns or 80, 40), 132), max((size.lines or 24) - 3, 10), encoding, has_colour)


def say(text: str) -> None:
    if sys.stderr is None:
        return
    try:
        sys.stderr.buffer.write((text + "\n").encode(sys.stderr.encoding or "ascii", "replace"))
        sys.stderr.buffer.flush()
    except (OSError, ValueError):
        pass


def tell(words: List[str], answer: Answer, is_waited_for: bool = False) -> None:
    """Writes what the answer means, and never more than that."""
    shown = screen()
    say("\n".join(on_screen(in_time(words, answer, is_waited_for), shown)))


def in_time(words: List[str], answer: Answer, is_waited_for: bool = False) -> List[Told]:
    """The explanation, or a brief one where it takes too long or a file is beyond what check.py reads."""

    def stop(*_: object) -> None:
        raise TooLong

    signal.signal(signal.SIGALRM, stop)
    for briefly in (False, True):
        signal.setitimer(signal.ITIMER_REAL, PATIENCE * (3 if is_waited_for else 1))
        try:
            return explanation(words, answer, briefly, is_waited_for)
        except (TooLong, MemoryError, RecursionError, OSError, ArithmeticError, LookupError, ValueError, TypeError, AttributeError):
            continue
        finally:
            signal.setitimer(signal.ITIMER_REAL, 0)
    return explanation(words, Answer(answer.status, None))


def editor(words: List[str]) -> int:
    """Writes the first fault as a line for editors."""
    in_bytes = words[:1] == ["--bytes"]
    files = words[in_bytes:]
    if len(files) not in (1, 2):
        say("opprove: --editor takes a statement, and evidence where there is some")
        return 2
    call = [reader_of(files[1]), *files] if len(files) == 2 else ["prove", files[0], "--no-models", "--pairs", "1"]
    try:
        done = subprocess.run([PROGRAM, *call], stdout=subprocess.PIPE)
    except OSError as error:
        return told_failure(error)
    if done.returncode not in (3, 4, 7):
        return 0
    told = in_time(call, Answer(done.returncode, done.stdout.decode(errors="surrogateescape")))[-1]
    path, line, text, column = told.quote or (files[0], 1, "", 0)
    column = max(column, 1)
    column = len(text[: column - 1].encode(errors="surrogateescape")) + 1 if in_bytes else column
    sys.stdout.buffer.write(f"{path}:{line}:{column}: error: {told.sentence}\n".encode(errors="surrogateescape"))
    return done.returncode


def reader_of(path: str) -> str:
    """The command that reads it: cancel where it has proofs that cancel, model where it has models and no certificate, and confirm where it
    has bases alone."""
    kinds = EvidenceText(content(path)).kinds
    readers = {"cancellation": "cancel", "certificate": "check", "model": "model", "basis": "confirm"}
    return next((reader for kind, reader in readers.items() if kind in kinds), "check")


def ended(status: int) -> int:
    """Ends as the program did: by its status, or by its signal."""
    if status < 0:
        signal.signal(-status, signal.SIG_DFL) if -status not in (signal.SIGKILL, signal.SIGSTOP) else None
        os.kill(os.getpid(), -status)
    return status


def main(words: List[str]) -> int:
    """Runs the program with the words, and says what it answers; or does what the first word asks for."""
    if words[:1] in (["--help"], ["-h"]):
        sys.stdout.write(f"usage: opprove why [--editor [--bytes]] WORDS ..\n\n{(__doc__ or '').strip()}\n")
        return 0
    if words[:1] == ["--editor"]:
        return editor(words[1:])
    if words[:1] == ["--told"] and len(words) >= 3:
        report = content(words[2]).decode(errors="surrogateescape") if os.path.getsize(words[2]) < KEPT else None
        tell(words[3:], Answer(int(words[1]), report), is_waited_for=True)
        return 0
    answer = run_and_pass(words)
    if answer.status >= 0:
        tell(words, answer)
    return ended(answer.status)

