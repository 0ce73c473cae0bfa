#!/usr/bin/env -S PYTHONPATH=python/src:python/tests python3 -B
"""Tries the program from outside, over devices that fail: try_devices.py [--long]

Gives the program that is built, or the one that the variable OPPROVE names, files that can't be read or change while they
are read, outputs that are closed, full or not read, signals, and too little memory, and compares its status and what it wrote with
the tables below. It prints a line for each trial; what a trial wants and isn't there (Linux, cc, strace, root) is skipped with a
line. The status is 1 where an answer differs. With --long it refuses allocations of runs that decide and search too, on 1 and 4
threads, and goes through more address spaces.
"""
from __future__ import annotations

import argparse
import contextlib
import os
import resource
import shutil
import signal
import socket
import subprocess
import sys
import tempfile
import threading
import time
from pathlib import Path
from typing import IO, Any, Callable, Dict, Iterator, List, NamedTuple, Optional, Sequence, Tuple

from trying import Failed, Skipped, built, installed, need, usage_line

USAGE, FAULTY, NOT_LOADED, SINK_FAILED, NO_MEMORY, REFUSED, LOADER_FAILED = 2, 3, 4, 5, 6, 7, 127
PATIENCE = 120  # seconds
NOBODY = 65534
BRACKETS = 64

ONE_SIDED = "object U V\nmap a : U -> V\nmap b : V -> U\nassume a b = [V]\nclaim b a = [U]\nmodel 2 U 2 V 1\n"
MAPS = "object U\nmap a b : U -> U\n"
FILES = {
    # two one-sided inverses of one map are equal
    "s": "object U V\nmap l : V -> U\nmap a : U -> V\nmap r : V -> U\nassume l a = [U]\nassume a r = [V]\nclaim l = r\n",
    "c": "certificate 1\nclaim 1\ndenominator 1\nrow 1 () 1 (r)\nrow -1 (l) 2 ()\nrow 1 () 6 ()\nrow -1 () 8 ()\nend\n",
    "doubled": "object U\nmap x : U -> U\nassume 2 x = 0\nclaim x = 0\n",
    "one_sided": ONE_SIDED,
    # a search of all numbers modulo 2, and one of drawn candidates that solves for a map
    "numbered": "object U\nmap a b : U -> U\nassume a b = b\nclaim a = b\nmodel 2\n",
    "drawn": "object U\nmap a b c : U -> U\nassume a b = c\nsolve c\nclaim a c = c a\nmodel 101 U 2\n",
    "power": f"object U\nmap a : U -> U\nassume {'a ' * 34}= 0\nclaim a = 0\n",
    "braid": f"{MAPS}assume b a b = a b a\nclaim a = b\n",
    "terms": f"{MAPS}claim {'(a + b) ' * 14}= 0\n",
    "nested": f"{MAPS}claim {'(' * BRACKETS}a{')' * BRACKETS} = a\n",
}
CHECK = ["check", "s", "c"]


class Answer(NamedTuple):
    status: int  # below 0 the number of the signal that ended it
    out: bytes


class Place(NamedTuple):
    folder: Path  # with the files and the program
    is_long: bool

    def start(
        self, words: Sequence[str], before: Sequence[str] = ("./opprove",), variables: Optional[Dict[str, str]] = None, **how: Any
    ) -> "subprocess.Popen[bytes]":
        devices = {"stdin": subprocess.DEVNULL, "stdout": subprocess.PIPE, "stderr": subprocess.DEVNULL, **how}
        return subprocess.Popen([*before, *words], cwd=self.folder, env={**os.environ, **(variables or {})}, **devices)

    def run(self, words: Sequence[str], **how: Any) -> Answer:
        with self.start(words, **how) as process:
            return ended(process)


def ended(process: "subprocess.Popen[bytes]") -> Answer:
    try:
        out = process.communicate(timeout=PATIENCE)[0]
    except subprocess.TimeoutExpired:
        process.kill()
        raise Failed(f"{str(process.args)[:200]} had not ended after {PATIENCE} seconds")
    return Answer(process.returncode, out or b"")


def wanted(what: object, answer: Answer, *allowed: Answer) -> None:
    shown = Answer(answer.status, answer.out[:200])
    need(answer in allowed, f"{what}: {shown}, and not {[Answer(other.status, other.out[:200]) for other in allowed]}")


def cut_short(what: object, answer: Answer, status: int, report: bytes) -> str:
    need(answer.status == status and report.startswith(answer.out), f"{what}: status {answer.status} behind {answer.out[:200]!r}")
    return f"{answer.status} behind {len(answer.out)} of {len(report)} bytes"


# ---- Files

# What stands in the place of the statement or of the certificate, the status, and the report.
LOADS: List[Tuple[str, List[str], int, str]] = [
    ("a directory", ["check", "folder", "c"], NOT_LOADED, "# load failed folder\n"),
    ("a certificate that is a directory", ["check", "s", "folder"], NOT_LOADED, "# load failed folder\n"),
    ("a missing file", ["check", "s", "missing"], NOT_LOADED, "# load failed missing\n"),
    ("a link to itself", ["check", "loop", "c"], NOT_LOADED, "# load failed loop\n"),
    ("a slash behind a file", ["check", "s/", "c"], NOT_LOADED, "# load failed s/\n"),
    ("an empty statement", ["check", "/dev/null", "c"], FAULTY, "# refused S15\n"),
    ("an empty certificate", ["check", "s", "/dev/null"], REFUSED, "# refused K7\n"),
    ("a statement without end", ["check", "/dev/zero", "c"], NOT_LOADED, "# too long /dev/zero limit 1048576\n"),
    ("a certificate without end", ["check", "s", "/dev/zero"], NOT_LOADED, "# too long /dev/zero limit 67108864\n"),
    ("a statement of 1 TB", ["check", "sparse", "c"], NOT_LOADED, "# too long sparse limit 1048576\n"),
    ("a certificate of 1 TB", ["check", "s", "sparse"], NOT_LOADED, "# too long sparse limit 67108864\n"),
    ("100,000 words", ["check"] + 100_000 * ["s"], USAGE, usage_line()),
    ("a number of 4,000 digits", ["prove", "s", "--pairs", 4000 * "9"], USAGE, usage_line()),
    ("a word that isn't UTF-8", ["check", "s", "\udcff"], USAGE, usage_line()),
    ("a name of 100,000 bytes", ["check", 100_000 * "n", "c"], NOT_LOADED, f"# load failed {100_000 * 'n'}\n"),
]


def load(words: List[str], status: int, report: str) -> Callable[[Place], str]:
    def trial(place: Place) -> str:
        wanted(words[:3], place.run(words), Answer(status, report.encode()))
        return str(status)

    return trial


def as_nobody() -> None:
    if os.getuid() == 0:
        os.setgroups([])
        os.setgid(NOBODY)
        os.setuid(NOBODY)


def unreadable(place: Place) -> str:
    answer = place.run(["check", "unreadable", "c"], preexec_fn=as_nobody)
    wanted("unreadable", answer, Answer(NOT_LOADED, b"# load failed unreadable\n"))
    return str(answer.status)


def fed(place: Place, write: Callable[[int, bytes], object], words: List[str]) -> Answer:
    """What the program answers whose standard input is a pipe that is written so."""
    with place.start(words, stdin=subprocess.PIPE) as process:
        assert process.stdin
        write(process.stdin.fileno(), FILES["s"].encode())
        process.stdin.close()
        process.stdin = None
        return ended(process)


def by_bytes(pipe: int, text: bytes) -> None:
    for byte in text:
        os.write(pipe, bytes([byte]))
        time.sleep(0.001)


def standard_input(place: Place) -> str:
    report = place.run(CHECK)
    for write in (os.write, by_bytes):
        wanted("/dev/stdin", fed(place, write, ["check", "/dev/stdin", "c"]), report)
    return f"{report.status}, as of a file, also by single bytes"


def named_pipe(place: Place) -> str:
    report = place.run(CHECK)
    os.mkfifo(place.folder / "pipe")
    with place.start(["check", "s", "pipe"]) as process:
        time.sleep(0.5)
        need(process.poll() is None, f"it ended before anything was written: {process.poll()}")
        (place.folder / "pipe").write_text(FILES["c"])
        wanted("a named pipe", ended(process), report)
    return f"waits for a writer, and then {report.status}"


def rewrite(path: Path, text: bytes, done: threading.Event) -> None:
    with path.open("r+b", buffering=0) as file:
        while not done.is_set():
            file.seek(0)
            file.truncate()
            for place in range(0, len(text), 8):
                file.write(text[place : place + 8])


def changing_file(place: Place) -> str:
    text, done, path = FILES["c"].encode(), threading.Event(), place.folder / "changing"
    allowed = set()
    for length in range(len(text) + 1):
        path.write_bytes(text[:length])
        allowed.add(place.run(["check", "s", "changing"]))
    writer = threading.Thread(target=rewrite, args=(path, text, done))
    writer.start()
    try:
        answers = [place.run(["check", "s", "changing"]) for _ in range(400 if place.is_long else 100)]
    finally:
        done.set()
        writer.join()
    for answer in answers:
        wanted("a file that is rewritten", answer, *allowed)
    return f"{len(answers)} answers of statuses {sorted({answer.status for answer in answers})} over what was read"


# ---- Outputs


def ignoring(*more: Callable[[], object]) -> Callable[[], None]:
    """What is done before the program starts: the signals of broken pipes and of long files are ignored."""

    def before() -> None:
        for number in (signal.SIGPIPE, signal.SIGXFSZ):
            signal.signal(number, signal.SIG_IGN)
        for each in more:
            each()

    return before


def output_closed(place: Place) -> str:
    return cut_short("closed", place.run(CHECK, preexec_fn=ignoring(lambda: os.close(1))), SINK_FAILED, b"")


def broken_pipe() -> IO[bytes]:
    reader, writer = os.pipe()
    os.close(reader)
    return open(writer, "wb")


# What standard output is that takes nothing.
SINKS: Dict[str, Callable[[Path], IO[bytes]]] = {
    "output full": lambda folder: open("/dev/full", "wb"), "output opened for reading": lambda folder: (folder / "s").open("rb"),
    "a pipe whose reader has gone": lambda folder: broken_pipe(),
}  # fmt: skip


def sink(name: str) -> Callable[[Place], str]:
    def trial(place: Place) -> str:
        with SINKS[name](place.folder) as file:
            return cut_short(name, place.run(CHECK, stdout=file, preexec_fn=ignoring()), SINK_FAILED, b"")

    return trial


def to_file(place: Place, path: Path, preexec: Callable[[], None]) -> str:
    """A report that is longer than the file may get."""
    report = place.run(["prove", "terms"])
    with path.open("wb") as file:
        status = place.run(["prove", "terms"], stdout=file, preexec_fn=preexec).status
    return cut_short(path, Answer(status, path.read_bytes()), SINK_FAILED, report.out)


def limit_on_files(place: Place) -> str:
    limit = (65_536, resource.RLIM_INFINITY)
    return to_file(place, place.folder / "short", ignoring(lambda: resource.setrlimit(resource.RLIMIT_FSIZE, limit)))


def full_disk(place: Place) -> str:
    if os.getuid() != 0:
        raise Skipped("only root can mount a small disk")
    disk = place.folder / "disk"
    disk.mkdir()
    if subprocess.run(["mount", "-t", "tmpfs", "-o", "size=64k", "tmpfs", str(disk)], stderr=subprocess.DEVNULL).returncode:
        raise Skipped("no disk can be mounted here")
    try:
        return to_file(place, disk / "report", ignoring())
    finally:
        subprocess.run(["umount", str(disk)], check=True)


def left_in(reader: int) -> Iterator[bytes]:
    with contextlib.suppress(BlockingIOError):
        while True:
            piece = os.read(reader, 65_536)
            if not piece:
                return
            yield piece


def not_read(place: Place, reader: int, writer: int) -> str:
    """What comes where a pipe or socket doesn't block and isn't read."""
    report = place.run(["prove", "terms"])
    os.set_blocking(writer, False)
    os.set_blocking(reader, False)
    status = place.run(["prove", "terms"], stdout=writer, preexec_fn=ignoring()).status
    answer = Answer(status, b"".join(left_in(reader)))
    need(len(answer.out) > 0, "nothing was taken")
    return cut_short("an output that doesn't block", answer, SINK_FAILED, report.out)


def full_pipe(place: Place) -> str:
    reader, writer = os.pipe()
    with open(reader, "rb"), open(writer, "wb"):
        return not_read(place, reader, writer)


def full_socket(place: Place) -> str:
    left, right = socket.socketpair()
    with left, right:
        return not_read(place, left.fileno(), right.fileno())


# ---- Signals

SIGNALS = [signal.SIGINT, signal.SIGTERM, signal.SIGHUP]
ENDLESS = ["prove", "braid", "--pairs", "1000000", "--no-models"]
LONG_RUN = ["prove", "braid", "--pairs", "10000", "--no-models"]


def ended_by_signals(place: Place) -> str:
    for number in SIGNALS:
        with place.start(ENDLESS, preexec_fn=lambda: signal.signal(number, signal.SIG_DFL)) as process:
            time.sleep(0.3)
            process.send_signal(number)
            wanted(number.name, ended(process), Answer(-number, b""))
    return "ended by the signal, with nothing written"


def stopped(place: Place) -> str:
    report = place.run(LONG_RUN)
    with place.start(LONG_RUN) as process:
        for number in (signal.SIGSTOP, signal.SIGCONT) * 3:
            time.sleep(0.05)
            process.send_signal(number)
        wanted("stopped and continued", ended(process), report)
    return f"{report.status}, with the whole report"


# ---- Memory, threads and stack

# Counts the allocations, refuses the one with the number FAIL_AT or all from FAIL_FROM on, and writes the count to COUNT_TO.
REFUSING = r"""
#include <errno.h>
#include <stdatomic.h>
#include <stdio.h>
#include <stdlib.h>
#include <sys/syscall.h>
#include <unistd.h>
#include <fcntl.h>
void *__libc_malloc(size_t);
void *__libc_realloc(void *, size_t);
static atomic_long count;
static long number(const char *name) { const char *text = getenv(name); return text ? atol(text) : 0; }
static int is_refused(void) {
  long now = atomic_fetch_add(&count, 1) + 1, from = number("FAIL_FROM");
  return now == number("FAIL_AT") || (from && now >= from) ? (errno = ENOMEM, 1) : 0;
}
void *malloc(size_t size) { return is_refused() ? NULL : __libc_malloc(size); }
void *realloc(void *old, size_t size) { return is_refused() ? NULL : __libc_realloc(old, size); }
void _exit(int status) {
  const char *path = getenv("COUNT_TO");
  if (path) dprintf(open(path, O_WRONLY | O_CREAT | O_TRUNC, 0600), "%ld\n", atomic_load(&count));
  for (;;) syscall(SYS_exit_group, status);
}
"""

# Of a run with more allocations than this some are refused, evenly spread.
REFUSED_MOST = 500

# Words that decide and search, of which all but the first three are tried with --long alone.
ALLOCATING = [
    "check s c", "prove doubled", "prove doubled --format 1", "prove one_sided", "refute one_sided", "refute numbered", "refute drawn",
    "prove power --pairs 33 --no-models",
]  # fmt: skip


def preload(place: Place) -> Path:
    source, library = place.folder / "refusing.c", place.folder / "refusing.so"
    if not library.exists():
        source.write_text(REFUSING)
        done = subprocess.run([installed("cc"), "-O2", "-shared", "-fPIC", "-o", library, source], capture_output=True)
        if done.returncode:
            raise Skipped("cc does not build the library that refuses allocations")
    return library


def refused_in(place: Place, words: List[str]) -> Tuple[int, int]:
    """How many allocations a run makes, and how many runs had some refused and gave their report all the same."""
    variables = {"LD_PRELOAD": str(preload(place)), "COUNT_TO": str(place.folder / "count")}
    report = place.run(words, variables=variables)
    wanted(words, report, place.run(words))
    count, whole = int((place.folder / "count").read_text()), 0
    need(count > 0, "no allocation of the program was seen")
    for variable in ("FAIL_AT", "FAIL_FROM"):
        for number in range(1, count + 1, -(-count // REFUSED_MOST)):
            answer = place.run(words, variables={**variables, variable: str(number)})
            wanted((words, variable, number), answer, report, Answer(NO_MEMORY, b""))
            whole += answer == report
    return count, whole


def refused_allocations(words: List[str]) -> Callable[[Place], str]:
    def trial(place: Place) -> str:
        tries = [words] if words[0] == "check" else [[*words, "--workers", workers] for workers in ("1", "4")]
        found = [refused_in(place, each) for each in tries]
        counts, whole = (" and ".join(str(each[part]) for each in found) for part in (0, 1))
        refused = f"up to {REFUSED_MOST} of them alone and all from there on"
        return f"{counts} allocations, {refused}: {NO_MEMORY} and nothing put, or the report {whole} times"

    return trial


def address_spaces(place: Place) -> str:
    """In steps from one in which the program can't be loaded to one in which it gives its report."""
    report, seen = place.run(CHECK), {LOADER_FAILED: 0, NO_MEMORY: 0, 0: 0}
    step = 16 if place.is_long else 256
    for kilobytes in range(2_048, 16_384, step):
        shell = ["sh", "-c", f'ulimit -v {kilobytes} && exec ./opprove "$@"', "sh"]
        answer = place.run(CHECK, before=shell)
        is_loaded = seen[NO_MEMORY] + seen[0] > 0
        loader = [] if is_loaded else [Answer(LOADER_FAILED, b""), Answer(-signal.SIGSEGV, b""), Answer(-signal.SIGKILL, b"")]
        wanted(f"{kilobytes} KB", answer, report, Answer(NO_MEMORY, b""), *loader)
        seen[answer.status if answer.status in seen else LOADER_FAILED] += 1
    need(seen[0] > 0, "the report was not seen")
    return f"{seen[LOADER_FAILED]} in which it isn't loaded, then {NO_MEMORY} {seen[NO_MEMORY]} times and the report {seen[0]} times"


def no_threads(place: Place) -> str:
    report, words = place.run(LONG_RUN), [*LONG_RUN, "--workers", "64"]

    def before() -> None:
        resource.setrlimit(resource.RLIMIT_NPROC, (1, 1))
        as_nobody()

    wanted("no threads", place.run(words, preexec_fn=before), report)
    return f"{report.status}, with the report"


def small_stack(place: Place) -> str:
    def before() -> None:
        resource.setrlimit(resource.RLIMIT_STACK, (256 * 1024, 256 * 1024))

    for words in (CHECK, ["prove", "nested"], ["prove", "doubled"], ["refute", "one_sided"]):
        wanted(words, place.run(words, preexec_fn=before), place.run(words))
    return f"the reports in 256 KB, also of {BRACKETS} brackets"


# ---- Calls of the system that fail in turn

# The call, its number among those on its file, the file, the error, the status, and the report.
INJECTED: List[Tuple[str, int, Optional[str], str, int, bytes]] = [
    (call, number, file, error, NOT_LOADED, b"# load failed %s\n" % file.encode())
    for file in ("s", "c")
    for call, number, error in [("openat", 1, "EIO"), *(("read", number, error) for error in ("EIO", "EINTR") for number in (1, 2))]
] + [("write", 1, None, error, SINK_FAILED, b"") for error in ("EIO", "ENOSPC", "EINTR")]


def failing_calls(place: Place) -> str:
    tracer = installed("strace")
    if place.run(CHECK, before=[tracer, "-f", "-qq", "-o", "/dev/null", "./opprove"]) != place.run(CHECK):
        raise Skipped("strace can't trace here")
    for call, number, file, error, status, report in INJECTED:
        path = ["-P", file] if file else []
        inject = f"inject={call}:error={error}:when={number}"
        answer = place.run(CHECK, before=[tracer, "-f", "-qq", "-o", "/dev/null", *path, "-e", inject, "./opprove"])
        wanted((call, number, file, error), answer, Answer(status, report))
    return f"{len(INJECTED)} calls, {NOT_LOADED} where one on a file fails, {SINK_FAILED} where a write does"


# ---- All trials


def trials(is_long: bool) -> Iterator[Tuple[str, Callable[[Place], str]]]:
    yield from ((name, load(words, status, report)) for name, words, status, report in LOADS)
    yield from ((name, sink(name)) for name in SINKS)
    for trial in (
        unreadable, standard_input, named_pipe, changing_file, output_closed, limit_on_files, full_disk, full_pipe, full_socket,
        ended_by_signals, stopped, address_spaces, no_threads, small_stack, failing_calls,
    ):  # fmt: skip
        yield trial.__name__.replace("_", " "), trial
    for words in ALLOCATING if is_long else ALLOCATING[:3]:
        yield f"allocations of {words}", refused_allocations(words.split())


def furnish(folder: Path, program: Path) -> None:
    folder.chmod(0o755)
    shutil.copy(program, folder / "opprove")
    (folder / "opprove").chmod(0o755)
    (folder / "folder").mkdir()
    (folder / "loop").symlink_to("loop")
    for name, text in FILES.items():
        (folder / name).write_text(text)
    (folder / "unreadable").write_text(FILES["s"])
    (folder / "unreadable").chmod(0)
    with (folder / "sparse").open("wb") as file:
        file.truncate(2**40)


def try_all(place: Place) -> bool:
    """Prints a line for each trial, and tells whether all of them hold."""
    failed = 0
    for name, trial in trials(place.is_long):
        try:
            line = trial(place)
        except Skipped as reason:
            line = f"skipped, as {reason}"
        except (Failed, OSError, subprocess.SubprocessError) as fault:
            line, failed = f"FAILED: {fault}", failed + 1
        print(f"{name}: {line}", flush=True)
    return failed == 0


def main() -> int:
    parser = argparse.ArgumentParser(description="Tries the program from outside, over devices that fail")
    parser.add_argument("--long", action="store_true", help="more allocations and address spaces, in some minutes")
    words = parser.parse_args()
    if not sys.platform.startswith("linux"):
        print("skipped: these trials want Linux")
        return 0
    with tempfile.TemporaryDirectory() as folder:
        try:
            furnish(Path(folder), built())
        except (OSError, Skipped) as fault:
            print(f"try_devices.py: {fault}", file=sys.stderr)
            return 1
        return 0 if try_all(Place(Path(folder), words.long)) else 1


if __name__ == "__main__":
    sys.exit(main())
