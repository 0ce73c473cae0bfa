"""A run of the program, as a worker of a cluster makes it. Workers get this file by value, so they need nothing but the program."""
from __future__ import annotations

import os
import resource
import shutil
import socket
import subprocess
import tempfile
from typing import List, Tuple

NO_PROGRAM = 127


def run(words: List[str], text: str, seconds: int, memory: int) -> Tuple[int, bytes]:
    """The status and the report of the program on a statement, with a bound of processor time and, where it isn't 0, of memory."""
    program = shutil.which(os.environ.get("OPPROVE") or "opprove")
    if not program:
        return NO_PROGRAM, f"the worker on {socket.gethostname()} has no opprove in PATH, and OPPROVE names none there".encode()

    def bound() -> None:
        resource.setrlimit(resource.RLIMIT_CPU, (seconds, seconds))
        resource.setrlimit(resource.RLIMIT_CORE, (0, 0))
        if memory:
            resource.setrlimit(resource.RLIMIT_AS, (memory, memory))

    with tempfile.TemporaryDirectory(prefix="opprove-") as folder:
        path = os.path.join(folder, "statement.op")
        with open(path, "wb") as file:
            file.write(text.encode("utf-8", "surrogateescape"))
        command = [program, words[0], path, *words[1:]]
        done = subprocess.run(
            command, stdin=subprocess.DEVNULL, stdout=subprocess.PIPE, stderr=subprocess.DEVNULL, preexec_fn=bound, check=False
        )
    return done.returncode, done.stdout
