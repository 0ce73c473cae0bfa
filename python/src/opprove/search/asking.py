"""Single runs of the program, by this machine or by the workers of a Dask scheduler, for tools that wait for each answer."""
from __future__ import annotations

import threading
from concurrent.futures import ThreadPoolExecutor
from pathlib import Path
from typing import Callable, Dict, Iterable, Iterator, List, Optional, Sequence, Tuple, TypeVar

from opprove.search.cluster import Cluster
from opprove.search.running import Program

Outcome = Tuple[int, bytes]  # a status and a report
Given = TypeVar("Given")
Made = TypeVar("Made")


class Asker:
    """Asks about texts, from several threads at a time. What was asked before is answered again."""

    def __init__(self, program: Program, folder: Path, address: str = "") -> None:
        self.program, self.folder = program, folder
        self.cluster: Optional[Cluster] = Cluster(address) if address else None
        self.answers: Dict[Tuple[str, ...], Outcome] = {}
        self.lock = threading.Lock()
        self.count = 0  # of runs

    def __enter__(self) -> "Asker":
        return self

    def __exit__(self, *what: object) -> None:
        if self.cluster:
            self.cluster.close()

    def ask(self, words: Sequence[str], text: str, seconds: int) -> Outcome:
        """The answer of a command on a statement; the first word is the command, and the others stand behind the file."""
        key = (*words, text)
        with self.lock:
            if key in self.answers:
                return self.answers[key]
            self.count += 1
            number = self.count
        found = self.remote(list(words), text, seconds) if self.cluster else self.local(number, words, text, seconds)
        with self.lock:
            self.answers[key] = found
        return found

    def local(self, number: int, words: Sequence[str], text: str, seconds: int) -> Outcome:
        path = self.folder / f"asked_{number}.op"
        path.write_bytes(text.encode("utf-8", "surrogateescape"))
        found = self.program.report([words[0], str(path), *words[1:]], seconds)
        path.unlink()
        return found

    def remote(self, words: List[str], text: str, seconds: int) -> Outcome:
        assert self.cluster
        return self.cluster.asked(words, text, seconds * self.program.patience, self.program.memory)


def side_by_side(jobs: int, make: Callable[[Given], Made], items: Iterable[Given]) -> Iterator[Made]:
    """What is made of each item, in their order, by so many threads."""
    with ThreadPoolExecutor(max_workers=jobs) as pool:
        yield from pool.map(make, items)
