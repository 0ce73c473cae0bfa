"""Runs of the program by the workers of a Dask scheduler (`dask.distributed`, which is optional), in the place of this machine's.

The text of a statement and the words travel, and reports come back, which are checked here. A worker has to have the program: in
PATH, or named by OPPROVE there; one without says so. A worker that dies has its runs made again by another one. The limits of time
and memory are those of a run on this machine, on the worker.
"""
from __future__ import annotations

from importlib import import_module
from pathlib import Path
from typing import Any, Callable, Iterator, List, NamedTuple, Optional, Tuple

from opprove.search import remote
from opprove.search.running import WORKER, Program, Runs, Unusable

DEATHS = 5  # of workers by which one run is given up
WAIT = 10  # seconds for a scheduler to answer


class Cluster:
    """The workers of a scheduler."""

    def __init__(self, address: str) -> None:
        try:
            distributed = import_module("distributed")
            import_module("cloudpickle").register_pickle_by_value(remote)
        except ImportError:
            raise Unusable("--scheduler wants dask.distributed: apt-get install python3-distributed, or pip install distributed") from None
        try:
            self.client: Any = distributed.Client(address, timeout=WAIT, set_as_default=False)
        except (OSError, ValueError) as what:
            raise Unusable(f"no Dask scheduler answers at {address}: {what}") from None

    def close(self) -> None:
        self.client.close()

    def threads(self) -> int:
        """How many runs the workers make at a time."""
        return sum(int(worker["nthreads"]) for worker in self.client.scheduler_info()["workers"].values())

    def sent(self, words: List[str], text: str, seconds: int, memory: int) -> Any:
        """The future of a run, which no other run with the same words shares."""
        return self.client.submit(remote.run, words, text, seconds, memory, pure=False)

    def outcome(self, future: Any) -> Optional[Tuple[int, bytes]]:
        """The status and the report of a run that ended, or nothing where its worker died."""
        try:
            status, report = future.result()
        except Exception as what:  # of the scheduler, which has no class for what it raises of a worker
            if type(what).__name__ not in ("KilledWorker", "CancelledError", "CommClosedError", "TimeoutError"):
                raise Unusable(f"a worker failed: {what}") from None
            return None
        if status == remote.NO_PROGRAM:
            raise Unusable(report.decode("utf-8", "replace"))
        return status, report

    def asked(self, words: List[str], text: str, seconds: int, memory: int) -> Tuple[int, bytes]:
        """The status and the report of a run, which is made again where its worker dies."""
        for _ in range(DEATHS):
            found = self.outcome(self.sent(words, text, seconds, memory))
            if found is not None:
                return found
        raise Unusable(f"a run was given up after {DEATHS} workers died")


class Sent(NamedTuple):
    """A run on the cluster: what it is for, its future, and what is sent again where its worker dies."""

    job: Any
    future: Any
    words: List[str]
    text: str
    seconds: int
    deaths: int


class ClusterRuns(Runs):
    """Runs side by side on a cluster; those in Python are made on this machine."""

    def __init__(self, address: str, program: Program, folder: Path) -> None:
        super().__init__(program, folder)
        self.away: List[Sent] = []
        self.cluster = Cluster(address)

    def __exit__(self, *what: object) -> None:
        super().__exit__(*what)
        self.cluster.close()

    def has_room(self, jobs: int) -> bool:
        return len(self.going) < jobs or len(self.away) < self.cluster.threads()

    def under_way(self) -> List[Any]:
        return super().under_way() + [sent.job for sent in self.away]

    def start(self, job: Any, words: List[str], seconds: int) -> None:
        if words[0] == WORKER:
            super().start(job, words, seconds)
            return
        self.count += 1
        text = Path(words[1]).read_text(encoding="utf-8", errors="surrogateescape")
        self.send(Sent(job, None, [words[0], *words[2:]], text, seconds, 0))

    def send(self, sent: Sent) -> None:
        future = self.cluster.sent(sent.words, sent.text, sent.seconds * self.program.patience, self.program.memory)
        self.away.append(sent._replace(future=future))

    def ended(self) -> Iterator[Tuple[Any, int, Path]]:
        yield from super().ended()
        for number, sent in enumerate([one for one in self.away if one.future.done()]):
            self.away.remove(sent)
            found = self.cluster.outcome(sent.future)
            if found is None and sent.deaths == DEATHS:
                raise Unusable(f"a run was given up after {DEATHS} workers died")
            if found is None:
                self.send(sent._replace(deaths=sent.deaths + 1))
                continue
            path = self.folder / f"away_{number}.report"
            path.write_bytes(found[1])
            yield sent.job, found[0], path

    def end(self, is_idle: Callable[[Any], bool]) -> None:
        super().end(is_idle)
        for sent in [one for one in self.away if is_idle(one.job)]:
            sent.future.cancel()
            self.away.remove(sent)


def runs_of(address: str, program: Program, folder: Path) -> Runs:
    """Runs by a scheduler, or by this machine where no address is given."""
    return ClusterRuns(address, program, folder) if address else Runs(program, folder)
