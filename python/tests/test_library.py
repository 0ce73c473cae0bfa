"""Proves the library.

Of a fixed sample of 40 files, or for `dev/try.py library` of all, the verdict that the header states is compared with what the program and
the second checkers say: certificates go through `check` and check.py, bases through `confirm`, and what lies beside a file through the
programs that read it, where a .report has to be no worse than what `prove` prints; and the row of the file with that which the index has,
of all with the steps of chains, the documents and the lemmas.
"""
from __future__ import annotations

import collections
import functools
import re
import tempfile
from concurrent.futures import ProcessPoolExecutor
from itertools import repeat
from pathlib import Path
from typing import Callable, Dict, Iterable, List, Set, Tuple

import library_index as index
from library_index import Part, Proved, paths
from opprove.checkers.check import Evidence, Problem, Refusal, judge
from trying import LIBRARY, PROGRAM, Failed, built, checker, need, run

SAMPLE = 40
# What reads evidence beside a file, by the word of its first block: a command of the program, and a second checker.
READERS = {
    "model": ("model", "check_model"), "rational": ("", "check_model"), "certificate": ("check", "check"),
    "cancellation": ("cancel", "cancel"), "star": ("", "star"),
}  # fmt: skip
# Parts of verdicts that evidence beside the file says: the ending of its name, and the word of its blocks.
KINDS = {
    "proved by cancelling": (".cert", "cancellation"), "proved by search": (".cert", "certificate"),
    "proved for complex": (".star", "star"), "refuted by rational": (".cert", "rational"),
    "refuted modulo": (".model", "model"), "refuted by search": (".model", "model"),
}  # fmt: skip


def sample(all_paths: List[Path]) -> List[Path]:
    """Files at equal distances, which leave out none of the chapters but that of searches."""
    fixed = [path for path in all_paths if path.parent.name != "harder"]
    return [fixed[place * len(fixed) // SAMPLE] for place in range(SAMPLE)]


def checked(one: Proved, folder: Path) -> None:
    """The certificates of a report, by both checkers."""
    statement, report = folder / "statement.op", folder / "report"
    statement.write_text(one.statement, encoding="utf-8")
    report.write_text(one.report, encoding="utf-8")
    if "\ncertificate " in one.report:
        problem = Problem(str(statement))
        for certificate in Evidence(problem, str(report)).certificates:
            judge(problem, certificate, "")
        answer = run(PROGRAM, "check", statement, report)
        need(answer.status == 0 and " refused " not in answer.out, answer)
    if "\nbasis " in one.report:
        answer = run(PROGRAM, "confirm", statement, report)
        need(answer.status == 0, answer)


@functools.lru_cache(maxsize=None)
def beside(path: Path, suffix: str) -> str:
    """The evidence that lies beside a file, which each program that reads it accepts, with the claims of all its blocks."""
    evidence = path.with_suffix(suffix)
    need(evidence.exists(), f"{evidence} is missing")
    text = evidence.read_text("utf-8")
    need(evidence.stat().st_size <= 200000, f"{evidence} is long")
    first = re.search("^[a-z]+", text, re.MULTILINE)
    word, second = READERS[first.group() if first else ""]
    for command in [[PROGRAM, word]] * bool(word) + [checker(second)]:
        answer = run(*command, path, evidence)
        need(answer.status == 0 and " refused " not in answer.out, (path, answer))
    return text


def sizes(one: Proved) -> Dict[int, Tuple[int, int]]:
    """The denominators and rows of the certificates of a report, by their claims."""
    if "certificate " not in one.report:
        return {}
    found = Evidence(Problem(one.statement.encode()), one.report.encode()).certificates
    return {made.claim: (made.denominator, sum(len(share.rows) for share in made.shares)) for made in found}


def shorter(path: Path, found: List[Proved], folder: Path) -> None:
    """The reports beside a file: both checkers accept them, and their denominators and rows are no more than those of `prove`."""
    for name, one in zip(index.names(path), found):
        report = path.with_name(f"{name}.report")
        if report.exists():
            better = one._replace(report=report.read_text("utf-8"))
            checked(better, folder)
            for claim, size in sizes(better).items():
                known = sizes(one).get(claim, size)
                need(size[0] <= known[0] and size[1] <= known[1], f"{report}: claim {claim} has {size}, and by `prove` {known}")


def said_beside(part: Part, path: Path) -> Set[int]:
    """The claims of a part of a verdict that evidence beside the file has to say; it has to be of these denominators and moduli."""
    suffix, word = next((one for start, one in KINDS.items() if part.kind.startswith(start)), ("", ""))
    if not suffix:
        return set()
    blocks = re.findall(f"^{word} .*\n(?:.*\n)*?end$", beside(path, suffix), re.MULTILINE)
    numbers = {int(number) for number in re.findall("^claim ([0-9]+)$", "\n".join(blocks), re.MULTILINE)}
    wanted = {*(part.claims or range(1, 1 + len(Problem(str(path)).claims)))}
    need(numbers >= wanted, f"{path}: claims {numbers} have evidence, and not {wanted}")
    lists = re.findall("([^ ,]+(?:, [^ ,]+)*) (monic|epic)", part.kind.partition(", ")[2])
    granted = {f"{word} {name}" for names, word in lists for name in names.split(", ")}
    cancelled = {*re.findall("^(?:monic|epic) .*$", "\n".join(blocks), re.MULTILINE)}
    need(granted == cancelled, f"{path}: {part.kind} is said, and cancelled are {cancelled}")
    number = re.search("(?:denominator|modulo) ([0-9]+)", part.kind)
    for block in blocks if number else ():
        claim, own = (re.search(f"^(?:{words}) ([0-9]+)$", block, re.MULTILINE) for words in ("claim", "denominator|modulus"))
        is_same = claim and own and number and (int(claim[1]) not in wanted or own[1] == number[1])
        need(is_same, f"{path}: {part.kind} is said, and not {block[:60]}")
    return wanted


def needs(part: Part, path: Path, found: List[Proved]) -> Set[int]:
    """That a part of a verdict is what the programs say. The claims are given that evidence beside the file says."""
    heads = [head for one in found for number, head in enumerate(one.heads, 1) if not part.claims or number in part.claims]
    kind = re.sub(", by (--|order ).*", "", part.kind)
    claims = said_beside(part, path)
    if claims:
        wrong = [head for head in heads if head.startswith("proved") and not kind.startswith("proved")]
    else:
        proved = re.fullmatch("proved, denominator ([0-9]+)", kind)
        need(proved or kind in ("not derivable", "undecided"), f"{path}: there is no verdict {kind}")
        want = f"proved denominator {proved[1]} " if proved else kind
        wrong = [head for head in heads if not head.startswith(want)]
        need(heads, f"{path}: nothing is said of {part.kind}")
    need(not wrong, f"{path}: {part.kind} is said, and not {wrong}")
    return claims


def kind_of(verdict: str) -> str:
    """The verdict without what differs from file to file."""
    found = re.sub(",? (by --|by order|modulo|[a-z]'?(, [a-z]'?)* (monic|epic)|denominators?).*", "", verdict)
    return "several" if ";" in verdict else found


def tried(path: Path, is_exact: bool) -> str:
    """The verdict of a file, which is compared; and its row of the index, but for steps and documents where this isn't to be exact."""
    verdict = index.header(path)["VERDICT"]
    found = index.asked(path)
    with tempfile.TemporaryDirectory() as folder:
        for one in found:
            checked(one, Path(folder))
        shorter(path, found, Path(folder))
    claims = {claim for part in index.verdicts(verdict) for claim in needs(part, path, found)}
    texts = [beside(path, suffix) for suffix in (".cert", ".model", ".star") if path.with_suffix(suffix).exists()]
    shown = {int(number) for text in texts for number in re.findall("^claim ([0-9]+)$", text, re.MULTILINE)}
    need(shown == claims, f"{path}: claims {shown} have evidence, and not {claims}")
    row = index.row(path, found) if is_exact else index.row(path, found, 0)
    others = index.different([row], ["seconds"] if is_exact else ["seconds", "steps", "documents"])
    need(not others, f"{path}: another row in the index, which dev/library_index.py writes")
    return verdict


def outcome(path: Path, is_exact: bool) -> Tuple[str, str]:
    """The verdict of a file, or what is wrong."""
    try:
        return kind_of(tried(path, is_exact)), ""
    except (Failed, Refusal, index.Fault, OSError) as what:
        return "", f"{path.parent.name}/{path.name}: {what}"


def counted(chosen: List[Path], found: Iterable[Tuple[str, str]]) -> str:
    """How many of these files have each verdict; all that differ are named."""
    verdicts, faults = zip(*found)
    need(not any(faults), "\n".join(filter(None, faults)))
    counts = collections.Counter(verdicts).most_common()
    return f"{len(chosen)} files of the library: " + ", ".join(f"{count} {kind}" for kind, count in counts)


def some(folder: Path) -> str:
    """The sample."""
    built()
    return counted(sample(paths()), (outcome(path, False) for path in sample(paths())))


def whole(folder: Path) -> str:
    """All files, which dev/try.py asks for."""
    built()
    with ProcessPoolExecutor() as pool:
        return counted(paths(), pool.map(outcome, paths(), repeat(True)))


def page(folder: Path) -> str:
    """The page has all files."""
    same = (LIBRARY / "README.md").read_text("utf-8") == index.page(list(map(index.named, paths())))
    need(same, "library/README.md is another page than dev/library_index.py writes")
    names = {path.with_name(name) for path in paths() for name in index.names(path)}
    others = [report.name for report in LIBRARY.glob("*/*.report") if report.with_suffix("") not in names]
    need(not others, f"{others} are reports of no statement")
    return f"the page has {len(paths())} files"


CHECKS: List[Callable[[Path], str]] = [some, page]
