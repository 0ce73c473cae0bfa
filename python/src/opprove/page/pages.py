"""A folder of statements as a site of pages that are read from a disk

Each statement of LIBRARY, and each that a file of the notation stands for, gets a page in OUT that checks itself: with the evidence that
stands beside it (NAME.cert, .star, .model or .report), and for claims that this says nothing of, with what `prove` finds. OUT/index.html
has them by chapters, which are the folders, with a box that finds theorems by words, by equations and by maps. Nothing is loaded.

Comments in front of a statement may say, each behind its word and a colon, THEOREM, SOURCE, ASSUMES, LEAVES OUT and VERDICT; of the last
the options of `prove`, as --pairs 50000, are taken, and `by order weight c 3` as this line of the statement. Where it is there,
LIBRARY/chapters.txt has a line for each folder with its title, in the order of the chapters, and LIBRARY/index.tsv a table with a row for
each file, which the index shows. LIBRARY/lemmas.tsv may say which theorems are proved from which, as CHAPTER/NAME, with what is put for
maps: of that the index has a graph and their pages links.
A line is printed for each statement, with its verdicts; then what is wrong.

Statuses: 0 where each page was made and no verdict differs from what its comments say; else the greatest of 3 (a statement is refused),
4 (not loaded), 5 (a page isn't written), 6 (no memory), 7 (evidence is refused, or
another verdict) and 12 (a run that ended without a verdict).
"""
from __future__ import annotations

import argparse
import os
import re
import shutil
import subprocess
import tempfile
from concurrent.futures import ProcessPoolExecutor
from html import escape
from pathlib import Path
from typing import Callable, Dict, Iterator, List, NamedTuple, Sequence, Set, Tuple
from urllib.parse import quote

from opprove.checkers.check import DONE, NO_MEMORY, NO_OUTPUT, NOT_LOADED, REFUSED, Refusal, loaded, status_of, written
from opprove.notation import expand
from opprove.notation.expansion import HEAD
from opprove.page.formulas import sentence
from opprove.page.graph import Drawing, Name
from opprove.page.page import Found, badge, comments_of, found_in, head, navigation, page_with, part
from opprove.program import Refused, path as path_of_program, run
from opprove.search.findings import positive
from opprove.search.prove_all import WORDS, told
from opprove.text import StatementText, spelled
from opprove.tool import parser, say
from opprove.translations.chain import QUICK_EFFORT

EVIDENCE = (".cert", ".star", ".model", ".report")  # the names of files of evidence end so
FIELDS = ("THEOREM", "SOURCE", "ASSUMES", "LEAVES OUT", "VERDICT")
OPTIONS = re.compile(r"--(?:pairs|steps|seed) [0-9]+|--no-models")
ORDER = re.compile(r"\bby (order [^;,]*)")  # of words, in which a basis is
COLUMNS = {  # of the table of a library, those that the index shows
    "denominators": "denominator {}", "rows": "{} rows", "steps": "chains of up to {} steps", "seconds": "{} s", "documents": "in {}",
}  # fmt: skip
NO_VERDICT = 12
# What it means that a library has a theorem as one from which another one is proved.
LEMMAS = (
    "A theorem is proved from another one where what that assumes, with words of its maps in the place of the other's, is proved from what "
    "it assumes itself, where its own chain becomes shorter by citing the other, and where the other's chains are shorter than its own."
)


class Statement(NamedTuple):
    """A statement: its name, its text, and what lies beside it."""

    name: str
    text: str
    evidence: List[Path]


class Entry(NamedTuple):
    """A file of the library: its chapter, what its first comments say, and its statements, or the line by which it is refused."""

    path: Path
    chapter: str
    fields: Dict[str, str]
    statements: List[Statement]
    fault: str = ""


class Lemma(NamedTuple):
    """A theorem and one that it is proved from, as CHAPTER/NAME, with what is put there for maps: the claims that are cited, and the
    steps of its own claims without and with all that it cites."""

    theorem: str
    lemma: str
    maps: str
    cited: str
    shorter: str


class Use(NamedTuple):
    """A link to another theorem, and what is put for maps there, once for each of its places."""

    name: str
    address: str
    maps: List[str] = []


Uses = Dict[str, List[Use]]  # by the words in front of them


class Job(NamedTuple):
    """A page to be made: its place in the site, and the links above it."""

    place: str
    statement: Statement
    fields: Dict[str, str]
    links: List[Tuple[str, str]]
    seconds: int
    uses: Uses = {}


class Made(NamedTuple):
    """What came of a page: the verdicts on the claims, what can be found by, and a fault with its status."""

    verdicts: List[str]
    shapes: List[str]
    fault: str = ""
    status: int = DONE


# ---- The library


def fields_of(comments: Sequence[str]) -> Dict[str, str]:
    """What comments say, by their words; all of it is the theorem where none of the words stands there."""
    fields, word = dict.fromkeys(FIELDS, ""), "THEOREM"
    for line in comments:
        match = re.match(rf"({'|'.join(FIELDS)}):\s*(.*)", line)
        word, text = match.groups() if match else (word, line)
        fields[word] = f"{fields[word]} {text}".strip()
    return fields


def titles_of(library: Path) -> Dict[str, str]:
    """The titles of chapters by their folders, in the order of the chapters."""
    file = library / "chapters.txt"
    lines = [line.split(None, 1) for line in file.read_text("utf-8").splitlines()] if file.is_file() else []
    return {words[0]: words[1].strip() for words in lines if len(words) == 2}


def rows_of(file: Path) -> List[Dict[str, str]]:
    """The rows of a table by the names of its columns, where it is there."""
    lines = [line.split("\t") for line in file.read_text("utf-8").splitlines()] if file.is_file() else [[]]
    return [dict(zip(lines[0], cells)) for cells in lines[1:]]


def table_of(library: Path) -> Dict[Tuple[str, str], Dict[str, str]]:
    """The rows of the table of a library, by chapter and name."""
    return {(row.get("chapter", ""), row.get("name", "")): row for row in rows_of(library / "index.tsv")}


def lemmas_of(library: Path) -> List[Lemma]:
    """What is proved from what in a library."""
    return [Lemma(*(row.get(name, "") for name in Lemma._fields)) for row in rows_of(library / "lemmas.tsv")]


def ordered(text: str, verdict: str) -> str:
    """A statement with the line on the order of words that its verdict is by, if there is one."""
    found = ORDER.search(verdict)
    return f"{text.rstrip()}\n{found[1]}\n" if found else text


def entry_of(path: Path, library: Path) -> Entry:
    """A file of the library as it is read."""
    chapter = "" if path.parent == library else path.parent.relative_to(library).as_posix()
    try:
        text = loaded([str(path)])[0].decode("utf-8", "replace")
        is_notation = path.suffix == expand.ENDING
        named = [(one.name, one.text) for one in expand.read(str(path)).statements] if is_notation else [(path.stem, text)]
    except Refusal as refusal:
        return Entry(path, chapter, fields_of([]), [], str(refusal))
    fields = fields_of(comments_of(text))
    beside = {name: [path.with_name(name + ending) for ending in EVIDENCE] for name, _ in named}
    found = [(name, ordered(one, fields["VERDICT"]), [file for file in beside[name] if file.is_file()]) for name, one in named]
    return Entry(path, chapter, fields, [Statement(*one) for one in found])


def entries_of(library: Path) -> Iterator[Entry]:
    """The files of the library by chapters; what was expanded from another file is left out."""
    paths = [path for ending in ("*.op", f"*{expand.ENDING}") for path in library.rglob(ending) if path.is_file()]
    places = {library / name: place for place, name in enumerate(titles_of(library))}
    for path in sorted(paths, key=lambda path: (places.get(path.parent, len(places)), path.parent, path.name)):
        with path.open("rb") as file:
            is_expanded = file.read(len(HEAD)) == HEAD.encode()
        if not is_expanded:
            yield entry_of(path, library)


def files_of(library: Path) -> List[Entry]:
    """The files of the library; where there are none, a line says so."""
    entries = list(entries_of(library))
    if not entries:
        say(f"# load failed {library}: there are no statements")
    return entries


def title_of(name: str) -> str:
    return name.replace("_", " ")


def place_of(chapter: str, name: str) -> str:
    """Of the page of a statement, from the top of the site."""
    return f"{chapter}/{name}.html" if chapter else f"{name}.html"


class Library(NamedTuple):
    """What a site has of a library besides its files: its title, those of its chapters, its table, and what is proved from what."""

    title: str
    titles: Dict[str, str] = {}
    table: Dict[Tuple[str, str], Dict[str, str]] = {}
    lemmas: List[Lemma] = []

    def facts(self, entry: Entry) -> str:
        """What the table says of a file."""
        row = self.table.get((entry.chapter, entry.path.name), {})
        return " · ".join(said.format(row[column]) for column, said in COLUMNS.items() if row.get(column))

    def uses(self, chapter: str, name: str, places: Sequence[str]) -> Uses:
        """What a theorem is proved from, and where it is used, of the pages with these places."""
        place = place_of(chapter, name)
        up = "../" * place.count("/")
        maps: Dict[Tuple[str, str], List[str]] = {}
        for lemma in self.lemmas:
            for word, own, other in (("Proved from", lemma.theorem, lemma.lemma), ("Used in", lemma.lemma, lemma.theorem)):
                if f"{own}.html" == place and f"{other}.html" in places:
                    maps.setdefault((word, other), []).append(lemma.maps)
        found: Uses = {}
        for (word, other), put in maps.items():
            use = Use(title_of(other.rpartition("/")[2]), up + quote(f"{other}.html"), put if word == "Proved from" else [])
            found.setdefault(word, []).append(use)
        return found


def jobs_of(entries: Sequence[Entry], seconds: int, library: Library = Library("")) -> List[Job]:
    """The pages, each with links to the index, its chapter, its neighbours, and the theorems that it is proved from or used in."""
    titles = library.titles
    flat = [(entry, one) for entry in entries for one in entry.statements]
    places = [place_of(entry.chapter, one.name) for entry, one in flat]
    jobs = []
    for number, (entry, one) in enumerate(flat):
        up = "../" * places[number].count("/")
        links = [("Library", f"{up}index.html")]
        links += [(titles.get(entry.chapter) or title_of(entry.chapter), f"{up}index.html#{quote(entry.chapter)}")] * bool(entry.chapter)
        beside = (("←", number - 1), ("→", number + 1))
        links += [(f"{sign} {title_of(flat[at][1].name)}", up + quote(places[at])) for sign, at in beside if 0 <= at < len(flat)]
        jobs.append(Job(places[number], one, entry.fields, links, seconds, library.uses(entry.chapter, one.name, places)))
    return jobs


# ---- A page


def proved(job: Job) -> str:
    """The report of `prove`, or of what ends without one a Refused."""
    words = " ".join(OPTIONS.findall(job.fields["VERDICT"])).split()
    try:
        return run(None, "prove", [job.statement.text], [*words, "--workers", "1"], job.seconds)
    except subprocess.TimeoutExpired:
        raise Refused(NO_VERDICT, f"no verdict in {job.seconds} s") from None


def found_for(job: Job, folder: Path) -> Tuple[Found, str]:
    """What is known of a statement, and why the program said nothing of claims that the evidence beside it leaves."""
    statement = folder / f"{job.statement.name}.op"
    statement.write_bytes(job.statement.text.encode("utf-8", "surrogateescape"))
    found = found_in(statement, job.statement.evidence, QUICK_EFFORT)
    shown = {piece.claim for piece in found.pieces}
    if len(shown) == len(found.reader.claims):
        return found, ""
    report = statement.with_suffix(".report")
    try:
        report.write_text(proved(job), encoding="utf-8")
    except Refused as refused:
        return found, refused.line
    found = found_in(statement, [*job.statement.evidence, report], QUICK_EFFORT)
    last = len(job.statement.evidence)  # of claims that the evidence beside the statement shows, the report says nothing here
    kept = [piece for piece in found.pieces if piece.claim not in shown or (piece.command and piece.report < last)]
    return found._replace(pieces=kept), ""


def another(found: Found, said: str) -> str:
    """Where the comments state verdicts, the first claim on which another one was found."""
    for number, verdicts in enumerate(found.verdicts(), 1):
        if said and not any(word in said and verdict.startswith(word) for word in WORDS for verdict in verdicts):
            return f"claim {number} is {' and '.join(verdicts)}, and its comments say: {said}"
    return ""


def about(fields: Dict[str, str], verdicts: str, is_map: Callable[[str], bool], uses: Uses) -> List[str]:
    """The paragraphs in front of a statement, in HTML."""
    lines = [sentence(fields["THEOREM"], is_map)]
    lines += [f"Source: {escape(fields['SOURCE'])}"] * bool(fields["SOURCE"])
    for word, name in (("ASSUMES", "Assumed besides"), ("LEAVES OUT", "Left out")):
        lines += [f"{name}: {sentence(fields[word], is_map)}"] * bool(fields[word])
    lines += [f"Verdict: {escape(fields['VERDICT'] or verdicts)}"]
    return [*lines, *(f"{word} {' · '.join(map(used, named))}" for word, named in uses.items())]


def used(use: Use) -> str:
    """A link to a theorem, with what is put for maps of it where these have other names, in HTML."""
    others = [", ".join(pair for pair in maps.split(", ") if len({*pair.split(" = ")}) > 1) for maps in use.maps]
    put = "; ".join(sentence(maps, lambda name: True) for maps in others if maps)
    return f'<a href="{escape(use.address)}">{escape(use.name)}</a>' + f" with {put}" * bool(put)


def shapes_of(text: str) -> List[str]:
    """The maps and equations of a statement."""
    statement = StatementText(text.encode("utf-8", "surrogateescape"))
    maps = [f"{one.name} : {one.source} -> {one.target}" for one in statement.maps.values()]
    found = [*statement.assumptions, *statement.claims]
    return [*maps, *dict.fromkeys(f"{spelled(one.left)} = {spelled(one.right)}" for one in found)]


def refused_page(job: Job, fault: str) -> str:
    """The page of a statement that can't be shown as what it says."""
    title, style = title_of(job.statement.name), part("style.css")
    lines = ["<!doctype html>", f'<html lang="en">{head(title, style, [])}<body>', *navigation(job.links), f"<h1>{escape(title)}</h1>"]
    return "\n".join([*lines, f'<p class="wrong">{escape(fault)}</p>', f"<pre>{escape(job.statement.text)}</pre></body></html>\n"])


def make(job: Job, out: Path) -> Made:
    """Makes a page, whatever the statement is, so that no link to it is broken."""
    try:
        with tempfile.TemporaryDirectory(prefix="opprove-") as folder:
            found, missing = found_for(job, Path(folder))
        verdicts = [verdict for each in found.verdicts() for verdict in each]
        page = page_with(found, title_of(job.statement.name), "", job.links, about(job.fields, told(verdicts), found.is_map, job.uses))
        fault = missing or another(found, job.fields["VERDICT"])
        status = NO_VERDICT if missing else REFUSED if fault else DONE
        made = Made(verdicts, shapes_of(job.statement.text), fault, status)
    except (Refusal, MemoryError) as what:
        fault, is_refused = str(what) or "# no memory", isinstance(what, Refusal)
        made = Made(["refused" if is_refused else "no memory"], [], fault, status_of(fault) if is_refused else NO_MEMORY)
        page = refused_page(job, made.fault)
    return made if put(out / job.place, page) else made._replace(fault="the page isn't written", status=NO_OUTPUT)


def put(path: Path, page: str) -> bool:
    """Writes a page, and tells whether that was possible."""
    try:
        path.parent.mkdir(parents=True, exist_ok=True)
        path.write_bytes(page.encode("utf-8", "replace"))
        return True
    except OSError:
        return False


# ---- The index


def item(entry: Entry, made: Dict[str, Made], facts: str) -> Iterator[str]:
    """A theorem: its name, its verdicts, its sentence, and its statements where they are several."""
    places = [place_of(entry.chapter, one.name) for one in entry.statements]
    shapes = dict.fromkeys(shape for place in places for shape in made[place].shapes)
    said, names = entry.fields["THEOREM"] or entry.fault, {shape.split(" : ")[0] for shape in shapes if " -> " in shape}
    yield f'<li class="theorem" data-shapes="{escape(chr(10).join(shapes))}" data-said="{escape(said)}">'
    links = [link(place, one.name, made[place]) for place, one in zip(places, entry.statements)]
    every = [verdict for place in places for verdict in made[place].verdicts]
    yield links[0] if len(links) == 1 else f"<b>{escape(title_of(entry.path.stem))}</b> {badges(every)}"
    yield f'<p class="about">{sentence(said, names.__contains__)}</p>'
    lines = [entry.fields["SOURCE"], facts]
    yield from (f'<p class="place">{escape(line)}</p>' for line in lines if line)
    yield f"<details><summary>{len(links)} statements</summary>{'<br>'.join(links)}</details></li>" if len(links) > 1 else "</li>"


def badges(verdicts: List[str]) -> str:
    """The signs of verdicts, with their counts."""
    counts = [(verdict, verdicts.count(verdict)) for verdict in dict.fromkeys(verdicts)]
    return " ".join(badge(verdict, f"{count} {verdict}" if count > 1 else verdict) for verdict, count in counts)


def link(place: str, name: str, made: Made) -> str:
    return f'<a href="{quote(place)}">{escape(title_of(name))}</a> {badges(made.verdicts)}'


def index_of(library: Library, entries: Sequence[Entry], made: Dict[str, Made]) -> str:
    """The first page of the site."""
    title, titles = library.title, library.titles
    style, program = part("style.css") + part("pages.css"), part("pages.js")
    chapters = list(dict.fromkeys(entry.chapter for entry in entries))
    lines = ["<!doctype html>", f'<html lang="en">{head(title, style, [program])}<body><header><h1>{escape(title)}</h1>']
    lines += ['<p class="find" hidden><label>Find']
    lines += ['<input id="find" type="search" placeholder="Drazin, or a x a = a, or a : U -> V"></label>']
    lines += [' <span id="count" role="status"></span></p>']
    names = {chapter: titles.get(chapter) or title_of(chapter) for chapter in chapters}
    lines += [*navigation([(names[chapter], f"#{quote(chapter)}") for chapter in chapters if chapter]), "</header><main>"]
    lines += graph_of(library.lemmas, entries)
    for chapter in chapters:
        lines += [f'<section id="{escape(chapter)}"><h2>{escape(names[chapter] or title)}</h2><ul class="theorems">']
        lines += [line for entry in entries if entry.chapter == chapter for line in item(entry, made, library.facts(entry))]
        lines += ["</ul></section>"]
    return "\n".join([*lines, f"</main><script>{program}</script></body></html>"]) + "\n"


def graph_of(lemmas: Sequence[Lemma], entries: Sequence[Entry]) -> Iterator[str]:
    """Which files are proved from which, as a picture; nothing where that isn't known of any."""
    files = {place_of(entry.chapter, one.name): number for number, entry in enumerate(entries) for one in entry.statements}
    places = [(f"{one.lemma}.html", f"{one.theorem}.html") for one in lemmas]
    pairs = [(files[lemma], files[one]) for lemma, one in places if lemma in files and one in files]
    if not pairs:
        return
    numbers = {file: number for number, file in enumerate(sorted({file for pair in pairs for file in pair}))}
    shown = [entries[file] for file in numbers]
    names = [Name(title_of(one.path.stem), quote(place_of(one.chapter, one.statements[0].name)), one.fields["THEOREM"]) for one in shown]
    arrows: Dict[int, List[int]] = {}
    for lemma, one in dict.fromkeys(pairs):
        arrows.setdefault(numbers[lemma], []).append(numbers[one])
    yield '<details id="lemmas"><summary>What is proved from what</summary>'
    yield f'<p class="about">{escape(LEMMAS)} An arrow leads from a theorem to those that are proved from it, but for those to which others lead.</p>'
    yield f'<div class="graph">{Drawing(names, arrows).svg()}</div></details>'


# ---- The site


def twice(entries: Sequence[Entry]) -> List[str]:
    """The pages that two statements would have."""
    seen: Set[str] = {"index.html"}
    places = [place_of(entry.chapter, one.name) for entry in entries for one in entry.statements]
    return [place for place in places if place in seen or seen.add(place)]  # type: ignore[func-returns-value]


def site(entries: Sequence[Entry], out: Path, library: Library, count: int, seconds: int) -> int:
    """Makes all pages, prints a line for each, and gives the status."""
    jobs, made = jobs_of(entries, seconds, library), {}
    faults = [(status_of(one.fault), f"{one.path}: {one.fault}") for one in entries if one.fault]
    with ProcessPoolExecutor(count) as pool:
        for job, found in zip(jobs, pool.map(make, jobs, [out] * len(jobs))):
            made[job.place] = found
            faults += [(found.status, f"{job.place}: {found.fault}")] * bool(found.fault)
            if not written([f"{job.place}  {told(found.verdicts)}"]):
                return NO_OUTPUT
    if not put(out / "index.html", index_of(library, entries, made)):
        faults.append((NO_OUTPUT, f"{out / 'index.html'}: the page isn't written"))
    for _, line in faults:
        say(line)
    return max((status for status, _ in faults), default=DONE)


def add_runs(asked: argparse.ArgumentParser) -> None:
    """Adds the words that say how `prove` is run."""
    asked.add_argument("--jobs", type=positive, default=os.cpu_count() or 1, metavar="N", help="runs at a time (a processor each)")
    asked.add_argument("--seconds", type=positive, default=60, metavar="N", help="after which a run of prove ends (60)")


def main(words: List[str]) -> int:
    """Makes the site, and gives the status."""
    asked = parser("pages", __doc__)
    asked.add_argument("library", type=Path, metavar="LIBRARY", help="a folder of statements, in folders that are its chapters")
    asked.add_argument("out", type=Path, metavar="OUT", help="a folder for the site")
    asked.add_argument("--title", default="Library", help="of the index (Library)")
    add_runs(asked)
    given = asked.parse_args(words)
    entries = files_of(given.library)
    if not entries:
        return NOT_LOADED
    if not shutil.which(path_of_program()):
        say(f"{path_of_program()} isn't there: ./opprove build makes it in a checkout, and OPPROVE may name another one")
        return 1
    double = twice(entries)
    if double:
        say(f"# not written {double[0]}: two pages have this name")
        return NO_OUTPUT
    library = Library(given.title, titles_of(given.library), table_of(given.library), lemmas_of(given.library))
    return site(entries, given.out, library, given.jobs, given.seconds)
