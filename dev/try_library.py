"""Tries the whole library: try.py library

Each verdict, each row of the index, and what is proved from what; the site, whose links are followed and whose pages check themselves in
a browser; ten searches of its box; a paper of each chapter, set by pdflatex; and the theorems of a chapter for Coq. It takes some minutes.
"""
from __future__ import annotations

import re
from concurrent.futures import ProcessPoolExecutor
from itertools import repeat
from pathlib import Path
from typing import Callable, Dict, List, Sequence, Tuple
from unittest import SkipTest
from urllib.parse import unquote

from browser import Browser, Links
from library_lemmas import all_known, fault
from opprove.page.pages import entries_of, lemmas_of, titles_of
from test_library import page, whole
from trying import LIBRARY, Skipped, built, installed, need, run, tool

OF_COQ = "linear_equations"  # the chapter whose theorems Coq checks
POINTS = 4  # by which a line of a paper may be too wide
FOUND: Sequence[Tuple[str, List[str]]] = (  # what is typed into the box, and theorems that are to be found
    ("moore-penrose unique", ["moore penrose unique"]), ("Cline formula", ["cline extended", "cline two factors"]),
    ("Drazin 1958", ["drazin commutes"]), ("u v u = u, urquhart", ["urquhart"]), ("p p = p, idempotents", ["difference square"]),
    ("s t = 1", ["one sided inverse", "two factorizations"]), ("[V] = a b", ["one sided inverse", "many right inverses"]),
    ("woodbury", ["woodbury", "woodbury pseudoinverse"]),
    ("a b a = b a b", ["garside", "braid relation"]), ("(a b)+ = b+ a+", ["greville one condition"]),
    ("x : U -> V, y : V -> U, x y x = x", ["moore penrose unique"]), ("reverse order, 1966", ["greville-i-ii"]),
)  # fmt: skip


# ---- The site


def site(folder: Path) -> str:
    """It is made with no fault, each link leads to a page and a place that is there, and each page checks itself."""
    built()
    out = folder / "site"
    answer = run(*tool("pages"), LIBRARY, out, seconds=1800)
    need(answer.status == 0 and not answer.error, answer.error)
    read = {page.resolve(): Links(page.read_text("utf-8")) for page in out.rglob("*.html")}
    count = 0
    for page, links in read.items():
        for address in links.addresses:
            place, _, anchor = address.partition("#")
            target = (page.parent / unquote(place)).resolve() if place else page
            need(target in read and (not anchor or unquote(anchor) in read[target].anchors), (page, address))
            count += 1
    try:
        browser = Browser()
    except SkipTest as what:
        raise Skipped(str(what)) from None
    try:
        kinds = in_browser(browser, sorted(set(read) - {(out / "index.html").resolve()}))
        searches(browser, out / "index.html")
    finally:
        browser.close()
    told = ", ".join(f"{kinds[kind]} {kind}" for kind in sorted(kinds))
    return f"{len(read)} pages with {count} links; in a browser {told}; {len(FOUND)} searches find what they should"


def in_browser(browser: Browser, pages: List[Path]) -> Dict[str, int]:
    """How many pages say that all of their evidence is right, and how many have evidence that they leave to others."""
    kinds: Dict[str, int] = {}
    for page in pages:
        browser.open("about:blank")
        browser.requests(), browser.logs()
        browser.open(page.as_uri())
        left = browser.run("return [...document.querySelectorAll('.check')].every((at) => !at.dataset.block)")
        kind = "leave all to others" if left else "check themselves"
        if not left:
            need(browser.wait("return document.querySelector('#checked').className") == "right", page)
        kinds[kind] = kinds.get(kind, 0) + 1
        need([it for it in browser.requests() if not it.startswith("data:")] == [page.as_uri()] and not browser.logs(), page)
    return kinds


def searches(browser: Browser, index: Path) -> None:
    """The box finds by names, words and shapes."""
    browser.open(index.resolve().as_uri())
    script = """const box = document.querySelector('#find'); box.value = arguments[0]; box.dispatchEvent(new Event('input'));
        return [...document.querySelectorAll('.theorem:not([hidden])')].map((at) => at.querySelector('a').textContent)"""
    every = browser.run(script, "")
    for asked, wanted in FOUND:
        found = browser.run(script, asked)
        need({*wanted} <= {*found} and len(found) < len(every) / 2 and bool(found) == bool(wanted), (asked, wanted, found))


# ---- Lemmas


def lemmas(folder: Path) -> str:
    """What lemmas.tsv says of each theorem: what it cites is so, and its chains are shorter by that."""
    built()
    rows = lemmas_of(LIBRARY)
    of_names = {one.theorem: [other for other in rows if other.theorem == one.theorem] for one in rows}
    with ProcessPoolExecutor() as pool:
        every = all_known(list(entries_of(LIBRARY)), pool)
        wrong = list(filter(None, pool.map(fault, of_names, of_names.values(), repeat(every))))
    need(not wrong, "\n".join(wrong))
    one = next(row for row in rows if "a = a, x = x" in row.maps)
    changed = one._replace(maps=one.maps.replace("a = a, x = x", "a = x, x = a'"))
    need(fault(one.theorem, [changed], every), f"{changed} is accepted")
    return f"{len(of_names)} theorems are proved from others, at {len(rows)} places"


# ---- Papers and Coq


def papers(folder: Path) -> str:
    """A paper of each chapter is set by pdflatex, with no line that is too wide."""
    built()
    program, pages = installed("pdflatex"), 0
    for chapter in titles_of(LIBRARY):
        answer = run(*tool("chapter"), LIBRARY / chapter, seconds=1800)
        need(answer.status == 0 and not answer.error, (chapter, answer.error))
        (folder / f"{chapter}.tex").write_text(answer.out, "utf-8")
        said = run(program, "-interaction=nonstopmode", "-halt-on-error", f"{chapter}.tex", folder=folder, seconds=1800)
        wide = [points for points in re.findall(r"Overfull \\hbox \(([0-9.]+)pt", said.out) if float(points) > POINTS]
        need(said.status == 0 and not wide, (chapter, wide, said.out[-500:]))
        found = re.search("\\(([0-9]+) pages?", said.out)
        pages += int(found[1]) if found else 0
    return f"{len(titles_of(LIBRARY))} papers with {pages} pages are set by pdflatex"


def coq(folder: Path) -> str:
    """Coq accepts each theorem of a chapter, and no axiom is used."""
    built()
    coqc, count = installed("coqc"), 0
    answer = run(*tool("coq"), "--library", folder / "coq", seconds=1800)
    need(answer.status == 0, answer)
    for entry in entries_of(LIBRARY / OF_COQ):
        for one in entry.statements:
            (folder / "statement.op").write_text(one.text, "utf-8")
            report = run(built(), "prove", folder / "statement.op", "--no-models", seconds=600).out
            (folder / "report").write_text(report, "utf-8")
            more = [folder / "report"] * bool(re.search("^(certificate|basis) ", report, re.MULTILINE))
            export = run(*tool("coq"), folder / "statement.op", *one.evidence, *more)
            need(export.status == 0, (one.name, export))
            (folder / "theorem.v").write_text(export.out, "utf-8")
            said = run(coqc, "-q", "-Q", "coq", "Opprove", "theorem.v", folder=folder, seconds=1800)
            theorems = len(re.findall("^Theorem ", export.out, re.MULTILINE))
            need(said.status == 0 and said.out == "Closed under the global context\n" and theorems > 0, (one.name, said))
            count += theorems
    return f"{count} theorems of {OF_COQ} are accepted by coqc"


CHECKS: List[Callable[[Path], str]] = [whole, page, lemmas, site, papers, coq]
