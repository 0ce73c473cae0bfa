"""Tries release.sh, in a clone of this checkout with what is changed here.

Where ./opprove has built the program of these sources, and its object is there, that is what is released; else a stand-in in C,
with a stand-in for the kit, and the last line says so. Each check gives a line, and raises Failed where a release isn't as it
should be. What isn't installed is skipped with a line. The status is 0 where nothing failed, and else 1.
"""
from __future__ import annotations

import functools
import os
import re
import shutil
import subprocess
import sys
from hashlib import sha256
from pathlib import Path
from typing import Callable, Dict, List, Tuple

from opprove.cli import TOOLS
from trying import STATEMENTS, TOP, Answer, Skipped, installed, need, run

STAND_IN = r"""
#include <stdio.h>
/* Answers by a sum of its words, and of the bytes of those that name files. */
int main(int argc, char **argv) {
  unsigned long sum = 5381;
  for (int i = 1; i < argc; i++) {
    FILE *file = fopen(argv[i], "rb");
    for (char *c = argv[i]; !file && *c; c++) sum = sum * 33 + (unsigned char)*c;
    for (int c; file && (c = getc(file)) != EOF;) sum = sum * 33 + c;
    if (file) fclose(file);
  }
  printf("# stand-in %lu\n", sum);
  return argc < 3 ? 2 : 12;
}
"""
CRATES = {"std": "core", "core": "", "arrayvec": "std", "clap": "std strsim", "strsim": "std", "indexmap": "std", "itoa": "", "rand_core": "std",
          "rand_pcg": "std rand_core", "thiserror": "std", "unicode_ident": "std ucd_table", "ucd_table": ""}  # fmt: skip
KINDS = "abstract authors cff-version commit contact date-released doi identifiers keywords license license-url message"
KINDS += " preferred-citation references repository repository-artifact repository-code title type url version"
FIELDS = {*KINDS.split()}  # of the Citation File Format 1.2.0
OTHER_SOURCES = "the program is that of other sources; ./opprove build proves and builds it anew"


class Checkout:
    """A clone with a built program, in a folder with room for more."""

    def __init__(self, folder: Path) -> None:
        for name in ("git", "gcc", "strip", "objdump", "dpkg", "dpkg-deb", "gzip", "tar"):
            installed(name)
        self.folder, self.top, self.refusals = folder, folder / "checkout", 0
        self.git("clone", "--quiet", TOP, self.top)
        for name in run("git", "ls-files", "-z", "--modified", "--others", "--exclude-standard").out.split("\0"):
            if name and (TOP / name).is_file():
                (self.top / name).parent.mkdir(parents=True, exist_ok=True)
                shutil.copy2(TOP / name, self.top / name)
        self.commit("as it stands")
        self.out = self.top / "out"
        self.out.mkdir()
        self.is_real = self.take_built()
        if not self.is_real:
            self.stand_in()
        self.first = self.released("first")
        self.tree = folder / "tree"  # of the package
        need(run("dpkg-deb", "-x", self.found(self.first, ".deb"), self.tree).status == 0, "dpkg-deb")

    def git(self, *words: object) -> None:
        answer = run("git", *words)
        need(answer.status == 0, answer)

    def commit(self, message: str) -> None:
        names = ("-c", "user.name=try", "-c", "user.email=try@localhost")
        self.git("-C", self.top, "add", "--all")
        self.git(*names, "-C", self.top, "commit", "--quiet", "--allow-empty", "-m", message)

    # ---- The program

    def take_built(self) -> bool:
        """Takes over what ./opprove has built here, if it is that of these sources."""
        built = TOP / "out"
        if not all((built / name).is_file() for name in ("opprove", "opprove.sources")):
            return False
        for name in ("opprove", "opprove.o", "opprove.sources"):
            if (built / name).is_file():
                shutil.copy2(built / name, self.out / name)
        return self.sources() == (self.out / "opprove.sources").read_text().split("\n")[2]

    def sources(self) -> str:
        """The checksum of the sources, by the script that builds the program."""
        script = self.top / "dev" / "building.sh"
        return run("bash", "-c", f"top='{self.top}'\n. '{script}'\nsources").out.strip("\n")

    def stand_in(self) -> None:
        kit = self.folder / "kit"
        (kit / "c").mkdir(parents=True)
        (kit / "KIT-ID").write_text("stand-in kit\n")
        for name in ("libos_c.a", "liblibc_c.a"):
            need(run("ar", "rc", kit / "c" / name).status == 0, name)
        for name, uses in CRATES.items():
            for part in (kit / "rlibs" / f"{name}.rlib", kit / "rattle" / name):
                part.mkdir(parents=True)
            (kit / "rlibs" / f"{name}.rlib" / "format").write_text("".join(f"dep {use}\n" for use in uses.split()))
            if name not in ("core", "std"):
                (kit / "rattle" / name / "LICENSE-MIT").write_text(f"the licence of {name}\n")
        (self.folder / "program.c").write_text(STAND_IN)
        need(run("gcc", "-O1", "-fPIE", "-c", "-o", self.out / "opprove.o", self.folder / "program.c").status == 0, "gcc")
        need(run("gcc", "-pie", "-o", self.out / "opprove", self.out / "opprove.o").status == 0, "gcc")
        self.stamp()

    def stamp(self) -> None:
        """Says of the stand-in that it is the program of the present sources."""
        (self.out / "opprove.sources").write_text(f"{self.folder / 'kit' / 'KIT-ID'}\nstand-in kit\n{self.sources()}\n")

    # ---- Releases

    def release(self, *words: object, **environment: str) -> Answer:
        command = ["bash", str(self.top / "dev" / "release.sh"), *map(str, words)]
        done = subprocess.run(command, cwd=self.folder, env={**os.environ, **environment}, capture_output=True, timeout=300)
        return Answer(done.returncode, done.stdout.decode(), done.stderr.decode())

    def released(self, name: str, is_trial: bool = True, **environment: str) -> Path:
        answer = self.release(*["--no-licence"] * is_trial, self.folder / name, **environment)
        need(answer.status == 0 and not answer.error, answer)
        return self.folder / name

    def found(self, folder: Path, ending: str) -> Path:
        (path,) = folder.glob(f"*{ending}")
        return path

    def refused(self, message: str, *words: object) -> None:
        answer = self.release(*(words or ["--no-licence", self.folder / "none"]))
        need(answer == Answer(1, "", f"release: {message}\n"), (message, answer))
        need(not (self.folder / "none").exists(), "something was written")
        self.refusals += 1


def files(folder: Path) -> Dict[str, bytes]:
    return {str(path.relative_to(folder)): path.read_bytes() for path in folder.rglob("*") if path.is_file()}


# ---- What is released


def same_bytes(checkout: Checkout) -> str:
    """Twice the same, at another time and in another zone, by files with other times and modes, and under another mask of modes."""
    for path in checkout.top.glob("python/src/**/*.py"):
        os.utime(path, (1, 1))
        path.chmod(0o700 if os.access(path, os.X_OK) else 0o600)
    mask = os.umask(0o077)
    try:
        second = checkout.released("second", TZ="Asia/Tokyo", LC_ALL="C.UTF-8", HOME=str(checkout.folder))
    finally:
        os.umask(mask)
    need(files(checkout.first) == files(second), "other bytes the second time")
    answer = run("sha256sum", "-c", checkout.found(second, ".sha256"), folder=second)
    need(answer.status == 0 and answer.out.count(": OK\n") == 2, answer)
    sizes = ", ".join(f"{path.suffix[1:]} {path.stat().st_size // 1000} KB" for path in sorted(second.iterdir()))
    return f"two releases have the same bytes, and sha256sum agrees ({sizes})"


def archive(checkout: Checkout) -> str:
    """The archive has the files of the package."""
    room = checkout.folder / "archive"
    room.mkdir()
    need(run("tar", "-xzf", checkout.found(checkout.first, ".tar.gz"), "-C", room).status == 0, "tar")
    (top,) = room.iterdir()
    inside = {name.replace("site-functions", "vendor-completions"): data for name, data in files(top).items()}
    package = files(checkout.tree / "usr")
    for name in ("copyright", "changelog.gz"):
        package.pop(f"share/doc/opprove/{name}")
    need(inside == package, {*inside} ^ {*package})
    wanted = ["bin/opprove", "lib/opprove/opprove", "lib/opprove/opprove-static", "share/man/man1/opprove.1.gz", "share/doc/opprove/PROVED", "share/doc/opprove/README.md",
              "share/bash-completion/completions/opprove", "share/zsh/vendor-completions/_opprove",
              "share/fish/vendor_completions.d/opprove.fish", "share/vim/vimfiles/ftdetect/opprove.vim",
              "share/vim/vimfiles/syntax/opprovecert.vim", "share/opprove/editors/textmate/package.json",
              "share/opprove/python/opprove/checkers/check.py", "share/opprove/python/opprove/translations/chain.py",
              "share/doc/opprove/docs/FORMATS.md", "share/doc/opprove/library/block_matrices/woodbury.op",
              "share/doc/opprove/licences/clap/LICENSE-MIT", "share/doc/opprove/licences/strsim/LICENSE-MIT"]  # fmt: skip
    if "\nstatic none\n" in inside["share/doc/opprove/PROVED"].decode():
        wanted.remove("lib/opprove/opprove-static")
    missing = [name for name in wanted if name not in inside and not (checkout.is_real and "strsim" in name)]
    odd = [name for name in inside if re.search(r"__pycache__|/try(_\w+)?\.py|\.rt$|\.antt$|/dev/|/tests/", name)]
    need(not missing and not odd, (missing, odd))
    links = re.findall(r"\]\(([^)#:]+)\)", inside["share/doc/opprove/README.md"].decode())
    dead = [link for link in links if f"share/doc/opprove/{link}" not in inside]
    need(not dead, dead)
    return f"archive and package have the same {len(inside)} files, and no link of README is dead"


def answers(checkout: Checkout) -> str:
    """The packed programs and the script answer as the built one, without the toolchain."""
    environment = {"PATH": "/usr/bin:/bin", "LC_ALL": "C"}
    packed = checkout.tree / "usr"
    programs = [packed / "bin" / "opprove", packed / "lib" / "opprove" / "opprove", packed / "lib" / "opprove" / "opprove-static"]
    calls = calls_on(packed / "share" / "doc" / "opprove")
    for call in calls:
        found: List[Tuple[int, bytes]] = []
        for program in (checkout.out / "opprove", *(program for program in programs if program.exists())):
            done = subprocess.run([str(program), *call], env=environment, capture_output=True, timeout=120)
            found.append((done.returncode, done.stdout))
        need(len({*found}) == 1 and found[0][1] != b"", (call, found))
    if checkout.is_real:
        page = packed / "share" / "doc" / "opprove" / "docs" / "COMMANDS.md"
        hidden = page.rename(page.with_suffix(".hidden"))
        done = subprocess.run([str(programs[0]), *calls[0]], env=environment, capture_output=True, timeout=120)
        hidden.rename(page)
        need(done.stdout != b"" and not done.stderr, done)
    if programs[2].exists():
        answer = run("ldd", programs[2])
        need("not a dynamic executable" in answer.out + answer.error, answer)
    return f"{len(calls)} calls are answered by the packed programs and the script as by the built one"


def calls_on(documents: Path) -> List[List[str]]:
    """Words for the program: statements and certificates of the examples, and some of the library."""
    calls, examples = [["prove"], ["prove", "missing.op"]], documents / "examples"
    for path in [documents / statement.relative_to(TOP) for statement in STATEMENTS]:
        is_long = path.stem == "braid_relation" or path.parent.name == "harder"
        options = ["--pairs", "20", "--no-models"] if is_long else []
        calls += [["prove", str(path), "--format", number, *options] for number in "12"]
    for path in sorted(examples.glob("*.cert")):
        statement = next(other for other in examples.glob("*.op") if path.stem.startswith(other.stem))
        calls.append(["check", str(statement), str(path)])
    return calls


def tools(checkout: Checkout) -> str:
    """Each tool has its page by the packed script, and some do their work there; check.py checks by itself."""
    packed = checkout.tree / "usr"
    script, examples = packed / "bin" / "opprove", packed / "share" / "doc" / "opprove" / "examples"
    for tool in TOOLS:
        answer = run(script, tool.word, "--help")
        need(answer.status == 0 and answer.out != "" and not answer.error, (tool, answer))
    squares = [examples / "pasted_squares.op", examples / "pasted_squares.cert"]
    for words, want in ((["chain", *squares], "= b2 y a1   by (2)"), (["picture", squares[0]], "</svg>"), (["--version"], "opprove ")):
        answer = run(script, *words)
        need(answer.status == 0 and want in answer.out and not answer.error, (words, answer))
    answer = run(script, "chian")
    need(answer.status == 2 and "'chain'" in answer.error, answer)
    answer = run(sys.executable, packed / "share" / "opprove" / "python" / "opprove" / "checkers" / "check.py", *squares)
    need(answer == Answer(0, "# block 1 accepted claim 1 denominator 1\n", ""), answer)
    return f"{len(TOOLS)} tools have their pages where they are packed, and chain, picture and check.py work there"


def manual(checkout: Checkout) -> str:
    page = checkout.tree / "usr" / "share" / "man" / "man1" / "opprove.1.gz"
    answer = run(installed("man"), "--warnings", "-E", "UTF-8", "-l", "-Tutf8", page)
    version = (TOP / "VERSION").read_text().strip()
    need(answer.status == 0 and not answer.error and f"version {version}" in answer.out, answer.error)
    return "the packed manual page has no warnings, and tells the version"


def record(checkout: Checkout) -> str:
    """What PROVED says: each file that it names has the sum that it says."""
    lines = (checkout.tree / "usr" / "share" / "doc" / "opprove" / "PROVED").read_text().split("\n")
    named = [match for match in (re.match(r"\w+ ([0-9a-f]{64}) (\S+)", line) for line in lines) if match]
    for match in named:
        path = checkout.top / match.group(2) if match.group(2).startswith("out/") else checkout.tree / "usr" / match.group(2)
        need(sha256(path.read_bytes()).hexdigest() == match.group(1), match.group())
    need(len(named) in (2, 4) and "licence none" in lines and "authors none" in lines, lines)
    kit = (checkout.out / "opprove.sources").read_text().split("\n")
    version, revision = (TOP / "VERSION").read_text().strip(), run("git", "-C", checkout.top, "rev-parse", "HEAD").out.strip()
    need(lines[:4] == [f"version {version}", f"revision {revision}", f"kit {kit[1]}", f"sources {kit[2].split(' ')[0]}"], lines)
    need(any(re.match(r"needs (lib\S+ )+with glibc 2\.[0-9.]+ or later,", line) for line in lines), lines)
    (checkout.folder / "gate.log").write_text("..\n3210 passed, 0 failed\n")
    other = checkout.released("gate", GATE_LOG=str(checkout.folder / "gate.log"))
    told = run("tar", "-xzOf", checkout.found(other, ".tar.gz"), "--wildcards", "*/PROVED").out.split("\n")
    need(told == [*lines[:-1], "gate 3210 passed, 0 failed", ""], told)
    return f"PROVED has the sums of {len(named)} files, the revision, and the gate's last line where a log is named"


def control(checkout: Checkout) -> str:
    package = checkout.found(checkout.first, ".deb")
    told = run("dpkg-deb", "-f", package).out
    need(re.search(r"^Depends: libc6 \(>= 2\.[0-9.]+\), python3 \(>= 3\.8\)$", told, re.M) and "\nMaintainer:" not in told, told)
    modes = [line.split()[:2] for line in run("dpkg-deb", "-c", package).out.split("\n") if line]
    need({owner for _, owner in modes} == {"root/root"}, modes)
    need({mode for mode, _ in modes} == {"drwxr-xr-x", "-rw-r--r--", "-rwxr-xr-x"}, modes)
    lintian(checkout)
    other = checkout.released("named", MAINTAINER="Somebody <somebody@localhost>")
    told = run("dpkg-deb", "-f", checkout.found(other, ".deb"), "Maintainer").out
    need(told == "Somebody <somebody@localhost>\n", told)
    return "the package depends on the C library and Python alone, all is owned by root, and a maintainer is named only where one is said"


def lintian(checkout: Checkout) -> None:
    """Debian's own look at the package has no error, where a maintainer is named."""
    if shutil.which("lintian"):
        named = checkout.released("linted", MAINTAINER="A Maintainer <maintainer@debian.org>")
        answer = run("lintian", "--allow-root", "--fail-on", "error", "--tag-display-limit", "0", checkout.found(named, ".deb"), seconds=300)
        need(answer.status == 0 and not re.search("^E: ", answer.out, re.M), answer)


# ---- What is refused, and what the owner says


def changed(checkout: Checkout, name: str, change: Callable[[str], str], message: str) -> None:
    """What is said where a file is another one, and the file as it was."""
    path = checkout.top / name
    text = path.read_text()
    path.write_text(change(text))
    try:
        checkout.refused(message)
    finally:
        path.write_text(text)


def refusals(checkout: Checkout) -> str:
    usage = "usage: release.sh [--no-licence] [OUT]"
    checkout.refused(usage, "--help")
    checkout.refused(usage, "one", "two")
    kept = checkout.out / "opprove.sources"
    text = kept.read_text()
    for line, message in ((2, OTHER_SOURCES), (1, "the kit that built the program isn't there: x")):
        lines = text.split("\n")
        lines[line] = "x"
        kept.write_text("\n".join(lines))
        checkout.refused(message)
    kept.write_text(text)
    for name in ("opprove", "opprove.sources"):
        (checkout.out / name).rename(checkout.out / "aside")
        checkout.refused("the program isn't built; ./opprove build proves and builds it")
        (checkout.out / "aside").rename(checkout.out / name)
    changed(checkout, "README.md", lambda text: text + "more\n", "the checkout has changes")
    for version in ("", "1.0-rc1", "v1", "1..2", "01", "1\n2"):
        changed(checkout, "VERSION", lambda text: version, "VERSION has to hold numbers with dots between them")
    changed(checkout, "VERSION", lambda text: "9.9\n", "CHANGELOG.md has to begin with the version, '# 9.9'")
    version = (checkout.top / "VERSION").read_text().strip()
    message = f"CITATION.cff has to have the line 'version: \"{version}\"'"
    changed(checkout, "CITATION.cff", lambda text: text.replace("\nversion", "\nversions"), message)
    message = f"python/src/opprove/VERSION has to hold the version, '{version}'"
    changed(checkout, "python/src/opprove/VERSION", lambda text: "9.9\n", message)
    owner = "missing, and the owner's to say: a licence (the file LICENSE) and the authors' names (in CITATION.cff)"
    checkout.refused(f"{owner}; --no-licence makes a package for trial", checkout.folder / "none")
    checkout.refused("nothing can be written to /dev/null", "--no-licence", "/dev/null")
    source = checkout.top / "crates" / "lists" / "src" / "lib.rt"
    source.write_text(source.read_text() + "// more\n")
    checkout.commit("other sources")
    checkout.refused(OTHER_SOURCES)
    checkout.git("-C", checkout.top, "reset", "--quiet", "--hard", "HEAD~1")
    answer = checkout.release("--no-licence", checkout.folder / "none", GATE_LOG="missing")
    need(answer == Answer(1, "", "release: the gate's log can't be read: missing\n"), answer)
    return f"{checkout.refusals} things that are wrong or missing end it with one line and status 1"


def owners(checkout: Checkout) -> str:
    """With a licence and authors, which are those of this test."""
    cited = checkout.top / "CITATION.cff"
    (checkout.top / "LICENSE").write_text("Of this test.\n")
    checkout.commit("a licence")
    end = "--no-licence makes a package for trial"
    checkout.refused(f"missing, and the owner's to say: the authors' names (in CITATION.cff); {end}", checkout.folder / "none")
    cited.write_text(cited.read_text() + "authors:\n  - name: Somebody\n")
    checkout.commit("an author")
    package = checkout.found(checkout.released("full", is_trial=False), ".deb")
    tree = checkout.folder / "owned"
    need(run("dpkg-deb", "-x", package, tree).status == 0, package)
    found = files(tree / "usr" / "share" / "doc" / "opprove")
    need(found["LICENSE"] == b"Of this test.\n" and found["CITATION.cff"] == cited.read_bytes(), {*found})
    line = f"licence {sha256(found['LICENSE']).hexdigest()} share/doc/opprove/LICENSE\n"
    told = found["PROVED"].decode()
    need(line in told and "licence none" not in told, told)
    return "with a licence and an author both are in the release, and PROVED names the licence"


def citation(checkout: Checkout) -> str:
    try:
        import yaml
    except ImportError:
        raise Skipped("PyYAML is not installed") from None
    found = yaml.safe_load((TOP / "CITATION.cff").read_text())
    need({*found} <= FIELDS and found["cff-version"] == "1.2.0" and found["type"] == "software", found)
    missing = {"cff-version", "message", "title", "authors"} - {*found}
    need(found["version"] == (TOP / "VERSION").read_text().strip() and missing <= {"authors"}, found)
    said = "authors are the owner's to say" if missing else "with authors"
    return f"CITATION.cff is YAML with fields of format 1.2.0; {said}"


def released(checkout: Checkout) -> str:
    what = "the program that is built here" if checkout.is_real else "a stand-in, as the program of these sources is not built,"
    return f"{what} is released"


checkout_in = functools.lru_cache(maxsize=None)(Checkout)
OF_CHECKOUT: List[Callable[[Checkout], str]] = [
    same_bytes, archive, answers, tools, manual, record, control, citation, refusals, owners, released,
]  # fmt: skip
CHECKS = [lambda folder, check=check: check(checkout_in(folder)) for check in OF_CHECKOUT]
