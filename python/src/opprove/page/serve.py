"""A page to work in, on this machine alone.

Prints an address, which a browser on this machine opens, and answers there until it is interrupted. A statement is written on the
left, or a text of the notation that stands for one; its first fault is marked as one types, and its quiver is drawn anew; Prove runs
the program, Search looks around it, Stop ends a run. Of each run time and memory are limited, and there are at most as many as
processors. It listens on 127.0.0.1 alone, at a random port, and the address has a token: a request without it, with another host
name, from another origin, of more than 1 MiB, or for anything else than the page asks for is refused. All files are in a temporary
folder that goes with it.
"""
from __future__ import annotations

import argparse
import hmac
import json
import os
import secrets
import signal
import sys
import tempfile
from http import HTTPStatus
from http.server import BaseHTTPRequestHandler, ThreadingHTTPServer
from pathlib import Path
from typing import Any, Callable, Dict, List, NamedTuple, Optional, Tuple

from opprove.checkers.check import DONE, MOST_BYTES, NO_OUTPUT, Refusal, loaded, status_of, written
from opprove.notation.expand import is_statement
from opprove.page.page import digest, part
from opprove.page.running import Call, Limits, Runs
from opprove.program import path as path_of_program
from opprove.tool import parser, say

BODY_LIMIT = 2**20  # bytes of a request
LOOK_SECONDS = 20  # for a look at a statement, and for a page
ABOVE = Path(__file__).resolve().parents[4]
LIBRARIES = (ABOVE / "library", ABOVE / "doc" / "opprove" / "library")  # of a checkout, and of a release
PACKAGE = str(Path(__file__).resolve().parents[2])  # where the package is found by those that are started
# The numbers that a run of `prove` takes from the page, with their least and greatest values.
BUDGETS = {"pairs": (1, 1000000), "steps": (1, 1000000), "seed": (0, 2**64 - 1), "format": (1, 2)}
EXAMPLE = "object U V\nmap a : U -> V\nmap x y : V -> U\npinv a x\npinv a y\nclaim x = y\n"


class Answer(NamedTuple):
    """What a request is answered by."""

    status: HTTPStatus
    kind: str
    body: bytes


def told(status: HTTPStatus, words: str) -> Answer:
    return Answer(status, "text/plain; charset=utf-8", f"{words}\n".encode())


def data(found: object) -> Answer:
    return Answer(HTTPStatus.OK, "application/json", json.dumps(found).encode())


NOT_FOUND = told(HTTPStatus.NOT_FOUND, "there is no such thing here")
BUSY = told(HTTPStatus.TOO_MANY_REQUESTS, "as many runs go on as this machine has processors: stop one, or wait")


class Desk:
    """What the page asks for, over the runs of a server."""

    def __init__(self, folder: Path, limits: Limits, statement: str) -> None:
        self.runs, self.folder, self.statement = Runs(folder, limits), folder, statement

    def environment(self) -> Dict[str, str]:
        return {**os.environ, "PYTHONPATH": os.pathsep.join([PACKAGE, os.environ.get("PYTHONPATH", "")]).rstrip(os.pathsep)}

    # ---- What a GET gets

    def page(self, number: str) -> Answer:
        """The page of a run that has ended, or why there is none, and its report."""
        run = self.runs.get(int(number))
        if run is None or run.is_going():
            return NOT_FOUND
        command = [sys.executable, "-m", "opprove", "page", "statement.op", "statement.report", "--title", "Statement"]
        status, out, error = self.runs.answer(Call(command, run.folder, self.environment()), LOOK_SECONDS)
        if status == DONE:
            return Answer(HTTPStatus.OK, "text/html; charset=utf-8", out)
        why = error.decode("utf-8", "replace").strip() or "the page takes too long to make"
        return told(HTTPStatus.OK, f"{why}\n\n{run.report.read_bytes().decode('utf-8', 'replace')}")

    def state(self, number: str) -> Answer:
        run = self.runs.get(int(number))
        return data(run.state()) if run else NOT_FOUND

    def report(self, number: str) -> Answer:
        run = self.runs.get(int(number))
        return Answer(HTTPStatus.OK, "text/plain; charset=utf-8", run.report.read_bytes()) if run else NOT_FOUND

    def gallery(self) -> Answer:
        paths = sorted(path for folder in LIBRARIES for path in folder.glob("*/*.op"))
        return data({"statement": self.statement, "gallery": {f"{path.parent.name}/{path.stem}": path.read_text("utf-8") for path in paths}})

    # ---- What a POST does

    def look(self, asked: Dict[str, Any]) -> Answer:
        """The first fault of a statement, or how it looks."""
        status, out, _ = self.asked_of_looked(statement_of(asked))
        trouble = "no memory" if status > 0 else "the statement takes too long to look at"
        return Answer(HTTPStatus.OK, "application/json", out) if status == DONE else data({"trouble": trouble})

    def asked_of_looked(self, text: bytes, *options: str) -> Tuple[int, bytes, bytes]:
        """The status, output and standard error of a look at a text."""
        with tempfile.TemporaryDirectory(dir=str(self.folder)) as name:
            Path(name, "statement.op").write_bytes(text)
            call = Call([sys.executable, "-m", "opprove.page.looked", *options, "statement.op"], Path(name), self.environment())
            return self.runs.answer(call, LOOK_SECONDS)

    def prove(self, asked: Dict[str, Any]) -> Answer:
        words = [word for name in BUDGETS for word in (f"--{name}", str(number_of(asked, name, *BUDGETS[name])))]
        words += [] if asked.get("models", True) else ["--no-models"]
        return self.start(asked, [path_of_program(), "prove", "statement.op", *words])

    def search(self, asked: Dict[str, Any]) -> Answer:
        seconds = number_of(asked, "seconds", 1, self.runs.limits.seconds)
        command = [sys.executable, "-m", "opprove", "search", "statement.op", "--seconds", str(seconds)]
        return self.start(asked, command, is_talking=True)

    def start(self, asked: Dict[str, Any], command: List[str], is_talking: bool = False) -> Answer:
        text = statement_of(asked)
        if not is_statement(text):
            status, text, error = self.asked_of_looked(text, "--expand")
            if status != DONE:
                return told(HTTPStatus.UNPROCESSABLE_ENTITY, error.decode("utf-8", "replace").strip() or "it takes too long to expand")
        number = self.runs.start(text, command, self.environment(), is_talking)
        return BUSY if number is None else data({"run": number})

    def stop(self, asked: Dict[str, Any]) -> Answer:
        run = self.runs.get(number_of(asked, "run", 0, 2**53))
        if run is None:
            return NOT_FOUND
        run.stop("stop")
        return data(run.state())


def statement_of(asked: Dict[str, Any]) -> bytes:
    text = asked.get("statement")
    if not isinstance(text, str):
        raise ValueError("statement")
    return text.encode("utf-8", "surrogatepass")


def number_of(asked: Dict[str, Any], name: str, least: int, most: int) -> int:
    number = asked.get(name)
    if not isinstance(number, int) or isinstance(number, bool) or not least <= number <= most:
        raise ValueError(f"{name} is a number from {least} to {most}")
    return number


def work_page() -> Tuple[str, str]:
    """The page to work in, and the policy by which it reaches this server alone."""
    style, script = part("style.css") + "\n" + part("work.css"), part("work.js")
    policy = (
        f"default-src 'none'; script-src {digest(script)}; style-src {digest(style)}; connect-src 'self'; frame-src 'self'; "
        "base-uri 'none'; form-action 'none'; frame-ancestors 'none'"
    )
    text = part("work.html").replace("STYLE", style, 1).replace("SCRIPT", script, 1)
    return text, policy


class Handler(BaseHTTPRequestHandler):
    """Answers requests. What isn't allowed is refused before anything is done."""

    server: "Server"
    protocol_version = "HTTP/1.1"
    server_version, sys_version = "opprove", ""
    timeout = 60

    def do_GET(self) -> None:
        self.put(self.refused("GET") or self.got())

    def do_POST(self) -> None:
        refusal = self.refused("POST")
        if refusal:
            self.close_connection = True  # what it sends is not read
        self.put(refusal or self.posted())

    def refused(self, method: str) -> Optional[Answer]:
        """Why the request isn't answered, if it isn't."""
        own = f"127.0.0.1:{self.server.server_port}"
        origin, site = self.headers.get("Origin"), self.headers.get("Sec-Fetch-Site", "none")
        if self.headers.get_all("Host") != [own]:
            return told(HTTPStatus.FORBIDDEN, "another host name")
        if origin != f"http://{own}" and (origin is not None or method == "POST") or site not in ("none", "same-origin"):
            return told(HTTPStatus.FORBIDDEN, "another origin")
        given = self.path.split("/")[1] if self.path.startswith("/") else ""
        if not hmac.compare_digest(given.encode("utf-8", "replace"), self.server.token.encode()):
            return told(HTTPStatus.FORBIDDEN, "no token")
        return self.oversized() if method == "POST" else None

    def oversized(self) -> Optional[Answer]:
        length = self.headers.get("Content-Length", "")
        if "Transfer-Encoding" in self.headers or not length.isdecimal():
            return told(HTTPStatus.LENGTH_REQUIRED, "no length")
        return told(HTTPStatus.REQUEST_ENTITY_TOO_LARGE, f"more than {BODY_LIMIT} bytes") if int(length) > BODY_LIMIT else None

    def asked_for(self) -> List[str]:
        return self.path.split("/")[2:]

    def got(self) -> Answer:
        desk, words = self.server.desk, self.asked_for()
        if words == [""]:
            return Answer(HTTPStatus.OK, "text/html; charset=utf-8", self.server.page.encode())
        if words == ["gallery"]:
            return desk.gallery()
        by_number: Dict[str, Callable[[str], Answer]] = {"page": desk.page, "state": desk.state, "report": desk.report}
        is_known = len(words) == 2 and words[0] in by_number and words[1].isdecimal() and len(words[1]) < 10
        return by_number[words[0]](words[1]) if is_known else NOT_FOUND

    def posted(self) -> Answer:
        desk, words = self.server.desk, self.asked_for()
        body = self.rfile.read(int(self.headers["Content-Length"]))
        by_word: Dict[str, Callable[[Dict[str, Any]], Answer]] = {
            "look": desk.look, "prove": desk.prove, "search": desk.search, "stop": desk.stop,
        }  # fmt: skip
        if len(words) != 1 or words[0] not in by_word:
            return NOT_FOUND
        try:
            asked = json.loads(body)
            if not isinstance(asked, dict):
                raise ValueError("an object")
            return by_word[words[0]](asked)
        except (ValueError, RecursionError) as what:
            return told(HTTPStatus.BAD_REQUEST, f"not understood: {what}")
        except OSError as what:
            return told(HTTPStatus.INTERNAL_SERVER_ERROR, f"not started: {what.strerror}")

    def put(self, answer: Answer) -> None:
        is_page = answer.kind.startswith("text/html") and self.asked_for() == [""]
        self.send_response(answer.status)
        headers = {
            "Content-Type": answer.kind, "Content-Length": str(len(answer.body)), "Cache-Control": "no-store",
            "X-Content-Type-Options": "nosniff", "Referrer-Policy": "no-referrer", "Cross-Origin-Resource-Policy": "same-origin",
            "Content-Security-Policy": self.server.policy if is_page else "frame-ancestors 'self'",
        }  # fmt: skip
        for name, value in headers.items():
            self.send_header(name, value)
        self.end_headers()
        self.wfile.write(answer.body)

    def log_message(self, *what: object) -> None:
        pass  # addresses have the token


class Server(ThreadingHTTPServer):
    """Listens on this machine alone."""

    daemon_threads = True
    request_queue_size = 64

    def __init__(self, desk: Desk) -> None:
        super().__init__(("127.0.0.1", 0), Handler)
        self.desk, self.token = desk, secrets.token_urlsafe(24)
        self.page, self.policy = work_page()

    def address(self) -> str:
        return f"http://127.0.0.1:{self.server_port}/{self.token}/"

    def handle_error(self, request: object, client_address: object) -> None:
        pass  # a connection that broke off


def count(least: int, most: int) -> Callable[[str], int]:
    """Reads a number between these, for the words of the call."""

    def number(text: str) -> int:
        if not text.isdecimal() or not least <= int(text) <= most:
            raise argparse.ArgumentTypeError(f"a number from {least} to {most}")
        return int(text)

    return number


def interrupted(*what: object) -> None:
    raise KeyboardInterrupt


def served(statement: str, limits: Limits) -> int:
    """Serves until it is interrupted, and gives the status."""
    is_put = True
    for number in (signal.SIGINT, signal.SIGTERM, signal.SIGHUP):
        signal.signal(number, interrupted)
    with tempfile.TemporaryDirectory(prefix="opprove-") as folder, Server(Desk(Path(folder), limits, statement)) as server:
        try:
            is_put = written([server.address()])
            if is_put:
                server.serve_forever(0.1)
        except KeyboardInterrupt:
            pass
        finally:
            server.desk.runs.close()
    return DONE if is_put else NO_OUTPUT


def main(words: List[str]) -> int:
    made = parser("serve", __doc__)
    made.add_argument("statement", nargs="?", help="what the page begins with")
    made.add_argument("--seconds", type=count(1, 10**6), default=600, metavar="N", help="of each run; 600")
    made.add_argument("--memory", type=count(1, 10**6), default=4000, metavar="N", help="million bytes of each process; 4000")
    given = made.parse_args(words)
    limits = Limits(given.seconds, given.memory * 10**6, os.cpu_count() or 1)
    try:
        text = loaded([given.statement], MOST_BYTES[:1])[0].decode() if given.statement else EXAMPLE
    except (Refusal, UnicodeDecodeError) as what:
        line = f"# refused S1 byte {what.start}" if isinstance(what, UnicodeDecodeError) else str(what)
        say(line)
        return status_of(line)
    return served(text, limits)
