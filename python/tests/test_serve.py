"""The page to work in: what it refuses, what it marks, and that no run, process or file is left."""
from __future__ import annotations

import json
import os
import signal
import subprocess
import sys
import tempfile
import time
import unittest
from http.client import HTTPConnection
from pathlib import Path
from typing import Any, Dict, List, Optional, Tuple
from urllib.parse import urlsplit

from browser import Browser
from opprove.program import path as path_of_program
from trying import GALLERY, LIBRARY

PACKAGE = str(Path(__file__).resolve().parents[1] / "src")
UNENDING = (  # braids on five strands
    "object V\nmap a b c d : V -> V\nassume a b a = b a b\nassume b c b = c b c\nassume c d c = d c d\nassume a c = c a\nassume a d = d a\n"
    "assume b d = d b\nclaim a b c d = d c b a\n"
)
INVERSES = "object U V\nmap a : U -> V\nmap b : V -> U\nassume a b = [V]\nclaim b a = [U]\n"
BUDGETS = {"pairs": 100, "steps": 1000, "seed": 1, "format": 2}
LONG = {"pairs": 1000000, "steps": 1000000, "seed": 1, "format": 2, "models": False}


def going(marker: str) -> List[str]:
    """The processes that have a text among their words, or in their working folder, but for this one."""
    found = []
    for entry in Path("/proc").glob("[0-9]*"):
        try:
            words, folder = (entry / "cmdline").read_bytes().decode("utf-8", "replace"), os.readlink(str(entry / "cwd"))
        except OSError:
            continue
        if (marker in words or marker in folder) and int(entry.name) != os.getpid():
            found.append(words.replace("\0", " "))
    return found


class Served(unittest.TestCase):
    """A server that this test starts and ends, with a temporary folder of its own."""

    def setUp(self) -> None:
        self.folder = tempfile.TemporaryDirectory(prefix="opprove-served-")
        self.server = self.started()
        assert self.server.stdout is not None
        self.address = self.server.stdout.readline().strip()
        self.assertRegex(self.address, "^http://127[.]0[.]0[.]1:[0-9]+/[-_A-Za-z0-9]{32}/$")
        self.host = urlsplit(self.address).netloc

    def started(self, *words: str) -> "subprocess.Popen[str]":
        environment = {**os.environ, "PYTHONPATH": PACKAGE, "TMPDIR": self.folder.name}
        command = [sys.executable, "-m", "opprove", "serve", *words]
        return subprocess.Popen(command, stdout=subprocess.PIPE, stderr=subprocess.PIPE, env=environment, encoding="utf-8")

    def tearDown(self) -> None:
        """Ctrl-C ends all: the server says nothing, and leaves no process and no file."""
        self.server.send_signal(signal.SIGINT)
        out, error = self.server.communicate(timeout=30)
        self.assertEqual((self.server.returncode, out, error), (0, "", ""))
        self.assertEqual(going(self.folder.name), [])
        self.assertEqual(os.listdir(self.folder.name), [])
        self.folder.cleanup()

    def ask(self, method: str, path: str, sent: Any = None, **headers: Optional[str]) -> Tuple[int, bytes]:
        """The answer to a request, as this page would send it but for some headers; those that are none are left out."""
        own: Dict[str, Optional[str]] = {"Host": self.host, "Origin": f"http://{self.host}" if method == "POST" else None}
        body = sent if isinstance(sent, bytes) else json.dumps(sent).encode() if sent is not None else None
        all_headers = {**own, **{name.replace("_", "-"): value for name, value in headers.items()}}
        given = {name: value for name, value in all_headers.items() if value is not None}
        connection = HTTPConnection(self.host, timeout=120)
        try:
            connection.putrequest(method, path, skip_host=True)
            for name, value in given.items():
                connection.putheader(name, value)
            if body is not None and "Content-Length" not in given and "Transfer-Encoding" not in given:
                connection.putheader("Content-Length", str(len(body)))
            connection.endheaders(body)
            answer = connection.getresponse()
            return answer.status, answer.read()
        finally:
            connection.close()

    def told(self, word: str, sent: Any = None) -> Any:
        """What the server answers to a word of the page, in JSON."""
        status, body = self.ask("GET" if sent is None else "POST", urlsplit(self.address).path + word, sent)
        self.assertEqual(status, 200, body)
        return json.loads(body)

    def ended(self, run: int) -> Dict[str, Any]:
        """The state of a run when it has ended."""
        for _ in range(600):
            state: Dict[str, Any] = self.told(f"state/{run}")
            if not state["going"]:
                return state
            time.sleep(0.1)
        raise AssertionError("the run doesn't end")


class Refused(Served):
    def test_what_is_refused(self) -> None:
        path, look = urlsplit(self.address).path, {"statement": INVERSES}
        own = f"http://{self.host}"
        cases: List[Tuple[int, str, str, Any, Dict[str, Optional[str]]]] = [
            (200, "GET", path, None, {}),
            (403, "GET", "/", None, {}), (403, "GET", "/x" + path[2:], None, {}), (403, "GET", path[:-2] + "/", None, {}),
            (403, "GET", path, None, {"Host": "localhost:" + self.host.split(":")[1]}), (403, "GET", path, None, {"Host": "evil.example"}),
            (403, "GET", path, None, {"Host": None}), (403, "GET", path, None, {"Origin": "http://evil.example"}),
            (403, "GET", path, None, {"Sec_Fetch_Site": "cross-site"}),
            (200, "GET", path, None, {"Sec_Fetch_Site": "same-origin", "Origin": own}),
            (403, "POST", path + "look", look, {"Origin": None}), (403, "POST", path + "look", look, {"Origin": "null"}),
            (403, "POST", path + "look", look, {"Origin": own + "0"}), (403, "POST", "/look", look, {}),
            (413, "POST", path + "look", None, {"Content_Length": str(2**20 + 1)}), (411, "POST", path + "look", None, {}),
            (411, "POST", path + "look", b"", {"Transfer_Encoding": "chunked"}),
            (411, "POST", path + "look", None, {"Content_Length": "-1"}),
            (411, "POST", path + "look", None, {"Content_Length": "\xb2"}),
            (404, "GET", path + "..%2f..%2fetc/passwd", None, {}), (404, "GET", path + "../../etc/passwd", None, {}),
            (404, "GET", path + "page/../../../etc/passwd", None, {}), (404, "GET", path + "page/9", None, {}),
            (404, "GET", path + "state/x", None, {}),
            (404, "POST", path + "gallery", {}, {}), (404, "GET", path + "look", None, {}),
            (400, "POST", path + "look", b"{", {}), (400, "POST", path + "look", {}, {}), (400, "POST", path + "look", [], {}),
            (400, "POST", path + "prove", look, {}), (400, "POST", path + "prove", {**look, **BUDGETS, "pairs": 10**7}, {}),
            (400, "POST", path + "search", {**look, "seconds": "60"}, {}), (404, "POST", path + "stop", {"run": 3}, {}),
            (501, "PUT", path, b"", {}),
        ]  # fmt: skip
        for want, method, asked, sent, headers in cases:
            with self.subTest(method=method, path=asked, headers=headers, sent=sent):
                self.assertEqual(self.ask(method, asked, sent, **headers)[0], want)

    def test_no_other_address_is_listened_on(self) -> None:
        port = int(self.host.split(":")[1])
        lines = Path("/proc/net/tcp").read_text().splitlines() + Path("/proc/net/tcp6").read_text().splitlines()
        listening = [line.split()[1] for line in lines if line.split()[1].endswith(f":{port:04X}") and line.split()[3] == "0A"]
        self.assertEqual(listening, [f"0100007F:{port:04X}"])

    def test_words_that_are_not_taken(self) -> None:
        usage = "(?s:usage: .*)"
        for words, status, line in ((["a", "b"], 2, usage), (["--seconds", "0"], 2, usage), (["none.op"], 4, "# load failed none.op")):
            server = self.started(*words)
            out, error = server.communicate(timeout=30)
            self.assertEqual((server.returncode, out), (status, ""))
            self.assertRegex(error, f"^{line}\n$")


@unittest.skipUnless(os.access(path_of_program(), os.X_OK), "opprove is not built")
class Runs(Served):
    def test_a_look_tells_the_first_fault(self) -> None:
        self.assertEqual(self.told("look", {"statement": "object U\nmap a : U -> W\n"})["fault"]["line"], 2)
        found = self.told("look", {"statement": "object U\nclaim 5 = q\n"})["fault"]
        self.assertEqual((found["line"], found["column"], found["told"].split(":")[0]), (2, 9, "S3"))
        shown = self.told("look", {"statement": INVERSES})["shown"]
        self.assertIn("<svg", shown)
        self.assertNotIn("<script", self.told("look", {"statement": "# <script>\n" + INVERSES})["shown"])

    def test_texts_of_the_notation(self) -> None:
        text = "pinv a x\nnormal a\nclaim a x = x a\n"
        self.assertIn("<svg", self.told("look", {"statement": text})["shown"])
        found = self.told("look", {"statement": text + "claim a y = 0\n"})["fault"]
        self.assertEqual((found["line"], found["column"], found["told"][:4]), (4, 9, "S6: "))
        self.assertEqual(self.told("look", {"statement": "a : V -> V\n"})["fault"]["told"][:5], "S15: ")
        self.assertEqual(self.ended(self.told("prove", {"statement": text, **BUDGETS, "models": True})["run"])["status"], 0)
        path = urlsplit(self.address).path
        status, body = self.ask("POST", path + "prove", {"statement": "use words.opn\nclaim a = 0\n", **BUDGETS, "models": True})
        self.assertEqual((status, body[:13]), (422, b"# refused N1 "))

    def test_prove_and_its_page(self) -> None:
        state = self.ended(self.told("prove", {"statement": INVERSES, **BUDGETS, "models": True})["run"])
        self.assertEqual((state["status"], state["ended"]), (10, ""))
        status, body = self.ask("GET", urlsplit(self.address).path + "page/1")
        self.assertEqual(status, 200)
        self.assertIn("not derivable", body.decode())
        self.assertTrue(self.ask("GET", urlsplit(self.address).path + "report/1")[1].startswith(b"# claim 1 not derivable"))

    def test_stop_ends_a_run_and_all_that_it_started(self) -> None:
        for word, sent in (("prove", LONG), ("search", {"seconds": 600})):
            run = self.told(word, {"statement": UNENDING, **sent})["run"]
            time.sleep(3)
            state = self.told(f"state/{run}")
            self.assertTrue(state["going"], state)
            self.assertGreater(state["bytes"], 0)
            self.assertNotEqual(going(self.folder.name), [])
            self.assertEqual(self.told("stop", {"run": run})["ended"], "stop")
            self.assertEqual([words for words in going(self.folder.name) if " serve" not in words], [])

    def test_search_tells_what_it_tries(self) -> None:
        statement = (LIBRARY / "harder" / "commuting_inverses.op").read_text("utf-8")
        run = self.told("search", {"statement": statement, "seconds": 60})["run"]
        state = self.ended(run)
        self.assertEqual(state["status"], 0, state)
        self.assertTrue(any("claim 1 proved by" in line for line in state["told"]), state["told"])
        self.assertIn("accepted", self.ask("GET", urlsplit(self.address).path + f"page/{run}")[1].decode())

    def test_as_many_runs_as_processors(self) -> None:
        most = os.cpu_count() or 1
        path = urlsplit(self.address).path + "prove"
        answers = [self.ask("POST", path, {"statement": UNENDING, **LONG}) for _ in range(most + 1)]
        self.assertEqual([status for status, _ in answers], [200] * most + [429])
        self.told("stop", {"run": json.loads(answers[0][1])["run"]})
        self.assertEqual(self.ask("POST", path, {"statement": UNENDING, **LONG})[0], 200)


@unittest.skipUnless(os.access(path_of_program(), os.X_OK), "opprove is not built")
class Worked(Served):
    """In a browser."""

    def setUp(self) -> None:
        self.browser = Browser()
        self.addCleanup(self.browser.close)
        super().setUp()

    def put(self, statement: str) -> None:
        typed = "const at = document.getElementById('statement'); at.value = arguments[0]; at.dispatchEvent(new Event('input'));"
        self.browser.run(typed, statement)

    def text(self, name: str) -> str:
        return str(self.browser.run("return document.getElementById(arguments[0]).textContent", name))

    def open(self, more: str = "") -> None:
        self.browser.open("about:blank")
        self.browser.open(self.address + more)
        self.browser.wait("return document.getElementById('fault').textContent")

    def test_typed_faults_are_marked(self) -> None:
        self.open()
        self.assertEqual(self.text("fault"), "No fault.")
        self.browser.press("#statement", "\nassume x q = y")
        self.browser.wait("return document.querySelector('.bad')")
        self.assertEqual(self.browser.run("return document.querySelector('.bad').textContent"), "q")
        self.assertRegex(self.text("fault"), "^Line [0-9]+, column 10: S6: 'q' is not declared")
        self.assertIn("q", self.browser.run("return document.querySelector('.bad-line').textContent"))
        comment = "# <img src=x onerror=\"document.title='met'\">\n"
        self.put(f"{comment}object \u00dc\nmap \u03b1 : \u00dc -> \u00dc\nclaim \u03b1 \u03b1 = \u03b2\n")
        self.browser.wait("return document.querySelector('.bad') && document.querySelector('.bad').textContent === '\u03b2'")
        self.assertEqual(self.browser.run("return document.title"), "opprove")
        self.assertEqual(self.browser.logs(), [])

    def test_prove_stop_and_search(self) -> None:
        self.open()
        self.put(INVERSES)
        self.browser.click("#prove")
        self.browser.wait("return !document.getElementById('result').hidden && document.getElementById('run').textContent")
        self.assertRegex(self.text("run"), "s: some claim isn’t derivable[.]$")
        self.browser.run("document.getElementById('run').textContent = ''")
        self.put(UNENDING)
        self.browser.run("for (const name of ['pairs', 'steps']) document.getElementById(name).value = 1000000")
        self.browser.click("#prove")
        self.browser.wait("return /MB$/.test(document.getElementById('run').textContent)")
        self.assertTrue(self.browser.run("return document.getElementById('result').hidden"))
        self.browser.click("#stop")
        self.browser.wait("return / stopped[.]$/.test(document.getElementById('run').textContent)")
        self.assertEqual([words for words in going(self.folder.name) if " prove " in words], [])
        self.put(INVERSES)
        self.browser.click("#search")
        self.browser.wait("return !document.getElementById('result').hidden", seconds=120)
        self.assertEqual(self.browser.logs(), [])

    def test_the_address_keeps_the_statement_and_two_tabs_have_two(self) -> None:
        self.open()
        self.put(INVERSES)
        self.browser.wait("return location.hash.length > 1 && document.querySelectorAll('.equations li').length === 1")
        kept = self.browser.run("return location.hash")
        other = Browser()
        try:
            other.open(self.address + kept)
            other.wait("return document.getElementById('statement').value")
            self.assertEqual(other.run("return document.getElementById('statement').value"), INVERSES)
            for browser in (self.browser, other):
                browser.click("#prove")
            for browser in (self.browser, other):
                browser.wait("return !document.getElementById('result').hidden")
            sources = [browser.run("return document.getElementById('view').src") for browser in (self.browser, other)]
            self.assertEqual(sorted(source.rpartition("/")[2] for source in sources), ["1", "2"])
        finally:
            other.close()

    def test_a_place_leads_to_its_line(self) -> None:
        self.open()
        self.put(INVERSES)
        self.browser.wait("return document.querySelectorAll('.equations li').length === 1")
        self.browser.click("#glance .place")
        chosen = "const at = document.activeElement; return at.value.slice(at.selectionStart, at.selectionEnd)"
        self.assertEqual(self.browser.run(chosen), "assume a b = [V]")
        self.assertNotIn("#L", self.browser.run("return location.hash"))

    def test_the_gallery_is_a_menu(self) -> None:
        self.open()
        names = self.browser.run("return [...document.querySelectorAll('#gallery option')].map((at) => at.value)")
        self.assertIn("moore_penrose/moore_penrose_unique", names)
        choose = "const at = document.getElementById('gallery'); at.value = 'rings/jacobson_lemma'; at.dispatchEvent(new Event('change'));"
        self.browser.run(choose)
        statement = GALLERY["jacobson_lemma"].read_text("utf-8")
        self.assertEqual(self.browser.run("return document.getElementById('statement').value"), statement)
