"""A browser for the tests: Chromium without a window, led by chromedriver over its protocol, with the standard library alone; and what
a page leads to, which is read without one."""
from __future__ import annotations

import json
import re
import shutil
import subprocess
import tempfile
import time
import unittest
from html.parser import HTMLParser
from http.client import HTTPConnection
from typing import Any, Dict, List, Optional, Set, Tuple

ELEMENT = "element-6066-11e4-a52e-4f735466cecf"  # how the protocol names an element


def needed(*names: str) -> List[str]:
    """The paths of programs. A test that needs one which isn't installed is skipped, and a line says so."""
    for name in names:
        if shutil.which(name) is None:
            print(f"skipped: {name} is not installed", flush=True)
            raise unittest.SkipTest(f"{name} is not installed")
    return [str(shutil.which(name)) for name in names]


class Links(HTMLParser):
    """The addresses that a page leads to or loads, and its anchors; without data that stands in it."""

    def __init__(self, text: str) -> None:
        super().__init__()
        self.addresses: List[str] = []
        self.anchors: Set[str] = set()
        self.feed(text)

    def handle_starttag(self, tag: str, attributes: List[Tuple[str, Optional[str]]]) -> None:
        found = {name: value or "" for name, value in attributes}
        self.addresses += [found[name] for name in ("href", "src") if not found.get(name, "data:").startswith("data:")]
        self.anchors.add(found.get("id", ""))


class Browser:
    """A window, which is closed with `close`."""

    def __init__(self, size: Tuple[int, int] = (1200, 1000)) -> None:
        driver, chromium = needed("chromedriver", "chromium")
        self.folder = tempfile.TemporaryDirectory(prefix="opprove-browser-")
        self.driver = subprocess.Popen([driver, "--port=0"], stdout=subprocess.PIPE, stderr=subprocess.DEVNULL, encoding="utf-8")
        assert self.driver.stdout is not None
        lines = map(re.compile("started successfully on port ([0-9]+)").search, self.driver.stdout)
        started = next((found for found in lines if found), None)
        assert started, "chromedriver didn't start"
        self.port = int(started.group(1))
        words = ["--headless=new", "--no-sandbox", "--disable-gpu", f"--user-data-dir={self.folder.name}"]
        words.append(f"--window-size={size[0]},{size[1]}")
        options = {"binary": chromium, "args": words}
        wanted = {"browserName": "chrome", "goog:chromeOptions": options, "goog:loggingPrefs": {"browser": "ALL", "performance": "ALL"}}
        self.session = ""
        self.session = "/session/" + self.ask("POST", "/session", {"capabilities": {"alwaysMatch": wanted}})["sessionId"]

    def ask(self, method: str, path: str, sent: Any = None) -> Any:
        """What the protocol answers to a request."""
        connection = HTTPConnection("127.0.0.1", self.port, timeout=120)
        body = None if sent is None else json.dumps(sent)
        connection.request(method, self.session + path, body, {"Content-Type": "application/json"})
        answer = json.loads(connection.getresponse().read())
        connection.close()
        if isinstance(answer["value"], dict) and "error" in answer["value"]:
            raise AssertionError(answer["value"]["message"])
        return answer["value"]

    def open(self, address: str) -> None:
        self.ask("POST", "/url", {"url": address})

    def run(self, script: str, *values: Any) -> Any:
        """What a script returns in the page, to which the values are `arguments`."""
        return self.ask("POST", "/execute/sync", {"script": script, "args": list(values)})

    def wait(self, script: str, *values: Any, seconds: float = 60) -> Any:
        """The first value of the script that is true."""
        end = time.monotonic() + seconds
        while time.monotonic() < end:
            found = self.run(script, *values)
            if found:
                return found
            time.sleep(0.05)
        raise AssertionError(f"not within {seconds} s: {script}")

    def press(self, selector: str, keys: str) -> None:
        """Types keys into an element."""
        element = self.ask("POST", "/element", {"using": "css selector", "value": selector})
        self.ask("POST", f"/element/{element[ELEMENT]}/value", {"text": keys})

    def click(self, selector: str) -> None:
        element = self.ask("POST", "/element", {"using": "css selector", "value": selector})
        self.ask("POST", f"/element/{element[ELEMENT]}/click", {})

    def logs(self) -> List[str]:
        """What was written to the console since the last look."""
        return [entry["message"] for entry in self.ask("POST", "/se/log", {"type": "browser"})]

    def requests(self) -> List[str]:
        """The addresses that were asked for since the last look."""
        entries = self.ask("POST", "/se/log", {"type": "performance"})
        events: List[Dict[str, Any]] = [json.loads(entry["message"])["message"] for entry in entries]
        return [event["params"]["request"]["url"] for event in events if event["method"] == "Network.requestWillBeSent"]

    def close(self) -> None:
        try:
            self.ask("DELETE", "")
        finally:
            self.driver.terminate()
            self.driver.wait()
            assert self.driver.stdout is not None
            self.driver.stdout.close()
            self.folder.cleanup()
