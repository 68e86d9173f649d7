"""A page in headless Chromium, for tests: what a visitor does by mouse, keyboard and touch, and what is shown then."""
import json
import shutil
import socket
import subprocess
import time
import unittest
import urllib.request
from typing import Any, Dict, List, NamedTuple, Tuple

import web_page

PAGE = web_page.ROOT / "build" / "web" / "index.html"
CHROMIUM, DRIVER = shutil.which("chromium"), shutil.which("chromedriver")
ELEMENT = "element-6066-11e4-a52e-4f735466cecf"
KEYS = {"Tab": "\ue004", "Enter": "\ue007", "Shift": "\ue008", "Control": "\ue009", "Down": "\ue015",
        "Backspace": "\ue003"}
MISSING = "the page isn't built, or Chromium or its driver is missing"

# A run of the page's worker. A file that it saves comes back as a text.
RUN = """
const [words, files, done] = arguments;
burchDill.runner.run(words, files).then((came) => done({status: came.status, out: came.out, err: came.err,
  files: Object.fromEntries(Object.entries(came.files).map(([name, bytes]) => [name, textOf(bytes)]))}),
  (error) => done({status: -1, out: "", err: String(error), files: {}}));
"""
TEXT_OF = "window.textOf = (bytes) => new TextDecoder().decode(bytes);"


class Ran(NamedTuple):
    """How a run ended."""
    status: int
    out: str
    err: str
    files: Dict[str, str]


class Browser:
    """A session of Chromium, by the commands of its driver (the W3C's WebDriver)."""

    def __init__(self) -> None:
        with socket.socket() as free:
            free.bind(("127.0.0.1", 0))
            port = free.getsockname()[1]
        self.driver = subprocess.Popen([str(DRIVER), f"--port={port}"], stdout=subprocess.DEVNULL,
                                       stderr=subprocess.DEVNULL)
        self.root = f"http://127.0.0.1:{port}"
        options = {"binary": CHROMIUM, "args": ["--headless=new", "--no-sandbox", "--disable-gpu",
                                                "--disable-dev-shm-usage", "--window-size=1400,1600"]}
        wanted = {"capabilities": {"alwaysMatch": {"goog:chromeOptions": options,
                                                   "timeouts": {"script": 600_000}}}}
        self._wait_for_driver()
        self.session = "/session/" + self.call("POST", "/session", wanted)["sessionId"]

    def _wait_for_driver(self) -> None:
        for _ in range(100):
            try:
                if self.call("GET", "/status")["ready"]:
                    return
            except OSError:
                time.sleep(0.1)
        raise OSError("the driver doesn't answer")

    def call(self, method: str, path: str, body: Any = None) -> Any:
        data = None if body is None else json.dumps(body).encode()
        request = urllib.request.Request(self.root + path, data, {"Content-Type": "application/json"}, method=method)
        with urllib.request.urlopen(request, timeout=700) as answer:
            return json.load(answer)["value"]

    def close(self) -> None:
        self.call("DELETE", self.session)
        self.driver.terminate()
        self.driver.wait()

    def go(self, url: str) -> None:
        self.call("POST", f"{self.session}/url", {"url": "about:blank"})
        self.call("POST", f"{self.session}/url", {"url": url})
        self.script(TEXT_OF)

    def script(self, text: str, *arguments: Any) -> Any:
        return self.call("POST", f"{self.session}/execute/sync", {"script": text, "args": list(arguments)})

    def later(self, text: str, *arguments: Any) -> Any:
        return self.call("POST", f"{self.session}/execute/async", {"script": text, "args": list(arguments)})

    def devtools(self, command: str, **parameters: Any) -> Any:
        """A command of Chromium's own, such as one that makes the screen narrow."""
        return self.call("POST", f"{self.session}/goog/cdp/execute", {"cmd": command, "params": parameters})

    def find(self, selector: str) -> str:
        found = self.call("POST", f"{self.session}/element", {"using": "css selector", "value": selector})
        return str(found[ELEMENT])

    def click(self, selector: str) -> None:
        self.call("POST", f"{self.session}/element/{self.find(selector)}/click", {})

    def text(self, selector: str) -> str:
        return str(self.script("return document.querySelector(arguments[0]).textContent", selector))

    def type(self, selector: str, text: str) -> None:
        element = self.find(selector)
        self.call("POST", f"{self.session}/element/{element}/clear", {})
        self.call("POST", f"{self.session}/element/{element}/value", {"text": text})

    def press(self, *keys: str) -> None:
        """Keys that are pressed one after another; those of a word such as `Control+Enter` together."""
        actions = []
        for word in keys:
            codes = [KEYS.get(key, key) for key in word.split("+")]
            actions += [{"type": "keyDown", "value": code} for code in codes]
            actions += [{"type": "keyUp", "value": code} for code in reversed(codes)]
        self._act({"type": "key", "id": "keys", "actions": actions})

    def tap(self, selector: str, x: int = 0, y: int = 0) -> None:
        """A finger taps so far from the middle of an element."""
        self.script("document.querySelector(arguments[0]).scrollIntoView({block: 'center'})", selector)
        place = {"type": "pointerMove", "origin": {ELEMENT: self.find(selector)}, "x": x, "y": y}
        self._act({"type": "pointer", "id": "finger", "parameters": {"pointerType": "touch"},
                   "actions": [place, {"type": "pointerDown", "button": 0}, {"type": "pointerUp", "button": 0}]})

    def _act(self, source: Any) -> None:
        self.call("POST", f"{self.session}/actions", {"actions": [source]})

    def name(self, element: str) -> str:
        """The name by which a screen reader calls an element."""
        return str(self.call("GET", f"{self.session}/element/{element}/computedlabel"))

    def choose(self, name: str) -> None:
        self.script("const list = document.getElementById('design'); list.value = arguments[0];"
                    "list.dispatchEvent(new Event('change'));", name)

    def run(self, words: List[str], files: List[Tuple[str, str]]) -> Ran:
        return Ran(**self.later(RUN, words, files))


@unittest.skipUnless(PAGE.exists() and CHROMIUM and DRIVER, MISSING)
class InBrowser(unittest.TestCase):
    browser: Browser

    @classmethod
    def setUpClass(cls) -> None:
        cls.browser = Browser()
        cls.browser.go(PAGE.as_uri())

    @classmethod
    def tearDownClass(cls) -> None:
        cls.browser.close()
