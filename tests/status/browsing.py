"""A status page in a real browser: Chromium, headless, by Selenium; and the server that serves it."""
import contextlib
import json
import os
import shutil
import subprocess
import time
import urllib.request
from collections.abc import Callable, Iterator
from typing import Any

from issuer_host.facts.paths import HOME
from trials.bridges.private_broker import free_port

STATUS = os.path.join(HOME, "deploy/status")
WIDE, NARROW = (1280, 960), (390, 1400)
START_SECONDS = 60.0


def why_absent() -> str:
    """Returns why no browser can be tried here; nothing if one can."""
    with contextlib.suppress(ImportError):
        import aiohttp  # noqa: F401
        import jinja2  # noqa: F401
        import rich  # noqa: F401
        import selenium  # noqa: F401

        missing = [name for name in ("chromium", "chromedriver") if shutil.which(name) is None]
        return f"{missing[0]} isn't installed" if missing else ""
    return "python3-aiohttp, python3-jinja2, python3-rich or python3-selenium isn't installed"


class StatusPage:
    """The status server of some sources, and a browser that shows its page."""

    def __init__(self, folder: str, lines: "list[str]", shots: str = "") -> None:
        self.port = free_port()
        self.url = f"http://127.0.0.1:{self.port}/"
        self.shots = shots
        self.file = os.path.join(folder, f"sources-{self.port}")
        with open(self.file, "w", encoding="utf-8") as text:
            text.writelines(f"{line}\n" for line in lines)
        self.server = subprocess.Popen([STATUS, "--sources", self.file, "--port", str(self.port)])
        self.browser: Any = None

    def __enter__(self) -> "StatusPage":
        from selenium import webdriver
        from selenium.webdriver.chrome.options import Options
        from selenium.webdriver.chrome.service import Service

        options = Options()
        for word in ("--headless=new", "--no-sandbox", "--disable-dev-shm-usage", "--disable-gpu"):
            options.add_argument(word)
        options.set_capability("goog:loggingPrefs", {"performance": "ALL", "browser": "ALL"})
        self.browser = webdriver.Chrome(service=Service(shutil.which("chromedriver")), options=options)
        self.browser.set_window_size(*WIDE)
        end = time.monotonic() + START_SECONDS
        while time.monotonic() < end:
            with contextlib.suppress(OSError):
                urllib.request.urlopen(self.url, timeout=5).read()
                break
            time.sleep(0.1)
        self.browser.get(self.url)
        return self

    def __exit__(self, *_: object) -> None:
        if self.browser is not None:
            self.browser.quit()
        self.server.kill()
        self.server.wait()

    def text(self, selector: str) -> "list[str]":
        """Returns the texts of elements, as one look at the page has them."""
        script = "return [...document.querySelectorAll(arguments[0])].map(one => one.textContent.trim())"
        found: "list[str]" = self.browser.execute_script(script, selector)
        return found

    def sentence(self) -> str:
        return "".join(self.text("h1"))

    def todos(self) -> "list[str]":
        return self.text(".todo")

    def red(self) -> "list[str]":
        """Returns the first cells of the red rows, by the colour that the browser draws."""
        script = """
            const red = getComputedStyle(document.documentElement).getPropertyValue("--red").trim();
            const probe = document.createElement("i"); probe.style.color = red; document.body.append(probe);
            const wanted = getComputedStyle(probe).color; probe.remove();
            return [...document.querySelectorAll("tbody tr")]
                .filter(row => getComputedStyle(row.cells[0]).color === wanted).map(row => row.cells[0].textContent)"""
        found: "list[str]" = self.browser.execute_script(script)
        return found

    def seconds_until(self, holds: "Callable[[], object]", limit: float) -> float:
        """Returns after how many seconds something holds on the page; infinity if it doesn't in time."""
        began = time.monotonic()
        while time.monotonic() - began < limit:
            if holds():
                return time.monotonic() - began
            time.sleep(0.05)
        return float("inf")

    def shoot(self, name: str) -> None:
        """Keeps pictures of the page, wide and narrow, if they are wanted."""
        if not self.shots:
            return
        for word, size in (("wide", WIDE), ("narrow", NARROW)):
            self.browser.set_window_size(*size)
            time.sleep(0.3)
            self.browser.save_screenshot(os.path.join(self.shots, f"{name}-{word}.png"))
        self.browser.set_window_size(*WIDE)

    def scrolls_sideways(self) -> bool:
        """Whether a narrow window has to be scrolled sideways."""
        self.browser.set_window_size(*NARROW)
        time.sleep(0.3)
        script = "return document.documentElement.scrollWidth > document.documentElement.clientWidth"
        found = bool(self.browser.execute_script(script))
        self.browser.set_window_size(*WIDE)
        return found

    def addresses(self) -> "set[str]":
        """Returns the addresses that the browser asked since the last call."""
        found = set()
        for entry in self.browser.get_log("performance"):
            message = json.loads(entry["message"])["message"]
            if message["method"] == "Network.requestWillBeSent":
                found.add("/".join(message["params"]["request"]["url"].split("/")[:3]))
        return found

    def faults(self) -> "list[str]":
        """Returns what the browser complains of."""
        return [entry["message"] for entry in self.browser.get_log("browser") if "favicon" not in entry["message"]]


@contextlib.contextmanager
def page(folder: str, lines: "list[str]", shots: str = "") -> "Iterator[StatusPage]":
    with StatusPage(folder, lines, shots) as found:
        yield found
