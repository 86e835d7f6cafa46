"""What the page's tests share: pages as a user makes them, and a browser that opens them."""

import base64
import json
import os
import subprocess
import sys
import time
from collections.abc import Callable, Iterator
from pathlib import Path
from typing import Any

import numpy as np
import pytest
from selenium import webdriver
from selenium.webdriver.chrome.service import Service
from selenium.webdriver.common.action_chains import ActionChains
from selenium.webdriver.common.keys import Keys

from mnemathor import folder as folders
from mnemathor import page

ROOT = Path(__file__).resolve().parents[2]
DATA = ROOT / "ground" / "data"
BUILT_IN = ROOT / "crates" / "mnemathor" / "data"

# Drops files onto the page, as a person does from a file manager.
DROP = """
const transfer = new DataTransfer();
const bytes = (text) => Uint8Array.from(atob(text), (letter) => letter.charCodeAt(0));
for (const [name, text] of arguments[0]) transfer.items.add(new File([bytes(text)], name));
const how = { dataTransfer: transfer, bubbles: true, cancelable: true };
for (const name of ["dragover", "drop"]) document.body.dispatchEvent(new DragEvent(name, how));
"""


def mnemathor(*words: object) -> str:
    """Runs ./mnemathor as a user would; hands back what it printed."""
    environment = {**os.environ, "MNEMATHOR_PYTHON": sys.executable}
    done = subprocess.run(
        [ROOT / "mnemathor", *map(str, words)],
        env=environment,
        capture_output=True,
        text=True,
        check=False,
    )
    assert done.returncode == 0, done.stderr
    return done.stdout


class Browser:
    """A page in the browser, with what a person does to it."""

    def __init__(self, driver: webdriver.Chrome, saved: Path) -> None:
        self.driver, self.saved = driver, saved

    def open(self, page: Path) -> None:
        """Opens a page from disk and waits until it is ready."""
        self.driver.get(page.as_uri())
        self.wait(lambda: self.run("return document.documentElement.dataset.ready") == "yes")
        self.settle()

    def run(self, script: str, *arguments: Any) -> Any:
        """Runs a script in the page."""
        return self.driver.execute_script(script, *arguments)

    def settle(self) -> None:
        """Waits until the page has drawn what was asked for."""
        self.driver.execute_async_script(
            "const done = arguments[0]; requestAnimationFrame(() => requestAnimationFrame(() =>"
            " done()))"
        )

    def wait(self, true: Callable[[], Any], seconds: float = 20) -> Any:
        """Waits until something is so."""
        until = time.monotonic() + seconds
        while not (answer := true()):
            assert time.monotonic() < until, "waited in vain"
            time.sleep(0.05)
        return answer

    def text(self, name: str) -> str:
        """What a part of the page says."""
        return self.run("return document.getElementById(arguments[0]).textContent", name)

    def click(self, name: str) -> None:
        """Clicks on a button."""
        self.driver.find_element("id", name).click()
        self.settle()

    def set(self, name: str, value: object) -> None:
        """Moves a slider or fills a field, as the browser tells the page of it."""
        self.run(
            (
                "const e = document.getElementById(arguments[0]); e.value = arguments[1];"
                " e.dispatchEvent(new Event('input', { bubbles: true }));e.dispatchEvent(new"
                " Event('change', { bubbles: true }))"
            ),
            name,
            str(value),
        )
        self.settle()

    def drop(self, *files: Path | tuple[str, bytes]) -> list[str]:
        """Drops files; hands back what the page tells about them."""
        named = [
            each if isinstance(each, tuple) else (each.name, each.read_bytes()) for each in files
        ]
        self.run("document.getElementById('notices').replaceChildren()")
        self.run(DROP, [[name, base64.b64encode(contents).decode()] for name, contents in named])
        time.sleep(0.4)
        self.settle()
        return self.notes()

    def notes(self) -> list[str]:
        """What the page tells."""
        return self.run(
            "return [...document.querySelectorAll('#notices span')].map((note) => note.textContent)"
        )

    def choose(self, label: str) -> None:
        """Presses a button of a note."""
        self.run(
            (
                "[...document.querySelectorAll('#notices button')]"
                ".find((button) => button.textContent === arguments[0]).click()"
            ),
            label,
        )
        self.settle()

    def press(self, *keys: str) -> None:
        """Presses keys, wherever the focus is."""
        for key in keys:
            ActionChains(self.driver).send_keys(key).perform()
        self.settle()

    def focus(self, name: str) -> None:
        """Puts the focus on a part."""
        self.run("document.getElementById(arguments[0]).focus()", name)

    def click_pixel(self, row: float, column: float, height: int, width: int) -> None:
        """Clicks on a pixel of the frame with the mouse, where the whole frame is shown."""
        self.click("fit")
        canvas = self.driver.find_element("id", "frame")
        wide, tall = self.run(
            "const c = document.getElementById('frame'); return [c.clientWidth, c.clientHeight]"
        )
        scale = min(wide / width, tall / height)
        x, y = (column + 0.5 - width / 2) * scale, (row + 0.5 - height / 2) * scale
        ActionChains(self.driver).move_to_element_with_offset(
            canvas, round(x), round(y)
        ).click().perform()
        self.settle()

    def stars(self) -> list[dict[str, str]]:
        """The rows of the table of stars."""
        return self.run(
            "const head = [...document.querySelectorAll('#stars-some thead th')].filter((cell) =>"
            " !cell.hidden).map((cell) => cell.textContent);return"
            " [...document.querySelectorAll('#stars tr')].map((row) =>"
            " Object.fromEntries([...row.children].map((cell, k) => [head[k], cell.textContent])))"
        )

    def download(self, button: str, name: str) -> bytes:
        """Presses a button that saves, and reads what was saved."""
        path = self.saved / name
        path.unlink(missing_ok=True)
        self.click(button)
        self.wait(path.exists)
        self.wait(lambda: path.stat().st_size)
        return path.read_bytes()

    def shown(self, stem: str) -> dict[str, Any]:
        """What the page shows, as it saves it."""
        return json.loads(self.download("save-json", f"{stem}.json"))

    def processor_time(self) -> float:
        """The milliseconds of processor that the browser has used, with all its processes."""
        found = {}
        for path in Path("/proc").glob("[0-9]*/stat"):
            try:
                fields = path.read_text().rpartition(")")[2].split()
            except OSError:
                continue
            found[int(path.parent.name)] = int(fields[1]), int(fields[11]) + int(fields[12])
        family, size = {self.driver.service.process.pid}, 0
        while len(family) > size:
            size = len(family)
            family |= {pid for pid, (parent, _) in found.items() if parent in family}
        ticks = sum(found[pid][1] for pid in family if pid in found)
        return 1000 * ticks / os.sysconf("SC_CLK_TCK")

    def faults(self) -> list[str]:
        """What the console tells of faults, since it was last asked."""
        return [
            each["message"] for each in self.driver.get_log("browser") if each["level"] == "SEVERE"
        ]

    def requests(self) -> list[str]:
        """The addresses that the page asked for, since that was last asked."""
        events = [
            json.loads(each["message"])["message"] for each in self.driver.get_log("performance")
        ]
        return [
            event["params"]["request"]["url"]
            for event in events
            if event["method"] == "Network.requestWillBeSent"
        ]


@pytest.fixture(scope="session")
def driver(tmp_path_factory: pytest.TempPathFactory) -> Iterator[Browser]:
    """Headless Chromium."""
    options = webdriver.ChromeOptions()
    for word in (
        "--headless=new",
        "--no-sandbox",
        "--window-size=1440,1000",
        "--disable-gpu",
        "--disable-dev-shm-usage",
    ):
        options.add_argument(word)
    options.binary_location = "/usr/bin/chromium"
    options.set_capability("goog:loggingPrefs", {"browser": "ALL", "performance": "ALL"})
    saved = tmp_path_factory.mktemp("saved")
    started = webdriver.Chrome(service=Service("/usr/bin/chromedriver"), options=options)
    started.execute_cdp_cmd(
        "Browser.setDownloadBehavior", {"behavior": "allow", "downloadPath": str(saved)}
    )
    yield Browser(started, saved)
    started.quit()


@pytest.fixture
def browser(driver: Browser) -> Iterator[Browser]:
    """The browser; no test leaves a fault in its console or a request to any address."""
    driver.driver.set_window_size(1440, 1000)
    driver.faults()
    driver.requests()
    yield driver
    assert driver.faults() == []
    assert [
        url for url in driver.requests() if not url.startswith(("file:", "data:", "blob:"))
    ] == []


@pytest.fixture(scope="session")
def orion(tmp_path_factory: pytest.TempPathFactory) -> Path:
    """README's evening: a folder with the Orion frame."""
    night = tmp_path_factory.mktemp("evening") / "night"
    mnemathor("frame", DATA / "example.fits", night)
    mnemathor("catalogue", DATA / "bright-stars.csv", night, "--brightest", 512, "--apart", 1)
    mnemathor("settings", DATA / "camera.toml", night)
    return night


@pytest.fixture(scope="session")
def pages(tmp_path_factory: pytest.TempPathFactory, orion: Path) -> dict[str, Path]:
    """The page alone, of the built-in case, of the Orion frame, and with all recorded calls."""
    room = tmp_path_factory.mktemp("pages")
    made = {name: room / f"{name}.html" for name in ("alone", "built_in", "orion", "whole")}
    mnemathor("page", BUILT_IN, made["built_in"])
    mnemathor("page", orion, made["orion"])
    made["alone"].write_bytes(page.page(None))
    made["whole"].write_bytes(page.page(None, whole=True))
    return made


@pytest.fixture(scope="session")
def evening(orion: Path) -> tuple[folders.Settings, np.ndarray, np.ndarray]:
    """Settings, samples and catalogue of the Orion frame."""
    settings = folders.read_settings(orion)
    return settings, folders.read_frame(orion, settings), folders.read_catalogue(orion)


__all__ = ["BUILT_IN", "DATA", "ROOT", "Browser", "Keys", "mnemathor"]
