"""Headless Firefox, driven by the protocol that it speaks itself: no driver is needed.

A message is its length, a colon and a JSON list: [0, number, command, words], answered by
[1, number, error, result].
"""

import json
import socket
import subprocess
import time
from pathlib import Path
from typing import Any

PATIENCE = 90.0


class Firefox:
    """A Firefox with a profile of its own."""

    def __init__(self, profile: Path) -> None:
        port = _free_port()
        profile.mkdir()
        (profile / "user.js").write_text(f'user_pref("marionette.port", {port});\n')
        words = ["firefox-esr", "--headless", "--no-remote", "--marionette", "--profile", profile]
        self._process = subprocess.Popen(
            [str(word) for word in words], stdout=subprocess.DEVNULL, stderr=subprocess.DEVNULL
        )
        self._socket = self._connected(port)
        self._number = 0
        self._message()
        self.command("WebDriver:NewSession", {})

    def command(self, name: str, words: dict[str, Any]) -> Any:
        """Makes a command and hands back its result."""
        self._number += 1
        text = json.dumps([0, self._number, name, words])
        self._socket.sendall(f"{len(text.encode())}:{text}".encode())
        _, number, error, result = self._message()
        assert number == self._number and error is None, error
        return result

    def run(self, script: str, *arguments: Any) -> Any:
        """Runs a script in the page."""
        words = {"script": script, "args": list(arguments), "sandbox": None}
        return self.command("WebDriver:ExecuteScript", words)["value"]

    def open(self, page: Path) -> None:
        """Opens a page from disk and waits until it is ready."""
        self.command("WebDriver:Navigate", {"url": page.as_uri()})
        self.wait("return document.documentElement.dataset.ready === 'yes'")

    def wait(self, script: str, seconds: float = PATIENCE) -> Any:
        """Waits until a script's answer is true."""
        until = time.monotonic() + seconds
        while not (answer := self.run(script)):
            assert time.monotonic() < until, f"waited in vain for {script}"
            time.sleep(0.1)
        return answer

    def close(self) -> None:
        """Ends the browser that was started here."""
        self._socket.close()
        self._process.terminate()
        self._process.wait(20)

    def _connected(self, port: int) -> socket.socket:
        """The connection, as soon as the browser answers."""
        until = time.monotonic() + PATIENCE
        while True:
            try:
                return socket.create_connection(("127.0.0.1", port), PATIENCE)
            except OSError:
                assert time.monotonic() < until and self._process.poll() is None, "no Firefox"
                time.sleep(0.2)

    def _message(self) -> Any:
        """The next message."""
        length = b""
        while (letter := self._socket.recv(1)) != b":":
            assert letter, "Firefox ended"
            length += letter
        text = b""
        while len(text) < int(length):
            text += self._socket.recv(int(length) - len(text))
        return json.loads(text)


def _free_port() -> int:
    """A port that nobody listens at."""
    with socket.socket() as tried:
        tried.bind(("127.0.0.1", 0))
        return int(tried.getsockname()[1])
