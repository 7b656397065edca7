"""Drives Chromium without a window, by its debugging protocol over two pipes."""
from __future__ import annotations

import contextlib
import json
import os
import subprocess
import time
from collections.abc import Iterator
from pathlib import Path
from typing import IO, Any

CHROMIUM = "chromium"
# How many seconds a page has to come to a state.
PATIENCE = 120
READ, WRITE = 3, 4


class Navigated(Exception):
    """Another page came while an expression was evaluated."""


class Page:
    """A page of a browser, as a person uses it."""

    def __init__(self, commands: IO[bytes], answers: IO[bytes]) -> None:
        self.commands, self.answers, self.number = commands, answers, 0
        self.session: dict[str, str] = {}

    def attach(self) -> None:
        """Opens an empty page in the browser."""
        target = self.call("Target.createTarget", url="about:blank")["targetId"]
        self.session = {"sessionId": self.call("Target.attachToTarget", targetId=target, flatten=True)["sessionId"]}
        self.call("Emulation.setDeviceMetricsOverride", width=1200, height=760, deviceScaleFactor=1, mobile=False)

    def call(self, method: str, **parameters: object) -> Any:
        """Sends a command, and returns its result."""
        self.number += 1
        request = {"id": self.number, "method": method, "params": parameters, **self.session}
        self.commands.write(json.dumps(request).encode() + b"\0")
        self.commands.flush()
        while True:
            answer = json.loads(self.read())
            if answer.get("id") == self.number:
                if "navigated" in answer.get("error", {}).get("message", ""):
                    raise Navigated
                assert "result" in answer, answer
                return answer["result"]

    def read(self) -> bytes:
        """Returns the next message."""
        message = bytearray()
        while (byte := self.answers.read(1)) != b"\0":
            assert byte, "the browser ended"
            message += byte
        return bytes(message)

    def value(self, script: str) -> Any:
        """Returns the value of an expression."""
        return self.call("Runtime.evaluate", expression=script, returnByValue=True)["result"].get("value")

    def wait(self, script: str) -> Any:
        """Waits until an expression is true, and returns its value. While another page comes, it has none."""
        end = time.monotonic() + PATIENCE
        while True:
            with contextlib.suppress(Navigated):
                if found := self.value(script):
                    return found
                assert time.monotonic() < end, f"{script} isn't true: {self.value('document.body.innerText')[:400]}"
            time.sleep(0.05)

    def open(self, address: str) -> None:
        """Opens a page, and waits until it is whole."""
        self.call("Page.navigate", url=address)
        self.wait(f"location.href === {json.dumps(address)} && document.readyState === 'complete'")

    def click(self, element: str) -> None:
        """Clicks into the middle of an element, an expression."""
        self.value(f"{element}.scrollIntoView({{block: 'center', behavior: 'instant'}})")
        x, y = self.value(
            (
                f"(() => {{ const at = {element}.getBoundingClientRect(); return [at.x + at.width / 2, "
                f"at.y + at.height / 2]; }})()"
            )
        )
        for kind in ("mousePressed", "mouseReleased"):
            self.call("Input.dispatchMouseEvent", type=kind, x=x, y=y, button="left", clickCount=1)

    def type(self, text: str) -> None:
        """Types a text into what has the focus."""
        self.call("Input.insertText", text=text)


@contextlib.contextmanager
def browsing(profile: Path) -> Iterator[Page]:
    """Runs Chromium with a new profile in a folder, and gives a page of it."""
    theirs_in, ours_out = os.pipe()
    ours_in, theirs_out = os.pipe()

    def take_pipes() -> None:
        """Moves the pipes to the numbers where the browser looks for them."""
        first, second = os.dup(theirs_in), os.dup(theirs_out)
        os.dup2(first, READ)
        os.dup2(second, WRITE)

    words = [
        CHROMIUM,
        "--headless",
        "--no-sandbox",
        "--disable-gpu",
        "--hide-scrollbars",
        "--no-first-run",
        f"--user-data-dir={profile}",
        "--remote-debugging-pipe",
    ]
    how: dict[str, Any] = {"stdin": subprocess.DEVNULL, "stdout": subprocess.DEVNULL, "stderr": subprocess.DEVNULL}
    with subprocess.Popen(words, preexec_fn=take_pipes, pass_fds=(READ, WRITE), **how) as browser, os.fdopen(
        ours_out, "wb"
    ) as commands, os.fdopen(ours_in, "rb") as answers:
        os.close(theirs_in)
        os.close(theirs_out)
        try:
            page = Page(commands, answers)
            page.attach()
            yield page
        finally:
            browser.terminate()
