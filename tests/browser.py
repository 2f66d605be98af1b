"""A browser without a screen, for tests of pages: Chromium, by the DevTools protocol over two pipes."""
from __future__ import annotations

import base64
import contextlib
import fcntl
import json
import os
import pathlib
import select
import shutil
import subprocess
import sys
import time
from typing import Any, Callable, Dict, Iterator, List, Optional

from support import SECONDS, Skipped, expect

NAMES = ("chromium", "chromium-browser", "google-chrome")
# the browser reads from descriptor 3 and writes to 4
START = (
    "import os, sys; os.dup2(int(sys.argv[1]), 3); os.dup2(int(sys.argv[2]), 4); os.execv(sys.argv[3], sys.argv[3:])"
)
KEYS = {
    "Escape": 27,
    "Enter": 13,
    "Tab": 9,
    "PageUp": 33,
    "PageDown": 34,
    "End": 35,
    "Home": 36,
    "ArrowUp": 38,
    "ArrowDown": 40,
}


class Browser:
    """A page of a browser. Each method waits for the browser's answer."""

    def __init__(self, process: subprocess.Popen[bytes], into: int, out: int) -> None:
        self._process = process
        self._into = into
        self._out = out
        self._left = b""
        self._number = 0
        self._session: Optional[str] = None
        self.problems: List[str] = []  # what the page's console says is wrong

    def open(self, url: str) -> None:
        """Opens the page at this address."""
        target = self.ask("Target.createTarget", url="about:blank")["targetId"]
        self._session = self.ask("Target.attachToTarget", targetId=target, flatten=True)["sessionId"]
        for domain in ("Page", "Runtime", "Log", "Accessibility"):
            self.ask(f"{domain}.enable")
        self.ask("Page.navigate", url=url)
        self.wait("document.readyState === 'complete'")

    def close(self) -> None:
        """Ends the browser, with all of its processes."""
        self._session = None
        self.ask("Browser.close")
        self._process.wait(SECONDS)

    def ask(self, method: str, **parameters: Any) -> Dict[str, Any]:
        """Makes a call of the protocol, and returns its result."""
        self._number += 1
        message: Dict[str, Any] = {"id": self._number, "method": method, "params": parameters}
        if self._session is not None:
            message["sessionId"] = self._session
        os.write(self._into, json.dumps(message).encode() + b"\0")
        until = time.monotonic() + SECONDS
        while True:
            answer = self._next(until)
            if answer.get("id") == self._number:
                expect(f"the error of {method}", answer.get("error"), None)
                return dict(answer["result"])
            self._notice(answer)

    def _next(self, until: float) -> Dict[str, Any]:
        """The next message."""
        while b"\0" not in self._left:
            ready, _, _ = select.select([self._out], [], [], max(0, until - time.monotonic()))
            data = os.read(self._out, 1 << 20) if ready else b""
            expect("whether the browser answers", bool(data), True)
            self._left += data
        line, _, self._left = self._left.partition(b"\0")
        return dict(json.loads(line))

    def _notice(self, event: Dict[str, Any]) -> None:
        parameters = event.get("params", {})
        if event.get("method") == "Runtime.exceptionThrown":
            self.problems.append(str(parameters["exceptionDetails"]))
        if event.get("method") == "Log.entryAdded" and parameters["entry"]["level"] in ("error", "warning"):
            self.problems.append(parameters["entry"]["text"])

    def value(self, expression: str) -> Any:
        """The value of an expression of the page."""
        result = self.ask("Runtime.evaluate", expression=expression, returnByValue=True, awaitPromise=True)
        expect(f"what {expression} throws", result.get("exceptionDetails"), None)
        return result["result"].get("value")

    def wait(self, expression: str) -> None:
        """Waits until an expression of the page is true."""
        until = time.monotonic() + 2 * SECONDS
        while not self.value(expression):
            expect(f"{expression} in time", time.monotonic() < until, True)
            time.sleep(0.02)

    def press(self, *keys: str) -> None:
        """Presses keys one after the other."""
        for key in keys:
            code = KEYS.get(key, ord(key[0].upper()))
            given = {"key": key, "windowsVirtualKeyCode": code, **({"text": key} if len(key) == 1 else {})}
            self.ask("Input.dispatchKeyEvent", type="keyDown", **given)
            self.ask("Input.dispatchKeyEvent", type="keyUp", **given)

    def look(self, width: int, height: int, scheme: str = "light") -> None:
        """Sets the size and the colour scheme of the window."""
        self.ask("Emulation.setDeviceMetricsOverride", width=width, height=height, deviceScaleFactor=1, mobile=False)
        features = [{"name": "prefers-color-scheme", "value": scheme}]
        self.ask("Emulation.setEmulatedMedia", features=features)

    def picture(self, path: pathlib.Path) -> None:
        """Writes a picture of the window."""
        path.write_bytes(base64.b64decode(self.ask("Page.captureScreenshot", format="png")["data"]))

    def tree(self) -> List[Dict[str, Any]]:
        """The nodes that a screen reader finds."""
        nodes = self.ask("Accessibility.getFullAXTree")["nodes"]
        return [node for node in nodes if not node.get("ignored")]


def find_browser() -> str:
    """The browser's program; skips the test where there is none."""
    for name in NAMES:
        found = shutil.which(name)
        if found is not None:
            return found
    raise Skipped("there is no browser that runs without a screen")


@contextlib.contextmanager
def browsing(folder: pathlib.Path, url: str) -> Iterator[Browser]:
    """A browser that shows this address, which is ended at the end."""
    words = [
        find_browser(),
        "--headless=new",
        "--no-sandbox",
        "--disable-gpu",
        "--remote-debugging-pipe",
        f"--user-data-dir={folder / 'profile'}",
        "about:blank",
    ]
    with contextlib.ExitStack() as held:
        pipe: Callable[[], List[int]] = lambda: [high(held, end) for end in os.pipe()]
        (read, into), (out, write) = pipe(), pipe()
        command = [sys.executable, "-c", START, str(read), str(write), *words]
        process = subprocess.Popen(
            command,
            stdin=subprocess.DEVNULL,
            stdout=subprocess.DEVNULL,
            stderr=subprocess.DEVNULL,
            pass_fds=(read, write),
            start_new_session=True,
        )
        try:
            browser = Browser(process, into, out)
            browser.open(url)
            yield browser
        finally:
            with contextlib.suppress(AssertionError, OSError):
                browser.close()
            process.kill()
            process.wait()


def high(held: contextlib.ExitStack, end: int) -> int:
    """The end of a pipe at a descriptor that the browser does not use."""
    moved = fcntl.fcntl(end, fcntl.F_DUPFD_CLOEXEC, 10)
    os.close(end)
    held.callback(os.close, moved)
    return moved
