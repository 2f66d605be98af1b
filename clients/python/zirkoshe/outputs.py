"""What a live page shows of the outputs of a display: small pictures, and text.

A picture is taken only if a browser asks, and at most ten times a second for all
browsers together. A browser asks while its page is seen.
"""

import threading
import time
from typing import Any, Dict, List, NamedTuple

from .display import Display, DisplayError, Plane, Screen
from .pictures import Picture, png_of

__all__ = ["OUTPUTS", "Outputs"]

#: The parts of a page that show outputs.
OUTPUTS = ("outputs.css", "outputs.js")
#: The least time between two pictures, and in which frames are counted, in seconds.
PAUSE, COUNTING = 0.1, 1.0
#: How wide a picture is at most, in pixels.
MOST_WIDTH = 640


class Shown(NamedTuple):
    """The last picture of a CRTC, and how many others there were before it."""

    picture: Picture
    png: bytes
    number: int


class Counted(NamedTuple):
    """How many frames a CRTC had at a time, and how many it had a second."""

    time: float
    frames: int
    rate: float


def _plane_text(plane: Plane) -> str:
    parts = [f"{plane.type} plane {plane.plane}: framebuffer {plane.framebuffer}"]
    if plane.client:
        parts.append(f"of client {plane.client}")
    parts.append(f"{plane.width}x{plane.height} at {plane.x}, {plane.y}")
    return ", ".join(
        [" ".join(parts[:-1]), parts[-1], plane.format or "unknown format"]
    )


def _summary(screen: Screen) -> str:
    """Returns what an output shows, for a reader without the picture."""
    name = f"CRTC {screen.crtc}"
    if not screen.active:
        return f"{name} is dark"
    on = f" on connector {screen.connector}" if screen.connector else ""
    mode = f"{screen.width}x{screen.height} at {screen.refresh} Hz"
    if not screen.planes:
        return f"{name} shows no plane{on}, {mode}"
    lowest = screen.planes[0]
    client = f"client {lowest.client}" if lowest.client else "a client of the server"
    shown = f"framebuffer {lowest.framebuffer} of {client}"
    return f"{name} shows {shown}{on}, {mode}"


class Outputs:
    """The outputs of a display. Threads may share it."""

    def __init__(self, display: Display) -> None:
        self._display = display
        self._turn = threading.Lock()
        self._time = -PAUSE
        self._screens: List[Dict[str, Any]] = []
        self._shown: Dict[int, Shown] = {}
        self._counted: Dict[int, Counted] = {}

    def listed(self) -> Dict[str, Any]:
        """Returns what each output shows, and the number of its last picture.

        Without a display, it returns why.
        """
        with self._turn:
            if time.monotonic() - self._time >= PAUSE:
                try:
                    self._look()
                except DisplayError as error:
                    return {"problem": str(error), "outputs": []}
                self._time = time.monotonic()
            return {"outputs": self._screens}

    def png(self, crtc: int) -> bytes:
        """Returns the last picture of an output as a PNG file, or nothing."""
        with self._turn:
            shown = self._shown.get(crtc)
        return shown.png if shown is not None else b""

    def _look(self) -> None:
        self._screens = [self._output(screen) for screen in self._display.screens()]

    def _output(self, screen: Screen) -> Dict[str, Any]:
        """Returns what a page shows of an output, of which this takes a picture."""
        planes = [_plane_text(plane) for plane in screen.planes]
        output = {"crtc": screen.crtc, "text": _summary(screen), "planes": planes}
        if not screen.active:
            return {**output, "picture": 0, "rate": ""}
        every = -(-screen.width // MOST_WIDTH)
        shown = self._keep(screen.crtc, self._display.screenshot(screen.crtc, every))
        rate = f"{self._rate(screen):.0f} frames a second"
        size = {"width": shown.picture.width, "height": shown.picture.height}
        return {**output, **size, "picture": shown.number, "rate": rate}

    def _keep(self, crtc: int, picture: Picture) -> Shown:
        last = self._shown.get(crtc)
        if last is None or last.picture != picture:
            number = 1 if last is None else last.number + 1
            self._shown[crtc] = Shown(picture, png_of(picture), number)
        return self._shown[crtc]

    def _rate(self, screen: Screen) -> float:
        """Returns how many frames the output had a second, of the last second."""
        now = time.monotonic()
        last = self._counted.get(screen.crtc, Counted(now, screen.frames, 0.0))
        passed = now - last.time
        if passed >= COUNTING:
            rate = (screen.frames - last.frames) / passed
            last = Counted(now, screen.frames, rate)
        self._counted[screen.crtc] = last
        return last.rate
