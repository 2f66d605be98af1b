"""Pictures of what a display shows to unchanged libdrm programs, on Linux.

    from zirkoshe.display import Display
    from zirkoshe.pictures import write_picture

    display = Display(os.environ["DRM_SERVER_DISPLAY"])
    for screen in display.screens():
        print(screen.crtc, screen.width, screen.height)
    write_picture(display.screenshot(1), "output.png")

The control socket of a display has the path of its socket, and `.control`. Only root
and the user that started the display may connect to it.
"""

import json
import os
import socket
from typing import Any, Dict, List, NamedTuple, Tuple

from .client import PathLike
from .pictures import PIXEL, Picture

__all__ = ["CONTROL", "Display", "DisplayError", "Plane", "Screen"]

#: What follows the path of a display's socket in that of its control socket.
CONTROL = ".control"
#: How long an answer may take, in seconds.
SECONDS = 30.0
#: How much is read at once until the end of a line, in bytes.
MOST_LINE = 4096
#: A plane's source has 16 bits after the point.
ONE = 65_536


class DisplayError(Exception):
    """The display cannot be reached, or refuses a request."""


class Plane(NamedTuple):
    """A plane that a CRTC shows, with its place and its source in pixels."""

    plane: int
    #: "primary", "overlay" or "cursor"
    type: str
    framebuffer: int
    #: the client of the server that added the framebuffer, or 0 if it isn't known
    client: int
    #: four letters, as `drm_fourcc.h` has them, or "" if it isn't known
    format: str
    x: int
    y: int
    width: int
    height: int
    source: Tuple[float, float, float, float]


class Screen(NamedTuple):
    """What a CRTC shows, the lowest plane first.

    `refresh` is that of its mode, and `frames` how many page flips and commits it had.
    Without a mode it has the size of the preferred one.
    """

    crtc: int
    connector: int
    active: bool
    width: int
    height: int
    refresh: int
    frames: int
    planes: Tuple[Plane, ...]


def _plane_of(fields: Dict[str, Any]) -> Plane:
    letters = int(fields["format"]).to_bytes(4, "little").decode("ascii", "replace")
    source = tuple(part / ONE for part in fields["source"])
    named: Dict[str, Any] = {**fields, "format": letters.strip("\0"), "source": source}
    return Plane(**named)


def _screen_of(fields: Dict[str, Any]) -> Screen:
    named: Dict[str, Any] = {
        **fields,
        "planes": tuple(map(_plane_of, fields["planes"])),
    }
    return Screen(**named)


class Display:
    """A display, by the path of its socket, which DRM_SERVER_DISPLAY names."""

    def __init__(self, path: PathLike) -> None:
        self._path = os.fspath(path) + CONTROL

    def screens(self) -> List[Screen]:
        """Returns what each CRTC shows, by their ids."""
        answer, _ = self._ask("screens")
        return [_screen_of(fields) for fields in answer["screens"]]

    def screenshot(self, crtc: int, every: int = 1) -> Picture:
        """Returns a picture of what a CRTC shows: its planes in their order.

        With `every` it is smaller: it has each such pixel of each such row.
        Raises `DisplayError` if there is no such CRTC.
        """
        answer, pixels = self._ask(f"picture {crtc:d} {every:d}")
        return Picture(answer["width"], answer["height"], pixels)

    def plug(self, connector: int) -> None:
        """Connects a monitor to a connector.

        Raises `DisplayError` if there is no such connector.
        """
        self._ask(f"plug {connector:d}")

    def unplug(self, connector: int) -> None:
        """Disconnects the monitor of a connector: it has no modes. CRTCs stay lit.

        Raises `DisplayError` if there is no such connector.
        """
        self._ask(f"unplug {connector:d}")

    def _ask(self, line: str) -> Tuple[Dict[str, Any], bytes]:
        """Sends a line, and returns the answer and the pixels that follow it."""
        try:
            with socket.socket(socket.AF_UNIX) as control:
                control.settimeout(SECONDS)
                control.connect(self._path)
                control.sendall(line.encode() + b"\n")
                with control.makefile("rb", buffering=MOST_LINE) as answers:
                    answer = _answer_of(answers.readline())
                    size = answer.get("width", 0) * answer.get("height", 0)
                    return answer, answers.read(PIXEL * size)
        except OSError as error:
            reason = error.strerror or error
            raise DisplayError(
                f"can't ask the display {self._path}: {reason}"
            ) from error


def _answer_of(text: bytes) -> Dict[str, Any]:
    """Returns an answer, or raises an error with the reason that it has."""
    if not text:
        raise DisplayError("the display sent no answer")
    answer: Dict[str, Any] = json.loads(text)
    if "error" in answer:
        raise DisplayError(f"{answer['error']}: {os.strerror(answer['errno'])}")
    return answer
