"""Pictures of what a display shows, taken again and again while a program runs.

    with Recording(display, "pictures", every=1.0):
        ...

A file is `crtc-N-NUMBER.png`, with the number of the picture from 1. If a CRTC is dark,
or shows the same as in its last picture, there is no further file.
"""

import os
import threading
from types import TracebackType
from typing import Dict, Optional, Type

from .client import PathLike
from .display import Display, DisplayError
from .pictures import Picture, write_picture

__all__ = ["Recording"]


class Recording:
    """Takes pictures into a folder, which it creates, until the end of `with`.

    `reason` is what ended it before, or None. Raises `OSError` if the folder can't be
    created or written.
    """

    def __init__(self, display: Display, folder: PathLike, every: float) -> None:
        self.reason: Optional[str] = None
        self._display = display
        self._folder = os.fspath(folder)
        self._every = every
        self._has_ended = threading.Event()
        self._number = 0
        self._last: Dict[int, Picture] = {}
        self._thread = threading.Thread(target=self._run, daemon=True)

    def __enter__(self) -> "Recording":
        os.makedirs(self._folder, exist_ok=True)
        if not os.access(self._folder, os.W_OK | os.X_OK):
            raise PermissionError(13, os.strerror(13), self._folder)
        self._thread.start()
        return self

    def __exit__(
        self,
        kind: Optional[Type[BaseException]],
        error: Optional[BaseException],
        trace: Optional[TracebackType],
    ) -> None:
        self._has_ended.set()
        self._thread.join()

    def _run(self) -> None:
        try:
            while not self._has_ended.wait(self._every):
                self._take()
        except DisplayError as error:
            self.reason = str(error)
        except OSError as error:
            self.reason = f"can't write to {self._folder}: {error.strerror}"

    def _take(self) -> None:
        """Takes a picture of each CRTC that isn't dark."""
        for screen in self._display.screens():
            if screen.active:
                self._keep(screen.crtc, self._display.screenshot(screen.crtc))

    def _keep(self, crtc: int, picture: Picture) -> None:
        if self._last.get(crtc) == picture:
            return
        self._last[crtc] = picture
        self._number += 1
        name = f"crtc-{crtc}-{self._number:04}.png"
        write_picture(picture, os.path.join(self._folder, name))
