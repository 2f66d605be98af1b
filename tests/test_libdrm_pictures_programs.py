#!/usr/bin/env python3
"""Tests of pictures of what installed programs show over clients/libdrm.

Each picture is compared with what is known of the program's. The last line is `N passed, M failed`. If there is no C compiler, no
libdrm with its headers, or no such program, a test is skipped with a line. Standard library only.
"""
import contextlib
import subprocess
import sys
import threading

sys.dont_write_bytecode = True
from support import FolderCase, ended_in_time, expect, run_tests, want_program  # noqa: E402

from zirkoshe.display import Display, DisplayError  # noqa: E402

from libdrm_support import environment, served, wait_until  # noqa: E402
from test_libdrm_pictures import CONNECTOR, TOPOLOGY  # noqa: E402
from test_libdrm_shows import compositor  # noqa: E402

BACKGROUND = (0x33, 0x66, 0x99)
# how many frames are shown before a program's picture is taken
FRAMES = 3
SWAY = """\
xwayland disable
output * bg #336699 solid_color
"""


def bars(width, height):
    """modetest's pattern, which is that of SMPTE: red, green and blue of each pixel."""
    grey, yellow, cyan, green = (192, 192, 192), (192, 192, 0), (0, 192, 192), (0, 192, 0)
    magenta, red, blue, black = (192, 0, 192), (192, 0, 0), (0, 0, 192), (19, 19, 19)
    top = (grey, yellow, cyan, green, magenta, red, blue)
    middle = (blue, black, magenta, black, cyan, black, grey)
    low = ((0, 33, 76), (255, 255, 255), (50, 0, 106), black, (9, 9, 9), black, (29, 29, 29), black)

    def lowest(x):
        if x < width * 5 // 7:
            return low[x * 4 // (width * 5 // 7)]
        if x < width * 6 // 7:
            return low[(x - width * 5 // 7) * 3 // (width // 7) + 4]
        return low[7]

    rows = (
        [top[x * 7 // width] for x in range(width)],
        [middle[x * 7 // width] for x in range(width)],
        [lowest(x) for x in range(width)],
    )
    bands = ((0, height * 6 // 9), (height * 6 // 9, height * 7 // 9), (height * 7 // 9, height))
    parts = [
        bytes(value for colour in row for value in colour) * (end - begin) for row, (begin, end) in zip(rows, bands)
    ]
    return b"".join(parts)


def frames_of(display, crtc):
    """How many frames a CRTC had, or -1 if it is dark or there is no display yet."""
    try:
        screen = next(screen for screen in display.screens() if screen.crtc == crtc)
    except DisplayError:
        return -1
    return screen.frames if screen.active and screen.planes else -1


@contextlib.contextmanager
def running(folder, *command):
    """The display that a program shows something on, until it is ended."""
    want_program(command[0])
    pipes = {"stdin": subprocess.PIPE, "stdout": subprocess.DEVNULL, "stderr": subprocess.DEVNULL}
    with served(folder, more=TOPOLOGY):
        with subprocess.Popen(command, env=environment(folder), **pipes) as program, ended_in_time(program):
            yield Display(folder / "display")
            program.terminate()


class ProgramPicturesTests(FolderCase):
    """Tests of pictures of what installed programs show."""

    def test_modetest_shows_its_pattern(self):
        with running(self.folder, "modetest", "-M", "zirkoshe", "-s", f"{CONNECTOR}@1:1024x768") as display:
            wait_until(lambda: frames_of(display, 1) >= 0)
            picture = display.screenshot(1)
        expect("size", (picture.width, picture.height), (1024, 768))
        wanted = bars(1024, 768)
        different = sum(1 for at in range(0, len(wanted), 3) if picture.pixels[at : at + 3] != wanted[at : at + 3])
        expect("pixels that differ", different, 0)

    def test_kmscube_shows_its_cube(self):
        """On a grey background."""
        with running(self.folder, "kmscube") as display:
            wait_until(lambda: frames_of(display, 1) >= FRAMES)
            picture = display.screenshot(1)
        corners = [picture.pixel(x, y) for x in (0, picture.width - 1) for y in (0, picture.height - 1)]
        expect("corners that aren't grey", [it for it in corners if not all(126 <= part <= 129 for part in it)], [])
        centre = [picture.pixel(picture.width // 2 + at, picture.height // 2) for at in range(-50, 50)]
        expect("whether the centre has other colours", len(set(centre)) > 10, True)

    def test_sway_shows_its_background(self):
        """On both outputs. Without a pointer it shows no cursor."""
        for name in ("sway", "swaymsg", "swaybg"):
            want_program(name)
        display = Display(self.folder / "display")
        shown = []

        def is_shown():
            shown[:] = [display.screenshot(crtc) for crtc in (1, 2) if frames_of(display, crtc) >= FRAMES]
            return len(shown) == 2 and all(picture.pixel(0, 0) == BACKGROUND for picture in shown)

        def look():
            with contextlib.suppress(AssertionError):
                wait_until(is_shown)
            (own / "seen").write_text("")

        with compositor(self.folder, TOPOLOGY) as (own, ran_by):
            (own / "config").write_text(SWAY + "exec sh -c 'until [ -e seen ]; do sleep 0.1; done; swaymsg exit'\n")
            looking = threading.Thread(target=look)
            looking.start()
            ran = ran_by("sway", "-c", own / "config")
            looking.join()
        expect("status of sway", ran.returncode, 0)
        expect("outputs", len(shown), 2)
        for picture in shown:
            expect("whether all is background", picture.pixels == bytes(BACKGROUND) * (1920 * 1080), True)


if __name__ == "__main__":
    sys.exit(run_tests())
