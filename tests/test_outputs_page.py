#!/usr/bin/env python3
"""Tests of the outputs on the live pages of tools/watch, and of scripts that it runs first.

Each test has its own folder. The last line is `N passed, M failed`. If there is no browser, no C compiler, or no libdrm with its
headers, a test is skipped with a line. Standard library only.
"""
import json
import sys
import urllib.request

sys.dont_write_bytecode = True
from support import REPOSITORY, SECONDS, FolderCase, expect, run, run_tests  # noqa: E402

from zirkoshe.display import Display, Screen  # noqa: E402
from zirkoshe.outputs import PAUSE, Outputs  # noqa: E402
from zirkoshe.pictures import Picture, read_picture  # noqa: E402

from browser import browsing, find_browser  # noqa: E402
from test_libdrm_pictures import CONNECTOR, HEIGHT, OVERLAY, WIDTH, composed, drawn, showing, whole  # noqa: E402
from test_steps_page import asked, status_of, watching  # noqa: E402

FIGURE = "document.querySelector('#outputs figure[data-crtc=\"{}\"]')"
TEXT = f"CRTC 1 shows framebuffer {{}} of client {{}} on connector {CONNECTOR}, {WIDTH}x{HEIGHT} at 60 Hz"


def read(url, path):
    """What the page's server answers."""
    with urllib.request.urlopen(url + path, timeout=SECONDS) as answer:
        return answer.read()


class CountingDisplay(Display):
    """A display of one output, which counts the requests to it."""

    def __init__(self):
        self.pictures = 0
        self.frames = 0

    def screens(self):
        return [Screen(1, 7, True, 1920, 1080, 60, self.frames, ())]

    def screenshot(self, crtc, every=1):
        self.pictures += 1
        return Picture(1, 1, bytes([self.frames % 256, every, 0]))


class OutputsPageTests(FolderCase):
    """Tests of the outputs on the live pages of tools/watch."""

    def test_page_answers_with_outputs(self):
        """Each has a summary, its planes and a picture. Without --display there are none."""
        planes = [whole(), drawn(OVERLAY, "AR24", 24, 20, [45, -8, 24, 20], seed=2)]
        file = self.folder / "shown.png"
        with showing(self.folder) as shower:
            shower.show(*planes)
            screen = shower.display.screens()[0]
            with watching("--display", self.folder / "display", self.folder / "root") as url:
                lit, dark = json.loads(read(url, "outputs"))["outputs"]
                file.write_bytes(read(url, f"output?crtc=1&picture={lit['picture']}"))
                missing = [status_of(url, path) for path in ("output?crtc=2", "output?crtc=x", "output", "other")]
            with watching(self.folder / "root") as url:
                expect("without a display", status_of(url, "outputs"), 404)
        expect("what is missing", missing, [404] * 4)
        lowest, above = screen.planes
        expect("the summary", lit["text"], TEXT.format(lowest.framebuffer, lowest.client))
        wanted = [
            f"primary plane 3: framebuffer {lowest.framebuffer} of client {lowest.client}, 60x40 at 0, 0, XR24",
            f"overlay plane 5: framebuffer {above.framebuffer} of client {above.client}, 24x20 at 45, -8, AR24",
        ]
        expect("the planes", lit["planes"], wanted)
        expect("the picture", read_picture(file).pixels, composed(WIDTH, HEIGHT, planes))
        expect("the dark one", (dark["text"], dark["picture"]), ("CRTC 2 is dark", 0))

    def test_browser_shows_outputs(self):
        """The picture follows, and its text is that of the output."""
        find_browser()
        with showing(self.folder) as shower:
            shower.show(whole())
            words = ("--display", self.folder / "display", self.folder / "root")
            with watching(*words) as url, browsing(self.folder, url) as browser:
                image = FIGURE.format(1) + "?.querySelector('img')"
                browser.wait(f"{image}?.naturalWidth === {WIDTH} && {image}?.naturalHeight === {HEIGHT}")
                lowest = shower.display.screens()[0].planes[0]
                text = TEXT.format(lowest.framebuffer, lowest.client)
                expect("the text of the picture", browser.value(f"{image}.alt"), text)
                expect("the caption", browser.value(FIGURE.format(1) + ".textContent").startswith(text), True)
                expect("the dark one", browser.value(FIGURE.format(2) + ".textContent").strip(), "CRTC 2 is dark")
                before = browser.value(f"{image}.src")
                shower.show(whole(seed=5))
                browser.wait(f"{image}.src !== {json.dumps(before)}")
                expect("what the console has", browser.problems, [])

    def test_pictures_are_taken_ten_times_a_second(self):
        """And if no browser asks, none."""
        display = CountingDisplay()
        outputs = Outputs(display)
        first = [outputs.listed() for _ in range(20)]
        expect("pictures at once", (display.pictures, first[0]), (1, first[-1]))
        until = outputs._time + PAUSE
        while outputs._time < until:
            outputs.listed()
        expect("pictures after a pause", display.pictures, 2)
        expect("the number of a picture that is the same", outputs.listed()["outputs"][0]["picture"], 1)

    def test_page_without_a_display_says_so(self):
        outputs = Outputs(Display(self.folder / "display"))
        reason = f"can't ask the display {self.folder}/display.control: No such file or directory"
        expect("the problem", outputs.listed(), {"problem": reason, "outputs": []})

    def test_script_without_answers_is_run_first(self):
        script = REPOSITORY / "examples/subleases.script"
        with watching("--journal", script) as url:
            steps = asked(url, "rows", 5, start=0, count=5)["steps"]
            picture = asked(url, "picture", 5, page="1")
        expect("answers", [step["answer"] for step in steps][:3], ["client 1", "lease 1 1", "client 3"])
        expect("whether there is a picture", "svg" in picture, True)

    def test_script_that_cannot_be_run_is_refused(self):
        script = self.folder / "a.script"
        script.write_text("open a card\na no_such_call\n")
        ran = run(REPOSITORY / "tools/watch", "--page", "--journal", script)
        expect("status and reason", (ran.returncode, f"watch: can't run {script}: " in ran.stderr), (1, True))


if __name__ == "__main__":
    sys.exit(run_tests())
