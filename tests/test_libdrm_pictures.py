#!/usr/bin/env python3
"""Tests of pictures of what unchanged programs show over clients/libdrm.

Each picture is compared with one that tests/composer.py works out. The last line is `N passed, M failed`. If there is no C compiler, no
libdrm with its headers, or no such program, a test is skipped with a line. Standard library only.
"""
import contextlib
import json
import os
import pathlib
import random
import re
import shutil
import socket
import subprocess
import sys

sys.dont_write_bytecode = True
from support import (  # noqa: E402
    REPOSITORY,
    SECONDS,
    FolderCase,
    compile_client,
    connect,
    ended_in_time,
    expect,
    expect_end,
    run,
    run_tests,
    want_program,
)

from zirkoshe.display import CONTROL, Display, DisplayError  # noqa: E402
from zirkoshe.pictures import read_picture  # noqa: E402
from zirkoshe.server import Server  # noqa: E402

from composer import FORMATS, composed  # noqa: E402
from libdrm_support import environment, served  # noqa: E402

# two CRTCs, each with a primary plane and a cursor plane, and an overlay plane for both
TOPOLOGY = ("--topology", REPOSITORY / "tests/libdrm_errnos.topology")
PRIMARY, OVERLAY, CURSOR = 0, 5, -1
CURSOR_PLANE = 6
CONNECTOR = 10
CLIENT = REPOSITORY / "tests/planes_client.py"
WIDTH, HEIGHT = 60, 40
ONE = 65536
NO_CRTC = "there is no such CRTC: No such file or directory"


def drawn(plane, four, width, height, place, source=None, seed=0):
    """A plane with random pixels. Colours are not larger than alpha if the numbers of the format are small."""
    bits, _ = FORMATS[four]
    pixels = bytes(random.Random(seed).choices(range(256), k=width * height * bits // 8))
    return {
        "plane": plane,
        "format": four,
        "bits": bits,
        "size": [width, height],
        "pixels": pixels.hex(),
        "place": place,
        "source": source or [0, 0, width * ONE, height * ONE],
    }


def whole(four="XR24", seed=1):
    """The primary plane, which covers the CRTC."""
    return drawn(PRIMARY, four, WIDTH, HEIGHT, [0, 0, WIDTH, HEIGHT], seed=seed)


def described(*planes):
    """The line by which the program shows planes."""
    return {"crtc": 1, "size": [WIDTH, HEIGHT], "connector": CONNECTOR, "planes": planes}


class Shower:
    """A program that shows planes, and the display that it shows them on."""

    def __init__(self, program, display):
        self.program = program
        self.display = display

    def show(self, *planes):
        """Has the program show planes."""
        self.program.stdin.write(json.dumps(described(*planes)) + "\n")
        self.program.stdin.flush()
        expect("what the program prints", self.program.stdout.readline(), "shown\n")

    def expect(self, what, *planes):
        """Compares the picture of CRTC 1 with that of planes."""
        picture = self.display.screenshot(1)
        expect(f"size of {what}", (picture.width, picture.height), (WIDTH, HEIGHT))
        wanted = composed(WIDTH, HEIGHT, planes)
        different = [at for at in range(len(wanted)) if picture.pixels[at] != wanted[at]]
        shown = [(at // 3 % WIDTH, at // 3 // WIDTH, at % 3, picture.pixels[at], wanted[at]) for at in different[:3]]
        expect(f"pixels of {what} that differ: x, y, channel, found and expected", shown, [])


@contextlib.contextmanager
def showing(folder):
    """A server with a display in this folder, and a program that shows planes."""
    with served(folder, more=TOPOLOGY):
        words = [sys.executable, CLIENT]
        pipes = {"stdin": subprocess.PIPE, "stdout": subprocess.PIPE, "text": True}
        with subprocess.Popen(words, env=environment(folder), **pipes) as program, ended_in_time(program):
            yield Shower(program, Display(folder / "display"))
            program.stdin.close()
            expect("status of the program", program.wait(SECONDS), 0)


def plug(folder, name, connector):
    """Runs `zirkoshe plug` or `unplug` on the display in this folder."""
    return run(REPOSITORY / "zirkoshe", name, "--display", folder / "display", connector)


def screenshot(folder, *words):
    """Runs `zirkoshe screenshot` on the display in this folder."""
    return run(REPOSITORY / "zirkoshe", "screenshot", "--display", folder / "display", *words)


def line_answered(folder, line):
    """What the display answers to a line."""
    with socket.socket(socket.AF_UNIX) as control:
        control.settimeout(SECONDS)
        control.connect(str(folder / "display") + CONTROL)
        control.sendall(line + b"\n")
        with control.makefile() as answers:
            return json.loads(answers.readline())


class LibdrmPicturesTests(FolderCase):
    """Tests of pictures over clients/libdrm."""

    def test_three_planes_are_composed_in_their_order(self):
        """The overlay plane is partly outside, the cursor partly transparent, and neither order nor place depends on who set it first."""
        primary = whole()
        overlay = drawn(OVERLAY, "XB24", 24, 20, [45, -8, 24, 20], seed=2)
        cursor = drawn(CURSOR, "AR24", 16, 16, [40, 4, 16, 16], seed=3)
        with showing(self.folder) as shower:
            shower.show(primary, cursor, overlay)
            shower.expect("three planes", primary, overlay, cursor)
            screen = shower.display.screens()[0]
        expect("the CRTC", (screen.crtc, screen.connector, screen.active), (1, CONNECTOR, True))
        found = [(plane.plane, plane.type, plane.format, plane.x, plane.y) for plane in screen.planes]
        wanted = [(3, "primary", "XR24", 0, 0), (5, "overlay", "XB24", 45, -8), (6, "cursor", "AR24", 40, 4)]
        expect("the planes", found, wanted)
        expect("the client of each", {plane.client for plane in screen.planes}, {3})

    def test_each_format_is_read(self):
        with showing(self.folder) as shower:
            primary = whole()
            shower.show(primary)
            for number, four in enumerate(FORMATS):
                overlay = drawn(OVERLAY, four, 32, 24, [10, 10, 32, 24], seed=number)
                shower.show(overlay)
                shower.expect(four, primary, overlay)

    def test_sources_are_scaled_to_the_nearest_pixel(self):
        """Larger and smaller, from a part that begins within a pixel, and from a part of the framebuffer by MODE_SETCRTC."""
        primary = drawn(PRIMARY, "XR24", 80, 50, [0, 0, WIDTH, HEIGHT], [20 * ONE, 10 * ONE, WIDTH * ONE, HEIGHT * ONE])
        places = (
            ([5, 5, 50, 30], [0, 0, 16 * ONE, 16 * ONE]),
            ([-7, -9, 31, 19], [ONE // 2, ONE // 3, 15 * ONE, 15 * ONE]),
            ([50, 30, 7, 5], [ONE, ONE, 14 * ONE + 7, 13 * ONE + 9]),
            ([20, 20, 1, 1], [0, 0, 16 * ONE, 16 * ONE]),
        )
        with showing(self.folder) as shower:
            shower.show(primary)
            shower.expect("a part of the framebuffer", primary)
            for place, source in places:
                overlay = drawn(OVERLAY, "AR24", 16, 16, place, source, seed=4)
                shower.show(overlay)
                shower.expect(f"{source} at {place}", primary, overlay)

    def test_smaller_picture_has_some_of_the_pixels(self):
        planes = [whole(), drawn(OVERLAY, "AR24", 24, 20, [45, -8, 24, 20], seed=2)]
        with showing(self.folder) as shower:
            shower.show(*planes)
            one = shower.display.screenshot(1)
            for every in (2, 7, 59, 1000):
                small = shower.display.screenshot(1, every)
                wanted = [one.pixel(x, y) for y in range(0, HEIGHT, every) for x in range(0, WIDTH, every)]
                found = [small.pixel(x, y) for y in range(small.height) for x in range(small.width)]
                expect(f"each pixel of {every}", found, wanted)

    def test_dark_crtc_is_black(self):
        """It has the size of its mode, or of the preferred one."""
        with showing(self.folder) as shower:
            picture = shower.display.screenshot(2)
            expect("size", (picture.width, picture.height), (1920, 1080))
            expect("pixels that aren't black", picture.pixels.strip(b"\0"), b"")
            shower.show(whole())
            # closed, the program shows nothing more
            shower.program.stdin.close()
            shower.program.wait(SECONDS)
            shower.expect("what a program left")

    def test_screenshot_is_a_whole_file(self):
        """Of one CRTC, and of all next to each other. A file that can't be written leaves none."""
        file, place = self.folder / "picture.png", self.folder / "place"
        place.mkdir()
        (place / "taken.png").mkdir()
        with showing(self.folder) as shower:
            shower.show(whole())
            expect_end(screenshot(self.folder, "--crtc", 1, file), 0, "", "")
            one = read_picture(file)
            expect("the picture", one, shower.display.screenshot(1))
            expect_end(screenshot(self.folder, file), 0, "", "")
            both = read_picture(file)
            ran = screenshot(self.folder, place / "taken.png")
            expect_end(ran, 1, f"screenshot: can't write {place}/taken.png: Is a directory\n", "")
            ran = screenshot(self.folder, self.folder / "absent/x.png")
            expect_end(ran, 1, f"screenshot: can't write {self.folder}/absent/x.png: No such file or directory\n", "")
            expect_end(screenshot(self.folder, "--crtc", 9, file), 1, f"screenshot: {NO_CRTC}\n", "")
        expect("the size of all", (both.width, both.height), (WIDTH + 16 + 1920, 1080))
        rows = [both.pixels[at * both.width * 3 :][: WIDTH * 3] for at in range(HEIGHT)]
        expect("the first one of all", b"".join(rows), one.pixels)
        expect("files in the folder", [path.name for path in place.iterdir()], ["taken.png"])
        if shutil.which("pngfix") is not None:
            expect("status of libpng's checker", run("pngfix", file).returncode, 0)

    def test_pictures_are_taken_while_a_command_runs(self):
        """A file for each picture that differs from the one before, and none of a dark CRTC."""
        pictures = self.folder / "pictures"
        lines = [json.dumps(described(whole(seed=number))) for number in (1, 2)]
        script = f"(echo '{lines[0]}'; sleep 2; echo '{lines[1]}'; sleep 2) | {sys.executable} {CLIENT}"
        words = ("--libdrm", *TOPOLOGY, "--screenshots", pictures, "--every", "0.1")
        ran = run(REPOSITORY / "tools/with-server", *words, "sh", "-c", script)
        expect_end(ran, 0, "", "shown\nshown\n")
        names = sorted(path.name for path in pictures.iterdir())
        expect("files", names, ["crtc-1-0001.png", "crtc-1-0002.png"])
        for name, number in zip(names, (1, 2)):
            expect(name, read_picture(pictures / name).pixels, composed(WIDTH, HEIGHT, [whole(seed=number)]))

    def test_pictures_that_cannot_be_taken_are_refused(self):
        tool = REPOSITORY / "tools/with-server"
        file = self.folder / "file"
        file.write_text("")
        ran = run(tool, "--libdrm", "--screenshots", file, "echo", "run")
        expect_end(ran, 125, f"with-server: can't write to {file}: File exists\n", "")
        for words, reason in (
            (("--screenshots", file), "--screenshots requires --libdrm or --seccomp"),
            (("--libdrm", "--every", "1"), "--every requires --screenshots"),
            (("--libdrm", "--screenshots", file, "--every", "0"), "'0' is not a number of seconds from 0.1 to 3600"),
        ):
            ran = run(tool, *words, "echo", "run")
            expect("status and reason", (ran.returncode, reason in ran.stderr, ran.stdout), (2, True, ""))

    def test_server_of_a_test_takes_pictures(self):
        with Server(topology=TOPOLOGY[1]) as server:
            ran = run(sys.executable, CLIENT, env={**os.environ, **server.libdrm_environment}, stdin=None, input="")
            expect_end(ran, 0, "", "")
            picture = server.display.screenshot(1)
        expect("size", (picture.width, picture.height), (1920, 1080))

    def test_pictures_in_c(self):
        self.expect_pictures_in("c", "tests/pictures.c")

    def test_pictures_in_rust(self):
        self.expect_pictures_in("rust", "tests/pictures.rs")

    def expect_pictures_in(self, language, source):
        """A picture is compared with one that isn't kept yet, the kept one, and one that differs in two pixels, more or less."""
        program = compile_client(language, pathlib.Path(source).name, self.folder)
        kept, found = self.folder / "kept.ppm", self.folder / "kept.found.ppm"
        planes = [whole()]
        pixels = composed(WIDTH, HEIGHT, planes)
        head = f"taken 0\nsize {WIDTH} {HEIGHT}, first {pixels[0]} {pixels[1]} {pixels[2]}\n"
        with showing(self.folder) as shower:
            shower.show(*planes)
            given = {**os.environ, "DRM_SERVER_DISPLAY": str(self.folder / "display")}

            def compared(tolerance, crtc=1):
                ran = run(program, crtc, kept, tolerance, env=given)
                expect("status", ran.returncode, 0)
                return ran.stdout

            expect("without a kept one", compared(0), head + "compared -2\n")
            expect("the found one", found.read_bytes(), f"P6\n{WIDTH} {HEIGHT}\n255\n".encode() + pixels)
            found.rename(kept)
            expect("with the kept one", compared(0), head + "compared 0\n")
            other = bytearray(pixels)
            for at in (0, 3 * (WIDTH + 2)):
                other[at] ^= 4
            kept.write_bytes(f"P6\n{WIDTH} {HEIGHT}\n255\n".encode() + other)
            expect("with another one", (compared(4), compared(3)), (head + "compared 0\n", head + "compared 1\n"))
            marks = (self.folder / "kept.difference.ppm").read_bytes()[-len(pixels) :]
            white = [at // 3 for at in range(0, len(marks), 3) if marks[at : at + 3] != bytes(3)]
            expect("the pixels that are marked", white, [0, WIDTH + 2])
            expect("of a CRTC that does not exist", compared(0, 9), "taken -2\n")

    def test_screenshot_without_a_display_is_refused(self):
        file = self.folder / "picture.png"
        absent = f"can't ask the display {self.folder}/display.control: No such file or directory"
        expect_end(screenshot(self.folder, file), 1, f"screenshot: {absent}\n", "")
        ran = run(REPOSITORY / "zirkoshe", "screenshot", file)
        expect("status and reason", (ran.returncode, "there is no display" in ran.stderr), (1, True))
        ran = screenshot(self.folder, self.folder / "picture.jpg")
        expect("status and reason", (ran.returncode, "doesn't end with .png" in ran.stderr), (2, True))
        expect("whether there is a file", file.exists(), False)

    def test_crtc_that_does_not_exist_is_refused(self):
        with served(self.folder, more=TOPOLOGY):
            for crtc in (0, 3, 2**32):
                try:
                    Display(self.folder / "display").screenshot(crtc)
                    raise AssertionError(f"there is a picture of CRTC {crtc}")
                except DisplayError as error:
                    expect("the reason", str(error), NO_CRTC)

    def test_lines_that_are_none_are_refused(self):
        """And the next one is answered."""
        with served(self.folder, more=TOPOLOGY):
            for line in (
                b"x",
                b"picture",
                b"picture ",
                b"picture 1",
                b"picture 1 0",
                b"picture 1 65536",
                b"picture 1 1 1",
                b"picture 1x 1",
                b"picture -1 1",
                b"\0",
                b"picture 1 1\0x",
                b"y" * 300,
            ):
                expect(f"whether {line!r} is refused", "error" in line_answered(self.folder, line), True)
            expect("the answer after these", len(line_answered(self.folder, b"screens")["screens"]), 2)

    def test_display_is_no_client_of_the_device(self):
        """It asks once, and leaves the device without a master."""
        with served(self.folder, more=TOPOLOGY):
            display = Display(self.folder / "display")
            for _ in range(2):
                display.screens()
            root = connect(self.folder / "root")
            rows = root.ask("audit 1 0").split()
            clients = root.ask("audit 2 0")
            root.close()
        expect("clients of the device", (clients.split(" | ")[0].split()[1], rows[0]), ("1", "rows"))

    def test_connector_is_unplugged_and_plugged(self):
        """It has no modes meanwhile, and what its CRTC shows stays."""
        want_program("modetest")

        def listed():
            ran = run("modetest", "-M", "zirkoshe", "-c", env=environment(self.folder))
            rows = re.findall(r"(?m)^(\d+)\t\d+\t(\w+)\t\S+ *\t(\S+)\t\t(\d+)", ran.stdout)
            return [(int(number), *state) for number, *state in rows]

        plugged = [(10, "connected", "508x286", "5"), (11, "connected", "508x286", "5")]
        with showing(self.folder) as shower:
            shower.show(whole())
            expect("at first", listed(), plugged)
            for _ in range(2):
                expect_end(plug(self.folder, "unplug", 10), 0, "", "")
                expect("unplugged", listed(), [(10, "disconnected", "0x0", "0"), plugged[1]])
            shower.expect("what is shown without a monitor", whole())
            for _ in range(2):
                expect_end(plug(self.folder, "plug", 10), 0, "", "")
                expect("plugged", listed(), plugged)
            for name in ("plug", "unplug"):
                reason = f"{name}: there is no such connector: No such file or directory\n"
                expect_end(plug(self.folder, name, 9), 1, reason, "")

    def test_control_socket_is_for_its_user(self):
        with served(self.folder, more=TOPOLOGY):
            mode = (self.folder / f"display{CONTROL}").stat().st_mode & 0o777
        expect("mode", oct(mode), oct(0o600))
        expect("whether the display removed it", (self.folder / f"display{CONTROL}").exists(), False)


if __name__ == "__main__":
    sys.exit(run_tests())
