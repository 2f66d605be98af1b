#!/usr/bin/env python3
"""Tests of frame loops over clients/libdrm: flips, vertical blanking, events, and programs that show frames.

What it tests: page flips, vertical blanking and their events; the steps of a frame, counted in the journal.
`drm_info` prints the mode that a running `sway` set. `ffmpeg` grabs frames. Frame loops of `modetest`,
`vbltest`, `kmscube`, `mpv`, `sway` and `cage` for ten seconds each; `tinywl` lights both outputs.

Each test has its own folder. The last line is `N passed, M failed`; where there is no C compiler, no libdrm with
its headers, or no such program, a test is skipped with the reason. Standard library only.
"""
import contextlib
import json
import os
import pathlib
import re
import shutil
import subprocess
import sys
import time

sys.dont_write_bytecode = True
from support import (  # noqa: E402
    CLASSES,
    REPOSITORY,
    SECONDS,
    FolderCase,
    Skipped,
    connect,
    ended_in_time,
    expect,
    run,
    run_tests,
    want_program,
)

from libdrm_support import compiled, environment, library, said, served, wait_until  # noqa: E402

# How long frames are shown, and how fast at most: the modes have 60 Hz, and what is counted may begin and end within a frame.
SHOWING = 10
MOST_RATE = 61


def frames(folder, what, text):
    """What the program of frame loops finds."""
    expect("what it finds", said(folder, compiled("tests/libdrm_frames.c"), what), text)


def steps_of(folder, frames_):
    """The lines of the journal of a loop of N frames, each with a cursor that moves."""
    program, journal = compiled("tests/libdrm_frames.c"), folder / f"{frames_}.script"
    library()
    ran = run(REPOSITORY / "tools/with-server", "--libdrm", "--journal", journal, program, "steady", frames_)
    expect("what it finds", (ran.stdout, ran.stderr, ran.returncode), (f"frames {frames_}, failed 0\n", "", 0))
    return [line.split()[1] for line in journal.read_text().splitlines() if not line.startswith(("limits", "#"))]


# programs that show frames


def showing(folder, *command, **variables):
    """What a program prints that shows frames until a line is typed, next to a server."""
    with subprocess.Popen(
        command,
        stdin=subprocess.PIPE,
        stdout=subprocess.PIPE,
        stderr=subprocess.STDOUT,
        text=True,
        env=environment(folder, **variables),
    ) as shown, ended_in_time(shown):
        time.sleep(SHOWING)
        output, _ = shown.communicate("\n", timeout=SECONDS)
    expect("status", shown.returncode, 0)
    return output


@contextlib.contextmanager
def lit_by_modetest(folder):
    """A server in this folder while modetest lights CRTC 1."""
    with served(folder):
        root = connect(folder / "root")
        expect("that the card is left to modetest", root.ask("drop_master"), "done")
        with subprocess.Popen(
            ["modetest", "-M", "zirkoshe", "-s", "7@1:1024x768"],
            stdin=subprocess.PIPE,
            stdout=subprocess.PIPE,
            stderr=subprocess.DEVNULL,
            text=True,
            env=environment(folder),
        ) as lighting, ended_in_time(lighting):
            wait_until(lambda: root.ask("getcrtc 1") != "number 0")
            root.close()
            yield
            lighting.communicate("\n", timeout=SECONDS)


def expect_rates(text, pattern):
    """Fails the test unless frames were counted, at no more than the rate of the mode."""
    rates = [float(rate) for rate in re.findall(pattern, text)]
    expect("that there are rates", rates != [], True)
    expect("rates that are too high", [rate for rate in rates if rate > MOST_RATE], [])


# What sway is told: a program shows frames, and after a time it is to end.
SWAY = f"""\
xwayland disable
exec weston-presentation-shm > frames
exec sleep {SHOWING} && swaymsg exit
"""


SWAY_OF_ANOTHER_MODE = """\
xwayland disable
output * mode 1024x768
exec sleep 4 && drm_info -j > seen && swaymsg exit
"""


@contextlib.contextmanager
def seated(given):
    """A seatd that gives the card to a user that isn't root, and the words by which a program is run as that one."""
    for name in ("seatd", "setpriv"):
        want_program(name)
    if os.geteuid() != 0 or pathlib.Path("/run/seatd.sock").exists():
        raise Skipped("who runs the tests isn't root, or there is a seatd")
    with subprocess.Popen(
        ["seatd", "-u", "nobody"],
        stdin=subprocess.DEVNULL,
        stdout=subprocess.DEVNULL,
        stderr=subprocess.DEVNULL,
        env={**given, "SEATD_VTBOUND": "0"},
    ) as seat, ended_in_time(seat):
        wait_until(pathlib.Path("/run/seatd.sock").exists)
        try:
            yield ["setpriv", "--reuid=nobody", "--regid=nogroup", "--clear-groups"]
        finally:
            # it takes its socket away
            seat.terminate()
            seat.wait(SECONDS)


@contextlib.contextmanager
def compositor(folder, more=()):
    """A server and what a compositor of wlroots wants next to it: a runner of commands as a user that isn't root, in a folder of that one's."""
    own = folder / "own"
    own.mkdir(0o700)
    shutil.chown(own, "nobody")
    given = environment(
        folder,
        LD_PRELOAD=str(shutil.copy(library(), folder / "library.so")),
        XDG_RUNTIME_DIR=str(own),
        LIBSEAT_BACKEND="seatd",
        WLR_BACKENDS="drm",
        WLR_DRM_DEVICES="/dev/dri/card0",
        WLR_RENDERER="pixman",
        WLR_LIBINPUT_NO_DEVICES="1",
    )
    with served(folder, more=more), seated(given) as somebody:
        for path in (folder, *(folder / name for name in CLASSES)):
            path.chmod(0o777)
        yield own, lambda *words: run(*somebody, *words, env=given, cwd=own)


def steps_until_now(folder):
    """How many steps the server has made: the number that the next client gets is that of its opening."""
    root = connect(folder / "root")
    said = root.ask("audit 1 0")
    root.close()
    return int(re.match(r"rows 1 \| (\d+) ", said)[1])


class LibdrmShowsTests(FolderCase):
    """Tests of frame loops over clients/libdrm: flips, vertical blanking, events, and programs that show frames."""

    def test_frames_come_at_the_rate_of_the_mode(self):
        folder = self.folder
        frames(
            folder,
            "frames",
            """\
shows a frame: done
frames 60, early 0, astray 0, of the CRTC 1, data 1
not faster than the mode: 1, not slower than a tenth of it: 1
""",
        )

    def test_second_flip_waits_for_the_first(self):
        folder = self.folder
        frames(
            folder,
            "early",
            """\
flips: done
flips again: EBUSY
flips again without an event: EBUSY
flips once it is told: done
flips at once: EBUSY
events 1
""",
        )

    def test_flips_are_refused(self):
        folder = self.folder
        frames(
            folder,
            "refusals",
            """\
flips a dark CRTC: EBUSY
no CRTC: ENOENT
no framebuffer: ENOENT
framebuffer 0: ENOENT
asynchronous: EINVAL
with a target: EINVAL
unknown flag: EINVAL
reserved field: EINVAL
who isn't master: EACCES
who isn't master, with an unknown flag: EACCES
flips: done
darkens it: done
flips a dark CRTC: EBUSY
""",
        )

    def test_lessee_flips_what_it_has(self):
        folder = self.folder
        frames(
            folder,
            "lease",
            """\
lessee flips: done
of its CRTC: 1
lessee flips another CRTC: ENOENT
revokes: done
lessee flips: ENOENT
owner flips: done
""",
        )

    def test_vertical_blanking_is_waited_for(self):
        folder = self.folder
        frames(
            folder,
            "vblanks",
            """\
a dark CRTC: EINVAL
asks: done
waits for three: done
three: 1, in time: 1
waits for a number: done
two: 1
waits for one that has passed: done
waits for the next on a miss: done
next: 1
the second CRTC, which is dark: EINVAL
no third CRTC: EINVAL
the second CRTC: done
a signal: EINVAL
""",
        )

    def test_vertical_blanking_has_events(self):
        folder = self.folder
        frames(
            folder,
            "queues",
            """\
a dark CRTC's sequence: EINVAL
queues on a dark CRTC: EINVAL
unknown flag on a dark CRTC: EINVAL
asks for an event: done
its number 1, data 1
its sequence: done
now: 1
queues: done
its number 1, data 1, time 1
no CRTC: ENOENT
queues on no CRTC: ENOENT
""",
        )

    def test_events_wake_who_waits(self):
        folder = self.folder
        frames(
            folder,
            "waits",
            """\
adds: done
poll 0 0, ppoll 0, select 0 0, pselect 0, epoll 0 0
flips: done
poll 1 1, ppoll 1, select 1 1, pselect 1, epoll 1 77
poll 0 0, ppoll 0, select 0 0, pselect 0, epoll 0 0
flips: done
changes it: done
poll 1 1, ppoll 1, select 1 1, pselect 1, epoll 1 78
takes it out: done
takes it out again: ENOENT
poll 1 1, ppoll 1, select 1 1, pselect 1, epoll 0 0
""",
        )

    def test_events_are_read_one_by_one(self):
        folder = self.folder
        frames(
            folder,
            "reads",
            """\
reads nothing: EAGAIN
events 128, then ENOMEM
a flip without an event: done
31 bytes: 31
100 bytes: 32
others: 126, the last 127
reads nothing: EAGAIN
queues: done
waits: 32
waits until a signal: EINTR
""",
        )

    def test_events_are_for_who_reads_the_file(self):
        folder = self.folder
        frames(folder, "fork", "flips: done\nchild 0\nevents 1, data 5\n")

    def test_events_end_with_what_they_are_of(self):
        folder = self.folder
        frames(
            folder,
            "ends",
            """\
flips: done
before its time: 0
darkens it: done
events 1
flips: done
of a new descriptor: 0
""",
        )

    def test_cursors_are_kept_without_a_picture(self):
        folder = self.folder
        frames(
            folder,
            "cursors",
            """\
sets: done
sets with a spot: done
moves: done
hides: done
no CRTC: ENOENT
no handle: ENOENT
too large: EINVAL
who isn't master: EACCES
""",
        )

    def test_frame_costs_one_step(self):
        """Once the first frame was shown, each other is the SETCRTC of its framebuffer alone, also with a cursor that moves."""
        folder = self.folder
        few, many = steps_of(folder, 10), steps_of(folder, 60)
        expect("steps of 50 frames", len(many) - len(few), 50)
        expect(
            "calls that set a CRTC: the mode, and each frame", (few.count("setcrtc"), many.count("setcrtc")), (11, 61)
        )

    def test_dropped_master_shows_at_once(self):
        """Also if another process that has the file dropped it."""
        folder = self.folder
        frames(
            folder,
            "dropped",
            """\
moves: done
drops: done
moves: EACCES
sets: done
moves: done
moves: EACCES
flips: EACCES
moves: EACCES
""",
        )

    def test_flip_of_a_crtc_that_a_removal_darkened(self):
        folder = self.folder
        frames(
            folder,
            "darkened",
            """\
flips: done
removes what is shown: done
flips a dark CRTC: EBUSY
""",
        )

    def test_mode_without_a_framebuffer(self):
        folder = self.folder
        frames(
            folder,
            "unframed",
            """\
a mode and no framebuffer: ENOENT
with two connectors: ENOENT
no CRTC: ENOENT
who isn't master: EACCES
neither, with a connector: EINVAL
neither: done
""",
        )

    def test_mode_is_in_its_framebuffer(self):
        """As drm_crtc_check_viewport has it: else ENOSPC, after the tests of caller, CRTC and framebuffer, before those of connectors."""
        frames(
            self.folder,
            "views",
            """\
the whole of it: done
a column outside: ENOSPC
a row outside: ENOSPC
the right half: done
from 64, 0
a column further: ENOSPC
too small: ENOSPC
too low: ENOSPC
too far: ERANGE
too far, and no CRTC: ERANGE
no CRTC: ENOENT
no framebuffer: ENOENT
who isn't master: EACCES
who isn't master, and too far: EACCES
no connector: ENOSPC
a plane's source: done
outside: ENOSPC
outside, and no CRTC: ENOENT
outside, on another CRTC: EINVAL
outside, and no plane: ENOENT
outside, by who isn't master: EACCES
the framebuffer that it shows, outside: ENOSPC
""",
        )

    def test_flip_keeps_size_and_format(self):
        """As drm_mode_page_flip_ioctl has it: ENOSPC before EINVAL, and both before EBUSY for a flip that isn't complete."""
        frames(
            self.folder,
            "sizes",
            """\
sets: done
flips to a larger one: done
too small: ENOSPC
too low: ENOSPC
another format: EINVAL
another format, too small: ENOSPC
with alpha: EINVAL
who isn't master: EACCES
flips: done
too small before it completes: ENOSPC
sets the right half: done
too small for that: ENOSPC
sets: done
another process's: done
another process's, too small: ENOSPC
sets another process's: done
sets another process's, outside: ENOSPC
handles 8
""",
        )

    def test_mode_that_was_set_is_told(self):
        folder = self.folder
        frames(folder, "modes", "dark: mode 0; lit: mode 1, 25 ms\n")

    def test_nobody_wakes_for_answers_of_other_threads(self):
        folder = self.folder
        frames(folder, "beside", "woken 0\n")

    def test_vbltest_counts_what_modetest_lights(self):
        folder = self.folder
        want_program("modetest")
        want_program("vbltest")
        with lit_by_modetest(folder):
            text = showing(folder, "vbltest", "-M", "zirkoshe")
        expect_rates(text, r"(?m)^freq: ([\d.]+)Hz$")

    def test_ffmpeg_grabs_what_modetest_shows(self):
        """ffmpeg finds the plane that shows something. It must be root on the card, as in a kernel. The pixels are not those of modetest."""
        want_program("ffmpeg")
        want_program("modetest")
        words = ["-loglevel", "error", "-f", "kmsgrab", "-i", "-", "-frames:v", "3", "-vf", "hwdownload,format=bgr0"]
        with lit_by_modetest(self.folder):
            given = environment(self.folder)
            device = ["-device", given["DRM_SERVER_ROOT"]]
            ran = run("ffmpeg", *device, *words, "-f", "framecrc", "-", env=given)
        expect("error output and status", (ran.stderr, ran.returncode), ("", 0))
        sizes = [line.split(",")[4].strip() for line in ran.stdout.splitlines() if not line.startswith("#")]
        expect("bytes of each frame", sizes, [str(1024 * 768 * 4)] * 3)

    def test_sway_shows_frames_by_a_seatd(self):
        """Which opens the card and passes it on."""
        for name in ("sway", "swaymsg", "weston-presentation-shm"):
            want_program(name)
        with compositor(self.folder) as (own, ran_by):
            (own / "config").write_text(SWAY, "utf-8")
            ran = ran_by("sway", "-c", own / "config")
        expect("status", ran.returncode, 0)
        expect("that frames are shown", (own / "frames").read_text("utf-8").count("\n") > SHOWING, True)

    def test_drm_info_beside_sway_tells_its_mode(self):
        """Which is not the preferred one."""
        for name in ("sway", "swaymsg", "drm_info"):
            want_program(name)
        with compositor(self.folder) as (own, ran_by):
            (own / "config").write_text(SWAY_OF_ANOTHER_MODE, "utf-8")
            ran = ran_by("sway", "-c", own / "config")
        expect("status", ran.returncode, 0)
        seen = json.loads((own / "seen").read_text("utf-8"))["/dev/dri/card0"]
        expect("modes", [crtc["mode"]["name"] for crtc in seen["crtcs"]], ["1024x768", "1024x768"])

    def test_tinywl_lights_its_outputs(self):
        """The compositor that wlroots' source has, which no package has: it is looked for in PATH."""
        folder = self.folder
        for name in ("tinywl", "weston-simple-shm"):
            want_program(name)
        with compositor(folder) as (_, ran_by):
            ran = ran_by("tinywl", "-s", "weston-simple-shm & sleep 2; kill $PPID")
        expect("modes that are set", ran.stderr.count("Modesetting with '1920x1080@60000mHz'"), 2)
        expect("what is an error to it", re.findall(r".*\[ERROR\].*", ran.stderr), [])

    def test_weston_comes_to_its_session(self):
        """It wants logind or its own launcher, and ends where there is neither, before it opens a device."""
        folder = self.folder
        want_program("weston")
        with compositor(folder) as (_, ran_by):
            before = steps_until_now(folder)
            ran = ran_by("weston", "--backend=drm-backend.so", "--use-pixman")
            # the opening and closing of who asked before, and the opening of who asks now
            expect("steps of weston's", steps_until_now(folder) - before - 3, 0)
        expect(
            "what it ends for", "drm backend should be run using weston-launch binary" in ran.stdout + ran.stderr, True
        )
        expect("status", ran.returncode, 1)


if __name__ == "__main__":
    sys.exit(run_tests())
