#!/usr/bin/env python3
"""Tests of monitors that are plugged and unplugged under `with-server --udev`: what libudev reports, and what compositors do.

Each test has its own folder. The last line is `N passed, M failed`. If there is no umockdev, no C compiler, no libdrm with its headers,
or no such program, a test is skipped with a line. Standard library only.
"""
import os
import pathlib
import re
import shutil
import sys

sys.dont_write_bytecode = True
from support import (  # noqa: E402
    PROGRAM,
    REPOSITORY,
    FolderCase,
    Skipped,
    expect,
    expect_end,
    run,
    run_tests,
    want_program,
)

from libdrm_support import LOGIND, display, library, want_logind  # noqa: E402

WITH_SERVER = REPOSITORY / "tools/with-server"
ZIRKOSHE = REPOSITORY / "zirkoshe"
MONITOR = REPOSITORY / "tests/udev_monitor.py"
# two outputs, whose connectors are 8 and 9
LAPTOP = ("--topology", REPOSITORY / "examples/topologies/laptop.topology")
# waits until a command prints this
UNTIL = 'until_it_prints() { for n in $(seq 400); do [ "$(eval "$2")" = "$1" ] && return; sleep 0.1; done; echo "$1 is missing"; }\n'


def want_udev(*programs):
    """Skips the test where umockdev or a program isn't there."""
    for name in ("umockdev-run", *programs):
        want_program(name)
    library()
    display()


def script_in(folder, text):
    """A script of a shell in a folder."""
    path = folder / "script"
    path.write_text(f"#!/bin/sh\n{UNTIL}{text}", "utf-8")
    path.chmod(0o755)
    return path


class LibdrmPlugsTests(FolderCase):
    """Tests of monitors that are plugged and unplugged."""

    def test_libudev_reports_plugs(self):
        """With the connector. A listener that has ended is left out."""
        want_udev()
        said = self.folder / "said"
        script = f"""\
{sys.executable} {MONITOR} 0
{sys.executable} {MONITOR} 2 > {said} &
until_it_prints listens 'cat {said}'
{ZIRKOSHE} unplug 8
{ZIRKOSHE} plug 9
wait
"""
        ran = run(WITH_SERVER, "--libdrm", "--udev", *LAPTOP, script_in(self.folder, script))
        expect_end(ran, 0, "", "listens\n")
        line = "ACTION=change DEVNAME=/dev/dri/card0 HOTPLUG=1 CONNECTOR={} ID_SEAT=seat0\n"
        expect("what is told", said.read_text("utf-8"), "listens\n" + line.format(8) + line.format(9))

    def test_sway_removes_and_adds_the_output(self):
        want_udev("sway", "swaymsg", "setpriv")
        if os.geteuid() != 0:
            raise Skipped("who runs the tests isn't root, and so can't become somebody else")
        own = self.folder / "own"
        own.mkdir(0o700)
        program = shutil.copy(PROGRAM, own / "program")
        pathlib.Path(program).chmod(0o755)
        listed = """swaymsg -t get_outputs -r | grep -o '"name": "Virtual-[0-9]*"' | grep -o 'V[^"]*' | sort | xargs"""
        script = f"""\
until_it_prints 'Virtual-8 Virtual-9' "{listed.replace('"', chr(92) + '"')}"
{ZIRKOSHE} unplug 9
until_it_prints Virtual-8 "{listed.replace('"', chr(92) + '"')}"
{ZIRKOSHE} plug 9
until_it_prints 'Virtual-8 Virtual-9' "{listed.replace('"', chr(92) + '"')}"
echo ends
swaymsg exit
"""
        path = script_in(own, script)
        (own / "config").write_text(f"xwayland disable\nexec {path} > {own}/said 2>&1\n", "utf-8")
        for file in (own, *own.iterdir()):
            shutil.chown(file, "nobody")
        self.folder.chmod(0o711)
        given = {
            **os.environ,
            "DRM_SERVER_PROGRAM": str(program),
            "HOME": str(own),
            "TMPDIR": str(own),
            "XDG_RUNTIME_DIR": str(own),
            "LIBSEAT_BACKEND": "builtin",
            "SEATD_VTBOUND": "0",
            "WLR_BACKENDS": "drm",
            "WLR_RENDERER": "pixman",
            "WLR_LIBINPUT_NO_DEVICES": "1",
        }
        words = ("setpriv", "--reuid=nobody", "--regid=nogroup", "--clear-groups", WITH_SERVER, "--libdrm", "--udev")
        ran = run(*words, *LAPTOP, "sway", "-c", own / "config", env=given)
        expect("status", ran.returncode, 0)
        said = [line for line in (own / "said").read_text("utf-8").splitlines() if "IPC" not in line and line]
        expect("what the outputs were", said, ["ends"])

    def test_weston_removes_and_adds_the_output(self):
        want_udev("weston")
        self.folder.chmod(0o700)
        log = self.folder / "log"
        script = f"""\
weston --backend=drm-backend.so --use-pixman --drm-device=card0 --seat=seat9 --continue-without-input --log={log} &
until_it_prints 2 "grep -c 'enabled with head' {log}"
{ZIRKOSHE} unplug 9
until_it_prints 1 "grep -c 'no heads left' {log}"
{ZIRKOSHE} plug 9
until_it_prints 3 "grep -c 'enabled with head' {log}"
kill $!
wait
"""
        words = (WITH_SERVER, "--libdrm", "--udev", "--seat", "seat9", *LAPTOP, script_in(self.folder, script))
        ran = run(*words, env={**os.environ, "XDG_RUNTIME_DIR": str(self.folder)})
        expect("what is missing", "is missing" in ran.stdout, False)
        found = re.findall(r"head 'Virtual-(\d+)' updated, connector \d+ is (\w+)", log.read_text("utf-8"))
        states = [("8", "connected"), ("9", "connected"), ("9", "disconnected"), ("9", "connected")]
        expect("the states of connectors", found, states)

    def test_mutter_removes_and_adds_the_output(self):
        want_udev("mutter", "dbus-run-session", "dbus-send")
        want_logind()
        self.folder.chmod(0o700)
        said = self.folder / "said"
        name = "org.gnome.Mutter.DisplayConfig"
        asked = f"dbus-send --session --print-reply --dest={name} /{name.replace('.', '/')} {name}.GetCurrentState"
        script = f"""\
names() {{ {asked} 2> /dev/null | grep -o 'Virtual-[0-9]*' | sort -u | xargs; }}
exec > {said}
until_it_prints 'Virtual-8 Virtual-9' names
{ZIRKOSHE} unplug 9
until_it_prints Virtual-8 names
{ZIRKOSHE} plug 9
until_it_prints 'Virtual-8 Virtual-9' names
echo ends
"""
        mutter = ("dbus-run-session", "mutter", "--wayland", "--display-server", "--no-x11", "--")
        words = (WITH_SERVER, "--libdrm", "--udev", *LAPTOP, LOGIND, *mutter, script_in(self.folder, script))
        run(*words, env={**os.environ, "XDG_RUNTIME_DIR": str(self.folder), "HOME": str(self.folder)})
        expect("what the outputs were", said.read_text("utf-8"), "ends\n")


if __name__ == "__main__":
    sys.exit(run_tests())
