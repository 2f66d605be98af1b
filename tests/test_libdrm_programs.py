#!/usr/bin/env python3
"""Runs unchanged programs over clients/libdrm, ten seconds each, and prints how far each of them gets.

    tests/test_libdrm_programs.py [--update] [TEST..]

Each program is a test, which is skipped if the program is not installed. After the tests it prints a table: the version, whether the
program uses atomic commits, how far it gets, how many frames the CRTC with most frames shows, and the last request that fails.
`--update` writes the rows of the programs that ran into docs/LIBDRM.md. The last line is `N passed, M failed`. Standard library only.
"""
import collections
import os
import re
import shutil
import sys
from typing import Dict, List, NamedTuple, Tuple

sys.dont_write_bytecode = True
from support import REPOSITORY, FolderCase, Skipped, expect, run, run_tests, want_program  # noqa: E402

from libdrm_support import LOGIND, library, supervisor, want_logind  # noqa: E402

PAGE = REPOSITORY / "docs/LIBDRM.md"
HEAD = "| program | version | requests | how far | frames | last failing request |"
LAPTOP = ("--topology", str(REPOSITORY / "examples/topologies/laptop.topology"))
SEAT = ("--udev", "--seat", "seat9")

# how long frames are shown, and how fast at most: the modes have 60 Hz, and a program starts and ends besides
SHOWING = 10
MOST_RATE = 61

# what is run before a command of wlroots, which refuses to be root
SOMEBODY = """\
chown nobody .
export LIBSEAT_BACKEND=builtin SEATD_VTBOUND=0
export WLR_BACKENDS=drm WLR_DRM_DEVICES=/dev/dri/card0 WLR_LIBINPUT_NO_DEVICES=1 WLR_RENDERER_ALLOW_SOFTWARE=1
export LD_PRELOAD=$PWD/library.so
somebody="setpriv --reuid=nobody --regid=nogroup --clear-groups"
"""
WLROOTS = ("setpriv", "weston-presentation-shm")
LOGINDS = ("dbus-run-session", "weston-simple-shm")

WESTON = f"""\
weston --backend=drm-backend.so --use-pixman --drm-device=card0 --seat=seat9 --continue-without-input --socket=shown &
weston=$!
while kill -0 $weston && ! [ -S shown ]; do sleep 0.1; done
WAYLAND_DISPLAY=shown timeout {SHOWING} weston-presentation-shm
kill $weston
wait $weston
"""
SWAY = f"""\
{SOMEBODY}cat > config << END
xwayland disable
exec weston-presentation-shm
exec sleep {SHOWING} && swaymsg exit
END
WLR_RENDERER=pixman $somebody sway -c config
"""
# the supervisor preloads nothing
SUPERVISED_SWAY = SWAY.replace("export LD_PRELOAD=$PWD/library.so\n", "")
CAGE = f"""\
{SOMEBODY}WLR_RENDERER=pixman $somebody cage -- timeout {SHOWING} weston-presentation-shm
"""
PHOC = f"""\
{SOMEBODY}WLR_RENDERER=pixman $somebody timeout {SHOWING} phoc -E weston-presentation-shm
"""
WAYFIRE = f"""\
{SOMEBODY}cat > wayfire.ini << END
[core]
plugins = autostart
[autostart]
autostart_wf_shell = false
shown = weston-presentation-shm
END
WLR_RENDERER=gles2 $somebody timeout {SHOWING} wayfire -c wayfire.ini
"""
XORG = f"""\
cat > xorg.conf << END
Section "ServerFlags"
  Option "AutoAddDevices" "false"
  Option "AutoAddGPU" "false"
  Option "DontVTSwitch" "true"
EndSection
Section "Device"
  Identifier "d"
  Driver "modesetting"
  Option "kmsdev" "/dev/dri/card0"
  Option "AccelMethod" "none"
EndSection
Section "Screen"
  Identifier "s"
  Device "d"
EndSection
END
timeout {SHOWING} Xorg -displayfd 1 -seat seat9 -noreset -config $PWD/xorg.conf -logfile $PWD/log
"""
# they get the card from logind
LOGGED_IN = f"HOME=$PWD GSETTINGS_BACKEND=memory {LOGIND} dbus-run-session -- timeout {SHOWING}"
MUTTER = f"""\
{LOGGED_IN} mutter --wayland --display-server --no-x11 --wayland-display shown -- weston-simple-shm
"""
# the loader preloads nothing into a program with capabilities, which a copy does not have
KWIN = f"""\
cp "$(command -v kwin_wayland)" .
{LOGGED_IN} ./kwin_wayland --drm --no-lockscreen --no-global-shortcuts --socket shown weston-simple-shm
"""
KMSCUBE = f"(sleep {SHOWING}; echo) | kmscube"
MPV = f"mpv --no-config --no-audio --vo=drm --length={SHOWING} av://lavfi:testsrc=size=320x240:rate=30"

# how far a program can get
LISTS, SETS, SHOWS = "reads the card", "sets a mode", "shows frames"
# the status of what `timeout` ended
TIMED_OUT = 124


class Program(NamedTuple):
    """A program with its package, the command that runs it, how far it gets, and what else the command needs.

    `stops` is what ends it that is no request.
    """

    name: str
    package: str
    command: str
    far: str
    options: Tuple[str, ...] = ()
    needs: Tuple[str, ...] = ()
    status: int = 0
    stops: str = ""


PROGRAMS = (
    Program("drm_info", "drm-info", "drm_info", LISTS),
    Program("modetest -v", "libdrm-tests", f"(sleep {SHOWING}; echo) | modetest -M zirkoshe -s 7@1:1024x768 -v", SHOWS),
    Program(
        "modetest -a",
        "libdrm-tests",
        "(sleep 1; echo) | modetest -M zirkoshe -a -P 3@1:1024x768 -s 7@1:1024x768",
        SETS,
    ),
    Program("kmscube", "kmscube", KMSCUBE, SHOWS),
    Program(
        "kmscube -A",
        "kmscube",
        f"{KMSCUBE} -A",
        LISTS,
        status=255,
        stops="eglDupNativeFenceFDANDROID: a software renderer has no fences",
    ),
    Program("glmark2-es2-drm", "glmark2-es2-drm", f"glmark2-es2-drm -b build:duration={SHOWING}", SHOWS, ("--udev",)),
    Program("mpv --vo=drm", "mpv", MPV, SHOWS),
    Program(
        "mpv --vo=gpu",
        "mpv",
        f"{MPV} --vo=gpu --gpu-context=drm",
        LISTS,
        status=2,
        stops="gbm_surface_create: Mesa has no driver for the card",
    ),
    Program("weston", "weston", WESTON, SHOWS, SEAT + LAPTOP, ("weston-presentation-shm",)),
    Program("sway", "sway", SWAY, SHOWS, (), WLROOTS + ("swaymsg",)),
    Program("sway --seccomp", "sway", SUPERVISED_SWAY, SHOWS, ("--seccomp",), WLROOTS + ("swaymsg",)),
    Program("kmscube --seccomp", "kmscube", KMSCUBE, SHOWS, ("--seccomp",)),
    Program("cage", "cage", CAGE, SHOWS, (), WLROOTS + ("Xwayland",)),
    Program("phoc", "phoc", PHOC, SHOWS, (), WLROOTS, TIMED_OUT),
    Program("wayfire", "wayfire", WAYFIRE, SHOWS, (), WLROOTS, TIMED_OUT),
    Program("mutter", "mutter", MUTTER, SHOWS, ("--udev",), LOGINDS, TIMED_OUT),
    Program("kwin_wayland", "kwin-wayland", KWIN, SHOWS, ("--udev",), LOGINDS, TIMED_OUT),
    Program("Xorg", "xserver-xorg-core", XORG, SETS, SEAT, (), TIMED_OUT),
)


class Row(NamedTuple):
    """What a run of a program shows."""

    version: str
    requests: str
    far: str
    frames: int
    failing: str


rows: Dict[str, Row] = collections.OrderedDict()


def version_of(package):
    """The version of an installed package, or `-`."""
    found = run("dpkg-query", "-W", "-f=${Version}", package) if shutil.which("dpkg-query") else None
    return found.stdout.strip() if found is not None and found.returncode == 0 else "-"


def row_of(program, journal, trace):
    """What the lines of a journal and of a trace show."""
    frames = collections.Counter(re.findall(r"(?m)^\w setcrtc (\d+) [1-9]\d* \d+ -> done$", journal))
    most = max(frames.values(), default=0)
    requests = re.findall(r"(?m)^([A-Z][A-Z_0-9]*): (done|denied .*|failed \d+)$", trace)
    done = {name for name, result in requests if result == "done"}
    failing = [f"{name}: {result}" for name, result in requests if result != "done"]
    mode = "atomic" if "MODE_ATOMIC" in done else "legacy" if done & {"MODE_SETCRTC", "MODE_PAGE_FLIP"} else "-"
    far = SHOWS if most > SHOWING else SETS if mode != "-" else LISTS if done else "finds no card"
    return Row(version_of(program.package), mode, far, most, program.stops or (failing[-1] if failing else "-"))


def run_program_of_table(folder, program):
    """Runs a program in a folder, and returns its status and its row."""
    for name in (program.name.split()[0], *program.needs):
        want_program(name)
    if program.options and "--udev" in program.options:
        want_program("umockdev-run")
    if "--seccomp" in program.options:
        supervisor()
    if str(LOGIND) in program.command:
        want_logind()
    if "setpriv" in program.needs and os.geteuid() != 0:
        raise Skipped("a program is run as another user, which takes root")
    given = {**os.environ, "DRM_SERVER_TRACE": "all", "XDG_RUNTIME_DIR": str(folder)}
    # somebody else perhaps can't read the folders above the library
    shutil.copy(library(), folder / "library.so")
    folder.chmod(0o700)
    journal = folder / "journal"
    words = [*([] if "--seccomp" in program.options else ["--libdrm"]), *program.options]
    ran = run(
        *(REPOSITORY / "tools/with-server", *words, "--journal", journal, "sh", "-c", program.command),
        env=given,
        cwd=folder,
        errors="replace",
    )
    return ran.returncode, row_of(program, journal.read_text(), ran.stdout + ran.stderr)


def line_of(name):
    """The line of a program in the table."""
    row = rows[name]
    return f"| `{name}` | {row.version} | {row.requests} | {row.far} | {row.frames or '-'} | {row.failing} |"


def lines_of_page() -> Tuple[List[str], int, int]:
    """The lines of the page, and where the rows of the table begin and end."""
    lines = PAGE.read_text().splitlines()
    begin = lines.index(HEAD) + 2
    end = next(at for at in range(begin, len(lines)) if not lines[at].startswith("|"))
    return lines, begin, end


def update() -> None:
    """Writes the rows of the programs that ran into the page."""
    lines, begin, end = lines_of_page()
    known = {line.split("`")[1]: line for line in lines[begin:end]}
    known.update({name: line_of(name) for name in rows})
    lines[begin:end] = [known[program.name] for program in PROGRAMS if program.name in known]
    PAGE.write_text("".join(f"{line}\n" for line in lines))


class LibdrmProgramsTests(FolderCase):
    """Runs unchanged programs over clients/libdrm."""

    def test_page_lists_the_programs(self):
        lines, begin, end = lines_of_page()
        listed = [tuple(cell.strip() for cell in line.split("|")[1:5:3]) for line in lines[begin:end]]
        expect("programs and how far they get", listed, [(f"`{each.name}`", each.far) for each in PROGRAMS])

    @classmethod
    def tearDownClass(cls) -> None:
        if rows:
            print("\n".join([HEAD, *map(line_of, rows)]), flush=True)


def test_of(program):
    """The test of a program."""

    def test(self: FolderCase) -> None:
        status, rows[program.name] = run_program_of_table(self.folder, program)
        row = rows[program.name]
        expect(f"status and how far it gets: {row}", (status, row.far), (program.status, program.far))
        expect("that it is not faster than the mode", row.frames <= MOST_RATE * (SHOWING + 1), True)

    return test


for each_program in PROGRAMS:
    test_name = "test_" + re.sub(r"\W+", "_", each_program.name)
    setattr(LibdrmProgramsTests, test_name, test_of(each_program))

if __name__ == "__main__":
    is_update = "--update" in sys.argv
    sys.argv[:] = [word for word in sys.argv if word != "--update"]
    final = run_tests()
    if is_update:
        update()
    sys.exit(final)
