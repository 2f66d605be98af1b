#!/usr/bin/env python3
"""Tests of programs that make system calls themselves, under the supervisor of clients/libdrm.

What it tests: programs in C, Rust and Go that make system calls themselves, under the supervisor. What they show,
lease, map and share; their events; what is refused. The end of a client with its descriptor; the command's
status and signals.

The errnos are those of the kernel's core. Each test has its own folder. The last line is `N passed, M failed`. If there
is no C compiler or no libdrm with its headers, or the kernel allows no supervisor, the tests are skipped. Standard library only.
"""
import os
import pathlib
import signal
import subprocess
import sys

sys.dont_write_bytecode = True
from support import (  # noqa: E402
    BUILT,
    REPOSITORY,
    SECONDS,
    FolderCase,
    connect,
    ended_in_time,
    expect,
    expect_end,
    run,
    run_tests,
    want_libdrm,
    want_program,
)

from zirkoshe.audit import audit_by  # noqa: E402

from libdrm_support import COMPILER, NOT_STARTED, supervisor, wait_until  # noqa: E402

WITH_SERVER = REPOSITORY / "tools/with-server"

# what the program of the tests finds, by what is tried
FINDINGS = {
    "shows": """\
version: done
driver: zirkoshe
becomes master: done
resources: done
2 CRTCs, 2 encoders, 2 connectors
makes a dumb buffer: done
adds a framebuffer: done
sets a CRTC: done
another client reads it: done
the framebuffer is shown: yes
another client sets it: EACCES
and becomes master: EACCES
the next client is master: done
""",
    "leases": """\
universal planes: done
leases an output: done
leases it again: EBUSY
closed at exec: yes
makes a dumb buffer: done
adds a framebuffer: done
lessee shows it: done
on another CRTC: ENOENT
resources: done
1 CRTCs, 2 encoders, 1 connectors
""",
    "maps": """\
makes a dumb buffer: done
256 bytes in a line, 16384 in all
maps it: done
it has: nothing
it then has: pixels
maps more than it has: EINVAL
maps one that isn't there: ENOENT
destroys it: done
makes another: done
maps that: done
that has: nothing
""",
    "shares": """\
makes a dumb buffer: done
exports it: done
16384 bytes
maps a handle: done
the descriptor has: pixels
begins to write: done
with an unknown flag: EINVAL
with a bad address: EFAULT
asks what isn't known of it: ENOTTY
another client imports it: done
the descriptor is the same: yes
maps a handle: done
the importer has: pixels
imports a node: EINVAL
imports no descriptor: EBADF
""",
    "forks": """\
resources: done
2 CRTCs, 2 encoders, 2 connectors
still master: done
""",
    "refusals": """\
reads to a bad address: EFAULT
reads to no address: EFAULT
asks with a bad address: EFAULT
asks what isn't known: EINVAL
flips with an event: ENOENT
reads no event: EAGAIN
asks another file: ENOTTY
asks no file: EBADF
opens another card: ENOENT
opens the render node: ENOENT
opens a bad address: EFAULT
""",
    "events": """\
makes a dumb buffer: done
adds a framebuffer: done
sets a CRTC: done
flips: done
flips again: EBUSY
flip: ready 1, 32 bytes, type 2, data 7
reads again: EAGAIN
waits for a blanking: done
blanking: ready 1, 32 bytes, type 1, data 8
waits by epoll: done
waits for another: done
epoll: 1
sequence: ready 1, 32 bytes, type 3, data 9
writes: done
""",
}

FINDINGS_IN_RUST = """\
driver zirkoshe
2 CRTCs, 2 connectors
the master darkens: Ok(0)
another client darkens: Err(13)
another card: Err(2)
"""


FINDINGS_IN_GO = """\
driver zirkoshe
2 CRTCs, 2 connectors
the master darkens: 0
another client darkens: 13
another card: open /dev/dri/card1: no such file or directory
a goroutine darkens: 0
"""


LOOKS = """
ls -l /dev/dri | awk 'NR > 1 {print $1, $5, $6, $NF}'
stat -c '%F %t:%T' /dev/dri/card0 /dev/dri/renderD128
stat -c '%F %t:%T' - < /dev/dri/card0
realpath /dev/dri/../dri/card0
cat /sys/dev/char/226:0/uevent
readlink /sys/dev/char/226:0/device/subsystem
test -d /sys/dev/char/226:128/device/drm && test -r /dev/dri/card0 && ! test -x /dev/dri/card0 && echo readable
test -e /dev/dri/card1 || echo none
modetest -M zirkoshe -e | awk '/^[0-9]/ {print $1, $4}'
drmdevice | grep -E 'Devices reported|nodes\\[|fullname' | sort -u
"""
FINDINGS_OF_LOOKS = """\
crw-rw-rw- 226, 0 card0
crw-rw-rw- 226, 128 renderD128
character special file e2:0
character special file e2:80
character special file e2:0
/dev/dri/card0
MAJOR=226
MINOR=0
DEVNAME=dri/card0
DEVTYPE=drm_minor
../../../bus/platform
readable
none
5 0x00000003
6 0x00000002
--- Devices reported 1 ---
|       +-> fullname\tzirkoshe
|   +-> nodes[0] /dev/dri/card0
|   +-> nodes[2] /dev/dri/renderD128
"""


def static_program():
    """The program of the tests, compiled once without a library that is loaded."""
    words = [word for word in want_libdrm() if word.startswith("-I")]
    program = pathlib.Path(BUILT.name, "supervised")
    if not program.exists():
        ran = run(*COMPILER, "-static", *words, "-o", program, REPOSITORY / "tests/supervised.c")
        expect("what cc says", (ran.returncode, ran.stdout + ran.stderr), (0, ""))
    return program


def has_ended(process):
    """Whether a process has ended, even if nothing has waited for it: then it has no command line."""
    try:
        return pathlib.Path(f"/proc/{process}/cmdline").read_bytes() == b""
    except OSError:
        return True


# opens the card, and closes it or ends as it is told
HOLDER = """
import os
card = os.open("/dev/dri/card0", os.O_RDWR)
print("open", flush=True)
input()
os.close(card)
print("closed", flush=True)
input()
"""


class LibdrmSupervisorTests(FolderCase):
    """Tests of programs that make system calls themselves, under the supervisor of clients/libdrm."""

    def test_static_program(self):
        supervisor()
        for tried, found in FINDINGS.items():
            ran = run(WITH_SERVER, "--seccomp", static_program(), tried)
            expect(f"what it finds of {tried}", (ran.stderr, ran.returncode, ran.stdout), ("", 0, found))

    def test_program_in_rust(self):
        supervisor()
        want_program("rustc")
        program = self.folder / "supervised"
        ran = run("rustc", "--edition", "2021", "-D", "warnings", "-o", program, REPOSITORY / "tests/supervised.rs")
        expect("what rustc says", (ran.returncode, ran.stdout + ran.stderr), (0, ""))
        expect_end(run(WITH_SERVER, "--seccomp", program), 0, "", FINDINGS_IN_RUST)

    def test_program_in_go(self):
        """The Go toolchain is the Debian package golang-go."""
        supervisor()
        want_program("go")
        program = self.folder / "supervised"
        given = {
            **os.environ,
            "CGO_ENABLED": "0",
            "GOCACHE": str(self.folder / "cache"),
            "GOFLAGS": "",
            "GO111MODULE": "off",
        }
        ran = run("go", "build", "-o", program, REPOSITORY / "tests/supervised.go", env=given)
        expect("what go says", (ran.returncode, ran.stdout + ran.stderr), (0, ""))
        expect_end(run(WITH_SERVER, "--seccomp", program), 0, "", FINDINGS_IN_GO)

    def test_files_of_the_device(self):
        """By a shell and by libdrm: what they look at and list. No folder is left."""
        supervisor()
        for name in ("modetest", "drmdevice"):
            want_program(name)
        given = {**os.environ, "TMPDIR": str(self.folder)}
        ran = run(WITH_SERVER, "--seccomp", "--render", "sh", "-c", LOOKS, env=given)
        expect_end(ran, 0, "", FINDINGS_OF_LOOKS)
        expect("what is left", list(self.folder.iterdir()), [])

    def test_requests_are_traced(self):
        """As the library traces them: what the server refused by its rule."""
        supervisor()
        given = {**os.environ, "DRM_SERVER_TRACE": "1"}
        ran = run(WITH_SERVER, "--seccomp", static_program(), "leases", env=given)
        expect("output", ran.stdout, FINDINGS["leases"])
        refused = ["MODE_CREATE_LEASE: denied 34 LeasedOut 16", "MODE_SETCRTC: denied 30 NoModeObject 2"]
        expect("what is traced", ran.stderr.splitlines(), refused)

    def test_render_node(self):
        supervisor()
        opening = f"{sys.executable} -c 'import os; os.open(\"/dev/dri/renderD128\", os.O_RDWR)'"
        for words, status in (([], 1), (["--render"], 0)):
            ran = run(WITH_SERVER, "--seccomp", *words, "sh", "-c", opening)
            expect(f"status with {words}", ran.returncode, status)

    def test_status_is_that_of_the_command(self):
        supervisor()
        for words, status, error in (
            (["sh", "-c", "exit 7"], 7, ""),
            (["sh", "-c", "kill -9 $$"], 128 + signal.SIGKILL, ""),
            (["no-such-command"], 127, "supervisor: command not found: no-such-command\n"),
            (["/dev/null"], 126, "supervisor: can't run /dev/null: Permission denied\n"),
        ):
            ran = run(WITH_SERVER, "--seccomp", *words)
            expect(f"status of {words}", (ran.stderr, ran.returncode, ran.stdout), (error, status, ""))

    def test_command_that_is_filtered_already(self):
        """The kernel allows one supervisor of a process."""
        path = supervisor()
        reason = "the kernel refuses a filter of system calls with notifications: Device or resource busy"
        expect_end(run(path, path, "true"), NOT_STARTED, f"supervisor: {reason}\n", "")

    def test_command_that_does_not_end_is_killed(self):
        supervisor()
        asked = "trap '' TERM; echo $$; while :; do sleep 1; done"
        words = [WITH_SERVER, "--seccomp", "sh", "-c", asked]
        with subprocess.Popen(words, stdout=subprocess.PIPE, text=True) as started, ended_in_time(started):
            asking = int(started.stdout.readline())
            started.terminate()
            expect("status", started.wait(SECONDS), 128 + signal.SIGKILL)
        wait_until(lambda: has_ended(asking))

    def test_command_ends_with_the_supervisor(self):
        words = [supervisor(), "sh", "-c", "echo $$; read line"]
        streams = {"stdin": subprocess.PIPE, "stdout": subprocess.PIPE, "text": True}
        with subprocess.Popen(words, **streams) as started, ended_in_time(started):
            command = int(started.stdout.readline())
            started.kill()
            wait_until(lambda: has_ended(command))

    def test_signal_reaches_the_command(self):
        supervisor()
        asked = "trap 'exit 9' TERM; echo ready; while :; do sleep 0.1; done"
        words = [WITH_SERVER, "--seccomp", "sh", "-c", asked]
        with subprocess.Popen(words, stdout=subprocess.PIPE, text=True) as started, ended_in_time(started):
            expect("what it prints", started.stdout.readline(), "ready\n")
            started.terminate()
            expect("status", started.wait(SECONDS), 9)

    def test_client_ends_with_its_descriptor(self):
        """Another client learns of it, though the program continues and makes no call."""
        supervisor()
        words = [WITH_SERVER, "--seccomp", "sh", "-c", 'echo $DRM_SERVER_ROOT; exec "$@"', "sh"]
        streams = {"stdin": subprocess.PIPE, "stdout": subprocess.PIPE, "text": True}
        with subprocess.Popen([*words, sys.executable, "-c", HOLDER], **streams) as holder, ended_in_time(holder):
            with connect(holder.stdout.readline().rstrip("\n")) as root:
                for said, clients in (("open", 2), ("closed", 1)):
                    expect("what it prints", holder.stdout.readline(), f"{said}\n")
                    wait_until(lambda: len(audit_by(root).clients) == clients)
                    holder.stdin.write("\n")
                    holder.stdin.flush()
                expect("status", holder.wait(SECONDS), 0)

    def test_supervisor_takes_the_place_of_the_library(self):
        ran = run(WITH_SERVER, "--seccomp", "--libdrm", "true")
        reason = "with-server: error: --seccomp and --libdrm exclude each other: use one of them\n"
        expect("status and reason", (ran.returncode, ran.stderr.endswith(reason)), (2, True))


if __name__ == "__main__":
    sys.exit(run_tests())
