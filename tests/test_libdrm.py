#!/usr/bin/env python3
"""Tests of programs that call libdrm and know nothing of this server, with clients/libdrm loaded into them.

What it tests: unchanged programs: `modetest`, `drmdevice`, `drm_info`; 48 worked rows as calls of libdrm. Shared
descriptors, forks, killed processes, passed buffers; errnos of missing calls. How nodes are found; writing to
a node; system calls by their numbers; what a call costs compared with the C client.

Each test has its own folder. The last line is `N passed, M failed`; where there is no C compiler, no libdrm with
its headers, or no such program, a test is skipped with the reason. Standard library only.
"""
import contextlib
import errno
import json
import os
import pathlib
import re
import shutil
import signal
import subprocess
import sys

sys.dont_write_bytecode = True
from support import (  # noqa: E402
    CLIENTS,
    PROGRAM,
    REPOSITORY,
    SECONDS,
    FolderCase,
    Skipped,
    connect,
    ended_in_time,
    expect,
    is_compiled_with_checks,
    run,
    run_tests,
    want_libdrm,
    want_program,
)

from zirkoshe.constants import RULES  # noqa: E402
from zirkoshe.server import Server  # noqa: E402

from blocks import worked_rows  # noqa: E402
from libdrm_support import (  # noqa: E402
    LIBRARY,
    compiled,
    environment,
    library,
    said,
    served,
    wait_until,
    waits_for_an_answer,
)

EBADF = 9
VGEM_MMAP = pathlib.Path("/usr/libexec/igt-gpu-tools/benchmarks/vgem_mmap")

# How much more a call may cost than the same by the C client: as a factor, or in nanoseconds.
MOST_COST, MOST_MORE = 1.6, 30_000

# What modetest lists: of each kind of object its first column, and what else the server tells of it.
ENCODERS = {5: "0x00000003", 6: "0x00000002"}
CONNECTORS = {7: "5", 8: "6"}
CRTCS = (1, 2)
PLANES = {3: "0x00000001", 4: "0x00000002"}

# What stands in for what the server doesn't have.
MODES = ["1920x1080", "1280x720", "1024x768", "800x600", "640x480"]
CAPABILITIES = {
    "DUMB_BUFFER": 1,
    "VBLANK_HIGH_CRTC": 1,
    "DUMB_PREFERRED_DEPTH": 0,
    "DUMB_PREFER_SHADOW": 0,
    "PRIME": 3,
    "TIMESTAMP_MONOTONIC": 1,
    "ASYNC_PAGE_FLIP": 0,
    "CURSOR_WIDTH": 64,
    "CURSOR_HEIGHT": 64,
    "ADDFB2_MODIFIERS": 1,
    "PAGE_FLIP_TARGET": 0,
    "CRTC_IN_VBLANK_EVENT": 1,
    "SYNCOBJ": 1,
    "SYNCOBJ_TIMELINE": 1,
}
CLIENT_CAPABILITIES = {"STEREO_3D", "UNIVERSAL_PLANES", "ATOMIC", "ASPECT_RATIO", "WRITEBACK_CONNECTORS"}

LEASE_SAYS = """\
owner: leases an output: done
owner: leases it again: EBUSY
lessee: shows a framebuffer on what it has: done
lessee: shows it on another CRTC: ENOENT
lessee: asks what another CRTC shows: ENOENT
lessee: asks for another connector: ENOENT
lessee: asks for another plane: ENOENT
lessee: has 3 objects
owner: has 1 lessee
owner: revokes another lease: ENOENT
owner: revokes the lease: done
lessee: has 0 objects
lessee: shows a framebuffer on what it had: ENOENT
owner: has 0 lessees
"""

# What is told of it where that is wanted.
LEASE_TRACE = """\
MODE_CREATE_LEASE: denied 34 LeasedOut 16
MODE_SETCRTC: denied 30 NoModeObject 2
MODE_GETCRTC: denied 30 NoModeObject 2
MODE_GETCONNECTOR: denied 30 NoModeObject 2
MODE_GETPLANE: denied 30 NoModeObject 2
MODE_REVOKE_LEASE: denied 36 NoLessee 2
MODE_SETCRTC: denied 30 NoModeObject 2
"""

# Lines of worked rows that libdrm has no word for, and that change nothing of what it tells.
UNSAID = ("audit", "list_handles", "raw", "stamp_read", "stamp_write")
# How many worked rows are tried: the others have their own limits, or nothing else that libdrm has a word for, or stand below.
ROWS = 48
# Worked rows that don't hold for a program over libdrm, and why: each is in docs/LIBDRM.md.
OTHERWISE = {
    "buffers_of_bad_sizes": "libdrm makes dumb buffers alone",
    "stamps_of_buffers": "a render client makes no dumb buffer",
    "render_and_lease_openings": "a render client makes no dumb buffer",
    "names_are_for_authenticated_clients": "a render client makes no dumb buffer",
    "capabilities_and_unknown_calls": "the core's capabilities are answered",
    "universal_planes_of_each_client": "the core's capabilities are answered",
    "leases_are_refused_in_order": "a lease is opened as it is made",
    "lease_tokens_and_revocations": "a lease is opened as it is made",
    "leases_go_with_their_owner": "a lease is opened as it is made",
    "dropping_master_leaves_leases": "a lease is opened on the card's socket",
    "audits_of_leases_and_root_lessees": "a lease is opened on the card's socket",
    "objects_go_with_the_last_that_refers_to_them": "a closed descriptor is no token",
    "closings_take_no_token_of_another": "a closed descriptor is no token",
    "tokens_keep_objects_and_go_with_their_client": "a descriptor outlives its exporter's file",
    "imports_beside_handles_without_a_place": "a closed descriptor is no token",
    "audits_of_names_and_tokens": "a closed descriptor is no token",
}


def section(text, title):
    """The lines of a listing of modetest that begin with an id, split."""
    found = re.search(rf"^{title}:\n(.*?)(?=^[A-Z]|\Z)", text, re.M | re.S)
    return [line.split() for line in (found[1] if found else "").splitlines() if line[:1].isdigit()]


def told(answer):
    """What libdrm tells of an answer: of a refusal the errno alone, which is EBADF where the descriptor was closed."""
    words = answer.split()
    if words[0] in ("denied", "apart"):
        return f"denied {EBADF if words[1] == '3' else RULES[int(words[1])][1]}"
    return "client" if words[0] == "client" else answer


def sharing(folder, what):
    """What the program of shared descriptors finds."""
    return said(folder, compiled("tests/libdrm_sharing.c"), what)


# A program in Python, whose subprocess starts children by vfork, and closes in them what they aren't to have.
CHILDREN = """
import fcntl, os, subprocess, sys
SET_MASTER, DROP_MASTER = 0x641E, 0x641F
card = os.open("/dev/dri/card0", os.O_RDWR)
subprocess.run(["true"], check=True)
fcntl.ioctl(card, DROP_MASTER)
inherited = f"import fcntl; fcntl.ioctl({card}, {SET_MASTER})"
subprocess.run([sys.executable, "-c", inherited], pass_fds=[card], check=True)
fcntl.ioctl(card, DROP_MASTER)
print("the connection is there")
"""


# A program in Python that lists the nodes that libudev finds, each with its seat.
NODES = """
import ctypes
udev = ctypes.CDLL("libudev.so.1")

def call(name, *arguments, result=ctypes.c_void_p):
    called = getattr(udev, name)
    called.restype = result
    return called(*(each if isinstance(each, bytes) else ctypes.c_void_p(each) for each in arguments))

context = call("udev_new")
listed = call("udev_enumerate_new", context)
call("udev_enumerate_add_match_subsystem", listed, b"drm")
call("udev_enumerate_scan_devices", listed)
entry = call("udev_enumerate_get_list_entry", listed)
while entry:
    path = call("udev_list_entry_get_name", entry)
    device = call("udev_device_new_from_syspath", context, path)
    node = call("udev_device_get_devnode", device, result=ctypes.c_char_p)
    seat = call("udev_device_get_property_value", device, b"ID_SEAT", result=ctypes.c_char_p)
    print(node.decode(), seat.decode())
    entry = call("udev_list_entry_get_next", entry)
"""


# A program in Python that has a connection by libdrm's path, and makes another one by the socket itself.
BESIDE = """
import os
from zirkoshe import Client
os.open("/dev/dri/card0", os.O_RDWR)
client = Client(os.environ["DRM_SERVER_CARD"], None, 10)
print(client.ask("get_cap 1"))
client.close()
"""


def costs(folder):
    """What a call takes through libdrm and by the C client, in nanoseconds, each next to its own server.

    The median of 10,000 calls, or of 1,000 to a server that is slow since it checks itself.
    """
    times = 1000 if is_compiled_with_checks() else 10000
    through, beside, failed = map(int, said(folder, compiled("tests/libdrm_cost.c"), times).split())
    expect("calls that failed", failed, 0)
    print(f"a call through libdrm takes {through / 1000:.1f} us, by the C client {beside / 1000:.1f} us", flush=True)
    return through, beside


@contextlib.contextmanager
def begun(folder, what):
    """The program of shared descriptors, which waits for a line at some place, next to a server."""
    given, program = environment(folder), compiled("tests/libdrm_sharing.c")
    with served(folder) as started, subprocess.Popen(
        [program, what], stdin=subprocess.PIPE, stdout=subprocess.PIPE, text=True, env=given
    ) as sharer, ended_in_time(sharer):
        yield started, sharer


def is_stopped(process):
    """Whether no thread of a process that was sent SIGSTOP runs any more."""
    states = [
        path.read_text().rpartition(")")[2].split()[0] for path in pathlib.Path(f"/proc/{process}/task").glob("*/stat")
    ]
    return set(states) == {"T"}


def has_ended(process):
    """Whether a process has ended, if nothing has waited for it either: then it has no command line."""
    try:
        return pathlib.Path(f"/proc/{process}/cmdline").read_bytes() == b""
    except OSError:
        return True


class LibdrmTests(FolderCase):
    """Tests of programs that call libdrm and know nothing of this server, with clients/libdrm loaded into them."""

    def copy_sources(self):
        """A copy of what is compiled, without what was."""
        want_libdrm()
        for part in ("c", "libdrm"):
            shutil.copytree(CLIENTS / part, self.folder / "clients" / part, ignore=shutil.ignore_patterns("out"))
        return self.folder / "clients/libdrm"

    def test_library_is_compiled_without_a_warning(self):
        """And the display and the supervisor."""
        build = self.copy_sources() / "build"
        for options in ([], ["--display"], ["--supervisor"]):
            ran = run(build, *options, env={**os.environ, "CFLAGS": "-Werror"})
            expect(f"what the build with {options} says", (ran.returncode, ran.stderr), (0, ""))

    def test_meson_builds_each_file(self):
        named = re.findall(r"'([\w/]+\.c)'", (LIBRARY / "meson.build").read_text())
        expect("files", sorted(named), sorted(str(path.relative_to(LIBRARY)) for path in LIBRARY.rglob("*.c")))

    def test_library_is_built_by_meson(self):
        """From the same files as by the script, and a program runs with it."""
        folder = self.folder
        for name in ("meson", "ninja"):
            want_program(name)
        self.copy_sources()
        for words in (["setup", "--werror", "built", "clients/libdrm"], ["compile", "-C", "built"]):
            ran = run("meson", *words, cwd=folder)
            expect(f"meson {words[0]}", (ran.returncode, ran.stdout if ran.returncode else "", ran.stderr), (0, "", ""))
        given = environment(folder, LD_PRELOAD=str(folder / "built/libzirkoshe_libdrm.so"))
        with served(folder):
            ran = run(compiled("examples/libdrm_lease.c"), env=given)
        expect("what it says", (ran.stdout, ran.stderr), (LEASE_SAYS, ""))

    def test_modetest_lists_the_topology(self):
        folder = self.folder
        want_program("modetest")
        text = said(folder, "modetest", "-M", "zirkoshe")
        expect("encoders", {int(words[0]): words[3] for words in section(text, "Encoders")}, ENCODERS)
        expect("connectors", {int(words[0]): words[-1] for words in section(text, "Connectors")}, CONNECTORS)
        expect("CRTCs", tuple(int(words[0]) for words in section(text, "CRTCs")), CRTCS)
        expect("planes", {int(words[0]): words[-1] for words in section(text, "Planes")}, PLANES)

    def test_modetest_sets_both_outputs(self):
        """Who may drive what is the server's: CRTC 1 can't drive connector 8, whose encoder is for CRTC 2 alone."""
        folder = self.folder
        want_program("modetest")
        given = environment(folder)
        with served(folder):
            both = run("modetest", "-M", "zirkoshe", "-s", "7@1:1024x768", "-s", "8@2:640x480", env=given)
            wrong = run("modetest", "-M", "zirkoshe", "-s", "8@1:1024x768", env=given)
        expect(
            "the modes",
            re.findall(r"^setting mode (\w+)\S* on connectors (\d), crtc (\d)$", both.stdout, re.M),
            [("1024x768", "7", "1"), ("640x480", "8", "2")],
        )
        expect("that they are set", "failed to set mode" in both.stderr, False)
        expect("that the other isn't", "failed to set mode" in wrong.stderr, True)

    def test_modetest_finds_a_driver_by_another_name(self):
        folder = self.folder
        want_program("modetest")
        with served(folder, DRM_SERVER_DRIVER="vkms"):
            ran = run("modetest", "-M", "vkms", "-e", env=environment(folder))
        expect("encoders", {int(words[0]): words[3] for words in section(ran.stdout, "Encoders")}, ENCODERS)

    def test_with_server_loads_the_library(self):
        want_program("modetest")
        library()
        ran = run(REPOSITORY / "tools/with-server", "--libdrm", "modetest", "-M", "zirkoshe", "-e")
        expect("status", (ran.returncode, ran.stderr), (0, ""))
        expect("encoders", {int(words[0]): words[3] for words in section(ran.stdout, "Encoders")}, ENCODERS)

    def test_python_fixture_offers_a_render_node_only_on_request(self):
        library()
        asked = ["sh", "-c", "ls /dev/dri"]
        with Server(program=PROGRAM) as server:
            for more, shown in (({}, "card0\n"), ({"DRM_SERVER_RENDER": server.render}, "card0\nrenderD128\n")):
                given = {"PATH": os.environ["PATH"], **server.libdrm_environment, **more}
                ran = run(*asked, env=given)
                expect(f"nodes with {sorted(more)}", (ran.stdout, ran.stderr, ran.returncode), (shown, "", 0))

    def test_with_server_has_a_render_node_only_on_request(self):
        """As vkms has none. Programs that find one look for a renderer behind it."""
        library()
        asked = "echo ${DRM_SERVER_RENDER+variable}; ls /dev/dri; test -e /dev/dri/renderD128 && echo node"
        given = {**os.environ, "DRM_SERVER_RENDER": "/inherited"}
        for words, shown in (
            ([], "\ncard0\n"),
            (["--renders", "0"], "\ncard0\n"),
            (["--render"], "variable\ncard0\nrenderD128\nnode\n"),
            (["--renders", "2"], "variable\ncard0\nrenderD128\nnode\n"),
            (["--render", "--renders", "0"], "\ncard0\n"),
        ):
            ran = run(REPOSITORY / "tools/with-server", "--libdrm", *words, "sh", "-c", asked, env=given)
            expect(f"what a command finds with {words}", (ran.stdout, ran.stderr), (shown, ""))

    def test_libudev_finds_the_nodes_on_their_seat(self):
        want_program("umockdev-run")
        library()
        for words, found in (
            ([], "/dev/dri/card0 seat0\n"),
            (["--render"], "/dev/dri/card0 seat0\n/dev/dri/renderD128 seat0\n"),
            (["--render", "--seat", "seat9"], "/dev/dri/card0 seat9\n/dev/dri/renderD128 seat9\n"),
        ):
            ran = run(REPOSITORY / "tools/with-server", "--libdrm", "--udev", *words, sys.executable, "-c", NODES)
            expect(f"what libudev finds with {words}", (ran.returncode, ran.stdout, ran.stderr), (0, found, ""))

    def test_command_under_umockdev_is_as_any_other(self):
        """Its status, its folder for temporary files, and that no file is left."""
        want_program("umockdev-run")
        library()
        given = {**os.environ, "TMPDIR": str(self.folder)}
        asked = "echo $TMPDIR; modetest -M zirkoshe -e > encoders; exit 7"
        ran = run(REPOSITORY / "tools/with-server", "--libdrm", "--udev", "sh", "-c", asked, env=given, cwd=self.folder)
        expect("what it prints", (ran.returncode, ran.stdout), (7, f"{self.folder}\n"))
        expect("files", [path.name for path in self.folder.iterdir()], ["encoders"])
        for words, status in ((["sh", "-c", "kill -9 $$"], 137), (["no-such-command"], 127)):
            ran = run(REPOSITORY / "tools/with-server", "--libdrm", "--udev", *words, env=given)
            expect(f"status of {words}", ran.returncode, status)
        expect("files", [path.name for path in self.folder.iterdir()], ["encoders"])

    def test_command_under_umockdev_that_does_not_end_is_killed(self):
        want_program("umockdev-run")
        library()
        asked = "trap '' TERM; echo $$; while :; do sleep 1; done"
        with subprocess.Popen(
            [REPOSITORY / "tools/with-server", "--libdrm", "--udev", "sh", "-c", asked],
            stdout=subprocess.PIPE,
            text=True,
        ) as started, ended_in_time(started):
            asking = int(started.stdout.readline())
            started.terminate()
            expect("status", started.wait(SECONDS), 128 + signal.SIGKILL)
        wait_until(lambda: has_ended(asking))

    def test_drmdevice_finds_both_nodes(self):
        folder = self.folder
        want_program("drmdevice")
        text = said(folder, "drmdevice")
        expect("devices", "--- Devices reported 1 ---" in text, True)
        expect("nodes", sorted(set(re.findall(r"nodes\[\d\] (\S+)", text))), ["/dev/dri/card0", "/dev/dri/renderD128"])

    def test_drm_info_tells_of_the_node(self):
        folder = self.folder
        want_program("drm_info")
        told = json.loads(said(folder, "drm_info", "-j"))
        expect("nodes", list(told), ["/dev/dri/card0"])
        node = told["/dev/dri/card0"]
        expect("driver", (node["driver"]["name"], node["device"]["bus_type"]), ("zirkoshe", 2))
        found = {kind: [each["id"] for each in node[kind]] for kind in ("crtcs", "connectors", "encoders", "planes")}
        expect("objects", found, {"crtcs": [1, 2], "connectors": [7, 8], "encoders": [5, 6], "planes": [3, 4]})
        expect("capabilities", {name: node["driver"]["caps"].get(name) for name in CAPABILITIES}, CAPABILITIES)
        expect(
            "capabilities of a client",
            {name for name, is_on in node["driver"]["client_caps"].items() if is_on},
            CLIENT_CAPABILITIES,
        )
        for connector in node["connectors"]:
            expect("modes", [mode["name"] for mode in connector["modes"]], MODES)
            expect("power", connector["properties"]["DPMS"]["value"], 0)
        expect("primary planes", [plane["properties"]["type"]["value"] for plane in node["planes"]], [1, 1])

    def test_igt_finds_the_card_and_maps_a_buffer(self):
        """The Debian package is intel-gpu-tools. The second program asks for a driver by its name."""
        for name in ("lsgpu", "umockdev-run"):
            want_program(name)
        library()
        words = [REPOSITORY / "tools/with-server", "--libdrm", "--udev"]
        ran = run(*words, "lsgpu")
        expect(
            "what lsgpu prints",
            (ran.returncode, ran.stdout.split(), ran.stderr),
            (0, ["card0", "drm:/dev/dri/card0"], ""),
        )
        if not VGEM_MMAP.exists():
            raise Skipped(f"there is no {VGEM_MMAP}")
        ran = run(*words, VGEM_MMAP, env={**os.environ, "DRM_SERVER_DRIVER": "vgem"})
        expect("status and error output of vgem_mmap", (ran.returncode, ran.stderr), (0, ""))

    def test_lease_client_is_refused_and_revoked(self):
        folder = self.folder
        expect("what it says", said(folder, compiled("examples/libdrm_lease.c")), LEASE_SAYS)

    def test_rules_of_refusals_are_told(self):
        folder = self.folder
        program, given = compiled("examples/libdrm_lease.c"), environment(folder, DRM_SERVER_TRACE="1")
        with served(folder):
            ran = run(program, env=given)
        expect("what is told", ran.stderr, LEASE_TRACE)
        expect("what it says", ran.stdout, LEASE_SAYS)

    def test_requests_are_told_as_far_as_is_wanted(self):
        """The program turns universal planes on first."""
        folder = self.folder
        program = compiled("tests/libdrm_calls.c")
        script = "open a card\na get_cap 1\na gem_close 9\na getcrtc 1\na get_cap 999\n"
        failed = ["GEM_CLOSE: denied 22 NoHandleToClose 22", "GET_CAP: denied 41 BadCap 22"]
        every = ["SET_CLIENT_CAP: done", "GET_CAP: done", failed[0], "MODE_GETCRTC: done", failed[1]]
        with served(folder):
            for wanted, told_of in (("", []), ("1", failed), ("all", every)):
                given = environment(folder, DRM_SERVER_TRACE=wanted)
                ran = run(program, input=script, stdin=None, env=given)
                expect(f"what is told with {wanted!r}", ran.stderr.splitlines(), told_of)

    def test_worked_rows_hold_over_libdrm(self):
        folder = self.folder
        program = compiled("tests/libdrm_calls.c")
        tried = 0
        expect("names of no row", {f"row {name}" for name in OTHERWISE} - {name for name, _, _ in worked_rows()}, set())
        for name, asked, answers in worked_rows():
            lines = [line for line in zip(asked, answers) if line[0].split()[1] not in UNSAID]
            if name[len("row ") :] in OTHERWISE or asked[0].startswith("limits") or not lines:
                continue
            place = folder / str(tried)
            place.mkdir()
            text = said(place, program, input="".join(f"{line}\n" for line, _ in lines), stdin=None)
            expect(name, text.splitlines(), [told(answer) for _, answer in lines])
            tried += 1
        expect("rows that were tried", tried, ROWS)

    def test_root_is_who_has_the_socket_of_root_as_the_card(self):
        """Who joins a master is authenticated where it is root, and may name a buffer."""
        folder = self.folder
        program = compiled("tests/libdrm_calls.c")
        script = "open a card\nopen b card\nb buf_create 1\nb gem_flink 1\n"
        with served(folder):
            found = [
                run(
                    program, input=script, stdin=None, env=environment(folder, DRM_SERVER_CARD=str(folder / name))
                ).stdout
                for name in ("card", "root")
            ]
        expect(
            "by the card, and by root",
            found,
            [f"client\nclient\nbuffer 1 4096\n{last}\n" for last in ("denied 13", "number 1")],
        )

    def test_two_threads_get_their_own_answers(self):
        folder = self.folder
        expect("swapped", sharing(folder, "threads"), "swapped 0 0\n")

    def test_two_threads_get_their_own_refusals(self):
        folder = self.folder
        expect("swapped", sharing(folder, "refusals"), "swapped 0 0\n")

    def test_two_processes_get_their_own_answers(self):
        folder = self.folder
        expect("swapped", sharing(folder, "processes"), "swapped 0 0\n")

    def test_forks_while_another_thread_asks(self):
        """Handlers of signals that close descriptors and poll come in between; the children ask too."""
        folder = self.folder
        expect("swapped", sharing(folder, "forks"), "swapped 0, children that failed 0\n")

    def test_who_opens_after_a_closing_is_master(self):
        folder = self.folder
        expect("masters", sharing(folder, "reopen"), "masters 30\n")

    def test_who_opens_after_a_closing_that_a_fork_was_before_is_master(self):
        folder = self.folder
        expect("masters", sharing(folder, "reopen-forking"), "masters 20\n")

    def test_who_opens_after_a_process_ended_is_master(self):
        folder = self.folder
        expect("masters", sharing(folder, "ends"), "masters 20\n")

    def test_client_stays_while_children_come_and_go(self):
        folder = self.folder
        expect("what it says", said(folder, sys.executable, "-c", CHILDREN), "the connection is there\n")

    def test_client_stays_while_a_copy_is_open(self):
        folder = self.folder
        expect(
            "copies",
            sharing(folder, "copies"),
            """\
after closing one of two: master 1, other 0
child: master 1
after the child's end: master 1
after it was replaced: other is master 1, and it is the render node
""",
        )

    def test_lease_of_nothing_is_a_second_client(self):
        """Which the caller authenticated, and which isn't current."""
        expect(
            "what it finds",
            sharing(self.folder, "nothing"),
            f"""\
leases nothing 1, closed at exec 1
sees 1, creates 0, names 0, sets {errno.EACCES}
again 1, closed at exec 0, another id 1
lessees 0
revokes 0 0, by another {errno.EACCES}, no lease {errno.ENOENT}
sees 1, creates 0, names 0, sets {errno.EACCES}
sees 1, creates 0, names 0, sets 0
who isn't master {errno.EACCES}
unknown flag {errno.EINVAL}
""",
        )

    def test_calls_that_are_lacking(self):
        """By the errnos of the kernel's core for a driver without them, of a master, of another client, and of a render client. Flips
        and vertical blanking are those of a dark CRTC, and commits those of a client without the capability."""
        folder = self.folder
        expect(
            "errnos",
            sharing(folder, "lacks"),
            """\
atomic -22, flip -16, cursor 0, dirty -2, gamma -14 -22, vblank -22, blob 0
atomic -13, flip -13, cursor -13, dirty -13, gamma -14 -13, vblank -22, blob 0
atomic -13, flip -13, cursor -13, dirty -13, gamma -13 -13, vblank -13, blob -13
all -38, two -38, too many -22, no list -22, half a copy -22, reads gamma -22, of another -2
""",
        )

    def test_nodes_are_found_in_each_way(self):
        """By patterns, by paths that aren't plain, and from folders that are open or the working one."""
        folder = self.folder
        expect(
            "what it finds",
            said(folder, compiled("tests/libdrm_paths.c"), "paths"),
            """\
/dev/dri/*: /dev/dri/card0 /dev/dri/renderD128
/dev/dri/card[0-9]: /dev/dri/card0
/dev/dri/by-path/*: nothing
doubled slashes: zirkoshe
dots: zirkoshe
from /dev: zirkoshe
from /dev/dri: zirkoshe
above /dev/dri: zirkoshe
another node: ENOENT
is there: done
may be written: done
a folder: done
a folder to write: EISDIR
from a listed folder: zirkoshe
an open folder: card0 renderD128
from the working folder: zirkoshe
from the working folder, by dots: zirkoshe
dri/*: dri/card0 dri/renderD128
nothing there: ENOENT
another file: done
""",
        )

    def test_nodes_are_not_written_to(self):
        """As in a kernel, and the connection continues."""
        folder = self.folder
        expect(
            "what it finds",
            said(folder, compiled("tests/libdrm_paths.c"), "writes"),
            """\
write: EINVAL
writev: EINVAL
pwrite: EINVAL
by its number: EINVAL
afterwards: zirkoshe
""",
        )

    def test_system_calls_by_their_numbers(self):
        folder = self.folder
        expect(
            "what it finds",
            said(folder, compiled("tests/libdrm_paths.c"), "numbers"),
            """\
ioctl: done
its answer: 3
a refused ioctl: EINVAL
another call: 1
a failing call: EBADF
closes: done
closes again: EBADF
""",
        )

    def test_socket_of_the_programs_own_is_left_alone(self):
        folder = self.folder
        given = environment(folder, PYTHONPATH=str(CLIENTS / "python"), PYTHONDONTWRITEBYTECODE="1")
        with served(folder):
            ran = run(sys.executable, "-c", BESIDE, env=given)
        expect("what it says", (ran.returncode, ran.stdout, ran.stderr), (0, "number 1\n", ""))

    def test_call_costs_little_more_than_by_the_c_client(self):
        """One run of three is enough, since a busy machine may keep one of the two waiting."""
        folder = self.folder
        for at in range(3):
            place = folder / str(at)
            place.mkdir()
            through, beside = costs(place)
            if through <= max(MOST_COST * beside, beside + MOST_MORE):
                return
        raise AssertionError("a call through libdrm costs too much")

    def test_buffer_is_shared_by_a_descriptor(self):
        """Passed over a socket: one object, one memory, and a token that goes with the last descriptor."""
        folder = self.folder
        with begun(folder, "buffer") as (_, sharer):
            found = []
            while not found or found[-1] != "closed":
                found.append(sharer.stdout.readline().rstrip("\n"))
            root = connect(folder / "root")
            expect("tokens that are left", root.ask("audit 5 0"), "rows 0")
            root.close()
            sharer.communicate("\n", timeout=SECONDS)
        expect(
            "what they found",
            sorted(found),
            sorted(
                [
                    "authenticates 0, name 1",
                    "size 16384",
                    "imports 0 0 of one handle: 1",
                    "bytes 11 22",
                    "a card's import 0",
                    "bytes of the handle 11 99",
                    "name 1",
                    "byte of the other 99",
                    "closed",
                ]
            ),
        )

    def test_killed_process_leaves_the_others_their_answers(self):
        """A child is killed between its request and the answer."""
        folder = self.folder
        with begun(folder, "kill") as (started, sharer):
            expect("the opening", sharer.stdout.readline(), "open\n")
            started.send_signal(signal.SIGSTOP)
            wait_until(lambda: is_stopped(started.pid))
            sharer.stdin.write("\n")
            sharer.stdin.flush()
            child = int(sharer.stdout.readline().split()[1])
            wait_until(lambda: waits_for_an_answer(child))
            os.kill(child, signal.SIGKILL)
            started.send_signal(signal.SIGCONT)
            output, _ = sharer.communicate("\n", timeout=SECONDS)
        expect("what the other gets", output, "its own answer\n")

    def test_program_outlives_the_server(self):
        """Who asks a server that has gone is told that there is no device any more."""
        folder = self.folder
        program, given = compiled("tests/libdrm_calls.c"), environment(folder)
        with served(folder) as started, subprocess.Popen(
            [program], stdin=subprocess.PIPE, stdout=subprocess.PIPE, text=True, env=given
        ) as asking, ended_in_time(asking):
            asking.stdin.write("open a card\n")
            asking.stdin.flush()
            expect("the opening", asking.stdout.readline(), "client\n")
            started.kill()
            started.wait()
            output, _ = asking.communicate("a get_cap 1\nopen b card\n", timeout=SECONDS)
        expect("answers", output, "denied 19\ndenied 19\n")

    def test_library_leaves_a_program_alone_that_has_no_server(self):
        folder = self.folder
        program = compiled("tests/libdrm_calls.c")
        bare = {name: value for name, value in os.environ.items() if not name.startswith("DRM_SERVER_")}
        alone = run(program, input="open a render\n", stdin=None, env=bare, cwd=folder)
        loaded = run(program, input="open a render\n", stdin=None, env={**bare, "LD_PRELOAD": library()}, cwd=folder)
        expect(
            "what it says",
            (loaded.returncode, loaded.stdout, loaded.stderr),
            (alone.returncode, alone.stdout, alone.stderr),
        )


if __name__ == "__main__":
    sys.exit(run_tests())
