#!/usr/bin/env python3
"""Tests of the display of clients/libdrm: what several processes see of one device.

What it tests: what two processes, with the library or under the supervisor, see of one display: modes, events,
memory, masters, blanking. Closings, ends and killed processes; the limit of descriptors, wrong addresses, a
server that stalls. 100,000 random requests and packets of four processes, with AddressSanitizer and UBSan.

Each case of tests/libdrm_display.c runs with the library and under the supervisor. Expectations are what a kernel does, but for those of
docs/LIBDRM.md. The last line is `N passed, M failed`. If there is no C compiler or no libdrm with its headers, the tests are skipped, and
if the kernel allows no supervisor, the other half. Standard library only.
"""
import contextlib
import errno
import functools
import os
import resource
import shutil
import signal
import subprocess
import sys
import time

sys.dont_write_bytecode = True
from support import (  # noqa: E402
    REPOSITORY,
    SECONDS,
    FolderCase,
    Skipped,
    ended_in_time,
    expect,
    expect_end,
    run,
    run_tests,
    want_program,
)

from libdrm_support import (  # noqa: E402
    LIBRARY,
    compiled,
    display,
    displayed,
    environment,
    finds_alike,
    library,
    listening_server,
    served,
    supervisor,
    wait_until,
    waits_for_an_answer,
)

WITH_SERVER = REPOSITORY / "tools/with-server"
CASES = "tests/libdrm_display.c"
GARBAGE = "tests/libdrm_garbage.c"
LIMITS = "tests/libdrm_limits.c"
# how many requests each of four processes makes at random
REQUESTS = 25000
# how long something takes at most that isn't delayed by a server that stalls, and that is delayed by it
AT_ONCE, A_WHILE = 0.8, 2.5
STALL_SECONDS = 6
# what a program sees of the CRTC that another one set
SEEN = """\
mode 1024x768 at 100,50, format XB24, plane shows it 1 on CRTC 1 from 100, blob 1024x768, connector on CRTC 1
"""
NOBODY = ["setpriv", "--reuid=nobody", "--regid=nogroup", "--clear-groups"]
finds = functools.partial(finds_alike, CASES)
PIPES = {"stdin": subprocess.PIPE, "stdout": subprocess.PIPE, "text": True}


def supervised_by(folder, channel):
    """How a supervisor is run that speaks for its callers on this socket."""
    given = {name: value for name, value in environment(folder).items() if name != "LD_PRELOAD"}
    return {"env": {**given, "DRM_SERVER_CHANNEL": str(channel.fileno())}, "pass_fds": [channel.fileno()]}


# Makes requests by their numbers and prints how long each takes, in seconds.
TIMED = """
import fcntl, os, sys, time
GETCRTC, CREATE_DUMB = 0xC06864A1, 0xC02064B2
card = os.open("/dev/dri/card0", os.O_RDWR)
print("open", flush=True)
for line in sys.stdin:
    word = line.strip()
    struct = bytearray(104 if word == "getcrtc" else 32)
    # the id of a CRTC, or the height, width and bits of a buffer
    struct[0:16] = b"".join(number.to_bytes(4, "little") for number in ((0, 0, 0, 1) if word == "getcrtc" else (64, 64, 32, 0)))
    begun = time.monotonic()
    if word == "open":
        os.close(os.open("/dev/dri/card0", os.O_RDWR))
    else:
        try:
            fcntl.ioctl(card, GETCRTC if word == "getcrtc" else CREATE_DUMB, struct)
        except OSError as error:
            sys.exit(print(error.errno))
    print(time.monotonic() - begun, flush=True)
"""


class Asker:
    """A program that makes the requests that it receives."""

    def __init__(self, process):
        self.process = process
        expect("the opening", process.stdout.readline(), "open\n")

    def ask(self, word):
        self.process.stdin.write(f"{word}\n")
        self.process.stdin.flush()

    def took(self):
        return float(self.process.stdout.readline())

    def takes(self, word):
        self.ask(word)
        return self.took()


@contextlib.contextmanager
def asking(**options):
    """An asker, which is killed at the end."""
    with subprocess.Popen([sys.executable, "-c", TIMED], **PIPES, **options) as process, ended_in_time(process):
        yield Asker(process)


def expect_within(what, seconds, most):
    if seconds > most:
        raise AssertionError(f"{what} took {seconds:.2f} s, and {most} s at most are right")


class LibdrmDisplayTests(FolderCase):
    """Tests of the display of clients/libdrm."""

    def for_nobody(self, source=CASES):
        """A program and the library, where another user finds them."""
        want_program("setpriv")
        if os.geteuid() != 0:
            raise Skipped("the tests don't run as root")
        program = shutil.copy(compiled(source), self.folder / "program")
        loaded = shutil.copy(library(), self.folder / "library.so")
        for path in (self.folder, program, loaded):
            os.chmod(path, 0o755)
        return program, loaded

    def test_another_program_sees_mode_position_and_format(self):
        """And formats, planes and properties; and so does a lessee."""
        finds("view", 2 * SEEN)

    def test_events_are_read_after_fork(self):
        event = "ready 1, length 32, type 2, data"
        finds(
            "fork",
            f"child of the parent's flip: {event} 77, crtc 1\nparent of the child's flip: {event} 78, crtc 1\n",
        )

    def test_events_are_read_after_passing(self):
        """The sender has closed the descriptor while the event was due."""
        event = "receiver: ready 1, length 32, type 2, data"
        finds("passed", f"epoll 1\n{event} 4, crtc 1\nreceiver's flip: done\n{event} 5, crtc 1\n")

    def test_memory_is_the_objects(self):
        """A handle that another holder made, and one from a name."""
        finds("mapping", "other holder's byte a5\nflink done\nopen by the name done\nbyte by the name a5\n")

    def test_memory_outlives_the_exporters_file(self):
        finds("orphan", "import after the exporter's close: done, map done\n")

    def test_master_is_the_openers(self):
        """A child that isn't root may neither set nor drop it: drm_master_check_perm. The program has dropped root."""
        program, loaded = self.for_nobody()
        text = """\
drop by the opener: done
set by a child: EACCES
set by the opener: done
drop by a child: EACCES
drop by the opener: done
"""
        for option, before in (("--libdrm", ["env", f"LD_PRELOAD={loaded}"]), ("--seccomp", [])):
            if option == "--seccomp":
                supervisor()
            ran = run(WITH_SERVER, option, *before, *NOBODY, program, "master", cwd=self.folder)
            expect_end(ran, 0, "", text)

    def test_user_leaves_files_for_others(self):
        """The card of this server accepts 64 connections in total."""
        program, loaded = self.for_nobody(LIMITS)
        with served(self.folder):
            given = environment(self.folder)
            words = [*NOBODY, program, "files"]
            with subprocess.Popen(words, **PIPES, env={**given, "LD_PRELOAD": loaded}) as opens, ended_in_time(opens):
                expect("what a user may open", opens.stdout.readline(), "opened 56, then EMFILE\n")
                expect_end(run(program, "files", env=given, input="\n", stdin=None), 0, "", "opened 8, then ENODEV\n")
                opens.communicate("\n", timeout=SECONDS)

    def test_user_leaves_threads_for_others(self):
        """Of 16,383, and root may have the rest. Each takes a descriptor."""
        most = resource.getrlimit(resource.RLIMIT_NOFILE)[1]
        if most < 17000:
            raise Skipped(f"a process may have {most} descriptors")
        program = self.for_nobody(LIMITS)[0]
        with served(self.folder):
            given = {**environment(self.folder), "LD_PRELOAD": ""}
            for before, count in ((NOBODY, 12288), ([], 16383)):
                ran = run(*before, program, "sockets", env=given, timeout=SECONDS * 4)
                expect_end(ran, 0, "", f"taken {count}, then EMFILE\n")

    def test_user_leaves_synchronisation_objects_for_others(self):
        """A file has 16,384 of them, and a user 65,536. Root has as many of its own."""
        program, loaded = self.for_nobody(LIMITS)
        with served(self.folder):
            given = {**environment(self.folder), "LD_PRELOAD": str(loaded)}
            for before in (NOBODY, []):
                ran = run(*before, program, "objects", env=given, timeout=SECONDS * 4)
                expect_end(ran, 0, "", "objects 65536\n")

    def test_blanking_is_one_clock(self):
        finds("sequences", "sequence above 20 1\n")

    def test_flip_is_refused_while_anothers_is_pending(self):
        finds("busy", "flip while another's is pending: EBUSY\n")

    def test_wait_for_blanking(self):
        finds("waits", "wait done, about six periods 1\n")

    def test_killed_processes_break_nothing(self):
        finds("killed", "failed after kills 0 of 100\n")

    def test_who_opens_after_a_closing_is_master(self):
        finds("reopen", "not master after a close 0 of 1000\n")

    def test_who_opens_after_an_end_is_master(self):
        finds("reopen-ended", "not master after an end 0 of 200\n")

    def test_who_was_open_at_a_closing_may_be_master(self):
        finds("next-master", "busy after a close 0 of 500\n")

    def test_closing_in_a_handler(self):
        finds("handler", "closed in a handler 500 times\n")

    def test_child_that_closes_during_another_threads_calls(self):
        finds("forked", "children that closed 20\n")

    def test_requests_at_the_limit_of_descriptors(self):
        """An export needs one. All else works, also in a thread that asks for the first time."""
        finds("limit", "another thread done, another thread done, export EMFILE, gem close done\n")

    def test_events_that_are_not_read_count(self):
        finds("room", "events 128, then ENOMEM; read 128; then done\n")

    def test_wrong_addresses(self):
        kinds = ("struct", "none", "constant", "written", "read", "commit")
        finds("addresses", ", ".join(f"{kind} EFAULT" for kind in kinds) + "\n")

    def test_node_is_opened_again(self):
        """By three paths of its descriptor: another client each, as in a kernel."""
        finds("reopened", 3 * "opens done, is master 0, " + "the first is master 1\n")

    def test_files_of_the_device(self):
        finds(
            "looks",
            """\
opens a link to a folder done, its file done, changes the mode done, owner done, no node's mode ENOENT
1 entries, card0, again card0, 1 entries
""",
        )

    def test_process_is_stopped_while_it_maps(self):
        finds("stopped", "stops 8 of 8, killed by 9\n")

    def test_trace_without_standard_error(self):
        """The trace isn't written to the node that has its number. If nothing reads it, the program continues."""
        program = compiled(CASES)
        library()
        ran = run(WITH_SERVER, "--libdrm", program, "traced", env={**os.environ, "DRM_SERVER_TRACE": "all"})
        expect("status, and masters", (ran.returncode, ran.stdout.partition(", ")[2]), (0, "master 1, master 1\n"))

    def test_both_kinds_of_programs_see_one_display(self):
        """A program under the supervisor sees what one with the library set, and the other way round."""
        program = compiled(CASES)
        with listening_server(self.folder), displayed(self.folder) as channel:
            loaded = ([program], {"env": environment(self.folder)})
            supervised = ([supervisor(), program], supervised_by(self.folder, channel))
            for (words, one), (others, other) in ((loaded, supervised), (supervised, loaded)):
                with subprocess.Popen([*words, "shows"], **PIPES, **one) as shows, ended_in_time(shows):
                    expect("what one does", shows.stdout.readline(), "shown\n")
                    expect_end(run(*others, "look", **other), 0, "", SEEN)
                    shows.communicate("\n", timeout=SECONDS)

    def test_server_that_stalls_delays_others_a_second_at_most(self):
        """A change is answered late. Another client's change waits for a second, and what it asks then doesn't wait."""
        stall = ("--stall", f"create_dumb:1={STALL_SECONDS * 1000}")
        given = environment(self.folder)
        with served(self.folder, more=stall), asking(env=given) as one, asking(env=given) as other:
            one.ask("create_dumb")
            time.sleep(0.2)
            expect_within("another's change", other.takes("create_dumb"), A_WHILE)
            for word in ("getcrtc", "create_dumb", "open"):
                expect_within(word, other.takes(word), AT_ONCE)
            expect("whether the first waited", one.took() > STALL_SECONDS - 1, True)

    def test_requests_that_only_read_run_at_once(self):
        """One is answered late, and another client's isn't delayed."""
        given = environment(self.folder)
        with served(self.folder, more=("--stall", f"getcrtc:1={STALL_SECONDS * 1000}")):
            with asking(env=given) as one, asking(env=given) as other:
                one.ask("getcrtc")
                time.sleep(0.2)
                expect_within("another's read", other.takes("getcrtc"), AT_ONCE)
                expect("whether the first waited", one.took() > STALL_SECONDS - 1, True)

    def test_process_that_is_killed_in_mid_call_delays_nobody(self):
        """A look doesn't wait for its answer, and an opening for a second at most."""
        stall = ("--stall", f"getcrtc:1={STALL_SECONDS * 1000}")
        program, path = compiled(CASES), supervisor()
        for at, words in enumerate(([program], [path, program])):
            folder = self.folder / str(at)
            folder.mkdir()
            with listening_server(folder, more=stall), displayed(folder) as channel:
                options = supervised_by(folder, channel) if at else {"env": environment(folder)}
                ran = run(*words, "killed-waiting", **options)
            expect_end(ran, 0, "", "stat at once 1, opening in a while 1\n")

    def test_program_outlives_the_display(self):
        """It has stopped, and ends while a program waits for the answer to its opening, and to another request."""
        given, path = environment(self.folder), self.folder / "display"
        own = {**given, "LD_PRELOAD": ""}
        with listening_server(self.folder), subprocess.Popen([display(), path], env=own) as displaying:
            wait_until(path.exists)
            with asking(env=given) as one:
                displaying.send_signal(signal.SIGSTOP)
                one.ask("getcrtc")
                with subprocess.Popen(["cat", "/dev/dri/card0"], stderr=subprocess.PIPE, text=True, env=given) as other:
                    wait_until(lambda: waits_for_an_answer(other.pid) and waits_for_an_answer(one.process.pid))
                    displaying.kill()
                    expect(
                        "the opening", other.communicate(timeout=SECONDS)[1], "cat: /dev/dri/card0: No such device\n"
                    )
                expect("the other request", one.process.communicate(timeout=SECONDS), (f"{errno.ENODEV}\n", None))

    def test_random_requests_and_packets(self):
        """Of four processes at once, with AddressSanitizer and UBSan in the display: no report, and it answers afterwards."""
        folder = self.folder
        shutil.copytree(LIBRARY, folder / "clients/libdrm", ignore=shutil.ignore_patterns("out"))
        shutil.copytree(LIBRARY.parent / "c", folder / "clients/c")
        checked = "-g -O1 -fsanitize=address,undefined -fno-sanitize-recover=undefined"
        built = run(folder / "clients/libdrm/build", "--display", env={**os.environ, "CFLAGS": checked}, timeout=300)
        if built.returncode != 0:
            raise Skipped("the compiler has no sanitizers")
        program = compiled(GARBAGE)
        # what only the loop's set of descriptors refers to would be a leak
        with listening_server(folder), displayed(folder, built.stdout.strip(), ASAN_OPTIONS="detect_leaks=0"):
            ran = run(program, REQUESTS, env=environment(folder), timeout=SECONDS * 20)
        text = "processes that ended badly 0, the display answers afterwards: yes\n"
        expect_end(ran, 0, "", text)


if __name__ == "__main__":
    sys.exit(run_tests())
