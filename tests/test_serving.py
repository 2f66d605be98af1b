#!/usr/bin/env python3
"""Tests of a server that accepts any number of connections until it is asked to end.

What it tests: 1,000 connections one after the other, 64 at once on each socket, and those beyond them. Connections
without a thread or a descriptor. The end of such a server; the full journal.

Each test has its own folder. The last line is `N passed, M failed`. Standard library only.
"""
import contextlib
import ctypes
import os
import pathlib
import resource
import signal
import socket
import subprocess
import sys

sys.dont_write_bytecode = True
from support import (  # noqa: E402
    CLASSES,
    PROGRAM,
    REPOSITORY,
    SCRIPT,
    SECONDS,
    FolderCase,
    Skipped,
    connect,
    connect_raw,
    ended_in_time,
    expect,
    expect_end,
    expect_no_sockets,
    expect_refused,
    lasting_server,
    next_told,
    path_words,
    read_end,
    refusal_of,
    retry,
    run,
    run_program,
    run_tests,
    stopped,
    told_by,
    wait_until,
    want_no_checks,
)

from zirkoshe import Client  # noqa: E402
from zirkoshe.server import Server  # noqa: E402

AT_ONCE = 64
MANY = 1_000
# as many clients as connections may be open at once on the three sockets
CLIENTS_ENOUGH = ["--limits", "200 8 8 8 8 8 8 100000"]
JOURNAL_FULL = (
    "ERROR the journal is full: requests are answered with fault 50 (the last number of --limits is the most steps)"
)


# the system call that copies a descriptor of another process
PIDFD_GETFD = 438


def shut_listener(started, path):
    """Shuts the listening socket of a server, so that it can accept no more connections."""
    rows = [line.split() for line in pathlib.Path("/proc/net/unix").read_text().splitlines()]
    wanted = [f"socket:[{row[6]}]" for row in rows if row[-1] == str(path) and row[3] == "00010000"]
    expect("how many sockets listen there", len(wanted), 1)
    folder = pathlib.Path(f"/proc/{started.pid}/fd")
    number = next(int(entry.name) for entry in folder.iterdir() if os.readlink(entry) == wanted[0])
    process = os.pidfd_open(started.pid)
    try:
        copied = ctypes.CDLL(None, use_errno=True).syscall(PIDFD_GETFD, process, number, 0)
    finally:
        os.close(process)
    if copied < 0:
        raise Skipped(f"no descriptor can be copied: {os.strerror(ctypes.get_errno())}")
    with socket.socket(fileno=copied) as listener:
        listener.shutdown(socket.SHUT_RDWR)


def is_closed(connection):
    """Whether the server closed a connection without an answer."""
    return read_end(connection) == b""


def threads_of(started):
    """The number of the server's threads."""
    return len(list(pathlib.Path(f"/proc/{started.pid}/task").iterdir()))


def files_of(started):
    """The number of the server's open files."""
    return len(list(pathlib.Path(f"/proc/{started.pid}/fd").iterdir()))


class ServingTests(FolderCase):
    """Tests of a server that accepts any number of connections until it is ended."""

    def test_thousand_connections_one_after_the_other(self):
        """The server has no more threads and files after them than before."""
        folder = self.folder
        with lasting_server(folder) as started:
            for name in CLASSES:
                connect(folder / name).close()
            wait_until("whether the sessions have ended", lambda: files_of(started) <= 3 + 2 + len(CLASSES) + 1)
            before = threads_of(started), files_of(started)
            for number in range(MANY):
                with contextlib.closing(connect(folder / CLASSES[number % 3])) as client:
                    expect("an answer", client.ask("version"), "version 1 0 0")
            wait_until("whether the threads have ended", lambda: threads_of(started) <= before[0])
            wait_until("whether the files are closed", lambda: files_of(started) <= before[1])
            expect_end(stopped(started), 0, "", f"device 0 0 0 {2 * len(CLASSES) + 3 * MANY}\n")
        expect_no_sockets(folder)

    def test_as_many_at_once_as_may_be(self):
        """Each socket serves 64 connections at once. Those beyond them are closed, which is logged once for each socket."""
        folder = self.folder
        with lasting_server(folder, *CLIENTS_ENOUGH) as started, contextlib.ExitStack() as opened:
            clients = {name: [opened.enter_context(connect(folder / name)) for _ in range(AT_ONCE)] for name in CLASSES}
            for name in CLASSES:
                for _ in range(3):
                    with contextlib.closing(connect_raw(folder / name)) as further:
                        expect("whether a further connection is closed", is_closed(further), True)
                told = f"WARN {name}: a connection was refused: {AT_ONCE} are open"
                expect("what is logged", next_told(started), told)
            for name, some in clients.items():
                for client in some:
                    expect("an answer", client.ask("version"), "version 1 0 0")
                some.pop().close()
                opened.enter_context(connect(folder / name))
            steps = 3 * AT_ONCE + 2
            expect_end(stopped(started), 0, "", f"device 0 0 0 {3 * steps}\n")

    def test_clients_that_leave_make_room(self):
        """A client that connects after another closed its connection is served, also where 64 were open."""
        folder = self.folder
        with lasting_server(folder) as started, contextlib.ExitStack() as opened:
            clients = [opened.enter_context(connect(folder / "render")) for _ in range(AT_ONCE)]
            for _ in range(200):
                clients.pop(0).close()
                clients.append(opened.enter_context(connect(folder / "render")))
                expect("an answer", clients[-1].ask("version"), "version 1 0 0")
            expect_end(stopped(started), 0, "", f"device 0 0 0 {2 * (AT_ONCE + 200) + 200}\n")

    def test_idle_connections_delay_nobody(self):
        """Connections that send nothing, or half a frame, keep no other from its answers, and end with the server."""
        folder = self.folder
        with lasting_server(folder) as started, contextlib.ExitStack() as opened:
            retry((folder / "root").stat)
            for number in range(AT_ONCE - 1):
                silent = retry(lambda: connect_raw(folder / "card"))
                opened.enter_context(contextlib.closing(silent))
                silent.sendall(bytes(number % 4))
            for _ in range(100):
                with contextlib.closing(connect(folder / "card")) as client:
                    expect("an answer", client.ask("version"), "version 1 0 0")
            ran = stopped(started)
            expect("status and listing", (ran.returncode, ran.stdout), (0, "device 0 0 0 300\n"))

    def test_sessions_end_with_the_server(self):
        """Open connections end, their clients are closed, and none is accepted any more."""
        folder = self.folder
        with lasting_server(folder) as started, contextlib.ExitStack() as opened:
            clients = [opened.enter_context(connect(folder / name)) for name in 10 * CLASSES]
            for client in clients:
                client.ask("buf_create 4096")
            expect_end(stopped(started), 0, "", f"device 0 0 0 {3 * len(clients)}\n")
            for name in CLASSES:
                expect_refused(folder / name)
        expect_no_sockets(folder)

    def test_each_socket_has_its_class(self):
        folder = self.folder
        answers = {"card": "denied 11 RootOnly 13", "render": "denied 11 RootOnly 13"}
        with lasting_server(folder) as started:
            for name in 5 * CLASSES:
                with contextlib.closing(connect(folder / name)) as client:
                    answer = client.ask("audit 10 0")
                    expect(f"an audit on {name}", answer.startswith(answers.get(name, "rows 1 |")), True)
            expect_end(stopped(started), 0, "", "device 0 0 0 45\n")

    def test_journal_of_many_connections(self):
        """The journal of a server that continues passes its check."""
        folder = self.folder
        with lasting_server(folder, "--journal", str(folder / "journal")) as started:
            for number in range(100):
                with contextlib.closing(connect(folder / CLASSES[number % 3])) as client:
                    client.ask("buf_create 4096")
            expect_end(stopped(started), 0, "", "device 0 0 0 300\n")
        expect_end(run(PROGRAM, "check", folder / "journal"), 0, "", "300 passed, 0 failed\n")

    def test_full_journal_is_logged_once(self):
        """At the first answer that says so, whether it is to a request or to an opening."""
        folder = self.folder
        for calls in (0, 3):
            with lasting_server(folder, "--limits", "8 8 8 8 8 8 8 4") as started:
                with contextlib.closing(connect(folder / "card")) as client:
                    for _ in range(calls):
                        client.ask("version")
                if calls == 0:
                    connect(folder / "card").close()
                for _ in range(3):
                    expect("an opening", refusal_of(folder / "card").startswith("apart 50 JournalFull"), True)
                ran = stopped(started)
            told = [told_by(line) for line in ran.stderr.splitlines()]
            expect("how often it is logged", told.count(JOURNAL_FULL), 1)
            expect("status and listing", (ran.returncode, ran.stdout), (0, "device 0 0 0 4\n"))

    def test_connections_without_a_thread_are_closed(self):
        """The others go on. It is logged once for the socket."""
        want_no_checks("it needs more memory")
        folder = self.folder
        with lasting_server(folder) as started, contextlib.ExitStack() as opened:
            kept = opened.enter_context(connect(folder / "card"))
            most = resource.prlimit(started.pid, resource.RLIMIT_AS)
            used = 4096 * int(pathlib.Path(f"/proc/{started.pid}/statm").read_text().split()[0])
            resource.prlimit(started.pid, resource.RLIMIT_AS, (used, most[1]))
            refused = 0
            for _ in range(20):
                with contextlib.closing(connect_raw(folder / "card")) as further:
                    further.settimeout(0.2)
                    try:
                        refused += is_closed(further)
                    except socket.timeout:
                        pass
            expect("whether connections were refused", refused > 0, True)
            expect("an answer", kept.ask("version"), "version 1 0 0")
            resource.prlimit(started.pid, resource.RLIMIT_AS, most)
            with contextlib.closing(connect(folder / "card")) as client:
                expect("an answer", client.ask("version"), "version 1 0 0")
            ran = stopped(started)
            told = [told_by(line) for line in ran.stderr.splitlines()]
            expect("what is logged", told, ["ERROR card: a connection was refused: no thread could be started"])
            expect("status", ran.returncode, 0)

    def test_descriptors_that_are_used_up(self):
        """A listener without a descriptor waits until there is one, however long that takes."""
        folder = self.folder
        with lasting_server(folder) as started, contextlib.ExitStack() as opened:
            kept = opened.enter_context(connect(folder / "card"))
            most = resource.prlimit(started.pid, resource.RLIMIT_NOFILE)
            resource.prlimit(started.pid, resource.RLIMIT_NOFILE, (files_of(started), most[1]))
            waiting = opened.enter_context(contextlib.closing(connect_raw(folder / "card")))
            told = "ERROR card: Too many open files (os error 24); trying again"
            expect("what is logged", next_told(started), told)
            kept.close()
            with contextlib.closing(waiting):
                resource.prlimit(started.pid, resource.RLIMIT_NOFILE, most)
            connect(folder / "card").close()
            ran = stopped(started)
            expect("status", ran.returncode, 0)

    def test_listener_that_fails(self):
        """Its fault is the end's, with status 1. The other sockets are served until the server is asked to end."""
        folder = self.folder
        with lasting_server(folder) as started:
            connect(folder / "root").close()
            shut_listener(started, folder / "card")
            expect("what is logged", next_told(started), "ERROR card: Invalid argument (os error 22)")
            expect_refused(folder / "card")
            with contextlib.closing(connect(folder / "render")) as client:
                expect("an answer", client.ask("version"), "version 1 0 0")
            ran = stopped(started)
        told = [told_by(line) for line in ran.stderr.splitlines()]
        wanted = ["ERROR a connection on the card socket could not be accepted", "fault: accept card"]
        expect("what is told", told, wanted)
        expect("status and listing", (ran.returncode, ran.stdout), (1, "device 0 0 0 5\n"))
        expect_no_sockets(folder)

    def test_front_ends_it_at_a_signal(self):
        """SIGTERM, SIGINT and SIGHUP to ./drm_server end it, as they end a server of counted connections."""
        for number in (signal.SIGTERM, signal.SIGINT, signal.SIGHUP):
            words = [str(SCRIPT), "serve", *path_words(self.folder), "--until-ended"]
            pipes = {"stdin": subprocess.DEVNULL, "stdout": subprocess.PIPE, "stderr": subprocess.PIPE}
            environment = {**os.environ, "DRM_SERVER_PROGRAM": str(PROGRAM)}

            def prepare():
                signal.signal(signal.SIGINT, signal.SIG_DFL)

            with subprocess.Popen(words, text=True, env=environment, preexec_fn=prepare, **pipes) as started:
                with ended_in_time(started):
                    for name in 5 * CLASSES:
                        connect(self.folder / name).close()
                    kept = connect(self.folder / "card")
                    started.send_signal(number)
                    output, error = started.communicate(timeout=SECONDS)
                    expect(
                        f"the end by {number.name}", (started.returncode, output, error), (0, "device 0 0 0 32\n", "")
                    )
                    kept.abandon()
            expect_no_sockets(self.folder)

    def test_counts_are_refused(self):
        """A server counts connections, or accepts any number."""
        for name in CLASSES:
            ran = run_program("serve", *path_words(self.folder), "--until-ended", f"--{name}s", "2")
            expect("status and output", (ran.returncode, ran.stdout), (3, ""))
            expect("the fault", ran.stderr.splitlines()[-1], "fault: command line")
        expect_no_sockets(self.folder)

    def test_sockets_are_logged(self):
        with lasting_server(self.folder, "--verbose") as started, ended_in_time(started):
            logged = [next_told(started) for _ in CLASSES]
            told = [f"INFO {name}: {self.folder / name} accepts {AT_ONCE} at once" for name in CLASSES]
            expect("what is logged", logged, told)
            expect_end(stopped(started), 0, "", "device 0 0 0 0\n")

    def test_sockets_that_cannot_be_bound(self):
        (self.folder / "render").mkdir()
        ran = run_program("serve", *path_words(self.folder), "--until-ended")
        expect("status and output", (ran.returncode, ran.stdout), (1, ""))
        expect("the fault", ran.stderr.splitlines()[-1], "fault: listen render")

    def test_fixture_of_python(self):
        """A server without counts accepts any number of connections."""
        with Server(program=PROGRAM) as server:
            for _ in range(100):
                with Client(server.card):
                    pass
        expect("its listing", server.listing, "device 0 0 0 200\n")
        with Server(program=PROGRAM, cards=1) as server:
            with Client(server.card):
                expect_refused(server.card)

    def test_with_server(self):
        """Without counts it accepts any number of connections. A full journal is a failure that names the limit."""
        asked = f"for i in $(seq 100); do {REPOSITORY}/clients/python/drm-client $DRM_SERVER_CARD version; done"
        ran = run(REPOSITORY / "tools/with-server", "sh", "-c", asked)
        expect("status and error output", (ran.returncode, ran.stderr), (0, ""))
        expect("answers", ran.stdout.count("version 1 0 0"), 100)
        limits = ["--limits", "8 8 8 8 8 8 8 4"]
        ran = run(REPOSITORY / "tools/with-server", *limits, "sh", "-c", asked + "; true")
        told = "with-server: the journal was full, so the server denied requests: set the last number of --limits higher, at most 100000"
        expect("the status", ran.returncode, 125)
        expect("what is said of it", ran.stderr.splitlines().count(told), 1)


if __name__ == "__main__":
    sys.exit(run_tests())
