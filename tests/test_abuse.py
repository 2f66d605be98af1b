#!/usr/bin/env python3
"""Tests of hostile use around the device: used up descriptors, answers that are not taken, processes that pass their connection.

What it tests: descriptors that are used up, faults of listeners and what is left of them, closed standard streams.
Files of journals. Answers and logs that are not read, dead processes that passed their own connection.

Each test has its own folder. The last line is `N passed, M failed`. Standard library only.
"""
import array
import contextlib
import os
import pathlib
import re
import resource
import socket
import subprocess
import sys
import time

sys.dont_write_bytecode = True
from support import (  # noqa: E402
    PROGRAM,
    SECONDS,
    FolderCase,
    connect,
    connect_raw,
    count_words,
    end_of,
    expect,
    expect_end,
    expect_no_sockets,
    next_told,
    path_words,
    retry,
    run,
    run_program,
    run_tests,
    server,
    told_by,
    wait_until,
    wait_until_it_listens,
    want_no_checks,
)

HELLO = bytes.fromhex("0e000000 0001 01000000 00000000 00000000")
VERSION = bytes.fromhex("02000000 0000")
# longer than the server's own patience with a listener
LONG = 7
FEW_FILES = 24


# ---- descriptors


@contextlib.contextmanager
def journaling(folder, *counts, files=None, limits=()):
    """A server with a journal, whose sockets are in their own folder, and that may open N files."""

    def limit():
        if files is not None:
            resource.setrlimit(resource.RLIMIT_NOFILE, (files, files))
        for kind, most in limits:
            resource.setrlimit(kind, (most, most))

    sockets = folder / "sockets"
    sockets.mkdir()
    words = ["serve", "--journal", folder / "journal", *path_words(sockets), *count_words(*counts)]
    with subprocess.Popen(
        [PROGRAM, *words],
        stdin=subprocess.DEVNULL,
        stdout=subprocess.PIPE,
        stderr=subprocess.PIPE,
        text=True,
        preexec_fn=limit,
    ) as started:
        try:
            wait_until_it_listens(sockets / "root")
            yield started, sockets
        finally:
            started.kill()


def expect_journaled_fault(folder, ended, fault, listing):
    """The server ended by this fault of a listener, but has listed what the device held, and written its journal."""
    expect("status and fault", (ended.returncode, ended.stderr.splitlines()[-1]), (1, f"fault: {fault}"))
    expect("output", ended.stdout, listing)
    steps = listing.split()[-1]
    expect_end(run(PROGRAM, "check", folder / "journal"), 0, "", f"{steps} passed, 0 failed\n")


# ---- standard streams, and files of journals


def without_streams(closed, *words, **options):
    """Starts the program with these descriptors closed."""

    def close():
        for descriptor in closed:
            os.close(descriptor)

    return subprocess.Popen([PROGRAM, *words], preexec_fn=close, **options)


# ---- standard error that is not read


def filled_pipe():
    """The ends of a pipe in which there is no room."""
    reading, writing = os.pipe()
    os.set_blocking(writing, False)
    with contextlib.suppress(BlockingIOError):
        while True:
            os.write(writing, b"\n" * 4096)
    os.set_blocking(writing, True)
    return reading, writing


def break_off(path):
    """A session that ends within a frame, so that its end is logged."""
    with retry(lambda: connect_raw(path)) as cut:
        cut.sendall(HELLO + VERSION[:3])
        expect("the answer to a hello", len(cut.recv(64)), 10)
        cut.shutdown(socket.SHUT_WR)
        expect("what follows it", cut.recv(64), b"")


# ---- connections that are passed on, and answers that are not taken


def send_itself_and_exit(path, requests):
    """A process that opens a client, asks, takes no answers, passes the server its own end of the connection, and exits."""
    child = os.fork()
    if child == 0:
        try:
            asking = socket.socket(socket.AF_UNIX)
            asking.connect(str(path))
            asking.sendall(HELLO)
            asking.recv(10)
            asking.sendall(requests * VERSION)
            descriptors = array.array("i", [asking.fileno()])
            asking.sendmsg([VERSION], [(socket.SOL_SOCKET, socket.SCM_RIGHTS, descriptors)])
        finally:
            os._exit(0)
    os.waitpid(child, 0)


class DescriptorsTests(FolderCase):
    """Tests: descriptors."""

    def test_connections_that_use_up_the_descriptors_end_no_listener(self):
        """They are held for longer than a listener waits by itself. Who came later is served once they end."""
        folder = self.folder
        with journaling(folder, 64, 0, 1, files=FEW_FILES) as (started, sockets):
            held = [connect_raw(sockets / "card") for _ in range(FEW_FILES)]
            expect("what is told", next_told(started), "ERROR card: Too many open files (os error 24); trying again")
            time.sleep(LONG)
            for one in held:
                one.close()
            client = connect(sockets / "card")
            expect("a buffer", client.ask("buf_create 1"), "buffer 1 4096")
            client.close()
            for _ in range(64 - FEW_FILES - 1):
                connect_raw(sockets / "card").close()
            with contextlib.closing(connect(sockets / "root")) as root:
                expect("an answer", root.ask("version"), "version 1 0 0")
            ended = end_of(started)
        expect("status and output", (ended.returncode, ended.stdout), (0, "device 0 0 0 6\n"))
        expect_end(run(PROGRAM, "check", folder / "journal"), 0, "", "6 passed, 0 failed\n")

    def test_a_listener_that_nobody_connects_to_needs_no_descriptor(self):
        """The first connection takes the last descriptor, and is open for longer than a listener waits by itself."""
        folder = self.folder
        with journaling(folder, 2, 0, 1, files=FEW_FILES) as (started, sockets):
            used = max(int(path.name) for path in pathlib.Path(f"/proc/{started.pid}/fd").iterdir())
            resource.prlimit(started.pid, resource.RLIMIT_NOFILE, (used + 2, FEW_FILES))
            first = connect(sockets / "card")
            time.sleep(LONG)
            resource.prlimit(started.pid, resource.RLIMIT_NOFILE, (FEW_FILES, FEW_FILES))
            first.close()
            for name in ("card", "root"):
                connect(sockets / name).close()
            ended = end_of(started)
        expect(
            "status, error output and output",
            (ended.returncode, ended.stderr, ended.stdout),
            (0, "", "device 0 0 0 6\n"),
        )

    def test_a_fault_of_a_listener_loses_no_journal(self):
        """No descriptor is left for a connection, and no other connection is open."""
        folder = self.folder
        with journaling(folder, 2, 0, 1, files=FEW_FILES) as (started, sockets):
            client = connect(sockets / "card")
            expect("a buffer", client.ask("buf_create 1"), "buffer 1 4096")
            client.close()
            used = {int(path.name) for path in pathlib.Path(f"/proc/{started.pid}/fd").iterdir()}
            free = min(set(range(FEW_FILES)) - used)
            resource.prlimit(started.pid, resource.RLIMIT_NOFILE, (free, FEW_FILES))
            waiting = connect_raw(sockets / "card")
            time.sleep(LONG)
            resource.prlimit(started.pid, resource.RLIMIT_NOFILE, (FEW_FILES, FEW_FILES))
            waiting.close()
            with contextlib.closing(connect(sockets / "root")) as root:
                expect("an answer of another listener", root.ask("version"), "version 1 0 0")
            ended = end_of(started)
        expect_journaled_fault(folder, ended, "accept card", "device 0 0 0 6\n")

    def test_a_thread_that_can_not_be_started_loses_no_journal(self):
        """The threads for the log, the journal, the listeners and one client have room, with a stack of 1 GiB each. Another has none."""
        folder = self.folder
        want_no_checks("it wants more address space than the test gives")
        gib = 1 << 30
        limits = ((resource.RLIMIT_STACK, gib), (resource.RLIMIT_AS, 7 * gib))
        with journaling(folder, 1, 1, 1, limits=limits) as (started, sockets):
            root = connect(sockets / "root")
            # the connection is closed, with an answer or without
            with connect_raw(sockets / "card") as refused, contextlib.suppress(ConnectionResetError, BrokenPipeError):
                refused.sendall(HELLO)
                refused.recv(64)
            root.close()
            connect_raw(sockets / "render").close()
            ended = end_of(started)
        expect("fault", ended.stderr.splitlines()[-1], "fault: thread")
        expect("status", ended.returncode, 1)
        expect_end(run(PROGRAM, "check", folder / "journal"), 0, "", ended.stdout.split()[-1] + " passed, 0 failed\n")


class StreamTests(FolderCase):
    """Tests: standard streams, and files of journals."""

    def test_no_client_reads_what_goes_to_a_closed_stream(self):
        """With standard error closed, a session that does not end normally is logged nowhere; with all three, no socket has their numbers."""
        folder = self.folder
        for closed in ([2], [1], [0], [0, 1, 2]):
            sockets = folder / "".join(map(str, closed))
            sockets.mkdir()
            with without_streams(
                closed,
                "serve",
                "--verbose",
                *path_words(sockets),
                *count_words(2, 0, 1),
                stdin=subprocess.DEVNULL,
                stdout=subprocess.DEVNULL,
                stderr=subprocess.DEVNULL,
            ) as started:
                try:
                    wait_until_it_listens(sockets / "root")
                    streams = [os.readlink(f"/proc/{started.pid}/fd/{number}") for number in range(3)]
                    expect("what the streams are", streams, 3 * ["/dev/null"])
                    with contextlib.closing(connect(sockets / "root")) as root:
                        with connect_raw(sockets / "card") as cut:
                            cut.sendall(HELLO + VERSION[:3])
                            expect("the answer to a hello", len(cut.recv(64)), 10)
                            cut.shutdown(socket.SHUT_WR)
                            expect("what follows it", cut.recv(64), b"")
                        expect("an answer", root.ask("version"), "version 1 0 0")
                    connect(sockets / "card").close()
                    expect("status", started.wait(SECONDS), 1 if 1 in closed else 0)
                finally:
                    started.kill()

    def test_a_closed_stream_is_still_a_fault(self):
        for closed, fault in ((0, "fault: read"), (1, "fault: write")):
            with without_streams(
                [closed], "run", stdin=subprocess.PIPE, stdout=subprocess.PIPE, stderr=subprocess.PIPE, text=True
            ) as started:
                _, told = started.communicate("open a card\n" if closed else None, timeout=SECONDS)
            expect(f"status and fault without {closed}", (started.returncode, told.splitlines()[-1]), (1, fault))

    def test_a_journal_does_not_replace_the_topology(self):
        folder = self.folder
        topology = folder / "topology"
        topology.write_text("crtcs 1\nprimary 1\nencoder 1\nconnector 1\n")
        before = topology.read_text()
        (folder / "link").symlink_to(topology)
        for journal in (topology, folder / "link"):
            for words in (["run"], ["serve", *path_words(folder)]):
                ran = run(PROGRAM, *words, "--topology", topology, "--journal", journal)
                cause = f"ERROR {journal}: the journal would replace the topology: choose another file"
                expect(
                    "status and what is told",
                    (ran.returncode, [told_by(line) for line in ran.stderr.splitlines()]),
                    (3, [cause, "fault: command line"]),
                )
                expect("the topology", topology.read_text(), before)
        expect("the files", sorted(path.name for path in folder.iterdir()), ["link", "topology"])

    def test_a_journal_on_a_pipe_is_opened_once(self):
        """What reads the pipe to its end reads the whole journal."""
        folder = self.folder
        os.mkfifo(folder / "pipe")
        with subprocess.Popen(["cat", folder / "pipe"], stdout=subprocess.PIPE, text=True) as reader:
            ran = run_program("run", "--journal", folder / "pipe", script="open a card\n")
            text, _ = reader.communicate(timeout=SECONDS)
        expect_end(ran, 0, "", "client 1\n")
        expect("the journal", text.splitlines()[1:], ["open a card -> client 1"])


class LogTests(FolderCase):
    """Tests: standard error that is not read."""

    def test_no_client_waits_for_a_log(self):
        """Nobody reads standard error, which is full: sessions are logged nowhere, and a listener has no descriptor for a while."""
        folder = self.folder
        reading, writing = filled_pipe()
        with server(folder, 8, 0, 1, stderr=writing) as started:
            os.close(writing)
            wait_until_it_listens(folder / "root")
            for _ in range(4):
                break_off(folder / "card")
            used = {int(path.name) for path in pathlib.Path(f"/proc/{started.pid}/fd").iterdir()}
            with contextlib.closing(connect(folder / "root")) as root:
                resource.prlimit(started.pid, resource.RLIMIT_NOFILE, (max(used) + 1, 1024))
                with connect_raw(folder / "card") as waiting:
                    time.sleep(1)
                    resource.prlimit(started.pid, resource.RLIMIT_NOFILE, (1024, 1024))
                    waiting.sendall(HELLO)
                    expect("the answer to one that waited", len(waiting.recv(64)), 10)
                expect("an answer", root.ask("version"), "version 1 0 0")
                for _ in range(3):
                    connect(folder / "card").close()
            output, _ = started.communicate(timeout=SECONDS)
        os.close(reading)
        expect("status and output", (started.returncode, output), (0, "device 0 0 0 19\n"))

    def test_log_lines_that_have_no_room_are_counted(self):
        """Once standard error is read again, the lines that waited are logged, and then how many there was no room for."""
        folder = self.folder
        reading, writing = filled_pipe()
        with server(folder, 64, 64, 1, stderr=writing) as started:
            os.close(writing)
            with contextlib.closing(connect(folder / "root")) as root, open(
                reading, encoding="ascii", newline="\n"
            ) as pipe:
                for name in ("card", "render"):
                    for _ in range(64):
                        break_off(folder / name)
                expect("the clients that are open", root.ask("audit 1 0").count("|"), 1)
                told = []
                while not told or "left out" not in told[-1]:
                    told += [told_by(line) for line in [pipe.readline()] if line.strip()]
            output, _ = started.communicate(timeout=SECONDS)
        expect("status and output", (started.returncode, output), (0, "device 0 0 0 259\n"))
        # few are at the thread that logs, and 64 wait
        left_out = int(
            re.fullmatch(r"WARN (\d+) log lines were left out: standard error did not accept them", told[-1])[1]
        )
        expect("the lines that were logged or left out", len(told) - 1 + left_out, 128)
        expect("whether most of those beyond the room were left out", left_out > 50, True)


class ConnectionTests(FolderCase):
    """Tests: connections that are passed on, and answers that are not taken."""

    def test_a_dead_process_keeps_no_client(self):
        folder = self.folder
        for requests in (1, 400, 2000):
            with server(folder, 1, 0, 1) as started:
                wait_until_it_listens(folder / "root")
                send_itself_and_exit(folder / "card", requests)
                root = connect(folder / "root")
                wait_until(
                    "whether the dead process's client is closed", lambda: root.ask("audit 1 0").startswith("rows 1 |")
                )
                root.close()
                expect("status", end_of(started).returncode, 0)
            expect_no_sockets(folder)

    def test_a_client_that_takes_its_answers_late_loses_none(self):
        """It asks for more than the system keeps, and only then takes the answers."""
        folder = self.folder
        asked = 12_000
        with server(folder, 1, 0, 0) as started:
            with retry(lambda: connect_raw(folder / "card")) as late:
                late.sendall(HELLO)
                expect("the answer to a hello", len(late.recv(10)), 10)
                late.sendall(asked * VERSION)
                left = asked * 18
                while left > 0:
                    got = len(late.recv(65_536))
                    expect("whether the connection is open", got > 0, True)
                    left -= got
            ended = end_of(started)
        expect("status and output", (ended.returncode, ended.stdout), (0, f"device 0 0 0 {asked + 2}\n"))

    def test_a_client_that_takes_no_answers_is_closed(self):
        """Once it has sent more than is kept for it."""
        folder = self.folder
        with server(folder, 1, 0, 1) as started:
            with retry(lambda: connect_raw(folder / "card")) as flooding:
                flooding.sendall(HELLO)
                expect("the answer to a hello", len(flooding.recv(10)), 10)
                try:
                    while True:
                        flooding.sendall(1000 * VERSION)
                except (BrokenPipeError, ConnectionResetError):
                    pass
            connect(folder / "root").close()
            ended = end_of(started)
        lines = [told_by(line) for line in ended.stderr.splitlines()]
        expect(
            "status and what is told",
            (ended.returncode, lines),
            (0, ["WARN card, client 1: the connection could not be read"]),
        )


if __name__ == "__main__":
    sys.exit(run_tests())
