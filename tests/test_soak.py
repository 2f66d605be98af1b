#!/usr/bin/env python3
"""A soak: hostile clients in three languages on one server after another, and what a monitor client and the server notice of them.

What it tests: hostile clients in three languages on one server after another: what a monitor client waits, and that
threads and descriptors return to what they were; `tests/test_soak.py 10` takes ten minutes.

    tests/test_soak.py MINUTES

Without MINUTES it takes one. The clients connect, ask, break off, flood, take no answers, pass descriptors, and are stopped and killed.
Meanwhile a root client asks, and another asks an idle server. Each round is one server, since a server accepts a fixed number of
connections. The last line is `N passed, M failed`. Standard library only.
"""
import array
import contextlib
import pathlib
import random
import shutil
import signal
import socket
import statistics
import subprocess
import sys
import threading
import time

sys.dont_write_bytecode = True
from support import (  # noqa: E402
    COMPILERS,
    PROGRAM,
    SECONDS,
    FolderCase,
    compile_client,
    connect,
    connect_raw,
    count_words,
    expect,
    expect_no_sockets,
    is_compiled_with_checks,
    path_words,
    run_tests,
    wait_until,
    wait_until_it_listens,
)

from zirkoshe import Refusal  # noqa: E402

HELLO = bytes.fromhex("0e000000 0001 02000000 00000000 00000000")
VERSION = bytes.fromhex("02000000 0000")
# how many connections two sockets of a server accept, of which some are left, and how many hostile clients are at work at once
CONNECTIONS = 64
AT_ONCE = 8
# the worst wait is at most N times that of a client of an idle server on the same machine, or that of the shortest that counts
RATIO = 20
SHORTEST = 0.01
# the median is at most N times that of the client of the idle server
MEDIAN_RATIO = 10
# the threads of a server that serves one client: its own, that for its standard input's end, that for the log, and one for each listener and the client
THREADS = 7
# how much more memory a server may have at the end of a round, in KB: its journal has up to 100,000 steps
GROWTH = 40_000
MINUTES = 1.0


# ---- hostile clients, each of which is given a socket


def ask_and_close(path):
    client = connect(path)
    for call in ("version", "buf_create 1", "gem_close 1", "gem_close 7", "getresources"):
        client.ask(call)
    client.close()


def break_off(path):
    """Ends within a frame."""
    with connect_raw(path) as cut:
        cut.sendall((HELLO + VERSION)[: random.randrange(len(HELLO + VERSION))])


def flood(path):
    """Sends until it is closed, or for a while, and takes no answer."""
    with connect_raw(path) as flooding:
        flooding.settimeout(0.2)
        flooding.sendall(HELLO)
        with contextlib.suppress(OSError):
            for _ in range(50):
                flooding.sendall(1000 * VERSION)


def never_read(path):
    with connect_raw(path) as silent:
        silent.sendall(HELLO + 300 * VERSION)
        time.sleep(random.uniform(0, 0.3))


def pass_itself(path):
    """Passes the server its own end of the connection."""
    with connect_raw(path) as passing:
        passing.sendall(HELLO)
        passing.recv(10)
        passing.sendmsg([VERSION], [(socket.SOL_SOCKET, socket.SCM_RIGHTS, array.array("i", 3 * [passing.fileno()]))])
        time.sleep(random.uniform(0, 0.1))


def stop_and_kill(program):
    """A client of another program, which is stopped while it asks, continues, and is killed."""

    def act(path):
        with subprocess.Popen([program, path], stdin=subprocess.DEVNULL, stdout=subprocess.DEVNULL) as asking:
            for wait, number in ((0.02, signal.SIGSTOP), (0.1, signal.SIGCONT), (0.02, signal.SIGKILL)):
                time.sleep(wait)
                asking.send_signal(number)

    return act


def programs(folder):
    """The clients in C and Rust, as far as there are compilers."""
    found = [language for language in ("c", "rust") if shutil.which(COMPILERS[language][0])]
    return [compile_client(language, "soak.c" if language == "c" else "soak.rs", folder) for language in found]


# ---- what is noticed of them


class Monitor:
    """A root client that asks for the version again and again, and how long each answer took."""

    def __init__(self, path):
        self.client = connect(path)
        self.waits = []
        self.failed = None
        self.ended = threading.Event()
        self.thread = threading.Thread(target=self.ask)

    def ask(self):
        try:
            while not self.ended.wait(0.002):
                before = time.monotonic()
                self.client.version()
                self.waits.append(time.monotonic() - before)
        except (OSError, Refusal) as failed:
            self.failed = failed

    def __enter__(self):
        self.thread.start()
        return self

    def __exit__(self, *_):
        self.ended.set()
        self.thread.join()
        expect("what the monitor was refused", self.failed, None)
        self.client.close()


def used_by(started):
    """A server's threads, descriptors and resident memory in KB."""
    folder = pathlib.Path(f"/proc/{started.pid}")
    status = dict(line.split(":", 1) for line in (folder / "status").read_text(encoding="ascii").splitlines())
    return int(status["Threads"]), len(list((folder / "fd").iterdir())), int(status["VmRSS"].split()[0])


def plan(clients):
    """The hostile clients of one round in a random order. Few ask as often as they can, since a server's journal has a bound."""
    acts = 40 * [ask_and_close] + 24 * [break_off] + 4 * [flood] + 16 * [never_read] + 16 * [pass_itself]
    acts += [stop_and_kill(clients[at % len(clients)]) for at in range(8 if clients else 0)]
    random.shuffle(acts)
    return acts


def run_plan(sockets, acts, until):
    """Runs hostile clients, some at once, on two sockets by turns, until there are none left or the time is over; gives how many."""
    left = list(enumerate(acts))
    taking = threading.Lock()
    count = len(left)

    def work():
        while time.monotonic() < until:
            with taking:
                if not left:
                    return
                at, act = left.pop()
            with contextlib.suppress(OSError, Refusal):
                act(sockets / ("card", "render")[at % 2])

    threads = [threading.Thread(target=work) for _ in range(AT_ONCE)]
    for thread in threads:
        thread.start()
    for thread in threads:
        thread.join()
    return count - len(left)


@contextlib.contextmanager
def serving(sockets):
    """A server that ends where its standard input does, and a client that asks it meanwhile."""
    sockets.mkdir()
    words = ["serve", "--until-input-ends", *path_words(sockets), *count_words(CONNECTIONS, CONNECTIONS, 2)]
    with subprocess.Popen(
        [PROGRAM, *words], stdin=subprocess.PIPE, stdout=subprocess.PIPE, stderr=subprocess.DEVNULL, text=True
    ) as started:
        try:
            wait_until_it_listens(sockets / "root")
            with Monitor(sockets / "root") as monitor:
                yield started, monitor
            output, _ = started.communicate(timeout=SECONDS)
            expect("status, and what the server holds at the end", (started.returncode, output.count("\n")), (0, 1))
        finally:
            started.kill()
    expect_no_sockets(sockets)
    sockets.rmdir()


def soak_one(folder, clients, idle, until):
    """One server with hostile clients. Gives how many there were, the waits of its monitor and of the idle server's, and its memory."""
    with serving(folder / "soaked") as (started, monitor):
        for name in ("card", "render"):
            connect(folder / "soaked" / name).close()
        idle_before = len(idle.waits)
        wait_until("whether the monitor alone is served", lambda: used_by(started)[0] == THREADS)
        before = used_by(started)
        count = run_plan(folder / "soaked", plan(clients), until)
        wait_until("whether threads and descriptors are those of before", lambda: used_by(started)[:2] == before[:2])
        after = used_by(started)
        waits, idle_waits = list(monitor.waits), idle.waits[idle_before:]
    if not is_compiled_with_checks():
        expect(f"growth of {before[2]} KB to {after[2]} KB is within its bound", after[2] - before[2] <= GROWTH, True)
    return count, waits, idle_waits, (before, after)


def shown(waits):
    return f"median {1e6 * statistics.median(waits):.0f} us, worst {1e3 * max(waits):.2f} ms"


def main():
    global MINUTES
    if sys.argv[1:] and sys.argv[1].replace(".", "", 1).isdigit():
        MINUTES = float(sys.argv.pop(1))
    return run_tests()


class SoakTests(FolderCase):
    """Tests: what is noticed of them."""

    def test_hostile_clients_delay_no_other_and_leave_nothing(self):
        folder = self.folder
        clients = programs(folder)
        until = time.monotonic() + 60 * MINUTES
        count, waits, idle_waits, used = 0, [], [], []
        while time.monotonic() < until:
            # a new one each time, since its journal has a bound too
            with serving(folder / "idle") as (_, idle):
                found = soak_one(folder, clients, idle, until)
            count += found[0]
            waits += found[1]
            idle_waits += found[2]
            used.append(found[3])
        print(
            f"{len(used)} servers, {count} hostile clients in {1 + len(clients)} languages, {len(waits)} answers to the monitors"
        )
        print(f"a monitor waited: {shown(waits)}; that of an idle server: {shown(idle_waits)}")
        print(
            f"threads, descriptors and KB of a server: {used[0][0]} before and {used[0][1]} after; the most KB {max(after[2] for _, after in used)}"
        )
        expect(
            "the median is within its bound",
            statistics.median(waits) <= MEDIAN_RATIO * statistics.median(idle_waits),
            True,
        )
        expect("the worst wait is within its bound", max(waits) <= RATIO * max(SHORTEST, max(idle_waits)), True)


if __name__ == "__main__":
    sys.exit(main())
