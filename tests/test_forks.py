#!/usr/bin/env python3
"""Tests of clients after a fork: a client is the parent's. In the child its calls fail at once, and its closing ends no connection.

What it tests: clients of a process that forks in the middle of another thread's or task's call: calls and closings
in the child, and that the parent's connection stays open.

Each test has its own folder. The last line is `N passed, M failed`; a client whose compiler isn't there is skipped, and told so.
Standard library only.
"""
import asyncio
import os
import signal
import sys
import threading

sys.dont_write_bytecode = True
from support import (  # noqa: E402
    SECONDS,
    FolderCase,
    compile_client,
    connect,
    end_of,
    expect,
    expect_end,
    run,
    run_tests,
    server,
    wait_until,
    wait_until_it_listens,
)

from zirkoshe import AsyncClient  # noqa: E402

# the answer for which a thread or a task waits while its process forks
STALLED = ["--stall", "getcrtc:1=2000"]
FORKED = "this process is a child of the one that opened the client"


def told_by_child(action):
    """What an action in a child of fork returns, as text; nothing if the child did not end in time."""
    reading, writing = os.pipe()
    child = os.fork()
    if child == 0:
        try:
            signal.alarm(SECONDS)
            os.write(writing, repr(action()).encode())
        finally:
            os._exit(0)
    os.close(writing)
    with open(reading, encoding="ascii") as pipe:
        told = pipe.read()
    os.waitpid(child, 0)
    return told


def raised(action):
    try:
        return action()
    except Exception as error:
        return f"{type(error).__name__}: {error}"


def is_held(client):
    """Whether another thread waits for an answer."""
    if not client._turn.acquire(blocking=False):
        return True
    client._turn.release()
    return False


async def fork_while_a_task_waits(path):
    """What calls and closings of an asyncio client return in a child, and what the parent is answered."""
    client = await AsyncClient(path, timeout=SECONDS).open()
    waiting = asyncio.ensure_future(client.getcrtc(1))
    await asyncio.sleep(0.2)
    told = told_by_child(
        lambda: [raised(lambda: asyncio.run(client.version())), asyncio.run(client.close()), client.socket]
    )
    abandoned = told_by_child(lambda: [client.abandon(), client.socket])
    answers = [await waiting, await client.getencoder(5)]
    await client.close()
    return told, abandoned, answers


class ForksTests(FolderCase):
    """Tests: clients after a fork."""

    def test_python_client(self):
        """The process forks in the middle of another thread's call."""
        with server(self.folder, 1, 0, 0, more=STALLED) as started:
            client = connect(self.folder / "card")
            answers = []
            waiting = threading.Thread(target=lambda: answers.append(client.getcrtc(1)))
            waiting.start()
            wait_until("whether the thread waits", lambda: is_held(client))
            told = told_by_child(
                lambda: [raised(client.version), raised(lambda: client.ask("version")), client.close()]
            )
            expect("calls of the child, and its closing", told, repr([f"ForkedError: {FORKED}"] * 2 + [None]))
            told = told_by_child(lambda: [client.abandon(), client.socket, raised(client.version)])
            expect("a connection that it abandons", told, repr([None, None, f"ForkedError: {FORKED}"]))
            waiting.join(SECONDS)
            expect("the answer to the thread, and one to the parent", (answers, client.getencoder(5)), ([0], 3))
            client.close()
            expect_end(end_of(started), 0, "", "device 0 0 0 4\n")

    def test_asyncio_client(self):
        """The process forks while a task waits for its answer."""
        with server(self.folder, 1, 0, 0, more=STALLED) as started:
            wait_until_it_listens(self.folder / "card")
            told, abandoned, answers = asyncio.run(fork_while_a_task_waits(self.folder / "card"))
            expect("a call of the child, and its closing", told, repr([f"ForkedError: {FORKED}", None, None]))
            expect("a connection that it abandons", abandoned, "[None, None]")
            expect("the answers to the parent", answers, [0, 3])
            expect_end(end_of(started), 0, "", "device 0 0 0 4\n")

    def test_c_client(self):
        """The process forks in the middle of another thread's call."""
        program = compile_client("c", "forks.c", self.folder)
        with server(self.folder, 2, 0, 0, more=STALLED) as started:
            wait_until_it_listens(self.folder / "card")
            ran = run(program, self.folder / "card")
            expect_end(
                ran,
                0,
                "",
                "a call of the child: No child processes\ncalls that are sent together: No child processes\n"
                "its closing: done\na call after it: Transport endpoint is not connected\nanother opening: done\n"
                "a call of it: done\nits closing: done\nthe child's status: 0\n"
                "the call of the thread: done\na call of the parent: done\nits closing: done\n",
            )
            expect_end(end_of(started), 0, "", "device 0 0 0 7\n")

    def test_rust_client(self):
        program = compile_client("rust", "forks.rs", self.folder)
        with server(self.folder, 1, 0, 0) as started:
            wait_until_it_listens(self.folder / "card")
            ran = run(program, self.folder / "card")
            expect_end(
                ran,
                0,
                "",
                f"a call of the child: {FORKED}\nits closing: done\na call of the parent: done\nits closing: done\n",
            )
            expect_end(end_of(started), 0, "", "device 0 0 0 3\n")


if __name__ == "__main__":
    sys.exit(run_tests())
