#!/usr/bin/env python3
"""Tests of clients whose server is hostile: it answers with garbage, cuts answers off or adds to them, is slow or silent, or resets.

What it tests: the Python (threads and asyncio), C and Rust clients with servers that answer with garbage, cut
answers off, add to them, are slow or silent, or reset. Each of 306 connections of each client ends with the
error that this is. The C client has AddressSanitizer and UBSan. 10,002 connections were tried once.

The server misbehaves in each connection in place of one answer: that of the opening, that of a call, or the end after a closing.
Each connection has to end with the error that this is. HOSTILE_CONNECTIONS is the number of connections of each client, by default
300. The C client is compiled with AddressSanitizer and UBSan, the Rust client with the checks of a debug build.

Each test has its own folder. The last line is `N passed, M failed`; a client whose compiler isn't there is skipped, and told so.
Standard library only.
"""
import asyncio
import collections
import contextlib
import os
import random
import select
import socket
import struct
import sys
import threading
import time

sys.dont_write_bytecode = True
from support import (  # noqa: E402
    CLIENTS,
    REPOSITORY,
    SECONDS,
    FolderCase,
    compile_client,
    expect,
    run,
    run_tests,
    want_program,
)

from zirkoshe import AsyncClient, Client, ProtocolError  # noqa: E402

from hostile import ANSWERS, OPENED, frame  # noqa: E402

CONNECTIONS = int(os.environ.get("HOSTILE_CONNECTIONS", "300"))
# the time limits in milliseconds of connections that end by it, and of all others
SHORT = 10
LONG = 1000 * SECONDS
PLACES = ("opening", "call", "closing")
# how a connection ends in each place; one that is cut off before its first byte is gone
ENDS = {
    "garbage": ("malformed", "malformed", "malformed"),
    "cut": ("malformed", "malformed", "done"),
    "extra": ("malformed", "malformed", "malformed"),
    "slow": ("late", "late", "late"),
    "silent": ("late", "late", "late"),
    "reset": ("gone", "gone", "done"),
}
# by the numbers of answers with a list: its greatest length, and the bytes of an element. Other fields have at most 20 bytes
LISTS = {0x1007: (64, 4), 0x100B: (16, 32)}
# the bytes of fields for which a frame has room after a length
MOST_FIELDS = 1018
# what ends by the client's time limit
ENDLESS = ("slow", "silent")
# a call of each kind of answer, with its number and the kind
CALLS = (
    ("version", 0x00, "Version"),
    ("set_master", 0x1E, "Done"),
    ("getencoder 5", 0xA6, "Number"),
    ("get_cap 5", 0x0C, "Number"),
    ("create_dumb 64 64 32", 0xB2, "Dumb"),
    ("buf_create 1", 0x40, "Buffer"),
    ("list_handles 0", 0x44, "IdList"),
    ("getresources", 0xA0, "Resources"),
    ("getplane 3", 0xB6, "Plane"),
    ("getfb 9", 0xAD, "Framebuffer"),
    ("create_lease 2 4 8", 0xC6, "Lease"),
    ("audit 1 0", 0x45, "Rows"),
)
KINDS = {number: kind for _, number, kind in CALLS}
SANITIZED = ["cc", "-std=c99", "-g", "-O1", "-fsanitize=address,undefined", "-fno-sanitize-recover=all", "-pthread"]


def bytes_of(dice, count):
    return dice.getrandbits(8 * count).to_bytes(count, "little") if count else b""


def garbage(dice, answer):
    """Bytes that are no answer: any, a frame of an unknown number, one that ends inside a field, or one that is too long."""
    number = struct.unpack_from("<H", answer, 4)[0]
    fields = bytes_of(dice, dice.randrange(MOST_FIELDS))
    kind = dice.randrange(4)
    if kind == 0:
        return fields[:3] + b"\xff" + fields[3:]  # no length begins so
    if kind == 1:
        return frame(dice.randrange(0x3000, 0x10000), fields)
    if kind == 2:
        whole = len(fields) // 4 * 4
        return frame(number, (struct.pack("<I", dice.randrange(70)) + fields)[: whole + dice.randrange(1, 4)])
    most, size = LISTS.get(number, (8, 4))
    count = dice.randrange(most + 1, MOST_FIELDS // size)
    return frame(number, struct.pack("<I", count) + bytes_of(dice, count * size))


def answer_to(request):
    return ANSWERS[KINDS[struct.unpack_from("<H", request, 4)[0]]]


class Hostile:
    """A listener that misbehaves in one way, each time at a place of its choice, and keeps how each connection has to end."""

    def __init__(self, path, way):
        self.way = way
        self.dice = random.Random(way)
        self.ends = []
        self.listener = socket.socket(socket.AF_UNIX)
        self.listener.bind(str(path))
        self.listener.listen(64)

    def serve(self, count):
        """Serves this many connections."""
        with contextlib.suppress(OSError), self.listener:
            for _ in range(count):
                connection, _ = self.listener.accept()
                with connection, contextlib.suppress(OSError):
                    self.serve_one(connection)

    def serve_one(self, connection):
        place = self.dice.randrange(len(PLACES))
        self.ends.append(ENDS[self.way][place])
        last = min(place, 1)
        for at in range(last + 1):
            # the system resets a connection in which the last request was not read
            request = connection.recv(2048, socket.MSG_PEEK if self.way == "reset" and at == last else 0)
            if not request:
                return  # the client's time was over before
            answer = answer_to(request) if at > 0 else OPENED
            if at < place:
                connection.sendall(answer)
        if PLACES[place] == "closing":
            wait_for(connection, select.POLLRDHUP)
            answer = b""
        self.misbehave(connection, answer)

    def misbehave(self, connection, answer):
        """Does what this server does in place of an answer, which is empty at a closing."""
        if self.way == "garbage":
            connection.sendall(garbage(self.dice, answer or OPENED))
        elif self.way == "extra":
            connection.sendall(answer + bytes_of(self.dice, self.dice.randrange(1, 64)))
        elif self.way == "cut" and answer:
            kept = self.dice.randrange(len(answer))
            self.ends[-1] = "malformed" if kept else "gone"
            connection.sendall(answer[:kept])
        elif self.way == "slow":
            for at in range(len(answer) - 1):
                connection.sendall(answer[at : at + 1])
                time.sleep(0.001)
        elif self.way == "reset":
            connection.sendall(answer[: self.dice.randrange(len(answer) + 1) // 2])
            return
        if self.way not in ENDLESS:
            connection.shutdown(socket.SHUT_WR)
        wait_for(connection, 0)


def wait_for(connection, event):
    """Waits for this event or for the end of the client's socket, and reads nothing."""
    waiting = select.poll()
    waiting.register(connection, event)
    waiting.poll(LONG)


@contextlib.contextmanager
def hostile(path, way, count):
    """A hostile server in a thread, for this many connections."""
    server = Hostile(path, way)
    thread = threading.Thread(target=server.serve, args=(count,), daemon=True)
    thread.start()
    yield server
    thread.join(2 * SECONDS)


def end_by(error):
    """The word for what a Python client raised."""
    kinds = ((ProtocolError, "malformed"), (TimeoutError, "late"), (ConnectionError, "gone"))
    return next((word for kind, word in kinds if isinstance(error, kind)), repr(error))


def ask(path, call, limit):
    """Opens a client, makes a call, and closes it; how the connection ended."""
    try:
        with Client(path, timeout=limit / 1000) as client:
            client.ask(call)
        return "done"
    except Exception as error:
        return end_by(error)


async def ask_later(path, call, limit):
    try:
        async with AsyncClient(path, timeout=limit / 1000) as client:
            await client.ask(call)
        return "done"
    except Exception as error:
        return end_by(error)


async def ask_all_later(path, count, limit):
    return [await ask_later(path, CALLS[number % len(CALLS)][0], limit) for number in range(count)]


def ends_of_program(program):
    """What a program in C or Rust prints of its connections."""

    def ends(path, count, limit):
        ran = run(program, path, count, limit, timeout=4 * SECONDS + count)
        expect("error output and status", (ran.stderr[-2000:], ran.returncode), ("", 0))
        return ran.stdout.splitlines()

    return ends


class HostileTests(FolderCase):
    """Tests: clients of hostile servers."""

    def expect_survives(self, name, ends_of):
        """Each connection of a client to each of these servers ends as it has to."""
        counts = collections.Counter()
        count = CONNECTIONS // len(ENDS) + 1
        for way in ENDS:
            path = self.folder / way
            with hostile(path, way, count) as server:
                found = ends_of(path, count, SHORT if way in ENDLESS else LONG)
            wrong = [(number, *both) for number, both in enumerate(zip(found, server.ends)) if both[0] != both[1]]
            expect(f"ends of {way} that are wrong", (wrong[:3], len(found), len(server.ends)), ([], count, count))
            counts.update(found)
        told = ", ".join(f"{word} {counts[word]}" for word in sorted(counts))
        print(f"{name}: {sum(counts.values())} connections: {told}", flush=True)

    def test_python_client(self):
        self.expect_survives(
            "Python",
            lambda path, count, limit: [ask(path, CALLS[number % len(CALLS)][0], limit) for number in range(count)],
        )

    def test_asyncio_client(self):
        self.expect_survives("asyncio", lambda *words: asyncio.run(ask_all_later(*words)))

    def test_c_client(self):
        want_program("cc")
        program = self.folder / "c"
        ran = run(*SANITIZED, "-I", CLIENTS / "c", "-o", program, REPOSITORY / "tests/hostile.c")
        expect("what cc says", (ran.returncode, ran.stderr), (0, ""))
        self.expect_survives("C", ends_of_program(program))

    def test_rust_client(self):
        self.expect_survives("Rust", ends_of_program(compile_client("rust", "hostile.rs", self.folder)))


if __name__ == "__main__":
    sys.exit(run_tests())
