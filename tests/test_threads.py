#!/usr/bin/env python3
"""Tests of clients that threads share: no thread gets another's answer, and what is no answer to the request is an error.

What it tests: threads that share a client get their own answers and refusals; closing waits for its turn; answers
of another kind than the call's are refused.

Each test has its own folder. The last line is `N passed, M failed`; a client whose compiler isn't there is
skipped with the reason. Standard library only.
"""
import struct
import subprocess
import sys
import threading
import time

sys.dont_write_bytecode = True
from support import (  # noqa: E402
    CLIENTS,
    REPOSITORY,
    SECONDS,
    FolderCase,
    compile_client,
    connect,
    end_of,
    expect,
    expect_end,
    retry,
    run,
    run_tests,
    server,
    want_program,
)

from zirkoshe import Client, ProtocolError, Version  # noqa: E402
from zirkoshe.protocol import CALLS  # noqa: E402

from hostile import ANSWERS, OPENED, answering  # noqa: E402

ASKED = 10_000
# two encoders, each with the mask of its CRTCs
ENCODERS = ((5, 3), (6, 2))


def in_threads(*actions):
    """Runs each action in its own thread, and returns what each gave or raised."""
    results = [None] * len(actions)

    def keep(place, action):
        try:
            results[place] = action()
        except Exception as error:
            results[place] = error

    threads = [threading.Thread(target=keep, args=(place, action)) for place, action in enumerate(actions)]
    for thread in threads:
        thread.start()
    for thread in threads:
        thread.join(4 * SECONDS)
    return results


def swapped(client, encoder, wanted):
    """How many of the answers to one request are another's."""
    return sum(client.getencoder(encoder) != wanted for _ in range(ASKED))


def raised_by(folder, text, ask):
    """What a call raises whose answer is this text."""
    path = folder / "card"
    try:
        with answering(path, OPENED, text):
            client = Client(path, timeout=SECONDS)
            try:
                ask(client)
            except Exception as error:
                return type(error), client.socket
            finally:
                client.abandon()
        return None, None
    finally:
        path.unlink()


def expect_shared(folder, program, printed):
    with server(folder, 1, 0, 0) as started:
        retry((folder / "root").stat)
        expect_end(run(program, folder / "card"), 0, "", printed)
        expect("the server's status", end_of(started).returncode, 0)


class ThreadsTests(FolderCase):
    """Tests of clients that threads share: no thread gets another's answer, and what is no answer to the request is an error."""

    def test_python_client_of_two_threads(self):
        folder = self.folder
        with server(folder, 1, 0, 0) as started:
            client = connect(folder / "card")
            found = in_threads(*(lambda asked=asked: swapped(client, *asked) for asked in ENCODERS))
            expect("answers of another's request", found, [0, 0])
            client.close()
            expect_end(end_of(started), 0, "", f"device 0 0 0 {2 + 2 * ASKED}\n")

    def test_python_refusals_of_two_threads(self):
        folder = self.folder

        def refused(client, call, rule):
            return [client.ask(call) for _ in range(1000)].count(rule)

        with server(folder, 1, 0, 0):
            client = connect(folder / "card")
            found = in_threads(
                lambda: refused(client, "gem_close 7", "denied 22 NoHandleToClose 22"),
                lambda: refused(client, "rmfb 7", "denied 38 NoFb 2"),
            )
            expect("the own refusals", found, [1000, 1000])
            client.close()

    def test_python_client_is_closed_while_another_thread_asks(self):
        """Who closes waits for its turn; what is asked afterwards is refused, and nothing else goes wrong."""
        folder = self.folder

        def ask_on(client):
            while True:
                client.version()
                time.sleep(0.001)  # the lock isn't fair

        with server(folder, 1, 0, 0):
            client = connect(folder / "card")
            asked, _ = in_threads(lambda: ask_on(client), lambda: (time.sleep(0.2), client.close()))
            expect("the end of the other", (type(asked), str(asked)), (ConnectionError, "the connection is closed"))

    def test_python_client_is_abandoned_while_another_thread_waits(self):
        folder = self.folder
        with answering(folder / "silent", OPENED, drips=b""):
            client = Client(folder / "silent", timeout=SECONDS)
            begun = time.monotonic()
            asked, _ = in_threads(client.version, lambda: (time.sleep(0.2), client.abandon()))
            expect("that the other is woken", time.monotonic() - begun < SECONDS / 2, True)
            expect("what it gets", isinstance(asked, ConnectionError), True)
            expect("the connection", client.socket, None)

    def test_python_time_begins_with_the_turn(self):
        """A call that waits for another's answer has its whole time once it is its turn."""
        folder = self.folder
        is_held = threading.Event()

        def hold(client):
            with client._turn:
                is_held.set()
                time.sleep(4)

        def ask(client):
            is_held.wait(SECONDS)
            return client.version()

        with server(folder, 1, 0, 0):
            client = connect(folder / "card")
            client.timeout = 3
            _, asked = in_threads(lambda: hold(client), lambda: ask(client))
            expect("the version", asked, Version(1, 0, 0))
            client.close()

    def test_python_answers_of_another_kind(self):
        """Each call with the answer of each other kind: an error, and the connection is closed."""
        folder = self.folder
        for word, call in CALLS.items():
            fields = "" if call.layout == "L" else " 0" * len(call.layout)
            for kind, text in ANSWERS.items():
                wanted = (None, None) if kind == call.answer.__name__ else (ProtocolError, None)
                expect(f"{kind} for {word}", raised_by(folder, text, lambda client: client.ask(word + fields)), wanted)

    def test_python_raw_frames_with_answers_of_another_kind(self):
        folder = self.folder
        asked = struct.pack("<I", 7)
        for kind, wanted in (("Done", (None, None)), ("Number", (ProtocolError, None))):
            expect(kind, raised_by(folder, ANSWERS[kind], lambda client: client.raw(0x09, asked)), wanted)
            expect(kind, raised_by(folder, ANSWERS[kind], lambda client: client.ask("raw 9 7")), wanted)
        # nobody knows what a number without a row would be answered by
        expect("another number", raised_by(folder, ANSWERS["Number"], lambda client: client.raw(0x77)), (None, None))

    def test_c_client_of_two_threads(self):
        folder = self.folder
        program = compile_client("c", "threads.c", folder)
        expect_shared(folder, program, "0 swapped, 0 failed\n" * 2)
        with answering(folder / "other", OPENED, ANSWERS["Number"]):
            expect_end(run(program, folder / "other", "once"), 0, "", "Protocol error\n")

    def test_rust_client_of_two_threads(self):
        folder = self.folder
        program = compile_client("rust", "threads.rs", folder)
        expect_shared(folder, program, "0 swapped, 0 failed\n")
        with answering(folder / "other", OPENED, ANSWERS["Number"]):
            wrong = "the answer has the number 0x1003, which is not the call's\n"
            expect_end(run(program, folder / "other", "once"), 1, "", wrong)

    def test_rust_client_is_not_shared_without_a_lock(self):
        """Its type says so: each call wants the client for itself."""
        folder = self.folder
        want_program("rustc")
        source = REPOSITORY / "tests/unlocked.rs"
        ran = subprocess.run(
            ["rustc", "--edition", "2021", "--emit", "metadata", "-o", folder / "unlocked", source],
            capture_output=True,
            text=True,
            timeout=4 * SECONDS,
        )
        expect("whether it compiles", ran.returncode, 1)
        expect(
            "why not",
            [line for line in ran.stderr.splitlines() if line.startswith("error[")],
            ["error[E0499]: cannot borrow `client` as mutable more than once at a time"],
        )

    def test_c_header_in_cplusplus(self):
        folder = self.folder
        want_program("c++")
        (folder / "header.cc").write_text('#include "drm_client.h"\nint main() { return 0; }\n')
        ran = run(
            "c++",
            "-std=c++11",
            "-Wall",
            "-Wextra",
            "-Werror",
            "-fsyntax-only",
            "-I",
            CLIENTS / "c",
            folder / "header.cc",
        )
        expect_end(ran, 0, "", "")


if __name__ == "__main__":
    sys.exit(run_tests())
