#!/usr/bin/env python3
"""Tests of the built program over input and output that come in pieces, end, fail and are interrupted, at each byte.

What it tests: input and output that arrive in pieces, end, fail and are interrupted, at each byte; stopped and
killed programs; requests far ahead of their answers; 48 connections on one processor.

Pipes and sockets do some of that by themselves; for the rest `tests/cut.c` is loaded into the program. It needs Linux and a C
compiler. The last line is `N passed, M failed`. Standard library only.
"""
import contextlib
import itertools
import os
import select
import signal
import socket
import subprocess
import sys
import time

sys.dont_write_bytecode = True
from support import (  # noqa: E402
    PROGRAM,
    REPOSITORY,
    SECONDS,
    FolderCase,
    connect,
    connect_raw,
    end_of,
    expect,
    expect_answers,
    expect_end,
    expect_no_sockets,
    expect_told,
    loading,
    retry,
    run_program,
    run_tests,
    server,
)

PIECES = (1, 2, 3, 7)

# how long answers are left unread, in seconds
LATE = 60

# a fault that comes once, after which the calls would go on, and one for good
TIMES = (1, 1_000_000_000)

BUFFER = (REPOSITORY / "examples/buffer.script").read_text()
BUFFER_ANSWERS = "client 1\nversion 1 0 0\ndumb 1 256 16384\ndone\ndenied 22 NoHandleToClose 22\nclosed\n"

# a hello and VERSION, with the answers
HELLO, OPENED = bytes.fromhex("0e000000 0001 01000000 00000000 00000000"), bytes.fromhex("06000000 0110 01000000")
VERSION, IS_VERSION = bytes.fromhex("02000000 0000"), bytes.fromhex("0e000000 0210 01000000 00000000 00000000")
ASKED, ANSWERS = HELLO + VERSION, OPENED + IS_VERSION
LAYOUT = bytes.fromhex("0a000000 0020 02000000 16000000")

ENDED = None
TRUNCATED = "the input ended inside a frame"
TOO_LONG = "a frame's length is out of range"
BAD_HELLO = "the first frame is not a hello that this listener allows"
READ_FAULT = "the connection could not be read"
WRITE_FAULT = "the connection could not be written"


def cutting(**cuts):
    """The environment in which calls of the program are cut so, each a piece, a fault, where it comes, and how often."""
    return loading("cut.c", **{f"CUT_{call.upper()}": cut for call, cut in cuts.items()})


# ---- scripts


def expect_cut_run(status, error, output, script=BUFFER, **cuts):
    """Runs a script with its input and output cut so, and compares how that ends."""
    expect_end(run_program("run", script=script, env=cutting(**cuts)), status, error, output)


def first_lines(text, count):
    return "".join(text.splitlines(keepends=True)[:count])


@contextlib.contextmanager
def piped():
    """A run whose input and output are pipes that the test holds."""
    run = subprocess.Popen(
        [PROGRAM, "run"], stdin=subprocess.PIPE, stdout=subprocess.PIPE, stderr=subprocess.PIPE, text=True, bufsize=1
    )
    try:
        yield run
    finally:
        if run.poll() is None:
            run.kill()
        run.communicate()


def next_line(run):
    """The next line of a run's output, which comes though its input continues."""
    ready, _, _ = select.select([run.stdout], [], [], SECONDS)
    return run.stdout.readline() if ready else None


def stop_and_continue(process):
    """Stops a process for a moment."""
    process.send_signal(signal.SIGSTOP)
    _, status = os.waitpid(process.pid, os.WUNTRACED)
    expect("stopped", os.WIFSTOPPED(status), True)
    process.send_signal(signal.SIGCONT)


# ---- one session


def say(connected, text, piece):
    """Sends a text in pieces, as far as it is taken: the other side may have ended."""
    for at in range(0, len(text), piece):
        try:
            connected.sendall(text[at : at + piece])
        except (BrokenPipeError, ConnectionResetError):
            return


def read_all(connected):
    """What comes until the connection ends, by whichever end."""
    read = b""
    while True:
        try:
            more = connected.recv(4096)
        except ConnectionResetError:
            return read
        if not more:
            return read
        read += more


def expect_session(folder, text, end, steps, written, piece=1024, name="card", **cuts):
    """Serves one connection that says this and then ends its side, and compares what it reads and how its session ends."""
    counts = [int(name == one) for one in ("card", "render", "root")]
    env = {"env": cutting(**cuts)} if cuts else {}
    with server(folder, *counts, **env) as started:
        with retry(lambda: connect_raw(folder / name)) as connected:
            say(connected, text, piece)
            with contextlib.suppress(OSError):  # it has ended
                connected.shutdown(socket.SHUT_WR)
            expect("what is read", read_all(connected), written)
        client = "client 1" if steps > 1 else "no client"
        told = [] if end is None else [f"WARN {name}, {client}: {end}"]
        expect_told(end_of(started), 0, told, f"device 0 0 0 {steps}\n")
    expect_no_sockets(folder)


def said_by(count):
    """How many steps N bytes of the hello and VERSION make, with the closing, and what is answered."""
    if count < len(HELLO):
        return 0, b""
    return (3, ANSWERS) if count == len(ASKED) else (2, OPENED)


def exchange_all(opened, count):
    """Asks for the version N times on each connection, as far ahead of the answers as it goes, and reads all answers."""
    until = time.monotonic() + SECONDS
    asked = {one: count * VERSION for one in opened}
    unread = {one: count * len(IS_VERSION) for one in opened}
    for one in opened:
        one.setblocking(False)
    while unread:
        expect("time left", time.monotonic() < until, True)
        readable, writable, _ = select.select(list(unread), list(asked), [], 1)
        for one in readable:
            unread[one] -= len(one.recv(65536))
            if unread[one] == 0:
                del unread[one]
        for one in writable:
            asked[one] = asked[one][one.send(asked[one][:4099]) :]
            if not asked[one]:
                del asked[one]


def expect_exchanges(folder, counts, count, processors=None):
    """Serves N connections, each of which asks N times at once, on all processors or on these."""
    with server(folder, *counts) as started, contextlib.ExitStack() as made:
        if processors is not None:
            os.sched_setaffinity(started.pid, processors)
        opened = []
        for name, several in zip(("card", "render", "root"), counts):
            for _ in range(several):
                one = made.enter_context(retry(lambda: connect_raw(folder / name)))
                one.sendall(HELLO)
                expect("the opening", one.recv(len(OPENED))[:6], OPENED[:6])
                opened.append(one)
        exchange_all(opened, count)
        for one in opened:
            one.shutdown(socket.SHUT_WR)
        expect_end(end_of(started), 0, "", f"device 0 0 0 {sum(counts) * (count + 2)}\n")


# ---- connections that break, next to others


def wait_for(connected, count):
    """Waits until N bytes can be read, and reads none."""
    until = time.monotonic() + SECONDS
    while len(connected.recv(count, socket.MSG_PEEK)) < count:
        expect("time left", time.monotonic() < until, True)
        time.sleep(0.001)


def break_by_reset(connected):
    connected.sendall(VERSION)
    wait_for(connected, len(IS_VERSION))


def break_by_not_reading(connected):
    connected.shutdown(socket.SHUT_RD)
    connected.sendall(VERSION)


def break_inside_a_frame(connected):
    connected.sendall(VERSION[:-1])


# ---- a server's listing, and signals


class ScriptsTests(FolderCase):
    """Tests: scripts."""

    def test_script_in_pieces(self):
        for piece in PIECES:
            expect_cut_run(0, "", BUFFER_ANSWERS, read=f"{piece} none 0 0", write=f"{piece} none 0 0")

    def test_script_whose_input_fails(self):
        for piece, times in itertools.product((1, 256), TIMES):
            for at in range(len(BUFFER) + 1):
                answers = first_lines(BUFFER_ANSWERS, BUFFER[:at].count("\n"))
                expect_cut_run(1, "fault: read\n", answers, read=f"{piece} fail {at} {times}")

    def test_script_whose_output_fails(self):
        for fault, times, piece in itertools.product(("fail", "end"), TIMES, (1, 256)):
            for at in range(len(BUFFER_ANSWERS)):
                expect_cut_run(1, "fault: write\n", BUFFER_ANSWERS[:at], write=f"{piece} {fault} {at} {times}")

    def test_script_that_ends_at_each_byte(self):
        """What is left of a line at the end is a line."""
        whole = BUFFER_ANSWERS.splitlines(keepends=True)
        for at in range(len(BUFFER) + 1):
            count = BUFFER[:at].count("\n")
            last = BUFFER[:at].rsplit("\n", 1)[-1]
            ran = run_program("run", script=BUFFER[:at])
            expect("the first answers", ran.stdout.startswith("".join(whole[:count])), True)
            is_whole = ran.returncode == 0
            expect(
                f"the answers after {last!r}", len(ran.stdout.splitlines()), count + (is_whole and last.strip() != "")
            )
            told = "" if is_whole else f"fault: script line {count + 1}\n"
            expect(
                "the end",
                (ran.returncode, ran.stderr[-len(told) :] if told else ran.stderr),
                (0 if is_whole else 2, told),
            )

    def test_malformed_line_in_pieces(self):
        for piece in PIECES:
            env = cutting(read=f"{piece} none 0 0")
            ran = run_program("run", script="open a card\na gem_close x\na version\n", env=env)
            cause = "ERROR line 2: column 13: `x` is not a number from 0 to 4294967295"
            expect_told(ran, 2, [cause, "fault: script line 2"], "client 1\n")

    def test_script_with_interruptions(self):
        expect_cut_run(0, "", BUFFER_ANSWERS, read="1 eintr -1 999", write="1 eintr -1 999")
        expect_cut_run(1, "fault: read\n", "client 1\n", read="1 eintr 12 1000")
        expect_cut_run(0, "", BUFFER_ANSWERS, read="1 eintr 12 999")
        for at in range(len(BUFFER_ANSWERS)):
            expect_cut_run(1, "fault: write\n", BUFFER_ANSWERS[:at], write=f"256 eintr {at} 1000")
            expect_cut_run(0, "", BUFFER_ANSWERS, write=f"256 eintr {at} 999")

    def test_check_whose_output_fails(self):
        folder = self.folder
        path = folder / "wrong"
        path.write_text("open a card -> client 2\na version -> version 2 0 0\n")
        told = (
            f"{path}:1: expected client 2, got client 1\n    drm_server explain {path} --line 1\n"
            f"{path}:2: expected version 2 0 0, got version 1 0 0\n    drm_server explain {path} --line 2\n0 passed, 2 failed\n"
        )
        expect_end(run_program("check", path), 4, "", told)
        for at, times in itertools.product(range(len(told)), TIMES):
            ran = run_program("check", path, env=cutting(write=f"256 fail {at} {times}"))
            expect_end(ran, 1, "fault: write\n", told[:at])

    def test_script_that_is_typed_in(self):
        with piped() as run:
            for line, answer in zip(BUFFER.splitlines(keepends=True), BUFFER_ANSWERS.splitlines(keepends=True)):
                for sign in line:
                    run.stdin.write(sign)
                    run.stdin.flush()
                expect(f"the answer to {line!r}", next_line(run), answer)
            output, error = run.communicate(timeout=SECONDS)
            expect("the end", (run.returncode, output, error), (0, "", ""))

    def test_run_that_is_stopped(self):
        with piped() as run:
            for line, answer in zip(BUFFER.splitlines(keepends=True), BUFFER_ANSWERS.splitlines(keepends=True)):
                stop_and_continue(run)
                run.stdin.write(line)
                expect(f"the answer to {line!r}", next_line(run), answer)
            output, error = run.communicate(timeout=SECONDS)
            expect("the end", (run.returncode, output, error), (0, "", ""))

    def test_script_whose_reader_goes(self):
        lines = BUFFER.splitlines(keepends=True)
        for count in range(len(lines)):
            with piped() as run:
                for line, answer in list(zip(lines, BUFFER_ANSWERS.splitlines(keepends=True)))[:count]:
                    run.stdin.write(line)
                    expect(f"the answer to {line!r}", next_line(run), answer)
                run.stdout.close()
                run.stdin.write(lines[count])
                expect("status", run.wait(SECONDS), 1)
                expect("error output", run.stderr.read(), "fault: write\n")


class SessionTests(FolderCase):
    """Tests: one session."""

    def test_session_in_pieces(self):
        folder = self.folder
        for piece in PIECES:
            expect_session(folder, ASKED, ENDED, 3, ANSWERS, piece)
            expect_session(folder, ASKED, ENDED, 3, ANSWERS, recv=f"{piece} none 0 0", send=f"{piece} none 0 0")

    def test_session_whose_input_ends(self):
        folder = self.folder
        for count in range(len(ASKED) + 1):
            end = ENDED if count in (0, len(HELLO), len(ASKED)) else TRUNCATED
            for piece in (1, 1024):
                expect_session(folder, ASKED[:count], end, *said_by(count), piece)

    def test_session_whose_input_fails(self):
        folder = self.folder
        for at, piece, times in itertools.product(range(len(ASKED) + 1), (1, 7), TIMES):
            expect_session(folder, ASKED, READ_FAULT, *said_by(at), recv=f"{piece} fail {at} {times}")

    def test_session_whose_output_fails(self):
        folder = self.folder
        for fault, at, piece, times in itertools.product(("fail", "end"), range(len(ANSWERS)), (1, 1024), TIMES):
            steps = 2 if at < len(OPENED) else 3
            expect_session(folder, ASKED, WRITE_FAULT, steps, ANSWERS[:at], send=f"{piece} {fault} {at} {times}")

    def test_session_with_interruptions(self):
        folder = self.folder
        expect_session(folder, ASKED, ENDED, 3, ANSWERS, recv="1 eintr -1 999", send="1 eintr -1 999")
        for at in range(len(ASKED)):
            expect_session(folder, ASKED, ENDED, 3, ANSWERS, recv=f"7 eintr {at} 999")
            expect_session(folder, ASKED, READ_FAULT, *said_by(at), recv=f"7 eintr {at} 1000")
        for at in range(len(ANSWERS)):
            steps = 2 if at < len(OPENED) else 3
            expect_session(folder, ASKED, ENDED, 3, ANSWERS, send=f"7 eintr {at} 999")
            expect_session(folder, ASKED, WRITE_FAULT, steps, ANSWERS[:at], send=f"7 eintr {at} 1000")

    def test_frames_that_are_none(self):
        folder = self.folder
        for piece in PIECES:
            for length in (0, 1, 1025, 4294967295):
                text = length.to_bytes(4, "little")
                expect_session(folder, HELLO + text, TOO_LONG, 2, OPENED, piece)
                expect_session(folder, text, TOO_LONG, 0, b"", piece)
            expect_session(folder, VERSION, BAD_HELLO, 0, b"", piece)

    def test_frames_of_another_layout(self):
        folder = self.folder
        lease_of_33 = (2 + 4 + 33 * 4).to_bytes(4, "little") + b"\xc6\0" + (33).to_bytes(4, "little") + 33 * b"\1\0\0\0"
        frames = (
            bytes.fromhex("04000000 0000 0000"),
            bytes.fromhex("06000000 c600 ffffffff"),
            bytes.fromhex("0a000000 4500 0b000000 00000000"),
            lease_of_33,
        )
        for piece in PIECES:
            for text in frames:
                expect_session(folder, HELLO + text, ENDED, 3, OPENED + LAYOUT, piece)
            expect_session(
                folder, HELLO + b"".join(frames), ENDED, 2 + len(frames), OPENED + len(frames) * LAYOUT, piece
            )

    def test_requests_far_ahead_of_their_answers(self):
        folder = self.folder
        # what the sockets hold is less than these: each side has to wait for the other
        expect_exchanges(folder, (1, 0, 0), 20_000)

    def test_answers_that_are_read_late(self):
        """Small requests arrive one by one while answers wait, for longer than any wait of the server. Each has its answer."""
        folder = self.folder
        with server(folder, 1, 0, 0) as started, retry(lambda: connect_raw(folder / "card")) as late:
            late.settimeout(SECONDS)
            late.sendall(HELLO + 600 * VERSION)
            asked, until = 600, time.monotonic() + LATE
            while time.monotonic() < until:
                late.sendall(VERSION)
                asked += 1
                time.sleep(0.02)
            late.shutdown(socket.SHUT_WR)
            expect("the answers", read_all(late), OPENED + asked * IS_VERSION)
            expect_end(end_of(started), 0, "", f"device 0 0 0 {asked + 2}\n")

    def test_requests_of_many_connections_at_once(self):
        folder = self.folder
        # none of them waits for its client, so that they wait for their turns of the device, in many more threads than processors
        for counts, count in (((1, 1, 0), 20_000), ((16, 16, 16), 1_500)):
            expect_exchanges(folder, counts, count)

    def test_requests_of_many_connections_on_one_processor(self):
        """A thread that loses the processor within its turn lets all others wait, and whoever passes the turn on wakes them all."""
        folder = self.folder
        processor = {min(os.sched_getaffinity(0))}
        for _ in range(5):
            expect_exchanges(folder, (16, 16, 16), 300, processor)


class BreakTests(FolderCase):
    """Tests: connections that break, next to others."""

    def test_connection_that_is_reset(self):
        folder = self.folder
        # a side that is closed with bytes that it hasn't read resets the other
        for count in range(len(HELLO), len(ASKED) + 1):
            steps, written = said_by(count)
            with server(folder, 1, 0, 0) as started:
                with retry(lambda: connect_raw(folder / "card")) as connected:
                    connected.sendall(ASKED[:count])
                    wait_for(connected, len(written))
                expect_told(end_of(started), 0, [f"WARN card, client 1: {READ_FAULT}"], f"device 0 0 0 {steps}\n")

    def test_connection_that_reads_nothing(self):
        folder = self.folder
        for text, steps in ((HELLO, 2), (ASKED, 2)):
            with server(folder, 1, 0, 0) as started:
                with retry(lambda: connect_raw(folder / "card")) as connected:
                    connected.shutdown(socket.SHUT_RD)
                    connected.sendall(text)
                    expect_told(end_of(started), 0, [f"WARN card, client 1: {WRITE_FAULT}"], f"device 0 0 0 {steps}\n")

    def test_broken_connection_ends_its_own_session(self):
        folder = self.folder
        for break_off, end, steps in (
            (break_by_reset, READ_FAULT, 3),
            (break_by_not_reading, WRITE_FAULT, 3),
            (break_inside_a_frame, TRUNCATED, 2),
        ):
            with server(folder, 2, 1, 1) as started:
                others = [connect(folder / name) for name in ("card", "render", "root")]
                with retry(lambda: connect_raw(folder / "card")) as broken:
                    broken.sendall(HELLO)
                    expect("the opening", broken.recv(len(OPENED)), OPENED[:6] + bytes.fromhex("04000000"))
                    break_off(broken)
                    broken.close()
                    until = time.monotonic() + SECONDS
                    asked = 1
                    while others[2].ask("audit 10 0") != f"rows 1 | 1 0 0 {2 + steps + asked}":
                        expect("time left", time.monotonic() < until, True)
                        asked += 1
                    expect_answers((one, "version", "version 1 0 0") for one in others)
                    expect_answers([(others[2], "audit 1 0", "rows 3 | 1 28 1 0 | 2 1 0 0 | 3 6 1 0")])
                for one in others:
                    one.close()
                expect_told(
                    end_of(started), 0, [f"WARN card, client 4: {end}"], f"device 0 0 0 {3 + steps + asked + 4 + 3}\n"
                )
            expect_no_sockets(folder)


class ListingTests(FolderCase):
    """Tests: a server's listing, and signals."""

    def test_listing_that_cannot_be_written(self):
        folder = self.folder
        listing = "device 0 0 0 0\n"
        for fault, at, times in itertools.product(("fail", "end"), range(len(listing)), TIMES):
            with server(folder, 0, 0, 0, env=cutting(write=f"256 {fault} {at} {times}")) as started:
                expect_end(end_of(started), 1, "fault: write\n", listing[:at])
            expect_no_sockets(folder)
        with server(folder, 0, 0, 0, env=cutting(write="1 eintr -1 999")) as started:
            expect_end(end_of(started), 0, "", listing)
        with open("/dev/full", "w") as full:
            with server(folder, 0, 0, 0, stdout=full) as started:
                expect_end(end_of(started), 1, "fault: write\n", None)
        expect_no_sockets(folder)

    def test_server_that_is_stopped(self):
        folder = self.folder
        with server(folder, 1, 1, 0) as started:
            other = connect(folder / "render")
            with retry(lambda: connect_raw(folder / "card")) as connected:
                for at in range(len(ASKED)):
                    stop_and_continue(started)
                    connected.sendall(ASKED[at : at + 1])
                    if at == len(HELLO) - 1:
                        expect(
                            "the opening",
                            connected.recv(len(OPENED)),
                            OPENED[:6] + (1 + len(HELLO)).to_bytes(4, "little"),
                        )
                    expect("an answer to another", other.ask("version"), "version 1 0 0")
                stop_and_continue(started)
                connected.shutdown(socket.SHUT_WR)
                expect("what is read", read_all(connected), IS_VERSION)
            other.close()
            expect_end(end_of(started), 0, "", f"device 0 0 0 {3 + 2 + len(ASKED)}\n")

    def test_server_that_is_ended_by_a_signal(self):
        folder = self.folder
        for number in (signal.SIGINT, signal.SIGTERM, signal.SIGKILL):
            with server(folder, 1, 0, 0) as started:
                with retry(lambda: connect_raw(folder / "card")) as connected:
                    connected.sendall(HELLO)
                    expect("the opening", connected.recv(len(OPENED)), OPENED)
                    retry((folder / "root").stat)
                    started.send_signal(number)
                    expect("what comes then", read_all(connected), b"")
                expect_end(end_of(started), -number, "", "")
            expect("files left", sorted(path.name for path in folder.iterdir()), ["card", "render", "root"])
            for path in folder.iterdir():
                path.unlink()


if __name__ == "__main__":
    sys.exit(run_tests())
