#!/usr/bin/env python3
"""Tests of what a server writes while it runs: the trace of its calls, and the journal that grows.

What it tests: the trace of a server with 16 clients and 90,000 steps, line by line against the journal. A journal
that grows, also up to SIGKILL, takes a part of a line, or is changed while the server runs. A trace without a
reader, with a slow one, while a call is stalled and while a client takes no answers. Faults that are left
out; colour.

Each test has its own folder. The last line is `N passed, M failed`. Standard library only.
"""
import contextlib
import os
import pathlib
import pty
import re
import resource
import signal
import subprocess
import sys
import threading
import time

sys.dont_write_bytecode = True
from support import (  # noqa: E402
    CLASSES,
    PROGRAM,
    SECONDS,
    FolderCase,
    connect,
    connect_raw,
    end_of,
    expect,
    expect_end,
    lasting_server,
    path_words,
    retry,
    run,
    run_program,
    run_tests,
    stopped,
    told_by,
    wait_until,
    wait_until_it_listens,
)

LINE = re.compile(r" *(\d+\.\d{6}) +(\d+|-) (card|render|root) +(.*)")
HELLO = b"\x0e\0\0\0\0\x01\x01" + bytes(11)
VERSION = b"\x02\0\0\0\0\0"
# the lengths of the answers to these, and of a fault
OPENED, ANSWERED, FAULT = 10, 18, 14
RED, PLAIN = "\x1b[31m", "\x1b[0m"


def ask_often(path, calls, faults=0):
    """A client that sends all its calls at once, and reads the answers. The last ones are faults."""
    with contextlib.closing(retry(lambda: connect_raw(path))) as client:
        client.sendall(HELLO + calls * VERSION)
        left = OPENED + (calls - faults) * ANSWERED + faults * FAULT
        while left > 0:
            received = len(client.recv(65536))
            expect("whether there are more answers", received > 0, True)
            left -= received


def ask_at_once(folder, clients, calls):
    """Runs clients at once that each make this number of calls. Returns the number of steps."""
    threads = [
        threading.Thread(target=ask_often, args=(folder / CLASSES[number % 3], calls)) for number in range(clients)
    ]
    for thread in threads:
        thread.start()
    for thread in threads:
        thread.join()
    return clients * (calls + 2)


def parts_of(line):
    """The time, the number, the class and the words of a line of a trace."""
    found = LINE.fullmatch(line)
    if found is None:
        raise AssertionError(f"no line of a trace: {line!r}")
    return float(found[1]), found[2], found[3], found[4]


def as_traced(journal):
    """The lines of a journal, with the words that a trace has for them."""
    numbers = {}
    traced = []
    for line in journal.splitlines()[1:]:
        words, arrow, answer = line.partition(" -> ")
        first, _, rest = words.partition(" ")
        if first in ("open", "open2"):
            label, _, kind = rest.partition(" ")
            if answer.startswith("client "):
                numbers[label] = answer.split()[1]
            words = f"{first} ? {kind}"
        elif first == "close":
            words = f"close client {numbers[rest]}"
        else:
            words = f"client {numbers[first]} {rest}"
        traced.append(words + arrow + answer)
    return traced


def words_of(trace):
    """The words of a trace's lines, whose numbers rise from 1 and whose times do not fall."""
    parts = [parts_of(line) for line in trace.splitlines()]
    expect("the numbers", [number for _, number, _, _ in parts], [str(number + 1) for number in range(len(parts))])
    expect("whether a time is before the last", any(a[0] > b[0] + 1 for a, b in zip(parts, parts[1:])), False)
    return [words for _, _, _, words in parts]


def is_still(path):
    """Whether a file is the same for a tenth of a second."""
    before = path.stat().st_size
    time.sleep(0.1)
    return path.stat().st_size == before


class TracesTests(FolderCase):
    """Tests of what a server writes while it runs."""

    def test_trace_of_a_session(self):
        """Each step has a line, and each fault. They are there while the clients are."""
        folder = self.folder
        trace = folder / "trace"
        with lasting_server(folder, "--trace", str(trace), "--limits", "8 8 8 8 8 8 8 5") as started:
            with contextlib.closing(connect(folder / "card")) as client:
                client.ask("version")
                client.ask("gem_close 9")
                client.ask("buf_create 1")
                client.ask("version")
                wait_until("whether the lines are there", lambda: len(trace.read_text().splitlines()) == 5)
            ran = stopped(started)
            expect("status and listing", (ran.returncode, ran.stdout), (0, "device 0 0 0 5\n"))
        lines = [parts_of(line)[1:] for line in trace.read_text().splitlines()]
        expect(
            "the trace",
            lines,
            [
                ("1", "card", "open ? card -> client 1"),
                ("2", "card", "client 1 version -> version 1 0 0"),
                ("3", "card", "client 1 gem_close 9 -> denied 22 NoHandleToClose 22"),
                ("4", "card", "client 1 buf_create 1 -> buffer 1 4096"),
                ("-", "card", "client 1 version -> apart 50 JournalFull 28"),
                ("5", "card", "close client 1 -> closed"),
            ],
        )

    def test_order_of_many_clients(self):
        """The trace of 16 clients at once with 90,000 steps has the steps of the journal, line by line."""
        folder = self.folder
        journal, trace = folder / "journal", folder / "trace"
        with lasting_server(folder, "--trace", str(trace), "--journal", str(journal)) as started:
            wait_until_it_listens(folder / "root")
            steps = ask_at_once(folder, 16, 5_623)
            # what was not written yet is written first
            output, error = started.communicate("", timeout=8 * SECONDS)
            expect("the end", (started.returncode, error, output), (0, "", f"device 0 0 0 {steps}\n"))
        expect("the number of steps", steps, 90_000)
        traced = words_of(trace.read_text())
        wanted = as_traced(journal.read_text())
        expect("the number of lines", (len(traced), len(wanted)), (steps, steps))
        for number, (line, step) in enumerate(zip(traced, wanted)):
            expect(f"line {number + 1}", line, step)
        expect_end(run(PROGRAM, "check", journal), 0, "", f"{steps} passed, 0 failed\n")

    def test_faults_after_many_steps(self):
        """A fault has its line after the earlier steps of its client, also if the trace is thousands of lines late."""
        folder = self.folder
        trace = folder / "trace"
        most, faults = 20_000, 3
        with lasting_server(folder, "--trace", str(trace), "--limits", f"8 8 8 8 8 8 8 {most}") as started:
            # the opening is a step, and there is room left for the closing
            ask_often(folder / "card", most - 2 + faults, faults)
            _, error = started.communicate("", timeout=8 * SECONDS)
            expect("the end", (started.returncode, "journal is full" in error), (0, True))
        numbers = [parts_of(line)[1] for line in trace.read_text().splitlines()]
        expect("the steps", numbers[: most - 1], [str(number + 1) for number in range(most - 1)])
        expect("the faults, and the closing", numbers[most - 1 :], ["-"] * faults + [str(most)])

    def test_client_that_takes_no_answers(self):
        """The calls whose answers have room have lines, and so do the calls of others afterwards."""
        folder = self.folder
        trace = folder / "trace"
        with lasting_server(folder, "--trace", str(trace)) as started:
            with contextlib.closing(retry(lambda: connect_raw(folder / "card"))) as silent:
                # there is room for some eighty answers
                silent.sendall(HELLO + 1_000 * VERSION)
                wait_until(
                    "whether a request waits", lambda: is_still(trace) and trace.read_text().count(" version -> ") > 50
                )
                other = connect(folder / "root")
                other.ask("buf_create 4096")
                wait_until("whether the other's has one", lambda: " buf_create 4096 -> " in trace.read_text())
                expect("whether it still waits", trace.read_text().count(" version -> ") < 1_000, True)
                other.close()
            ran = stopped(started)
        steps = len(words_of(trace.read_text()))
        expect("the listing", (ran.returncode, ran.stdout), (0, f"device 0 0 0 {steps}\n"))

    def test_journal_grows(self):
        """It has a line for each step while the server runs. After SIGKILL it passes its check, and can be explained."""
        folder = self.folder
        journal = folder / "journal"
        with lasting_server(folder, "--journal", str(journal)) as started:
            client = connect(folder / "card")
            calls = ["version", "buf_create 1", "gem_close 9", "set_master", "list_handles 0"]
            for number, call in enumerate(calls):
                answer = client.ask(call)
                wanted = f"a {call} -> {answer}"
                wait_until(
                    f"whether {call} is there",
                    lambda: len(journal.read_text().splitlines()) == number + 3  # pylint: disable=cell-var-from-loop
                    and journal.read_text().endswith("\n"),
                )
                expect("the last line", journal.read_text().splitlines()[-1], wanted)
            started.send_signal(signal.SIGKILL)
            started.communicate(timeout=SECONDS)
            client.abandon()
        expect_end(run(PROGRAM, "check", journal), 0, "", f"{len(calls) + 1} passed, 0 failed\n")
        explained = run(PROGRAM, "explain", journal)
        expect("the explanation's status", (explained.returncode, explained.stderr), (0, ""))
        expect("whether the client is explained", "a is client 1: a primary client" in explained.stdout, True)

    def test_killed_among_many_steps(self):
        """Up to its last whole line, the journal of a server that is killed passes its check."""
        folder = self.folder
        journal = folder / "journal"
        with lasting_server(folder, "--journal", str(journal)) as started:
            wait_until_it_listens(folder / "root")

            def ask():
                with contextlib.suppress(OSError, AssertionError):
                    ask_often(folder / "card", 20_000)

            threads = [threading.Thread(target=ask) for _ in range(4)]
            for thread in threads:
                thread.start()
            wait_until("whether it has many lines", lambda: journal.stat().st_size > 200_000)
            started.send_signal(signal.SIGKILL)
            started.communicate(timeout=SECONDS)
            for thread in threads:
                thread.join()
        whole = journal.read_bytes().rpartition(b"\n")[0] + b"\n"
        journal.write_bytes(whole)
        steps = whole.count(b"\n") - 1
        expect("whether there are many steps", steps > 1_000, True)
        expect_end(run(PROGRAM, "check", journal), 0, "", f"{steps} passed, 0 failed\n")

    def test_stalled_call_holds_no_line(self):
        """A call has its line before its answer is due, and so do the calls of others meanwhile."""
        folder = self.folder
        trace = folder / "trace"
        with lasting_server(folder, "--trace", str(trace), "--stall", "version=60000") as started:
            with contextlib.closing(retry(lambda: connect_raw(folder / "card"))) as stalled:
                stalled.sendall(HELLO + VERSION)
                wait_until("whether the stalled call has its line", lambda: " version -> " in trace.read_text())
                with contextlib.closing(connect(folder / "root")) as other:
                    other.ask("buf_create 1")
                    wait_until("whether the other's has one", lambda: " buf_create 1 -> " in trace.read_text())
            expect("the status", stopped(started).returncode, 0)
        words_of(trace.read_text())

    def test_faults_that_are_left_out(self):
        """Faults without room are counted once, where they are left out. All others have lines, and the server ends."""
        folder = self.folder
        pipe = folder / "pipe"
        os.mkfifo(pipe)
        read = os.open(pipe, os.O_RDONLY | os.O_NONBLOCK)
        faults = 6_000
        with open(read, "rb") as reader:
            with lasting_server(folder, "--trace", str(pipe), "--limits", "8 8 8 8 8 8 8 3") as started:
                wait_until_it_listens(folder / "root")
                # of three steps one is kept for the closing
                ask_often(folder / "card", 1 + faults, faults)
                os.set_blocking(read, True)
                lines = []
                taking = threading.Thread(target=lambda: lines.extend(reader.read().decode().splitlines()))
                taking.start()
                ran = stopped(started)
                taking.join()
        expect("status and listing", (ran.returncode, ran.stdout), (0, "device 0 0 0 3\n"))
        counts = [int(line.split()[1]) for line in lines if line.startswith("# ") and line.endswith(" left out here")]
        expect("whether some are left out", sum(counts) > 0, True)
        shown = sum(1 for line in lines if not line.startswith("#") and parts_of(line)[1] == "-")
        expect("the faults", shown + sum(counts), faults)
        told = f"WARN {pipe}: {sum(counts)} calls have no line in the trace"
        expect("the total", [told_by(line) for line in ran.stderr.splitlines() if "WARN" in line], [told])

    def test_reader_that_pauses(self):
        """A reader of the trace that takes nothing for longer than a second misses no line while the server runs."""
        folder = self.folder
        pipe = folder / "pipe"
        os.mkfifo(pipe)
        read = os.open(pipe, os.O_RDONLY | os.O_NONBLOCK)
        with open(read, "rb") as reader:
            with lasting_server(folder, "--trace", str(pipe)) as started:
                wait_until_it_listens(folder / "root")
                steps = ask_at_once(folder, 4, 500)
                time.sleep(1.5)
                os.set_blocking(read, True)
                text = []
                taking = threading.Thread(target=lambda: text.append(reader.read().decode()))
                taking.start()
                ran = stopped(started)
                taking.join()
        expect("the listing and what is logged", (ran.stdout, ran.stderr), (f"device 0 0 0 {steps}\n", ""))
        expect("the number of lines", len(words_of(text[0])), steps)

    def test_slow_reader_at_the_end(self):
        """A reader that takes a piece twice a second is waited for after the last call."""
        folder = self.folder
        pipe = folder / "pipe"
        os.mkfifo(pipe)
        read = os.open(pipe, os.O_RDONLY | os.O_NONBLOCK)
        try:
            with lasting_server(folder, "--trace", str(pipe)) as started:
                wait_until_it_listens(folder / "root")
                steps = ask_at_once(folder, 4, 500)
                started.stdin.close()
                started.stdin = None
                os.set_blocking(read, True)
                text = b""
                for piece in iter(lambda: os.read(read, 16_384), b""):
                    text += piece
                    time.sleep(0.5)
                ran = end_of(started)
        finally:
            os.close(read)
        expect("the end", (ran.returncode, ran.stderr), (0, ""))
        expect("the number of lines", len(words_of(text.decode())), steps)

    def test_trace_that_nobody_reads(self):
        """It delays no client, and the end by a second. The number of calls without a line is logged."""
        folder = self.folder
        pipe = folder / "pipe"
        os.mkfifo(pipe)
        read = os.open(pipe, os.O_RDONLY | os.O_NONBLOCK)
        try:
            with lasting_server(folder, "--trace", str(pipe)) as started:
                wait_until_it_listens(folder / "root")
                begun = time.monotonic()
                steps = ask_at_once(folder, 4, 500)
                expect("whether the clients waited", time.monotonic() - begun < SECONDS / 2, True)
                begun = time.monotonic()
                ran = stopped(started)
                expect("whether the end was delayed", time.monotonic() - begun < SECONDS / 2, True)
            text = b""
            with contextlib.suppress(BlockingIOError):
                for more in iter(lambda: os.read(read, 65536), b""):
                    text += more
        finally:
            os.close(read)
        written = text.count(b"\n")
        expect("whether the pipe was filled", 0 < written < steps, True)
        expect("whether the last line is whole", text.endswith(b"\n"), True)
        expect("the listing", (ran.returncode, ran.stdout), (0, f"device 0 0 0 {steps}\n"))
        told = f"WARN {pipe}: {steps - written} calls have no line in the trace"
        expect("what is logged", [told_by(line) for line in ran.stderr.splitlines()], [told])
        words_of(text.decode())

    def test_trace_on_standard_error_that_nobody_reads(self):
        """Neither a client nor the listing waits for it."""
        folder = self.folder
        with lasting_server(folder, "--trace", "-") as started:
            wait_until_it_listens(folder / "root")
            steps = ask_at_once(folder, 4, 500)
            with started.stdin, started.stdout, started.stderr:
                started.stdin.close()
                expect("the listing", started.stdout.read(), f"device 0 0 0 {steps}\n")
                expect("the status", started.wait(timeout=SECONDS), 0)
                lines = started.stderr.read().splitlines()
            expect("whether standard error was filled", 0 < len(lines) < steps, True)
            expect("the first line", parts_of(lines[0])[1], "1")

    def test_reader_that_goes(self):
        """A trace whose reader closed it is written no further. All else continues."""
        folder = self.folder
        pipe = folder / "pipe"
        os.mkfifo(pipe)
        read = os.open(pipe, os.O_RDONLY | os.O_NONBLOCK)
        with lasting_server(folder, "--trace", str(pipe)) as started:
            wait_until_it_listens(folder / "root")
            os.close(read)
            steps = ask_at_once(folder, 2, 100)
            ran = stopped(started)
        expect("the listing", (ran.returncode, ran.stdout), (0, f"device 0 0 0 {steps}\n"))
        told = f"WARN {pipe}: {steps} calls have no line in the trace"
        expect("what is logged", [told_by(line) for line in ran.stderr.splitlines()], [told])

    def colours(self, *more, **environment):
        """What a terminal shows as standard error of a denied call."""
        folder = self.folder
        near, far = pty.openpty()
        words = [PROGRAM, "serve", *path_words(folder), "--until-ended", "--trace", "-", *more]
        given = {**{name: value for name, value in os.environ.items() if name != "NO_COLOR"}, **environment}
        with subprocess.Popen(
            words, stdin=subprocess.PIPE, stdout=subprocess.DEVNULL, stderr=far, env=given, text=True
        ) as started:
            os.close(far)
            with contextlib.closing(connect(folder / "card")) as client:
                client.ask("gem_close 9")
            started.communicate("", timeout=SECONDS)
        shown = b""
        with contextlib.suppress(OSError):
            for more in iter(lambda: os.read(near, 65536), b""):
                shown += more
        os.close(near)
        return shown.decode().replace("\r\n", "\n").splitlines()

    def test_colour(self):
        """On a terminal denials are red, unless NO_COLOR is set and not empty. A file has no colour."""
        denied = "client 1 gem_close 9 -> "
        answer = "denied 22 NoHandleToClose 22"
        for environment, wanted in (({}, RED + answer + PLAIN), ({"NO_COLOR": ""}, RED + answer + PLAIN)):
            shown = self.colours(**environment)
            expect("a denial", parts_of(shown[1])[3], denied + wanted)
            expect("another answer", parts_of(shown[0])[3], "open ? card -> client 1")
        for value in ("1", "yes", "0"):
            expect(f"a denial, {value}", parts_of(self.colours(NO_COLOR=value)[1])[3], denied + answer)

    def test_colour_of_faults(self):
        """On a terminal faults are red, as denials are."""
        shown = [line for line in self.colours("--limits", "8 8 8 8 8 8 8 2") if LINE.fullmatch(line)]
        words = f"client 1 gem_close 9 -> {RED}apart 50 JournalFull 28{PLAIN}"
        expect("a fault", parts_of(shown[1])[1:], ("-", "card", words))

    def test_files_that_cannot_be_traced_to(self):
        """The trace replaces neither the topology nor the journal, and its file must be writable."""
        folder = self.folder
        topology, journal = folder / "topology", folder / "journal"
        topology.write_text("crtcs 1\nprimary 1\nencoder 1\nconnector 1\n")
        serve = ["serve", *path_words(folder), "--until-ended"]
        for path, more, fault, told in (
            (
                topology,
                ["--topology", str(topology)],
                "command line",
                "the trace would replace the topology: choose another file",
            ),
            (
                journal,
                ["--journal", str(journal)],
                "command line",
                "the trace would replace the journal: choose another file",
            ),
            (folder / "no" / "trace", [], "write", "No such file or directory (os error 2)"),
        ):
            ran = run_program(*serve, *more, "--trace", str(path))
            expect("the output", ran.stdout, "")
            expect(
                "what is told",
                [told_by(line) for line in ran.stderr.splitlines()],
                [f"ERROR {path}: {told}", f"fault: {fault}"],
            )
        expect("the topology", topology.read_text().startswith("crtcs 1\n"), True)

    def test_journal_that_takes_some_bytes(self):
        """If the file takes a part of a line, the rest follows at the end, and no byte is there twice."""
        folder = self.folder
        journal = folder / "journal"
        words = [PROGRAM, "serve", *path_words(folder), "--until-ended", "--journal", journal]
        pipes = {"stdin": subprocess.PIPE, "stdout": subprocess.PIPE, "stderr": subprocess.PIPE}
        # a signal that ends the server at its limit stays ignored
        with subprocess.Popen(words, restore_signals=False, text=True, **pipes) as started:
            wait_until_it_listens(folder / "root")
            most = resource.prlimit(started.pid, resource.RLIMIT_FSIZE)
            resource.prlimit(started.pid, resource.RLIMIT_FSIZE, (100, most[1]))
            with contextlib.closing(connect(folder / "card")) as client:
                for _ in range(10):
                    client.ask("version")
                wait_until("whether the file is full", lambda: journal.stat().st_size == 100)
                # the thread has given up by then
                time.sleep(1)
                resource.prlimit(started.pid, resource.RLIMIT_FSIZE, most)
                client.ask("buf_create 1")
            ran = stopped(started)
        expect("the end", (ran.returncode, ran.stderr, ran.stdout), (0, "", "device 0 0 0 13\n"))
        lines = journal.read_text().splitlines()
        expect("the lines", (len(lines), len(lines[1:])), (14, 13))
        expect_end(run(PROGRAM, "check", journal), 0, "", "13 passed, 0 failed\n")

    def test_journal_that_was_changed(self):
        """At the end the file is compared with the journal of the device. The first line that differs is logged."""
        folder = self.folder
        journal = folder / "journal"

        def reversed_lines(text):
            lines = text.splitlines(keepends=True)
            return "".join([lines[0], *reversed(lines[1:])])

        for number, (change, line) in enumerate(
            (
                (reversed_lines, 2),
                (lambda text: text.replace("version 1 0 0", "version 1 0 1"), 3),
                (lambda text: text.replace("limits 64", "limits 63"), 1),
            )
        ):
            with lasting_server(folder, "--journal", str(journal)) as started:
                with contextlib.closing(connect(folder / "card")) as client:
                    client.ask("version")
                    client.ask("buf_create 1")
                wait_until("whether the lines are there", lambda: len(journal.read_text().splitlines()) == 5)
                text = journal.read_text()
                expect("whether it is changed", change(text) != text, True)
                journal.write_text(change(text))
                ran = stopped(started)
            told = [told_by(line) for line in ran.stderr.splitlines()]
            wanted = f"ERROR {journal}: line {line}: it differs from the journal of the device"
            expect(f"what is told, {number}", told, [wanted, "fault: write"])
            expect("status and listing", (ran.returncode, ran.stdout), (1, "device 0 0 0 4\n"))

    def test_journal_that_takes_no_bytes(self):
        """A journal on a full disk is the fault `write` at the end, as ever."""
        if not pathlib.Path("/dev/full").exists():
            self.skipTest("there is no /dev/full")
        folder = self.folder
        with lasting_server(folder, "--journal", "/dev/full") as started:
            connect(folder / "card").close()
            ran = stopped(started)
        told = [told_by(line) for line in ran.stderr.splitlines()]
        expect("what is told", told, ["ERROR /dev/full: No space left on device (os error 28)", "fault: write"])
        expect("status and listing", (ran.returncode, ran.stdout), (1, "device 0 0 0 2\n"))

    def test_journal_that_nobody_reads(self):
        """If its reader takes nothing for a second after the last step, the lines that are left are the fault `write`."""
        folder = self.folder
        pipe = folder / "pipe"
        os.mkfifo(pipe)
        read = os.open(pipe, os.O_RDONLY | os.O_NONBLOCK)
        try:
            with lasting_server(folder, "--journal", str(pipe)) as started:
                wait_until_it_listens(folder / "root")
                steps = ask_at_once(folder, 4, 2_000)
                ran = stopped(started)
        finally:
            os.close(read)
        told = [told_by(line) for line in ran.stderr.splitlines()]
        expect("what is told", told, [f"ERROR {pipe}: the last lines of the journal were not read", "fault: write"])
        expect("status and listing", (ran.returncode, ran.stdout), (1, f"device 0 0 0 {steps}\n"))


if __name__ == "__main__":
    sys.exit(run_tests())
