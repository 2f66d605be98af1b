#!/usr/bin/env python3
"""Tests of the built program with one of its requests for memory refused: the first, the second, and so on, until none is.

`tests/refuse.c` is loaded into the program and refuses it. Each row and each example is tried so, and a server with
sessions on its sockets. It needs a C compiler and glibc. A line near the end tells how many requests were refused, and the last
one is `N passed, M failed`. Standard library only.
"""
import collections
import functools
import itertools
import pathlib
import re
import string
import struct
import sys
import tempfile
import time
from typing import List, NamedTuple

sys.dont_write_bytecode = True
from support import (  # noqa: E402
    REPOSITORY,
    Client,
    FolderCase,
    Refusal,
    Skipped,
    add_tests,
    connect_raw,
    end_of,
    expect,
    expect_no_sockets,
    expect_told,
    is_bound,
    loading,
    opened_by,
    run_program,
    run_tests,
    server,
    told_by,
    want_no_checks,
)

from blocks import further_rows, worked_rows  # noqa: E402

APART = "apart 51 NoMemory 12"

# the words of the lines that may need memory
GROWING = {
    "open",
    "create_dumb",
    "buf_create",
    "gem_flink",
    "gem_open",
    "prime_export",
    "prime_import",
    "set_master",
    "getfb",
    "addfb",
    "create_lease",
}

# each of these words at a line that needs memory: a client's first handle, and the fifth master, do
GROWING_SCRIPT = """open a card
a create_dumb 64 64 32
a gem_flink 1
a prime_export 1
a addfb 64 64 256 32 1
a create_lease 2 4 8
open b render
b buf_create 1
open c render
c prime_import 1
open q root
q gem_open 1
open r root
a getfb 9
r getfb 9
a drop_master
q set_master
q drop_master
r set_master
open s root
r drop_master
s set_master
"""


class Ran(NamedTuple):
    """An ended run: how many requests for memory it made, how many were refused, and how many blocks it didn't give back."""

    returncode: int
    stdout: str
    stderr: str
    requests: int
    refused: int
    left: int


def refusing(note, at):
    """The environment in which the request of this number is refused, and the note tells of all of them."""
    want_no_checks("its requests for memory can't be refused")
    note.write_bytes(bytes(24))
    return loading("refuse.c", REFUSE_AT=str(at), REFUSE_NOTE=str(note))


# how many runs there were in which N requests were refused
refusals = collections.Counter()


def ran_of(note, ended):
    """A run that has ended, with what it recorded."""
    ran = Ran(ended.returncode, ended.stdout, ended.stderr, *struct.unpack("<3Q", note.read_bytes()))
    refusals[ran.refused] += 1
    return ran


def run_refusing(folder, at, *words, script=""):
    """Runs the program over this input, and refuses the request of this number."""
    note = folder / "note"
    return ran_of(note, run_program(*words, script=script, env=refusing(note, at)))


def refused_in_turn(folder, first, *words, script=""):
    """The runs in which each request from this number on is refused, one each, until none is. That one is the last."""
    for at in itertools.count(first):
        ran = run_refusing(folder, at, *words, script=script)
        expect(f"refusals at request {at}", ran.refused <= 1, True)
        expect(f"blocks left at request {at}", ran.left, 0)
        yield at, ran
        if ran.refused == 0:
            return


@functools.lru_cache(maxsize=None)
def requests_at_start():
    """How many requests a run makes before it reads a script."""
    with tempfile.TemporaryDirectory(prefix="drm_") as folder:
        return run_refusing(pathlib.Path(folder), 0, "run").requests


# ---- scripts


def text_of(lines):
    return "".join(line + "\n" for line in lines)


@functools.lru_cache(maxsize=None)
def answers_of(script):
    """The answers to a script with ample memory."""
    ran = run_program("run", script=script)
    expect("status with ample memory", ran.returncode, 0)
    return ran.stdout.splitlines()


def answered(lines):
    """The places of the lines that have an answer."""
    return [
        at for at, line in enumerate(lines) if line.split() and not line.startswith("#") and line.split()[0] != "limits"
    ]


def word_of(line):
    """What a line asks for."""
    first, second = line.split()[:2]
    return {"open": "open", "open2": "open", "close": "close"}.get(first, second)


def audits(lines):
    """Lines that show all that a device holds, by a label that these lines don't have."""
    label = next(
        one for one in reversed(string.ascii_lowercase) if one not in {word for line in lines for word in line.split()}
    )
    return [f"open {label} root"] + [
        f"{label} audit {kind} {skipped}" for skipped in range(0, 96, 16) for kind in range(1, 11)
    ]


def expect_answers_with(folder, at, lines, wanted):
    """Runs these lines with the request of this number refused, and compares the answers."""
    ran = run_refusing(folder, at, "run", script=text_of(lines))
    expect(f"status at request {at}", (ran.returncode, ran.stderr, ran.left), (0, "", 0))
    expect(f"answers at request {at}", ran.stdout.splitlines(), wanted)


def expect_refused_step(folder, at, lines, answers):
    """One line was answered by want of memory: it changed nothing, and could be asked again. Gives what the line asks for."""
    expect(f"answers at request {at} that are {APART}", answers.count(APART), 1)
    place = answers.index(APART)
    line = answered(lines)[place]
    before, behind = lines[:line], lines[line + 1 :]
    plain = answers_of(text_of(lines))
    expect(f"a growth at request {at}", plain[place].split()[0] in ("denied", "apart"), False)
    rest = answers_of(text_of(before + behind))
    expect(f"answers at request {at}", answers, rest[:place] + [APART] + rest[place:])
    shown = answers_of(text_of(before + audits(lines)))
    expect_answers_with(folder, at, before + [lines[line]] + audits(lines), shown[:place] + [APART] + shown[place:])
    expect_answers_with(folder, at, before + 2 * [lines[line]] + behind, plain[:place] + [APART] + plain[place:])
    return word_of(lines[line])


def expect_refusals(folder, lines):
    """Refuses each request of a script after the program's start. Returns the words of the lines that wanted memory."""
    words = set()
    for at, ran in refused_in_turn(folder, requests_at_start() + 1, "run", script=text_of(lines)):
        if ran.returncode != 0:
            expect_told(ran, 1, ["fault: memory"], "")  # there is no device
        elif ran.refused == 0:
            expect("answers without a refusal", ran.stdout.splitlines(), answers_of(text_of(lines)))
        else:
            expect("error output", ran.stderr, "")
            words.add(expect_refused_step(folder, at, lines, ran.stdout.splitlines()))
    expect("words that want no memory", words - GROWING, set())
    return words


def lines_of(path):
    """The lines of a script, without the answers that it expects."""
    return [re.split(" +-> ", line)[0] for line in path.read_text().splitlines()]


@functools.lru_cache(maxsize=None)
def scripts():
    """The lines of each row and of each example, by its name."""
    found = {name: lines for name, lines, _ in (*worked_rows(), *further_rows())}
    for folder in ("examples", "examples/linux", "examples/tutorial"):
        for path in sorted((REPOSITORY / folder).glob("*.script")):
            found[f"{folder}/{path.name}"] = lines_of(path)
    return found


def script_tests():
    """A test for each script."""
    tests = {}
    for name, lines in scripts().items():

        def test(folder, asked=lines):
            expect_refusals(folder, asked)

        test.__name__ = f"test_script: {name}"
        tests[test.__name__] = test
    return tests


def expect_unspent(folder, lines, behind, wanted):
    """The next request after these lines would be refused; what comes then makes none, and is answered so."""
    at = run_refusing(folder, 0, "run", script=text_of(lines)).requests + 1
    ran = run_refusing(folder, at, "run", script=text_of(lines + behind))
    expect("status", (ran.returncode, ran.stderr), (0, ""))
    expect("answers", ran.stdout.splitlines()[-len(behind) :], wanted)
    expect("whether the refusal is spent", ran.refused, 0)


# ---- the start of the program, and files that check themselves


def expect_same_start(at, ran, plain):
    """What was refused was asked for again, in another way."""
    expect(f"the run at request {at}", ran[:3], plain[:3])
    expect(f"requests at request {at}, beside {plain.requests}", ran.requests > plain.requests, True)


# ---- a server

# What the clients of a server say, one after the other: who, and a call; `open` of a socket, by a lease token where one is named
SESSIONS = """owner open card
owner create_dumb 64 64 32
owner gem_flink 1
owner prime_export 1
owner addfb 64 64 256 32 1
owner create_lease 2 4 8
lessee open card 1
lessee get_lease
lessee buf_create 1
root open root
root gem_open 1
root audit 1 0
render open render
render prime_import 1
owner close
root audit 6 0
lessee close
root audit 10 0
root close
render close
"""
SESSION_COUNTS = (2, 1, 1)
SESSION_STEPS = [line.split() for line in SESSIONS.splitlines()]

# how long an answer may take
MOST_SECONDS = 10

GONE = "gone"
FAULTS = {
    "fault: memory": "ERROR memory was refused for the connections",
    "fault: thread": "ERROR a thread could not be started",
}


class Served(NamedTuple):
    """What the clients were answered, and how the server ended."""

    answers: List[str]
    ran: Ran


class Clients:
    """The clients of a server that may be gone, or listen no more."""

    def __init__(self, folder, started):
        self.folder = folder
        self.started = started
        self.opened = {}

    def listens_no_more(self, name):
        """Whether a socket that refuses is closed; another one isn't listened to yet. Its file is there a moment before it is bound."""
        if is_bound(self.folder / name):
            return False
        time.sleep(0.1)
        return not is_bound(self.folder / name)

    def reach(self, name, action):
        """What the action on a socket gives, or None where the server is gone or listens no more."""
        while True:
            try:
                return action(self.folder / name)
            except FileNotFoundError:
                if self.started.poll() is not None:
                    return None
            except ConnectionRefusedError:
                if self.listens_no_more(name):
                    return None
            except ConnectionError:
                return None
            time.sleep(0.001)

    def open(self, who, name, lease):
        """Opens a client, and returns how that was answered."""
        try:
            client = self.reach(name, lambda path: Client(path, lease, MOST_SECONDS))
        except Refusal as refusal:
            return refusal.words
        if client is None:
            return GONE
        self.opened[who] = client
        return opened_by(client)

    def say_nothing(self, name):
        """Makes a connection on which no client is opened."""
        connected = self.reach(name, connect_raw)
        if connected is not None:
            connected.close()

    def answer(self, who, call):
        """What is answered to one line of the sessions."""
        if call[0] == "open":
            return self.open(who, call[1], int(call[2]) if call[2:] else None)
        if who not in self.opened:
            return GONE
        try:
            if call[0] == "close":
                self.opened.pop(who).close()
                return "closed"
            return self.opened[who].ask(" ".join(call))
        except ConnectionError:
            return GONE


def serve_sessions(folder, at=0, left_out=None):
    """Serves the sessions with the request of this number refused, or with one line left out."""
    note = folder / "note"
    with server(folder, *SESSION_COUNTS, env=refusing(note, at)) as started:
        clients = Clients(folder, started)
        answers = []
        for place, (who, *call) in enumerate(SESSION_STEPS):
            if place != left_out:
                answers.append(clients.answer(who, call))
            elif call[0] == "open":
                clients.say_nothing(call[1])
        served = Served(answers, ran_of(note, end_of(started)))
    note.unlink()
    expect_no_sockets(folder)
    return served


def expect_refused_session(folder, at, served):
    """One call or opening was answered by want of memory, and changed nothing."""
    expect(f"answers at request {at} that are {APART}", served.answers.count(APART), 1)
    place = served.answers.index(APART)
    rest = serve_sessions(folder, left_out=place)
    expect(f"answers at request {at}", served.answers, rest.answers[:place] + [APART] + rest.answers[place:])
    notes = [told_by(line) for line in rest.ran.stderr.splitlines()]
    if SESSION_STEPS[place][1] == "open":
        end = "the opening or the closing ended in a fault: 51 NoMemory"
        notes.append(f"WARN {SESSION_STEPS[place][2]}, no client: {end}")
    expect_told(served.ran, 0, notes, rest.ran.stdout)


def expect_fault(at, served, plain):
    """The server ended by a fault, and some of what was asked wasn't answered."""
    told = [told_by(line) for line in served.ran.stderr.splitlines()]
    *causes, fault = [line for line in told if not line.startswith("WARN ")]
    expect(f"the fault at request {at}", fault in FAULTS, True)
    # the socket of a listener that got no thread is shut, which its accept reports
    causes = [line for line in causes if not re.fullmatch(r"ERROR \w+: Invalid argument \(os error 22\)", line)]
    expect(f"causes at request {at}", causes in ([], [FAULTS[fault]]), True)
    expect(f"the status at request {at}", served.ran.returncode, 1)
    # what the device holds is listed, if there was one
    listing = re.fullmatch(r"(device( \d+){4}\n)?", served.ran.stdout)
    expect(f"whether the output at request {at} is a listing or nothing", listing is not None, True)
    expect(f"a fault at request {at} though all was answered", served.answers == plain.answers, False)
    if fault == "fault: memory":  # all lists are reserved before a connection is accepted
        expect(f"what was answered at request {at}, and is lost", set(served.answers), {GONE})


class ScriptsTests(FolderCase):
    """Tests: scripts."""

    def test_each_call_that_grows(self):
        folder = self.folder
        expect("words", expect_refusals(folder, GROWING_SCRIPT.splitlines()), GROWING)

    def test_closings_denials_and_calls_that_do_not_grow_take_no_memory(self):
        folder = self.folder
        for name, lines in scripts().items():
            answers = answers_of(text_of(lines))
            before = None
            for place, line in enumerate(answered(lines)):
                requests = run_refusing(folder, 0, "run", script=text_of(lines[: line + 1])).requests
                is_refused = answers[place].split()[0] in ("denied", "apart")
                if before is not None and (is_refused or word_of(lines[line]) not in GROWING):
                    expect(f"requests of {name} behind {lines[line]!r}", requests, before)
                before = requests

    def test_closings_leave_a_refusal_unspent(self):
        folder = self.folder
        for name, until in (
            ("tokens_keep_objects_and_go_with_their_client", "close a"),
            ("framebuffers_are_shown_on_crtcs", "a rmfb 9"),
        ):
            row = scripts()[f"row {name}"]
            lines = row[: row.index(until)]
            closings = [f"close {label}" for label in ("a", "b")]
            expect_unspent(folder, lines, closings, ["closed", "closed"])

    def test_denials_leave_a_refusal_unspent(self):
        folder = self.folder
        for name in (
            "names_are_for_authenticated_clients",
            "masters_are_set_and_dropped",
            "leases_are_refused_in_order",
        ):
            lines = scripts()[f"row {name}"]
            answers = answers_of(text_of(lines))
            denied = [line for line, answer in zip(answered(lines), answers) if answer.startswith("denied")]
            expect(f"whether {name} has denials", len(denied) > 2, True)
            for line in denied:
                expect_unspent(folder, lines[:line], [lines[line]], [answers[answered(lines).index(line)]])

    def test_refused_export_gives_no_token(self):
        folder = self.folder
        lines = ["open a card", "a buf_create 1", "a prime_export 1", "a prime_export 1"]
        first = run_refusing(folder, 0, "run", script=text_of(lines[:2])).requests + 1
        last = run_refusing(folder, 0, "run", script=text_of(lines[:3])).requests
        expect("requests of an export", last >= first, True)
        for at in range(first, last + 1):
            expect_answers_with(folder, at, lines, ["client 1", "buffer 1 4096", APART, "number 1"])

    def test_refused_lease_leaves_no_lessee(self):
        folder = self.folder
        lines = ["open a card", "a create_lease 2 4 8", "a list_lessees", "a create_lease 2 4 8"]
        first = run_refusing(folder, 0, "run", script=text_of(lines[:1])).requests + 1
        last = run_refusing(folder, 0, "run", script=text_of(lines[:2])).requests
        expect("requests of a lease", last >= first, True)
        for at in range(first, last + 1):
            expect_answers_with(folder, at, lines, ["client 1", APART, "list -", "lease 1 1"])


class StartTests(FolderCase):
    """Tests: the start of the program, and files that check themselves."""

    def test_start_of_a_run(self):
        folder = self.folder
        plain = run_refusing(folder, 0, "run")
        for at, ran in refused_in_turn(folder, 1, "run"):
            if ran.returncode != 0:
                expect_told(ran, 1, ["fault: memory"], "")
            elif ran.refused:
                expect_same_start(at, ran, plain)
        expect("requests", at, plain.requests + 1)

    def test_command_lines_that_are_refused(self):
        folder = self.folder
        for words in (["fly"], ["run", "now", "then"], ["check"], ["serve", "--card", "c"], ["serve", "--cards", "65"]):
            plain = run_refusing(folder, 0, *words)
            for at, ran in refused_in_turn(folder, 1, *words):
                if ran.returncode == 3:
                    expect(f"what {words} tells at request {at}", ran[:3], plain[:3])
                else:
                    expect_told(ran, 1, ["fault: memory"], "")

    def test_check_of_a_file(self):
        folder = self.folder
        path = REPOSITORY / "examples/rows/buffer_is_made_and_closed.script"
        plain = run_refusing(folder, 0, "check", path)
        for at, ran in refused_in_turn(folder, 1, "check", path):
            if ran.returncode == 1:
                expect_told(ran, 1, ["fault: memory"], "")
            elif ran.returncode == 4:
                first, *rest = ran.stdout.splitlines()
                expect(f"the first difference at request {at}", first.endswith(f", got {APART}"), True)
                expect(f"others like it at request {at}", [line for line in rest if APART in line], [])
            elif ran.refused:
                expect_same_start(at, ran, plain)

    def test_explanations(self):
        """An explanation is written whole or not at all. Where a step is refused memory, it is one of a script in which that stands apart."""
        folder = self.folder
        path = REPOSITORY / "examples/sharing.script"
        for words in (["explain", path], ["explain", path, "--json"], ["explain", path, "--line", "12"]):
            for at, ran in refused_in_turn(folder, 1, *words):
                if ran.returncode == 1:
                    expect_told(ran, 1, ["fault: memory"], "")
                else:
                    expect(f"the end at request {at}", (ran.returncode, ran.stderr, ran.stdout[-1:]), (0, "", "\n"))


class ServerTests(FolderCase):
    """Tests: a server."""

    def test_server(self):
        folder = self.folder
        plain = serve_sessions(folder)
        expect("answers that tell of no memory", APART in plain.answers or GONE in plain.answers, False)
        expect("the end with ample memory", plain.ran[:3], (0, "device 0 1 1 20\n", ""))
        for at in itertools.count(1):
            served = serve_sessions(folder, at)
            if served.ran.refused == 0:
                expect(
                    "what is served without a refusal", (served.answers, served.ran[:3]), (plain.answers, plain.ran[:3])
                )
                return
            if served.ran.returncode != 0:
                expect_fault(at, served, plain)
            elif APART in served.answers:
                expect_refused_session(folder, at, served)
            else:
                expect_same_start(at, served.ran, plain.ran)


add_tests(ScriptsTests, script_tests())


def tearDownModule() -> None:
    """A tool that refuses nothing would pass all tests before."""
    with tempfile.TemporaryDirectory(prefix="drm_") as folder:
        try:
            refusing(pathlib.Path(folder) / "note", 0)  # where that can't be, nothing was tried
        except Skipped:
            return
    refused = sum(count * runs for count, runs in refusals.items())
    print(f"refused {refused} requests for memory, in {sum(refusals.values())} runs", flush=True)
    if sys.argv[1:]:
        return
    expect("a request that was refused", refused > 0, True)


if __name__ == "__main__":
    sys.exit(run_tests())
