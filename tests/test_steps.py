#!/usr/bin/env python3
"""Tests of the steps of a journal: how its file is read as it grows, and what a replay shows of it.

What it tests: journals that are read as they grow, are cut off or are replaced. The rows of a replay are those of
an audit over a socket, after each step of a session. Steps that were denied or only read change no row:
twelve random sessions.

Each test has its own folder. The last line is `N passed, M failed`. Standard library only.
"""
import contextlib
import os
import random
import resource
import sys
import threading
import time
import unittest.mock

sys.dont_write_bytecode = True
from support import (  # noqa: E402
    PROGRAM,
    REPOSITORY,
    SECONDS,
    FolderCase,
    connect,
    expect,
    run_program,
    run_tests,
    wait_until,
    want_no_checks,
)

from zirkoshe import scripts, steps  # noqa: E402
from zirkoshe.audit import audit_by, formed  # noqa: E402
from zirkoshe.replay import ReplayError, Replays  # noqa: E402
from zirkoshe.scripts import Scripts, limits_of  # noqa: E402
from zirkoshe.server import Server  # noqa: E402
from zirkoshe.steps import Filter, Journal, Outcome  # noqa: E402

LIMITS = "limits 64 65535 65535 65535 65535 64 64 100000\n"
# a session with each kind of client, with denials, and with moments in which the device has no master
SESSION = """open a card
a set_client_cap 2 1
a getresources
a create_dumb 64 64 32
a addfb 64 64 256 32 1
a setcrtc 1 9 7
a gem_flink 1
a prime_export 1
a create_lease 2 4 8
a create_lease 2 3 8
open b lease 1
b create_dumb 64 64 32
b addfb 64 64 256 32 1
b setcrtc 2 10 8
b setcrtc 1 10 7
open c render
c prime_import 1
c setcrtc 1 9 7
c gem_close 9
a get_magic
a drop_master
b setcrtc 2 10 8
open d root
d drop_master
d audit 1 0
close b
open2 b card
b set_master
close a
close d
close b
close c
"""


def journal_of(folder, script, *words):
    """The file of the journal of a script."""
    path = folder / "session.journal"
    ran = run_program("run", "--journal", path, *words, script=script)
    expect("status", ran.returncode, 0)
    return path


def read(path):
    journal = Journal(path)
    journal.read()
    return journal


def numbers(journal, chosen=Filter(), start=0, count=1000, rows=None):
    """The total of a window, and the numbers of its steps."""
    window = journal.window(chosen, start, count, rows)
    return window.total, [step.number for step in window.steps]


def append(path, text):
    with open(path, "a", encoding="utf-8") as file:
        file.write(text)


def shown(audit):
    """An audit without what its own reading adds: the length of the journal, and the number of who read it."""
    return audit._replace(auditor=0, device=[row._replace(journal=0) for row in audit.device])


def replays_of(path, **options):
    return Replays(read(path), lambda: str(PROGRAM), **options)


def played(server, lines, held):
    """Makes the openings, calls and closings of a script's lines over the sockets of a server."""
    clients = {}
    for line in lines:
        words = line.split()
        if words[0].startswith("open"):
            path = server.render if words[2] == "render" else server.root if words[2] == "root" else server.card
            lease = int(words[3]) if words[2] == "lease" else None
            clients[words[1]] = connect(path, lease, 2 if words[0] == "open2" else 1)
            held.callback(clients[words[1]].abandon)
        elif words[0] == "close":
            clients.pop(words[1]).close()
        else:
            clients[words[0]].ask(" ".join(words[1:]))


def random_script(seed, count):
    """Lines that make, share, show, lease and remove what they can."""
    chosen = random.Random(seed)
    lines = ["open a card", "open b card", "open c render"]
    for _ in range(count):
        label = chosen.choice("abcd")
        number = chosen.randint(1, 4)
        lines.append(
            chosen.choice(
                (
                    f"open {label} {chosen.choice(('card', 'render', 'root', f'lease {number}'))}",
                    f"close {label}",
                    f"{label} create_dumb 64 64 32",
                    f"{label} addfb 64 64 256 32 {number}",
                    f"{label} setcrtc {chosen.randint(1, 2)} {8 + number} {chosen.randint(7, 8)}",
                    f"{label} gem_close {number}",
                    f"{label} prime_export {number}",
                    f"{label} prime_import {number}",
                    f"{label} gem_flink {number}",
                    f"{label} gem_open {number}",
                    f"{label} getfb {8 + number}",
                    f"{label} rmfb {8 + number}",
                    f"{label} create_lease 2 4 8",
                    f"{label} revoke_lease {number}",
                    f"{label} drop_master",
                    f"{label} set_master",
                    f"{label} get_magic",
                    f"{label} auth_magic {number}",
                    f"{label} list_handles 0",
                    f"{label} getresources",
                )
            )
        )
    return "\n".join(lines) + "\n"


class StepsTests(FolderCase):
    """Tests of the steps of a journal: how its file is read as it grows, and what a replay shows of it."""

    # the reader

    def test_file_that_grows(self):
        path = self.folder / "journal"
        path.write_text("")
        journal = read(path)
        expect("rows at first", (journal.rows, journal.read()), (0, False))
        text = journal_of(self.folder, SESSION).read_text()
        for at, byte in enumerate(text):
            append(path, byte)
            expect("whether that is new", journal.read(), True)
            # a line counts once its end was written, and the first one sets the limits
            expect("rows", journal.rows, max(0, text[: at + 1].count("\n") - 1))
        step = journal.step(9)
        expect("a step", (step.number, step.line, step.client, step.label), (10, 11, 1, "a"))
        expect("its call", (step.call, step.request), ("create_lease", "a create_lease 2 3 8"))
        expect("its answer", (step.answer, step.outcome), ("denied 34 LeasedOut 16", Outcome.DENIED))
        expect("lines that are none, and generation", (journal.unread, journal.generation), (0, 1))

    def test_file_that_is_written_again(self):
        """By the same bytes, as another file or as the same one, whole or in parts."""
        path = journal_of(self.folder, SESSION)
        journal = read(path)
        data = path.read_bytes()
        other = self.folder / "other"
        other.write_bytes(data)
        os.replace(other, path)
        expect("whether that is new", journal.read(), False)
        for end in (0, 100, len(data)):
            path.write_bytes(data[:end])
            expect(f"whether {end} bytes are new", journal.read(), False)
        append(path, "c version -> version 1 0 0\n")
        expect("the next step", (journal.read(), journal.rows, journal.generation), (True, 33, 1))

    def test_file_that_is_replaced(self):
        """By that of another session, which begins with the same bytes."""
        path = journal_of(self.folder, SESSION)
        journal = read(path)
        path.write_text(LIMITS + "open a card -> client 1\na version -> version 1 0 0\n")
        with unittest.mock.patch.object(steps, "SETTLE", 0.05):
            # all of it is known but for the last line, by which it is another one
            expect("whether it is another one", (journal.read(), journal.rows, journal.generation), (True, 2, 2))
            path.write_text(LIMITS + "open a card -> client 1\n")
            expect("at first", (journal.read(), journal.rows), (False, 2))
            time.sleep(0.1)
            journal.read()
            journal.read()
        expect("once it stays short", (journal.rows, journal.generation), (1, 3))
        path.unlink()
        expect("once it is removed", (journal.read(), journal.rows), (False, 1))

    def test_what_is_no_journal(self):
        path = self.folder / "other"
        path.write_bytes(b"\x00\xff <script>\nhello world\na nothing 1\n\nA version\n# a comment -> done\na version\n")
        journal = read(path)
        expect("rows and others", (journal.rows, journal.unread, journal.step(0).outcome), (1, 4, Outcome.UNKNOWN))
        for place in (self.folder, self.folder / "absent"):
            try:
                Journal(place)
            except OSError:
                continue
            raise AssertionError(f"{place} was read")
        with unittest.mock.patch.object(steps, "MOST_BYTES", 1000):
            path.write_text("a version -> version 1 0 0\n" * 100)
            journal = read(path)
            expect("a file that is too long", (journal.is_cut, journal.rows), (True, 37))

    def test_filters(self):
        journal = read(journal_of(self.folder, SESSION))
        expect("all", numbers(journal, count=3), (32, [1, 2, 3]))
        expect("of the first", numbers(journal, start=8, rows=10), (10, [9, 10]))
        expect("a client", numbers(journal, Filter(client=11)), (7, [11, 12, 13, 14, 15, 22, 26]))
        # a journal has own labels
        label = journal.opened[-1].label
        expect("a label", numbers(journal, Filter(label=label)), (3, [27, 28, 31]))
        expect("a call", numbers(journal, Filter(call="setcrtc")), (5, [6, 14, 15, 18, 22]))
        expect("openings of both kinds", numbers(journal, Filter(call="open")), (5, [1, 11, 16, 23, 27]))
        refused = Filter(refused_only=True)
        expect("denials", numbers(journal, refused), (5, [10, 15, 18, 19, 22]))
        expect("both", numbers(journal, Filter(client=11, refused_only=True)), (2, [15, 22]))
        expect("of the first", numbers(journal, refused, rows=16), (2, [10, 15]))
        expect("places", [journal.place_of(refused, row) for row in (8, 9, 13, 14, 31)], [-1, 0, 0, 1, 4])
        append(journal.path, "c gem_close 9 -> denied 3 NoClient 22\nc gem_close 9 -> apart 51 NoMemory 12\n")
        journal.read()
        expect("a fault is no step", numbers(journal, refused, start=4), (7, [22, 33, 33]))
        expect("the row of a step", [journal.row_of(number) for number in (1, 33, 99)], [0, 32, 33])
        expect("calls", "setcrtc" in journal.calls and "gem_open" not in journal.calls, True)
        expect("the last clients", list(journal.opened)[-2:], [(23, "d"), (27, label)])

    def test_many_filters(self):
        """The rows of the last ones are kept, and no others."""
        journal = read(journal_of(self.folder, SESSION))
        for client in range(100):
            numbers(journal, Filter(client=client))
        expect("kept", len(journal._matches), steps.MOST_FILTERS)

    def test_100000_lines(self):
        path = self.folder / "journal"
        lines = ["open a card -> client 1\n", *["a gem_close 9 -> denied 22 NoHandleToClose 22\n"] * 99_998]
        path.write_text(LIMITS + "".join(lines))
        begun = time.process_time()
        journal = read(path)
        expect("rows", (journal.rows, journal.counts[Outcome.DENIED]), (99_999, 99_998))
        expect("the last", numbers(journal, start=99_997, count=500), (99_999, [99_998, 99_999]))
        expect("denials", journal.window(Filter(refused_only=True), 0, 1).total, 99_998)
        append(path, "a version -> version 1 0 0\n")
        expect("whether one more is read", (journal.read(), journal.rows), (True, 100_000))
        spent = time.process_time() - begun
        expect(f"whether {spent} seconds are too many", spent < 10, True)

    def test_threads_that_read_and_ask(self):
        path = self.folder / "journal"
        path.write_text(LIMITS)
        journal = read(path)
        failures = []

        def ask():
            try:
                while journal.rows < 5000:
                    total, found = numbers(journal, Filter(call="version"), rows=journal.rows)
                    expect("numbers", found, list(range(1, len(found) + 1)))
            except AssertionError as error:
                failures.append(error)

        threads = [threading.Thread(target=ask) for _ in range(2)]
        for thread in threads:
            thread.start()
        for _ in range(50):
            append(path, "a version -> version 1 0 0\n" * 100)
            journal.read()
        for thread in threads:
            thread.join()
        expect("failures", failures, [])

    # replays

    def test_replay_is_what_a_server_holds(self):
        """After each step it has the rows that an audit over a socket of a server has after the same steps."""
        replays = replays_of(journal_of(self.folder, SESSION))
        lines = SESSION.splitlines()
        for count in range(len(lines) + 1):
            with Server() as server, contextlib.ExitStack() as held:
                played(server, lines[:count], held)
                with connect(server.root) as client:
                    first = audit_by(client)
                    has_master = any(row.client == client.opened.client and row.flags & 16 for row in first.clients)
                    if has_master:  # a first client is a master, and no audit is to show it
                        client.drop_master()
                    wanted = audit_by(client, first.routes).without_auditor()
            found = replays.audit_after(count)
            expect(f"what is held after {count} steps", shown(found), shown(wanted))

    def test_replay_leaves_its_client_out(self):
        """It opens as root while no client is master, or none is open, and becomes master; none of it is shown."""
        script = "open a card\na drop_master\na set_master\nclose a\n"
        replays = replays_of(journal_of(self.folder, script))
        found = [replays.audit_after(rows) for rows in range(5)]
        expect("clients", [len(audit.clients) for audit in found], [0, 1, 1, 1, 0])
        expect("masters", [len(audit.masters) for audit in found], [0, 1, 1, 1, 0])
        expect("the device's", [audit.device[0].master for audit in found], [0, 1, 0, 1, 0])

    def test_replay_without_the_client_of_the_watch(self):
        script = "open a root\na drop_master\nopen b card\nb create_dumb 64 64 32\n"
        replays = replays_of(journal_of(self.folder, script), own=1)
        found = replays.audit_after(4)
        expect("the auditor", (found.auditor, [row.client for row in found.clients]), (1, [1, 3]))
        plain = found.without_auditor()
        expect("others", ([row.client for row in plain.clients], [row.master for row in plain.masters]), ([3], [3]))

    def test_replay_without_room(self):
        """Of a device whose clients and journal are full, and of one whose journal can have no more places."""
        script = "limits 2 2 8 8 8 4 4 10\nopen a card\nopen b render\nopen c card\n" + "a create_dumb 1 1 8\n" * 5
        replays = replays_of(journal_of(self.folder, script))
        expect("limits", limits_of(replays.journal), b"limits 3 2 8 8 8 4 4 100000")
        found = replays.audit_after(replays.journal.rows)
        expect("clients and buffers", ([row.client for row in found.clients], len(found.objects)), ([1, 2], 2))
        with unittest.mock.patch.object(scripts, "MOST_STEPS", 40):
            path = journal_of(
                self.folder, SESSION.replace("a drop_master\n", "a getresources\n" * 9 + "a drop_master\n")
            )
            replays = replays_of(path)
            wanted = replays.audit_after(22)
        path = journal_of(self.folder, SESSION)
        expect("the same rows", shown(wanted), shown(replays_of(path).audit_after(20)))
        with unittest.mock.patch.object(scripts, "MOST_STEPS", 12):
            expect_error("no room for the steps", lambda: replays_of(path).audit_after(9))

    def test_replay_without_idle_steps(self):
        """Steps that were denied or only read change no row; without them the rows are the same."""
        for seed in range(12):
            replays = replays_of(journal_of(self.folder, random_script(seed, 60)))
            rows = replays.journal.rows
            made = Scripts(replays.journal)
            wanted = replays.read(made.of(rows))
            script = made.of(rows, with_idle=False)
            expect("whether there are some", len(script.requests) < rows, True)
            expect(f"the rows of {seed}", shown(replays.read(script)), shown(wanted))
            effective = replays.journal.effective(rows)
            expect("the effective ones", shown(replays.read(made.of(effective))), shown(wanted))

    def test_replay_of_clients_without_a_label(self):
        letters = "abcdefghijklmnopqrstuvwxyz"
        lines = [f"open {letter} card" for letter in letters]
        more = ["open a render", "a buf_create 4096", "close a", "b raw 1", "z version", "open b root", "b get_magic"]
        path = journal_of(self.folder, "\n".join([*lines, *more, ""]))
        expect(
            "whether there are comments", "\n# client 27 buf_create 4096 -> buffer 1 4096\n" in path.read_text(), True
        )
        replays = replays_of(path)
        journal = replays.journal
        step = journal.step(27)
        expect("a step", (step.number, step.client, step.label, step.call), (28, 27, "", "buf_create"))
        clients = [row.client for row in replays.audit_after(28).clients]
        expect("clients", clients, list(range(1, 28)))
        expect("the buffer", [row.object for row in replays.audit_after(28).objects], [28])
        last = replays.audit_after(journal.rows)
        expect("at the end", [row.client for row in last.clients], [*range(1, 27), 32])
        expect("a magic", [row.magic for row in last.clients if row.client == 32], [1])
        text = replays.explanation(29)
        wanted = [
            "In this text a is client 27.",
            "line 32 is step 30, a call with an unknown number by b: denied 1 Unknown 22",
        ]
        expect("the explanation", text.splitlines()[:2], wanted)

    def test_replay_that_differs(self):
        """Of a journal that was changed, of another topology, and of a script without answers."""
        topology = REPOSITORY / "examples/topologies/laptop.topology"
        path = journal_of(self.folder, "open a card\na getresources\na create_dumb 64 64 32\n", "--topology", topology)
        expect_error("step 2 is answered `crtcs", lambda: replays_of(path).audit_after(3))
        found = replays_of(path, topology=topology).audit_after(3)
        expect("mode objects", "plane" in found.mode_objects.values() and len(found.objects) == 1, True)
        path.write_text(path.read_text().replace("dumb 1 256 16384", "dumb 2 256 16384"))
        expect_error(
            "in the journal: pass --topology as to serve",
            lambda: replays_of(path, topology=topology).audit_after(3),
        )
        path.write_text("open a card\n")
        expect_error("an opening has no answer", lambda: replays_of(path).audit_after(1))
        path.write_text("limits 0\nopen a card -> client 1\n")
        expect("other limits are the program's", len(replays_of(path).audit_after(1).clients), 1)
        expect_error("can't run", lambda: Replays(read(path), lambda: "/absent").audit_after(1))

    def test_replay_without_faults(self):
        path = journal_of(self.folder, "open a card\na create_dumb 64 64 32\n")
        text = path.read_text()
        path.write_text(text.replace("a create", "a create_dumb 8 8 8 -> apart 51 NoMemory 12\na create"))
        replays = replays_of(path)
        expect("rows and steps", (replays.journal.rows, replays.journal.steps), (3, 2))
        expect("buffers", [row.object for row in replays.audit_after(3).objects], [2])

    def test_explanations(self):
        replays = replays_of(journal_of(self.folder, SESSION))
        text = replays.explanation(9)
        expect("the first line", text.splitlines()[0], "line 11 is step 10, create_lease by a: denied 34 LeasedOut 16")
        expect("the last", text.splitlines()[-1].startswith("it would pass if "), True)
        ran = run_program("explain", replays.journal.path, "--line", "11")
        expect("what the program says of the file", text, ran.stdout)
        expect("again", replays.explanation(9), text)

    def test_replay_that_is_stopped(self):
        path, program, proceed = (self.folder / name for name in ("journal", "program", "proceed"))
        calls = "a getcrtc 1 -> number 0\n" * 90_000
        path.write_text(LIMITS + "open a card -> client 1\n" + calls + "a create_dumb 8 8 8 -> dumb 1 8 64\n")
        # without the last file, it reads nothing and runs until it is stopped
        program.write_text(f'#!/bin/sh\n[ -e "{proceed}" ] || exec sleep {SECONDS}\nexec "{PROGRAM}" "$@"\n')
        program.chmod(0o755)
        replays = Replays(read(path), lambda: str(program))
        failures = []

        def ask(claim):
            try:
                replays.audit_after(replays.journal.rows, claim)
            except ReplayError as error:
                failures.append(str(error))

        first = threading.Thread(target=ask, args=(replays.claim("one"),))
        first.start()
        wait_until("whether it runs", lambda: replays._running is not None)
        replays.claim("other")
        second = threading.Thread(target=ask, args=(replays.claim("one", is_later=False),))
        second.start()
        expect("whether it still runs", replays._running is not None, True)
        last = replays.claim("one")
        for thread in (first, second):
            thread.join()
        expect("failures", failures, ["the program exited: no message", "a later request has ended this one"])
        proceed.touch()
        expect("a shorter one", len(replays.audit_after(1, last).clients), 1)

    def test_replay_is_quick(self):
        want_no_checks("it is slower")
        for count, most in ((10_000, 0.3), (99_800, 2.0)):
            path = self.folder / f"journal{count}"
            ran = run_program("run", "--journal", path, script=random_script(1, 200) + "b getcrtc 1\n" * (count - 203))
            expect("status", ran.returncode, 0)
            replays = replays_of(path)
            expect("rows", replays.journal.rows, count)
            spent = []
            for _ in range(5):
                begun = processor_time()
                formed(replays.read(replays._scripts.of(count)), "svg")
                spent.append(processor_time() - begun)
            expect(f"whether {min(spent)} seconds are too many for {count} steps", min(spent) < most, True)


def processor_time():
    """What this process and the programs that it ended have used, which other processes of a machine don't change."""
    used = [resource.getrusage(who) for who in (resource.RUSAGE_SELF, resource.RUSAGE_CHILDREN)]
    return sum(of.ru_utime + of.ru_stime for of in used)


def expect_error(words, action):
    """An action fails with an error that has these words."""
    try:
        action()
    except ReplayError as error:
        expect(f"whether {str(error)!r} has {words!r}", words in str(error), True)
        return
    raise AssertionError(f"no error has {words!r}")


if __name__ == "__main__":
    sys.exit(run_tests())
