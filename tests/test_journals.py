#!/usr/bin/env python3
"""Tests of journals: what the device of a server or of a script recorded is a script that checks itself.

Each test has its own folder. The last line is `N passed, M failed`. Standard library only.
"""
import subprocess
import sys

sys.dont_write_bytecode = True
from support import (  # noqa: E402
    PROGRAM,
    REPOSITORY,
    FolderCase,
    connect,
    count_words,
    end_of,
    expect,
    expect_end,
    expect_no_sockets,
    path_words,
    run,
    run_program,
    run_tests,
    told_by,
)

LIMITS = "limits 64 65535 65535 65535 65535 64 64 100000\n"


def noted(folder, counts, session):
    """What a server writes of a session: the script's lines, once all clients of the session were closed."""
    sockets = folder / "sockets"
    sockets.mkdir()
    words = [
        "serve",
        "--until-input-ends",
        "--journal",
        folder / "journal",
        *path_words(sockets),
        *count_words(*counts),
    ]
    with subprocess.Popen(
        [PROGRAM, *words], stdin=subprocess.PIPE, stdout=subprocess.PIPE, stderr=subprocess.PIPE, text=True
    ) as ran:
        session(sockets)
        ran.stdin.close()
        ran.stdin = None
        ended = end_of(ran)
    expect("the server's status and error output", (ended.returncode, ended.stderr), (0, ""))
    expect_no_sockets(sockets)
    return (folder / "journal").read_text()


def expect_checked(folder, passed):
    """The script passes on its own device."""
    expect_end(run(PROGRAM, "check", folder / "journal"), 0, "", f"{passed} passed, 0 failed\n")


def without_answers(text):
    """A script that checks itself, without what it expects."""
    return "".join(line.partition(" -> ")[0] + "\n" for line in text.splitlines())


def journal_of(folder, script, *words):
    """What the run of a script writes as its journal."""
    ran = run_program("run", "--journal", folder / "of_run", *words, script=script)
    expect("the run's status and error output", (ran.returncode, ran.stderr), (0, ""))
    return (folder / "of_run").read_text()


def expect_same_of_run(folder, text):
    """The journal of a run of the same steps is the same."""
    expect("the journal of a run", journal_of(folder, without_answers(text)), text)


class JournalsTests(FolderCase):
    """Tests of journals: what the device of a server or of a script noted is a script that checks itself."""

    def test_journal_of_a_session(self):
        folder = self.folder

        def session(sockets):
            owner = connect(sockets / "card")
            expect("a lease", owner.ask("create_lease 2 4 8"), "lease 1 1")
            expect("an unknown call", owner.ask("raw 7 01"), "denied 1 Unknown 22")
            expect("another layout", owner.ask("raw 0 01"), "denied 2 Layout 22")
            lessee = connect(sockets / "card", 1)
            expect("its lease", lessee.ask("get_lease"), "list 2,4,8")
            render = connect(sockets / "render")
            expect("a buffer", render.ask("buf_create 1"), "buffer 1 4096")
            root = connect(sockets / "root")
            expect("the rows", root.ask("audit 4 0"), "rows 0")
            for client in (lessee, root, owner, render):
                client.close()

        text = noted(folder, (2, 1, 1), session)
        expect(
            "the script",
            text,
            LIMITS
            + """open a card -> client 1
a create_lease 2 4 8 -> lease 1 1
a raw 7 -> denied 1 Unknown 22
a raw 0 -> denied 2 Layout 22
open b lease 1 -> client 5
b get_lease -> list 2,4,8
open c render -> client 7
c buf_create 1 -> buffer 1 4096
open d root -> client 9
d audit 4 0 -> rows 0
close b -> closed
close d -> closed
close a -> closed
close c -> closed
""",
        )
        expect_checked(folder, 14)
        expect_same_of_run(folder, text)
        told = (
            "b was client 5: a lease client, opened at step 5, closed at step 11\n"
            "lessee 1, master 2, has nothing: leased by a at step 2 (lessee 1, token 1), redeemed by b at step 5, "
            "ended at step 11 as b closed\n"
        )
        expect_end(run(PROGRAM, "explain", folder / "journal", "--client", "b"), 0, "", told)

    def test_journal_of_hellos_of_version_2(self):
        """Which openings left universal planes off is recorded, as is who turned them on."""
        folder = self.folder

        def session(sockets):
            owner = connect(sockets / "card", version=2)
            expect("a lease", owner.ask("create_lease 1 7"), "lease 1 1")
            lessee = connect(sockets / "card", 1, 2)
            expect("its planes", lessee.ask("getplaneresources"), "list -")
            expect("the capability", lessee.ask("set_client_cap 2 1"), "done")
            expect("its planes", lessee.ask("getplaneresources"), "list 3")
            root = connect(sockets / "root", version=2)
            render = connect(sockets / "render", version=2)
            for client in (render, root, lessee, owner):
                client.close()

        text = noted(folder, (2, 1, 1), session)
        expect(
            "the script",
            text,
            LIMITS
            + """open2 a card -> client 1
a create_lease 1 7 -> lease 1 1
open2 b lease 1 -> client 3
b getplaneresources -> list -
b set_client_cap 2 1 -> done
b getplaneresources -> list 3
open2 c root -> client 7
open d render -> client 8
close d -> closed
close c -> closed
close b -> closed
close a -> closed
""",
        )
        expect_checked(folder, 12)
        expect_same_of_run(folder, text)

    def test_journal_of_more_clients_than_labels(self):
        """A label is bound anew once its client is closed."""
        folder = self.folder

        def session(sockets):
            for _ in range(30):
                client = connect(sockets / "card")
                client.version()
                client.close()

        text = noted(folder, (30, 0, 0), session)
        lines = text.splitlines()
        expect(
            "the openings",
            [line.split()[1] for line in lines if line.startswith("open")],
            [*"abcdefghijklmnopqrstuvwxyz", *"aaaa"],
        )
        expect_checked(folder, 90)
        expect_same_of_run(folder, text)

    def test_journal_of_more_clients_at_once_than_labels(self):
        """From the first client without a label on, each step is a comment with its answer. A longer answer is left out, and a longer call is
        written by its number, as in lines."""
        folder = self.folder

        def session(sockets):
            clients = [connect(sockets / "card") for _ in range(27)]
            for call in calls:
                clients[26].ask(call)
            clients[0].version()
            clients[0].close()
            connect(sockets / "card").close()
            for client in clients[1:]:
                client.close()

        calls = [
            "buf_create 1",
            "create_lease" + 20 * " 4294967295",
            "create_lease" + 21 * " 4294967295",
            "create_lease" + 22 * " 4294967295",
        ]
        expect("the sizes of the comments", [len(f"# client 27 {call}") for call in calls[1:]], [244, 255, 266])
        sockets = folder / "sockets"
        sockets.mkdir()
        words = ["serve", "--journal", folder / "journal", *path_words(sockets), *count_words(28, 0, 0)]
        with subprocess.Popen(
            [PROGRAM, *words], stdin=subprocess.DEVNULL, stdout=subprocess.PIPE, stderr=subprocess.PIPE, text=True
        ) as ran:
            session(sockets)
            ended = end_of(ran)
        expect(
            "what is told",
            [told_by(line) for line in ended.stderr.splitlines()],
            [
                f"WARN {folder / 'journal'}: more clients were open at once than a script has labels: the last steps are comments"
            ],
        )
        expect("status and output", (ended.returncode, ended.stdout), (0, "device 0 0 0 61\n"))
        lines = (folder / "journal").read_text().splitlines()
        expect(
            "the first lines", lines[:3], [LIMITS.rstrip("\n"), "open a card -> client 1", "open b card -> client 2"]
        )
        expect(
            "the comments",
            lines[27:],
            [
                "# more clients are open here than there are labels: each further step is a comment",
                "# open ? card -> client 27",
                f"# client 27 {calls[0]} -> buffer 1 4096",
                f"# client 27 {calls[1]}",
                f"# client 27 {calls[2]}",
                "# client 27 raw 198 -> denied 13 Master 13",
                "# client 1 version -> version 1 0 0",
                "# close client 1 -> closed",
                "# open ? card -> client 34",
                "# close client 34 -> closed",
                *(f"# close client {client} -> closed" for client in range(2, 28)),
            ],
        )
        expect_checked(folder, 26)

    def test_journal_of_lines_that_are_too_long(self):
        """An answer that has no place is left out, and a call that has none is told by its number."""
        folder = self.folder

        def session(sockets):
            owner = connect(sockets / "card")
            for _ in range(64):
                owner.buf_create(1)
            expect("a long answer", len(owner.ask("list_handles 0")) > 180, True)
            expect("a long call", owner.ask("create_lease" + 32 * " 4294967295"), "denied 30 NoModeObject 2")
            for _ in range(136):
                owner.buf_create(1)
            expect("a longer answer", len(owner.ask("list_handles 100")) > 250, True)
            owner.close()

        text = noted(folder, (1, 0, 0), session)
        expect("the long call", "\na raw 198 -> denied 2 Layout 22\n" in text, True)
        number = text.splitlines().index("a raw 198 -> denied 2 Layout 22") + 1
        ran = run(PROGRAM, "explain", "journal", "--line", number, cwd=folder)
        reason = "a journal has it for a create_lease that is too long for a line, too"
        told = [f"ERROR journal: line {number} can't be explained: {reason}", "fault: command line"]
        expect("its explanation", ([told_by(line) for line in ran.stderr.splitlines()], ran.returncode), (told, 3))
        expect("the longer answer", "\na list_handles 100\n" in text, True)
        expect("the longest line", max(map(len, text.splitlines())) <= 255, True)
        expect_checked(folder, text.count(" -> "))
        expect_same_of_run(folder, text)

    def test_journal_of_the_longest_lines(self):
        """A call whose line has up to 255 bytes is written in full. A longer one is written by its number."""
        folder = self.folder

        def session(sockets):
            owner = connect(sockets / "card")
            for call in calls:
                expect(call, owner.ask(call), "denied 30 NoModeObject 2")
            owner.close()

        calls = ["create_lease" + 21 * " 4294967295" + " " + digits * "9" for digits in (8, 9)] + [
            "create_lease" + 22 * " 4294967295"
        ]
        expect("the sizes of the lines", [len(f"a {call}") for call in calls], [254, 255, 256])
        text = noted(folder, (1, 0, 0), session)
        expect(
            "the script",
            text,
            LIMITS
            + f"open a card -> client 1\na {calls[0]}\na {calls[1]}\na raw 198 -> denied 2 Layout 22\nclose a -> closed\n",
        )
        expect_checked(folder, 3)
        expect_same_of_run(folder, text)

    def test_journals_of_the_examples(self):
        """Each script that is run leaves a journal that passes, and whose own run leaves the same."""
        folder = self.folder
        scripts = sorted((REPOSITORY / "examples").glob("**/*.script"))
        expect("how many scripts", len(scripts) > 120, True)
        for script in scripts:
            text = journal_of(folder, without_answers(script.read_text()))
            ran = run(PROGRAM, "check", folder / "of_run")
            expect(f"the check of the journal of {script.name}", (ran.returncode, ran.stderr), (0, ""))
            expect(f"how many differ in that of {script.name}", ran.stdout.endswith(" passed, 0 failed\n"), True)
            expect_same_of_run(folder, text)

    def test_journals_of_runs_on_other_devices(self):
        folder = self.folder
        topologies = sorted((REPOSITORY / "examples/topologies").glob("*.topology"))
        expect("how many topologies", len(topologies), 3)
        for topology in topologies:
            words = ["--topology", topology, "--limits", "2 8 8 8 8 4 4 50"]
            text = journal_of(
                folder,
                "open a card\na getresources\na getplaneresources\nopen b card\nopen c card\nb version\n",
                *words,
            )
            expect(
                "the first lines",
                text.startswith("limits 2 8 8 8 8 4 4 50\nopen a card -> client 1\na getresources -> crtcs 1"),
                True,
            )
            expect_end(run(PROGRAM, "check", *words[:2], folder / "of_run"), 0, "", "6 passed, 0 failed\n")

    def test_journal_of_a_script_that_ends_early(self):
        """What was asked before a line that can't be used is noted; what stands apart is not, and where nothing was asked the limits are."""
        folder = self.folder
        ran = run_program("run", "--journal", folder / "journal", script="open a card\nfly\na version\n")
        expect("status and output", (ran.returncode, ran.stdout), (2, "client 1\n"))
        expect("the journal", (folder / "journal").read_text(), LIMITS + "open a card -> client 1\n")
        expect("that of nothing", journal_of(folder, ""), LIMITS)
        expect("that of limits", journal_of(folder, "limits 2 8 8 8 8 4 4 2\n"), "limits 2 8 8 8 8 4 4 2\n")
        full = journal_of(folder, "limits 2 8 8 8 8 4 4 2\nopen a card\na version\nclose a\n")
        expect("that of a full journal", full, "limits 2 8 8 8 8 4 4 2\nopen a card -> client 1\nclose a -> closed\n")

    def test_journal_that_cannot_be_written(self):
        folder = self.folder
        words = ["serve", "--journal", folder / "absent/journal", *path_words(folder), *count_words(0, 0, 0)]
        ran = run(PROGRAM, *words)
        expect(
            "what is told",
            [told_by(line) for line in ran.stderr.splitlines()],
            [f"ERROR {folder / 'absent/journal'}: No such file or directory (os error 2)", "fault: write"],
        )
        expect("status and output", (ran.returncode, ran.stdout), (1, ""))
        expect_no_sockets(folder)
        ran = run_program("run", "--journal", folder / "absent/journal", script="open a card\n")
        expect(
            "what a run tells",
            [told_by(line) for line in ran.stderr.splitlines()],
            [f"ERROR {folder / 'absent/journal'}: No such file or directory (os error 2)", "fault: write"],
        )
        expect("its status and output", (ran.returncode, ran.stdout), (1, ""))


if __name__ == "__main__":
    sys.exit(run_tests())
