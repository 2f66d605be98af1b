#!/usr/bin/env python3
"""Tests of `drm_server shrink`: scripts and journals that become shorter, and lines that have no shorter script.

What it tests: scripts and journals that become shorter: what is left passes its check, and each line is needed;
100,000 steps within 10 seconds.

Each test has its own folder. The last line is `N passed, M failed`. Standard library only.
"""
import re
import sys
import time

sys.dont_write_bytecode = True
from support import (  # noqa: E402
    PROGRAM,
    FolderCase,
    expect,
    expect_end,
    expect_told,
    run,
    run_program,
    run_tests,
    want_no_checks,
)

from test_random import random_script  # noqa: E402

SCRIPT = """\
# two clients
open a card
open b card
b get_magic -> number 1
a buf_create 4096
a gem_close 1

a gem_close 1
a version
"""

SHRUNK = """\
open a card -> client 1
a gem_close 1 -> denied 22 NoHandleToClose 22
"""

# scripts, a line of each, and what is left
SHORTER = (
    # other clients, later lines, comments and expected answers are left out
    (
        "# a comment\nopen a card -> client 9\nopen b card\n\nb get_magic\na version\na gem_close 7 -> done\na version\n",
        7,
        SHRUNK.replace("close 1", "close 7"),
    ),
    # lines that cancel each other out
    (
        "open a card\n"
        + 2 * "a buf_create 4096\n"
        + "a gem_close 1\na gem_close 2\na buf_create 4096\na gem_close 1\n",
        7,
        "open a card -> client 1\na buf_create 4096 -> buffer 1 4096\na gem_close 1 -> done\n",
    ),
    # the answer depends on another client
    (
        "open c render\nopen a card\nopen b card\na version\nb set_master\n",
        5,
        "open a card -> client 1\nopen b card -> client 2\nb set_master -> denied 26 MasterPerm 13\n",
    ),
    # the limits and each step are needed
    (
        "limits 2 8 8 8 8 4 4 7\nopen a card\na version\na raw 65535\nb version\nopen b render\nb version",
        7,
        """limits 2 8 8 8 8 4 4 7
open a card -> client 1
a version -> version 1 0 0
a raw 65535 -> denied 1 Unknown 22
b version -> denied 3 NoClient 22
open b render -> client 5
b version -> apart 50 JournalFull 28
""",
    ),
    # nothing but the line is needed, and the first line
    ("open a card\nb version\n", 2, "b version -> denied 3 NoClient 22\n"),
    ("open a card\nb version\n", 1, "open a card -> client 1\n"),
)

# what a long session asks again and again
ROUND = "a buf_create 4096\nb get_magic\na gem_flink 1\nc version\na gem_close 1\nb get_cap 1\nc list_handles 0\nb version\n"
# with the openings and the closings that a journal keeps room for, 100,000 steps
ROUNDS = 12_499


def lines_left(ran):
    """The number of lines that the search reports."""
    found = re.search(r"(\d+) of \d+ lines are left", ran.stderr)
    return int(found.group(1)) if found else None


def is_part(lines, whole):
    """Whether the lines are some of the others, in their order."""
    others = iter(whole)
    return all(line in others for line in lines)


class ShrinkingTests(FolderCase):
    """Tests of scripts that are made shorter."""

    def test_shorter_script_is_printed(self):
        script = self.folder / "script"
        script.write_text(SCRIPT)
        ran = run_program("shrink", script, "--line", "8")
        told = re.sub(r"; \d+ lines were run", "", ran.stderr)
        expect("the log", told, f"[INFO  drm_server] {script}: 2 of 8 lines are left\n")
        expect("status and output", (ran.returncode, ran.stdout), (0, SHRUNK))
        again = run_program("shrink", script, "--line", "8")
        expect("a second time", (again.stderr, again.stdout), (ran.stderr, ran.stdout))
        expect("standard input", run_program("shrink", "-", "--line", "8", script=SCRIPT).stdout, SHRUNK)

    def test_what_is_left_of_scripts(self):
        for script, number, left in SHORTER:
            ran = run_program("shrink", "-", "--line", str(number), script=script)
            expect(f"status and what is left of {script!r}", (ran.returncode, ran.stdout), (0, left))
            expect("the number of lines in the log", lines_left(ran), left.count("\n"))

    def test_device_is_the_described_one(self):
        """The topology and the limits decide what the line is answered."""
        script, topology = self.folder / "script", self.folder / "topology"
        script.write_text("open b render\nopen a root\na getcrtc 3\n")
        topology.write_text("crtcs 3\n")
        for words, is_denied in (((), True), (("--topology", topology), False)):
            ran = run_program("shrink", script, "--line", "3", *words)
            last = ran.stdout.splitlines()[-1]
            expect(
                f"whether CRTC 3 is denied with {words}", last == "a getcrtc 3 -> denied 30 NoModeObject 2", is_denied
            )
        script.write_text("open b render\na version\nopen c card\nopen d card\n")
        ran = run_program("shrink", script, "--line", "4", "--limits", "2 8 8 8 8 4 4 64")
        expect("the last line", ran.stdout.splitlines()[-1], "open d card -> denied 43 Full 28")
        expect("the number of lines", len(ran.stdout.splitlines()), 3)

    def test_journals_of_random_sessions(self):
        """What is left are lines of the journal, passes its check, ends with the same answer, and needs each line."""
        folder = self.folder
        for seed in range(1, 6):
            script, journal, shrunk = (folder / f"{name}{seed}" for name in ("script", "journal", "shrunk"))
            asked, expected = random_script(f"shrink {seed}")
            script.write_text("\n".join(asked) + "\n")
            run_program("run", script, "--journal", journal)
            lines = journal.read_text().splitlines()
            number = max(place for place, line in enumerate(lines, 1) if " -> denied " in line)
            ran = run_program("shrink", journal, "--line", str(number))
            shrunk.write_text(ran.stdout)
            left = ran.stdout.splitlines()
            print(f"seed {seed}: {number} lines, {len(left)} are left", flush=True)
            expect("the number of lines in the log", lines_left(ran), len(left))
            expect("the last line", left[-1], lines[number - 1])
            scripts = [line.split(" -> ")[0] for line in left]
            expect("whether they are the journal's", is_part(scripts, [line.split(" -> ")[0] for line in lines]), True)
            answered = sum(" -> " in line for line in left)
            expect_end(run(PROGRAM, "check", shrunk), 0, "", f"{answered} passed, 0 failed\n")
            for place in range(len(left) - 1):
                rest = scripts[:place] + scripts[place + 1 :]
                answers = run_program("run", script="\n".join(rest) + "\n").stdout.splitlines()
                expect(
                    f"whether line {place + 1} is needed", answers[-1:] != [lines[number - 1].split(" -> ")[1]], True
                )

    def test_lines_that_have_no_shorter_script(self):
        script = self.folder / "script"
        script.write_text("# a comment\nlimits 4 8 8 8 8 4 4 4\nopen a card\n\n")
        for number, reason in [
            (0, "there is no line 0: the script has 4 lines"),
            (5, "there is no line 5: the script has 4 lines"),
            (1, "line 1 makes no request"),
            (2, "line 2 makes no request"),
            (4, "line 4 makes no request"),
        ]:
            ran = run_program("shrink", script, "--line", str(number))
            expect_told(ran, 3, [f"ERROR {script}: {reason}", "fault: command line"], "")
        ran = run_program("shrink", "-", "--line", "1")
        expect_told(ran, 3, ["ERROR -: there is no line 1: the script has 0 lines", "fault: command line"], "")
        script.write_text("open a card\nfly away\na version\n")
        cause = f"ERROR {script}:2: column 1: `fly` is not a label from a to z, limits, open, open2 or close"
        expect_told(run_program("shrink", script, "--line", "3"), 2, [cause, "fault: script line 2"], "")
        expect("the line before it", run_program("shrink", script, "--line", "1").stdout, "open a card -> client 1\n")
        missing = self.folder / "missing"
        ran = run_program("shrink", missing, "--line", "1")
        expect_told(ran, 1, [f"ERROR {missing}: No such file or directory (os error 2)", "fault: read"], "")
        expect("status without a line", run_program("shrink", script).returncode, 3)

    def test_hundred_thousand_steps(self):
        """The search of a long session takes at most 10 seconds."""
        want_no_checks("it is slower")
        script = self.folder / "script"
        text = "open a root\nopen b card\nopen c render\n" + ROUND * ROUNDS
        script.write_text(text + "b auth_magic 7\n")
        number = text.count("\n") + 1
        begun = time.monotonic()
        ran = run_program("shrink", script, "--line", str(number))
        seconds = time.monotonic() - begun
        print(f"{number} lines: {lines_left(ran)} are left, {seconds:.1f} s", flush=True)
        expect("the last line", ran.stdout.splitlines()[-1], "b auth_magic 7 -> denied 13 Master 13")
        expect("whether it took at most 10 seconds", seconds <= 10, True)
        expect("the number of lines", len(ran.stdout.splitlines()), 3)


if __name__ == "__main__":
    sys.exit(run_tests())
