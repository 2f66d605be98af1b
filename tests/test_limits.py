#!/usr/bin/env python3
"""Tests of devices and files at their limits: each number up to the last is given, and the next request is denied.

What it tests: 65,535 handles, objects and tokens, 49,000 names, objects of 4 GiB and more, and a checked file of
10,000 lines; the next request is denied.

Each test has its own folder. The last line is `N passed, M failed`. Standard library only.
"""
import os
import subprocess
import sys
import time

sys.dont_write_bytecode = True
from support import (  # noqa: E402
    PROGRAM,
    FolderCase,
    expect,
    expect_end,
    is_compiled_with_checks,
    run,
    run_program,
    run_tests,
    want_no_checks,
)

LAST = 65_535
# as many names as a journal has steps for, each of an object
NAMES = 49_000
LINES = 10_000
CHAINED = 49_990
CLOSINGS = 1_000
# handles and imports, and as many as a program that checks itself can be asked for
MANY = (40_000, 30_000)
FEW = (3_000, 2_900)
FULL = "denied 43 Full 28"


def answers_of(script):
    """Returns the answers of a script that runs to its end."""
    if script.count("\n") > LINES:
        want_no_checks("so many answers take minutes")
    ran = run_program("run", script=script)
    expect("status and error output", (ran.returncode, ran.stderr), (0, ""))
    return ran.stdout.splitlines()


def expect_all(what, found, wanted):
    """Fails the test at the first answer that differs, since a difference of all would print megabytes."""
    for index, (one, other) in enumerate(zip(found, wanted)):
        expect(f"{what}, answer {index + 1}", one, other)
    expect(f"the number of answers of {what}", len(found), len(wanted))


def seconds_of(script):
    """Returns how long a script runs."""
    start = time.monotonic()
    answers_of(script)
    return time.monotonic() - start


def measured(words, output):
    """Runs the program with its output into a file, and gives its status, its seconds and its most memory in megabytes."""
    started = time.monotonic()
    with output.open("wb") as sink, subprocess.Popen(
        [PROGRAM, *map(str, words)], stdin=subprocess.DEVNULL, stdout=sink
    ) as ran:
        _, status, used = os.wait4(ran.pid, 0)
        ran.returncode = os.WEXITSTATUS(status) if os.WIFEXITED(status) else -1
    return ran.returncode, time.monotonic() - started, used.ru_maxrss / 1000


class LimitsTests(FolderCase):
    """Tests of devices and files at their limits: each number up to the last is given, and the next request is denied."""

    def test_each_handle_and_each_object(self):
        found = answers_of(
            "open a card\n" + (LAST + 1) * "a buf_create 1\n" + "a gem_close 4096\n" + "a buf_create 1\n"
        )
        given = [f"buffer {handle} 4096" for handle in range(1, LAST + 1)]
        expect_all("handles", found, ["client 1", *given, FULL, "done", "buffer 4096 4096"])

    def test_each_token(self):
        found = answers_of(
            "open a card\na buf_create 1\n"
            + (LAST + 1) * "a prime_export 1\n"
            + "a token_close 4096\na prime_export 1\n"
        )
        given = [f"number {token}" for token in range(1, LAST + 1)]
        expect_all("tokens", found, ["client 1", "buffer 1 4096", *given, FULL, "done", "number 4096"])

    def test_each_name(self):
        made = "".join(f"a buf_create 1\na gem_flink {handle}\n" for handle in range(1, NAMES + 2))
        found = answers_of(f"limits 1 {LAST} {NAMES} 1 {LAST} 1 1 100000\nopen a card\n{made}")
        given = [answer for handle in range(1, NAMES + 1) for answer in (f"buffer {handle} 4096", f"number {handle}")]
        expect_all("names", found, ["client 1", *given, f"buffer {NAMES + 1} 4096", FULL])

    def test_objects_of_each_size(self):
        """A device allocates no memory for what its objects would hold."""
        sizes = [1, 1 << 31, (1 << 32) - 4096, (1 << 32) - 1]
        found = answers_of(
            "open a card\n" + "".join(f"a buf_create {size}\n" for size in sizes) + "a create_dumb 65535 65535 64\n"
        )
        expect(
            "answers",
            found,
            [
                "client 1",
                "buffer 1 4096",
                "buffer 2 2147483648",
                "buffer 3 4294963200",
                "buffer 4 4294967296",
                "dumb 5 524288 34359214080",
            ],
        )

    def test_import_visits_no_other_handle(self):
        """A client with many handles of one object, each with an export order or not, imports it as fast as it names it."""
        handles, imports = FEW if is_compiled_with_checks() else MANY
        named = "open a card\na buf_create 1\na gem_flink 1\na prime_export 1\n"
        opened = handles * "a gem_open 1\n"
        exported = "".join(f"a gem_open 1\na prime_export {handle}\n" for handle in range(2, handles // 2 + 2))
        for made in (named + opened, named + exported):
            naming = seconds_of(made + imports * "a gem_flink 1\n")
            importing = seconds_of(made + imports * "a prime_import 1\n")
            expect(f"whether {importing:.2f} s are little more than {naming:.2f} s", importing < 2 * naming + 1, True)

    def test_lease_outlasts_the_closings_of_other_lessees(self):
        """Each closing frees the other lessee, whose key and id the next one gets. The first keeps its own lease."""
        rounds = "".join(
            f"a create_lease 1 3 7\nopen m lease {number + 1}\nm get_lease\nclose m\n"
            for number in range(1, CLOSINGS + 1)
        )
        found = answers_of(
            f"open a card\na create_lease 2 4 8\nopen l lease 1\n{rounds}l get_lease\na list_lessees\nl getcrtc 1\nl getcrtc 2\n"
        )
        given = [
            answer
            for number in range(1, CLOSINGS + 1)
            for answer in (f"lease 2 {number + 1}", f"client {4 * number + 1}", "list 1,3,7", "closed")
        ]
        expect_all(
            "leases",
            found,
            [
                "client 1",
                "lease 1 1",
                "client 3",
                *given,
                "list 2,4,8",
                "list 1",
                "denied 30 NoModeObject 2",
                "number 0",
            ],
        )

    def test_file_of_many_lines_is_updated(self):
        folder = self.folder
        file = folder / "file"
        file.write_text("open a card -> done\n" + (LINES - 1) * "a version -> done\n")
        expect_end(run(PROGRAM, "check", "--update", file), 0, "", "")
        expect("the file", file.read_text(), "open a card -> client 1\n" + (LINES - 1) * "a version -> version 1 0 0\n")
        expect_end(run(PROGRAM, "check", file), 0, "", f"{LINES} passed, 0 failed\n")

    def test_handles_that_each_came_by_the_one_before_are_explained(self):
        """A client that names each handle before it opens the next makes as many chains as handles, each longer than the one before."""
        folder = self.folder
        want_no_checks("it is slower, and needs more memory")
        script = folder / "script"
        script.write_text(
            "open a card\na buf_create 1\na gem_flink 1\n"
            + "".join(f"a gem_open 1\na gem_flink {number}\n" for number in range(2, CHAINED + 1))
            + "a gem_close 65535\n"
        )
        # a walk for each handle would take minutes; the page says 5 seconds
        for words, most in (([], 200), (["--json"], 300), (["--line", 2 * CHAINED + 2], 200)):
            status, seconds, megabytes = measured(["explain", script, *words], folder / "told")
            print(f"explain {words}: {seconds:.1f} s, {megabytes:.0f} MB", flush=True)
            expect(
                f"status with {words}, whether it took less than 10 seconds, and less than {most} MB",
                (status, seconds < 10, megabytes < most),
                (0, True, True),
            )
        expect("what the last line is told of", "NoHandleToClose" in (folder / "told").read_text(), True)


if __name__ == "__main__":
    sys.exit(run_tests())
