#!/usr/bin/env python3
"""Tests of tools/check: several files are checked at once, with the output of `drm_server check`, and a JUnit report.

What it tests: files that `zirkoshe check` checks at once: the output and status of `drm_server check`, and JUnit
reports.

Each test has its own folder. The last line is `N passed, M failed`. Standard library only.
"""
import errno
import os
import select
import signal
import subprocess
import sys
import xml.etree.ElementTree as ElementTree

sys.dont_write_bytecode = True
from support import PROGRAM, REPOSITORY, SECONDS, FolderCase, expect, run, run_tests, told_by, wait_until  # noqa: E402

ZIRKOSHE = REPOSITORY / "zirkoshe"
FILES = {
    "met": "open a card -> client 1\na version -> version 1 0 0\n",
    "wrong": "open a card -> client 2\na version -> version 1 0 0\na get_magic -> done\n",
    "malformed": "open a card -> client 2\nfly\n",
    "silent": "open a card\n",
    "-x": "open a card -> client 3\n",
    'a<&"\x1b': "open a card -> client 4\n",
    "topology": "crtcs 1\nplane 1\nencoder 1\nconnector 1\n",
}
# command lines without a word of tools/check alone
WORDS = (
    ["met"],
    ["met", "wrong", "malformed", "silent", "met"],
    ["met", "silent", "wrong"],
    ["wrong", "absent", "met"],
    ["met", "folder", "malformed", "absent"],
    ["--", "-x", "wrong", "--topology"],
    ["--limits", "2 1 1 1 1 1 1 9", "wrong", "met"],
    ["--limits=1", "met", "wrong"],
    ["--topology=absent", "met"],
    ["--topology", "met", "met", "wrong"],
    ["met", "--", 'a<&"\x1b'],
    ["--nothing", "met"],
    ["--topology"],
    [],
)
WRONG = """wrong:1: expected client 2, got client 1
    drm_server explain wrong --line 1
wrong:3: expected done, got number 1
    drm_server explain wrong --line 3
"""
MALFORMED = """malformed:1: expected client 2, got client 1
    drm_server explain malformed --line 1
malformed:2: malformed
"""
SILENT = "silent: no expected answers\n"
FLY = "column 1: `fly` is not a label from a to z, limits, open, open2 or close"


def make_files(folder):
    (folder / "folder").mkdir()
    for name, text in FILES.items():
        (folder / name).write_text(text)


def checked(folder, *words, **options):
    return run(ZIRKOSHE, "check", *words, cwd=folder, **options)


def has_no_reader(writer):
    """Whether nothing reads what is written to a pipe."""
    waiting = select.poll()
    waiting.register(writer, 0)
    return any(events & select.POLLERR for _, events in waiting.poll(0))


def error_of(ran):
    """The error output, without what the script of an unproved program says first."""
    return [told_by(line) for line in ran.stderr.splitlines() if not line.startswith("drm_server: ")]


def cases_of(path):
    """The test cases of a report: the file, what its one child is, and its message; and the numbers of the suite."""
    (suite,) = ElementTree.parse(path).getroot()
    cases = [(case.get("name"), *((child.tag, child.get("message")) for child in case)) for case in suite]
    return cases, [suite.get(name) for name in ("tests", "failures", "errors", "skipped")]


def fill(path, text):
    """Writes a text into a FIFO, as soon as a process reads it."""
    descriptors = []

    def opened():
        try:
            descriptors.append(os.open(path, os.O_WRONLY | os.O_NONBLOCK))
        except OSError as error:
            if error.errno != errno.ENXIO:
                raise
        return descriptors != []

    wait_until(f"whether {path.name} is read", opened)
    os.write(descriptors[0], text)
    os.close(descriptors[0])


class ReportsTests(FolderCase):
    """Tests: several files that are checked at once, and reports."""

    def setUp(self):
        super().setUp()
        make_files(self.folder)

    def test_output_and_status_are_those_of_the_program(self):
        for words in WORDS:
            alone = run(PROGRAM, "check", *words, cwd=self.folder)
            for jobs in ([], ["--jobs", "1"], ["--jobs=3"]):
                ran = checked(self.folder, *jobs, *words)
                found = (ran.returncode, ran.stdout, error_of(ran))
                wanted = (alone.returncode, alone.stdout, [told_by(line) for line in alone.stderr.splitlines()])
                expect(f"{jobs} {words}", found, wanted)

    def test_numbers_are_those_of_all_files(self):
        ran = checked(self.folder, "--jobs", "2", "wrong", "met", "malformed", "silent")
        expect(
            "status and output", (ran.returncode, ran.stdout), (2, WRONG + MALFORMED + SILENT + "3 passed, 4 failed\n")
        )

    def test_files_are_checked_at_once_and_shown_in_order(self):
        """The second file ends before the first does."""
        for name in ("first", "second"):
            os.mkfifo(self.folder / name)
        words = [ZIRKOSHE, "check", "--jobs", "2", "first", "second"]
        with subprocess.Popen(words, cwd=self.folder, stdout=subprocess.PIPE, text=True) as started:
            try:
                for name in ("second", "first"):
                    fill(self.folder / name, b"open a card -> client 2\n")
                output, _ = started.communicate(timeout=SECONDS)
            finally:
                started.kill()
        lines = [line for line in output.splitlines() if not line.startswith("    ")]
        told = [f"{name}:1: expected client 2, got client 1" for name in ("first", "second")]
        expect("status and output", (started.returncode, lines), (4, [*told, "0 passed, 2 failed"]))

    def test_signal_ends_the_processes_too(self):
        """The file is a pipe that does not end. It has no reader once the process that checks it has ended."""
        os.mkfifo(self.folder / "endless")
        for number in (signal.SIGTERM, signal.SIGHUP):
            words = [ZIRKOSHE, "check", "--jobs", "2", "endless", "met"]
            with subprocess.Popen(
                words, cwd=self.folder, stdout=subprocess.DEVNULL, stderr=subprocess.DEVNULL
            ) as started:
                writer = os.open(self.folder / "endless", os.O_WRONLY)
                try:
                    started.send_signal(number)
                    expect("status", started.wait(SECONDS), -number)
                    wait_until("the end of what reads the file", lambda: has_no_reader(writer))
                finally:
                    started.kill()
                    os.close(writer)

    def test_fault_ends_the_other_processes(self):
        """Files after a fault are not read to their end."""
        os.mkfifo(self.folder / "endless")
        words = [ZIRKOSHE, "check", "--jobs", "2", "absent", "endless"]
        with subprocess.Popen(words, cwd=self.folder, stdout=subprocess.DEVNULL, stderr=subprocess.DEVNULL) as started:
            try:
                expect("status", started.wait(SECONDS), 1)
            finally:
                started.kill()

    def test_report(self):
        ran = checked(self.folder, "--junit", "report.xml", "met", "wrong", "malformed", "silent", 'a<&"\x1b')
        expect("status", ran.returncode, 2)
        cases, numbers = cases_of(self.folder / "report.xml")
        wanted = [
            ("met",),
            ("wrong", ("failure", "2 failed")),
            ("malformed", ("error", f"malformed:2: {FLY}")),
            ("silent", ("failure", "1 failed")),
            ('a<&"\\x1b', ("failure", "1 failed")),
        ]
        expect("the cases, and the numbers", (cases, numbers), (wanted, ["5", "3", "1", "0"]))
        suite = ElementTree.parse(self.folder / "report.xml").getroot()[0]
        expect("the differences", suite[1][0].text, WRONG)
        expect("what is said of a malformed file", suite[2][0].text[: len(MALFORMED)], MALFORMED)
        times = [float(case.get("time")) for case in suite]
        expect("whether each took some time", all(0 < time <= SECONDS for time in times), True)

    def test_report_of_a_fault(self):
        """Files after it were not checked."""
        ran = checked(self.folder, "--junit=report.xml", "met", "absent", "wrong")
        expect("status, output and errors", (ran.returncode, ran.stdout), (1, ""))
        cases, numbers = cases_of(self.folder / "report.xml")
        reason = f"absent: {os.strerror(errno.ENOENT)} (os error {errno.ENOENT})"
        wanted = [("met",), ("absent", ("error", reason)), ("wrong", ("skipped", "not checked"))]
        expect("the cases, and the numbers", (cases, numbers), (wanted, ["3", "0", "1", "1"]))

    def test_reports_that_are_refused(self):
        """No file is read or written then."""
        (self.folder / "link").symlink_to("met")
        os.mkfifo(self.folder / "pipe")
        for words in (
            ["--junit", "met", "met"],
            ["--junit", "link", "wrong", "met"],
            ["--junit", "topology", "--topology", "topology", "met"],
            ["--junit", "report.xml", "--update", "wrong"],
            ["--junit", "report.xml", "--topology", "pipe", "met"],
            ["--junit", "report.xml"],
            ["met", "--junit"],
            ["--jobs", "0", "met"],
            ["--jobs", "1025", "met"],
            ["--jobs", "many", "met"],
            ["--jobs", "1", "--jobs", "1", "met"],
        ):
            ran = checked(self.folder, *words)
            expect(f"{words}", (ran.returncode, ran.stdout, error_of(ran)[-1]), (3, "", "fault: command line"))
        for name, text in FILES.items():
            expect(f"the file {name}", (self.folder / name).read_text(), text)
        expect("whether there is a report", (self.folder / "report.xml").exists(), False)

    def test_report_that_is_not_written(self):
        ran = checked(self.folder, "--junit", "absent/report.xml", "met")
        expect("status and output", (ran.returncode, ran.stdout), (1, "2 passed, 0 failed\n"))
        expect("the fault", error_of(ran)[-1], "fault: write")

    def test_output_that_is_not_written(self):
        with open("/dev/full", "wb") as full:
            words = [ZIRKOSHE, "check", "met", "wrong"]
            ran = subprocess.run(
                words, cwd=self.folder, stdout=full, stderr=subprocess.PIPE, text=True, timeout=SECONDS
            )
        expect("status and fault", (ran.returncode, error_of(ran)[-1]), (1, "fault: write"))

    def test_standard_input_is_read_once(self):
        script = FILES["wrong"]
        for words in (["-"], ["met", "-"], ["-", "met", "-"]):
            alone = run(PROGRAM, "check", *words, cwd=self.folder, stdin=None, input=script)
            ran = checked(self.folder, "--jobs", "3", *words, stdin=None, input=script)
            expect(f"{words}", (ran.returncode, ran.stdout), (alone.returncode, alone.stdout))
        expect("the last output", ran.stdout.splitlines()[-1], "3 passed, 3 failed")

    def test_files_are_descriptors(self):
        """As a shell names the output of a command."""
        (self.folder / "plain").write_bytes((self.folder / "wrong").read_bytes())
        for number in (0, 9):
            with open(self.folder / "plain", "rb") as file:
                os.dup2(file.fileno(), 9)
                ran = checked(self.folder, "met", f"/dev/fd/{number}", stdin=file, pass_fds=[9])
                os.close(9)
            expect(f"descriptor {number}", (ran.returncode, ran.stdout.splitlines()[-1]), (4, "3 passed, 2 failed"))

    def test_files_are_updated(self):
        ran = checked(self.folder, "--update", "--jobs", "2", "wrong")
        expect("status", ran.returncode, 0)
        wanted = "open a card -> client 1\na version -> version 1 0 0\na get_magic -> number 1\n"
        expect("the file", (self.folder / "wrong").read_text(), wanted)

    def test_topology_in_a_pipe(self):
        """One process checks all files then."""
        os.mkfifo(self.folder / "pipe")
        words = [ZIRKOSHE, "check", "--topology", "pipe", "met", "met"]
        with subprocess.Popen(words, cwd=self.folder, stdout=subprocess.PIPE, text=True) as started:
            try:
                fill(self.folder / "pipe", (REPOSITORY / "examples/topologies/laptop.topology").read_bytes())
                output, _ = started.communicate(timeout=SECONDS)
            finally:
                started.kill()
        expect("status and output", (started.returncode, output), (0, "4 passed, 0 failed\n"))


if __name__ == "__main__":
    sys.exit(run_tests())
