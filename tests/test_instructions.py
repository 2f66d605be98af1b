#!/usr/bin/env python3
"""Tests of bench/instructions: what a step costs has not grown, and how the tool compares counts.

The counts need valgrind and a proved program. They take about half a minute. The last line is `N passed, M failed`.
"""
import contextlib
import importlib.machinery
import importlib.util
import io
import subprocess
import sys

sys.dont_write_bytecode = True
from support import (  # noqa: E402
    PROGRAM,
    REPOSITORY,
    FolderCase,
    expect,
    expect_end,
    run,
    run_program,
    run_tests,
    want_no_checks,
    want_program,
)

TOOL = REPOSITORY / "bench/instructions"
SECONDS = 300

# a script of all lines that the plain program knows, with each of its refusals
SCRIPT = """\
# a comment, and a line without a word

open a card
a version
a buf_create 1
a buf_create 4097
a gem_close 1
a gem_close 1
a gem_close 0
a buf_create 68719476736
a buf_create 68719476737
a buf_create 0
a stamp_write 2 18446744073709551615
a stamp_read 2
a stamp_read 1
a stamp_write 3 1
  a   version
b version
open b card
b stamp_read 2
close a
close a
a version
"""
ANSWERS = """\
client 1
version 1 0 0
buffer 1 4096
buffer 2 8192
done
denied 22 NoHandleToClose 22
denied 22 NoHandleToClose 22
buffer 1 68719476736
denied 39 BadSize 22
denied 39 BadSize 22
done
number 18446744073709551615
number 0
denied 21 NoHandle 2
version 1 0 0
denied 3 NoClient 22
client 17
denied 21 NoHandle 2
closed
denied 3 NoClient 22
denied 3 NoClient 22
"""


def tool():
    """The tool as a module."""
    loader = importlib.machinery.SourceFileLoader("instructions", str(TOOL))
    spec = importlib.util.spec_from_loader(loader.name, loader)
    module = importlib.util.module_from_spec(spec)
    sys.modules[loader.name] = module
    loader.exec_module(module)
    return module


def compared(counts, before):
    """Whether the counts are well next to those before, and the last word of each line that is printed of them."""
    instructions = tool()
    printed = io.StringIO()
    with contextlib.redirect_stdout(printed):
        is_well = instructions.compare(
            *({instructions.Figure("run", kind): count for kind, count in each.items()} for each in (counts, before))
        )
    return is_well, [line.split()[-1] for line in printed.getvalue().splitlines()[1:]]


def plain(folder):
    """The plain program, compiled."""
    want_program("rustc")
    expect_end(
        run("rustc", "--edition", "2021", "-D", "warnings", "-o", folder / "plain", REPOSITORY / "bench/plain.rs"),
        0,
        "",
        "",
    )
    return folder / "plain"


class InstructionsTests(FolderCase):
    """Tests of bench/instructions: what a step costs has not grown, and how the tool compares counts."""

    def test_no_count_has_grown(self):
        """By more than 3 percent. If you change a count on purpose, run `bench/instructions --update`."""
        want_program("valgrind")
        want_no_checks("valgrind does not run them")
        ran = run(TOOL, "--part", "--program", PROGRAM, timeout=SECONDS)
        expect(f"status and error output, of {ran.stdout}", (ran.returncode, ran.stderr), (0, ""))

    def test_count_that_grew_is_reported(self):
        for count, before, is_well, last in (
            (100, 100, True, "%"),
            (103, 100, True, "%"),
            (104, 100, False, "grew"),
            (50, 100, True, "%"),
        ):
            expect(f"{count} after {before}", compared({"VERSION": count}, {"VERSION": before}), (is_well, [last]))

    def test_count_that_is_not_in_the_file_is_reported(self):
        expect("a new count", compared({"VERSION": 100}, {}), (False, ["grew"]))

    def test_file_has_each_count(self):
        instructions = tool()
        figures = [figure for figure, _ in instructions.jobs_of(instructions.Counter(""), False)]
        expect("what the file has", list(instructions.read(instructions.FILE)), figures)

    def test_file_is_read_as_it_was_written(self):
        instructions = tool()
        figures = {instructions.Figure("serve", "AUDIT, first 16 of 1,000 handles"): 1234}
        instructions.write(self.folder / "file", figures)
        expect("what is read", instructions.read(self.folder / "file"), figures)

    def test_unproved_program_is_not_counted(self):
        program = self.folder / "program"
        program.write_bytes(b"__asan_init")
        ran = run(TOOL, "--program", program)
        expect("status and output", (ran.returncode, ran.stdout), (3, ""))
        expect("reason", "is unproved" in ran.stderr, True)

    def test_plain_program_answers_as_the_server(self):
        """So that the two are compared over the same work."""
        expect_end(run_program("run", script=SCRIPT), 0, "", ANSWERS)
        ran = subprocess.run([plain(self.folder)], input=SCRIPT, capture_output=True, text=True, check=False)
        expect_end(ran, 0, "", ANSWERS)

    def test_plain_program_ends_at_another_line(self):
        program = plain(self.folder)
        for line in ("a getcrtc 1", "a version 1", "A version", "a gem_close +1", "a", "a buf_create x", "open a"):
            ran = subprocess.run([program], input=f"open a card\n{line}\n", capture_output=True, text=True, check=False)
            expect(line, (ran.returncode, ran.stdout, ran.stderr), (1, "client 1\n", ""))


if __name__ == "__main__":
    sys.exit(run_tests())
