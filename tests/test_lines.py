#!/usr/bin/env python3
"""Tests of the lines of scripts: what each says, and why a line can't be used.

What it tests: what each line of a script says, as its journal has it. 211 malformed lines with their columns, words
and causes. In 148 of them several words don't fit, and the first is reported.

Each test has its own folder. The last line is `N passed, M failed`. Standard library only.
"""
import sys

sys.dont_write_bytecode = True
from support import PROGRAM, REPOSITORY, FolderCase, expect, run, run_program, run_tests, told_by  # noqa: E402

MALFORMED = REPOSITORY / "tests/malformed_lines.txt"
TOO_LONG = "column 256: the line has more than 255 bytes"

# lines of the client a, and the same as a journal has them. Numbers have any zeros before them, and spaces are skipped
CALLS = {
    "a version": "a version",
    "a gem_close 7": "a gem_close 7",
    "a gem_close 0000000000000000000000007": "a gem_close 7",
    "a create_dumb 64 48 32": "a create_dumb 64 48 32",
    "a audit 1 0": "a audit 1 0",
    "a audit 010 4294967295": "a audit 10 4294967295",
    "a get_cap 1": "a get_cap 1",
    "a get_cap 18446744073709551615": "a get_cap 18446744073709551615",
    "a buf_create 18446744073709551615": "a buf_create 18446744073709551615",
    "a stamp_read 4294967295": "a stamp_read 4294967295",
    "a list_handles 0": "a list_handles 0",
    "a destroy_dumb 1": "a destroy_dumb 1",
    "a set_client_cap 2 18446744073709551615": "a set_client_cap 2 18446744073709551615",
    "a stamp_write 1 77": "a stamp_write 1 77",
    "a gem_flink 1": "a gem_flink 1",
    "a gem_open 4294967295": "a gem_open 4294967295",
    "a prime_export 1": "a prime_export 1",
    "a prime_import 1": "a prime_import 1",
    "a token_close 1": "a token_close 1",
    "a token_close 0": "a token_close 0",
    "a get_magic": "a get_magic",
    "a auth_magic 1": "a auth_magic 1",
    "a auth_magic 4294967295": "a auth_magic 4294967295",
    "a set_master": "a set_master",
    " a  drop_master ": "a drop_master",
    "a getresources": "a getresources",
    "a getcrtc 1": "a getcrtc 1",
    "a getencoder 5": "a getencoder 5",
    "a getconnector 8": "a getconnector 8",
    "a getfb 4294967295": "a getfb 4294967295",
    "a getplaneresources": "a getplaneresources",
    " a  getplane  3 ": "a getplane 3",
    "a setcrtc 1 9 7": "a setcrtc 1 9 7",
    "a addfb 64 32 256 24 1": "a addfb 64 32 256 24 1",
    "a rmfb 9": "a rmfb 9",
    "a setplane 3 1 9": "a setplane 3 1 9",
    "a list_lessees": "a list_lessees",
    " a  get_lease ": "a get_lease",
    "a revoke_lease 1": "a revoke_lease 1",
    "a create_lease 2 4  008 ": "a create_lease 2 4 8",
    "a create_lease 4294967295": "a create_lease 4294967295",
    "a create_lease": "a create_lease",
    "a create_lease " + " ".join(map(str, range(1, 33))): "a create_lease " + " ".join(map(str, range(1, 33))),
    " open2  z  root": "open2 z root",
    "  close   z  ": "close z",
    "open2 b card": "open2 b card",
    "open2 c lease 2": "open2 c lease 2",
    "open2 c rootlease 3": "open2 c rootlease 3",
    "open c card": "open c card",
    "open d root": "open d root",
    "open e lease 1": "open e lease 1",
    "open e rootlease 4294967295": "open e rootlease 4294967295",
    "open f render": "open f render",
    # universal planes are nothing of a render client's
    "open2 g render": "open g render",
}
# how many of them are calls
MADE = 43

# the numbers of calls, which a line `raw` makes with another layout
NUMBERS = (0, 2, 9, 10, 11, 12, 13, 17, 30, 31, 45, 46, 64, 65, 66, 67, 68, 69)
NUMBERS += (160, 161, 162, 166, 167, 173, 174, 175, 178, 180, 181, 182, 183, 198, 199, 200, 201)
OTHERS = (1, 3, 8, 14, 29, 32, 44, 47, 63, 70, 159, 163, 165, 168, 172, 176, 179, 184, 197, 202, 65535)

# lines that say nothing
BLANK = ("", " ", "# any text", "#\ttab", 255 * " ")


def malformed_lines():
    """The lines with their reasons, and those that are malformed for any reason."""
    first, others = MALFORMED.read_text().split("----\n")
    rows = [row.split(" => ") for row in first.splitlines() if not row.startswith("# ")]
    return {bytes(line, "ascii").decode("unicode_escape").encode("latin-1"): told for line, told in rows}, others


class LinesTests(FolderCase):
    """Tests of the lines of scripts."""

    def test_lines_say_what_a_journal_has(self):
        journal = self.folder / "journal"
        script = "open a root\n" + "".join(f"{line}\n" for line in CALLS)
        ran = run_program("run", "--journal", journal, script=script)
        expect("status and errors", (ran.returncode, ran.stderr), (0, ""))
        expect("the number of answers", len(ran.stdout.splitlines()), 1 + len(CALLS))
        said = [line.partition(" -> ")[0] for line in journal.read_text().splitlines() if not line.startswith("limits")]
        expect("lines of the first client", said[1 : 1 + MADE], list(CALLS.values())[:MADE])
        # labels are those of the journal
        unlabelled = [[words[0], *words[2:]] for words in map(str.split, said[1 + MADE :])]
        wanted = [[words[0], *words[2:]] for words in map(str.split, list(CALLS.values())[MADE:])]
        expect("openings and closings", unlabelled, wanted)

    def test_numbers_of_calls(self):
        for numbers, answer in ((NUMBERS, "denied 2 Layout 22\n"), (OTHERS, "denied 1 Unknown 22\n")):
            ran = run_program("run", script="".join(f"a raw {number}\n" for number in numbers))
            expect("the answers", ran.stdout, len(numbers) * answer)

    def test_lines_that_say_nothing(self):
        ran = run_program("run", script="".join(f"{line}\n" for line in BLANK) + "limits 1 8 8 8 8 4 4 7\na version")
        expect("the output", (ran.returncode, ran.stdout), (0, "denied 3 NoClient 22\n"))

    def test_an_arrow_is_no_word_of_a_script(self):
        """A run has no expectations."""
        ran = run_program("run", script="a -> done\n")
        expect("the reason", told_by(ran.stderr.splitlines()[0]), "ERROR line 1: column 3: `->` is not a call")

    def test_malformed_lines(self):
        """Each is reported with the first column at fault, and why. After it, other words of the line don't fit either."""
        reasons, others = malformed_lines()
        reasons.update({256 * byte: TOO_LONG for byte in (b"#", b" ", b"\xc8")})
        expect("how many lines have reasons", len(reasons) > 200, True)
        files = {}
        for place, line in enumerate((*reasons, *others.encode().splitlines())):
            files[self.folder / str(place)] = line
        for file, line in files.items():
            file.write_bytes(line + b"\na version -> done\n")
        ran = run(PROGRAM, "check", *files)
        told = [told_by(line) for line in ran.stderr.splitlines()]
        wanted = [f"ERROR {file}:1: {reasons[line]}" for file, line in files.items() if line in reasons]
        expect("reasons in place of others", [pair for pair in zip(told, wanted) if pair[0] != pair[1]], [])
        expect("the output", ran.stdout, "".join(f"{file}:1: malformed\n" for file in files) + "0 passed, 0 failed\n")


if __name__ == "__main__":
    sys.exit(run_tests())
