#!/usr/bin/env python3
"""Tests of rows: scripts with the answers that the rules give, on the built program and on the device of plain_device.py.

What it tests: the rows of `tests/rows.txt` and the worked rows, line by line as the plain device has them; journals
of rows; a lessee through a thousand owners.

The rows are those of tests/rows.txt, and the worked rows.

Each test has its own folder. The last line is `N passed, M failed`. Standard library only.
"""
import sys

sys.dont_write_bytecode = True
from support import FolderCase, expect, expect_end, run_program, run_tests  # noqa: E402

from blocks import further_rows, is_answer, worked_rows  # noqa: E402
from plain_device import Plain  # noqa: E402

# how many owners come and go while one lessee stays
OWNERS = 1_000

# planes of a topology with the CRTCs 1 and 2, and what is leased with universal planes off: one CRTC, and both
PLANES = {
    "cursor 2 1\nplane 1 2\nprimary 2 1\nprimary 1 2\n": ("2,3,5,8", "1,2,3,5,6,8"),
    "plane 1 2\nplane 1 2\nplane 1 2\nplane 1 2\n": ("2,8", "1,2,8"),
}

# a client that leases CRTC 2, and then both, with the connector 8
LEASES = """open2 a card -> client 1
a create_lease 2 8 -> lease 1 1
open l lease 1 -> client 3
l get_lease -> list {}
close l -> closed
a create_lease 1 2 8 -> lease 1 2
open l lease 2 -> client 7
l get_lease -> list {}
"""


def script_of(asked, answers):
    """A script that checks itself."""
    lines = asked[: len(asked) - len(answers)]
    lines += [f"{line} -> {answer}" for line, answer in zip(asked[len(lines) :], answers)]
    return "".join(f"{line}\n" for line in lines)


class RowsTests(FolderCase):
    """Tests of rows: scripts with the answers that the rules give."""

    def test_rows_pass_their_checks(self):
        files = []
        for name, asked, answers in further_rows():
            files.append(self.folder / name)
            files[-1].write_text(script_of(asked, answers))
        wanted = sum(len(answers) for _, _, answers in further_rows())
        expect_end(run_program("check", *files), 0, "", f"{wanted} passed, 0 failed\n")

    def test_answers_are_those_of_a_plain_device(self):
        """Whole lines, with the names and the errnos of rules, also of the worked rows."""
        for name, asked, answers in (*worked_rows(), *further_rows()):
            plain = Plain()
            found = [answer for answer in map(plain.line, asked) if answer is not None]
            wrong = [pair for pair in zip(found, answers) if not is_answer(*pair)]
            expect(f"the answers of {name}", (len(found), wrong), (len(answers), []))
            ran = run_program("run", script="".join(f"{line}\n" for line in asked))
            expect(f"what is written for {name}", ran.stdout.splitlines(), found)

    def test_journals_of_rows(self):
        """The journal of a row passes its check, and has each step that was recorded."""
        for name, asked, answers in further_rows():
            journal = self.folder / name
            ran = run_program("run", "--journal", journal, script="".join(f"{line}\n" for line in asked))
            expect(f"status and errors of {name}", (ran.returncode, ran.stderr), (0, ""))
            steps = sum(not answer.startswith("apart") for answer in answers)
            expect_end(run_program("check", journal), 0, "", f"{steps} passed, 0 failed\n")

    def test_planes_of_each_kind_come_along(self):
        """Primary and cursor planes are leased with their CRTC, and overlay planes are not."""
        script, topology = self.folder / "script", self.folder / "topology"
        for planes, leased in PLANES.items():
            topology.write_text(f"crtcs 2\n{planes}encoder 1 2\nconnector 1\n")
            script.write_text(LEASES.format(*leased))
            expect_end(run_program("check", "--topology", topology, script), 0, "", "8 passed, 0 failed\n")

    def test_topology_of_64_objects(self):
        """It has as many as there may be."""
        script, topology = self.folder / "script", self.folder / "topology"
        topology.write_text("crtcs 8\n" + 56 * "plane 1\n")
        script.write_text(f"open a card -> client 1\na getplaneresources -> list {','.join(map(str, range(9, 65)))}\n")
        expect_end(run_program("check", "--topology", topology, script), 0, "", "2 passed, 0 failed\n")

    def test_lessee_stays_through_a_thousand_owners(self):
        """Its lease ended with the first of them, and stays empty however often another makes the same lease."""
        lines = [
            "open q root -> client 1",
            "q drop_master -> done",
            "open a card -> client 3",
            "a create_lease 2 4 8 -> lease 1 1",
            "open l lease 1 -> client 5",
            "close a -> closed",
        ]
        for number in range(1, 1 + OWNERS):
            lines += [
                f"open a card -> client {4 * number + 3}",
                f"a create_lease 2 4 8 -> lease 1 {number + 1}",
                "close a -> closed",
                "l getcrtc 2 -> denied 30",
            ]
        lines += ["q audit 2 0 -> rows 3 | 1 0 0 0 | 3 0 0 0 | 4 3 1 0", "q audit 7 0 -> rows 0"]
        script = self.folder / "script"
        script.write_text("".join(f"{line}\n" for line in lines))
        expect_end(run_program("check", script), 0, "", f"{len(lines)} passed, 0 failed\n")


if __name__ == "__main__":
    sys.exit(run_tests())
