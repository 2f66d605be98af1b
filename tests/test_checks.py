#!/usr/bin/env python3
"""Tests of files that check themselves: what doesn't show, standard input, files that are updated, and files that don't end.

What it tests: checked standard input and updated files. Each file is opened by its own path, and all reports are
added up. The command next to a difference explains it, whatever the file is called. updated files are whole,
with their permissions, also on a full disk. Files without an end; control bytes. A file that cannot be read
ends `check` and `explain` with its reason and fault; what a run's end is as a fault is a contract within
`drm_server` (`tell_end`).

Each test has its own folder. The last line is `N passed, M failed`. Standard library only.
"""
import os
import pathlib
import resource
import shlex
import shutil
import signal
import subprocess
import sys

sys.dont_write_bytecode = True
from support import (  # noqa: E402
    PROGRAM,
    REPOSITORY,
    FolderCase,
    Skipped,
    expect,
    expect_end,
    run,
    run_program,
    run_tests,
    told_by,
)


def unreadable_files(folder):
    """Files that can't be opened, or can't be read once they are open."""
    (folder / "folder").mkdir()
    (folder / "file").write_text("open a card -> client 1\n")
    (folder / "loop").symlink_to(folder / "loop")
    files = [folder / "folder", folder / "absent", folder / "file" / "below", folder / "loop", folder / (256 * "n")]
    if pathlib.Path("/proc/self/mem").exists():
        files.append(pathlib.Path("/proc/self/mem"))
    if os.geteuid() != 0:
        (folder / "secret").write_text("open a card -> client 1\n")
        (folder / "secret").chmod(0)
        files.append(folder / "secret")
    return files


def commands_of(ran):
    """The commands that a check tells next to the answers that differ."""
    expect("status and error output", (ran.returncode, ran.stderr), (4, ""))
    return [line.strip() for line in ran.stdout.splitlines() if line.startswith("    ")]


WRONG = """# what stands in a comment -> stays
open a card                 -> client 2

a version
a buf_create 1 -> done
a gem_close 7               -> denied 22
limits 1 1 1 1 1 1 1 2
"""
RIGHT = """# what stands in a comment -> stays
open a card                 -> client 1

a version
a buf_create 1 -> buffer 1 4096
a gem_close 7               -> denied 22
"""


# scripts that check themselves, what is reported of them, and how many expectations were met and not met
CHECKED = (
    (
        """# open a card -> nothing
limits 2 8 8 8 8 4 4 7
open a card  -> client 1
a version
a raw 65535 -> denied 1
b version -> denied 3 NoClient 22
open b render -> client 5
b version -> apart 50
close a -> closed""",
        "",
        (6, 0),
    ),
    (
        "open a card -> client 2\na gem_close 7 -> done\nclose a -> closed\n",
        "-:1: expected client 2, got client 1\n-:2: expected done, got denied 22 NoHandleToClose 22\n",
        (1, 2),
    ),
    (
        "limits 2 8 8 8 8 4 4 6 -> done\n  -> client 1",
        "-:1: expected done, got nothing\n-:2: expected client 1, got nothing\n",
        (0, 2),
    ),
    (
        "open a card -> client 1\na gem_close 7 -> denied 2\na gem_close 7 -> denied 22 \na gem_close 7 -> denied 22\r\na gem_close 7 -> denied\n",
        "-:2: expected denied 2, got denied 22 NoHandleToClose 22\n"
        "-:3: expected denied 22\\x20, got denied 22 NoHandleToClose 22\n"
        "-:4: expected denied 22\\r, got denied 22 NoHandleToClose 22\n"
        "-:5: expected denied, got denied 22 NoHandleToClose 22\n",
        (1, 4),
    ),
    (
        "open a card -> client 1 -> client 1\n",
        "-:1: expected client 1 -> client 1, got client 1\n",
        (0, 1),
    ),
    (
        "open a card -> client 2\na fly -> done\nclose a -> closed\n",
        "-:1: expected client 2, got client 1\n-:2: malformed\n",
        (0, 1),
    ),
    ("open a card ->client 1\n", "-:1: malformed\n", (0, 0)),
    ("", "-: no expected answers\n", (0, 1)),
)


def want_mounts():
    """Skips the test if the system allows no mounts in a namespace."""
    if shutil.which("unshare") is None or run("unshare", "--map-root-user", "--mount", "true").returncode != 0:
        raise Skipped("the system allows no namespace with mounts")


class ChecksTests(FolderCase):
    """Tests of files that check themselves: what doesn't show, standard input, files that are updated, and files that don't end."""

    def test_ends_that_do_not_show(self):
        """A carriage return or a space after what is expected is told by a word for it."""
        folder = self.folder
        (folder / "a").write_bytes(
            b"open a card -> client 1\r\na version -> version 1 0 0 \na version ->  \na version -> \n"
        )
        told = (
            "a:1: expected client 1\\r, got client 1\n    drm_server explain a --line 1\n"
            "a:2: expected version 1 0 0\\x20, got version 1 0 0\n    drm_server explain a --line 2\n"
            "a:3: expected \\x20, got version 1 0 0\n    drm_server explain a --line 3\n"
            "a:4: expected , got version 1 0 0\n    drm_server explain a --line 4\n0 passed, 4 failed\n"
        )
        expect_end(run(PROGRAM, "check", "a", cwd=folder), 4, "", told)

    def test_control_bytes_do_not_reach_the_terminal(self):
        folder = self.folder
        (folder / "a").write_bytes(b"open a card -> \0\x1b[31m\x07\ta\rb\x7f\r\n")
        expect_end(
            run(PROGRAM, "check", "a", cwd=folder),
            4,
            "",
            "a:1: expected \\x00\\x1b[31m\\x07\\x09a\\x0db\\x7f\\r, got client 1\n    drm_server explain a --line 1\n0 passed, 1 failed\n",
        )

    def test_what_is_told_of_expectations(self):
        for script, told, (passed, failed) in CHECKED:
            ran = run_program("check", "-", script=script)
            output = f"{told}{passed} passed, {failed} failed\n"
            status = 2 if "malformed" in told else 4 if failed else 0
            expect(f"the check of {script!r}", (ran.returncode, ran.stdout), (status, output))

    def test_standard_input_is_checked(self):
        folder = self.folder
        script = "open a card -> client 1\na version -> done\n"
        (folder / "file").write_text("open a card -> client 1\n")
        expect_end(
            run_program("check", "-", script=script),
            4,
            "",
            "-:2: expected done, got version 1 0 0\n1 passed, 1 failed\n",
        )
        ran = run_program("check", "file", "-", script=script, cwd=folder)
        expect_end(ran, 4, "", "-:2: expected done, got version 1 0 0\n2 passed, 1 failed\n")
        expect_end(run_program("check", "-", script=""), 4, "", "-: no expected answers\n0 passed, 1 failed\n")

    def test_files_without_expectations(self):
        """Each is named, and counts as one failure. A malformed one is malformed."""
        folder = self.folder
        (folder / "met").write_text("open a card -> client 1\n")
        silent = {
            "nothing": "",
            "comments": "# open a card -> client 1\n\n",
            "steps": "open a card\na version\n",
            "a\x1b": "open a card\n",
        }
        for name, text in silent.items():
            (folder / name).write_text(text)
            shown = name.replace("\x1b", "\\x1b")
            told = f"{shown}: no expected answers\n"
            expect_end(run(PROGRAM, "check", name, cwd=folder), 4, "", told + "0 passed, 1 failed\n")
            expect_end(
                run(PROGRAM, "check", "met", name, "met", name, cwd=folder), 4, "", 2 * told + "2 passed, 2 failed\n"
            )
            ran = run(PROGRAM, "check", "--update", name, cwd=folder)
            expect("an update", (ran.returncode, (folder / name).read_text()), (0, text))
        (folder / "malformed").write_text("open a card\nfly\n")
        ran = run(PROGRAM, "check", "malformed", cwd=folder)
        expect("a malformed file", (ran.returncode, ran.stdout), (2, "malformed:2: malformed\n0 passed, 0 failed\n"))

    def test_causes_are_those_without_the_expectation(self):
        """What stands after the first ` -> ` is no word of the line that is malformed, and counts for its length alone."""
        folder = self.folder
        causes = {
            "a gem_close -> done": "column 12: missing number from 0 to 4294967295",
            "a gem_close x -> done": "column 13: `x` is not a number from 0 to 4294967295",
            "a gem_close 1 2 -> done -> 3": "column 15: `2` is an extra word",
            "open a -> client 1": "column 7: missing kind of opening: card, render, root, lease or rootlease",
            "a -> done": "column 2: missing call",
            "a version ->": "column 11: `->` is an extra word",
            "a version ->done": "column 11: `->done` is an extra word",
            "a version -> " + 256 * "x": "column 256: the line has more than 255 bytes",
        }
        for line, cause in causes.items():
            (folder / "a").write_text(line + "\n")
            for words in (["check"], ["check", "--update"]):
                ran = run(PROGRAM, *words, "a", cwd=folder)
                told = [told_by(it) for it in ran.stderr.splitlines()]
                expect(f"{words} of {line}", [ran.returncode, told[0]], [2, f"ERROR a:1: {cause}"])
            ran = run(PROGRAM, "explain", "a", cwd=folder)
            expect("an explanation", [ran.returncode, told_by(ran.stderr.splitlines()[0])], [2, f"ERROR a:1: {cause}"])

    def test_files_that_cannot_be_read(self):
        """None of them passes, whatever the error, and no file behind it is checked."""
        folder = self.folder
        for file in unreadable_files(folder):
            for words in (["check"], ["check", folder / "file"], ["check", "--update"], ["explain"]):
                ran = run(PROGRAM, *words, file, cwd=folder)
                *causes, fault = map(told_by, ran.stderr.splitlines())
                expect(f"{words} of {file}", [ran.returncode, fault, ran.stdout], [1, "fault: read", ""])
                expect("the cause", [cause.startswith(f"ERROR {file}: ") for cause in causes], [True])
        ran = run(PROGRAM, "check", ".", cwd=folder)
        expect("the cause of a folder", told_by(ran.stderr.splitlines()[0]), "ERROR .: Is a directory (os error 21)")

    def test_standard_input_is_explained(self):
        folder = self.folder
        script = "open a card\na buf_create 1\na gem_close 7\n"
        (folder / "a").write_text(script)
        for words in ([], ["--line", "3"], ["--client", "a"], ["--json"]):
            ran = run_program("explain", "-", *words, script=script)
            expect("status and error output", (ran.returncode, ran.stderr), (0, ""))
            expect("what is told", ran.stdout, run(PROGRAM, "explain", *words, folder / "a").stdout)
        (folder / "-").write_text("open b render\n")
        expect(
            "a file of that name",
            run(PROGRAM, "explain", "./-", cwd=folder).stdout.splitlines()[1],
            "b is client 1: a render client, opened at step 1",
        )

    def test_files_that_do_not_end(self):
        """Those that are read whole have a bound. The others end at their first line, which is too long."""
        folder = self.folder
        bounded = [
            "ERROR /dev/zero: more than 33554432 bytes, which is the most of a file that is read whole",
            "fault: read",
        ]
        commands = (
            ["check", "--update", "/dev/zero"],
            ["check", "--topology", "/dev/zero", "a"],
            ["run", "--topology", "/dev/zero"],
            ["explain", "--topology", "/dev/zero", "a"],
        )
        (folder / "a").write_text("open a card\n")
        for words in commands:
            ran = run(PROGRAM, *words, cwd=folder, timeout=60)
            expect(
                f"{words}",
                (ran.returncode, ran.stdout, [told_by(line) for line in ran.stderr.splitlines()]),
                (1, "", bounded),
            )
        ran = run(PROGRAM, "check", "/dev/zero", timeout=60)
        expect(
            "the status of a check", (ran.returncode, ran.stdout), (2, "/dev/zero:1: malformed\n0 passed, 0 failed\n")
        )

    def test_files_up_to_the_bound_are_read_whole(self):
        folder = self.folder
        line = "#" + 254 * "-" + "\n"
        whole = "open a card -> done\n" + (32 * 1024 * 1024 // len(line) - 1) * line
        whole += (32 * 1024 * 1024 - len(whole)) * "\n"
        (folder / "a").write_text(whole)
        expect_end(run(PROGRAM, "check", "--update", "a", cwd=folder), 0, "", "")
        expect("the first line", (folder / "a").read_text().partition("\n")[0], "open a card -> client 1")
        (folder / "a").write_text(whole + "\n")
        expect("the status of one byte more", run(PROGRAM, "check", "--update", "a", cwd=folder).returncode, 1)
        expect("the file", (folder / "a").read_text() == whole + "\n", True)

    def test_command_that_explains_a_difference(self):
        """Its words after the program's name can be typed as they are told, whatever the file is called; where nothing was answered, and for standard input, none is told."""
        folder = self.folder
        for name in ("a.script", "b c", "it's", "-d", "$HOME", "caf\N{LATIN SMALL LETTER E WITH ACUTE}"):
            (folder / name).write_text("open a card -> client 1\n -> done\na version -> done\n")
            (command,) = commands_of(run(PROGRAM, "check", "--", name, cwd=folder))
            words = shlex.split(command)
            expect("the words", [words[:2], words[3:]], [["drm_server", "explain"], ["--line", "3"]])
            ran = run("sh", "-c", f"'{PROGRAM}' {command.removeprefix('drm_server ')}", cwd=folder)
            expect_end(ran, 0, "", "line 3 is step 2, version by a, which was carried out: version 1 0 0\n")
        expect(
            "the command of a plain name",
            commands_of(run(PROGRAM, "check", "a.script", cwd=folder)),
            ["drm_server explain a.script --line 3"],
        )
        expect(
            "commands for standard input", commands_of(run_program("check", "-", script="open a card -> done\n")), []
        )

    def test_command_on_a_device_of_ones_own(self):
        """It has the topology and the limits that the check has."""
        folder = self.folder
        (folder / "a").write_text("open a card -> client 1\na getresources -> done\nopen b card -> done\n")
        words = ["--topology", REPOSITORY / "examples/topologies/single.topology", "--limits", "1 8 8 8 8 4 4 50"]
        second, third = commands_of(run(PROGRAM, "check", *words, "a", cwd=folder))
        expect("the command", third, f"drm_server explain a --topology {words[1]} --limits '1 8 8 8 8 4 4 50' --line 3")
        told = []
        for command in (second, third):
            ran = run("sh", "-c", f"'{PROGRAM}' {command.removeprefix('drm_server ')}", cwd=folder)
            expect("status and error output", (ran.returncode, ran.stderr), (0, ""))
            told.append(ran.stdout.splitlines()[0])
        expect(
            "what is told",
            told,
            [
                "line 2 is step 2, getresources by a, which was carried out: crtcs 1 connectors 4 encoders 3 framebuffers -",
                "line 3 is step 3, open: denied 43 Full 28",
            ],
        )

    def test_files_are_updated(self):
        """What came stands after the arrow; what is met or expects nothing stays as it is."""
        folder = self.folder
        (folder / "a").write_text(WRONG.partition("limits")[0])
        (folder / "b").write_text("open b render -> done")
        expect_end(run(PROGRAM, "check", "--update", "a", "b", cwd=folder), 0, "", "")
        expect("a file", (folder / "a").read_text(), RIGHT)
        expect("a file without a last line end", (folder / "b").read_text(), "open b render -> client 1\n")
        expect_end(run(PROGRAM, "check", "a", "b", cwd=folder), 0, "", "4 passed, 0 failed\n")
        before = (folder / "a").stat()
        expect_end(run(PROGRAM, "check", "--update", "a", cwd=folder), 0, "", "")
        expect("when it was written", (folder / "a").stat().st_mtime_ns, before.st_mtime_ns)

    def test_files_that_cannot_be_updated(self):
        folder = self.folder
        (folder / "a").write_text(WRONG)
        ran = run(PROGRAM, "check", "--update", "a", cwd=folder)
        expect(
            "what is told",
            [told_by(line) for line in ran.stderr.splitlines()],
            [
                "ERROR a:7: column 1: `limits` sets limits after the first line that is neither empty nor a comment",
                "fault: script line 7",
            ],
        )
        expect("status and output", (ran.returncode, ran.stdout), (2, ""))
        expect("the file", (folder / "a").read_text(), WRONG)
        ran = run(PROGRAM, "check", "--update", "absent", cwd=folder)
        expect("status and output", (ran.returncode, ran.stdout), (1, ""))

    def test_file_that_cannot_be_replaced(self):
        """A file that is a mount point can't be renamed over. It is unchanged, and no other file is left."""
        folder = self.folder
        text = "open a card -> done\n"
        (folder / "a").write_text(text)
        want_mounts()
        script = 'mount --bind a a && exec "$1" check --update a'
        ran = run("unshare", "--map-root-user", "--mount", "sh", "-c", script, "sh", PROGRAM, cwd=folder)
        told = [told_by(line) for line in ran.stderr.splitlines()]
        expect("what is told", told, ["ERROR a: Device or resource busy (os error 16)", "fault: write"])
        expect("status and output", (ran.returncode, ran.stdout), (1, ""))
        expect("the files", {file.name: file.read_text() for file in folder.iterdir()}, {"a": text})

    def test_updated_files_keep_their_mode_and_their_links(self):
        folder = self.folder
        (folder / "below").mkdir()
        target = folder / "below" / "script"
        (folder / "link").symlink_to(folder / "second")
        (folder / "second").symlink_to("below/script")
        for mode in (0o640, 0o755, 0o600):
            target.write_text("open a card -> done\n")
            target.chmod(mode)
            expect_end(run(PROGRAM, "check", "--update", "link", cwd=folder), 0, "", "")
            expect("the text", target.read_text(), "open a card -> client 1\n")
            expect("the mode", target.stat().st_mode & 0o7777, mode)
            expect("the links", [(folder / "link").is_symlink(), (folder / "second").is_symlink()], [True, True])
            expect("the files beside it", list((folder / "below").iterdir()), [target])

    def test_a_full_disk_leaves_the_script_whole(self):
        """No file may have more bytes than the script: so its answers, which are longer, have no room."""
        folder = self.folder
        script = "open a card -> x\n" + 500 * "a version -> x\n"
        most = len(script)
        (folder / "a").write_text(script)
        ran = run(
            PROGRAM,
            "check",
            "--update",
            "a",
            cwd=folder,
            preexec_fn=lambda: (
                signal.signal(signal.SIGXFSZ, signal.SIG_IGN),
                resource.setrlimit(resource.RLIMIT_FSIZE, (most, most)),
            ),
        )
        expect(
            "status and what is told",
            (ran.returncode, [told_by(line) for line in ran.stderr.splitlines()]),
            (1, ["ERROR a: File too large (os error 27)", "fault: write"]),
        )
        expect("the file", (folder / "a").read_text(), script)
        expect("the files beside it", [path.name for path in folder.iterdir()], ["a"])

    def test_what_is_no_regular_file_is_not_updated(self):
        folder = self.folder
        os.mkfifo(folder / "pipe")
        with subprocess.Popen(
            [PROGRAM, "check", "--update", "pipe"], cwd=folder, stderr=subprocess.PIPE, text=True
        ) as started:
            (folder / "pipe").write_text("open a card -> done\n")
            told = started.communicate(timeout=30)[1]
        expect("status and fault", (started.returncode, told.splitlines()[-1]), (1, "fault: write"))
        expect("the files", [(path.name, path.is_fifo()) for path in folder.iterdir()], [("pipe", True)])

    def test_answers_that_have_no_place(self):
        """An expectation goes where the line would be too long with its answer, and where nothing is answered."""
        folder = self.folder
        (folder / "a").write_text(
            "limits 4 300 4 4 300 4 4 999 -> done\nopen a card -> done\n"
            + 200 * "a buf_create 1\n"
            + "a list_handles 100 -> done\n"
        )
        expect_end(run(PROGRAM, "check", "--update", "a", cwd=folder), 0, "", "")
        found = (folder / "a").read_text().splitlines()
        expect(
            "the lines",
            [found[0], found[1], found[-1]],
            ["limits 4 300 4 4 300 4 4 999", "open a card -> client 1", "a list_handles 100"],
        )
        expect_end(run(PROGRAM, "check", "a", cwd=folder), 0, "", "1 passed, 0 failed\n")


if __name__ == "__main__":
    sys.exit(run_tests())
