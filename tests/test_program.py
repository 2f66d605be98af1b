#!/usr/bin/env python3
"""Tests of the built program: what it prints, how it ends, and what clients on its sockets see.

What it tests: command lines, statuses and output; which class each socket has; each mode setting and lease call
over a socket. connections that end, break off, or are one too many; the files of `examples/rows` and
`examples/linux`.

Each test has its own folder. The last line is `N passed, M failed`. Standard library only.
"""
import contextlib
import multiprocessing
import os
import resource
import shlex
import socket
import subprocess
import sys
import time

sys.dont_write_bytecode = True
from support import (  # noqa: E402
    CLASSES,
    PROGRAM,
    REPOSITORY,
    SECONDS,
    FolderCase,
    connect,
    connect_raw,
    count_words,
    end_of,
    expect,
    expect_answers,
    expect_end,
    expect_no_sockets,
    expect_refused,
    expect_told,
    is_compiled_with_checks,
    next_told,
    opened_by,
    path_words,
    read_end,
    refusal_of,
    retry,
    run,
    run_program,
    run_tests,
    server,
    told_by,
    wait_until,
    want_no_checks,
)

# what is logged of a connection beyond a count, and the ranges of the limits in messages
BEYOND = "a connection was refused: all that the command line allows were accepted"
RANGES = (
    "clients 1 to 1024; handles, names, tokens and objects 1 to 65535 each; "
    "framebuffers and lessees 1 to 64 each; journal 2 to 100000"
)

# a first frame that opens a client, and one that asks for a lease of token 0
HELLO = bytes.fromhex("0e000000 0001 01000000 00000000 00000000")
LEASE_HELLO = bytes.fromhex("0e000000 0001 01000000 01000000 00000000")

# how many files a server may have that lacks none
FILES = 256


def scripts(name):
    """The files of a folder of examples that check themselves."""
    return sorted((REPOSITORY / "examples" / name).glob("*.script"))


TOPOLOGIES = REPOSITORY / "examples/topologies"
# what the topologies of the examples have, and the mask and the plane that GETPLANE tells of one
RESOURCES = {
    "laptop": ("crtcs 1,2 connectors 8,9 encoders 6,7 framebuffers -", 5, "plane 0 3"),
    "head": (
        "crtcs 1,2,3,4,5,6,7,8 connectors 25,26,27,28,29,30,31,32 encoders 17,18,19,20,21,22,23,24 framebuffers -",
        16,
        "plane 0 128",
    ),
    "single": ("crtcs 1 connectors 4 encoders 3 framebuffers -", 2, "plane 0 1"),
}


def hold(path, call, answers):
    """A client that makes one call, tells the answer, and then stays."""
    holder = connect(path)
    answers.send(holder.ask(call))
    time.sleep(SECONDS)


def start_holder(path, call):
    """Such a client in its own process, and the answer that it told."""
    answers, told = multiprocessing.Pipe(duplex=False)
    holder = multiprocessing.Process(target=hold, args=(path, call, told), daemon=True)
    holder.start()
    return holder, answers.poll(SECONDS) and answers.recv()


def kill(holder):
    """Ends the process at once, and waits until it has gone."""
    holder.kill()
    holder.join()


def ask_until(asked, call, wanted):
    """Asks until this is the answer, and returns how often: the end of another connection comes in its own time."""
    until = time.monotonic() + SECONDS
    times = 1
    while (answer := asked.ask(call)) != wanted:
        if time.monotonic() > until:
            raise AssertionError(f"{call}: {answer!r} in place of {wanted!r}")
        time.sleep(0.01)
        times += 1
    return times


def expect_seen_beyond(ran, output):
    """Compares the output of a server that ended well, which tells of nothing but a connection that it saw wait beyond a count."""
    told = {f"WARN {name}: {BEYOND}" for name in CLASSES}
    lines = list(map(told_by, ran.stderr.splitlines()))
    expect("what is told else, or twice", [line for line in lines if line not in told or lines.count(line) > 1], [])
    expect("status", ran.returncode, 0)
    expect("output", ran.stdout, output)


@contextlib.contextmanager
def without_descriptors(folder, name, other, count):
    """A server that accepts N connections on a socket, of which one is open and others wait, and that has no descriptor for
    them. Whether the first of these is accepted all the same is the system's affair: its listener may have had a descriptor for it.
    """
    with server(
        folder, *(count * (it == name) + (it == other) for it in CLASSES)
    ) as started, contextlib.ExitStack() as made:
        opened = [connect(folder / name), connect(folder / other)]
        # no more files than input, output and error output
        resource.prlimit(started.pid, resource.RLIMIT_NOFILE, (3, FILES))
        waiting = [made.enter_context(connect_raw(folder / name)) for _ in range(3)]
        expect("what is told", next_told(started), f"ERROR {name}: Too many open files (os error 24); trying again")
        for asked in opened:
            expect("an answer to those that were accepted", asked.ask("version"), "version 1 0 0")
        yield started, opened, waiting


# scripts that end early or ask nothing: the number of the malformed line, if any, and the output
ENDS_OF_SCRIPTS = (
    ("open a card\nfoo", 2, "client 1\n"),
    ("# a comment\n\n  \nfoo\n", 4, ""),
    ("open a card\nlimits 2 2 1 8 8 4 4 40\n", 2, "client 1\n"),
    (2 * "limits 2 2 1 8 8 4 4 40\n", 2, ""),
    ("limits 0 2 1 8 8 4 4 40\n", 1, ""),
    ("# caf\N{LATIN SMALL LETTER E WITH ACUTE}\n", 1, ""),
    ("open a card\na\tversion\n", 2, "client 1\n"),
    ("\n# only a comment", 0, ""),
    ("", 0, ""),
    (255 * " ", 0, ""),
    (256 * " ", 1, ""),
)


class ProgramTests(FolderCase):
    """Tests of the built program: what it prints, how it ends, and what clients on its sockets see."""

    def test_help_is_printed(self):
        for words in (["--help"], ["run", "--help"], ["check", "--help"], ["explain", "--help"], ["serve", "--help"]):
            ran = run_program(*words)
            expect("error output", ran.stderr, "")
            expect("status", ran.returncode, 0)
            expect("help of " + " ".join(words), "Usage" in ran.stdout, True)
            _, _, listed = ran.stdout.partition("\nExit status:\n")
            statuses, _, rest = listed.partition("\n\n")
            _, _, examples = f"\n{rest}".partition("\nExamples:\n")
            wanted = ["0", "1", "2", "3"] + (["4"] if words[0] in ("--help", "check") else [])
            expect("the statuses that it lists", [line.split()[0] for line in statuses.splitlines()], wanted)
            expect("examples", {line.split()[0] for line in examples.splitlines() if line}, {"drm_server"})

    def test_examples_of_the_help_run(self):
        (self.folder / "examples").symlink_to(REPOSITORY / "examples")
        for command in ("run", "check", "explain", "shrink", "serve"):
            _, _, examples = run_program(command, "--help").stdout.partition("\nExamples:\n")
            for example in filter(None, examples.splitlines()):
                function = f'drm_server() {{ {shlex.quote(str(PROGRAM))} "$@"; }}'
                ran = run("sh", "-c", f"{function}; {example}", cwd=self.folder)
                expect(f"status of {example.strip()}", (ran.returncode, "fault" in ran.stderr), (0, False))

    def test_version_is_printed(self):
        """An unproved program says what it is."""
        version = (REPOSITORY / "VERSION").read_text().strip() + (" (not proved)" if is_compiled_with_checks() else "")
        for word in ("--version", "-V"):
            expect_end(run_program(word), 0, "", f"drm_server {version}\n")

    def test_refused_command_lines(self):
        folder = self.folder
        serve = ["serve", *path_words(folder)]
        refused = (
            [],
            ["fly"],
            ["run", "now", "then"],
            ["check"],
            ["check", ""],
            ["check", "", "a"],
            ["check", "a", "--fast"],
            ["explain"],
            ["explain", ""],
            ["explain", "a", "b"],
            ["explain", "a", "--client"],
            ["explain", "a", "--client="],
            ["explain", "a", "--json=yes"],
            ["serve"],
            serve[:-2],
            serve[:-1],
            [*serve[:-1], ""],
            [*serve[:-2], "--root="],
            [*serve[:3], "--render=", *serve[5:]],
            ["serve", "--card", "", *serve[3:]],
            [*serve, "--cards", "65"],
            [*serve, "--renders", "-1"],
            [*serve, "--roots", "-1"],
            [*serve, "--roots", "few"],
            *([*serve, option, "+0"] for option in ("--cards", "--renders", "--roots")),
            *([command, "a", "--line", "+1"] for command in ("explain", "shrink")),
            [*serve, "--cards", "1", "--cards", "1"],
        )
        for words in refused:
            ran = run_program(*words)
            reason, *rest = ran.stderr.splitlines()
            expect(f"a reason against {words}", reason != "fault: command line", True)
            expect(f"the fault of {words}", rest[-1:], ["fault: command line"])
            expect(f"the status of {words}", ran.returncode, 3)
            expect(f"the output of {words}", ran.stdout, "")
        expect_no_sockets(folder)

    def test_files_in_the_order_of_the_command_line(self):
        folder = self.folder
        (folder / "b").mkdir()
        texts = {
            "a": "open a card -> client 2\n",
            "b/c.script": "open b card -> client 3\n",
            "-d": "open d card -> client 1\n",
        }
        for name, text in texts.items():
            (folder / name).write_text(text)
        unmet = {
            name: f"{name}:1: expected client {wanted}, got client 1\n    drm_server explain {name} --line 1\n"
            for name, wanted in (("a", 2), ("b/c.script", 3))
        }
        files = ("b/c.script", "a", "b/c.script")
        told = "".join(unmet[name] for name in files)
        expect_end(run(PROGRAM, "check", *files, cwd=folder), 4, "", told + "0 passed, 3 failed\n")
        expect_end(run(PROGRAM, "check", "--", "-d", cwd=folder), 0, "", "1 passed, 0 failed\n")

    def test_command_lines_of_servers(self):
        folder = self.folder
        none = ["serve", "--cards", "0", "--card", "c", "--renders", "0", "--render", "r", "--root=t", "--roots=0"]
        expect_end(run(PROGRAM, *none, cwd=folder), 0, "", "device 0 0 0 0\n")
        # where nothing is said of a socket it accepts one connection; 64 are the most
        some = (
            (["--cards=2"], ["c", "c", "r", "t"]),
            ([], ["c", "r", "t"]),
            (["--cards", "0", "--renders", "64", "--roots=0"], 64 * ["r"]),
        )
        for counts, names in some:
            words = ["serve", "--root", "t", "--render", "r", "--card", "c", *counts]
            with subprocess.Popen(
                [PROGRAM, *words], cwd=folder, stdout=subprocess.PIPE, stderr=subprocess.PIPE, text=True
            ) as started:
                try:
                    for name in names:
                        connect(folder / name).close()
                    expect_end(end_of(started), 0, "", f"device 0 0 0 {2 * len(names)}\n")
                finally:
                    started.kill()
            expect_no_sockets(folder)

    def test_word_that_is_no_text(self):
        folder = self.folder
        told = ["ERROR a word of the command line is not UTF-8: c\N{REPLACEMENT CHARACTER}rd", "fault: command line"]
        expect_told(run_program("serve", *path_words(folder), "--card", b"c\xffrd"), 3, told, "")
        expect_told(run_program("check", b"c\xffrd"), 3, told, "")
        expect_no_sockets(folder)

    def test_script_of_one_buffer(self):
        ran = run_program("run", script=(REPOSITORY / "examples/buffer.script").read_text())
        expect_end(
            ran, 0, "", "client 1\nversion 1 0 0\ndumb 1 256 16384\ndone\ndenied 22 NoHandleToClose 22\nclosed\n"
        )

    def test_script_of_a_file(self):
        """A file is run as standard input is. `-`, and no word, is standard input."""
        folder = self.folder
        script = "open a card\na version\nfly\n"
        (folder / "script").write_text(script)
        answers = "client 1\nversion 1 0 0\n"
        told = [
            "ERROR line 3: column 1: `fly` is not a label from a to z, limits, open, open2 or close",
            "fault: script line 3",
        ]
        expect_told(run(PROGRAM, "run", "script", cwd=folder), 2, told, answers)
        for words in ([], ["-"]):
            expect_told(run_program("run", *words, script=script, cwd=folder), 2, told, answers)
        (folder / "-").write_text("open a render\na version\na version\n")
        expect_end(run(PROGRAM, "run", "./-", cwd=folder), 0, "", answers + "version 1 0 0\n")
        expect_end(run(PROGRAM, "run", "--journal", "journal", "./-", cwd=folder), 0, "", answers + "version 1 0 0\n")
        expect_end(run(PROGRAM, "check", "journal", cwd=folder), 0, "", "3 passed, 0 failed\n")
        expect_told(
            run(PROGRAM, "run", "--journal", "script", "script", cwd=folder),
            3,
            ["ERROR script: the journal would replace the script: choose another file", "fault: command line"],
            "",
        )
        expect("the script", (folder / "script").read_text(), script)
        for name, reason in ((".", "Is a directory (os error 21)"), ("none", "No such file or directory (os error 2)")):
            ran = run(PROGRAM, "run", name, cwd=folder)
            expect_told(ran, 1, [f"ERROR {name}: {reason}", "fault: read"], "")
        expect_told(
            run(PROGRAM, "run", "--journal", "other", "none", cwd=folder),
            1,
            [f"ERROR none: {reason}", "fault: read"],
            "",
        )
        expect("whether a journal was created", (folder / "other").exists(), False)

    def test_topology_of_a_pipe(self):
        """It is read once, also where the device is made twice."""
        folder = self.folder
        file = REPOSITORY / "examples/topologies/laptop.topology"
        script = "open a card -> client 1\na getresources -> crtcs 1,2 connectors 8,9 encoders 6,7 framebuffers -\n"
        (folder / "script").write_text(script)
        for words in (
            ["run", "--journal", "journal", "plain"],
            ["check", "script", "script"],
            ["check", "--update", "script", "script"],
            ["explain", "script"],
            ["explain", "script", "--line", "2"],
            ["serve", *path_words(folder), *count_words(0, 0, 0), "--journal", "journal"],
        ):
            (folder / "plain").write_text("open a card\na getresources\n")
            wanted = run(PROGRAM, *words, "--topology", file, cwd=folder)
            expect(f"status and error output of {words}", (wanted.returncode, wanted.stderr), (0, ""))
            reading, writing = os.pipe()
            os.write(writing, file.read_bytes())
            os.close(writing)
            ran = run(PROGRAM, *words, "--topology", f"/dev/fd/{reading}", cwd=folder, pass_fds=[reading])
            os.close(reading)
            expect_end(ran, 0, "", wanted.stdout)

    def test_files_that_check_themselves(self):
        for name in ("rows", "linux"):
            files = scripts(name)
            wanted = sum(line.count(" -> ") for file in files for line in file.read_text().splitlines())
            expect(f"expectations in {name}", wanted > 150, True)
            expect_end(run_program("check", *files), 0, "", f"{wanted} passed, 0 failed\n")

    def test_files_that_fail_their_checks(self):
        folder = self.folder
        files = {
            "met": "open a card -> client 1\na gem_close 7 -> denied 22\n",
            "unmet": "open a card -> client 2\na gem_close 7 -> done\n  -> done",
            "malformed": "# -> nothing\nopen a card -> client 2\nfly -> away\n",
            "quiet": "open a card\n",
        }
        for name, text in files.items():
            (folder / name).write_text(text)
        met, unmet, malformed, quiet, none = (str(folder / name) for name in (*files, "none"))
        differences = (
            f"{unmet}:1: expected client 2, got client 1\n    drm_server explain {unmet} --line 1\n"
            f"{unmet}:2: expected done, got denied 22 NoHandleToClose 22\n    drm_server explain {unmet} --line 2\n"
            f"{unmet}:3: expected done, got nothing\n"
        )
        stopped = f"{malformed}:2: expected client 2, got client 1\n    drm_server explain {malformed} --line 2\n{malformed}:3: malformed\n"
        cause = f"ERROR {malformed}:3: column 1: `fly` is not a label from a to z, limits, open, open2 or close"
        silent = f"{quiet}: no expected answers\n"
        expect_end(run_program("check", quiet), 4, "", silent + "0 passed, 1 failed\n")
        expect_end(run_program("check", met, quiet, met), 4, "", silent + "4 passed, 1 failed\n")
        expect_end(run_program("check", met, unmet, met), 4, "", differences + "4 passed, 3 failed\n")
        expect_told(
            run_program("check", malformed, unmet, met), 2, [cause], stopped + differences + "2 passed, 4 failed\n"
        )
        ran = run_program("check", unmet, none, met)
        logged, *rest = ran.stderr.splitlines()
        expect("what is logged", none in logged, True)
        expect("the fault", rest, ["fault: read"])
        expect("status", ran.returncode, 1)
        expect("output", ran.stdout, differences)

    def test_script_of_modes(self):
        ran = run_program("run", script=(REPOSITORY / "examples/modes.script").read_text())
        expect_end(
            ran,
            0,
            "",
            """client 1
crtcs 1,2 connectors 7,8 encoders 5,6 framebuffers -
list 3,4
number 2
number 5
client 6
dumb 1 256 16384
number 9
denied 13 Master 13
done
number 9
denied 40 BadRoute 22
done
plane 9 2
framebuffer 64 64 256 32 1
framebuffer 64 64 256 32 0
denied 38 NoFb 2
done
number 0
plane 0 2
number 9
done
closed
number 0
""",
        )

    def test_script_of_leases(self):
        ran = run_program("run", script=(REPOSITORY / "examples/leases.script").read_text())
        expect_end(
            ran,
            0,
            "",
            """client 1
denied 42 NoLeaseToken 2
lease 1 1
denied 34 LeasedOut 16
denied 33 LeaseShape 22
client 6
denied 42 NoLeaseToken 2
crtcs 2 connectors 8 encoders 5,6 framebuffers -
list 4
list 2,4,8
number 1
number 3
denied 30 NoModeObject 2
lease 2 2
list 2
dumb 1 256 16384
number 9
done
done
plane 9 1
number 9
list 1
list 1,2,3,4,7,8
done
denied 13 Master 13
number 9
done
done
denied 37 NotYourLessee 13
done
denied 30 NoModeObject 2
list -
list -
number 9
lease 2 3
closed
number 0
denied 36 NoLessee 2
done
denied 42 NoLeaseToken 2
""",
        )

    def test_malformed_script(self):
        ran = run_program("run", script="open a card\na version\na fly\na version\n")
        expect_told(
            ran, 2, ["ERROR line 3: column 3: `fly` is not a call", "fault: script line 3"], "client 1\nversion 1 0 0\n"
        )

    def test_ends_of_scripts(self):
        for script, bad, output in ENDS_OF_SCRIPTS:
            ran = run_program("run", script=script)
            faults = [line for line in ran.stderr.splitlines() if line.startswith("fault")]
            wanted = (2, [f"fault: script line {bad}"], output) if bad else (0, [], output)
            expect(f"the end of {script!r}", (ran.returncode, faults, ran.stdout), wanted)

    def test_line_that_is_too_long(self):
        ran = run_program("run", script="open a card\n# " + 254 * "-" + "\n")
        expect_told(
            ran, 2, ["ERROR line 2: column 256: the line has more than 255 bytes", "fault: script line 2"], "client 1\n"
        )

    def test_causes_of_malformed_lines(self):
        folder = self.folder
        late = "column 1: `limits` sets limits after the first line that is neither empty nor a comment"
        causes = {
            "version\r": "column 10: the byte is a carriage return; a line feed alone ends a line",
            "\tversion": "column 3: the byte is a tab; only spaces separate words",
            "gem_close": "column 12: missing number from 0 to 4294967295",
            "version 1": "column 11: `1` is an extra word",
            "gem_close 4294967296": "column 13: `4294967296` is not a number from 0 to 4294967295",
            "audit 11 0": "column 9: `11` is not a kind of an audit, from 1 to 10",
            "version\nlimits 2 8 8 8 8 4 4 7": late,
            "version\nopen a disk": "column 8: `disk` is not a kind of opening: card, render, root, lease or rootlease",
            "version\nclose A": "column 7: `A` is not a label from a to z",
            "version\nopen  a  card1": "column 10: `card1` is not a kind of opening: card, render, root, lease or rootlease",
            "versio\33": "column 3: `versio?` is not a call",
        }
        for place, (line, cause) in enumerate(causes.items()):
            script = f"a {line}\na version\n"
            bad = 1 + line.count("\n")
            output = (bad - 1) * "denied 3 NoClient 22\n"
            expect_told(
                run_program("run", script=script),
                2,
                [f"ERROR line {bad}: {cause}", f"fault: script line {bad}"],
                output,
            )
            file = folder / str(place)
            file.write_bytes(script.encode())
            ran = run_program("check", file)
            expect_told(ran, 2, [f"ERROR {file}:{bad}: {cause}"], f"{file}:{bad}: malformed\n0 passed, 0 failed\n")
        ran = run_program("run", script="limits 0 8 8 8 8 4 4 7\n")
        cause = f"ERROR line 1: column 8: `0` is out of range: {RANGES}"
        expect_told(ran, 2, [cause, "fault: script line 1"], "")
        ran = run_program("run", script="# \N{POUND SIGN}\n")
        cause = "ERROR line 1: column 3: the byte is above 127; a script is ASCII"
        expect_told(ran, 2, [cause, "fault: script line 1"], "")

    def test_scripts_on_the_topologies_of_the_examples(self):
        """A script is run, checked, updated and explained on a device of the topology that is asked for."""
        folder = self.folder
        for name, (resources, plane, answer) in RESOURCES.items():
            words = ["--topology", TOPOLOGIES / f"{name}.topology"]
            asked = {"open a card": "client 1", "a getresources": resources, f"a getplane {plane}": answer}
            ran = run_program("run", *words, script="".join(f"{line}\n" for line in asked))
            expect_end(ran, 0, "", "".join(f"{line}\n" for line in asked.values()))
            file = folder / name
            file.write_text("".join(f"{line} -> {wanted}\n" for line, wanted in asked.items()))
            expect_end(run_program("check", *words, file), 0, "", "3 passed, 0 failed\n")
            ran = run_program("explain", file, "--line", "2", *words)
            expect_end(ran, 0, "", f"line 2 is step 2, getresources by a, which was carried out: {resources}\n")
            wrong = folder / f"{name}.wrong"
            wrong.write_text("".join(f"{line} -> done\n" for line in asked))
            expect_end(run_program("check", "--update", *words, wrong), 0, "", "")
            expect("the updated file", wrong.read_text(), file.read_text())
        expect("a check on another topology", run_program("check", folder / "head").returncode, 4)

    def test_limits_of_scripts(self):
        """They are those of the script, else those of the command line, else the program's."""
        words, script = ["--limits", "2 8 8 8 8 4 4 50"], "open a card\nopen b card\nopen c card\n"
        third = {
            "": "client 3",
            "limits 2 8 8 8 8 4 4 50\n": "denied 43 Full 28",
            "limits 3 8 8 8 8 4 4 50\n": "client 3",
        }
        for line, answer in third.items():
            expect_end(run_program("run", script=line + script), 0, "", f"client 1\nclient 2\n{answer}\n")
        third[""] = "denied 43 Full 28"
        for line, answer in third.items():
            expect_end(run_program("run", *words, script=line + script), 0, "", f"client 1\nclient 2\n{answer}\n")
            ran = run_program("check", *words, "-", script=line + script.replace("c card", f"c card -> {answer}"))
            expect_end(ran, 0, "", "1 passed, 0 failed\n")

    def test_devices_that_cannot_be_had(self):
        folder = self.folder
        wrong, absent, file = folder / "wrong", folder / "absent", folder / "file"
        wrong.write_text("crtcs 1\nencoder 2\n")
        file.write_text("open a card -> client 1\n")
        for words in (["run"], ["check", file], ["check", "--update", file], ["explain", file]):
            cause = f"ERROR {wrong}:2: `encoder 2`: a word is not the number of a CRTC, from 1 to 1"
            expect_told(run_program(*words, "--topology", wrong), 2, [cause, "fault: script line 2"], "")
            told = [f"ERROR {absent}: No such file or directory (os error 2)", "fault: read"]
            expect_told(run_program(*words, "--topology", absent), 1, told, "")
            for numbers in ("", "1", "0 8 8 8 8 4 4 50", "2 8 8 8 8 4 4 50 1"):
                cause = f"ERROR --limits {numbers}: eight numbers are required: {RANGES}"
                expect_told(run_program(*words, "--limits", numbers), 3, [cause, "fault: command line"], "")
        expect("the file", file.read_text(), "open a card -> client 1\n")

    def test_script_of_2000_lines(self):
        ran = run_program("run", script="open a card\n" + 1999 * "a version\n")
        expect_end(ran, 0, "", "client 1\n" + 1999 * "version 1 0 0\n")

    def test_turns_are_used_up(self):
        folder = self.folder
        want_no_checks("a million answers take minutes")
        # 32 of these lines come by one read, and each writes an answer.
        with open(folder / "script", "w") as script:
            script.write(1_000_000 * "close a\n")
        with open(folder / "script") as script:
            ran = subprocess.run([PROGRAM, "run"], stdin=script, capture_output=True, text=True, timeout=SECONDS)
        expect("error output", ran.stderr, "fault: turns\n")
        expect("status", ran.returncode, 1)
        expect("answers", len(ran.stdout.splitlines()), 1_000_000 // 33 * 32)

    def test_input_that_cannot_be_read(self):
        folder = self.folder
        unreadable = os.open(folder, os.O_RDONLY)
        try:
            ran = subprocess.run([PROGRAM, "run"], stdin=unreadable, capture_output=True, text=True, timeout=SECONDS)
        finally:
            os.close(unreadable)
        expect_end(ran, 1, "fault: read\n", "")

    def test_output_that_cannot_be_written(self):
        with open("/dev/full", "w") as full:
            ran = subprocess.run(
                [PROGRAM, "run"], input="open a card\n", stdout=full, stderr=subprocess.PIPE, text=True, timeout=SECONDS
            )
        expect_end(ran, 1, "fault: write\n", None)

    def test_help_that_cannot_be_written(self):
        for word in ("--help", "--version"):
            with open("/dev/full", "w") as full:
                ran = subprocess.run(
                    [PROGRAM, word],
                    stdin=subprocess.DEVNULL,
                    stdout=full,
                    stderr=subprocess.PIPE,
                    text=True,
                    timeout=SECONDS,
                )
            expect_end(ran, 1, "fault: write\n", None)

    def test_no_connections(self):
        folder = self.folder
        ran = run_program("serve", *path_words(folder), *count_words(0, 0, 0))
        expect_end(ran, 0, "", "device 0 0 0 0\n")
        expect_no_sockets(folder)

    def test_each_socket_has_its_class(self):
        folder = self.folder
        not_root, dumb = "denied 11 RootOnly 13", "dumb 1 256 16384"
        wanted = {
            "card": ["client 1", not_root, dumb],
            "render": ["client 4", not_root, "denied 14 RenderAllow 13"],
            "root": ["client 7", "rows 1 | 1 0 0 7", dumb],
        }
        with server(folder, 1, 1, 1) as started:
            opened = []
            for name in CLASSES:
                asked = connect(folder / name)
                opened.append(asked)
                answers = [opened_by(asked), asked.ask("audit 10 0"), asked.ask("create_dumb 64 64 32")]
                expect(f"answers on {name}", answers, wanted[name])
            for asked in opened:
                asked.close()
            expect_end(end_of(started), 0, "", "device 0 0 0 12\n")
        expect_no_sockets(folder)

    def test_second_session_ends_while_the_first_is_open(self):
        folder = self.folder
        with server(folder, 2, 0, 0) as started:
            first = connect(folder / "card")
            second = connect(folder / "card")
            second.socket.shutdown(socket.SHUT_WR)
            expect("what the second reads at its end", second.socket.recv(1), b"")
            expect("an answer to the first", first.ask("version"), "version 1 0 0")
            first.close()
            expect_end(end_of(started), 0, "", "device 0 0 0 5\n")

    def test_calls_of_mode_setting(self):
        folder = self.folder
        with server(folder, 1, 0, 0) as started:
            card = connect(folder / "card")
            expect_answers(
                (card, call, answer)
                for call, answer in (
                    ("create_dumb 64 64 32", "dumb 1 256 16384"),
                    ("addfb 64 64 256 32 1", "number 9"),
                    ("getresources", "crtcs 1,2 connectors 7,8 encoders 5,6 framebuffers 9"),
                    ("getplaneresources", "list 3,4"),
                    ("getencoder 6", "number 2"),
                    ("getconnector 7", "number 5"),
                    ("setcrtc 1 9 7", "done"),
                    ("getcrtc 1", "number 9"),
                    ("setplane 3 1 9", "done"),
                    ("getplane 3", "plane 9 1"),
                    ("getfb 9", "framebuffer 64 64 256 32 2"),
                    ("rmfb 9", "done"),
                    ("getcrtc 1", "number 0"),
                )
            )
            card.close()
            expect_end(end_of(started), 0, "", "device 0 0 0 15\n")

    def test_what_is_shown_goes_dark_with_its_client(self):
        folder = self.folder
        with server(folder, 2, 0, 1) as started:
            current = connect(folder / "card")
            owner = connect(folder / "card")
            root = connect(folder / "root")
            expect_answers(
                (
                    (owner, "create_dumb 64 64 32", "dumb 1 256 16384"),
                    (owner, "addfb 64 64 256 32 1", "number 9"),
                    (owner, "setcrtc 1 9 7", "denied 13 Master 13"),
                    (current, "setcrtc 1 9 7", "done"),
                    (root, "audit 8 0", "rows 1 | 9 2 4 0"),
                    (root, "audit 9 0", "rows 1 | 1 9 0 0"),
                )
            )
            owner.socket.shutdown(socket.SHUT_WR)
            expect("what the owner reads at its end", owner.socket.recv(1), b"")
            expect_answers(
                (
                    (current, "getcrtc 1", "number 0"),
                    (root, "audit 8 0", "rows 0"),
                    (root, "audit 9 0", "rows 0"),
                )
            )
            current.close()
            root.close()
            expect_end(end_of(started), 0, "", "device 0 0 0 15\n")

    def test_calls_of_leases(self):
        folder = self.folder
        with server(folder, 3, 1, 1) as started:
            owner = connect(folder / "card")
            expect_answers(
                (owner, call, answer)
                for call, answer in (
                    ("create_lease", "denied 33 LeaseShape 22"),
                    ("create_lease 2 4 8", "lease 1 1"),
                    ("create_lease 1 3 7", "lease 2 2"),
                    ("list_lessees", "list 1,2"),
                    ("get_lease", "list 1,2,3,4,7,8"),
                )
            )
            try:
                connect(folder / "render", 1)
            except ConnectionError:
                pass
            else:
                raise AssertionError("a lease was opened on the render socket")
            lessee = connect(folder / "card", 1)
            expect("an opening by a token that is spent", refusal_of(folder / "card", 1), "denied 42 NoLeaseToken 2")
            root = connect(folder / "root", 2)
            expect("the lessee's opening", opened_by(lessee), "client 7")
            expect("the root lessee's opening", opened_by(root), "client 9")
            expect_answers(
                (
                    (lessee, "get_lease", "list 2,4,8"),
                    (lessee, "getresources", "crtcs 2 connectors 8 encoders 5,6 framebuffers -"),
                    (lessee, "set_master", "denied 26 MasterPerm 13"),
                    (root, "set_master", "done"),
                    (root, "audit 2 0", "rows 3 | 1 0 0 0 | 3 1 1 0 | 4 1 2 0"),
                    (root, "audit 7 0", "rows 6 | 3 2 0 0 | 3 4 0 0 | 3 8 0 0 | 4 1 0 0 | 4 3 0 0 | 4 7 0 0"),
                    (owner, "revoke_lease 1", "done"),
                    (lessee, "get_lease", "list -"),
                    (lessee, "getcrtc 2", "denied 30 NoModeObject 2"),
                    (owner, "list_lessees", "list 2"),
                )
            )
            for asked in (owner, lessee, root):
                asked.close()
            notes = [
                "WARN card, no client: the opening was denied: 42 NoLeaseToken",
                "WARN render, no client: the first frame is not a hello that this listener allows",
            ]
            expect_told(end_of(started), 0, notes, "device 0 0 2 22\n")

    def test_lease_clients(self):
        folder = self.folder
        with server(folder, 2, 0, 0) as started:
            retry((folder / "root").stat)  # the last socket that the server makes
            ran = subprocess.run(
                [sys.executable, "-B", REPOSITORY / "examples/lease_clients.py", folder / "card"],
                capture_output=True,
                text=True,
                timeout=SECONDS,
            )
            expect_end(
                ran,
                0,
                "",
                """owner -> client 1
owner create_lease 2 4 8 -> lease 1 1
lessee by token 1 -> client 3
lessee getresources -> crtcs 2 connectors 8 encoders 5,6 framebuffers -
lessee create_dumb 64 64 32 -> dumb 1 256 16384
lessee addfb 64 64 256 32 1 -> number 9
lessee setcrtc 2 9 8 -> done
owner getcrtc 2 -> number 9
owner revoke_lease 1 -> done
lessee getcrtc 2 -> denied 30 NoModeObject 2
""",
            )
            expect_end(end_of(started), 0, "", "device 0 0 1 12\n")

    def test_killed_client_is_closed(self):
        folder = self.folder
        with server(folder, 1, 0, 0) as started:
            holder, answer = start_holder(folder / "card", "create_dumb 64 64 32")
            expect("an answer before the end", answer, "dumb 1 256 16384")
            kill(holder)
            expect_end(end_of(started), 0, "", "device 0 0 0 3\n")

    def test_lease_ends_with_its_killed_owner(self):
        folder = self.folder
        with server(folder, 2, 0, 1) as started:
            owner, answer = start_holder(folder / "card", "create_lease 2 4 8")
            expect("the lease", answer, "lease 1 1")
            lessee = connect(folder / "card", 1)
            expect("the lessee's opening", opened_by(lessee), "client 3")
            expect_answers(
                (lessee, call, answer)
                for call, answer in (
                    ("create_dumb 64 64 32", "dumb 1 256 16384"),
                    ("addfb 64 64 256 32 1", "number 9"),
                    ("setcrtc 2 9 8", "done"),
                    ("getcrtc 2", "number 9"),
                )
            )
            root = connect(folder / "root")
            expect_answers([(root, "audit 7 0", "rows 3 | 2 2 0 0 | 2 4 0 0 | 2 8 0 0")])
            kill(owner)
            times = ask_until(root, "audit 7 0", "rows 0")
            expect_answers(
                (
                    (lessee, "setcrtc 2 0 0", "denied 13 Master 13"),
                    (lessee, "getcrtc 2", "denied 30 NoModeObject 2"),
                    (lessee, "get_lease", "denied 13 Master 13"),
                    (root, "audit 2 0", "rows 2 | 1 0 0 0 | 2 1 1 0"),
                    (root, "audit 9 0", "rows 1 | 2 9 0 0"),
                )
            )
            lessee.socket.shutdown(socket.SHUT_WR)
            expect("what the lessee reads at its end", lessee.socket.recv(1), b"")
            expect_answers([(root, "audit 9 0", "rows 0")])
            lessee.close()
            root.close()
            expect_end(end_of(started), 0, "", f"device 0 0 1 {18 + times}\n")

    def test_lessee_leases_on(self):
        folder = self.folder
        with server(folder, 2, 0, 1) as started:
            owner = connect(folder / "root")
            expect_answers([(owner, "create_lease 2 4 8", "lease 1 1")])
            lessee = connect(folder / "card", 1)
            expect_answers([(lessee, "create_lease 2 4 8", "lease 2 2")])
            below = connect(folder / "card", 2)
            expect("the openings", (opened_by(lessee), opened_by(below)), ("client 3", "client 5"))
            expect_answers([(below, "getcrtc 2", "number 0")])
            lessee.close()
            times = ask_until(below, "getcrtc 2", "denied 30 NoModeObject 2")
            last = f"{9 + times} 1 3 3"
            expect_answers(
                (
                    (below, "get_lease", "list -"),
                    (owner, "create_lease 2 4 8", "lease 3 3"),
                    # its lessor stays as long as it does
                    (owner, "audit 2 0", f"rows 4 | 1 0 0 0 | 2 1 1 0 | 4 2 2 0 | {last}"),
                )
            )
            below.close()
            times += ask_until(owner, "audit 2 0", f"rows 2 | 1 0 0 0 | {last}")
            owner.close()
            expect_end(end_of(started), 0, "", f"device 0 0 3 {12 + times}\n")

    def test_path_in_use(self):
        folder = self.folder
        for name in CLASSES:
            taken = folder / name
            taken.write_text("not a socket")
            ran = run_program("serve", *path_words(folder), *count_words(0, 0, 0))
            cause = f"ERROR {taken}: a file exists already: remove it if no server uses it"
            expect_told(ran, 1, [cause, f"fault: listen {name}"], "")
            expect("what stands there", taken.read_text(), "not a socket")
            taken.unlink()
            expect_no_sockets(folder)

    def test_sockets_are_bound_in_order(self):
        folder = self.folder
        for first, second in (("card", "render"), ("card", "root"), ("render", "root")):
            for name in (first, second):
                (folder / name).write_text("not a socket")
            ran = run_program("serve", *path_words(folder), *count_words(0, 0, 0))
            cause = f"ERROR {folder / first}: a file exists already: remove it if no server uses it"
            expect_told(ran, 1, [cause, f"fault: listen {first}"], "")
            for name in (first, second):
                (folder / name).unlink()
            expect_no_sockets(folder)

    def test_path_that_cannot_be_bound(self):
        folder = self.folder
        for name in CLASSES:
            path = folder / "none" / name
            words = [str(path) if word == str(folder / name) else word for word in path_words(folder)]
            ran = run_program("serve", *words, *count_words(0, 0, 0))
            expect_told(ran, 1, [f"ERROR {path}: No such file or directory (os error 2)", f"fault: listen {name}"], "")
            expect_no_sockets(folder)

    def test_path_that_is_too_long(self):
        folder = self.folder
        for name in CLASSES:
            path = folder / (100 * "x")
            words = [str(path) if word == str(folder / name) else word for word in path_words(folder)]
            ran = run_program("serve", *words, *count_words(0, 0, 0))
            cause = f"the path of a socket has at most 107 bytes, and this one has {len(str(path))}"
            expect_told(ran, 1, [f"ERROR {path}: {cause}", f"fault: listen {name}"], "")
            expect_no_sockets(folder)

    def test_full_listeners_refuse(self):
        folder = self.folder
        with server(folder, 1, 0, 1) as started:
            first = connect(folder / "card")
            expect_refused(folder / "card")
            expect_refused(folder / "render")
            expect("an answer to the first", first.ask("version"), "version 1 0 0")
            root = connect(folder / "root")
            expect_refused(folder / "root")
            for asked in (first, root):
                asked.close()
            expect_seen_beyond(end_of(started), "device 0 0 0 5\n")
        expect_no_sockets(folder)

    def test_connections_behind_the_last_are_ended(self):
        folder = self.folder
        with server(folder, 1, 0, 0) as started:
            first = retry(lambda: connect_raw(folder / "card"))
            waiting = []
            try:
                for _ in range(3):
                    waiting.append(connect_raw(folder / "card"))
            except ConnectionRefusedError:
                pass  # the listener is closed already
            expect_refused(folder / "card")
            for further in waiting:
                expect("what a further client reads", read_end(further), b"")
            first.sendall(HELLO)
            expect("the answer to the first", first.recv(10), bytes.fromhex("06000000 0110 01000000"))
            first.close()
            expect_seen_beyond(end_of(started), "device 0 0 0 2\n")

    def test_connection_that_is_accepted_later(self):
        folder = self.folder
        for name, other in zip(CLASSES, (*CLASSES[1:], CLASSES[0])):
            with without_descriptors(folder, name, other, 4) as (started, opened, waiting):
                resource.prlimit(started.pid, resource.RLIMIT_NOFILE, (FILES, FILES))
                for late in waiting:
                    late.sendall(HELLO)
                    late.shutdown(socket.SHUT_WR)
                    expect("that the one that waited is answered", len(late.recv(10)), 10)
                for asked in opened:
                    asked.close()
                expect("status", end_of(started).returncode, 0)
            expect_no_sockets(folder)

    def test_connection_beyond_the_count_is_told(self):
        folder = self.folder
        with without_descriptors(folder, "root", "render", 3) as (started, opened, waiting):
            resource.prlimit(started.pid, resource.RLIMIT_NOFILE, (FILES, FILES))
            expect("what the one beyond reads", read_end(waiting[2]), b"")
            for asked in (*opened, *waiting):
                asked.close()
            ran = end_of(started)
        expect_told(ran, 0, [f"WARN root: {BEYOND}"], "device 0 0 0 6\n")

    def test_connection_that_cannot_be_accepted(self):
        folder = self.folder
        with without_descriptors(folder, "root", "render", 4) as (started, opened, waiting):
            # it waits while a connection is open
            for asked in opened:
                asked.close()
            for asked in waiting[:2]:
                asked.close()
            expect("what is told in the end", next_told(started), "ERROR root: Too many open files (os error 24)")
            expect("what the one that waited reads", read_end(waiting[2]), b"")
            expect_refused(folder / "root")
            for asked in waiting:
                asked.close()
            expect_told(
                end_of(started),
                1,
                ["ERROR a connection on the root socket could not be accepted", "fault: accept root"],
                "device 0 0 0 6\n",
            )
        expect_no_sockets(folder)

    def test_connection_that_gets_no_thread(self):
        folder = self.folder
        want_no_checks("it wants more address space than the test gives")
        # The threads for the log and the listeners find room, with a stack of 1 GiB each, and none for a connection.
        gib = 1 << 30
        limits = ((resource.RLIMIT_STACK, gib), (resource.RLIMIT_AS, 5 * gib))
        with server(folder, 1, 1, 1, limits=limits) as started:
            wait_until(
                "whether each listener has its thread", lambda: len(os.listdir(f"/proc/{started.pid}/task")) >= 5
            )
            unserved = connect_raw(folder / "card")
            expect("what the client reads", read_end(unserved), b"")
            expect_refused(folder / "card")
            for name in ("render", "root"):
                connect_raw(folder / name).close()
            expect_told(
                end_of(started), 1, ["ERROR a thread could not be started", "fault: thread"], "device 0 0 0 0\n"
            )
        expect_no_sockets(folder)

    def test_sessions_that_do_not_end_plainly(self):
        folder = self.folder
        with server(folder, 3, 1, 1) as started:
            retry((folder / "root").stat)
            said = [
                ("card", HELLO + b"\x06\0\0", "card, client 1: the input ended inside a frame"),
                ("card", LEASE_HELLO, "card, no client: the opening was denied: 42 NoLeaseToken"),
                ("card", HELLO, None),
                ("render", LEASE_HELLO, "render, no client: the first frame is not a hello that this listener allows"),
                ("root", HELLO + b"\1\0\0\0", "root, client 6: a frame's length is out of range"),
            ]
            for name, text, _ in said:
                with retry(lambda: connect_raw(folder / name)) as asked:
                    asked.sendall(text)
                    asked.shutdown(socket.SHUT_WR)
                    while asked.recv(64):
                        pass
            expect_told(end_of(started), 0, [f"WARN {note}" for _, _, note in said if note], "device 0 0 0 7\n")

    def test_session_is_told_while_others_go_on(self):
        folder = self.folder
        with server(folder, 2, 0, 0) as started:
            first = connect(folder / "card")
            with retry(lambda: connect_raw(folder / "card")) as second:
                second.sendall(HELLO + b"\x06\0\0")
                second.shutdown(socket.SHUT_WR)
                while second.recv(64):
                    pass
            expect("what is told", next_told(started), "WARN card, client 2: the input ended inside a frame")
            expect("an answer to the first", first.ask("version"), "version 1 0 0")
            first.close()
            expect_end(end_of(started), 0, "", "device 0 0 0 5\n")

    def test_replaced_files_are_not_removed(self):
        folder = self.folder
        with server(folder, 1, 0, 0) as started:
            first = connect(folder / "card")
            for name in ("card", "render"):
                (folder / name).unlink()
                (folder / name).write_text("another's")
            first.close()
            expect_end(end_of(started), 0, "", "device 0 0 0 2\n")
        expect("files left", sorted(path.name for path in folder.iterdir()), ["card", "render"])
        for name in ("card", "render"):
            expect("what stands there", (folder / name).read_text(), "another's")

    def test_socket_of_another_server_is_not_removed(self):
        folder = self.folder
        with server(folder, 1, 0, 0) as started:
            first = connect(folder / "card")
            for name in CLASSES:
                (folder / name).unlink()
            with server(folder, 1, 0, 0) as other:
                second = connect(folder / "card")
                first.close()
                expect_end(end_of(started), 0, "", "device 0 0 0 2\n")
                expect("files", sorted(path.name for path in folder.iterdir()), sorted(CLASSES))
                second.close()
                expect_end(end_of(other), 0, "", "device 0 0 0 2\n")
        expect_no_sockets(folder)


if __name__ == "__main__":
    sys.exit(run_tests())
