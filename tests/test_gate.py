#!/usr/bin/env python3
"""Tests of the gate and of what builds the program: what `./test` runs and in which order, and what `tools/prove` prints. A script
takes the place of the toolchain.

Each test has its own folder. The last line is `N passed, M failed`. Standard library only.
"""
import json
import os
import pty
import re
import shutil
import signal
import subprocess
import sys

sys.dont_write_bytecode = True
from support import REPOSITORY, SECONDS, FolderCase, expect, expect_end, run, run_tests, wait_until  # noqa: E402

CRATES = """# parts: what there is
low:
middle: low slab
# program: what is run
top tests_may=Wait: low middle

# tests: of these
low_tests: low
top_tests: top
"""
KINDS = ("proof", "tests", "edits", "tries", "rest")
# what `rt ci` prints of a crate that it proves, of one that it kept, and at its end
PROVES = """echo '== low'
echo 'fn low::one: proved'
echo 'rt: low proved'
echo 'rt: middle is kept: an earlier run on this machine proved the same files over the same libraries'
echo 'rt: top proved'
echo 'rt: low_tests proved'
echo 'rt: low_tests: its tests are proved'
echo 'rt: top_tests NOT PROVED: its library top failed'
echo '4 passed, 1 failed'
exit 1
"""
# a toolchain that builds a program, and lists the sources that it has
BUILDS = """find . -name '*.rt' -o -name '*.edit' -o -name HANDLES | sort > "$LISTED"
cat crates.txt >> "$LISTED"
mkdir -p crates/top/out
echo '#!/bin/sh' > crates/top/out/top
chmod +x crates/top/out/top
echo 'rt: top proved'
echo '3 passed, 0 failed'
"""


def write_script(path, text):
    path.parent.mkdir(parents=True, exist_ok=True)
    path.write_text(f"#!/bin/sh\n{text}")
    path.chmod(0o755)


def printed_by(toolchain):
    return "".join(f"{line}\n" for line in re.findall(r"^echo '(.*)'$", toolchain, re.MULTILINE))


def repository(folder, toolchain):
    """A repository of five crates with the tools, in which this script is the toolchain, and the environment for it."""
    root = folder / "repository"
    for crate in ("low", "middle", "top", "low_tests", "top_tests"):
        (root / "crates" / crate / "src").mkdir(parents=True)
        (root / "crates" / crate / "src/lib.rt").write_text("#[test]\nfn one() {}\n")
        (root / "crates" / crate / "must-fail").mkdir()
        (root / "crates" / crate / "must-fail/wrong.edit").touch()
    (root / "crates.txt").write_text(CRATES)
    (root / "HANDLES").write_text("Handles allowed: none.\n")
    shutil.copytree(REPOSITORY / "tools", root / "tools")
    write_script(folder / "bin/rt", toolchain)
    path = f"{folder / 'bin'}{os.pathsep}{os.environ['PATH']}"
    variables = {"PATH": path, "XDG_CACHE_HOME": str(folder / "cache"), "LISTED": str(folder / "listed")}
    return root, {**os.environ, **variables}


def took(folder, **minutes):
    """Records how many minutes the last proof of each crate took."""
    file = folder / "cache/zirkoshe/proofs.json"
    file.parent.mkdir(parents=True)
    file.write_text(
        json.dumps({name: {**dict.fromkeys(KINDS, 0.0), "proof": spent} for name, spent in minutes.items()})
    )
    return file


def on_one_processor():
    os.sched_setaffinity(0, [min(os.sched_getaffinity(0))])


def gate(folder, *, tries=0, proves=0, tests=0):
    """The gate in a folder in which each command that it runs is one that writes down its name, its word and the program, and has this status."""
    shutil.copy(REPOSITORY / "test", folder / "test")
    log = 'echo "$0${1:+ $1}${DRM_SERVER_PROGRAM:+ $(basename "$DRM_SERVER_PROGRAM")}" >> ran\n'
    write_script(folder / "tools/try-tests", f"{log}exit {tries}")
    write_script(folder / "tools/prove", f"{log}echo '7 passed, {proves} failed'\nexit {proves}")
    write_script(folder / "tests/all", f"{log}echo '5 passed, {tests} failed'\nexit {tests}")
    write_script(folder / "drm_server", "echo out/unproved")
    (folder / "crates/drm_server_main/out").mkdir(parents=True)


def ended(folder, *words, ci=""):
    """The status of the gate, its first and its last line, and what it ran."""
    ran = run(folder / "test", *words, env={**os.environ, "CI": ci, "DRM_SERVER_PROGRAM": "/of/the/caller"})
    lines = ran.stdout.splitlines()
    commands = (folder / "ran").read_text().splitlines()
    # the two of the quick part run at the same time
    return ran.returncode, lines[0], lines[-1], [*sorted(commands[:2]), *commands[2:]]


NOTHING = "quick: nothing is proved here: the tests in Rust, and tests/all with the program that ./drm_server would run"
QUICK = ["tests/all --at-once unproved", "tools/try-tests"]


class GateTests(FolderCase):
    """Tests of the gate: what `./test` runs and in which order, and what `tools/prove` prints."""

    def test_other_words_are_refused(self):
        for words in (["--fast"], ["quick"], ["--quick", "--quick"]):
            expect_end(run(REPOSITORY / "test", *words), 2, "usage: ./test [--quick]\n", "")

    def test_quick_proves_nothing_and_says_so(self):
        gate(self.folder)
        expect("the gate", ended(self.folder, "--quick"), (0, NOTHING, "quick: all passed; nothing is proved", QUICK))

    def test_quick_runs_all_and_then_fails(self):
        gate(self.folder, tries=1)
        expect("the gate", ended(self.folder, "--quick"), (1, NOTHING, "quick: failed; nothing is proved", QUICK))

    def test_gate_runs_the_quick_part_first(self):
        gate(self.folder)
        after = ["tools/prove", "tests/all --at-once drm_server_main"]
        expect("the gate", ended(self.folder), (0, NOTHING, "5 passed, 0 failed", [*QUICK, *after]))

    def test_gate_in_ci_leaves_the_quick_part_out(self):
        gate(self.folder)
        after = ["tests/all --at-once drm_server_main", "tools/prove"]
        expect("the gate", ended(self.folder, ci="true"), (0, "7 passed, 0 failed", "5 passed, 0 failed", after))
        (self.folder / "ran").unlink()
        expect("the quick part", ended(self.folder, "--quick", ci="true")[3], QUICK)

    def test_gate_continues_after_a_quick_part_that_fails(self):
        gate(self.folder, tries=1)
        after = ["tools/prove", "tests/all --at-once drm_server_main"]
        expect("the gate", ended(self.folder), (0, NOTHING, "5 passed, 0 failed", [*QUICK, *after]))

    def test_gate_ends_its_quick_part_in_time(self):
        """`timeout` reports that the time is over."""
        gate(self.folder)
        write_script(self.folder / "bin/timeout", '"$2"; exit 124')
        path = f"{self.folder / 'bin'}{os.pathsep}{os.environ['PATH']}"
        ran = run(self.folder / "test", env={**os.environ, "CI": "", "PATH": path})
        expect("the gate", (ran.returncode, ran.stdout.splitlines()[-1]), (0, "5 passed, 0 failed"))
        expect("the quick part", "quick: eight minutes are over; nothing is proved" in ran.stdout.splitlines(), True)

    def test_gate_ends_after_a_proof_that_fails(self):
        gate(self.folder, proves=1)
        expect("the gate", ended(self.folder), (1, NOTHING, "7 passed, 1 failed", [*QUICK, "tools/prove"]))

    def test_gate_of_ci_is_this_one(self):
        (self.folder / ".ci").mkdir()
        shutil.copy(REPOSITORY / ".ci/run", self.folder / ".ci/run")
        write_script(self.folder / "test", "echo ran; exit 3")
        expect_end(run(self.folder / ".ci/run"), 3, "", "ran\n")

    def test_forecast_by_the_last_times(self):
        """60 minutes of proofs on one processor; `middle` is kept, and `top_tests` isn't tried."""
        root, environment = repository(self.folder, PROVES)
        took(self.folder, low=5, middle=7, top=18, low_tests=20, top_tests=10)
        ran = run(root / "tools/prove", env=environment, preexec_fn=on_one_processor)
        told = (
            "crate 1 of 5, low, some 55 minutes left\n"
            "crate 2 of 5, middle, some 48 minutes left\n"
            "crate 3 of 5, top, some 30 minutes left\n"
            "crate 4 of 5, low_tests, some 10 minutes left\n"
            "crate 5 of 5, top_tests, less than a minute left\n"
        )
        expect_end(ran, 1, told, printed_by(PROVES))

    def test_forecast_by_the_lines(self):
        """A crate without times takes a fifth of a minute, and a minute for 600 lines of code. A broken file has no times."""
        root, environment = repository(self.folder, PROVES)
        (root / "crates/top/src/lib.rt").write_text("// a line\n" * 6000)
        for broken in ("", "[", "[1]", '{"top": 3}', '{"top": {"proof": 3}}'):
            shutil.rmtree(self.folder / "cache", ignore_errors=True)
            took(self.folder).write_text(broken)
            ran = run(root / "tools/prove", env=environment, preexec_fn=on_one_processor)
            lefts = [line.split(", ")[2] for line in ran.stderr.splitlines()]
            expect("forecasts", lefts[:3], ["some 11 minutes left"] * 2 + ["less than a minute left"])

    def test_times_of_a_run_are_for_the_next_one(self):
        """Those of the crates that it proved. What isn't proved keeps those that it had."""
        root, environment = repository(self.folder, PROVES)
        file = took(self.folder, low=5, middle=7, top_tests=10)
        run(root / "tools/prove", env=environment)
        found = {name: spent["proof"] for name, spent in json.loads(file.read_text()).items()}
        expect("minutes of proofs", found, {"low": 0, "middle": 7, "top": 0, "low_tests": 0, "top_tests": 10})

    def test_terminal_has_one_line_that_is_rewritten(self):
        """It is below the output, if that is on the terminal too."""
        root, environment = repository(self.folder, PROVES)
        for has_output, times in ((True, 2), (False, 1)):
            master, terminal = pty.openpty()
            output = terminal if has_output else subprocess.DEVNULL
            ran = subprocess.run([root / "tools/prove"], env=environment, stdout=output, stderr=terminal, check=False)
            os.close(terminal)
            shown = os.read(master, 1 << 16).decode()
            os.close(master)
            expect("status", ran.returncode, 1)
            lines = len(printed_by(PROVES).splitlines()) if has_output else 0
            expect("lines", (shown.count("\n"), shown.count("\rcrate 3 of 5, top, ")), (lines, times))
            expect("whether it is removed at the end", shown.endswith("\r\033[K"), True)

    def test_program_is_built_over_its_libraries_alone(self):
        """On a copy without edits and without other crates."""
        root, environment = repository(self.folder, BUILDS)
        ran = run(root / "tools/prove", "top", env=environment)
        expect_end(ran, 0, "crate 1 of 3, top, less than a minute left\n", "rt: top proved\n3 passed, 0 failed\n")
        sources = [f"./crates/{name}/src/lib.rt" for name in ("low", "middle", "top")]
        lines = ["low:", "middle: low slab", "top tests_may=Wait: low middle"]
        expect("the copy", (self.folder / "listed").read_text().splitlines(), ["./HANDLES", *sources, *lines])
        built = root / "crates/top/out/top"
        expect("whether it can be run", os.access(built, os.X_OK), True)
        (root / "crates/top/src/lib.rt").touch()
        expect(
            "whether a later source is newer",
            (root / "crates/top/src/lib.rt").stat().st_mtime > built.stat().st_mtime,
            True,
        )
        expect("what is left", sorted(path.name for path in built.parent.iterdir()), ["top"])

    def test_program_that_is_not_proved_is_not_kept(self):
        root, environment = repository(self.folder, f"{BUILDS}\nexit 1\n")
        expect("status", run(root / "tools/prove", "top", env=environment).returncode, 1)
        expect("whether there is a program", (root / "crates/top/out").exists(), False)

    def test_crates_and_toolchains_that_are_missing(self):
        root, environment = repository(self.folder, PROVES)
        expect("status", run(root / "tools/prove", "bottom", env=environment).returncode, 2)
        (self.folder / "bin/rt").unlink()
        (self.folder / "bin/python3").symlink_to(sys.executable)
        ran = run(root / "tools/prove", env={**environment, "PATH": f"{self.folder}/bin:/usr/bin:/bin"})
        expect_end(ran, 127, "prove: command not found: rt\n", "")

    def test_signal_ends_a_build(self):
        """It ends the toolchain, and leaves no copy."""
        root, environment = repository(
            self.folder, 'echo $$ > "$LISTED.new"; mv "$LISTED.new" "$LISTED"\nexec sleep 300\n'
        )
        shutil.copy(REPOSITORY / "drm_server", root)
        (root / "crates.txt").write_text("drm_server_main:\n")
        (root / "crates/top").rename(root / "crates/drm_server_main")
        (self.folder / "temporary").mkdir()
        environment["TMPDIR"] = str(self.folder / "temporary")
        with subprocess.Popen(
            [root / "drm_server", "--build"], env=environment, stderr=subprocess.PIPE, text=True
        ) as ran:
            wait_until("whether the toolchain runs", (self.folder / "listed").exists)
            toolchain = int((self.folder / "listed").read_text())
            ran.send_signal(signal.SIGTERM)
            expect("status", ran.wait(SECONDS), 1)
            wait_until("whether the toolchain has ended", lambda: not os.path.exists(f"/proc/{toolchain}"))
            wait_until("whether the copy is removed", lambda: not any((self.folder / "temporary").iterdir()))

    def test_build_that_fails_shows_the_last_lines(self):
        root, environment = repository(
            self.folder, "echo 'a clause is not proved'\necho '0 passed, 1 failed'\nexit 1\n"
        )
        shutil.copy(REPOSITORY / "drm_server", root)
        (root / "crates.txt").write_text("drm_server_main:\n")
        (root / "crates/top").rename(root / "crates/drm_server_main")
        ran = run(root / "drm_server", "--build", env=environment)
        log = root.resolve() / "out/build.log"
        told = f"drm_server: the build failed with the lines above; {log} has all"
        expect("status and output", (ran.returncode, ran.stdout), (1, ""))
        expect("errors", ran.stderr.splitlines()[1:], ["a clause is not proved", "0 passed, 1 failed", told])

    def test_tests_in_rust_are_tried(self):
        """Those of a crate that fail are shown; one without counts is one that failed. A crate without tests is left out."""
        passes = "echo 'test result: ok. 12 passed; 0 failed; 0 ignored; 0 filtered out'\n"
        root, environment = repository(self.folder, passes)
        (root / "crates.txt").write_text(CRATES + "surface_tests: top\n")
        (root / "crates/surface_tests/src").mkdir(parents=True)
        ran = run(root / "tools/try-tests", env=environment)
        expect("status and errors", (ran.returncode, ran.stderr), (0, ""))
        counts = ["low_tests: 12 passed, 0 failed", "top_tests: 12 passed, 0 failed"]
        *lines, last = ran.stdout.splitlines()
        expect("output", (sorted(lines), last), (counts, "24 passed, 0 failed"))
        write_script(self.folder / "bin/rt", f"{passes}\necho 'a bad access'\nexit 4\n")
        ran = run(root / "tools/try-tests", "low_tests", env=environment)
        expect("status and errors", (ran.returncode, ran.stderr), (1, ""))
        expect(
            "output",
            ran.stdout.splitlines()[2:],
            ["a bad access", "low_tests: 12 passed, 1 failed", "12 passed, 1 failed"],
        )
        write_script(self.folder / "bin/rt", "exit 0")
        expect_end(
            run(root / "tools/try-tests", "top_tests", env=environment),
            1,
            "",
            "== top_tests\ntop_tests: 0 passed, 1 failed\n0 passed, 1 failed\n",
        )
        expect("status of another crate", run(root / "tools/try-tests", "low", env=environment).returncode, 2)


if __name__ == "__main__":
    sys.exit(run_tests())
