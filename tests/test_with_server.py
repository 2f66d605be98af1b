#!/usr/bin/env python3
"""Tests of tools/with-server, which runs a command next to a server.

What it tests: `tools/with-server`: its status, signals, and that it leaves nothing.

Each test has its own folder. The last line is `N passed, M failed`. Standard library only.
"""
import contextlib
import importlib.machinery
import importlib.util
import os
import shutil
import signal
import subprocess
import sys

sys.dont_write_bytecode = True
from support import (  # noqa: E402
    CLIENTS,
    REPOSITORY,
    SECONDS,
    FolderCase,
    expect,
    expect_end,
    heed_signals,
    retry,
    run,
    run_tests,
    wait_until,
)

WITH_SERVER = REPOSITORY / "tools/with-server"
TOOL = CLIENTS / "python/drm-client"


# a command next to its own server


def processes_with(text):
    """The processes that have this text in their command lines."""
    found = []
    for number in filter(str.isdigit, os.listdir("/proc")):
        try:
            with open(f"/proc/{number}/cmdline", "rb") as line:
                found += [number] if os.fsencode(text) in line.read() else []
        except OSError:
            pass
    return found


def expect_nothing_left(folder):
    """No process has this folder in its command line, and no file is in it."""
    expect("processes", processes_with(str(folder / "temporary")), [])
    expect("files", sorted(path.name for path in (folder / "temporary").iterdir()), [])


def within(folder, **more):
    """The environment of a with-server whose temporary files are in this folder."""
    (folder / "temporary").mkdir(exist_ok=True)
    return {**os.environ, "TMPDIR": str(folder / "temporary"), **more}


def expect_status(folder, command, status, output="", error=""):
    expect_end(run(WITH_SERVER, *command, env=within(folder)), status, error, output)
    expect_nothing_left(folder)


@contextlib.contextmanager
def started_in_a_group(folder, program, *command):
    """A with-server in its own process group, which is killed where the test didn't let it end."""
    started = subprocess.Popen(
        [str(program), *command],
        stdin=subprocess.DEVNULL,
        stdout=subprocess.PIPE,
        stderr=subprocess.PIPE,
        text=True,
        start_new_session=True,
        env=within(folder),
        preexec_fn=heed_signals,
    )
    try:
        yield started
    finally:
        if started.poll() is None:
            started.terminate()
            started.communicate(timeout=SECONDS)


def expect_signalled(folder, command, send, status):
    """A with-server that is sent something once its command has said that it is ready."""
    with started_in_a_group(folder, WITH_SERVER, "sh", "-c", command) as ran:
        expect("the command's line", ran.stdout.readline(), "ready\n")
        send(ran.pid)
        _, error = ran.communicate(timeout=SECONDS)
    expect("error output", error, "")
    expect("status", ran.returncode, status)
    expect_nothing_left(folder)


def repository_with(folder, script):
    """A repository whose drm_server is this script, and the with-server in it."""
    (folder / "tools").mkdir()
    shutil.copy(WITH_SERVER, folder / "tools/with-server")
    if not (folder / "clients/python").exists():
        shutil.copytree(
            CLIENTS / "python/zirkoshe",
            folder / "clients/python/zirkoshe",
            ignore=shutil.ignore_patterns("__pycache__"),
        )
    if script is not None:
        (folder / "drm_server").write_text("#!/bin/sh\n" + script)
        (folder / "drm_server").chmod(0o755)
    return folder / "tools/with-server"


def expect_no_start(folder, script, error):
    """A server that can't be started: the command isn't run."""
    program = repository_with(folder, script)
    ran = run(program, "echo", "run", env=within(folder))
    expect_end(ran, 125, f"with-server: {error}\n", "")
    expect_nothing_left(folder)
    shutil.rmtree(folder / "tools")


def expect_ended_start(folder, script):
    """A with-server that is ended while its server is still compiled or starts: the script tells when by making a file."""
    program = repository_with(folder, script)
    with started_in_a_group(folder, program, "echo", "run") as ran:
        retry((folder / "started").stat)
        ran.send_signal(signal.SIGTERM)
        output, error = ran.communicate(timeout=SECONDS)
    expect("status", ran.returncode, 143)
    expect("output", (output, error), ("", "with-server: ended by SIGTERM before the command was run\n"))
    expect("processes", processes_with(f"sleep-{folder.name}"), [])
    expect_nothing_left(folder)
    (folder / "started").unlink()
    shutil.rmtree(folder / "tools")


class WithServerTests(FolderCase):
    """Tests of tools/with-server, which runs a command next to a server."""

    def test_with_server_gives_the_status(self):
        folder = self.folder
        expect_status(folder, ["true"], 0)
        expect_status(folder, ["--", "sh", "-c", "exit 7"], 7)
        expect_status(folder, ["--cards", "2", "--renders=0", "sh", "-c", "echo $1", "sh", "--roots"], 0, "--roots\n")
        expect_status(folder, ["sh", "-c", "kill -9 $$"], 137)
        expect_status(folder, ["sh", "-c", "kill $$"], 143)
        expect_status(folder, ["no-such-command"], 127, error="with-server: command not found: no-such-command\n")

    def test_with_server_refuses_a_command_that_cannot_be_run(self):
        folder = self.folder
        (folder / "data").write_text("data")
        ran = run(WITH_SERVER, folder / "data", env=within(folder))
        expect("status", ran.returncode, 126)
        expect("lines", len(ran.stderr.splitlines()), 1)
        for words_of in (["--cards", "65", "true"], ["--cards", "-1", "true"], ["--fly", "true"], ["--"], []):
            ran = run(WITH_SERVER, *words_of, env=within(folder))
            expect(f"the status of {words_of}", ran.returncode, 2)
        expect_nothing_left(folder)

    def test_with_server_has_the_topology_and_limits_that_are_asked_for(self):
        words = ["--topology", REPOSITORY / "examples/topologies/laptop.topology", "--limits", "8 2 8 8 8 8 8 100"]
        asked = f'printf "getresources\\nbuf_create 1\\nbuf_create 1\\nbuf_create 1\\n" | {TOOL} "$DRM_SERVER_CARD"'
        ran = run(WITH_SERVER, *words, "sh", "-c", asked, env=within(self.folder))
        other = run(WITH_SERVER, "sh", "-c", asked, env=within(self.folder))
        expect("status and error output", (ran.returncode, ran.stderr), (0, ""))
        expect("whether the device is another", ran.stdout.splitlines()[1] != other.stdout.splitlines()[1], True)
        expect(
            "the third buffer",
            (ran.stdout.splitlines()[4], other.stdout.splitlines()[4]),
            ("denied 43 Full 28", "buffer 3 4096"),
        )
        expect_nothing_left(self.folder)

    def test_with_server_names_no_socket_that_accepts_nobody(self):
        asked = "echo ${DRM_SERVER_CARD+card} ${DRM_SERVER_RENDER+render} ${DRM_SERVER_ROOT+root}"
        environment = {**within(self.folder), "DRM_SERVER_RENDER": "/inherited"}
        expect_end(run(WITH_SERVER, "--renders", "0", "sh", "-c", asked, env=environment), 0, "", "card root\n")
        expect_end(run(WITH_SERVER, "sh", "-c", asked, env=environment), 0, "", "card render root\n")

    def test_with_server_tells_the_sockets(self):
        folder = self.folder
        asked = f'for path in "$DRM_SERVER_CARD" "$DRM_SERVER_ROOT" "$DRM_SERVER_RENDER"; do {TOOL} "$path" version; done; cat'
        ran = run(
            WITH_SERVER,
            "--cards",
            "1",
            "--renders",
            "1",
            "--roots",
            "1",
            "sh",
            "-c",
            asked,
            env=within(folder),
            stdin=None,
            input="input\n",
        )
        expect_end(ran, 0, "", "client 1\nversion 1 0 0\nclient 4\nversion 1 0 0\nclient 7\nversion 1 0 0\ninput\n")
        expect_nothing_left(folder)

    def test_with_server_through_a_link_from_another_folder(self):
        folder = self.folder
        (folder / "first").symlink_to(WITH_SERVER)
        (folder / "second").symlink_to("first")
        ran = run("./second", "sh", "-c", f'{TOOL} "$DRM_SERVER_CARD" version', cwd=folder, env=within(folder))
        expect_end(ran, 0, "", "client 1\nversion 1 0 0\n")
        expect_nothing_left(folder)

    def test_with_server_ends_by_control_c(self):
        folder = self.folder
        expect_signalled(folder, "echo ready; exec sleep 300", lambda number: os.killpg(number, signal.SIGINT), 130)

    def test_with_server_lets_the_command_heed_control_c(self):
        folder = self.folder
        trapped = "trap 'exit 9' INT; echo ready; while :; do sleep 0.1; done"
        expect_signalled(folder, trapped, lambda number: os.killpg(number, signal.SIGINT), 9)

    def test_with_server_passes_signals_on(self):
        folder = self.folder
        expect_signalled(folder, "echo ready; exec sleep 300", lambda number: os.kill(number, signal.SIGTERM), 143)
        expect_signalled(folder, "echo ready; exec sleep 300", lambda number: os.kill(number, signal.SIGHUP), 129)
        trapped = "trap 'exit 9' TERM; echo ready; while :; do sleep 0.1; done"
        expect_signalled(folder, trapped, lambda number: os.kill(number, signal.SIGTERM), 9)

    def test_server_ends_with_a_with_server_that_is_killed(self):
        folder = self.folder
        with started_in_a_group(folder, WITH_SERVER, "sh", "-c", "echo ready; exec sleep 300") as ran:
            expect("the command's line", ran.stdout.readline(), "ready\n")
            ran.kill()
            wait_until("whether the server has gone", lambda: not processes_with(str(folder / "temporary")))
            os.killpg(ran.pid, signal.SIGTERM)  # the command goes on by itself
        expect("files", [path for path in (folder / "temporary").rglob("*") if not path.is_dir()], [])

    def test_with_server_whose_server_cannot_start(self):
        folder = self.folder
        server_path = folder / "drm_server"
        expect_no_start(folder, None, f"can't run {server_path}: No such file or directory")
        expect_no_start(
            folder, "exit 3\n", f"can't get the program of the server: {server_path} --program exited with status 3"
        )
        expect_no_start(
            folder, '[ "$1" = serve ] && exit 5\necho "$0"\n', "the server exited with status 5 before it listened"
        )

    def test_with_server_whose_library_cannot_be_loaded(self):
        folder = self.folder
        program = repository_with(folder, 'echo "$0"\n')
        builder = folder / "clients/libdrm/build"
        builder.parent.mkdir(parents=True)
        for script, error in (
            ("exit 3\n", f"can't get the library for libdrm programs: {builder} exited with status 3"),
            (
                "echo '/a b.so'\n",
                "LD_PRELOAD can't name /a b.so: move the repository to a path without spaces and colons",
            ),
        ):
            builder.write_text("#!/bin/sh\n" + script)
            builder.chmod(0o755)
            expect_end(run(program, "--libdrm", "echo", "run", env=within(folder)), 125, f"with-server: {error}\n", "")
            expect_nothing_left(folder)

    def test_with_server_that_has_no_umockdev(self):
        program = repository_with(self.folder, 'echo "$0"\n')
        builder = self.folder / "clients/libdrm/build"
        builder.parent.mkdir(parents=True)
        builder.write_text("#!/bin/sh\necho /library.so\n")
        builder.chmod(0o755)
        given = within(self.folder, PATH=str(self.folder))
        ran = run(sys.executable, program, "--libdrm", "--udev", "echo", "run", env=given)
        reason = "--udev requires umockdev-run: install the Debian package umockdev"
        expect_end(ran, 125, f"with-server: {reason}\n", "")
        expect_nothing_left(self.folder)

    def test_with_server_refuses_words(self):
        for words, reason in (
            (["--cards", "65", "true"], "argument --cards: '65' is not a number from 0 to 64"),
            (["--udev", "true"], "--udev requires --libdrm"),
            (["--libdrm", "--seat", "seat9", "true"], "--seat requires --udev"),
            (["--render", "true"], "--render requires --libdrm or --seccomp"),
            (
                ["--libdrm", "--udev", "--seat", "a/b", "true"],
                "'a/b' is not the name of a seat: use letters and digits, such as seat9",
            ),
        ):
            ran = run(WITH_SERVER, *words, env=within(self.folder))
            expect(f"{words}", (ran.returncode, ran.stdout), (2, ""))
            expect("the reason", ran.stderr.endswith(f"with-server: error: {reason}\n"), True)

    def test_advice_about_a_full_journal(self):
        """It names the limit, and at the highest one a server for each part."""
        loader = importlib.machinery.SourceFileLoader("with_server", str(WITH_SERVER))
        module = importlib.util.module_from_spec(importlib.util.spec_from_loader(loader.name, loader))
        loader.exec_module(module)
        for options, advice in (
            (["--limits", "8 8 8 8 8 8 8 4"], "set the last number of --limits higher, at most 100000"),
            (["--limits", "8 8 8 8 8 8 8 100000"], "use a server for each part of the command"),
            ([], "use a server for each part of the command"),
        ):
            expect(f"the advice for {options}", module.advice_for(options).startswith(advice), True)

    def test_with_server_whose_path_is_too_long(self):
        folder = self.folder
        long = folder / (100 * "l")
        long.mkdir()
        ran = run(WITH_SERVER, "true", env={**os.environ, "TMPDIR": str(long)})
        expect("status", ran.returncode, 125)
        expect("the reason", ran.stderr.endswith("is too long for sockets: set TMPDIR to a shorter path\n"), True)
        expect("files", list(long.iterdir()), [])

    def test_with_server_builds_first(self):
        folder = self.folder
        building = (
            f'[ "$1" = --program ] && echo building >&2 && touch {folder}/built\n[ -e {folder}/built ] || exit 1\n'
        )
        program = repository_with(folder, building + f'exec {REPOSITORY}/drm_server "$@"\n')
        ran = run(program, "sh", "-c", f'{TOOL} "$DRM_SERVER_CARD"', env=within(folder))
        expect_end(ran, 0, "building\n", "client 1\n")
        expect_nothing_left(folder)

    def test_with_server_that_is_ended_at_its_start(self):
        folder = self.folder
        wait = f'touch {folder}/started; sh -c "sleep 300" sleep-{folder.name}; exit 1\n'
        expect_ended_start(folder, wait)
        expect_ended_start(folder, f'[ "$1" = --program ] && echo "$0" && exit 0\n{wait}')

    def test_server_through_a_link(self):
        folder = self.folder
        (folder / "first").symlink_to(os.path.relpath(REPOSITORY / "drm_server", folder.resolve()))
        (folder / "second").symlink_to("first")
        ran = run("./second", "run", cwd=folder, stdin=None, input="open a card\n")
        expect_end(ran, 0, "", "client 1\n")


if __name__ == "__main__":
    sys.exit(run_tests())
