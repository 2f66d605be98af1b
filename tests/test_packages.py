#!/usr/bin/env python3
"""Tests of the clients as packages, each from an empty folder, with the files that docs/TESTING.md shows.

What it tests: pip with the pytest fixture, Cargo, pkg-config, CMake and Meson, each from an empty directory with
the documents' files; a server of a test in each language. Servers in C of a test without standard streams,
and 24 that start together.

Each test has its own folder. The last line is `N passed, M failed`; one whose tools aren't there is skipped, and
with the reason. Nothing is fetched. Standard library only.
"""
import json
import os
import pathlib
import re
import shutil
import signal
import subprocess
import sys

sys.dont_write_bytecode = True
from support import (  # noqa: E402
    CLIENTS,
    REPOSITORY,
    SECONDS,
    FolderCase,
    Skipped,
    compile_client,
    expect,
    run,
    run_tests,
    want_program,
)

from zirkoshe import Client, Denied  # noqa: E402
from zirkoshe.server import Server, ServerError  # noqa: E402

from blocks import blocks_of  # noqa: E402

PAGE = "docs/TESTING.md"
WITH_SERVER = REPOSITORY / "tools/with-server"
# servers that start at the same time
STARTED = 24


def shown(language, place=0):
    """A block of the page in this language, the first where no place is named."""
    return [block for block in blocks_of(PAGE) if block.language() == language][place].text()


def program_of(page, language):
    """The program on a client's own page."""
    (text,) = [block.text() for block in blocks_of(page) if block.language() == language]
    return text


def tried(*command, **options):
    """Runs a command that has to end well, and returns what it printed."""
    ran = run(*command, **options)
    if ran.returncode != 0:
        raise AssertionError(f"{' '.join(map(str, command))} gave status {ran.returncode}:\n{ran.stdout}{ran.stderr}")
    return ran.stdout


# Python


def python_with(*modules):
    """A Python that has these modules."""
    for python in (sys.executable, "/usr/bin/python3"):
        if os.path.exists(python) and run(python, "-c", f"import {', '.join(modules)}").returncode == 0:
            return python
    raise Skipped(f"there is no Python with {' and '.join(modules)}")


def installed(folder):
    """A folder into which pip installed the Python client from its own, and the environment that finds it there.

    Nothing is fetched, and nothing but the standard library is there to build it.
    """
    python = python_with("pip")
    source = shutil.copytree(CLIENTS / "python", folder / "source", ignore=shutil.ignore_patterns("__pycache__"))
    target = folder / "installed"
    options = ["--quiet", "--no-index", "--disable-pip-version-check", "--root-user-action", "ignore"]
    tried(python, "-m", "pip", "install", *options, "--target", target, source)
    return target, {**os.environ, "PYTHONPATH": str(target), "PYTHONDONTWRITEBYTECODE": "1"}


# Rust


def cargo(folder):
    """The environment of a cargo that fetches nothing, and builds in this folder."""
    want_program("cargo")
    return {**os.environ, "CARGO_NET_OFFLINE": "true", "CARGO_TARGET_DIR": str(folder / "target")}


def copied_crate(folder):
    """A copy of the crate, next to which cargo may write."""
    return shutil.copytree(CLIENTS / "rust", folder / "crate")


# C


STRICT = ["-Wall", "-Wextra", "-Wpedantic", "-Wconversion", "-Wshadow", "-Werror"]


# all of them


class PackagesTests(FolderCase):
    """Tests of the clients as packages, each from an empty folder, with the files that docs/TESTING.md shows."""

    def test_python_package(self):
        folder = self.folder
        target, environment = installed(folder)
        empty = folder / "empty"
        empty.mkdir()
        (empty / "lease.py").write_text(shown("python", 2))
        expect("what it prints", tried(sys.executable, "lease.py", cwd=empty, env=environment), "1\ndevice 0 0 0 2\n")
        command = [
            WITH_SERVER,
            "sh",
            "-c",
            f"{target}/bin/drm-client $DRM_SERVER_CARD 'create_lease 2 4 8' create_lease 1 8",
        ]
        expect(
            "the command", tried(*command, cwd=empty, env=environment), "client 1\nlease 1 1\ndenied 34 LeasedOut 16\n"
        )
        audit = json.loads(
            tried(
                WITH_SERVER, "sh", "-c", f"{target}/bin/drm-audit --json $DRM_SERVER_ROOT", cwd=empty, env=environment
            )
        )
        expect("who asked for the audit", audit["auditor"], 1)
        page = "from zirkoshe.page import text_of; print(text_of('steps.html').splitlines()[0])"
        expect("a page", tried(sys.executable, "-c", page, cwd=empty, env=environment), "<!DOCTYPE html>\n")

    def test_pytest_fixture(self):
        folder = self.folder
        python = python_with("pytest")
        _, environment = installed(folder)
        empty = folder / "empty"
        empty.mkdir()
        (empty / "test_lease.py").write_text(shown("python"))
        (empty / "test_asyncio.py").write_text(shown("python", 1))
        (empty / "test_faults.py").write_text(shown("python", 3))
        ran = run(python, "-m", "pytest", "-q", "-p", "no:cacheprovider", cwd=empty, env=environment)
        expect("what pytest says", (ran.returncode, ran.stdout.splitlines()[-1][:8]), (0, "6 passed"))

    def test_types_of_the_package(self):
        """A program's types are checked against those of the installed package."""
        folder = self.folder
        want_program("mypy")
        target, environment = installed(folder)
        empty = folder / "empty"
        empty.mkdir()
        (empty / "typed.py").write_text("from zirkoshe import Client\n\nplane: str = Client('card').getcrtc(1)\n")
        given = {**environment, "MYPYPATH": str(target)}
        ran = run("mypy", "--strict", "--cache-dir", folder / "cache", "typed.py", cwd=empty, env=given)
        expect(
            "what mypy says",
            (ran.returncode, ran.stdout.splitlines()[0]),
            (
                1,
                (
                    'typed.py:3: error: Incompatible types in assignment (expression has type "int", variable has type "str")  [assignment]'
                ),
            ),
        )

    def test_failed_test_shows_the_journal(self):
        """Nothing is installed: the page's command names the plugin."""
        folder = self.folder
        python = python_with("pytest")
        (folder / "test_lease.py").write_text(
            """from zirkoshe import Client


def test_buffer(drm_server):
    with Client(drm_server.card) as client:
        client.create_dumb(64, 64, 32)
        assert client.list_handles() == (2,)
"""
        )
        variable, *command = shown("sh", 2).replace("CLIENTS", str(CLIENTS)).split()
        path = dict([variable.split("=")])
        words = [python, *command[1:], "-q", "-p", "no:cacheprovider"]
        ran = run(*words, cwd=folder, env={**os.environ, **path, "PYTHONDONTWRITEBYTECODE": "1"})
        expect("status", ran.returncode, 1)
        expect(
            "that it tells a journal",
            "the requests and answers of the server, as a script:\nlimits " in ran.stdout,
            True,
        )
        for line in (
            "open2 a card -> client 1",
            "a create_dumb 64 64 32 -> dumb 1 256 16384",
            "a list_handles 0 -> list 1",
        ):
            expect(line, line in ran.stdout.splitlines(), True)

    def test_servers_of_ones_own(self):
        """Each begins anew, tells what was left, removes its folder, and says why it can't be had."""
        folder = self.folder
        for _ in range(3):
            with Server(cards=2, roots=0) as server:
                room = pathlib.Path(server.folder)
                client = Client(server.card)
                expect("its number", client.opened.client, 1)
                client.create_dumb(64, 64, 32)
                expect("the variables", server.environment["DRM_SERVER_CARD"], server.card)
            expect("the folder", room.exists(), False)
            expect("the listing", server.listing, "device 0 0 0 3\n")
            expect("the listing again", server.end(), server.listing)
            client.abandon()
        journal = folder / "journal.script"
        with Server(
            limits="1 1 1 1 1 1 1 10", topology=REPOSITORY / "examples/topologies/laptop.topology", journal=journal
        ) as server:
            with Client(server.card):
                try:
                    Client(server.card)
                except Denied as denial:
                    expect("the refusal", denial.name, "Full")
                else:
                    raise AssertionError("a second client was opened")
        expect("the journal's first line", journal.read_text().splitlines()[0], "limits 1 1 1 1 1 1 1 10")
        for options, wanted in (
            ({"program": folder / "none"}, f"can't run {folder / 'none'}: No such file or directory"),
            ({"limits": "0"}, "the server exited with status 3 before it listened"),
            ({"topology": folder / "none"}, "the server exited with status "),
        ):
            try:
                Server(**options)
            except ServerError as error:
                expect(f"what {options} gives", str(error)[: len(wanted)], wanted)
            else:
                raise AssertionError(f"{options} started a server")

    def test_killed_server_is_told(self):
        server = Server()
        os.kill(server.pid, signal.SIGKILL)
        try:
            server.end()
        except ServerError as error:
            expect("the error", str(error), "the server ended with status -9")
        else:
            raise AssertionError("a killed server ended well")
        expect("the folder, and the process", (os.path.exists(server.folder), server.pid), (False, None))

    def test_cargo_package(self):
        """Three tests that each start a server run at the same time."""
        folder = self.folder
        environment = cargo(folder)
        tried("cargo", "new", "--quiet", "--vcs", "none", "--bin", "compositor", cwd=folder, env=environment)
        top = folder / "compositor"
        tried("cargo", "add", "--quiet", "--offline", "--path", CLIENTS / "rust", cwd=top, env=environment)
        program = program_of("clients/rust/README.md", "rust")
        (top / "src/main.rs").write_text(program.replace('#[path = "clients/rust/src/lib.rs"]\nmod zirkoshe;\n\n', ""))
        (top / "tests").mkdir()
        (top / "tests/lease.rs").write_text(shown("rust"))
        printed = tried(WITH_SERVER, "cargo", "run", "--quiet", cwd=top, env=environment, timeout=300)
        expect("the first line", printed.splitlines()[0], "Lease { lessee_id: 1, token: 1 }")
        printed = tried(
            "cargo",
            "test",
            "--quiet",
            "--test",
            "lease",
            "--",
            "--test-threads",
            "3",
            cwd=top,
            env=environment,
            timeout=300,
        )
        expect("the tests", "3 passed" in printed, True)
        expect(
            "what was left beside the sources",
            sorted(it.name for it in (CLIENTS / "rust").iterdir()),
            ["COPYRIGHT", "Cargo.toml", "README.md", "src"],
        )

    def test_cargo_package_by_cargo(self):
        """It has no warning of the crate's metadata."""
        crate = copied_crate(self.folder)
        ran = run("cargo", "package", "--no-verify", cwd=crate, env=cargo(self.folder))
        expect("status, and whether it warns", (ran.returncode, "warning" in ran.stderr), (0, False))

    def test_cargo_doc_tests(self):
        """Each example in a doc comment runs, with its own server."""
        folder = self.folder
        environment = cargo(folder)
        printed = tried("cargo", "test", "--quiet", "--doc", cwd=copied_crate(folder), env=environment, timeout=300)
        expect("the examples", "5 passed" in printed, True)

    def test_server_of_a_rust_test(self):
        """It ends when it is dropped, leaves nothing, and says why it can't be had."""
        folder = self.folder
        environment = {**cargo(folder), "TMPDIR": str(folder / "temporary")}
        (folder / "temporary").mkdir()
        crate = copied_crate(folder)
        (crate / "tests").mkdir()
        shutil.copy(REPOSITORY / "tests/fixture.rs", crate / "tests")
        printed = tried("cargo", "test", "--quiet", "--test", "fixture", cwd=crate, env=environment, timeout=300)
        expect("the tests", "4 passed" in printed, True)
        expect("files left", list((folder / "temporary").glob("drm-server-*")), [])

    def test_pkg_config(self):
        folder = self.folder
        want_program("cc")
        want_program("pkg-config")
        (folder / "lease.c").write_text(program_of("clients/c/README.md", "c"))
        (folder / "lease_test.c").write_text(shown("c"))
        environment = {**os.environ, "PKG_CONFIG_PATH": str(CLIENTS / "c")}
        flags = tried("pkg-config", "--cflags", "--libs", "zirkoshe", env=environment).split()
        for name in ("lease", "lease_test"):
            tried("cc", "-std=c11", *STRICT, "-o", name, f"{name}.c", *flags, cwd=folder)
        expect("what it prints", tried(WITH_SERVER, folder / "lease").splitlines()[0], "lease 1, token 1")
        tried(folder / "lease_test")

    def test_pkg_config_in_cplusplus(self):
        """A program that wants no casts of the old style gets no warning of the headers."""
        folder = self.folder
        want_program("c++")
        want_program("pkg-config")
        (folder / "lease_test.cc").write_text(shown("c"))
        environment = {**os.environ, "PKG_CONFIG_PATH": str(CLIENTS / "c")}
        flags = tried("pkg-config", "--cflags", "zirkoshe", env=environment).split()
        tried("c++", "-std=c++17", *STRICT, "-Wold-style-cast", *flags, "-o", "lease_test", "lease_test.cc", cwd=folder)
        tried(folder / "lease_test")

    def test_cmake_package(self):
        folder = self.folder
        for name in ("cc", "cmake", "ctest"):
            want_program(name)
        (folder / "CMakeLists.txt").write_text(shown("cmake"))
        (folder / "lease_test.c").write_text(shown("c"))
        tried("cmake", "-S", ".", "-B", "build", f"-DCMAKE_PREFIX_PATH={CLIENTS / 'c'}", cwd=folder)
        tried("cmake", "--build", "build", cwd=folder)
        tried("ctest", "--output-on-failure", cwd=folder / "build")
        (folder / "CMakeLists.txt").write_text(shown("cmake").replace("zirkoshe 2 ", "zirkoshe 3 "))
        expect(
            "another version",
            run("cmake", "-S", ".", "-B", "other", f"-DCMAKE_PREFIX_PATH={CLIENTS / 'c'}", cwd=folder).returncode,
            1,
        )

    def test_meson_subproject(self):
        folder = self.folder
        for name in ("cc", "meson", "ninja"):
            want_program(name)
        (folder / "meson.build").write_text(shown("meson"))
        (folder / "lease_test.c").write_text(shown("c"))
        (folder / "subprojects").mkdir()
        shutil.copytree(CLIENTS / "c", folder / "subprojects/zirkoshe")
        tried("meson", "setup", "build", cwd=folder)
        tried("meson", "test", "-C", "build", cwd=folder)

    def test_server_of_a_c_test(self):
        """It ends, leaves nothing, and says that it can't be had."""
        folder = self.folder
        want_program("cc")
        program = folder / "fixture"
        tried("cc", "-std=c11", *STRICT, "-pthread", "-I", CLIENTS / "c", "-o", program, REPOSITORY / "tests/fixture.c")
        (folder / "temporary").mkdir()
        ran = run(program, folder / "journal.script", env={**os.environ, "TMPDIR": str(folder / "temporary")})
        expect(
            "what it prints",
            (ran.returncode, ran.stdout),
            (0, "started 0\nclient 1\nended 0\nagain 0\nkilled -10\nabsent -10\n"),
        )
        expect(
            "the journal",
            (folder / "journal.script").read_text().splitlines()[:2],
            ["limits 8 8 8 8 8 8 8 100", "open2 a card -> client 1"],
        )
        expect("files left", list((folder / "temporary").iterdir()), [])

    def test_servers_of_a_c_test_without_standard_streams(self):
        """A server starts and ends the same if the test has no input, output or error output."""
        program = compile_client("c", "starts.c", self.folder)
        for closed in ([0], [1], [0, 1], [0, 1, 2]):

            def close(closed=closed):
                for descriptor in closed:
                    os.close(descriptor)

            ran = run(program, 1, preexec_fn=close)
            expect(f"status without {closed}", ran.returncode, 0)

    def test_servers_of_a_c_test_that_start_together(self):
        """No server has the input of another one, and so keeps it from ending."""
        program = compile_client("c", "starts.c", self.folder)
        with subprocess.Popen(
            [program, str(STARTED)], stdin=subprocess.PIPE, stdout=subprocess.PIPE, text=True
        ) as started:
            lines = [next(started.stdout).split() for _ in range(STARTED)]
            inputs = {os.readlink(f"/proc/{started.pid}/fd/{descriptor}") for _, descriptor in lines}
            inputs |= {os.readlink(f"/proc/{process}/fd/0") for process, _ in lines}
            held = [len(inputs & set(descriptors_of(process))) for process, _ in lines]
            started.communicate(timeout=4 * SECONDS)
        expect("the inputs that each server has", held, STARTED * [1])
        expect("status", started.returncode, 0)

    def test_versions(self):
        """Each package has the version of the whole."""
        version = (REPOSITORY / "VERSION").read_text().strip()
        for path, form in (
            ("clients/python/pyproject.toml", r'^version = "(.*)"$'),
            ("clients/rust/Cargo.toml", r'^version = "(.*)"$'),
            ("clients/c/zirkoshe.pc", r"^Version: (.*)$"),
            ("clients/c/zirkoshe-config-version.cmake", r'"(.*)"'),
            ("clients/c/meson.build", r" version: '([0-9.]+)'"),
            ("clients/libdrm/meson.build", r" version: '([0-9.]+)'"),
        ):
            found = re.search(form, (REPOSITORY / path).read_text(), re.MULTILINE)
            expect(f"the version of {path}", found and found[1], version)
        expect(
            "the archive on the page",
            set(re.findall(r"zirkoshe-([0-9.]+)-x86", (REPOSITORY / PAGE).read_text())),
            {version},
        )


def descriptors_of(process):
    """What the descriptors of a process refer to."""
    return [os.readlink(path) for path in pathlib.Path(f"/proc/{process}/fd").iterdir()]


if __name__ == "__main__":
    sys.exit(run_tests())
