#!/usr/bin/env python3
"""Runs the usual linters of each language over the clients and the tests, with the configuration that is next to them.

What it tests: black, isort, flake8, mypy and ruff over the Python client, rustfmt and clippy over the Rust client,
clang-format and compilers' warnings over the C client; Python 3.8. A linter that is missing is skipped.

Each test has its own folder. The last line is `N passed, M failed`; a linter that isn't there is skipped, and
with the reason. Standard library only.
"""
import os
import shutil
import sys

sys.dont_write_bytecode = True
from support import (  # noqa: E402
    CLIENTS,
    REPOSITORY,
    FolderCase,
    Skipped,
    expect,
    expect_end,
    run,
    run_tests,
    want_libdrm,
    want_program,
)

from test_clients import SESSION  # noqa: E402

PYTHON = CLIENTS / "python"
TESTS = REPOSITORY / "tests"
# what is no module, and so isn't found by its name
COMMANDS = ("drm-client", "drm-audit")
# likewise, seen from the tests
BESIDE = tuple(
    f"../tools/{name}.py"
    for name in (
        "kernels",
        "kernel_device",
        "kernel_scripts",
        "comparison",
        "linux_page",
        "libdrm_errnos",
        "kernel_standings",
        "command_line",
        "crates",
        "crate_times",
        "needed_glibc",
    )
)
TOOLS = (
    "all",
    "../bench/instructions",
    "../tools/check",
    "../tools/beside-kernel",
    "../tools/prove",
    "../tools/try-tests",
    "../tools/public_api",
    "../tools/wheel",
    "../clients/libdrm/logind",
    *BESIDE,
)


# Python


def expect_clean(folder, *command, cwd=PYTHON):
    """A linter that exists finds nothing in the Python client, or in another folder."""
    want_program(command[0])
    ran = run(*command, cwd=cwd, env={**os.environ, "RUFF_CACHE_DIR": str(folder), "BLACK_CACHE_DIR": str(folder)})
    expect(f"what {command[0]} says", (ran.returncode, ran.stdout if ran.returncode else ""), (0, ""))


def python_3_8():
    """A Python of the oldest version that the client runs on."""
    for python in ("python3.8", *map(str, interpreters_of_pyenv())):
        if shutil.which(python) is not None and run(python, "--version").returncode == 0:
            return python
    raise Skipped("there is no Python 3.8")


def interpreters_of_pyenv():
    """The interpreters that pyenv has of that version."""
    root = run("pyenv", "root").stdout.strip() if shutil.which("pyenv") is not None else ""
    return sorted((REPOSITORY / root / "versions").glob("3.8.*/bin/python3")) if root else []


# sessions over its own server, by both clients
OLDEST = """
import asyncio
from zirkoshe import AsyncClient, Client, Denied
from zirkoshe.audit import read_audit
from zirkoshe.server import Server

async def asked(path):
    async with AsyncClient(path) as client:
        return await client.getcrtc(1)

with Server() as server:
    with Client(server.card) as client:
        try:
            client.create_lease(2, 8, 8)
        except Denied as denial:
            print(denial)
        print(client.getplaneresources(), asyncio.run(asked(server.card)))
    print(len(read_audit(server.root).clients))
"""


# the types of answers, by their first words in a script
ANSWER_TYPES = {
    "done": "Done",
    "version": "Version",
    "number": "int",
    "dumb": "Dumb",
    "buffer": "Buffer",
    "crtcs": "Resources",
    "list": "Tuple[int, ...]",
    "plane": "Plane",
    "framebuffer": "Framebuffer",
    "lease": "Lease",
    "rows": "Rows",
}
# what has another type is an error, and the comment on a line without one is an error too
TYPED = """
from typing import Tuple
from typing_extensions import assert_type
from zirkoshe import AsyncClient, Client
from zirkoshe.protocol import Buffer, Done, Dumb, Framebuffer, Lease, Plane, Resources, Rows, Version

async def ask(plain: Client, later: AsyncClient) -> None:
    plain.gem_close("1")  # type: ignore[arg-type]
    later.gem_close()  # type: ignore[call-arg, unused-coroutine]
    later.version().major  # type: ignore[attr-defined]
"""


def typed_calls():
    """A program that makes each call of the session by both clients, and says the type of each answer."""
    text = TYPED
    for _, (word, *fields), answer in SESSION.steps():
        kind = ANSWER_TYPES.get(answer.split()[0])
        if word != "open" and kind is not None:
            call = f"{word}({', '.join(fields)})"
            text += f"    assert_type(plain.{call}, {kind})\n    assert_type(await later.{call}, {kind})\n"
    return text


# Rust


# C and C++


def sources_in_c():
    found = [
        path
        for place in ("clients/c", *LIBDRM, *KERNEL, "tests", "examples")
        for ending in ("c", "h")
        for path in (REPOSITORY / place).glob(f"*.{ending}")
    ]
    return sorted(found)


# the programs of the tests in C that use the client
PROGRAMS = ("session", "opening", "closed", "threads", "forks", "starts", "hostile", "fixture", "faults", "pictures")
# the display of clients/libdrm, and its two front ends
LIBDRM = ("clients/libdrm", *(f"clients/libdrm/{name}" for name in ("display", "fronts", "preload", "supervisor")))
# the runner of scripts on a kernel, and the module
KERNEL = ("clients/kernel", "clients/kernel/module")
WARNINGS = ["-Wall", "-Wextra", "-Wpedantic", "-Wconversion", "-Wshadow", "-Werror", "-pthread"]
# each header alone, and after one that decides what the system's headers declare
INCLUDED = {
    "the client": '#include "drm_client.h"\n',
    "the client after stdio": '#include <stdio.h>\n#include "drm_client.h"\n',
    "a server for a test": '#include "drm_testing.h"\n',
    "the numbers": '#include "drm_server.h"\n',
    "pictures": '#include "drm_pictures.h"\n',
}
PROGRAM = "int main(void)\n{\n    return 0;\n}\n"


def expect_compiles(folder, compiler, ending, *standards):
    """The headers compile without a warning by each of these standards."""
    want_program(compiler)
    for standard in standards:
        for what, included in INCLUDED.items():
            file = folder / f"header.{ending}"
            file.write_text(included + PROGRAM)
            more = ["-Wold-style-cast"] if ending == "cc" else []
            ran = run(compiler, f"-std={standard}", *WARNINGS, *more, "-fsyntax-only", "-I", CLIENTS / "c", file)
            expect(f"{what} by {compiler} in {standard}", (ran.returncode, ran.stderr), (0, ""))


class LintersTests(FolderCase):
    """Runs the usual linters of each language over the clients and the tests, with the configuration that is beside them."""

    def test_tests_are_as_black_formats_them(self):
        expect_clean(self.folder, "black", "--config", "pyproject.toml", "--check", "--quiet", ".", *TOOLS, cwd=TESTS)

    def test_imports_of_the_tests_are_as_isort_sorts_them(self):
        expect_clean(self.folder, "isort", "--settings-path", ".", "--check-only", "--quiet", ".", *TOOLS, cwd=TESTS)

    def test_tests_are_clean_by_flake8(self):
        expect_clean(self.folder, "flake8", ".", *TOOLS, cwd=TESTS)

    def test_types_of_what_tests_share_are_clean_by_a_strict_mypy(self):
        expect_clean(self.folder, "mypy", "--cache-dir", self.folder / "cache", "support.py", cwd=TESTS)
        tools = ("check", "kernels.py", "prove", "try-tests", "public_api", "wheel")
        for tool in (*(f"../tools/{name}" for name in tools), "../clients/libdrm/logind"):
            expect_clean(self.folder, "mypy", "--cache-dir", self.folder / "cache", tool, cwd=TESTS)

    def test_python_is_as_black_formats_it(self):
        folder = self.folder
        expect_clean(folder, "black", "--check", "--quiet", ".", *COMMANDS)

    def test_python_imports_are_as_isort_sorts_them(self):
        folder = self.folder
        expect_clean(folder, "isort", "--check-only", "--quiet", ".", *COMMANDS)

    def test_python_is_clean_by_flake8(self):
        folder = self.folder
        expect_clean(folder, "flake8", ".", *COMMANDS)

    def test_python_types_are_clean_by_a_strict_mypy(self):
        folder = self.folder
        expect_clean(folder, "mypy", "--cache-dir", folder / "cache", ".")

    def test_python_types_of_calls_and_their_answers(self):
        """Those of both clients, as mypy sees them."""
        (self.folder / "typed.py").write_text(typed_calls())
        expect_clean(
            self.folder,
            "mypy",
            "--strict",
            "--config-file",
            PYTHON / "pyproject.toml",
            "--cache-dir",
            self.folder / "cache",
            self.folder / "typed.py",
        )

    def test_python_is_clean_by_ruff(self):
        folder = self.folder
        expect_clean(folder, "ruff", "check", "--no-cache", ".")

    def test_python_is_as_ruff_formats_it(self):
        folder = self.folder
        expect_clean(folder, "ruff", "format", "--check", "--no-cache", ".")

    def test_python_client_on_the_oldest_python(self):
        ran = run(
            python_3_8(), "-c", OLDEST, env={**os.environ, "PYTHONPATH": str(PYTHON), "PYTHONDONTWRITEBYTECODE": "1"}
        )
        expect_end(ran, 0, "", "denied 32 Repeated 22 (EINVAL)\n(4,) 0\n1\n")

    def test_rust_is_as_rustfmt_formats_it(self):
        want_program("rustfmt")
        folders = (CLIENTS / "rust/src", REPOSITORY / "tests", REPOSITORY / "bench")
        sources = [source for folder in folders for source in folder.glob("*.rs")]
        expect_end(run("rustfmt", "--edition", "2021", "--check", *sources), 0, "", "")

    def test_go_is_as_gofmt_formats_it(self):
        want_program("gofmt")
        expect_end(run("gofmt", "-l", *sorted(TESTS.glob("*.go"))), 0, "", "")

    def test_rust_is_clean_by_clippy(self):
        folder = self.folder
        if shutil.which("cargo") is None or run("cargo", "clippy", "--version").returncode != 0:
            raise Skipped("there is no cargo clippy")
        crate = shutil.copytree(CLIENTS / "rust", folder / "crate")
        for file in ("tests/fixture.rs", "tests/faults.rs", "bench/plain.rs"):
            (crate / file).parent.mkdir(exist_ok=True)
            shutil.copy(REPOSITORY / file, crate / file)
        (crate / "bench").rename(crate / "examples")
        environment = {**os.environ, "CARGO_NET_OFFLINE": "true", "CARGO_TARGET_DIR": str(folder / "target")}
        ran = run("cargo", "clippy", "--quiet", "--all-targets", "--", "-D", "warnings", cwd=crate, env=environment)
        expect_end(ran, 0, "", "")

    def test_c_is_as_clang_format_formats_it(self):
        want_program("clang-format")
        expect_end(run("clang-format", "--dry-run", "-Werror", *sources_in_c()), 0, "", "")

    def test_c_headers_without_warnings(self):
        folder = self.folder
        expect_compiles(folder, "cc", "c", "c99", "c11", "gnu17")

    def test_c_headers_without_warnings_by_clang(self):
        folder = self.folder
        expect_compiles(folder, "clang", "c", "c99", "c11", "gnu17")

    def test_c_headers_in_cplusplus_without_warnings(self):
        folder = self.folder
        expect_compiles(folder, "c++", "cc", "c++11", "c++17", "gnu++17")

    def test_c_headers_in_cplusplus_without_warnings_by_clang(self):
        folder = self.folder
        expect_compiles(folder, "clang++", "cc", "c++11", "c++17")

    def test_programs_of_the_tests_without_warnings(self):
        want_program("cc")
        for name in PROGRAMS:
            ran = run("cc", "-std=c99", *WARNINGS, "-fsyntax-only", "-I", CLIENTS / "c", REPOSITORY / f"tests/{name}.c")
            expect(f"what is said of {name}", (ran.returncode, ran.stderr), (0, ""))

    def test_runner_of_scripts_on_a_kernel_without_warnings(self):
        headers = [word for word in want_libdrm() if word.startswith("-I")]
        sources = [*(REPOSITORY / "clients/kernel").glob("*.c"), *TESTS.glob("libdrm_errnos*.c")]
        for source in sorted(sources):
            ran = run("cc", "-std=gnu11", *WARNINGS, "-fsyntax-only", *headers, source)
            expect(f"what is said of {source.name}", (ran.returncode, ran.stderr), (0, ""))

    def test_libdrm_library_without_warnings(self):
        """The display, the supervisor, and the program that tests that."""
        headers = [word for word in want_libdrm() if word.startswith("-I")]
        folders = ["-I", REPOSITORY / "clients/libdrm", "-I", REPOSITORY / "clients/libdrm/fronts", "-I", CLIENTS / "c"]
        words = [*folders, *headers]
        sources = sorted(source for place in LIBDRM for source in (REPOSITORY / place).glob("*.c"))
        for source in (*sources, TESTS / "supervised.c"):
            ran = run("cc", "-std=gnu11", *WARNINGS, "-fsyntax-only", *words, source)
            expect(f"what is said of {source.name}", (ran.returncode, ran.stderr), (0, ""))


if __name__ == "__main__":
    sys.exit(run_tests())
