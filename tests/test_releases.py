#!/usr/bin/env python3
"""Tests of the packages that tools/package, tools/debian-package and tools/wheel make: names, what they say of a proof, and bytes.

What it tests: archive, Debian package and wheel of a program that isn't proved: what their names, their metadata
and the program say. A release, twice: equal bytes, sums, the page. Tools that fail in the middle. A Debian
package in an empty root and by lintian, a wheel in an empty environment and by twine. Commands of README, EXAMPLES and
the guides, with an archive and with a Debian package.

Each test has its own folder. The last line is `N passed, M failed`; one whose tools aren't there is skipped, and told so.
Standard library only.
"""
import functools
import hashlib
import os
import pathlib
import re
import shutil
import sys
import tarfile
import tempfile
import zipfile

sys.dont_write_bytecode = True
from support import (  # noqa: E402
    PROGRAM,
    REPOSITORY,
    FolderCase,
    Skipped,
    add_tests,
    expect,
    expect_end,
    make_root,
    run,
    run_in_root,
    run_program,
    run_tests,
    want_libdrm,
    want_program,
)

from blocks import blocks_of  # noqa: E402
from terminals import expect_commands, expect_terminal  # noqa: E402

VERSION = (REPOSITORY / "VERSION").read_text().strip()
TOLD = "drm_server: the program of this package is not proved\n"
OPENING = "open a card\n"
# what a release is made of
PARTS = (
    "zirkoshe",
    "drm_server",
    "VERSION",
    "README.md",
    "CHANGELOG.md",
    "CONTRIBUTING.md",
    "SECURITY.md",
    "bench",
    "edits",
    "clients",
    "docs",
    "examples",
    "tools",
)
KIT = "rattle-kit-1a logic 0123456789abcdef"


def plain_environment(**variables):
    """The environment without what names a program or a library of this checkout."""
    kept = {name: value for name, value in os.environ.items() if not name.startswith(("DRM_", "PYTHON"))}
    return {**kept, **variables}


def stand_in(folder, name, script):
    """A folder for the front of the path, in which a command is this script."""
    commands = folder / "commands"
    commands.mkdir(exist_ok=True)
    (commands / name).write_text("#!/bin/sh\n" + script)
    (commands / name).chmod(0o755)
    return f"{commands}:{os.environ['PATH']}"


def made_by(tool, folder):
    """The path that a tool prints of the package that it made of a program from elsewhere, which isn't known to be proved."""
    if tool != "package":
        want_libdrm()
        want_program("readelf")
    program = folder / "program"
    shutil.copy(PROGRAM, program)
    made = run(
        REPOSITORY / "tools" / tool,
        folder / "made",
        env=plain_environment(DRM_SERVER_PROGRAM=str(program), CFLAGS="-O0"),
        timeout=300,
    )
    expect("error output and status", (made.stderr, made.returncode), ("", 0))
    return pathlib.Path(made.stdout.rstrip("\n"))


class PackageCase(FolderCase):
    """A case whose tests share a package that a tool made once."""

    tool: str

    @classmethod
    def setUpClass(cls):
        super().setUpClass()
        room = tempfile.TemporaryDirectory(prefix="drm_")
        cls.addClassCleanup(room.cleanup)
        cls.made = made_by(cls.tool, pathlib.Path(room.name))

    def expect_told(self, script, environment):
        """The program's script says once for a run that it is unproved, and `--version` says it."""
        ran = run(script, "--version", env=environment)
        expect_end(ran, 0, TOLD, f"drm_server {VERSION} (not proved)\n")
        ran = run(script, "run", env=environment, stdin=None, input=OPENING)
        expect_end(ran, 0, TOLD, "client 1\n")


def proved_tree(folder):
    """A copy of what packages are made of, with the program where a proof leaves it, and the environment of such a machine."""
    tree = folder / "tree"
    tree.mkdir()
    ignored = shutil.ignore_patterns("__pycache__", "out")
    for part in PARTS:
        copy = shutil.copytree if (REPOSITORY / part).is_dir() else shutil.copy
        copy(REPOSITORY / part, tree / part, **({"ignore": ignored} if copy is shutil.copytree else {}))
    (tree / "crates.txt").touch()
    proved = tree / "crates/drm_server_main/out/drm_server_main"
    proved.parent.mkdir(parents=True)
    shutil.copy(PROGRAM, proved)
    path = stand_in(folder, "rt", f"echo {KIT}\n")
    return tree, plain_environment(PATH=path, SOURCE_DATE_EPOCH="1700000000", CFLAGS="-O0")


def committed(tree):
    """The hash of a commit of a tree."""
    want_program("git")
    author = ["-c", "user.name=a", "-c", "user.email=a@b.example"]
    for words in (["init", "--quiet"], [*author, "commit", "--quiet", "--allow-empty", "--message", "A release"]):
        expect_end(run("git", *words, cwd=tree), 0, "", "")
    return run("git", "rev-parse", "HEAD", cwd=tree).stdout.strip()


def unpacked_archive(path, folder):
    """The folder of an archive."""
    with tarfile.open(path) as archive:
        archive.extractall(folder)
    return folder / path.name[: -len(".tar.gz")]


def broken_links(folder):
    """The relative links of pages in a folder that lead to nothing, each with its page."""
    links = (
        (page, target.partition("#")[0])
        for page in folder.rglob("*.md")
        for target in re.findall(r"\]\(([^)\s]+)\)", page.read_text())
        if "://" not in target
    )
    return [f"{page.relative_to(folder)}: {path}" for page, path in links if not (page.parent / path).exists()]


class ArchiveTests(PackageCase):
    """Tests: the archive of an unproved program, and the image that is made of one."""

    tool = "package"

    def test_archive_has_no_broken_link(self):
        expect("broken links", broken_links(unpacked_archive(self.made, self.folder)), [])

    def test_archive_says_that_it_is_unproved(self):
        expect("its name", self.made.name, f"zirkoshe-{VERSION}+unproved-x86_64-linux.tar.gz")
        there = unpacked_archive(self.made, self.folder)
        expect_end(run(there / "zirkoshe", "--version"), 0, "", f"zirkoshe {VERSION}+unproved\n")
        self.expect_told(there / "drm_server", plain_environment())
        named = plain_environment(DRM_SERVER_PROGRAM=str(there / "bin/drm_server_main"))
        self.expect_told(REPOSITORY / "drm_server", named)

    def test_image_says_that_it_is_unproved(self):
        """The container file takes an archive by its whole name, which is the title of the image."""
        lines = (REPOSITORY / "examples/ci/Containerfile").read_text().splitlines()
        for line in (
            f"ARG ARCHIVE=zirkoshe-{VERSION}-x86_64-linux",
            "ADD $ARCHIVE.tar.gz /opt/",
            "LABEL org.opencontainers.image.title=$ARCHIVE",
        ):
            expect(line, line in lines, True)


# commands of documents

MADE = tempfile.TemporaryDirectory(prefix="drm_")


@functools.lru_cache(None)
def package_of(tool):
    """The package that a tool makes of a program that passes for a proved one."""
    folder = pathlib.Path(tempfile.mkdtemp(dir=MADE.name))
    tree, environment = proved_tree(folder)
    made = run(tree / "tools" / tool, folder / "made", env=environment, timeout=600)
    expect("error output and status", (made.stderr, made.returncode), ("", 0))
    return pathlib.Path(made.stdout.rstrip("\n"))


@functools.lru_cache(None)
def top_of_archive():
    return unpacked_archive(package_of("package"), pathlib.Path(MADE.name))


@functools.lru_cache(None)
def top_of_debian_package():
    """The folder of the documents in the unpacked package, whose files a reader links to."""
    root = pathlib.Path(MADE.name) / "root"
    expect_end(run("dpkg-deb", "-x", package_of("debian-package"), root), 0, "", "")
    return root / "usr/share/doc/zirkoshe"


def command_tests(name, top):
    """A test for each block of commands in README, EXAMPLES and the guides."""
    guides = sorted(str(path.relative_to(REPOSITORY)) for path in (REPOSITORY / "docs/guides").glob("*.md"))
    blocks = [block for page in ("README.md", "docs/EXAMPLES.md", *guides) for block in blocks_of(page)]
    run_here = [block for block in blocks if not block.is_said_not_to_be_run()]
    tests = {}
    for block in run_here:
        if block.is_terminal():
            tests[f"test_{name}: {block.place()}"] = functools.partial(expect_with, expect_terminal, block, top)
        elif block.is_of_commands():
            tests[f"test_{name}: {block.place()}"] = functools.partial(expect_with, expect_commands, block, top)
    return tests


def expect_with(trial, block, top, folder):
    """Runs the commands of a block at the top of a package, with the package's program."""
    trial(folder, block, top(), plain_environment(PYTHONDONTWRITEBYTECODE="1"))


class CommandsInArchiveTests(FolderCase):
    """Commands of documents, with an archive."""


class CommandsInDebianPackageTests(FolderCase):
    """Commands of documents, with a Debian package."""

    @classmethod
    def setUpClass(cls):
        super().setUpClass()
        for name in ("dpkg-deb", "strip", "readelf"):
            want_program(name)
        want_libdrm()


add_tests(CommandsInArchiveTests, command_tests("archive", top_of_archive))
add_tests(CommandsInDebianPackageTests, command_tests("debian_package", top_of_debian_package))


class ReleaseTests(FolderCase):
    """A release has all packages of a proved program. Two of one commit are equal."""

    def test_release_of_an_unproved_program_is_refused(self):
        program = self.folder / "program"
        shutil.copy(PROGRAM, program)
        environment = plain_environment(DRM_SERVER_PROGRAM=str(program))
        ran = run(REPOSITORY / "tools/package", "--release", self.folder / "made", env=environment)
        told = f"package: {program} is not proved, so there is no release of it: ./drm_server --build proves one\n"
        expect_end(ran, 1, told, "")
        expect("what was made", list((self.folder / "made").iterdir()), [])

    def test_release(self):
        want_libdrm()
        want_program("dpkg-deb")
        tree, environment = proved_tree(self.folder)
        commit = committed(tree)
        del environment["SOURCE_DATE_EPOCH"]
        bytes_of = {}
        elsewhere = {"TZ": "Asia/Tokyo", "TMPDIR": str(self.folder)}
        for name, mask, variables in (("first", 0o022, {}), ("second", 0o077, elsewhere)):
            into = self.folder / name
            command = ["sh", "-c", f'umask {mask:o} && exec "$0" --release "$1"', tree / "tools/package", into]
            ran = run(*command, env={**environment, **variables}, timeout=600)
            expect("error output and status", (ran.stderr, ran.returncode), ("", 0))
            expect("printed paths", sorted(ran.stdout.splitlines()), sorted(map(str, into.iterdir())))
            bytes_of[name] = {path.name: hashlib.sha256(path.read_bytes()).hexdigest() for path in into.iterdir()}
        expect("the bytes of both", bytes_of["second"], bytes_of["first"])
        self.expect_whole(self.folder / "first", commit)

    def expect_whole(self, made, commit):
        """Each file is there by the name of a proved program, the sums are right, and the page says what was proved."""
        names = sorted(path.name for path in made.iterdir())
        (wheel,) = [name for name in names if name.endswith(".whl")]
        archive = f"zirkoshe-{VERSION}-x86_64-linux.tar.gz"
        listed = ["PROVED.md", archive, wheel, f"zirkoshe_{VERSION}_amd64.deb"]
        expect("the files", names, sorted([*listed, "SHA256SUMS"]))
        expect("the wheel's version", wheel.split("-")[1], VERSION)
        sums = run("sha256sum", "--check", "--quiet", "SHA256SUMS", cwd=made)
        expect_end(sums, 0, "", "")
        lines = (made / "SHA256SUMS").read_text().splitlines()
        expect("the files with a sum", sorted(line.split()[1] for line in lines), sorted(listed))
        page = (made / "PROVED.md").read_text()
        there = unpacked_archive(made / archive, self.folder)
        digest = hashlib.sha256((there / "bin/drm_server_main").read_bytes()).hexdigest()
        for text in (
            KIT,
            commit,
            digest,
            "- A closed client keeps no rights.",
            f"]({archive[:-7]}/docs/PROMISES.md)",
        ):
            expect(f"whether the page has {text}", text in page, True)
        ran = run(there / "drm_server", "run", env=plain_environment(), stdin=None, input=OPENING)
        expect_end(ran, 0, "", "client 1\n")


class FailureTests(FolderCase):
    """A tool that fails says so by its status, prints no path, and leaves no file."""

    def expect_nothing(self, tool, **variables):
        tree, environment = proved_tree(self.folder)
        ran = run(tree / "tools" / tool, self.folder / "made", env={**environment, **variables}, timeout=300)
        left = list((self.folder / "made").glob("*"))
        expect(f"{tool}: whether it fails, its output, files", (ran.returncode != 0, ran.stdout, left), (True, "", []))

    def test_archive_that_is_cut(self):
        self.expect_nothing("package", PATH=stand_in(self.folder, "tar", "exit 2\n"))

    def test_archive_that_is_not_compressed(self):
        self.expect_nothing("package", PATH=stand_in(self.folder, "gzip", "exit 1\n"))

    def test_debian_package_that_is_cut(self):
        want_libdrm()
        cut = 'for last; do :; done; echo cut > "$last"; exit 2\n'
        self.expect_nothing("debian-package", PATH=stand_in(self.folder, "dpkg-deb", cut))

    def test_wheel_without_its_library(self):
        self.expect_nothing("wheel", CC="false")


class VersionTests(FolderCase):
    """The number of the tree is semantic, and none that is out while an entry of the changelog breaks something."""

    def test_no_breaking_change_is_under_a_version_that_is_out(self):
        expect("the form of the version", re.fullmatch(r"(0|[1-9]\d*)(\.(0|[1-9]\d*)){2}", VERSION) is not None, True)
        changes = (REPOSITORY / "CHANGELOG.md").read_text()
        sections = re.split(r"(?m)^## ", changes)
        unreleased = next(text for text in sections if text.startswith("[Unreleased]"))
        is_out = f"\n## [{VERSION}]" in changes
        expect("whether it breaks what is out", is_out and "**Breaking:**" in unreleased, False)


class GlibcTests(FolderCase):
    """The newest glibc that files need is that of their symbols, by the versions that glibc gave them."""

    def test_needed_glibc(self):
        want_program("cc")
        want_program("readelf")
        libraries = {}
        for function, version in (("reallocarray", "2.26"), ("gettid", "2.30"), ("getpid", "2.2")):
            source, library = self.folder / f"{function}.c", self.folder / f"{function}.so"
            source.write_text(f"int {function}();\nint call(void)\n{{\n    return {function}();\n}}\n")
            compiled = run("cc", "-fPIC", "-shared", "-nostartfiles", "-w", "-o", library, source)
            expect(f"what cc says of {function}", (compiled.returncode, compiled.stderr), (0, ""))
            libraries[function] = library
            expect_end(run(REPOSITORY / "tools/needed_glibc.py", library), 0, "", f"{version}\n")
        expect_end(run(REPOSITORY / "tools/needed_glibc.py", *libraries.values()), 0, "", "2.30\n")
        ran = run(REPOSITORY / "tools/needed_glibc.py", self.folder / "getpid.c")
        expect("status and output of a text", (ran.returncode, ran.stdout), (1, ""))


class DebianTests(PackageCase):
    """Tests: the Debian package of an unproved program."""

    tool = "debian-package"

    @classmethod
    def setUpClass(cls):
        for name in ("dpkg-deb", "strip"):
            want_program(name)
        super().setUpClass()

    def unpacked(self):
        """A folder into which the package is unpacked."""
        root = self.folder / "root"
        expect_end(run("dpkg-deb", "-x", self.made, root), 0, "", "")
        return root

    def test_debian_package_has_no_broken_link(self):
        expect("broken links", broken_links(self.unpacked()), [])

    def test_debian_package_says_that_it_is_unproved(self):
        expect("its name", self.made.name, f"zirkoshe_{VERSION}~unproved_amd64.deb")
        fields = run("dpkg-deb", "--show", "--showformat", "${Version}\n${Description}", self.made).stdout.splitlines()
        summary = "display and buffer server with the access rules of Linux DRM (not proved)"
        expect("version and summary", fields[:2], [f"{VERSION}~unproved", summary])
        proved_replaces = ("dpkg", "--compare-versions", f"{VERSION}~unproved", "lt", VERSION)
        expect_end(run(*proved_replaces), 0, "", "")
        self.expect_told(self.unpacked() / "usr/bin/drm_server", plain_environment())

    def test_debian_package_in_an_empty_root(self):
        """Its first lease, with nothing but the package, a shell and the C library."""
        root = self.unpacked()
        make_root(root, root / "usr/lib/zirkoshe/bin/drm_server_main")
        script = "cd /usr/share/doc/zirkoshe/examples && zirkoshe check rows/*.script > /tmp/checked && zirkoshe run < leases.script"
        ran = run_in_root(root, script)
        # a program that was compiled with checks misses /proc
        told = [line for line in ran.stderr.splitlines() if "reading executable name failed" not in line]
        wanted = run_program("run", script=(REPOSITORY / "examples/leases.script").read_text())
        expect("error output", told, 2 * [TOLD.rstrip("\n")])
        expect("status and output", (ran.returncode, ran.stdout), (0, wanted.stdout))

    def test_debian_package_has_what_is_compiled(self):
        """Neither the program nor the library, display and supervisor for libdrm programs are compiled at the first use."""
        root = self.unpacked()
        lib = root / "usr/lib/zirkoshe"
        without = plain_environment(CC="false")
        for options, name in (
            ([], "libzirkoshe_libdrm.so"),
            (["--display"], "zirkoshe-display"),
            (["--supervisor"], "supervisor"),
        ):
            built = run(lib / "clients/libdrm/build", *options, env=without)
            expect_end(built, 0, "", f"{lib}/clients/libdrm/out/{name}\n")
        ran = run(root / "usr/bin/drm_server", "--program", env=without)
        expect_end(ran, 0, TOLD, f"{lib}/bin/drm_server_main\n")

    def test_debian_package_has_the_python_package(self):
        """Python finds it and its metadata, and it finds the program."""
        asked = "import zirkoshe.server as s; server = s.Server(); print(server.__enter__() is server); server.__exit__(None, None, None)"
        asked += "\nfrom importlib.metadata import distribution; print(distribution('zirkoshe').version)"
        packages = str(self.unpacked() / "usr/lib/python3/dist-packages")
        python = plain_environment(PYTHONPATH=packages, PYTHONDONTWRITEBYTECODE="1")
        expect_end(run(sys.executable, "-c", asked, env=python), 0, TOLD, f"True\n{VERSION}\n")

    def test_debian_package_by_lintian(self):
        want_program("lintian")
        ran = run("lintian", self.made, timeout=300)
        expect("status and what lintian finds", (ran.returncode, ran.stdout), (0, ""))


# what a project does that has nothing but the wheel: a client, and an unchanged libdrm program
OF_THE_WHEEL = """
import os, subprocess
from zirkoshe import Client, Denied
from zirkoshe.page import text_of
from zirkoshe.server import Server, find_display, find_library, find_program

with Server(cards=64) as server:
    with Client(server.card) as owner:
        lease = owner.create_lease(2, 4, 8)
        with Client(server.card, lease=lease.token) as lessee:
            owner.revoke_lease(lease.lessee_id)
            try:
                lessee.getcrtc(2)
            except Denied as denial:
                print(denial)
    words = ["modetest", "-M", "zirkoshe", "-e"]
    shown = subprocess.run(words, env={**os.environ, **server.libdrm_environment}, stdout=subprocess.PIPE, text=True)
    print(shown.stdout.count("Virtual"))
print(*(found().count("site-packages") for found in (find_program, find_library, find_display)))
print(text_of("steps.html").splitlines()[0])
"""


class WheelTests(PackageCase):
    """Tests: the Python wheel of an unproved program."""

    tool = "wheel"

    def installed(self):
        """The commands of a virtual environment that has the wheel alone."""
        if run(sys.executable, "-m", "venv", self.folder / "env", timeout=300).returncode != 0:
            raise Skipped("this Python makes no virtual environments")
        commands = self.folder / "env/bin"
        words = ["-m", "pip", "install", "--quiet", "--no-index", self.made]
        ran = run(commands / "python", *words, timeout=300)
        expect("what pip says", (ran.returncode, ran.stdout), (0, ""))
        return commands

    def test_wheel_in_an_empty_environment(self):
        want_program("modetest")
        commands = self.installed()
        environment = plain_environment()
        ran = run(commands / "python", "-c", OF_THE_WHEEL, cwd=self.folder, env=environment)
        expect_end(ran, 0, "", "denied 30 NoModeObject 2 (ENOENT)\n2\n1 1 1\n<!DOCTYPE html>\n")
        self.expect_told(commands / "drm_server", environment)

    def test_wheel_says_that_it_is_unproved(self):
        form = rf"zirkoshe-{re.escape(VERSION)}\+unproved-py3-none-manylinux_2_(\d+)_x86_64\.whl"
        found = re.fullmatch(form, self.made.name)
        expect(f"the form of its name {self.made.name}", found is not None, True)
        with zipfile.ZipFile(self.made) as wheel:
            described = wheel.read(f"zirkoshe-{VERSION}+unproved.dist-info/METADATA").decode().splitlines()
            wheel.extractall(self.folder)
        expect("its version", described[2], f"Version: {VERSION}+unproved")
        expect("its summary", described[3].endswith(" (the program is not proved)"), True)
        files = (self.folder / "zirkoshe").glob("*/*")
        compiled = [path for path in files if path.read_bytes().startswith(b"\x7fELF")]
        needed = run(REPOSITORY / "tools/needed_glibc.py", *compiled)
        expect("the newest glibc of its three files", (len(compiled), needed.stdout), (3, f"2.{found[1]}\n"))

    def test_wheel_by_twine(self):
        want_program("twine")
        ran = run("twine", "--no-color", "check", "--strict", self.made)
        expect("status and error output", (ran.returncode, ran.stderr), (0, ""))


if __name__ == "__main__":
    sys.exit(run_tests())
