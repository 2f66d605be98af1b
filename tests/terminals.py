"""Terminals and commands of documents, for tests that run them at the top of a checkout or of a package."""
from support import REPOSITORY, Skipped, expect, expect_end, run, want_libdrm, want_program

from blocks import commands_of
from libdrm_support import supervisor

# what commands of the documents find at the top, where they are run; a package has no benchmark's programs and no crates
TOP = ("bench", "clients", "crates", "drm_server", "examples", "tools", "zirkoshe")


def link_top(folder, top=REPOSITORY):
    """Makes a folder look like the top of a checkout or of a package to commands."""
    for name in TOP:
        if (top / name).exists():
            (folder / name).symlink_to(top / name)
    (folder / "docs").mkdir()


def want_bubblewrap():
    """Skips the test if bubblewrap is missing, or if the system does not let it create namespaces."""
    want_program("bwrap")
    if run("bwrap", "--unshare-all", "--ro-bind", "/", "/", "--dev", "/dev", "--proc", "/proc", "true").returncode != 0:
        raise Skipped("bwrap can't create a sandbox here")


def expect_command(folder, command, printed, env=None):
    """Runs a command in a folder that looks like a top, and compares what it prints."""
    if "libdrm" in command:
        want_libdrm()
    if "--seccomp" in command:
        supervisor()
    if "modetest" in command:
        want_program("modetest")
    if "bwrap" in command or "examples/sandbox/" in command:
        want_bubblewrap()
    expect_end(run("sh", "-c", command, cwd=folder, env=env), 0, "", printed)


def expect_terminal(folder, block, top=REPOSITORY, env=None):
    link_top(folder, top)
    for command, printed in commands_of(block.lines):
        expect_command(folder, command, printed, env)


def expect_commands(folder, block, top=REPOSITORY, env=None):
    """Commands that end well; a file that they write in docs/ is that of the repository."""
    link_top(folder, top)
    for command in block.lines:
        ran = run("sh", "-c", command, cwd=folder, env=env)
        expect("error output and status", (ran.stderr, ran.returncode), ("", 0))
    for path in (folder / "docs").iterdir():
        expect(path.name, path.read_text(), (REPOSITORY / "docs" / path.name).read_text())
