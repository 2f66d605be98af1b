#!/usr/bin/env python3
"""Tests of the manual pages and the completions that tools/manual makes.

What it tests: manual pages and completions have the options of each command; pages by man and mandoc.

Each test has its own folder. The last line is `N passed, M failed`. Standard library only.
"""
import os
import re
import sys

sys.dont_write_bytecode = True
from support import REPOSITORY, FolderCase, expect, run, run_tests, want_program  # noqa: E402

COMMANDS = (
    "run",
    "check",
    "explain",
    "shrink",
    "serve",
    "test",
    "client",
    "audit",
    "watch",
    "screenshot",
    "plug",
    "unplug",
)
PAGES = {
    "man1": ["zirkoshe.1", *(f"zirkoshe-{name}.1" for name in COMMANDS)],
    "man5": ["zirkoshe-script.5", "zirkoshe-frames.5"],
    "man7": ["zirkoshe-libdrm.7"],
}


def make(folder):
    """Makes pages and completions."""
    ran = run(REPOSITORY / "tools/manual", folder)
    expect("status and output", (ran.returncode, ran.stdout), (0, ""))


def options_of(text):
    """The long options that a text names."""
    return set(re.findall(r"--[a-z][a-z-]*", text))


class ManualTests(FolderCase):
    """Tests: manual pages and completions."""

    def test_pages_are_there(self):
        make(self.folder)
        for section, names in PAGES.items():
            found = sorted(path.name for path in (self.folder / "man" / section).iterdir())
            expect(f"pages of {section}", found, sorted(names))

    def test_pages_have_the_options_of_the_commands(self):
        make(self.folder)
        for name in COMMANDS:
            wanted = options_of(run(REPOSITORY / "zirkoshe", name, "--help").stdout)
            text = (self.folder / f"man/man1/zirkoshe-{name}.1").read_text().replace("\\-", "-")
            expect(f"options of {name}", {option for option in wanted if option not in options_of(text)}, set())

    def test_pages_have_the_statuses_of_the_commands(self):
        make(self.folder)
        for name in COMMANDS:
            _, _, listed = run(REPOSITORY / "zirkoshe", name, "--help").stdout.partition("\nExit status:\n")
            wanted = [line.split(None, 1) for line in listed.partition("\n\n")[0].splitlines()]
            text = (self.folder / f"man/man1/zirkoshe-{name}.1").read_text().replace("\\-", "-")
            section = text.partition(".SH EXIT STATUS\n")[2].partition(".SH ")[0]
            found = re.findall(r"\.TP\n\\fB([N\d+]+)\\fR\n((?:[^.].*\n)+)", section)
            joined = [[number, re.sub(r"\.$", "", text.strip().replace("\n", " "))] for number, text in found]
            expect(f"the statuses of {name}", joined, wanted)
            expect("how many there are", len(wanted) >= 3, True)

    def test_pages_have_the_environment(self):
        """Each has variables, and those that start a program its own."""
        make(self.folder)
        for name in PAGES["man1"]:
            _, _, section = (self.folder / "man/man1" / name).read_text().partition(".SH ENVIRONMENT\n")
            named = name[len("zirkoshe-") : -len(".1")]
            variables = dict.fromkeys(("client", "audit"), "DRM_SERVER_ROOT")
            variables.update(dict.fromkeys(("screenshot", "plug", "unplug"), "DRM_SERVER_DISPLAY"))
            variable = variables.get(named, "DRM_SERVER_PROGRAM")
            expect(f"whether {name} has {variable}", variable in section.partition(".SH ")[0], True)

    def test_pages_name_the_commands_of_the_package(self):
        """Not the tools behind them, and each sentence once."""
        make(self.folder)
        for name in COMMANDS:
            text = (self.folder / f"man/man1/zirkoshe-{name}.1").read_text().replace("\\-", "-")
            expect(f"tools in {name}", re.findall(r"(?m)^(?:with-server|drm-client|drm-audit)\b", text), [])
            sentences = re.findall(r"[A-Z][^.]{40,}\.", " ".join(text.partition(".SH DESCRIPTION")[2].split()))
            expect(f"sentences of {name} that are there twice", {s for s in sentences if sentences.count(s) > 1}, set())

    def test_tables_have_their_heads(self):
        make(self.folder)
        text = (self.folder / "man/man5/zirkoshe-script.5").read_text()
        expect("the head of the first table", "\\fIline\\fR\n\\fIevent\\fR\n" in text, True)

    def test_pages_are_set_without_a_warning(self):
        want_program("man")
        make(self.folder)
        for section, names in PAGES.items():
            for name in names:
                page = self.folder / "man" / section / name
                ran = run("man", "--warnings", "-E", "UTF-8", "-l", page, env={**os.environ, "LC_ALL": "C.UTF-8"})
                expect(f"what man says of {name}", (ran.returncode, ran.stderr), (0, ""))

    def test_pages_by_mandoc(self):
        want_program("mandoc")
        make(self.folder)
        for section, names in PAGES.items():
            for name in names:
                ran = run("mandoc", "-Tlint", self.folder / "man" / section / name)
                expect(f"what mandoc says of {name}", (ran.returncode, ran.stdout), (0, ""))

    def test_completion_of_bash(self):
        want_program("bash")
        make(self.folder)
        completion = self.folder / "bash-completion/completions/zirkoshe"
        for words, wanted in (
            ("zirkoshe e", "explain"),
            ("zirkoshe serve --ca", "--card --cards"),
            ("zirkoshe check --u", "--update"),
            ("zirkoshe explain --li", "--line --limits"),
        ):
            count = len(words.split()) - 1
            script = (
                f'source {completion}; COMP_WORDS=({words}); COMP_CWORD={count}; _zirkoshe; echo "${{COMPREPLY[@]}}"'
            )
            ran = run("bash", "-c", script)
            expect(f"what completes {words}", (ran.stderr, ran.stdout), ("", wanted + "\n"))

    def test_completions_of_zsh_and_fish(self):
        """Their syntax is checked where they are installed."""
        make(self.folder)
        zsh = self.folder / "zsh/site-functions/_zirkoshe"
        fish = self.folder / "fish/vendor_completions.d/zirkoshe.fish"
        for text in (zsh.read_text(), fish.read_text()):
            expect("commands that are missing", [name for name in COMMANDS if name not in text], [])
        for shell, file in (("zsh", zsh), ("fish", fish)):
            if run("sh", "-c", f"command -v {shell}").returncode == 0:
                ran = run(shell, "-n", file)
                expect(f"what {shell} says", (ran.returncode, ran.stderr), (0, ""))

    def test_command_line(self):
        ran = run(REPOSITORY / "tools/manual")
        expect("status and whether it explains itself", (ran.returncode, "required: FOLDER" in ran.stderr), (2, True))


if __name__ == "__main__":
    sys.exit(run_tests())
