#!/usr/bin/env python3
"""Tests of the recipes for CI services and containers in examples/ci, each in an empty folder with an archive of the program.

What it tests: the steps of the recipes for GitHub, GitLab and a container image, each in an empty folder or root
with an archive.

Each test has its own folder. The last line is `N passed, M failed`; one whose tools aren't there is skipped, and told so.
"""
import json
import os
import pathlib
import re
import shlex
import shutil
import sys
import tarfile
import xml.etree.ElementTree as ElementTree

sys.dont_write_bytecode = True
from support import (  # noqa: E402
    REPOSITORY,
    FolderCase,
    Skipped,
    expect,
    expect_end,
    make_root,
    run,
    run_in_root,
    run_program,
    run_tests,
    want_program,
)

RECIPES = REPOSITORY / "examples/ci"
JOURNALS = ["lends_it_again.script", "lends_the_output.script"]
# what no step of a recipe may find by chance
OWN = ("DRM_", "PYTHON")


def read_yaml(name):
    """A recipe as its YAML says it."""
    try:
        import yaml
    except ImportError:
        raise Skipped("this Python has no yaml") from None
    return yaml.safe_load((RECIPES / name).read_text())


def make_archive(folder):
    """An archive of the program, by the name that the tool gives it."""
    ran = run(REPOSITORY / "tools/package", folder / "made", timeout=300)
    expect("status", ran.returncode, 0)
    return pathlib.Path(ran.stdout.rstrip("\n"))


def make_project(folder):
    """A project: an archive, scripts with their answers, and a test."""
    project = folder / "project"
    for name in ("vendor", "checks", "tests"):
        (project / name).mkdir(parents=True)
    shutil.move(make_archive(folder), project / "vendor")
    for path in sorted((REPOSITORY / "examples/tutorial").glob("*.script")):
        shutil.copy(path, project / "checks")
    shutil.copy(RECIPES / "lease_test.py", project / "tests")
    return project


def plain_environment():
    return {name: value for name, value in os.environ.items() if not name.startswith(OWN)}


def given_by(folder):
    """The environment of a step: what the steps before it wrote into the files of the runner."""
    variables = dict(line.split("=", 1) for line in (folder / "GITHUB_ENV").read_text().splitlines())
    paths = (folder / "GITHUB_PATH").read_text().splitlines()
    return {**variables, "PATH": os.pathsep.join([*paths, os.environ["PATH"]])}


def run_github(project, folder, steps):
    """Runs the steps of a job as a runner does, to the first that fails; the status."""
    environment = {**plain_environment(), "RUNNER_TEMP": str(folder / "temporary")}
    (folder / "temporary").mkdir()
    for name in ("GITHUB_PATH", "GITHUB_ENV"):
        (folder / name).touch()
        environment[name] = str(folder / name)
    scripts = [step["run"] for step in steps if "run" in step]
    ran = (
        run("bash", "-e", "-c", script, cwd=project, env={**environment, **given_by(folder)}, timeout=300)
        for script in scripts
    )
    return next((it.returncode for it in ran if it.returncode != 0), 0)


def run_gitlab(project, job):
    """Runs the lines of a job in one shell, as a runner does; the status."""
    script = "\n".join([*job["before_script"], *job["script"]])
    return run("bash", "-e", "-c", script, cwd=project, env=plain_environment(), timeout=300).returncode


def expect_kept(project):
    """A report without failures, and a journal of each test, which explains itself."""
    root = ElementTree.parse(project / "reports/checks.xml").getroot()
    checks = sorted(f"checks/{path.name}" for path in (project / "checks").iterdir())
    expect("the cases", [case.get("name") for case in root.iter("testcase")], checks)
    expect("failures and errors", (root.get("failures"), root.get("errors")), ("0", "0"))
    journals = sorted((project / "artifacts").iterdir())
    expect("the journals", [path.name for path in journals], JOURNALS)
    ran = run_program("check", *journals)
    expect("what the journals check", (ran.returncode, ran.stderr), (0, ""))


def steps_of(path):
    """The steps of a container file, each with its words: a JSON list, or a line."""
    lines = [line for line in path.read_text().splitlines() if line and not line.startswith("#")]
    return [(name, rest) for name, _, rest in (line.partition(" ") for line in lines)]


def build(steps, context, root, **arguments):
    """Takes the steps of a container file in an empty root; its environment, its folder, its words and its labels."""
    environment, folder, words, labels = {}, "/", {}, {}
    for name, rest in steps:
        rest = re.sub(r"\$([A-Z]+)", lambda match: arguments[match[1]], rest)
        if name == "ARG":
            argument, _, value = rest.partition("=")
            arguments.setdefault(argument, value)
        elif name == "LABEL":
            key, _, value = rest.partition("=")
            labels[key] = value
        elif name == "ADD":
            source, target = rest.split()
            (path,) = context.glob(source)
            with tarfile.open(path) as archive:
                archive.extractall(root / target.strip("/"))
        elif name == "RUN":
            expect_end(run_in_root(root, f"set -e; {rest}"), 0, "", "")
        elif name == "ENV":
            key, _, value = rest.partition("=")
            environment[key] = value
        elif name == "WORKDIR":
            folder = rest
            (root / folder.strip("/")).mkdir(exist_ok=True)
        elif name in ("ENTRYPOINT", "CMD"):
            words[name] = json.loads(rest)
        else:
            expect(f"the step {name}", name, "FROM")
    return environment, folder, words, labels


class RecipesTests(FolderCase):
    """Tests: recipes for CI services and containers."""

    def test_github_workflow(self):
        want_program("bash")
        steps = read_yaml("github.yml")["jobs"]["tests"]["steps"]
        project = make_project(self.folder)
        expect("status", run_github(project, self.folder, steps), 0)
        expect_kept(project)
        last = steps[-1]
        expect(
            "what is kept, and when", (last["with"]["path"].split(), last["if"]), (["reports", "artifacts"], "always()")
        )

    def test_github_workflow_whose_test_fails(self):
        """The journal of the test is kept."""
        want_program("bash")
        steps = read_yaml("github.yml")["jobs"]["tests"]["steps"]
        failing = [
            {**step, "run": step.get("run", "true").replace("lends_it_again", "lends_it_after_a_crash")}
            for step in steps
        ]
        project = make_project(self.folder)
        expect("status", run_github(project, self.folder, failing), 1)
        journal = (project / "artifacts/lends_it_after_a_crash.script").read_text()
        expect("whether the denial is in it", "denied 34 LeasedOut 16" in journal, True)

    def test_gitlab_pipeline(self):
        want_program("bash")
        job = read_yaml("gitlab.yml")["tests"]
        project = make_project(self.folder)
        expect("status", run_gitlab(project, job), 0)
        expect_kept(project)
        kept = job["artifacts"]
        found = sorted(str(path.relative_to(project)) for path in project.glob(kept["reports"]["junit"]))
        expect(
            "what is kept, and when",
            (kept["paths"], found, kept["when"]),
            (["artifacts"], ["reports/checks.xml"], "always"),
        )

    def test_pipeline_whose_script_fails(self):
        """The report says so, and the status is that of the check."""
        want_program("bash")
        job = read_yaml("gitlab.yml")["tests"]
        project = make_project(self.folder)
        (project / "checks/wrong.script").write_text("open a card -> client 2\n")
        expect("status", run_gitlab(project, job), 4)
        root = ElementTree.parse(project / "reports/checks.xml").getroot()
        expect("failures and errors", (root.get("failures"), root.get("errors")), ("1", "0"))

    def test_container_file(self):
        """Its steps, in a root that has a shell and the C library, and what the image does with scripts."""
        context, root = self.folder / "context", self.folder / "root"
        context.mkdir()
        archive = shutil.move(make_archive(self.folder), context)
        run("tar", "-xzf", archive, "-C", self.folder)
        (program,) = self.folder.glob("zirkoshe-*/bin/drm_server_main")
        make_root(root, program)
        (root / "bin/ln").symlink_to("busybox")
        (root / "opt").mkdir()
        (root / "usr/local/bin").mkdir(parents=True)
        title = os.path.basename(archive)[: -len(".tar.gz")]
        steps = steps_of(RECIPES / "Containerfile")
        environment, folder, words, labels = build(steps, context, root, ARCHIVE=title)
        expect("its labels", labels, {"org.opencontainers.image.title": title})
        expect("the Python package", (root / environment["PYTHONPATH"][1:] / "zirkoshe").is_dir(), True)
        shutil.copytree(REPOSITORY / "examples/tutorial", root / folder[1:] / "checks")
        command = shlex.join(words["ENTRYPOINT"])
        path = "PATH=/usr/local/bin:$PATH"
        ran = run_in_root(root, f"{path}; cd {folder}; {command} check checks/*.script")
        wanted = run_program("check", *sorted((REPOSITORY / "examples/tutorial").glob("*.script")))
        expect("status and output", (ran.returncode, ran.stdout), (0, wanted.stdout))
        ran = run_in_root(root, f"{path}; cd {folder}; {command} {shlex.join(words['CMD'])}")
        expect("what it prints without words", (ran.returncode, "Usage: zirkoshe" in ran.stdout), (0, True))


if __name__ == "__main__":
    sys.exit(run_tests())
