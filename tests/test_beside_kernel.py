#!/usr/bin/env python3
"""Tests of tools/beside-kernel: docs/LINUX.md, the expected differences, and a few scripts and errnos on a kernel.

What it tests: `docs/LINUX.md` and the files that it is written from. 272 errnos of the library for libdrm programs.
A few scripts, and these errnos, on a kernel in QEMU, if `tools/beside-kernel` has fetched one.

One test boots a kernel of the cache in QEMU, and is skipped where there is none. `tools/beside-kernel` fetches kernels and compares all
scripts. The last line is `N passed, M failed`. Standard library only.
"""
import sys

sys.dont_write_bytecode = True
from support import (  # noqa: E402
    REPOSITORY,
    FolderCase,
    Skipped,
    expect,
    expect_end,
    run,
    run_program,
    run_tests,
    want_libdrm,
    want_program,
)

import kernels  # noqa: E402
import linux_page  # noqa: E402
from comparison import Asked, ask_server, compare, model_scripts  # noqa: E402
from kernel_scripts import (  # noqa: E402
    EXAMPLES,
    MODULE,
    MODULES,
    VIRTIO,
    Script,
    bundled,
    compared,
    random_script,
    read_page,
    read_script,
    read_trials,
    scripts_of,
    scripts_of_examples,
)
from kernel_standings import CALLS, scripts_of_standings  # noqa: E402
from libdrm_errnos import FILE as ERRNOS  # noqa: E402
from libdrm_errnos import build_program, compare_errnos, errnos_of_the_library, wrong_errnos  # noqa: E402

import plain_device  # noqa: E402

REQUESTS = REPOSITORY / "docs/REQUESTS.md"
# how long a boot of the test may take, of three attempts
SECONDS = 40
BOOTED = ("rows/leases_are_refused_in_order", "linux/unknown_connector", "linux/lessees_that_lease")
RANDOM = (1, 2, 3)
HEAD = (
    "# A title\n# subject: Leases\n# met by: few\n# function: f\n# kernel: It does\n#   this.\n# here: It does that.\n"
)
SCRIPT = "open a card -> client 1\na setcrtc 1 0 99 -> denied 30 NoModeObject 2\n# linux 6.12: errno 22\na version\n"


def pages():
    """The files of examples/linux."""
    return sorted((EXAMPLES / "linux").rglob("*.script"))


def answers_of(model):
    """What a kernel's device in Python answers to a script, as drm_script prints it; the first one where there are several."""
    return [f"{number} {line.answer.split(' or ')[0]}" for number, line in sorted(model.items())]


def printed(scripts, models):
    """What a kernel prints that answers as its device in Python does."""
    return [line for script, model in zip(scripts, models) for line in (f"= {script.name}", *answers_of(model))]


class BesideKernelTests(FolderCase):
    """Tests of tools/beside-kernel: docs/LINUX.md, the expected differences, and a few scripts on a kernel."""

    def test_page_is_that_of_the_examples(self):
        text = linux_page.PAGE.read_text()
        expect("the page", text, linux_page.page_of(linux_page.compared_of(text)))
        heads = [read_page(path) for path in pages()]
        expect("subjects", {head.subject for head in heads}, {linux_page.REPRESENTED, *linux_page.SUBJECTS})
        for head in heads:
            is_difference = head.subject != linux_page.REPRESENTED
            expect(f"whether {head.title} has a level", head.met_by in linux_page.LEVELS, is_difference)
            expect(f"whether {head.title} has a function", head.function != "", is_difference)

    def test_head_and_differences_of_a_file(self):
        file = self.folder / "some.script"
        file.write_text(HEAD + SCRIPT)
        wanted = ("A title", "Leases", "It does this.", "It does that.", "few", "f")
        expect("the head", tuple(read_page(file)), wanted)
        script = read_script(file)
        expect("the lines", script.lines[7:9], ["open a card", "a setcrtc 1 0 99"])
        expect("a difference in 6.12", script.expected_of("6.12"), {9: "errno 22"})
        expect("a difference in 6.1", script.expected_of("6.1"), {})

    def test_answers_as_they_are_compared(self):
        for answer, wanted in (
            ("denied 30 NoModeObject 2", "errno 2"),
            ("apart 50 JournalFull 28", "errno 28"),
            ("client 7", "client"),
            ("lease 1 2", "lease 1 2"),
        ):
            expect(answer, compared(answer), wanted)

    def test_differences_are_those_of_the_device_in_python(self):
        """The device of each series answers as the server does, but for the differences that the files expect."""
        runs = [ask_server(device, scripts_of(f"linux/{device.driver}")) for device in MODULES]
        runs.append(ask_server(MODULE, scripts_of_examples() + scripts_of_standings()))
        for series in kernels.SERIES:
            for asked in runs:
                models = model_scripts(asked, series)
                result = compare(series, series, asked, models, printed(asked.scripts, models))
                expect(f"{series}: what is wrong", (result.unexplained, result.missing), ([], []))
        known = {script.name for asked in runs for script in asked.scripts}
        expect("files that are no script of a topology", {read_script(path).name for path in pages()} - known, set())

    def test_files_of_other_topologies(self):
        for device in MODULES:
            files = sorted((EXAMPLES / "linux" / device.driver).glob("*.script"))
            topology = EXAMPLES / "topologies" / f"{device.driver}.topology"
            if files:
                expect("the check", run_program("check", "--topology", topology, *files).returncode, 0)

    def test_each_call_is_made_by_each_kind_of_client(self):
        expect("calls", {call.split()[0] for call in CALLS}, {*plain_device.CALLS, "raw"} - {"audit"})

    def test_another_answer_of_a_kernel_is_found(self):
        """A difference that no file explains, and an expected one that does not show."""
        script = read_script(EXAMPLES / "linux/unknown_connector.script")
        number = min(script.expected)
        asked = ask_server(MODULE, [script])
        models = model_scripts(asked, "6.1")
        for came, wanted in (("errno 2", (0, 1)), ("errno 5", (1, 1)), ("errno 22", (0, 0))):
            changed = [
                f"{number} {came}" if line.startswith(f"{number} ") else line for line in printed([script], models)
            ]
            result = compare("6.1", "6.1", asked, models, changed)
            expect(f"what {came} is", (len(result.unexplained), len(result.missing)), wanted)
        wrong = asked._replace(server=[{**asked.server[0], number: "denied 38 NoFb 2"}])
        result = compare("6.1", "6.1", wrong, models, printed([script], models))
        expect("another answer of the server", (len(result.explained), len(result.unexplained)), (0, 1))
        result = compare("6.1", "6.1", asked, models, [])
        expect("a script that a kernel did not run", len(result.unexplained), len(asked.server[0]))

    def test_random_scripts_without_differences(self):
        for device in (MODULE, VIRTIO):
            script = random_script(1, device)
            asked = ask_server(device, [script])
            for series in kernels.SERIES:
                models = model_scripts(asked, series)
                result = compare(series, series, asked, models, printed([script], models))
                counts = (result.lines, len(result.explained), len(result.unexplained))
                expect(f"lines and differences on {device.driver}", counts, (120, 0, 0))
        expect("the same script by the same number", random_script(2), random_script(2))

    def test_answers_that_a_script_is_given(self):
        """They have the script's numbers. An errno has none, nor has an import that may return several handles."""
        script = Script("some", ["open a card", "a gem_close 1", "a get_magic"], {})
        model = model_scripts(Asked(MODULE, [script], []), "6.1")[0]
        expect(
            "the script",
            bundled(script, model),
            "= some\nopen a card -> client 1\na gem_close 1\na get_magic -> number 1\n",
        )

    def test_drm_script_without_a_device(self):
        want_program("gcc")
        words = [word for word in want_libdrm() if word.startswith("-I")]
        program = self.folder / "drm_script"
        ran = run("gcc", "-std=gnu11", *words, "-o", program, *sorted((REPOSITORY / "clients/kernel").glob("*.c")))
        expect("what gcc says", (ran.returncode, ran.stderr), (0, ""))
        ran = run(program, "--card", self.folder / "card0")
        told = f"drm_script: no such device: {self.folder}/card0\n"
        expect("without a device", (ran.returncode, ran.stdout, ran.stderr), (1, "", told))
        ran = run(program, "--driver", "no such driver")
        expect("without a driver", (ran.returncode, ran.stdout), (1, ""))
        ran = run(program, "--other")
        expect("another option", (ran.returncode, ran.stderr[:6]), (2, "usage:"))

    def test_drm_script_without_memory(self):
        """A file that is longer than the memory for it: the error is kept, and no block of memory is left."""
        want_program("gcc")
        words = [word for word in want_libdrm() if word.startswith("-I")]
        folder = REPOSITORY / "clients/kernel"
        sources = [path for path in sorted(folder.glob("*.c")) if path.name != "drm_script.c"]
        program, script = self.folder / "read_whole", self.folder / "script"
        ran = run("gcc", "-std=gnu11", "-I", folder, *words, "-o", program, REPOSITORY / "tests/read_whole.c", *sources)
        expect("what gcc says", (ran.returncode, ran.stderr), (0, ""))
        script.write_text("# a comment\n" * 10_000 + "the end")
        expect_end(run(program, script, 1 << 20), 0, "", "end\n0 blocks\n")
        expect_end(run(program, script, 1 << 16), 0, "", "Cannot allocate memory\n0 blocks\n")

    def test_errnos_of_the_library_are_those_of_the_file(self):
        want_libdrm()
        library = errnos_of_the_library()
        expect("what is wrong", wrong_errnos(library), [])
        expect("requests", f"`tests/libdrm_errnos.c` makes {len(library)} requests" in REQUESTS.read_text(), True)

    def test_errnos_that_differ_are_those_of_the_document(self):
        script, known = read_trials(ERRNOS)
        for series in kernels.SERIES:
            for number, errno in script.expected_of(series).items():
                row = f"| {script.lines[number - 1]} | {known[number]} | {errno} |\n"
                expect(f"the row {row}", row in REQUESTS.read_text(), True)
        rows = REQUESTS.read_text().partition("| request | library | kernels |\n")[2].partition("\n\n")[0]
        expect("rows", rows.count("\n"), len(script.expected))

    def test_other_errnos_of_a_kernel_are_found(self):
        script, known = read_trials(ERRNOS)
        library = {script.lines[number - 1]: errno for number, errno in known.items()}
        kernel = {**library, **{script.lines[n - 1]: errno for n, errno in script.expected_of("6.12").items()}}
        differing = len(script.expected_of("6.12"))
        for changes, wanted in (({}, (0, 0)), ({"write": "done"}, (1, 0)), (library, (0, differing))):
            printed = [f"{name}: {errno}" for name, errno in {**kernel, **changes}.items()]
            result = compare_errnos("6.12", "6.12", library, printed)
            expect(f"with {len(changes)} changes", (len(result.unexplained), len(result.missing)), wanted)

    def test_scripts_on_a_device_of_this_machine(self):
        """The library for libdrm programs is that device, which answers these lines as the server does."""
        want_libdrm()
        words = ["tools/beside-kernel", "--here", "/dev/dri/card0", "examples/rows/lessees_show_what_they_lease.script"]
        ran = run("tools/with-server", "--libdrm", "--render", *words, cwd=REPOSITORY)
        expect("the status", (ran.returncode, ran.stderr.count("Traceback")), (0, 0))
        counts = "1 scripts, 25 lines compared: 0 differences as expected, 0 not explained, 0 expected ones missing"
        expect("the counts", counts in ran.stdout, True)
        ran = run("tools/beside-kernel", "--here", self.folder / "card0", cwd=REPOSITORY)
        expect("a device that does not exist", (ran.returncode, "no such device" in ran.stderr), (2, True))

    def test_command_line(self):
        command = REPOSITORY / "tools/beside-kernel"
        expect("help", run(command, "--help").returncode, 0)
        ran = run(command, "--kernel", "2.4")
        expect("another series", (ran.returncode, "invalid choice: '2.4'" in ran.stderr), (2, True))

    def test_scripts_on_a_kernel(self):
        try:
            kernels.require_programs()
            kernel = kernels.kernel_of(max(kernels.kept_kernels(), default="6.1"), fetches=False)
            scripts = [read_script(EXAMPLES / f"{name}.script") for name in BOOTED] + [random_script(n) for n in RANDOM]
            asked = ask_server(MODULE, scripts)
            models = model_scripts(asked, kernel.series)
            text = "".join(bundled(script, model) for script, model in zip(scripts, models))
            booted = kernels.boot(kernel, kernels.Load({MODULE.driver: text}, {}, build_program()), SECONDS)
        except (kernels.Missing, kernels.Slow) as reason:
            raise Skipped(str(reason)) from None
        result = compare(kernel.version, kernel.series, asked, models, booted.answers[MODULE.driver])
        expect("what is wrong", (result.unexplained, result.missing), ([], []))
        expect("lines", result.lines, sum(map(len, asked.server)) - sum(result.left_out.values()))
        expect("differences", len(result.explained) > 0, True)
        errnos = compare_errnos(kernel.version, kernel.series, errnos_of_the_library(), booted.answers["program"])
        expect("wrong errnos", (errnos.unexplained, errnos.missing), ([], []))
        expect("the topology of virtio-gpu", booted.topologies["virtio_gpu"], VIRTIO.text)


if __name__ == "__main__":
    sys.exit(run_tests())
