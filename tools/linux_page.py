"""docs/LINUX.md, as tools/beside-kernel writes it from examples/linux and from what it ran."""

from __future__ import annotations

import datetime
import pathlib
import textwrap
from typing import Iterator, List, Sequence, Tuple

from comparison import Result
from kernel_scripts import EXAMPLES, MODULES, REPOSITORY, Page, Script, read_page, read_script
from kernel_standings import STANDINGS

PAGE = REPOSITORY / "docs/LINUX.md"
SUBJECTS = ("Requests", "Buffers", "Masters", "Mode setting", "Leases", "Limits")
# how many programs meet a difference, in the order of the page
LEVELS = {
    "many": "Differences that many programs meet",
    "some": "Differences that some programs meet",
    "few": "Differences that few programs meet",
}
# where a function of a kernel is
SOURCE = "https://elixir.bootlin.com/linux/v6.1/A/ident/"
REPRESENTED = "Scripts"
COMPARED = "## What was compared\n"
NEXT = "## Scripts on a kernel\n"
# the comparison that REQUESTS has
ERRNOS = "libdrm_errnos"
TOPOLOGIES = {device.driver for device in MODULES}

INTRODUCTION = """\
# Differences from Linux

Where the [rules](RULES.md) of this server differ from the DRM core of Linux, as
[drm-uapi](https://docs.kernel.org/gpu/drm-uapi.html), [drm-mm](https://docs.kernel.org/gpu/drm-mm.html),
[drm(7)](https://manpages.debian.org/bookworm/libdrm-dev/drm.7.en.html) and
[drm-gem(7)](https://manpages.debian.org/bookworm/libdrm-dev/drm-memory.7.en.html) describe it.

`tools/beside-kernel` runs the same scripts on kernels and on the server. It fails if an answer differs and this page
does not say so, or if a difference of this page does not show. With `--update` it writes this page.
[LIBDRM](LIBDRM.md) lists further differences for programs over libdrm.

The differences that a program is most likely to meet are first. Each links to a script of `examples/linux`, in [this
form](SCRIPTS.md), and to the kernel's function in Linux 6.1. For another version, replace `v6.1` in the address. A comment
`# linux: ANSWER` has the different answer of the kernels to the line above it, `# linux 6.12: ANSWER` that of one series.
`errno N` is any refusal. This command checks the server's answers:

    ./drm_server check examples/linux/*.script

The scripts in `examples/linux/laptop` are for the topology `examples/topologies/laptop.topology`.

"""

SCRIPTS = """\

`clients/kernel/drm_script` makes each line of a script as an ioctl. Numbers that a kernel chooses, such as the ids of
objects, are mapped to the script's numbers at their first use. Each row is a script whose lines are answered alike if
the last column has no line.

"""


def cell(text: str) -> str:
    return text.replace("|", "\\|")


def table(head: Sequence[str], rows: Sequence[Sequence[str]]) -> str:
    """A table of a document."""
    lines = [head, ["---"] * len(head), *rows]
    return "".join(f"| {' | '.join(map(cell, line))} |\n" for line in lines)


def kernels_of(script: Script) -> str:
    """The series in which the differences of a script show, if not in all."""
    rows = [kernels for row in script.expected.values() for kernels, _ in row]
    series = sorted({one for kernels in rows for one in kernels})
    return f" (only {', '.join(series)})" if series and all(rows) else ""


def shown_line(path: pathlib.Path, script: Script) -> str:
    """The first line of a script that a kernel answers differently, with both answers."""
    if not script.expected:
        return ""
    number = min(script.expected)
    here = path.read_text().splitlines()[number - 1].partition(" -> ")[2]
    answer = script.expected[number][0][1]
    return f"`{script.lines[number - 1]}`: `{answer}`{kernels_of(script)}, here `{here}`"


def row_of(path: pathlib.Path, page: Page) -> Tuple[str, ...]:
    """The row of a file."""
    title = f"[{page.title}](../{path.relative_to(REPOSITORY)})"
    source = f" [`{page.function}`]({SOURCE}{page.function})" if page.function else ""
    return page.subject, title, page.kernel + source, page.here, shown_line(path, read_script(path))


def rows_of(level: str) -> List[Tuple[str, ...]]:
    """The rows of the differences that so many programs meet, or without a level of the others, by their subjects."""
    pages = [(path, read_page(path)) for path in sorted((EXAMPLES / "linux").rglob("*.script"))]
    rows = [row_of(path, page) for path, page in pages if page.met_by == level]
    return sorted(rows, key=lambda row: SUBJECTS.index(row[0])) if level else [row[1:] for row in rows]


def written_table(level: str) -> str:
    """The table of a level, between the marks of what a tool writes (tools/prose)."""
    head = ("rule", "in a kernel", "here", "a line, and both answers")
    shown = table(("subject", *head) if level else head, rows_of(level))
    return f"<!-- written by tools/beside-kernel -->\n\n{shown}\n<!-- end -->\n"


def page_of(compared: str) -> str:
    """The page, with this text about what was compared."""
    parts = [INTRODUCTION]
    for level, heading in LEVELS.items():
        parts += [f"## {heading}\n\n", written_table(level), "\n"]
    return "".join([*parts, COMPARED, "\n", compared, NEXT, SCRIPTS, written_table("")])


def compared_of(text: str) -> str:
    """What a page says about what was compared."""
    return text.partition(f"{COMPARED}\n")[2].partition(NEXT)[0]


def result_rows(results: Sequence[Result]) -> Iterator[Tuple[str, ...]]:
    """A row for each device of each kernel."""
    for result in results:
        if result.kernel.endswith(ERRNOS):
            continue
        version, _, driver = result.kernel.partition(" ")
        counts = (result.scripts, result.lines, len(result.explained), len(result.unexplained))
        named = f"the module, `{driver}`" if driver in TOPOLOGIES else f"`{driver}`" if driver else "the module"
        yield (version, named, *(f"{count:,}" for count in counts))


def compared_text(results: Sequence[Result], machine: str, seconds: float) -> str:
    """What is said about a comparison."""
    day = datetime.date.today().isoformat()
    head = ("kernel", "driver", "scripts", "lines compared", "differences as listed here", "others")
    left_out = {reason: count for result in results for reason, count in result.left_out.items()}
    reasons = "; ".join(f"{count} that are {reason}" for reason, count in sorted(left_out.items()))
    text = [
        f"On {day}, with Debian's kernels in QEMU, in {seconds / 60:.1f} minutes on {machine}:",
        table(head, list(result_rows(results))).rstrip("\n"),
        "All worked rows (`examples/rows`) and all of `examples/linux` ran on the module with the test topology. In"
        f" {len(STANDINGS)} further scripts, a client of each kind makes each call (`tools/kernel_standings.py`). The other"
        " scripts are random, of 120 lines each. The module also had each topology of `examples/topologies`.",
        "Half of the module's random scripts, and all of the other drivers, are drawn so that no line is expected to be"
        " answered differently. The others are drawn freely. Most of their differences follow from an earlier one, such as"
        f" a client or a descriptor that is not open. Some lines are left out: {reasons}.",
    ]
    return "".join(f"{part if part.startswith('|') else textwrap.fill(part, 120)}\n\n" for part in text)
