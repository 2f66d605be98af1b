"""The errnos of the library for libdrm programs, compared with those of kernels by tests/libdrm_errnos.c."""

from __future__ import annotations

import collections
import hashlib
import pathlib
import subprocess
import tempfile
from typing import Dict, List

import kernels
from comparison import Difference, Result
from kernel_scripts import REPOSITORY, read_trials

SOURCES = sorted((REPOSITORY / "tests").glob("libdrm_errnos*.c"))
FILE = REPOSITORY / "tests/libdrm_errnos.txt"
TOPOLOGY = REPOSITORY / "tests/libdrm_errnos.topology"
COMPILE = ["gcc", "-std=gnu11", "-O2", "-I", str(kernels.HEADERS.parent)]
NODES = ("/dev/dri/card0", "/dev/dri/renderD128")


def build_program() -> kernels.Program:
    """The program without shared libraries, and its topology."""
    mark = hashlib.sha256(b"".join(path.read_bytes() for path in SOURCES)).hexdigest()[:16]
    built = kernels.cache() / f"libdrm_errnos-{mark}"
    if not built.exists():
        kernels.run(*COMPILE, "-static", "-o", built, *SOURCES)
        kernels.remove_older(built, "libdrm_errnos-*")
    return kernels.Program(built, kernels.parameter_of(TOPOLOGY.read_text()))


def errnos_of_the_library() -> Dict[str, str]:
    """The errno of each request with the library and its own server."""
    with tempfile.TemporaryDirectory(prefix="drm-errnos-") as room:
        program = pathlib.Path(room) / "libdrm_errnos"
        kernels.run(*COMPILE, "-o", program, *SOURCES)
        server = [REPOSITORY / "tools/with-server", "--libdrm", "--render", "--topology", TOPOLOGY]
        ran = subprocess.run([*server, program, *NODES], stdout=subprocess.PIPE, text=True, check=True)
    return errnos_of(ran.stdout.splitlines())


def errnos_of(printed: List[str]) -> Dict[str, str]:
    """The errno of each request, by what the program printed."""
    return {name: errno for name, _, errno in (line.rpartition(": ") for line in printed)}


def wrong_errnos(errnos: Dict[str, str]) -> List[str]:
    """The requests whose errno with the library is not that of the file."""
    script, known = read_trials(FILE)
    names = {script.lines[number - 1]: errno for number, errno in known.items()}
    return [
        f"{name}: {errnos.get(name, 'nothing')} in place of {names.get(name, 'nothing')}"
        for name in sorted({*errnos, *names})
        if errnos.get(name) != names.get(name)
    ]


def compare_errnos(kernel: str, series: str, library: Dict[str, str], printed: List[str]) -> Result:
    """Compares the errnos of a kernel with those of the library, and with what the file expects."""
    script, _ = read_trials(FILE)
    expected, errnos = script.expected_of(series), errnos_of(printed)
    result = Result(f"{kernel} libdrm_errnos", 1, len(library), collections.Counter(), [], [], [])
    result.missing.extend(f"{script.name}: {wrong}" for wrong in wrong_errnos(library))
    for number, name in enumerate(script.lines, 1):
        if name not in library:
            continue
        came, here = errnos.get(name, "nothing"), library[name]
        found = Difference(result.kernel, script.name, number, name, here, came, (script.name,))
        if came != here and came == expected.get(number):
            result.explained.append(found)
        elif came != here:
            result.unexplained.append(found._replace(files=()))
        elif number in expected:
            result.missing.append(f"{script.name}:{number}: the difference does not show: {came}")
    return result
