"""The crates of this repository, as crates.txt lists them, and the memory and processors for work on several of them at once."""

from __future__ import annotations

import os
import pathlib
import re
from typing import Dict, Iterable, List

REPOSITORY = pathlib.Path(__file__).resolve().parent.parent
CRATES = REPOSITORY / "crates.txt"


def read_crates(text: str) -> Dict[str, List[str]]:
    """Returns each crate, in the order of the text, with those of its libraries that are crates here."""
    lines = (line.partition("#")[0].partition(":") for line in text.splitlines())
    named = {head.split()[0]: libraries.split() for head, _, libraries in lines if head.strip()}
    return {name: [library for library in libraries if library in named] for name, libraries in named.items()}


def with_those_below(names: Iterable[str], crates: Dict[str, List[str]]) -> List[str]:
    """Returns these crates and all that they depend on, in the order of `crates`."""
    found, left = set(), list(names)
    while left:
        name = left.pop()
        if name not in found:
            found.add(name)
            left += crates[name]
    return [name for name in crates if name in found]


def jobs_for(bytes_of_each: int) -> int:
    """Returns how many jobs of this size the free memory and all processors but one are enough for, at least 1."""
    free = re.search(r"MemAvailable: *(\d+) kB", pathlib.Path("/proc/meminfo").read_text())
    room = int(free[1]) * 1024 // bytes_of_each if free else 1
    return max(1, min(len(os.sched_getaffinity(0)) - 1, room))
