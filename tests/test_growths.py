#!/usr/bin/env python3
"""The tests in Rust with one of their requests for memory refused: the first, the second, and so on, until none is.

`./test` leaves them as programs, in which each test is run by its name. `tests/refuse.c` is loaded into one and refuses the request. What
grows is asked for again where it was refused, and everything behind it is then compared as without a refusal; so a refusal that leaves
something behind makes the test fail. A test that has no memory for own values, or for what it begins with, says so and ends. It wants
a C compiler and glibc. A line near the end tells how many requests were refused, and the last one is `N passed, M failed`. Standard library
only.
"""
import functools
import itertools
import pathlib
import re
import struct
import subprocess
import sys
from typing import Iterator, List, NamedTuple

sys.dont_write_bytecode = True
from support import REPOSITORY, FolderCase, Skipped, expect, loading, run_tests  # noqa: E402

# how long one run of a test may take
MOST_SECONDS = 60

# what a test says that has no own memory
WITHOUT_MEMORY = re.compile(r"error: .*(AllocError|NoMemory)")

# what knows no want of memory: thousands of random calls next to a plain list, and threads that call at once
OTHERS = re.compile(r"::(random|threads)_")


class Ran(NamedTuple):
    """A run of a test: how it ended, what it said, and how many requests it made, of which so many were refused."""

    status: int
    said: str
    requests: int
    refused: int


# how many requests were refused, and how many of these were a test's own
refusals = {"all": 0, "own": 0}


@functools.lru_cache(maxsize=None)
def program_of(crate: str) -> pathlib.Path:
    """The program of a crate's tests."""
    built = REPOSITORY / "crates" / crate / "out" / f"{crate}_tests"
    if not built.exists():
        raise Skipped(f"the gate builds the tests of {crate}, which are not there")
    return built


def names_of(crate: str, *modules: str) -> List[str]:
    """The tests of these modules."""
    listed = subprocess.run([program_of(crate), "--list"], capture_output=True, text=True, check=True).stdout
    names = [line.rsplit(": ", 1)[0] for line in listed.splitlines() if line.endswith(": test")]
    return [name for name in names if name.split("::")[0] in modules and not OTHERS.search(name)]


def run_refusing(note: pathlib.Path, crate: str, name: str, at: int) -> Ran:
    """Runs a test, and refuses the request of this number."""
    note.write_bytes(bytes(24))
    env = loading("refuse.c", REFUSE_AT=str(at), REFUSE_NOTE=str(note))
    ran = subprocess.run(
        [program_of(crate), name],
        capture_output=True,
        text=True,
        errors="replace",
        env=env,
        timeout=MOST_SECONDS,
        check=False,
    )
    requests, refused, _left = struct.unpack("<3Q", note.read_bytes())
    return Ran(ran.returncode, ran.stdout + ran.stderr, requests, refused)


def refused_in_turn(folder: pathlib.Path, crate: str, name: str) -> Iterator[Ran]:
    """The runs of a test in which each request is refused, one each, until none is."""
    for at in itertools.count(1):
        ran = run_refusing(folder / "note", crate, name, at)
        yield ran
        if ran.refused == 0:
            return


def expect_well(name: str, at: int, ran: Ran) -> None:
    """The test passes, or has no own memory."""
    refusals["all"] += ran.refused
    if ran.status != 0 and ran.refused and WITHOUT_MEMORY.search(ran.said):
        refusals["own"] += 1
        return
    expect(f"how {name} ends with request {at} refused: {ran.said}", ran.status, 0)


def expect_each(folder: pathlib.Path, crate: str, *modules: str) -> None:
    """Each test of these modules is well, whichever request is refused, and some request is."""
    before = refusals["all"]
    for name in names_of(crate, *modules):
        for at, ran in enumerate(refused_in_turn(folder, crate, name), start=1):
            expect_well(name, at, ran)
    expect("some request is refused", refusals["all"] > before, True)


def expect_requests_refused():
    """Prints how many requests were refused, and fails if none was."""
    program_of("drm_array_tests")  # where that isn't there, nothing was tried
    print(f"refused {refusals['all']} requests for memory, of which {refusals['own']} were a test's own", flush=True)
    expect("requests that were refused and asked again", refusals["all"] > refusals["own"], True)


class GrowthsTests(FolderCase):
    """The tests in Rust with one of their requests for memory refused: the first, the second, and so on, until none is."""

    def test_arrays_and_numbers(self):
        """`IndexArray::insert`; `IdTable::add` and `add_cyclic`; `Groups::note`."""
        folder = self.folder
        expect_each(folder, "drm_array_tests", "arrays", "number_tables", "number_groups")

    def test_parts(self):
        """`Files::open` and `add_handle`; `Objects::create`; `Masters::on_open` and `make_lessee`.

        `tests/test_memory.py` has the other calls, by rows.
        """
        folder = self.folder
        expect_each(folder, "drm_part_tests", "handles", "objects", "masters")

    def test_shared_devices(self):
        """`SharedDevice::new` and `call`."""
        folder = self.folder
        expect_each(folder, "drm_session_tests", "turns")

    def test_jobs(self):
        """`serve_many`, which is asked again for jobs of the same bytes."""
        folder = self.folder
        expect_each(folder, "drm_session_tests", "many")

    def test_replays(self):
        """`Device::new` and `replay`: a refusal for the device is distinguished from one at an event."""
        folder = self.folder
        name = "replays::replays_stop_where_an_event_is_not_noted"
        said = ""
        for at, ran in enumerate(refused_in_turn(folder, "drm_session_tests", name), start=1):
            expect_well(name, at, ran)
            said += ran.said
        for word in ("refused for the device", "refused at an event"):
            expect(word, word in said, True)

    @classmethod
    def tearDownClass(cls) -> None:
        expect_requests_refused()


if __name__ == "__main__":
    sys.exit(run_tests())
