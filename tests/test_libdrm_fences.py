#!/usr/bin/env python3
"""Tests of synchronisation objects and fences over clients/libdrm.

What it tests: synchronisation objects and fences of two processes, with the library or under the supervisor:
handles, points, waits, eventfds, descriptors of fences. Waits that are killed, interrupted and in time.
Commits that wait for fences and make them.

Each case of tests/libdrm_fences.c runs with the library and under the supervisor. Expectations are those of the kernel's core
(drm_syncobj.c, sync_file.c, drm_atomic_uapi.c). The last line is `N passed, M failed`. If there is no C compiler or no libdrm with its
headers, the tests are skipped, and if the kernel allows no supervisor, the other half. Standard library only.
"""
import functools
import sys

sys.dont_write_bytecode = True
from support import FolderCase, run_tests  # noqa: E402

from libdrm_support import finds_alike  # noqa: E402

finds = functools.partial(finds_alike, "tests/libdrm_fences.c")


class LibdrmFencesTests(FolderCase):
    """Tests of synchronisation objects and fences over clients/libdrm."""

    def test_objects_of_one_process(self):
        """The lowest free handle of each file, and what a wait returns: drm_syncobj_array_wait_timeout."""
        finds(
            "objects",
            """\
handles 1 2 3, another file's 1
destroy: done
again: EINVAL
the next is 1
without a fence: EINVAL, first 77
for submit: ETIME, first 77
signaled: done, first 0
one without a fence: EINVAL, first 77
any, for submit: done, first 1
all, for submit: ETIME, first 77
signal: done
all: done, first 0
reset: done
all of which one is reset: EINVAL, first 77
another file's handle: ENOENT, first 77
""",
        )

    def test_points_of_timelines(self):
        """Points that are signalled in order and out of it, and what QUERY reports."""
        finds(
            "timelines",
            """\
without points: done, points 0 0, last 0 0
signal 5 and 7: done
then: done, points 5 7, last 5 7
wait for 3: done, first 0
wait for 5: done, first 0
wait for 6: EINVAL, first 77
wait for 6, for submit: ETIME, first 77
wait for 6, available: ETIME, first 77
signal 3: done
out of order: done, points 5 7, last 5 7
transfer 7 to 9: done
transferred: done, points 9 7, last 9 7
transfer 8: EINVAL
reset: done
transfer to a binary one: EINVAL
reset: done, points 0 0, last 0 0
""",
        )

    def test_another_process_wakes_a_wait(self):
        """By a signal and by a point. Who was woken has the answer, though the object is reset at once."""
        finds(
            "shared",
            """\
export: done, closed at exec 1
import: done, handle 1
wait: done, first 0, waited 1
wait for a point: done, first 0
""",
        )

    def test_killed_waits_break_nothing(self):
        finds(
            "killed",
            """\
after 20 kills: done
""",
        )

    def test_signal_interrupts_a_wait(self):
        """The timeout is a time of CLOCK_MONOTONIC."""
        finds(
            "interrupted",
            """\
interrupted: EINTR, alarms 1
then: ETIME, in time 1
""",
        )

    def test_fences_are_descriptors(self):
        """Readable once they are signalled, also after passing; SYNC_IOC_FILE_INFO and SYNC_IOC_MERGE."""
        finds(
            "sync-files",
            """\
readable 1
of an object that is reset: done, status 1, 1 fences, the first stub of stub, status 1, time 1
passed: readable 1
passed: done, status 1, 1 fences, the first stub of stub, status 1, time 1
import: done
imported: done, first 0
merge with no descriptor: ENOENT
merge: done
merged: readable 1, closed at exec 1
info: done, name both, 1 fences, status 1
another request: ENOTTY
import of a fence as an object: EINVAL
import of a node as a fence: EINVAL
""",
        )

    def test_eventfds_are_signaled(self):
        """An object with the highest count delays no other request."""
        finds(
            "eventfds",
            """\
eventfd: done
point 1: readable 0
point 2: readable 1
count 1
again: done, readable 1
of a node: EINVAL
of no descriptor: EBADF
highest count: done
""",
        )

    def test_commits_signal_fences(self):
        """OUT_FENCE_PTR: at the time of the event. -1 without a change, and a blocking commit has signalled it."""
        finds(
            "out-fences",
            """\
commit: done, fences 1, closed at exec 1
readable 0, soon the other 1, this one 0
then 1, at the time of the event 1 1
test: done, -1
refused: ENOSPC, -1
wrong address: EFAULT
no address: done
blocks: done, readable 1
dark: EINVAL, -1
""",
        )

    def test_commits_wait_for_fences(self):
        """IN_FENCE_FD: without blocking, the change and its event come later. Other descriptors are refused."""
        finds(
            "in-fences",
            """\
values -1 0
does not block: done, changed 0, readable 0
again: EBUSY
flip: EBUSY
event later 1, changed 1, fence 1 at the same time 1, after the other 1
blocks: done, signaled 1
signaled: done, changed 1
no fence: done
a node: EINVAL
not open: EINVAL
-2: EINVAL
""",
        )

    def test_commits_that_wait_are_kept_in_order(self):
        """MODE_SETCRTC waits for one. One whose framebuffer is removed, or whose file is closed, signals its fence."""
        finds(
            "waiting-commits",
            """\
darkens: done, after the fence 1, shows 0
removed: event 1, readable 1
closed: done, readable 1
""",
        )

    def test_another_process_waits_for_a_fence(self):
        """By poll and by an object. A merged fence waits for both."""
        finds(
            "passed-fence",
            """\
one of two 1, both 0
another process: readable 0, import done, wait ETIME, then done, readable 1
it: done, status 1, 1 fences, the first CRTC:1 of zirkoshe, status 1, time 1
both 1
both: done, status 1, 2 fences, the first CRTC:1 of zirkoshe, status 1, time 1
""",
        )


if __name__ == "__main__":
    sys.exit(run_tests())
