#!/usr/bin/env python3
"""Tests of atomic commits through clients/libdrm, on a device with a primary plane for each of two CRTCs and an overlay plane.

The errnos are those of the kernel's core, and of a driver that shows each plane anywhere and in any size. Each test is a function of a
folder of its own. The last line is `N passed, M failed`; where there is no C compiler and no libdrm with its headers, all are skipped.
Standard library only.
"""
import subprocess
import sys

sys.dont_write_bytecode = True
from support import REPOSITORY, SECONDS, FolderCase, connect, ended_in_time, expect, run, run_tests  # noqa: E402

from libdrm_support import compiled, environment, in_time, library, served, wait_until  # noqa: E402

TOPOLOGY = REPOSITORY / "examples/topologies/laptop.topology"
PROGRAM = "tests/libdrm_atomic.c"
ROUTES = "tests/libdrm_routes.c"

# how late an answer is, in milliseconds, while another client changes something
LATE = 3000
# the kinds of audits of all that a commit could change: holds, framebuffers, and what is shown
AUDITED = (6, 8, 9)


def commits(folder, *words, text, topology=("--topology", TOPOLOGY), program=PROGRAM):
    """What a program of commits finds, and the lines of its journal."""
    library()
    folder.mkdir(exist_ok=True)
    journal = folder / "journal"
    options = ["--libdrm", *topology, "--journal", journal]
    ran = in_time(lambda: run(REPOSITORY / "tools/with-server", *options, compiled(program), *words))
    expect("error output and status", (ran.stderr, ran.returncode), ("", 0))
    expect("what it finds", ran.stdout.splitlines(), text.splitlines())
    return [line.split() for line in journal.read_text().splitlines() if not line.startswith(("limits", "#"))]


def shown_calls(journal):
    """The calls of a journal that show something, with their answers."""
    calls = [line.split()[1:] for line in journal.read_text().splitlines()]
    return [" ".join(call) for call in calls if call[:1] in (["setcrtc"], ["setplane"])]


def steps_of(folder, frames):
    """How often each call is in the journal of N frames on two CRTCs."""
    folder.mkdir()
    words = [line[1] for line in commits(folder, "steady", frames, text=f"frames {frames}, failed 0\n")]
    return {word: words.count(word) for word in words}


class LibdrmAtomicTests(FolderCase):
    """Tests of atomic commits through clients/libdrm."""

    def test_properties_are_those_of_the_core(self):
        """An exclamation mark is one that nobody sets. Those of commits are for clients that have the capability."""
        commits(
            self.folder,
            "properties",
            text="""\
plane: type!(3 names) IN_FORMATS!(blob)
CRTC: GAMMA_LUT(blob) GAMMA_LUT_SIZE!(0-4294967295)
connector: DPMS(4 names) link-status(2 names) non-desktop!(0-1)
atomic: done
plane: type!(3 names) IN_FORMATS!(blob) FB_ID(object fbfbfbfb) IN_FENCE_FD(-1-2147483647) CRTC_ID(object cccccccc) SRC_X(0-4294967295) \
SRC_Y(0-4294967295) SRC_W(0-4294967295) SRC_H(0-4294967295) CRTC_X(-2147483648-2147483647) \
CRTC_Y(-2147483648-2147483647) CRTC_W(0-2147483647) CRTC_H(0-2147483647)
CRTC: GAMMA_LUT(blob) GAMMA_LUT_SIZE!(0-4294967295) ACTIVE(0-1) MODE_ID(blob) OUT_FENCE_PTR(0--1)
connector: DPMS(4 names) link-status(2 names) non-desktop!(0-1) CRTC_ID(object cccccccc)
types 1 1 0
writeback connectors: done
a value of 3: EINVAL
off: done
CRTC: GAMMA_LUT(blob) GAMMA_LUT_SIZE!(0-4294967295)
writeback connectors: EINVAL
""",
        )

    def test_commit_shows_and_darkens(self):
        """Each property that can be set, by what the server then shows, and by its value."""
        commits(
            self.folder,
            "shows",
            text="""\
CRTCs show 0 0, overlay shows 0
lights: done
CRTCs show 10 0, overlay shows 0
flips: done
CRTCs show 11 0, overlay shows 0
shows an overlay: done
CRTCs show 11 0, overlay shows 12
plane 12 of CRTC 1 from 0, 64 on; CRTC active 1, mode 1; connector of CRTC 1
moves it: done
to -5
switches it off: done
CRTCs show 0 0, overlay shows 0
switches it on: done
CRTCs show 11 0, overlay shows 12
darkens it: done
CRTCs show 0 0, overlay shows 0
lights both: done
CRTCs show 10 11, overlay shows 0
""",
        )

    def test_what_drives_what(self):
        """As drm_mode_getplane, drm_mode_getencoder and drm_mode_getconnector report it, also in another process."""
        commits(
            self.folder / "laptop",
            "laptop",
            program=ROUTES,
            text="""\
dark: plane 3: 0 on 0, plane 4: 0 on 0, plane 5: 0 on 0, encoder 6: 0, encoder 7: 0, connector 8: 0 connector 9: 0
lit: plane 3: 10 on 1, plane 4: 0 on 0, plane 5: 0 on 0, encoder 6: 0, encoder 7: 1, connector 8: 0 connector 9: 7
overlay: plane 3: 10 on 1, plane 4: 0 on 0, plane 5: 11 on 1, encoder 6: 0, encoder 7: 1, connector 8: 0 connector 9: 7
both: plane 3: 10 on 1, plane 4: 11 on 2, plane 5: 11 on 1, encoder 6: 2, encoder 7: 1, connector 8: 6 connector 9: 7
another process: plane 3: 10 on 1, plane 4: 11 on 2, plane 5: 11 on 1, encoder 6: 2, encoder 7: 1, connector 8: 6 connector 9: 7
lessee: plane 4: 11 on 2, encoder 6: 2, encoder 7: 0, connector 8: 6
inactive: plane 3: 0 on 0, plane 4: 11 on 2, plane 5: 0 on 0, encoder 6: 2, encoder 7: 1, connector 8: 6 connector 9: 7
darkened by a child: plane 3: 0 on 0, plane 4: 0 on 0, plane 5: 0 on 0, encoder 6: 0, encoder 7: 1, connector 8: 0 connector 9: 7
""",
        )
        commits(
            self.folder / "pairs",
            "pairs",
            program=ROUTES,
            topology=(),
            text="""\
lit: plane 3: 9 on 1, plane 4: 0 on 0, encoder 5: 1, encoder 6: 0, connector 7: 5 connector 8: 0
another process: plane 3: 9 on 1, plane 4: 0 on 0, encoder 5: 1, encoder 6: 0, connector 7: 5 connector 8: 0
""",
        )

    def test_flags_of_a_commit(self):
        commits(
            self.folder,
            "flags",
            text="""\
without the capability: EINVAL
who isn't master: EACCES
nothing: done
nothing with an event: EINVAL
reserved field: EINVAL
unknown flag: EINVAL
asynchronous: EINVAL
a test with an event: EINVAL
without a modeset: EINVAL
tests: done
CRTCs show 0 0, overlay shows 0
lights: done
flips with an event: done
flips too early: EBUSY
tests early: done
events 1, of the CRTC 1, data 1
blocks: done
for a frame: 1
flips at once: done
blocks until that is complete: done
darkens with an event: done
events 2
an event of a dark CRTC: EINVAL
without one: done
CRTCs show 0 0, overlay shows 0
""",
        )

    def test_values_that_are_refused(self):
        """By an object, a property and a value, of which -1 is a large one; and values that are taken."""
        commits(
            self.folder,
            "values",
            text="""\
lights: done
999 FB_ID 10: ENOENT
6 CRTC_ID 1: ENOENT
3 ACTIVE 1: ENOENT
3 type 1: EINVAL
3 IN_FORMATS 0: EINVAL
3 FB_ID 999: EINVAL
3 FB_ID 0: EINVAL
3 CRTC_ID 0: EINVAL
3 CRTC_ID 99: EINVAL
3 CRTC_ID 2: EINVAL
3 SRC_X 1: ENOSPC
3 SRC_Y 1: ENOSPC
3 SRC_W 4194305: ENOSPC
3 SRC_H 4259840: ENOSPC
3 SRC_H -1: EINVAL
3 CRTC_X -1: ERANGE
3 CRTC_Y -1: ERANGE
3 CRTC_X -1: EINVAL
3 CRTC_W -1: EINVAL
3 CRTC_H -1: EINVAL
5 FB_ID 10: EINVAL
5 CRTC_ID 1: EINVAL
1 ACTIVE 2: EINVAL
1 MODE_ID 0: EINVAL
1 MODE_ID 99: EINVAL
1 MODE_ID 131074: EINVAL
1 OUT_FENCE_PTR 4096: EFAULT
2 ACTIVE 1: EINVAL
2 MODE_ID 131073: EINVAL
8 CRTC_ID 0: EINVAL
8 CRTC_ID 2: EINVAL
9 CRTC_ID 1: EINVAL
8 DPMS 0: EINVAL
8 link-status 2: EINVAL
8 non-desktop 0: EINVAL
FB_ID: done
SRC_X: done
SRC_W: done
CRTC_X: done
CRTC_W: done
ACTIVE: done
OUT_FENCE_PTR: done
link-status: done
CRTC_ID: done
MODE_ID: done
""",
        )

    def test_routes_that_are_refused(self):
        """The server gets no call that it would deny."""
        journal = commits(
            self.folder,
            "routes",
            topology=(),
            text="""\
a connector of another CRTC: EINVAL
a plane of another CRTC: EINVAL
its own: done
the second one's: done
both connectors to the second: EINVAL
""",
        )
        shown = [line[1:] for line in journal if line[1] == "setcrtc"]
        expect("calls that show something", shown, ["setcrtc 1 9 7 -> done".split(), "setcrtc 2 9 8 -> done".split()])

    def test_lessee_commits_what_it_has(self):
        """An object outside the lease does not exist, and a CRTC outside cannot be a value. Nothing of such a commit is carried out."""
        commits(
            self.folder,
            "lease",
            text="""\
atomic: done
what it has: done
CRTCs show 0 10, overlay shows 0
another CRTC: ENOENT
another plane: ENOENT
another connector: ENOENT
a plane on another CRTC: EACCES
a connector on another CRTC: EACCES
what it has and another plane: ENOENT
CRTCs show 0 10, overlay shows 0
revokes: done
what it had: ENOENT
its owner: done
CRTCs show 0 0, overlay shows 0
""",
        )

    def test_refused_commit_leaves_all_unchanged(self):
        """If its last change is outside, and if it is a framebuffer that another process removed."""
        given = environment(self.folder)
        said, audits = [], []
        with served(self.folder, more=("--topology", TOPOLOGY)), subprocess.Popen(
            [compiled(PROGRAM), "denied"], stdin=subprocess.PIPE, stdout=subprocess.PIPE, text=True, env=given
        ) as committing, ended_in_time(committing):
            for line in committing.stdout:
                said.append(line.rstrip("\n"))
                if said[-1] in ("lit", "refused", "removed", "refused again"):
                    # the program is the master, since it opened first
                    with connect(self.folder / "root") as root:
                        audits.append([root.ask(f"audit {kind} 0") for kind in AUDITED])
                    committing.stdin.write("\n")
                    committing.stdin.flush()
        expect(
            "what it finds",
            said,
            [
                "lights both: done",
                "lit",
                "the last is outside: ENOSPC",
                "refused",
                "removed",
                "the last isn't there: EINVAL",
                "planes have 1 1",
                "refused again",
                "another one: done",
            ],
        )
        expect("after the refusal", audits[1], audits[0])
        expect("after the second one", audits[3], audits[2])

    def test_denied_change_takes_the_others_back(self):
        """The server answers the first change late. Meanwhile its client removes the framebuffer of the last one, which is denied."""
        given, journal = environment(self.folder), self.folder / "journal"
        more = ("--topology", TOPOLOGY, "--stall", f"setcrtc:2={LATE}", "--journal", str(journal))
        with served(self.folder, more=more), subprocess.Popen(
            [compiled(PROGRAM), "taken-back"], stdin=subprocess.PIPE, stdout=subprocess.PIPE, text=True, env=given
        ) as committing, ended_in_time(committing):
            said = [committing.stdout.readline(), committing.stdout.readline()]
            with connect(self.folder / "card") as client, connect(self.folder / "root") as root:
                asked = [client.ask("create_dumb 64 64 32"), client.ask("addfb 64 64 256 32 1")]
                expect("its framebuffer", asked, ["dumb 1 256 16384", "number 12"])
                committing.stdin.write("\n")
                committing.stdin.flush()
                wait_until(lambda: root.ask("getcrtc 1") == "number 11")
                expect("the removal", client.ask("rmfb 12"), "done")
                said += committing.communicate(timeout=SECONDS)[0].splitlines(keepends=True)
                # the last call is written after its answer
                wait_until(lambda: len(shown_calls(journal)) == 6)
        expect(
            "what it finds",
            "".join(said),
            """\
lights: done
lit
the last is gone: ENOENT
CRTCs show 10 0, overlay shows 0
planes have 1 1
another one: done
CRTCs show 11 0, overlay shows 10
""",
        )
        expect(
            "calls that show something",
            shown_calls(journal),
            [
                "setcrtc 1 10 8 -> done",
                "setcrtc 1 11 8 -> done",
                "setplane 5 1 12 -> denied 38 NoFb 2",
                "setcrtc 1 10 8 -> done",
                "setcrtc 1 11 8 -> done",
                "setplane 5 1 10 -> done",
            ],
        )

    def test_commit_costs_a_step_for_each_framebuffer_that_changes(self):
        """Two CRTCs flip in each commit. An overlay plane that stays costs none, and neither does a test."""
        few, many = steps_of(self.folder / "few", 5), steps_of(self.folder / "many", 25)
        more = {call: many[call] - few.get(call, 0) for call in many}
        expect("steps of 20 commits", {call: count for call, count in more.items() if count}, {"setcrtc": 40})
        expect("calls for the overlay plane", few["setplane"], 1)

    def test_random_commits_are_whole_or_nothing(self):
        """The library finds all that is wrong before the first call: the server denies none."""
        text = "done 1, refused 1, changed by a refusal 0, other than the server shows 0\n"
        journal = commits(self.folder, 300, text=text, program="tests/libdrm_random.c")
        shown = {(line[1], line[-1]) for line in journal if line[1] in ("setcrtc", "setplane")}
        expect("calls that show something, and answers", shown, {("setcrtc", "done"), ("setplane", "done")})

    def test_blobs_are_kept_and_destroyed(self):
        commits(
            self.folder,
            "blobs",
            text="""\
creates: done
bytes 8, same 1
has room for a part: done
bytes 8, unchanged 1
of no bytes: EINVAL
another's: EPERM
destroys: done
destroys it again: ENOENT
lights: done
destroys the mode that is set: done
which stays 1
and is not destroyed: EPERM
XRGB8888 with modifier 0
formats 1
""",
        )

    def test_framebuffers_have_the_linear_modifier(self):
        commits(
            self.folder,
            "modifiers",
            text="""\
linear: done
AR24, flags 2, modifier 0
tiled: EINVAL
of a plane that is missing: EINVAL
""",
        )

    def test_commits_among_older_calls(self):
        """Each knows what the other left: modes, framebuffers, positions, and flips that are not complete."""
        commits(
            self.folder,
            "mixed",
            text="""\
sets a mode: done
active 1, mode 1, plane 1 from 16, 64 wide, connector 1
flips by a commit: done
to one that is too small: ENOSPC
flips by a flip: done
plane 1
flips too early by a commit: EBUSY
moves by a commit: done
from 0, 64 wide
removes what is shown: done
plane 0 of CRTC 0
shows another: done
CRTCs show 11 0, overlay shows 0
darkens it: done
active 0, mode 0, plane 0, connector 0
shows a plane: done
plane 1 at 3, 4
""",
        )


if __name__ == "__main__":
    sys.exit(run_tests())
