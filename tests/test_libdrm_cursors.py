#!/usr/bin/env python3
"""Tests of cursors and gamma tables over clients/libdrm, on a device with a cursor plane for each CRTC.

What it tests: cursors on cursor planes, and gamma tables, of one process that another one sees; by a lessee.

Each case of tests/libdrm_cursors.c runs with the library and under the supervisor. Expectations are those of the kernel's core
(drm_plane.c, drm_color_mgmt.c). The last line is `N passed, M failed`. If there is no C compiler or no libdrm with its headers, the
tests are skipped, and if the kernel allows no supervisor, the other half. Standard library only.
"""
import functools
import sys

sys.dont_write_bytecode = True
from support import REPOSITORY, FolderCase, run_tests  # noqa: E402

from libdrm_support import finds_alike  # noqa: E402

TOPOLOGY = ("--topology", REPOSITORY / "tests/libdrm_errnos.topology")
finds = functools.partial(finds_alike, "tests/libdrm_cursors.c")


class LibdrmCursorsTests(FolderCase):
    """Tests of cursors and gamma tables over clients/libdrm."""

    def test_cursors_are_planes(self):
        """By a program that lists overlay planes only. Another one sees image and position: drm_mode_cursor_universal."""
        finds(
            "cursors",
            """\
sets: done
moves: done
type 2, on CRTC 1, same framebuffer 1, at 5,-3, 64 by 64, AR24 64 by 64
lists 1 planes, 0 framebuffers
sets a larger one: done
type 2, on CRTC 1, same framebuffer 1, at 5,-3, 128 by 128, AR24 128 by 128
larger than its buffer: EINVAL
overflows: ERANGE
no handle: ENOENT
type 2, on CRTC 1, same framebuffer 1, at 5,-3, 128 by 128, AR24 128 by 128
hides: done
type 2, on CRTC 0, same framebuffer 1, at 0,0, 0 by 0
moves what is hidden: done
sets: done
type 2, on CRTC 1, same framebuffer 1, at 7,8, 64 by 64, AR24 64 by 64
type 2, on CRTC 0, same framebuffer 1, at 7,8, 64 by 64
""",
            *TOPOLOGY,
        )

    def test_cursors_of_lessees(self):
        """A lease without the plane: drm_mode_cursor_common."""
        finds(
            "leased",
            """\
owner: done
owner: done
lessee without its plane: EACCES
lessee: done
type 2, on CRTC 1, same framebuffer 1, at 1,1, 64 by 64, AR24 64 by 64
""",
            *TOPOLOGY,
        )

    def test_gamma_tables(self):
        """That of MODE_SETGAMMA, and the property, as drm_mode_gamma_set_ioctl and commits set them."""
        finds(
            "gammas",
            """\
gets: done
entries 0 256 256, last 65280
entries of a table 256, of the property 256
no blob
sets: done
gets: done
entries 100 101 103, last 865
entries of a table 256, of the property 256
blob of 2048 bytes, second entry 101 102 103
gets: done
entries 0 256 256, last 65280
another size: EINVAL
wrong address: EFAULT
tests: done
half an entry: EINVAL
no blob: EINVAL
gets: done
entries 100 101 103, last 865
entries of a table 256, of the property 256
blob of 2048 bytes, second entry 101 102 103
commits: done
gets: done
entries 100 101 103, last 865
entries of a table 256, of the property 256
blob of 2048 bytes, second entry 9 0 0
sets the property: done
gets: done
entries 100 101 103, last 865
entries of a table 256, of the property 256
no blob
""",
            *TOPOLOGY,
        )


if __name__ == "__main__":
    sys.exit(run_tests())
