#!/usr/bin/env python3
"""Tests of a compositor that leases an output to a headset's program. Each test has its own server.

    tools/with-server examples/ci/lease_test.py TEST

TEST is a function below. The compositor makes one mistake, which docs/guides/ci.md finds. The status is 1 if the test fails.
Standard library only.
"""
import os
import pathlib
import sys

sys.dont_write_bytecode = True
sys.path.insert(0, str(pathlib.Path(__file__).resolve().parents[2] / "clients/python"))
from zirkoshe import Client, Denied  # noqa: E402  (it is in clients/python)

CARD = os.environ.get("DRM_SERVER_CARD", "card")


class Compositor:
    """A compositor that leases CRTC 2, plane 4 and connector 8 while a headset is plugged in."""

    def __init__(self) -> None:
        self.client = Client(CARD)

    def plug(self) -> int:
        """Leases the output and returns the token for the headset's program."""
        return self.client.create_lease(2, 4, 8).token

    def unplug(self) -> None:
        """Does nothing: the lease ends when the headset's program closes its client."""


def lends_the_output(compositor: Compositor) -> None:
    """The headset's program has the output while the headset is plugged in."""
    with Client(CARD, compositor.plug()) as program:
        assert program.getresources().crtcs == (2,)


def lends_it_again(compositor: Compositor) -> None:
    """The second program has the output too."""
    for _ in range(2):
        with Client(CARD, compositor.plug()) as program:
            assert program.getresources().crtcs == (2,)
        compositor.unplug()


def lends_it_after_a_crash(compositor: Compositor) -> None:
    """The first program exits before it redeems its token."""
    compositor.plug()
    compositor.unplug()
    with Client(CARD, compositor.plug()) as program:
        assert program.getresources().crtcs == (2,)


def main() -> int:
    """Runs the test that the command line names."""
    name = sys.argv[1]
    try:
        globals()[name](Compositor())
    except (AssertionError, Denied) as failure:
        print(f"FAILED {name}: {failure}")
        return 1
    print(f"passed {name}")
    return 0


if __name__ == "__main__":
    sys.exit(main())
