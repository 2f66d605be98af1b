#!/usr/bin/env python3
"""Tests that a compositor scans out only where it may. Each test has its own server.

    tools/with-server examples/tutorial/scan_out_test.py MODULE TEST

MODULE has the class `Compositor`: compositor or mended, next to this file. TEST is a function below. The status is 1 if the
test fails. Standard library only.
"""
import importlib
import os
import pathlib
import sys

sys.dont_write_bytecode = True
sys.path.insert(0, str(pathlib.Path(__file__).resolve().parents[2] / "clients/python"))
from zirkoshe import Client, Denied  # noqa: E402  (it is in clients/python)

CARD = os.environ.get("DRM_SERVER_CARD", "card")
ROOT = os.environ.get("DRM_SERVER_ROOT", "root")
SHOWN = 9  # the kind of audit that lists what CRTCs and planes show


def shown():
    """Returns the framebuffer that each CRTC and plane shows, without those that are dark."""
    with Client(ROOT) as auditor:
        return {row.a: row.b for row in auditor.audit(SHOWN)}


def expect(what, found, wanted):
    if found != wanted:
        raise AssertionError(f"{what} is {found}, and not {wanted}")


def shows_its_picture(compositor):
    compositor.repaint()
    expect("what is shown", shown(), {1: compositor.picture, 2: compositor.picture})


def rests_while_switched_away(compositor):
    """While it is switched away, the compositor makes no call that needs a current client."""
    compositor.repaint()
    compositor.switch_away()
    with Client(CARD) as other:  # the device has no master, so this opening creates one
        buffer = other.create_dumb(64, 64, 32)
        other.setcrtc(1, other.addfb(64, 64, buffer.pitch, 32, buffer.handle), 7)
        compositor.repaint()
    compositor.switch_back()
    expect("what is shown", shown(), {1: compositor.picture, 2: compositor.picture})


def leaves_what_it_lent(compositor):
    """The compositor leaves a lessee's picture alone. No rule denies the mistake, so the test asks what is shown."""
    compositor.repaint()
    token = compositor.lend((2, 4, 8))
    with Client(CARD, token) as lessee:
        buffer = lessee.create_dumb(64, 64, 32)
        own = lessee.addfb(64, 64, buffer.pitch, 32, buffer.handle)
        lessee.setcrtc(2, own, 8)
        compositor.repaint()
        expect("what is shown", shown(), {1: compositor.picture, 2: own})


def told(failure):
    """Returns what is wrong; for a denial, its rule and errno."""
    if isinstance(failure, Denied):
        return f"denied by rule {failure.rule}, {failure.name}, with errno {failure.errno} ({os.strerror(failure.errno)})"
    return str(failure)


def main():
    module, name = sys.argv[1:]
    compositor = importlib.import_module(module).Compositor(CARD)
    try:
        globals()[name](compositor)
    except (AssertionError, Denied) as failure:
        print(f"FAILED {name}: {told(failure)}")
        return 1
    finally:
        compositor.close()
    print(f"passed {name}")
    return 0


if __name__ == "__main__":
    sys.exit(main())
