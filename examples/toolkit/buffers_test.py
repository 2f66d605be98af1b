#!/usr/bin/env python3
"""Tests how a toolkit on a render node shares buffers. Each test has its own server.

    tools/with-server examples/toolkit/buffers_test.py MODULE TEST

MODULE has the class `Toolkit`: toolkit or counted, next to this file. TEST is a function below. The status is 1 if the test
fails. Standard library only.
"""
import importlib
import os
import pathlib
import sys
from typing import Any

sys.dont_write_bytecode = True
sys.path.insert(0, str(pathlib.Path(__file__).resolve().parents[2] / "clients/python"))
from zirkoshe import Client, Denied  # noqa: E402  (it is in clients/python)

CARD = os.environ.get("DRM_SERVER_CARD", "card")
RENDER = os.environ.get("DRM_SERVER_RENDER", "render")


def expect(what: str, found: object, wanted: object) -> None:
    """Fails the test if a value is not the expected one."""
    if found != wanted:
        raise AssertionError(f"{what} is {found}, and not {wanted}")


def shares_what_it_drew(toolkit: Any) -> None:
    """The compositor scans out the buffer that the toolkit drew, and finds its picture there."""
    handle = toolkit.create(64 * 256)
    toolkit.draw(handle, 77)
    token = toolkit.publish(handle)
    with Client(CARD) as compositor:
        buffer = compositor.prime_import(token)
        picture = compositor.addfb(64, 64, 256, 32, buffer.handle)
        compositor.setcrtc(1, picture, 7)
        expect("the picture", compositor.stamp_read(buffer.handle), 77)


def keeps_a_buffer_in_use(toolkit: Any) -> None:
    """Two windows draw into one buffer of the compositor. The second one still draws after the first has released it."""
    with Client(CARD) as compositor:
        buffer = compositor.create_dumb(64, 64, 32)
        first = toolkit.receive(compositor.prime_export(buffer.handle))
        second = toolkit.receive(compositor.prime_export(buffer.handle))
        toolkit.release(first)
        toolkit.draw(second, 78)
        expect("the picture", compositor.stamp_read(buffer.handle), 78)


def reason(failure: Exception) -> str:
    """Returns what is wrong; for a denial, its rule and errno."""
    if isinstance(failure, Denied):
        return f"denied by rule {failure.rule}, {failure.name}, with errno {failure.errno} ({os.strerror(failure.errno)})"
    return str(failure)


def main() -> int:
    """Runs the test that the command line names."""
    module, name = sys.argv[1:]
    toolkit = importlib.import_module(module).Toolkit(RENDER)
    try:
        globals()[name](toolkit)
    except (AssertionError, Denied) as failure:
        print(f"FAILED {name}: {reason(failure)}")
        return 1
    finally:
        toolkit.close()
    print(f"passed {name}")
    return 0


if __name__ == "__main__":
    sys.exit(main())
