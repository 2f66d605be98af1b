#!/usr/bin/env python3
"""A session of two clients and a lease, as a picture: an owner and its lessee each show a framebuffer, and share a buffer.

    tools/with-server examples/session_picture.py > docs/session.svg

It requires its own server. DRM_SERVER_CARD and DRM_SERVER_ROOT name the sockets. Standard library only.
"""
import argparse
import os
import pathlib
import sys

sys.dont_write_bytecode = True
sys.path.insert(0, str(pathlib.Path(__file__).resolve().parent.parent / "clients/python"))
from zirkoshe import DEFAULT_TIMEOUT, Client, ClientError  # noqa: E402  (it is in clients/python)
from zirkoshe.audit import formed, read_audit  # noqa: E402


def show(card: str, root: str) -> str:
    """The picture of the server in the midst of the session."""
    with Client(card) as owner:
        buffer = owner.create_dumb(64, 64, 32)
        framebuffer = owner.addfb(64, 64, buffer.pitch, 32, buffer.handle)
        owner.setcrtc(1, framebuffer, 7)
        owner.gem_flink(buffer.handle)
        token = owner.prime_export(buffer.handle)
        lease = owner.create_lease(2, 4, 8)
        with Client(card, lease.token) as lessee:
            own = lessee.create_dumb(64, 64, 32)
            overlay = lessee.addfb(64, 64, own.pitch, 32, own.handle)
            lessee.setcrtc(2, overlay, 8)
            lessee.prime_import(token)
            lessee.setplane(4, 2, framebuffer)
            return formed(read_audit(root, DEFAULT_TIMEOUT), "svg")


def main() -> int:
    parser = argparse.ArgumentParser(description=__doc__, formatter_class=argparse.RawDescriptionHelpFormatter)
    parser.parse_args()
    try:
        print(show(os.environ["DRM_SERVER_CARD"], os.environ["DRM_SERVER_ROOT"]))
    except KeyError as error:
        print(f"session_picture.py: the variable {error} is not set: run this under tools/with-server", file=sys.stderr)
        return 1
    except (ClientError, OSError) as error:
        print(f"session_picture.py: {error}", file=sys.stderr)
        return 1
    return 0


if __name__ == "__main__":
    sys.exit(main())
