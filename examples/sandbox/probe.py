#!/usr/bin/env python3
"""A program to put into a sandbox: it opens each socket of the server that it can reach, and asks for more than it may.

DRM_SERVER_RENDER names the render socket. The other sockets are in the same folder. Standard library only.
"""
import os
import pathlib
import sys

sys.dont_write_bytecode = True
sys.path.insert(0, str(pathlib.Path(__file__).resolve().parents[2] / "clients/python"))
from zirkoshe import Client  # noqa: E402  (it is in clients/python)

CALLS = ("buf_create 4096", "prime_export 1", "gem_flink 1", "getresources", "setcrtc 1 0 0", "audit 1 0")


def main() -> None:
    """Tries the sockets in the order of their names."""
    folder = pathlib.Path(os.environ["DRM_SERVER_RENDER"]).parent
    for path in sorted(path for path in folder.iterdir() if path.is_socket()):
        with Client(path) as client:
            for call in CALLS:
                print(f"{path.name} {call} -> {client.ask(call)}")


if __name__ == "__main__":
    main()
