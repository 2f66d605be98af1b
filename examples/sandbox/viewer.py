#!/usr/bin/env python3
"""A sandboxed program that shows a framebuffer on a lease. Its standard input is the lease's open connection.

Standard library only.
"""
import pathlib
import socket
import struct
import sys

sys.dont_write_bytecode = True
sys.path.insert(0, str(pathlib.Path(__file__).resolve().parents[2] / "clients/python"))
from zirkoshe import Refusal  # noqa: E402  (it is in clients/python)
from zirkoshe.protocol import answer_of, request_of, words  # noqa: E402

CALLS = ("getresources", "create_dumb 64 64 32", "addfb 64 64 256 32 1", "setcrtc 2 9 8", "setcrtc 1 9 7", "drop_master")


def ask(connection: socket.socket, call: str) -> str:
    """Sends a call in a script's words and returns the answer in a script's words."""
    connection.sendall(request_of(call)[0])
    length, = struct.unpack("<I", connection.recv(4, socket.MSG_WAITALL))
    body = connection.recv(length, socket.MSG_WAITALL)
    try:
        return words(answer_of(int.from_bytes(body[:2], "little"), body[2:]))
    except Refusal as refusal:
        return refusal.words


def main() -> None:
    """Makes each call and prints the answer."""
    with socket.socket(fileno=sys.stdin.fileno()) as connection:
        connection.setblocking(True)
        for call in CALLS:
            print(f"viewer {call} -> {ask(connection, call)}", flush=True)


if __name__ == "__main__":
    main()
