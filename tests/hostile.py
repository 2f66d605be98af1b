"""Servers that don't answer as they should, for the tests of the clients."""
import contextlib
import socket
import struct
import threading

from support import SECONDS

OPENED = bytes.fromhex("06000000 0110 01000000")


def frame(number, fields=b""):
    return struct.pack("<IH", 2 + len(fields), number) + fields


# an answer of each kind, by the name of its type
ANSWERS = {
    "Done": frame(0x1000),
    "Opened": frame(0x1001, bytes(4)),
    "Version": frame(0x1002, bytes(12)),
    "Number": frame(0x1003, bytes(8)),
    "Dumb": frame(0x1004, bytes(16)),
    "Buffer": frame(0x1005, bytes(12)),
    "Resources": frame(0x1006, bytes(16)),
    "IdList": frame(0x1007, bytes(4)),
    "Plane": frame(0x1008, bytes(8)),
    "Framebuffer": frame(0x1009, bytes(20)),
    "Lease": frame(0x100A, bytes(8)),
    "Rows": frame(0x100B, bytes(4)),
}
# what a server may send in place of an answer to the hello, by what is wrong with it
MALFORMED = {
    "length 0": struct.pack("<I", 0),
    "length 1": struct.pack("<IB", 1, 0),
    "length 1025": struct.pack("<IH", 1025, 0x1001),
    "length 4294967295": b"\xff" * 8,
    "an end in the length": OPENED[:3],
    "an end in the number": OPENED[:5],
    "an end in the fields": OPENED[:-1],
    "no such answer": frame(0x4242, b"\1\0\0\0"),
    "another call's answer": frame(0x1000),
    "too few fields": frame(0x1001, b"\1\0\0"),
    "too many fields": frame(0x1001, b"\1\0\0\0\0"),
    "a denial without an errno": frame(0x2000, struct.pack("<I", 42)),
    "a denial by no rule": frame(0x2000, struct.pack("<II", 99, 22)),
    "a denial with another rule's errno": frame(0x2000, struct.pack("<II", 42, 22)),
    "a denial by what stands apart": frame(0x2000, struct.pack("<II", 50, 28)),
    "apart by a rule": frame(0x2001, struct.pack("<II", 42, 2)),
    "a refusal with a byte too many": frame(0x2000, struct.pack("<IIB", 42, 2, 0)),
}


def serve_one(listener, answers, ended, drips):
    """Sends one connection an answer for each request, and then ends it, or waits for the test's end."""
    with contextlib.suppress(OSError):
        connection, _ = listener.accept()
        with connection:
            for answer in answers:
                connection.recv(2048)
                connection.sendall(answer)
            while drips is not None and not ended.wait(0.05):
                connection.sendall(drips)


@contextlib.contextmanager
def answering(path, *answers, drips=None):
    """A server that sends its one connection these answers, and then ends it; with `drips` it sends that again and again."""
    ended = threading.Event()
    with socket.socket(socket.AF_UNIX, socket.SOCK_STREAM) as listener:
        listener.settimeout(SECONDS)
        listener.bind(str(path))
        listener.listen()
        thread = threading.Thread(target=serve_one, args=(listener, answers, ended, drips), daemon=True)
        thread.start()
        try:
            yield
        finally:
            ended.set()
            thread.join(SECONDS)


@contextlib.contextmanager
def crowded(path):
    """A listener that accepts no client, with as many waiting connections as it may have."""
    with contextlib.ExitStack() as opened:
        listener = opened.enter_context(socket.socket(socket.AF_UNIX, socket.SOCK_STREAM))
        listener.bind(str(path))
        listener.listen(0)
        with contextlib.suppress(BlockingIOError):
            while True:
                waiting = opened.enter_context(socket.socket(socket.AF_UNIX, socket.SOCK_STREAM))
                waiting.setblocking(False)
                waiting.connect(str(path))
        yield
