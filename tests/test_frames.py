#!/usr/bin/env python3
"""Tests of frames, byte for byte: what requests say, and the answers.

What it tests: sessions that make each mode setting and lease call, byte for byte; the frame of each call and its
line; layouts that are none; hellos; a full journal.

The bytes are those of docs/FRAMES.md. Each test has its own folder. The last line is `N passed, M failed`. Standard library only.
"""
import contextlib
import socket
import sys

sys.dont_write_bytecode = True
from support import FolderCase, connect_raw, end_of, expect, expect_end, retry, run_tests, server  # noqa: E402

from test_streams import HELLO, LAYOUT, OPENED, VERSION, read_all  # noqa: E402

UNKNOWN = bytes.fromhex("0a000000 0020 01000000 16000000")
IS_DONE = bytes.fromhex("02000000 0010")
JOURNAL_FULL = bytes.fromhex("0a000000 0120 32000000 1c000000")

# a session with each call of mode setting: `>` is a frame of the client, `<` the answer
MODES = """\
> 0e000000 0001 01000000 00000000 00000000
< 06000000 0110 01000000
> 0e000000 b200 40000000 40000000 20000000
< 12000000 0410 01000000 00010000 00400000 00000000
> 16000000 ae00 40000000 40000000 00010000 20000000 01000000
< 0a000000 0310 09000000 00000000
> 02000000 a000
< 2e000000 0610 02000000 01000000 02000000 02000000 07000000 08000000 02000000 05000000 06000000 01000000 09000000
> 02000000 b500
< 0e000000 0710 02000000 03000000 04000000
> 06000000 a600 06000000
< 0a000000 0310 02000000 00000000
> 06000000 a700 07000000
< 0a000000 0310 05000000 00000000
> 0e000000 a200 01000000 09000000 07000000
< 02000000 0010
> 06000000 a100 01000000
< 0a000000 0310 09000000 00000000
> 0e000000 b700 03000000 01000000 09000000
< 02000000 0010
> 06000000 b600 03000000
< 0a000000 0810 09000000 01000000
> 06000000 ad00 09000000
< 16000000 0910 40000000 40000000 00010000 20000000 02000000
> 06000000 af00 09000000
< 02000000 0010
> 06000000 a100 01000000
< 0a000000 0310 00000000 00000000
> 0e000000 a200 01000000 09000000 07000000
< 0a000000 0020 26000000 02000000
"""

# an owner that makes a lease, asks for it and revokes it
OWNER = """\
> 0e000000 0001 01000000 00000000 00000000
< 06000000 0110 01000000
> 12000000 c600 03000000 02000000 04000000 08000000
< 0a000000 0a10 01000000 01000000
> 02000000 c700
< 0a000000 0710 01000000 01000000
> 02000000 c800
< 1e000000 0710 06000000 01000000 02000000 03000000 04000000 07000000 08000000
> 12000000 c600 03000000 01000000 03000000 08000000
< 0a000000 0020 22000000 10000000
> 06000000 c600 00000000
< 0a000000 0020 21000000 16000000
> 0a000000 c600 02000000 01000000
< 0a000000 0020 02000000 16000000
> 06000000 c900 01000000
< 02000000 0010
> 02000000 c700
< 06000000 0710 00000000
> 06000000 c900 01000000
< 0a000000 0020 24000000 02000000
"""

# a lessee of CRTC 2, plane 4 and connector 8, which is client 3 and opens by the token 1
LESSEE = """\
> 0e000000 0001 01000000 01000000 01000000
< 06000000 0110 03000000
> 02000000 a000
< 22000000 0610 01000000 02000000 01000000 08000000 02000000 05000000 06000000 00000000
> 02000000 c800
< 12000000 0710 03000000 02000000 04000000 08000000
> 02000000 c700
< 06000000 0710 00000000
> 12000000 c600 03000000 02000000 04000000 08000000
< 0a000000 0a10 02000000 02000000
> 06000000 c900 01000000
< 0a000000 0020 25000000 0d000000
> 0e000000 a200 02000000 00000000 00000000
< 02000000 0010
> 06000000 a100 01000000
< 0a000000 0020 1e000000 02000000
"""

# the same hello once more, when the token is spent
LATE = """\
> 0e000000 0001 01000000 01000000 01000000
< 0a000000 0020 2a000000 02000000
"""

# frames of calls, and the lines of a script that say the same
CALLS = {
    "02000000 0000": "version",
    "06000000 0900 05000000": "gem_close 5",
    "0e000000 b200 80020000 e0010000 20000000": "create_dumb 640 480 32",
    "0a000000 4500 01000000 00000000": "audit 1 0",
    "0a000000 4500 0a000000 02010000": "audit 10 258",
    "0a000000 0c00 05000000 00000001": "get_cap 72057594037927941",
    "12000000 0d00 02000000 00000000 01000000 00000000": "set_client_cap 2 1",
    "0a000000 4000 01100000 00000000": "buf_create 4097",
    "0e000000 4100 01000000 4d000000 00000001": "stamp_write 1 72057594037928013",
    "06000000 4200 01000000": "stamp_read 1",
    "06000000 4400 02010000": "list_handles 258",
    "06000000 b400 01000000": "destroy_dumb 1",
    "06000000 0a00 01000000": "gem_flink 1",
    "06000000 0b00 ffffffff": "gem_open 4294967295",
    "06000000 2d00 02010000": "prime_export 258",
    "06000000 2e00 00000100": "prime_import 65536",
    "06000000 4300 00000001": "token_close 16777216",
    "02000000 0200": "get_magic",
    "06000000 1100 01020004": "auth_magic 67109377",
    "02000000 1e00": "set_master",
    "02000000 1f00": "drop_master",
    "02000000 a000": "getresources",
    "06000000 a100 01000000": "getcrtc 1",
    "06000000 a600 05000000": "getencoder 5",
    "06000000 a700 ffffffff": "getconnector 4294967295",
    "06000000 ad00 00000100": "getfb 65536",
    "02000000 b500": "getplaneresources",
    "06000000 b600 03000001": "getplane 16777219",
    "0e000000 a200 01000000 02010000 07000000": "setcrtc 1 258 7",
    "16000000 ae00 40000000 20000000 00010000 18000000 09000000": "addfb 64 32 256 24 9",
    "06000000 af00 02010000": "rmfb 258",
    "0e000000 b700 03000000 01000000 02010000": "setplane 3 1 258",
    "02000000 c700": "list_lessees",
    "02000000 c800": "get_lease",
    "06000000 c900 02010004": "revoke_lease 67109122",
    "12000000 c600 03000000 02000000 04000000 08000000": "create_lease 2 4 8",
    "06000000 c600 00000000": "create_lease",
}

# the layouts of calls that have fields of a fixed size, by their numbers
SIZES = {
    **dict.fromkeys((0x00, 0x02, 0x1E, 0x1F, 0xA0, 0xB5, 0xC7, 0xC8), 0),
    **dict.fromkeys(
        (0x09, 0x0A, 0x0B, 0x11, 0x2D, 0x2E, 0x42, 0x43, 0x44, 0xA1, 0xA6, 0xA7, 0xAD, 0xAF, 0xB4, 0xB6, 0xC9), 4
    ),
    **dict.fromkeys((0x0C, 0x40, 0x45), 8),
    **dict.fromkeys((0x41, 0xA2, 0xB2, 0xB7), 12),
    0x0D: 16,
    0xAE: 20,
}

# frames of leases and audits with another layout: lists whose length is another, 33 ids, and kinds that are none
MISFITS = (
    "02000000 c600",
    "05000000 c600 000000",
    "07000000 c600 00000000 00",
    "06000000 c600 01000000",
    "09000000 c600 01000000 020000",
    "0b000000 c600 01000000 02000000 00",
    "06000000 c600 ffffffff",
    "8a000000 c600 21000000" + 33 * "01000000",
    "0a000000 4500 00000000 00000000",
    "0a000000 4500 0b000000 00000000",
    "0a000000 4500 01010000 00000000",
)


def framed(number, fields):
    """A frame of this number."""
    return (2 + len(fields)).to_bytes(4, "little") + number.to_bytes(2, "little") + fields


def frames_of(session, sign):
    """The frames of one side of a session."""
    return b"".join(bytes.fromhex(line[1:]) for line in session.splitlines() if line.startswith(sign))


def exchanged(path, text):
    """Says this on a connection and ends its side, and returns what is answered until the end."""
    with retry(lambda: connect_raw(path)) as connected:
        connected.sendall(text)
        connected.shutdown(socket.SHUT_WR)
        return read_all(connected)


class FramesTests(FolderCase):
    """Tests of frames, byte for byte."""

    def expect_session(self, path, session):
        expect("the answers", exchanged(path, frames_of(session, ">")).hex(), frames_of(session, "<").hex())

    def test_calls_of_mode_setting(self):
        with server(self.folder, 1, 0, 0) as started:
            self.expect_session(self.folder / "card", MODES)
            expect_end(end_of(started), 0, "", "device 0 0 0 16\n")

    def test_calls_of_an_owner(self):
        with server(self.folder, 1, 0, 0) as started:
            self.expect_session(self.folder / "card", OWNER)
            expect_end(end_of(started), 0, "", "device 0 0 1 11\n")

    def test_calls_of_a_lessee(self):
        """On the card's socket and on root's."""
        for name, counts in (("card", (3, 0, 0)), ("root", (1, 0, 2))):
            with server(self.folder, *counts) as started, contextlib.ExitStack() as made:
                owner = made.enter_context(retry(lambda: connect_raw(self.folder / "card")))
                session = "\n".join(OWNER.splitlines()[:4])
                owner.sendall(frames_of(session, ">"))
                answers = frames_of(session, "<")
                with owner.makefile("rb") as read:
                    expect("the lease", read.read(len(answers)), answers)
                self.expect_session(self.folder / name, LESSEE)
                self.expect_session(self.folder / name, LATE)
                owner.close()
                expect("the status", end_of(started).returncode, 0)

    def test_calls_have_their_bytes(self):
        """Each frame is the call of its line, which the journal has."""
        long = framed(0xC6, b"".join(number.to_bytes(4, "little") for number in (32, *range(1, 33))))
        calls = {**{bytes.fromhex(frame): line for frame, line in CALLS.items()}}
        calls[long] = "create_lease " + " ".join(map(str, range(1, 33)))
        journal = self.folder / "journal"
        with server(self.folder, 0, 0, 1, more=["--journal", journal]) as started:
            exchanged(self.folder / "root", HELLO + b"".join(calls))
            expect("the status", end_of(started).returncode, 0)
        said = [line.partition(" -> ")[0] for line in journal.read_text().splitlines() if not line.startswith("limits")]
        expect("the lines", [line.partition(" ")[2] for line in said[1:-1]], list(calls.values()))

    def test_other_sizes_have_another_layout(self):
        """One byte more or less, and for calls without fields up to eight bytes."""
        frames = [bytes.fromhex(frame) for frame in MISFITS]
        for number, size in SIZES.items():
            sizes = (size - 1, size + 1) if size else range(1, 9)
            frames += [framed(number, bytes(wrong)) for wrong in sizes]
        with server(self.folder, 1, 0, 0) as started:
            answers = exchanged(self.folder / "card", HELLO + b"".join(frames))
            expect("the answers", answers == OPENED + len(frames) * LAYOUT, True)
            expect("the status", end_of(started).returncode, 0)

    def test_numbers_without_a_row(self):
        """The number of a hello is one too, once the client is opened. Two bytes too many are another layout."""
        frames = bytes.fromhex("06000000 0800 ffffffff") + HELLO + bytes.fromhex("08000000 0900 01000000 0000")
        with server(self.folder, 1, 0, 0) as started:
            answers = exchanged(self.folder / "card", HELLO + frames)
            expect("the answers", answers, OPENED + 2 * UNKNOWN + LAYOUT)
            expect("the status", end_of(started).returncode, 0)

    def test_hellos(self):
        """A node or a lease by version 1 or 2. Others get no answer."""
        hello = "0e000000 0001 {} {} {}"
        no_token = bytes.fromhex("0a000000 0020 2a000000 02000000")
        rows = {
            hello.format("01000000", "01000000", "00000000"): no_token,
            hello.format("01000000", "01000000", "07010000"): no_token,
            hello.format("02000000", "01000000", "07010000"): no_token,
            hello.format("00000000", "00000000", "00000000"): b"",
            hello.format("03000000", "00000000", "00000000"): b"",
            hello.format("01000000", "00000000", "07000000"): b"",
            hello.format("01000000", "02000000", "00000000"): b"",
            "0a000000 0001 01000000 00000000": b"",
            "02000000 0000": b"",
        }
        with server(self.folder, len(rows) + 1, 0, 0) as started:
            for frame, answer in rows.items():
                expect(f"the answer to {frame}", exchanged(self.folder / "card", bytes.fromhex(frame)), answer)
            # a client of version 2 has universal planes off, and turns them on
            text = bytes.fromhex(hello.format("02000000", "00000000", "00000000")) + framed(0xB5, b"")
            text += framed(0x0D, bytes.fromhex("0200000000000000 0100000000000000")) + framed(0xB5, b"")
            planes = [bytes.fromhex("0a000000 0710 01000000 04000000"), IS_DONE]
            planes.append(bytes.fromhex("0e000000 0710 02000000 03000000 04000000"))
            expect("version 2", exchanged(self.folder / "card", text)[10:], b"".join(planes))
            expect("the status", end_of(started).returncode, 0)

    def test_lease_hello_on_the_render_socket(self):
        with server(self.folder, 0, 1, 0) as started:
            text = bytes.fromhex("0e000000 0001 01000000 01000000 01000000")
            expect("the answer", exchanged(self.folder / "render", text), b"")
            expect("the status", end_of(started).returncode, 0)

    def test_lengths_out_of_range(self):
        """The session ends as soon as the four bytes have arrived."""
        lengths = (0, 1, 1025)
        with server(self.folder, len(lengths), 0, 0) as started:
            for length in lengths:
                with retry(lambda: connect_raw(self.folder / "card")) as client:
                    client.sendall(HELLO + length.to_bytes(4, "little"))
                    answers = client.recv(len(OPENED), socket.MSG_WAITALL)
                    expect(f"what follows the length {length}", client.recv(1), b"")
                    expect("the opening", answers[:6], OPENED[:6])
            expect("the status", end_of(started).returncode, 0)

    def test_full_journal(self):
        """A request gets the fault. An opening that gets it ends its session, and the server continues."""
        with server(self.folder, 2, 0, 0, more=["--limits", "64 8 8 8 8 4 4 2"]) as started:
            expect("a request", exchanged(self.folder / "card", HELLO + VERSION), OPENED + JOURNAL_FULL)
            expect("an opening", exchanged(self.folder / "card", HELLO + VERSION), JOURNAL_FULL)
            ran = end_of(started)
            expect("status and output", (ran.returncode, ran.stdout), (0, "device 0 0 0 2\n"))
            words = "no client: the opening or the closing ended in a fault: 50 JournalFull"
            expect("what is logged", words in ran.stderr, True)


if __name__ == "__main__":
    sys.exit(run_tests())
