#!/usr/bin/env python3
"""Tests of files with pictures, and of how a picture is compared with a kept one.

Each test has its own folder. The last line is `N passed, M failed`. Standard library only.
"""
import random
import struct
import sys
import zlib

sys.dont_write_bytecode = True
from support import FolderCase, expect, run_tests  # noqa: E402

from zirkoshe.pictures import (  # noqa: E402
    HEAD,
    SIGNATURE,
    Picture,
    PictureError,
    beside_each_other,
    expect_picture,
    png_of,
    read_picture,
    write_picture,
)

WIDTH, HEIGHT = 7, 6


def some(seed=0, width=WIDTH, height=HEIGHT):
    """A picture of random colours."""
    return Picture(width, height, bytes(random.Random(seed).choices(range(256), k=3 * width * height)))


def changed(picture, x, y, by):
    """The picture with a red that differs."""
    at = 3 * (y * picture.width + x)
    return picture._replace(pixels=picture.pixels[:at] + bytes([picture.pixels[at] + by]) + picture.pixels[at + 1 :])


def chunk(kind, data):
    return struct.pack(">I", len(data)) + kind + data + struct.pack(">I", zlib.crc32(kind + data))


def predicted(kind, left, above, corner):
    """What a filter predicts, as the specification of PNG has it."""
    if kind != 4:
        return (0, left, above, (left + above) // 2)[kind]
    guess = left + above - corner
    apart = (abs(guess - left), abs(guess - above), abs(guess - corner))
    return (left, above, corner)[apart.index(min(apart))]


def filtered(rows, step):
    """Rows by each filter one after the other, as other programs write them."""
    above = bytes(len(rows[0]))
    for number, row in enumerate(rows):
        kind = number % 5
        corner = bytes(step) + above
        line = [
            value - predicted(kind, row[at - step] if at >= step else 0, above[at], corner[at])
            for at, value in enumerate(row)
        ]
        yield bytes([kind, *(value & 255 for value in line)])
        above = row


def file_of(rows, colours, step, bits=8, interlaced=0):
    """A PNG file in two parts, with a chunk that says nothing of pixels."""
    head = HEAD.pack(WIDTH, len(rows), bits, colours, 0, 0, interlaced)
    data = zlib.compress(b"".join(filtered(rows, step)))
    parts = (chunk(b"IDAT", data[:20]), chunk(b"IDAT", data[20:]))
    return b"".join((SIGNATURE, chunk(b"IHDR", head), chunk(b"tEXt", b"a\0b"), *parts, chunk(b"IEND", b"")))


def reason_of(action, *words):
    """Why a picture is refused."""
    try:
        action(*words)
    except PictureError as error:
        return str(error)
    raise AssertionError("nothing is refused")


class PicturesTests(FolderCase):
    """Tests of files with pictures, and of comparisons."""

    def test_file_has_the_picture(self):
        file = self.folder / "a.png"
        write_picture(some(), file)
        expect("the picture", read_picture(file), some())
        expect("files", [path.name for path in self.folder.iterdir()], ["a.png"])

    def test_files_of_other_programs_are_read(self):
        """With each filter, and with alpha, which is left out."""
        file = self.folder / "a.png"
        colours = some().pixels
        rows = [colours[at : at + 3 * WIDTH] for at in range(0, len(colours), 3 * WIDTH)]
        file.write_bytes(file_of(rows, 2, 3))
        expect("the picture", read_picture(file), some())
        with_alpha = [b"".join(row[at : at + 3] + b"\x80" for at in range(0, len(row), 3)) for row in rows]
        file.write_bytes(file_of(with_alpha, 6, 4))
        expect("the picture", read_picture(file), some())

    def test_files_that_are_no_pictures_are_refused(self):
        file = self.folder / "a.png"
        whole = png_of(some())
        rows = [bytes(3 * WIDTH)] * HEIGHT
        end = chunk(b"IEND", b"")
        huge = SIGNATURE + chunk(b"IHDR", HEAD.pack(2**31 - 1, 2**31 - 1, 8, 2, 0, 0, 0)) + end
        for what, data, reason in (
            ("nothing", b"", "it is no PNG file"),
            ("a text", b"a text", "it is no PNG file"),
            ("a signature", SIGNATURE, "it has no head"),
            ("a changed byte", whole[:-20] + b"\0" + whole[-19:], "it is damaged"),
            ("16 bits", file_of(rows, 2, 3, bits=16), "it isn't in colour with 8 bits a channel, in one pass"),
            ("grey", file_of(rows, 0, 1), "it isn't in colour with 8 bits a channel, in one pass"),
            ("interlaced", file_of(rows, 2, 3, interlaced=1), "it isn't in colour with 8 bits a channel, in one pass"),
            ("a huge one", huge, "it is too large"),
        ):
            file.write_bytes(data)
            expect(f"why {what} is refused", reason_of(read_picture, file), f"{file}: {reason}")
        for length in range(0, len(whole) - 12):
            file.write_bytes(whole[:length])
            expect(f"whether {length} bytes are refused", bool(reason_of(read_picture, file)), True)

    def test_picture_is_compared_with_a_kept_one(self):
        kept = self.folder / "kept.png"
        write_picture(some(), kept)
        expect_picture(some(), kept)
        expect("files", [path.name for path in self.folder.iterdir()], ["kept.png"])
        other = changed(changed(some(), 2, 3, 5), 4, 5, -2)
        expect_picture(other, kept, 5)
        found, marked = self.folder / "kept.found.png", self.folder / "kept.difference.png"
        expect(
            "the reason",
            reason_of(expect_picture, other, kept, 2),
            f"{found} differs from {kept} in 1 pixels, by at most 5, first at (2, 3): see {marked}",
        )
        expect("the found one", read_picture(found), other)
        white = [at for at in range(WIDTH * HEIGHT) if read_picture(marked).pixel(at % WIDTH, at // WIDTH) != (0, 0, 0)]
        expect("what is marked", white, [3 * WIDTH + 2])

    def test_picture_of_another_size_differs(self):
        kept = self.folder / "kept.png"
        write_picture(some(), kept)
        reason = reason_of(expect_picture, some(width=3), kept)
        expect("the reason", reason, f"{self.folder}/kept.found.png is 3x6, and {kept} is 7x6")

    def test_picture_that_nothing_is_kept_of_is_written(self):
        kept, found = self.folder / "kept.png", self.folder / "kept.found.png"
        expect("the reason", reason_of(expect_picture, some(), kept), f"there is no {kept}: rename {found} to keep it")
        expect("the found one", read_picture(found), some())

    def test_pictures_are_next_to_each_other(self):
        both = beside_each_other([some(1, 2, 3), some(2, 4, 1)])
        expect("size", (both.width, both.height), (22, 3))
        expect("the first", both.pixel(1, 2), some(1, 2, 3).pixel(1, 2))
        expect("the second", both.pixel(18 + 3, 0), some(2, 4, 1).pixel(3, 0))
        expect("between and below", (both.pixel(2, 0), both.pixel(19, 1)), ((0, 0, 0), (0, 0, 0)))


if __name__ == "__main__":
    sys.exit(run_tests())
