"""Pictures of outputs, in files of the format PNG, and how they differ.

    write_picture(picture, "output.png")
    difference = difference_of(picture, read_picture("kept.png"))

zlib compresses the pixels. A file is written as a whole or not at all. `read_picture`
reads PNG files of other programs if they have 8 bits a channel, in colour, with or
without alpha, and aren't interlaced.
"""

import concurrent.futures
import os
import struct
import zlib
from typing import Iterator, List, NamedTuple, Sequence, Tuple

from .client import PathLike

__all__ = [
    "Difference",
    "Picture",
    "PictureError",
    "beside_each_other",
    "difference_of",
    "expect_picture",
    "read_picture",
    "write_picture",
]

SIGNATURE = b"\x89PNG\r\n\x1a\n"
#: The head of a file: the size, and bits, colours, compression, filters, interlacing.
HEAD = struct.Struct(">IIBBBBB")
#: The bytes of a pixel, and those in a file in colour, without and with alpha.
PIXEL = 3
CHANNELS = {2: 3, 6: 4}
#: The fastest level that compresses what screens show to a tenth and less.
LEVEL = 1
#: How a stream of that level begins, and how many parts of it are made at once.
STREAM, PARTS = b"\x78\x01", 4
#: How far apart pictures are that are next to each other, in pixels.
GAP = 16
#: How large a picture is at most, in pixels.
MOST_PIXELS = 1 << 28


class PictureError(Exception):
    """A file that is no picture, or one that isn't the expected one."""


class Picture(NamedTuple):
    """A picture. A pixel has three bytes: red, green and blue."""

    width: int
    height: int
    pixels: bytes

    def pixel(self, x: int, y: int) -> Tuple[int, int, int]:
        """Returns red, green and blue of a pixel, each from 0 to 255."""
        at = PIXEL * (y * self.width + x)
        red, green, blue = self.pixels[at : at + PIXEL]
        return red, green, blue


def beside_each_other(pictures: Sequence[Picture]) -> Picture:
    """Returns one picture of several, from the left to the right, on black."""
    width = sum(picture.width for picture in pictures) + GAP * (len(pictures) - 1)
    height = max(picture.height for picture in pictures)
    rows = []
    for row in range(height):
        parts = []
        for picture in pictures:
            size = PIXEL * picture.width
            part = picture.pixels[row * size : (row + 1) * size]
            parts.append(part or bytes(size))
        rows.append(bytes(PIXEL * GAP).join(parts))
    return Picture(width, height, b"".join(rows))


# files


def _chunk(kind: bytes, data: bytes) -> bytes:
    checked = kind + data
    return (
        struct.pack(">I", len(data)) + checked + struct.pack(">I", zlib.crc32(checked))
    )


def _filtered(picture: Picture, first: int, end: int) -> bytes:
    """Returns rows, each after the number of its filter, which is none."""
    size = PIXEL * picture.width
    starts = range(first * size, end * size, size)
    return b"".join(
        part for at in starts for part in (b"\0", picture.pixels[at : at + size])
    )


def _compressed(data: bytes, is_last: bool) -> bytes:
    """Compresses a part of a stream, which ends at a whole byte."""
    compressor = zlib.compressobj(LEVEL, zlib.DEFLATED, -zlib.MAX_WBITS)
    end = zlib.Z_FINISH if is_last else zlib.Z_FULL_FLUSH
    return compressor.compress(data) + compressor.flush(end)


def _deflated(picture: Picture) -> bytes:
    """Compresses rows. Threads do that for parts of them: zlib lets others run."""
    step = -(-picture.height // PARTS)
    firsts = range(0, picture.height, step)
    rows = [_filtered(picture, at, min(at + step, picture.height)) for at in firsts]
    are_last = [number == len(rows) - 1 for number in range(len(rows))]
    with concurrent.futures.ThreadPoolExecutor(PARTS) as threads:
        parts = list(threads.map(_compressed, rows, are_last))
    check = 1
    for part in rows:
        check = zlib.adler32(part, check)
    return STREAM + b"".join(parts) + struct.pack(">I", check)


def png_of(picture: Picture) -> bytes:
    """Returns the bytes of a PNG file."""
    head = HEAD.pack(picture.width, picture.height, 8, 2, 0, 0, 0)
    data = _deflated(picture)
    chunks = _chunk(b"IHDR", head) + _chunk(b"IDAT", data) + _chunk(b"IEND", b"")
    return SIGNATURE + chunks


def write_picture(picture: Picture, path: PathLike) -> None:
    """Writes a PNG file, which replaces one of this name."""
    target = os.fspath(path)
    beside = f"{target}.{os.getpid()}"
    try:
        with open(beside, "wb") as file:
            file.write(png_of(picture))
        os.replace(beside, target)
    except BaseException:
        if os.path.exists(beside):
            os.unlink(beside)
        raise


def _chunks_of(data: bytes) -> Iterator[Tuple[bytes, bytes]]:
    at = len(SIGNATURE)
    while at < len(data):
        (size,) = struct.unpack_from(">I", data, at)
        kind, body = data[at + 4 : at + 8], data[at + 8 : at + 8 + size]
        (check,) = struct.unpack_from(">I", data, at + 8 + size)
        if check != zlib.crc32(kind + body):
            raise PictureError("it is damaged")
        yield kind, body
        at += size + 12


def _nearest(left: int, above: int, corner: int) -> int:
    """Returns what Paeth's filter predicts."""
    found = left + above - corner
    return min((left, above, corner), key=lambda value: abs(found - value))


def _unfilter(kind: int, row: bytearray, above: bytes, step: int) -> None:
    """Adds to each byte what its row's filter predicts."""
    for at, value in enumerate(row if kind else b""):
        left = row[at - step] if at >= step else 0
        corner = above[at - step] if at >= step else 0
        predictions = (
            0,
            left,
            above[at],
            (left + above[at]) // 2,
            _nearest(left, above[at], corner),
        )
        row[at] = (value + predictions[kind]) & 255


def _rows_of(data: bytes, size: int, step: int) -> Iterator[bytes]:
    above = bytes(size)
    for at in range(0, len(data), size + 1):
        row = bytearray(data[at + 1 : at + 1 + size])
        if data[at] > 4 or len(row) != size:
            raise PictureError("its rows are damaged")
        _unfilter(data[at], row, above, step)
        above = bytes(row)
        yield above


def _read(data: bytes) -> Picture:
    if not data.startswith(SIGNATURE):
        raise PictureError("it is no PNG file")
    chunks = list(_chunks_of(data))
    if not chunks or chunks[0][0] != b"IHDR":
        raise PictureError("it has no head")
    width, height, bits, colours, *rest = HEAD.unpack(chunks[0][1])
    if bits != 8 or colours not in CHANNELS or rest != [0, 0, 0]:
        raise PictureError("it isn't in colour with 8 bits a channel, in one pass")
    if width * height > MOST_PIXELS:
        raise PictureError("it is too large")
    step = CHANNELS[colours]
    whole = height * (width * step + 1)
    packed = b"".join(body for kind, body in chunks if kind == b"IDAT")
    unpacked = zlib.decompressobj().decompress(packed, whole + 1)
    if len(unpacked) != whole:
        raise PictureError("its pixels are damaged")
    rows = b"".join(_rows_of(unpacked, width * step, step))
    pixels = bytearray(PIXEL * width * height)
    for channel in range(PIXEL):
        pixels[channel::PIXEL] = rows[channel::step]
    return Picture(width, height, bytes(pixels))


def read_picture(path: PathLike) -> Picture:
    """Reads a PNG file. Raises `PictureError` for one that it can't read."""
    with open(path, "rb") as file:
        data = file.read()
    try:
        return _read(data)
    except (PictureError, struct.error, zlib.error) as error:
        raise PictureError(f"{os.fspath(path)}: {error}") from error


# comparison


class Difference(NamedTuple):
    """How two pictures of one size differ: how many pixels do, and by how much.

    `picture` is white if a pixel differs by more than the tolerance.
    """

    pixels: int
    most: int
    first: Tuple[int, int]
    picture: Picture


def difference_of(one: Picture, other: Picture, tolerance: int = 0) -> Difference:
    """Compares two pictures of one size. A channel may differ by the tolerance."""
    marks = bytearray(len(one.pixels))
    found: List[int] = []
    most = 0
    size = PIXEL * one.width
    for at in range(0, len(one.pixels), size):
        row, kept = one.pixels[at : at + size], other.pixels[at : at + size]
        if row == kept:
            continue
        for place in range(0, size, PIXEL):
            apart = max(
                abs(row[at_] - kept[at_]) for at_ in range(place, place + PIXEL)
            )
            most = max(most, apart)
            if apart > tolerance:
                found.append((at + place) // PIXEL)
                marks[at + place : at + place + PIXEL] = b"\xff\xff\xff"
    first = (found[0] % one.width, found[0] // one.width) if found else (0, 0)
    return Difference(
        len(found), most, first, Picture(one.width, one.height, bytes(marks))
    )


def _keep(picture: Picture, kept: str, what: str) -> str:
    """Writes a picture next to a kept one, and returns its path."""
    path = f"{os.path.splitext(kept)[0]}.{what}.png"
    write_picture(picture, path)
    return path


def expect_picture(picture: Picture, path: PathLike, tolerance: int = 0) -> None:
    """Compares a picture with a kept one. A channel may differ by the tolerance.

    If they differ, raises `PictureError`, and writes two files next to the kept one:
    `NAME.found.png` and `NAME.difference.png`, which is white where they differ. If
    there is no kept picture, writes the found one only.
    """
    kept = os.fspath(path)
    if not os.path.exists(kept):
        found = _keep(picture, kept, "found")
        raise PictureError(f"there is no {kept}: rename {found} to keep it")
    wanted = read_picture(kept)
    if (picture.width, picture.height) != (wanted.width, wanted.height):
        found = _keep(picture, kept, "found")
        raise PictureError(
            f"{found} is {picture.width}x{picture.height}, and {kept} is "
            f"{wanted.width}x{wanted.height}"
        )
    difference = difference_of(picture, wanted, tolerance)
    if difference.pixels > 0:
        found = _keep(picture, kept, "found")
        marked = _keep(difference.picture, kept, "difference")
        raise PictureError(
            f"{found} differs from {kept} in {difference.pixels} pixels, by at most "
            f"{difference.most}, first at {difference.first}: see {marked}"
        )
