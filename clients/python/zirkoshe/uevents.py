"""Uevents for programs that run under `umockdev-run`, as with `with-server --udev`.

    send_hotplug(os.environ["UMOCKDEV_DIR"], 8)

`umockdev` makes a socket in its folder for each program that listens to libudev.
A message has the form of systemd's: a header by which listeners filter, and the
properties of the device.
"""

import os
import pathlib
import socket
import struct
from typing import Dict, Iterator

from .client import PathLike

__all__ = ["send_hotplug"]

#: The header: a prefix and a magic number, its size, where the properties are, their
#: length, and the hashes of subsystem, type and tags.
HEADER = struct.Struct("=8s4s3I4s4s8s")
PREFIX, MAGIC = b"libudev\0", 0xFEEDCAFE
SUBSYSTEM, CARD = "drm", "card0"
#: Numbers of MurmurHash2, by which systemd hashes texts.
FACTOR, SHIFT, WORD = 0x5BD1E995, 24, 0xFFFFFFFF


def _hash(text: str) -> int:
    """Returns MurmurHash2 of a text, with the seed 0."""
    data = text.encode()
    found = len(data)
    whole = len(data) // 4 * 4
    for (part,) in struct.iter_unpack("<I", data[:whole]):
        part = part * FACTOR & WORD
        part = (part ^ part >> SHIFT) * FACTOR & WORD
        found = found * FACTOR & WORD ^ part
    if data[whole:]:
        found = (found ^ int.from_bytes(data[whole:], "little")) * FACTOR & WORD
    found = (found ^ found >> 13) * FACTOR & WORD
    return found ^ found >> 15


def _big(number: int) -> bytes:
    return struct.pack(">I", number)


def _bits_of_tags(tags: str) -> bytes:
    """Returns the bloom filter of tags, whose first word has the high bits."""
    bits = 0
    for tag in filter(None, tags.split(":")):
        found = _hash(tag)
        for shift in (0, 6, 12, 18):
            bits |= 1 << (found >> shift & 63)
    return struct.pack(">II", bits >> 32, bits & WORD)


def _message(properties: Dict[str, str]) -> bytes:
    lines = (f"{name}={value}\0".encode() for name, value in properties.items())
    body = b"".join(lines)
    header = HEADER.pack(
        PREFIX,
        _big(MAGIC),
        HEADER.size,
        HEADER.size,
        len(body),
        _big(_hash(properties["SUBSYSTEM"])),
        _big(_hash(properties["DEVTYPE"])),
        _bits_of_tags(properties.get("TAGS", "")),
    )
    return header + body


def _lines_of(path: pathlib.Path) -> Iterator[str]:
    """Returns the lines of a device's properties."""
    return (line for line in path.read_text().splitlines() if "=" in line)


def _properties(folder: pathlib.Path) -> Dict[str, str]:
    """Returns the properties of the card."""
    device = (folder / "sys/class/drm" / CARD).resolve()
    found = dict(line.split("=", 1) for line in _lines_of(device / "uevent"))
    path = "/" + str(device.relative_to((folder / "sys").resolve()))
    name = found.get("DEVNAME", "")
    named = name if name.startswith("/") else f"/dev/{name}"
    return {**found, "DEVPATH": path, "SUBSYSTEM": SUBSYSTEM, "DEVNAME": named}


def send_hotplug(folder: PathLike, connector: int) -> int:
    """Reports that a connector has changed, and returns to how many listeners.

    `folder` is that of UMOCKDEV_DIR. Raises `OSError` if it has no card.
    """
    room = pathlib.Path(folder)
    changed = {"ACTION": "change", "HOTPLUG": "1", "CONNECTOR": str(connector)}
    message = _message({**_properties(room), **changed, "SEQNUM": "1"})
    count = 0
    for path in sorted(room.glob("event[0-9]*")):
        with socket.socket(socket.AF_UNIX, socket.SOCK_DGRAM) as sender:
            try:
                sender.sendto(message, os.fspath(path))
                count += 1
            except ConnectionRefusedError:  # the listener has ended
                pass
    return count
