#!/usr/bin/env python3
"""An unchanged program of the kernel's interface, for tests of pictures: it shows what each line of its input describes.

A line is JSON. It has the CRTC with its size and connector, and a list of planes. A plane has its id (0 for MODE_SETCRTC, -1 for
MODE_CURSOR), format, size, bits and pixels (hexadecimal bytes, repeated). It also has its place on the CRTC, and the source in 16.16
fixed point. It prints `shown` after each line. It makes ioctls, as libdrm does, of /dev/dri/card0.
"""
import array
import fcntl
import json
import mmap
import os
import struct
import sys

UNIVERSAL_PLANES = 2
CURSOR_IMAGE_AND_PLACE = 3
# the numbers of drm.h and drm_mode.h
SET_CLIENT_CAP, SET_CRTC, CURSOR, ADD_FB2 = 0x0D, 0xA2, 0xA3, 0xB8
CREATE_DUMB, MAP_DUMB, SET_PLANE = 0xB2, 0xB3, 0xB7


def ask(card, number, form, *values):
    """Makes a request, and returns the values of its struct afterwards."""
    packed = struct.pack(form, *values)
    direction = 1 if number == SET_CLIENT_CAP else 3
    request = direction << 30 | len(packed) << 16 | ord("d") << 8 | number
    return struct.unpack(form, fcntl.ioctl(card, request, packed))


def framebuffer(card, plane):
    """Draws a framebuffer, and returns its handle and its number."""
    width, height = plane["size"]
    handle, pitch, size = ask(card, CREATE_DUMB, "IIIIIIQ", height, width, plane["bits"], 0, 0, 0, 0)[4:]
    offset = ask(card, MAP_DUMB, "IIQ", handle, 0, 0)[2]
    pixels = bytes.fromhex(plane["pixels"])
    row = width * plane["bits"] // 8
    with mmap.mmap(card, size, offset=offset) as memory:
        for at in range(height):
            part = pixels[at * row : (at + 1) * row] or pixels[:row]
            memory[at * pitch : at * pitch + row] = part
    four = int.from_bytes(plane["format"].encode(), "little")
    of_first = [(handle, 0, 0, 0), (pitch, 0, 0, 0), (0,) * 4, (0,) * 4]
    values = [0, width, height, four, 0, *(value for values in of_first for value in values)]
    return handle, ask(card, ADD_FB2, "5I12I4Q", *values)[0]


def mode_of(width, height):
    """A mode of 60 Hz."""
    clock = (width + 30) * (height + 30) * 60 // 1000
    across = (width, width + 10, width + 20, width + 30, 0)
    down = (height, height + 10, height + 20, height + 30, 0)
    return struct.pack("I10HIII32s", clock, *across, *down, 60, 0, 0x40, b"test")


def show(card, crtc, plane, connectors):
    """Shows a plane."""
    handle, number = framebuffer(card, plane)
    if plane["plane"] == 0:
        mode = mode_of(*crtc["size"])
        x, y = (part >> 16 for part in plane["source"][:2])
        values = [crtc["crtc"], number, x, y, 0, 1]
        ask(card, SET_CRTC, "QI6I68s", connectors.buffer_info()[0], 1, *values, mode)
    elif plane["plane"] == -1:
        x, y = plane["place"][:2]
        ask(card, CURSOR, "IIiiIII", CURSOR_IMAGE_AND_PLACE, crtc["crtc"], x, y, *plane["size"], handle)
    else:
        x, y, width, height = plane["source"]
        ask(
            card,
            SET_PLANE,
            "IIIIiiIIIIII",
            plane["plane"],
            crtc["crtc"],
            number,
            0,
            *plane["place"],
            x,
            y,
            height,
            width,
        )


def main():
    card = os.open("/dev/dri/card0", os.O_RDWR | os.O_CLOEXEC)
    ask(card, SET_CLIENT_CAP, "QQ", UNIVERSAL_PLANES, 1)
    for line in sys.stdin:
        shown = json.loads(line)
        for plane in shown["planes"]:
            show(card, shown, plane, array.array("I", [shown["connector"]]))
        print("shown", flush=True)


if __name__ == "__main__":
    main()
