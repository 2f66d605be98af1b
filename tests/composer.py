"""What a CRTC shows, worked out pixel by pixel with fractions, for tests of pictures.

The planes are drawn from the first one on black. A pixel shows the pixel of the source that its centre is in. Colours are multiplied by
alpha already, as KMS has it by default. No gamma table is applied, so that C8 is a level of grey.
"""
import math
import struct
from fractions import Fraction
from typing import Any, Dict, List, Tuple

Plane = Dict[str, Any]
Colour = Tuple[int, int, int, int]  # red, green, blue, alpha

HALF = Fraction(1, 2)
# each format: its bits, and the highest bit and the count of red, green, blue and alpha in a pixel
FORMATS: Dict[str, Tuple[int, Tuple[Tuple[int, int], ...]]] = {
    "XR24": (32, ((23, 8), (15, 8), (7, 8))),
    "AR24": (32, ((23, 8), (15, 8), (7, 8), (31, 8))),
    "XB24": (32, ((7, 8), (15, 8), (23, 8))),
    "AB24": (32, ((7, 8), (15, 8), (23, 8), (31, 8))),
    "RX24": (32, ((31, 8), (23, 8), (15, 8))),
    "RA24": (32, ((31, 8), (23, 8), (15, 8), (7, 8))),
    "BX24": (32, ((15, 8), (23, 8), (31, 8))),
    "BA24": (32, ((15, 8), (23, 8), (31, 8), (7, 8))),
    "XR30": (32, ((29, 10), (19, 10), (9, 10))),
    "AR30": (32, ((29, 10), (19, 10), (9, 10), (31, 2))),
    "XB30": (32, ((9, 10), (19, 10), (29, 10))),
    "AB30": (32, ((9, 10), (19, 10), (29, 10), (31, 2))),
    "RG24": (24, ((23, 8), (15, 8), (7, 8))),
    "BG24": (24, ((7, 8), (15, 8), (23, 8))),
    "RG16": (16, ((15, 5), (10, 6), (4, 5))),
    "BG16": (16, ((4, 5), (10, 6), (15, 5))),
    "XR15": (16, ((14, 5), (9, 5), (4, 5))),
    "AR15": (16, ((14, 5), (9, 5), (4, 5), (15, 1))),
    "XR12": (16, ((11, 4), (7, 4), (3, 4))),
    "AR12": (16, ((11, 4), (7, 4), (3, 4), (15, 4))),
    "C8  ": (8, ((7, 8), (7, 8), (7, 8))),
    "R8  ": (8, ((7, 8), (-1, 0), (-1, 0))),
    "XR4H": (64, ((47, 16), (31, 16), (15, 16))),
    "AR4H": (64, ((47, 16), (31, 16), (15, 16), (63, 16))),
    "XB4H": (64, ((15, 16), (31, 16), (47, 16))),
    "AB4H": (64, ((15, 16), (31, 16), (47, 16), (63, 16))),
}


def nearest(value: Fraction) -> int:
    """The nearest whole number; of two, the larger."""
    return math.floor(value + HALF)


def level(value: int, count: int, is_half: bool) -> int:
    """A channel in 8 bits."""
    if not is_half:
        return nearest(Fraction(255 * value, 2**count - 1)) if count else 0
    number = struct.unpack("<e", value.to_bytes(2, "little"))[0]
    return nearest(255 * Fraction(min(number, 1.0))) if number > 0 else 0


def colour_at(plane: Plane, x: int, y: int) -> Colour:
    """The colour of a pixel of a plane's framebuffer."""
    bits, channels = FORMATS[plane["format"]]
    size = bits // 8
    pixels = bytes.fromhex(plane["pixels"])
    row = plane["size"][0] * size
    at = y * row % len(pixels) + x * size
    number = int.from_bytes(pixels[at : at + size], "little")
    found = [
        level(number >> (high + 1 - count) & 2**count - 1 if count else 0, count, size == 8)
        for high, count in channels
    ]
    red, green, blue, alpha = [*found, 255][:4]
    return red, green, blue, alpha


def source_of(place: int, first: int, length: int, source: int, source_length: int) -> int:
    """Which pixel of a framebuffer is at a place on the CRTC, along one axis."""
    return math.floor(Fraction(source, 65536) + (place - first + HALF) * Fraction(source_length, 65536) / length)


def blended(over: Tuple[int, int, int], colour: Colour) -> Tuple[int, int, int]:
    alpha = colour[3]
    red, green, blue = (min(255, top + nearest(Fraction(low * (255 - alpha), 255))) for top, low in zip(colour, over))
    return red, green, blue


def composed(width: int, height: int, planes: List[Plane]) -> bytes:
    """The picture of planes, with red, green and blue of each pixel."""
    picture = [(0, 0, 0)] * (width * height)
    for plane in planes:
        left, top, across, down = plane["place"]
        source_x, source_y, source_width, source_height = plane["source"]
        for y in range(max(0, top), min(height, top + down)):
            row = source_of(y, top, down, source_y, source_height)
            for x in range(max(0, left), min(width, left + across)):
                column = source_of(x, left, across, source_x, source_width)
                at = y * width + x
                picture[at] = blended(picture[at], colour_at(plane, column, row))
    return bytes(value for colour in picture for value in colour)
