#!/usr/bin/env python3
"""Prints the newest version of glibc whose symbols the files need, such as 2.34. It requires readelf (binutils).

Exit status:
  0  the version was printed
  1  a file is no program or library, or needs no symbol of glibc
  2  a refused command line

Examples:
  tools/needed_glibc.py bin/drm_server_main
"""
import pathlib
import re
import subprocess
import sys
from typing import Iterable, Tuple

sys.dont_write_bytecode = True
from command_line import parser_of  # noqa: E402  (it is in this folder)


def needed_glibc(files: Iterable[pathlib.Path]) -> Tuple[int, int]:
    """Returns the newest version that the symbols of any of the files name."""
    words = ["readelf", "--wide", "--version-info", *map(str, files)]
    printed = subprocess.run(words, stdout=subprocess.PIPE, check=True, text=True).stdout
    found = re.findall(r"Name: GLIBC_(\d+)\.(\d+)", printed)
    if not found:
        raise ValueError(f"{' '.join(words)} prints no version of glibc")
    return max((int(major), int(minor)) for major, minor in found)


def main() -> int:
    parser = parser_of("needed_glibc.py", __doc__)
    parser.add_argument("files", nargs="+", type=pathlib.Path, metavar="FILE", help="a program or a library")
    try:
        print("%d.%d" % needed_glibc(parser.parse_args().files))
    except (subprocess.CalledProcessError, ValueError) as error:
        print(f"needed_glibc.py: {error}", file=sys.stderr)
        return 1
    return 0


if __name__ == "__main__":
    sys.exit(main())
