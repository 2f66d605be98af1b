"""The command `drm_server` of a wheel, which has the program and its script in it."""

import os
import sys

from .server import PACKAGE


def main() -> None:
    """Runs the script, which says if the program is not proved."""
    script = str(PACKAGE / "drm_server")
    os.execv(script, [script, *sys.argv[1:]])
