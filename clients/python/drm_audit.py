#!/usr/bin/env python3
"""The old name of `zirkoshe.audit`, for one version."""

import sys

from zirkoshe.audit import *  # noqa: F401,F403
from zirkoshe.audit import main

if __name__ == "__main__":
    sys.exit(main())
