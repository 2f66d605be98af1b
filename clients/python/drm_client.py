#!/usr/bin/env python3
"""The old name of `zirkoshe.client` and `python3 -m zirkoshe`, for one version."""

import sys

from zirkoshe import *  # noqa: F401,F403
from zirkoshe.__main__ import main
from zirkoshe.client import *  # noqa: F401,F403
from zirkoshe.constants import *  # noqa: F401,F403
from zirkoshe.protocol import *  # noqa: F401,F403

if __name__ == "__main__":
    sys.exit(main())
