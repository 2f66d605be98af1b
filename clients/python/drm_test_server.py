"""The old name of `zirkoshe.server`, for one version."""

from zirkoshe.server import *  # noqa: F401,F403
