"""The old name of `zirkoshe.page`, for one version."""

from zirkoshe.page import *  # noqa: F401,F403
