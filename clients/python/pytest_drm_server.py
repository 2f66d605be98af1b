"""The old name of `zirkoshe.pytest_plugin`, for one version."""

from zirkoshe.pytest_plugin import *  # noqa: F401,F403
