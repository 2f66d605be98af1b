"""The pytest fixture `drm_server`: a server for each test that requests it.

    from zirkoshe import Client

    def test_lease(drm_server):
        with Client(drm_server.card) as compositor:
            ...

The fixture is a `zirkoshe.server.Server` with the paths `card`, `render` and `root`. A
mark sets its options:

    @pytest.mark.drm_server(cards=2, limits="8 8 8 8 8 8 8 100")

It has a control socket, so that a test plans faults with `drm_server.fail`, `stall` and
`break_connection`. `@pytest.mark.drm_server(control=False)` leaves it out.

If the test fails, its captured output ends with the requests and answers of the server,
as a script for `drm_server check` and `drm_server explain`. A server that does not end
normally is an error of the test.
"""

import os
import tempfile
from typing import Any, Generator, Iterator, Optional

import pytest

from .server import PACKAGE, Server

FAILED = "drm_server_failed"


def pytest_configure(config: pytest.Config) -> None:
    """Registers the mark."""
    config.addinivalue_line(
        "markers",
        "drm_server(**options): options of the server that the fixture drm_server "
        "starts, such as cards=2",
    )


def pytest_report_header() -> Optional[str]:
    """Says that the program of this package is not proved, if so."""
    if os.environ.get("DRM_SERVER_PROGRAM") or not (PACKAGE / "bin/UNPROVED").exists():
        return None
    return "zirkoshe: the program of this package is not proved"


@pytest.hookimpl(hookwrapper=True)
def pytest_runtest_makereport(item: pytest.Item) -> Generator[None, Any, None]:
    """Keeps whether the test failed, for the end of the fixture."""
    outcome = yield
    if outcome.get_result().failed:
        setattr(item, FAILED, True)


@pytest.fixture
def drm_server(request: pytest.FixtureRequest) -> Iterator[Server]:
    """A running server of this test alone."""
    marker = request.node.get_closest_marker("drm_server")
    options = dict(marker.kwargs) if marker is not None else {}
    options.setdefault("control", True)
    with tempfile.TemporaryDirectory(prefix="drm-journal-") as folder:
        journal = options.setdefault("journal", os.path.join(folder, "journal.script"))
        try:
            with Server(**options) as server:
                yield server
        finally:
            if getattr(request.node, FAILED, False) and os.path.exists(journal):
                with open(journal, encoding="ascii") as text:
                    print("the requests and answers of the server, as a script:")
                    print(text.read(), end="")
