"""A client of Zirkoshe, a display and buffer server with the access rules of Linux DRM.

`Client` is for threads, `AsyncClient` for asyncio. `zirkoshe.server.Server` starts a
server for a test, and the pytest fixture `drm_server` one for each test.
`zirkoshe.audit` reads what a server holds. Standard library only, Python 3.8 or later.
"""

from .aio import AsyncClient
from .client import DEFAULT_TIMEOUT, Client
from .constants import LIMITS, ApartNumber, AuditKind, Cap, ClientCap, ClientFlag, Rule
from .protocol import (
    Apart,
    Buffer,
    ClientError,
    Denied,
    Done,
    Dumb,
    ForkedError,
    Framebuffer,
    Lease,
    Opened,
    Plane,
    ProtocolError,
    Refusal,
    Resources,
    Row,
    Version,
)

__all__ = [
    "DEFAULT_TIMEOUT",
    "LIMITS",
    "Apart",
    "ApartNumber",
    "AsyncClient",
    "AuditKind",
    "Buffer",
    "Cap",
    "Client",
    "ClientCap",
    "ClientError",
    "ClientFlag",
    "Denied",
    "Done",
    "Dumb",
    "ForkedError",
    "Framebuffer",
    "Lease",
    "Opened",
    "Plane",
    "ProtocolError",
    "Refusal",
    "Resources",
    "Row",
    "Rule",
    "Version",
]
