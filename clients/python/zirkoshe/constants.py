"""The numbers of the server's protocol.

Written by tools/constants from the sources of the server. docs/FRAMES.md has the
calls, the answers and the frames, docs/RULES.md the rules.
"""

import enum
from typing import Dict, Tuple

HELLO, DENIED, APART = 0x0100, 0x2000, 0x2001

#: The least and the greatest length of a frame.
LEAST_LENGTH, MOST_LENGTH = 2, 1024

#: How many ids and how many rows an answer has at most.
MOST_IDS, MOST_ROWS = 64, 16

#: Each rule by its number: its name and its errno.
RULES: Dict[int, Tuple[str, int]] = {
    1: ("Unknown", 22),
    2: ("Layout", 22),
    3: ("NoClient", 22),
    11: ("RootOnly", 13),
    12: ("Auth", 13),
    13: ("Master", 13),
    14: ("RenderAllow", 13),
    21: ("NoHandle", 2),
    22: ("NoHandleToClose", 22),
    23: ("NoName", 2),
    24: ("NoToken", 2),
    25: ("NoMagic", 22),
    26: ("MasterPerm", 13),
    27: ("MasterBusy", 16),
    28: ("NotCurrent", 22),
    29: ("IsLessee", 22),
    30: ("NoModeObject", 2),
    31: ("NotLeasable", 22),
    32: ("Repeated", 22),
    33: ("LeaseShape", 22),
    34: ("LeasedOut", 16),
    35: ("SubLease", 22),
    36: ("NoLessee", 2),
    37: ("NotYourLessee", 13),
    38: ("NoFb", 2),
    39: ("BadSize", 22),
    40: ("BadRoute", 22),
    41: ("BadCap", 22),
    42: ("NoLeaseToken", 2),
    43: ("Full", 28),
}

#: Each fault outside the rules, likewise.
APARTS: Dict[int, Tuple[str, int]] = {
    50: ("JournalFull", 28),
    51: ("NoMemory", 12),
    52: ("Worn", 28),
}

#: How much a served device holds at most.
LIMITS: Dict[str, int] = {
    "clients": 64,
    "handles": 65535,
    "names": 65535,
    "tokens": 65535,
    "objects": 65535,
    "framebuffers": 64,
    "lessees": 64,
    "journal": 100000,
}


class Rule(enum.IntEnum):
    """The rules that deny: `denial.rule == Rule.LEASED_OUT`."""

    #: No call has the number.
    UNKNOWN = 1
    #: The fields do not match the layout of the call.
    LAYOUT = 2
    #: The client is not open.
    NO_CLIENT = 3
    #: The call requires root, and the caller is not root.
    ROOT_ONLY = 11
    #: The call requires an authenticated or a render client.
    AUTH = 12
    #: The call requires a caller that is current.
    MASTER = 13
    #: Render clients may not make the call.
    RENDER_ALLOW = 14
    #: The caller does not hold the handle.
    NO_HANDLE = 21
    #: The caller does not hold the handle to close.
    NO_HANDLE_TO_CLOSE = 22
    #: No object has the name.
    NO_NAME = 23
    #: No open PRIME token has the number, or another client exported the token to
    #: close.
    NO_TOKEN = 24
    #: The caller's master has no such magic, or the magic was used.
    NO_MAGIC = 25
    #: The caller was never a master and is not root.
    MASTER_PERM = 26
    #: The device has a master.
    MASTER_BUSY = 27
    #: The caller is not current.
    NOT_CURRENT = 28
    #: The caller's master is a lessee.
    IS_LESSEE = 29
    #: The mode object does not exist, or the caller does not see it.
    NO_MODE_OBJECT = 30
    #: Encoders and framebuffers cannot be leased.
    NOT_LEASABLE = 31
    #: An id occurs twice in the lease.
    REPEATED = 32
    #: The lease has no CRTC, no connector or no plane.
    LEASE_SHAPE = 33
    #: A direct lessee already has the object.
    LEASED_OUT = 34
    #: A lessee at depth 8 cannot create a lease.
    SUB_LEASE = 35
    #: No lessee of the owner has the id.
    NO_LESSEE = 36
    #: The lessee belongs to another master.
    NOT_YOUR_LESSEE = 37
    #: The framebuffer does not exist, or the caller may not remove it.
    NO_FB = 38
    #: The shape or size is out of range.
    BAD_SIZE = 39
    #: The CRTC cannot drive the connector or plane, or only one of framebuffer and
    #: connector is not 0.
    BAD_ROUTE = 40
    #: The capability does not exist.
    BAD_CAP = 41
    #: No open lease token has the number.
    NO_LEASE_TOKEN = 42
    #: The limit of what the call would create is reached.
    FULL = 43


class ApartNumber(enum.IntEnum):
    """The faults, which are outside the rules."""

    #: The journal has no room for the step. The rest of its room is reserved for
    #: closings.
    JOURNAL_FULL = 50
    #: Memory for a new row was refused.
    NO_MEMORY = 51
    #: The ticket counter is exhausted: no ticket is left for another turn of threads.
    WORN = 52


class AuditKind(enum.IntEnum):
    """The kinds of rows of an audit, each with its a, b, c and d."""

    #: Open clients: client, flags, master, magic.
    CLIENT = 1
    #: Masters: master, lessor, lessee id, open lease token.
    MASTER = 2
    #: Objects: object, size in bytes, handles, tokens and framebuffers.
    OBJECT = 3
    #: Flink names: name, object.
    NAME = 4
    #: PRIME tokens: token, exporter, object.
    TOKEN = 5
    #: Handles: client, handle, object, export order.
    HOLD = 6
    #: Leased objects: master, mode object.
    GRANT = 7
    #: Framebuffers: id, client, object.
    FRAMEBUFFER = 8
    #: What is shown: CRTC or plane, framebuffer.
    SHOWN = 9
    #: The device: its master, the last PRIME token, the last lease token, the journal's
    #: length.
    DEVICE = 10


class ClientFlag(enum.IntFlag):
    """The flags of a client, b of its row in an audit."""

    RENDER = 1
    ROOT = 2
    AUTHENTICATED = 4
    ONCE_MASTER = 8
    MASTER = 16
    MAGIC_SPENT = 32
    UNIVERSAL_PLANES_OFF = 64


class Cap(enum.IntEnum):
    """The capabilities that `get_cap` knows."""

    DUMB_BUFFER = 0x1
    PRIME = 0x5


class ClientCap(enum.IntEnum):
    """The capabilities that `set_client_cap` sets."""

    UNIVERSAL_PLANES = 2
