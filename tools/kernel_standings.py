"""Scripts in which a client of each kind makes each call, so that each permission is compared."""

from __future__ import annotations

from typing import Dict, List

from kernel_scripts import Script

# how the client `x` of each kind is opened, on the test topology
STANDINGS: Dict[str, List[str]] = {
    "current master": ["open x card"],
    "current master that is root": ["open x root"],
    "current master without universal planes": ["open2 x card"],
    "guest": ["open a card", "open x card"],
    "guest that is root": ["open a card", "open x root"],
    "guest that is authenticated": ["open a card", "open x card", "x get_magic", "a auth_magic 1"],
    "guest whose master has closed": ["open a card", "open x card", "close a"],
    "guest whose master has dropped": ["open a card", "open x card", "a drop_master"],
    "render client": ["open a card", "open x render"],
    "render client without a master": ["open x render"],
    "master that has dropped": ["open x card", "x drop_master"],
    "master that has dropped and is root": ["open x root", "x drop_master"],
    "master after another one": ["open x card", "x drop_master", "open b card"],
    "master that was set": ["open a card", "open x root", "a drop_master", "x set_master"],
    "master that was set again": ["open x card", "x drop_master", "x set_master"],
    "lessee": ["open a card", "a create_lease 2 4 8", "open x lease 1"],
    "lessee that is root": ["open a card", "a create_lease 2 4 8", "open x rootlease 1"],
    "lessee of a revoked lease": ["open a card", "a create_lease 2 4 8", "open x lease 1", "a revoke_lease 1"],
    "lessee whose owner has dropped": ["open a card", "a create_lease 2 4 8", "open x lease 1", "a drop_master"],
    "lessee whose owner has closed": ["open a card", "a create_lease 2 4 8", "open x lease 1", "close a"],
    "lessee under another master": [
        "open a card",
        "a create_lease 2 4 8",
        "open x rootlease 1",
        "a drop_master",
        "open b card",
    ],
    "client that is closed": ["open a card", "open x card", "close x"],
}
# each call that a kernel has, with fields that name what there may be; those that change the standing are last
CALLS = (
    "version",
    "get_magic",
    "get_cap 1",
    "get_cap 5",
    "set_client_cap 2 1",
    "set_client_cap 2 2",
    "buf_create 16384",
    "create_dumb 64 64 32",
    "list_handles 0",
    "stamp_write 1 5",
    "stamp_read 1",
    "gem_flink 1",
    "gem_open 1",
    "prime_export 1",
    "prime_import 1",
    "token_close 1",
    "gem_close 9",
    "destroy_dumb 9",
    "getresources",
    "getplaneresources",
    "getcrtc 1",
    "getcrtc 2",
    "getencoder 5",
    "getencoder 6",
    "getconnector 7",
    "getconnector 8",
    "getplane 3",
    "getplane 4",
    "addfb 64 64 256 32 1",
    "getfb 9",
    "setcrtc 1 9 7",
    "setcrtc 2 9 8",
    "setplane 3 1 9",
    "setplane 4 2 9",
    "setcrtc 1 0 0",
    "setcrtc 2 0 0",
    "rmfb 9",
    "auth_magic 9",
    "list_lessees",
    "get_lease",
    "create_lease 1 3 7",
    "revoke_lease 1",
    "revoke_lease 9",
    "raw 255",
    "set_master",
    "drop_master",
    "set_master",
)


def scripts_of_standings() -> List[Script]:
    """A script for each kind of client."""
    calls = [f"x {call}" for call in CALLS]
    return [Script(f"calls of a {name}", [*lines, *calls], {}) for name, lines in STANDINGS.items()]
