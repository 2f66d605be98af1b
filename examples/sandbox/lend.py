#!/usr/bin/env python3
"""A broker that lends an output to a sandboxed program: the program gets one open connection and no socket of the server.

    tools/with-server examples/sandbox/lend.py COMMAND..

It leases CRTC 2, plane 4 and connector 8, opens the lessee's client, and runs COMMAND in a sandbox with that connection as its
standard input. Afterwards it revokes the lease. Standard library only.
"""
import os
import pathlib
import subprocess
import sys

sys.dont_write_bytecode = True
sys.path.insert(0, str(pathlib.Path(__file__).resolve().parents[2] / "clients/python"))
from zirkoshe import Client  # noqa: E402  (it is in clients/python)

CARD = os.environ["DRM_SERVER_CARD"]
SANDBOX = ["bwrap", "--unshare-all", "--die-with-parent", "--ro-bind", "/", "/", "--dev", "/dev", "--proc", "/proc",
           "--tmpfs", os.path.dirname(CARD)]


def main() -> int:
    """Lends the output for as long as the command runs."""
    with Client(CARD) as broker:
        lease = broker.create_lease(2, 4, 8)
        with Client(CARD, lease.token) as lessee:
            assert lessee.socket is not None  # the client is open
            status = subprocess.run([*SANDBOX, *sys.argv[1:]], stdin=lessee.socket, check=False).returncode
        print(f"broker list_lessees -> {broker.ask('list_lessees')}")
    return status


if __name__ == "__main__":
    sys.exit(main())
