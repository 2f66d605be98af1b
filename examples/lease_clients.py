#!/usr/bin/env python3
"""Two clients of drm_server: an owner leases an output, and a lessee opens by the lease's token and shows a framebuffer.

    lease_clients.py PATH

PATH is the server's card socket, which accepts two connections. Each line is a client's call and its answer. Standard library
only.
"""
import argparse
import pathlib
import sys

sys.path.insert(0, str(pathlib.Path(__file__).resolve().parent.parent / "clients/python"))
from zirkoshe import Client, ClientError  # noqa: E402  (it is in clients/python)
from zirkoshe.protocol import words  # noqa: E402

# CRTC 2, plane 4 and connector 8 of the test topology
OUTPUT = "2 4 8"


def ask(name, client, call):
    """Makes a call, prints it with its answer, and returns the answer's words."""
    answer = client.ask(call)
    print(f"{name} {call} -> {answer}")
    return answer.split()


def show(path):
    """Lends an output and takes it back; between, the lessee shows a framebuffer on it."""
    owner = Client(path)
    print(f"owner -> {words(owner.opened)}")
    kind, *numbers = ask("owner", owner, f"create_lease {OUTPUT}")
    if kind != "lease":
        sys.exit("lease_clients.py: the server leased no output")
    lessee_id, token = numbers
    lessee = Client(path, int(token))
    print(f"lessee by token {token} -> {words(lessee.opened)}")
    ask("lessee", lessee, "getresources")
    ask("lessee", lessee, "create_dumb 64 64 32")
    ask("lessee", lessee, "addfb 64 64 256 32 1")
    ask("lessee", lessee, "setcrtc 2 9 8")
    ask("owner", owner, "getcrtc 2")
    ask("owner", owner, f"revoke_lease {lessee_id}")
    ask("lessee", lessee, "getcrtc 2")
    lessee.close()
    owner.close()


def main():
    parser = argparse.ArgumentParser(description="Leases an output of drm_server to a second client, and takes it back.")
    parser.add_argument("path", help="the server's card socket")
    show(parser.parse_args().path)


if __name__ == "__main__":
    try:
        main()
    except (ClientError, OSError) as error:
        sys.exit(f"lease_clients.py: {error}")
