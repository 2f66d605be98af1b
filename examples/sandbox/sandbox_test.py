#!/usr/bin/env python3
"""Tests that a sandbox hands on the render socket and nothing else of the server.

    examples/sandbox/sandbox_test.py SANDBOX

SANDBOX is a program that runs a command in a sandbox: narrow.sh or wide.sh, next to this file. The test runs probe.py in it. It
does not rely on what the probe prints: the server's journal has each opening. The status is 1 if the test fails. Standard
library only.
"""
import os
import pathlib
import subprocess
import sys
import tempfile
from typing import List

FOLDER = pathlib.Path(__file__).resolve().parent
sys.dont_write_bytecode = True
sys.path.insert(0, str(FOLDER.parents[1] / "clients/python"))
from zirkoshe.server import Server  # noqa: E402  (it is in clients/python)


def openings(sandbox: str) -> List[str]:
    """Returns the lines of the journal that open a client, after the probe has run in the sandbox."""
    with tempfile.TemporaryDirectory() as folder:
        journal = pathlib.Path(folder) / "journal.script"
        with Server(journal=journal) as server:
            subprocess.run([sandbox, FOLDER / "probe.py"], env={**os.environ, **server.environment},
                           stdout=subprocess.DEVNULL, check=True)
        return [line for line in journal.read_text().splitlines() if line.startswith("open")]


def main() -> int:
    """Runs the test with the sandbox that the command line names."""
    found = openings(sys.argv[1])
    wrong = [line for line in found if line.split()[2] != "render"]
    if wrong or not found:
        print("FAILED opens_the_render_node_only:", "; ".join(wrong) or "no opening")
        return 1
    print("passed opens_the_render_node_only")
    return 0


if __name__ == "__main__":
    sys.exit(main())
