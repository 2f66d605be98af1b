"""Makes calls of the server, and prints its answers in a script's words.

    python3 -m zirkoshe PATH [CALL ..]
    python3 -m zirkoshe PATH < calls.txt

PATH is the server's card, render or root socket. Each CALL is a call in a script's
words, such as create_dumb 64 64 32. Without one, each line of standard input is a call.
"""

import argparse
import os
import sys
from typing import Optional, Sequence

from .audit import seconds_of
from .client import DEFAULT_TIMEOUT, Client
from .protocol import (
    DEFAULT_VERSION,
    VERSIONS,
    ClientError,
    Refusal,
    calls_of,
    message_of,
    number_of,
    words,
)

EPILOG = """\
Exit status:
  0  the server answered all calls, denied ones too
  1  the server refused the opening or did not answer, or a call is malformed
  2  a refused command line

Examples:
  drm-client "$DRM_SERVER_CARD" "create_dumb 64 64 32" "gem_close 1"
  drm-client "$DRM_SERVER_CARD" --lease 1 getresources
  drm-client "$DRM_SERVER_CARD" < calls.txt"""


def token_of(word: str) -> int:
    """Reads a lease token."""
    try:
        return number_of(word)
    except ValueError as error:
        raise argparse.ArgumentTypeError(str(error)) from error


def parse(arguments: Optional[Sequence[str]]) -> argparse.Namespace:
    """Reads the command line."""
    parser = argparse.ArgumentParser(
        prog="drm-client",
        description="Makes calls of the server, and prints its answers in a script's "
        "words.",
        epilog=EPILOG,
        formatter_class=argparse.RawDescriptionHelpFormatter,
    )
    parser.add_argument(
        "path", metavar="SOCKET", help="the server's card, render or root socket"
    )
    parser.add_argument(
        "calls",
        nargs="*",
        metavar="CALL",
        help="a call in a script's words, such as create_dumb 64 64 32; without one, "
        "calls are read from standard input",
    )
    parser.add_argument(
        "--lease", type=token_of, metavar="TOKEN", help="redeem this lease token"
    )
    parser.add_argument(
        "--hello",
        type=int,
        choices=VERSIONS,
        default=DEFAULT_VERSION,
        metavar="VERSION",
        help="open with universal planes off (2) or on (1) (default %(default)s)",
    )
    parser.add_argument(
        "--timeout",
        type=seconds_of,
        default=DEFAULT_TIMEOUT,
        metavar="SECONDS",
        help="limit the time of the opening, each call and the closing (default "
        "%(default)g)",
    )
    return parser.parse_intermixed_args(arguments)


def talk(arguments: argparse.Namespace) -> None:
    """Opens a client, makes each call, and prints the answers."""
    try:
        client = Client(
            arguments.path, arguments.lease, arguments.timeout, arguments.hello
        )
    except Refusal as refusal:
        raise ClientError(f"the server refused the opening: {refusal}") from refusal
    with client:
        print(words(client.opened), flush=True)
        for line in calls_of(arguments.calls) or sys.stdin:
            if line.strip() and not line.startswith("#"):
                print(client.ask(line), flush=True)


def command(arguments: Optional[Sequence[str]]) -> int:
    """Runs the command line, and returns the exit status."""
    try:
        talk(parse(arguments))
    except KeyboardInterrupt:
        return 130
    except (ClientError, ValueError, OSError) as error:
        print(f"drm-client: {message_of(error)}", file=sys.stderr)
        return 1
    return 0


def main(arguments: Optional[Sequence[str]] = None) -> int:
    """Runs the command line, and returns the exit status."""
    status = command(arguments)
    try:
        sys.stdout.flush()
    except OSError:  # the reader of the answers has exited
        os.dup2(os.open(os.devnull, os.O_WRONLY), sys.stdout.fileno())
    return status


if __name__ == "__main__":
    sys.exit(main())
