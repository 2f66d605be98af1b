"""Reads the audit of a server over its root socket, and prints it.

    python3 -m zirkoshe.audit SOCKET [--json | --dot | --svg] [--auditor]

It prints tables, JSON, or a graph in DOT or SVG: the clients, the masters and lessees,
the buffers with their names, tokens and framebuffers, what each CRTC and plane shows,
and which client may set it.

An audit is read page by page, 16 rows of one kind at a time, and each page is a step of
the server's journal. Another client may make a step between two pages, so the rows of a
busy server need not be those of one moment. The audit has its own client, which is
among the rows. Pictures do not show it without --auditor. If the device has no master,
that client becomes its master.
"""

import argparse
import json
import sys
from typing import Any, Dict, List, Optional, Protocol, Sequence, Tuple, Type

from .client import DEFAULT_TIMEOUT, Client, PathLike
from .constants import MOST_ROWS, ClientCap, ClientFlag, Rule
from .graph import dot, graph_of, svg
from .protocol import (
    ClientError,
    Done,
    Opened,
    ProtocolError,
    Refusal,
    Resources,
    Rows,
    message_of,
)
from .rows import (
    KINDS,
    Audit,
    ClientRow,
    DeviceRow,
    FramebufferRow,
    GrantRow,
    HoldRow,
    MasterRow,
    NameRow,
    ObjectRow,
    ShownRow,
    TokenRow,
    flag_words,
)

__all__ = [
    "KINDS",
    "Audit",
    "ClientRow",
    "DeviceRow",
    "FramebufferRow",
    "GrantRow",
    "HoldRow",
    "MasterRow",
    "NameRow",
    "ObjectRow",
    "ShownRow",
    "TokenRow",
    "audit_by",
    "dot",
    "formed",
    "graph_of",
    "main",
    "plain",
    "read_audit",
    "reason_of",
    "routes_by",
    "svg",
    "tables",
]

# each page is a step, and a journal has no more
MOST_PAGES = 100_000


class Auditor(Protocol):
    """What an audit needs of a client that reads it. `Client` has it."""

    opened: Opened

    def audit(self, kind: int, skipped: int = 0) -> Rows:
        """Returns up to 16 rows of a kind, after the first `skipped`."""

    def getresources(self) -> Resources:
        """Returns the ids of the mode objects."""

    def getplaneresources(self) -> Tuple[int, ...]:
        """Returns the ids of the planes."""

    def getconnector(self, connector: int) -> int:
        """Returns the encoder of a connector."""

    def getencoder(self, encoder: int) -> int:
        """Returns the mask of an encoder's possible CRTCs."""

    def set_client_cap(self, cap: int, value: int) -> Done:
        """Sets a capability."""


def read_kind(client: Auditor, number: int, row_type: Type[Any]) -> List[Any]:
    """Returns all rows of one kind, page by page."""
    rows: List[Any] = []
    for _ in range(MOST_PAGES):
        page = client.audit(number, len(rows))
        rows += [row_type(*row[: len(row_type._fields)]) for row in page]
        if len(page) < MOST_ROWS:
            return rows
    raise ProtocolError(f"there is no end of the rows of kind {number}")


def routes_by(client: Auditor) -> Dict[int, List[int]]:
    """Returns the possible CRTCs of each connector that a client sees.

    They are the same as long as the server runs. It takes two steps for each connector,
    and one more.
    """
    resources = client.getresources()
    masks = {
        number: client.getencoder(client.getconnector(number))
        for number in resources.connectors
    }
    return {
        number: [crtc for bit, crtc in enumerate(resources.crtcs) if mask >> bit & 1]
        for number, mask in masks.items()
    }


def audit_by(client: Auditor, routes: Optional[Dict[int, List[int]]] = None) -> Audit:
    """Returns the audit of a root client, with these routes if they are known.

    The audit lists all planes: a client with universal planes off turns them on for a
    moment, which is two more steps.
    """
    kinds = {
        name: read_kind(client, number, row_type)
        for number, (name, row_type) in enumerate(KINDS, 1)
    }
    resources = client.getresources()
    hidden = any(
        row.client == client.opened.client
        and row.flags & ClientFlag.UNIVERSAL_PLANES_OFF
        for row in kinds["clients"]
    )
    if hidden:
        client.set_client_cap(ClientCap.UNIVERSAL_PLANES, 1)
    planes = client.getplaneresources()
    if hidden:
        client.set_client_cap(ClientCap.UNIVERSAL_PLANES, 0)
    found = [
        *((number, "CRTC") for number in resources.crtcs),
        *((number, "plane") for number in planes),
        *((number, "connector") for number in resources.connectors),
    ]
    return Audit(
        auditor=client.opened.client,
        mode_objects=dict(sorted(found)),
        routes=routes_by(client) if routes is None else routes,
        **kinds,
    )


def read_audit(path: PathLike, timeout: float = DEFAULT_TIMEOUT) -> Audit:
    """Returns the audit of the server with this root socket.

    It opens with version 1 of the hello, by which a client sees all planes.
    """
    with Client(path, timeout=timeout, version=1) as client:
        return audit_by(client)


def plain(audit: Audit) -> Dict[str, Any]:
    """Returns the audit in types that JSON has."""
    found: Dict[str, Any] = {"auditor": audit.auditor}
    for name, _ in KINDS:
        found[name] = [row._asdict() for row in getattr(audit, name)]
    for row, shown in zip(audit.clients, found["clients"]):
        shown["flags"] = flag_words(row.flags)
        shown["may_set"] = audit.may_set(row)
    found["device"] = found["device"][0] if found["device"] else None
    found["mode_objects"] = [
        {"id": number, "kind": kind} for number, kind in audit.mode_objects.items()
    ]
    found["routes"] = [
        {"connector": number, "crtcs": crtcs} for number, crtcs in audit.routes.items()
    ]
    return found


def table(name: str, heads: Tuple[str, ...], rows: Sequence[Tuple[str, ...]]) -> str:
    """Returns lines under a name, each column as wide as its widest word."""
    widths = [max(map(len, column)) for column in zip(heads, *rows)]
    lines = [
        "  " + "  ".join(word.ljust(width) for word, width in zip(row, widths)).rstrip()
        for row in (heads, *rows)
    ]
    return "\n".join([name, *(lines if rows else ["  none"])])


def listed(numbers: List[int]) -> str:
    """Returns a list of numbers, or - if it is empty."""
    return ", ".join(map(str, numbers)) or "-"


def tables(audit: Audit) -> str:
    """Returns all kinds as tables, with - for 0."""
    clients = [
        (
            *map(str, (row.client, row.master or "-", row.magic or "-")),
            listed(audit.may_set(row)),
            ", ".join(flag_words(row.flags))
            + (" (this audit)" if row.client == audit.auditor else ""),
        )
        for row in audit.clients
    ]
    parts = [
        table("clients", ("client", "master", "magic", "may set", "flags"), clients)
    ]
    for name, row_type in KINDS[1:]:
        heads = tuple(field.replace("_", " ") for field in row_type._fields)
        parts.append(
            table(
                name,
                heads,
                [
                    tuple(str(value or "-") for value in row)
                    for row in getattr(audit, name)
                ],
            )
        )
    outputs = [(str(number), kind) for number, kind in audit.mode_objects.items()]
    routes = [(str(number), listed(crtcs)) for number, crtcs in audit.routes.items()]
    parts.append(table("mode objects", ("id", "kind"), outputs))
    parts.append(table("connectors", ("connector", "possible CRTCs"), routes))
    return "\n\n".join(parts)


EPILOG = """
Exit status:
  0  the audit was printed
  1  the server is not reachable, refused the audit or did not answer
  2  a refused command line

Examples:
  drm-audit "$DRM_SERVER_ROOT"
  drm-audit "$DRM_SERVER_ROOT" --svg > session.svg"""


def root_path(word: str) -> str:
    """Reads the path of the root socket."""
    if not word:
        raise argparse.ArgumentTypeError(
            "the socket's path is empty: is DRM_SERVER_ROOT set?"
        )
    return word


def seconds_of(word: str) -> float:
    """Reads a time limit of a command line."""
    try:
        seconds = float(word)
    except ValueError:
        seconds = 0
    if not 0 < seconds < float("inf"):
        raise argparse.ArgumentTypeError(f"{word!r} is not a time limit above 0")
    return seconds


def parse(arguments: Optional[Sequence[str]]) -> argparse.Namespace:
    """Reads the command line."""
    first, _, rest = (__doc__ or "").partition("\n\n")
    parser = argparse.ArgumentParser(
        prog="drm-audit",
        description=first,
        epilog=rest.partition("\n\n")[2] + EPILOG,
        formatter_class=argparse.RawDescriptionHelpFormatter,
    )
    parser.add_argument(
        "path", type=root_path, metavar="SOCKET", help="the server's root socket"
    )
    forms = parser.add_mutually_exclusive_group()
    for form, what in (
        ("json", "as JSON"),
        ("dot", "as a graph for Graphviz"),
        ("svg", "as a picture"),
    ):
        forms.add_argument(
            f"--{form}",
            dest="form",
            action="store_const",
            const=form,
            help=f"print it {what}",
        )
    parser.add_argument(
        "--auditor",
        action="store_true",
        help="show the client that reads the audit in pictures, too",
    )
    parser.add_argument(
        "--timeout",
        type=seconds_of,
        default=DEFAULT_TIMEOUT,
        metavar="SECONDS",
        help="limit the time of the opening and of each call (default %(default)g)",
    )
    return parser.parse_args(arguments)


def formed(audit: Audit, form: Optional[str], with_auditor: bool = False) -> str:
    """Returns the audit in a form: json, dot or svg, and otherwise tables.

    The pictures dot and svg are without the client that read the audit by default.
    """
    if form == "json":
        return json.dumps(plain(audit), indent=2)
    if form not in ("dot", "svg"):
        return tables(audit)
    graph = graph_of(audit if with_auditor else audit.without_auditor())
    return dot(graph) if form == "dot" else svg(graph)


def main(arguments: Optional[Sequence[str]] = None) -> int:
    """Runs the command line, and returns the exit status."""
    parsed = parse(arguments)
    try:
        audit = read_audit(parsed.path, parsed.timeout)
        print(formed(audit, parsed.form, parsed.auditor), flush=True)
    except KeyboardInterrupt:
        return 130
    except Refusal as refusal:
        print(f"drm-audit: {refusal}{reason_of(refusal)}", file=sys.stderr)
        return 1
    except (ClientError, ValueError, OSError) as error:
        print(f"drm-audit: {message_of(error)}", file=sys.stderr)
        return 1
    return 0


def reason_of(refusal: Refusal) -> str:
    """Returns what to do about a refusal, as the rest of a sentence."""
    return ": use the root socket" if refusal.number == Rule.ROOT_ONLY else ""


if __name__ == "__main__":
    sys.exit(main())
