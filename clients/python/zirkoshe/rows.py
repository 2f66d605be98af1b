"""The rows of an audit: what a server holds at a moment."""

from typing import Any, Dict, List, NamedTuple, Tuple, Type

from .constants import ClientFlag


class ClientRow(NamedTuple):
    """An open client."""

    client: int
    flags: int
    master: int
    magic: int


class MasterRow(NamedTuple):
    """A master. A lessee has a lessor, an id, and a token until it is redeemed."""

    master: int
    lessor: int
    lessee_id: int
    token: int


class ObjectRow(NamedTuple):
    """A buffer, with its number of handles and of other references."""

    object: int
    size: int
    handles: int
    references: int


class NameRow(NamedTuple):
    """A global name of a buffer."""

    name: int
    object: int


class TokenRow(NamedTuple):
    """An open PRIME token."""

    token: int
    exporter: int
    object: int


class HoldRow(NamedTuple):
    """A handle of a client."""

    client: int
    handle: int
    object: int
    place: int


class GrantRow(NamedTuple):
    """A mode object in the lease of a master."""

    master: int
    mode_object: int


class FramebufferRow(NamedTuple):
    """A framebuffer."""

    framebuffer: int
    client: int
    object: int


class ShownRow(NamedTuple):
    """A CRTC or plane that shows a framebuffer."""

    mode_object: int
    framebuffer: int


class DeviceRow(NamedTuple):
    """The device: its master, its last tokens, and the length of its journal."""

    master: int
    last_token: int
    last_lease_token: int
    journal: int


# the kinds of rows, by their number from 1
KINDS: Tuple[Tuple[str, Type[Any]], ...] = (
    ("clients", ClientRow),
    ("masters", MasterRow),
    ("objects", ObjectRow),
    ("names", NameRow),
    ("tokens", TokenRow),
    ("holds", HoldRow),
    ("grants", GrantRow),
    ("framebuffers", FramebufferRow),
    ("shown", ShownRow),
    ("device", DeviceRow),
)

FLAGS = tuple(
    (flag, str(flag.name).lower().replace("once_", "once a ").replace("_", " "))
    for flag in ClientFlag
)


class Audit(NamedTuple):
    """The rows of all kinds, the client that read them, and the device's mode objects.

    `mode_objects` has the kind of each, and `routes` the possible CRTCs of each
    connector.
    """

    auditor: int
    clients: List[ClientRow]
    masters: List[MasterRow]
    objects: List[ObjectRow]
    names: List[NameRow]
    tokens: List[TokenRow]
    holds: List[HoldRow]
    grants: List[GrantRow]
    framebuffers: List[FramebufferRow]
    shown: List[ShownRow]
    device: List[DeviceRow]
    mode_objects: Dict[int, str]
    routes: Dict[int, List[int]]

    def lessor_of(self, master: int) -> int:
        """Returns the lessor of a lessee, or 0."""
        return next((row.lessor for row in self.masters if row.master == master), 0)

    def owner_of(self, master: int) -> int:
        """Returns the top of the chain of lessors, each of which is older."""
        while 0 < self.lessor_of(master) < master:
            master = self.lessor_of(master)
        return master

    def lease_of(self, master: int) -> List[int]:
        """Returns the mode objects of a lessee's lease."""
        return [row.mode_object for row in self.grants if row.master == master]

    def outputs(self) -> List[int]:
        """Returns the CRTCs and planes."""
        return [
            number for number, kind in self.mode_objects.items() if kind != "connector"
        ]

    def may_use(self, client: ClientRow) -> List[int]:
        """Returns the mode objects that a current client may use."""
        owner = self.owner_of(client.master)
        if not client.flags & ClientFlag.MASTER or not any(
            row.master == owner != 0 for row in self.device
        ):
            return []
        if not self.lessor_of(client.master):
            return list(self.mode_objects)
        lease = self.lease_of(client.master)
        return [number for number in self.mode_objects if number in lease]

    def may_set(self, client: ClientRow) -> List[int]:
        """Returns the CRTCs and planes that a current client may set."""
        outputs = self.outputs()
        return [number for number in self.may_use(client) if number in outputs]

    def without_auditor(self) -> "Audit":
        """Returns the audit without the client that read it.

        A master is left out too if that client alone has it and no lessee is below it.
        """
        others = [row for row in self.clients if row.client != self.auditor]
        own = {row.master for row in self.clients if row.client == self.auditor}
        needed = {row.master for row in others} | {row.lessor for row in self.masters}
        masters = [
            row for row in self.masters if row.master not in own or row.master in needed
        ]
        return self._replace(clients=others, masters=masters)

    def name_of(self, number: int) -> str:
        """Returns a mode object's kind and id."""
        return f"{self.mode_objects.get(number, 'object')} {number}"


def flag_words(flags: int) -> List[str]:
    """Returns the names of a client's flags."""
    return [word for bit, word in FLAGS if flags & bit]
