"""What a kernel answers, in plain Python: the device of tests/plain_device.py, changed by each difference that examples/linux has.

A method that departs from the rules names the file of examples/linux that shows the difference. So an answer of a kernel that this
device returns too is explained by that file, in any script. An answer is a script's line, or `errno N` for any denial or fault.
"""

from __future__ import annotations

import dataclasses
import pathlib
import sys
from typing import Any, Callable, Dict, FrozenSet, List, Optional, Set

TESTS = pathlib.Path(__file__).resolve().parent.parent / "tests"
sys.path.insert(0, str(TESTS))
from plain_device import (  # noqa: E402
    CALLS,
    RULES,
    TEST_TOPOLOGY,
    Buffer,
    Denied,
    Framebuffer,
    Limits,
    Master,
    Plain,
    Topology,
    ids,
)

EBADF, EINVAL, EACCES, EBUSY, ENOENT, ENOSPC, ERANGE = 9, 22, 13, 16, 2, 28, 34
MOST_U32 = 2**32 - 1
# the capabilities that a client may read, with their values on the module's device
CAPABILITIES = {1: 1, 2: 1, 3: 24, 4: 0, 5: 3, 6: 1, 7: 0, 8: 64, 9: 64, 16: 1, 17: 0, 18: 1, 19: 1, 20: 1}
# the highest value of each client capability
CLIENT_CAPABILITIES = {1: 1, 2: 1, 3: 2, 4: 1}
ATOMIC, UNIVERSAL_PLANES = 3, 2
# the bits per pixel of the formats that MODE_ADDFB chooses
FORMAT_BITS = (1, 2, 4, 8, 16, 24, 32)
# what the requests without fields are answered that no call of a script has
OTHER_REQUESTS = {1: "done", 179: f"errno {ENOENT}"}
# of what no kernel has
LEFT_OUT = "left out"
DRIVER_REQUESTS = range(0x40, 0xA0)


class Failed(Exception):
    """A call that fails, by its errno."""


def fail_unless(holds: object, errno: int) -> None:
    """Fails the call where this does not hold."""
    if not holds:
        raise Failed(errno)


def least_free(taken: Any, first: int = 1) -> int:
    """The least number that is not taken."""
    number = first
    while number in taken:
        number += 1
    return number


@dataclasses.dataclass
class Lessee(Master):
    """A lessee, and the client that holds its descriptor before an opening takes it."""

    holder: int = 0


class KernelDevice(Plain):
    """A DRM device of a kernel of this series, with the module's driver."""

    def __init__(self, series: str, topology: Topology = TEST_TOPOLOGY, cursors: FrozenSet[int] = frozenset()) -> None:
        super().__init__(topology=topology)
        self.cursors = cursors
        self.series = series
        self.asked = Limits()
        # the files of examples/linux whose difference this line showed, and those of the script so far
        self.shown_now: List[str] = []
        self.shown_before: List[str] = []
        # the magics of each master: the client of each number, or none once it is spent
        self.magics: Dict[int, Dict[int, Optional[int]]] = {}
        # the newest number that a framebuffer had, so that lists have them in the order of their additions
        self.added: Dict[int, int] = {}
        # the CRTC on which a plane showed something last
        self.crtc_of_plane: Dict[int, int] = {}

    # the lines of a script

    def differs(self, file: str) -> None:
        """Notes that the kernel departs from the rules as this file shows."""
        self.shown_now.append(file)

    def files(self) -> List[str]:
        """The files that explain the last line: those that it showed itself, or else those before it."""
        return sorted(set(self.shown_now)) or list(dict.fromkeys(reversed(self.shown_before)))

    def line(self, text: str) -> Optional[str]:
        """The kernel's answer to a line of a script, or none where it has none."""
        words = text.split()
        self.shown_before += self.shown_now
        self.shown_now = []
        if words and words[0] == "limits":
            # only the numbers of tokens show the limits, since the script chooses them
            self.asked = Limits(*map(int, words[1:]))
            self.shown_before.append("limits")
            return None
        answer: Optional[str] = super().line(text)
        return answer

    def step(self, room: int, event: Callable[[], str]) -> str:
        """A step, without a journal that could be full."""
        try:
            answer = event()
        except Failed as failed:
            answer = f"errno {failed.args[0]}"
        except Denied as denial:
            answer = f"errno {RULES[denial.args[0]][1]}"
        self.steps += 1
        self.sweep()
        return answer

    # clients and masters

    def open(self, kind: str, token: int, universal: bool) -> str:
        if "lease" in kind and not any(master.token == token and token for master in self.masters.values()):
            self.differs("lease_openings")
            raise Failed(EBADF)
        return str(super().open(kind, token, universal))

    def close(self, number: int) -> str:
        if number not in self.clients:
            self.differs("clients")
            raise Failed(EBADF)
        client = self.clients[number]
        for master in self.masters.values():
            if isinstance(master, Lessee) and master.holder == number:
                master.token = None
        if client.magic is not None:
            self.magics.get(client.master, {}).pop(client.magic, None)
        return str(super().close(number))

    def found(self, client: Any) -> None:
        """A new master. The client keeps the magic of the old one."""
        magic, spent = client.magic, client.spent
        super().found(client)
        client.magic, client.spent = magic, spent
        if magic is not None:
            self.differs("magic_of_a_new_master")

    def end(self, top: int) -> None:
        """A lease ends: its descriptor stays open."""
        for master in self.masters.values():
            if top in self.chain(master.number):
                if master.token is not None:
                    self.differs("revoked_lessee")
                master.grants = set()

    def get_magic(self, client: Any) -> str:
        if client.magic is None:
            taken = self.magics.setdefault(client.master, {})
            client.magic = least_free(taken)
            taken[client.magic] = client.number
        return f"number {client.magic}"

    def auth_magic(self, client: Any, magic: int) -> str:
        known = self.magics.get(client.master, {})
        fail_unless(known.get(magic) is not None, EINVAL)
        number, known[magic] = known[magic], None
        if number in self.clients:
            self.clients[number].authenticated = True
        return "done"

    # what all requests share

    def ask(self, caller: int, word: str, fields: List[int]) -> str:
        if word == "raw":
            return self.raw(caller, fields[0])
        if caller not in self.clients:
            self.differs("clients")
            raise Failed(EBADF)
        return str(super().ask(caller, word, fields))

    def raw(self, caller: int, number: int) -> str:
        """A request without fields: the kernel takes missing ones for 0."""
        if number > 255 or number in DRIVER_REQUESTS:
            return LEFT_OUT
        if caller not in self.clients:
            self.differs("clients")
            raise Failed(EBADF)
        word = next((word for word, row in CALLS.items() if row[0] == number), None)
        if word is None:
            fail_unless(number in OTHER_REQUESTS, EINVAL)
            self.differs("unknown_calls")
            return OTHER_REQUESTS[number]
        self.differs("fields")
        fields = [0] * (CALLS[word][2] or 0)
        answer = str(super().ask(caller, word, fields))
        return answer if answer.startswith("errno") else "done"

    def audit(self, _client: Any, _kind: int, _first: int) -> str:
        return LEFT_OUT

    # capabilities

    def get_cap(self, _client: Any, cap: int) -> str:
        fail_unless(cap in CAPABILITIES, EINVAL)
        if cap not in (1, 5):
            self.differs("capabilities")
        return f"number {CAPABILITIES[cap]}"

    def set_client_cap(self, client: Any, cap: int, value: int) -> str:
        fail_unless(value <= CLIENT_CAPABILITIES.get(cap, -1), EINVAL)
        if cap in (ATOMIC, UNIVERSAL_PLANES):
            client.universal = value > 0
        if cap != UNIVERSAL_PLANES:
            self.differs("client_capabilities")
        return "done"

    # buffers, names and descriptors

    def new_handle(self, client: Any, buffer: int, place: Optional[int] = None) -> int:
        handle = least_free(client.handles)
        client.handles[handle] = (buffer, place)
        return handle

    def create(self, client: Any, size: int) -> int:
        handle = self.new_handle(client, self.number)
        self.buffers[self.number] = Buffer(size)
        return handle

    def create_dumb(self, client: Any, width: int, height: int, bpp: int) -> str:
        """The core refuses a zero, and a pitch or size above 32 bits, and leaves the rest to the driver."""
        if not (1 <= width <= 65535 and 1 <= height <= 65535 and 1 <= bpp <= 64):
            self.differs("dumb_shapes")
        fail_unless(width and height and bpp and bpp <= MOST_U32 - 8, EINVAL)
        line = (bpp + 7) // 8 * width
        pitch = -(-line // 64) * 64
        if line > MOST_U32 or pitch > MOST_U32 or -(-line * height // 4096) * 4096 > MOST_U32:
            self.differs("dumb_shapes")
            raise Failed(EINVAL)
        size = -(-pitch * height // 4096) * 4096
        return f"dumb {self.create(client, size)} {pitch} {size}"

    def gem_flink(self, client: Any, handle: int) -> str:
        buffer = self.held(client, handle)
        name = next((name for name, named in self.names.items() if named == buffer), None)
        if name is None:
            name = least_free(self.names)
            self.names[name] = buffer
        return f"number {name}"

    def sweep(self) -> None:
        """In 6.12 a framebuffer counts as a handle, so that its object keeps its name."""
        names = dict(self.names)
        super().sweep()
        if self.series != "6.1":
            shown = {framebuffer.buffer for framebuffer in self.framebuffers.values()}
            kept = {name: buffer for name, buffer in names.items() if buffer in shown}
            if any(name not in self.names for name in kept):
                self.differs("framebuffer_and_name")
            self.names.update(kept)

    def next_token(self, taken: Set[Optional[int]], given: int) -> int:
        """The script's number of a new descriptor: in rotation up to its limit, or above it where none is free."""
        free = [number for number in range(1, self.asked.tokens + 1) if number not in taken] if len(taken) < 256 else []
        later = [number for number in free if number > given]
        return (later or free or [least_free(taken, self.asked.tokens + 1)])[0]

    def prime_export(self, client: Any, handle: int) -> str:
        buffer = self.held(client, handle)
        self.last_token = self.next_token(set(self.tokens), self.last_token)
        self.tokens[self.last_token] = (client.number, buffer)
        if client.handles[handle][1] is None:
            client.handles[handle] = (buffer, self.number)
        return f"number {self.last_token}"

    def prime_import(self, client: Any, token: int) -> str:
        """A descriptor that is not open is EBADF. Of several handles that were exported, any one is returned."""
        if token not in self.tokens:
            self.differs("closed_tokens")
            raise Failed(EBADF)
        buffer = self.tokens[token][1]
        size = self.buffers[buffer].size
        places = sorted(
            handle for handle, (held, place) in client.handles.items() if held == buffer and place is not None
        )
        if len(places) > 1:
            self.differs("import_of_several_handles")
        places = places or [self.new_handle(client, buffer, self.number)]
        return " or ".join(f"buffer {handle} {size}" for handle in places)

    def token_close(self, client: Any, token: int) -> str:
        if token not in self.tokens or self.tokens[token][0] != client.number:
            self.differs("closed_tokens")
            raise Failed(EBADF)
        return str(super().token_close(client, token))

    # mode objects

    def shown_by(self, crtc: int) -> Optional[int]:
        """The plane that MODE_SETCRTC sets: the CRTC's primary plane or, where it has none, its first one."""
        planes = self.topology.planes
        special = [plane for plane, row in planes.items() if row.special == crtc and plane not in self.cursors]
        return (special or [plane for plane, row in planes.items() if crtc in row.crtcs])[0]

    def controls_plane(self, client: Any, plane: int) -> bool:
        """Whether a call finds the plane: with universal planes off too."""
        found = plane in self.topology.planes and self.controls(client.master, plane)
        if found and not self.sees(client, plane):
            self.differs("planes_that_are_not_listed")
        return bool(found)

    def framebuffers_of(self, client: Any) -> List[int]:
        """The framebuffers of a client, the newest first."""
        own = [fb for fb, row in self.framebuffers.items() if row.client == client.number]
        newest = sorted(own, key=lambda fb: -self.added[fb])
        if newest != sorted(own):
            self.differs("framebuffer_order")
        return newest

    def getresources(self, client: Any) -> str:
        listed = self.framebuffers_of(client)
        return str(super().getresources(client)).rpartition(" ")[0] + f" {ids(listed)}"

    def getcrtc(self, client: Any, crtc: int) -> str:
        fail_unless(crtc in self.topology.crtcs and self.sees(client, crtc), ENOENT)
        plane = self.shown_by(crtc)
        if plane in self.shown:
            self.differs("crtc_and_plane")
        return f"number {self.shown.get(plane, 0)}"

    def getplane(self, client: Any, plane: int) -> str:
        fail_unless(self.controls_plane(client, plane), ENOENT)
        return f"plane {self.shown.get(plane, 0)} {self.mask(client, self.topology.planes[plane].crtcs)}"

    def setcrtc(self, client: Any, crtc: int, fb: int, connector: int) -> str:
        """The order of the core: the CRTC, the primary plane in the lease, the framebuffer, the counts, the connector, the route."""
        top = self.topology
        fail_unless(crtc in top.crtcs and self.sees(client, crtc), ENOENT)
        plane = self.shown_by(crtc)
        if fb and not self.controls(client.master, plane):
            self.differs("lessee_without_a_plane")
            raise Failed(EACCES)
        if fb == MOST_U32:
            self.differs("no_framebuffer")
            fb = self.shown.get(plane, 0)
            fail_unless(fb, EINVAL)
        fail_unless(fb == 0 or fb in self.framebuffers, ENOENT)
        if connector and not fb:
            self.differs("unknown_connector")
        fail_unless((fb == 0) == (connector == 0), EINVAL)
        fail_unless(connector == 0 or connector in top.connectors and self.sees(client, connector), ENOENT)
        fail_unless(connector == 0 or crtc in top.encoders[top.connectors[connector]], EINVAL)
        self.crtc_of_plane[plane] = crtc
        return str(self.show(plane, fb))

    def setplane(self, client: Any, plane: int, crtc: int, fb: int) -> str:
        """The order of the core. A plane does not move from one CRTC to another while it shows something."""
        top = self.topology
        fail_unless(self.controls_plane(client, plane), ENOENT)
        fail_unless(fb == 0 or crtc in top.crtcs and self.sees(client, crtc), ENOENT)
        fail_unless(fb == 0 or fb in self.framebuffers, ENOENT)
        fail_unless(fb == 0 or crtc in top.planes[plane].crtcs, EINVAL)
        if fb and plane in self.shown and self.crtc_of_plane[plane] != crtc:
            self.differs("laptop/plane_that_moves")
            raise Failed(EINVAL)
        self.crtc_of_plane[plane] = crtc
        return str(self.show(plane, fb))

    def show(self, thing: int, fb: int) -> str:
        """A CRTC shows what its plane shows, so that what one call sets the other one sees."""
        self.shown_before.append("crtc_and_plane")
        return str(super().show(thing, fb))

    def addfb(self, client: Any, width: int, height: int, pitch: int, bpp: int, handle: int) -> str:
        """The shape is checked before the object, and the last line needs only its pixels."""
        line = -(-width * bpp // 8)
        shape = 1 <= width <= 65535 and 1 <= height <= 65535 and bpp in FORMAT_BITS
        if handle not in client.handles and not (shape and handle and pitch >= line):
            self.differs("addfb_handle")
        elif bpp not in FORMAT_BITS:
            self.differs("framebuffer_lines")
        fail_unless(shape and handle, EINVAL)
        fail_unless(height * pitch <= MOST_U32, ERANGE)
        fail_unless(pitch >= line, EINVAL)
        size = self.buffers[self.held(client, handle)].size
        if (height - 1) * pitch + line <= size < height * pitch:
            self.differs("framebuffer_lines")
        fail_unless((height - 1) * pitch + line <= size, EINVAL)
        fb = least_free(self.framebuffers, max(self.topology.fixed()) + 1)
        self.framebuffers[fb] = Framebuffer(client.number, client.handles[handle][0], (width, height, pitch, bpp))
        self.added[fb] = self.number
        return f"number {fb}"

    # leases

    def added_planes(self, client: Any, crtc: int) -> List[int]:
        """The planes that a CRTC of a lease adds if the client has universal planes off."""
        if client.universal:
            return []
        planes = self.topology.planes
        cursors = [plane for plane, row in planes.items() if row.special == crtc and plane in self.cursors]
        if planes[self.shown_by(crtc)].special != crtc:
            self.differs("crtc_without_a_primary_plane")
        return [self.shown_by(crtc), *cursors]

    def listed_objects(self, client: Any, listed: List[int]) -> List[int]:
        """The objects of a lease, each of which is tested before the next one."""
        top = self.topology
        leasable = {*top.crtcs, *top.planes, *top.connectors}
        for thing in listed:
            fail_unless(thing in leasable or thing in top.encoders or thing in self.framebuffers, ENOENT)
            if thing in top.planes and not self.sees(client, thing):
                self.differs("planes_that_are_not_listed")
            if thing not in leasable:
                self.differs("lease_rules")
                raise Failed(EINVAL)
        kinds = (top.crtcs, top.connectors, top.planes) if client.universal else (top.crtcs, top.connectors)
        fail_unless(not listed or all(any(thing in kind for thing in listed) for kind in kinds), EINVAL)
        return [other for thing in listed for other in (thing, *self.added_of(client, thing))]

    def added_of(self, client: Any, thing: int) -> List[int]:
        return self.added_planes(client, thing) if thing in self.topology.crtcs else []

    def create_lease(self, client: Any, listed: List[int]) -> str:
        if self.masters[client.master].lessor is not None:
            self.differs("lessees_that_lease")
            raise Failed(EINVAL)
        if len(set(listed)) < len(listed):
            self.differs("lease_of_an_id_twice")
        given = self.listed_objects(client, listed)
        fail_unless(len(set(given)) == len(given), ENOSPC)
        if not listed:
            self.differs("lease_of_nothing")
        fail_unless(not any(set(given) & lessee.grants for lessee in self.lessees(client.master)), EBUSY)
        others = [
            other for other in self.masters.values() if other.lessor and self.owner(other.number) == client.master
        ]
        lessee_id = least_free({other.lessee_id for other in others})
        token = self.next_token({other.token for other in self.masters.values()}, self.last_lease_token)
        self.last_lease_token = token
        self.masters[self.number] = Lessee(
            self.number, client.master, lessee_id, token, set(given), holder=client.number
        )
        return f"lease {lessee_id} {token}"

    def list_lessees(self, client: Any) -> str:
        listed = [lessee.lessee_id for lessee in self.lessees(client.master) if lessee.grants]
        if listed != sorted(listed):
            self.differs("lessee_order")
        return f"list {ids(listed)}"

    def get_lease(self, client: Any) -> str:
        """An owner has every object of the device, also framebuffers and others that the script does not know."""
        master = self.masters[client.master]
        if master.lessor is not None:
            return f"list {ids(sorted(master.grants))}"
        self.differs("lease_of_an_owner")
        return f"list {ids(sorted([*self.topology.fixed(), *self.framebuffers]))},other"
