"""A device in plain Python, written from docs/RULES.md, docs/SCRIPTS.md and docs/FRAMES.md alone: a second opinion on what the server answers.

It is slow and keeps everything as rows of dicts and sets. `Plain.line` takes a script's line and returns the line that the server is
to write, or None for a line that writes nothing. `Plain.rows` returns the rows of an audit's kind.
"""
import dataclasses
from typing import Dict, List, NamedTuple, Optional, Set, Tuple

RULES = {
    1: ("Unknown", 22),
    2: ("Layout", 22),
    3: ("NoClient", 22),
    11: ("RootOnly", 13),
    12: ("Auth", 13),
    13: ("Master", 13),
    14: ("RenderAllow", 13),
    21: ("NoHandle", 2),
    22: ("NoHandleToClose", 22),
    23: ("NoName", 2),
    24: ("NoToken", 2),
    25: ("NoMagic", 22),
    26: ("MasterPerm", 13),
    27: ("MasterBusy", 16),
    28: ("NotCurrent", 22),
    29: ("IsLessee", 22),
    30: ("NoModeObject", 2),
    31: ("NotLeasable", 22),
    32: ("Repeated", 22),
    33: ("LeaseShape", 22),
    34: ("LeasedOut", 16),
    35: ("SubLease", 22),
    36: ("NoLessee", 2),
    37: ("NotYourLessee", 13),
    38: ("NoFb", 2),
    39: ("BadSize", 22),
    40: ("BadRoute", 22),
    41: ("BadCap", 22),
    42: ("NoLeaseToken", 2),
    43: ("Full", 28),
}
# each call by its word in a script: its number, its flags, and how many fields it has; a lease has a list
CALLS = {
    "version": (0x00, "R", 0),
    "get_magic": (0x02, "", 0),
    "gem_close": (0x09, "R", 1),
    "gem_flink": (0x0A, "A", 1),
    "gem_open": (0x0B, "A", 1),
    "get_cap": (0x0C, "R", 1),
    "set_client_cap": (0x0D, "", 2),
    "auth_magic": (0x11, "M", 1),
    "set_master": (0x1E, "", 0),
    "drop_master": (0x1F, "", 0),
    "prime_export": (0x2D, "R", 1),
    "prime_import": (0x2E, "R", 1),
    "buf_create": (0x40, "R", 1),
    "stamp_write": (0x41, "R", 2),
    "stamp_read": (0x42, "R", 1),
    "token_close": (0x43, "R", 1),
    "list_handles": (0x44, "R", 1),
    "audit": (0x45, "O", 2),
    "getresources": (0xA0, "", 0),
    "getcrtc": (0xA1, "", 1),
    "setcrtc": (0xA2, "M", 3),
    "getencoder": (0xA6, "", 1),
    "getconnector": (0xA7, "", 1),
    "getfb": (0xAD, "", 1),
    "addfb": (0xAE, "", 5),
    "rmfb": (0xAF, "", 1),
    "create_dumb": (0xB2, "", 3),
    "destroy_dumb": (0xB4, "", 1),
    "getplaneresources": (0xB5, "", 0),
    "getplane": (0xB6, "", 1),
    "setplane": (0xB7, "M", 3),
    "create_lease": (0xC6, "M", None),
    "list_lessees": (0xC7, "M", 0),
    "get_lease": (0xC8, "M", 0),
    "revoke_lease": (0xC9, "M", 1),
}
NUMBERS = {number for number, _, _ in CALLS.values()}
KINDS = ("client", "master", "object", "name", "token", "hold", "grant", "framebuffer", "shown", "device")
PAGE, MOST_LISTED, MOST_DEPTH = 16, 64, 8
MOST_SIZE = 68_719_476_736


class Denied(Exception):
    """A rule that fails, by its number."""


class Limits(NamedTuple):
    clients: int = 64
    handles: int = 65535
    names: int = 65535
    tokens: int = 65535
    objects: int = 65535
    framebuffers: int = 64
    lessees: int = 64
    journal: int = 100_000


class Plane(NamedTuple):
    """The CRTCs that it can be on, and of which of them it is the primary or the cursor plane, if of one."""

    crtcs: Set[int]
    special: Optional[int]


class Topology(NamedTuple):
    """The mode objects by their ids."""

    crtcs: List[int]
    planes: Dict[int, Plane]
    encoders: Dict[int, Set[int]]
    connectors: Dict[int, int]

    def fixed(self):
        return [*self.crtcs, *self.planes, *self.encoders, *self.connectors]


TEST_TOPOLOGY = Topology([1, 2], {3: Plane({1}, 1), 4: Plane({2}, None)}, {5: {1, 2}, 6: {2}}, {7: 5, 8: 6})


@dataclasses.dataclass
class Client:
    number: int
    render: bool
    root: bool
    universal: bool
    authenticated: bool
    once_master: bool = False
    is_master: bool = False
    master: Optional[int] = None
    magic: Optional[int] = None
    spent: bool = False
    # each handle's object and export order
    handles: Dict[int, Tuple[int, Optional[int]]] = dataclasses.field(default_factory=dict)


@dataclasses.dataclass
class Master:
    number: int
    lessor: Optional[int] = None
    lessee_id: int = 0
    token: Optional[int] = None
    grants: Set[int] = dataclasses.field(default_factory=set)


@dataclasses.dataclass
class Buffer:
    size: int
    stamp: int = 0


@dataclasses.dataclass
class Framebuffer:
    client: int
    buffer: int
    shape: Tuple[int, int, int, int]


def least_free(taken, first, last):
    """The least number that isn't taken, or a denial by 43."""
    found = next((number for number in range(first, last + 1) if number not in taken), None)
    if found is None:
        raise Denied(43)
    return found


def next_in_turn(taken, given, last):
    """Returns the lowest free number above the last one or, if there is none, from 1."""
    try:
        return least_free(taken, given + 1, last)
    except Denied:
        return least_free(taken, 1, last)


def need(holds, rule):
    if not holds:
        raise Denied(rule)


def ids(numbers):
    return ",".join(map(str, numbers)) or "-"


class Plain:
    """The device, and the labels of a script."""

    def __init__(self, limits=Limits(), topology=TEST_TOPOLOGY):
        self.limits, self.topology = limits, topology
        self.labels: Dict[str, int] = {}
        self.clients: Dict[int, Client] = {}
        self.masters: Dict[int, Master] = {}
        self.buffers: Dict[int, Buffer] = {}
        self.names: Dict[int, int] = {}
        self.tokens: Dict[int, Tuple[int, int]] = {}
        self.framebuffers: Dict[int, Framebuffer] = {}
        self.shown: Dict[int, int] = {}
        self.device_master: Optional[int] = None
        self.last_token = self.last_lease_token = 0
        self.steps = 0

    # a script

    def line(self, text):
        """What the server writes for a line of a script."""
        words = text.split()
        if not words or words[0].startswith("#"):
            return None
        if words[0] == "limits":
            self.limits = Limits(*map(int, words[1:]))
            return None
        if words[0] in ("open", "open2"):
            answer = self.step(
                len(self.clients) + 2, lambda: self.open(words[2], int((words + ["0"])[3]), words[0] == "open")
            )
            if answer.startswith("client "):
                self.labels[words[1]] = int(answer.split()[1])
            return answer
        caller = self.labels.get(words[1] if words[0] == "close" else words[0], 0)
        if words[0] == "close":
            room = 0 if caller in self.clients else len(self.clients) + 1
            return self.step(room, lambda: self.close(caller))
        return self.step(len(self.clients) + 1, lambda: self.ask(caller, words[1], [int(word) for word in words[2:]]))

    def step(self, room, event):
        """Records a step, or answers 50 if the journal has no room for it."""
        if self.limits.journal - self.steps < room:
            return "apart 50 JournalFull 28"
        try:
            answer = event()
        except Denied as denial:
            name, errno = RULES[denial.args[0]]
            answer = f"denied {denial.args[0]} {name} {errno}"
        self.steps += 1
        self.sweep()
        return answer

    @property
    def number(self):
        """The number of the step that is being made."""
        return self.steps + 1

    # clients and masters

    def open(self, kind, token, universal):
        client = Client(
            self.number,
            kind == "render",
            kind.startswith("root"),
            universal or kind == "render",
            kind.startswith("root"),
        )
        if kind in ("lease", "rootlease"):
            lessee = next((m for m in self.masters.values() if m.token == token and token), None)
            need(lessee is not None, 42)
            need(len(self.clients) < self.limits.clients, 43)
            lessee.token = None
            client.master, client.is_master, client.authenticated = lessee.number, True, True
        else:
            need(len(self.clients) < self.limits.clients, 43)
            if kind != "render" and self.device_master is None:
                self.found(client)
            elif kind != "render":
                client.master = self.device_master
        self.clients[client.number] = client
        return f"client {client.number}"

    def found(self, client):
        """A new master of a client's own, which is the device's from now on."""
        self.masters[self.number] = Master(self.number)
        client.master = self.device_master = self.number
        client.is_master = client.authenticated = client.once_master = True
        client.magic, client.spent = None, False

    def close(self, number):
        need(number in self.clients, 3)
        client = self.clients.pop(number)
        self.tokens = {token: row for token, row in self.tokens.items() if row[0] != number}
        for fb in [fb for fb, row in self.framebuffers.items() if row.client == number]:
            self.remove(fb)
        if client.is_master:
            if self.device_master == client.master:
                self.device_master = None
            self.end(client.master)
        return "closed"

    def remove(self, fb):
        del self.framebuffers[fb]
        self.shown = {thing: shown for thing, shown in self.shown.items() if shown != fb}

    def chain(self, master):
        """A master and those above it, up to its owner."""
        found = []
        while master is not None:
            found.append(master)
            master = self.masters[master].lessor
        return found

    def owner(self, master):
        return self.chain(master)[-1]

    def end(self, top):
        """Ends the leases of a master and of all below it."""
        for master in self.masters.values():
            if top in self.chain(master.number):
                master.grants, master.token = set(), None

    def sweep(self):
        """Removes what nothing keeps."""
        while True:
            kept = {client.master for client in self.clients.values()} | {m.lessor for m in self.masters.values()}
            gone = [number for number, m in self.masters.items() if number not in kept and m.token is None]
            if not gone:
                break
            for number in gone:
                del self.masters[number]
        held = {buffer for client in self.clients.values() for buffer, _ in client.handles.values()}
        referred = {buffer for _, buffer in self.tokens.values()} | {fb.buffer for fb in self.framebuffers.values()}
        self.buffers = {number: row for number, row in self.buffers.items() if number in held | referred}
        self.names = {name: buffer for name, buffer in self.names.items() if buffer in held}

    def is_current(self, client):
        return client.is_master and self.owner(client.master) == self.device_master

    # requests

    def ask(self, caller, word, fields):
        if word == "raw":
            raise Denied(2 if fields[0] in NUMBERS else 1)
        need(caller in self.clients, 3)
        client, flags = self.clients[caller], CALLS[word][1]
        need("O" not in flags or client.root, 11)
        need("A" not in flags or client.render or client.authenticated, 12)
        need("M" not in flags or self.is_current(client), 13)
        need("R" in flags or not client.render, 14)
        if word == "create_lease":
            return self.create_lease(client, fields)
        return getattr(self, word)(client, *fields)

    def version(self, _client):
        return "version 1 0 0"

    def get_cap(self, _client, cap):
        need(cap in (1, 5), 41)
        return f"number {1 if cap == 1 else 3}"

    def set_client_cap(self, client, cap, value):
        need(cap == 2 and value in (0, 1), 41)
        client.universal = value == 1
        return "done"

    def get_magic(self, client):
        if client.magic is None:
            taken = {other.magic for other in self.clients.values() if other.master == client.master}
            client.magic, client.spent = least_free(taken, 1, self.limits.clients), False
        return f"number {client.magic}"

    def auth_magic(self, client, magic):
        found = next(
            (
                other
                for other in self.clients.values()
                if other.master == client.master and other.magic == magic and not other.spent
            ),
            None,
        )
        need(found is not None and magic, 25)
        found.authenticated = found.spent = True
        return "done"

    def set_master(self, client):
        need(client.once_master or client.root, 26)
        if self.is_current(client):
            return "done"
        need(self.device_master is None, 27)
        if not client.is_master:
            self.found(client)
            return "done"
        need(self.masters[client.master].lessor is None, 29)
        self.device_master = client.master
        return "done"

    def drop_master(self, client):
        need(client.once_master or client.root, 26)
        need(self.is_current(client), 28)
        need(self.masters[client.master].lessor is None, 29)
        self.device_master = None
        return "done"

    # buffers

    def new_handle(self, client, buffer, place=None):
        handle = least_free(client.handles, 1, self.limits.handles)
        client.handles[handle] = (buffer, place)
        return handle

    def create(self, client, size):
        need(len(self.buffers) < self.limits.objects, 43)
        handle = self.new_handle(client, self.number)
        self.buffers[self.number] = Buffer(size)
        return handle

    def buf_create(self, client, size):
        need(1 <= size <= MOST_SIZE, 39)
        size = -(-size // 4096) * 4096
        return f"buffer {self.create(client, size)} {size}"

    def create_dumb(self, client, width, height, bpp):
        need(1 <= width <= 65535 and 1 <= height <= 65535 and 1 <= bpp <= 64, 39)
        pitch = -(-width * ((bpp + 7) // 8) // 64) * 64
        size = -(-pitch * height // 4096) * 4096
        return f"dumb {self.create(client, size)} {pitch} {size}"

    def gem_close(self, client, handle):
        need(handle in client.handles, 22)
        del client.handles[handle]
        return "done"

    destroy_dumb = gem_close

    def held(self, client, handle):
        need(handle in client.handles, 21)
        return client.handles[handle][0]

    def stamp_write(self, client, handle, stamp):
        self.buffers[self.held(client, handle)].stamp = stamp
        return "done"

    def stamp_read(self, client, handle):
        return f"number {self.buffers[self.held(client, handle)].stamp}"

    def list_handles(self, client, first):
        return f"list {ids([handle for handle in sorted(client.handles) if handle >= first][:MOST_LISTED])}"

    def gem_flink(self, client, handle):
        buffer = self.held(client, handle)
        name = next((name for name, named in self.names.items() if named == buffer), None)
        if name is None:
            name = least_free(self.names, 1, self.limits.names)
            self.names[name] = buffer
        return f"number {name}"

    def gem_open(self, client, name):
        need(name in self.names, 23)
        buffer = self.names[name]
        return f"buffer {self.new_handle(client, buffer)} {self.buffers[buffer].size}"

    def prime_export(self, client, handle):
        buffer = self.held(client, handle)
        self.last_token = next_in_turn(self.tokens, self.last_token, self.limits.tokens)
        self.tokens[self.last_token] = (client.number, buffer)
        if client.handles[handle][1] is None:
            client.handles[handle] = (buffer, self.number)
        return f"number {self.last_token}"

    def prime_import(self, client, token):
        need(token in self.tokens, 24)
        buffer = self.tokens[token][1]
        places = [
            (place, handle) for handle, (held, place) in client.handles.items() if held == buffer and place is not None
        ]
        handle = min(places)[1] if places else self.new_handle(client, buffer, self.number)
        return f"buffer {handle} {self.buffers[buffer].size}"

    def token_close(self, client, token):
        need(token in self.tokens and self.tokens[token][0] == client.number, 24)
        del self.tokens[token]
        return "done"

    # mode objects

    def controls(self, master, thing):
        return self.masters[master].lessor is None or thing in self.masters[master].grants

    def sees(self, client, thing):
        top = self.topology
        if thing in top.encoders:
            return True
        if thing in top.planes and top.planes[thing].special is not None and not client.universal:
            return False
        return thing in top.fixed() and self.controls(client.master, thing)

    def seen(self, client, things):
        return [thing for thing in sorted(things) if self.sees(client, thing)]

    def mask(self, client, crtcs):
        return sum(1 << place for place, crtc in enumerate(self.seen(client, self.topology.crtcs)) if crtc in crtcs)

    def getresources(self, client):
        own = sorted(fb for fb, row in self.framebuffers.items() if row.client == client.number)
        return (
            f"crtcs {ids(self.seen(client, self.topology.crtcs))} connectors {ids(self.seen(client, self.topology.connectors))}"
            f" encoders {ids(sorted(self.topology.encoders))} framebuffers {ids(own)}"
        )

    def getplaneresources(self, client):
        return f"list {ids(self.seen(client, self.topology.planes))}"

    def getcrtc(self, client, crtc):
        need(crtc in self.topology.crtcs and self.sees(client, crtc), 30)
        return f"number {self.shown.get(crtc, 0)}"

    def getencoder(self, client, encoder):
        need(encoder in self.topology.encoders, 30)
        return f"number {self.mask(client, self.topology.encoders[encoder])}"

    def getconnector(self, client, connector):
        need(connector in self.topology.connectors and self.sees(client, connector), 30)
        return f"number {self.topology.connectors[connector]}"

    def getplane(self, client, plane):
        need(plane in self.topology.planes and self.sees(client, plane), 30)
        return f"plane {self.shown.get(plane, 0)} {self.mask(client, self.topology.planes[plane].crtcs)}"

    def show(self, thing, fb):
        self.shown.pop(thing, None)
        if fb:
            self.shown[thing] = fb
        return "done"

    def setcrtc(self, client, crtc, fb, connector):
        top = self.topology
        need(crtc in top.crtcs and self.sees(client, crtc), 30)
        need(connector == 0 or connector in top.connectors and self.sees(client, connector), 30)
        need(fb == 0 or fb in self.framebuffers, 38)
        need((fb == 0) == (connector == 0), 40)
        need(connector == 0 or crtc in top.encoders[top.connectors[connector]], 40)
        return self.show(crtc, fb)

    def setplane(self, client, plane, crtc, fb):
        top = self.topology
        need(plane in top.planes and self.sees(client, plane), 30)
        need(fb == 0 or crtc in top.crtcs and self.sees(client, crtc), 30)
        need(fb == 0 or fb in self.framebuffers, 38)
        need(fb == 0 or crtc in top.planes[plane].crtcs, 40)
        return self.show(plane, fb)

    def addfb(self, client, width, height, pitch, bpp, handle):
        buffer = self.held(client, handle)
        need(1 <= width <= 65535 and 1 <= height <= 65535 and 1 <= bpp <= 64, 39)
        need(pitch >= width * ((bpp + 7) // 8) and pitch * height <= self.buffers[buffer].size, 39)
        first = max(self.topology.fixed()) + 1
        fb = least_free(self.framebuffers, first, first + self.limits.framebuffers - 1)
        self.framebuffers[fb] = Framebuffer(client.number, buffer, (width, height, pitch, bpp))
        return f"number {fb}"

    def getfb(self, client, fb):
        need(fb in self.framebuffers, 38)
        found = self.framebuffers[fb]
        handle = self.new_handle(client, found.buffer) if client.root or self.is_current(client) else 0
        return " ".join(map(str, ("framebuffer", *found.shape, handle)))

    def rmfb(self, client, fb):
        need(fb in self.framebuffers and self.framebuffers[fb].client == client.number, 38)
        self.remove(fb)
        return "done"

    # leases

    def lessees(self, master):
        return [other for other in self.masters.values() if other.lessor == master]

    def create_lease(self, client, listed):
        top, master = self.topology, client.master
        need(len(self.chain(master)) <= MOST_DEPTH, 35)
        need(all(self.sees(client, thing) or thing in self.framebuffers for thing in listed), 30)
        need(not any(thing in top.encoders or thing in self.framebuffers for thing in listed), 31)
        need(len(set(listed)) == len(listed), 32)
        kinds = (top.crtcs, top.connectors, top.planes) if client.universal else (top.crtcs, top.connectors)
        need(all(any(thing in kind for thing in listed) for kind in kinds), 33)
        along = (
            []
            if client.universal
            else [plane for plane, row in top.planes.items() if row.special in listed and self.controls(master, plane)]
        )
        given = {*listed, *along}
        need(not any(given & lessee.grants for lessee in self.lessees(master)), 34)
        owner = self.owner(master)
        taken = {
            other.lessee_id for other in self.masters.values() if other.lessor and self.owner(other.number) == owner
        }
        lessee_id = least_free(taken, 1, self.limits.lessees)
        token = next_in_turn(
            {other.token for other in self.masters.values()}, self.last_lease_token, self.limits.tokens
        )
        self.last_lease_token = token
        self.masters[self.number] = Master(self.number, master, lessee_id, token, given)
        return f"lease {lessee_id} {token}"

    def list_lessees(self, client):
        return f"list {ids(sorted(lessee.lessee_id for lessee in self.lessees(client.master) if lessee.grants))}"

    def get_lease(self, client):
        top = self.topology
        things = sorted([*top.crtcs, *top.planes, *top.connectors])
        return f"list {ids([thing for thing in things if self.controls(client.master, thing)])}"

    def revoke_lease(self, client, lessee_id):
        owner = self.owner(client.master)
        found = next(
            (
                other
                for other in self.masters.values()
                if other.lessor and other.lessee_id == lessee_id and self.owner(other.number) == owner
            ),
            None,
        )
        need(found is not None, 36)
        need(found.lessor == client.master, 37)
        self.end(found.number)
        return "done"

    # the audit

    def audit(self, _client, kind, first):
        need(1 <= kind <= len(KINDS), 2)
        page = self.rows(KINDS[kind - 1])[first : first + PAGE]
        return "".join([f"rows {len(page)}", *(" | " + " ".join(map(str, row)) for row in page)])

    def rows(self, kind):
        """The rows of a kind, as the audit has them."""
        handles = [(c.number, handle, *held) for c in self.clients.values() for handle, held in c.handles.items()]
        referring = [buffer for _, buffer in self.tokens.values()] + [fb.buffer for fb in self.framebuffers.values()]
        return sorted(
            {
                "client": lambda: [
                    (c.number, self.flags(c), c.master or 0, c.magic or 0) for c in self.clients.values()
                ],
                "master": lambda: [(m.number, m.lessor or 0, m.lessee_id, m.token or 0) for m in self.masters.values()],
                "object": lambda: [
                    (number, b.size, sum(buffer == number for _, _, buffer, _ in handles), referring.count(number))
                    for number, b in self.buffers.items()
                ],
                "name": lambda: [(name, buffer, 0, 0) for name, buffer in self.names.items()],
                "token": lambda: [(token, *row, 0) for token, row in self.tokens.items()],
                "hold": lambda: [(client, handle, buffer, place or 0) for client, handle, buffer, place in handles],
                "grant": lambda: [(m.number, thing, 0, 0) for m in self.masters.values() for thing in m.grants],
                "framebuffer": lambda: [(fb, row.client, row.buffer, 0) for fb, row in self.framebuffers.items()],
                "shown": lambda: [(thing, fb, 0, 0) for thing, fb in self.shown.items()],
                "device": lambda: [(self.device_master or 0, self.last_token, self.last_lease_token, self.steps)],
            }[kind]()
        )

    @staticmethod
    def flags(client):
        told = (
            client.render,
            client.root,
            client.authenticated,
            client.once_master,
            client.is_master,
            client.spent,
            not client.universal,
        )
        return sum(1 << place for place, holds in enumerate(told) if holds)

    def listing(self):
        """What `serve` prints at its end."""
        return "".join(" ".join(map(str, (kind, *row))) + "\n" for kind in KINDS for row in self.rows(kind))


def answers_of(script):
    """What the server is to write for a whole script."""
    plain = Plain()
    lines = [plain.line(text) for text in script.splitlines()]
    return "".join(line + "\n" for line in lines if line is not None)
