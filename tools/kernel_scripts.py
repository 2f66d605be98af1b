"""The scripts that are run on a kernel and on the server, and the differences that examples/linux expects of them."""

from __future__ import annotations

import pathlib
import pickle
import random
import re
from typing import Dict, FrozenSet, List, NamedTuple, Tuple

from kernel_device import TESTS, KernelDevice
from kernels import SERIES

from plain_device import CALLS, TEST_TOPOLOGY, Plain, Plane, Topology

REPOSITORY = TESTS.parent
EXAMPLES = REPOSITORY / "examples"
# a difference that a file of examples/linux expects of the line above it, in all kernels or in those that it names
EXPECTED = re.compile(r"# linux((?: \d+\.\d+)*): (.*)")
HEADING = re.compile(r"# (subject|met by|function|kernel|here): (.*)")
LINES = 120


class Script(NamedTuple):
    """A script, and for some of its lines, by their numbers, the answers of kernels that differ from the rules."""

    name: str
    lines: List[str]
    expected: Dict[int, List[Tuple[List[str], str]]]
    # it has all differences of its lines, as a file of examples/linux does
    is_page: bool = False

    def expected_of(self, series: str) -> Dict[int, str]:
        """The answers of this kernel that differ from the rules."""
        rows = [(number, kernels, answer) for number, row in self.expected.items() for kernels, answer in row]
        return {number: answer for number, kernels, answer in rows if not kernels or series in kernels}


class Page(NamedTuple):
    """What a file of examples/linux says in its head: a title, the subject, and what a kernel and the server do.

    If it's a difference, the head also says how many programs meet it, and the kernel's function.
    """

    title: str
    subject: str
    kernel: str
    here: str
    met_by: str
    function: str


def is_event(line: str) -> bool:
    """Whether a line of a script has an answer."""
    words = line.split()
    return bool(words) and not line.startswith("#") and words[0] != "limits"


def read_script(path: pathlib.Path) -> Script:
    """A file as a script, without the answers of the server that it expects."""
    lines = [line.split(" -> ")[0].rstrip() for line in path.read_text().splitlines()]
    expected: Dict[int, List[Tuple[List[str], str]]] = {}
    last = 0
    for number, line in enumerate(lines, 1):
        found = EXPECTED.fullmatch(line)
        if found:
            expected.setdefault(last, []).append((found[1].split(), found[2]))
        elif is_event(line):
            last = number
    name = path.resolve()
    short = name.relative_to(REPOSITORY) if REPOSITORY in name.parents else path
    return Script(str(short), lines, expected, str(short).startswith("examples/linux/"))


def read_page(path: pathlib.Path) -> Page:
    """The head of a file of examples/linux. A line that begins with three spaces continues the one above it."""
    lines = path.read_text().splitlines()
    fields: Dict[str, str] = {}
    last = ""
    for line in lines[1:]:
        found = HEADING.fullmatch(line)
        if found:
            last, fields[found[1]] = found[1], found[2]
        elif line.startswith("#   ") and last:
            fields[last] += " " + line[4:]
        else:
            break
    named = [fields[name] for name in ("subject", "kernel", "here")]
    return Page(lines[0][2:], *named, fields.get("met by", ""), fields.get("function", ""))


def read_trials(path: pathlib.Path) -> Tuple[Script, Dict[int, str]]:
    """A file of requests and errnos, as a script whose lines are the requests' names, and the errnos of the library."""
    script = read_script(path)
    rows = [line.partition(" -> ") for line in path.read_text().splitlines()]
    return script._replace(is_page=True), {number: row[2] for number, row in enumerate(rows, 1) if row[1]}


def scripts_of(folder: str) -> List[Script]:
    """The scripts of a folder of examples."""
    return [read_script(path) for path in sorted((EXAMPLES / folder).glob("*.script"))]


def scripts_of_examples() -> List[Script]:
    """The worked rows and the files of examples/linux, on the test topology."""
    return scripts_of("rows") + scripts_of("linux")


def read_topology(text: str) -> Tuple[Topology, FrozenSet[int]]:
    """A topology file, and the ids of its cursor planes."""
    rows = [line.split() for line in text.splitlines() if line.strip() and not line.startswith("#")]
    crtcs = list(range(1, int(rows[0][1]) + 1))
    planes: Dict[int, Plane] = {}
    cursors, encoders, connectors = set(), {}, {}
    number = len(crtcs)
    for kinds in (("plane", "primary", "cursor"), ("encoder",), ("connector",)):
        for kind, *words in rows:
            if kind not in kinds:
                continue
            number += 1
            numbers = [int(word) for word in words]
            if kind == "encoder":
                encoders[number] = set(numbers)
            elif kind == "connector":
                connectors[number] = len(crtcs) + len(planes) + numbers[0]
            else:
                planes[number] = Plane(set(numbers), None if kind == "plane" else numbers[0])
                cursors |= {number} if kind == "cursor" else set()
    return Topology(crtcs, planes, encoders, connectors), frozenset(cursors)


# random scripts


# what each driver takes, and the server answers as it does: a pitch of whole pixels, and a handle that exists
SHAPE, FRAMEBUFFER = (64, 64, 32), (64, 64, 256, 32)
HANDLE_CALLS = ("addfb", "gem_flink", "prime_export", "stamp_read", "stamp_write", "gem_close", "destroy_dumb")
MODE_CALLS = {word for word, row in CALLS.items() if row[0] >= 0xA0} - {"create_dumb", "destroy_dumb"}


class Device(NamedTuple):
    """A device of a kernel, and what random scripts draw for it."""

    driver: str
    topology: Topology = TEST_TOPOLOGY
    cursors: FrozenSet[int] = frozenset()
    # its topology file, if that isn't the test topology
    text: str = ""
    # the calls that are left out
    left_out: FrozenSet[str] = frozenset({"audit"})
    # its driver is the module, which takes the shapes of tests/test_random.py
    is_module: bool = False


# the calls whose answers are the driver's
DRIVERS_CALLS = frozenset({"audit", "buf_create", "stamp_write", "stamp_read", "list_handles", "version", "get_cap"})
MODULE = Device("zirkoshe_card", is_module=True)


def other_device(driver: str, text: str) -> Device:
    """A device with another driver, by its topology file."""
    topology, cursors = read_topology(text)
    if not topology.crtcs:
        return Device(driver, left_out=DRIVERS_CALLS | MODE_CALLS | {"set_client_cap"})
    return Device(driver, topology, cursors, text, DRIVERS_CALLS)


def module_device(name: str, text: str) -> Device:
    """A device of the module with this topology file."""
    topology, cursors = read_topology(text)
    return Device(name, topology, cursors, text, is_module=True)


VIRTIO = other_device(
    "virtio_gpu", "crtcs 2\nprimary 1\ncursor 1\nprimary 2\ncursor 2\nencoder 1\nencoder 2\nconnector 1\nconnector 2\n"
)
VGEM = other_device("vgem", "crtcs 0\n")
MODULES = [module_device(path.stem, path.read_text()) for path in sorted((EXAMPLES / "topologies").glob("*.topology"))]


def outputs_of(topology: Topology) -> List[Tuple[int, ...]]:
    """Sets of mode objects that make a lease, or nearly."""
    found: List[Tuple[int, ...]] = []
    for crtc in topology.crtcs:
        planes = [plane for plane, row in topology.planes.items() if crtc in row.crtcs]
        connectors = [one for one, encoder in topology.connectors.items() if crtc in topology.encoders[encoder]]
        found += [(crtc, planes[0], connectors[-1]), (crtc, connectors[-1]), (crtc, *planes, connectors[0])]
    return [*found, tuple(sorted({thing for row in found for thing in row}))]


class Drawing:
    """A random script as it is drawn, by the generator of tests/test_random.py, and the devices that answer it."""

    def __init__(self, seed: int, device: Device, agrees: bool) -> None:
        self.draw = random.Random(seed)
        self.device = device
        self.words = sorted(set(CALLS) - device.left_out)
        self.agrees = agrees
        self.plain = Plain(topology=device.topology)
        names = SERIES if agrees else ()
        self.kernels = [KernelDevice(series, device.topology, device.cursors) for series in names]
        self.lines: List[str] = []

    def mode_fields(self, word: str, framebuffer: int) -> Tuple[int, ...]:
        """Returns random fields of a call of mode objects, on its own topology."""
        draw, top = self.draw, self.device.topology
        thing = draw.randint(0, max(top.fixed()) + 1)
        planes = sorted(set(top.planes) - self.device.cursors)
        crtc = draw.choice((*top.crtcs, thing))
        if word == "setcrtc":
            return crtc, framebuffer, draw.choice((0, *top.connectors, thing))
        if word == "setplane":
            return draw.choice(planes), crtc, framebuffer
        if word == "create_lease":
            some = tuple(draw.randint(0, max(top.fixed()) + 1) for _ in range(draw.randint(0, 5)))
            return draw.choice((draw.choice(outputs_of(top)), some))
        return (thing,)

    def fields(self, word: str, caller: int) -> Tuple[int, ...]:
        """Random fields of a call."""
        from test_random import Seen, fields_of

        fields: Tuple[int, ...] = fields_of(word, self.draw, Seen(self.plain), caller)
        if word == "create_dumb" and not self.device.is_module:
            return SHAPE
        if word == "addfb" and not self.device.is_module:
            held = self.plain.clients[caller].handles if caller in self.plain.clients else ()
            return (*FRAMEBUFFER, self.draw.choice(sorted(held) or [0]))
        if self.device.topology is not TEST_TOPOLOGY and word in (
            "getcrtc",
            "getencoder",
            "getconnector",
            "getplane",
            "setcrtc",
            "setplane",
            "create_lease",
        ):
            return self.mode_fields(word, fields[1] if word == "setcrtc" else fields[-1] if word == "setplane" else 0)
        return fields

    def line(self) -> str:
        """A random line: an opening, a closing or a request."""
        from test_random import LABELS, Seen, opening_of

        draw, labels = self.draw, self.plain.labels
        label, chance = draw.choice(LABELS), draw.random()
        if chance < 0.1 or not self.plain.clients:
            return f"{draw.choice(('open', 'open', 'open2'))} {label} {opening_of(draw, Seen(self.plain))}"
        if chance < 0.15:
            return f"close {label}"
        caller = draw.choice(self.current_labels() or [label]) if draw.random() < 0.97 else label
        if draw.random() < 0.01:
            return f"{caller} {draw.choice(('raw 255', 'raw 178', 'raw 0'))}"
        word = self.word(labels.get(caller, 0))
        return " ".join(map(str, (caller, word, *self.fields(word, labels.get(caller, 0)))))

    def word(self, caller: int) -> str:
        """A random call: more leases and fewer masters that are dropped, and a buffer for a client that has none."""
        word, client = self.draw.choice(self.words), self.plain.clients.get(caller)
        if self.draw.random() < 0.2:
            return word
        if word == "drop_master" and "create_lease" in self.words:
            return "create_lease"
        if word in HANDLE_CALLS and client and not client.handles:
            return "buf_create" if client.render and "buf_create" in self.words else "create_dumb"
        return word

    def current_labels(self) -> List[str]:
        """The labels of current clients, or for every other line those of all open ones."""
        clients = self.plain.clients
        labels = [label for label, client in sorted(self.plain.labels.items()) if client in clients]
        current = [label for label in labels if self.plain.is_current(clients[self.plain.labels[label]])]
        return current if current and self.draw.random() < 0.5 else labels

    def is_answered_alike(self, line: str) -> bool:
        """Returns whether all devices answer the line alike. If not, they are unchanged."""
        before = pickle.dumps((self.plain, self.kernels))
        wanted = compared(str(self.plain.line(line)))
        if all(compared(str(kernel.line(line))) == wanted for kernel in self.kernels):
            return True
        self.plain, self.kernels = pickle.loads(before)
        return False

    def add(self) -> None:
        """Draws a line, and adds it unless all are to agree and do not."""
        line = self.line()
        if not self.agrees:
            self.plain.line(line)
        elif not self.is_answered_alike(line):
            return
        self.lines.append(line)


def compared(answer: str) -> str:
    """An answer as it is compared: a denial or a fault as its errno, and a client without its number."""
    failed = re.fullmatch(r"(?:denied|apart) \d+ \w+ (\d+)", answer)
    if failed:
        return f"errno {failed[1]}"
    return "client" if answer.startswith("client ") else answer


def random_script(seed: int, device: Device = MODULE) -> Script:
    """A random script. Those of odd numbers, and those of other drivers, have no line to which a kernel is to answer differently."""
    drawing = Drawing(seed, device, seed % 2 == 1 or not device.is_module)
    while len(drawing.lines) < LINES:
        drawing.add()
    return Script(f"random {seed}", drawing.lines, {})


# what a kernel receives


class Modelled(NamedTuple):
    """What the rules and a kernel's device in Python answer to a line, and the files that explain where these differ."""

    rules: str
    answer: str
    files: List[str]


def modelled(script: Script, plain: Plain, device: KernelDevice) -> Dict[int, Modelled]:
    """What these devices answer to each line of a script, by the lines' numbers."""
    found = {}
    for number, line in enumerate(script.lines, 1):
        rules, answer = plain.line(line), device.line(line)
        if answer is not None:
            found[number] = Modelled(str(rules), answer, device.files())
    return found


def bundled(script: Script, answers: Dict[int, Modelled]) -> str:
    """A script with the answers from which drm_script takes the script's numbers."""
    lines = [f"= {script.name}\n"]
    for number, line in enumerate(script.lines, 1):
        known = answers[number].answer if number in answers else ""
        binds = known and not known.startswith("errno") and " or " not in known
        lines.append(f"{line} -> {known}\n" if binds else f"{line}\n")
    return "".join(lines)
