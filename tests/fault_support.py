"""What the tests of faults on purpose share: how faults are planned, what a device holds, and how long answers take."""
import contextlib
import re
import sys
import time

sys.dont_write_bytecode = True
from support import connect, connect_raw, expect, lasting_server, retry, stopped  # noqa: E402

from zirkoshe import AuditKind  # noqa: E402

NO_MEMORY = "apart 51 NoMemory 12"
# how faults are planned
COMMAND_LINE, CONTROL = WAYS = ("by the command line", "by the control socket")
# a delay that differs from a prompt answer, and one that no test waits for
LATE, LONG = 1.0, 60.0
# what takes no delay takes less than this, also on a busy machine
PROMPT = 15.0
# the rows of an audit of all kinds, one page of each
KINDS = range(1, 11)


# plans


class Control:
    """A connection to a control socket."""

    def __init__(self, folder):
        self.socket = retry(lambda: connect_raw(folder / "control"))
        self.answers = self.socket.makefile("rb")

    def __enter__(self):
        return self

    def __exit__(self, *_):
        self.answers.close()
        self.socket.close()

    def send(self, data):
        self.socket.sendall(data)

    def next(self):
        """The next line that the server sends, or nothing at the end."""
        with contextlib.suppress(ConnectionResetError):
            return self.answers.readline().decode()
        return ""

    def ask(self, line):
        """The line that answers another."""
        self.send(line.encode() + b"\n")
        return self.next()

    def list(self):
        """The plans as the server lists them, each a line that can be sent."""
        self.send(b"list\n")
        lines = []
        for line in iter(self.next, ""):
            if line == "ok\n":
                return lines
            lines.append(line.rstrip("\n"))
        raise AssertionError(f"a list ends without ok: {lines}")

    def listed(self):
        """The plans in any order. A count of 1 may be left out."""
        return sorted(re.sub(r":1(?==|$)", "", line) for line in self.list())


def plan(folder, *lines):
    """Plans these faults by the control socket."""
    with Control(folder) as control:
        for line in lines:
            expect(line, control.ask(line), "ok\n")


def option_of(line):
    """The words of the command line that plan the fault of a line."""
    kind, rule = line.split(" ")
    return [f"--{kind}", rule]


@contextlib.contextmanager
def controlled(folder, *more):
    """A server with a control socket."""
    with lasting_server(folder, "--control", folder / "control", *more) as started:
        yield started


@contextlib.contextmanager
def planning(folder, way, *lines, more=()):
    """A server that has these faults planned from its start, in one of the ways."""
    words = [word for line in lines for word in option_of(line)]
    if way == CONTROL:
        words = ["--control", folder / "control"]
    with lasting_server(folder, *words, *more) as started:
        if way == CONTROL:
            plan(folder, *lines)
        yield started


def expect_well(started):
    """The server ends with status 0, and leaves no file of a socket."""
    ran = stopped(started)
    expect("the status", ran.returncode, 0)
    return ran.stdout


# devices


def held(root):
    """What the device holds, and the number of its steps, by a root client. It makes ten steps."""
    rows = [root.audit(kind) for kind in KINDS]
    *rest, steps = rows.pop()[0]
    return rows, rest, steps


def expect_unchanged(root, before):
    """Nothing was changed or recorded since, but for the audits themselves."""
    rows, rest, steps = before
    expect("what is held, and the steps", held(root), (rows, rest, steps + len(KINDS)))


def objects_of(root):
    """How many objects there are."""
    return len(root.audit(AuditKind.OBJECT))


def timed(action):
    """Returns the result of an action, and how many seconds it took."""
    begin = time.monotonic()
    return action(), time.monotonic() - begin


def seconds_of(client, call):
    """How many seconds an answer took."""
    return timed(lambda: client.ask(call))[1]


def is_broken(client, call):
    """Whether the server ends the connection without an answer."""
    try:
        client.ask(call)
    except ConnectionError:
        return True
    return False


class Clients(contextlib.ExitStack):
    """Clients by their letters: a and c of the card, b of the render node, q of root. The first is the master."""

    def __init__(self, folder):
        super().__init__()
        paths = {"a": "card", "b": "render", "c": "card", "q": "root"}
        self.clients = {name: self.enter_context(connect(folder / path)) for name, path in paths.items()}
        self.root = self.clients["q"]

    def ask(self, line):
        """The answer to a line of a script."""
        name, call = line.split(" ", 1)
        return self.clients[name].ask(call)

    def expect(self, *lines):
        """Compares the answers to lines, each with its answer."""
        for line, answer in (text.split(" -> ") for text in lines):
            expect(line, self.ask(line), answer)
