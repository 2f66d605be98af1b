#!/usr/bin/env python3
"""Random scripts and random clients, whose answers are compared with those of tests/plain_device.py, a second device in plain Python.

    tests/test_random.py [--scripts N] [--seconds N] [TEST ..]

runs N scripts (300 where nothing is said), and clients on servers for N seconds (60). What differs is told with the seed of its
script, and `DRM_RANDOM_SEED` begins with another one. The last line is `N passed, M failed`. Standard library only.
"""
import os
import pathlib
import random
import re
import subprocess
import sys
import threading
import time

sys.dont_write_bytecode = True
from support import CLASSES, CLIENTS, FolderCase, expect, run_program, run_tests, wait_until  # noqa: E402

from zirkoshe import Client, Refusal  # noqa: E402
from zirkoshe.server import Server  # noqa: E402

from plain_device import CALLS, MOST_SIZE, Plain  # noqa: E402

SEED = int(os.environ.get("DRM_RANDOM_SEED", "1"))
OPTIONS = {"--scripts": 300, "--seconds": 60}
LINES = 120
LABELS = "abcdefgh"
# sets of mode objects that make a lease, or nearly
OUTPUTS = ((1, 3, 7), (2, 4, 8), (1, 2, 3, 4, 7, 8), (1, 7), (2, 8), (1, 3, 8), (1, 2, 3, 7, 8), (2, 3, 8))
SHAPES = (
    (64, 64, 256, 32),
    (1, 1, 4, 32),
    (1, 1, 3, 32),
    (0, 1, 4, 32),
    (64, 65, 256, 32),
    (64, 64, 255, 32),
    (1, 1, 16, 65),
)
DUMBS = ((64, 64, 32), (1, 1, 8), (65535, 65535, 64), (0, 1, 32), (65536, 1, 32), (1, 1, 65), (100, 7, 13))
SIZES = (0, 1, 4096, 4097, 16384, MOST_SIZE, MOST_SIZE + 1)
CAPS = ((2, 0), (2, 1), (2, 2), (1, 1), (0, 0))
WORKERS = 6
ROUND_SECONDS = 4
# how many connections of a class a round opens at most, of the 64 that a socket accepts
MOST_OPENED = 56


class Known:
    """What a line may name, as far as it is known: nothing of a server's device, so that numbers are guessed."""

    def pick(self, draw, _kind, _client, most=6):
        return draw.randint(0, most)


class Seen(Known):
    """The rows of a plain device, of which most lines name something that exists."""

    def __init__(self, plain):
        self.plain = plain

    def pick(self, draw, kind, client, most=6):
        plain = self.plain
        there = {
            "handle": lambda: plain.clients[client].handles if client in plain.clients else (),
            "name": lambda: plain.names,
            "token": lambda: plain.tokens,
            "fb": lambda: plain.framebuffers,
            "magic": lambda: [c.magic for c in plain.clients.values() if c.magic],
            "lessee": lambda: [m.lessee_id for m in plain.masters.values() if m.lessor],
            "lease": lambda: [m.token for m in plain.masters.values() if m.token],
        }.get(kind, list)()
        return draw.choice(sorted(there)) if there and draw.random() < 0.8 else draw.randint(0, most)


def fields_of(word, draw, known, client):
    """Random fields of a call."""

    def some(kind, most=6):
        return known.pick(draw, kind, client, most)

    thing = draw.randint(0, 9)
    fb = draw.choice((0, some("fb", 12)))
    return {
        "gem_close": lambda: (some("handle"),),
        "destroy_dumb": lambda: (some("handle"),),
        "gem_flink": lambda: (some("handle"),),
        "prime_export": lambda: (some("handle"),),
        "stamp_read": lambda: (some("handle"),),
        "gem_open": lambda: (some("name"),),
        "stamp_write": lambda: (some("handle"), draw.getrandbits(64)),
        "prime_import": lambda: (some("token"),),
        "token_close": lambda: (some("token"),),
        "auth_magic": lambda: (some("magic"),),
        "get_cap": lambda: (draw.choice((1, 5, 2)),),
        "set_client_cap": lambda: draw.choice(CAPS),
        "buf_create": lambda: (draw.choice(SIZES),),
        "create_dumb": lambda: draw.choice(DUMBS),
        "list_handles": lambda: (draw.randint(0, 4),),
        "audit": lambda: (draw.randint(1, 10), draw.choice((0, 0, 1, 16))),
        "getcrtc": lambda: (thing,),
        "getencoder": lambda: (thing,),
        "getconnector": lambda: (thing,),
        "getplane": lambda: (thing,),
        "setcrtc": lambda: (draw.choice((1, 2, thing)), fb, draw.choice((0, 7, 8, thing))),
        "setplane": lambda: (draw.choice((3, 4, thing)), draw.choice((1, 2, thing)), fb),
        "getfb": lambda: (some("fb", 12),),
        "rmfb": lambda: (some("fb", 12),),
        "addfb": lambda: (*draw.choice(SHAPES), some("handle")),
        "revoke_lease": lambda: (some("lessee"),),
        "create_lease": lambda: draw.choice(
            (draw.choice(OUTPUTS), tuple(draw.randint(0, 10) for _ in range(draw.randint(0, 5))))
        ),
    }.get(word, tuple)()


def request_of(draw, known, client):
    """A random call in a script's words."""
    if draw.random() < 0.02:
        return draw.choice(("raw 65535", "raw 198"))
    word = draw.choice(sorted(CALLS))
    return " ".join(map(str, (word, *fields_of(word, draw, known, client))))


def opening_of(draw, known):
    """A random opening, behind its label."""
    kind = draw.choice(("card", "card", "card", "root", "render", "lease", "lease", "rootlease"))
    return f"{kind} {known.pick(draw, 'lease', None, 3)}" if "lease" in kind else kind


def limits_of(draw):
    """A line of small limits, or none."""
    if draw.random() < 0.5:
        return []
    small = [draw.randint(1, 6) for _ in range(5)]
    return ["limits " + " ".join(map(str, (*small, draw.randint(1, 4), draw.randint(1, 4), draw.randint(2, 100))))]


def random_script(seed):
    """A script and the lines that are expected of it."""
    draw, plain = random.Random(seed), Plain()
    script, expected = limits_of(draw), []
    for line in script:
        plain.line(line)
    for _ in range(LINES):
        label, chance = draw.choice(LABELS), draw.random()
        bound = sorted(plain.labels) or [label]
        if chance < 0.1 or not plain.clients:
            line = f"{draw.choice(('open', 'open', 'open2'))} {label} {opening_of(draw, Seen(plain))}"
        elif chance < 0.15:
            line = f"close {label}"
        else:
            caller = draw.choice(bound) if draw.random() < 0.97 else label
            line = f"{caller} {request_of(draw, Seen(plain), plain.labels.get(caller, 0))}"
        script.append(line)
        expected.append(plain.line(line))
    return script, expected


def first_difference(script, expected, written):
    """Tells the first line whose answer differs."""
    asked = [line for line in script if not line.startswith("limits")]
    for place, (line, wanted, came) in enumerate(zip(asked, expected, [*written, *[None] * len(asked)]), 1):
        if wanted != came:
            return f"line {place}, {line}: {came!r} in place of {wanted!r}"
    return "more lines than were asked for"


# clients on a server


class Round:
    """The clients of one server, and what each was answered."""

    def __init__(self, server, seed):
        self.server, self.seed = server, seed
        self.until = time.monotonic() + ROUND_SECONDS
        self.turn = threading.Lock()
        self.opened = dict.fromkeys(CLASSES, 1)
        self.leases = []
        self.answers = {}
        self.failures = []

    def place(self, name):
        """Whether this class may have a further client."""
        with self.turn:
            self.opened[name] += 1
            return self.opened[name] <= MOST_OPENED

    def open(self, draw, name):
        lease = None
        with self.turn:
            if name != "render" and self.leases and draw.random() < 0.5:
                lease = self.leases.pop()
        return Client(getattr(self.server, name), lease, version=draw.choice((1, 2)))

    def talk(self, draw, client):
        """Some requests of a client, and the answers that it was given."""
        given = self.answers.setdefault(client.opened.client, [])
        for _ in range(draw.randint(1, 60)):
            line = request_of(draw, Known(), None)
            answer = client.ask(line)
            given.append((line, answer))
            if answer.startswith("lease "):
                with self.turn:
                    self.leases.append(int(answer.split()[2]))

    def work(self, number):
        draw = random.Random(f"{self.seed} {number}")
        try:
            while time.monotonic() < self.until:
                name = draw.choice(CLASSES)
                if not self.place(name):
                    return
                if draw.random() < 0.1:
                    self.kill_one(draw, name)
                else:
                    self.meet(draw, name)
        except Exception as error:  # a thread's end tells nobody
            self.failures.append(f"worker {number}: {error!r}")

    def meet(self, draw, name):
        """One client, which closes, breaks off, or breaks off within a request."""
        try:
            client = self.open(draw, name)
        except Refusal:
            return
        self.talk(draw, client)
        end = draw.random()
        if end < 0.4:
            client.close()
        elif end < 0.7:
            client.abandon()
        else:
            client.socket.sendall(
                draw.choice(
                    (b"\x06", b"\x06\x00\x00\x00\x44\x00\x00", b"\xff\xff\xff\xff", b"\x02\x00\x00\x00\x00\x00")
                )
            )
            client.abandon()

    def kill_one(self, draw, name):
        """A client in its own process, which is killed."""
        words = [CLIENTS / "python/drm-client", getattr(self.server, name)]
        with subprocess.Popen(
            words, stdin=subprocess.PIPE, stdout=subprocess.PIPE, stderr=subprocess.DEVNULL, text=True
        ) as asking:
            for _ in range(draw.randint(0, 20)):
                asking.stdin.write(request_of(draw, Known(), None) + "\n")
            asking.stdin.flush()
            asking.stdout.readline()
            asking.kill()
            asking.stdin.close()


def held_by(process):
    """How many threads and descriptors a process has, and its memory in KiB."""
    folder = pathlib.Path(f"/proc/{process}")
    status = (folder / "status").read_text()
    return (
        int(re.search(r"Threads:\s*(\d+)", status)[1]),
        len(list((folder / "fd").iterdir())),
        int(re.search(r"VmRSS:\s*(\d+)", status)[1]),
    )


def replayed(journal):
    """The plain device after a journal, each of whose answers it gave too, and the answers of each client."""
    plain, clients, answers = Plain(), {}, {}
    for number, line in enumerate(journal.splitlines(), 1):
        text, *wanted = re.split(r" *-> ", line)
        came = plain.line(text)
        if wanted:
            expect(f"line {number} of the journal, {text}", wanted[0], came)
        words = text.split()
        if words and words[0] in ("open", "open2") and came.startswith("client "):
            clients[words[1]] = int(came.split()[1])
        elif words and words[0] in clients:
            answers.setdefault(clients[words[0]], []).append((" ".join(words[1:]), came))
    return plain, answers


def soak(seed, folder):
    """One server under clients that come, ask, and go in all ways; how many steps it made, and its memory."""
    journal = folder / "journal.script"
    with Server(cards=64, renders=64, roots=64, journal=journal) as server:
        process = server.pid
        with Client(server.root) as watching:
            before = held_by(process)
            trial = Round(server, seed)
            workers = [threading.Thread(target=trial.work, args=(number,)) for number in range(WORKERS)]
            for worker in workers:
                worker.start()
            for worker in workers:
                worker.join()
            expect(f"seed {seed}: what failed", trial.failures, [])
            wait_until("whether all others are closed", lambda: watching.ask("audit 1 0").startswith("rows 1 |"))
            wait_until("whether their threads and descriptors are gone", lambda: held_by(process)[:2] == before[:2])
            memory = held_by(process)[2]
    plain, answers = replayed(journal.read_text())
    expect(f"seed {seed}: the listing", server.listing, plain.listing())
    for client, given in trial.answers.items():
        # what was sent as the client broke off may have been carried out
        expect(f"seed {seed}: what client {client} was answered", answers.get(client, [])[: len(given)], given)
    expect("files", sorted(path.name for path in folder.iterdir()), ["journal.script"])
    journal.unlink()
    return plain.steps, memory


def take_options():
    """Takes the options from the command line."""
    for name in OPTIONS:
        if name in sys.argv:
            place = sys.argv.index(name)
            OPTIONS[name] = int(sys.argv[place + 1])
            del sys.argv[place : place + 2]


class RandomTests(FolderCase):
    """Random scripts and random clients, whose answers are compared with those of tests/plain_device.py, a second device in plain Python."""

    def test_random_scripts(self):
        folder = self.folder
        answered, kinds = 0, set()
        for seed in range(SEED, SEED + OPTIONS["--scripts"]):
            script, expected = random_script(seed)
            ran = run_program("run", script="".join(line + "\n" for line in script))
            written = ran.stdout.splitlines()
            if (ran.returncode, ran.stderr, written) != (0, "", expected):
                (folder / "script").write_text("\n".join(script))
                raise AssertionError(
                    f"seed {seed}: {first_difference(script, expected, written)} (status {ran.returncode}, {ran.stderr!r})"
                )
            answered += len(expected)
            kinds |= {re.match(r"denied \d+|apart \d+|[a-z]+", line)[0] for line in expected}
        denials = sorted(int(kind.split()[1]) for kind in kinds if kind.startswith("denied"))
        print(f"{answered} answers alike, with {len(denials)} of the rules and {len(kinds) - len(denials)} other kinds")

    def test_soak(self):
        folder = self.folder
        until, seed, steps, rounds = time.monotonic() + OPTIONS["--seconds"], SEED, 0, []
        while time.monotonic() < until or not rounds:
            made, memory = soak(seed, folder)
            rounds.append((made, memory))
            steps, seed = steps + made, seed + 1
        print(
            f"{steps} steps in {len(rounds)} servers, each answer and what was left as the plain device has it; at most "
            f"{max(memory for _, memory in rounds) // 1024} MiB, with {max(made for made, _ in rounds)} steps"
        )


if __name__ == "__main__":
    take_options()
    sys.exit(run_tests())
