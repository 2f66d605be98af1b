#!/usr/bin/env python3
"""Tests of faults on purpose: memory that is refused, answers that are late and connections that break.

What it tests: memory refused to each call that adds a row, late answers and broken connections, by the command line
and the control socket: audits, journals, and clients that go on meanwhile. The servers of tests in Python, C
and Rust.

They are planned by the command line, by the control socket, and by the servers of tests in each language. Each test has
its own folder. The last line is `N passed, M failed`. Standard library only.
"""
import asyncio
import concurrent.futures
import contextlib
import os
import shutil
import sys
from typing import Dict, NamedTuple, Tuple

sys.dont_write_bytecode = True
from support import (  # noqa: E402
    CLASSES,
    CLIENTS,
    PROGRAM,
    REPOSITORY,
    SECONDS,
    FolderCase,
    compile_client,
    connect,
    connect_raw,
    expect,
    expect_answers,
    expect_end,
    expect_no_sockets,
    refusal_of,
    retry,
    run,
    run_tests,
    wait_until,
    want_program,
)

from zirkoshe import Apart, ApartNumber, AsyncClient, AuditKind, Client  # noqa: E402
from zirkoshe.protocol import request_of  # noqa: E402
from zirkoshe.server import Server, ServerError  # noqa: E402

from fault_support import (  # noqa: E402
    COMMAND_LINE,
    LATE,
    LONG,
    NO_MEMORY,
    PROMPT,
    WAYS,
    Clients,
    Control,
    controlled,
    expect_unchanged,
    expect_well,
    held,
    is_broken,
    objects_of,
    plan,
    planning,
    seconds_of,
    timed,
)

# memory that is refused


class Growth(NamedTuple):
    """A call that adds a row: what goes before it, the calls that aren't counted, and itself, each with its answer."""

    before: Tuple[str, ...]
    uncounted: Tuple[str, ...]
    call: str


BUFFER = "a buf_create 4096 -> buffer 1 4096"
DUMB = "a create_dumb 64 64 32 -> dumb 1 256 16384"
FRAMEBUFFER = "a addfb 64 64 256 32 1 -> number 9"

GROWTHS: Dict[str, Growth] = {
    "set_master": Growth(
        (),
        (
            "a set_master -> done",
            "q set_master -> denied 27 MasterBusy 16",
            "c set_master -> denied 26 MasterPerm 13",
            "a drop_master -> done",
            "a set_master -> done",
            "a drop_master -> done",
        ),
        "q set_master -> done",
    ),
    "buf_create": Growth((), ("a buf_create 0 -> denied 39 BadSize 22",), BUFFER),
    "create_dumb": Growth(
        (),
        (
            "a create_dumb 0 64 32 -> denied 39 BadSize 22",
            "b create_dumb 64 64 32 -> denied 14 RenderAllow 13",
        ),
        DUMB,
    ),
    "gem_flink": Growth(
        (BUFFER, "a buf_create 8192 -> buffer 2 8192", "a gem_flink 1 -> number 1"),
        ("a gem_flink 1 -> number 1", "a gem_flink 7 -> denied 21 NoHandle 2"),
        "a gem_flink 2 -> number 2",
    ),
    "gem_open": Growth(
        (BUFFER, "a gem_flink 1 -> number 1"),
        ("a gem_open 7 -> denied 23 NoName 2", "c gem_open 1 -> denied 12 Auth 13"),
        "a gem_open 1 -> buffer 2 4096",
    ),
    "prime_export": Growth((BUFFER,), ("a prime_export 7 -> denied 21 NoHandle 2",), "a prime_export 1 -> number 1"),
    "prime_import": Growth(
        (
            BUFFER,
            "a prime_export 1 -> number 1",
            "b buf_create 8192 -> buffer 1 8192",
            "b prime_export 1 -> number 2",
        ),
        ("a prime_import 1 -> buffer 1 4096", "a prime_import 7 -> denied 24 NoToken 2"),
        "a prime_import 2 -> buffer 2 8192",
    ),
    "addfb": Growth(
        (DUMB,),
        ("a addfb 64 64 255 32 1 -> denied 39 BadSize 22", "a addfb 64 64 256 32 7 -> denied 21 NoHandle 2"),
        FRAMEBUFFER,
    ),
    "getfb": Growth(
        (DUMB, FRAMEBUFFER),
        ("c getfb 9 -> framebuffer 64 64 256 32 0", "a getfb 10 -> denied 38 NoFb 2"),
        "a getfb 9 -> framebuffer 64 64 256 32 2",
    ),
    "create_lease": Growth(
        (),
        (
            "a create_lease 1 8 -> denied 33 LeaseShape 22",
            "c create_lease 2 4 8 -> denied 13 Master 13",
        ),
        "a create_lease 2 4 8 -> lease 1 1",
    ),
}


def expect_refused_memory(folder, word, growth):
    """The call is refused memory once, and what isn't counted before it is answered as usual."""
    call, answer = growth.call.split(" -> ")
    with controlled(folder) as started, Clients(folder) as clients:
        clients.expect(*growth.before)
        plan(folder, f"fail {word}=memory")
        clients.expect(*growth.uncounted)
        before = held(clients.root)
        expect(f"{call}, of {word}", clients.ask(call), NO_MEMORY)
        expect_unchanged(clients.root, before)
        expect(f"{call} again", clients.ask(call), answer)
        expect(f"whether {call} adds a row", held(clients.root)[0] == before[0], False)
        with Control(folder) as control:
            expect("the plans afterwards", control.listed(), [])
        expect_well(started)
    expect_no_sockets(folder)


# tests in other languages

C_PRINTS = """fail 0
create 0 none
create -12 NoMemory
create 0 none
stall 0
version 0 prompt
version 0 late
version 0 prompt
fail 0
clear 0
create 0 none
break 0
version 0 prompt
create -104 none
create -107 none
no call -22 `creat_dumb` is no call
no row -22 `version` adds no row
no number -22 `0` is out of range: 1 to 65535
two lines -22 \ntoo long -22 \nwell 0 \nended 0
no server -107 \nno control -95 \n"""


def told_by(action):
    """The text of the error that an action raises."""
    try:
        action()
    except ServerError as error:
        return str(error)
    return "nothing"


class FaultsTests(FolderCase):
    """Tests of faults on purpose."""

    # memory that is refused

    def test_memory_is_refused_to_each_call_that_adds_a_row(self):
        """It changes and records nothing, and the next call is carried out. Calls that add no row are not counted."""
        for word, growth in GROWTHS.items():
            expect_refused_memory(self.folder, word, growth)

    def test_nth_call_is_refused_memory(self):
        """Calls of all clients are counted, and other calls are not."""
        for way in WAYS:
            with planning(self.folder, way, "fail create_dumb:3=memory") as started, Clients(self.folder) as clients:
                clients.expect(DUMB, "a buf_create 4096 -> buffer 2 4096", "q create_dumb 64 64 32 -> dumb 1 256 16384")
                clients.expect("c create_dumb 0 0 0 -> denied 39 BadSize 22")
                before = held(clients.root)
                expect(f"the third call, {way}", clients.ask("c create_dumb 64 64 32"), NO_MEMORY)
                expect_unchanged(clients.root, before)
                clients.expect("c create_dumb 64 64 32 -> dumb 1 256 16384")
                expect_well(started)
            expect_no_sockets(self.folder)

    def test_several_calls_are_refused_memory(self):
        """A plan for each call, and one after the other for the same."""
        lines = ["fail buf_create:2=memory", "fail create_dumb=memory", "fail prime_export=memory"]
        for way in WAYS:
            with planning(self.folder, way, *lines) as started, Clients(self.folder) as clients:
                clients.expect(
                    BUFFER,
                    f"a create_dumb 64 64 32 -> {NO_MEMORY}",
                    f"a prime_export 1 -> {NO_MEMORY}",
                    f"a buf_create 8192 -> {NO_MEMORY}",
                    "a buf_create 8192 -> buffer 2 8192",
                    "a create_dumb 64 64 32 -> dumb 3 256 16384",
                    "a prime_export 1 -> number 1",
                )
                expect_well(started)

    def test_plan_is_in_force_before_its_ok(self):
        """The first call after a plan is refused memory, each time."""
        with controlled(self.folder) as started, Clients(self.folder) as clients, Control(self.folder) as control:
            for _ in range(200):
                expect("a plan", control.ask("fail create_dumb=memory"), "ok\n")
                clients.expect(f"a create_dumb 64 64 32 -> {NO_MEMORY}")
            clients.expect(DUMB)
            expect_well(started)

    def test_one_of_many_calls_is_refused_memory(self):
        """Eight clients make 800 calls at once, and the 600th of all is refused."""
        for way in WAYS:
            with planning(self.folder, way, "fail buf_create:600=memory") as started, contextlib.ExitStack() as opened:
                clients = [opened.enter_context(connect(self.folder / "card")) for _ in range(8)]
                with concurrent.futures.ThreadPoolExecutor(len(clients)) as pool:
                    asked = pool.map(lambda client: [client.ask("buf_create 4096") for _ in range(100)], clients)
                    answers = [answer for some in asked for answer in some]
                expect(f"how many are refused, {way}", answers.count(NO_MEMORY), 1)
                expect("how many are carried out", sum(answer.startswith("buffer ") for answer in answers), 799)
                expect("the listing", expect_well(started), f"device 0 0 0 {8 + 799 + 8}\n")

    def test_openings_without_memory(self):
        """The opening is refused with the fault, and nothing is changed or recorded."""
        for way in WAYS:
            for name in CLASSES:
                with planning(self.folder, way, "fail open:2=memory") as started:
                    with contextlib.closing(connect(self.folder / "root")) as root:
                        before = held(root)
                        expect(f"an opening on {name}, {way}", refusal_of(self.folder / name), NO_MEMORY)
                        expect_unchanged(root, before)
                        connect(self.folder / name).close()
                    expect_well(started)

    def test_openings_by_a_lease_without_memory(self):
        """The token stays open. An opening that is denied is not counted."""
        with controlled(self.folder) as started, contextlib.closing(connect(self.folder / "card")) as owner:
            expect("a lease", owner.ask("create_lease 2 4 8"), "lease 1 1")
            plan(self.folder, "fail open=memory")
            expect("a token that is none", refusal_of(self.folder / "card", 7), "denied 42 NoLeaseToken 2")
            expect("an opening by the token", refusal_of(self.folder / "card", 1), NO_MEMORY)
            with contextlib.closing(connect(self.folder / "card", 1)) as lessee:
                expect("what it sees", lessee.ask("get_lease"), "list 2,4,8")
            expect_well(started)

    # answers that are late

    def test_answer_is_late(self):
        """The answer to the Nth call comes no sooner than after the time, and the others at once."""
        for way in WAYS:
            line = f"stall version:2={1000 * LATE:.0f}"
            with planning(self.folder, way, line) as started, Clients(self.folder) as clients:
                clients.expect("a get_cap 5 -> number 3")
                seconds = [seconds_of(clients.clients[name], "version") for name in "aba"]
                expect(f"whether an answer is late, {way}", [took >= LATE for took in seconds], [False, True, False])
                expect_well(started)
            expect_no_sockets(self.folder)

    def test_denials_and_calls_that_add_no_row_are_late(self):
        with controlled(self.folder) as started, Clients(self.folder) as clients:
            for call in ("gem_close 7", "getcrtc 1", "create_lease 1 8"):
                plan(self.folder, f"stall {call.split()[0]}=200")
                expect(f"whether {call} is late", seconds_of(clients.clients["a"], call) >= 0.2, True)
            expect_well(started)

    def test_others_are_answered_meanwhile(self):
        """The call is carried out at once. Clients open, ask and close while its answer is late."""
        folder = self.folder
        for way in WAYS:
            with planning(folder, way, f"stall buf_create={3000 * LATE:.0f}") as started, Clients(folder) as clients:
                with concurrent.futures.ThreadPoolExecutor(1) as pool:
                    late = pool.submit(timed, lambda: clients.ask("a buf_create 4096"))
                    wait_until("the buffer is there", lambda: objects_of(clients.root) == 1)
                    for number in range(30):
                        clients.expect("b buf_create 4096 -> buffer 1 4096", "b gem_close 1 -> done")
                        connect(folder / CLASSES[number % 3]).close()
                    expect(f"whether the answer is there, {way}", late.done(), False)
                    answer, seconds = late.result(SECONDS)
                expect("the answer", answer, "buffer 1 4096")
                expect("whether it is late", seconds >= 3 * LATE, True)
                expect_well(started)

    def test_opening_is_late(self):
        folder = self.folder
        for way in WAYS:
            with planning(folder, way, f"stall open:2={1000 * LATE:.0f}") as started:
                seconds = []
                for name in CLASSES:
                    client, took = timed(lambda path=folder / name: connect(path))
                    client.close()
                    seconds.append(took)
                expect(f"whether an opening is late, {way}", [took >= LATE for took in seconds], [False, True, False])
                expect_well(started)

    def test_answers_are_late_at_once(self):
        """Delays of several clients pass at the same time."""
        calls = {"a": "buf_create 4096", "b": "version", "c": "getresources", "q": "get_cap 1"}
        with controlled(self.folder) as started, Clients(self.folder) as clients:
            plan(self.folder, *(f"stall {call.split()[0]}={2000 * LATE:.0f}" for call in calls.values()))
            with concurrent.futures.ThreadPoolExecutor(len(calls)) as pool:

                def ask_all():
                    return list(pool.map(lambda name: seconds_of(clients.clients[name], calls[name]), calls))

                seconds, together = timed(ask_all)
            expect("whether each is late", [took >= 2 * LATE for took in seconds], [True] * len(calls))
            expect("whether they waited for each other", together < 4 * LATE, True)
            expect_well(started)

    def test_answers_behind_a_late_one_keep_their_order(self):
        """A client sends three requests at once. The answers come in order, none before the late one."""
        with planning(self.folder, COMMAND_LINE, f"stall get_cap={1000 * LATE:.0f}") as started:
            with contextlib.closing(connect(self.folder / "card")) as client:
                client.socket.sendall(b"".join(request_of(call)[0] for call in ("get_cap 5", "version", "get_cap 1")))
                data, seconds = timed(lambda: client.socket.recv(1))
                while len(data) < 14 + 18 + 14:
                    data += client.socket.recv(1024)
                expect("whether they are late", seconds >= LATE, True)
                numbers = "0a000000 0310 {}00000000000000".format
                wanted = numbers("03") + "0e000000 0210 01000000 00000000 00000000" + numbers("01")
                expect("the answers", data, bytes.fromhex(wanted))
            expect_well(started)

    def test_client_that_hangs_up_is_not_waited_for(self):
        """Its client is closed long before the time of its answer."""
        for way in WAYS:
            with planning(self.folder, way, f"stall buf_create={1000 * LONG:.0f}") as started:
                with contextlib.closing(connect(self.folder / "root")) as root:
                    client = connect(self.folder / "card")
                    client.socket.sendall(request_of("buf_create 4096")[0])
                    wait_until("the buffer is there", lambda: objects_of(root) == 1)
                    client.abandon()
                    _, seconds = timed(lambda: root.wait_until_closed(client.opened.client))
                    expect(f"whether it is closed at once, {way}", seconds < PROMPT, True)
                    expect("the objects then", objects_of(root), 0)
                expect_well(started)

    def test_opening_that_hangs_up_is_not_waited_for(self):
        with controlled(self.folder) as started, contextlib.closing(connect(self.folder / "root")) as root:
            plan(self.folder, f"stall open={1000 * LONG:.0f}")
            with contextlib.closing(connect_raw(self.folder / "card")) as late:
                late.sendall(bytes.fromhex("0e000000 0001 01000000 00000000 00000000"))
                wait_until("the client is there", lambda: len(root.audit(AuditKind.CLIENT)) == 2)
            _, seconds = timed(
                lambda: wait_until("the client is closed", lambda: len(root.audit(AuditKind.CLIENT)) == 1)
            )
            expect("whether it is closed at once", seconds < PROMPT, True)
            expect_well(started)

    def test_end_of_the_server_is_not_late(self):
        """A server ends while answers are late, and doesn't wait for them."""
        for way in WAYS:
            lines = [f"stall buf_create={1000 * LONG:.0f}", f"stall version={1000 * LONG:.0f}"]
            with planning(self.folder, way, *lines) as started, contextlib.ExitStack() as opened:
                root = opened.enter_context(contextlib.closing(connect(self.folder / "root")))
                for name, call in (("card", "buf_create 4096"), ("render", "version")):
                    client = connect(self.folder / name)
                    opened.callback(client.abandon)
                    client.socket.sendall(request_of(call)[0])
                wait_until("the buffer is there", lambda: objects_of(root) == 1)
                output, seconds = timed(lambda: expect_well(started))
                expect(f"whether it ends at once, {way}", seconds < PROMPT, True)
                expect("rows of its listing", output.count("\n"), 1)
            expect_no_sockets(self.folder)

    # connections that break

    def test_connection_breaks(self):
        """The Nth request is carried out and not answered. The client's rows are removed, and others are answered."""
        folder = self.folder
        for way in WAYS:
            journal = folder / "journal"
            with planning(folder, way, "break 1:3", more=["--journal", journal]) as started:
                client = connect(folder / "card")
                expect("its number", client.opened.client, 1)
                with contextlib.closing(connect(folder / "root")) as root:
                    expect_answers(
                        [
                            (client, "buf_create 4096", "buffer 1 4096"),
                            (client, "gem_close 7", "denied 22 NoHandleToClose 22"),
                        ]
                    )
                    expect("objects", objects_of(root), 1)
                    expect(f"whether the connection breaks, {way}", is_broken(client, "buf_create 8192"), True)
                    root.wait_until_closed(1)
                    rows, rest, _ = held(root)
                    expect("clients and the device's master", (len(rows[0]), rest[0]), (1, 0))
                    expect("objects and handles", (list(rows[2]), list(rows[5])), ([], []))
                    expect("another client's answer", root.ask("buf_create 4096"), "buffer 1 4096")
                expect_well(started)
            lines = journal.read_text().splitlines()
            expect("its third request in the journal", lines.count("a buf_create 8192 -> buffer 2 8192"), 1)
            expect_end(run(PROGRAM, "check", journal), 0, "", f"{len(lines) - 1} passed, 0 failed\n")
            journal.unlink()
            expect_no_sockets(folder)

    def test_break_of_a_stalled_call(self):
        """A call to which both rules apply is late, and then its connection breaks. Each rule is used once."""
        for way in WAYS:
            with planning(self.folder, way, f"stall version={1000 * LATE:.0f}", "break 1:1") as started:
                client = connect(self.folder / "card")
                broken, seconds = timed(lambda client=client: is_broken(client, "version"))
                expect(f"whether it breaks late, {way}", (broken, seconds >= LATE), (True, True))
                with contextlib.closing(connect(self.folder / "root")) as other:
                    expect("another's answer", seconds_of(other, "version") < LATE, True)
                expect_well(started)
            expect_no_sockets(self.folder)

    def test_requests_behind_a_break_are_not_carried_out(self):
        """A client sends four requests at once, and its connection breaks after the second."""
        with planning(self.folder, COMMAND_LINE, "break 1:2") as started:
            with contextlib.closing(connect(self.folder / "card")) as client:
                client.socket.sendall(4 * request_of("version")[0])
                answer = b""
                with contextlib.suppress(ConnectionResetError):
                    for data in iter(lambda: client.socket.recv(1024), b""):
                        answer += data
                expect("its answers", answer, bytes.fromhex("0e000000 0210 01000000 00000000 00000000"))
            expect("the listing", expect_well(started), "device 0 0 0 4\n")

    def test_requests_without_a_call_are_counted_for_a_break(self):
        """A number without a row, and a layout that is none, are requests. They are no calls, which a delay counts."""
        with controlled(self.folder) as started:
            plan(self.folder, "break 1:3", "stall gem_close=60000")
            with contextlib.closing(retry(lambda: connect_raw(self.folder / "card"))) as client:
                hello = bytes.fromhex("0e000000 0001 01000000 00000000 00000000")
                client.sendall(hello + bytes.fromhex("04000000 0900 0000 02000000 7f00 02000000 7f00"))
                answers = bytes.fromhex("06000000 0110 01000000 0a000000 0020 02000000 16000000")
                answers += bytes.fromhex("0a000000 0020 01000000 16000000")
                found = b""
                with contextlib.suppress(ConnectionResetError):
                    for more in iter(lambda: client.recv(64), b""):
                        found += more
                expect("the answers", found, answers)
            with Control(self.folder) as control:
                expect("the plans", control.listed(), ["stall gem_close=60000"])
            expect_well(started)

    def test_requests_before_the_plan_are_not_counted(self):
        with controlled(self.folder) as started, Clients(self.folder) as clients:
            clients.expect(BUFFER, "b version -> version 1 0 0")
            number = clients.clients["b"].opened.client
            plan(self.folder, f"break {number}:2", "fail buf_create:2=memory", "stall version:3=200")
            clients.expect("b get_cap 5 -> number 3", BUFFER.replace("1 4096", "2 4096"))
            with Control(self.folder) as control:
                left = ["fail buf_create=memory", f"break {number}", "stall version:3=200"]
                expect("what is left", control.listed(), sorted(left))
            expect("whether the connection breaks", is_broken(clients.clients["b"], "get_cap 5"), True)
            expect_well(started)

    def test_broken_lessee_ends_its_lease(self):
        """A break has the effects of a connection that ends."""
        with controlled(self.folder) as started, Clients(self.folder) as clients:
            clients.expect("a create_lease 2 4 8 -> lease 1 1")
            lessee = connect(self.folder / "card", 1)
            plan(self.folder, f"break {lessee.opened.client}")
            expect("whether the connection breaks", is_broken(lessee, "version"), True)
            clients.root.wait_until_closed(lessee.opened.client)
            clients.expect("a list_lessees -> list -", "a create_lease 2 4 8 -> lease 1 2")
            expect_well(started)

    # journals

    def test_journals_after_faults(self):
        """A journal has what was carried out, in order, and no fault. Its check accepts it."""
        journal = self.folder / "journal"
        with controlled(self.folder, "--journal", journal) as started, Clients(self.folder) as clients:
            plan(self.folder, "fail create_dumb=memory", "fail open=memory", "stall buf_create=1", "break 1:5")
            clients.expect(f"a create_dumb 64 64 32 -> {NO_MEMORY}", BUFFER, DUMB.replace("dumb 1", "dumb 2"))
            expect("an opening", refusal_of(self.folder / "card"), NO_MEMORY)
            connect(self.folder / "card").close()
            clients.expect("a gem_close 7 -> denied 22 NoHandleToClose 22")
            wait_until("the journal grows", lambda: "gem_close 7 -> denied 22" in journal.read_text())
            expect("whether the journal so far has a fault", "apart" in journal.read_text(), False)
            expect("whether the connection breaks", is_broken(clients.clients["a"], "gem_close 1"), True)
            clients.root.wait_until_closed(1)
            output = expect_well(started)
        lines = journal.read_text().splitlines()
        expect("whether it has a fault", any("apart" in line for line in lines), False)
        # four openings, one more with its closing, three requests of a, the one that breaks, and four closings
        audits = sum(" audit 1 " in line for line in lines)
        expect("the steps", len(lines) - 1, 4 + 2 + 3 + 1 + 4 + audits)
        expect("the listing", output, f"device 0 0 0 {len(lines) - 1}\n")
        expect_end(run(PROGRAM, "check", journal), 0, "", f"{len(lines) - 1} passed, 0 failed\n")

    # servers of tests

    def test_fixture_of_python(self):
        with Server(program=PROGRAM, control=True) as made:
            with Client(made.card) as client, Client(made.root) as root:
                made.fail("create_dumb", 2)
                made.stall("version", milliseconds=200, nth=2)
                made.break_connection(77, 3)
                lines = ["break 77:3", "fail create_dumb:2=memory", "stall version:2=200"]
                expect("the plans", sorted(made.planned_faults()), lines)
                client.create_dumb(64, 64, 32)
                try:
                    client.create_dumb(64, 64, 32)
                except Apart as refusal:
                    expect("the fault", refusal.fault, ApartNumber.NO_MEMORY)
                else:
                    raise AssertionError("the call was carried out")
                seconds = [timed(client.version)[1] for _ in range(2)]
                expect("whether an answer is late", [took >= 0.2 for took in seconds], [False, True])
                made.clear_faults()
                expect("the plans then", made.planned_faults(), [])
                made.break_connection(client)
                expect("whether the connection breaks", is_broken(client, "version"), True)
                root.wait_until_closed(client.opened.client)
                made.break_connection(root.opened.client, 2)
                expect("whether the connection breaks", [is_broken(root, "version") for _ in range(2)], [False, True])
        expect("the socket", os.path.exists(made.control), False)
        expect("what an ended server says", told_by(lambda: made.fail("open")), "the server has ended")

    def test_fixture_of_python_says_what_is_refused(self):
        with Server(program=PROGRAM, control=True, cards=1) as made:
            for call, nth, reason in (
                ("creat_dumb", 1, "`creat_dumb` is no call"),
                ("version", 1, "`version` adds no row"),
                ("create_dumb", 0, "`0` is out of range: 1 to 65535"),
                ("open\nclear", 1, "'fail open\\nclear:1=memory' is more than one line"),
            ):
                expect("the reason", told_by(lambda asked=(call, nth): made.fail(*asked)), reason)
            late = told_by(lambda: made.stall("version", milliseconds=60001))
            expect("a delay", late, "`60001` is out of range: 1 to 60000")
            expect("whether a long word is refused", told_by(lambda: made.fail(200 * "x")) != "nothing", True)
            expect("the plans", made.planned_faults(), [])
        with Server(program=PROGRAM) as made:
            reason = "the server takes no plans of faults: start it with Server(control=True)"
            expect("without a control socket", told_by(made.clear_faults), reason)
            expect("its path", made.control, None)

    def test_asyncio_client_is_broken(self):
        async def ask(made):
            async with AsyncClient(made.card) as client:
                made.break_connection(client, 2)
                await client.version()
                try:
                    await client.version()
                except ConnectionError as error:
                    return str(error)
                return "nothing"

        with Server(program=PROGRAM, control=True) as made:
            expect("the error", asyncio.run(ask(made)), "the server closed the connection")

    def test_fixture_of_c(self):
        program = compile_client("c", "faults.c", self.folder)
        (self.folder / "temporary").mkdir()
        ran = run(program, env={**os.environ, "TMPDIR": str(self.folder / "temporary")})
        # the server's log is on standard error
        expect("status and output", (ran.returncode, ran.stdout), (0, C_PRINTS))
        expect("files left", list((self.folder / "temporary").iterdir()), [])

    def test_fixture_of_rust(self):
        want_program("cargo")
        (self.folder / "temporary").mkdir()
        crate = shutil.copytree(CLIENTS / "rust", self.folder / "crate")
        (crate / "tests").mkdir()
        shutil.copy(REPOSITORY / "tests/faults.rs", crate / "tests")
        environment = {
            **os.environ,
            "CARGO_NET_OFFLINE": "true",
            "CARGO_TARGET_DIR": str(self.folder / "target"),
            "TMPDIR": str(self.folder / "temporary"),
        }
        ran = run("cargo", "test", "--quiet", "--test", "faults", cwd=crate, env=environment, timeout=300)
        expect(f"the status of {ran.stdout}{ran.stderr}", ran.returncode, 0)
        expect("the tests", "6 passed" in ran.stdout, True)
        expect("files left", list((self.folder / "temporary").glob("drm-server-*")), [])


if __name__ == "__main__":
    sys.exit(run_tests())
