#!/usr/bin/env python3
"""Tests of the control socket, and of the options that plan faults: lists, replaced plans, and what is refused.

What it tests: the control socket: lists, replaced and refused plans, lines in pieces, too long or without an end,
clients that send nothing or take no answers. Refused command lines.

Each test has its own folder. The last line is `N passed, M failed`. Standard library only.
"""
import contextlib
import socket
import sys
from typing import Dict, List, Optional

sys.dont_write_bytecode = True
from support import (  # noqa: E402
    SECONDS,
    FolderCase,
    connect,
    connect_raw,
    end_of,
    expect,
    expect_no_sockets,
    expect_told,
    next_told,
    path_words,
    run_program,
    run_tests,
    server,
)

from zirkoshe.protocol import CALLS  # noqa: E402

from fault_support import NO_MEMORY, PROMPT, Clients, Control, controlled, expect_well, timed  # noqa: E402

MOST_BREAKS = 64
MOST_LINE = 128
# the calls that can add a row and need memory for it
GROWING = (
    "set_master",
    "buf_create",
    "create_dumb",
    "gem_flink",
    "gem_open",
    "prime_export",
    "prime_import",
    "addfb",
    "getfb",
    "create_lease",
)

# lines that are refused, each with its answer, or none if the reason may have any words

WRONG: Dict[str, Optional[str]] = {
    "fail creat_dumb=memory": "error: `creat_dumb` is no call",
    "fail CREATE_DUMB=memory": "error: `CREATE_DUMB` is no call",
    "stall creat_dumb=1": "error: `creat_dumb` is no call",
    "fail version=memory": "error: `version` adds no row",
    "fail setcrtc:2=memory": "error: `setcrtc` adds no row",
    "fail get_magic=memory": "error: `get_magic` adds no row",
    "fail create_dumb:0=memory": "error: `0` is out of range: 1 to 65535",
    "fail create_dumb:65536=memory": "error: `65536` is out of range: 1 to 65535",
    "stall version:0=1": "error: `0` is out of range: 1 to 65535",
    "stall version=0": "error: `0` is out of range: 1 to 60000",
    "stall version=60001": "error: `60001` is out of range: 1 to 60000",
    "break 0": "error: `0` is out of range: 1 to 4294967295",
    "break 4294967296": "error: `4294967296` is out of range: 1 to 4294967295",
    "": "error: missing fail, stall, break, clear or list",
    " ": None,
    "fail": "error: missing call",
    "fail ": None,
    "fail create_dumb": "error: missing `=memory`",
    "fail create_dumb=": None,
    "fail create_dumb=disk": "error: `disk` can't be refused: only memory can",
    "fail create_dumb:=memory": None,
    "fail create_dumb:x=memory": "error: `x` is no number",
    "fail create_dumb:-1=memory": "error: `-1` is no number",
    "fail create_dumb:+1=memory": "error: `+1` is no number",
    "fail create_dumb:1:2=memory": None,
    "fail create_dumb:99999999999999999999=memory": None,
    "fail create_dumb=memory more": "error: `more` is an extra word",
    "fail create_dumb=memory\r": None,
    "fail create_dumb=memory\0": None,
    "fail =memory": None,
    "stall version": "error: missing `=MS`",
    "stall version=": None,
    "stall version=x": "error: `x` is no number",
    "stall version=-1": None,
    "stall version=99999999999999999999": None,
    "break": "error: missing client",
    "break x": "error: `x` is no number",
    "break 1:": None,
    "break 1:0": "error: `0` is out of range: 1 to 65535",
    "break 1:65536": "error: `65536` is out of range: 1 to 65535",
    "break 1=memory": None,
    "break 99999999999999999999": None,
    "fail close=memory": "error: `close` is no call",
    "fail OPEN=memory": "error: `OPEN` is no call",
    "fail gem_close=memory": "error: `gem_close` adds no row",
    "fail addfb:1:1=memory": "error: `1:1` is no number",
    "fail addfb:=memory": "error: missing number",
    "fail addfb=": "error: missing `=memory`",
    "fail addfb=memory=": "error: `memory=` can't be refused: only memory can",
    "fail\tx": "error: `fail?x` is no command: fail, stall, break, clear or list",
    "stall version=1s": "error: `1s` is no number",
    "break a": "error: `a` is no number",
    "break :1": "error: missing client",
    "break 7:2 8": "error: `8` is an extra word",
    "  ": "error: missing fail, stall, break, clear or list",
    "stop": "error: `stop` is no command: fail, stall, break, clear or list",
    "List": "error: `List` is no command: fail, stall, break, clear or list",
    "clear now": "error: `now` is an extra word",
    "clear all": "error: `all` is an extra word",
    "list all": "error: `all` is an extra word",
    "FAIL create_dumb=memory": None,
    "drop create_dumb": "error: `drop` is no command: fail, stall, break, clear or list",
    "ok": None,
    "\0": None,
    "fail \u00e9=memory": None,
}

# plans that are sent one after the other, and how they are listed: by their kinds, openings first, with their counts
LISTED = {
    "break 7": "break 7:1",
    "  stall  open=20  ": "stall open:1=20",
    "stall version=60000": "stall version:1=60000",
    "fail gem_flink:002=memory": "fail gem_flink:2=memory",
    "fail create_dumb:65535=memory": "fail create_dumb:65535=memory",
    "break 4294967295:65535": "break 4294967295:65535",
    "fail open=memory": "fail open:1=memory",
    **{f"fail {word}=memory": f"fail {word}:1=memory" for word in GROWING if word not in ("gem_flink", "create_dumb")},
}

# the words of command lines that are refused
WRONG_WORDS: List[List[str]] = [
    ["--fail", "creat_dumb=memory"],
    ["--fail", "version=memory"],
    ["--fail", "create_dumb:0=memory"],
    ["--fail", "create_dumb:65536=memory"],
    ["--fail", "create_dumb"],
    ["--fail", "create_dumb=disk"],
    ["--fail", ""],
    ["--fail"],
    ["--stall", "version"],
    ["--stall", "version=0"],
    ["--stall", "version=60001"],
    ["--stall", "creat_dumb=1"],
    ["--break", "0"],
    ["--break", "4294967296"],
    ["--break", "1:0"],
    ["--break", "x"],
    ["--break"],
    ["--control"],
    ["--control", "control", "--control", "other"],
]


class ControlSocketTests(FolderCase):
    """Tests of the control socket, and of the options that plan faults."""

    def test_control_socket_is_logged(self):
        with controlled(self.folder, "--verbose") as started:
            logged = [next_told(started) for _ in range(4)]
        expect("what is logged last", logged[-1], f"INFO control: {self.folder / 'control'}")

    def test_plans_are_listed_replaced_and_forgotten(self):
        lines = ["break 7:4", "fail create_dumb:2=memory", "stall create_dumb:5=60000", "stall gem_open:65535=1"]
        with controlled(self.folder) as started, Clients(self.folder) as clients, Control(self.folder) as control:
            expect("at first", control.listed(), [])
            for line in lines:
                expect(line, control.ask(line), "ok\n")
            expect("all of them", control.listed(), lines)
            clients.expect("a create_dumb 64 64 32 -> dumb 1 256 16384")
            left = ["break 7:4", "fail create_dumb=memory", "stall create_dumb:4=60000", "stall gem_open:65535=1"]
            expect("after a call", control.listed(), left)
            others = ["break 7:9", "fail create_dumb:3=memory", "stall create_dumb:6=7", "stall gem_open:2=3"]
            for line in others:
                expect(line, control.ask(line), "ok\n")
            expect("replaced", control.listed(), others)
            expect("forgotten", (control.ask("clear"), control.listed()), ("ok\n", []))
            for _ in range(7):
                expect("a call", clients.ask("q create_dumb 64 64 32").split()[0], "dumb")
            expect_well(started)

    def test_how_plans_are_listed(self):
        with controlled(self.folder) as started, Control(self.folder) as control:
            for line in LISTED:
                expect(line, control.ask(line), "ok\n")
            listed = control.list()
            expect("the plans", sorted(listed), sorted(LISTED.values()))
            expect("their kinds", [line.split()[0] for line in listed], 11 * ["fail"] + 2 * ["stall"] + 2 * ["break"])
            expect("the first plan", listed[0], "fail open:1=memory")
            expect_well(started)

    def test_listed_plans_can_be_sent_again(self):
        lines = ["break 4294967295", "fail open:3=memory", "stall open=1"]
        with controlled(self.folder) as started, Control(self.folder) as control:
            for line in lines:
                expect(line, control.ask(line), "ok\n")
            listed = control.list()
            expect("clear", control.ask("clear"), "ok\n")
            for line in listed:
                expect(line, control.ask(line), "ok\n")
            expect("the plans", control.listed(), lines)
            expect_well(started)

    def test_each_call_can_be_late(self):
        """Each word of a script for a call, and `open`, has room for its plan."""
        with controlled(self.folder) as started, Control(self.folder) as control:
            lines = sorted(f"stall {word}:2=1" for word in (*CALLS, "open"))
            for line in lines:
                expect(line, control.ask(line), "ok\n")
            expect("the plans", control.listed(), lines)
            for word in CALLS:
                growing = word in GROWING
                answer = "ok\n" if growing else f"error: `{word}` adds no row\n"
                expect(f"a refusal to {word}", control.ask(f"fail {word}=memory"), answer)
            expect_well(started)

    def test_room_for_breaks(self):
        """There is room for 64. A plan that is refused changes nothing, and one that replaces another needs no room."""
        with controlled(self.folder) as started, Control(self.folder) as control:
            lines = [f"break {number}:2" for number in range(1, 1 + MOST_BREAKS)]
            for line in lines:
                expect(line, control.ask(line), "ok\n")
            expect("one too many", control.ask("break 999:2"), "error: there is room for 64 rules of a kind\n")
            expect("one of another kind", (control.ask("stall open=1"), control.ask("clear")), ("ok\n", "ok\n"))
            for line in lines:
                expect(line, control.ask(line), "ok\n")
            expect("one that replaces another", control.ask("break 2:3"), "ok\n")
            lines[1] = "break 2:3"
            expect("the plans", control.listed(), sorted(lines))
            expect("clear", control.ask("clear"), "ok\n")
            expect("one more then", control.ask("break 999:2"), "ok\n")
            expect_well(started)

    def test_wrong_lines_are_refused(self):
        """Each is answered by one line, and changes nothing."""
        kept = ["break 3:3", "fail create_dumb:2=memory", "stall version:2=1"]
        with controlled(self.folder) as started, Control(self.folder) as control:
            for line in kept:
                expect(line, control.ask(line), "ok\n")
            for line, answer in WRONG.items():
                found = control.ask(line)
                if answer is None:
                    expect(f"how the answer to {line!r} begins and ends", (found[:7], found[-1:]), ("error: ", "\n"))
                    expect(f"whether the answer to {line!r} has a reason", len(found) > 8, True)
                else:
                    expect(f"the answer to {line!r}", found, answer + "\n")
                expect(f"the plans after {line!r}", control.listed(), kept)
            control.send(b"\xff\xfe\n")
            expect("bytes that are no text", control.next()[:7], "error: ")
            expect("the plans at the end", control.listed(), kept)
            expect_well(started)

    def test_line_that_is_too_long(self):
        """It gets an error, and the connection is closed. The next one is served."""
        with controlled(self.folder) as started, Clients(self.folder) as clients:
            with Control(self.folder) as control:
                expect("the longest line", control.ask("clear".ljust(MOST_LINE)), "ok\n")
                expect("a line after it", control.ask("clear"), "ok\n")
            for text in (b"x" * 200 + b"\n", b"x" * 129, b"list" + b" " * 4096 + b"\n", b"x" * 100_000):
                with Control(self.folder) as control:
                    with contextlib.suppress(BrokenPipeError, ConnectionResetError):
                        control.send(text)
                    expect(
                        f"the answer to {len(text)} bytes", control.next(), "error: the line has more than 128 bytes\n"
                    )
                    expect("what follows", control.next(), "")
                clients.expect("a version -> version 1 0 0")
                with Control(self.folder) as control:
                    expect("the plans", control.listed(), [])
            expect_well(started)

    def test_lines_in_pieces_and_at_once(self):
        """Lines are answered in order, however they arrive."""
        text = b"fail create_dumb:2=memory\nnonsense\nlist\nclear\nlist\n"
        with controlled(self.folder) as started:
            for size in (1, 7, len(text)):
                with Control(self.folder) as control:
                    for place in range(0, len(text), size):
                        control.send(text[place : place + size])
                    control.socket.shutdown(socket.SHUT_WR)
                    answers = list(iter(control.next, ""))
                answers[1] = answers[1][:7]
                wanted = ["ok\n", "error: ", "fail create_dumb:2=memory\n", "ok\n", "ok\n", "ok\n"]
                expect(f"the answers to pieces of {size} bytes", answers, wanted)
            expect_well(started)

    def test_line_without_an_end_is_no_line(self):
        with controlled(self.folder) as started, Clients(self.folder) as clients:
            with Control(self.folder) as control:
                control.send(b"fail create_dumb=memory")
            with Control(self.folder) as control:
                expect("the plans", control.listed(), [])
            clients.expect("a create_dumb 64 64 32 -> dumb 1 256 16384")
            expect_well(started)

    def test_one_control_connection_at_a_time(self):
        """The next waits for its turn."""
        with controlled(self.folder) as started, Control(self.folder) as first:
            expect("the first", first.ask("clear"), "ok\n")
            with Control(self.folder) as second:
                second.send(b"fail create_dumb:2=memory\n")
                second.socket.settimeout(0.3)
                try:
                    found = second.socket.recv(100)
                except socket.timeout:
                    found = b"nothing yet"
                expect("the second", found, b"nothing yet")
                expect("the first again", first.listed(), [])
                first.__exit__()
                second.socket.settimeout(SECONDS)
                expect("the second then", second.socket.recv(100), b"ok\n")
            expect_well(started)

    def test_control_clients_that_stop_nobody(self):
        """Some send nothing, half a line, or lines whose answers they don't take. The server ends at once, too."""
        flood = 20_000 * b"list\n"
        for text in (b"", b"fail create_dumb", flood):
            with controlled(self.folder) as started, Clients(self.folder) as clients, Control(self.folder) as control:
                expect("a plan", control.ask("break 99:2"), "ok\n")
                control.socket.setblocking(False)
                # the server may close the connection after a line that is too long
                with contextlib.suppress(BlockingIOError, ConnectionError):
                    for _ in range(20):
                        control.socket.send(text)
                with contextlib.ExitStack() as waiting:
                    for _ in range(5):
                        waiting.enter_context(contextlib.closing(connect_raw(self.folder / "control")))
                    for _ in range(100):
                        clients.expect("a version -> version 1 0 0")
                    connect(self.folder / "card").close()
                    _, seconds = timed(lambda: expect_well(started))
                expect(f"whether the server ends at once after {text[:20]!r}", seconds < PROMPT, True)
            expect_no_sockets(self.folder)

    def test_server_of_counted_connections_ends(self):
        """It ends by itself, though a control client is connected, and removes the socket."""
        with server(self.folder, 1, 0, 0, more=["--control", self.folder / "control"]) as started:
            with Control(self.folder) as control, contextlib.closing(connect(self.folder / "card")) as client:
                expect("a plan", control.ask("fail create_dumb=memory"), "ok\n")
                expect("an answer", client.ask("create_dumb 64 64 32"), NO_MEMORY)
                client.close()
                expect_told(end_of(started), 0, [], "device 0 0 0 2\n")
        expect_no_sockets(self.folder)

    # command lines

    def test_command_lines_that_are_refused(self):
        for words in WRONG_WORDS:
            ran = run_program("serve", *path_words(self.folder), "--until-ended", *words, cwd=self.folder)
            expect(f"status and output with {words}", (ran.returncode, ran.stdout), (3, ""))
            expect("the fault", ran.stderr.splitlines()[-1], "fault: command line")
            expect_no_sockets(self.folder)

    def test_control_path_that_is_there(self):
        """It is left alone, and the other sockets are removed."""
        path = self.folder / "control"
        path.write_text("kept")
        ran = run_program("serve", *path_words(self.folder), "--until-ended", "--control", str(path))
        expect("status and output", (ran.returncode, ran.stdout), (1, ""))
        expect("the fault", ran.stderr.splitlines()[-1], "fault: listen control")
        expect("the files", [(file.name, file.read_text()) for file in self.folder.iterdir()], [("control", "kept")])


if __name__ == "__main__":
    sys.exit(run_tests())
