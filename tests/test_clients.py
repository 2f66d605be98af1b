#!/usr/bin/env python3
"""Tests of the clients.

What it tests: each call and either hello by the Python (threads and asyncio), C and Rust clients; that each opens
with universal planes off; malformed, truncated and late answers; what is pickled.

Each test has its own folder. The last line is `N passed, M failed`; a client whose compiler isn't there is
skipped with the reason. Standard library only.
"""
import asyncio
import contextlib
import pathlib
import pickle
import shutil
import socket
import sys
import threading
from typing import List, NamedTuple, Tuple

sys.dont_write_bytecode = True
from support import (  # noqa: E402
    BUILT,
    CLASSES,
    CLIENTS,
    COMPILERS,
    SECONDS,
    FolderCase,
    compile_client,
    connect,
    end_of,
    expect,
    expect_end,
    expect_told,
    opened_by,
    retry,
    run,
    run_tests,
    server,
    wait_until_it_listens,
)

import zirkoshe  # noqa: E402
from zirkoshe import AsyncClient, Client, ClientCap, Refusal  # noqa: E402
from zirkoshe.audit import audit_by  # noqa: E402
from zirkoshe.protocol import CALLS, words  # noqa: E402

from hostile import MALFORMED, OPENED, answering, crowded, frame  # noqa: E402

TOOL = CLIENTS / "python/drm-client"
EMPTY_PATH = "the socket's path is empty: is DRM_SERVER_CARD set?"


class Session(NamedTuple):
    """What clients ask and are answered, how many connections each socket accepts, and what the server tells and leaves."""

    text: str
    counts: Tuple[int, int, int]
    notes: List[str]
    leaves: str

    def steps(self):
        """Who asks, what, and the answer, of each line."""
        for line in self.text.splitlines():
            asked, answer = line.split(" -> ")
            who, *call = asked.split()
            yield who, call, answer


# Over card, render, root and a lease: each call is made once at least. 49 steps, and the closings of four clients.
SESSION = Session(
    """owner open card -> client 1
owner version -> version 1 0 0
owner get_cap 5 -> number 3
owner set_client_cap 2 1 -> done
owner create_dumb 64 64 32 -> dumb 1 256 16384
owner buf_create 5000 -> buffer 2 8192
owner list_handles 0 -> list 1,2
owner gem_close 2 -> done
owner addfb 64 64 256 32 1 -> number 9
owner setcrtc 1 9 7 -> done
owner setplane 3 1 9 -> done
owner getcrtc 1 -> number 9
owner getplane 3 -> plane 9 1
owner getfb 9 -> framebuffer 64 64 256 32 2
owner destroy_dumb 2 -> done
owner getresources -> crtcs 1,2 connectors 7,8 encoders 5,6 framebuffers 9
owner getplaneresources -> list 3,4
owner getencoder 6 -> number 2
owner getconnector 7 -> number 5
owner gem_flink 1 -> number 1
owner prime_export 1 -> number 1
render open render -> client 22
render prime_import 1 -> buffer 1 16384
render stamp_write 1 77 -> done
owner stamp_read 1 -> number 77
render create_dumb 64 64 32 -> denied 14 RenderAllow 13
root open root -> client 27
root get_magic -> number 1
owner auth_magic 1 -> done
owner auth_magic 1 -> denied 25 NoMagic 22
root gem_open 1 -> buffer 1 16384
root set_master -> denied 27 MasterBusy 16
owner create_lease 2 4 8 -> lease 1 1
lessee open card 1 -> client 34
late open card 1 -> denied 42 NoLeaseToken 2
lessee getresources -> crtcs 2 connectors 8 encoders 5,6 framebuffers -
lessee setcrtc 1 9 7 -> denied 30 NoModeObject 2
lessee get_lease -> list 2,4,8
owner create_lease 2 3 8 -> denied 34 LeasedOut 16
owner list_lessees -> list 1
root audit 7 0 -> rows 3 | 33 2 0 0 | 33 4 0 0 | 33 8 0 0
owner audit 7 0 -> denied 11 RootOnly 13
owner revoke_lease 1 -> done
lessee get_lease -> list -
owner token_close 1 -> done
render prime_import 1 -> denied 24 NoToken 2
owner rmfb 9 -> done
owner drop_master -> done
owner set_master -> done
""",
    (3, 1, 1),
    ["WARN card, no client: the opening was denied: 42 NoLeaseToken"],
    "device 0 1 1 53\n",
)

# A client of each hello, who each change what they see, and a lease of who has universal planes off.
PLANES = Session(
    """old open card -> client 1
new open2 card -> client 2
old getplaneresources -> list 3,4
old getplane 3 -> plane 0 1
new getplaneresources -> list 4
new getplane 3 -> denied 30 NoModeObject 2
new set_client_cap 2 1 -> done
new getplaneresources -> list 3,4
new getplane 3 -> plane 0 1
old set_client_cap 2 0 -> done
old getplaneresources -> list 4
old getplane 3 -> denied 30 NoModeObject 2
old create_lease 1 7 -> lease 1 1
lessee open2 card 1 -> client 14
lessee get_lease -> list 1,3,7
lessee getplaneresources -> list -
lessee getplane 3 -> denied 30 NoModeObject 2
lessee set_client_cap 2 1 -> done
lessee getplaneresources -> list 3
lessee getplane 3 -> plane 0 1
""",
    (3, 0, 0),
    [],
    "device 0 0 1 23\n",
)

SOURCES = {"c": "session.c", "rust": "session.rs"}


def built(language):
    """The program of the session in C or Rust, which is built once."""
    program = pathlib.Path(BUILT.name, language)
    return program if program.exists() else compile_client(language, SOURCES[language], program.parent)


def answer_to(clients, folder, who, call):
    """What the Python client answers to one line of a session."""
    word, *fields = call
    try:
        if word in ("open", "open2"):
            version = 2 if word == "open2" else 1
            clients[who] = connect(folder / fields[0], *map(int, fields[1:]), version=version)
            return opened_by(clients[who])
        return words(getattr(clients[who], word)(*map(int, fields)))
    except Refusal as refusal:
        return refusal.words


def expect_python_session(folder, session):
    clients = {}
    with server(folder, *session.counts) as started:
        for who, call, answer in session.steps():
            expect(" ".join([who, *call]), answer_to(clients, folder, who, call), answer)
        for client in clients.values():
            client.close()
        expect_told(end_of(started), 0, session.notes, session.leaves)


def expect_session(folder, program, session, names):
    """Lets a program make its session over these sockets."""
    with server(folder, *session.counts) as started:
        retry((folder / "root").stat)  # the last socket that the server makes
        ran = run(program, *(folder / name for name in names))
        expect_end(ran, 0, "", "".join(answer + "\n" for _, _, answer in session.steps()))
        expect_told(end_of(started), 0, session.notes, session.leaves)


def raised(action):
    """The exception that an action raises, and its text."""
    try:
        action()
    except Exception as error:
        return type(error).__name__, str(error)
    return "nothing", ""


def expect_planes_of(client, planes):
    expect("the planes at first", client.getplaneresources(), planes)
    client.set_client_cap(ClientCap.UNIVERSAL_PLANES, 1)
    expect("all planes", client.getplaneresources(), (3, 4))
    client.close()


# asyncio


async def answered(client, call):
    """What an asyncio client answers to one line of a session."""
    word, *fields = call
    try:
        return words(await getattr(client, word)(*map(int, fields)))
    except Refusal as refusal:
        return refusal.words


async def play(folder, session):
    """Makes a session by asyncio clients, and compares the answers."""
    clients = {}
    for who, call, answer in session.steps():
        if call[0] in ("open", "open2"):
            lease = int(call[2]) if len(call) > 2 else None
            clients[who] = AsyncClient(folder / call[1], lease, SECONDS, 2 if call[0] == "open2" else 1)
            try:
                found = words((await clients[who].open()).opened)
            except Refusal as refusal:
                found = refusal.words
        else:
            found = await answered(clients[who], call)
        expect(" ".join([who, *call]), found, answer)
    for client in clients.values():
        await client.close()


async def ask_together(path):
    """Two tasks share a client, and each gets its own answers."""
    async with AsyncClient(path) as client:

        async def ask(encoder):
            return [await client.getencoder(encoder) for _ in range(100)]

        found = await asyncio.gather(ask(5), ask(6))
        expect("the answers", found, [[3] * 100, [2] * 100])
        expect("an open client", repr(client), f"<AsyncClient of {path}, open as 1>")
        try:
            await client.open()
        except ValueError as error:
            expect("a second opening", str(error), "the client is open")
    expect("a closed client", repr(client), f"<AsyncClient of {path}, closed>")
    try:
        await client.version()
    except ConnectionError as error:
        expect("a call of it", str(error), "the connection is closed")


async def wait_for_a_silent_server(path):
    """A call of a server that doesn't answer ends by its time, by its task's end, and by another task."""
    client = await AsyncClient(path, timeout=SECONDS).open()
    client.timeout = 0.3
    try:
        await client.version()
    except TimeoutError as error:
        expect("no time left", str(error), "the server didn't answer within 0.3 seconds")
    expect("the connection then", client.socket, None)
    client = await AsyncClient(path, timeout=SECONDS).open()
    asked = asyncio.ensure_future(client.version())
    await asyncio.sleep(0.1)
    asked.cancel()
    expect(
        "a cancelled call",
        [type(end) for end in await asyncio.gather(asked, return_exceptions=True)],
        [asyncio.CancelledError],
    )
    expect("the connection then", client.socket, None)
    client = await AsyncClient(path, timeout=SECONDS).open()
    asked = asyncio.ensure_future(client.version())
    await asyncio.sleep(0.1)
    client.abandon()
    expect(
        "an abandoned call",
        [type(end) for end in await asyncio.gather(asked, return_exceptions=True)],
        [ConnectionError],
    )


def expect_errors(folder, program, malformed, late, gone, absent):
    """Compares what a client's program prints of servers that don't answer as they should."""

    def said(name, timeout):
        ran = run(program, folder / name, timeout)
        expect(f"status with {name}", ran.returncode, 1)
        return ran.stdout.strip()

    for place, (what, text) in enumerate(MALFORMED.items()):
        with answering(folder / f"malformed{place}", text):
            expect(what, said(f"malformed{place}", 1000 * SECONDS) in malformed, True)
    with answering(folder / "gone"):
        expect("a server that has gone", said("gone", 1000 * SECONDS) in gone, True)
    with answering(folder / "silent", drips=b""):
        expect("a silent server", said("silent", 500) in late, True)
    with answering(folder / "slow", (1024).to_bytes(4, "little"), drips=b"\0"):
        expect("a slow server", said("slow", 500) in late, True)
    with crowded(folder / "crowded"):
        expect("a crowded listener", said("crowded", 500) in late, True)
    expect("no server", said("absent", 500), absent)


# the command line tool


# waiting for the end of another client


def expect_waits(folder, wait):
    """Who waits for an open client is told that it is open once the time is over, and for a closed one that it is closed."""
    with server(folder, 20, 0, 2):
        others = [connect(folder / "card") for _ in range(20)]
        numbers = [other.opened.client for other in others]
        # each question has as long as the whole wait
        expect("an open client", wait(folder / "root", numbers[17], 3000), "open")
        others[17].abandon()
        others[18].close()
        expect("closed clients", wait(folder / "root", numbers[17], 1000 * SECONDS), "closed")
        for place, other in enumerate(others):
            if place != 17:
                other.close()


def expect_program_waits(folder, language):
    program = compile_client(language, f"closed.{'c' if language == 'c' else 'rs'}", folder)
    (folder / "sockets").mkdir()

    def wait(path, number, milliseconds):
        ran = run(program, path, number, milliseconds)
        expect("error output and status", (ran.stderr, ran.returncode), ("", 0))
        return ran.stdout.rstrip("\n")

    expect_waits(folder / "sockets", wait)


class ClientsTests(FolderCase):
    """Tests of the clients."""

    def test_python_sessions(self):
        folder = self.folder
        for session in (SESSION, PLANES):
            expect_python_session(folder, session)
        asked = {call[0] for _, call, _ in SESSION.steps()} - {"open"}
        expect("calls that the session doesn't make", set(CALLS) - asked, set())

    def test_c_sessions(self):
        folder = self.folder
        expect_session(folder, built("c"), SESSION, CLASSES)
        expect_session(folder, built("c"), PLANES, ["card"])

    def test_rust_sessions(self):
        folder = self.folder
        expect_session(folder, built("rust"), SESSION, CLASSES)
        expect_session(folder, built("rust"), PLANES, ["card"])

    def test_python_answers_and_refusals_have_types(self):
        folder = self.folder
        with server(folder, 1, 0, 0) as started:
            with connect(folder / "card") as client:
                expect("an opening", client.opened, zirkoshe.Opened(client=1))
                expect("a buffer", client.create_dumb(64, 64, 32), zirkoshe.Dumb(handle=1, pitch=256, size=16384))
                expect("resources", client.getresources(), zirkoshe.Resources((1, 2), (7, 8), (5, 6), ()))
                expect("done", client.gem_close(1), zirkoshe.Done())
                try:
                    client.create_lease(2, 8)
                except zirkoshe.Denied as denial:
                    expect("a denial", (denial.rule, denial.name, denial.errno), (33, "LeaseShape", 22))
                expect("too many ids", client.ask("create_lease " + 33 * "1 "), "denied 2 Layout 22")
                expect("any frame", raised(lambda: client.raw(0x4242))[1], "denied 1 Unknown 22 (EINVAL)")
                expect("a number that is none", raised(lambda: client.gem_close(-1))[0], "ValueError")
                expect("a number out of range", raised(lambda: client.gem_close(2**32))[0], "ValueError")
                expect("more than a frame takes", raised(lambda: client.create_lease(*range(255)))[0], "ValueError")
                client.timeout = 0
                expect("no time", raised(client.version)[0], "ValueError")
            expect("a closed client", raised(client.version), ("ConnectionError", "the connection is closed"))
            expect_end(end_of(started), 0, "", "device 0 0 0 8\n")

    def test_python_refusals_can_be_pickled(self):
        """A refusal in a process of a pool reaches the one that waits for it."""
        for refusal in (zirkoshe.Denied(30), zirkoshe.Apart(51)):
            read = pickle.loads(pickle.dumps(refusal))
            expect("a refusal", (type(read), str(read), read.number), (type(refusal), str(refusal), refusal.number))
        expect("a rule", zirkoshe.Denied(30).rule is zirkoshe.Rule.NO_MODE_OBJECT, True)
        expect("a fault", zirkoshe.Apart(51).fault is zirkoshe.ApartNumber.NO_MEMORY, True)
        expect("its words", zirkoshe.Denied(30).words, "denied 30 NoModeObject 2")
        expect("its text", str(zirkoshe.Denied(30)), "denied 30 NoModeObject 2 (ENOENT)")

    def test_python_arguments_and_values(self):
        """Values are numbers and tuples, arguments may be lists, and what is wrong with an argument is said."""
        folder = self.folder
        with server(folder, 1, 0, 0) as started:
            with connect(folder / "card") as client:
                expect("an open client", repr(client), f"<Client 1 of {folder / 'card'}, open>")
                expect("that it was done", bool(client.set_master()), True)
                expect("a lease of a list", client.create_lease([2, 4, 8]), zirkoshe.Lease(1, 1))
                expect("a list within others", raised(lambda: client.create_lease([2], 4))[0], "ValueError")
                expect(
                    "another version",
                    raised(lambda: Client(folder / "card", version=7)),
                    ("ValueError", "the version of a hello must be 1 or 2, not 7"),
                )
                expect("a number", (client.getencoder(6), repr(client.getencoder(6))), (2, "2"))
                expect("a list", (client.list_lessees(), repr(client.list_lessees())), ((1,), "(1,)"))
                expect("the old names of both", (client.getencoder(6).value, client.list_lessees().ids), (2, (1,)))
            expect("a closed client", repr(client), f"<Client 1 of {folder / 'card'}, closed>")
            expect_end(end_of(started), 0, "", "device 0 0 1 10\n")

    def test_old_modules_of_the_python_client(self):
        """Each old name is that of its new module for one version."""
        folder = self.folder
        import drm_audit
        import drm_client
        import drm_page
        import drm_test_server
        from zirkoshe import audit, page
        from zirkoshe import server as servers

        expect("the client", (drm_client.Client, drm_client.CALLS, drm_client.Rule), (Client, CALLS, zirkoshe.Rule))
        expect(
            "the others",
            (drm_audit.read_audit, drm_page.Page, drm_test_server.Server),
            (audit.read_audit, page.Page, servers.Server),
        )
        with server(folder, 1, 0, 1):
            retry((folder / "root").stat)
            expect_end(
                run(CLIENTS / "python/drm_client.py", folder / "card", "get_cap 5"), 0, "", "client 1\nnumber 3\n"
            )
            expect("the audit", run(CLIENTS / "python/drm_audit.py", folder / "root").returncode, 0)

    def test_clients_open_as_those_of_a_kernel(self):
        """By default universal planes are off, in each language and for the command; version 1 is an option."""
        folder = self.folder
        with server(folder, 12, 0, 1):
            retry((folder / "root").stat)
            expect_planes_of(Client(folder / "card"), (4,))
            expect_planes_of(Client(folder / "card", version=1), (3, 4))
            expect_end(run(TOOL, folder / "card", "getplaneresources"), 0, "", "client 11\nlist 4\n")
            expect_end(run(TOOL, folder / "card", "--hello", "1", "getplaneresources"), 0, "", "client 14\nlist 3,4\n")
            for language, source in (("c", "opening.c"), ("rust", "opening.rs")):
                if shutil.which(COMPILERS[language][0]) is not None:
                    ran = run(compile_client(language, source, folder), "planes", folder / "card")
                    expect_end(ran, 0, "", "by default: 1 planes\nversion 1: 2 planes\nversion 2: 1 planes\n")
            with Client(folder / "root") as root:
                expect("the mode objects of an audit", list(audit_by(root).mode_objects), [1, 2, 3, 4, 7, 8])
                expect("the planes afterwards", root.getplaneresources(), (4,))

    def test_asyncio_sessions(self):
        folder = self.folder
        for session in (SESSION, PLANES):
            with server(folder, *session.counts) as started:
                retry((folder / "root").stat)
                asyncio.run(play(folder, session))
                expect_told(end_of(started), 0, session.notes, session.leaves)

    def test_asyncio_tasks_share_a_client(self):
        folder = self.folder
        with server(folder, 1, 0, 0) as started:
            wait_until_it_listens(folder / "card")
            asyncio.run(ask_together(folder / "card"))
            expect_end(end_of(started), 0, "", "device 0 0 0 202\n")

    def test_asyncio_waits_have_an_end(self):
        folder = self.folder
        with contextlib.ExitStack() as silent:
            listener = silent.enter_context(socket.socket(socket.AF_UNIX))
            listener.bind(str(folder / "silent"))
            listener.listen()
            kept = []

            def accept():
                with contextlib.suppress(OSError):
                    for _ in range(3):
                        connected, _ = listener.accept()
                        connected.sendall(OPENED)
                        kept.append(connected)

            accepting = threading.Thread(target=accept)
            accepting.start()
            try:
                asyncio.run(wait_for_a_silent_server(folder / "silent"))
            finally:
                accepting.join(SECONDS)
                for connected in kept:
                    connected.close()
        with crowded(folder / "crowded"):
            late = ("TimeoutError", "the server didn't answer within 0.5 seconds")
            expect(
                "a full queue", raised(lambda: asyncio.run(AsyncClient(folder / "crowded", timeout=0.5).open())), late
            )
        expect("an empty path", raised(lambda: asyncio.run(AsyncClient("").open())), ("ValueError", EMPTY_PATH))
        absent = raised(lambda: asyncio.run(AsyncClient(folder / "absent").open()))
        expect(
            "no server", absent, ("FileNotFoundError", f"[Errno 2] No such file or directory: '{folder / 'absent'}'")
        )

    def test_python_malformed_answers(self):
        folder = self.folder
        for what, text in MALFORMED.items():
            with answering(folder / "card", text):
                expect(what, raised(lambda: Client(folder / "card", timeout=SECONDS))[0], "ProtocolError")
            (folder / "card").unlink()

    def test_python_malformed_lists(self):
        folder = self.folder
        texts = {
            "a list of 65": frame(0x1007, (65).to_bytes(4, "little") + bytes(4 * 65)),
            "a list that is longer than its frame": frame(0x1007, b"\x40\0\0\0\1\0\0\0"),
            "17 rows": frame(0x100B, (17).to_bytes(4, "little") + bytes(17 * 32)),
            "half a row": frame(0x100B, (1).to_bytes(4, "little") + bytes(16)),
            "three lists of resources": frame(0x1006, bytes(12)),
        }
        for what, text in texts.items():
            for call in ("list_handles 0", "audit 1 0", "getresources"):
                with answering(folder / "card", OPENED, text):
                    client = Client(folder / "card", timeout=SECONDS)
                    expect(f"{what} to {call}", raised(lambda: client.ask(call))[0], "ProtocolError")
                    expect("the connection", client.socket, None)
                (folder / "card").unlink()

    def test_python_time_limits(self):
        folder = self.folder
        late = ("TimeoutError", "the server didn't answer within 0.5 seconds")
        with answering(folder / "silent", drips=b""):
            expect("an opening", raised(lambda: Client(folder / "silent", timeout=0.5)), late)
        with answering(folder / "slow", (1024).to_bytes(4, "little"), drips=b"\0"):
            expect("a slow answer", raised(lambda: Client(folder / "slow", timeout=0.5)), late)
        with answering(folder / "opened", OPENED, drips=b""):
            client = Client(folder / "opened", timeout=SECONDS)
            client.timeout = 0.5
            expect("a call", raised(client.version), late)
            expect("the connection", client.socket, None)
        with answering(folder / "held", OPENED, drips=b""):
            client = Client(folder / "held", timeout=SECONDS)
            client.timeout = 0.5
            expect("a closing", raised(client.close), late)
        with crowded(folder / "crowded"):
            expect("a connection", raised(lambda: Client(folder / "crowded", timeout=0.5)), late)

    def test_c_errors(self):
        folder = self.folder
        expect_errors(
            folder,
            built("c"),
            {"error Protocol error"},
            {"error Connection timed out"},
            {"error Connection reset by peer", "error Broken pipe"},
            "error No such file or directory",
        )

    def test_rust_errors(self):
        folder = self.folder
        failed = "the connection failed: "
        malformed = {
            "the connection ended inside an answer",
            "the answer has the number 0x4242, which is not the call's",
            "the answer has the number 0x1000, which is not the call's",
            "an answer is missing fields",
            "an answer has 1 bytes too many",
            *(f"an answer has the invalid length {length}" for length in (0, 1, 1025, 4294967295)),
            *(
                f"the answer has the unknown refusal {number} with errno {errno}"
                for number, errno in ((99, 22), (42, 22), (50, 28), (42, 2))
            ),
        }
        gone = (
            "the server closed the connection",
            "Connection reset by peer (os error 104)",
            "Broken pipe (os error 32)",
        )
        expect_errors(
            folder,
            built("rust"),
            malformed,
            {
                failed + "the server didn't answer in time",
                f"can't connect to {folder / 'crowded'}: the server didn't answer in time",
            },
            {failed + text for text in gone},
            f"can't connect to {folder / 'absent'}: No such file or directory (os error 2)",
        )

    def test_openings_that_fail(self):
        """What C and Rust programs are told of a path or a time limit that is none."""
        folder = self.folder
        ran = run(compile_client("c", "opening.c", folder), folder / "absent")
        expect_end(
            ran,
            0,
            "",
            "no path: Invalid argument\nan empty path: Invalid argument\nno server: No such file or directory\n"
            "a call of it: Transport endpoint is not connected\nits closing: opened\n",
        )
        ran = run(compile_client("rust", "opening.rs", folder), folder / "absent")
        expect_end(
            ran,
            0,
            "",
            f"no server: can't connect to {folder / 'absent'}: No such file or directory (os error 2)\n"
            "its source: Some(NotFound)\n"
            f"no time: can't connect to {folder / 'absent'}: the time limit is zero\n"
            f"an empty path: {EMPTY_PATH}\nno lease: Some(NotFound) Some(2)\n",
        )

    def test_tool_asks_calls(self):
        folder = self.folder
        with server(folder, 2, 0, 0) as started:
            retry((folder / "root").stat)
            ran = run(TOOL, folder / "card", "version", "create_dumb 64 64 32", "gem_close 2", "raw 65535")
            expect_end(
                ran,
                0,
                "",
                "client 1\nversion 1 0 0\ndumb 1 256 16384\ndenied 22 NoHandleToClose 22\ndenied 1 Unknown 22\n",
            )
            ran = run(TOOL, folder / "card", stdin=None, input="# a comment\n\nget_cap 1\n")
            expect_end(ran, 0, "", "client 7\nnumber 1\n")
            expect_end(end_of(started), 0, "", "device 0 0 0 9\n")

    def test_tool_takes_words_without_quotes(self):
        folder = self.folder
        with server(folder, 1, 0, 0) as started:
            retry((folder / "root").stat)
            ran = run(TOOL, folder / "card", "create_dumb", "64", "64", "32", "version", "gem_close 1", "get_cap", "1")
            expect_end(ran, 0, "", "client 1\ndumb 1 256 16384\nversion 1 0 0\ndone\nnumber 1\n")
            expect("status", end_of(started).returncode, 0)

    def test_tool_fails_where_the_opening_is_refused(self):
        folder = self.folder
        with server(folder, 1, 1, 0) as started:
            retry((folder / "root").stat)
            ran = run(TOOL, folder / "card", "--lease", "7", "version")
            expect_end(ran, 1, "drm-client: the server refused the opening: denied 42 NoLeaseToken 2 (ENOENT)\n", "")
            ran = run(TOOL, folder / "render", "--lease", "7", "version")
            expect_end(ran, 1, "drm-client: the server closed the connection\n", "")
            notes = [
                "WARN card, no client: the opening was denied: 42 NoLeaseToken",
                "WARN render, no client: the first frame is not a hello that this listener allows",
            ]
            expect_told(end_of(started), 0, notes, "device 0 0 0 1\n")

    def test_tool_fails_clearly(self):
        folder = self.folder
        ran = run(TOOL, folder / "absent", "version")
        expect_end(ran, 1, f"drm-client: can't open {folder / 'absent'}: No such file or directory\n", "")
        expect_end(run(TOOL, "", "version"), 1, f"drm-client: {EMPTY_PATH}\n", "")
        with socket.socket(socket.AF_UNIX) as unheard:
            unheard.bind(str(folder / "unheard"))
            ran = run(TOOL, folder / "unheard", "version")
        told = f"drm-client: can't open {folder / 'unheard'}: Connection refused; no server listens there\n"
        expect_end(ran, 1, told, "")
        for options, reason in (
            (["--lease", "x"], "argument --lease: 'x' is not a number"),
            (["--timeout", "0"], "argument --timeout: '0' is not a time limit above 0"),
            (["--timeout", "soon"], "argument --timeout: 'soon' is not a time limit above 0"),
        ):
            ran = run(TOOL, folder / "absent", *options)
            expect(
                "status and reason", (ran.returncode, ran.stderr.splitlines()[-1]), (2, f"drm-client: error: {reason}")
            )
        with answering(folder / "silent", drips=b""):
            ran = run(TOOL, folder / "silent", "--timeout", "0.5")
        expect_end(ran, 1, "drm-client: the server didn't answer within 0.5 seconds\n", "")
        with server(folder, 4, 0, 0):
            retry((folder / "root").stat)
            wrong = {
                "fly": "'fly' is not a call",
                "create_dumb": "the call takes 3 numbers, not 0",
                "gem_close -1": "'-1' is not a number",
                "raw x": "'x' is not a number",
            }
            for call, reason in wrong.items():
                ran = run(TOOL, folder / "card", call)
                expect("error output", ran.stderr, f"drm-client: can't encode the call {call}: {reason}\n")
                expect("status", ran.returncode, 1)

    def test_python_client_waits_for_the_end_of_another(self):
        folder = self.folder

        def wait(path, number, milliseconds):
            with connect(path) as root:
                root.timeout = milliseconds / 1000
                try:
                    root.wait_until_closed(number)
                    return "closed"
                except TimeoutError:
                    return "open"
                finally:
                    root.timeout = SECONDS
                    expect("the version then", root.version(), zirkoshe.Version(1, 0, 0))

        expect_waits(folder, wait)

    def test_c_client_waits_for_the_end_of_another(self):
        folder = self.folder
        expect_program_waits(folder, "c")

    def test_rust_client_waits_for_the_end_of_another(self):
        folder = self.folder
        expect_program_waits(folder, "rust")


if __name__ == "__main__":
    sys.exit(run_tests())
