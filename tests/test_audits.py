#!/usr/bin/env python3
"""Tests of what shows a server's rows: drm-audit, and tools/watch.

What it tests: audits as tables, JSON and graphs without overlaps; `tools/watch` and its page.

Each test has its own folder. The last line is `N passed, M failed`. Standard library only.
"""
import contextlib
import json
import re
import shlex
import shutil
import socket
import subprocess
import sys
import time
import urllib.error
import urllib.request

sys.dont_write_bytecode = True
from support import (  # noqa: E402
    CLIENTS,
    REPOSITORY,
    SECONDS,
    FolderCase,
    Skipped,
    connect,
    end_of,
    ended_in_time,
    expect,
    expect_end,
    retry,
    run,
    run_tests,
    server,
    wait_until,
    wait_until_it_listens,
    want_program,
)

from zirkoshe.graph import LOOKS  # noqa: E402

from hostile import answering  # noqa: E402
from pictures import expect_picture  # noqa: E402

AUDIT = CLIENTS / "python/drm-audit"
WATCH = REPOSITORY / "tools/watch"
INTERVAL = "0.02"


# the picture of the audit

DEVICE = {
    "auditor": 14,
    "clients": [
        {
            "client": 1,
            "flags": ["authenticated", "once a master", "master"],
            "master": 1,
            "magic": 0,
            "may_set": [1, 2, 3, 4],
        },
        {"client": 8, "flags": ["authenticated", "master"], "master": 7, "magic": 0, "may_set": [2, 4]},
        {"client": 12, "flags": ["render"], "master": 0, "magic": 0, "may_set": []},
        {"client": 14, "flags": ["root", "authenticated"], "master": 1, "magic": 0, "may_set": []},
    ],
    "masters": [
        {"master": 1, "lessor": 0, "lessee_id": 0, "token": 0},
        {"master": 7, "lessor": 1, "lessee_id": 1, "token": 0},
    ],
    "objects": [
        {"object": 2, "size": 16384, "handles": 2, "references": 2},
        {"object": 9, "size": 16384, "handles": 1, "references": 1},
    ],
    "names": [{"name": 1, "object": 2}],
    "tokens": [{"token": 1, "exporter": 1, "object": 2}],
    "holds": [
        {"client": 1, "handle": 1, "object": 2, "place": 6},
        {"client": 8, "handle": 1, "object": 9, "place": 0},
        {"client": 12, "handle": 1, "object": 2, "place": 13},
    ],
    "grants": [{"master": 7, "mode_object": number} for number in (2, 4, 8)],
    "framebuffers": [{"framebuffer": 9, "client": 1, "object": 2}, {"framebuffer": 10, "client": 8, "object": 9}],
    "shown": [{"mode_object": 1, "framebuffer": 9}, {"mode_object": 2, "framebuffer": 10}],
    # the kinds before it were a step each
    "device": {"master": 1, "last_token": 1, "last_lease_token": 1, "journal": 23},
    "mode_objects": [
        {"id": number, "kind": kind}
        for number, kind in ((1, "CRTC"), (2, "CRTC"), (3, "plane"), (4, "plane"), (7, "connector"), (8, "connector"))
    ],
    # by the test topology: encoder 5 has both CRTCs, encoder 6 has CRTC 2
    "routes": [{"connector": 7, "crtcs": [1, 2]}, {"connector": 8, "crtcs": [2]}],
}
ARROWS = [
    ("master 7", "master 1"),
    ("client 1", "master 1"),
    ("client 8", "master 7"),
    ("client 1", "buffer 2"),
    ("client 8", "buffer 9"),
    ("client 12", "buffer 2"),
    ("framebuffer 9", "buffer 2"),
    ("framebuffer 10", "buffer 9"),
    ("CRTC 1", "framebuffer 9"),
    ("CRTC 2", "framebuffer 10"),
    ("connector 7", "CRTC 1"),
    ("connector 7", "CRTC 2"),
    ("connector 8", "CRTC 2"),
]
OF_THE_AUDITOR = ("client 14", "master 1")
COLUMNS = {
    "Masters": ["master 1", "master 7"],
    "Clients": ["client 1", "client 8", "client 12"],
    "Buffers": ["buffer 2", "buffer 9"],
    "Framebuffers": ["framebuffer 9", "framebuffer 10"],
    "CRTCs and planes": ["CRTC 1", "CRTC 2", "plane 3", "plane 4"],
    "Connectors": ["connector 7", "connector 8"],
}


def ask_all(client, *calls):
    for call in calls:
        answer = client.ask(call)
        expect(f"whether {call} is carried out", answer.split()[0] in ("denied", "apart"), False)


def fill(folder):
    """A session whose device is the one above."""
    owner = connect(folder / "card")
    ask_all(
        owner,
        "create_dumb 64 64 32",
        "addfb 64 64 256 32 1",
        "setcrtc 1 9 7",
        "gem_flink 1",
        "prime_export 1",
        "create_lease 2 4 8",
    )
    lessee = connect(folder / "card", 1)
    ask_all(lessee, "create_dumb 64 64 32", "addfb 64 64 256 32 1", "setcrtc 2 10 8")
    render = connect(folder / "render")
    ask_all(render, "prime_import 1")
    return owner, lessee, render


def audited(folder, form):
    """What the tool prints in this form, of its own device."""
    with server(folder, 2, 1, 1):
        clients = fill(folder)
        ran = run(AUDIT, folder / "root", *form)
        for client in clients:
            client.close()
    expect("error output and status", (ran.stderr, ran.returncode), ("", 0))
    return ran.stdout


def arrows_of(graph):
    """The arrows of a graph, without the chains that no picture shows."""
    lines = [line for line in graph.splitlines() if "style=invis" not in line]
    return sorted(match.groups() for match in map(re.compile(r' *"([^"]+)" -> "([^"]+)"').match, lines) if match)


def places_by_graphviz(graph):
    """The middle of each box by its title, as Graphviz places it."""
    ran = run("dot", "-Tplain", stdin=None, input=graph)
    expect("status and what it says", (ran.returncode, ran.stderr), (0, ""))
    rows = [shlex.split(line) for line in ran.stdout.replace("\\\n", "").splitlines()]
    return {row[1]: (float(row[2]), float(row[3])) for row in rows if row[0] == "node"}


# what shows it again at each change


@contextlib.contextmanager
def watching(folder, *words_of):
    """A watch over the root socket, which is ended where the test didn't let it end."""
    wait_until_it_listens(folder / "root")
    with subprocess.Popen(
        [WATCH, folder / "root", "--interval", INTERVAL, *words_of],
        stdin=subprocess.DEVNULL,
        stdout=subprocess.PIPE,
        stderr=subprocess.PIPE,
        text=True,
    ) as started, ended_in_time(started):
        yield started


def seen_in(path, text, count=1):
    """Waits until a file has this text so often."""
    wait_until(f"whether {text} comes", lambda: path.exists() and path.read_text().count(text) == count)


def read_json(lines):
    """What was printed next, up to the line that ends it."""
    text = ""
    for line in lines:
        text += line
        if line == "}\n":
            return json.loads(text)
    raise AssertionError("nothing more is printed")


def answer_of(url, path="", **headers):
    """The status, the headers and the body that a page's address gives."""
    try:
        with urllib.request.urlopen(urllib.request.Request(url + path, headers=headers), timeout=SECONDS) as answer:
            return answer.status, answer.headers, answer.read().decode()
    except urllib.error.HTTPError as error:
        return error.code, error.headers, ""


def next_live(lines):
    """Returns what a page receives next."""
    for line in lines:
        if line.startswith(b"data: "):
            return json.loads(line[len(b"data: ") :])
    raise AssertionError("nothing more is received")


def free_port():
    """A port of this machine that is free now."""
    with socket.socket() as probe:
        probe.bind(("127.0.0.1", 0))
        return probe.getsockname()[1]


class AuditsTests(FolderCase):
    """Tests of what shows a server's rows: drm-audit, and tools/watch."""

    def test_audit_as_json(self):
        folder = self.folder
        found = json.loads(audited(folder, ["--json"]))
        for name, value in DEVICE.items():
            expect(name, found[name], value)
        expect("names", list(found), list(DEVICE))

    def test_audit_as_tables(self):
        folder = self.folder
        found = [line.split() for line in audited(folder, []).splitlines()]
        for row in (
            ["8", "7", "-", "2,", "4", "authenticated,", "master"],
            ["7", "1", "1", "-"],
            ["2", "16384", "2", "2"],
            ["12", "1", "2", "13"],
            ["10", "8", "9"],
            ["1", "1", "1", "23"],
            ["3", "plane"],
            ["7", "1,", "2"],
        ):
            expect(f"row {row}", row in found, True)

    def test_audit_as_a_graph(self):
        folder = self.folder
        found = audited(folder, ["--dot"])
        expect("the first line", found.splitlines()[0], "digraph audit {")
        expect("arrows", arrows_of(found), sorted(ARROWS))

    def test_graph_has_the_columns_and_colours_of_the_picture(self):
        want_program("dot")
        graph = audited(self.folder, ["--dot"])
        places = places_by_graphviz(graph)
        lefts = [[places[title][0] for title in (head, *titles)] for head, titles in COLUMNS.items()]
        expect("columns whose boxes are not in one", [column for column in lefts if len(set(column)) != 1], [])
        expect("the order of the columns", lefts, sorted(lefts))
        heights = [[places[title][1] for title in (head, *titles)] for head, titles in COLUMNS.items()]
        expect("the order in each", heights, [sorted(column, reverse=True) for column in heights])
        fills = dict(re.findall(r'"([^"]+)" \[label=.*fillcolor="(#[0-9a-f]{6})"', graph))
        for title, look in (("master 1", "master"), ("client 8", "client"), ("plane 3", "dark"), ("CRTC 1", "output")):
            expect(f"the colour of {title}", fills[title], LOOKS[look][0])
        expect("boxes with a colour", sorted(fills), sorted(sum(COLUMNS.values(), [])))

    def test_auditor_is_in_pictures_that_ask_for_it(self):
        graph = audited(self.folder, ["--dot", "--auditor"])
        expect("arrows", arrows_of(graph), sorted([*ARROWS, OF_THE_AUDITOR]))

    def test_auditor_of_an_empty_device(self):
        """Its client became the master, and a picture has neither of them."""
        with server(self.folder, 0, 0, 2):
            wait_until_it_listens(self.folder / "root")
            plain, whole = (run(AUDIT, self.folder / "root", "--dot", *more).stdout for more in ([], ["--auditor"]))
        boxes = re.compile(r'^    "((?:client|master) \d+)" \[', re.MULTILINE)
        expect("clients and masters", (boxes.findall(plain), len(boxes.findall(whole))), ([], 2))

    def test_audit_as_a_picture(self):
        folder = self.folder
        # two masters, three clients, two buffers, two framebuffers, four CRTCs and planes, and two connectors
        expect_picture(audited(folder, ["--svg"]), 15, len(ARROWS))

    def test_picture_of_many_rows(self):
        """More rows than a page has, of clients, buffers and handles; and a lessee without a lease."""
        folder = self.folder
        with server(folder, 20, 0, 1):
            clients = [connect(folder / "card") for _ in range(19)]
            for client in clients:
                ask_all(
                    client, "get_magic", "buf_create 4096", "buf_create 100000", "addfb 8 8 64 32 2", "prime_export 1"
                )
            ask_all(clients[0], "create_lease 1 3 7", "create_lease 2 4 8", "setplane 3 1 11", "setcrtc 1 9 7")
            lessee = connect(folder / "card", 1)
            ask_all(lessee, "buf_create 1", "prime_import 1", "prime_import 5")
            ask_all(clients[0], "revoke_lease 1")
            ran = run(AUDIT, folder / "root", "--svg")
            for client in [*clients, lessee]:
                client.close()
        expect("error output and status", (ran.stderr, ran.returncode), ("", 0))
        # 3 masters, 20 clients, 39 buffers, 19 framebuffers, 4 CRTCs and planes, 2 connectors; 2 lessees, 20 clients' masters,
        # 41 handles, 19 framebuffers, 2 that are shown, 3 routes
        expect_picture(ran.stdout, 3 + 20 + 39 + 19 + 4 + 2, 2 + 20 + 41 + 19 + 2 + 3)

    def test_audit_is_refused(self):
        folder = self.folder
        with server(folder, 1, 0, 0):
            retry((folder / "root").stat)
            ran = run(AUDIT, folder / "card")
            expect_end(ran, 1, "drm-audit: denied 11 RootOnly 13 (EACCES): use the root socket\n", "")
        ran = run(AUDIT, folder / "absent")
        expect_end(ran, 1, f"drm-audit: can't open {folder / 'absent'}: No such file or directory\n", "")
        for tool in (AUDIT, WATCH):
            ran = run(tool, "")
            told = f"{tool.name}: error: argument SOCKET: the socket's path is empty: is DRM_SERVER_ROOT set?"
            expect("an empty path", (ran.returncode, ran.stderr.splitlines()[-1]), (2, told))
        with answering(folder / "silent", drips=b""):
            ran = run(AUDIT, folder / "silent", "--timeout", "0.5")
        expect_end(ran, 1, "drm-audit: the server didn't answer within 0.5 seconds\n", "")

    def test_watch_shows_each_change(self):
        folder = self.folder
        shown = folder / "shown.svg"
        with server(folder, 1, 0, 1) as started, watching(folder, "--svg", "--auditor", "--into", shown) as watch:
            seen_in(shown, "client 1")
            owner = connect(folder / "card")
            # who watches was the first, and is no master all the same
            ask_all(owner, "set_master", "create_dumb 64 64 32", "addfb 64 64 256 32 1", "setcrtc 1 9 7")
            # two clients and their masters, a buffer, a framebuffer, CRTCs and planes, connectors; two clients' masters, a handle,
            # a framebuffer, what is shown, and three routes
            seen_in(shown, '<path class="arrow"', 5 + 3)
            expect_picture(shown.read_text(), 2 + 2 + 1 + 1 + 4 + 2, 5 + 3)
            owner.close()
            started.kill()
            expect_end(end_of(watch), 0, "", "")
        expect(
            "files left beside it", [path.name for path in folder.iterdir() if path.name.startswith("shown.svg.")], []
        )

    def test_watch_makes_one_step_in_an_interval(self):
        """As long as nothing changes it asks for the length of the journal alone, and shows nothing."""
        folder = self.folder
        begun = time.monotonic()
        with server(folder, 1, 0, 2), watching(folder, "--json") as watch:
            first = read_json(watch.stdout)
            expect("its client", [row["client"] for row in first["clients"]], [1])
            time.sleep(0.5)
            with connect(folder / "root") as other:
                found = read_json(watch.stdout)
                expect("the clients now", len(found["clients"]), 2)
                steps = other.audit(10, 0)[0].d
                most = (time.monotonic() - begun) / float(INTERVAL)
                # 31 own steps at first, then at most one in an interval, then those of what is new
                expect(f"whether {steps} steps are too many", steps < 31 + most + 20, True)

    def test_watch_is_refused(self):
        folder = self.folder
        with server(folder, 1, 0, 0):
            wait_until_it_listens(folder / "card")
            expect_end(
                run(WATCH, folder / "card"), 1, "watch: denied 11 RootOnly 13 (EACCES): use the root socket\n", ""
            )
        expect_end(
            run(WATCH, folder / "absent"), 1, f"watch: can't open {folder / 'absent'}: No such file or directory\n", ""
        )
        for words, reason in (
            (["--interval", "x"], "argument --interval: 'x' is not a number of seconds from 0.01 to 3600"),
            (["--interval", "0"], "argument --interval: '0' is not a number of seconds from 0.01 to 3600"),
            (["--page", "--port", "65536"], "argument --port: '65536' is not a port from 0 to 65535"),
            (["--port", "80"], "--port requires --page"),
        ):
            ran = run(WATCH, folder / "absent", *words)
            expect("status and reason", (ran.returncode, ran.stderr.splitlines()[-1]), (2, f"watch: error: {reason}"))

    def test_watch_shows_a_page(self):
        folder = self.folder
        with server(folder, 1, 0, 1) as started, watching(folder, "--page") as watch:
            url = watch.stdout.readline().rstrip("\n")
            expect(
                "whether it is on this machine alone", re.fullmatch(r"http://127\.0\.0\.1:\d+/", url) is not None, True
            )
            status, headers, body = answer_of(url)
            expect("status", status, 200)
            expect(
                "what it takes from elsewhere",
                re.findall(r"(?:src|href)=|https?://(?!www\.w3\.org/2000/svg)|@import", body),
                [],
            )
            expect("whether it says how to see steps", "<code>--journal FILE</code>" in body, True)
            expect("what it may take", headers["Content-Security-Policy"].split("; ")[0], "default-src 'none'")
            expect(
                "another path, and another name of it",
                [answer_of(url, "x")[0], answer_of(url, Host="elsewhere.example")[0]],
                [404, 403],
            )
            with urllib.request.urlopen(url + "live", timeout=SECONDS) as live:
                first = next_live(live)
                expect("the changes at first", (first["changes"], first["has_ended"]), ([], False))
                owner = connect(folder / "card")
                ask_all(owner, "set_master", "create_dumb 64 64 32", "addfb 64 64 256 32 1", "setcrtc 1 9 7")
                texts = []
                while "what CRTC 1 shows was added: framebuffer 9" not in texts:
                    told = next_live(live)
                    texts = [change["text"] for change in told["changes"]]
                expect("the handle", "handle 1 of client" in " ".join(texts), True)
                # without the client of the watch, and its master
                expect_picture(told["svg"], 1 + 1 + 1 + 1 + 4 + 2, 4 + 3)
                owner.close()
                while "framebuffer 9 was removed" not in texts:
                    texts = [change["text"] for change in next_live(live)["changes"]]
                started.kill()
                while not told["has_ended"]:
                    told = next_live(live)
            expect_end(end_of(watch), 0, "", "")

    def test_watch_page_has_a_port_of_its_own_option(self):
        """A socket behind --page is the socket, and a port without a page is an error of the command line."""
        folder = self.folder
        port = str(free_port())
        with server(folder, 0, 0, 1):
            wait_until_it_listens(folder / "root")
            with subprocess.Popen(
                [WATCH, "--page", folder / "root", "--port", port],
                stdin=subprocess.DEVNULL,
                stdout=subprocess.PIPE,
                stderr=subprocess.PIPE,
                text=True,
            ) as watch, ended_in_time(watch):
                expect("the address", watch.stdout.readline(), f"http://127.0.0.1:{port}/\n")
        for words_of in (["--port", port, "x"], ["--page", "--port", "65536", "x"]):
            ran = run(WATCH, *words_of)
            expect(f"the status of {words_of}", (ran.returncode, ran.stdout), (2, ""))

    def test_watch_page_in_a_browser(self):
        folder = self.folder
        browser = next(filter(None, map(shutil.which, ("chromium", "chromium-browser", "google-chrome"))), None)
        if browser is None:
            raise Skipped("there is no browser that runs without a screen")
        with server(folder, 1, 0, 1), watching(folder, "--page") as watch:
            url = watch.stdout.readline().rstrip("\n")
            with urllib.request.urlopen(url + "live", timeout=SECONDS) as live:
                # who watches is no master any more
                next_live(live)
            owner = connect(folder / "card")
            ask_all(owner, "set_master", "create_dumb 64 64 32", "addfb 64 64 256 32 1", "setcrtc 1 9 7")
            words_of = [
                browser,
                "--headless",
                "--no-sandbox",
                "--disable-gpu",
                f"--user-data-dir={folder / 'profile'}",
                "--timeout=4000",
                "--dump-dom",
                url,
            ]
            with subprocess.Popen(
                words_of, stdin=subprocess.DEVNULL, stdout=subprocess.PIPE, stderr=subprocess.DEVNULL, text=True
            ) as asked:
                try:
                    shown, _ = asked.communicate(timeout=4 * SECONDS)
                finally:
                    asked.kill()
            # the browser's own script put it there
            body = shown[: shown.find("<script")]
            expect("whether the picture is shown", "<svg" in body and "framebuffer 9" in body, True)
            expect("whether it is live", re.search(r'role="status">live, \d+ steps', body) is not None, True)
            owner.close()


if __name__ == "__main__":
    sys.exit(run_tests())
