#!/usr/bin/env python3
"""Tests of the live page of a journal's steps: what its server answers, and what a browser shows.

What it tests: the page of steps: what it answers and refuses, and in a browser its list, keys, filters, pictures
and explanations. 100,000 steps; roles and names; contrast; dark and narrow windows.

Each test has its own folder. The last line is `N passed, M failed`. Standard library only.
"""
import contextlib
import json
import os
import re
import socket
import struct
import subprocess
import sys
import time
import urllib.error
import urllib.parse
import urllib.request

sys.dont_write_bytecode = True
from support import (  # noqa: E402
    CLIENTS,
    REPOSITORY,
    SECONDS,
    FolderCase,
    connect,
    ended_in_time,
    expect,
    expect_end,
    lasting_server,
    run,
    run_program,
    run_tests,
    stopped,
    wait_until_it_listens,
)

from zirkoshe.graph import LOOKS  # noqa: E402

from browser import browsing, find_browser  # noqa: E402
from pictures import expect_picture  # noqa: E402

WATCH = REPOSITORY / "tools/watch"
PAGES = CLIENTS / "python/zirkoshe/pages"
LIMITS = "limits 64 65535 65535 65535 65535 64 64 100000\n"
SESSION = """open a card
a create_dumb 64 64 32
a addfb 64 64 256 32 1
a setcrtc 1 9 7
a create_lease 2 4 8
a create_lease 2 3 8
open b lease 1
b setcrtc 1 9 7
b setcrtc 2 9 8
a drop_master
b setcrtc 2 9 8
"""
# the browser's own, by which a test waits
LIST = "document.getElementById('rows')"
ROWS = "document.querySelectorAll('#rows .row')"
TEXT = "document.getElementById('{}').textContent"


def journal_of(folder, script=SESSION):
    """The file of the journal of a script."""
    path = folder / "session.journal"
    expect("status", run_program("run", "--journal", path, script=script).returncode, 0)
    return path


def append(path, text):
    with open(path, "a", encoding="utf-8") as file:
        file.write(text)


@contextlib.contextmanager
def watching(*words, **more):
    """The address of the page of a watch, which is ended at the end."""
    command = [WATCH, "--page", "--interval", "0.02", *words]
    environment = {**os.environ, **more}
    pipes = {"stdin": subprocess.DEVNULL, "stdout": subprocess.PIPE, "stderr": subprocess.PIPE}
    with subprocess.Popen(command, text=True, env=environment, **pipes) as watch, ended_in_time(watch):
        yield watch.stdout.readline().rstrip("\n")
        watch.kill()
        expect("what the watch says", watch.stderr.read(), "")


@contextlib.contextmanager
def showing(folder, path, *words, **more):
    """A browser with the page of a journal, once it shows a picture or says why it has none."""
    find_browser()
    with watching("--journal", path, *words, **more) as url, browsing(folder, url) as browser:
        browser.look(1280, 900)
        browser.wait("document.querySelector('#picture svg') !== null || !document.getElementById('problem').hidden")
        browser.value(f"{LIST}.focus()")
        yield browser
        # a request that was on its way when a journal was replaced is refused
        expect("what the console has", [text for text in browser.problems if "409 (Conflict)" not in text], [])


def status_of(url, path="", **headers):
    """The status of a request."""
    try:
        with urllib.request.urlopen(urllib.request.Request(url + path, headers=headers), timeout=SECONDS) as answer:
            return answer.status
    except urllib.error.HTTPError as error:
        return error.code


def asked(url, path, rows, **fields):
    """The answer to a request of the page."""
    query = urllib.parse.urlencode({"generation": 1, "rows": rows, **fields})
    with urllib.request.urlopen(f"{url}{path}?{query}", timeout=SECONDS) as answer:
        return json.load(answer)


def numbers_shown(browser):
    """The numbers of the steps that the list has, from the top on."""
    return browser.value(f"[...{ROWS}].map(row => row.querySelector('.number')?.textContent)")


def is_shown(browser, name):
    return browser.value(f"!document.getElementById('{name}').hidden")


def wait_for_step(browser, number):
    browser.wait(f"{TEXT.format('stephead')}.startsWith('Step {number} ')")


# colours


def colours_of(text):
    """The colours of a style sheet by their names, for a light and for a dark scheme."""
    light, dark = re.findall(r":root \{(.*?)\}", text, re.DOTALL)
    pairs = re.compile(r"--([a-z-]+): (#[0-9a-f]{6});")
    return dict(pairs.findall(light)), {**dict(pairs.findall(light)), **dict(pairs.findall(dark))}


def luminance(colour):
    parts = [int(colour[at : at + 2], 16) / 255 for at in (1, 3, 5)]
    linear = [part / 12.92 if part <= 0.04045 else ((part + 0.055) / 1.055) ** 2.4 for part in parts]
    return 0.2126 * linear[0] + 0.7152 * linear[1] + 0.0722 * linear[2]


def contrast(one, other):
    """The ratio of the WCAG."""
    light, dark = sorted((luminance(one), luminance(other)), reverse=True)
    return (light + 0.05) / (dark + 0.05)


class StepsPageTests(FolderCase):
    """Tests of the live page of a journal's steps: what its server answers, and what a browser shows."""

    # the page's server

    def test_command_line(self):
        for words, reason in (
            (["--journal", "x"], "--journal requires --page"),
            (["--page", "--topology", "x", "s"], "--topology requires --journal"),
            (["--page"], "the following arguments are required: SOCKET"),
        ):
            ran = run(WATCH, *words)
            expect("status and reason", (ran.returncode, ran.stderr.splitlines()[-1]), (2, f"watch: error: {reason}"))
        absent = self.folder / "absent"
        expect_end(
            run(WATCH, "--page", "--journal", absent), 1, f"watch: can't open {absent}: No such file or directory\n", ""
        )
        expect_end(
            run(WATCH, "--page", "--journal", self.folder), 1, f"watch: {self.folder} is not a regular file\n", ""
        )

    def test_answers_of_the_server(self):
        with watching("--journal", journal_of(self.folder)) as url:
            expect(
                "whether it is on this machine alone", re.fullmatch(r"http://127\.0\.0\.1:\d+/", url) is not None, True
            )
            found = asked(url, "rows", 11, start=5, count=2)
            expect("total and start", (found["total"], found["start"]), (11, 5))
            step = found["steps"][0]
            expect(
                "a denial", (step["number"], step["answer"], step["outcome"]), (6, "denied 34 LeasedOut 16", "denied")
            )
            found = asked(url, "rows", 11, start=0, count=9, client=7, call="setcrtc", refused=1)
            expect("what a filter shows", [step["number"] for step in found["steps"]], [8, 11])
            found = asked(url, "rows", 11, start=0, count=9, client="b")
            expect("a label", [step["number"] for step in found["steps"]], [7, 8, 9, 11])
            expect("a place", asked(url, "place", 11, step=10, refused=1), {"place": 1})
            picture = asked(url, "picture", 4)
            # a master, a client, a buffer, a framebuffer, CRTCs and planes, connectors; what is shown, and three routes
            expect_picture(picture["svg"], 1 + 1 + 1 + 1 + 4 + 2, 4 + 3)
            expect("its step", picture["step"], 4)
            clients = next(column for column in picture["columns"] if column["head"] == "Clients")
            expect("the picture as text", (clients["count"], clients["boxes"][0]["title"]), (1, "client 1"))
            expect("where it leads", clients["boxes"][0]["ends"], ["master 1", "handle 1: buffer 2"])
            changes = asked(url, "changes", 4)["changes"]
            expect("what the step changed", changes, ["what CRTC 1 shows was added: framebuffer 9"])
            expect("what a denial changed", asked(url, "changes", 6)["changes"], [])
            text = asked(url, "explanation", 6)["text"]
            expect("of no row", status_of(url, "explanation?generation=1&rows=0"), 400)
            expect(
                "an explanation", text.startswith("line 7 is step 6, create_lease by a: denied 34 LeasedOut 16\n"), True
            )

    def test_connections_that_are_reset(self):
        """A browser that ends resets its connections, also between requests. The watch says nothing of it."""
        with watching("--journal", journal_of(self.folder)) as url:
            place = urllib.parse.urlsplit(url)
            for path in ("", "live", "rows?generation=1&rows=11&start=0&count=1", "nothing"):
                with socket.create_connection((place.hostname, place.port), SECONDS) as connection:
                    connection.sendall(f"GET /{path} HTTP/1.1\r\nHost: {place.netloc}\r\n\r\n".encode())
                    expect("the answer's begin", connection.recv(4), b"HTTP")
                    connection.setsockopt(socket.SOL_SOCKET, socket.SO_LINGER, struct.pack("ii", 1, 0))
                expect("a later request", status_of(url), 200)

    def test_what_the_server_refuses(self):
        with watching("--journal", journal_of(self.folder)) as url:
            rows = "rows?generation=1&rows=11&start=0&count=1"
            expect("the page, and rows", [status_of(url), status_of(url, rows)], [200, 200])
            hosts = [status_of(url, path, Host="elsewhere.example") for path in ("", rows, "live")]
            expect("another name of the machine", hosts, [403, 403, 403])
            sites = [status_of(url, path, **{"Sec-Fetch-Site": "cross-site"}) for path in ("", rows, "live")]
            expect("another site", sites, [200, 403, 403])
            expect("another port", status_of(url, rows, **{"Sec-Fetch-Site": "same-site"}), 403)
            for query, status in (
                ("nothing?generation=1&rows=1", 404),
                ("rows?generation=2&rows=1", 409),
                ("rows?generation=1&rows=12", 400),
                ("rows?generation=1&rows=1&start=-1", 400),
                ("rows?generation=x&rows=1", 400),
                ("rows?generation=1&rows=1&client=%3Cb%3E", 400),
                ("../page.py", 404),
            ):
                expect(query, status_of(url, query), status)
            with urllib.request.urlopen(url, timeout=SECONDS) as answer:
                policy, body = answer.headers["Content-Security-Policy"], answer.read().decode()
            expect("what it may take", policy.split("; ")[:2], ["default-src 'none'", "connect-src 'self'"])
            taken = re.findall(r"(?:src|href)=|https?://(?!www\.w3\.org/2000/svg)|@import|url\(", body)
            expect("what it takes from elsewhere", taken, [])
            nonces = [re.findall(r'nonce="?-?([\w-]+)', text) for text in (body, policy.replace("nonce-", 'nonce="'))]
            expect("whether its script has the nonce", (nonces[0], len(nonces[0])), (nonces[1], 1))

    def test_page_of_a_running_server(self):
        """With its socket the watch makes three steps, and knows when the server has ended."""
        path = self.folder / "growing.journal"
        path.write_text(LIMITS)
        with lasting_server(self.folder) as started:
            wait_until_it_listens(self.folder / "root")
            with watching(self.folder / "root", "--journal", path) as url:
                with urllib.request.urlopen(url + "live", timeout=SECONDS) as live:
                    news = next_news(live)
                    expect("the news at first", (news["is_live"], news["own"], news["rows"]), (True, 1, 0))
                    with connect(self.folder / "root") as client:
                        expect("the steps before", client.audit(10, 0)[0].d, 4)
                        expect("the device's master", client.audit(10, 0)[0].a, client.opened.client)
                    append(path, "open a root -> client 1\na audit 10 0 -> rows 1 | 1 0 0 1\na drop_master -> done\n")
                    append(path, "open b card -> client 4\nb create_dumb 64 64 32 -> dumb 1 256 16384\n")
                    while news["rows"] < 5:
                        news = next_news(live)
                    # without the client of the watch, and its master
                    expect_picture(asked(url, "picture", 5)["svg"], 1 + 1 + 1 + 4 + 2, 2 + 3)
                    expect("the server's status", stopped(started).returncode, 0)
                    while news["is_live"]:
                        news = next_news(live)
                expect("whether it still answers", asked(url, "rows", 5, start=0, count=9)["total"], 5)

    def test_journal_of_a_running_server(self):
        """Once the server has ended, the page has each line of its journal, with the steps of the watch."""
        path = self.folder / "journal"
        with lasting_server(self.folder, "--journal", path) as started:
            wait_until_it_listens(self.folder / "root")
            with watching(self.folder / "root", "--journal", path) as url:
                with connect(self.folder / "card") as client:
                    for call in ("create_dumb 64 64 32", "addfb 64 64 256 32 1", "setcrtc 1 9 7", "gem_close 9"):
                        client.ask(call)
                    with urllib.request.urlopen(url + "live", timeout=SECONDS) as live:
                        expect("the server's status", stopped(started).returncode, 0)
                        news = next_news(live)
                        while news["is_live"] or news["rows"] < 10:
                            news = next_news(live)
                rows = path.read_text().count(" -> ")
                expect("rows and generation", (news["rows"], news["generation"], news["refused"]), (rows, 1, 1))
                # after the fourth call of the client: a client and its master, and what it has
                picture = asked(url, "picture", 8)
                expect_picture(picture["svg"], 1 + 1 + 1 + 1 + 4 + 2, 4 + 3)
                titles = [box["title"] for column in picture["columns"] for box in column["boxes"]]
                expect("the client", [title for title in titles if title.startswith("client")], ["client 4"])

    # a browser

    def test_steps_in_a_browser(self):
        path = journal_of(self.folder)
        with showing(self.folder, path) as browser:
            browser.wait(f"{ROWS}.length === 11")
            expect("numbers", numbers_shown(browser), [str(number) for number in range(11, 0, -1)])
            denied = browser.value("[...document.querySelectorAll('.row.denied')].map(row => row.textContent)")
            expect("denials", [text.split()[0] for text in denied], ["11", "8", "6"])
            expect("whether each is marked by a sign and a word", all("✕denied " in text for text in denied), True)
            expect("the picture", browser.value(TEXT.format("pichead")), "Picture after step 11, the newest")
            append(
                path,
                "a set_master -> done\na gem_close 9 -> denied 22 NoHandleToClose 22\na gem_close 9 -> apart 51 NoMemory 12\n",
            )
            browser.wait(f"{ROWS}.length === 14 && {ROWS}[0].firstChild !== null")
            expect("numbers", numbers_shown(browser)[:3], ["–", "13", "12"])
            browser.wait(f"{TEXT.format('pichead')} === 'Picture after step 13, the newest'")
            browser.press("Home", "ArrowDown", "ArrowDown", "ArrowUp", "ArrowUp", "Enter")
            browser.wait(f"{TEXT.format('text')}.startsWith('A fault is no step')")
            expect("a fault", "⚠apart 51" in browser.value("document.querySelector('.row.fault').textContent"), True)
            expect("the state", browser.value(TEXT.format("state")), f"reads {path}, 13 steps, 5 denials or faults")

    def test_keys_of_the_list(self):
        with showing(self.folder, journal_of(self.folder)) as browser:
            browser.press("ArrowDown")
            wait_for_step(browser, 11)
            browser.press("ArrowDown", "ArrowDown", "ArrowDown")
            wait_for_step(browser, 8)
            browser.press("Enter")
            browser.wait(f"{TEXT.format('text')}.startsWith('line 9 is step 8, setcrtc by b: denied 30')")
            expect("what a screen reader says", browser.value(TEXT.format("said")), browser.value(TEXT.format("text")))
            browser.press("End")
            wait_for_step(browser, 1)
            expect("whether the explanation has gone", is_shown(browser, "text"), False)
            browser.wait(f"{TEXT.format('pichead')} === 'Picture after step 1'")
            browser.press("ArrowDown")
            browser.wait(f"{TEXT.format('said')} === 'This is the oldest step.'")
            browser.press("ArrowUp", "ArrowUp", "ArrowUp")
            wait_for_step(browser, 4)
            browser.wait("!document.getElementById('changed').hidden")
            changes = browser.value(TEXT.format("changes"))
            expect("changes", changes, "what CRTC 1 shows was added: framebuffer 9")
            active = "document.getElementById(document.getElementById('rows').getAttribute('aria-activedescendant'))"
            expect("the active option", browser.value(f"{active}.getAttribute('aria-selected')"), "true")
            browser.press("Home")
            wait_for_step(browser, 11)
            browser.press("PageDown")
            wait_for_step(browser, 1)
            browser.press("Escape")
            browser.wait(f"{TEXT.format('pichead')} === 'Picture after step 11, the newest'")
            expect("whether details are shown", is_shown(browser, "details"), False)

    def test_tab_goes_through_the_page(self):
        with showing(self.folder, journal_of(self.folder)) as browser:
            browser.press("ArrowDown")
            wait_for_step(browser, 11)
            browser.value("document.activeElement.blur()")
            found = []
            for _ in range(30):
                browser.press("Tab")
                element = "document.activeElement"
                found.append(browser.value(f"{element}.id || {element}.textContent.trim()"))
                outlined = f"getComputedStyle({element}).outlineStyle"
                expect(
                    f"the outline of {found[-1]}",
                    browser.value(f"{element} === document.body ? 'solid' : {outlined}"),
                    "solid",
                )
            for name in (
                "pause",
                "newest",
                "newer",
                "older",
                "step",
                "client",
                "call",
                "refused",
                "rows",
                "All keys",
                "explain",
                "fit",
                "picture",
                "The picture as text",
            ):
                expect(f"whether {name} has the focus once", name in found, True)
            expect("whether the list is left", found[found.index("rows") + 1], "All keys")

    def test_pause_and_filters(self):
        path = journal_of(self.folder)
        with showing(self.folder, path) as browser:
            browser.press("p")
            expect("the button", browser.value(TEXT.format("pause")), "Continue")
            append(path, "a set_master -> done\nb setcrtc 2 9 8 -> done\n")
            browser.wait(f"{TEXT.format('state')}.endsWith('2 new')")
            expect("numbers", numbers_shown(browser)[0], "11")
            browser.press("p")
            browser.wait(f"{ROWS}.length === 13")
            browser.value("document.getElementById('client').value = '7'")
            change = "document.getElementById('{}').dispatchEvent(new Event('change'))"
            browser.value(change.format("client"))
            browser.wait(f"{ROWS}.length === 5 && {ROWS}[4].firstChild !== null")
            expect("a client", numbers_shown(browser), ["13", "11", "9", "8", "7"])
            browser.value(f"document.getElementById('call').value = 'setcrtc', {change.format('call')}")
            browser.wait(f"{ROWS}.length === 4 && {ROWS}[3].firstChild !== null")
            expect("its call", numbers_shown(browser), ["13", "11", "9", "8"])
            browser.value(f"{LIST}.focus()")
            browser.press("ArrowDown", "ArrowDown")
            wait_for_step(browser, 11)
            browser.value("document.getElementById('refused').click()")
            browser.wait(f"{ROWS}.length === 2 && {ROWS}[1].firstChild !== null")
            expect("denials", numbers_shown(browser), ["11", "8"])
            wait_for_step(browser, 11)
            append(path, "b setcrtc 1 9 7 -> denied 30 NoModeObject 2\na version -> version 1 0 0\n")
            browser.wait(f"{ROWS}.length === 3 && {ROWS}[0].firstChild !== null")
            expect("a further one", numbers_shown(browser), ["14", "11", "8"])
            expect("whether the chosen one stays", browser.value(TEXT.format("stephead"))[:8], "Step 11 ")
            browser.value("document.getElementById('client').value = 'nobody', " + change.format("client"))
            expect("a wrong client", browser.value(TEXT.format("said")), "A client is a number or a label.")

    def test_going_to_a_step(self):
        with showing(self.folder, journal_of(self.folder)) as browser:
            browser.value("document.getElementById('step').value = '5', document.getElementById('go').requestSubmit()")
            wait_for_step(browser, 5)
            expect("the focus", browser.value("document.activeElement.id"), "rows")
            browser.value("document.getElementById('older').click()")
            wait_for_step(browser, 4)
            browser.value(f"{ROWS}[1].click()")
            expect("a click", is_shown(browser, "details"), True)

    def test_100000_steps_in_a_browser(self):
        """The list has the rows that it shows, and the page keeps few others. No program replays these steps."""
        path = self.folder / "journal"
        lines = [
            "open a card -> client 1\n",
            *["a gem_close 9 -> denied 22 NoHandleToClose 22\na getcrtc 1 -> number 0\n"] * 49_999,
        ]
        path.write_text(LIMITS + "".join(lines))
        with showing(self.folder, path, DRM_SERVER_PROGRAM="/bin/false") as browser:
            browser.wait(f"{ROWS}.length > 5 && {ROWS}[0].firstChild !== null")
            begun = time.monotonic()
            browser.press("End")
            wait_for_step(browser, 1)
            browser.press(*["PageUp"] * 20)
            browser.press("Home")
            wait_for_step(browser, 99_999)
            browser.press(*["ArrowDown"] * 200)
            wait_for_step(browser, 99_799)
            spent = time.monotonic() - begun
            expect("whether the rows are few", browser.value(f"{ROWS}.length") < 60, True)
            expect("whether the blocks are few", browser.value("blocks.size") <= 12, True)
            # 224 keys, of which each is two calls of the protocol
            expect(f"whether {spent} seconds are too many", spent < 30, True)
            before = browser.value("JSON.stringify([total, chosen])")
            append(path, "a getcrtc 1 -> number 0\n" * 100)
            browser.wait("total === 100099")
            expect("the place of the chosen one", browser.value("chosen"), json.loads(before)[1])
            browser.value("document.getElementById('refused').click()")
            browser.wait("total === 49999")
            sizes = browser.value("performance.getEntriesByType('resource').map(it => it.encodedBodySize)")
            expect("the largest answer", max(sizes) < 60_000, True)

    def test_screen_reader_is_told_little(self):
        """However many denials are added, it says so once in ten seconds."""
        path = journal_of(self.folder)
        with showing(self.folder, path) as browser:
            browser.wait(f"{ROWS}.length === 11")
            begun = time.monotonic()
            browser.value(
                "window.told = [], new MutationObserver(() => told.push(document.getElementById('said').textContent))"
                ".observe(document.getElementById('said'), {childList: true})"
            )
            for number in range(1, 31):
                append(path, "a gem_close 9 -> denied 22 NoHandleToClose 22\n" * 10)
                browser.wait(f"total === {11 + 10 * number}")
            told = browser.value("told")
            most = 1 + int((time.monotonic() - begun) / 10)
            expect(f"whether it is told at most {most} times", 0 < len(told) <= most, True)
            expect("what", re.fullmatch(r"\d+ more denials or faults, \d+ steps in all", told[0]) is not None, True)
            live = browser.value(
                "[...document.querySelectorAll('[role=status], [role=alert], [role=log], [aria-live]')].map(it => it.id)"
            )
            expect("live regions", live, ["said"])

    def test_roles_and_names(self):
        with showing(self.folder, journal_of(self.folder)) as browser:
            browser.press("ArrowDown")
            wait_for_step(browser, 11)
            browser.wait("document.querySelector('#picture svg') !== null")
            nodes = browser.tree()
            found = [(node["role"]["value"], node.get("name", {}).get("value", "")) for node in nodes]
            for role in ("button", "textbox", "combobox", "checkbox", "listbox", "option", "image", "region"):
                names = [name for other, name in found if other == role]
                expect(f"whether each {role} has a name", bool(names) and all(names), True)
            for wanted in (
                ("listbox", "Steps, the newest first"),
                ("option", "11 client 7 b setcrtc 2 9 8 denied 13 Master 13"),
                ("checkbox", "Denials and faults only"),
                ("combobox", "Client"),
                ("heading", "Steps of a drm_server"),
            ):
                expect(f"whether {wanted} is found", wanted in found, True)
            option = next(node for node in nodes if node["role"]["value"] == "option")
            expect("an option's place", browser.value(f"[{ROWS}[3].ariaPosInSet, {ROWS}[3].ariaSetSize]"), ["4", "11"])
            expect(
                "whether it is chosen",
                [it["value"]["value"] for it in option["properties"] if it["name"] == "selected"],
                [True],
            )

    def test_journal_is_text(self):
        """What a journal has is shown as text, also its name, and a picture's text."""
        evil = "</script><img src=x onerror=alert(1)>"
        path = self.folder / "<img src=x> <&script>.journal"
        path.write_text(LIMITS + f"open a card -> client 1\na gem_close {evil} -> denied {evil}\n{evil}\n")
        with showing(self.folder, path) as browser:
            browser.wait(f"{ROWS}.length === 2")
            browser.press("ArrowDown", "Enter")
            wait_for_step(browser, 2)
            browser.wait(f"{TEXT.format('text')}.length > 5")
            expect("images", browser.value("document.querySelectorAll('img').length"), 0)
            expect("the request", browser.value(TEXT.format("request")), f"a gem_close {evil}")
            expect("a row", evil in browser.value(f"{ROWS}[0].textContent"), True)
            expect("the state", f"reads {path}, 2 steps" in browser.value(TEXT.format("state")), True)

    def test_replaced_journal(self):
        path = journal_of(self.folder)
        with showing(self.folder, path) as browser:
            browser.press("End")
            wait_for_step(browser, 1)
            path.write_text(LIMITS + "open a card -> client 1\na version -> version 1 0 0\n")
            browser.wait(f"{ROWS}.length === 2 && {ROWS}[0].textContent.includes('version 1 0 0')")
            expect("whether details are shown", is_shown(browser, "details"), False)
            browser.wait(f"{TEXT.format('pichead')} === 'Picture after step 2, the newest'")

    # how it looks

    def test_colours_differ_enough(self):
        """By the WCAG, level AA: 4.5 for text, and 3 for what shows a state or the edge of a field."""
        for name, colours in zip(("light", "dark"), colours_of((PAGES / "page.css").read_text())):
            for front, backs, least in (
                ("ink", ("page", "field", "chosen", "denied-back", "fault-back"), 4.5),
                ("soft", ("page", "field", "chosen", "denied-back", "fault-back"), 4.5),
                ("denied", ("page", "denied-back", "chosen"), 4.5),
                ("fault", ("page", "fault-back", "chosen"), 4.5),
                ("focus", ("page", "chosen", "field"), 3),
                ("edge", ("page", "field"), 3),
            ):
                for back in backs:
                    found = contrast(colours[front], colours[back])
                    expect(f"whether {front} on {back} is {found:.1f} in {name}", found >= least, True)
        dark = (PAGES / "picture.css").read_text()
        fills = dict(re.findall(r"svg \.([a-z]+) \{ fill: (#[0-9a-f]{6}); stroke", dark))
        expect("the looks of a dark picture", sorted(fills), sorted(LOOKS))
        for look, fill in fills.items():
            expect(f"whether text on {look} is read", contrast("#e5e7eb", fill) >= 4.5, True)
        for look, (fill, _) in LOOKS.items():
            expect(f"whether text on a light {look} is read", contrast("#1f2937", fill) >= 4.5, True)

    def test_dark_and_narrow_windows(self):
        with showing(self.folder, journal_of(self.folder)) as browser:
            browser.press("ArrowDown")
            wait_for_step(browser, 11)
            ground = "getComputedStyle(document.body).backgroundColor"
            box = "getComputedStyle(document.querySelector('#picture svg .master')).fill"
            light = browser.value(ground), browser.value(box)
            browser.look(1280, 900, "dark")
            browser.wait(f"{ground} === 'rgb(20, 24, 31)'")
            dark = browser.value(ground), browser.value(box)
            expect("whether both differ", [one == other for one, other in zip(light, dark)], [False, False])
            for width in (1280, 800, 500, 320):
                browser.look(width, 700)
                browser.wait(f"innerWidth === {width}")
                expect(
                    f"whether {width} are enough", browser.value("document.documentElement.scrollWidth") <= width, True
                )
                expect(
                    "whether the chosen one is in sight",
                    browser.value(
                        f"{LIST}.querySelector('[aria-selected=true]').getBoundingClientRect().top >= {LIST}.getBoundingClientRect().top"
                    ),
                    True,
                )


def next_news(lines):
    """Returns what a page receives next."""
    for line in lines:
        if line.startswith(b"data: "):
            return json.loads(line[len(b"data: ") :])
    raise AssertionError("nothing more is told")


if __name__ == "__main__":
    sys.exit(run_tests())
