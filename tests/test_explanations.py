#!/usr/bin/env python3
"""Tests of `drm_server explain`: what it tells of examples, as lines and as JSON, of the answers of single lines, and of scripts that it
can't explain.

What it tests: lines and JSON, worked out manually. Each kind of fact has a row, worked out from RULES. Its wording
is that of the sources, so the rows do not test the wording. Longest time and memory over a full journal.
After each line of `examples/` where one more root client can open, the audits of kinds 1, 6, 7 and 10, both
ways.

Each test has its own folder. The last line is `N passed, M failed`. Standard library only.
"""
import json
import os
import re
import string
import subprocess
import sys

sys.dont_write_bytecode = True
from support import (  # noqa: E402
    PROGRAM,
    REPOSITORY,
    FolderCase,
    expect,
    expect_end,
    expect_told,
    run_program,
    run_tests,
    want_no_checks,
)

from told_facts import FACTS, JOURNALS, NOT_IN_SCRIPTS, NOT_WRITTEN, PASSES_IF  # noqa: E402

# What examples leave their clients, and by which steps, which was told by hand. Steps are lines of `run`, counted from 1.

EXPLAINED_LEASES = """\
the device's master is 1: a set it at step 27 (set_master)
a is client 1: a primary client, opened at step 1
a is authenticated: it is a master
a is a master: it founded master 1 as it opened at step 1, when the device had none
a is current: its master 1 is the device's
a may set CRTC 1, CRTC 2, plane 3 and plane 4: it is current, and its master is no lessee
l was client 6: a lease client, opened at step 6, closed at step 36
lessee 1, master 3, has nothing: leased by a at step 3 (lessee 1, token 1), redeemed by l at step 6, \
ended at step 30 (revoke_lease by a)
lessee 2, master 14, has nothing: leased by a at step 3 (lessee 1, token 1), redeemed by l at step 6, \
leased by l at step 14 (lessee 2, token 2), not redeemed, ended at step 30 (revoke_lease by a)
lessee 2, master 35, has nothing: leased by a at step 35 (lessee 2, token 3), not redeemed, \
ended at step 39 (revoke_lease by a)
"""

EXPLAINED_SHARING = """\
the device has no master: its client a closed at step 12
a was client 1: a primary client, opened at step 1, closed at step 12
b is client 2: a render client, opened at step 2
b is not authenticated: it is a render client
b is no master: it is a render client
b may set nothing: it is not current
b holds buffer 3 as handle 1: made by a at step 3 (buf_create), exported at step 7 (token 1), imported by b at step 10
"""

EXPLAINED_LESSEE = """\
m is client 5: a lease client, opened at step 5
m is authenticated: it is a master
m is a master: it opened lessee 2, master 4, by its token at step 5
m is current: the owner of its master 4 is 1, the device's master
m may set CRTC 2 and plane 4: leased by a at step 2 (lessee 1, token 1), redeemed by l at step 3, \
leased by l at step 4 (lessee 2, token 2), redeemed by m at step 5
m holds buffer 6 as handle 1: made by m at step 6 (create_dumb)
lessee 2, master 4, has CRTC 2, plane 4 and connector 8: leased by a at step 2 (lessee 1, token 1), redeemed by l at step 3, \
leased by l at step 4 (lessee 2, token 2), redeemed by m at step 5
"""

EXPLAINED_PLANES = """\
the device's master is 1: a founded it as it opened at step 1
a is client 1: a primary client, opened at step 1
a is authenticated: it is a master
a has universal planes off: it turned them off at step 5 (set_client_cap)
a is a master: it founded master 1 as it opened at step 1, when the device had none
a is current: its master 1 is the device's
a may set CRTC 1, CRTC 2 and plane 4: it is current, and its master is no lessee
l is client 3: a lease client, opened at step 3
l is authenticated: it is a master
l is a master: it opened lessee 1, master 2, by its token at step 3
l is current: the owner of its master 2 is 1, the device's master
l may set CRTC 1 and plane 3: leased by a at step 2 (lessee 1, token 1), redeemed by l at step 3
lessee 1, master 2, has CRTC 1, plane 3 and connector 7: leased by a at step 2 (lessee 1, token 1), redeemed by l at step 3
"""

# Root, a magic that was named, a client whose label names another one, and each way to publish a buffer.
OTHERS = """\
open a root
open b card
b get_magic
a auth_magic 1
a create_dumb 8 8 32
a addfb 8 8 32 32 1
a getfb 9
a gem_flink 1
b gem_open 1
open b card
close b
"""
EXPLAINED_OTHERS = """\
the device's master is 1: a founded it as it opened at step 1
a is client 1: a primary client, opened by root at step 1
a is authenticated: it opened by root at step 1
a is a master: it founded master 1 as it opened at step 1, when the device had none
a is current: its master 1 is the device's
a may set CRTC 1, CRTC 2, plane 3 and plane 4: it is current, and its master is no lessee
a holds buffer 5 as handle 1: made by a at step 5 (create_dumb)
a holds buffer 5 as handle 2: made by a at step 5 (create_dumb), added at step 6 (framebuffer 9), returned to a at step 7 (getfb)
client 2 is without a label: a primary client, opened at step 2
client 2 is authenticated: a named its magic 1 at step 4 (auth_magic)
client 2 is no master: it joined master 1 as it opened at step 2
client 2 is not current: it is no master
client 2 may set nothing: it is not current
client 2 holds buffer 5 as handle 1: made by a at step 5 (create_dumb), named at step 8 (name 1), opened by client 2 at step 9
b was client 10: a primary client, opened at step 10, closed at step 11
"""
NOBODY = "the device has no master: no client set one\n"
UP_TO = "as handle {} of a up to step {}, "
EXPLAINED = [
    EXPLAINED_LEASES,
    EXPLAINED_SHARING,
    EXPLAINED_LESSEE,
    EXPLAINED_PLANES,
    EXPLAINED_OTHERS,
    NOBODY,
    UP_TO.format(1, 2),
]

# Why lines are answered as they are: a script, the number of a line, and what is told of it, by hand. Steps are counted from 1 in each.

DENIED = "limits 2 8 8 8 8 4 4 100\nopen a card\nopen b card\n"

REUSED_LESSEE = (
    "open a card\na create_lease 1 3 7\na revoke_lease 1\na create_lease 2 4 8\nopen l lease 2\nl revoke_lease 1\n"
    "a revoke_lease 1\nclose l\na revoke_lease 1\n"
)

ANSWERS = [
    (
        "open a card\na buf_create 5000\n",
        2,
        "line 2 is step 2, buf_create by a, which was carried out: buffer 1 8192\n",
    ),
    (
        DENIED + "b setcrtc 1 0 0\n",
        4,
        """\
line 4 is step 3, setcrtc by b: denied 13 Master 13
b is not current: it is no master
b is no master: it joined master 1 as it opened at step 2
the device's master is 1: a founded it as it opened at step 1
it would pass if the caller were current: a master whose owner is the device's master (set_master, while the device has none)
""",
    ),
    (
        DENIED + "open c card\n",
        4,
        """\
line 4 is step 3, open: denied 43 Full 28
2 clients are open, and the limit is 2
it would pass if something of its kind were freed, or the limit were greater
""",
    ),
    (
        DENIED + "b set_master\n",
        4,
        """\
line 4 is step 3, set_master by b: denied 26 MasterPerm 13
b is client 2: a primary client, opened at step 2
b is no master: it joined master 1 as it opened at step 2
it would pass if the caller had opened the root node, or had been a master before
""",
    ),
    (
        "open a card\nopen r root\nr set_master\n",
        3,
        """\
line 3 is step 3, set_master by r: denied 27 MasterBusy 16
r is not current: it is no master
the device's master is 1: a founded it as it opened at step 1
it would pass if the device had no master: after drop_master, or after its master's client is closed
""",
    ),
    (
        "open a card\nopen b card\nb gem_open 1\n",
        3,
        """\
line 3 is step 3, gem_open by b: denied 12 Auth 13
b is not authenticated: it didn't open by root, is no master, and no client named its magic (auth_magic)
it would pass if the caller had opened the root node or were a master, or if a current client of its master had authenticated it (auth_magic)
""",
    ),
    (
        "open a card\na buf_create 1\na gem_close 1\na buf_create 1\na buf_create 1\na gem_close 1\na gem_flink 1\n",
        7,
        """\
line 7 is step 7, gem_flink by a: denied 21 NoHandle 2
a does not hold handle 1: it closed it at step 6 (gem_close)
a holds 1 own handle: 2
it would pass if the caller held the handle
""",
    ),
    (
        "open a card\na get_magic\na auth_magic 1\na auth_magic 1\n",
        4,
        """\
line 4 is step 4, auth_magic by a: denied 25 NoMagic 22
magic 1 belongs to a, and a spent it at step 3 (auth_magic)
it would pass if a client of the caller's master had the magic (get_magic), and it were not spent
""",
    ),
    (
        "open a card\na setcrtc 1 9 7\n",
        2,
        """\
line 2 is step 2, setcrtc by a: denied 38 NoFb 2
framebuffer 9 does not exist: no step added it
it would pass if the framebuffer existed, and, to be removed, were the caller's
""",
    ),
    (
        "open a card\na create_dumb 8 8 32\na addfb 8 8 32 32 1\na rmfb 9\na rmfb 9\n",
        5,
        """\
line 5 is step 5, rmfb by a: denied 38 NoFb 2
framebuffer 9 does not exist: a added it at step 3, and it was removed at step 4 (rmfb by a)
it would pass if the framebuffer existed, and, to be removed, were the caller's
""",
    ),
    (
        "open a card\na create_dumb 8 8 32\na addfb 8 65 64 32 1\na addfb 8 8 64 32 1\na setcrtc 2 9 7\na setcrtc 1 9 8\n",
        3,
        """\
line 3 is step 3, addfb by a: denied 39 BadSize 22
65 lines of 64 bytes are 4160, and the buffer of handle 1 has 4096
it would pass if the numbers were in their ranges
""",
    ),
    (
        "open a card\na create_dumb 8 8 32\na addfb 8 65 64 32 1\na addfb 8 8 64 32 1\na setcrtc 2 9 7\na setcrtc 1 9 8\n",
        6,
        """\
line 6 is step 6, setcrtc by a: denied 40 BadRoute 22
CRTC 1 is not a possible CRTC of encoder 6, which is that of connector 8
it would pass if the CRTC were a possible one, and neither or both of framebuffer and connector were 0
""",
    ),
    (
        "open2 a card\na getplane 3\n",
        2,
        """\
line 2 is step 2, getplane by a: denied 30 NoModeObject 2
a does not see plane 3: it is the primary or the cursor plane of CRTC 1
a has universal planes off: it opened without them at step 1
it would pass if each id were that of such a mode object, and the caller saw it
""",
    ),
    (
        "open a card\na getplane 5\n",
        2,
        """\
line 2 is step 2, getplane by a: denied 30 NoModeObject 2
mode object 5 is an encoder, and not a plane
it would pass if each id were that of such a mode object, and the caller saw it
""",
    ),
    (
        "open a card\na create_lease 1 3 5 7 7\n",
        2,
        """\
line 2 is step 2, create_lease by a: denied 31 NotLeasable 22
mode object 5 is an encoder
it would pass if each id were that of a CRTC, a plane or a connector
""",
    ),
    (
        "open a card\na create_lease 1 3 7 7\n",
        2,
        """\
line 2 is step 2, create_lease by a: denied 32 Repeated 22
id 7 occurs twice
it would pass if no id were listed twice
""",
    ),
    (
        "open a card\na get_cap 3\n",
        2,
        """\
line 2 is step 2, get_cap by a: denied 41 BadCap 22
capability 3 cannot be read: only 1 and 5 can
it would pass if the capability existed, and could have the value
""",
    ),
    (
        "open a card\na audit 1 0\n",
        2,
        """\
line 2 is step 2, audit by a: denied 11 RootOnly 13
a is client 1: a primary client, opened at step 1
it would pass if the caller had opened the root node
""",
    ),
    (
        "open a card\nopen b render\na buf_create 1\na prime_export 1\nb token_close 1\n",
        5,
        """\
line 5 is step 5, token_close by b: denied 24 NoToken 2
token 1 belongs to a, which exported it at step 4
it would pass if the token were open (prime_export), and, to be closed, the caller's
""",
    ),
    (
        "open a card\na drop_master\na drop_master\n",
        3,
        """\
line 3 is step 3, drop_master by a: denied 28 NotCurrent 22
a is not current: its master is 1, and the device has none
a is a master: it founded master 1 as it opened at step 1, when the device had none
the device has no master: a dropped it at step 2 (drop_master)
it would pass if the caller were current: a master whose owner is the device's master (set_master, while the device has none)
""",
    ),
    (
        "open a card\na create_lease 1 3 7\nopen l rootlease 1\nl drop_master\n",
        4,
        """\
line 4 is step 4, drop_master by l: denied 29 IsLessee 22
l is a master: it opened lessee 1, master 2, by its token at step 3
lessee 1, master 2, has CRTC 1, plane 3 and connector 7: leased by a at step 2 (lessee 1, token 1), redeemed by l at step 3
it would pass if the caller's master were no lessee
""",
    ),
    # only the exporter's closing closes a token
    (
        "open a card\nopen b card\nopen c render\na buf_create 1\na prime_export 1\nclose b\na token_close 1\nc prime_import 1\n",
        8,
        """\
line 8 is step 8, prime_import by c: denied 24 NoToken 2
token 1 is not open: a exported it at step 5, and it was closed at step 7 (token_close by a)
it would pass if the token were open (prime_export), and, to be closed, the caller's
""",
    ),
    # and only the owner's closing removes a framebuffer
    (
        "open a card\nopen b card\na create_dumb 8 8 32\na addfb 8 8 32 32 1\nclose b\nclose a\nopen c card\nc rmfb 9\n",
        8,
        """\
line 8 is step 8, rmfb by c: denied 38 NoFb 2
framebuffer 9 does not exist: a added it at step 4, and it was removed at step 6 (close by a)
it would pass if the framebuffer existed, and, to be removed, were the caller's
""",
    ),
    # other clients have handles of the same number
    (
        "open a card\nopen b card\na buf_create 1\nb buf_create 1\na gem_close 1\nb gem_close 1\nclose b\na gem_flink 1\n",
        8,
        """\
line 8 is step 8, gem_flink by a: denied 21 NoHandle 2
a does not hold handle 1: it closed it at step 5 (gem_close)
a holds no handle
it would pass if the caller held the handle
""",
    ),
    # a handle that is allocated again is listed in its place
    (
        "open a card\na buf_create 1\na buf_create 1\na gem_close 1\na buf_create 1\na gem_flink 3\n",
        6,
        """\
line 6 is step 6, gem_flink by a: denied 21 NoHandle 2
a does not hold handle 3: no step assigned it
a holds 2 own handles: 1, 2
it would pass if the caller held the handle
""",
    ),
    # a lessee id means the last lease that was answered it
    (
        REUSED_LESSEE,
        6,
        """\
line 6 is step 6, revoke_lease by l: denied 37 NotYourLessee 13
the lessor of lessee 1 is master 1, and the master of l is 4
lessee 1, master 4, has CRTC 2, plane 4 and connector 8: leased by a at step 4 (lessee 1, token 2), redeemed by l at step 5
it would pass if the caller were a client of the lessee's lessor
""",
    ),
    (
        REUSED_LESSEE,
        9,
        """\
line 9 is step 9, revoke_lease by a: denied 36 NoLessee 2
lessee 1, master 4, has nothing: leased by a at step 4 (lessee 1, token 2), redeemed by l at step 5, \
ended at step 7 (revoke_lease by a)
it would pass if the owner had a lessee of that id
""",
    ),
    (
        "limits 2 8 8 8 8 4 4 3\nopen a card\na version\na version\n",
        4,
        """\
line 4: apart 50 JournalFull 28
the journal has 2 steps of 3, and each of 1 open clients reserves a step for its closing
it would pass if the journal's limit were greater
""",
    ),
]

# the same of examples: the name, the number of a line, and what is told of it
ANSWERS_OF_EXAMPLES = [
    (
        "denials",
        5,
        """\
line 5 is step 3, create_dumb by r: denied 14 RenderAllow 13
r is client 2: a render client, opened at step 2
it would pass if the caller had opened the card or the root node
""",
    ),
    (
        "denials",
        12,
        """\
line 12 is step 7, a call with an unknown number by a: denied 1 Unknown 22
no call has number 65535
it would pass if a call had the number
""",
    ),
    (
        "denials",
        13,
        """\
line 13 is step 8, create_dumb by a: denied 2 Layout 22
number 178 is create_dumb, which has other fields
it would pass if the fields were those of the call
""",
    ),
    (
        "denials",
        15,
        """\
line 15 is step 9, version by a label that names no client: denied 3 NoClient 22
no step opened a client with the label of the line
it would pass if the client were open
""",
    ),
    (
        "denials",
        17,
        """\
line 17 is step 11, version by r: denied 3 NoClient 22
r is not open: it closed at step 10
it would pass if the client were open
""",
    ),
    (
        "sharing",
        12,
        """\
line 12 is step 9, gem_open by a: denied 23 NoName 2
no buffer has name 1: a named buffer 3 at step 5, and its last handle was closed at step 8 (gem_close by a)
it would pass if an object had the name (gem_flink)
""",
    ),
    (
        "sharing",
        17,
        """\
line 17 is step 13, prime_import by b: denied 24 NoToken 2
token 1 is not open: a exported it at step 7, and it was closed at step 12 (close by a)
it would pass if the token were open (prime_export), and, to be closed, the caller's
""",
    ),
    (
        "leases",
        8,
        """\
line 8 is step 4, create_lease by a: denied 34 LeasedOut 16
mode object 2 is leased out to lessee 1
lessee 1, master 3, has CRTC 2, plane 4 and connector 8: leased by a at step 3 (lessee 1, token 1), not redeemed
it would pass if no other lease had it: after revoke_lease, or after the lessee's client is closed
""",
    ),
    (
        "leases",
        9,
        """\
line 9 is step 5, create_lease by a: denied 33 LeaseShape 22
no plane is among the ids, and a has universal planes on
it would pass if a CRTC, a connector and, with universal planes on, a plane were among the ids
""",
    ),
    (
        "leases",
        12,
        """\
line 12 is step 7, open: denied 42 NoLeaseToken 2
lease token 1 is not open: it is spent, or its lease has ended
lessee 1, master 3, has CRTC 2, plane 4 and connector 8: leased by a at step 3 (lessee 1, token 1), redeemed by l at step 6
it would pass if the lease token were open
""",
    ),
    (
        "leases",
        35,
        """\
line 35 is step 25, setcrtc by l: denied 13 Master 13
l is not current: the owner of its master 3 is 1, and the device has none
l is a master: it opened lessee 1, master 3, by its token at step 6
the device has no master: a dropped it at step 24 (drop_master)
it would pass if the caller were current: a master whose owner is the device's master (set_master, while the device has none)
""",
    ),
    (
        "leases",
        40,
        """\
line 40 is step 29, revoke_lease by l: denied 37 NotYourLessee 13
the lessor of lessee 1 is master 1, and the master of l is 3
lessee 1, master 3, has CRTC 2, plane 4 and connector 8: leased by a at step 3 (lessee 1, token 1), redeemed by l at step 6
it would pass if the caller were a client of the lessee's lessor
""",
    ),
    (
        "leases",
        51,
        """\
line 51 is step 38, revoke_lease by a: denied 36 NoLessee 2
lessee 1, master 3, has nothing: leased by a at step 3 (lessee 1, token 1), redeemed by l at step 6, \
ended at step 30 (revoke_lease by a)
it would pass if the owner had a lessee of that id
""",
    ),
    (
        "rows/chains_of_lessees_have_an_end",
        18,
        """\
line 18 is step 18, create_lease by s: denied 35 SubLease 22
s is a master: it opened lessee 8, master 16, by its token at step 17
lessee 8, master 16, has CRTC 1, plane 3 and connector 7: leased by a at step 2 (lessee 1, token 1), redeemed by l at step 3, \
leased by l at step 4 (lessee 2, token 2), redeemed by m at step 5, \
leased by m at step 6 (lessee 3, token 3), redeemed by n at step 7, \
leased by n at step 8 (lessee 4, token 4), redeemed by o at step 9, \
leased by o at step 10 (lessee 5, token 5), redeemed by p at step 11, \
leased by p at step 12 (lessee 6, token 6), redeemed by q at step 13, \
leased by q at step 14 (lessee 7, token 7), redeemed by r at step 15, \
leased by r at step 16 (lessee 8, token 8), redeemed by s at step 17
it would pass if the caller's master had fewer lessors above it
""",
    ),
    (
        "leases",
        43,
        """\
line 43 is step 31, getcrtc by l: denied 30 NoModeObject 2
l does not see mode object 2, a CRTC: its master's lease does not include it
lessee 1, master 3, has nothing: leased by a at step 3 (lessee 1, token 1), redeemed by l at step 6, \
ended at step 30 (revoke_lease by a)
it would pass if each id were that of such a mode object, and the caller saw it
""",
    ),
]


# The sources of facts and of their sentences, and the enums of facts in them.
FACTS_SOURCE = REPOSITORY / "crates/drm_refusals/src/facts.rt"
REMEDIES_SOURCE = REPOSITORY / "crates/drm_refusals/src/remedies.rt"
LINES_SOURCE = REPOSITORY / "crates/drm_explanations/src/lines.rt"
SENTENCES_SOURCE = REPOSITORY / "crates/drm_sentences/src/sentences.rt"


def variants(source):
    """The variants of each enum of a source, by its name, each with what follows its name on its line."""
    enums = re.findall(r"^pub enum (\w+) \{\n(.*?)^\}", source.read_text(), re.MULTILINE | re.DOTALL)
    return {name: dict(re.findall(r"^    ([A-Z]\w*)(.*)", body, re.MULTILINE)) for name, body in enums}


def texts(source):
    """The texts that a source writes, without those that have no letter."""
    code = "".join(line for line in source.read_text().splitlines(True) if not line.lstrip().startswith("//"))
    found = re.findall(r'"((?:[^"\\]|\\.)*)"', code)
    return [text.replace("\\n", "\n") for text in found if re.search("[a-z]", re.sub(r"\{\w*\}", "", text))]


def is_written(text, lines):
    """Whether one of the lines has the text, with a value for each name in braces."""
    return re.search(".+".join(map(re.escape, re.split(r"\{\w*\}", text))), lines) is not None


def denial(number):
    """The answer of a denial by a rule, by docs/RULES.md."""
    rules = (REPOSITORY / "docs/RULES.md").read_text()
    name, errno = re.search(rf"^\| {number} (\w+) \| E\w+ \((\d+)\) \|", rules, re.MULTILINE).groups()
    return f"denied {number} {name} {errno}"


def asked(lines):
    """Returns the text of the last line of a script as a step: its number, its call and its caller."""
    step = len(lines) - lines[0].startswith("limits ")
    label, word, *_ = lines[-1].split()
    if label.startswith("open"):
        return f"step {step}, open"
    if label == "close":
        label, word = word, label
    if word == "raw":
        table = (REPOSITORY / "docs/FRAMES.md").read_text()
        row = re.search(rf"^\| 0x{int(lines[-1].split()[2]):02X} \| .*? \| `(\w+)`", table, re.MULTILINE)
        word = row.group(1) if row else "a call with an unknown number"
    is_bound = any(re.match(rf"open2? {label} ", line) for line in lines)
    return f"step {step}, {word} by {label if is_bound else 'a label that names no client'}"


def told_of(script, rule, facts):
    """Returns the script of a row of facts as a file's text, the number of its last line, and what `explain` prints of it."""
    lines = script.split("; ")
    told = [f"line {len(lines)} is {asked(lines)}: {denial(rule)}", *facts, f"it would pass if {PASSES_IF[rule]}"]
    return "\n".join(lines) + "\n", len(lines), "\n".join(told) + "\n"


def explain(name, *words):
    return run_program("explain", REPOSITORY / f"examples/{name}.script", *words)


# What a client's flags in an audit add up from.
RENDER, ROOT, AUTHENTICATED, MASTER, PLANES_OFF = 1, 2, 4, 16, 64
# How many rows an audit answers at most, how many are asked for so often, and the kinds that explanations tell of.
PAGE = 16
PAGES = 5
KINDS = (1, 6, 7, 10)


def audited(text):
    """What the audits of kinds 1, 6, 7 and 10 tell after a script, and the script with these questions; None where none can be asked."""
    label = next(label for label in reversed(string.ascii_lowercase) if f" {label} " not in text)
    asked = [(kind, page * PAGE) for kind in KINDS for page in range(PAGES)]
    text += f"open {label} root\n" + "".join(f"{label} audit {kind} {first}\n" for kind, first in asked)
    told = {kind: [] for kind in KINDS}
    for (kind, _), answer in zip(asked, run_program("run", script=text).stdout.splitlines()[-len(asked) :]):
        count, *rows = answer.split(" | ")
        if not count.startswith("rows "):
            return None
        told[kind] += [tuple(map(int, row.split())) for row in rows]
    expect("that there are rows that aren't asked for", [kind for kind in KINDS if len(told[kind]) == PAGE * PAGES], [])
    return told, text


def flags_of(client):
    """The flags of a client as an explanation tells them, without those that it says nothing of."""
    return (
        RENDER * (client["node"] == "render")
        + ROOT * client["root"]
        + AUTHENTICATED * (client["authenticated"] is not None)
        + MASTER * client["standing"]["is_master"]
        + PLANES_OFF * (not client["universal_planes"]["on"])
    )


def expect_agreement(told, audits):
    """Compares what is explained with what the audits tell, both ways."""
    known = RENDER | ROOT | AUTHENTICATED | MASTER | PLANES_OFF
    clients = [client for client in told["clients"] if client["closed"] is None]
    expect(
        "clients",
        [(client["client"], flags_of(client), client["standing"]["master"] or 0) for client in clients],
        [(client, flags & known, master) for client, flags, master, _ in audits[1]],
    )
    expect(
        "handles",
        sorted((client["client"], held["handle"], held["object"]) for client in clients for held in client["holds"]),
        sorted(row[:3] for row in audits[6]),
    )
    expect(
        "what leases have",
        sorted(
            (lease["master"], x) for lease in told["leases"] if lease["ended"] is None for x in lease["mode_objects"]
        ),
        sorted(row[:2] for row in audits[7]),
    )
    expect("the device's master", told["device"]["master"] or 0, audits[10][0][0])


def at(step, client, call):
    return {"step": step, "client": client, "call": call}


def passed_on(count):
    """A script of a client that has N handles of one buffer, each opened by the name that it gave the one before."""
    return "open a card\na buf_create 1\na gem_flink 1\n" + "".join(
        f"a gem_open 1\na gem_flink {i}\n" for i in range(2, count + 1)
    )


# What a journal holds, and what its explanation takes at most, as docs/COMMANDS.md says: seconds of a processor, and MB.
STEPS = 100_000
MOST_SECONDS = 5
MOST_MEGABYTES = 200


def full_journals():
    """Scripts that fill a journal but for a closing, half of whose steps give something: how many lines of the explanation tell of
    such, how these begin, and the field that each has as JSON."""
    half = STEPS // 2
    of_one_name = ["a buf_create 4096", "a gem_flink 1", *(half - 1) * ["a gem_open 1"]]
    of_its_own = [step for handle in range(1, half) for step in ("a buf_create 4096", f"a gem_flink {handle}")]
    leases = (half - 1) * ["a create_lease 1 3 7", "a revoke_lease 1"]
    for count, line, field, steps in [
        (half, "a holds buffer ", '"object": ', of_one_name),
        (half - 1, "a holds buffer ", '"object": ', of_its_own),
        (half - 1, "lessee 1, master ", '"lessee_id": ', leases),
    ]:
        steps = ["open a card", *steps, *(STEPS - 2 - len(steps)) * ["a version"]]
        script = f"limits 64 65535 65535 65535 65535 64 64 {STEPS}\n" + "".join(f"{step}\n" for step in steps)
        yield count, line, field, script


def expect_explained_within(script, output, *words):
    """Explains a script into a file, and compares what that takes with what it may take."""
    with open(output, "wb") as written, subprocess.Popen(
        [PROGRAM, "explain", script, *words], stdin=subprocess.DEVNULL, stdout=written
    ) as started:
        _, ended, spent = os.wait4(started.pid, 0)
        started.returncode = -os.WTERMSIG(ended) if os.WIFSIGNALED(ended) else os.WEXITSTATUS(ended)
    seconds, megabytes = spent.ru_utime + spent.ru_stime, spent.ru_maxrss / 1024
    expect("status", started.returncode, 0)
    expect(
        f"that {seconds:.1f} s and {megabytes:.0f} MB are enough",
        seconds <= MOST_SECONDS and megabytes <= MOST_MEGABYTES,
        True,
    )


class ExplanationsTests(FolderCase):
    """Tests of `drm_server explain`: what it tells of examples, as lines and as JSON, of the answers of single lines, and of scripts that it"""

    def test_scripts_are_explained(self):
        folder = self.folder
        expect_end(explain("leases"), 0, "", EXPLAINED_LEASES)
        expect_end(explain("sharing"), 0, "", EXPLAINED_SHARING)
        for client in ("m", "5"):
            expect_end(explain("subleases", "--client", client), 0, "", EXPLAINED_LESSEE)
        # answers that are expected are passed over, and what stands apart is no step
        script = folder / "script"
        script.write_text(
            "limits 4 8 8 8 8 4 4 4\nopen a card -> client 7\na version\na version\na version\nclose a -> closed"
        )
        told = "the device has no master: its client a closed at step 4\n"
        expect_end(
            run_program("explain", script),
            0,
            "",
            told + "a was client 1: a primary client, opened at step 1, closed at step 4\n",
        )
        script.write_text("# nobody comes\n")
        expect_end(run_program("explain", script), 0, "", NOBODY)
        script.write_text(OTHERS)
        expect_end(run_program("explain", script), 0, "", EXPLAINED_OTHERS)

    def test_explanations_agree_with_audits(self):
        """After each line of each script of examples/ where one more root client can be opened that asks the audits."""
        folder = self.folder
        compared = 0
        for path in sorted((REPOSITORY / "examples").rglob("*.script")):
            lines = [line.partition("->")[0].rstrip() for line in path.read_text("utf-8").splitlines()]
            lines = [line for line in lines if line and not line.startswith("#")]
            for count in range(len(lines) + 1):
                found = audited("".join(f"{line}\n" for line in lines[:count]))
                if found:
                    audits, text = found
                    script = folder / "script"
                    script.write_text(text, "utf-8")
                    try:
                        expect_agreement(json.loads(run_program("explain", script, "--json").stdout), audits)
                    except AssertionError as wrong:
                        raise AssertionError(f"{path.name}, behind line {count}: {wrong}") from None
                    compared += 1
        expect("that there was something to compare", compared > 1000, True)

    def test_planes_that_come_along_are_explained(self):
        folder = self.folder
        script = folder / "script"
        script.write_text(
            """open2 a card
a create_lease 1 7 -> lease 1 1
open l lease 1
a set_client_cap 2 1
a set_client_cap 2 0
"""
        )
        expect_end(run_program("explain", script), 0, "", EXPLAINED_PLANES)

    def test_scripts_are_explained_as_json(self):
        ran = explain("sharing", "--json", "--client", "b")
        exported = {"by": "token", "number": 1, "at": at(7, 1, "prime_export")}
        chain = [
            {"published": None, "handle": 1, "given": at(3, 1, "buf_create")},
            {"published": exported, "handle": 1, "given": at(10, 2, "prime_import")},
        ]
        standing = {"is_master": False, "master": None, "owner": None, "current": False, "since": at(2, 2, "open")}
        client = {
            "client": 2,
            "label": "b",
            "node": "render",
            "root": False,
            "closed": None,
            "authenticated": None,
            "universal_planes": {"on": True, "since": at(2, 2, "open")},
            "standing": standing,
            "may_set": [],
            "holds": [{"handle": 1, "object": 3, "front": None, "chain": chain}],
        }
        told = {"steps": 14, "device": {"master": None, "since": at(12, 1, "close")}, "clients": [client], "leases": []}
        expect_end(ran, 0, "", json.dumps(told, indent=2) + "\n")
        told = json.loads(explain("leases", "--json").stdout)
        wanted = [(3, 1, 1, 6, 30), (14, 2, 3, None, 30), (35, 2, 1, None, 39)]
        leases = [
            (row["master"], row["lessee_id"], row["lessor"], row["redeemed_by"], row["ended"]["step"])
            for row in told["leases"]
        ]
        expect("the leases", leases, wanted)
        expect("what a may set", told["clients"][0]["may_set"], [1, 2, 3, 4])

    def test_long_chains_name_the_line_of_their_first_links(self):
        """A line has at most four links that an earlier one has too, and each link is in some line."""
        folder = self.folder
        script = folder / "script"
        script.write_text(passed_on(7))
        lines = [line for line in run_program("explain", script).stdout.splitlines() if " holds " in line]
        made = "made by a at step 2 (buf_create)"
        links = [f"named at step {2 * i + 1} (name 1), opened by a at step {2 * i + 2}" for i in range(1, 7)]
        wanted = [f"a holds buffer 2 as handle {i}: " + ", ".join([made, *links[: i - 1]]) for i in range(1, 6)]
        wanted += [
            f"a holds buffer 2 as handle {i}: " + UP_TO.format(i - 4, 2 * (i - 4)) + ", ".join(links[i - 5 : i - 1])
            for i in (6, 7)
        ]
        # the fifth has five links, of which the first is in the line of the first handle
        wanted[4] = "a holds buffer 2 as handle 5: " + UP_TO.format(1, 2) + ", ".join(links[:4])
        expect("the lines", lines, wanted)
        holds = json.loads(run_program("explain", script, "--json").stdout)["clients"][0]["holds"]
        fronts = [held["front"] for held in holds]
        expect("the fronts", fronts, [None] * 4 + [{"client": 1, "handle": i, "step": 2 * i} for i in (1, 2, 3)])
        expect("the links of each", [len(held["chain"]) for held in holds], [1, 2, 3, 4, 4, 4, 4])
        given = {link["given"]["step"] for held in holds for link in held["chain"]}
        expect("the steps that gave a handle", given, {2, *(2 * i + 2 for i in range(1, 7))})

    def test_fronts_are_of_the_client_that_is_explained(self):
        """With one client alone no line of another is named."""
        folder = self.folder
        script = folder / "script"
        script.write_text(
            passed_on(6) + "open b card\na get_magic\nb get_magic\na auth_magic 2\nb gem_open 1\nb gem_open 1\n"
        )
        lines = [
            line for line in run_program("explain", script, "--client", "b").stdout.splitlines() if " holds " in line
        ]
        expect("how many lines", len(lines), 2)
        expect("whether the first has the whole chain", "made by a at step 2" in lines[0], True)
        expect("whether another client's line is named", any(" of a up to" in line for line in lines), False)
        whole = [line for line in run_program("explain", script).stdout.splitlines() if line.startswith("b holds ")]
        expect("whether the line of a is named", all(" of a up to" in line for line in whole), True)

    def test_rows_are_in_order(self):
        """Handles and leased mode objects rise. A client that opened as root is authenticated by its opening, also as a master."""
        folder = self.folder
        script = folder / "script"
        script.write_text(
            "open a root\na buf_create 1\na buf_create 1\na gem_close 1\na buf_create 1\na create_lease 8 4 2\n"
        )
        told = json.loads(run_program("explain", script, "--json").stdout)
        client = told["clients"][0]
        expect(
            "why it is authenticated", client["authenticated"], {"by": "root", "since": at(1, 1, "open"), "magic": None}
        )
        expect("its handles", [(held["handle"], held["object"]) for held in client["holds"]], [(1, 5), (2, 3)])
        expect("what is leased", told["leases"][0]["mode_objects"], [2, 4, 8])
        script.write_text("open a card\nopen b card\nb get_magic\na auth_magic 1\na drop_master\nclose a\n")
        clients = json.loads(run_program("explain", script, "--json").stdout)["clients"]
        expect("which step closed a", clients[0]["closed"], 6)
        expect(
            "why b is authenticated",
            clients[1]["authenticated"],
            {"by": "auth_magic", "since": at(4, 1, "auth_magic"), "magic": 1},
        )

    def test_answers_are_explained(self):
        folder = self.folder
        script = folder / "script"
        for text, number, told in ANSWERS:
            script.write_text(text)
            expect_end(run_program("explain", script, "--line", str(number)), 0, "", told)
        for name, number, told in ANSWERS_OF_EXAMPLES:
            expect_end(explain(name, "--line", str(number)), 0, "", told)
        # what stands after the line is not run, and what it expects is passed over
        script.write_text("open a card\na gem_close 3 -> done\nfly away\n")
        told = """\
line 2 is step 2, gem_close by a: denied 22 NoHandleToClose 22
a does not hold handle 3: no step assigned it
a holds no handle
it would pass if the caller held the handle
"""
        expect_end(run_program("explain", script, "--line", "2"), 0, "", told)

    def test_each_kind_of_fact_is_told(self):
        """The rows of the table of facts. All that differ are reported."""
        script, wrong = self.folder / "script", []
        rows = [told_of(*row[1:]) for row in FACTS]
        for _, text, fact in JOURNALS:
            lines = text.split("; ")
            head = f"line {len(lines)}: apart 50 JournalFull 28\n"
            rows.append(
                (
                    "\n".join(lines) + "\n",
                    len(lines),
                    f"{head}{fact}\nit would pass if the journal's limit were greater\n",
                )
            )
        for text, number, told in rows:
            script.write_text(text)
            ran = run_program("explain", script, "--line", str(number))
            if (ran.returncode, ran.stderr, ran.stdout) != (0, "", told):
                wrong.append(f"{text}---\n{ran.stdout}{ran.stderr}--- in place of\n{told}")
        expect(f"rows that differ, of {len(rows)}:\n" + "\n".join(wrong), len(wrong), 0)

    def test_each_kind_of_fact_has_a_row(self):
        """The variants are read in the source: one that is added needs a row."""
        enums = variants(FACTS_SOURCE)
        facts = enums.pop("Fact")
        inner = [fact.strip("(),") for name, fact in facts.items() if name != "Told"]
        expect("the kinds of facts", sorted(inner + ["Quantity"]), sorted(enums))
        enums["Subject"] = variants(LINES_SOURCE)["Subject"]
        kinds = {f"{enum}::{name}" for enum, names in enums.items() for name in names}
        rows = {kind for row in FACTS + JOURNALS for kind in row[0].split()}
        expect("kinds without a row", sorted(kinds - rows - set(NOT_IN_SCRIPTS)), [])
        expect("rows of no kind", sorted((rows | set(NOT_IN_SCRIPTS)) - kinds), [])
        remedies = [text for text in texts(REMEDIES_SOURCE) if text not in NOT_WRITTEN]
        told = {*PASSES_IF.values(), "the journal's limit were greater"}
        expect("the conditions", sorted(set(remedies)), sorted(told))

    def test_each_sentence_has_a_row(self):
        """The texts are read in the source: one that is added needs a row that has it."""
        facts = "\n".join(fact for row in FACTS for fact in row[3]) + "\n" + "\n".join(row[2] for row in JOURNALS)
        lacking = [text for text in texts(SENTENCES_SOURCE) if not is_written(text, facts)]
        expect("sentences without a row", [text for text in lacking if text not in NOT_WRITTEN], [])
        lines = "\n".join([facts, *(told for *_, told in ANSWERS + ANSWERS_OF_EXAMPLES), *EXPLAINED])
        lacking = [text for text in texts(LINES_SOURCE) if not is_written(text, lines)]
        expect("lines without a row", [text for text in lacking if text not in NOT_WRITTEN], [])

    def test_answers_are_explained_as_json(self):
        folder = self.folder
        script = folder / "script"
        script.write_text(DENIED + "b setcrtc 1 0 0\n")
        told = {
            "line": 4,
            "asked": at(3, 2, "setcrtc"),
            "label": "b",
            "answer": "denied 13 Master 13",
            "is_carried_out": False,
            "rule": 13,
            "facts": [
                "b is not current: it is no master",
                "b is no master: it joined master 1 as it opened at step 2",
                "the device's master is 1: a founded it as it opened at step 1",
            ],
            "passes_if": "the caller were current: a master whose owner is the device's master (set_master, while the device has none)",
        }
        expect_end(run_program("explain", script, "--line", "4", "--json"), 0, "", json.dumps(told, indent=2) + "\n")
        told = {
            "line": 2,
            "asked": at(1, 1, "open"),
            "label": None,
            "answer": "client 1",
            "is_carried_out": True,
            "rule": None,
            "facts": [],
            "passes_if": None,
        }
        expect_end(run_program("explain", script, "--json", "--line", "2"), 0, "", json.dumps(told, indent=2) + "\n")

    def test_lines_that_cannot_be_explained(self):
        folder = self.folder
        script = folder / "script"
        script.write_text("# a comment\nlimits 4 8 8 8 8 4 4 4\nopen a card\n\n")
        for number, reason in [
            (0, "there is no line 0: the script has 4 lines"),
            (5, "there is no line 5: the script has 4 lines"),
            (1, "line 1 makes no request"),
            (2, "line 2 makes no request"),
            (4, "line 4 makes no request"),
        ]:
            ran = run_program("explain", script, "--line", str(number))
            expect_told(ran, 3, [f"ERROR {script}: {reason}", "fault: command line"], "")
        script.write_text("open a card\nfly away\na version\n")
        cause = f"ERROR {script}:2: column 1: `fly` is not a label from a to z, limits, open, open2 or close"
        expect_told(run_program("explain", script, "--line", "3"), 2, [cause], f"{script}:2: malformed\n")

    def test_scripts_that_cannot_be_explained(self):
        folder = self.folder
        malformed = folder / "malformed"
        malformed.write_text("open a card\nfly away\n")
        cause = f"ERROR {malformed}:2: column 1: `fly` is not a label from a to z, limits, open, open2 or close"
        for words in ([], ["--json"], ["--client", "a"]):
            expect_told(run_program("explain", malformed, *words), 2, [cause], f"{malformed}:2: malformed\n")
        ran = run_program("explain", folder / "none")
        logged, *rest = ran.stderr.splitlines()
        expect("what is logged", str(folder / "none") in logged, True)
        expect("the end", (rest, ran.returncode, ran.stdout), (["fault: read"], 1, ""))
        for client in ("z", "7", "A", "lessee", "-1"):
            ran = explain("sharing", f"--client={client}")
            path = REPOSITORY / "examples/sharing.script"
            cause = f"ERROR {path}: no client has the label or number {client}"
            expect_told(ran, 3, [cause, "fault: command line"], "")

    def test_full_journals_are_explained(self):
        """What 50,000 steps gave is told of each, as lines and as JSON, and takes no more than the formats say."""
        folder = self.folder
        want_no_checks("it takes several times as long, and more memory")
        script, output = folder / "script", folder / "output"
        for count, line, field, text in full_journals():
            script.write_text(text)
            expect_explained_within(script, output)
            with open(output, encoding="utf-8") as told:
                expect(f"lines `{line}..`", sum(it.startswith(line) for it in told), count)
            # it is counted by its lines: a million values of Python's would take more memory than what is measured
            expect_explained_within(script, output, "--json")
            with open(output, encoding="utf-8") as told:
                expect(f"fields {field}", sum(it.lstrip().startswith(field) for it in told), count)


if __name__ == "__main__":
    sys.exit(run_tests())
