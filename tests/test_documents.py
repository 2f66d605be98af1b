#!/usr/bin/env python3
"""Tests that what the documents show is so: their scripts, terminals, commands, sessions in hex, tables and pictures.

What it tests: each block of a document; worked rows and what is made of them; `examples/`; tables and picture of
crates; the glossary; a full journal; the umask of socket files.

Each block of a document is a test; one that none here knows how to try fails, unless the document says that it isn't run. The
worked rows and the examples are tests too. The last line is `N passed, M failed`. Standard library only.
"""
import errno
import re
import socket
import subprocess
import sys

sys.dont_write_bytecode = True
from support import (  # noqa: E402
    REPOSITORY,
    FolderCase,
    add_tests,
    connect,
    end_of,
    expect,
    expect_end,
    expect_told,
    retry,
    run,
    run_program,
    run_tests,
    server,
    want_program,
)

from zirkoshe import constants, protocol  # noqa: E402

from blocks import blocks_of, commands_of, documents, is_answer, tables_of, worked_rows  # noqa: E402
from pictures import expect_picture  # noqa: E402
from terminals import expect_command, expect_commands, expect_terminal, link_top  # noqa: E402

# The examples whose answers tests/test_program.py doesn't have.
EXAMPLES = {
    "audit": """client 1
dumb 1 256 16384
dumb 2 7680 8294400
client 4
client 5
rows 3 | 1 28 1 0 | 4 1 0 0 | 5 6 1 0
rows 1 | 1 0 0 0
rows 2 | 2 16384 1 0 | 3 8294400 1 0
rows 2 | 1 1 2 0 | 1 2 3 0
rows 1 | 1 2 3 0
denied 11 RootOnly 13
closed
rows 0
rows 1 | 0 0 0 13
""",
    "denials": """client 1
client 2
denied 14 RenderAllow 13
denied 39 BadSize 22
denied 39 BadSize 22
denied 22 NoHandleToClose 22
denied 1 Unknown 22
denied 2 Layout 22
denied 3 NoClient 22
closed
denied 3 NoClient 22
""",
    "limits": """client 1
client 2
denied 43 Full 28
dumb 1 64 4096
dumb 2 64 4096
denied 43 Full 28
version 1 0 0
version 1 0 0
apart 50 JournalFull 28
closed
closed
""",
    "masters": """client 1
client 2
buffer 1 4096
number 1
denied 12 Auth 13
number 1
done
denied 25 NoMagic 22
buffer 1 4096
done
denied 26 MasterPerm 13
client 12
done
denied 27 MasterBusy 16
closed
done
""",
    "subleases": """client 1
lease 1 1
client 3
lease 2 2
client 5
dumb 1 256 16384
number 9
done
denied 30 NoModeObject 2
""",
    "sharing": """client 1
client 2
buffer 1 8192
done
number 1
denied 14 RenderAllow 13
number 1
done
denied 23 NoName 2
buffer 1 8192
number 77
closed
denied 24 NoToken 2
number 77
""",
}


# scripts, terminals and commands


def expect_script(lines, answers):
    ran = run_program("run", script="".join(line + "\n" for line in lines))
    expect("error output and status", (ran.stderr, ran.returncode), ("", 0))
    found = ran.stdout.splitlines()
    expect("how many answers", len(found), len(answers))
    wrong = [(answer, wanted) for answer, wanted in zip(found, answers) if not is_answer(answer, wanted)]
    expect("answers in place of others", wrong, [])


def expect_example(name):
    ran = run_program("run", script=(REPOSITORY / f"examples/{name}.script").read_text())
    expect_end(ran, 0, "", EXAMPLES[name])


def expect_terminal_beside(folder, serving, block):
    """Runs clients of the server that the document starts, and compares its last line."""
    words = serving.lines[0].split()
    started = subprocess.Popen(
        [REPOSITORY / words[0], *words[1:]],
        cwd=folder,
        stdin=subprocess.DEVNULL,
        stdout=subprocess.PIPE,
        stderr=subprocess.PIPE,
        text=True,
    )
    try:
        retry((folder / "root").stat)
        for command, printed in commands_of(block.lines):
            expect_end(run("sh", "-c", f"{REPOSITORY}/{command}", cwd=folder), 0, "", printed)
        ended = end_of(started)
    finally:
        started.kill()
        started.communicate()
    expect("what went wrong", (ended.returncode, ended.stderr), (0, ""))
    text = (REPOSITORY / block.document).read_text()
    expect(f"the server's {ended.stdout!r} in the document", f"`{ended.stdout.strip()}`" in text, True)


# sessions byte by byte


def expect_frames(folder, block):
    """A session on the socket that the fence names: `>` is what a client sends, `<` what it gets, and `ends` an end."""
    with server(folder, 1, 1, 1), socket.socket(socket.AF_UNIX, socket.SOCK_STREAM) as client:
        retry(lambda: client.connect(str(folder / block.words[1])))
        for line in block.lines:
            side, shown = re.fullmatch(r"([<>]) (ends|[0-9a-f ]+?)(?:  .*)?", line).groups()
            if side == ">" and shown == "ends":
                client.shutdown(socket.SHUT_WR)
            elif side == ">":
                client.sendall(bytes.fromhex(shown))
            else:
                wanted = b"" if shown == "ends" else bytes.fromhex(shown)
                expect(line, client.recv(len(wanted) or 1, socket.MSG_WAITALL), wanted)


def expect_listing(folder, script, listing):
    """The rows that a root client sees after a script, as a listing writes them."""
    asked, answers = script.pairs()
    with server(folder, 1, 0, 1):
        clients = {}
        found = []
        for line, answer in zip(asked, answers):
            who, *call = line.split()
            if who == "open":
                clients[call[0]] = connect(folder / call[1])
                found.append(protocol.words(clients[call[0]].opened))
            else:
                found.append(clients[who].ask(" ".join(call)))
        expect("answers", found, answers)
        # an audit is a step itself, so the row of the device is read first
        pages = {kind: clients["q"].audit(kind) for kind in (10, *range(1, 10))}
    names = [row[1] for table in tables_of("docs/RULES.md") for row in table if len(row) == 6]
    rows = [" ".join(map(str, [name, *row])) for kind, name in enumerate(names, 1) for row in pages[kind]]
    expect("rows", rows, listing.lines)


# pages with programs


# the most words of each page that has more than others, and of all together
MOST_WORDS_OF_OTHERS = 1_420
MOST_WORDS = {
    "CHANGELOG.md": 1_500,
    "docs/ARCHITECTURE.md": 3_230,
    "docs/COMMANDS.md": 3_750,
    "docs/DECISIONS.md": 4_181,
    "docs/FRAMES.md": 1_700,
    "docs/LIBDRM.md": 3_340,
    "docs/PROMISES.md": 8_268,
    "docs/RULES.md": 4_071,
    "docs/SERVER.md": 1_970,
    "in all": 49_708,
}

# the folder of examples that each guide shows
GUIDES = {
    "docs/guides/compositor.md": "tutorial",
    **{f"docs/guides/{name}.md": name for name in ("toolkit", "sandbox", "ci")},
}


def expect_excerpt(block):
    """An excerpt of a file is in one file of the guide's examples, after an empty line or at its beginning."""
    text = block.text()
    files = [
        path.read_text() for path in (REPOSITORY / "examples" / GUIDES[block.document]).iterdir() if path.is_file()
    ]
    found = [place for place in files if place.startswith(text) or f"\n\n{text}" in place]
    expect("number of example files that have it", len(found), 1)


def expect_page(folder, language, ending):
    """A client's page: its program, and its terminals at the top of the repository."""
    page = f"clients/{language}/README.md"
    link_top(folder)
    blocks = blocks_of(page)
    expect("kinds of blocks", {block.language() for block in blocks}, {language, "console"})
    (program,) = [block for block in blocks if block.language() == language]
    (folder / f"lease.{ending}").write_text(program.text())
    for block in blocks:
        for command, printed in commands_of(block.lines if block.is_terminal() else []):
            expect_command(folder, command, printed)


def expect_known(block):
    raise AssertionError("no test tries this block, and the document doesn't say that it isn't run")


# the crates


def crates():
    """The crates of crates.txt, each with the libraries that it names."""
    lines = [line for line in (REPOSITORY / "crates.txt").read_text().splitlines() if line and not line.startswith("#")]
    return {line.split(":")[0].split()[0]: line.split(":")[1].split() for line in lines}


def expect_drawing(block):
    """A drawing names no crate that there isn't."""
    named = set(re.findall(r"\bdrm_[a-z_]+", block.text()))
    expect("crates that there aren't", named - set(crates()), set())


# all blocks of all documents


def named(name, test):
    test.__name__ = name
    return test


def trial_of(block, before):
    """What tries a block, given those before it in its document: a function of a folder, or none where nothing is to be run."""
    serving = [earlier for earlier in before if earlier.lines[0].startswith("./drm_server serve ")]
    # tests/test_packages.py tries what that page shows
    if block.is_said_not_to_be_run() or block.document.startswith(("clients/", "docs/TESTING.md")):
        return None
    if block.is_script():
        return lambda folder: expect_script(*block.pairs())
    if block.is_terminal() and block.lines[0].startswith("$ clients/python/drm-client") and serving:
        return lambda folder: expect_terminal_beside(folder, serving[-1], block)
    if block.is_terminal():
        return lambda folder: expect_terminal(folder, block)
    if block.is_of_commands():
        # a server is started by the test of the terminal next to it
        return (
            None if block.lines[0].startswith("./drm_server serve ") else lambda folder: expect_commands(folder, block)
        )
    kinds = {
        "hex": lambda folder: expect_frames(folder, block),
        "listing": lambda folder: expect_listing(folder, before[-1], block),
        "python": lambda folder: expect_excerpt(block),
        "sh": lambda folder: expect_excerpt(block),
        "yaml": lambda folder: expect_excerpt(block),
        "dockerfile": lambda folder: expect_excerpt(block),
        "text": lambda folder: expect_drawing(block),
    }
    return kinds.get(block.language(), lambda folder: expect_known(block))


def document_tests():
    """A test for each block of the documents, for each worked row, and for each example."""
    tests = []
    for document in documents():
        blocks = blocks_of(document)
        for place, block in enumerate(blocks):
            test = trial_of(block, blocks[:place])
            tests += [named(f"test_block: {block.place()}", test)] if test is not None else []
    for name, lines, answers in worked_rows():
        tests.append(
            named(f"test_script: {name}", lambda folder, asked=lines, wanted=answers: expect_script(asked, wanted))
        )
    for name in EXAMPLES:
        tests.append(named(f"test_example: {name}", lambda folder, example=name: expect_example(example)))
    return {test.__name__: test for test in tests}


def headings_of(file):
    """The headings of a document, as links name them."""
    lines = re.findall(r"^#+ (.*)$", file.read_text(), re.MULTILINE)
    return {re.sub(r"[^\w\s-]", "", line).strip().lower().replace(" ", "-") for line in lines}


class DocumentsTests(FolderCase):
    """Tests that what the documents show is so: their scripts, terminals, commands, sessions in hex, tables and pictures."""

    def test_page_of_the_python_client(self):
        folder = self.folder
        expect_page(folder, "python", "py")

    def test_page_of_the_c_client(self):
        folder = self.folder
        want_program("cc")
        expect_page(folder, "c", "c")

    def test_page_of_the_rust_client(self):
        folder = self.folder
        want_program("rustc")
        expect_page(folder, "rust", "rs")

    def test_steps_of_a_request_are_functions(self):
        steps = tables_of("docs/ARCHITECTURE.md")[0]
        expect("steps", [row[0] for row in steps], [str(number + 1) for number in range(min(len(steps), 25))])
        for _, _, place, function in steps:
            crate, file = place.strip("`").split("/")
            source = (REPOSITORY / "crates" / crate / "src" / file).read_text()
            name = function.strip("`")
            expect(f"whether {place} has {name}", re.search(rf"\bfn {name}\b", source) is not None, True)

    def test_layers_of_the_architecture(self):
        """The page opens with those of crates.txt, and a crate depends on none of a layer that is later there."""
        ran = run(REPOSITORY / "tools/crates_picture.py", "--layers")
        expect_end(ran, 0, "", ran.stdout)
        layers = [re.findall(r"`(\w+)`", line) for line in ran.stdout.splitlines()]
        rows = "| layer | crates | what it is |\n|---|---|---|\n" + ran.stdout
        expect("the page opens with these layers", rows in (REPOSITORY / "docs/ARCHITECTURE.md").read_text(), True)
        expect("crates", sorted(sum(layers, [])), sorted(crates()))
        high = {crate: place for place, layer in enumerate(layers) for crate in layer}
        expect(
            "crates on a layer above",
            [
                (crate, other)
                for crate, others in crates().items()
                for other in others
                if other in high and high[other] < high[crate]
            ],
            [],
        )

    def test_picture_of_the_crates(self):
        """It is that of crates.txt, names all crates, and is drawn clearly."""
        ran = run(REPOSITORY / "tools/crates_picture.py")
        expect_end(ran, 0, "", (REPOSITORY / "docs/crates.svg").read_text())
        expect("crates", sorted(re.findall(r">(drm_[a-z_]+)<", ran.stdout)), sorted(crates()))
        expect_picture(ran.stdout, ran.stdout.count('<rect class="box"'), ran.stdout.count('<path class="arrow"'))

    def test_pages_that_tools_write(self):
        """The lists of crates and of tests, and the tables of contents."""
        for tool in ("pages", "contents"):
            expect_end(run(REPOSITORY / "tools" / tool, "--check"), 0, "", "")

    def test_pages_have_at_most_their_words(self):
        """And all pages together, as tools/prose counts them."""
        ran = run(REPOSITORY / "tools/prose", "--words")
        words = {page: int(count) for count, page in (line.split(None, 1) for line in ran.stdout.splitlines())}
        expect("pages of their own limit", set(MOST_WORDS) - set(words), set())
        expect(
            "pages that are too long",
            [(page, count) for page, count in words.items() if count > MOST_WORDS.get(page, MOST_WORDS_OF_OTHERS)],
            [],
        )

    def test_calls_of_the_glossary(self):
        """It has each call of the core once, by its word, with its name in libdrm, which the C client's follows."""
        header = (REPOSITORY / "clients/c/drm_client.h").read_text()
        rows = [row for table in tables_of("docs/GLOSSARY.md") for row in table if row[0].strip("`") in protocol.CALLS]
        wanted = [word for word, call in protocol.CALLS.items() if not 0x40 <= call.number <= 0x9F]
        expect("calls", sorted(row[0].strip("`") for row in rows), sorted(wanted))
        for word, libdrm, _ in rows:
            named = re.fullmatch(r"`(\w+)`", libdrm)
            function = f"zirkoshe_{named[1] if named else word.strip('`')}"
            expect(f"the function {function}", f" {function}(struct zirkoshe_client" in header, True)

    def test_rules_of_the_rules_page(self):
        """It has each rule and each fault once, with its name and errno, in the order of their numbers."""
        rules = {**constants.RULES, **constants.APARTS}
        wanted = [
            [f"{number} {name}", f"{errno.errorcode[error]} ({error})"]
            for number, (name, error) in sorted(rules.items())
        ]
        (table,) = (table for table in tables_of("docs/RULES.md") if table[0][0] == "1 Unknown")
        expect("the table", [row[:2] for row in table], wanted)

    def test_journal_is_full(self):
        """100,000 steps: what follows them changes nothing, and the closing has its place."""
        folder = self.folder
        asked, most = protocol.frame(0x00), 100_000
        with server(folder, 1, 0, 0) as started:
            client = connect(folder / "card")
            sizes = []
            for _ in range(most // 1000):
                client.socket.sendall(1000 * asked)
                for _ in range(1000):
                    length = int.from_bytes(client.socket.recv(4, socket.MSG_WAITALL), "little")
                    sizes.append(length)
                    body = client.socket.recv(length, socket.MSG_WAITALL)
            expect("the last answer", protocol.pack("HII", 0x2001, 50, 28), body)
            # the opening, 99,998 requests, and the closing
            expect("how many are carried out", sizes.count(14), most - 2)
            client.close()
            told = "the journal is full: requests are answered with fault 50 (the last number of --limits is the most steps)"
            expect_told(end_of(started), 0, [f"ERROR {told}"], "device 0 0 0 100000\n")

    def test_files_of_sockets_have_the_permissions_of_the_umask(self):
        folder = self.folder
        words = [f"--{name} {folder}/{name}" for name in ("card", "render", "root")]
        program = REPOSITORY / "drm_server"
        started = subprocess.Popen(
            ["sh", "-c", f"umask 077; exec {program} serve {' '.join(words)}"],
            stdin=subprocess.DEVNULL,
            stdout=subprocess.PIPE,
            stderr=subprocess.PIPE,
            text=True,
        )
        try:
            found = retry((folder / "root").stat)
            expect("permissions", oct(found.st_mode & 0o777), oct(0o700))
        finally:
            started.kill()
            started.communicate()

    def test_every_example_is_tried(self):
        tried = {"buffer.script", "modes.script", "leases.script", "lease_clients.py"}  # in tests/test_program.py
        tried |= {"libdrm_lease.c"}  # in tests/test_libdrm.py
        tried |= {"session_picture.py", *(f"{name}.script" for name in EXAMPLES)}
        there = {path.name for path in (REPOSITORY / "examples").iterdir() if path.is_file()}
        expect("examples", there, tried)
        folders = {path.name for path in (REPOSITORY / "examples").iterdir() if path.is_dir()}
        expect("folders", folders, {"rows", "linux", "topologies", *GUIDES.values()})
        for guide, name in GUIDES.items():
            shown = (REPOSITORY / guide).read_text()
            for path in (REPOSITORY / "examples" / name).iterdir():
                if path.is_file():  # Python may leave a folder there
                    expect(f"{path.name} in {guide}", f"examples/{name}/{path.name}" in shown, True)

    def test_edits_are_counted(self):
        gate, others = (len(list(REPOSITORY.glob(paths))) for paths in ("crates/*/must-fail/*.edit", "edits/*/*.edit"))
        first, second = (re.match(r"\d+", row[-1])[0] for row in tables_of("edits/README.md")[0])
        expect("the edits of the gate and the others", (int(first), int(second)), (gate, others))
        expect(
            "the edits of README",
            re.search(r"(\d+) edits that must fail", (REPOSITORY / "README.md").read_text())[1],
            first,
        )

    def test_what_is_made_of_the_worked_rows(self):
        ran = run(REPOSITORY / "tools/worked_rows.py", "--check")
        expect("files that the rows don't give", ran.stdout.splitlines(), [])
        expect_end(ran, 0, "", "")

    def test_topology_of_the_server_page_is_an_example(self):
        (found,) = [block for block in blocks_of("docs/SERVER.md") if block.lines[0].startswith("# A laptop")]
        expect("the topology", found.text(), (REPOSITORY / "examples/topologies/laptop.topology").read_text())

    def test_scripts_of_the_guides_are_their_files(self):
        for guide, name in GUIDES.items():
            scripts = {block.text() for block in blocks_of(guide) if block.is_script()}
            files = {path.read_text() for path in (REPOSITORY / "examples" / name).glob("*.script")}
            expect(f"the scripts of {guide}", scripts, files)

    def test_documents_link_to_what_exists(self):
        """Each relative link names a file, and a heading of it if it names one."""
        for document in documents():
            for target in re.findall(r"\]\(([^)\s]+)\)", (REPOSITORY / document).read_text()):
                path, _, heading = target.partition("#")
                if "://" in target:
                    continue
                file = (REPOSITORY / document).parent / path if path else REPOSITORY / document
                expect(f"{target} of {document}", file.exists(), True)
                if heading:
                    expect(f"the heading {target} of {document}", heading in headings_of(file), True)


add_tests(DocumentsTests, document_tests())

if __name__ == "__main__":
    sys.exit(run_tests())
