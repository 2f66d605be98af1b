#!/usr/bin/env python3
"""Tests of the tools that need no server: the constants of the clients, the examples of doc comments, the lemmas that nothing
leads to, and the English of the documents.

What it tests: the clients' numbers and calls are those of the server's sources and of the documents. Each tool's
`--help` has its usage, exit statuses and examples.

Each test has its own folder. The last line is `N passed, M failed`. Standard library only.
"""
import collections
import errno
import inspect
import json
import os
import re
import shutil
import sys

sys.dont_write_bytecode = True
from support import CLIENTS, REPOSITORY, FolderCase, expect, expect_end, run, run_tests  # noqa: E402

from zirkoshe import AsyncClient, Client  # noqa: E402
from zirkoshe.protocol import CALLS  # noqa: E402

from blocks import tables_of  # noqa: E402

CONSTANTS = REPOSITORY / "tools/constants"
# a function and a derive cost the gate some two seconds each, and a test in Rust more: how many lines of tests in Rust, tests,
# and functions and derives of all crates there are at most, and how many there should be
MOST = {"lines of tests": (6_837, 6_000), "tests": (100, 150), "functions and derives": (3_075, 2_700)}
FUNCTION = re.compile(r"^\s*(?:pub(?:\(\w+\))? )?(?:const )?fn \w+", re.MULTILINE)
DERIVES = re.compile(r"#\[derive\(([^)]*)\)\]")
# what the constants are read from
SOURCES = ("drm_table", "drm_frames", "drm_device", "drm_client_calls")
# what the Python client calls a field in its own way
FIELDS = {"framebuffer": "framebuffer", "lessee": "lessee_id", "from": {"list_handles": "least", "audit": "skipped"}}


def table():
    """What the sources of the server have."""
    ran = run(CONSTANTS, "--json")
    expect("error output and status", (ran.stderr, ran.returncode), ("", 0))
    return json.loads(ran.stdout)


def copied(folder):
    """The sources, the tool and the clients in a repository of their own."""
    for crate in SOURCES:
        shutil.copytree(REPOSITORY / f"crates/{crate}/src", folder / f"crates/{crate}/src")
    shutil.copytree(CLIENTS, folder / "clients")
    (folder / "tools").mkdir()
    for name in ("constants", "command_line.py"):
        shutil.copy(REPOSITORY / "tools" / name, folder / "tools")
    return folder / "tools/constants", folder / "crates/drm_table/src/rules.rt"


def examples_in(folder, most):
    """The tool in a folder with the crates but for those tests, which may have so many lines."""
    if not (folder / "crates").exists():
        ignored = shutil.ignore_patterns("out", "proofs", "specs", "must-fail", "examples")
        shutil.copytree(REPOSITORY / "crates", folder / "crates", ignore=ignored)
        shutil.copytree(REPOSITORY / "tools", folder / "tools")
        shutil.copy(REPOSITORY / "crates.txt", folder)
    tool = folder / "tools/doc_examples"
    tool.write_text(re.sub(r"^MOST_LINES = \d+$", f"MOST_LINES = {most}", tool.read_text(), flags=re.MULTILINE))
    return tool


def lines_of_examples(folder):
    """How often each line stands in the tests of examples, before they are laid out."""
    return collections.Counter(
        line for path in folder.glob("crates/*/src/examples/*.rt") for line in path.read_text().splitlines()
    )


# a crate whose contract leads to one lemma and over it to another; the third is only named by itself
LEMMAS = {
    "src/lib.rt": "pub fn one() -> u8\n    ensures it { IsOne result }\n{\n    1\n}\n",
    "specs/Ones.antt": "IsOne : ℕ → Type 0\nIsOne n = n ≡ one\n\none : ℕ\none = 1\n",
    "proofs/Ones.antt": "-- unused is named here too\nused : 1 ≡ one\nused = refl\n\nunused : ℕ → ℕ\nunused 0 = 0\nunused (suc n) = unused n\n",
    "proofs/one/Answers.antt": "use Rattle.low.proofs.Ones.{used}\n\nit = used\n",
}


def with_lemmas(folder):
    for name, text in LEMMAS.items():
        file = folder / "crates/low" / name
        file.parent.mkdir(parents=True, exist_ok=True)
        file.write_text(text)
    (folder / "tools").mkdir()
    for name in ("dead-lemmas", "command_line.py"):
        shutil.copy(REPOSITORY / "tools" / name, folder / "tools")
    return folder / "tools/dead-lemmas"


# imports all tests, and prints how many there are of each file, and how often the program was looked for
COLLECTING = """
import collections, json, sys, unittest
sys.path.insert(0, "tests")
import support

def each(suite):
    for part in suite:
        yield from each(part) if isinstance(part, unittest.TestSuite) else [part]

found = collections.Counter(type(case).__name__ for case in each(unittest.defaultTestLoader.discover("tests")))
print(json.dumps([found, support.find_program.cache_info().misses]))
"""


PROSE = REPOSITORY / "tools/prose"
# how many words and long sentences the comments of tools, tests and clients have at most; the goal is none
MOST_OLD_WORDS = 271
# a page with one of each thing that the tool lists, and with what it leaves out
PAGE = """# What stands here

A line of `nobody`, [a link](nobody.md) and an end.

    nobody reads code

```text
nobody reads this either
```

- An item with a word that
  comes late.
- LONG at the end. A short one; e.g. this.

| nobody | fine |
|---|---|
| fine | HALF `code of three` \\| HALF |

"""
PAGE = PAGE.replace("LONG", "word " * 31).replace("HALF", "word " * 15) + "A line of a paragraph.\n" * 9
LISTED = """page.md:1: "stands": write is in, represents, belongs to, is attached to
page.md:12: "comes": write is created, arrives, follows
page.md:13: a sentence of 34 words: "word word word word word word .."
page.md:15: "nobody": write the client, the caller, no client
page.md:17: a sentence of 31 words: "word word word word word word .."
page.md:19: a paragraph of 9 lines
"""


# sources with comments, and what the tool lists of them
COMMENTED = {
    "low/src/lib.rt": "//! LONG\n\n// nobody reads a plain comment\nfn one() {} // nobody\n",
    "lower/src/lib.rt": "/// Returns\n/// what nobody asked for.\n///\n/// ```rust\n/// nobody()\n/// ```\nfn one() {}\n",
    "lower/specs/Lib.antt": "-- ---- one\n\none : Nat   -- nobody\n-- What comes first.\n",
}
COMMENTS_LISTED = """crates/low/src/lib.rt:1: a sentence of 31 words: "word word word word word word .."
crates/lower/src/lib.rt:2: "nobody": write the client, the caller, no client
crates/lower/specs/Lib.antt:4: "comes": write is created, arrives, follows
   long   words crate
      1       0 low
      0       2 lower
      1       2 in all
"""


# what tools/prose reads of the messages in a source, and what it leaves out
MESSAGES = r"""//! Messages.

/// The statuses.
const STATUS: &str = "\
Exit status:
  0  done
  1  nobody came";
const WORD: &str = "nobody";
const QUOTE: char = '"'; // nobody came here
const MARK: u8 = b'\'';

#[error("it lacks a {0}")]
fn one<'a>(text: &'a str) {
    write!(text, "{told} is \"behind\" {name}")?;
    writeln!(text, "a line\n\
        and one that stands there\n")?;
    let bytes = b"no step gave it";
    let said = format!(in alloc; "{nobody} and {somebody}")?;
    error!(rt; target: PROGRAM, "{}: who asked", text);
    Arg::new(alloc, "told").about("Tells all").help(
        "a text that goes \
         on",
    )
}
"""
MESSAGES_LISTED = """crates/low/src/messages.rt:7: "nobody": write the client, the caller, no client
crates/low/src/messages.rt:7: "came": write is created, arrives, follows
crates/low/src/messages.rt:12: "lacks": write is missing, has no
crates/low/src/messages.rt:14: "behind": write after
crates/low/src/messages.rt:16: "stands": write is in, represents, belongs to, is attached to
crates/low/src/messages.rt:17: "gave": write returns, allocates, grants, receives
crates/low/src/messages.rt:19: "who asked": write the caller
crates/low/src/messages.rt:20: "Tells": write reports, returns, logs, prints
crates/low/src/messages.rt:21: "goes": write is freed, is destroyed, is removed, has exited
"""


def prose(folder, *words):
    return run(PROSE, "--repository", folder, *words)


class ToolsTests(FolderCase):
    """Tests of the tools that need no server: the constants of the clients, the examples of doc comments, the lemmas that nothing"""

    def test_constants_are_those_of_the_sources(self):
        expect_end(run(CONSTANTS, "--check"), 0, "", "")

    def test_constants_that_changed_are_told_and_made(self):
        folder = self.folder
        tool, rules = copied(folder)
        before = (folder / "clients/rust/src/constants.rs").read_text()
        rules.write_text(rules.read_text().replace('row(34, EBUSY, "LeasedOut")', 'row(44, EACCES, "LeasedOut")'))
        told = "".join(
            f"clients/{name} is out of date: run tools/constants\n"
            for name in ("c/drm_server.h", "python/zirkoshe/constants.py", "rust/src/constants.rs")
        )
        expect_end(run(tool, "--check"), 1, told, "")
        expect("a client that was only checked", (folder / "clients/rust/src/constants.rs").read_text(), before)
        expect_end(run(tool), 0, "", "")
        expect_end(run(tool, "--check"), 0, "", "")
        for name, text in (
            ("c/drm_server.h", '{44, 13, "LeasedOut"}'),
            ("python/zirkoshe/constants.py", "LEASED_OUT = 44"),
            ("rust/src/constants.rs", "LeasedOut = 44,"),
        ):
            expect(f"{text} in {name}", text in (folder / "clients" / name).read_text(), True)

    def test_constants_of_sources_that_are_no_longer_understood(self):
        folder = self.folder
        tool, rules = copied(folder)
        rules.write_text(
            rules.read_text().replace(
                'Rule::LeasedOut => row(34, EBUSY, "LeasedOut")', "Rule::LeasedOut => leased_out()"
            )
        )
        ran = run(tool)
        expect("status and output", (ran.returncode, ran.stdout), (2, ""))
        expect("the reason", ran.stderr.startswith("constants: 29 places of "), True)

    def test_examples_of_doc_comments_are_tests(self):
        """Each public type and free function is in one, and the tests are made of them."""
        expect_end(run(REPOSITORY / "tools/doc_examples", "--check"), 0, "", "")

    def test_examples_that_make_a_long_test_are_told_and_stand_in_several(self):
        """Of all that stood in one test nothing is lost."""
        folder = self.folder
        expect("status", run(examples_in(folder, 1000)).returncode, 0)
        whole = lines_of_examples(folder)
        ran = run(examples_in(folder, 20), "--check")
        expect("status and error output", (ran.returncode, ran.stderr), (1, ""))
        for told in (
            "stale: crates/drm_session_tests/src/examples/sessions.rt",
            "too long: crates/drm_session_tests/src/examples/sessions.rt: part_1",
        ):
            expect(told, told in ran.stdout.splitlines(), True)
        expect("status", run(examples_in(folder, 20)).returncode, 0)
        expect_end(run(examples_in(folder, 20), "--check"), 0, "", "")
        several = lines_of_examples(folder)
        expect("more tests", several["#[test]"] > whole["#[test]"], True)
        expect("lines that are lost", [line for line in whole - several if not line.startswith("use ")], [])

    def test_examples_with_other_imports_are_listed(self):
        folder = self.folder
        tool = examples_in(folder, 40)
        expect("status", run(tool).returncode, 0)
        rules = folder / "crates/drm_table/src/rules.rt"
        text = rules.read_text()
        rules.write_text(text.replace("use drm_table::Rule;", "use drm_table::{Answer, Rule};", 1))
        expect_end(run(tool, "--check"), 1, "", "other imports than it uses: drm_table::Rule\n")

    def test_examples_that_no_test_runs(self):
        """An example marked `no_run` is counted, and no test runs it."""
        folder = self.folder
        tool = examples_in(folder, 40)
        rules = folder / "crates/drm_table/src/rules.rt"
        text = rules.read_text()
        expect("status", run(tool).returncode, 0)
        counted = run(tool, "--count").stdout
        module = folder / "crates/drm_wire_tests/src/examples/table.rt"
        expect("a test of rules", "Rule::of_number(43)" in module.read_text(), True)
        rules.write_text(text.replace("```rust", "```rust,no_run"))
        ran = run(tool)
        expect("status and output", (ran.returncode, "no example" in ran.stdout), (0, False))
        expect("a test of rules", "Rule::of_number(43)" in module.read_text(), False)
        expect("what is counted", run(tool, "--count").stdout, counted)

    def test_examples_are_counted(self):
        head, *rows, last = run(REPOSITORY / "tools/doc_examples", "--count").stdout.splitlines()
        expect("head", head, "examples  items crate")
        counts = [(int(row.split()[0]), int(row.split()[1])) for row in rows]
        sums = [str(sum(column)) for column in zip(*counts)]
        expect("sums", last.split(), [*sums, "in", "all"])

    def test_all_runs_each_file_of_tests(self):
        files = sorted(path.stem for path in (REPOSITORY / "tests").glob("test_*.py"))
        named = re.findall(r'^    "(\w+)",$', (REPOSITORY / "tests/all").read_text(), re.MULTILINE)
        expect("files of tests", sorted(f"test_{name}" for name in named), files)

    def test_public_api_is_the_kept_one(self):
        expect_end(run(REPOSITORY / "tools/public_api", "--check"), 0, "", "")

    def test_changed_public_api_is_shown(self):
        examples_in(self.folder, 40)
        (self.folder / "tests").mkdir()
        shutil.copy(REPOSITORY / "tests/public_api.txt", self.folder / "tests")
        part = self.folder / "crates/drm_gem/src/objects.rt"
        part.write_text(part.read_text().replace("pub fn hold(", "pub fn keep("))
        ran = run(self.folder / "tools/public_api", "--check")
        expect("status", (ran.returncode, ran.stderr), (1, ""))
        expect(
            "lines",
            [line.split("(")[0] for line in ran.stdout.splitlines() if re.match("[-+]pub", line)],
            ["-pub fn Objects::hold", "+pub fn Objects::keep"],
        )

    def test_what_is_proved_does_not_grow(self):
        """What a script can show is a row of a table. A limit is what was reached, and goes down with the next change."""
        sources = {path: path.read_text() for path in (REPOSITORY / "crates").glob("*/src/**/*.rt")}
        tests = [text for path, text in sources.items() if re.search(r"/drm_(\w+_tests|test_\w+)/src/", str(path))]
        derived = [words.split(",") for text in sources.values() for words in DERIVES.findall(text)]
        found = {
            "lines of tests": sum(text.count("\n") for text in tests),
            "tests": sum(text.count("#[test]") for text in tests),
            "functions and derives": sum(len(FUNCTION.findall(text)) for text in sources.values())
            + sum(bool(word.strip()) for words in derived for word in words),
        }
        for what, (most, goal) in MOST.items():
            expect(f"whether {found[what]} {what} are at most {most} (the goal is {goal})", found[what] <= most, True)

    def test_error_numbers_are_those_of_this_system(self):
        found = table()["errnos"]
        expect("error numbers", found, {name: getattr(errno, name) for name in found})

    def test_sources_are_those_of_the_documents(self):
        """The rows of calls, answers, rules and audits, which the documents have in words of their own."""
        found = table()
        rows = [row for rows in tables_of("docs/FRAMES.md") for row in rows if re.fullmatch(r"0x[0-9A-F]{2}", row[0])]
        expect(
            "calls",
            [(row[0], row[2]) for row in rows],
            [(f"0x{call['number']:02X}", f"`{call['word']}`") for call in found["calls"]],
        )
        flags = {"ROOT": "ROOT_ONLY", "RENDER": "RENDER_ALLOW"}
        expect(
            "flags",
            [row[3] for row in rows],
            [", ".join(flags.get(flag, flag) for flag in call["flags"]) or "none" for call in found["calls"]],
        )
        answers = [
            row[0] for rows in tables_of("docs/FRAMES.md") for row in rows if re.fullmatch(r"0x[0-9A-F]{4}", row[0])
        ]
        expect(
            "answers", answers[-len(found["answers"]) :], [f"0x{number:04X}" for number in found["answers"].values()]
        )
        audits = [row[:2] for rows in tables_of("docs/RULES.md") for row in rows if len(row) == 6]
        expect("audits", audits, [[str(kind["number"]), kind["name"]] for kind in found["audits"]])

    def test_python_client_has_each_call_with_its_fields(self):
        found = table()["calls"]
        expect(
            "calls",
            {word: (call.number, call.layout) for word, call in CALLS.items()},
            {call["word"]: (call["number"], call["layout"]) for call in found},
        )
        for call in found:
            method = inspect.signature(getattr(Client, call["word"]))
            expect(
                f"{call['word']} for asyncio", str(inspect.signature(getattr(AsyncClient, call["word"]))), str(method)
            )
            names = list(method.parameters)[1:]
            renamed = [FIELDS.get(field, field) for field in call["fields"]]
            wanted = [name if isinstance(name, str) else name[call["word"]] for name in renamed]
            expect(f"fields of {call['word']}", names, wanted)

    def test_rust_client_has_each_call_with_as_many_fields(self):
        text = (CLIENTS / "rust/src/client.rs").read_text()
        told = dict(re.findall(r"pub fn (\w+)\(\s*&mut self((?:,\s+\w+: [^,)]+)*),?\s*\)", text))
        for call in table()["calls"]:
            expect(f"fields of {call['word']}", told[call["word"]].count(": "), len(call["fields"]))
            expect(f"places of {call['name']}", text.count(f"call::{call['name']})"), 1)

    def test_c_client_has_each_call_with_its_fields(self):
        """Each call's number stands once in the header, with a letter for each field, and a function has a parameter for each."""
        text = (CLIENTS / "c/drm_client.h").read_text()
        functions = dict(
            reversed(pair)
            for pair in re.findall(
                r"^static inline int (zirkoshe_\w+)\([^{]*?\)\n\{(?:\n(?!\}).*)*?\bZIRKOSHE_CALL_(\w+)\b",
                text,
                re.MULTILINE,
            )
        )
        for call in table()["calls"]:
            found = re.findall(rf"ZIRKOSHE_CALL_{call['name']}, \"(\w*)\"", text)
            expect(f"fields of {call['word']}", found, ["I" if call["layout"] == "L" else call["layout"]])
            (head,) = re.findall(rf"^static inline int {functions[call['name']]}\(([^{{]*?)\)\n", text, re.MULTILINE)
            parameters = [word for word in head.split(",")[1:] if "struct" not in word]
            expect(f"parameters of {call['word']}", len(parameters) >= len(call["fields"]), True)

    def test_lemmas_that_nothing_leads_to(self):
        folder = self.folder
        tool = with_lemmas(folder)
        expect_end(run(tool), 1, "", "crates/low/proofs/Ones.antt:5: unused\n1 names, 3 lines of them\n")
        expect_end(run(tool, "high"), 2, "dead-lemmas: unknown crates: high\n", "")
        answers = folder / "crates/low/proofs/one/Answers.antt"
        answers.write_text(answers.read_text() + "\nmore = unused\n")
        expect_end(run(tool, "low"), 0, "", "0 names, 0 lines of them\n")

    def test_definitions_of_each_promise_are_counted(self):
        """The page of promises has the number that the tool prints."""
        rows = re.findall(r"\| `(drm_\w+::[\w:]+)` \| ([\d,]+) \|", (REPOSITORY / "docs/PROMISES.md").read_text())
        expect("whether there are promises", len(rows) > 10, True)
        for promise, counted in rows:
            ran = run(REPOSITORY / "tools/trusted", promise)
            expect(f"error output and status of {promise}", (ran.stderr, ran.returncode), ("", 0))
            lines = int(re.search(r"(\d+) lines", ran.stdout.splitlines()[-1])[1])
            expect(f"lines of definitions of {promise}", f"{lines:,}", counted)

    def test_definitions_are_counted_in_the_page(self):
        """In a copy whose page has another number, --update writes the page again."""
        for name in ("tools", "crates"):
            shutil.copytree(REPOSITORY / name, self.folder / name, ignore=shutil.ignore_patterns("out", "proofs"))
        page = (REPOSITORY / "docs/PROMISES.md").read_text()
        copy = self.folder / "docs/PROMISES.md"
        copy.parent.mkdir()
        copy.write_text(re.sub(r"(\| `drm_sessions::serve` \| )[\d,]+ \|", r"\g<1>7 |", page))
        expect_end(run(self.folder / "tools/trusted", "--update"), 0, "", "")
        expect("whether the page is as before", copy.read_text() == page, True)
        for words in ((), ("--update", "drm_sessions::serve")):
            expect(f"status of trusted {words}", run(self.folder / "tools/trusted", *words).returncode, 2)

    def test_promise_that_is_none(self):
        name = "drm_device::Device::leap"
        expect_end(
            run(REPOSITORY / "tools/trusted", name),
            2,
            f"trusted: {name} is not a public function with a contract, nor a clause of one\n",
            "",
        )

    def test_help_of_each_tool(self):
        """It has the usage, the exit statuses and examples, in this order. Files without a suffix, and those that run, are tools."""
        parts = ("usage:", "Exit status:", "Examples:")
        others = [
            REPOSITORY / name
            for name in ("clients/libdrm/build", "bench/run", "bench/among", "bench/instructions", "zirkoshe")
        ]
        for tool in sorted([*(REPOSITORY / "tools").iterdir(), *others]):
            if not os.access(tool, os.X_OK) or not tool.is_file():
                continue
            ran = run(tool, "--help")
            found = sorted((ran.stdout.lower().find(part.lower()), part) for part in parts)
            wanted = (0, "", list(parts), True)
            had = (ran.returncode, ran.stderr, [part for _, part in found], found[0][0] >= 0)
            expect(f"status, errors and parts of {tool.name}", had, wanted)

    def test_unittest_has_the_tests_of_each_file(self):
        """And importing them looks for no program, and builds none."""
        ran = run(sys.executable, "-c", COLLECTING, cwd=REPOSITORY)
        expect("error output and status", (ran.stderr, ran.returncode), ("", 0))
        found, looked = json.loads(ran.stdout)
        expect("how often the program was looked for", looked, 0)
        for file, case in (
            ("tools", "ToolsTests"),
            ("with_server", "WithServerTests"),
            ("libdrm_shows", "LibdrmShowsTests"),
        ):
            text = (REPOSITORY / "tests" / f"test_{file}.py").read_text()
            expect(f"tests of {file}", found[case], len(re.findall(r"^    def test_", text, re.MULTILINE)))
        expect("tests of the documents' blocks", found["DocumentsTests"] > 150, True)

    def test_documents_are_plain_english(self):
        expect_end(run(PROSE), 0, "", "")

    def test_prose_lists_each_kind_of_thing(self):
        folder = self.folder
        (folder / "page.md").write_text(PAGE)
        (folder / "out").mkdir()
        (folder / "out/built.md").write_text("Nobody reads this.\n")
        expect_end(prose(folder), 1, "", LISTED)
        expect_end(prose(folder, "page.md"), 1, "", LISTED)
        (folder / "page.md").write_text("# A title\n\nOne sentence.\n")
        expect_end(prose(folder), 0, "", "")

    def test_prose_of_comments_is_counted(self):
        folder = self.folder
        for name, text in COMMENTED.items():
            path = folder / "crates" / name
            path.parent.mkdir(parents=True)
            path.write_text(text.replace("LONG", " ".join(["word"] * 31) + "."))
        expect_end(prose(folder, "--comments"), 0, "", COMMENTS_LISTED)
        counted = "   long   words crate\n      1       0 low\n      1       0 in all\n"
        expect("one crate", prose(folder, "--comments", "low").stdout.endswith(counted), True)
        expect_end(prose(folder, "--comments", "high"), 2, "prose: high is not the name of a crate\n", "")

    def test_prose_of_all_crates_is_checked(self):
        folder = self.folder
        for name, text in (*COMMENTED.items(), ("low/src/faults.rt", '#[error("it lacks a word")]\n')):
            path = folder / "crates" / name
            path.parent.mkdir(parents=True, exist_ok=True)
            path.write_text(text.replace("LONG", "word"))
        (folder / "page.md").write_text("One sentence.\n")
        listed = COMMENTS_LISTED.splitlines(keepends=True)[1:3]
        lacks = 'crates/low/src/faults.rt:1: "lacks": write is missing, has no\n'
        expect_end(prose(folder), 1, "", "".join([lacks, *listed]))
        expect_end(prose(folder, "page.md"), 0, "", "")
        exceptions = folder / "tools/prose-exceptions.txt"
        exceptions.parent.mkdir()
        exceptions.write_text("crates/low/src/faults.rt | lacks a word | a quotation\n")
        expect_end(prose(folder), 1, "", "".join(listed))

    def test_prose_of_messages(self):
        """All string literals of more than one word are read, where they begin, without the values that they print."""
        folder = self.folder
        for crate in ("low", "low_tests"):
            source = folder / "crates" / crate / "src/messages.rt"
            source.parent.mkdir(parents=True)
            source.write_text(MESSAGES)
        expect_end(prose(folder), 1, "", MESSAGES_LISTED)

    def test_prose_has_exceptions_with_reasons(self):
        folder = self.folder
        (folder / "tools").mkdir()
        (folder / "page.md").write_text("Nobody came. Somebody\nstands there.\n")
        exceptions = folder / "tools/prose-exceptions.txt"
        exceptions.write_text("# a comment\npage.md | Nobody came | a title\npage.md | elsewhere | a quotation\n")
        left = """page.md:1: "Somebody": write the client, the caller, no client
page.md:2: "stands": write is in, represents, belongs to, is attached to
tools/prose-exceptions.txt:3: excuses nothing
"""
        expect_end(prose(folder), 1, "", left)
        exceptions.write_text("page.md | Nobody came. Somebody |\n")
        expect_end(prose(folder), 2, "prose: tools/prose-exceptions.txt:1: malformed\n", "")

    def test_contents_are_written(self):
        """Into long pages, once, and out of pages that became short."""
        page = self.folder / "page.md"
        body = "Some words.\n\n## First `part`\n\n```text\n## not a heading\n```\n\n## Second\n\n" + "word\n" * 1500
        page.write_text(f"# Title\n\n{body}")
        tool = (REPOSITORY / "tools/contents", "--repository", self.folder)
        expect_end(run(*tool, "--check"), 1, "", "page.md: the table of contents is out of date\n")
        for _ in range(2):
            expect_end(run(*tool), 0, "", "")
            table = "- [First `part`](#first-part)\n- [Second](#second)\n"
            marks = ("<!-- written by tools/contents -->\n\n", "\n<!-- end -->\n\n")
            expect("the page", page.read_text(), f"# Title\n\n{marks[0]}{table}{marks[1]}{body}")
        page.write_text(page.read_text().replace("word\n", ""))
        expect_end(run(*tool), 0, "", "")
        expect("the short page", page.read_text(), "# Title\n\n" + body.replace("word\n", ""))

    def test_prose_of_sources_is_listed(self):
        """Comments and docstrings, and no other strings and no code."""
        sources = {
            "clients/one.c": "/* Nobody\n * reads it. */\nint behind; // behind\n",
            "tests/one.py": '"""One.\n\nIt stands there.\n"""\nTEXT = """\nnobody\n"""\n# somebody\n',
            "tools/one": "#!/bin/sh\n# nobody\necho nobody\n",
        }
        for name, text in sources.items():
            path = self.folder / name
            path.parent.mkdir()
            path.write_text(text)
        listed = """tools/one:2: "nobody": write the client, the caller, no client
tests/one.py:3: "stands": write is in, represents, belongs to, is attached to
tests/one.py:8: "somebody": write the client, the caller, no client
clients/one.c:1: "Nobody": write the client, the caller, no client
4 in all
"""
        expect_end(prose(self.folder, "--sources"), 0, "", listed)

    def test_prose_of_sources_gets_no_older(self):
        ran = run(PROSE, "--sources")
        count = int(re.search(r"(\d+) in all$", ran.stdout.strip())[1])
        expect(f"whether {count} are at most {MOST_OLD_WORDS}", count <= MOST_OLD_WORDS, True)

    def test_prose_counts_words(self):
        folder = self.folder
        (folder / "a.md").write_text("# One two\n")
        written = "<!-- written by tools/one -->\nfive six\n"
        (folder / "b.md").write_text(f"three | four\n\n{written}<!-- end -->\n\nseven\n\n{written}")
        expect_end(prose(folder, "--words"), 0, "", "      3 a.md\n      4 b.md\n      7 in all\n")
        ran = prose(folder, "none.md")
        expect("status and output", (ran.returncode, ran.stdout), (2, ""))


if __name__ == "__main__":
    sys.exit(run_tests())
