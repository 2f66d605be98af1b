#!/usr/bin/env python3
"""Writes what is made from the worked rows: lemmas of drm_model, and files of examples/rows.

tools/worked_rows.txt has the rows, and describes their form. From each row the tool makes a lemma, which the check of
drm_model refuses if the definitions have other answers, and a file for `drm_server check`.

Exit status:
  0  the files were written, or are up to date
  1  with --check: a file is stale or superfluous
  2  a refused command line

Examples:
  tools/worked_rows.py --check
"""
import pathlib
import re
import sys
from typing import Dict, Iterable, List, NamedTuple, Tuple

sys.dont_write_bytecode = True
from command_line import parser_of  # noqa: E402  (it is in this folder)

REPOSITORY = pathlib.Path(__file__).resolve().parent.parent
SOURCE = REPOSITORY / "tools/worked_rows.txt"
CRATES = REPOSITORY / "crates"
PROOFS = CRATES / "drm_model/proofs"
SCRIPTS = REPOSITORY / "examples/rows"
# all files that are made
MADE = ((PROOFS, "Worked*.antt"), (SCRIPTS, "*.script"))
# the word of each answer that is written as numbers, and its variant
ANSWERS = {
    "done": "Done",
    "closed": "Closed",
    "client": "Opened",
    "version": "VersionIs",
    "number": "Number",
    "dumb": "Dumb",
    "buffer": "Buffer",
    "plane": "Plane",
    "framebuffer": "Framebuffer",
    "lease": "LeaseIs",
}
# the kinds of an audit, by number from 1
KINDS = "Client Master Object Name Token Hold Grant Framebuffer Shown Device".split()
LIMITS = "clients handles names tokens objects framebuffers lessees journal".split()
PROGRAM = "64 65535 65535 65535 65535 64 64 100000".split()
# whether universal planes are on after an opening by each version of the hello
OPENINGS = {"open": "true", "open2": "false"}
# the files of specs/ whose definitions a computation opens; all of them where none is named
OPENED = {
    "drm_index_array": ["Least", "Orders", "Numbers", "Chains"],
    "drm_modes": ["Numbers"],
    "drm_table": [],
    "drm_model": [],
}
# what no verdict, change or answer asks
UNASKED = {"family_of"}
TOPOLOGY = "record { crtcs = 2; planes = 1 ∷ 2 ∷ []; kinds = PrimaryPlane 1 ∷ OverlayPlane ∷ []; encoders = 3 ∷ 2 ∷ []; connectors = 5 ∷ 6 ∷ [] }"


class Line(NamedTuple):
    """A line of a script, and the answer that it must get."""

    asked: str
    answer: str

    def text(self) -> str:
        return f"{self.asked} -> {self.answer}"


class Row(NamedTuple):
    """A script on a device of these limits, or of the program's where there are none."""

    name: str
    limits: List[str]
    lines: List[Line]

    def limits_lines(self) -> List[str]:
        return ["limits " + " ".join(self.limits)] if self.limits else []

    def asked(self) -> List[str]:
        """The script without its answers."""
        return [*self.limits_lines(), *(line.asked for line in self.lines)]

    def text(self) -> str:
        return "".join(f"{line}\n" for line in [*self.limits_lines(), *(line.text() for line in self.lines)])


class Group(NamedTuple):
    """Rows about one thing."""

    name: str
    about: str
    rows: List[Row]


class Refusal(NamedTuple):
    """Returns a rule, or a fault."""

    name: str
    number: int


class Definitions(NamedTuple):
    """Returns what a row's lines mean: each rule and each thing apart by its number, the variant and the number of each call by its
    word, and the definitions that a computation opens, by crate and file."""

    rules: Dict[int, Refusal]
    aparts: Dict[int, Refusal]
    calls: Dict[str, Tuple[str, int]]
    opened: Dict[Tuple[str, str], List[str]]


# what is read


def read_groups(text: str) -> List[Group]:
    """The rows of the source."""
    groups: List[Group] = []
    for line in text.splitlines():
        if line.startswith("group "):
            name, about = line[len("group ") :].split(": ", 1)
            groups.append(Group(name, about, []))
        elif line.startswith("row "):
            groups[-1].rows.append(Row(line[len("row ") :], [], []))
        elif line.startswith("limits "):
            groups[-1].rows[-1].limits.extend(line.split()[1:])
        elif line and not line.startswith("#"):
            asked, arrow, answer = line.partition(" -> ")
            if not arrow:
                raise ValueError(f"no answer of {line}")
            groups[-1].rows[-1].lines.append(Line(asked, answer))
    return groups


def read_rows() -> List[Row]:
    """All rows, in the order of the source."""
    return [row for group in read_groups(SOURCE.read_text()) for row in group.rows]


def read_refusals(text: str, table: str) -> Dict[int, Refusal]:
    """A table of drm_table's rules, by number."""
    rows = re.findall(rf"^{table} (\w+) = refusal_row (\d+) \w+ ", text, re.M)
    return {int(number): Refusal(name, int(number)) for name, number in rows}


def read_calls(text: str) -> Dict[str, Tuple[str, int]]:
    """The variant and the number of each call, by its word in a script."""
    rows = re.findall(r'^kind_row kinds\.(\w+) = table_row (0x\w+) \(codes "\w+"\) \(codes "(\w+)"\)', text, re.M)
    return {word: (kind, int(number, 16)) for kind, number, word in rows}


def read_opened(crate: str, files: List[str]) -> Dict[Tuple[str, str], List[str]]:
    """The definitions of each file of a crate's specs/ that a computation has to open."""
    found = {}
    for path in sorted((CRATES / crate / "specs").glob("*.antt")):
        names = [
            name for name in re.findall(r"^unfoldable pub ([a-z]\w*) :", path.read_text(), re.M) if name not in UNASKED
        ]
        if names and (not files or path.stem in files):
            found[crate, path.stem] = names
    return found


def read_definitions() -> Definitions:
    rules = (CRATES / "drm_table/specs/Rules.antt").read_text()
    calls = (CRATES / "drm_table/specs/Table.antt").read_text()
    opened: Dict[Tuple[str, str], List[str]] = {}
    for crate, files in OPENED.items():
        opened.update(read_opened(crate, files))
    return Definitions(read_refusals(rules, "rule_row"), read_refusals(rules, "apart_row"), read_calls(calls), opened)


# lemmas


def term(name: str, *arguments: str) -> str:
    return f"({' '.join([name, *arguments])})" if arguments else name


def bare(text: str) -> str:
    return text[1:-1] if text.startswith("(") else text


def listed(terms: Iterable[str]) -> str:
    return "(" + "".join(f"{one} ∷ " for one in terms) + "[])"


def listed_ids(text: str) -> str:
    return listed([] if text == "-" else text.split(","))


def answer_term(text: str, known: Definitions) -> str:
    """Returns an answer as the definitions write it."""
    word, *rest = text.split()
    if word == "apart":
        return term("Err", known.aparts[int(rest[0])].name)
    if word == "denied":
        return term("Ok", term("Denied", "Denied" + known.rules[int(rest[0])].name))
    if word == "rows":
        return term("Ok", term("AuditIs", listed(term("audit_row", *row.split()) for row in text.split(" | ")[1:])))
    if word == "list":
        return term("Ok", term("ListIs", listed_ids(rest[0])))
    if word == "crtcs":
        return term("Ok", term("Resources", *(listed_ids(ids) for ids in rest[::2])))
    return term("Ok", term(ANSWERS[word], *rest))


def opening_term(words: List[str], universal: str) -> str:
    if words[0] in ("lease", "rootlease"):
        return term("Lease", words[1], "true" if words[0] == "rootlease" else "false", universal)
    if words[0] == "render":
        return "Render"
    return term("Primary", "true" if words[0] == "root" else "false", universal)


def call_term(word: str, fields: List[str], known: Definitions) -> str:
    if word == "raw":
        return term(
            "BadLayout" if int(fields[0]) in {number for _, number in known.calls.values()} else "UnknownCall", *fields
        )
    name, _ = known.calls[word]
    if name == "Audit":
        return term(name, "Of" + KINDS[int(fields[0]) - 1], fields[1])
    if name == "CreateLease":
        return term(name, listed(fields))
    return term(name, *fields)


def event_term(asked: str, labels: Dict[str, str], known: Definitions) -> str:
    """Returns a line of a script as an event. An unbound label is client 0."""
    first, *rest = asked.split()
    if first in OPENINGS:
        return term("Open", opening_term(rest[1:], OPENINGS[first]))
    if first == "close":
        return term("Close", labels.get(rest[0], "0"))
    return term("Ask", labels.get(first, "0"), call_term(rest[0], rest[1:], known))


def event_terms(row: Row, known: Definitions) -> List[str]:
    labels: Dict[str, str] = {}
    events = []
    for asked, answer in row.lines:
        events.append(bare(event_term(asked, labels, known)))
        if asked.split()[0] in OPENINGS and answer.startswith("client "):
            labels[asked.split()[1]] = answer.split()[1]
    return events


def imports(known: Definitions) -> List[Tuple[str, List[str]]]:
    """The modules that a lemma may need, each with the names that it may need of it."""
    table = "Rattle.drm_table.specs.declared"
    answers = "Done, Opened, Version as VersionIs, Number, Dumb, Buffer, Resources, Plane, Framebuffer, Lease as LeaseIs, \
List as ListIs, Audit as AuditIs, Closed, Denied"
    return [
        ("Rattle.std.proofs.Common", "◌≡◌, true, false, List, ◌∷◌, map, Result, Ok, Err, refl, []".split(", ")),
        (f"{table}.answers.Answer", ["Answer"]),
        (f"{table}.answers.Answer.TheVariants", answers.split(", ")),
        (f"{table}.apart.Apart", ["Apart"]),
        (f"{table}.apart.Apart.TheVariants", [apart.name for apart in known.aparts.values()]),
        (
            f"{table}.rules.Rule.TheVariants",
            sorted(f"{rule.name} as Denied{rule.name}" for rule in known.rules.values()),
        ),
        (
            f"{table}.calls.Call.TheVariants",
            ["Unknown as UnknownCall", "BadLayout", *(kind for kind, _ in known.calls.values())],
        ),
        (f"{table}.events.Event", ["Event"]),
        (f"{table}.events.Event.TheVariants", ["Open", "Ask", "Close"]),
        (f"{table}.events.Opening.TheVariants", ["Primary", "Render", "Lease"]),
        (f"{table}.limits.Limits", ["Limits"]),
        (f"{table}.audits.AuditKind.TheVariants", [f"{kind} as Of{kind}" for kind in KINDS]),
        *((f"Rattle.{crate}.specs.{file}", names) for (crate, file), names in known.opened.items()),
        ("Rattle.drm_model.specs.Audit", ["audit_row"]),
        ("Rattle.drm_model.specs.Rows", ["empty_rows"]),
        (
            "Rattle.drm_modes.specs.declared.kinds.PlaneKind.TheVariants",
            ["Overlay as OverlayPlane", "Primary as PrimaryPlane"],
        ),
        ("Rattle.drm_modes.specs.Topology", ["Topology"]),
    ]


def is_used(name: str, body: str) -> bool:
    """Whether a lemma needs a name that it may import; those of its operators it always does."""
    return not name[0].isalpha() or re.search(rf"(?<!\w){name.split()[-1]}(?!\w)", body) is not None


def used_imports(known: Definitions, body: str) -> str:
    used = [(module, [name for name in names if is_used(name, body)]) for module, names in imports(known)]
    return "".join(f"use {module}.{{{', '.join(names)}}}\n" for module, names in used if names)


def limits_term(row: Row) -> str:
    """The limits that a row names, or those of the program."""
    named = "; ".join(f"{field} = {value}" for field, value in zip(LIMITS, row.limits))
    return f"(record {{ {named} }})" if row.limits else "program_limits"


def lemma(row: Row, known: Definitions) -> str:
    """Returns the lemma that a row's answers follow from the definitions: each event with its answer."""
    steps = (
        f"    ({event}, {bare(answer_term(line.answer, known))}) ∷\n"
        for event, line in zip(event_terms(row, known), row.lines)
    )
    opened = " ".join(name for names in known.opened.values() for name in names)
    return f"""
abbrev {row.name}-steps : List (Event × Result Answer Apart)
{row.name}-steps =
{"".join(steps)}    []

pub {row.name} : Gives {limits_term(row)} {row.name}-steps
unfolding {opened}
{row.name} = refl
"""


def lemmas(group: Group, known: Definitions) -> str:
    """The file of a group's lemmas."""
    limits = "; ".join(f"{field} = {value}" for field, value in zip(LIMITS, PROGRAM))
    body = f"""abbrev test_topology : Topology
test_topology = {TOPOLOGY}

abbrev program_limits : Limits
program_limits = record {{ {limits} }}

-- on a new device of these limits each event gets its answer
abbrev Gives : Limits → List (Event × Result Answer Apart) → Type 0
Gives limits steps = results (empty_rows test_topology limits) (map (λ step. step.0) steps) ≡ map (λ step. step.1) steps
{"".join(lemma(row, known) for row in group.rows)}"""
    head = f"-- Made by tools/worked_rows.py: worked rows, as the definitions compute them. {group.about}\n"
    return f"{head}{used_imports(known, body)}\n{body}"


def module_of(group: Group) -> str:
    return "Worked" + group.name.capitalize()


def library(groups: List[Group], text: str) -> str:
    """The list of drm_model's proofs, with the lemmas of these rows in place of those that it has."""
    kept = [line for line in text.splitlines() if not line.startswith("pub mod Worked")]
    return "".join(f"{line}\n" for line in [*kept, *(f"pub mod {module_of(group)}" for group in groups)])


# what is written


def made_files(groups: List[Group]) -> Dict[pathlib.Path, str]:
    """All files that are made of the rows, and what they have."""
    known = read_definitions()
    library_path = PROOFS / "Lib.antt"
    files = {library_path: library(groups, library_path.read_text())}
    files.update((PROOFS / f"{module_of(group)}.antt", lemmas(group, known)) for group in groups)
    files.update((SCRIPTS / f"{row.name}.script", row.text()) for group in groups for row in group.rows)
    return files


def superfluous_files(files: Dict[pathlib.Path, str]) -> List[pathlib.Path]:
    """Returns the made files that no row has."""
    return sorted(path for folder, pattern in MADE for path in folder.glob(pattern) if path not in files)


def stale_files(files: Dict[pathlib.Path, str]) -> List[pathlib.Path]:
    """Files that aren't there or that have something else."""
    return sorted(path for path, text in files.items() if not path.exists() or path.read_text() != text)


def main() -> int:
    parser = parser_of("worked_rows.py", __doc__)
    parser.add_argument("--check", action="store_true", help="write nothing, and list the stale and superfluous files")
    is_check = parser.parse_args().check
    files = made_files(read_groups(SOURCE.read_text()))
    stale, superfluous = stale_files(files), superfluous_files(files)
    if is_check:
        for kind, paths in (("stale", stale), ("superfluous", superfluous)):
            print("".join(f"{kind}: {path.relative_to(REPOSITORY)}\n" for path in paths), end="")
        return 1 if stale or superfluous else 0
    for path in superfluous:
        path.unlink()
    for path in stale:
        path.write_text(files[path])
    return 0


if __name__ == "__main__":
    sys.exit(main())
