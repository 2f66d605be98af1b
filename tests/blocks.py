"""The blocks that the documents show, indented or between fences, for tests that what they say is so."""
import re
from typing import List, NamedTuple

from support import REPOSITORY

from worked_rows import read_groups, read_rows  # the tool, which stands in tools

FURTHER_ROWS = REPOSITORY / "tests/rows.txt"

# the comment that a document has before a block that no test runs
NOT_RUN = "<!-- This block is not run by ./test"
# how the commands begin that are in blocks without a prompt
COMMANDS = ("./", "tools/", "clients/", "bench/")


class Block(NamedTuple):
    """Some lines of a document, the words after its fence if it has one, and the part before it."""

    document: str
    line: int
    words: List[str]
    lines: List[str]
    before: str

    def place(self):
        return f"{self.document} line {self.line}"

    def text(self):
        return "".join(line + "\n" for line in self.lines)

    def language(self):
        return self.words[0] if self.words else ""

    def is_script(self):
        return self.language() == "script" or not self.words and any(" -> " in line for line in self.lines)

    def is_terminal(self):
        return self.language() == "console" or not self.words and self.lines[0].startswith("$ ")

    def is_of_commands(self):
        return not self.words and self.lines[0].startswith(COMMANDS)

    def is_said_not_to_be_run(self):
        return NOT_RUN in self.before

    def pairs(self):
        """The lines of a script, and the answers to those that have one."""
        pairs = [re.split(r" *-> ", line) for line in self.lines if not line.startswith("#")]
        return [pair[0] for pair in pairs], [pair[1] for pair in pairs if len(pair) == 2]


def documents():
    """The paths of all documents."""
    found = [
        path
        for folder in ("", "docs/", "docs/guides/", "clients/*/", "bench/")
        for path in REPOSITORY.glob(f"{folder}*.md")
    ]
    return sorted(str(path.relative_to(REPOSITORY)) for path in found)


def parts_of(path):
    """Returns the parts of a document between empty lines, each with its first line's number. A fenced block is one part."""
    found, part, is_fenced = [], [], False
    for number, line in enumerate([*(REPOSITORY / path).read_text().splitlines(), ""], 1):
        is_fenced ^= line.startswith("```")
        if line or is_fenced:
            part.append(line)
        elif part:
            found.append((number - len(part), part))
            part = []
    return found


def blocks_of(path):
    """The blocks of a document."""
    found = []
    parts = parts_of(path)
    for place, (number, part) in enumerate(parts):
        before = " ".join(parts[place - 1][1]) if place else ""
        if part[0].startswith("```"):
            found.append(Block(path, number, part[0][3:].split(), part[1:-1], before))
        elif all(line.startswith("    ") for line in part):
            found.append(Block(path, number, [], [line[4:] for line in part], before))
    return found


def commands_of(lines):
    """Returns the commands among lines of a terminal, each with what it prints. `> ` continues a command."""
    found = []
    for line in lines:
        if line.startswith("$ "):
            found.append(([line[2:]], []))
        elif line.startswith("> ") and not found[-1][1]:
            found[-1][0].append(line[2:])
        elif found:
            found[-1][1].append(line)
    return [("\n".join(command), "".join(line + "\n" for line in printed)) for command, printed in found]


def tables_of(path):
    """The tables of a document, each as its rows of cells, without the head."""
    tables = [part for _, part in parts_of(path) if part[0].startswith("|")]
    return [[[cell.strip() for cell in row.strip("|").split("|")] for row in part[2:]] for part in tables]


def rows_of(rows):
    """The lines and the answers of rows, by their names."""
    return [(f"row {row.name}", row.asked(), [line.answer for line in row.lines]) for row in rows]


def worked_rows():
    """The lines and the answers of the worked rows, by their names."""
    return rows_of(read_rows())


def further_rows():
    """The same of the rows of tests/rows.txt."""
    groups = read_groups(FURTHER_ROWS.read_text())
    return rows_of(row for group in groups for row in group.rows)


def is_answer(found, wanted):
    """Returns whether a line is the expected one; `denied N` and `apart N` are short for the whole line."""
    short = re.fullmatch(r"(denied|apart) \d+", wanted)
    return found.startswith(wanted + " ") if short else found == wanted
