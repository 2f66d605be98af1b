"""The steps of a journal, read from its file as that grows.

    journal = Journal("journal.script")
    journal.read()
    for step in journal.window(Filter(), 0, 10).steps:
        print(step.number, step.request, step.answer)

A row is a line with a request, an opening or a closing. Each row is a step, unless its
answer is a fault. `read` takes what was added to the file. A line counts when its end
has been written. If the file is replaced by one that begins with the same bytes,
nothing changes. If it is replaced by another one, the rows are those of the new file,
and `generation` is one more.
"""

import array
import bisect
import collections
import enum
import os
import re
import stat
import threading
import time
from typing import Deque, Dict, List, NamedTuple, Optional, Sequence, Set, Tuple

from .client import PathLike
from .protocol import CALLS

#: How much of the file is read at once, and in all: no program reads more.
CHUNK = 262_144
MOST_BYTES = 33_554_432
#: How long a file may be shorter than it was before its rows are forgotten, in seconds.
#: A file that is written again is as long as before within that time.
SETTLE = 1.0
#: How many filters' rows are kept, and how many of the last clients.
MOST_FILTERS = 16
MOST_CLIENTS = 50
#: The line of a journal after which each step is a comment that names its client.
NAMELESS = b"# more clients are open here than there are labels"
COMMENTED = re.compile(
    r"# (?:(open2?) \? (.+)|(close) client (\d+)|client (\d+) ((\w+).*))$"
)
#: The words of calls, as rows have them. Both kinds of opening are `open`.
WORDS = (*CALLS, "raw", "open", "close")
NUMBERS = {word: number for number, word in enumerate(WORDS)}
#: Calls that change no row, whatever they answer.
READS = frozenset(
    "version get_cap stamp_read list_handles audit getresources getcrtc getencoder "
    "getconnector getplaneresources getplane list_lessees get_lease".split()
)


class Outcome(enum.IntEnum):
    """How a request was answered. A line without an answer may have any."""

    DONE = 0
    DENIED = 1
    FAULT = 2
    UNKNOWN = 3


class Parts(NamedTuple):
    """The parts of a line. `client` is the number that a comment has, or 0."""

    label: str
    call: str
    request: str
    answer: str
    client: int = 0

    def outcome(self) -> Outcome:
        """Returns how the request was answered."""
        if self.answer.startswith("denied "):
            return Outcome.DENIED
        if self.answer.startswith("apart "):
            return Outcome.FAULT
        return Outcome.DONE if self.answer else Outcome.UNKNOWN


class Step(NamedTuple):
    """A row of a journal.

    `row` counts rows from 0, `line` lines of the file from 1. `number` is that of the
    step; a fault has the number of the step before. `client` is the caller's, or 0.
    """

    row: int
    number: int
    line: int
    client: int
    label: str
    call: str
    request: str
    answer: str
    outcome: Outcome


class Filter(NamedTuple):
    """Which rows are shown: all by default, or those of a client, a label or a call."""

    client: int = 0
    label: str = ""
    call: str = ""
    refused_only: bool = False


class Window(NamedTuple):
    """Some of the rows that a filter shows, and how many it shows in all."""

    total: int
    steps: List[Step]


class Opened(NamedTuple):
    """A client that was opened, with its label or an empty text."""

    client: int
    label: str


def parts_of(line: bytes, are_commented: bool = False) -> Optional[Parts]:
    """Returns the parts of a line, or None if it has no request."""
    text = line.decode("ascii", "backslashreplace")
    request, _, answer = text.partition(" -> ")
    if text.startswith("#"):
        return commented(request, answer) if are_commented else None
    words = request.split(None, 2)
    if len(words) < 2 or words[0] == "limits":
        return None
    if words[0] in ("open", "open2", "close"):
        label, call = words[1], words[0][:5].rstrip("2")
    else:
        label, call = words[0], words[1]
    if len(label) != 1 or not "a" <= label <= "z" or call not in NUMBERS:
        return None
    return Parts(label, call, request.strip(), answer)


def commented(request: str, answer: str) -> Optional[Parts]:
    """Returns the parts of a step that a journal has as a comment."""
    found = COMMENTED.match(request)
    if found is None or not answer:
        return None
    opening, _, closing, closed, client, asked, call = found.groups()
    if opening:
        return Parts("", "open", request[2:], answer)
    if closing:
        return Parts("", "close", request[2:], answer, int(closed))
    return Parts("", call, asked, answer, int(client)) if call in NUMBERS else None


class Table:
    """The rows as columns of numbers, from which a row's line is parsed again."""

    def __init__(self) -> None:
        self.starts = array.array("Q")
        self.lines = array.array("L")
        self.numbers = array.array("L")
        self.clients = array.array("Q")
        self.labels = array.array("B")
        self.calls = array.array("B")
        self.outcomes = array.array("B")
        self.words: Set[str] = set()
        self.opened: Deque[Opened] = collections.deque(maxlen=MOST_CLIENTS)
        self.counts = [0] * len(Outcome)
        self.steps = 0
        self._bound: Dict[str, int] = {}

    def __len__(self) -> int:
        return len(self.starts)

    def add(self, parts: Parts, line: int, start: int) -> None:
        """Adds a row."""
        outcome = parts.outcome()
        self.steps += outcome != Outcome.FAULT
        self.counts[outcome] += 1
        self.starts.append(start)
        self.lines.append(line)
        self.numbers.append(self.steps)
        self.clients.append(self._client_of(parts, outcome))
        self.labels.append(ord(parts.label or "\0"))
        self.calls.append(NUMBERS[parts.call])
        self.outcomes.append(outcome)
        self.words.add(parts.call)

    def _client_of(self, parts: Parts, outcome: Outcome) -> int:
        """Returns the caller's number, or 0 if there is none."""
        if parts.call != "open":
            return parts.client or self._bound.get(parts.label, 0)
        word, _, number = parts.answer.partition(" ")
        if outcome == Outcome.DONE and word == "client" and number.isdigit():
            client = int(number[:18])
            self._bound[parts.label] = client
            self.opened.append(Opened(client, parts.label))
            return client
        return 0

    def shows(self, chosen: Filter, row: int) -> bool:
        """Returns whether a filter shows a row."""
        return (
            (not chosen.client or self.clients[row] == chosen.client)
            and (not chosen.label or self.labels[row] == ord(chosen.label))
            and (not chosen.call or self.calls[row] == NUMBERS.get(chosen.call))
            and (not chosen.refused_only or self.outcomes[row] in (1, 2))
        )


class Journal:
    """A journal's file. Threads may share it.

    A thread that holds `turn` finds the same rows in all that it asks.
    """

    def __init__(self, path: PathLike) -> None:
        """Opens nothing yet. A path that is not a regular file is an `OSError`."""
        self.path = os.fspath(path)
        if not stat.S_ISREG(os.stat(self.path).st_mode):
            raise OSError(f"{self.path} is not a regular file")
        self.generation = 1
        self.turn = threading.RLock()
        self._identity: Tuple[int, int] = (0, 0)
        self._at = 0  # how many bytes of the present file were read
        self._short_since: Optional[float] = None
        self._forget()

    def _forget(self) -> None:
        self._known = bytearray()
        self._parsed = 0
        self._lines = 0
        self._are_commented = False
        self._first_comment = 0  # the number of rows before the first such one
        self.limits: Optional[bytes] = None
        self.limits_line = 0
        self.unread = 0
        self._table = Table()
        self._matches: Dict[Filter, "array.array[int]"] = {}
        self._scanned: Dict[Filter, int] = {}

    # reading

    def read(self) -> bool:
        """Reads what was added to the file, and returns whether anything changed."""
        before = (self.generation, len(self._known))
        try:
            with open(self.path, "rb") as file:
                self._read_from(file.fileno())
        except FileNotFoundError:  # what is known stays
            pass
        return before != (self.generation, len(self._known))

    def _read_from(self, file: int) -> None:
        status = os.fstat(file)
        identity = (status.st_dev, status.st_ino)
        if identity != self._identity or status.st_size < self._at:
            self._identity, self._at = identity, 0
        while self._at < MOST_BYTES:
            data = os.pread(file, min(CHUNK, MOST_BYTES - self._at), self._at)
            if not data:
                break
            with self.turn:
                self._take(data)
        self._settle()

    def _take(self, data: bytes) -> None:
        """Takes the next bytes: as those that are known, or new ones, or other ones."""
        known = self._known[self._at : self._at + len(data)]
        if data.startswith(known):
            self._known += data[len(known) :]
            self._at += len(data)
            self._parse()
        else:
            self._forget()
            self.generation += 1
            self._at = 0

    def _settle(self) -> None:
        """Forgets the rows of a file that stays shorter than it was."""
        if self._at >= len(self._known) or self._at == MOST_BYTES:
            self._short_since = None
        elif self._short_since is None:
            self._short_since = time.monotonic()
        elif time.monotonic() - self._short_since > SETTLE:
            with self.turn:
                self._short_since = None
                self._forget()
                self.generation += 1
                self._at = 0

    def _parse(self) -> None:
        """Adds the rows of the lines that have ended."""
        end = self._known.rfind(b"\n", self._parsed) + 1
        if not end:
            return
        start = self._parsed
        for line in bytes(self._known[start : end - 1]).split(b"\n"):
            self._lines += 1
            self._add(line, start)
            start += len(line) + 1
        self._parsed = end

    def _add(self, line: bytes, start: int) -> None:
        parts = parts_of(line, self._are_commented)
        if parts is not None:
            self._table.add(parts, self._lines, start)
        elif line.startswith(NAMELESS):
            self._are_commented = True
            self._first_comment = len(self._table)
        elif line.startswith(b"limits ") and not self._table:
            self.limits, self.limits_line = line, self._lines
        elif line.strip(b" ") and not line.startswith(b"#"):
            self.unread += 1

    # what is known

    @property
    def rows(self) -> int:
        """The number of rows."""
        return len(self._table)

    @property
    def steps(self) -> int:
        """The number of steps."""
        return self._table.steps

    @property
    def counts(self) -> Sequence[int]:
        """The number of rows of each outcome."""
        return tuple(self._table.counts)

    @property
    def calls(self) -> Sequence[str]:
        """The words of the calls that rows have."""
        with self.turn:
            return tuple(filter(self._table.words.__contains__, WORDS))

    @property
    def opened(self) -> Sequence[Opened]:
        """The clients that were opened last."""
        with self.turn:
            return tuple(self._table.opened)

    @property
    def is_cut(self) -> bool:
        """Whether the file is longer than what a program reads."""
        return self._at >= MOST_BYTES

    def has_comments_before(self, rows: int) -> bool:
        """Returns whether one of the first rows is a step without a label."""
        return self._are_commented and rows > self._first_comment

    def step(self, row: int) -> Step:
        """Returns a row, counted from 0."""
        with self.turn:
            table = self._table
            parts = parts_of(self._line_at(row), self.has_comments_before(row + 1))
            assert parts is not None, row
            return Step(
                row,
                table.numbers[row],
                table.lines[row],
                table.clients[row],
                parts.label,
                parts.call,
                parts.request,
                parts.answer,
                parts.outcome(),
            )

    def _line_at(self, row: int) -> bytes:
        start = self._table.starts[row]
        return bytes(self._known[start : self._known.index(b"\n", start)])

    def text_up_to(self, row: int) -> bytes:
        """Returns the lines of the file up to this row's."""
        with self.turn:
            end = self._known.index(b"\n", self._table.starts[row]) + 1
            return bytes(self._known[:end])

    def raw_lines(self, start: int, end: int) -> List[bytes]:
        """Returns the lines of the rows from one up to another one."""
        if start >= end:
            return []
        with self.turn:
            table = self._table
            last = self._known.index(b"\n", table.starts[end - 1])
            lines = bytes(self._known[table.starts[start] : last]).split(b"\n")
            first = table.lines[start]
            return [lines[line - first] for line in table.lines[start:end]]

    def outcome(self, row: int) -> Outcome:
        """Returns how a row was answered."""
        return Outcome(self._table.outcomes[row])

    def effective(self, rows: int) -> int:
        """Returns how many of the first rows there are up to the last that changes one.

        Denials and faults change no row, and neither do calls that only read.
        """
        with self.turn:
            while rows and self.is_idle(rows - 1):
                rows -= 1
            return rows

    def is_idle(self, row: int) -> bool:
        """Returns whether a row changes none of what a device holds."""
        table = self._table
        return (
            table.outcomes[row] in (Outcome.DENIED, Outcome.FAULT)
            or WORDS[table.calls[row]] in READS
        )

    # what a filter shows

    def _matching(self, chosen: Filter) -> "array.array[int]":
        """Returns the rows that a filter shows. They are looked at once."""
        if chosen not in self._matches and len(self._matches) >= MOST_FILTERS:
            oldest = next(iter(self._matches))
            del self._matches[oldest], self._scanned[oldest]
        found = self._matches.setdefault(chosen, array.array("L"))
        table = self._table
        for row in range(self._scanned.get(chosen, 0), len(table)):
            if table.shows(chosen, row):
                found.append(row)
        self._scanned[chosen] = len(table)
        return found

    def window(
        self, chosen: Filter, start: int, count: int, rows: Optional[int] = None
    ) -> Window:
        """Returns some of what a filter shows of all rows, or of the first ones.

        `start` counts the rows that it shows, from 0, from the oldest on.
        """
        with self.turn:
            rows = len(self._table) if rows is None else min(rows, len(self._table))
            if chosen == Filter():
                found: Sequence[int] = range(rows)
            else:
                matches = self._matching(chosen)
                found = matches[: bisect.bisect_left(matches, rows)]
            steps = [self.step(row) for row in found[start : start + count]]
            return Window(len(found), steps)

    def place_of(self, chosen: Filter, row: int) -> int:
        """Returns the place of a row among those of a filter, or that of the last
        before it. -1 means that there is none."""
        with self.turn:
            if chosen == Filter():
                return min(row, len(self._table) - 1)
            return bisect.bisect_right(self._matching(chosen), row) - 1

    def row_of(self, number: int) -> int:
        """Returns the row of a step, or the last one if there are fewer."""
        with self.turn:
            row = bisect.bisect_left(self._table.numbers, number)
            return min(row, len(self._table) - 1)
