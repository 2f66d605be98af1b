"""The script of the first steps of a journal, which a program carries out again.

The script has the journal's requests, with two differences: its limits have room for an
audit, and an opening that the session's limits denied is another request that is
denied. A journal with more clients than labels is written with other labels.
"""

import array
import bisect
import itertools
from typing import Dict, List, NamedTuple, Optional, Sequence, Tuple

from .constants import LIMITS
from .protocol import ClientError
from .steps import Journal, Outcome

#: The most that a line `limits` may have for clients and for the journal.
MOST_CLIENTS, MOST_STEPS = 1024, 100_000
#: A request that is denied in any state, in the place of an opening that was.
DENIED = b"a raw 1"
LETTERS = "abcdefghijklmnopqrstuvwxyz"


class ReplayError(ClientError):
    """The steps cannot be carried out again."""


class Script(NamedTuple):
    """Requests of a script, and the answers that the journal has or None.

    `steps` has the numbers that the requests' steps have in the journal.
    """

    requests: Sequence[bytes]
    answers: Sequence[Optional[bytes]]
    steps: Sequence[int]

    def birth(self, number: int) -> int:
        """Returns the number in the journal of a step here, or of one after it."""
        if not 0 < number <= len(self.steps):
            before = self.steps[-1] - len(self.steps) if self.steps else 0
            return number + before if number else 0
        return self.steps[number - 1]


def limits_of(journal: Journal) -> bytes:
    """Returns the line that sets the limits, with room for an audit and its client."""
    words = (journal.limits or b"").split()[1:]
    is_whole = len(words) == len(LIMITS) and all(map(bytes.isdigit, words))
    numbers = list(map(int, words)) if is_whole else [*LIMITS.values()]
    numbers[0] = min(numbers[0] + 1, MOST_CLIENTS)
    numbers[-1] = MOST_STEPS
    return b"limits " + b" ".join(b"%d" % number for number in numbers)


class Scripts:
    """The scripts of a journal's first rows. Rows are read once, as they are needed."""

    def __init__(self, journal: Journal) -> None:
        self.journal = journal
        self._forget()

    def _forget(self) -> None:
        self._generation = self.journal.generation
        self._taken = 0
        self._requests: List[bytes] = []
        self._answers: List[Optional[bytes]] = []
        self._rows = array.array("L")  # the row of each request

    def of(self, rows: int, with_idle: bool = True) -> Script:
        """Returns the script of the first rows, without faults, which are no steps.

        Without idle steps, which change no row, its steps have other numbers.
        """
        journal = self.journal
        with journal.turn:
            if rows > journal.rows:
                raise ReplayError("the journal was replaced")
            if journal.has_comments_before(rows):
                # its labels depend on the last row
                others = Scripts(journal)
                others._take(labelled(journal, rows))
                return others._first(rows, with_idle)
            if journal.generation != self._generation:
                self._forget()
            self._take(journal.raw_lines(self._taken, rows))
            return self._first(rows, with_idle)

    def _take(self, lines: Sequence[bytes]) -> None:
        for line in lines:
            if self.journal.outcome(self._taken) != Outcome.FAULT:
                self._add(line)
            self._taken += 1

    def _add(self, line: bytes) -> None:
        request, _, answer = line.partition(b" -> ")
        if request.startswith(b"open"):
            if not answer:
                raise ReplayError(
                    "an opening has no answer: `drm_server run --journal` writes one"
                )
            if answer.startswith(b"denied 43"):
                request, answer = DENIED, b""
        self._requests.append(request)
        self._answers.append(answer or None)
        self._rows.append(self._taken)

    def _first(self, rows: int, with_idle: bool) -> Script:
        count = bisect.bisect_left(self._rows, rows)
        requests, answers = self._requests[:count], self._answers[:count]
        steps = range(1, count + 1)
        if with_idle:
            return Script(requests, answers, steps)
        kept = [not self.journal.is_idle(row) for row in self._rows[:count]]
        return Script(
            list(itertools.compress(requests, kept)),
            list(itertools.compress(answers, kept)),
            list(itertools.compress(steps, kept)),
        )


# labels


def labelled(journal: Journal, rows: int) -> List[bytes]:
    """Returns lines with other labels, if there are more clients than labels.

    A client has a label from its opening to its last request, and no longer.
    """
    steps = [journal.step(row) for row in range(rows)]
    last = {step.client: step.row for step in steps}
    labels: Dict[int, str] = {}
    lines = []
    for step in steps:
        words = step.request.split()
        label = labels.get(step.client, LETTERS[0])
        if step.call == "open":
            label = free_label(labels, step.label)
            words[1] = label
            if step.client:
                labels[step.client] = label
        elif step.call == "close":
            words = ["close", label]
        elif step.label:
            words[0] = label
        else:
            words.insert(0, label)
        if last[step.client] == step.row:
            labels.pop(step.client, None)
        lines.append(f"{' '.join(words)} -> {step.answer}".encode())
    return lines


def free_label(labels: Dict[int, str], wish: str) -> str:
    """Returns a label that names no client which still asks, if possible this one."""
    free = [letter for letter in LETTERS if letter not in labels.values()]
    if not free:
        raise ReplayError("more clients are active at once than a script has labels")
    return wish if wish in free else free[0]


def relabelled(journal: Journal, rows: int) -> Tuple[bytes, str]:
    """Returns the file up to a row with a label in each line, for an explanation.

    With it is a sentence about the labels that are other ones than in the journal.
    """
    steps = [journal.step(row) for row in range(rows)]
    lines = [b"#"] * steps[-1].line
    if journal.limits is not None:
        lines[journal.limits_line - 1] = journal.limits
    names = {}
    for step, line in zip(steps, labelled(journal, rows)):
        lines[step.line - 1] = line
        if step.call == "open" and step.client:
            names[line.split()[1].decode()] = step
    listed = [
        f"{label} is client {step.client}"
        for label, step in names.items()
        if label != step.label
    ]
    note = f"In this text {', '.join(listed)}.\n" if listed else ""
    return b"\n".join([*lines, b""]), note
