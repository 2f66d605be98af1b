"""A live page of the steps of a journal, for a browser on the same machine.

`StepsPage(port, replays)` serves it on the loopback address alone, at `url`. It shows
the rows of the journal with their answers, the newest first, and the picture of what
the server held after any of them. The browser is sent the rows that it shows, and no
others. `notice` says that the journal has grown.
"""

import secrets
import time
from typing import Any, Dict, List, NamedTuple, Optional, Tuple

from .changes import changes_between
from .graph import Graph, graph_of, svg
from .outputs import Outputs
from .page import LivePage, Refused, Sources, document
from .replay import ReplayError, Replays
from .rows import Audit
from .steps import Filter, Outcome, Step

STEPS = Sources(
    "steps.html",
    ("page.css", "picture.css", "outputs.css", "steps.css"),
    ("steps.js", "outputs.js"),
)
#: How many rows are sent at once.
MOST_ROWS = 500
#: How many boxes and arrows a picture has at most. Drawing more takes seconds.
MOST_DRAWN = 600
#: How many boxes are listed as text.
MOST_LISTED = 300
#: The explanation of a fault.
NO_STEP = "A fault is no step: the journal was full (50), or memory was refused (51)."
#: How long news wait for further ones, in seconds.
PAUSE = 0.1


class View(NamedTuple):
    """What a browser asks rows of: which they are, and of how many."""

    generation: int
    chosen: Filter
    rows: int


def number_of(fields: Dict[str, str], name: str, default: int = 0) -> int:
    """Reads a number from 0 of a request."""
    word = fields.get(name, str(default))
    if not (word.isascii() and word.isdigit() and len(word) <= 12):
        raise Refused(400)
    return int(word)


def view_of(fields: Dict[str, str]) -> View:
    """Reads what a browser shows. A client is a number or a label."""
    client = fields.get("client", "")
    is_label = len(client) == 1 and "a" <= client <= "z"
    number = 0 if is_label or not client else number_of(fields, "client")
    chosen = Filter(
        number,
        client if is_label else "",
        fields.get("call", ""),
        fields.get("refused") == "1",
    )
    return View(number_of(fields, "generation"), chosen, number_of(fields, "rows"))


def plain_step(step: Step) -> Dict[str, Any]:
    """Returns a row in types that JSON has."""
    return {**step._asdict(), "outcome": step.outcome.name.lower()}


def listed(graph: Graph) -> List[Dict[str, Any]]:
    """Returns the boxes of a picture as text, by column, with where arrows lead."""
    ends: Dict[str, List[str]] = {}
    for arrow in graph.arrows:
        line = f"{arrow.line}: {arrow.end}" if arrow.line else arrow.end
        ends.setdefault(arrow.start, []).append(line)
    columns, left = [], MOST_LISTED
    for head, column in zip(graph.heads, graph.columns):
        boxes = [
            {"title": box.title, "lines": box.lines, "ends": ends.get(box.title, [])}
            for box in column[:left]
        ]
        columns.append({"head": head, "count": len(column), "boxes": boxes})
        left -= len(boxes)
    return columns


class StepsPage(LivePage):
    """The page of a journal's steps. Port 0 is any free port.

    Its pictures are without the client of the watch by default. `is_live` says whether
    a server is known to run.
    """

    def __init__(
        self,
        port: int,
        replays: Replays,
        with_auditor: bool = False,
        is_live: bool = False,
        outputs: Optional[Outputs] = None,
    ) -> None:
        super().__init__(port, outputs)
        self._replays = replays
        self._journal = replays.journal
        self._with_auditor = with_auditor
        self._is_live = is_live
        self._session = secrets.token_hex(8)
        self._asked = {
            "rows": self._rows,
            "place": self._place,
            "picture": self._picture,
            "changes": self._changes,
            "explanation": self._explanation,
        }
        self.notice()
        self.serve()

    def ended(self) -> None:
        """Says that the server has ended. The page still shows its steps."""
        self._is_live = False
        self.notice()

    def next_after(self, known: int) -> Tuple[int, Dict[str, Any]]:
        """Waits for news after this number, and then for further ones a moment."""
        found = super().next_after(known)
        if known and not found[1]["has_ended"]:
            time.sleep(PAUSE)
            found = super().next_after(known) if found[1]["is_new"] else found
        return found

    def document(self, nonce: str) -> str:
        """Returns the text of the page, whose scripts have this nonce."""
        return document(STEPS, nonce, self.now())

    def news(self) -> Dict[str, Any]:
        """Returns how many rows there are, and what can be chosen of them."""
        journal = self._journal
        with journal.turn:
            return {
                "session": self._session,
                "generation": journal.generation,
                "rows": journal.rows,
                "steps": journal.steps,
                "refused": sum(journal.counts[Outcome.DENIED : Outcome.FAULT + 1]),
                "unread": journal.unread,
                "is_cut": journal.is_cut,
                "is_live": self._is_live,
                "own": self._replays.own,
                "path": journal.path,
                "calls": journal.calls,
                "clients": journal.opened,
            }

    def answer(self, path: str, fields: Dict[str, str]) -> Any:
        """Returns the answer to a request of the page.

        The rows of another generation do not exist any more, which is the status 409.
        """
        if path not in self._asked:
            return super().answer(path, fields)
        view = view_of(fields)
        with self._journal.turn:
            if view.generation != self._journal.generation:
                raise Refused(409)
            if view.rows > self._journal.rows:
                raise Refused(400)
        try:
            return self._asked[path](view, fields)
        except IndexError:  # the journal was replaced meanwhile
            raise Refused(409) from None

    def _rows(self, view: View, fields: Dict[str, str]) -> Any:
        start, count = number_of(fields, "start"), number_of(fields, "count")
        count = min(count, MOST_ROWS)
        window = self._journal.window(view.chosen, start, count, view.rows)
        steps = [plain_step(step) for step in window.steps]
        return {"total": window.total, "start": start, "steps": steps}

    def _place(self, view: View, fields: Dict[str, str]) -> Any:
        """Returns where a row or step is among those that the filter shows."""
        journal = self._journal
        with journal.turn:
            if "step" in fields:
                row = journal.row_of(number_of(fields, "step"))
            else:
                row = number_of(fields, "row")
            return {"place": journal.place_of(view.chosen, min(row, view.rows - 1))}

    def _shown(self, audit: Audit) -> Audit:
        return audit if self._with_auditor else audit.without_auditor()

    def _picture(self, view: View, fields: Dict[str, str]) -> Any:
        """Returns the picture after the first rows, and ends the one asked before."""
        claim = self._replays.claim(fields.get("page", ""))
        try:
            graph = graph_of(self._shown(self._replays.audit_after(view.rows, claim)))
        except ReplayError as error:
            problem = f"No picture: {error}."
            return {"problem": problem, "step": self._last_step(view.rows)}
        size = sum(map(len, graph.columns)) + len(graph.arrows)
        if size > MOST_DRAWN:
            drawn = {"problem": f"No picture: {size} boxes and arrows are too many."}
        else:
            drawn = {"svg": svg(graph)}
        return {**drawn, "step": self._last_step(view.rows), "columns": listed(graph)}

    def _last_step(self, rows: int) -> int:
        """Returns the number of the last step of the first rows."""
        return self._journal.step(rows - 1).number if rows else 0

    def _changes(self, view: View, fields: Dict[str, str]) -> Any:
        """Returns what the last of the first rows changed, in words."""
        row = view.rows - 1
        if row < 0 or self._journal.is_idle(row):
            return {"changes": []}
        try:
            claim = self._replays.claim(fields.get("page", ""), is_later=False)
            before, after = (
                self._shown(self._replays.audit_after(rows, claim))
                for rows in (row, row + 1)
            )
        except ReplayError:
            return {"changes": []}
        return {"changes": changes_between(before, after)}

    def _explanation(self, view: View, fields: Dict[str, str]) -> Any:
        """Returns the program's explanation of the answer to the last of the rows."""
        if not view.rows:
            raise Refused(400)
        if self._journal.step(view.rows - 1).outcome == Outcome.FAULT:
            return {"text": NO_STEP}
        try:
            return {"text": self._replays.explanation(view.rows - 1)}
        except ReplayError as error:
            return {"text": f"No explanation: {error}."}
