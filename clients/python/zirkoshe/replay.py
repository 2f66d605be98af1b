"""Audits and explanations of the steps of a journal.

    replays = Replays(journal)
    audit = replays.audit_after(12)

The program carries out the journal's first steps again, as a script, and then the steps
of an audit. The audit's root client is left out. If it becomes the device's master, it
drops that first. All answers are compared with those of the journal.
"""

import collections
import contextlib
import os
import subprocess
import threading
from types import TracebackType
from typing import (
    Any,
    Callable,
    Dict,
    List,
    NamedTuple,
    Optional,
    Sequence,
    Tuple,
    Type,
)

from .audit import audit_by, routes_by
from .client import PathLike
from .protocol import Done, Opened, Resources, Row, Rows
from .rows import KINDS, Audit
from .scripts import ReplayError, Script, Scripts, limits_of, relabelled
from .server import ServerError, find_program
from .steps import Journal

__all__ = ["Claim", "NoRoom", "ReplayError", "Replays", "Run"]

#: The label of the client that asks, which may name another client before.
LABEL = "a"
#: How many audits, explanations and claims are kept.
MOST_AUDITS, MOST_TEXTS, MOST_CLAIMS = 16, 64, 64


class NoRoom(ReplayError):
    """The journal has no room for the steps of an audit."""


class Claim(NamedTuple):
    """A request of a browser for an audit. A later one of the same asker ends it."""

    asker: str
    number: int


# the client that asks after it


def numbers_of(word: str) -> Tuple[int, ...]:
    """Reads a list of an answer."""
    return () if word == "-" else tuple(map(int, word.split(",")))


def is_answer(found: bytes, wanted: bytes) -> bool:
    """Returns whether an answer is the one of the journal, which may be short."""
    return found == wanted or (
        wanted.startswith((b"denied ", b"apart ")) and found.startswith(wanted + b" ")
    )


class Run:
    """A program that carries out a script, and then what a root client asks of it."""

    opened: Opened

    def __init__(self, command: Sequence[str], script: Script, limits: bytes) -> None:
        self._script = script
        try:
            self._process = subprocess.Popen(
                command,
                stdin=subprocess.PIPE,
                stdout=subprocess.PIPE,
                stderr=subprocess.PIPE,
            )
        except OSError as error:
            reason = os.strerror(error.errno or 0)
            raise ReplayError(f"can't run {command[0]}: {reason}") from error
        lines = [limits, *script.requests, f"open {LABEL} root".encode(), b""]
        text = b"\n".join(lines)
        threading.Thread(target=self._write, args=(text,), daemon=True).start()

    def __enter__(self) -> "Run":
        return self

    def __exit__(
        self,
        kind: Optional[Type[BaseException]],
        error: Optional[BaseException],
        trace: Optional[TracebackType],
    ) -> None:
        """Ends the program."""
        self.stop()
        self._process.wait()
        for pipe in (self._process.stdin, self._process.stdout, self._process.stderr):
            if pipe is not None:
                with contextlib.suppress(OSError):
                    pipe.close()

    def stop(self) -> None:
        """Ends the program. The thread that asks it finds that it has ended."""
        self._process.kill()

    def _write(self, text: bytes) -> None:
        assert self._process.stdin is not None
        with contextlib.suppress(OSError, ValueError):  # it has ended, or was ended
            self._process.stdin.write(text)
            self._process.stdin.flush()

    def _read(self) -> bytes:
        """Returns the next answer."""
        assert self._process.stdout is not None and self._process.stderr is not None
        line = self._process.stdout.readline()
        if not line.endswith(b"\n"):
            said = self._process.stderr.read().decode(errors="backslashreplace")
            raise ReplayError(f"the program exited: {said.strip() or 'no message'}")
        return line[:-1]

    def compare(self) -> None:
        """Compares the answers to the script with those of the journal."""
        script = self._script
        for number, wanted in zip(script.steps, script.answers):
            found = self._read()
            if wanted is None or is_answer(found, wanted):
                continue
            if found.startswith(b"client ") and found[7:].isdigit():
                found = b"client %d" % script.birth(int(found[7:]))
            if found != wanted:
                raise ReplayError(
                    f"step {number} is answered `{found.decode()}` here and "
                    f"`{wanted.decode()}` in the journal: pass --topology as to serve"
                )

    def open(self) -> None:
        """Opens the root client, which drops the master if it becomes that."""
        self.opened = Opened(int(self._words(self._read())[1]))
        self._write(f"{LABEL} drop_master\n".encode())
        self._read()  # it is denied if there was another master

    def _words(self, line: bytes) -> List[str]:
        """Returns the words of an answer that is no refusal."""
        words = line.decode().split()
        if words[:2] == ["apart", "50"]:
            raise NoRoom("the journal has no room for the steps of an audit")
        if words[:2] == ["denied", "43"]:
            raise ReplayError("the device has no room for the client of an audit")
        if words[0] in ("denied", "apart"):
            raise ReplayError(f"the audit is answered `{line.decode()}`")
        return words

    def _ask(self, request: str) -> List[str]:
        self._write(f"{LABEL} {request}\n".encode())
        return self._words(self._read())

    def audit(self, kind: int, skipped: int = 0) -> Rows:
        """Returns up to 16 rows of a kind, after the first `skipped`."""
        words = self._ask(f"audit {kind:d} {skipped}")
        fields = [int(word) for word in words[2:] if word != "|"]
        return Rows(Row(*fields[at : at + 4]) for at in range(0, len(fields), 4))

    def getresources(self) -> Resources:
        """Returns the ids of the mode objects."""
        return Resources(*map(numbers_of, self._ask("getresources")[1::2]))

    def getplaneresources(self) -> Tuple[int, ...]:
        """Returns the ids of the planes."""
        return numbers_of(self._ask("getplaneresources")[1])

    def getconnector(self, connector: int) -> int:
        """Returns the encoder of a connector."""
        return int(self._ask(f"getconnector {connector}")[1])

    def getencoder(self, encoder: int) -> int:
        """Returns the mask of an encoder's possible CRTCs."""
        return int(self._ask(f"getencoder {encoder}")[1])

    def set_client_cap(self, cap: int, value: int) -> Done:
        """Sets a capability."""
        self._ask(f"set_client_cap {cap:d} {value}")
        return Done()


# audits and explanations

#: The fields of rows that have the numbers of steps.
BIRTHS = frozenset(
    "client master lessor object exporter place journal".split(),
)


def with_numbers_of(script: Script, audit: Audit) -> Audit:
    """Returns the audit with the numbers that its steps have in the journal."""
    kinds: Dict[str, Any] = {}
    for name, row_type in KINDS:
        births = [place for place, it in enumerate(row_type._fields) if it in BIRTHS]
        kinds[name] = [
            row_type(
                *(script.birth(it) if at in births else it for at, it in enumerate(row))
            )
            for row in getattr(audit, name)
        ]
    return audit._replace(auditor=script.birth(audit.auditor), **kinds)


class Replays:
    """Audits and explanations of a journal's steps. Threads may share it.

    `find` returns the path of the program when it is first needed, and `topology` is
    the server's. `own` is the client that opened the page, or 0.
    """

    def __init__(
        self,
        journal: Journal,
        find: Callable[[], str] = find_program,
        topology: Optional[PathLike] = None,
        own: int = 0,
    ) -> None:
        self.journal = journal
        self.own = own
        self._find = find
        self._options = ["--topology", os.fspath(topology)] if topology else []
        self._turn = threading.Lock()
        self._program: Optional[str] = None
        self._routes: Optional[Dict[int, List[int]]] = None
        self._audits: "collections.OrderedDict[Tuple[int, int], Audit]" = (
            collections.OrderedDict()
        )
        self._texts: Dict[Tuple[int, int], str] = {}
        self._scripts = Scripts(journal)
        self._claims: "collections.OrderedDict[str, int]" = collections.OrderedDict()
        self._running: Optional[Tuple[Optional[Claim], Run]] = None

    def _command(self, *words: str) -> List[str]:
        if self._program is None:
            try:
                self._program = self._find()
            except ServerError as error:
                raise ReplayError(str(error)) from error
        return [self._program, *words, *self._options]

    def claim(self, asker: str, is_later: bool = True) -> Claim:
        """Returns the claim of an asker: a later one, which ends the one before."""
        number = self._claims.pop(asker, 0) + is_later
        self._claims[asker] = number
        while len(self._claims) > MOST_CLAIMS:
            self._claims.popitem(last=False)
        running = self._running
        if is_later and running and running[0] and running[0].asker == asker:
            running[1].stop()
        return Claim(asker, number)

    def audit_after(self, rows: int, claim: Optional[Claim] = None) -> Audit:
        """Returns the audit after the first rows, without the client that read it.

        Raises `ReplayError`. Rows that change nothing at the end are left out.
        """
        with self._turn:
            if claim and self._claims.get(claim.asker, claim.number) != claim.number:
                raise ReplayError("a later request has ended this one")
            with self.journal.turn:
                place = (self.journal.generation, self.journal.effective(rows))
            if place not in self._audits:
                self._audits[place] = self._read(place[1], claim)
                while len(self._audits) > MOST_AUDITS:
                    self._audits.popitem(last=False)
            self._audits.move_to_end(place)
            return self._audits[place]

    def _read(self, rows: int, claim: Optional[Claim]) -> Audit:
        try:
            return self.read(self._scripts.of(rows), claim)
        except NoRoom:
            # a denied step, and one that only reads, changes no row
            return self.read(self._scripts.of(rows, with_idle=False), claim)

    def read(self, script: Script, claim: Optional[Claim] = None) -> Audit:
        """Returns the audit after a script."""
        with Run(self._command("run"), script, limits_of(self.journal)) as run:
            self._running = (claim, run)
            try:
                run.compare()
                run.open()
                if self._routes is None:
                    self._routes = routes_by(run)
                found = with_numbers_of(script, audit_by(run, self._routes))
            finally:
                self._running = None
        return found.without_auditor()._replace(auditor=self.own)

    def explanation(self, row: int) -> str:
        """Returns the program's explanation of a row's answer, or raises an error."""
        with self._turn:
            place = (self.journal.generation, row)
            if place not in self._texts:
                if len(self._texts) >= MOST_TEXTS:
                    del self._texts[next(iter(self._texts))]
                self._texts[place] = self._explain(row)
            return self._texts[place]

    def _explain(self, row: int) -> str:
        with self.journal.turn:
            text, line = self.journal.text_up_to(row), self.journal.step(row).line
            note = ""
            if self.journal.has_comments_before(row + 1):
                text, note = relabelled(self.journal, row + 1)
        command = self._command("explain", "-", "--line", str(line))
        ran = subprocess.run(command, input=text, capture_output=True, check=False)
        if ran.returncode != 0:
            said = ran.stderr.decode(errors="backslashreplace").strip()
            raise ReplayError(f"{command[0]} explain exited: {said}")
        return note + ran.stdout.decode(errors="backslashreplace")
