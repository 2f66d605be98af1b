"""A client of the server: one connection, with a method for each call.

    from zirkoshe import Client, Denied

    with Client("card") as client:
        try:
            client.create_lease(2, 4, 8)
        except Denied as denial:
            print(denial.rule, denial.name, denial.errno)

Answers are numbers, tuples and named tuples. A denial is the exception `Denied`, a
fault outside the rules `Apart`, and a malformed answer `ProtocolError`. A server that
cannot be reached, or has exited, is a `ConnectionError` or another `OSError`, and a
wait that takes too long a `TimeoutError`. After each of these except `Denied` and
`Apart` the connection is closed.

After a fork, a client is the parent's. In the child each call raises `ForkedError`, and
`close` and `abandon` close the child's copy of the socket alone.
"""

import contextlib
import os
import socket
import threading
import time
from types import TracebackType
from typing import Any, Optional, Tuple, Type, TypeVar, Union

from .calls import Calls
from .constants import MOST_ROWS, AuditKind
from .protocol import (
    CALLS,
    DEFAULT_VERSION,
    Answer,
    Buffer,
    Done,
    Dumb,
    ForkedError,
    Framebuffer,
    Lease,
    Opened,
    Plane,
    ProtocolError,
    Refusal,
    Resources,
    Rows,
    Version,
    answer_in,
    frame,
    hello,
    kind_of,
    length_of,
    request,
    request_of,
    words,
)

#: The time limits in seconds: by default, and at most.
DEFAULT_TIMEOUT = 30.0
MOST_TIMEOUT = 1_000_000.0

PathLike = Union[str, "os.PathLike[str]"]
_A = TypeVar("_A")


class Deadline:
    """The end of a wait."""

    def __init__(self, seconds: float) -> None:
        if not 0 < seconds <= MOST_TIMEOUT:
            raise ValueError(
                f"a time limit is above 0 and at most {MOST_TIMEOUT:.0f} seconds, "
                f"and not {seconds}"
            )
        self.seconds = seconds
        self.end = time.monotonic() + seconds

    def left(self) -> float:
        """Returns how many seconds are left. At the end it raises `TimeoutError`."""
        left = self.end - time.monotonic()
        if left <= 0:
            raise TimeoutError(
                f"the server didn't answer within {self.seconds:g} seconds"
            )
        return left


def check_path(path: str) -> None:
    """Raises `ValueError` if the path is empty, like that of a variable without one."""
    if not path:
        raise ValueError("the socket's path is empty: is DRM_SERVER_CARD set?")


def connect(path: str, deadline: Deadline) -> socket.socket:
    """Returns a connection to the socket at this path."""
    check_path(path)
    made = socket.socket(socket.AF_UNIX, socket.SOCK_STREAM)
    try:
        while True:
            made.settimeout(deadline.left())
            try:
                made.connect(path)
                return made
            except BlockingIOError:  # the listener's queue is full
                time.sleep(min(0.01, deadline.left()))
    except BaseException as error:
        made.close()
        if isinstance(error, OSError) and error.errno is not None:
            error.filename = path
        raise


class Search:
    """A search for the row of a client, page by page of an audit of the clients."""

    def __init__(self, client: int) -> None:
        self.client = client
        self.skipped = 0

    def look(self, rows: Rows) -> Optional[bool]:
        """Returns whether the client is open, or None if the next page is needed."""
        numbers = [row.a for row in rows]
        if self.client in numbers:
            return True
        # numbers rise, and clients that close meanwhile move those after them forward
        begins_before = self.skipped == 0 or (
            bool(numbers) and numbers[0] < self.client
        )
        if begins_before and (len(numbers) < MOST_ROWS or numbers[-1] > self.client):
            return False
        self.skipped = self.skipped + MOST_ROWS - 1 if begins_before else 0
        return None


class Client(
    Calls[
        Done,
        int,
        Version,
        Dumb,
        Buffer,
        Resources,
        Tuple[int, ...],
        Plane,
        Framebuffer,
        Lease,
        Rows,
    ]
):
    """One connection, and the client that the server opened for it.

    `path` is the server's card, render or root socket. With `lease`, the opening
    redeems the lease of that token. `timeout` is the time limit in seconds of an
    opening, a call and the closing; it may be set at any time. `version` is that of the
    hello: version 2 opens with universal planes off, like a kernel, version 1 with
    universal planes on. An opening that is refused raises `Denied` or `Apart`.

    Threads may share a client. Calls run one after the other, and a call's time limit
    starts when the calls before it have ended.
    """

    def __init__(
        self,
        path: PathLike,
        lease: Optional[int] = None,
        timeout: float = DEFAULT_TIMEOUT,
        version: int = DEFAULT_VERSION,
    ) -> None:
        self.path = os.fspath(path)
        self.timeout = timeout
        self._process = os.getpid()
        self._turn = threading.RLock()  # held from a request until its answer arrives
        first = hello(lease, version)
        self.socket: Optional[socket.socket] = connect(self.path, Deadline(timeout))
        try:
            self.opened: Opened = self._exchange(first, Opened)
        except BaseException:
            self.abandon()
            raise

    def __repr__(self) -> str:
        state = "closed" if self.socket is None else "open"
        return f"<{type(self).__name__} {self.opened.client} of {self.path}, {state}>"

    def __enter__(self) -> "Client":
        return self

    def __exit__(
        self,
        kind: Optional[Type[BaseException]],
        error: Optional[BaseException],
        trace: Optional[TracebackType],
    ) -> None:
        self.close()

    def _is_forked(self) -> bool:
        """Returns whether this is a child, in which a thread's turn may never end."""
        return self._process != os.getpid()

    @staticmethod
    def _receive(held: socket.socket, most: int, deadline: Deadline) -> bytes:
        """Returns at most `most` bytes; none if the server closed the connection."""
        try:
            held.settimeout(deadline.left())
            return held.recv(most)
        except socket.timeout:
            deadline.left()
            raise TimeoutError("the server didn't answer in time") from None

    def _take(
        self, held: socket.socket, count: int, deadline: Deadline, inside: bool
    ) -> bytes:
        """Returns `count` bytes. `inside` means that an answer has begun."""
        data = b""
        while len(data) < count:
            more = self._receive(held, count - len(data), deadline)
            if not more and not data and not inside:
                raise ConnectionError("the server closed the connection")
            if not more:
                raise ProtocolError("the connection ended inside an answer")
            data += more
        return data

    @staticmethod
    def _send(held: socket.socket, text: bytes, deadline: Deadline) -> None:
        try:
            held.settimeout(deadline.left())
            held.sendall(text)
        except socket.timeout:
            raise TimeoutError("the server didn't take the request in time") from None

    def _exchange(self, text: bytes, kind: Optional[Type[_A]]) -> _A:
        """Sends a frame when the calls before have ended, and returns its answer."""
        if self._is_forked():
            raise ForkedError
        with self._turn:
            held = self.socket
            if held is None:
                raise ConnectionError("the connection is closed")
            try:
                deadline = Deadline(self.timeout)
                self._send(held, text, deadline)
                length = length_of(self._take(held, 4, deadline, inside=False))
                return answer_in(self._take(held, length, deadline, inside=True), kind)
            except Refusal:
                raise
            except BaseException:  # a late answer could be taken for another call's
                self.abandon()
                raise

    def _call(self, word: str, *values: int) -> Any:
        call = CALLS[word]
        return self._exchange(request(call, values), call.answer)

    def ask(self, line: str) -> str:
        """Makes a call in a script's words.

        Returns the answer or the refusal in a script's words.
        """
        text, kind = request_of(line)
        try:
            answer: Answer = self._exchange(text, kind)
            return words(answer)
        except Refusal as refusal:
            return refusal.words

    def raw(self, number: int, fields: bytes = b"") -> Any:
        """Sends any frame: a number and the bytes of its fields.

        If a call has the number, the answer must be of that call's kind.
        """
        return self._exchange(frame(number, fields), kind_of(number))

    def abandon(self) -> None:
        """Ends the connection, and does not wait for the server to close the client.

        A call of another thread that waits for its answer raises `ConnectionError`.
        """
        if self._is_forked():
            self._drop()
            return
        if not self._turn.acquire(blocking=False):
            self._wake()
            self._turn.acquire()
        try:
            self._drop()
        finally:
            self._turn.release()

    def _drop(self) -> None:
        """Closes this process's copy of the socket."""
        if self.socket is not None:
            self.socket.close()
            self.socket = None

    def _wake(self) -> None:
        """Ends the wait of the thread that makes a call."""
        held = self.socket
        if held is not None:
            with contextlib.suppress(OSError):
                held.shutdown(socket.SHUT_RDWR)

    def close(self) -> None:
        """Ends the connection, and waits until the server has closed the client.

        The server has then released what the client owned.
        """
        if self._is_forked():
            self._drop()
            return
        with self._turn:
            held = self.socket
            if held is None:
                return
            try:
                held.shutdown(socket.SHUT_WR)
                if self._receive(held, 1, Deadline(self.timeout)):
                    raise ProtocolError("the server sent an answer without a request")
            except TimeoutError:
                raise
            except OSError:  # the server had exited before
                pass
            finally:
                self.abandon()

    def is_open(self, client: int) -> bool:
        """Returns whether the client with this number is open.

        Only a root client may ask. It makes one audit or more, each of which is a step.
        """
        search = Search(client)
        found = None
        while found is None:
            found = search.look(self.audit(AuditKind.CLIENT, search.skipped))
        return found

    def wait_until_closed(self, *clients: int) -> None:
        """Waits until the server has closed these clients. Only a root client may ask.

        The server notices after a moment that a client was killed, and an opening
        before that finds what the client had. If one is still open after `timeout`
        seconds, this raises `TimeoutError`, and the connection stays open.
        """
        until = time.monotonic() + self.timeout
        pause = 0.0005
        while any(map(self.is_open, clients)):
            if time.monotonic() > until:
                raise TimeoutError(
                    f"a client is open still after {self.timeout:g} seconds"
                )
            time.sleep(pause)
            pause = min(2 * pause, 0.05)
