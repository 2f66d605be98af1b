"""A client for asyncio, with the methods of `Client` as coroutines.

    import asyncio

    from zirkoshe import AsyncClient

    async def main():
        async with AsyncClient("card") as client:
            print(await client.create_dumb(64, 64, 32))

    asyncio.run(main())

Errors and answers are those of `Client`.
"""

import asyncio
import contextlib
import functools
import os
import socket
import time
from types import TracebackType
from typing import (
    Any,
    Awaitable,
    Callable,
    Coroutine,
    Iterator,
    Optional,
    Tuple,
    Type,
    TypeVar,
)

from .calls import Calls
from .client import DEFAULT_TIMEOUT, Deadline, PathLike, Search, check_path
from .constants import AuditKind
from .protocol import (
    CALLS,
    DEFAULT_VERSION,
    Answer,
    Buffer,
    Done,
    Dumb,
    ForkedError,
    Framebuffer,
    Lease,
    Opened,
    Plane,
    ProtocolError,
    Refusal,
    Resources,
    Rows,
    Version,
    answer_in,
    frame,
    hello,
    kind_of,
    length_of,
    request,
    request_of,
    words,
)

_A = TypeVar("_A")
_Later = Coroutine[Any, Any, _A]


async def within(deadline: Deadline, wait: Awaitable[_A]) -> _A:
    """Waits for this until the deadline, and then raises `TimeoutError`."""
    try:
        return await asyncio.wait_for(wait, max(0, deadline.end - time.monotonic()))
    except asyncio.TimeoutError:
        raise TimeoutError(
            f"the server didn't answer within {deadline.seconds:g} seconds"
        ) from None


async def connect(path: str, deadline: Deadline) -> socket.socket:
    """Returns a connection to the socket at this path.

    A Unix socket connects at once, or not at all. (The loop's `sock_connect` takes a
    full queue for a connection that is under way.)
    """
    check_path(path)
    made = socket.socket(socket.AF_UNIX, socket.SOCK_STREAM)
    try:
        made.setblocking(False)
        while True:
            try:
                made.connect(path)
                return made
            except BlockingIOError:  # the listener's queue is full
                await asyncio.sleep(min(0.01, deadline.left()))
    except BaseException as error:
        made.close()
        if isinstance(error, OSError) and error.errno is not None:
            error.filename = path
        raise


class AsyncClient(
    Calls[
        _Later[Done],
        _Later[int],
        _Later[Version],
        _Later[Dumb],
        _Later[Buffer],
        _Later[Resources],
        _Later[Tuple[int, ...]],
        _Later[Plane],
        _Later[Framebuffer],
        _Later[Lease],
        _Later[Rows],
    ]
):
    """One connection of an asyncio program, and the client that the server opened.

    The parameters are those of `Client`. `async with` opens and closes it; otherwise
    `open` does, and `close`. Tasks may share a client: calls run one after the other. A
    call that is cancelled closes the connection.
    """

    opened: Opened

    def __init__(
        self,
        path: PathLike,
        lease: Optional[int] = None,
        timeout: float = DEFAULT_TIMEOUT,
        version: int = DEFAULT_VERSION,
    ) -> None:
        self.path = os.fspath(path)
        self.timeout = timeout
        self.socket: Optional[socket.socket] = None
        self._hello = hello(lease, version)
        self._lock: Optional[asyncio.Lock] = None  # created in the loop that uses it
        self._is_waiting = False
        self._process = os.getpid()

    def __repr__(self) -> str:
        state = "closed" if self.socket is None else f"open as {self.opened.client}"
        return f"<{type(self).__name__} of {self.path}, {state}>"

    async def open(self) -> "AsyncClient":
        """Connects, opens the client, and returns it.

        Raises `Denied` or `Apart` if the opening is refused, and `ValueError` if the
        client is open.
        """
        if self.socket is not None:
            raise ValueError("the client is open")
        self._lock = asyncio.Lock()
        self._is_waiting = False
        self._process = os.getpid()
        held = await connect(self.path, Deadline(self.timeout))
        self.socket = held
        try:
            self.opened = await self._exchange(self._hello, Opened)
        except BaseException:
            self.abandon()
            raise
        return self

    async def __aenter__(self) -> "AsyncClient":
        return await self.open()

    async def __aexit__(
        self,
        kind: Optional[Type[BaseException]],
        error: Optional[BaseException],
        trace: Optional[TracebackType],
    ) -> None:
        await self.close()

    @staticmethod
    async def _take(
        held: socket.socket, count: int, deadline: Deadline, inside: bool
    ) -> bytes:
        """Returns `count` bytes. `inside` means that an answer has begun."""
        loop = asyncio.get_running_loop()
        data = b""
        while len(data) < count:
            more = await within(deadline, loop.sock_recv(held, count - len(data)))
            if not more and not data and not inside:
                raise ConnectionError("the server closed the connection")
            if not more:
                raise ProtocolError("the connection ended inside an answer")
            data += more
        return data

    def _is_forked(self) -> bool:
        """Returns whether this is a child, in which a task's turn may never end."""
        return self._process != os.getpid()

    def _turn(self) -> asyncio.Lock:
        if self._is_forked():
            raise ForkedError
        if self._lock is None:
            raise ConnectionError("the connection is closed")
        return self._lock

    @contextlib.contextmanager
    def _waiting(self, held: socket.socket) -> Iterator[None]:
        """Keeps the descriptor until the task that waits for it has ended its wait."""
        self._is_waiting = True
        try:
            yield
        finally:
            self._is_waiting = False
            if self.socket is not held:
                held.close()

    async def _exchange(self, text: bytes, kind: Optional[Type[_A]]) -> _A:
        """Sends a frame when the calls before have ended, and returns its answer."""
        async with self._turn():
            held = self.socket
            if held is None:
                raise ConnectionError("the connection is closed")
            with self._waiting(held):
                try:
                    return await self._answer(held, text, kind)
                except Refusal:
                    raise
                except BaseException:  # a late answer could be taken for another call's
                    self.abandon()
                    raise

    async def _answer(
        self, held: socket.socket, text: bytes, kind: Optional[Type[_A]]
    ) -> _A:
        deadline = Deadline(self.timeout)
        loop = asyncio.get_running_loop()
        await within(deadline, loop.sock_sendall(held, text))
        length = length_of(await self._take(held, 4, deadline, inside=False))
        return answer_in(await self._take(held, length, deadline, inside=True), kind)

    async def _call(self, word: str, *values: int) -> Any:
        call = CALLS[word]
        return await self._exchange(request(call, values), call.answer)

    async def ask(self, line: str) -> str:
        """Makes a call in a script's words.

        Returns the answer or the refusal in a script's words.
        """
        text, kind = request_of(line)
        try:
            answer: Answer = await self._exchange(text, kind)
            return words(answer)
        except Refusal as refusal:
            return refusal.words

    async def raw(self, number: int, fields: bytes = b"") -> Any:
        """Sends any frame: a number and the bytes of its fields.

        If a call has the number, the answer must be of that call's kind.
        """
        return await self._exchange(frame(number, fields), kind_of(number))

    def abandon(self) -> None:
        """Ends the connection, and does not wait for the server to close the client.

        A call of another task that waits for its answer raises `ConnectionError`.
        """
        held, self.socket = self.socket, None
        if held is None:
            return
        if self._is_forked():
            held.close()
            return
        with contextlib.suppress(OSError):
            held.shutdown(socket.SHUT_RDWR)  # wakes a task that waits for it
        if not self._is_waiting:
            held.close()

    async def close(self) -> None:
        """Ends the connection, and waits until the server has closed the client.

        The server has then released what the client owned.
        """
        if self._is_forked():
            self.abandon()
        if self.socket is None:
            return
        async with self._turn():
            held = self.socket
            if held is None:
                return
            with self._waiting(held):
                try:
                    await self._end(held)
                except TimeoutError:
                    raise
                except OSError:  # the server had exited before
                    pass
                finally:
                    self.abandon()

    async def _end(self, held: socket.socket) -> None:
        loop = asyncio.get_running_loop()
        held.shutdown(socket.SHUT_WR)
        if await within(Deadline(self.timeout), loop.sock_recv(held, 1)):
            raise ProtocolError("the server sent an answer without a request")

    async def is_open(self, client: int) -> bool:
        """Returns whether the client with this number is open.

        Only a root client may ask. It makes one audit or more, each of which is a step.
        """
        search = Search(client)
        found = None
        while found is None:
            found = search.look(await self.audit(AuditKind.CLIENT, search.skipped))
        return found

    async def wait_until_closed(self, *clients: int) -> None:
        """Waits until the server has closed these clients. Only a root client may ask.

        If one is still open after `timeout` seconds, this raises `TimeoutError`, and
        the connection stays open.
        """
        until = time.monotonic() + self.timeout
        pause = 0.0005
        for client in clients:
            while await self.is_open(client):
                if time.monotonic() > until:
                    raise TimeoutError(
                        f"a client is open still after {self.timeout:g} seconds"
                    )
                await asyncio.sleep(pause)
                pause = min(2 * pause, 0.05)


def as_coroutine(method: Callable[..., Any]) -> Callable[..., Any]:
    """Returns a method of `Calls` as a coroutine function, which mocks look for."""

    @functools.wraps(method)
    async def call(*values: Any, **named: Any) -> Any:
        return await method(*values, **named)

    return call


for _word in CALLS:
    setattr(AsyncClient, _word, as_coroutine(getattr(Calls, _word)))
