"""A server for a test, on Linux.

    from zirkoshe import Client
    from zirkoshe.server import Server

    with Server() as server:
        with Client(server.card) as client:
            ...
    print(server.listing)

`Server` starts `drm_server serve` on sockets in a fresh folder, and waits until it
listens. At the end of `with` it ends the server: all connections end, `listing` has
what the device still held, and the folder is removed. Each server starts with an empty
device, so clients, tokens and ids have the same numbers in each test.

With `Server(control=True)` a test plans faults while the server runs: memory that is
refused (`fail`), answers that are late (`stall`) and connections that break
(`break_connection`).

    with Server(control=True) as server:
        server.fail("create_dumb", 2)

The program is the parameter `program`, that of DRM_SERVER_PROGRAM, the one in this
package if it was installed from a wheel, the one that `drm_server` of this checkout or
archive would run, or that of a `drm_server` on the path.
"""

import os
import pathlib
import shutil
import socket
import subprocess
import tempfile
import time
from types import TracebackType
from typing import IO, Dict, Iterable, List, Optional, Type, Union

from .aio import AsyncClient
from .client import Client, PathLike
from .display import Display

PACKAGE = pathlib.Path(__file__).resolve().parent
CLASSES = ("card", "render", "root")

#: How many connections a socket accepts if only others are counted.
COUNT = 16
START_SECONDS = 60.0
#: A server writes its journal at its end, if it has one.
STOP_SECONDS = 60.0
#: The control socket serves one connection at a time, so a command waits for others.
CONTROL_SECONDS = 30.0
#: How the control socket's answer to a line begins that it refuses.
REFUSED = "error: "
#: The greatest length of a socket's path.
MOST_PATH = 107
#: The flag of a listening socket in /proc/net/unix.
LISTENS = 0x10000


class ServerError(Exception):
    """The server cannot be found, does not start, or does not end normally.

    It is also raised for a fault that the server does not plan, with the reason.
    """


def find_program() -> str:
    """Returns the program of the server."""
    named = os.environ.get("DRM_SERVER_PROGRAM")
    if named:
        return named
    packed = PACKAGE / "bin" / "drm_server_main"
    if packed.is_file():
        return str(packed)
    own = PACKAGE.parents[2] / "drm_server"
    script = str(own) if own.is_file() else shutil.which("drm_server")
    if script is None:
        raise ServerError(
            "can't find the server: set DRM_SERVER_PROGRAM to bin/drm_server_main of "
            "an archive, or put drm_server on the path"
        )
    asked = subprocess.run(
        [script, "--program"],
        stdin=subprocess.DEVNULL,
        stdout=subprocess.PIPE,
        check=False,
    )
    if asked.returncode != 0:
        raise ServerError(f"{script} --program exited with status {asked.returncode}")
    return os.fsdecode(asked.stdout.rstrip(b"\n"))


def find_library() -> str:
    """Returns the library that connects unchanged libdrm programs to a display.

    It is the one in this package if it was installed from a wheel. Otherwise that of
    this checkout or archive is compiled, if it is not there yet.
    """
    return _find_compiled("libzirkoshe_libdrm.so")


def find_display() -> str:
    """Returns the display, which connects that library to a server, likewise."""
    return _find_compiled("zirkoshe-display", "--display")


def _find_compiled(name: str, *options: str) -> str:
    """Returns a file of this package, or the one that the build script compiles."""
    packed = PACKAGE / "lib" / name
    if packed.is_file():
        return str(packed)
    build = PACKAGE.parents[1] / "libdrm" / "build"
    if not build.is_file():
        raise ServerError(
            f"can't find {name}: install a wheel of tools/wheel, or use the package "
            "of an archive"
        )
    asked = subprocess.run(
        [str(build), *options],
        stdin=subprocess.DEVNULL,
        stdout=subprocess.PIPE,
        check=False,
    )
    if asked.returncode != 0:
        raise ServerError(f"{build} exited with status {asked.returncode}")
    return os.fsdecode(asked.stdout.rstrip(b"\n"))


class Server:
    """A running server. The paths of its sockets are `card`, `render` and `root`.

    It accepts any number of connections, at most 64 at once on each socket. If `cards`,
    `renders` or `roots` are given, they are how many connections that socket accepts in
    total, 0 to 64, and the other sockets accept 16. `topology` is a file, and `limits`
    the eight numbers of a script's limits line. With `journal` the server writes the
    requests and answers to that file at its end, as a script for `drm_server check` and
    `drm_server explain`. With `control` it takes plans of faults: see `fail`, `stall`
    and `break_connection`. The path of the socket for that is `control`, otherwise
    `control` is None.
    """

    def __init__(
        self,
        *,
        program: Optional[PathLike] = None,
        cards: Optional[int] = None,
        renders: Optional[int] = None,
        roots: Optional[int] = None,
        topology: Optional[PathLike] = None,
        limits: Optional[str] = None,
        journal: Optional[PathLike] = None,
        control: bool = False,
    ) -> None:
        self.listing = ""
        self.status: Optional[int] = None
        self.folder = tempfile.mkdtemp(prefix="drm-server-")
        self._log: Optional[IO[bytes]] = None
        self._process: "Optional[subprocess.Popen[bytes]]" = None
        self._display: "Optional[subprocess.Popen[bytes]]" = None
        self.card, self.render, self.root = map(self._path, CLASSES)
        self.control = self._path("control") if control else None
        counts = _counts_of(cards, renders, roots)
        named = {
            "topology": topology,
            "limits": limits,
            "journal": journal,
            "control": self.control,
        }
        options = {name: value for name, value in named.items() if value is not None}
        served = [self._path(name) for name in CLASSES if counts.get(name) != 0]
        if self.control is not None:
            served.append(self.control)
        try:
            self._start(program, counts, options)
            assert self._process is not None
            self._wait_until_it_listens("server", self._process, served)
        except BaseException:
            self._kill()
            self._clean()
            raise

    def __repr__(self) -> str:
        process = self._process
        state = "ended" if process is None else f"process {process.pid}"
        return f"<{type(self).__name__} in {self.folder}, {state}>"

    def __enter__(self) -> "Server":
        return self

    def __exit__(
        self,
        kind: Optional[Type[BaseException]],
        error: Optional[BaseException],
        trace: Optional[TracebackType],
    ) -> None:
        try:
            self.end()
        except ServerError:
            # the test's own failure says more
            if kind is None:
                raise

    @property
    def pid(self) -> Optional[int]:
        """The number of the server's process, or None after its end."""
        return None if self._process is None else self._process.pid

    @property
    def environment(self) -> Dict[str, str]:
        """The paths as variables for a program under test, as of tools/with-server.

        They are DRM_SERVER_CARD, DRM_SERVER_RENDER and DRM_SERVER_ROOT.
        """
        return {f"DRM_SERVER_{name.upper()}": self._path(name) for name in CLASSES}

    @property
    def libdrm_environment(self) -> Dict[str, str]:
        """The variables for an unchanged program that calls libdrm.

        They are those of `environment`, DRM_SERVER_DISPLAY, and LD_PRELOAD with the
        library that connects the program's /dev/dri to this server. The first use
        starts the display that DRM_SERVER_DISPLAY names. It ends with the server.

        There is no DRM_SERVER_RENDER, so the program finds a card and no render node.
        Many expect a GPU if they find one. Add it from `environment` for a program that
        needs the node.
        """
        loaded = filter(None, (find_library(), os.environ.get("LD_PRELOAD")))
        variables = {
            **self.environment,
            "DRM_SERVER_DISPLAY": self._started_display(),
            "LD_PRELOAD": " ".join(loaded),
        }
        del variables["DRM_SERVER_RENDER"]
        return variables

    @property
    def display(self) -> Display:
        """The display, which takes pictures of what such programs show.

        An example is `expect_picture(server.display.screenshot(1), "kept.png")`. The
        first use starts the display.
        """
        return Display(self._started_display())

    def fail(self, call: str, nth: int = 1) -> None:
        """Refuses memory to the nth call from now that would add a row.

        `call` is its word in a script, or `open` for openings, and `nth` 1 to 65535.
        The call raises `Apart` with fault 51, and changes nothing. Denied calls, and
        calls that add no row, are not counted. The plan replaces an earlier one for
        this call. Raises `ServerError` if the server refuses it.
        """
        self._plan(f"fail {call}:{nth:d}=memory")

    def stall(self, call: str, *, milliseconds: int, nth: int = 1) -> None:
        """Delays the answer to the nth call from now by 1 to 60000 milliseconds.

        `call` is its word in a script, or `open` for openings, and `nth` 1 to 65535.
        The call itself is carried out at once, and other clients are answered
        meanwhile. The plan replaces an earlier one for this call. Raises `ServerError`
        if the server refuses it.
        """
        self._plan(f"stall {call}:{nth:d}={milliseconds:d}")

    def break_connection(
        self, client: Union[int, Client, AsyncClient], nth: int = 1
    ) -> None:
        """Closes a client's connection after its nth request from now, 1 to 65535.

        That request is carried out and not answered. `client` is an open client, or a
        client's number. The plan replaces an earlier one for this client. Raises
        `ServerError` if the server refuses it.
        """
        number = client if isinstance(client, int) else client.opened.client
        self._plan(f"break {number:d}:{nth:d}")

    def clear_faults(self) -> None:
        """Forgets all faults that are planned."""
        self._plan("clear")

    def planned_faults(self) -> List[str]:
        """Returns the faults to come, each as a line with the count that is left.

        An example is `fail create_dumb:2=memory`.
        """
        return self._plan("list")

    def _plan(self, line: str) -> List[str]:
        """Sends a line to the control socket, and returns what is before its `ok`."""
        if self.control is None:
            raise ServerError(
                "the server takes no plans of faults: start it with "
                "Server(control=True)"
            )
        if self._process is None:
            raise ServerError("the server has ended")
        return ask_control(self.control, line)

    def end(self) -> str:
        """Ends the server, and returns its listing. A second time it does nothing.

        Raises `ServerError` if the status was not 0, or if the server had to be killed.
        """
        if self._process is None:
            return self.listing
        process, self._process = self._process, None
        self._end_display()
        try:
            output = self._output_of(process)
            self.listing = output.decode()
            self.status = process.returncode
            if process.returncode != 0:
                raise ServerError(
                    f"the server ended with status {process.returncode}{self._logged()}"
                )
            return self.listing
        finally:
            self._clean()

    def _output_of(self, process: "subprocess.Popen[bytes]") -> bytes:
        """Waits for the end of the server, and returns what it printed."""
        try:
            output, _ = process.communicate(b"", STOP_SECONDS)
            return output
        except subprocess.TimeoutExpired:
            process.kill()
            process.communicate()
            raise ServerError(
                f"the server didn't end within {STOP_SECONDS:g} seconds, and was killed"
                f"{self._logged()}"
            ) from None

    def _path(self, name: str) -> str:
        return os.path.join(self.folder, name)

    def _start(
        self,
        program: Optional[PathLike],
        counts: Dict[str, int],
        options: Dict[str, PathLike],
    ) -> None:
        if len(os.fsencode(self.control or self.render)) > MOST_PATH:
            raise ServerError(
                f"the path {self.folder} is too long for sockets: set TMPDIR to a "
                "shorter path"
            )
        command = [os.fspath(program) if program is not None else find_program()]
        command += ["serve", "--until-input-ends" if counts else "--until-ended"]
        for name in CLASSES:
            command += [f"--{name}", self._path(name)]
        for name, count in counts.items():
            command += [f"--{name}s", str(count)]
        for name, value in options.items():
            command += [f"--{name}", os.fspath(value)]
        self._log = open(self._path("log"), "w+b")
        try:
            # in its own session, so that a terminal's Ctrl-C reaches the test alone
            self._process = subprocess.Popen(
                command,
                stdin=subprocess.PIPE,
                stdout=subprocess.PIPE,
                stderr=self._log,
                start_new_session=True,
            )
        except OSError as error:
            raise ServerError(f"can't run {command[0]}: {error.strerror}") from error

    def _started_display(self) -> str:
        """Starts the display if necessary, and returns the path of its socket."""
        path = self._path("display")
        if self._display is None and self._process is not None:
            self._start_display(path)
        return path

    def _start_display(self, path: str) -> None:
        """Starts a display, whose errors are in the server's log."""
        display = subprocess.Popen(
            [find_display(), path],
            env={**os.environ, **self.environment},
            stdin=subprocess.DEVNULL,
            stdout=subprocess.DEVNULL,
            stderr=self._log,
            start_new_session=True,
        )
        self._display = display
        self._wait_until_it_listens("display", display, [path])

    def _end_display(self) -> None:
        if self._display is not None:
            display, self._display = self._display, None
            display.terminate()
            try:
                display.wait(STOP_SECONDS)
            except subprocess.TimeoutExpired:
                display.kill()
                display.wait()

    def _wait_until_it_listens(
        self,
        what: str,
        process: "subprocess.Popen[bytes]",
        paths: Iterable[str],
    ) -> None:
        """Waits for the server or the display, and uses up no connection."""
        expected = set(map(os.fsencode, paths))
        until = time.monotonic() + START_SECONDS
        while not expected.issubset(listening()):
            if process.poll() is not None:
                raise ServerError(
                    f"the {what} exited with status {process.returncode} before "
                    f"it listened{self._logged()}"
                )
            if time.monotonic() > until:
                raise ServerError(
                    f"the {what} didn't listen within {START_SECONDS:g} seconds"
                    f"{self._logged()}"
                )
            time.sleep(0.005)

    def _logged(self) -> str:
        """Returns the server's standard error, as the rest of a sentence."""
        if self._log is None:
            return ""
        self._log.seek(0)
        logged = self._log.read().decode(errors="replace").strip()
        return f": {logged}" if logged else ""

    def _kill(self) -> None:
        self._end_display()
        if self._process is not None:
            process, self._process = self._process, None
            process.kill()
            process.communicate()

    def _clean(self) -> None:
        if self._log is not None:
            self._log.close()
        shutil.rmtree(self.folder, ignore_errors=True)


def _counts_of(*counts: Optional[int]) -> Dict[str, int]:
    """Returns how many connections each socket accepts, or nothing for any number."""
    if all(count is None for count in counts):
        return {}
    chosen = (COUNT if count is None else count for count in counts)
    return dict(zip(CLASSES, chosen))


def ask_control(path: str, line: str) -> List[str]:
    """Sends a line to a control socket, and returns the lines before its `ok`.

    Raises `ServerError` with the server's reason if the server refuses the line.
    """
    if "\n" in line:
        raise ServerError(f"{line!r} is more than one line")
    try:
        with socket.socket(socket.AF_UNIX) as control:
            control.settimeout(CONTROL_SECONDS)
            control.connect(path)
            control.sendall(line.encode() + b"\n")
            with control.makefile(encoding="utf-8", errors="replace") as answers:
                return _told_before_ok(answers)
    except OSError as error:
        reason = error.strerror or error
        raise ServerError(f"the control socket {path} failed: {reason}") from error


def _told_before_ok(answers: Iterable[str]) -> List[str]:
    """Returns the lines of an answer before its `ok`."""
    told: List[str] = []
    for answer in answers:
        text = answer.rstrip("\n")
        if text == "ok":
            return told
        if text.startswith(REFUSED):
            raise ServerError(text[len(REFUSED) :])
        told.append(text)
    raise ServerError("the server closed the control connection without an answer")


def listening() -> List[bytes]:
    """Returns the paths of the Unix sockets that listen for connections.

    The file of a socket exists a moment before the socket listens.
    """
    with open("/proc/net/unix", "rb") as table:
        rows = [line.rstrip(b"\n").split(None, 7) for line in table]
    return [row[7] for row in rows[1:] if len(row) == 8 and int(row[3], 16) & LISTENS]
