"""What the tests of the built program and of the clients share: how a server is run, and how tests are run and counted."""
from __future__ import annotations

import contextlib
import functools
import os
import pathlib
import re
import resource
import select
import shutil
import signal
import socket
import subprocess
import sys
import tempfile
import threading
import time
import traceback
import unittest
from typing import TYPE_CHECKING, Any, Callable, Dict, Iterable, Iterator, List, Optional, Tuple, Type, TypeVar, Union

REPOSITORY = pathlib.Path(__file__).resolve().parent.parent
SCRIPT = REPOSITORY / "drm_server"
CLIENTS = REPOSITORY / "clients"
SECONDS = 30
# in /proc/net/unix, the flags of a socket that listens, and the states of one that is no connection and of a connection that waits
LISTENS = b"00010000"
UNCONNECTED = b"01"
WAITING = b"02"

sys.dont_write_bytecode = True
sys.path[:0] = [str(CLIENTS / "python"), str(REPOSITORY / "tools")]
from zirkoshe import Client, Refusal  # noqa: E402  (the client stands in clients/python)
from zirkoshe.protocol import words  # noqa: E402

Made = TypeVar("Made")
if TYPE_CHECKING:
    PathLike = os.PathLike[str]
    Ran = subprocess.CompletedProcess[str]
    Started = subprocess.Popen[str]
    Word = Union[str, os.PathLike[str]]
else:
    PathLike = os.PathLike

CLASSES = ("card", "render", "root")


@functools.lru_cache(None)
def find_program() -> Optional[pathlib.Path]:
    """The program that the script at the top would run, or none; it compiles one if necessary, and reports so.

    Whatever a test starts takes the same one, and looks for no other.
    """
    found = subprocess.run(
        [SCRIPT, "--program"], stdin=subprocess.DEVNULL, stdout=subprocess.PIPE, text=True, check=False
    )
    if found.returncode != 0:
        return None
    program = pathlib.Path(found.stdout.rstrip("\n")).resolve()
    os.environ["DRM_SERVER_PROGRAM"] = str(program)
    return program


class Program(PathLike):
    """The path of the program, which is looked for when it is first used and not before."""

    def __fspath__(self) -> str:
        program = find_program()
        if program is None:
            raise Skipped("there is no program of the server")
        return str(program)

    __str__ = __fspath__


PROGRAM = Program()
BUILT = tempfile.TemporaryDirectory(prefix="drm_")
LIBRARY_COMPILER = ["cc", "-std=gnu99", "-Wall", "-Wextra", "-Wpedantic", "-Werror", "-O2", "-fPIC", "-shared"]


def expect(what: str, found: object, wanted: object) -> None:
    """Fails the test if a value isn't the expected one."""
    if found != wanted:
        raise AssertionError(f"{what}: {found!r} in place of {wanted!r}")


def expect_end(ran: Ran, status: int, error: str, output: str) -> None:
    """Compares an ended run's status, error output and output."""
    expect("error output", ran.stderr, error)
    expect("status", ran.returncode, status)
    expect("output", ran.stdout, output)


def told_by(line: str) -> str:
    """A logged line as its level and its text, as `ERROR line 1: ..`. Where the program logs it is left out."""
    return re.sub(r"^\[([A-Z]+) +drm_[a-z_:]+\] ", r"\1 ", line.rstrip("\n"))


def next_told(started: Started) -> Optional[str]:
    """The next line that a running server logs. What follows stays in the pipe, for `end_of`."""
    assert started.stderr is not None
    pipe, line = started.stderr.fileno(), b""
    while not line.endswith(b"\n"):
        ready, _, _ = select.select([pipe], [], [], SECONDS)
        byte = os.read(pipe, 1) if ready else b""
        if not byte:
            return None
        line += byte
    return told_by(line.decode())


def expect_told(ran: Ran, status: int, told: List[str], output: str) -> None:
    """Compares an ended run's status, its error output, and its output.

    Warnings are first, in any order: each is logged as its session ends.
    """
    lines = [told_by(line) for line in ran.stderr.splitlines()]
    warned = sorted(line for line in lines if line.startswith("WARN "))
    lines = warned + [line for line in lines if not line.startswith("WARN ")]
    expect("error output", lines, sorted(told[: len(warned)]) + told[len(warned) :])
    expect("status", ran.returncode, status)
    expect("output", ran.stdout, output)


def run(*command: object, **options: Any) -> Ran:
    """Runs a command to its end."""
    given: Dict[str, Any] = {"stdin": subprocess.DEVNULL, "timeout": 4 * SECONDS, **options}
    return subprocess.run(list(map(str, command)), capture_output=True, text=True, **given)


def run_program(*words: Word, script: str = "", **options: Any) -> Ran:
    """Runs the program to its end over this input."""
    return subprocess.run([PROGRAM, *words], input=script, capture_output=True, text=True, timeout=SECONDS, **options)


def loading(source: str, **variables: str) -> Dict[str, str]:
    """The environment of a program that a file of tests/ in C is loaded into, which is built once, with variables for it."""
    want_program(LIBRARY_COMPILER[0])
    library = os.path.join(BUILT.name, source + ".so")
    if not os.path.exists(library):
        ran = run(*LIBRARY_COMPILER, "-o", library, REPOSITORY / "tests" / source)
        expect(f"what {LIBRARY_COMPILER[0]} says", (ran.returncode, ran.stdout + ran.stderr), (0, ""))
    return {**os.environ, "LD_PRELOAD": library, **variables}


def path_words(folder: pathlib.Path) -> List[str]:
    """The words of the command line that name a socket for each class."""
    return [word for name in CLASSES for word in (f"--{name}", str(folder / name))]


def count_words(cards: int, renders: int, roots: int) -> List[str]:
    """The words of the command line that say how many connections are accepted."""
    return ["--cards", str(cards), "--renders", str(renders), "--roots", str(roots)]


@contextlib.contextmanager
def server(
    folder: pathlib.Path,
    *counts: int,
    limits: Iterable[Tuple[int, int]] = (),
    more: Iterable[Word] = (),
    **options: Any,
) -> Iterator[Started]:
    """A server on the three sockets of a folder, which is killed where the test didn't let it end.

    A limit is a resource and how much of it the server may have. More words of the command line may follow.
    """

    def prepare() -> None:
        # a shell lets what it starts in the background ignore this one
        signal.signal(signal.SIGINT, signal.SIG_DFL)
        for kind, most in limits:
            resource.setrlimit(kind, (most, most))

    pipes = {"stdin": subprocess.DEVNULL, "stdout": subprocess.PIPE, "stderr": subprocess.PIPE}
    given: Dict[str, Any] = {**pipes, "text": True, "preexec_fn": prepare, **options}
    words: List[Word] = [PROGRAM, "serve", *path_words(folder), *count_words(*counts), *more]
    started: Started = subprocess.Popen(words, **given)
    try:
        yield started
    finally:
        if started.poll() is None:
            started.kill()
        started.communicate()


@contextlib.contextmanager
def lasting_server(folder: pathlib.Path, *words: Word) -> Iterator[Started]:
    """A server that accepts any number of connections, with these options; `stopped` ends it. It is killed if the test did not end it."""
    given: List[Word] = [PROGRAM, "serve", *path_words(folder), "--until-ended", *words]
    pipes: Dict[str, Any] = {"stdin": subprocess.PIPE, "stdout": subprocess.PIPE, "stderr": subprocess.PIPE}
    started: Started = subprocess.Popen(given, text=True, **pipes)
    try:
        yield started
    finally:
        if started.poll() is None:
            started.kill()
            started.communicate()


def stopped(started: Started) -> Ran:
    """Ends a server by the end of its standard input, and waits for it."""
    output, error = started.communicate("", timeout=SECONDS)
    return subprocess.CompletedProcess(started.args, started.returncode, output, error)


def end_of(started: Started) -> Ran:
    """Waits for a server that ends by itself."""
    output, error = started.communicate(timeout=SECONDS)
    return subprocess.CompletedProcess(started.args, started.returncode, output, error)


def retry(action: Callable[[], Made]) -> Made:
    """Returns the result of the action once it is no longer refused: the server makes its sockets while the test runs."""
    until = time.monotonic() + SECONDS
    while True:
        try:
            return action()
        except (FileNotFoundError, ConnectionRefusedError):
            if time.monotonic() > until:
                raise
            time.sleep(0.01)


def wait_until(what: str, is_so: Callable[[], bool]) -> None:
    """Waits until this is so, and fails where it takes too long."""
    until = time.monotonic() + SECONDS
    while not is_so():
        expect(f"{what} in time", time.monotonic() < until, True)
        time.sleep(0.01)


def wait_until_it_listens(path: Word) -> None:
    """Waits until the server listens on this socket, and uses up none of its connections. (Its file is there a moment before.)"""
    wanted = os.fsencode(path)
    wait_until(
        f"whether somebody listens on {path}",
        lambda: any(len(row) == 8 and row[3] == LISTENS and row[7] == wanted for row in sockets_of_this_system()),
    )


def wait_until_accepted(path: Word) -> None:
    """Waits until the server has accepted each connection to this socket. One that it never accepts is reset at its end."""
    wanted = os.fsencode(path)
    wait_until(
        f"whether no connection to {path} waits",
        lambda: all(row[5:6] != [WAITING] or row[7:] != [wanted] for row in sockets_of_this_system()),
    )


def is_bound(path: Word) -> bool:
    """Whether a socket is bound to this path that is no connection: it is listened to, or will be in a moment."""
    wanted = os.fsencode(path)
    return any(len(row) == 8 and row[5] == UNCONNECTED and row[7] == wanted for row in sockets_of_this_system())


def sockets_of_this_system() -> List[List[bytes]]:
    """The rows of all Unix sockets."""
    return [line.split(None, 7) for line in pathlib.Path("/proc/net/unix").read_bytes().split(b"\n")]


def heed_signals() -> None:
    """For a child: no signal is ignored, though the tests may have been started so, as by nohup."""
    for number in (signal.SIGINT, signal.SIGTERM, signal.SIGHUP):
        signal.signal(number, signal.SIG_DFL)


@contextlib.contextmanager
def ended_in_time(started: Started) -> Iterator[Started]:
    """Kills a process at the end, and after a time, so that who reads from it doesn't wait for ever."""
    timer = threading.Timer(4 * SECONDS, started.kill)
    timer.start()
    try:
        yield started
    finally:
        timer.cancel()
        if started.poll() is None:
            started.kill()


def connect(path: Word, lease: Optional[int] = None, version: int = 1) -> Client:
    """A client of the socket, once the server has made it: of the node, or by a lease token, with a hello of this version."""
    return retry(lambda: Client(path, lease, SECONDS, version))


def connect_raw(path: Word) -> socket.socket:
    """A connection to the socket, on which nothing was said."""
    connected = socket.socket(socket.AF_UNIX)
    connected.settimeout(SECONDS)
    try:
        connected.connect(str(path))
    except OSError:
        connected.close()
        raise
    return connected


def read_end(connection: socket.socket) -> bytes:
    """What is read of a connection until it ends, by whichever end. One that was not accepted is reset."""
    with connection:
        try:
            return connection.recv(1)
        except ConnectionResetError:
            return b""


def expect_refused(path: Word) -> None:
    """A further connection is refused at once, or a server that has ended removed the socket.

    One that was made while the listener still closed has ended by then.
    """
    until = time.monotonic() + SECONDS
    with contextlib.ExitStack() as made:
        while time.monotonic() < until:
            try:
                made.enter_context(connect_raw(path))
            except (ConnectionRefusedError, FileNotFoundError):
                return
            time.sleep(0.01)
    raise AssertionError(f"connections to {path} are not refused")


def refusal_of(path: Word, lease: Optional[int] = None) -> str:
    """The words by which an opening is refused."""
    try:
        connect(path, lease).abandon()
    except Refusal as refusal:
        return refusal.words
    raise AssertionError(f"an opening on {path} was accepted")


def opened_by(client: Client) -> str:
    """The words by which its opening was accepted."""
    return words(client.opened)


def expect_answers(asked: Iterable[Tuple[Client, str, str]]) -> None:
    """Compares the answers to calls, each a client, its call and the answer, in their order."""
    for client, call, answer in asked:
        expect(call, client.ask(call), answer)


def expect_no_sockets(folder: pathlib.Path) -> None:
    """The server has removed its files."""
    expect("files left", sorted(path.name for path in folder.iterdir()), [])


class Skipped(unittest.SkipTest):
    """What a test raises that can't be run here, with the reason."""


def want_program(name: str) -> None:
    """Skips the test where this program isn't on the path."""
    if shutil.which(name) is None:
        raise Skipped(f"there is no {name}")


@functools.lru_cache(None)
def is_compiled_with_checks() -> bool:
    """Whether the program checks its accesses to memory as it runs, as one does that was compiled unproved."""
    return b"__asan_init" in pathlib.Path(PROGRAM).read_bytes()


def want_no_checks(reason: str) -> None:
    """Skips the test where the program is compiled with such checks, which it can't be run with for this reason."""
    if is_compiled_with_checks():
        raise Skipped(f"the program was compiled with checks: {reason}")


@functools.lru_cache(None)
def find_libdrm() -> Optional[List[str]]:
    """Returns the options by which a C compiler finds libdrm, or none without a compiler or without libdrm and its headers."""
    if shutil.which("cc") is None:
        return None
    words = ["-I/usr/include/libdrm", "-ldrm"]
    if shutil.which("pkg-config") is not None and run("pkg-config", "--exists", "libdrm").returncode == 0:
        words = run("pkg-config", "--cflags", "--libs", "libdrm").stdout.split()
    probe = run(
        "cc",
        "-x",
        "c",
        "-",
        "-o",
        os.path.join(BUILT.name, "probe"),
        *words,
        stdin=None,
        input="#include <xf86drm.h>\n#include <drm_fourcc.h>\nint main(void) { return drmAvailable(); }\n",
    )
    return words if probe.returncode == 0 else None


def want_libdrm() -> List[str]:
    """Returns the options by which a C compiler finds libdrm. Skips the test if it can't be found."""
    words = find_libdrm()
    if words is None:
        raise Skipped("there is no C compiler, or no libdrm with its headers")
    return words


def make_root(root: pathlib.Path, *programs: Word) -> None:
    """Makes a root that has nothing but a shell with a few commands, and the libraries that it and these programs need."""
    for name in ("unshare", "busybox", "ldd"):
        want_program(name)
    (root / "bin").mkdir(parents=True)
    (root / "tmp").mkdir()
    shutil.copy(str(shutil.which("busybox")), root / "bin")
    for name in ("sh", "cat", "dirname", "readlink", "find", "head", "mktemp", "mkfifo", "rm", "sleep"):
        (root / "bin" / name).symlink_to("busybox")
    for program in (root / "bin/busybox", *programs):
        for word in run("ldd", program).stdout.split():
            if word.startswith("/") and not word.endswith(":"):
                library = root / word[1:]
                library.parent.mkdir(parents=True, exist_ok=True)
                shutil.copy(word, library)


def run_in_root(root: pathlib.Path, script: str) -> Ran:
    """Runs a script in such a root."""
    return run("unshare", "--map-root-user", f"--root={root}", "/bin/sh", "-c", script, env={"PATH": "/usr/bin:/bin"})


COMPILERS = {
    "c": ["cc", "-std=c99", "-Wall", "-Wextra", "-Wpedantic", "-Werror", "-pthread", "-I", str(CLIENTS / "c")],
    "rust": ["rustc", "--edition", "2021", "-D", "warnings"],
}


def compile_client(language: str, source: str, folder: pathlib.Path) -> pathlib.Path:
    """A program of the tests in C or Rust, compiled into this folder."""
    want_program(COMPILERS[language][0])
    program = folder / language
    ran = run(*COMPILERS[language], "-o", program, REPOSITORY / "tests" / source)
    expect(f"what {COMPILERS[language][0]} says", (ran.returncode, ran.stdout + ran.stderr), (0, ""))
    return program


class FolderCase(unittest.TestCase):
    """A case whose tests each have their own folder. They are skipped if there is no program of the server."""

    folder: pathlib.Path

    @classmethod
    def setUpClass(cls) -> None:
        socket.setdefaulttimeout(SECONDS)
        cls.addClassCleanup(socket.setdefaulttimeout, None)
        if find_program() is None:
            raise Skipped("there is no program of the server")

    def setUp(self) -> None:
        room = tempfile.TemporaryDirectory(prefix="drm_")
        self.addCleanup(room.cleanup)
        self.folder = pathlib.Path(room.name)


def add_tests(case: Type[FolderCase], tests: Dict[str, Callable[[pathlib.Path], None]]) -> None:
    """Adds functions of a folder to a case, each as the test of its name."""
    for name, test in tests.items():
        setattr(case, name, lambda self, function=test: function(self.folder))


class LineResult(unittest.TestResult):
    """Prints a line for each test as it ends, and counts those that passed."""

    def __init__(self) -> None:
        super().__init__()
        self.passed = 0

    def addSuccess(self, test: unittest.TestCase) -> None:
        self.passed += 1
        print(f"passed {name_of(test)}", flush=True)

    def addSkip(self, test: unittest.TestCase, reason: str) -> None:
        print(f"skipped {name_of(test)}: {reason}", flush=True)

    def addFailure(self, test: unittest.TestCase, err: Any) -> None:
        self.addError(test, err)

    def addError(self, test: unittest.TestCase, err: Any) -> None:
        self.errors.append((test, ""))
        print(f"FAILED {name_of(test)}", flush=True)
        print("".join(traceback.format_exception(*err)), end="", flush=True)


def name_of(test: Union[unittest.TestCase, unittest.TestSuite]) -> str:
    """The name of a test, or what unittest calls a case that fails as a whole."""
    return getattr(test, "_testMethodName", str(test))


def run_tests() -> int:
    """Runs the tests of the program's file, or those that the command line names, and returns the status.

    The last line is `N passed, M failed`.
    """
    if find_program() is None:
        print("0 passed, 1 failed")
        return 1
    chosen = sys.argv[1:]
    result = LineResult()
    cases = unittest.defaultTestLoader.loadTestsFromModule(sys.modules["__main__"])
    tests = [test for case in cases if isinstance(case, unittest.TestSuite) for test in case]
    unittest.TestSuite(test for test in tests if not chosen or name_of(test) in chosen).run(result)
    print(f"{result.passed} passed, {len(result.errors)} failed")
    return 1 if result.errors else 0
