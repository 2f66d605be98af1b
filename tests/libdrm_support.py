"""What the tests of clients/libdrm share: the library, programs that are compiled against libdrm, and their server."""
import contextlib
import os
import pathlib
import socket
import subprocess
import sys
import time

sys.dont_write_bytecode = True
from support import (  # noqa: E402
    BUILT,
    CLASSES,
    CLIENTS,
    REPOSITORY,
    SECONDS,
    Skipped,
    connect,
    expect,
    run,
    server,
    want_libdrm,
)

from zirkoshe.server import listening  # noqa: E402

LIBRARY = CLIENTS / "libdrm"
LOGIND = LIBRARY / "logind"
# the status of a supervisor, or a stand-in for logind, that the kernel does not allow
NOT_STARTED = 125
# the status of a program whose calls belong in one frame and took longer, and how often it is run then
TOO_SLOW = 75
TRIES = 10
# the number of the system call on x86-64
RECVMSG = "47"
# what is checked in the library, the display and the supervisor as they run: address,undefined or thread, or nothing
SANITIZERS = os.environ.get("LIBDRM_SANITIZERS", "")
COMPILER = ["cc", "-std=gnu11", "-Wall", "-Wextra", "-Wpedantic", "-Werror", "-O2", "-pthread"]


def sanitize():
    """Compiles the parts with sanitizers, in another folder. A library brings AddressSanitizer into each program."""
    archive = run("cc", "-print-file-name=libasan.a").stdout.strip()
    brings = ["-static-libasan", f"-Wl,--whole-archive,{archive},--no-whole-archive", "-lstdc++", "-lm"]
    parts = {"": brings if "address" in SANITIZERS else [], "--display": [], "--supervisor": []}
    os.environ["LIBDRM_OUT"] = str(LIBRARY / "out" / SANITIZERS)
    # what only the loop's set of descriptors refers to would be a leak
    os.environ["ASAN_OPTIONS"] = "detect_leaks=0:verify_asan_link_order=0"
    for part, more in parts.items():
        flags = " ".join(["-g", "-O1", f"-fsanitize={SANITIZERS}", "-fno-sanitize-recover=undefined", *more])
        built = run(LIBRARY / "build", *part.split(), env={**os.environ, "CFLAGS": flags}, timeout=600)
        expect("what the build says", (built.returncode, built.stderr), (0, ""))


if SANITIZERS:
    sanitize()


def compiled(source):
    """A program of the tests or of the examples, compiled once against libdrm."""
    words = want_libdrm()
    program = pathlib.Path(BUILT.name, pathlib.Path(source).stem)
    if not program.exists():
        ran = run(*COMPILER, "-I", CLIENTS / "c", "-o", program, REPOSITORY / source, *words)
        expect("what cc says", (ran.returncode, ran.stdout + ran.stderr), (0, ""))
    return program


def library():
    """The library, built where that is still to be done."""
    want_libdrm()
    ran = run(LIBRARY / "build")
    expect("what the build says", (ran.returncode, ran.stderr), (0, ""))
    return ran.stdout.strip()


def display():
    """The display, built where that is still to be done."""
    want_libdrm()
    ran = run(LIBRARY / "build", "--display")
    expect("what the build says", (ran.returncode, ran.stderr), (0, ""))
    return ran.stdout.strip()


def supervisor():
    """The supervisor, built if necessary; skips the test if the kernel allows none."""
    want_libdrm()
    built = run(LIBRARY / "build", "--supervisor")
    expect("what the build says", (built.returncode, built.stderr), (0, ""))
    path = built.stdout.strip()
    ran = run(path, "true")
    if ran.returncode == NOT_STARTED:
        raise Skipped(ran.stderr.strip())
    return path


def want_logind():
    """Skips the test if there can be no stand-in for logind."""
    ran = run(LOGIND, "true")
    if ran.returncode != 0:
        raise Skipped(ran.stderr.strip() or f"{LOGIND} ended with status {ran.returncode}")


def environment(folder, **variables):
    """Returns the environment of a program that finds the server in this folder through libdrm."""
    sockets = {f"DRM_SERVER_{name.upper()}": str(folder / name) for name in CLASSES}
    own = {"LD_PRELOAD": library(), "DRM_SERVER_DISPLAY": str(folder / "display")}
    return {**os.environ, **own, **sockets, **variables}


def wait_until(holds):
    """Waits until something holds, and fails the test where it doesn't in time."""
    until = time.monotonic() + SECONDS
    while not holds():
        if time.monotonic() > until:
            raise AssertionError("it took too long")
        time.sleep(0.01)


def waits_for_an_answer(process):
    """Whether a process sleeps in recvmsg, which is how a thread waits for its answer, by the number of the system call."""
    return pathlib.Path(f"/proc/{process}/syscall").read_text().split()[0] == RECVMSG


@contextlib.contextmanager
def displayed(folder, program=None, **variables):
    """A display of the server in this folder, and the socket on which a supervisor speaks for its callers."""
    sockets = {f"DRM_SERVER_{name.upper()}": str(folder / name) for name in CLASSES}
    given = {**os.environ, **sockets, **variables}
    path = folder / "display"
    channel, other = socket.socketpair(socket.AF_UNIX, socket.SOCK_SEQPACKET)
    with channel, other:
        words = [program or display(), path, str(other.fileno())]
        with subprocess.Popen(words, env=given, pass_fds=[other.fileno()]) as displaying:
            other.close()
            wait_until(lambda: os.fsencode(path) in listening())
            try:
                yield channel
            finally:
                displaying.terminate()
        expect("status of the display", displaying.returncode, 0)


@contextlib.contextmanager
def listening_server(folder, cards=64, renders=8, roots=8, more=()):
    """A server in this folder, once it listens."""
    with server(folder, cards, renders, roots, more=more) as started:
        wait_until(lambda: all((folder / name).exists() for name in CLASSES))
        connect(folder / "root").close()
        yield started


@contextlib.contextmanager
def served(folder, cards=64, renders=8, roots=8, more=(), **variables):
    """A server in this folder, with a display that has these variables."""
    with listening_server(folder, cards, renders, roots, more) as started, displayed(folder, **variables):
        yield started


def finds_alike(source, case, text, *command, **variables):
    """Compares what a case of a program finds, with the library and under the supervisor."""
    program = compiled(source)
    library()
    for option in ("--libdrm", "--seccomp"):
        if option == "--seccomp":
            supervisor()
        ran = run(REPOSITORY / "tools/with-server", option, *command, program, case, env={**os.environ, **variables})
        expect(f"{case} with {option}: error output", ran.stderr, "")
        expect(f"{case} with {option}: status and output", (ran.returncode, ran.stdout), (0, text))


def in_time(run_once):
    """What a run of a program returns. The program is run again while it is too slow, as on a busy machine."""
    for _ in range(TRIES - 1):
        ran = run_once()
        if ran.returncode != TOO_SLOW:
            return ran
    return run_once()


def said(folder, *command, **options):
    """Returns what a program prints that ends well, next to its own server."""
    given = environment(folder)

    def run_once():
        with served(folder):
            return run(*command, env=given, **options)

    ran = in_time(run_once)
    expect("error output", ran.stderr, "")
    expect("status", ran.returncode, 0)
    return ran.stdout
