#!/usr/bin/env python3
"""Tests of clients/libdrm/logind, the stand-in for logind.

What it tests: the stand-in for logind: its objects and errors, the devices of the program that has control, a
switch of the session, what it writes for libsystemd, the command's status.

The names of methods, properties and errors are those of org.freedesktop.login1(5). Each test has its own folder. The
last line is `N passed, M failed`. If there can be no stand-in, no D-Bus or no library, the tests are skipped. Standard library only.
"""
import os
import sys

sys.dont_write_bytecode = True
from support import REPOSITORY, FolderCase, expect, expect_end, run, run_tests, want_libdrm  # noqa: E402

from libdrm_support import LOGIND, NOT_STARTED, want_logind  # noqa: E402

WITH_SERVER = REPOSITORY / "tools/with-server"

# Calls methods of a bus, and prints what each returns or the name of its error. An argument has the connection, which is a number,
# the kind of the object and its name, the method, and its arguments as GLib writes them.
CALLER = """
import os, sys
from gi.repository import Gio, GLib

ROOT = "/org/freedesktop/login1"
buses = {}

def bus_of(number):
    if number not in buses:
        flags = Gio.DBusConnectionFlags.AUTHENTICATION_CLIENT | Gio.DBusConnectionFlags.MESSAGE_BUS_CONNECTION
        buses[number] = Gio.DBusConnection.new_for_address_sync(os.environ["DBUS_SYSTEM_BUS_ADDRESS"], flags, None, None)
    return buses[number]

def device_of(fds):
    status = os.fstat(fds.get(0))
    return f"{os.major(status.st_rdev)}:{os.minor(status.st_rdev)}" if status.st_rdev else "a pipe"

def call(number, kind, name, method, given):
    path = ROOT if kind == "Manager" else f"{ROOT}/{kind.lower()}/{name}"
    interface = "org.freedesktop.DBus.Properties" if method == "Get" else f"org.freedesktop.login1.{kind}"
    words = ("org.freedesktop.login1", path, interface, method, GLib.Variant.parse(None, given, None, None), None)
    result, fds = bus_of(number).call_with_unix_fd_list_sync(*words, Gio.DBusCallFlags.NONE, 5000, None, None)
    return device_of(fds) if fds is not None and fds.get_length() else result.print_(False)

for line in sys.argv[1:]:
    number, kind, name, method, given = line.split(" ", 4)
    if method == "leaves":
        buses.pop(number).close_sync(None)
        continue
    try:
        print(call(number, kind, name, method, given))
    except GLib.Error as error:
        print(Gio.DBusError.get_remote_error(error))
"""

# Takes the card, has the session switched twice, and prints each signal, and by which errno a request fails that only a master may make.
SWITCHER = """
import fcntl, os, signal
from gi.repository import Gio, GLib

SESSION = ("org.freedesktop.login1", "/org/freedesktop/login1/session/c1", "org.freedesktop.login1.Session")
DIRTYFB = 0xC01864B1
bus = Gio.bus_get_sync(Gio.BusType.SYSTEM)
loop = GLib.MainLoop()

def call(method, types, *words):
    given = GLib.Variant(types, words)
    return bus.call_with_unix_fd_list_sync(*SESSION, method, given, None, Gio.DBusCallFlags.NONE, 5000, None, None)

def report(message):
    if message.get_interface() in (SESSION[2], "org.freedesktop.DBus.Properties"):
        print(message.get_member(), message.get_body().print_(False), flush=True)
        if message.get_member() == "PropertiesChanged":
            GLib.idle_add(loop.quit)
    return message

def listen(_bus, message, is_incoming):
    return report(message) if is_incoming and message.get_message_type() == Gio.DBusMessageType.SIGNAL else message

def ask(fd):
    try:
        fcntl.ioctl(fd, DIRTYFB, bytes(24))
    except OSError as error:
        print(error.strerror, flush=True)

bus.add_filter(listen)
bus.signal_subscribe(SESSION[0], "org.freedesktop.DBus.Properties", None, SESSION[1], None, 0, lambda *_: None)
call("TakeControl", "(b)", False)
fd = call("TakeDevice", "(uu)", 226, 0)[1].get(0)
ask(fd)
for number in (signal.SIGUSR1, signal.SIGUSR2):
    os.kill(os.getppid(), number)
    loop.run()
    ask(fd)
"""
SWITCHED = """\
No such file or directory
PauseDevice (226, 0, 'force')
PropertiesChanged ('org.freedesktop.login1.Session', {'Active': <false>, 'State': <'online'>}, [])
Permission denied
ResumeDevice (226, 0, 0)
PropertiesChanged ('org.freedesktop.login1.Session', {'Active': <true>, 'State': <'active'>}, [])
No such file or directory
"""

NO_CONTROL = "org.freedesktop.login1.NotInControl"
USER = f"_{os.getuid()}"
PATH = "/org/freedesktop/login1"

# what is called by whom, and what that returns
SESSION = (
    ("1 Manager - GetSession ('c1',)", f"('{PATH}/session/c1',)"),
    ("1 Manager - GetSession ('c2',)", "org.freedesktop.login1.NoSuchSession"),
    ("1 Manager - GetSessionByPID (uint32 1,)", f"('{PATH}/session/c1',)"),
    ("1 Manager - GetSeat ('seat0',)", f"('{PATH}/seat/seat0',)"),
    ("1 Manager - GetSeat ('seat1',)", "org.freedesktop.login1.NoSuchSeat"),
    ("1 Manager - ListSeats ()", f"([('seat0', '{PATH}/seat/seat0')],)"),
    ("1 Manager - CanSuspend ()", "('no',)"),
    ("1 Manager - Inhibit ('sleep', 'me', 'test', 'delay')", "a pipe"),
    ("1 Session c1 Get ('org.freedesktop.login1.Session', 'Active')", "(<true>,)"),
    ("1 Session auto Get ('org.freedesktop.login1.Session', 'Id')", "(<'c1'>,)"),
    ("1 Session self Get ('org.freedesktop.login1.Session', 'Type')", "(<'wayland'>,)"),
    ("1 Session c1 Get ('org.freedesktop.login1.Session', 'Seat')", f"(<('seat0', objectpath '{PATH}/seat/seat0')>,)"),
    ("1 Seat seat0 Get ('org.freedesktop.login1.Seat', 'CanGraphical')", "(<true>,)"),
    ("1 User " + USER + " Get ('org.freedesktop.login1.User', 'State')", "(<'active'>,)"),
    ("1 Session c1 Activate ()", "()"),
)
DEVICES = (
    ("1 Session c1 TakeDevice (uint32 226, uint32 0)", NO_CONTROL),
    ("1 Session c1 TakeControl (false,)", "()"),
    ("2 Session c1 TakeControl (false,)", "System.Error.EBUSY"),
    ("2 Session c1 TakeDevice (uint32 226, uint32 0)", NO_CONTROL),
    ("1 Session c1 TakeDevice (uint32 226, uint32 0)", "226:0"),
    ("1 Session c1 TakeDevice (uint32 226, uint32 0)", "org.freedesktop.login1.DeviceIsTaken"),
    ("1 Session c1 TakeDevice (uint32 226, uint32 1)", "System.Error.ENOENT"),
    ("1 Session c1 TakeDevice (uint32 13, uint32 64)", "System.Error.ENODEV"),
    ("1 Session c1 ReleaseDevice (uint32 226, uint32 0)", "()"),
    ("1 Session c1 ReleaseDevice (uint32 226, uint32 0)", "org.freedesktop.login1.DeviceNotTaken"),
    ("1 Session c1 TakeDevice (uint32 226, uint32 0)", "226:0"),
    ("2 Session c1 TakeControl (true,)", "()"),
    ("1 Session c1 ReleaseControl ()", NO_CONTROL),
    ("2 Session c1 TakeDevice (uint32 226, uint32 0)", "226:0"),
    ("2 Session c1 leaves ()", None),
    ("1 Session c1 TakeControl (false,)", "()"),
    ("1 Session c1 TakeDevice (uint32 226, uint32 0)", "226:0"),
    ("1 Session c1 ReleaseControl ()", "()"),
    ("1 Session c1 TakeDevice (uint32 226, uint32 0)", NO_CONTROL),
)


class LibdrmLogindTests(FolderCase):
    """Runs commands with the stand-in for logind."""

    def expect_answers(self, cases) -> None:
        """The methods that are called one after the other return what they must."""
        want_libdrm()
        want_logind()
        ran = run(WITH_SERVER, "--libdrm", LOGIND, "/usr/bin/python3", "-c", CALLER, *(line for line, _ in cases))
        expect("status and error output", (ran.returncode, ran.stderr), (0, ""))
        expect("answers", ran.stdout.splitlines(), [answer for _, answer in cases if answer is not None])

    def test_session(self):
        self.expect_answers(SESSION)

    def test_devices_are_those_of_one_program(self):
        self.expect_answers(DEVICES)

    def test_session_is_switched(self):
        """The program loses and regains master, and the stand-in reports both."""
        want_libdrm()
        want_logind()
        ran = run(WITH_SERVER, "--libdrm", LOGIND, "/usr/bin/python3", "-c", SWITCHER)
        expect_end(ran, 0, "", SWITCHED)

    def test_states_for_libsystemd(self):
        want_logind()
        asked = "cat /run/systemd/sessions/$XDG_SESSION_ID"
        ran = run(LOGIND, "sh", "-c", asked)
        lines = {f"UID={os.getuid()}", "ACTIVE=1", "STATE=active", "TYPE=wayland", "CLASS=user", "SEAT=seat0"}
        expect("status", ran.returncode, 0)
        expect("lines that are missing", lines - set(ran.stdout.splitlines()), set())

    def test_status_is_that_of_the_command(self):
        want_logind()
        for words, status in ((["sh", "-c", "exit 7"], 7), (["sh", "-c", "kill -9 $$"], 137)):
            expect(f"status of {words}", run(LOGIND, *words).returncode, status)

    def test_command_that_does_not_exist(self):
        want_logind()
        ran = run(LOGIND, "no-such-command")
        expect_end(ran, NOT_STARTED, ran.stderr, "")
        expect("that it says so", "logind: can't run the command: " in ran.stderr, True)

    def test_system_without_namespaces(self):
        """As if the system did not allow them."""
        want_logind()
        (self.folder / "unshare").write_text("#!/bin/sh\necho unshare: no >&2\nexit 1\n")
        (self.folder / "unshare").chmod(0o755)
        given = {**os.environ, "PATH": f"{self.folder}:{os.environ['PATH']}"}
        expect_end(
            run(LOGIND, "true", env=given), NOT_STARTED, "logind: there can be no mount namespace: unshare: no\n", ""
        )

    def test_usage(self):
        want_logind()
        ran = run(LOGIND)
        expect("status", ran.returncode, 2)
        expect("last line", ran.stderr.splitlines()[-1], "logind: error: a command is required")


if __name__ == "__main__":
    sys.exit(run_tests())
