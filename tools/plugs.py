"""The tools plug and unplug: one connects a monitor to a connector of a display, the other disconnects it."""
import os
import pathlib
import sys

sys.dont_write_bytecode = True
sys.path.insert(0, str(pathlib.Path(__file__).resolve().parent.parent / "clients/python"))
from command_line import parser_of  # noqa: E402  (it is in this folder)
from zirkoshe.display import Display, DisplayError  # noqa: E402  (it is in clients/python)
from zirkoshe.uevents import send_hotplug  # noqa: E402

HELP = """{title}

From then on MODE_GETCONNECTOR reports it. A connector without a monitor is disconnected and has no modes. What its CRTC
shows stays until a client changes it. Under `with-server --udev`, libudev reports the change to programs of the same command.
Otherwise they see it when they ask next.

Inside `tools/with-server --libdrm COMMAND..`, the variable DRM_SERVER_DISPLAY names the display. Only root and the user that
started the display may do this.

Exit status:
  0  it was done
  1  there is no display or no such connector
  2  a refused command line

Examples:
  {name} 8
"""
DISPLAY = "DRM_SERVER_DISPLAY"
# the folder of umockdev, by which programs listen to libudev
UEVENTS = "UMOCKDEV_DIR"
TITLES = {
    "plug": "Connects a monitor to a connector of a display.",
    "unplug": "Disconnects the monitor from a connector of a display.",
}


def main(name: str) -> int:
    """Runs the tool of this name, and returns its exit status."""
    parser = parser_of(name, HELP.format(title=TITLES[name], name=name))
    parser.add_argument("--display", metavar="SOCKET", default=os.environ.get(DISPLAY), help=f"the display (default that of {DISPLAY})")
    parser.add_argument("connector", type=int, metavar="CONNECTOR", help="the id of the connector")
    parsed = parser.parse_args()
    if not parsed.display:
        print(f"{name}: there is no display: run this inside tools/with-server --libdrm, or set {DISPLAY}", file=sys.stderr)
        return 1
    display = Display(parsed.display)
    try:
        (display.plug if name == "plug" else display.unplug)(parsed.connector)
        if UEVENTS in os.environ:
            send_hotplug(os.environ[UEVENTS], parsed.connector)
    except DisplayError as error:
        print(f"{name}: {error}", file=sys.stderr)
        return 1
    except OSError as error:
        print(f"{name}: can't report the change: {error}", file=sys.stderr)
        return 1
    return 0

