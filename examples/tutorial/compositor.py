"""A compositor that shows one picture on two outputs. It makes two mistakes, which the tests of docs/guides/compositor.md find."""
from typing import NamedTuple

from zirkoshe import Client


class Output(NamedTuple):
    crtc: int
    plane: int
    connector: int


OUTPUTS = (Output(1, 3, 7), Output(2, 4, 8))


class Compositor:
    def __init__(self, path):
        self.client = Client(path)
        buffer = self.client.create_dumb(64, 64, 32)
        self.picture = self.client.addfb(64, 64, buffer.pitch, 32, buffer.handle)

    def repaint(self):
        """Scans out its picture on each output."""
        for output in OUTPUTS:
            self.client.setcrtc(output.crtc, self.picture, output.connector)

    def switch_away(self):
        """Leaves the screen to another session."""
        self.client.drop_master()

    def switch_back(self):
        self.client.set_master()
        self.repaint()

    def lend(self, output):
        """Leases an output and returns the token that opens the lessee's client."""
        return self.client.create_lease(*output).token

    def close(self):
        self.client.close()
