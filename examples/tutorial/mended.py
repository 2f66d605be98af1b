"""The compositor without its mistakes: it tracks whether it has the screen and which outputs it lent."""
import compositor
from compositor import OUTPUTS


class Compositor(compositor.Compositor):
    def __init__(self, path):
        super().__init__(path)
        self.has_screen = True
        self.lent = set()

    def repaint(self):
        for output in OUTPUTS:
            if self.has_screen and output not in self.lent:
                self.client.setcrtc(output.crtc, self.picture, output.connector)

    def switch_away(self):
        self.has_screen = False
        super().switch_away()

    def switch_back(self):
        self.has_screen = True
        super().switch_back()

    def lend(self, output):
        self.lent.add(output)
        return super().lend(output)
