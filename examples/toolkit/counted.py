"""The toolkit without its mistake: it counts the uses of each handle."""
import collections
from typing import Counter

import toolkit


class Toolkit(toolkit.Toolkit):
    """A toolkit that closes a handle after its last use."""

    def __init__(self, path: str) -> None:
        super().__init__(path)
        self.uses: Counter[int] = collections.Counter()

    def receive(self, token: int) -> int:
        handle = super().receive(token)
        self.uses[handle] += 1
        return handle

    def release(self, handle: int) -> None:
        self.uses[handle] -= 1
        if self.uses[handle] <= 0:
            super().release(handle)
