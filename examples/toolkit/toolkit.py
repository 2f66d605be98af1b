"""A toolkit's buffers on a render node. It makes one mistake, which the tests of docs/guides/toolkit.md find."""
from zirkoshe import Client


class Toolkit:
    """A client of the render node that draws into its own buffers and those of a compositor."""

    def __init__(self, path: str) -> None:
        self.client = Client(path)

    def create(self, size: int) -> int:
        """Creates a buffer and returns its handle."""
        return self.client.buf_create(size).handle

    def draw(self, handle: int, picture: int) -> None:
        """Writes the stamp that represents a picture."""
        self.client.stamp_write(handle, picture)

    def publish(self, handle: int) -> int:
        """Exports a buffer and returns the token for the compositor."""
        return self.client.prime_export(handle)

    def receive(self, token: int) -> int:
        """Imports a buffer and returns its handle."""
        return self.client.prime_import(token).handle

    def release(self, handle: int) -> None:
        """Ends one use of a buffer."""
        self.client.gem_close(handle)

    def close(self) -> None:
        """Closes the client."""
        self.client.close()
