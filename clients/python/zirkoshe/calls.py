"""The calls, described once for `Client` and for `AsyncClient`.

Each client names the types that its calls return: `Client` those of the answers,
`AsyncClient` those of coroutines.
"""

# mypy: no-warn-return-any

from typing import Any, Generic, Iterable, Sequence, TypeVar, Union

_Done = TypeVar("_Done")
_Number = TypeVar("_Number")
_Version = TypeVar("_Version")
_Dumb = TypeVar("_Dumb")
_Buffer = TypeVar("_Buffer")
_Resources = TypeVar("_Resources")
_Ids = TypeVar("_Ids")
_Plane = TypeVar("_Plane")
_Framebuffer = TypeVar("_Framebuffer")
_Lease = TypeVar("_Lease")
_Rows = TypeVar("_Rows")


def leased_ids(ids: Sequence[Union[int, Iterable[int]]]) -> Sequence[int]:
    """Returns the ids of a lease, which are the arguments or those of one list."""
    listed = ids[0] if len(ids) == 1 and not isinstance(ids[0], int) else ids
    return tuple(listed)  # type: ignore[arg-type]  # a nested list is a ValueError


class Calls(
    Generic[
        _Done,
        _Number,
        _Version,
        _Dumb,
        _Buffer,
        _Resources,
        _Ids,
        _Plane,
        _Framebuffer,
        _Lease,
        _Rows,
    ]
):
    """A method for each call."""

    def _call(self, word: str, *values: int) -> Any:
        """Makes the call with this word in a script, and returns its answer."""
        raise NotImplementedError

    def version(self) -> _Version:
        """Returns the version of the interface."""
        return self._call("version")

    def get_magic(self) -> _Number:
        """Returns the client's magic."""
        return self._call("get_magic")

    def gem_close(self, handle: int) -> _Done:
        """Closes a handle."""
        return self._call("gem_close", handle)

    def gem_flink(self, handle: int) -> _Number:
        """Returns the global name of a handle's object."""
        return self._call("gem_flink", handle)

    def gem_open(self, name: int) -> _Buffer:
        """Opens the object with this global name."""
        return self._call("gem_open", name)

    def get_cap(self, cap: int) -> _Number:
        """Returns the value of a capability of `Cap`."""
        return self._call("get_cap", cap)

    def set_client_cap(self, cap: int, value: int) -> _Done:
        """Sets a capability of `ClientCap`."""
        return self._call("set_client_cap", cap, value)

    def auth_magic(self, magic: int) -> _Done:
        """Authenticates the client with this magic."""
        return self._call("auth_magic", magic)

    def set_master(self) -> _Done:
        """Makes the client's master the device's."""
        return self._call("set_master")

    def drop_master(self) -> _Done:
        """Leaves the device without a master."""
        return self._call("drop_master")

    def prime_export(self, handle: int) -> _Number:
        """Returns a PRIME token of a handle's object."""
        return self._call("prime_export", handle)

    def prime_import(self, token: int) -> _Buffer:
        """Returns the buffer of a PRIME token."""
        return self._call("prime_import", token)

    def buf_create(self, size: int) -> _Buffer:
        """Creates a buffer of `size` bytes."""
        return self._call("buf_create", size)

    def stamp_write(self, handle: int, stamp: int) -> _Done:
        """Writes the stamp of a buffer."""
        return self._call("stamp_write", handle, stamp)

    def stamp_read(self, handle: int) -> _Number:
        """Returns the stamp of a buffer."""
        return self._call("stamp_read", handle)

    def token_close(self, token: int) -> _Done:
        """Closes a PRIME token."""
        return self._call("token_close", token)

    def list_handles(self, least: int = 0) -> _Ids:
        """Returns the first 64 handles that are not below `least`."""
        return self._call("list_handles", least)

    def audit(self, kind: int, skipped: int = 0) -> _Rows:
        """Returns up to 16 rows of a kind of `AuditKind`, after the first `skipped`."""
        return self._call("audit", kind, skipped)

    def getresources(self) -> _Resources:
        """Returns the ids of the mode objects that the client sees."""
        return self._call("getresources")

    def getcrtc(self, crtc: int) -> _Number:
        """Returns the framebuffer that a CRTC shows, or 0."""
        return self._call("getcrtc", crtc)

    def setcrtc(self, crtc: int, framebuffer: int, connector: int) -> _Done:
        """Shows a framebuffer on a CRTC; with 0 and 0 the CRTC becomes dark."""
        return self._call("setcrtc", crtc, framebuffer, connector)

    def getencoder(self, encoder: int) -> _Number:
        """Returns the mask of an encoder's possible CRTCs."""
        return self._call("getencoder", encoder)

    def getconnector(self, connector: int) -> _Number:
        """Returns the encoder of a connector."""
        return self._call("getconnector", connector)

    def getfb(self, framebuffer: int) -> _Framebuffer:
        """Returns a framebuffer, with a new handle of its object."""
        return self._call("getfb", framebuffer)

    def addfb(
        self, width: int, height: int, pitch: int, bpp: int, handle: int
    ) -> _Number:
        """Creates a framebuffer, and returns its id."""
        return self._call("addfb", width, height, pitch, bpp, handle)

    def rmfb(self, framebuffer: int) -> _Done:
        """Removes a framebuffer."""
        return self._call("rmfb", framebuffer)

    def create_dumb(self, width: int, height: int, bpp: int) -> _Dumb:
        """Creates a dumb buffer for pixels of `bpp` bits."""
        return self._call("create_dumb", width, height, bpp)

    def destroy_dumb(self, handle: int) -> _Done:
        """Closes the handle of a dumb buffer."""
        return self._call("destroy_dumb", handle)

    def getplaneresources(self) -> _Ids:
        """Returns the ids of the planes that the client sees."""
        return self._call("getplaneresources")

    def getplane(self, plane: int) -> _Plane:
        """Returns what a plane shows, and on which CRTCs it may."""
        return self._call("getplane", plane)

    def setplane(self, plane: int, crtc: int, framebuffer: int) -> _Done:
        """Shows a framebuffer on a plane; with 0 and 0 the plane becomes dark."""
        return self._call("setplane", plane, crtc, framebuffer)

    def create_lease(self, *ids: Union[int, Iterable[int]]) -> _Lease:
        """Leases these mode objects, or those of one list, to a new lessee."""
        return self._call("create_lease", *leased_ids(ids))

    def list_lessees(self) -> _Ids:
        """Returns the ids of the lessees of the client's master."""
        return self._call("list_lessees")

    def get_lease(self) -> _Ids:
        """Returns the ids of the mode objects in the client's lease."""
        return self._call("get_lease")

    def revoke_lease(self, lessee_id: int) -> _Done:
        """Revokes the lease of a lessee."""
        return self._call("revoke_lease", lessee_id)
