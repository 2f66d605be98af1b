"""The protocol without a connection: frames, answers and refusals.

docs/FRAMES.md has the calls, the answers and the frames.
"""

import errno
import re
import struct
from typing import (
    Any,
    Dict,
    List,
    NamedTuple,
    NoReturn,
    Optional,
    Sequence,
    Tuple,
    Type,
    TypeVar,
    Union,
)

from .constants import (
    APART,
    APARTS,
    DENIED,
    HELLO,
    LEAST_LENGTH,
    MOST_IDS,
    MOST_LENGTH,
    MOST_ROWS,
    RULES,
    ApartNumber,
    Rule,
)

#: The versions of a hello. A client that opens with version 2 starts with universal
#: planes off, like a kernel's client. Version 1 turns them on.
VERSIONS = (1, 2)
DEFAULT_VERSION = 2


class ClientError(Exception):
    """The server did not answer what was asked for."""


class ProtocolError(ClientError):
    """The answer is malformed, is cut off, or is not of the call's kind."""


class ForkedError(ClientError):
    """The client is that of the parent of this process, which can only close it."""

    def __init__(self) -> None:
        super().__init__("this process is a child of the one that opened the client")


class Refusal(ClientError):
    """The server refused the call or the opening, and nothing changed.

    `number` and `name` are those of the rule or the fault, `errno` is its error number.
    """

    #: The word of a script for this kind of refusal.
    word = ""

    def __init__(self, number: int, name: str, error: int) -> None:
        super().__init__(number)
        self.number = number
        self.name = name
        self.errno = error

    def __str__(self) -> str:
        return f"{self.words} ({errno.errorcode[self.errno]})"

    def __reduce__(self) -> Tuple[Type["Refusal"], Tuple[int]]:
        """Pickles the number alone, from which each kind of refusal is created."""
        return type(self), (self.number,)

    @property
    def words(self) -> str:
        """The refusal in a script's words."""
        return f"{self.word} {self.number} {self.name} {self.errno}"


class Denied(Refusal):
    """A rule denies it. `rule` is the `Rule`."""

    word = "denied"

    def __init__(self, number: int) -> None:
        super().__init__(number, *RULES[number])
        self.rule = Rule(number)


class Apart(Refusal):
    """A fault outside the rules: the journal is full, or memory is missing."""

    word = "apart"

    def __init__(self, number: int) -> None:
        super().__init__(number, *APARTS[number])
        self.fault = ApartNumber(number)


class Done(NamedTuple):
    """The call was carried out. It is true."""

    def __bool__(self) -> bool:
        return True


class Opened(NamedTuple):
    """The server opened a client with this number."""

    client: int


class Version(NamedTuple):
    """The version of the interface."""

    major: int
    minor: int
    patch: int


class Number(int):
    """A number. It is an `int`; `value` is its old name, for one version."""

    @property
    def value(self) -> int:
        """The number itself."""
        return int(self)


class Dumb(NamedTuple):
    """A dumb buffer: its handle, and its pitch and size in bytes."""

    handle: int
    pitch: int
    size: int


class Buffer(NamedTuple):
    """A buffer: its handle, and its size in bytes."""

    handle: int
    size: int


class Resources(NamedTuple):
    """The ids of the mode objects that the client sees."""

    crtcs: Tuple[int, ...]
    connectors: Tuple[int, ...]
    encoders: Tuple[int, ...]
    framebuffers: Tuple[int, ...]


class IdList(Tuple[int, ...]):
    """A list of numbers. It is a tuple; `ids` is its old name, for one version."""

    __slots__ = ()

    @property
    def ids(self) -> Tuple[int, ...]:
        """The tuple itself."""
        return self


class Plane(NamedTuple):
    """A plane: the framebuffer that it shows, or 0, and the mask of its CRTCs."""

    framebuffer: int
    possible_crtcs: int


class Framebuffer(NamedTuple):
    """A framebuffer, with a new handle of its object."""

    width: int
    height: int
    pitch: int
    bpp: int
    handle: int


class Lease(NamedTuple):
    """A lease: the lessee's id, and the token that opens its client."""

    lessee_id: int
    token: int


class Row(NamedTuple):
    """A row of an audit. `AuditKind` says what the four numbers of each kind are."""

    a: int
    b: int
    c: int
    d: int


class Rows(Tuple[Row, ...]):
    """Rows of an audit. It is a tuple; `rows` is its old name, for one version."""

    __slots__ = ()

    @property
    def rows(self) -> Tuple[Row, ...]:
        """The tuple itself."""
        return self


Answer = Union[
    Done,
    Opened,
    Version,
    Number,
    Dumb,
    Buffer,
    Resources,
    IdList,
    Plane,
    Framebuffer,
    Lease,
    Rows,
]
_A = TypeVar("_A")

#: Each answer by its number: its type, its word in a script, and its fields (I a u32,
#: Q a u64, L a list of u32, R rows).
ANSWERS: Dict[int, Tuple[Type[Any], str, str]] = {
    0x1000: (Done, "done", ""),
    0x1001: (Opened, "client", "I"),
    0x1002: (Version, "version", "III"),
    0x1003: (Number, "number", "Q"),
    0x1004: (Dumb, "dumb", "IIQ"),
    0x1005: (Buffer, "buffer", "IQ"),
    0x1006: (Resources, "", "LLLL"),
    0x1007: (IdList, "list", "L"),
    0x1008: (Plane, "plane", "II"),
    0x1009: (Framebuffer, "framebuffer", "IIIII"),
    0x100A: (Lease, "lease", "II"),
    0x100B: (Rows, "rows", "R"),
}
WORDS = {kind: word for kind, word, _ in ANSWERS.values()}


class Call(NamedTuple):
    """A call: its number, its fields (as those of answers), and its answer's type."""

    number: int
    layout: str
    answer: Type[Any]


CALLS: Dict[str, Call] = {
    "version": Call(0x00, "", Version),
    "get_magic": Call(0x02, "", Number),
    "gem_close": Call(0x09, "I", Done),
    "gem_flink": Call(0x0A, "I", Number),
    "gem_open": Call(0x0B, "I", Buffer),
    "get_cap": Call(0x0C, "Q", Number),
    "set_client_cap": Call(0x0D, "QQ", Done),
    "auth_magic": Call(0x11, "I", Done),
    "set_master": Call(0x1E, "", Done),
    "drop_master": Call(0x1F, "", Done),
    "prime_export": Call(0x2D, "I", Number),
    "prime_import": Call(0x2E, "I", Buffer),
    "buf_create": Call(0x40, "Q", Buffer),
    "stamp_write": Call(0x41, "IQ", Done),
    "stamp_read": Call(0x42, "I", Number),
    "token_close": Call(0x43, "I", Done),
    "list_handles": Call(0x44, "I", IdList),
    "audit": Call(0x45, "II", Rows),
    "getresources": Call(0xA0, "", Resources),
    "getcrtc": Call(0xA1, "I", Number),
    "setcrtc": Call(0xA2, "III", Done),
    "getencoder": Call(0xA6, "I", Number),
    "getconnector": Call(0xA7, "I", Number),
    "getfb": Call(0xAD, "I", Framebuffer),
    "addfb": Call(0xAE, "IIIII", Number),
    "rmfb": Call(0xAF, "I", Done),
    "create_dumb": Call(0xB2, "III", Dumb),
    "destroy_dumb": Call(0xB4, "I", Done),
    "getplaneresources": Call(0xB5, "", IdList),
    "getplane": Call(0xB6, "I", Plane),
    "setplane": Call(0xB7, "III", Done),
    "create_lease": Call(0xC6, "L", Lease),
    "list_lessees": Call(0xC7, "", IdList),
    "get_lease": Call(0xC8, "", IdList),
    "revoke_lease": Call(0xC9, "I", Done),
}


# requests


def kind_of(number: int) -> Optional[Type[Any]]:
    """Returns the type of the answers to the call with this number, if there is one."""
    return next((call.answer for call in CALLS.values() if call.number == number), None)


def pack(layout: str, *values: int) -> bytes:
    """Returns the bytes of these numbers.

    Raises `ValueError` if one is not an integer in the range of its field.
    """
    try:
        return struct.pack("<" + layout, *values)
    except struct.error as error:
        raise ValueError(
            f"{list(values)} are not numbers of the ranges of the fields: {error}"
        ) from error


def frame(number: int, fields: bytes = b"") -> bytes:
    """Returns a frame: the length of number and fields, the number, the fields.

    Raises `ValueError` if no frame has room for the fields.
    """
    length = LEAST_LENGTH + len(fields)
    if length > MOST_LENGTH:
        raise ValueError(f"a frame has no room for {len(fields)} bytes of fields")
    return pack("IH", length, number) + fields


def hello(lease: Optional[int], version: int = DEFAULT_VERSION) -> bytes:
    """Returns the first frame: an opening of the node, or one by this lease token."""
    if version not in VERSIONS:
        raise ValueError(f"the version of a hello must be 1 or 2, not {version}")
    return frame(HELLO, pack("III", version, 0 if lease is None else 1, lease or 0))


def request(call: Call, values: Sequence[int]) -> bytes:
    """Returns the frame of a call with these fields."""
    if call.layout == "L":
        return frame(call.number, pack(f"I{len(values)}I", len(values), *values))
    if len(values) != len(call.layout):
        raise ValueError(
            f"the call takes {len(call.layout)} numbers, not {len(values)}"
        )
    return frame(call.number, pack(call.layout, *values))


def message_of(error: Exception) -> str:
    """Returns what a command prints of an error."""
    if not isinstance(error, OSError) or error.filename is None:
        return str(error)
    hint = "; no server listens there" if error.errno == errno.ECONNREFUSED else ""
    return f"can't open {error.filename}: {error.strerror}{hint}"


def number_of(word: str) -> int:
    """Reads a number as scripts write it: decimal digits alone."""
    if not (word.isascii() and word.isdigit()):
        raise ValueError(f"{word!r} is not a number")
    return int(word)


def request_of(line: str) -> Tuple[bytes, Optional[Type[Any]]]:
    """Returns the frame of a call in a script's words, and its answer's type.

    `raw N FIELDS..` is the number N with these fields of 32 bits.
    """
    word, *rest = line.split()
    try:
        values = tuple(map(number_of, rest))
        if word == "raw" and values:
            fields = pack(f"{len(values) - 1}I", *values[1:])
            return frame(values[0], fields), kind_of(values[0])
        if word not in CALLS:
            raise ValueError(f"{word!r} is not a call")
        return request(CALLS[word], values), CALLS[word].answer
    except ValueError as error:
        raise ValueError(f"can't encode the call {line.strip()}: {error}") from error


def calls_of(words_: Sequence[str]) -> List[str]:
    """Returns the calls of a command line, whose words may be quoted or not.

    A word that begins like a number belongs to the call before it.
    """
    calls: List[str] = []
    for word in words_:
        if calls and re.fullmatch(r"[-+]?\d\S*", word):
            calls[-1] += " " + word
        else:
            calls.append(word)
    return calls


# answers


class Fields:
    """Takes the fields of an answer, one after the other."""

    def __init__(self, rest: bytes) -> None:
        self.rest = rest

    def numbers(self, layout: str) -> Tuple[int, ...]:
        """Takes numbers of this layout."""
        size = struct.calcsize("<" + layout)
        if len(self.rest) < size:
            raise ProtocolError("an answer is missing fields")
        taken, self.rest = self.rest[:size], self.rest[size:]
        return struct.unpack("<" + layout, taken)

    def count(self, most: int) -> int:
        """Takes the length of a list."""
        count = self.numbers("I")[0]
        if count > most:
            raise ProtocolError(
                f"an answer has a list of {count} in place of at most {most}"
            )
        return count

    def take(self, code: str, most_ids: int) -> Any:
        """Takes the next field of this code."""
        if code == "L":
            return self.numbers(f"{self.count(most_ids)}I")
        if code == "R":
            count = self.count(MOST_ROWS)
            return tuple(Row(*self.numbers("4Q")) for _ in range(count))
        return self.numbers(code)[0]

    def end(self) -> None:
        """Raises `ProtocolError` if there is more."""
        if self.rest:
            raise ProtocolError(f"an answer has {len(self.rest)} bytes too many")


def refuse(number: int, fields: Fields) -> NoReturn:
    """Raises the refusal of a frame with this number."""
    which, error = fields.numbers("II")
    fields.end()
    known = RULES if number == DENIED else APARTS
    if which not in known or known[which][1] != error:
        raise ProtocolError(
            f"the answer has the unknown refusal {which} with errno {error}"
        )
    raise Denied(which) if number == DENIED else Apart(which)


def answer_of(number: int, text: bytes) -> Answer:
    """Returns the answer of a frame with this number and these fields.

    Raises `Denied` or `Apart` if it is a refusal, `ProtocolError` if it is malformed.
    """
    fields = Fields(text)
    if number in (DENIED, APART):
        refuse(number, fields)
    if number not in ANSWERS:
        raise ProtocolError(f"the answer has the unknown number {number:#x}")
    kind, _, layout = ANSWERS[number]
    # the lists of resources are bounded by their frame alone
    most_ids = MOST_IDS if kind is IdList else MOST_LENGTH
    taken = [fields.take(code, most_ids) for code in layout]
    fields.end()
    answer: Answer = kind(*taken)
    return answer


def answer_in(body: bytes, kind: Optional[Type[_A]]) -> _A:
    """Returns the answer in the body of a frame. If a type is named, it has it."""
    answer = answer_of(int.from_bytes(body[:2], "little"), body[2:])
    if kind is not None and not isinstance(answer, kind):
        raise ProtocolError(f"the answer is {words(answer)!r}, which is not the call's")
    return answer  # type: ignore[return-value]  # without a type, it is any answer


def length_of(head: bytes) -> int:
    """Returns the length of an answer's body, from the four bytes before it."""
    length = int.from_bytes(head, "little")
    if not LEAST_LENGTH <= length <= MOST_LENGTH:
        raise ProtocolError(f"an answer has the invalid length {length}")
    return length


def id_words(ids: Sequence[int]) -> str:
    """Returns a list in a script's words."""
    return ",".join(map(str, ids)) or "-"


def words(answer: Answer) -> str:
    """Returns an answer in a script's words."""
    if isinstance(answer, Resources):
        lists = zip(answer._fields, answer)
        return " ".join(f"{name} {id_words(ids)}" for name, ids in lists)
    if isinstance(answer, IdList):
        return "list " + id_words(answer)
    if isinstance(answer, Rows):
        rows = (" | " + " ".join(map(str, row)) for row in answer)
        return "".join([f"rows {len(answer)}", *rows])
    if isinstance(answer, Number):
        return f"number {answer:d}"
    return " ".join([WORDS[type(answer)], *map(str, answer)])
