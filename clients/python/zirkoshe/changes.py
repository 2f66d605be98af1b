"""The rows that were added, changed and removed between two audits, in words."""

from typing import Any, Dict, List, NamedTuple, Tuple

from .audit import plain
from .rows import Audit

#: The key fields of each kind of row, and how a row is called.
KINDS: Dict[str, Tuple[Tuple[str, ...], str]] = {
    "clients": (("client",), "client {client}"),
    "masters": (("master",), "master {master}"),
    "objects": (("object",), "buffer {object}"),
    "names": (("name",), "name {name}"),
    "tokens": (("token",), "PRIME token {token}"),
    "holds": (("client", "handle"), "handle {handle} of client {client}"),
    "grants": (("master", "mode_object"), "{thing} in the lease of master {master}"),
    "framebuffers": (("framebuffer",), "framebuffer {framebuffer}"),
    "shown": (("mode_object",), "what {thing} shows"),
}


class Change(NamedTuple):
    """A change, and the length of the journal when it was seen."""

    journal: int
    text: str


class Row(NamedTuple):
    """A row of an audit: how it is called, and its other fields."""

    name: str
    fields: Dict[str, Any]


def rows_of(audit: Audit) -> Dict[Tuple[Any, ...], Row]:
    """Returns the rows by kind and key, without the device's and the auditor's own."""
    listed, found = plain(audit), {}
    for kind, (keys, name) in KINDS.items():
        for row in listed[kind]:
            if kind != "clients" or row["client"] != audit.auditor:
                thing = audit.name_of(row.get("mode_object", 0))
                fields = {key: value for key, value in row.items() if key not in keys}
                found[(kind, *(row[key] for key in keys))] = Row(
                    name.format(thing=thing, **row), fields
                )
    return found


def shown(value: Any) -> str:
    """Returns a field's value as text, or - if there is none."""
    if isinstance(value, list):
        return " ".join(map(str, value)) or "-"
    return str(value or "-")


def changes_between(before: Audit, after: Audit) -> List[str]:
    """Returns what was added, changed and removed between two audits, in words."""
    old, new = rows_of(before), rows_of(after)
    lines = [f"{row.name} was removed" for key, row in old.items() if key not in new]
    for key, row in new.items():
        fields = {
            name.replace("_", " "): shown(value) for name, value in row.fields.items()
        }
        if key not in old:
            given = ", ".join(
                f"{name} {value}" for name, value in fields.items() if value != "-"
            )
            lines.append(f"{row.name} was added" + (f": {given}" if given else ""))
        else:
            lines += [
                f"{row.name}: {name} {shown(was)} → {value}"
                for (name, value), was in zip(fields.items(), old[key].fields.values())
                if shown(was) != value
            ]
    masters = [shown(audit.device[0].master) for audit in (before, after)]
    return lines + (
        [f"the device's master: {masters[0]} → {masters[1]}"]
        if masters[0] != masters[1]
        else []
    )
