"""Objects as a VTN serves them, read from JSON text and written as bodies, every number as it was written."""
import json
from decimal import Decimal
from typing import Any, Dict, Iterable, Iterator, List, Mapping, Optional, Tuple, Union

from . import _moments
from ._refusals import Refusal

Body = Union[str, bytes, Mapping[str, Any]]
KINDS = {"PROGRAM": "program", "VEN": "ven", "RESOURCE": "resource", "EVENT": "event"}


class _Number(str):
    """A number as a JSON text spells it."""


def _no_number(text: str) -> Any:
    raise ValueError(f"{text} is no number of JSON")


def _parsed(text: Union[str, bytes]) -> Any:
    return json.loads(text, parse_float=_Number, parse_int=_Number, parse_constant=_no_number)


def _written(value: Any) -> str:
    """JSON text of a value, whose numbers are those given, digit by digit."""
    if isinstance(value, _Number):
        return value
    if value is None or isinstance(value, (bool, str)):
        return json.dumps(value)
    if isinstance(value, (int, float)) or (isinstance(value, Decimal) and value.is_finite()):
        return json.dumps(value, allow_nan=False) if isinstance(value, float) else str(value)
    if isinstance(value, Mapping):
        return "{" + ",".join(f"{json.dumps(str(name))}:{_written(it)}" for name, it in value.items()) + "}"
    if isinstance(value, (list, tuple)):
        return "[" + ",".join(map(_written, value)) + "]"
    raise TypeError(f"no JSON: {value!r}")


def body_bytes(body: Body) -> bytes:
    """A body as the library takes it: text as it stands, else its JSON."""
    if isinstance(body, bytes):
        return body
    return (body if isinstance(body, str) else _written(body)).encode()


def _each(objects: Any, place: str = "objects") -> Iterator[Tuple[str, Mapping[str, Any]]]:
    """The objects of a list, of a list of lists, or of JSON text of either, each with its place, as objects[0][1]."""
    if isinstance(objects, (str, bytes)):
        objects = _parsed(objects)
    if isinstance(objects, Mapping):
        yield place, objects
    elif isinstance(objects, Iterable) and not isinstance(objects, str):
        for i, it in enumerate(objects):
            yield from _each(it, f"{place}[{i}]")
    else:
        raise ValueError(f"{place} is no object: {_shown(objects)}")


def _shown(value: Any) -> str:
    """A value as its user knows it."""
    return str(value) if isinstance(value, _Number) else repr(value)


def _is_text(value: Any) -> bool:
    return isinstance(value, str) and not isinstance(value, _Number)


def _when(object: Mapping[str, Any], id: str) -> Optional[Tuple[int, int]]:
    """When an event was written last, as its server says. A member of null is the same as none."""
    for member in ("modificationDateTime", "createdDateTime"):
        text = object.get(member)
        if text is None:
            continue
        try:
            return _moments.read(text if _is_text(text) else "")
        except Refusal:
            raise ValueError(f"event {id}: {member} {_shown(text)} is no moment") from None
    return None


class Served:
    """An object that a VTN serves: its kind, its id, its body, and of an event when it was written (None where it doesn't say)."""

    def __init__(self, object: Mapping[str, Any], place: str, kind: Optional[str]):
        named, id = object.get("objectType"), object.get("id")
        lacks = [it for it, value in (("objectType", kind if named is None else named), ("id", id)) if value is None]
        if lacks:
            raise ValueError(f"{place} lacks {' and '.join(lacks)}")
        if named is not None and (not _is_text(named) or named not in KINDS):
            raise ValueError(f"{place} has the objectType {_shown(named)}, which is none of {', '.join(KINDS)}")
        if not _is_text(id):
            raise ValueError(f"{place} has the id {_shown(id)}, which is no text")
        self.kind: str = kind if named is None and kind is not None else KINDS[named]
        self.id: str = id
        self.when = _when(object, self.id) if self.kind == "event" else None
        self.body = body_bytes(object)


def in_order(objects: Any, kind: Optional[str] = None) -> List[Served]:
    """Programs, vens, resources, events; the kind is of those that tell none. Of one kind they stay as they stand, but events go in the
    order in which they were written where each says when that was, since of one priority the later write governs."""
    by_kind: Dict[str, List[Served]] = {it: [] for it in KINDS.values()}
    try:
        for place, it in _each(objects):
            served = Served(it, place, kind)
            by_kind[served.kind].append(served)
    except RecursionError:
        raise ValueError("objects nested too deep") from None
    if all(it.when for it in by_kind["event"]):
        by_kind["event"].sort(key=lambda it: it.when or (0, 0))
    return [it for them in by_kind.values() for it in them]
