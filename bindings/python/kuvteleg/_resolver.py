"""The resolver of objects, and readers of what it published."""
import ctypes
from dataclasses import dataclass
from datetime import datetime, timezone
from typing import Any, Callable, Dict, List, NamedTuple, NoReturn, Optional, Tuple, Type, TypeVar, Union

from . import _locks, _moments, _objects, _values
from ._library import LIBRARY, Handle
from ._library import State as RawState
from ._moments import Moment
from ._objects import Body
from ._refusals import Refusal, done
from ._values import Value

TIES = {"newest": 0, "latest-start": 1}
KINDS = {"program": 0, "event": 1, "ven": 2, "resource": 3}
Room = ctypes.c_char * 512  # more than the reply to any line but a query
_Its = TypeVar("_Its", bound="_Held")


class Published(NamedTuple):
    """A publication: its number, counted from 1, and the number of edits that it shows."""

    number: int
    version: int


@dataclass(frozen=True)
class State:
    """What governs at a moment: the event and its interval's own id, None where nothing does; until when, None where nothing changes
    later; and the values."""

    event: Optional[str]
    interval: Optional[int]
    until: Optional[Moment]
    values: Tuple[Value, ...]


@dataclass(frozen=True)
class Segment:
    """A stretch of time that one interval governs, from its start to before its end."""

    start: Moment
    end: Moment
    event: str
    interval: int
    values: Tuple[Value, ...]


def _number(kind: str) -> int:
    """The number of a kind of objects."""
    if kind not in KINDS:
        raise ValueError(f"kind is one of {', '.join(KINDS)}")
    return KINDS[kind]


def _word(text: str) -> str:
    """A word that goes on a line: a space or a line's end in it would make it another line."""
    if not text or any(it in text for it in " \r\n"):
        raise Refusal(2)
    return text


def _state(words: str) -> State:
    """A state as a reply tells it: `event E interval I until T values ..` or `none until T`."""
    if words.startswith("none until "):
        until, event, interval, values = words[11:], None, None, ""
    else:
        _, event, _, interval, _, until, _, *rest = words.split(" ", 7)
        values = rest[0] if rest else ""
    return State(
        event, None if interval is None else int(interval), None if until == "end" else _moments.told(until), _values.of_line(values)
    )


class _Held:
    """A handle of the library. A lock lets one thread at a time reach it, as the library asks; a signal handler's call may come between
    two calls of its thread, and so each call has a room of its own."""

    _answers: Any
    _repeats: Any
    _ends: Any
    _lock_of: Any
    _in_its_place: str
    _lock: Any
    _handle: Handle
    _last_call: Optional[object]

    def __new__(cls: Type[_Its], *_: Any, **__: Any) -> _Its:
        held = super().__new__(cls)
        held._lock = cls._lock_of()
        held._handle = Handle()
        held._last_call = None
        return held

    def __del__(self) -> None:
        # At the interpreter's end the lock may be that of a thread which never goes on.
        if self._lock.acquire(blocking=False):
            self._ends(self._handle)
            self._lock.release()

    def __reduce_ex__(self, _: Any) -> NoReturn:
        raise TypeError(f"a {type(self).__name__} is neither copied nor pickled: {self._in_its_place}")

    def close(self) -> None:
        """Gives back what is held. Calls after it are refused 100 Closed; closing once more does nothing."""
        with self._lock:
            self._ends(self._handle)

    def line(self, line: Union[str, bytes]) -> str:
        """The reply to a line of the script, which has no line feed. The reply ends with one."""
        sent = line.encode() if isinstance(line, str) else line
        return self._reply(self._answers, sent, len(sent)).decode()

    def _reply(self, call: Callable[..., int], *given: Any) -> bytes:
        """The reply to a call, asked for once more where there was no room for it; if another call came between, all is asked again."""
        length = ctypes.c_size_t()
        with self._lock:
            while True:
                mine = self._last_call = object()
                room: Any = Room()
                done(call(self._handle, *given, room, len(room), length))
                if length.value > len(room):
                    room = ctypes.create_string_buffer(length.value)
                    done(self._repeats(self._handle, room, len(room), length))
                    if self._last_call is not mine or length.value != len(room):
                        continue
                return bytes(room[: length.value])


class Reader(_Held):
    """Answers queries from one publication, until it looks again. Any thread may use it."""

    _answers, _repeats, _ends = LIBRARY.kuvteleg_ask, LIBRARY.kuvteleg_answer, LIBRARY.kuvteleg_leave
    _lock_of = _locks.of_reader
    _in_its_place = "share() gives a second one, and another process loads its own"

    def __init__(self) -> None:
        """A closed reader, until it looks."""

    def __enter__(self) -> "Reader":
        return self

    def __exit__(self, *_: object) -> None:
        self.close()

    def look(self, resolver: "Resolver") -> None:
        """Sees the resolver's last publication from now on. It waits for a call of the resolver that is under way, as an edit."""
        if not isinstance(resolver, Resolver):
            raise TypeError(f"a look is of a Resolver, and not of {resolver!r}")
        with resolver._lock, self._lock:
            done(LIBRARY.kuvteleg_look(resolver._handle, self._handle))

    def share(self) -> "Reader":
        """Another reader of the same publication."""
        reader = Reader()
        with self._lock:
            done(LIBRARY.kuvteleg_share(self._handle, reader._handle))
        return reader

    def seen(self) -> Published:
        """The publication that it sees."""
        number, version = ctypes.c_uint64(), ctypes.c_uint64()
        with self._lock:
            done(LIBRARY.kuvteleg_seen(self._handle, number, version))
        return Published(number.value, version.value)

    def at(self, resource: str, payload_type: str, moment: Moment) -> State:
        """What governs a resource under a payload type at a moment."""
        name, kind, state = resource.encode(), payload_type.encode(), RawState()
        told = self._reply(LIBRARY.kuvteleg_governor, name, len(name), kind, len(kind), *_moments.parts(moment), state)
        until = None if state.is_endless else _moments.moment(state.until_seconds, state.until_nanoseconds)
        if not state.is_governed:
            return State(None, None, until, ())
        event, values = told[: state.event_len], told[state.event_len :]
        return State(event.decode(), state.interval, until, _values.of_json(values.decode()))

    def list(self, resource: str, payload_type: str, start: Moment, end: Moment) -> List[Segment]:
        """The segments of the window from `start` to before `end`, in order of time."""
        lines = self.line(f"list {_word(resource)} {_word(payload_type)} {_moments.written(start)} {_moments.written(end)}").split("\n")[1:-2]
        segments = []
        for line in lines:
            first, last, _, event, _, interval, _, *rest = line.split(" ", 7)
            values = _values.of_line(rest[0]) if rest else ()
            segments.append(Segment(_moments.told(first), _moments.told(last), event, int(interval), values))
        return segments

    def roll(self, payload_type: str, moment: Moment) -> Dict[str, State]:
        """The state of each resource, in order of creation."""
        lines = self.line(f"roll {_word(payload_type)} {_moments.written(moment)}").split("\n")[1:-2]
        return {name: _state(words) for name, _, words in (line.partition(" ") for line in lines)}

    def types(self, resource: str) -> List[str]:
        """The payload types that govern a resource at some time."""
        return [_values.unquoted(line) for line in self.line(f"types {_word(resource)}").split("\n")[1:-2]]


class Resolver(_Held):
    """Programs, vens, resources and events, and what of them is published. Any thread may use it. A reader's answers wait for none of its edits; its looks do.

    `tie` decides between intervals of one priority: "newest", the later write governs, or "latest-start", the later start.
    """

    _answers, _repeats, _ends = LIBRARY.kuvteleg_line, LIBRARY.kuvteleg_reply, LIBRARY.kuvteleg_close
    _lock_of = _locks.of_resolver
    _in_its_place = "another process loads its own"

    def __init__(self, tie: str = "newest") -> None:
        if tie not in TIES:
            raise ValueError(f"tie is one of {', '.join(TIES)}")
        done(LIBRARY.kuvteleg_open(self._handle, TIES[tie]))

    def __enter__(self) -> "Resolver":
        return self

    def __exit__(self, *_: object) -> None:
        self.close()

    def create(self, kind: str, id: str, body: Body, moment: Optional[Moment] = None) -> int:
        """Creates an object of a kind ("program", "event", "ven", "resource") from its body, JSON text or a mapping, and answers the
        version. The moment, now by default, is what the zero starts of an event stand for."""
        return self._write(LIBRARY.kuvteleg_create, kind, id, body, moment)

    def change(self, kind: str, id: str, body: Body, moment: Optional[Moment] = None) -> int:
        """Puts a whole object in the place of the one with its id, and answers the version."""
        return self._write(LIBRARY.kuvteleg_change, kind, id, body, moment)

    def _write(self, call: Callable[..., int], kind: str, id: str, body: Body, moment: Optional[Moment]) -> int:
        number, name, sent, version = _number(kind), id.encode(), _objects.body_bytes(body), ctypes.c_uint64()
        seconds, nanoseconds = _moments.parts(datetime.now(timezone.utc) if moment is None else moment)
        with self._lock:
            done(call(self._handle, seconds, nanoseconds, number, name, len(name), sent, len(sent), version))
        return version.value

    def delete(self, kind: str, id: str) -> int:
        """Deletes an object, and answers the version."""
        number, name, version = _number(kind), id.encode(), ctypes.c_uint64()
        with self._lock:
            done(LIBRARY.kuvteleg_delete(self._handle, number, name, len(name), version))
        return version.value

    def load(
        self,
        objects: Any,
        moment: Optional[Moment] = None,
        on_refusal: Optional[Callable[[Refusal], None]] = None,
        kind: Optional[str] = None,
    ) -> int:
        """Creates the objects that a VTN serves, and answers how many: a list of them, several lists, or the JSON text of either, as
        from `GET /programs`, `/vens`, `/resources` and `/events`. Each has `id` and `objectType`; `kind` ("program", "event", "ven",
        "resource") stands in where an object has no `objectType`.

        They are created in the order programs, vens, resources, events. Events go by when they were written, which is their
        `modificationDateTime`, else their `createdDateTime`; where one of them tells neither, all events go as they stand. When an
        event was written, else `moment`, now by default, is what its zero starts stand for. A refused object raises Refusal with its
        kind and id, and those before it stay; with `on_refusal` that is called instead, and the others are created. What is no object,
        an object without `objectType` or `id`, and an event whose `modificationDateTime`, or else `createdDateTime`, is no moment raise
        ValueError, and then nothing is created. Nobody sees any of them before `publish`.
        """
        if kind is not None:
            _number(kind)
        now = _moments.parts(datetime.now(timezone.utc) if moment is None else moment)
        count = 0
        for it in _objects.in_order(objects, kind):
            name, version = it.id.encode(), ctypes.c_uint64()
            with self._lock:
                code = LIBRARY.kuvteleg_create(
                    self._handle, *(it.when or now), KINDS[it.kind], name, len(name), it.body, len(it.body), version
                )
            if code == 0:
                count += 1
            elif on_refusal is None:
                raise Refusal(code, it.kind, it.id)
            else:
                on_refusal(Refusal(code, it.kind, it.id))
        return count

    def publish(self) -> Published:
        """Shows what the edits left to readers that look from now on."""
        number, version = ctypes.c_uint64(), ctypes.c_uint64()
        with self._lock:
            done(LIBRARY.kuvteleg_publish(self._handle, number, version))
        return Published(number.value, version.value)

    def condense(self) -> int:
        """Makes the last publication's version the base from which edits are counted, and answers it: room for a million more."""
        version = ctypes.c_uint64()
        with self._lock:
            done(LIBRARY.kuvteleg_condense(self._handle, version))
        return version.value

    def reader(self) -> Reader:
        """A reader of the last publication, which may outlive the resolver."""
        reader = Reader()
        reader.look(self)
        return reader
