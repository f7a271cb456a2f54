"""The locks of resolvers and readers. A fork takes them all first, so that no child has a handle in the middle of another thread's call."""
import os
import threading
import weakref
from typing import Any, List

_making = threading.RLock()
_of_resolvers: Any = weakref.WeakSet()
_of_readers: Any = weakref.WeakSet()
_taken: List[List[Any]] = []


def _made(kept: Any) -> Any:
    lock = threading.RLock()
    with _making:
        kept.add(lock)
    return lock


def of_resolver() -> Any:
    return _made(_of_resolvers)


def of_reader() -> Any:
    return _made(_of_readers)


def _take_all() -> None:
    """Waits for the calls under way. A look takes a resolver's lock and then a reader's, hence this order."""
    _making.acquire()
    taken = [_making]
    _taken.append(taken)
    for lock in [*_of_resolvers, *_of_readers]:
        lock.acquire()
        taken.append(lock)


def _give_back() -> None:
    """A program in C may fork without having taken any."""
    if _taken:
        for lock in reversed(_taken.pop()):
            lock.release()


os.register_at_fork(before=_take_all, after_in_parent=_give_back, after_in_child=_give_back)
