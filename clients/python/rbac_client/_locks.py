"""Locks that are free in a child of a fork, whoever had them in its parent."""

import os
import threading
import weakref


class Lock:
    """A lock. A thread that had it when the process was forked isn't there in the child, and would never give it back."""

    def __init__(self) -> None:
        self._lock = threading.Lock()
        _ALL.add(self)

    def __enter__(self) -> None:
        self._lock.acquire()

    def __exit__(self, *_: object) -> None:
        self._lock.release()


_ALL: "weakref.WeakSet[Lock]" = weakref.WeakSet()


def _forked() -> None:
    for lock in list(_ALL):
        lock._lock = threading.Lock()


os.register_at_fork(after_in_child=_forked)
