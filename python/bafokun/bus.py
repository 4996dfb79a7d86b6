"""A node on a bus of python-can, with a real clock."""

from __future__ import annotations

import threading
import time
from collections import deque
from contextlib import contextmanager
from typing import TYPE_CHECKING, Deque, Iterable, Iterator, List, Optional

from .frame import Frame
from .node import Node

if TYPE_CHECKING:
    import can

_MS = 1_000_000
"""In ns."""

PATIENCE = 1.0
"""How many seconds a bus may take no frame, as while its queue is full."""


class _Sender:
    """Sends frames in order. One that the bus doesn't take waits."""

    def __init__(self, bus: can.BusABC):
        import can

        self._bus = bus
        self._error = can.CanError
        self._waiting: Deque[Frame] = deque()
        self._taken = time.monotonic()

    def send(self, frames: Iterable[Frame]) -> None:
        """Sends these after those that wait. CanError: the bus has taken none for so long."""
        if not self._waiting:
            # none has waited until now
            self._taken = time.monotonic()
        self._waiting.extend(frames)
        try:
            while self._waiting:
                self._bus.send(self._waiting[0].message())
                self._waiting.popleft()
                self._taken = time.monotonic()
        except self._error:
            if time.monotonic() - self._taken > PATIENCE:
                raise


def run(node: Node, bus: can.BusABC, *, seconds: Optional[float] = None, stop: Optional[threading.Event] = None) -> None:
    """Puts a node on a bus, its boot-up first, for so many seconds or until stop is set; else for ever.

    Each ms of the clock is a tick; those that a late wake-up missed come at once. In the meantime other threads may do
    what the application does. CanError: the bus takes no frame for a second, or can't be read any more.

    A node boots up once: after another `run`, or after `boot`, it goes on as it is, and for it no time passed in between.
    RuntimeError: it runs already, and its time would pass twice as fast.
    """
    _begin(node, bus)
    try:
        _run(node, bus, seconds, stop)
    finally:
        node._runs.release()


def _begin(node: Node, bus: can.BusABC) -> None:
    """A run of the node begins, and is over when its lock is released."""
    if not isinstance(node, Node):
        raise TypeError(f"the node comes first, as in run(node, bus): {node!r} is none")
    if not node._runs.acquire(blocking=False):
        raise RuntimeError("the node runs already, on another bus or in another thread")


def _run(node: Node, bus: can.BusABC, seconds: Optional[float], stop: Optional[threading.Event]) -> None:
    sender = _Sender(bus)
    if not node._has_booted:
        sender.send(node.boot())
    begin = time.monotonic_ns()
    ticks = 0
    while not (stop and stop.is_set()):
        elapsed = time.monotonic_ns() - begin
        if seconds is not None and elapsed >= seconds * 1e9:
            return
        sender.send(node.tick(elapsed // _MS - ticks))
        ticks = elapsed // _MS
        message = bus.recv(((ticks + 1) * _MS - elapsed) / 1e9)
        # what this bus sent itself, where it gives that too, is no frame that the device hears
        if message is not None and message.is_rx:
            sender.send(node.take(message))


@contextmanager
def running(node: Node, bus: can.BusABC) -> Iterator[None]:
    """`with running(node, bus): ...` runs a node in a thread of its own meanwhile. What fails there is raised at the end.

    RuntimeError, at the beginning: it runs already.
    """
    stop = threading.Event()
    errors: List[BaseException] = []

    def run_until_stop() -> None:
        try:
            _run(node, bus, None, stop)
        except BaseException as error:  # also the end of the interpreter: it is raised below
            errors.append(error)
        finally:
            node._runs.release()

    thread = threading.Thread(target=run_until_stop, name="bafokun", daemon=True)
    _begin(node, bus)
    try:
        try:
            thread.start()
        except RuntimeError:  # there is no room for a thread more
            node._runs.release()
            raise
        yield
    finally:
        stop.set()
        if thread.ident is not None:
            thread.join()
    if errors:
        raise errors[0]
