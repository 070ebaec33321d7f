"""Sessions: the requests that are in flight, and how a call is given up."""

from __future__ import annotations

import os
import select
import socket
import threading
import time
import weakref
from collections import deque
from contextlib import contextmanager
from typing import Callable, Deque, Dict, Generator, Generic, Iterator, Optional, Type, TypeVar, cast

from ._errors import (
    NOT_MADE, ConnectionLost, Error, ForkedConnection, InUse, Invalid, NotMade, ProtocolError, QueueError, TimedOut,
)  # fmt: skip
from ._wire import GET, HELLO, PRIVATE, REPLY_MAX, Request, Row, read_reply

T = TypeVar("T")

LONGEST = 1_000_000.0  # how many seconds the system waits at once
LEAVE = 60.0  # how many seconds the server may take to end a session whose call was given up
BACK_WAIT = 0.1  # how many seconds a message that is given back waits for room before its session ends
_READ = 65536
_KEYS = 4096  # how many keys of queues are kept for errors
_QUEUES = 65536  # how many identifiers of queues are kept: as many as a server has queues at most
_PAUSES = 0.02, 0.5  # the first and the longest time between two tries to connect to a server

# A computation that waits for the socket. It yields the deadline of each wait, and is told whether the wait ended before.
Steps = Generator[Optional[float], bool, None]


# The sessions of this process.
_SESSIONS: weakref.WeakSet[Session] = weakref.WeakSet()


def _leave_to_parent() -> None:
    """In a child of fork, replaces its copies of its parent's sockets by a file that can always be read. Without that a
    call from which a signal handler forks would wait in the child for a reply that its parent takes."""
    sockets = [session.peer.fileno() for session in _SESSIONS if session.peer.fileno() >= 0]
    if sockets:
        nothing = os.open(os.devnull, os.O_RDWR | os.O_CLOEXEC)
        for descriptor in sockets:
            os.dup2(nothing, descriptor, inheritable=False)
        os.close(nothing)


os.register_at_fork(after_in_child=_leave_to_parent)


def deadline_in(wait: Optional[float]) -> Optional[float]:
    """The end of a wait that begins now."""
    return None if wait is None else time.monotonic() + wait


def time_left(deadline: float) -> float:
    return max(0.0, deadline - time.monotonic())


def _server_of(peer: socket.socket, path: str) -> object:
    """What tells a server from one that was at the path before: the process that listens, and the socket's file."""
    process = peer.getsockopt(socket.SOL_SOCKET, socket.SO_PEERCRED, 12)
    try:
        file = os.stat(path)
    except OSError:
        return process, None
    return process, (file.st_dev, file.st_ino)


class Place:
    """What the sessions of a connection have in common: its server, its process and its lock."""

    def __init__(self, path: str) -> None:
        self.path = path
        self.process = os.getpid()
        #: Held while a call uses the session that is kept.
        self.lock = threading.Lock()
        #: The keys of the queues that were found, for errors.
        self.keys: Dict[int, int] = {}
        #: Whether a session ended that was neither left nor closed here.
        self.is_lost = False
        #: What tells the server from another one at the same path.
        self._server: object = None
        #: The identifiers that this server is known to have, or None if no other server was seen.
        self._queues: Optional[Dict[int, None]] = None

    def begin(self, peer: socket.socket) -> None:
        """Notes the server of a new session. If the last session was lost, or this server is another one, identifiers
        that were found before may be those of other queues, or of none."""
        server = _server_of(peer, self.path)
        if self.is_lost or self._server not in (None, server):
            self._queues = {}
            self.keys.clear()
        self.is_lost, self._server = False, server

    def check_queue(self, request: Request[T]) -> None:
        """Refuses an identifier that was found before the last session was lost."""
        if self._queues is not None and request.queue is not None and request.queue not in self._queues:
            why = "the queue was found before the connection was lost; find it again"
            raise self.explain(ConnectionLost(why, NOT_MADE), request)

    def check_process(self) -> None:
        """Refuses a child of fork: it would take the replies of its parent."""
        process = os.getpid()
        if process != self.process:
            raise ForkedConnection(
                "the connection to %s belongs to process %d: process %d must open one of its own"
                % (self.path, self.process, process)
            )

    @contextmanager
    def alone(self) -> Iterator[None]:
        """Refuses a thread while another one uses the session that is kept."""
        self.check_process()
        if not self.lock.acquire(blocking=False):
            raise InUse("another thread uses the connection to %s: a pipeline is for one thread" % self.path)
        try:
            yield
        finally:
            self.lock.release()

    def check_slots(self, slots: Optional[int], version: int) -> Optional[int]:
        """The number of slots in the reply to a hello, which only version 1 lacks."""
        if version != 1 and slots is None:
            raise ProtocolError("the reply has no number of slots").of("hello", self.path, None, None)
        return slots

    def note(self, request: Request[T], result: object) -> None:
        """Notes the queue that a call has found."""
        if isinstance(result, Row):
            self._note_queue(result.id)
        elif request.operation == GET:
            self._note_queue(cast(int, result))
        if request.operation == GET and request.key != PRIVATE:
            if len(self.keys) >= _KEYS:
                self.keys.clear()
            self.keys[cast(int, result)] = cast(int, request.key)

    def _note_queue(self, queue: int) -> None:
        if self._queues is not None:
            self._queues.pop(queue, None)
            self._queues[queue] = None
            if len(self._queues) > _QUEUES:
                del self._queues[next(iter(self._queues))]

    def explain(self, error: Error, request: Request[T]) -> Error:
        """The error, with the call that it is of."""
        key = request.key if request.queue is None else self.keys.get(request.queue)
        return error.of(request.call, self.path, key, request.queue)


class Pauses:
    """The pauses between tries to connect to a server that may not listen yet."""

    def __init__(self, limit: Optional[float]) -> None:
        self._limit = limit
        self._next, self._longest = _PAUSES

    def after(self, error: BaseException) -> float:
        """How many seconds to wait after a try that failed. Raises its error if the time is over."""
        if self._limit is None or time_left(self._limit) <= 0:
            raise error
        pause = min(self._next, time_left(self._limit))
        self._next = min(2 * self._next, self._longest)
        return pause


class Pending(Generic[T]):
    """A request of a pipeline, whose reply may be still to come."""

    def __init__(self, session: Session, request: Request[T], end: int) -> None:
        self._session = session
        self._request = request
        self._end = end  # where it ends in the bytes of the session's requests
        self._value: Optional[T] = None
        self._error: Optional[BaseException] = None
        self.done = False

    def result(self, wait: Optional[float] = None) -> T:
        """The result of the call, once its reply is there.

        With `wait`, the call is given up after that many seconds. If it raises `TimedOut`, it did nothing, and neither
        did the requests behind it, which raise `NotMade`.
        """
        self._session.run_alone(self._session.finish(self, deadline_in(wait)))
        return self._outcome()

    def _outcome(self) -> T:
        if self._error is not None:
            raise self._error
        return cast(T, self._value)

    def _read(self, fields: bytes) -> None:
        self._value = self._request.decode(fields)
        self.done = True

    def _fail(self, error: Error) -> None:
        # (a hello changes nothing)
        is_unsent = self._end > self._session.sent or self._request.operation == HELLO
        if is_unsent and isinstance(error, ConnectionLost):
            error.outcome = NOT_MADE
        self._error = self._session.place.explain(error, self._request)
        self.done = True


class Session:
    """One session: the bytes to send, those that have arrived, and the requests whose replies are to come."""

    def __init__(self, peer: socket.socket, version: int, place: Place) -> None:
        peer.setblocking(False)
        self.peer = peer
        self.version = version
        self.place = place
        self.output = bytearray()
        self.sent = 0  # the bytes of requests that were sent, and not left unread by a server that ended
        self.input = bytearray()
        self.pending: Deque[Pending[object]] = deque()
        self.is_over = False
        self.was_left = False
        _SESSIONS.add(self)

    def start(self, request: Request[T]) -> Pending[T]:
        self.place.check_process()
        if self.is_over:
            raise self.place.explain(ConnectionLost(outcome=NOT_MADE), request)
        self.place.check_queue(request)
        if request.is_too_long:
            raise self.place.explain(Invalid(), request)
        self.output += request.frame(self.version)
        pending = Pending(self, request, self.sent + len(self.output))
        self.pending.append(cast("Pending[object]", pending))
        return pending

    def finish(self, pending: Pending[T], deadline: Optional[float]) -> Steps:
        """Sends and reads until the request is done. If the deadline passes first, the call is given up."""
        self.place.check_process()
        while not pending.done and not self.is_over:
            if not (yield deadline):
                yield from self.leave()
                self._fail_pending(TimedOut, last=cast("Pending[object]", pending))
        if self.was_left:
            self._fail_pending(NotMade)
        elif self.is_over:
            self._fail_pending(ConnectionLost)

    def flush(self) -> Steps:
        """Sends all requests."""
        self.place.check_process()
        while self.output and not self.is_over:
            yield None

    def leave(self) -> Steps:
        """Gives up the call that waits, if one does, and ends the session. Requests that were not sent are dropped. If
        the server does not end the session, requests without a reply fail with `ConnectionLost`."""
        if self.is_over or os.getpid() != self.place.process:
            return
        self.output.clear()
        self.was_left = True
        try:
            self.peer.shutdown(socket.SHUT_WR)
        except OSError:
            pass
        deadline = deadline_in(LEAVE)
        while not self.is_over:
            if not (yield deadline):
                self._end(ConnectionLost, "the server does not reply")

    def check_kept(self, request: Request[T]) -> None:
        """Refuses a message that was held when its session was left: it comes back."""
        if self.was_left:
            raise self.place.explain(TimedOut(), request)

    def close(self) -> None:
        self.is_over = True
        self.peer.close()

    def run(self, steps: Steps) -> None:
        """Takes all steps, and waits in each."""
        try:
            deadline = next(steps)
            while True:
                deadline = steps.send(self.step(deadline))
        except StopIteration:
            pass

    def run_alone(self, steps: Steps) -> None:
        """Takes all steps, unless another thread uses the session."""
        with self.place.alone():
            self.run(steps)

    def step(self, deadline: Optional[float]) -> bool:
        """Waits until it could send or read something. Returns whether that was before the deadline."""
        left = None if deadline is None else min(time_left(deadline), LONGEST)
        if self.act(None if left is None else int(left * 1000) + 1):
            return True
        return deadline is None or time.monotonic() < deadline

    def act(self, milliseconds: Optional[int]) -> bool:
        """Waits at most that long until it could send or read something. Returns whether it could."""
        poll = select.poll()
        poll.register(self.peer, select.POLLIN | (select.POLLOUT if self.output else 0))
        found = poll.poll(milliseconds)
        # (a signal handler may fork during a call, and return to it in the child too)
        self.place.check_process()
        if not found:
            return False
        self._exchange(found[0][1])
        return True

    def _exchange(self, events: int) -> None:
        try:
            # (what has arrived is read first, also from a server that has closed the connection)
            if events & ~select.POLLOUT:
                self._take(self.peer.recv(_READ))
            elif self.output:
                count = self.peer.send(self.output)
                self.sent += count
                del self.output[:count]
        except (BlockingIOError, InterruptedError):
            pass
        except ConnectionResetError as error:
            # (so ends the stream of a server that has not read all that was sent; replies come before)
            self.sent -= 1
            if self.was_left:
                self._take(b"")
            else:
                self._end(ConnectionLost, "the connection failed: %s" % error.strerror)
        except OSError as error:
            self._end(ConnectionLost, "the connection failed: %s" % error.strerror)

    def _take(self, data: bytes) -> None:
        if not data:
            if self.input or (self.pending and not self.was_left):
                self._end(ConnectionLost, "the server closed the connection")
            else:
                self.place.is_lost |= not self.was_left
                self.close()
            return
        self.input += data
        while self.pending and self._is_whole():
            self._read_one(self.pending[0])

    def _is_whole(self) -> bool:
        if len(self.input) < 4:
            return False
        length = int.from_bytes(self.input[:4], "big")
        return length > REPLY_MAX or len(self.input) >= 4 + length

    def _read(self, count: int) -> bytes:
        piece = bytes(self.input[:count])
        del self.input[:count]
        return piece

    def _read_one(self, pending: Pending[object]) -> None:
        try:
            pending._read(read_reply(self._read, pending._request.operation, self.version))
            self.place.note(pending._request, pending._value)
        except QueueError as refused:
            pending._fail(refused)
        except ProtocolError as error:
            self._end(ProtocolError, error.why)
            return
        self.pending.popleft()

    def _end(self, kind: Type[Error], why: str) -> None:
        """Ends the session. Requests without a reply fail."""
        self.was_left = False
        self.place.is_lost = True
        self.close()
        self._fail_pending(kind, why)

    def _fail_pending(self, kind: Callable[[str], Error], why: str = "", last: Optional[Pending[object]] = None) -> None:
        """Fails the requests without a reply, up to the last one that is given."""
        while self.pending and not (last is not None and last.done):
            self.pending.popleft()._fail(kind(why))
