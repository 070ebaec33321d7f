"""Connections whose calls block."""

from __future__ import annotations

import os
import socket
import struct
import time
from types import TracebackType
from typing import Iterator, List, Optional, Tuple, Type, TypeVar, Union, cast

from ._errors import (
    NOT_MADE, CannotHold, ConnectionLost, Error, ForkedConnection, HoldExpired, Invalid, QueueError, Removed, TimedOut,
)  # fmt: skip
from ._session import BACK_WAIT, LONGEST, Pauses, Pending, Place, Session, deadline_in, time_left
from ._wire import (
    BODY_MAX, HOLD, HOLDING, NOWAIT, Message, Request, Row, Stat, get_request, hold_request, rcv_request, set_request,
    wait_flag,
)  # fmt: skip

T = TypeVar("T")
Path = Union[str, "os.PathLike[str]"]


def send_limit(seconds: float) -> bytes:
    """A time as the system has it. Zero would be no limit."""
    micros = max(1, int(min(seconds, LONGEST) * 1_000_000))
    return struct.pack("@ll", micros // 1_000_000, micros % 1_000_000)


def identity(uid: Optional[int], gid: Optional[int], pid: Optional[int]) -> Request[Optional[int]]:
    """A hello as this process, or as the given numbers."""
    return Request.hello(
        os.geteuid() if uid is None else uid,
        os.getegid() if gid is None else gid,
        os.getpid() if pid is None else pid,
    )


class Connection:
    """A connection to a server. `connect` makes one."""

    def __init__(self, path: Path, hello: Request[Optional[int]], version: int, wait: Optional[float],
                 retry: Optional[float]) -> None:
        self.path = os.fspath(path)
        self.version = version
        #: The number of queues that the server can have, or None in version 1.
        self.slots: Optional[int] = None
        #: The result of a call that took effect although an exception, such as KeyboardInterrupt, ended its wait.
        self.unclaimed: Optional[object] = None
        self._hello = hello
        self._retry = retry
        self._is_closed = False
        #: Sessions that can hold a message and hold none.
        self._holders: List[Session] = []
        self._place = Place(self.path)
        self._session = self._await_server(wait, deadline_in(retry))

    def __enter__(self) -> Connection:
        return self

    def __exit__(self, kind: Optional[Type[BaseException]], error: Optional[BaseException],
                 trace: Optional[TracebackType]) -> None:
        self.close()

    def close(self) -> None:
        """Ends the session. In a child of fork it only closes the child's copy of the socket."""
        self._is_closed = True
        self._session.close()
        while self._holders:
            self._holders.pop().close()

    def get(self, key: int, *, create: bool = False, exclusive: bool = False, mode: int = 0o600) -> int:
        """The identifier of the queue of a key. With `create` it is made if there is none, with this mode; with
        `exclusive` it must not be there. The key `PRIVATE` makes a queue that no other call finds."""
        return self._call(get_request(key, create, exclusive, mode), None)

    def snd(self, queue: int, body: bytes, type: int = 1, *, wait: Optional[float] = None) -> None:
        """Sends a message of at most 8,192 bytes, of a type above 0.

        It waits for room: without `wait` as long as it takes; else at most that many seconds, and raises `TimedOut`
        then. With `wait=0` it raises `NoRoom` at once.
        """
        self._call(Request.snd(queue, type, wait_flag(wait), body), wait)

    def rcv(self, queue: int, type: int = 0, *, size: int = BODY_MAX, wait: Optional[float] = None,
            truncate: bool = False, all_but: bool = False) -> Message:
        """Receives a message: the first of any type for 0, of this type if it is above 0, and of the lowest type that
        is at most N for -N. With `all_but` it is the first of another type.

        It waits for a message: without `wait` as long as it takes; else at most that many seconds, and raises
        `TimedOut` then. With `wait=0` it raises `NoMessage` at once. A message longer than `size` raises `TooLong` and
        stays, or loses its end with `truncate`.
        """
        return self._call(rcv_request(queue, type, size, wait_flag(wait), truncate, all_but), wait)

    def messages(self, queue: int, type: int = 0, *, size: int = BODY_MAX, wait: Optional[float] = None,
                 truncate: bool = False, all_but: bool = False) -> Iterator[Message]:
        """Receives one message after another, each when it is requested. It ends once the queue is removed, and with
        `wait` if no message comes within that many seconds."""
        is_first = True
        while True:
            try:
                message = self.rcv(queue, type, size=size, wait=wait, truncate=truncate, all_but=all_but)
            except (BlockingIOError, Removed, TimedOut):
                return
            except Invalid:
                # (the queue was removed between two receives)
                if is_first:
                    raise
                return
            is_first = False
            yield message

    def hold(self, queue: int, type: int = 0, *, size: int = BODY_MAX, wait: Optional[float] = None,
             all_but: bool = False, seconds: Optional[int] = None) -> Held:
        """Receives a message as `rcv` does, and holds it: it comes back to the queue unless it is done with.

            with server.hold(queue) as message:
                work(message.body)

        The end of the `with` block reports that the message is done with; an exception gives it back. If the process
        dies first, the message comes back too. Each message that is held has a session of its own. A server without
        --hold raises `CannotHold`. The server raises `NoRoom` if it has no place for one more message that is held.

        With `seconds`, a whole number, the message also comes back if it is held for that many seconds. The end of the
        `with` block then raises `HoldExpired`.
        """
        request = hold_request(queue, type, size, wait_flag(wait), all_but, seconds)
        deadline = deadline_in(wait if wait is not None and wait > 0 else None)
        self._place.check_process()
        session = self._holder(deadline)
        try:
            message = self._make(session, request, deadline)
            session.check_kept(request)
            return Held(self, session, message)
        except QueueError:
            self._keep(session)
            raise
        except BaseException:
            session.close()
            raise

    def stat(self, queue: int) -> Stat:
        """The attributes of a queue."""
        return self._call(Request.stat(queue), None)

    def set(self, queue: int, *, uid: Optional[int] = None, gid: Optional[int] = None, mode: Optional[int] = None,
            qbytes: Optional[int] = None) -> None:
        """Sets the owner, the mode and the limit of bytes of a queue. An attribute that is not given stays as it is: it
        is read first, by a call of its own, which needs the permission to read."""
        request = set_request(queue, uid, gid, mode, qbytes, None)
        if request is None:
            request = set_request(queue, uid, gid, mode, qbytes, self.stat(queue))
        self._call(cast("Request[None]", request), None)

    def rm(self, queue: int) -> None:
        """Removes a queue and its messages. Calls that wait at it raise `Removed`."""
        self._call(Request.rm(queue), None)

    def row(self, slot: int) -> Optional[Row]:
        """The queue of a slot, or None if it has none. A slot that the server does not have raises `Invalid`."""
        return self._call(Request.row(slot), None)

    def rows(self) -> Iterator[Row]:
        """The queues of the server."""
        slot = 0
        while self.slots is None or slot < self.slots:
            try:
                row = self.row(slot)
            except Invalid:
                return
            if row is not None:
                yield row
            slot += 1

    def pipeline(self) -> Pipeline:
        """Several requests in flight."""
        with self._place.alone():
            self._resume(None, deadline_in(self._retry))
            return Pipeline(self._session)

    def _await_server(self, wait: Optional[float], limit: Optional[float]) -> Session:
        """Opens a session. Until the limit of time, it waits for a server that does not listen yet."""
        pauses = Pauses(limit)
        while True:
            try:
                return self._open(deadline_in(wait))
            except (FileNotFoundError, ConnectionRefusedError, ConnectionLost) as error:
                pause = pauses.after(error)
            time.sleep(pause)

    def _holder(self, deadline: Optional[float]) -> Session:
        """A session that can hold a message: one that is kept, or a new one."""
        if self._is_closed or (self._retry is None and self._session.is_over and not self._session.was_left):
            raise ConnectionLost(outcome=NOT_MADE).of("hold", self.path, None, None)
        while self._holders:
            session = self._holders.pop()
            # (the server may have ended it)
            session.act(0)
            if not session.is_over:
                return session
        try:
            return self._open_holder(deadline)
        except (FileNotFoundError, ConnectionRefusedError) as error:
            self._place.is_lost = True
            raise ConnectionLost("there is no server", NOT_MADE).of("hold", self.path, None, None) from error

    def _open_holder(self, deadline: Optional[float]) -> Session:
        was_lost = self._place.is_lost
        try:
            return self._open(deadline, HOLDING)
        except ConnectionLost as lost:
            # A server that does not read the version closes the connection, and so does one that ends.
            self._place.is_lost = was_lost
            self._open(deadline).close()
            raise CannotHold().of("hold", self.path, None, None) from lost

    def _keep(self, session: Session) -> None:
        """Keeps a session that holds no message any more."""
        if self._is_closed:
            session.close()
        elif not session.is_over:
            self._holders.append(session)

    def _open(self, deadline: Optional[float], version: Optional[int] = None) -> Session:
        version = self.version if version is None else version
        peer = socket.socket(socket.AF_UNIX, socket.SOCK_STREAM)
        try:
            if deadline is not None:
                # (a connect that does not block fails at once if the server's queue of connections is full)
                peer.setsockopt(socket.SOL_SOCKET, socket.SO_SNDTIMEO, send_limit(time_left(deadline)))
            self._connect(peer)
            self._place.begin(peer)
            session = Session(peer, version, self._place)
            hello = session.start(self._hello)
            while not hello.done:
                # (no call was made yet, so nothing can be lost)
                if not session.step(deadline):
                    raise session.place.explain(TimedOut("the server did not serve this client in time"), self._hello)
            slots = self._place.check_slots(hello._outcome(), version)
            self.slots = slots if version == self.version else self.slots
        except BaseException:
            peer.close()
            raise
        return session

    def _connect(self, peer: socket.socket) -> None:
        try:
            peer.connect(self.path)
        except BlockingIOError:
            late = TimedOut("the server accepted no connection in time")
            raise self._place.explain(late, self._hello) from None
        except OSError as error:
            error.filename = self.path
            raise

    def _resume(self, deadline: Optional[float], limit: Optional[float]) -> None:
        """Opens another session if the last one was left, or was lost and a server may be waited for."""
        is_left = self._session.was_left or limit is not None
        if self._session.is_over and is_left and not self._is_closed:
            self._session = self._reopen(deadline, limit)

    def _reopen(self, deadline: Optional[float], limit: Optional[float]) -> Session:
        """Opens a session for a call."""
        try:
            return self._await_server(None if deadline is None else time_left(deadline), limit)
        except (FileNotFoundError, ConnectionRefusedError) as error:
            if self._retry is None:
                raise
            self._place.is_lost = True
            raise ConnectionLost("there is no server", NOT_MADE).of(None, self.path, None, None) from error

    def _call(self, request: Request[T], wait: Optional[float]) -> T:
        """Makes a call. One that names no queue by its identifier waits for a server if the last one was lost."""
        deadline = deadline_in(wait if wait is not None and wait > 0 else None)
        limit = deadline_in(self._retry) if request.queue is None else None
        pauses = Pauses(limit)
        while True:
            try:
                return self._call_once(request, deadline, limit)
            except ConnectionLost as lost:
                if self._is_closed or lost.outcome != NOT_MADE:
                    raise
                pause = pauses.after(lost)
            time.sleep(pause)

    def _call_once(self, request: Request[T], deadline: Optional[float], limit: Optional[float]) -> T:
        """Makes a call over the session that is kept, or over one of its own if another thread uses that."""
        self._place.check_process()
        if not self._place.lock.acquire(blocking=False):
            return self._call_apart(request, deadline, limit)
        try:
            self._resume(deadline, limit)
            return self._make(self._session, request, deadline)
        finally:
            self._place.lock.release()

    def _call_apart(self, request: Request[T], deadline: Optional[float], limit: Optional[float]) -> T:
        session = self._reopen(deadline, limit)
        try:
            return self._make(session, request, deadline)
        finally:
            session.close()

    def _make(self, session: Session, request: Request[T], deadline: Optional[float]) -> T:
        pending = session.start(request)
        try:
            session.run(session.finish(pending, deadline))
            return pending._outcome()
        except BaseException as error:
            # An exception of a signal handler: the call is given up, and its result is kept if it took effect.
            if error is not pending._error:
                session.run(session.leave())
                # (a message that is held comes back)
                if pending.done and pending._error is None and request.operation != HOLD:
                    self.unclaimed = pending._value
            raise


class Held:
    """A message that is held. `Connection.hold` makes one. It is for one thread."""

    def __init__(self, connection: Connection, session: Session, message: Message) -> None:
        self.message = message
        self._connection = connection
        self._session: Optional[Session] = session

    def __enter__(self) -> Message:
        return self.message

    def __exit__(self, kind: Optional[Type[BaseException]], error: Optional[BaseException],
                 trace: Optional[TracebackType]) -> None:
        if self._session is None:
            return
        if kind is None:
            self.done()
            return
        try:
            self.back()
        except (Error, ForkedConnection):
            # (the exception of the block is the one to raise)
            pass

    def done(self) -> None:
        """The message is done with, and gone. If this raises `ConnectionLost`, it may have come back. A message that is
        not held any more raises `Invalid`, and one whose seconds were over `HoldExpired`."""
        session = self._taken("done")
        try:
            self._connection._make(session, Request.done(), None)
        except Invalid:
            self._connection._keep(session)
            raise HoldExpired().of("done", self._connection.path, None, None) from None
        except BaseException:
            session.close()
            raise
        self._connection._keep(session)

    def back(self) -> None:
        """Gives the message back: the server sends it again, as the last one of its queue.

        If the queue has no room for 0.1 seconds, the session ends, and the server sends the message once there is room.
        `Invalid` and `Removed`, if the queue was removed, and `Denied`, if this client may no longer send to it: the
        message is gone. If this raises `ConnectionLost`, it comes back, unless the server has ended. A message whose
        seconds were over has come back, and raises `Invalid` too."""
        session = self._taken("back")
        try:
            self._connection._make(session, Request.back(), deadline_in(BACK_WAIT))
        except TimedOut:
            # (the session has ended)
            return
        except QueueError:
            self._connection._keep(session)
            raise
        except BaseException:
            session.close()
            raise
        self._connection._keep(session)

    def _taken(self, call: str) -> Session:
        """The session, which does not hold the message after this."""
        session, self._session = self._session, None
        if session is None:
            raise Invalid("the message is not held any more").of(call, self._connection.path, None, None)
        return session


class Pipeline:
    """Sends requests without waiting for the replies to those before them. The server makes the calls in order.

        with server.pipeline() as line:
            sent = [line.snd(queue, body) for body in bodies]
        for each in sent:
            each.result()

    The end of the `with` block waits for all replies. A call that waits blocks those behind it. A pipeline is for one
    thread: it raises `InUse` while another thread uses the connection.
    """

    def __init__(self, session: Session) -> None:
        self._session = session
        self._started: List[Pending[object]] = []

    def __enter__(self) -> Pipeline:
        return self

    def __exit__(self, kind: Optional[Type[BaseException]], error: Optional[BaseException],
                 trace: Optional[TracebackType]) -> None:
        if kind is None:
            self.wait()

    def get(self, key: int, *, create: bool = False, exclusive: bool = False, mode: int = 0o600) -> Pending[int]:
        return self._start(get_request(key, create, exclusive, mode))

    def snd(self, queue: int, body: bytes, type: int = 1, *, nowait: bool = False) -> Pending[None]:
        return self._start(Request.snd(queue, type, NOWAIT if nowait else 0, body))

    def rcv(self, queue: int, type: int = 0, *, size: int = BODY_MAX, nowait: bool = False, truncate: bool = False,
            all_but: bool = False) -> Pending[Message]:
        return self._start(rcv_request(queue, type, size, NOWAIT if nowait else 0, truncate, all_but))

    def stat(self, queue: int) -> Pending[Stat]:
        return self._start(Request.stat(queue))

    def set(self, queue: int, *, uid: int, gid: int, mode: int, qbytes: int) -> Pending[None]:
        return self._start(Request.set(queue, uid, gid, mode, qbytes))

    def rm(self, queue: int) -> Pending[None]:
        return self._start(Request.rm(queue))

    def row(self, slot: int) -> Pending[Optional[Row]]:
        return self._start(Request.row(slot))

    def flush(self) -> None:
        """Sends all requests. Without it they are sent when a result is waited for."""
        self._session.run_alone(self._session.flush())

    def wait(self) -> None:
        """Waits until all requests are done. Their errors are raised by `Pending.result`."""
        for pending in self._started:
            self._session.run_alone(self._session.finish(pending, None))
        self._started.clear()

    def _start(self, request: Request[T]) -> Pending[T]:
        with self._session.place.alone():
            pending = self._session.start(request)
        self._started.append(cast("Pending[object]", pending))
        return pending


def connect(path: Path, *, uid: Optional[int] = None, gid: Optional[int] = None, pid: Optional[int] = None,
            version: int = 2, wait: Optional[float] = None, retry: Optional[float] = None) -> Connection:
    """Connects to the server at a path, as this process's effective user and group or as the given ones. The server
    does not check them.

    With `wait`, it raises `TimedOut` if the server does not serve this client within that many seconds. It raises
    FileNotFoundError or ConnectionRefusedError if there is no server, and PermissionError if the socket's mode forbids
    it.

    With `retry`, it waits for a server at most that many seconds before it raises one of the first two. After the
    connection is lost, `get`, `row`, `rows` and `pipeline` wait that long for a server and connect again. Calls that
    name a queue found before raise `ConnectionLost`: another server's queues have the same identifiers.
    """
    return Connection(path, identity(uid, gid, pid), version, wait, retry)
