"""The client for asyncio, with the calls of `sysvmsg`.

    import asyncio
    import sysvmsg.aio

    async def main():
        async with sysvmsg.aio.connect("./q") as server:
            queue = await server.get(7, create=True)
            await server.snd(queue, b"hello", type=5)
            print(await server.rcv(queue, wait=10))

    asyncio.run(main())

Tasks may share a connection. A task that finds its session in use makes its call over a session of its own. A call whose
task is cancelled is given up: it did nothing, unless it took effect just then. Then its result is in `unclaimed`.
"""

from __future__ import annotations

import asyncio
import os
import socket
from types import TracebackType
from typing import AsyncIterator, Coroutine, Generator, List, Optional, Type, TypeVar, cast

from ._connection import Path, identity
from ._errors import (
    NOT_MADE, CannotHold, ConnectionLost, Error, ForkedConnection, HoldExpired, Invalid, QueueError, Removed, TimedOut,
)  # fmt: skip
from ._session import BACK_WAIT, Pauses, Place, Session, Steps, deadline_in, time_left
from ._wire import (
    BODY_MAX, HOLD, HOLDING, Message, Request, Row, Stat, get_request, hold_request, rcv_request, set_request, wait_flag,
)  # fmt: skip

T = TypeVar("T")

_RETRY = 0.01  # seconds between two connects if the server's queue of connections is full


async def _until(session: Session, deadline: Optional[float]) -> bool:
    """Waits until the session could send or read something. Returns whether that was before the deadline."""
    loop = asyncio.get_running_loop()
    woken: asyncio.Future[None] = loop.create_future()

    def wake() -> None:
        if not woken.done():
            woken.set_result(None)

    timer = None if deadline is None else loop.call_later(time_left(deadline), wake)
    loop.add_reader(session.peer, wake)
    if session.output:
        loop.add_writer(session.peer, wake)
    try:
        await woken
    finally:
        loop.remove_reader(session.peer)
        loop.remove_writer(session.peer)
        if timer is not None:
            timer.cancel()
    return session.act(0) or deadline is None or time_left(deadline) > 0


async def _run(session: Session, steps: Steps) -> None:
    """Takes all steps, and waits in each."""
    try:
        deadline = next(steps)
        while True:
            deadline = steps.send(await _until(session, deadline))
    except StopIteration:
        pass


async def _whole(steps: Coroutine[object, object, None]) -> None:
    """Runs to the end, even if the task is cancelled again."""
    task = asyncio.ensure_future(steps)
    while not task.done():
        try:
            await asyncio.shield(task)
        except asyncio.CancelledError:
            pass
    task.result()


class Connection:
    """A connection to a server. `connect` makes one."""

    def __init__(self, path: Path, hello: Request[Optional[int]], version: int, retry: Optional[float]) -> None:
        self.path = os.fspath(path)
        self.version = version
        #: The number of queues that the server can have, or None in version 1.
        self.slots: Optional[int] = None
        #: The result of a call that took effect although its task was cancelled.
        self.unclaimed: Optional[object] = None
        self._hello = hello
        self._retry = retry
        self._is_closed = False
        self._place = Place(self.path)
        self._session: Optional[Session] = None
        #: Sessions that can hold a message and hold none.
        self._holders: List[Session] = []
        self._is_used = False

    async def __aenter__(self) -> Connection:
        return self

    async def __aexit__(self, kind: Optional[Type[BaseException]], error: Optional[BaseException],
                        trace: Optional[TracebackType]) -> None:
        self.close()

    def close(self) -> None:
        """Ends the session. No task may be in a call."""
        self._is_closed = True
        if self._session is not None:
            self._session.close()
        while self._holders:
            self._holders.pop().close()

    async def get(self, key: int, *, create: bool = False, exclusive: bool = False, mode: int = 0o600) -> int:
        """`sysvmsg.Connection.get`."""
        return await self._call(get_request(key, create, exclusive, mode), None)

    async def snd(self, queue: int, body: bytes, type: int = 1, *, wait: Optional[float] = None) -> None:
        """`sysvmsg.Connection.snd`."""
        await self._call(Request.snd(queue, type, wait_flag(wait), body), wait)

    async def rcv(self, queue: int, type: int = 0, *, size: int = BODY_MAX, wait: Optional[float] = None,
                  truncate: bool = False, all_but: bool = False) -> Message:
        """`sysvmsg.Connection.rcv`."""
        return await self._call(rcv_request(queue, type, size, wait_flag(wait), truncate, all_but), wait)

    async def messages(self, queue: int, type: int = 0, *, size: int = BODY_MAX, wait: Optional[float] = None,
                       truncate: bool = False, all_but: bool = False) -> AsyncIterator[Message]:
        """`sysvmsg.Connection.messages`."""
        is_first = True
        while True:
            try:
                message = await self.rcv(queue, type, size=size, wait=wait, truncate=truncate, all_but=all_but)
            except (BlockingIOError, Removed, TimedOut):
                return
            except Invalid:
                if is_first:
                    raise
                return
            is_first = False
            yield message

    def hold(self, queue: int, type: int = 0, *, size: int = BODY_MAX, wait: Optional[float] = None,
             all_but: bool = False, seconds: Optional[int] = None) -> Holding:
        """`sysvmsg.Connection.hold`. Its result is awaited, or used in `async with`."""
        return Holding(self, hold_request(queue, type, size, wait_flag(wait), all_but, seconds), wait)

    async def stat(self, queue: int) -> Stat:
        """`sysvmsg.Connection.stat`."""
        return await self._call(Request.stat(queue), None)

    async def set(self, queue: int, *, uid: Optional[int] = None, gid: Optional[int] = None,
                  mode: Optional[int] = None, qbytes: Optional[int] = None) -> None:
        """`sysvmsg.Connection.set`."""
        request = set_request(queue, uid, gid, mode, qbytes, None)
        if request is None:
            request = set_request(queue, uid, gid, mode, qbytes, await self.stat(queue))
        await self._call(cast("Request[None]", request), None)

    async def rm(self, queue: int) -> None:
        """`sysvmsg.Connection.rm`."""
        await self._call(Request.rm(queue), None)

    async def row(self, slot: int) -> Optional[Row]:
        """`sysvmsg.Connection.row`."""
        return await self._call(Request.row(slot), None)

    async def rows(self) -> AsyncIterator[Row]:
        """`sysvmsg.Connection.rows`."""
        slot = 0
        while self.slots is None or slot < self.slots:
            try:
                row = await self.row(slot)
            except Invalid:
                return
            if row is not None:
                yield row
            slot += 1

    async def _hold(self, request: Request[Message], wait: Optional[float]) -> Held:
        deadline = deadline_in(wait if wait is not None and wait > 0 else None)
        self._place.check_process()
        session = await self._holder(deadline)
        try:
            message = await self._make(session, request, deadline)
            session.check_kept(request)
            return Held(self, session, message)
        except QueueError:
            self._keep(session)
            raise
        except BaseException:
            session.close()
            raise

    async def _holder(self, deadline: Optional[float]) -> Session:
        """A session that can hold a message: one that is kept, or a new one."""
        kept = self._session
        is_lost = kept is not None and kept.is_over and not kept.was_left
        if self._is_closed or (self._retry is None and is_lost):
            raise ConnectionLost(outcome=NOT_MADE).of("hold", self.path, None, None)
        while self._holders:
            session = self._holders.pop()
            # (the server may have ended it)
            session.act(0)
            if not session.is_over:
                return session
        try:
            return await self._open_holder(deadline)
        except (FileNotFoundError, ConnectionRefusedError) as error:
            self._place.is_lost = True
            raise ConnectionLost("there is no server", NOT_MADE).of("hold", self.path, None, None) from error

    async def _open_holder(self, deadline: Optional[float]) -> Session:
        was_lost = self._place.is_lost
        try:
            return await self._open(deadline, HOLDING)
        except ConnectionLost as lost:
            # A server that does not read the version closes the connection, and so does one that ends.
            self._place.is_lost = was_lost
            (await self._open(deadline)).close()
            raise CannotHold().of("hold", self.path, None, None) from lost

    def _keep(self, session: Session) -> None:
        """Keeps a session that holds no message any more."""
        if self._is_closed:
            session.close()
        elif not session.is_over:
            self._holders.append(session)

    async def _begin(self, wait: Optional[float]) -> Connection:
        self._session = await self._await_server(wait, deadline_in(self._retry))
        return self

    async def _await_server(self, wait: Optional[float], limit: Optional[float]) -> Session:
        """Opens a session. Until the limit of time, it waits for a server that does not listen yet."""
        pauses = Pauses(limit)
        while True:
            try:
                return await self._open(deadline_in(wait))
            except (FileNotFoundError, ConnectionRefusedError, ConnectionLost) as error:
                pause = pauses.after(error)
            await asyncio.sleep(pause)

    async def _open(self, deadline: Optional[float], version: Optional[int] = None) -> Session:
        version = self.version if version is None else version
        peer = socket.socket(socket.AF_UNIX, socket.SOCK_STREAM)
        try:
            session = Session(peer, version, self._place)
            await self._connect(peer, deadline)
            self._place.begin(peer)
            hello = session.start(self._hello)
            while not hello.done:
                # (no call was made yet, so nothing can be lost)
                if not await _until(session, deadline):
                    raise self._late("the server did not serve this client in time")
            slots = self._place.check_slots(hello._outcome(), version)
            self.slots = slots if version == self.version else self.slots
        except BaseException:
            peer.close()
            raise
        return session

    async def _connect(self, peer: socket.socket, deadline: Optional[float]) -> None:
        while True:
            try:
                peer.connect(self.path)
                return
            except BlockingIOError:
                if deadline is not None and time_left(deadline) <= 0:
                    raise self._late("the server accepted no connection in time") from None
            except OSError as error:
                error.filename = self.path
                raise
            await asyncio.sleep(_RETRY)

    def _late(self, why: str) -> TimedOut:
        return TimedOut(why).of("hello", self.path, None, None)

    async def _reopen(self, deadline: Optional[float], limit: Optional[float]) -> Session:
        """Opens a session for a call."""
        try:
            return await self._await_server(None if deadline is None else time_left(deadline), limit)
        except (FileNotFoundError, ConnectionRefusedError) as error:
            if self._retry is None:
                raise
            self._place.is_lost = True
            raise ConnectionLost("there is no server", NOT_MADE).of(None, self.path, None, None) from error

    async def _call(self, request: Request[T], wait: Optional[float]) -> T:
        """Makes a call. One that names no queue by its identifier waits for a server if the last one was lost."""
        deadline = deadline_in(wait if wait is not None and wait > 0 else None)
        limit = deadline_in(self._retry) if request.queue is None else None
        pauses = Pauses(limit)
        while True:
            try:
                return await self._call_once(request, deadline, limit)
            except ConnectionLost as lost:
                if self._is_closed or lost.outcome != NOT_MADE:
                    raise
                pause = pauses.after(lost)
            await asyncio.sleep(pause)

    async def _call_once(self, request: Request[T], deadline: Optional[float], limit: Optional[float]) -> T:
        """Makes a call over the session that is kept, or over one of its own if another task uses that."""
        self._place.check_process()
        if self._is_used:
            return await self._call_apart(request, deadline, limit)
        self._is_used = True
        try:
            return await self._make(await self._present(deadline, limit), request, deadline)
        finally:
            self._is_used = False

    async def _present(self, deadline: Optional[float], limit: Optional[float]) -> Session:
        """The session that is kept, or another one if it was left, or was lost and a server may be waited for."""
        if self._session is None:
            self._session = await self._open(deadline)
        is_left = self._session.was_left or limit is not None
        if self._session.is_over and is_left and not self._is_closed:
            self._session = await self._reopen(deadline, limit)
        return self._session

    async def _call_apart(self, request: Request[T], deadline: Optional[float], limit: Optional[float]) -> T:
        session = await self._reopen(deadline, limit)
        try:
            return await self._make(session, request, deadline)
        finally:
            session.close()

    async def _make(self, session: Session, request: Request[T], deadline: Optional[float]) -> T:
        pending = session.start(request)
        try:
            await _run(session, session.finish(pending, deadline))
            return pending._outcome()
        except BaseException as error:
            # The task was cancelled: the call is given up, and its result is kept if it took effect.
            if error is not pending._error:
                await _whole(_run(session, session.leave()))
                # (a message that is held comes back)
                if pending.done and pending._error is None and request.operation != HOLD:
                    self.unclaimed = pending._value
            raise


class Held:
    """`sysvmsg.Held`."""

    def __init__(self, connection: Connection, session: Session, message: Message) -> None:
        self.message = message
        self._connection = connection
        self._session: Optional[Session] = session

    async def done(self) -> None:
        """`sysvmsg.Held.done`."""
        session = self._taken("done")
        try:
            await self._connection._make(session, Request.done(), None)
        except Invalid:
            self._connection._keep(session)
            raise HoldExpired().of("done", self._connection.path, None, None) from None
        except BaseException:
            session.close()
            raise
        self._connection._keep(session)

    def back(self) -> asyncio.Task[None]:
        """`sysvmsg.Held.back`. It begins at once; its result is awaited."""
        return asyncio.ensure_future(self._back(self._taken("back")))

    async def _back(self, session: Session) -> None:
        try:
            await self._connection._make(session, Request.back(), deadline_in(BACK_WAIT))
        except TimedOut:
            # (the session has ended)
            return
        except QueueError:
            self._connection._keep(session)
            raise
        except BaseException:
            session.close()
            raise
        self._connection._keep(session)

    def _taken(self, call: str) -> Session:
        """The session, which does not hold the message after this."""
        session, self._session = self._session, None
        if session is None:
            raise Invalid("the message is not held any more").of(call, self._connection.path, None, None)
        return session


class Holding:
    """What `Connection.hold` returns: `await` it, or use it in `async with`."""

    def __init__(self, connection: Connection, request: Request[Message], wait: Optional[float]) -> None:
        self._connection = connection
        self._request = request
        self._wait = wait
        self._held: Optional[Held] = None

    def __await__(self) -> Generator[object, None, Held]:
        return self._connection._hold(self._request, self._wait).__await__()

    async def __aenter__(self) -> Message:
        self._held = await self
        return self._held.message

    async def __aexit__(self, kind: Optional[Type[BaseException]], error: Optional[BaseException],
                        trace: Optional[TracebackType]) -> None:
        held = cast(Held, self._held)
        if kind is None:
            await held.done()
            return
        try:
            await held.back()
        except (Error, ForkedConnection):
            # (the exception of the block is the one to raise)
            pass


class Connecting:
    """What `connect` returns: `await` it, or use it in `async with`."""

    def __init__(self, connection: Connection, wait: Optional[float]) -> None:
        self._connection = connection
        self._wait = wait

    def __await__(self) -> Generator[object, None, Connection]:
        return self._connection._begin(self._wait).__await__()

    async def __aenter__(self) -> Connection:
        return await self

    async def __aexit__(self, kind: Optional[Type[BaseException]], error: Optional[BaseException],
                        trace: Optional[TracebackType]) -> None:
        self._connection.close()


def connect(path: Path, *, uid: Optional[int] = None, gid: Optional[int] = None, pid: Optional[int] = None,
            version: int = 2, wait: Optional[float] = None, retry: Optional[float] = None) -> Connecting:
    """`sysvmsg.connect`. Its result is awaited, or used in `async with`."""
    return Connecting(Connection(path, identity(uid, gid, pid), version, retry), wait)
