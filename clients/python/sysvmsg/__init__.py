"""A client of sysvmsg servers: System V message queues over a Unix socket.

    import sysvmsg

    with sysvmsg.connect("./q") as server:
        queue = server.get(7, create=True)
        server.snd(queue, b"hello", type=5)
        message = server.rcv(queue, wait=10)
        print(message.type, message.body)

A call that the server refuses raises a `QueueError`, each error its own subclass: `NoMessage` for ENOMSG. A call that
waits can be given a limit in seconds. If it raises `TimedOut`, it did nothing: no message was taken, and none was sent.
`connect(.., retry=SECONDS)` waits for a server that starts or restarts.
`hold` receives a message that comes back unless it is done with. `pipeline` keeps several requests in flight. Threads may
share a connection; a child of fork needs its own.

`sysvmsg.aio` has the same calls for asyncio, and `sysvmsg.sysv_ipc` stands in for the queues of the module `sysv_ipc`.
"""

from ._connection import Connection, Held, Pipeline, connect
from ._errors import (
    ANSWERED, ERRORS, NOT_MADE, UNKNOWN, CannotHold, ConnectionLost, Denied, Error, Exists, ForkedConnection,
    HoldExpired, InUse, Invalid, NoMessage, NoQueue, NoRoom, NoSlot, NotMade, NotPermitted, Overflow, ProtocolError,
    QueueError, Removed, TimedOut, TooLong,
)  # fmt: skip
from ._session import Pending
from ._wire import (
    BACK, BODY_MAX, CREAT, DONE, EXCEPT, EXCL, GET, HELLO, HOLD, NOERROR, NOWAIT, PRIVATE, RCV, RM, ROW, SET, SND, STAT,
    Message, Request, Row, Stat, frame, read_reply,
)  # fmt: skip

__version__ = "0.4.0.dev0"

__all__ = [
    "ANSWERED", "BACK", "BODY_MAX", "CREAT", "DONE", "ERRORS", "EXCEPT", "EXCL", "GET", "HELLO", "HOLD", "NOERROR",
    "NOT_MADE", "NOWAIT", "PRIVATE", "RCV", "RM", "ROW", "SET", "SND", "STAT", "UNKNOWN", "CannotHold", "Connection",
    "ConnectionLost", "Denied", "Error", "Exists", "ForkedConnection", "Held", "HoldExpired", "InUse", "Invalid",
    "Message", "NoMessage", "NoQueue", "NoRoom", "NoSlot", "NotMade", "NotPermitted", "Overflow", "Pending", "Pipeline",
    "ProtocolError", "QueueError", "Removed", "Request", "Row", "Stat", "TimedOut", "TooLong", "connect", "frame",
    "read_reply",
]  # fmt: skip
