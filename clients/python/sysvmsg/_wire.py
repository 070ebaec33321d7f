"""The frames of requests and replies. docs/wire.md has their layout."""

from __future__ import annotations

import struct
from dataclasses import dataclass
from typing import Callable, Generic, NamedTuple, Optional, Tuple, TypeVar

from ._errors import ERRORS, ConnectionLost, ProtocolError

T = TypeVar("T")

PRIVATE = 0  # the key of a queue that no other call finds
BODY_MAX = 8192  # the longest message
SECONDS_MAX = 2**32 - 1  # the longest time for which a message is held

HELLO, GET, SND, RCV, STAT, SET, RM, ROW, HOLD, DONE, BACK = range(11)
CALLS = ("hello", "get", "snd", "rcv", "stat", "set", "rm", "row", "hold", "done", "back")
HOLDING = 3  # the version of sessions that can hold a message
CREAT, EXCL, NOWAIT, NOERROR, EXCEPT = 0o1000, 0o2000, 0o4000, 0o10000, 0o20000

SND_FIELDS = 16  # the bytes of a send before its body
REQUEST_BODY_MAX = 8256
REPLY_MIN, REPLY_MAX = 3, 8203
MODE_MAX = 0o777


class Message(NamedTuple):
    """A received message."""

    type: int
    body: bytes


class Stat(NamedTuple):
    """The attributes of a queue. The times of a server are 0."""

    key: int
    uid: int
    gid: int
    cuid: int
    cgid: int
    mode: int
    cbytes: int
    qnum: int
    qbytes: int
    lspid: int
    lrpid: int
    stime: int
    rtime: int
    ctime: int


class Row(NamedTuple):
    """A queue as the server's table shows it, to anybody."""

    id: int
    key: int
    uid: int
    mode: int
    cbytes: int
    qnum: int


def _pack(layout: str, *numbers: int) -> bytes:
    try:
        return struct.pack(">" + layout, *numbers)
    except struct.error as error:
        raise ValueError("a number is out of range: %s" % error) from None


def _unpack(layout: str, fields: bytes) -> Tuple[int, ...]:
    if len(fields) != struct.calcsize(">" + layout):
        raise ProtocolError("a reply has %d bytes of fields" % len(fields))
    return struct.unpack(">" + layout, fields)


def _mode(mode: int) -> None:
    if mode > MODE_MAX:
        raise ProtocolError("a reply has the mode %o" % mode)


def frame(operation: int, fields: bytes = b"", version: int = 2) -> bytes:
    """A request as it is sent. docs/wire.md has the layout."""
    return _pack("IBB", len(fields) + 2, version, operation) + fields


def read_reply(read: Callable[[int], bytes], operation: int, version: int = 2) -> bytes:
    """The fields of the next reply, which is to this operation. `read(n)` returns n bytes, or fewer at the end.

    Raises the `QueueError` that the reply states, `ConnectionLost` at the end of the stream, or `ProtocolError`.
    """
    head = read(4)
    if len(head) < 4:
        raise ConnectionLost("the server closed the connection")
    length = int.from_bytes(head, "big")
    if not REPLY_MIN <= length <= REPLY_MAX:
        raise ProtocolError("a reply has the length %d" % length)
    rest = read(length)
    if len(rest) < length:
        raise ConnectionLost("the server did not complete a reply")
    if (rest[0], rest[1]) != (version, operation):
        raise ProtocolError("a reply has version %d and operation %d" % (rest[0], rest[1]))
    error = rest[2]
    if error == 0:
        return rest[3:]
    if error not in ERRORS or length != REPLY_MIN:
        raise ProtocolError("a reply has the error %d and the length %d" % (error, length))
    raise ERRORS[error]()


@dataclass(frozen=True)
class Request(Generic[T]):
    """A request, and how to read the fields of its reply. Errors name the key or the queue that it is of."""

    operation: int
    fields: bytes
    decode: Callable[[bytes], T]
    key: Optional[int] = None
    queue: Optional[int] = None

    @property
    def call(self) -> str:
        """The name of the call."""
        return CALLS[self.operation]

    @property
    def is_too_long(self) -> bool:
        """Whether the server takes no frame of this length."""
        return len(self.fields) > SND_FIELDS + REQUEST_BODY_MAX

    def frame(self, version: int = 2) -> bytes:
        """The request as it is sent."""
        return frame(self.operation, self.fields, version)

    @staticmethod
    def hello(uid: int, gid: int, pid: int) -> Request[Optional[int]]:
        """The number of slots is in the reply of version 2."""
        return Request(HELLO, _pack("III", uid, gid, pid), lambda fields: _unpack("I", fields)[0] if fields else None)

    @staticmethod
    def get(key: int, flags: int) -> Request[int]:
        return Request(GET, _pack("iI", key, flags), lambda fields: _unpack("i", fields)[0], key=key)

    @staticmethod
    def snd(id: int, type: int, flags: int, body: bytes) -> Request[None]:
        return Request(SND, _pack("iqI", id, type, flags) + bytes(memoryview(body)), _nothing, queue=id)

    @staticmethod
    def rcv(id: int, size: int, type: int, flags: int) -> Request[Message]:
        return Request(RCV, _pack("iIqI", id, size, type, flags), _message, queue=id)

    @staticmethod
    def hold(id: int, size: int, type: int, flags: int, seconds: int = 0) -> Request[Message]:
        """Version 3 has it. With 0 seconds it has no limit of time."""
        return Request(HOLD, _pack("iIqII", id, size, type, flags, seconds), _message, queue=id)

    @staticmethod
    def done() -> Request[None]:
        """Version 3 has it."""
        return Request(DONE, b"", _nothing)

    @staticmethod
    def back() -> Request[None]:
        """Version 3 has it."""
        return Request(BACK, b"", _nothing)

    @staticmethod
    def stat(id: int) -> Request[Stat]:
        return Request(STAT, _pack("i", id), _stat, queue=id)

    @staticmethod
    def set(id: int, uid: int, gid: int, mode: int, qbytes: int) -> Request[None]:
        return Request(SET, _pack("iIIII", id, uid, gid, mode, qbytes), _nothing, queue=id)

    @staticmethod
    def rm(id: int) -> Request[None]:
        return Request(RM, _pack("i", id), _nothing, queue=id)

    @staticmethod
    def row(slot: int) -> Request[Optional[Row]]:
        return Request(ROW, _pack("I", slot), _row)


def _nothing(fields: bytes) -> None:
    _unpack("", fields)


def _message(fields: bytes) -> Message:
    return Message(_unpack("q", fields[:8])[0], fields[8:])


def _stat(fields: bytes) -> Stat:
    stat = Stat(*_unpack("iIIIIHIIIIIQQQ", fields))
    _mode(stat.mode)
    return stat


def _row(fields: bytes) -> Optional[Row]:
    if fields == b"\0":
        return None
    mark, *numbers = _unpack("BiiIHII", fields)
    if mark != 1:
        raise ProtocolError("a row begins with %d" % mark)
    row = Row(*numbers)
    _mode(row.mode)
    return row


def wait_flag(wait: Optional[float]) -> int:
    """The flag of a call that does not wait."""
    return NOWAIT if wait is not None and not wait > 0 else 0


def get_request(key: int, create: bool, exclusive: bool, mode: int) -> Request[int]:
    return Request.get(key, mode & MODE_MAX | (CREAT if create or exclusive else 0) | (EXCL if exclusive else 0))


def rcv_request(queue: int, type: int, size: int, flags: int, truncate: bool, all_but: bool) -> Request[Message]:
    return Request.rcv(queue, size, type, flags | (NOERROR if truncate else 0) | (EXCEPT if all_but else 0))


def hold_request(queue: int, type: int, size: int, flags: int, all_but: bool,
                 seconds: Optional[int]) -> Request[Message]:
    if seconds is not None and not 1 <= seconds <= SECONDS_MAX:
        raise ValueError("a message is held for 1 to %d seconds, or without a limit" % SECONDS_MAX)
    return Request.hold(queue, size, type, flags | (EXCEPT if all_but else 0), seconds or 0)


def set_request(queue: int, uid: Optional[int], gid: Optional[int], mode: Optional[int], qbytes: Optional[int],
                stat: Optional[Stat]) -> Optional[Request[None]]:
    """A request to set the attributes that are given, and the others as they are. None if those are not known."""
    values: Tuple[Optional[int], ...] = (uid, gid, mode, qbytes)
    if stat is not None:
        before = (stat.uid, stat.gid, stat.mode, stat.qbytes)
        values = tuple(old if new is None else new for new, old in zip(values, before))
    numbers = [value for value in values if value is not None]
    return Request.set(queue, *numbers) if len(numbers) == len(values) else None
