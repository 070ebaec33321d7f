"""The errors of calls."""

from __future__ import annotations

import errno
from typing import Dict, Optional, Tuple, Type, TypeVar, cast

E = TypeVar("E", bound="Error")

ANSWERED = "answered"  # the server replied that the call failed
NOT_MADE = "not made"  # the call did nothing, so it can be made again
UNKNOWN = "unknown"  # the call took effect or did nothing


#: What an error means for one call, if its sentence says less.
SENTENCES: Dict[Tuple[str, Optional[str]], str] = {
    ("EACCES", "hold"): "the queue's mode does not permit to receive and to send",
    ("EAGAIN", "hold"): "the server can hold no more messages: it lacks a place (--at-once) or memory",
    ("EINVAL", "snd"): "there is no such queue, the type is below 1, or the body has more than 8192 bytes",
}  # fmt: skip


class Error(OSError):
    """A call that failed. `name` is the name of the error, and `errno` the system's number for it.

    `outcome` is what became of the call: `ANSWERED`, `NOT_MADE` or `UNKNOWN`. `call` is the name of the call, `path` the
    path of the server, `queue` the identifier of the queue, and `key` its key. An attribute that is not known is None.
    Errors can be pickled.
    """

    name = "EIO"
    sentence = ""
    outcome = UNKNOWN

    def __init__(self, why: str = "") -> None:
        self.why = why or self.sentence
        super().__init__(cast(int, getattr(errno, self.name)), self.why)
        self.call: Optional[str] = None
        self.key: Optional[int] = None
        self.queue: Optional[int] = None

    @property
    def path(self) -> Optional[str]:
        return cast(Optional[str], self.filename)

    def of(self: E, call: Optional[str], path: Optional[str], key: Optional[int], queue: Optional[int]) -> E:
        """This error, of that call."""
        self.call, self.filename, self.key, self.queue = call, path, key, queue
        self.why = self.strerror = SENTENCES.get((self.name, call), self.why)
        return self

    def __str__(self) -> str:
        if self.key is not None:
            place: Optional[str] = "key %d" % self.key
        else:
            place = None if self.queue is None else "queue %d" % self.queue
        words = [word for word in (self.call, self.path, place) if word]
        return ": ".join([*words, "%s (%s)" % (self.why, self.name)])

    def __reduce__(self) -> Tuple[object, ...]:
        return _restored, (type(self), self.why, self.call, self.path, self.key, self.queue)


def _restored(kind: Type[E], why: str, call: Optional[str], path: Optional[str], key: Optional[int],
              queue: Optional[int]) -> E:
    return kind(why).of(call, path, key, queue)


class QueueError(Error):
    """A call that the server refused."""

    outcome = ANSWERED


class NotPermitted(QueueError, PermissionError):
    """EPERM: only the owner, the creator or user 0 may do this."""

    name = "EPERM"
    sentence = "only the owner, the creator or user 0 may do this"


class NoQueue(QueueError, FileNotFoundError):
    """ENOENT: the key has no queue."""

    name = "ENOENT"
    sentence = "the key has no queue"


class TooLong(QueueError):
    """E2BIG: the message is longer than the size of the receive. It stays queued."""

    name = "E2BIG"
    sentence = "the message is longer than the size of the receive"


class NoRoom(QueueError, BlockingIOError):
    """EAGAIN: the message does not fit now, and the call does not wait."""

    name = "EAGAIN"
    sentence = "no room"


class Denied(QueueError, PermissionError):
    """EACCES: the queue's mode does not permit this."""

    name = "EACCES"
    sentence = "the queue's mode does not permit this"


class Exists(QueueError, FileExistsError):
    """EEXIST: the key has a queue already."""

    name = "EEXIST"
    sentence = "the key has a queue already"


class Invalid(QueueError):
    """EINVAL: there is no such queue, or an argument is not valid."""

    name = "EINVAL"
    sentence = "there is no such queue, or an argument is not valid"


class NoSlot(QueueError):
    """ENOSPC: the server can have no more queues."""

    name = "ENOSPC"
    sentence = "the server can have no more queues"


class NoMessage(QueueError, BlockingIOError):
    """ENOMSG: there is no such message, and the call does not wait."""

    name = "ENOMSG"
    sentence = "no message"


class Removed(QueueError):
    """EIDRM: the queue was removed."""

    name = "EIDRM"
    sentence = "the queue was removed"


class Overflow(QueueError):
    """EOVERFLOW: a counter of the server has reached its bound."""

    name = "EOVERFLOW"
    sentence = "a counter of the server has reached its bound"


#: The errors by their numbers in replies.
ERRORS: Dict[int, Type[QueueError]] = {
    1: NotPermitted, 2: NoQueue, 7: TooLong, 11: NoRoom, 13: Denied, 17: Exists, 22: Invalid, 28: NoSlot,
    42: NoMessage, 43: Removed, 75: Overflow,
}  # fmt: skip


class TimedOut(Error, TimeoutError):
    """The time of a call was over. The call did nothing."""

    name = "ETIMEDOUT"
    outcome = NOT_MADE
    sentence = "the time was over; the call did nothing"


class NotMade(Error, ConnectionError):
    """A request in a pipeline behind a call that was given up. It did nothing."""

    name = "ECANCELED"
    outcome = NOT_MADE
    sentence = "a call before this one was given up; this one did nothing"


class ConnectionLost(Error, ConnectionError):
    """The session ended without a reply, or the server does not end it. `outcome` is `NOT_MADE` if the server cannot have
    read the whole request, and else `UNKNOWN`."""

    name = "ECONNRESET"
    sentence = "the session is over"

    def __init__(self, why: str = "", outcome: str = UNKNOWN) -> None:
        super().__init__(why)
        self.outcome = outcome

    def __reduce__(self) -> Tuple[object, ...]:
        return (*super().__reduce__(), {"outcome": self.outcome})


class HoldExpired(Invalid):
    """EINVAL: a message was held for longer than its `seconds`. The server has sent it again, so its work may be done
    twice."""

    sentence = "the message was held for longer than its seconds, and came back: its work may be done twice"


class CannotHold(Error):
    """EPROTONOSUPPORT: the server lets clients hold no messages."""

    name = "EPROTONOSUPPORT"
    outcome = NOT_MADE
    sentence = "the server lets clients hold no messages: it needs --hold"


class ProtocolError(Error, ConnectionError):
    """The server sent something that is no reply to the request. The session is over."""

    name = "EPROTO"
    sentence = "the server sent no valid reply"


class ForkedConnection(RuntimeError):
    """A child of fork used a connection of its parent. Nothing was sent. The child can open a connection of its own."""


class InUse(RuntimeError):
    """A pipeline was used while another thread used its connection. Nothing was sent."""
