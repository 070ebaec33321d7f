"""Stands in for the message queues of the module `sysv_ipc`, on the server that the variable SYSVMSG_PATH names.

    import sysvmsg.sysv_ipc as sysv_ipc

It has no semaphores and no shared memory. The times of a queue are 0. Threads may share a queue, and a child of fork
may use its parent's.
"""

from __future__ import annotations

import os
import random
import warnings
from contextlib import contextmanager
from typing import Dict, Iterator, Optional, Tuple, Union, cast

from ._connection import Connection, connect
from ._errors import Denied, Exists, Invalid, NoMessage, NoQueue, NoRoom, NotPermitted, Removed

IPC_CREAT, IPC_EXCL = 0o1000, 0o2000
IPC_CREX = IPC_CREAT | IPC_EXCL
IPC_PRIVATE = 0
KEY_MIN, KEY_MAX = -(2**31), 2**31 - 1
QUEUE_MESSAGE_SIZE_MAX_DEFAULT, QBYTES_MAX = 2048, 65536


class Error(Exception):
    """The base of the errors of this module."""


class InternalError(Error):
    """SYSVMSG_PATH names no server."""


class PermissionsError(Error):
    """The queue's mode does not permit this."""


class ExistentialError(Error):
    """There is no such queue, or there is one already."""


class BusyError(Error):
    """The call would wait."""


class NotAttachedError(Error):
    """Nothing raises this error, which is for shared memory."""


class _InvalidError(ExistentialError, OSError):
    """EINVAL, for which some calls of `sysv_ipc` raise the one and some the other."""


@contextmanager
def _translated() -> Iterator[None]:
    """Raises the errors of `sysv_ipc` in place of those of `sysvmsg`."""
    try:
        yield
    except (NoQueue, Exists, Removed) as error:
        raise ExistentialError(str(error)) from error
    except Invalid as error:
        raise _InvalidError(error.errno, str(error)) from error
    except (Denied, NotPermitted) as error:
        raise PermissionsError(str(error)) from error
    except (NoRoom, NoMessage) as error:
        raise BusyError(str(error)) from error
    except ConnectionError:
        # (the next call connects again)
        _connections.clear()
        raise


_connections: Dict[Tuple[int, str], Connection] = {}


def _server() -> Connection:
    """The connection of this process."""
    path = os.environ.get("SYSVMSG_PATH")
    if not path:
        raise InternalError("SYSVMSG_PATH is not set: it must name the socket of a server")
    place = os.getpid(), path
    if place not in _connections:
        _connections[place] = connect(path)
    return _connections[place]


def ftok(path: str, id: int, silence_warning: bool = False) -> int:
    """The key of ftok(3), which other files may share."""
    if not silence_warning:
        warnings.warn("ftok() may return the key of another file", Warning, stacklevel=2)
    found = os.stat(path)
    key = (id & 0xFF) << 24 | (found.st_dev & 0xFF) << 16 | found.st_ino & 0xFFFF
    return key - 2**32 if key > KEY_MAX else key


def remove_message_queue(id: int) -> None:
    """Removes the queue of an identifier."""
    with _translated():
        _server().rm(id)


def _attribute(name: str, is_writable: bool = False) -> property:
    """An attribute of a queue, as the server has it now."""

    def get(queue: MessageQueue) -> int:
        with _translated():
            return cast(int, getattr(_server().stat(queue.id), name))

    def put(queue: MessageQueue, value: int) -> None:
        if not isinstance(value, int):
            raise TypeError("the attribute must be an integer")
        if name == "qbytes" and value > QBYTES_MAX:
            raise PermissionsError("max_size can be at most %d" % QBYTES_MAX)
        with _translated():
            _server().set(queue.id, **{name: value})

    return property(get, put if is_writable else None)


class MessageQueue:
    """A queue. Without IPC_CREAT among the flags it must exist, and with IPC_CREX it must not."""

    __slots__ = ("_key", "_id", "_size")

    def __init__(self, key: Optional[int], flags: int = 0, mode: int = 0o600,
                 max_message_size: int = QUEUE_MESSAGE_SIZE_MAX_DEFAULT) -> None:
        if not isinstance(key, (int, type(None))):
            raise TypeError("the key must be an integer or None")
        if flags & IPC_CREX == IPC_EXCL or (key is None and flags & IPC_CREX != IPC_CREX):
            raise ValueError("IPC_EXCL needs IPC_CREAT, and the key None both")
        if key is not None and not KEY_MIN <= key <= KEY_MAX:
            raise ValueError("the key must be from %d to %d" % (KEY_MIN, KEY_MAX))
        if max_message_size < 0:
            raise ValueError("max_message_size must not be negative")
        self._size = max_message_size
        with _translated():
            self._key, self._id = self._made(mode) if key is None else (key, self._found(key, flags, mode))

    @staticmethod
    def _found(key: int, flags: int, mode: int) -> int:
        return _server().get(key, create=bool(flags & IPC_CREAT), exclusive=bool(flags & IPC_EXCL), mode=mode)

    @classmethod
    def _made(cls, mode: int) -> Tuple[int, int]:
        """Makes the queue of a random key that has none."""
        while True:
            key = random.randint(1, KEY_MAX)
            try:
                return key, cls._found(key, IPC_CREX, mode)
            except Exists:
                pass

    def send(self, message: Union[str, bytes], block: bool = True, type: int = 1) -> None:
        """Sends a message. A string is sent as UTF-8."""
        body = message.encode() if isinstance(message, str) else bytes(memoryview(message))
        if type <= 0:
            raise ValueError("the type must be > 0")
        if len(body) > self._size:
            raise ValueError("the message has more than %d bytes" % self._size)
        with _translated():
            _server().snd(self._id, body, type, wait=None if block else 0)

    def receive(self, block: bool = True, type: int = 0) -> Tuple[bytes, int]:
        """Receives a message, and returns its body and its type."""
        with _translated():
            message = _server().rcv(self._id, type, size=self._size, wait=None if block else 0)
        return message.body, message.type

    def remove(self) -> None:
        """Removes the queue."""
        remove_message_queue(self._id)

    def __repr__(self) -> str:
        return "sysv_ipc.MessageQueue(%d)" % self._key

    def __str__(self) -> str:
        return "Key=%d, id=%d" % (self._key, self._id)

    @property
    def key(self) -> int:
        return self._key

    @property
    def id(self) -> int:
        return self._id

    uid = _attribute("uid", is_writable=True)
    gid = _attribute("gid", is_writable=True)
    mode = _attribute("mode", is_writable=True)
    max_size = _attribute("qbytes", is_writable=True)
    cuid = _attribute("cuid")
    cgid = _attribute("cgid")
    current_messages = _attribute("qnum")
    last_send_pid = _attribute("lspid")
    last_receive_pid = _attribute("lrpid")
    last_send_time = _attribute("stime")
    last_receive_time = _attribute("rtime")
    last_change_time = _attribute("ctime")
