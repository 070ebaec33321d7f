"""Makes each call of the message queues of a module, and prints a line per call: its words, and what it returned, or of which
kinds the exception is that it raised. The results are the same for each user.

    queue_calls.py MODULE     sysv_ipc, on the kernel's queues, or sysvmsg.sysv_ipc, on those of a server
"""
import importlib
import json
import os
import sys
import threading
import time

ipc = importlib.import_module(sys.argv[1])
KINDS = {"Error": ipc.Error, "ExistentialError": ipc.ExistentialError, "BusyError": ipc.BusyError, "PermissionsError": ipc.PermissionsError,
         "ValueError": ValueError, "TypeError": TypeError, "AttributeError": AttributeError, "OSError": OSError}
KEY = 0x5e580000 + os.getpid() % 0x10000
READ = ("mode", "uid", "gid", "cuid", "cgid", "max_size", "current_messages", "last_send_pid", "last_receive_pid")
ONLY_READ = ("key", "id", "cuid", "cgid", "current_messages", "last_send_time", "last_receive_time", "last_change_time", "last_send_pid",
             "last_receive_pid")


def shown(value):
    """A result. Those that no two runs share are only named."""
    if isinstance(value, (tuple, list)):
        return [shown(part) for part in value]
    if isinstance(value, bytes):
        return value.decode("latin-1")
    if value == os.getpid():
        return "this process"
    return "a queue" if isinstance(value, ipc.MessageQueue) else value


def read(queue, name):
    """An attribute. Of those that name a user or a group it is shown whether they are this process's."""
    value = getattr(queue, name)
    own = {"uid": os.geteuid(), "cuid": os.geteuid(), "gid": os.getegid(), "cgid": os.getegid()}
    return value == own[name] if name in own else value


def tell(words, call):
    try:
        line = {"returned": shown(call())}
    except Exception as error:
        line = {"raised": [name for name, kind in KINDS.items() if isinstance(error, kind)]}
    print("%s: %s" % (words, json.dumps(line)))


def later(call):
    threading.Timer(0.3, call).start()


def creation(queue):
    for words, arguments in (
        ("no key", ()), ("None", (None,)), ("None, IPC_CREAT", (None, ipc.IPC_CREAT)), ("None, IPC_EXCL", (None, ipc.IPC_EXCL)),
        ("a string", ("7",)), ("a float", (1.5,)), ("an absent key", (KEY + 1,)), ("an absent key, IPC_EXCL", (KEY + 1, ipc.IPC_EXCL)),
        ("a used key", (KEY,)), ("a used key, 0", (KEY, 0)), ("a used key, IPC_CREAT", (KEY, ipc.IPC_CREAT)),
        ("a used key, IPC_EXCL", (KEY, ipc.IPC_EXCL)), ("a used key, IPC_CREX", (KEY, ipc.IPC_CREX)),
        ("four arguments", (KEY, 0, 0o600, 256)), ("a negative size", (KEY, 0, 0o600, -1)), ("no size", (KEY, 0, 0o600, 0)),
    ):
        tell("MessageQueue: " + words, lambda: ipc.MessageQueue(*arguments))
    named = {"key": KEY, "flags": 0, "mode": 0o600, "max_message_size": 256}
    tell("MessageQueue: arguments by their names", lambda: ipc.MessageQueue(**named).id == queue.id)
    for key in KEY + 1, -KEY, ipc.IPC_PRIVATE:
        other = ipc.MessageQueue(key, ipc.IPC_CREX, 0o640)
        tell("MessageQueue: another queue", lambda: (other.id == queue.id, other.key == key, other.mode))
        other.remove()
    other = ipc.MessageQueue(None, ipc.IPC_CREX)
    tell("MessageQueue: a random key", lambda: (other.key > 0, ipc.MessageQueue(other.key).id == other.id))
    tell("remove_message_queue", lambda: ipc.remove_message_queue(other.id))
    tell("remove_message_queue, again", lambda: ipc.remove_message_queue(other.id))
    tell("remove_message_queue: -1", lambda: ipc.remove_message_queue(-1))
    tell("a queue as text", lambda: (str(queue) == "Key=%d, id=%d" % (KEY, queue.id), repr(queue) == "sysv_ipc.MessageQueue(%d)" % KEY))


def attributes(queue):
    for name in READ:
        tell("read " + name, lambda: read(queue, name))
    for name in ONLY_READ:
        tell("set " + name, lambda: setattr(queue, name, 42))
    for name in ("mode", "uid", "gid", "max_size"):
        tell("set %s to what it is" % name, lambda: setattr(queue, name, getattr(queue, name)))
        tell("set %s to a string" % name, lambda: setattr(queue, name, "7"))
    tell("set an unknown attribute", lambda: setattr(queue, "other", 1))
    for name, value in ("mode", 0o660), ("max_size", 512), ("gid", 55):
        tell("set %s to %d" % (name, value), lambda: setattr(queue, name, value))
    tell("the attributes after that", lambda: [read(queue, name) for name in READ])
    queue.mode = 0o600


def messages(queue):
    for body in b"bytes", "text", "G\u00f6teborg", bytearray(b"array"), b"", b"a\0b", bytes(range(256)):
        tell("send %r" % body, lambda: queue.send(body))
        tell("receive", queue.receive)
    tell("send what is too long", lambda: queue.send(bytes(2049)))
    for kind in 0, -1, 2, 2**31 - 1:
        tell("send, type %d" % kind, lambda: queue.send(b"x", type=kind))
    tell("receive twice", lambda: [queue.receive(), queue.receive(block=False, type=0)])
    tell("send by names", lambda: queue.send(message=b"x", block=True, type=1))
    tell("send by places", lambda: queue.send(b"y", True, 2))
    tell("receive by places", lambda: queue.receive(True, 2))
    tell("receive type 3", lambda: queue.receive(block=False, type=3))
    tell("receive up to type 3", lambda: queue.receive(False, -3))
    for kind in 3, 1, 2, 3:
        queue.send("type %d" % kind, type=kind)
    tell("receive by type", lambda: [queue.receive(type=kind) for kind in (2, -9, 0, 3)])
    tell("receive of an empty queue", lambda: queue.receive(block=False))
    tell("and up to a type", lambda: queue.receive(block=False, type=-3))
    tell("attributes after messages", lambda: [read(queue, name) for name in READ if name not in ("mode", "gid", "max_size")])


def waits(queue):
    later(lambda: queue.send(b"late", type=4))
    tell("receive that waits", queue.receive)
    queue.max_size = 4
    tell("send what fits", lambda: queue.send(b"four"))
    tell("send to a full queue", lambda: queue.send(b"x", block=False))
    small = ipc.MessageQueue(KEY, max_message_size=3)
    tell("receive what is too long for this object", lambda: small.receive(block=False))
    tell("it stays", lambda: queue.current_messages)
    later(queue.receive)
    tell("send that waits", lambda: queue.send(b"next"))
    tell("receive", queue.receive)
    later(queue.remove)
    tell("receive from a queue that is removed", queue.receive)


def gone(queue):
    time.sleep(0.1)
    tell("remove, again", queue.remove)
    tell("send", lambda: queue.send(b"x"))
    tell("send without a wait", lambda: queue.send(b"x", block=False))
    tell("receive", queue.receive)
    tell("receive without a wait", lambda: queue.receive(block=False))
    for name in READ:
        tell("read %s of a queue that is gone" % name, lambda: getattr(queue, name))
    tell("set mode of a queue that is gone", lambda: setattr(queue, "mode", 0o600))
    tell("its key", lambda: queue.key == KEY)
    tell("MessageQueue of its key", lambda: ipc.MessageQueue(KEY))


def main():
    queue = ipc.MessageQueue(KEY, ipc.IPC_CREX)
    try:
        for part in creation, attributes, messages, waits:
            part(queue)
    except BaseException:
        queue.remove()
        raise
    gone(queue)
    keys = [ipc.ftok("/", number, silence_warning=True) for number in (0, 1, 255, 256)]
    tell("ftok", lambda: [key >> 24 for key in keys] + [(key ^ keys[0]) & 0xFFFFFF for key in keys])


main()
