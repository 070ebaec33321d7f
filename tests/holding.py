"""Sessions of version 3 of the frames, in which a client holds messages."""
import os
import socket
import struct

from common import CREAT, GET, HELLO, NOWAIT, RCV, RM, SET, SND, STAT

HOLD, DONE, BACK = 8, 9, 10
EAGAIN, EACCES, EINVAL, EIDRM = 11, 13, 22, 43
LONGEST = 8192


class Refused(Exception):
    """A reply with this error."""

    def __init__(self, number):
        super().__init__("error %d" % number)
        self.number = number


class Holding:
    """A session of version 3, or of another one."""

    def __init__(self, path, version=3, uid=1000):
        self.version = version
        self.peer = socket.socket(socket.AF_UNIX)
        self.peer.connect(path)
        self.ask(HELLO, struct.pack(">III", uid, uid, os.getpid()))

    def start(self, operation, fields=b""):
        self.peer.sendall(struct.pack(">IBB", 2 + len(fields), self.version, operation) + fields)

    def exactly(self, count):
        data = b""
        while len(data) < count:
            piece = self.peer.recv(count - len(data))
            if not piece:
                raise EOFError
            data += piece
        return data

    def reply(self):
        """The fields of the next reply."""
        data = self.exactly(struct.unpack(">I", self.exactly(4))[0])
        if data[2]:
            raise Refused(data[2])
        return data[3:]

    def ask(self, operation, fields=b""):
        self.start(operation, fields)
        return self.reply()

    def get(self, key, flags=0o600 | CREAT):
        return struct.unpack(">i", self.ask(GET, struct.pack(">iI", key, flags)))[0]

    def send(self, queue, body, mtype=1, flags=NOWAIT):
        self.ask(SND, struct.pack(">iqI", queue, mtype, flags) + body)

    def receive(self, queue, flags=NOWAIT):
        """The type and the body of the next message, or nothing."""
        try:
            return self.message(self.ask(RCV, struct.pack(">iIqI", queue, LONGEST, 0, flags)))
        except Refused:
            return None

    def message(self, fields):
        return struct.unpack(">q", fields[:8])[0], fields[8:]

    def start_hold(self, queue, flags=0, seconds=0, size=LONGEST):
        self.start(HOLD, struct.pack(">iIqII", queue, size, 0, flags, seconds))

    def hold(self, queue, flags=NOWAIT, seconds=0, size=LONGEST):
        """The type and the body of the message that is held now."""
        self.start_hold(queue, flags, seconds, size)
        return self.message(self.reply())

    def done(self):
        self.ask(DONE)

    def back(self):
        self.ask(BACK)

    def remove(self, queue):
        self.ask(RM, struct.pack(">i", queue))

    def set(self, queue, qbytes, uid=1000, mode=0o600):
        self.ask(SET, struct.pack(">iIIII", queue, uid, uid, mode, qbytes))

    def queued(self, queue):
        return struct.unpack(">I", self.ask(STAT, struct.pack(">i", queue))[26:30])[0]

    def fill(self, queue, body=b"y" * LONGEST, mtype=2):
        """Sends messages of one body until there is no room for one more. Returns their number."""
        count = 0
        while True:
            try:
                self.send(queue, body, mtype)
            except Refused:
                return count
            count += 1

    def close(self):
        self.peer.close()


def number_of(refused):
    """The number of the error with which a function is refused, or 0."""
    try:
        refused()
    except Refused as refusal:
        return refusal.number
    return 0
