"""Random calls of many clients of one server, and whether one of them waits in vain. tests/program/serve-vain and
tools/vain use it.

The clients make random calls until nothing moves: all threads of the server sleep, and no reply is left to read. Then
three ways show whether a call waits in vain, that is, although what it waits for is there:

- by a model. It knows which messages were accepted and not received. User 0 asks for the attributes of each queue. A
  receive may wait only if its queue lives, it may read, and no queued message is named by its selector. A send may wait
  only if its queue lives, it may write, and its message does not fit or the pool has too few free blocks. No other call
  may wait.
- by a look. Those requests of user 0 change nothing, so no call may end by them.
- by a nudge. Each queue is set to another mode that means the same, and back. No call may end by that.
"""
import collections
import os
import random
import select
import socket
import struct
from typing import NamedTuple

from common import CREAT, EXCEPT, GET, HELLO, NOERROR, NOWAIT, RCV, RM, SET, SND, STAT, Server
from sysvmsg import ERRORS

VERSION = 2
BLOCK = 64
MOST_MESSAGES = 256
KEYS = 1, 2, 3, 4, 5
# The key whose queue is removed and made again and again.
FLEETING = 5
CLIENTS = 32
# A body of this length or a longer one begins with a number of the message.
NUMBER = 4
PAD = bytes(range(251)) * 33
TYPES = 1, 1, 1, 2, 2, 3, 4, 5, 1 << 40
MODES = (0o666,) * 10 + (0o660, 0o606, 0o640, 0o620, 0o664, 0o662, 0o600, 0o066, 0o444, 0o222)
ROOMS = (16384,) * 4 + (65536,) * 4 + (0, 1, 64, 500, 4096, 8192)
# In this share of the runs all bodies are short.
TINY = 0.2
# A pool of this number of blocks or a larger one takes longer bodies and more room to be used up.
LARGE_POOL = 1024
LARGE_ROOMS = (16384,) * 2 + (65536,) * 12 + (0, 500, 8192)
SIZES = 0, 1, 4, 60, 64, 200, 500, 1000, 4096, 8192, 8192, 8192, 8192, 8192
WHO = (1000, 1000), (1000, 1000), (2000, 1000), (2000, 2000), (1000, 2000), (2000, 2000), (1000, 1000), (0, 0)

HEAD = struct.Struct(">IBBB")
OF_HELLO = struct.Struct(">IBBIII")
OF_GET = struct.Struct(">IBBiI")
OF_SND = struct.Struct(">IBBiqI")
OF_RCV = struct.Struct(">IBBiIqI")
OF_ID = struct.Struct(">IBBi")
OF_SET = struct.Struct(">IBBiIIII")
ATTRIBUTES = struct.Struct(">iIIIIHIII")
NAMES = {number: error.name for number, error in ERRORS.items()}
OPERATIONS = {HELLO: "hello", GET: "get", SND: "snd", RCV: "rcv", STAT: "stat", SET: "set", RM: "rm"}
MAY_FAIL = {
    SND: {"EINVAL", "EACCES", "EAGAIN", "EIDRM"},
    RCV: {"EINVAL", "EACCES", "ENOMSG", "E2BIG", "EIDRM"},
    GET: {"ENOENT", "EEXIST", "EACCES"},
    STAT: {"EINVAL", "EACCES"},
    SET: {"EINVAL", "EPERM"},
    RM: {"EINVAL", "EPERM"},
}


class Wrong(Exception):
    """A reply that no right server gives, or a message that was lost or doubled."""


class Call(NamedTuple):
    """A request whose reply is to come. Of a get, `queue` is the key. `length` is that of a body, or the size of a receive."""
    operation: int
    queue: int
    mtype: int = 0
    flags: int = 0
    length: int = 0
    number: int = 0

    def __str__(self):
        words = "%s at %d" % (OPERATIONS[self.operation], self.queue)
        if self.operation in (SND, RCV):
            words += ", type %d, %d bytes, flags %o" % (self.mtype, self.length, self.flags)
        return words


class Attributes(NamedTuple):
    """What the model needs of a queue's attributes."""
    uid: int
    gid: int
    cuid: int
    cgid: int
    mode: int
    cbytes: int
    qnum: int
    qbytes: int

    def permits(self, who, bit):
        """Whether a client of this user and group has the permission of this bit: 4 to read, 2 to write."""
        uid, gid = who
        if uid == 0:
            return True
        if uid in (self.uid, self.cuid):
            return bool(self.mode >> 6 & bit)
        if gid in (self.gid, self.cgid):
            return bool(self.mode >> 3 & bit)
        return bool(self.mode & bit)


def names(call, mtype):
    """Whether the selector of a receive names a message of this type."""
    if call.mtype == 0:
        return True
    if call.mtype < 0:
        return mtype <= -call.mtype
    return (mtype == call.mtype) != bool(call.flags & EXCEPT)


def blocks_of(length):
    return -(-length // BLOCK)


class Sleepers:
    """The threads of a server, and whether all of them sleep at one moment."""

    def __init__(self, process):
        tasks = "/proc/%d/task" % process
        self.files = [os.open("%s/%s/status" % (tasks, task), os.O_RDONLY) for task in os.listdir(tasks)]

    def states(self):
        return [os.pread(file, 4096, 0) for file in self.files]

    def all_sleep(self):
        """Whether there was a moment at which all slept. A thread that sleeps at two looks, and has not slept anew in
        between, as its count of switches shows, was not woken in between."""
        before = self.states()
        return all(b"\nState:\tS" in state for state in before) and self.states() == before

    def close(self):
        for file in self.files:
            os.close(file)


class Client:
    """A client of the server, the requests that it has made, and the bytes that have arrived."""

    def __init__(self, path, who, rnd):
        self.who = who
        self.rnd = rnd
        self.pending = collections.deque()
        self.input = self.output = b""
        self.is_found = False
        self.must_get = 0
        self.open(path)

    def open(self, path):
        self.peer = socket.socket(socket.AF_UNIX)
        self.peer.connect(path)
        self.file = self.peer.fileno()
        self.pending.clear()
        self.input = self.output = b""
        self.is_found = False
        self.write([(Call(HELLO, 0), OF_HELLO.pack(14, VERSION, HELLO, *self.who, 1))])

    def write(self, requests):
        self.pending.extend(call for call, _ in requests)
        self.output += b"".join(data for _, data in requests)
        self.flush()

    def flush(self):
        """Sends what the connection takes now. Returns whether it has taken any."""
        try:
            count = self.peer.send(self.output, socket.MSG_DONTWAIT) if self.output else 0
        except BlockingIOError:
            return False
        self.output = self.output[count:]
        return count > 0

    def replies(self):
        """The replies that have arrived, each with its call: the call, the number of the error, and the fields."""
        try:
            data = self.peer.recv(1 << 18, socket.MSG_DONTWAIT)
        except BlockingIOError:
            return []
        if not data:
            raise Wrong("the server closed a connection")
        data = self.input + data
        found, at = [], 0
        while len(data) - at >= 7:
            length, version, operation, error = HEAD.unpack_from(data, at)
            if len(data) - at < 4 + length:
                break
            if not self.pending:
                raise Wrong("there is a reply without a request")
            call = self.pending.popleft()
            if (version, operation) != (VERSION, call.operation):
                raise Wrong("%s has a reply to another request" % (call,))
            found.append((call, error, data[at + 7:at + 4 + length]))
            at += 4 + length
        self.input = data[at:]
        return found


class Model:
    """Which messages were accepted and not received."""

    def __init__(self, blocks):
        self.blocks = blocks
        # What each number was sent with: its queue, its type, its length. A number that was received is taken out.
        self.sent = {}
        self.numbers = 0
        # For each queue, the number of messages of each type, and the bytes and blocks of all of them.
        self.types = collections.defaultdict(collections.Counter)
        self.bytes = collections.Counter()
        self.used = collections.Counter()
        self.accepted = self.received = self.discarded = 0

    def add(self, call, length, more):
        self.types[call.queue][call.mtype] += more
        self.bytes[call.queue] += more * length
        self.used[call.queue] += more * blocks_of(length)

    def accept(self, call):
        self.accepted += 1
        self.add(call, call.length, 1)

    def receive(self, call, mtype, body):
        """Takes note of a message that a receive has got. Its send may still wait to be read."""
        if len(body) > call.length or not names(call, mtype):
            raise Wrong("%s has a message of type %d with %d bytes" % (call, mtype, len(body)))
        length = len(body)
        if length >= NUMBER:
            sent = self.sent.pop(int.from_bytes(body[:NUMBER], "big"), None)
            if sent is None or (sent.queue, sent.mtype) != (call.queue, mtype):
                raise Wrong("%s has a message that is not there" % (call,))
            length = sent.length
            whole = min(length, call.length) if call.flags & NOERROR else length
            if len(body) != whole or body[NUMBER:] != PAD[:whole - NUMBER]:
                raise Wrong("%s has a message that was changed" % (call,))
        elif body != PAD[:length]:
            raise Wrong("%s has a message that was changed" % (call,))
        self.received += 1
        self.add(call._replace(mtype=mtype), length, -1)

    def compare(self, live):
        """Compares the model with the attributes of the queues that live, when nothing moves. Messages of others are
        discarded."""
        for queue in list(self.types):
            if queue not in live:
                self.discarded += sum(self.types.pop(queue).values())
                self.bytes.pop(queue, 0)
                self.used.pop(queue, 0)
        for queue, of in live.items():
            types = self.types[queue]
            wanted = of.qnum, of.cbytes
            got = sum(types.values()), self.bytes[queue]
            if wanted != got or any(count < 0 for count in types.values()):
                raise Wrong("queue %d has %d messages of %d bytes, and should have %d of %d" % (queue, *wanted, *got))

    def free(self):
        return self.blocks - sum(self.used.values())

    def why(self, call, who, live):
        """Why a call waits in vain, or nothing."""
        if call.operation not in (SND, RCV):
            return "nothing is in progress for which it could wait"
        of = live.get(call.queue)
        if of is None:
            return "its queue was removed"
        if not of.permits(who, 4 if call.operation == RCV else 2):
            return "it has no permission"
        if call.operation == RCV:
            named = [mtype for mtype, count in self.types[call.queue].items() if count and names(call, mtype)]
            return "a message of type %d is there" % named[0] if named else ""
        has_room = of.cbytes + call.length <= of.qbytes and of.qnum < MOST_MESSAGES
        return "there is room" if has_room and blocks_of(call.length) <= self.free() else ""


class Random:
    """Random requests."""

    def __init__(self, model, ids, is_tiny):
        self.model = model
        self.ids = ids
        # Whether bodies are so short that queues are full because of the number of their messages.
        self.is_tiny = is_tiny
        self.is_large = model.blocks >= LARGE_POOL
        self.rooms = LARGE_ROOMS if self.is_large else ROOMS

    def queue(self, rnd):
        """The identifier of a queue, mostly one that lives."""
        return self.ids[int(rnd.random() * len(KEYS)) + 1]

    def get(self, key, flags):
        return Call(GET, key, 0, flags), OF_GET.pack(10, VERSION, GET, key, flags)

    def any_get(self, rnd):
        return self.get(rnd.choice(KEYS), rnd.choice((0, CREAT, CREAT, CREAT | 0o2000)) | rnd.choice(MODES))

    def length(self, rnd):
        """The length of a body."""
        if self.is_tiny:
            return int(rnd.random() * 40)
        kind = rnd.random() ** (0.4 if self.is_large else 1)
        if kind < 0.3:
            return int(rnd.random() * 100)
        if kind < 0.6:
            return int(rnd.random() * 1000)
        if kind < 0.9:
            return int(rnd.random() * 8192)
        return 8192 if kind < 0.95 else 64

    def snd(self, rnd, flags=0, queue=None):
        length = self.length(rnd)
        mtype = TYPES[int(rnd.random() * len(TYPES))]
        self.model.numbers += 1
        queue = self.queue(rnd) if queue is None else queue
        call = Call(SND, queue, mtype, flags, length, self.model.numbers)
        body = PAD[:length]
        if length >= NUMBER:
            body = call.number.to_bytes(NUMBER, "big") + PAD[:length - NUMBER]
            self.model.sent[call.number] = call
        return call, OF_SND.pack(18 + length, VERSION, SND, call.queue, mtype, flags) + body

    def rcv(self, rnd, flags=0):
        kind = rnd.random()
        mtype = 0 if kind < 0.3 else int(rnd.random() * 6) + 1 if kind < 0.7 else -int(rnd.random() * 6) - 1
        size = SIZES[int(rnd.random() * len(SIZES))]
        if rnd.random() < 0.2:
            flags |= EXCEPT
        if size >= NUMBER and rnd.random() < 0.2:
            flags |= NOERROR
        queue = self.queue(rnd)
        return Call(RCV, queue, mtype, flags, size), OF_RCV.pack(22, VERSION, RCV, queue, size, mtype, flags)

    def all_rcv(self, queue):
        """A receive of any message, which does not wait."""
        return Call(RCV, queue, 0, NOWAIT, 8192), OF_RCV.pack(22, VERSION, RCV, queue, 8192, 0, NOWAIT)

    def stat(self, queue):
        return Call(STAT, queue), OF_ID.pack(6, VERSION, STAT, queue)

    def set(self, queue, uid, gid, mode, qbytes):
        return Call(SET, queue), OF_SET.pack(22, VERSION, SET, queue, uid, gid, mode, qbytes)

    def any_set(self, rnd):
        owner, group = rnd.choice((1000, 2000)), rnd.choice((1000, 2000))
        return self.set(self.queue(rnd), owner, group, rnd.choice(MODES), rnd.choice(self.rooms))

    def rm(self, queue):
        return Call(RM, queue), OF_ID.pack(6, VERSION, RM, queue)

    def hasty(self, rnd):
        """A request that does not wait."""
        kind = rnd.random()
        if kind < 0.4:
            return self.snd(rnd, NOWAIT)
        return self.rcv(rnd, NOWAIT) if kind < 0.8 else self.any_set(rnd)

    def one(self, rnd):
        """A request of a client."""
        kind = rnd.random()
        if kind < 0.44:
            return self.snd(rnd, NOWAIT if rnd.random() < 0.1 else 0)
        if kind < 0.86:
            return self.rcv(rnd, NOWAIT if rnd.random() < 0.1 else 0)
        if kind < 0.90:
            return self.any_set(rnd)
        if kind < 0.92:
            return self.rm(self.queue(rnd) if rnd.random() < 0.3 else self.ids[FLEETING])
        if kind < 0.97:
            return self.any_get(rnd)
        return self.stat(self.queue(rnd))


class Found(NamedTuple):
    """A call that waited in vain, and how that was found."""
    call: Call
    how: str

    def __str__(self):
        return "%s: %s" % (self.call, self.how)


class Result(NamedTuple):
    """How many random calls were made, how often nothing moved, how many calls waited then in all, which of them waited in
    vain, and what else is wrong."""
    calls: int
    rests: int
    waits: int
    found: list
    wrong: str

    def __str__(self):
        return "%d calls, at rest %d times with %d waits, of which %d in vain" % (
            self.calls, self.rests, self.waits, len(self.found))


class Harness:
    """A server and its clients, who make random calls."""

    def __init__(self, program, path, workers, blocks, seed, clients=CLIENTS):
        self.rnd = random.Random(seed)
        self.stats = path + ".stats"
        words = "--workers", workers, "--blocks", blocks, "--at-once", clients + 32, "--stats", self.stats
        self.server = Server(program, path, *map(str, words))
        if not self.server.listening.startswith("sysvmsg: serving "):
            raise Wrong("the server does not listen: " + self.server.listening)
        self.threads = Sleepers(self.server.process.pid)
        self.poll = select.epoll()
        self.model = Model(blocks)
        self.ids = dict.fromkeys(KEYS, 0)
        self.random = Random(self.model, self.ids, self.rnd.random() < TINY)
        self.files = {}
        # The user 0 of the looks is at another worker in each run.
        place = self.rnd.randrange(clients + 1)
        all_clients = [self.client(seed, number, number == place) for number in range(clients + 1)]
        self.root = all_clients.pop(place)
        self.clients = all_clients
        self.calls = self.rests = self.waits = 0
        self.left = 0
        self.found = []
        self.live = {}
        # The replies to user 0, and the calls of the others that have ended, each with whether it was found before.
        self.told = []
        self.ended = []

    def client(self, seed, number, is_root):
        who = (0, 0) if is_root else WHO[number % len(WHO)]
        return self.watch(Client(self.server.path, who, random.Random("%s %d" % (seed, number))))

    def watch(self, client):
        self.files[client.file] = client
        self.poll.register(client.file, select.EPOLLIN)
        return client

    def reopen(self, client):
        """Closes the connection of a client, whatever it waits for, and opens another one."""
        self.forget(client)
        client.peer.close()
        client.open(self.server.path)
        self.watch(client)

    def forget(self, client):
        self.poll.unregister(client.file)
        del self.files[client.file]
        for call in client.pending:
            self.model.sent.pop(call.number, None)

    def batch(self, client):
        """Has a client that waits for nothing make some requests, if this burst has some left."""
        if self.left <= 0:
            return
        rnd, requests = client.rnd, []
        if client.must_get:
            requests.append(self.random.get(client.must_get, CREAT | rnd.choice(MODES)))
            client.must_get = 0
        kind = rnd.random()
        if kind < 0.01:
            requests += [self.random.hasty(rnd) for _ in range(rnd.randrange(1, 100))]
        for _ in range(1 if kind < 0.6 else int(rnd.random() * 5) + 1):
            requests.append(self.random.one(rnd))
        self.left -= len(requests)
        self.calls += len(requests)
        client.write(requests)

    def take(self, client, call, error, fields):
        """Takes note of a reply."""
        if error:
            name = NAMES.get(error)
            is_hasty = name not in ("EAGAIN", "ENOMSG") or call.flags & NOWAIT
            if name not in MAY_FAIL[call.operation] or not is_hasty or name == "E2BIG" and call.flags & NOERROR:
                raise Wrong("%s fails with %s" % (call, name))
            if call.operation == SND and call.length >= NUMBER and self.model.sent.pop(call.number, None) is None:
                raise Wrong("%s has failed, and was received" % (call,))
        elif call.operation == SND:
            self.model.accept(call)
        elif call.operation == RCV:
            self.model.receive(call, int.from_bytes(fields[:8], "big"), fields[8:])
        elif call.operation == GET:
            self.ids[call.queue] = int.from_bytes(fields, "big")
        elif call.operation == RM:
            client.must_get = next((key for key, queue in self.ids.items() if queue == call.queue), 0)

    def read(self, seconds=0.0):
        """Reads what has arrived. Returns whether anything has."""
        ready = self.poll.poll(seconds)
        for file, _ in ready:
            client = self.files[file]
            for call, error, fields in client.replies():
                if client is self.root:
                    self.told.append((call, error, fields))
                else:
                    self.ended.append((client.is_found, call))
                self.take(client, call, error, fields)
            if client.pending or client is self.root:
                continue
            client.is_found = False
            self.batch(client)
        return bool(ready)

    def flush(self):
        """Sends what was not sent yet. Returns whether any was sent."""
        return any([client.flush() for client in [self.root, *self.clients] if client.output])

    def settle(self):
        """Reads on until nothing moves."""
        while True:
            while self.read() | self.flush():
                pass
            if self.threads.all_sleep():
                if not self.read() and not self.flush():
                    return
            else:
                self.read(0.001)

    def ask(self, requests):
        """The replies to requests of user 0, once nothing moves."""
        self.told.clear()
        self.root.write(requests)
        self.settle()
        if len(self.told) != len(requests):
            raise Wrong("a request of user 0 waits: %s" % (self.root.pending[0],))
        return list(self.told)

    def ask_idly(self, how, requests):
        """The same, for requests by which no call may end. Those that follow a call that was found may end others."""
        self.ended.clear()
        told = self.ask(requests)
        if not any(is_found for is_found, _ in self.ended):
            self.found += [Found(call, how) for _, call in self.ended]
        return told

    def look(self):
        """Asks for the attributes of the queues that live."""
        told = self.ask_idly("it ends by a look", [self.random.get(key, 0) for key in KEYS])
        ids = [int.from_bytes(fields, "big") for _, error, fields in told if not error]
        told = self.ask_idly("it ends by a look", [self.random.stat(queue) for queue in ids]) if ids else []
        live = {}
        for call, error, fields in told:
            if error:
                raise Wrong("%s of user 0 fails" % (call,))
            live[call.queue] = Attributes(*ATTRIBUTES.unpack_from(fields)[1:])
        return live

    def check(self):
        """Judges all calls that wait, when nothing moves."""
        self.rests += 1
        self.live = self.look()
        self.model.compare(self.live)
        for client in self.clients:
            if not client.pending:
                continue
            self.waits += 1
            why = "" if client.is_found else self.model.why(client.pending[0], client.who, self.live)
            if why:
                client.is_found = True
                self.found.append(Found(client.pending[0], why))

    def nudge(self):
        """Sets each queue to another mode that means the same, and back."""
        requests = []
        for queue, of in self.live.items():
            for mode in of.mode ^ 0o111, of.mode:
                requests.append(self.random.set(queue, of.uid, of.gid, mode, of.qbytes))
        if not requests:
            return
        if any(error for _, error, _ in self.ask_idly("it ends by a nudge", requests)):
            raise Wrong("a set of user 0 fails")

    def burst(self, calls):
        """Has all clients that wait for nothing make random calls, until nothing moves."""
        self.left = calls
        for client in self.clients:
            if not client.pending:
                client.is_found = False
                self.batch(client)
        self.settle()
        self.left = 0
        self.check()

    def leave(self):
        """Has some clients whose calls wait go away, and others come instead."""
        waiting = [client for client in self.clients if client.pending]
        for client in self.rnd.sample(waiting, min(len(waiting), self.rnd.randrange(1, 4))):
            self.reopen(client)

    def step(self):
        """Has user 0 make one request that may end waits, or many in one write."""
        kind = self.rnd.random()
        if kind < 0.15:
            self.leave()
        if kind < 0.85:
            requests = [self.random.hasty(self.rnd) for _ in range(self.rnd.choice((200, 1000)) if kind < 0.02 else 1)]
        elif kind < 0.93:
            requests = [self.random.rm(self.random.queue(self.rnd))]
        else:
            requests = [self.random.any_get(self.rnd)]
        self.calls += len(requests)
        self.ask(requests)
        self.check()

    def make_all(self):
        """Makes the queues that are not there."""
        told = self.ask([self.random.get(key, CREAT | 0o666) for key in KEYS])
        ids = [int.from_bytes(fields, "big") for _, _, fields in told]
        count = 4 if self.random.is_large else 2
        self.ask([self.random.set(queue, 1000, 1000, self.rnd.choice(MODES), self.rnd.choice(self.random.rooms))
                  for queue in self.rnd.sample(ids, count)])

    def release(self):
        """Has enough clients wait for nothing, by receives and removals."""
        self.make_all()
        for _ in range(8):
            if sum(not client.pending for client in self.clients) >= len(self.clients) // 3:
                return
            queue = self.random.queue(self.rnd)
            kind = self.rnd.random()
            if kind < 0.5:
                self.ask([self.random.all_rcv(queue)] * self.rnd.randrange(1, 30))
            elif kind < 0.8:
                if self.random.is_tiny:
                    self.ask([self.random.snd(self.rnd, NOWAIT, queue) for _ in range(MOST_MESSAGES)])
                else:
                    self.ask([self.random.snd(self.rnd, NOWAIT) for _ in range(20)])
            else:
                self.ask([self.random.rm(queue)])
            self.check()
        self.ask([self.random.rm(queue) for queue in self.live])
        self.make_all()
        self.check()

    def drain(self):
        """Receives all messages and removes all queues. Then all calls have ended, and nothing is left."""
        while any(of.qnum for of in self.live.values()):
            self.ask([self.random.all_rcv(queue) for queue, of in self.live.items() for _ in range(of.qnum)])
            self.check()
        self.ask([self.random.rm(queue) for queue in self.live])
        # Calls that were behind one that waited may have made queues.
        while True:
            self.check()
            if not self.live:
                break
            self.ask([self.random.rm(queue) for queue in self.live])
        if any(client.pending for client in self.clients):
            raise Wrong("a call waits after all queues were removed")
        if self.model.accepted != self.model.received + self.model.discarded:
            raise Wrong("of %d messages %d were received and %d discarded" % (
                self.model.accepted, self.model.received, self.model.discarded))
        told = self.state()
        wanted = {"sysvmsg_pool_free_blocks": self.model.blocks, "sysvmsg_waiting_receives": 0, "sysvmsg_waiting_sends": 0,
                  "sysvmsg_messages_sent_total": self.model.accepted}
        if any(told.get(name) != number for name, number in wanted.items()):
            raise Wrong("the server tells %s" % told)

    def state(self):
        """What the server tells of itself."""
        with socket.socket(socket.AF_UNIX) as peer:
            peer.connect(self.stats)
            peer.shutdown(socket.SHUT_WR)
            text = b"".join(iter(lambda: peer.recv(65536), b"")).decode()
        lines = (line.split() for line in text.splitlines() if not line.startswith("#"))
        return {name: int(number) for name, number in lines}

    def run(self, calls):
        """Makes about this number of calls."""
        self.settle()
        while self.calls < calls:
            self.release()
            self.burst(self.rnd.randrange(40, 300))
            for _ in range(self.rnd.randrange(6)):
                self.step()
            self.nudge()
        self.check()
        self.drain()

    def __enter__(self):
        return self

    def __exit__(self, *why):
        self.threads.close()
        self.poll.close()
        for client in [self.root, *self.clients]:
            client.peer.close()
        self.server.__exit__(*why)
        if os.path.exists(self.stats):
            os.remove(self.stats)


def search(program, folder, workers, blocks, seed, calls):
    """The result of random calls of a server of its own, whose sockets are in a folder."""
    with Harness(program, os.path.join(folder, "q"), workers, blocks, seed) as harness:
        wrong = ""
        try:
            harness.run(calls)
        except (OSError, Wrong, TimeoutError) as error:
            wrong = "%s: %s" % (type(error).__name__, error)
        return Result(harness.calls, harness.rests, harness.waits, harness.found, wrong)
