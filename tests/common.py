"""What the Python scripts of the folders here share: the program that is tried, connections to a server, and the lines that
say how it went. The program is $SYSVMSG; without it, the one that tools/program names, which is built without proofs if
there is none. A script that is given --help prints its own documentation."""
import ctypes
import os
import re
import resource
import signal
import socket
import subprocess
import sys
import tempfile
import time
import traceback
from typing import NamedTuple

TOP = os.path.dirname(os.path.dirname(os.path.abspath(__file__)))
sys.path.insert(0, os.path.join(TOP, "clients", "python"))
import sysvmsg
from sysvmsg import CREAT, EXCEPT, EXCL, GET, HELLO, NOERROR, NOWAIT, RCV, RM, ROW, SET, SND, STAT, Request, frame

COMMANDS = ["serve", "snd", "rcv", "ipcs", "ipcrm", "ipcmk", "save", "load", "stats", "script"]
ABOUT = {"--help", "--version"}
SLOTS = 256
MOST_AT_ONCE = 16384
LIBC = ctypes.CDLL(None)
PR_SET_PDEATHSIG = 1

if sys.argv[1:] == ["--help"]:
    print(sys.modules["__main__"].__doc__)
    sys.exit()


def is_chosen(name):
    """Whether a name has each word of the command line in it. All names are chosen if there are no words."""
    return all(word in name for word in sys.argv[1:])


def built_program():
    """The program, once it is built."""
    given = os.environ.get("SYSVMSG")
    if given:
        return given
    find = os.path.join(TOP, "tools/program")
    return subprocess.run([find], stdin=subprocess.DEVNULL, stdout=subprocess.PIPE, check=True, text=True).stdout.strip()


def stated_version():
    """The version that the program of this tree states."""
    return subprocess.check_output([os.path.join(TOP, "tools/version"), "--program"], text=True).strip()


def usage(program, *command):
    """What --help prints of a command, or of the program."""
    return subprocess.check_output([program, *command, "--help"], text=True)


def listed(program, *command):
    """The options that --help lists, in their long form if they have one."""
    return set(re.findall(r"^ +(?:-\w, )?(--?[A-Za-z][a-z-]*)", usage(program, *command), re.MULTILINE))


def is_checked(program):
    """Whether the program is one that `rt try` built: its allocator checks each use and keeps freed memory."""
    with open(program, "rb") as file:
        return b"__asan_init" in file.read()


def end_with_parent():
    """Has the system kill this process, which another one starts, when the thread that starts it ends."""
    LIBC.prctl(PR_SET_PDEATHSIG, signal.SIGKILL)


def start(words, **how):
    """Starts a process, which ends with this one at the latest."""
    return subprocess.Popen(list(map(str, words)), **{"preexec_fn": end_with_parent, **how})


def finished(process, seconds=60):
    """What a process prints and its status, once it ends. After that many seconds it is killed, and the status says so."""
    try:
        return process.communicate(timeout=seconds)[0].decode(), process.returncode
    except subprocess.TimeoutExpired:
        process.kill()
        return process.communicate()[0].decode(), "none after %d seconds" % seconds


def places(workers=4, descriptors=None):
    """For how many clients at once a server has descriptors, of which five are its own, and two are for each worker. The limit
    of open files is that of this process if none is given."""
    if descriptors is None:
        descriptors = resource.getrlimit(resource.RLIMIT_NOFILE)[0]
    if descriptors == resource.RLIM_INFINITY:
        return MOST_AT_ONCE
    return min(max(descriptors - 5 - 2 * workers, 1), MOST_AT_ONCE)


def serving(path, count, blocks=1024):
    """The first line of a server at a path that serves so many sessions at once, with so many blocks."""
    many = "s" * (count != 1)
    return "sysvmsg: serving %s, up to %d session%s at once, %d messages of 64 bytes\n" % (path, count, many, blocks)


def hello(uid, gid, pid, version=2):
    return Request.hello(uid, gid, pid).frame(version)


class Session:
    """One connection, with the version and the credentials of its hello."""

    def __init__(self, path, uid=1000, gid=1000, pid=1, version=2):
        self.version = version
        self.peer = socket.socket(socket.AF_UNIX)
        self.peer.connect(path)
        self.stream = self.peer.makefile("rb")
        slots = self.call(Request.hello(uid, gid, pid))
        assert slots == (None if version == 1 else SLOTS)

    def ask(self, operation, fields):
        """The fields of the reply, or the name of its error."""
        self.peer.sendall(frame(operation, fields, self.version))
        return self.reply(operation)

    def reply(self, operation):
        """The fields of the next reply, which is to this operation, or the name of its error."""
        try:
            return sysvmsg.read_reply(self.stream.read, operation, self.version)
        except sysvmsg.QueueError as refused:
            return refused.name

    def start(self, request):
        """Sends a request, and does not wait for the reply."""
        self.peer.sendall(request.frame(self.version))

    def call(self, request):
        """What the reply to a request states, or the name of its error."""
        told = self.ask(request.operation, request.fields)
        return told if isinstance(told, str) else request.decode(told)

    def get(self, key, flags):
        """The identifier of the queue."""
        return self.call(Request.get(key, flags))

    def send(self, queue, body, mtype=1):
        """Sends a message, and waits until it is sent: nothing, or the name of the error."""
        self.start_send(queue, body, mtype)
        return self.reply(SND)

    def start_send(self, queue, body, mtype=1):
        """Asks for a send, and does not wait for the reply."""
        self.start(Request.snd(queue, mtype, 0, body))

    def start_receive(self, queue, size=99, mtype=0):
        """Asks for a receive, of any type if none is given, and does not wait for the reply."""
        self.start(Request.rcv(queue, size, mtype, 0))

    def received(self):
        """The body of the message of a receive that was asked for, or the name of the error."""
        told = self.reply(RCV)
        return told if isinstance(told, str) else told[8:]

    def receive_now(self, queue, size=99):
        """The body of a message of any type, or the name of the error, at once."""
        told = self.call(Request.rcv(queue, size, 0, NOWAIT))
        return told if isinstance(told, str) else told.body

    def queued(self, queue):
        """The number of messages that are queued."""
        return self.call(Request.stat(queue)).qnum

    def close(self):
        self.stream.close()
        self.peer.close()


class Server:
    """A server at a path, from the line that says that it listens until it is told to end."""

    def __init__(self, program, path, *words, under=(), **how):
        self.path = path
        words = [*under, program, "serve", path, *words]
        self.process = start(words, stdout=subprocess.PIPE, stderr=subprocess.PIPE, **how)
        try:
            self.listening = self.process.stderr.readline().decode()
        except BaseException:
            self.process.kill()
            raise

    def is_asleep(self):
        """Whether all its threads sleep: what was asked of it is answered, or waits. A thread that ends meanwhile is awake."""
        tasks = "/proc/%d/task" % self.process.pid
        try:
            for task in os.listdir(tasks):
                with open("%s/%s/stat" % (tasks, task), encoding="ascii") as stat:
                    if stat.read().rsplit(")", 1)[1].split()[0] != "S":
                        return False
        except (FileNotFoundError, ProcessLookupError):
            return False
        return True

    def ended(self, seconds=60):
        """What it printed and its status, once it ends by itself."""
        return finished(self.process, seconds)

    def __enter__(self):
        return self

    def __exit__(self, *why):
        self.process.kill()
        self.process.communicate()
        if os.path.exists(self.path):
            os.remove(self.path)


class Report:
    """Prints a line for each thing that is tried."""

    def __init__(self):
        self.failed = False

    def ok(self, name):
        print("ok " + name, flush=True)

    def fail(self, name, why):
        self.failed = True
        print("FAILED %s: %s" % (name, why), flush=True)

    def skip(self, name, why):
        print("skipped %s: %s" % (name, why), flush=True)

    def same(self, name, wanted, got):
        if wanted == got:
            self.ok(name)
        else:
            self.fail(name, "wanted %.400r, got %.400r" % (wanted, got))

    def status(self):
        return 1 if self.failed else 0


class Vector(NamedTuple):
    """A frame of tests/vectors/frames.txt."""
    kind: str
    version: int
    name: str
    fields: dict
    data: bytes
    text: str


def value_of(name, text):
    return bytes.fromhex(text) if name == "body" else text if name == "error" else int(text)


def vectors():
    """The frames of tests/vectors/frames.txt."""
    with open(os.path.join(TOP, "tests", "vectors", "frames.txt"), encoding="ascii") as file:
        lines = [line.strip() for line in file if not line.startswith("#")]
    found = []
    for line in lines:
        words, _, data = line.partition(" :")
        kind, version, name, *fields = words.split()
        fields = {name: value_of(name, text) for name, text in (word.split("=") for word in fields)}
        found.append(Vector(kind, int(version), name, fields, bytes.fromhex(data), line))
    return found


def frames_of_wire_page():
    """The frames that docs/wire.md shows, one after another."""
    with open(os.path.join(TOP, "docs", "wire.md"), encoding="utf-8") as file:
        blocks = re.findall(r"^```\n((?:hello|hold from).*?)^```$", file.read(), re.MULTILINE | re.DOTALL)
    data = bytes.fromhex("".join(re.sub(r"^\S.*?\s{2,}", "", line) for block in blocks for line in block.splitlines()))
    found = []
    while data:
        size = 4 + int.from_bytes(data[:4], "big")
        found.append(data[:size])
        data = data[size:]
    return found


def becomes(wanted, look, seconds=20):
    """Whether `look` gives what is wanted before that many seconds pass."""
    end = time.monotonic() + seconds
    while time.monotonic() < end:
        if look() == wanted:
            return True
        time.sleep(0.02)
    return False


class Trial:
    """What one trial has of its own: a folder, the path of a socket in it, and the processes that it starts."""

    def __init__(self, program, folder, report):
        self.program = program
        self.folder = folder
        self.path = os.path.join(folder, "q")
        self.report = report
        self.started = []

    def serve(self, *words, listens=True, **how):
        """A server at the path, which listens, or need not. The words `under` stand before the program."""
        server = Server(self.program, self.path, *words, **how)
        self.started.append(server.process)
        if listens and not server.listening.startswith("sysvmsg: serving "):
            raise RuntimeError("the server does not listen: " + server.listening)
        return server

    def session(self, **whose):
        """A connection to the server at the path."""
        return Session(self.path, **whose)

    def start(self, *words):
        """Starts the program, whose results can be read."""
        process = start([self.program, *words], stdin=subprocess.DEVNULL, stdout=subprocess.PIPE, stderr=subprocess.DEVNULL)
        self.started.append(process)
        return process

    def said(self, *words, seconds=60):
        """What the program prints, and its status."""
        return finished(self.start(*words), seconds)

    def same(self, name, wanted, got):
        """Prints a line of its own for a part of the trial."""
        self.report.same(name, wanted, got)

    def end(self):
        """Ends all that was started."""
        for process in self.started:
            process.kill()
        for process in self.started:
            process.wait()


TRIALS = []


def trial(name=None):
    """A trial of the script: a function of a `Trial`. It fails by an exception, mostly of an `assert`. With a name it prints
    one line, of that name; without one it prints a line for each of its parts."""
    def keep(function):
        TRIALS.append((name, function))
        return function
    return keep


def why(error):
    """Where in the script a trial failed, and how."""
    places = traceback.extract_tb(error.__traceback__)
    own = [place for place in places if os.path.abspath(place.filename).startswith(TOP) and place.filename != __file__]
    place = (own or places)[-1]
    how = type(error).__name__ + ": " * bool(str(error)) + str(error)
    return "line %d: %s: %s" % (place.lineno, place.line, " ".join(how.split()))


def run_trial(name, function, trial, seconds):
    """Runs a trial. If it lasts longer than that many seconds, its processes are ended, and it has failed."""
    def too_long(*_):
        trial.end()
        raise TimeoutError("it lasted more than %d seconds" % seconds)

    signal.signal(signal.SIGALRM, too_long)
    signal.alarm(seconds)
    try:
        function(trial)
        if name:
            trial.report.ok(name)
    except Exception as error:
        trial.report.fail(name or function.__name__.replace("_", " "), why(error))
    finally:
        signal.alarm(0)
        trial.end()


def run_trials(seconds=100):
    """Runs the script's trials one after another: those whose names have the words of the command line in them, all if
    there are none. Returns the status with which the script ends. Whatever ends it, it leaves no process, and no folder
    unless it is killed."""
    chosen = [(name, function) for name, function in TRIALS if is_chosen(name or function.__name__.replace("_", " "))]
    if not chosen:
        sys.exit("no trial has these words in its name")
    for number in signal.SIGTERM, signal.SIGHUP:
        signal.signal(number, lambda *_: sys.exit(1))
    program, report = os.path.realpath(built_program()), Report()
    for name, function in chosen:
        with tempfile.TemporaryDirectory() as folder:
            os.chmod(folder, 0o755)
            run_trial(name, function, Trial(program, folder, report), seconds)
    return report.status()
