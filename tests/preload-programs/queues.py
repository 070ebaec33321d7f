# What a program in Python does with message queues, by the module sysv_ipc.
import os
import sysv_ipc


def fails(error, call, *words, **named):
    try:
        call(*words, **named)
    except error:
        return True
    return False


queue = sysv_ipc.MessageQueue(0x5e57, sysv_ipc.IPC_CREX, mode=0o600)
assert fails(sysv_ipc.ExistentialError, sysv_ipc.MessageQueue, 0x5e57, sysv_ipc.IPC_CREX)
assert sysv_ipc.MessageQueue(0x5e57).id == queue.id
queue.send(b"first", type=5)
queue.send(b"second", type=3)
assert queue.current_messages == 2 and queue.last_send_pid == os.getpid()
assert queue.receive(type=-9) == (b"second", 3)
assert queue.receive(block=False) == (b"first", 5)
assert fails(sysv_ipc.BusyError, queue.receive, block=False)
queue.max_size = 100
assert queue.max_size == 100 and queue.mode & 0o777 == 0o600 and queue.uid == os.geteuid()
assert fails(sysv_ipc.BusyError, lambda: [queue.send(b"x" * 60, block=False) for _ in range(2)])
assert len(queue.receive()[0]) == 60

child = os.fork()
if child == 0:
    text, kind = sysv_ipc.MessageQueue(0x5e57).receive(type=1)
    queue.send(text.upper(), type=2)
    os._exit(0)
queue.send(b"to the child", type=1)
assert queue.receive(type=2) == (b"TO THE CHILD", 2)
assert os.waitstatus_to_exitcode(os.waitpid(child, 0)[1]) == 0
assert queue.last_send_pid == child

queue.remove()
assert fails(OSError, queue.send, b"gone")
assert fails(sysv_ipc.ExistentialError, sysv_ipc.MessageQueue, 0x5e57)
