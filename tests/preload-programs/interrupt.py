# Ctrl-C ends a receive that waits, in a program in Python that calls the C library by ctypes.
import ctypes
import os
import signal
import time

libc = ctypes.CDLL(None, use_errno=True)
libc.msgrcv.argtypes = [ctypes.c_int, ctypes.c_void_p, ctypes.c_size_t, ctypes.c_long, ctypes.c_int]
libc.msgrcv.restype = ctypes.c_ssize_t
queue = libc.msgget(0, 0o600)
assert queue >= 0

child = os.fork()
if child == 0:
    # A shell may have started this program with SIGINT ignored.
    signal.signal(signal.SIGINT, signal.default_int_handler)
    room = ctypes.create_string_buffer(72)
    try:
        libc.msgrcv(queue, room, 64, 0, 0)
    except KeyboardInterrupt:
        os._exit(0)
    os._exit(1)

time.sleep(0.5)
start = time.monotonic()
os.kill(child, signal.SIGINT)
assert os.waitstatus_to_exitcode(os.waitpid(child, 0)[1]) == 0, "Ctrl-C doesn't end the receive"
assert time.monotonic() - start < 2, "Ctrl-C ends the receive late"
libc.msgctl(queue, 0, None)
