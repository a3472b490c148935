"""What the processes of the example share: one line of the story, and the locks by which one sees that another lives.

Every process writes to the same output. The worker of each averager holds a lock that only its end frees: so who lives is not read from times.
"""
import contextlib
import fcntl
import os
import re
import select
import time

# What a host of this example gives each process that it launches: which launch it is, from 1; the folder of the meter; the time that is 0.
LAUNCH, METER, ORIGIN = 'EXAMPLE_LAUNCH', 'EXAMPLE_METER', 'EXAMPLE_ORIGIN'

# Where this is in the environment, the worker of an averager leaves its group.
LEAVES = 'EXAMPLE_LEAVES'

# The reader's socket in the folder of the meter.
SOCKET = 'meter'


def say(who, what):
    """Writes a line by one call, so that lines of several processes do not mix. One that cannot be written, or would have to wait, is dropped: nobody
    may end or stand still for the sake of a log."""
    seconds = time.monotonic() - float(os.environ[ORIGIN])
    with contextlib.suppress(OSError):
        if select.select([], [1], [], 0)[1]:
            os.write(1, f'{seconds:7.3f}  {who:<11} {what}\n'.encode())


def hold_lock(folder, launch):
    """Takes the lock of the averager of a launch. Nothing closes it: the end of the process frees it."""
    fcntl.flock(os.open(os.path.join(folder, f'averager.{launch}.lock'), os.O_WRONLY | os.O_CREAT), fcntl.LOCK_EX)


def is_held(path):
    """Looks by a shared lock, so that two that look at once do not take each other for the holder."""
    with open(path, 'rb') as file:
        try:
            fcntl.flock(file, fcntl.LOCK_SH | fcntl.LOCK_NB)
        except BlockingIOError:
            return True
    return False


def older_averagers(folder, launch):
    """The averagers of earlier launches that still live, in words."""
    found = []
    for name in os.listdir(folder):
        lock = re.fullmatch(r'averager\.(\d+)\.lock', name)
        if lock and int(lock[1]) < launch and is_held(os.path.join(folder, name)):
            found.append(f'averager {lock[1]} STILL LIVES')
    return ', '.join(sorted(found)) or 'no older averager lives'
