"""The averager of the example, made as many programs are: the process that is launched forks a worker, and at TERM it ends at once. The worker
goes on until it has one more reading for its last average, and only then ends. So it outlives its parent.

Like the averager of March it does not know that a counter can begin again. When another launch of the reader answers it says so, for the reader of
the story, and averages across the gap all the same.
"""
import collections
import os
import signal
import socket
import sys
import time

from story import LAUNCH, LEAVES, METER, SOCKET, hold_lock, older_averagers, say

# How many readings there are before the first average, the pause between two, and how long a worker waits for a reader before it gives up.
READINGS, PAUSE, PATIENCE = 10, 0.02, 60


# When it was read, which launch of the reader answered, and its count.
Reading = collections.namedtuple('Reading', 'time launch joules')


def reading():
    """A reading, or nothing where no reader answers."""
    with socket.socket(socket.AF_UNIX) as asking:
        try:
            asking.connect(SOCKET)
            answer = asking.recv(64)
        except OSError:
            return None
    return Reading(time.monotonic(), *map(int, answer.split())) if answer else None


def next_reading():
    limit = time.monotonic() + PATIENCE
    while time.monotonic() < limit:
        time.sleep(PAUSE)
        found = reading()
        if found:
            return found
    sys.exit(1)


def watts(first, last):
    return round((last.joules - first.joules) / (last.time - first.time))


def gap(last, now):
    """What a reader of the story sees where the launch of the reader is another."""
    return f'the counter fell from {last.joules} J to {now.joules} J' if now.joules < last.joules else 'the counter began again'


class Worker:
    def __init__(self):
        self.folder, self.launch = os.environ[METER], int(os.environ[LAUNCH])
        self.name = f'averager {self.launch}'
        self.is_asked = False

    def ask(self, *_):
        self.is_asked = True

    def work(self):
        os.chdir(self.folder)
        first = last = next_reading()
        say(self.name, f'begins to read: {older_averagers(self.folder, self.launch)}')
        count = 1
        while True:
            was_asked = self.is_asked
            now = next_reading()
            count += 1
            if count == READINGS:
                say(self.name, f'averages {watts(first, now)} W')
            if now.launch != last.launch:
                say(self.name, f'averages {watts(first, now)} W across the gap: {gap(last, now)}')
            if was_asked:
                return
            last = now


def main():
    signal.pthread_sigmask(signal.SIG_BLOCK, [signal.SIGTERM])
    worker = Worker()
    child = os.fork()
    if child == 0:
        signal.signal(signal.SIGTERM, worker.ask)
        hold_lock(worker.folder, worker.launch)
        if LEAVES in os.environ:
            os.setsid()
        signal.pthread_sigmask(signal.SIG_UNBLOCK, [signal.SIGTERM])
        worker.work()
        return
    signal.signal(signal.SIGTERM, lambda *_: os._exit(0))
    signal.pthread_sigmask(signal.SIG_UNBLOCK, [signal.SIGTERM])
    os._exit(os.waitstatus_to_exitcode(os.waitpid(child, 0)[1]) & 255)


if __name__ == '__main__':
    main()
