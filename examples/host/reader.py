"""The reader of the example: counts the joules of a meter that runs at 1000 W, from 0 on, and answers who asks with its launch and the count."""
import contextlib
import os
import signal
import socket
import sys
import time

from story import LAUNCH, METER, SOCKET, older_averagers, say

WATTS = 1000


def listen(folder):
    """Listens in the folder, by a short name there: the path of a socket may have some 100 bytes only."""
    os.chdir(folder)
    if os.path.exists(SOCKET):
        os.remove(SOCKET)
    server = socket.socket(socket.AF_UNIX)
    server.bind(SOCKET)
    server.listen()
    return server


def main():
    signal.signal(signal.SIGTERM, lambda *_: sys.exit(0))
    folder, launch = os.environ[METER], int(os.environ[LAUNCH])
    say(f'reader {launch}', f'begins to count at 0 J: {older_averagers(folder, launch)}')
    server, origin = listen(folder), time.monotonic()
    while True:
        asker, _ = server.accept()
        with asker, contextlib.suppress(OSError):  # one that has ended before it got its answer
            asker.sendall(f'{launch} {int(WATTS * (time.monotonic() - origin))}'.encode())


if __name__ == '__main__':
    main()
