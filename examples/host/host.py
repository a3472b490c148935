"""A small host over the proved core, to be read beside docs/HOST.md: it launches real processes, signals them, and reports their ends. An example.

    host.py --program target/bin/simulate --watch group FOLDER NAME ..

loads the descriptions of these names from the folder, starts the last of them, and serves until it gets a TERM, INT or HUP: then it stops all, and
ends when all is down. `--watch process` makes it the host that repeats the incident of March: it takes the end of the launched process for the end
of the service.

Where it cannot go on it ends every process with KILL, and then itself, with status 1. It holds a lock as long as it lives, so that no second host
runs over the same folder. But it does not survive its own crash: a host that was killed leaves its services running, its lock is free, and the next
host takes them for dead. So it must run under a process that is the reaper of what it leaves, and that ends all of it before it starts a host again:
demo.py is such a parent, and `end_all()` of groups.py is the loop.
"""
import argparse
import collections
import fcntl
import os
import select
import signal
import sys
import time

from core import Core
from groups import Groups, become_reaper, end_all
from signals import heard, listen, orders
from story import LAUNCH, ORIGIN, say

# The clock never goes back, and every process of a boot reads the same. The core's unit is 0.1 ms.
CLOCK, UNIT = time.CLOCK_MONOTONIC, 100_000

# How long a group without its first process may go unseen, in seconds: the end of its last one is not always reported to the host.
LOOK_AGAIN = 1


class Host:
    def __init__(self, core, watch):
        self.core = core
        self.groups = Groups(watch, core.names)
        self.origin = time.clock_gettime_ns(CLOCK)
        self.launches = 0
        self.noted = collections.deque()  # ends that are to be reported
        self.orders = orders()
        self.signals = listen(self.orders | {signal.SIGCHLD})
        self.is_asked = self.is_stopping = False  # to stop all: whether it was asked to, and whether it does

    def now(self):
        return (time.clock_gettime_ns(CLOCK) - self.origin) // UNIT

    def launch(self, service, tokens):
        """Launches a command into a group of its own; one that cannot be launched has ended badly."""
        self.launches += 1
        try:
            group = self.groups.launch(service, tokens, {**os.environ, LAUNCH: str(self.launches)})
        except OSError as error:
            say('host', f'{self.core.names[service]}: not launched: {error}')
            self.noted.append((service, False))
            return
        say('host', f'LAUNCH {self.core.names[service]} {self.launches}, process {group}')

    def act(self):
        """Takes actions to quiet, and does each."""
        for action, service, *rest in self.core.run():
            if action == 'launch':
                self.launch(service, self.core.commands[service])
            elif action == 'stop-command':
                self.launch(service, self.core.stop_commands[service])
            elif action == 'signal':
                say('host', f'{rest[0]} to the group of {self.core.names[service]}')
                self.groups.signal(service, getattr(signal, 'SIG' + rest[0]))

    def report(self, line):
        self.core.clock(self.now())
        self.core.call(line)
        self.act()

    def report_end(self, service, good):
        say('host', f'reports the end of {self.core.names[service]}, {"good" if good else "bad"}')
        self.report(f'end {service} {"good" if good else "bad"}')

    def stop_all(self):
        self.is_stopping = True
        say('host', 'stops all' if self.is_asked else 'stops all: the list of its calls is nearly as long as the program reads')
        self.report('stop-all')

    def wait(self, until):
        """Waits for a signal, or until a time of the core's clock; then reports the clock, and acts."""
        left = None if until is None else max(0, until - self.now()) * UNIT / 1e9
        if self.groups.statuses:
            left = LOOK_AGAIN if left is None else min(left, LOOK_AGAIN)
        select.select([self.signals], [], [], left)
        self.core.clock(self.now())
        self.act()

    def turn(self):
        """Reports one thing, or waits where there is none: one at a time, so that an order is heard however fast the ends come. The core is asked
        first: the program that answers is a child too, and its end leaves a byte in the pipe. Then the pipe is emptied, and only then are ends looked
        for: what ends later leaves a byte again, and ends the wait."""
        until = self.core.query()
        self.is_asked |= bool(heard(self.signals) & self.orders)
        self.noted.extend(self.groups.ends())
        if not self.is_stopping and (self.is_asked or self.core.is_full()):
            self.stop_all()
        elif self.noted:
            self.report_end(*self.noted.popleft())
        else:
            self.wait(until)

    def serve(self, wanted):
        """Serves until all is down after a stop of all; the exit status."""
        self.report(f'start {wanted}')
        while not (self.is_stopping and self.core.is_all_down()):
            self.turn()
        say('host', f'all is down; groups that were left behind: {len(self.groups.left)}')
        return 0 if self.is_asked else 1


def hold_lock(path):
    """Locks a file or a folder as long as this process lives. Nothing closes it before; and no launched process inherits it, since it is
    close-on-exec, as every file is that Python opens."""
    try:
        fcntl.flock(os.open(path, os.O_RDONLY), fcntl.LOCK_EX | fcntl.LOCK_NB)
    except BlockingIOError:
        sys.exit(f'host.py: another host runs: it holds the lock of {path}')


def read_services(folder, names):
    services = []
    for name in names:
        with open(os.path.join(folder, name), 'rb') as file:
            services.append((name, file.read()))
    return services


def main():
    parser = argparse.ArgumentParser(description=__doc__.split('\n')[0])
    parser.add_argument('--program', required=True, help='the proved scenario program')
    parser.add_argument('--watch', choices=['process', 'group'], required=True, help='whose end is the end of a service')
    parser.add_argument('--lock', help='a file or folder that the host locks as long as it lives; without this it is the folder')
    parser.add_argument('folder')
    parser.add_argument('names', nargs='+')
    given = parser.parse_args()
    os.environ.setdefault(ORIGIN, str(time.monotonic()))
    try:
        hold_lock(given.lock or given.folder)
        become_reaper()
        core = Core(os.path.abspath(given.program), read_services(given.folder, given.names))
        return Host(core, given.watch).serve(len(core.names) - 1)
    except Exception as error:  # whatever it is, no process may be left behind
        sys.exit(f'host.py: gave up, and ended all: {error!r}')
    finally:
        end_all()


if __name__ == '__main__':
    sys.exit(main())
