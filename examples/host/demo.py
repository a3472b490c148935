"""Kills the reader, and later the averager, under hosts that differ in one thing, what they take for the end of a service; and sees what follows.

    demo.py PROGRAM        the program is the proved `simulate`

Under `--watch process` the reader is launched again while the worker of the old averager lives, and it averages across the gap: the incident of
March. Later a second averager is launched beside the worker of the first. Under `--watch group` neither is so, even where the worker leaves its
group. The exit status is 0 only where all of this is seen. No time decides what is seen: the demonstration waits for lines of the story, a lock says
who lives, the launch of the reader says where the gap is, and the story ends when the last process that could write to it has ended.

This is the process above the host that docs/HOST.md speaks of: the reaper of all that a host leaves, which it ends before it begins another.
"""
import os
import re
import select
import shutil
import signal
import subprocess
import sys
import tempfile
import time

from groups import become_reaper, end_all
from signals import heard, listen, orders
from story import LEAVES, METER, ORIGIN

HERE = os.path.dirname(os.path.abspath(__file__))

# How long a line may be waited for before the demonstration is given up: far longer than it takes.
PATIENCE = 60

# The lines that matter. The launches are numbered: reader 1 and averager 2; once the reader is killed, reader 3 and averager 4; and once the process
# of that averager is killed, averager 5.
MEASURES = r'averager {} +averages \d+ W$'
BESIDE_OLD = [r'reader 3 .* averager 2 STILL LIVES', r'averager 5 .* averager 4 STILL LIVES']
BESIDE_NONE = [r'reader 3 .* no older averager lives', r'averager 5 .* no older averager lives']
ACROSS = r'averager \d+ .* across the gap'
LEFT = r'KILL to process \d+, which has left its group'


def show(line):
    """Writes a line at once. Where that fails nothing can be shown: OSError is raised, and all is ended."""
    os.write(1, f'{line}\n'.encode())


class Story:
    """The lines that a host and its services write, shown as they come. An order to end is heard where they are waited for, and nowhere else: so no
    `finally` is cut short, and nothing is left behind."""

    def __init__(self, pipe, signals):
        self.pipe, self.signals, self.rest, self.lines = pipe, signals, b'', []

    def more(self):
        """Waits for more of the story; false at its end."""
        ready = select.select([self.pipe, self.signals], [], [], PATIENCE)[0]
        if self.signals in ready:
            sys.exit(128 + min(heard(self.signals)))
        if not ready:
            raise TimeoutError(f'nothing was written for {PATIENCE} s')
        piece = os.read(self.pipe, 65536)
        *whole, self.rest = (self.rest + piece).split(b'\n')
        for line in whole:
            self.lines.append(line.decode())
            show(self.lines[-1])
        return bool(piece)

    def has(self, pattern):
        return next((found for line in self.lines for found in [re.search(pattern, line)] if found), None)

    def wait_for(self, *patterns):
        while not all(self.has(pattern) for pattern in patterns):
            if not self.more():
                raise EOFError(f'the story ended before: {patterns}')
        return self.has(patterns[0])

    def to_its_end(self):
        while self.more():
            pass


def kill(story, launch):
    """Kills the process of a launch, and it alone."""
    process = story.wait_for(rf'LAUNCH (\w+) {launch}, process (\d+)')
    show(f'         (the process of {process[1]} {launch} is killed)')
    os.kill(int(process[2]), signal.SIGKILL)


class Scene:
    """What the host takes for the end of a service, what is added to the environment, what must be seen, and what must not."""

    def __init__(self, title, watch, environment, seen, unseen):
        self.title, self.watch, self.environment, self.seen, self.unseen = title, watch, environment, seen, unseen

    def play(self, story, host):
        """Kills the reader once the pair measures, and the process of the averager once it measures again; then has the host stop all."""
        story.wait_for(MEASURES.format(2))
        kill(story, 1)
        story.wait_for(MEASURES.format(4), *([ACROSS] if ACROSS in self.seen else []))
        kill(story, 4)
        story.wait_for(MEASURES.format(5))
        host.send_signal(signal.SIGTERM)
        story.to_its_end()

    def story(self, program, folder, signals):
        """The whole story, and the exit status of the host."""
        reading, writing = os.pipe()
        command = [sys.executable, '-B', 'host.py', '--program', program, '--watch', self.watch, '--lock', folder, 'services', 'reader', 'averager']
        environment = {**os.environ, METER: folder, ORIGIN: str(time.monotonic()), **self.environment}
        host = subprocess.Popen(command, cwd=HERE, env=environment, stdout=writing)
        os.close(writing)
        story = Story(reading, signals)
        try:
            self.play(story, host)
            return story, host.wait(PATIENCE)
        finally:
            os.close(reading)
            end_all()

    def is_shown(self, program, signals):
        """Plays the story, and says whether it has what must be seen and lacks what must not."""
        show(f'== {self.title}')
        folder = tempfile.mkdtemp(prefix='fork_demo.')
        try:
            story, status = self.story(program, folder, signals)
        except (TimeoutError, EOFError, subprocess.TimeoutExpired) as error:
            show(f'given up: {error}')
            return False
        finally:
            shutil.rmtree(folder)
        missing = [pattern for pattern in self.seen if not story.has(pattern)]
        missing += [f'not: {pattern}' for pattern in self.unseen if story.has(pattern)]
        show(f'NOT AS IT SHOULD BE: the host ended with {status}; missing: {missing}' if status != 0 or missing else '')
        return status == 0 and not missing


SCENES = [
    Scene('the host takes the end of the process for the end of the service', 'process', {}, BESIDE_OLD + [ACROSS], BESIDE_NONE),
    Scene('the host takes the end of the group for the end of the service', 'group', {}, BESIDE_NONE, [ACROSS, 'STILL LIVES', LEFT]),
    Scene('the same, and the worker leaves its group', 'group', {LEAVES: 'yes'}, BESIDE_NONE + [LEFT], [ACROSS, 'STILL LIVES']),
]


def main():
    program = os.path.abspath(sys.argv[1])
    signals = listen(orders())
    become_reaper()
    try:
        is_shown = all([scene.is_shown(program, signals) for scene in SCENES])
        show('end of the process: the incident again; end of the group: no incident' if is_shown else 'fork_demo: not shown')
    except OSError as error:
        sys.exit(f'fork_demo: not shown: {error}')
    return 0 if is_shown else 1


if __name__ == '__main__':
    sys.exit(main())
