"""Asks the proved program: hands it names, one a line, in a folder, and reads what it answers. Where it cannot be asked there is `CannotRun`."""
import collections
import os
import re
import shutil
import subprocess
import sys

LONGEST = 60  # seconds
REFUSED = re.compile(rb'refused (\d+) service (\d+) line (\d+) column (\d+)\n')
UNREADABLE = re.compile(rb'unreadable (\d+)\n')

# `number`: 0 where the set is accepted, the refusal's number, or None for a file that cannot be read. `output` is what the program wrote.
Answer = collections.namedtuple('Answer', 'number service line column output')


class CannotRun(Exception):
    """Why nothing was found out, for a technician: the exit status is 2."""


class Program:
    """The proved program at a path."""

    def __init__(self, path):
        self.path = path

    def ask(self, folder, names):
        if any(b'\n' in name for name in names):
            # Such a name cannot be handed over, as names are handed over one a line. A newline is no byte of a name: 3.
            place = next(place for place, name in enumerate(names) if b'\n' in name)
            return Answer(3, place, 0, 0, b'')
        try:
            ran = subprocess.run([self.path], cwd=folder, input=b''.join(name + b'\n' for name in names), stdout=subprocess.PIPE,
                                 stderr=subprocess.DEVNULL, timeout=LONGEST, check=False)
        except (OSError, subprocess.TimeoutExpired) as error:
            raise CannotRun(f'{self.path} cannot be run: {getattr(error, "strerror", None) or error}') from error
        return self.read(ran.stdout, len(names))

    def read(self, output, count):
        refused, unreadable = REFUSED.fullmatch(output), UNREADABLE.fullmatch(output)
        if refused:
            return Answer(*(int(part) for part in refused.groups()), output)
        if unreadable:
            return Answer(None, int(unreadable.group(1)), 0, 0, output)
        if output.endswith(b'ok %d\n' % count):
            return Answer(0, 0, 0, 0, output)
        raise CannotRun(f'{self.path} answered what no check_services answers: {output[:200]!r}')


def built(root):
    """The proved program of a repository; it is proved and built first where it is not there."""
    path = os.path.join(root, 'target', 'bin', 'check_services')
    if os.access(path, os.X_OK):
        return Program(path)
    if not shutil.which('rt'):
        raise CannotRun('target/bin/check_services is not built, and rt, the Rattle toolchain that builds it, is missing.\n'
                        'Put the folder that holds rt on the PATH and run this again, or copy a built check_services to target/bin.')
    print('check: target/bin/check_services is not there: proving and building it (scripts/build check_services), some minutes the first time',
          file=sys.stderr, flush=True)
    build = os.path.join(root, 'scripts', 'build')
    ran = subprocess.run([build, 'check_services'], stdout=subprocess.PIPE, stderr=subprocess.STDOUT, check=False)
    if ran.returncode != 0 or not os.access(path, os.X_OK):
        last = ran.stdout.decode('utf-8', 'replace').strip().split('\n')[-1]
        raise CannotRun(f'scripts/build check_services ended with status {ran.returncode} and built nothing. Its last line: {last}')
    return Program(path)
