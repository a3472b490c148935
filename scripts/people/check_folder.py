"""The services of a folder: which files are taken, what is left out and why, what stands in the place of a file. Nothing is written to it."""
import os
import re
import stat

from check_line import Line, lines_of, says
from check_show import shell_word

KINDS = [(stat.S_ISDIR, 'a folder'), (stat.S_ISFIFO, 'a pipe'), (stat.S_ISSOCK, 'a socket'), (stat.S_ISCHR, 'a device'), (stat.S_ISBLK, 'a device')]


def kind_of(path):
    """What is at a path where it is no regular file: words for it, '' for a regular file, None for nothing at all."""
    try:
        mode = os.stat(path).st_mode
    except OSError:
        return 'a link that leads nowhere' if os.path.islink(path) else None
    return next((words for is_kind, words in KINDS if is_kind(mode)), '')


def why_left_out(path):
    """Why something in a folder is no service, or '' where it is one."""
    name = os.path.basename(path)
    if name.startswith(b'.'):
        return 'its name begins with a point'
    if name.endswith(b'~') or re.fullmatch(rb'#.*#', name, re.S):
        return 'an editor\'s backup'
    return kind_of(path) or ''


def services_of(folder):
    """The names of the services of a folder in byte order, and what is left out with the reason for it."""
    names, left_out = [], []
    for name in sorted(os.listdir(folder)):
        why = why_left_out(os.path.join(folder, name))
        if why:
            left_out.append((name, why))
        else:
            names.append(name)
    return names, left_out


def shell_path(path):
    """A path, for a command to be copied: one that begins with a dash would be an option there."""
    return shell_word((b'./' if path.startswith(b'-') else b'') + path)


def again(folder, names=()):
    """How to run this for a folder and some names, or for names to be filled in."""
    named = ' '.join(map(shell_word, names)) or 'NAME ..'
    return f'scripts/check {"-- " if any(name.startswith(b"-") for name in names) else ""}{shell_path(folder)} {named}'


class File:
    """A service's file as it was when it was looked at: `name` and `path` in bytes, its first bytes in `text`, its `size`. Where it cannot be read,
    or a name leads out of the folder, there are no bytes: the proved program says so itself."""

    def __init__(self, folder, name, most):
        self.folder, self.name, self.path = folder, name, os.path.join(folder, name)
        self.text, self.size = b'', 0
        if b'/' not in name and kind_of(self.path) == '':
            self.read(most)

    def read(self, most):
        try:
            with open(self.path, 'rb') as file:
                self.text = file.read(most)
                # Of a file that the system makes up, as those of /proc, the size is said to be 0.
                self.size = max(len(self.text), os.fstat(file.fileno()).st_size)
        except OSError:
            pass

    def line(self, number):
        lines = lines_of(self.text)
        return lines[number - 1] if 0 < number <= len(lines) else b''

    def shell(self):
        """The path, for a command to be copied."""
        return shell_path(self.path)

    def is_strange(self, known):
        """Whether lines say something, and none begins as a known property does, as in a file that is no description. Capitals, `_`, a missing
        sign, a byte order mark or UTF-16 do not hide one."""
        text = self.text.replace(b'\0', b'').lstrip(b'\xef\xbb\xbf\xff\xfe').lower().replace(b'_', b'-')
        return any(map(says, lines_of(text))) and not any(Line(line).name.decode() in known.rules for line in lines_of(text))
