"""The parts of a line, for the words of a report only: whether a line is good is for the proved program to say, and never for this."""
import re

WHITE = rb'[ \t\x0b\x0c\r]'
HEAD = re.compile(WHITE + rb'*([a-z.\-]*)' + WHITE + rb'*')
COMMENT = re.compile(WHITE + rb'*#')
TOKEN = re.compile(WHITE + rb'*((?:"(?:[^"\\]|\\.)*"|\\.|[^ \t\x0b\x0c\r"\\#])+)', re.S)


def lines_of(text):
    return text.split(b'\n')


class Line:
    """`name`: the property's name, perhaps empty. `after`: the place where the sign should be. `tokens`: those of the value. `raw`: the value as it
    is written, without a comment. `sign` and `comment`: whether there is one."""

    def __init__(self, line):
        head = HEAD.match(line)
        self.name, self.after = head.group(1), head.end()
        self.sign = line[self.after:self.after + 1] in (b'=', b':')
        self.tokens, self.raw, self.comment = [], b'', False
        if self.sign:
            self.read(line[self.after + 1:])

    def read(self, value):
        found, at = TOKEN.match(value), 0
        begin = found.start(1) if found else 0
        while found:
            self.tokens.append(re.sub(rb'\\(.)|"', lambda m: m.group(1) or b'', found.group(1), flags=re.S))
            at = found.end()
            found = TOKEN.match(value, at)
        self.raw = value[begin:at]
        self.comment = bool(COMMENT.match(value, at))


def held_end(line):
    """The white space that a backslash makes the last byte of a line's value, or nothing."""
    last = Line(line).raw[-1:]
    return last if last.isspace() else b''


def says(line):
    """Whether a line says anything: it is neither empty nor a comment."""
    return bool(line.strip(b' \t\x0b\x0c\r')) and not COMMENT.match(line)
