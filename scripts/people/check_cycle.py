"""Finds a cycle of dependencies by asking the proved program which service names which, and on which line.

A service's text is loaded under a name that no service has, beside stubs of all services but some. Refused with 15: its line names one of these.
"""
import collections
import os
import tempfile

from check_line import lines_of

STUB = b'type = internal\n'
NOT_IN_THE_SET = 15

# A line of one service that names another.
Edge = collections.namedtuple('Edge', 'name line other')


class Edges:
    """Texts by the names of their services; none of them has a fault of its own."""

    def __init__(self, program, texts):
        self.program, self.texts = program, texts
        self.alias = next(name for name in (b'x%d' % i for i in range(len(texts) + 1)) if name not in texts)
        self.kept = tempfile.TemporaryDirectory(prefix='check')
        self.folder = os.fsencode(self.kept.name)
        for name in texts:
            self.write(name, STUB)

    def __enter__(self):
        return self

    def __exit__(self, *raised):
        self.kept.cleanup()

    def write(self, name, text):
        with open(os.path.join(self.folder, name), 'wb') as file:
            file.write(text)

    def first_line(self, text, others):
        """The first line of a text that names one of some services, or 0."""
        self.write(self.alias, text)
        answer = self.program.ask(self.folder, [self.alias] + [name for name in self.texts if name not in others])
        return answer.line if answer.number == NOT_IN_THE_SET else 0

    def of(self, name, others):
        """The first line by which a service names each of some others: asked of all together, then of each half where there is any."""
        line = self.first_line(self.texts[name], others)
        if line == 0:
            return []
        if len(others) == 1:
            return [Edge(name, line, others[0])]
        half = len(others) // 2
        return self.of(name, others[:half]) + self.of(name, others[half:])

    def lines(self, name, other):
        """Every line by which a service names another: a line that was found is emptied, and the program asked again."""
        left, found = lines_of(self.texts[name]), []
        line = self.first_line(self.texts[name], [other])
        while line and line not in found:
            found.append(line)
            left[line - 1] = b''
            line = self.first_line(b'\n'.join(left), [other])
        return found


def shortest(edges, start):
    """The edges of a shortest cycle through a service, in order; none where there is no cycle."""
    waiting, seen = collections.deque([(start, [])]), set()
    while waiting:
        name, way = waiting.popleft()
        for edge in edges.of(name, list(edges.texts)):
            if edge.other == start:
                return way + [edge]
            if edge.other not in seen:
                seen.add(edge.other)
                waiting.append((edge.other, way + [edge]))
    return []
