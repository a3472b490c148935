"""Explains what is wrong with a set: 1, 4, 5 of the running total, 15 and 16, and files that cannot be read."""
import os

import words
from check_cycle import Edges, shortest
from check_explain import Fault, Report, lowered
from check_folder import again, kind_of
from check_line import Line
from check_show import numbered, quoted, visible
from check_values import nearest

# How a dependency is spoken of; a property that is not here is named as it is.
VERBS = {b'depends-on': 'depends on', b'depends-ms': 'depends at its start on', b'waits-for': 'waits for'}


def near_name(name, among):
    """The nearest of some names, in bytes, or b''."""
    found = nearest(name.decode('latin-1'), [other.decode('latin-1') for other in among])
    return found.encode('latin-1')


def verb(line):
    name = Line(line).name
    return VERBS.get(name, f'by `{visible(name)}` names')


class Set:
    """The services of a folder: `names` in order, `files` by name; `chosen` where the caller named them."""

    def __init__(self, known, program, folder, names, files, chosen):
        self.known, self.program, self.folder, self.chosen = known, program, folder, chosen
        self.names, self.files = names, files

    def report(self, name, answer):
        """What is said of a refusal in which a service is named, of that service alone or of the set."""
        explained = {None: self.unreadable, 1: self.too_many, 4: self.repeated, 5: self.too_long, 15: self.absent, 16: self.cycle}
        if answer.number in explained:
            return explained[answer.number](name, answer)
        return Fault(self.known, self.files[name], answer).report()

    def unreadable(self, name, answer):
        path = os.path.join(self.folder, name)
        kind = kind_of(path)
        do = ''
        if kind is None:
            said = f'there is no such file in {visible(self.folder)}'
            near = near_name(name, [other for other in os.listdir(self.folder) if kind_of(os.path.join(self.folder, other)) == ''])
            do = f'Did you mean {quoted(near)}?' if near else ''
        elif kind:
            said = f'this is {kind}, and no file'
        elif not os.access(path, os.R_OK):
            said = 'you may not read this file'
            do = f'Let its owner permit it (chmod +r {self.files[name].shell()}), or run this as a user who may.'
        else:
            said = 'the file cannot be read'
        return Report(name, None, said, do=[do])

    def too_many(self, name, answer):
        do = words.DO[1] if self.chosen else f'{words.DO[1][:-1]}: name those that belong to the set, {again(self.folder)}'
        return Report(self.folder, 1, f'{len(self.names)} services, and {self.known.limits["services"]} are the most', do=[do])

    def repeated(self, name, answer):
        first = self.names.index(name) + 1
        return Report(name, 4, f'this name is given twice, as the names number {first} and {answer.service + 1}', do=[words.DO[4]])

    def too_long(self, name, answer):
        if self.files[name].size > self.known.limits['text']:
            return Fault(self.known, self.files[name], answer).report()
        sizes = [(self.files[one].size, one) for one in self.names[:answer.service + 1]]
        total, limit = sum(size for size, _ in sizes), self.known.limits['texts']
        longest = ', '.join(f'{visible(one)} {size:,}' for size, one in sorted(sizes, reverse=True)[:3])
        return Report(name, 5, f'with this text the texts so far are {total:,} bytes long, and {limit:,} are the most for all together',
                      do=[words.DO[5].replace('the text:', 'some texts:'), f'The longest: {longest} bytes.'])

    # ---- Dependencies.

    def absent(self, name, answer):
        line = self.files[name].line(answer.line)
        read = Line(line)
        shown = numbered(line, answer.line)
        if len(read.tokens) != 1:
            return Report(name, 15, lowered(words.MEANS[15]), answer.line, shown, [words.DO[15]])
        other = read.tokens[0]
        near = near_name(other, [one for one in self.names if one != name])
        did = f', did you mean {quoted(near)}?' if near else ''
        said = f'`{visible(read.name)}` names {quoted(other)}, and the set has no service of that name{did}'
        return Report(name, 15, said, answer.line, shown, [self.beside(other) or words.DO[15]])

    def beside(self, other):
        """What the folder has under the name of a service that the set lacks."""
        kind = kind_of(os.path.join(self.folder, other))
        if kind is None:
            return ''
        if kind:
            return f'In {visible(self.folder)}, {quoted(other)} is {kind}, and no description.'
        if not self.chosen:
            return f'In {visible(self.folder)} there is a file {quoted(other)}, which was left out.'
        return f'In {visible(self.folder)} there is a file {quoted(other)}: name it too, {again(self.folder, self.names + [other])}'

    def cycle(self, name, answer):
        with Edges(self.program, {one: self.files[one].text for one in self.names}) as edges:
            cycle = shortest(edges, name)
            lines = [edges.lines(edge.name, edge.other) for edge in cycle]
        if not cycle:
            return Report(name, 16, lowered(words.MEANS[16]), do=[words.DO[16]])
        steps = [f'{visible(edge.name)}:{edge.line} {verb(self.files[edge.name].line(edge.line))} {visible(edge.other)}' for edge in cycle]
        said = ('it depends on itself: ' if len(cycle) == 1 else 'services depend on each other in a cycle: ') + ', '.join(steps)
        shown, also = [], []
        for edge, every in zip(cycle, lines):
            for number in every:
                shown += numbered(self.files[edge.name].line(number), f'{visible(edge.name)}:{number}')
            if len(every) > 1:
                also.append(f'{visible(edge.name)} names {visible(edge.other)} on {len(every)} lines: to cut the cycle there, take out all of them.')
        return Report(name, 16, said, shown=shown, do=['Take out one of these lines.' if len(shown) > 1 else 'Take this line out.'] + also)
