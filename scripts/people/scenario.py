"""Scenarios as people write them: their calls may name services, and what `simulate` finds bad or refuses is explained in words.

    scenario.py SIMULATE FILE > NUMBERED

writes the scenario with numbers in place of names, which is all that `simulate` takes, and says on standard error what is wrong with it. The exit
status is 0; 1 where a line is bad or a load is refused, and nothing is then written; 2 where the file cannot be read or the program not run.
Lines are bytes: what is no UTF-8 is carried along.
"""
import collections
import os
import re
import stat
import subprocess
import sys
import traceback

from check_ask import Answer, CannotRun, Program
from check_cycle import Edges, shortest
from check_explain import lowered, name_report
from check_set import Set
from check_show import width
from facts import Missing
from play_lines import NUMBER, Format, quoted, visible
from words import DO, KNOWN, MEANS

STATE_ROW = re.compile('[0-9]+ [a-z]+ wanted=')
REFUSED_LOAD = re.compile('refused ([0-9]+) service ([0-9]+) line ([0-9]+) column ([0-9]+)')

# The refusals of a load that are about no service, and what is to be found in a scenario where a host would look elsewhere.
OF_NO_SERVICE = (1, 2, 25)
HERE = {2: ' Here the positions are the numbers after ROOM.', 3: ' Here a name is what follows `service`.', 25: ' Here it is ROOM in `load ROOM`.'}

# Those that the words of scripts/check explain here too; those of the others speak of files, or of nothing but what a number means.
EXPLAINED = (1, 5, 6, 7, 8, 9, 10, 11, 12, 14, 15, 16)
BAD_NAME, CYCLE = 3, 16

# Those that name a byte: a mark stands under it.
OF_A_BYTE = range(6, 13)

RETURNS = 'its lines end in a carriage return and a newline, and a newline alone is to end a line. To convert it: tr -d \'\\r\' < OLD > NEW'


def decoded(data):
    return data.decode('utf-8', 'surrogateescape')


def encoded(text):
    return text.encode('utf-8', 'surrogateescape')


def sentences(said):
    """Some sentences as one text; the last one ends as it does."""
    return ' '.join([one if one.endswith(('.', '?')) else one + '.' for one in said[:-1]] + said[-1:])


def lines_of(text):
    """The lines of a text: a newline ends each, and the last one needs none."""
    lines = text.split('\n')
    return lines if lines[-1] else lines[:-1]


def numbered(lines, form):
    """The lines with a number in place of each name of a service: its place among the services given before the last load. A load with positions
    can lend other names, so no name is known after it."""
    given, names, written = [], [], []
    for line in lines:
        words = line.split(' ')
        if line.startswith('service '):
            given.append(line[8:])
        elif words[0] == 'load' and form.fault(words, []) is None:
            names = list(given) if len(words) == 2 else []
        elif form.names_service(words) and words[1] in names and not NUMBER.fullmatch(words[1]):
            words[1] = str(names.index(words[1]))
        written.append(' '.join(words))
    return written


def answers_to(line, number, left):
    """The answers to a line, taken from those that are left. Each kind of line has answers of its own form, so none is taken for the next line's."""
    if left and left[0] == f'bad line {number}':
        return [left.popleft()]
    if line == '' or line[0] in '%|!' or line.startswith('service '):
        return []
    if not left:
        raise CannotRun(f'simulate gave no answer to line {number}: {quoted(line)}')
    answers, word = [left.popleft()], line.split(' ')[0]
    while left and (word == 'state' and STATE_ROW.match(left[0])
                    or word == 'show' and not answers[-1].startswith('tokens ')
                    or word == 'load' and not answers[-1].startswith(('ok ', 'refused '))):
        answers.append(left.popleft())
    return answers


class Stand:
    """Where a scenario has come to. `given`: of each service begun its name, the number of its line and the pieces of its text, a piece being the
    number of its line, its bytes, and whether it ends a line of the text. `names`: those of the loaded set; `lent`: how many had been given before
    its load. `refused`: the line of the last load, where it was refused."""

    def __init__(self):
        self.given, self.names, self.lent, self.loaded, self.refused = [], [], 0, False, 0

    def take(self, line, number, answers):
        """Takes a line that is not bad, with its answers."""
        if line.startswith('service '):
            self.given.append((line[8:], number, []))
        elif line.startswith(('|', '!')):
            self.given[-1][2].append((number, encoded(line[1:]), line[0] == '|'))
        elif line.startswith('load '):
            self.loaded = answers[-1].startswith('ok ')
            self.names, self.lent = [answer.split(' ')[1] for answer in answers[:-1]], len(self.given)
            self.refused = 0 if self.loaded else number

    def later(self):
        """The names of the services that were given after the last load."""
        return [name for name, _, _ in self.given[self.lent:]]

    def unloaded(self):
        if self.refused:
            return f'no set is loaded: the load on line {self.refused} was refused'
        return 'no set is loaded yet: a line such as `load 4096` comes between the services and the calls'

    def place(self, service, line, column):
        """The number of the scenario's line that gave a byte of a service's text, and the byte's column there; None where there is no such line."""
        left, here = line, []
        for piece in self.given[service][2] if service < len(self.given) else []:
            here += [piece] if left == 1 else []
            left -= piece[2]
        for number, piece, _ in here:
            if column <= len(piece) or number == here[-1][0]:
                return number, column + 1
            column -= len(piece)
        return None


class Text:
    """A service's text, in the way of a file of scripts/check."""

    def __init__(self, name, pieces):
        self.name, self.text = encoded(name), b''.join(piece + b'\n' * ends for _, piece, ends in pieces)
        self.size = len(self.text)

    def line(self, number):
        return (self.text.split(b'\n') + [b''] * number)[number - 1]

    def shell(self):
        return 'FILE'


class Lent(Set):
    """The services that a scenario lends, in the way of a set of scripts/check; `program` is None where there is no check_services to ask."""

    def __init__(self, program, given):
        texts = [Text(name, pieces) for name, _, pieces in given]
        # Of two services of one name, which a load refuses, the first one's text is meant where a text is.
        super().__init__(KNOWN, program, b'', [text.name for text in texts], {text.name: text for text in reversed(texts)}, True)

    def beside(self, other):
        """There is no folder that could hold a service which the set lacks."""
        return ''

    def why(self, answer):
        """What is said of a refusal, or nothing, where there are no better words than those of the table."""
        name = self.names[answer.service]
        if answer.number == BAD_NAME:
            return [name_report(name, self.known), 'Mend it in the line `service NAME`, and in the lines that name it.']
        if answer.number not in EXPLAINED or answer.number == CYCLE and not self.program:
            return []
        report = self.report(name, answer)
        return [report.said] + report.do

    def cycle_lines(self, answer):
        """Each line of a cycle through a service: the number of the service that it belongs to, and its own."""
        if not self.program:
            return []
        with Edges(self.program, {name: self.files[name].text for name in self.names}) as edges:
            cycle = shortest(edges, self.names[answer.service])
            return [(self.names.index(edge.name), line) for edge in cycle for line in edges.lines(edge.name, edge.other)]


class Scenario:
    """`name`: what it is called in messages; `lines`: as they were written; `sent`: the bytes that `simulate` reads; `left_out`: how many it does
    not, with those `beyond` the given ones; -1 where that is not known."""

    def __init__(self, name, data, form, beyond=0):
        self.name, self.form = name, form
        self.lines = lines_of(decoded(data))
        whole = encoded('\n'.join(numbered(self.lines, form))) + (b'\n' if data.endswith(b'\n') else b'')
        self.sent = whole[:form.bytes]
        self.left_out = beyond if beyond < 0 else len(whole[form.bytes:] if beyond else whole[form.bytes:].rstrip(b'\n')) + beyond
        ended = sum(line.endswith('\r') for line in self.lines)
        self.has_returns = ended > 1 and 2 * ended > len(self.lines)

    def run(self, simulate):
        """Each line that is read: its number, as it was written, as it was sent, its answers, and where the scenario stood before it."""
        try:
            done = subprocess.run([simulate], input=self.sent, stdout=subprocess.PIPE, check=True)
        except (OSError, subprocess.CalledProcessError) as error:
            raise CannotRun(f'{simulate} does not run: {error}') from error
        left, stand = collections.deque(lines_of(decoded(done.stdout))), Stand()
        for number, sent in enumerate(lines_of(decoded(self.sent)), 1):
            answers = answers_to(sent, number, left)
            yield number, self.lines[number - 1][:self.form.bytes], sent, answers, stand
            if answers != [f'bad line {number}']:
                stand.take(sent, number, answers)
        if left:
            raise CannotRun(f'simulate gave an answer to no line: {quoted(left[0])}')


class Faults:
    """Explains the faults of a scenario on standard error. `count`: how many there are. Where check_services stands beside simulate, it is asked for
    what simulate does not say."""

    def __init__(self, scenario, simulate):
        self.scenario, self.form, self.count = scenario, scenario.form, 0
        path = os.path.join(os.path.dirname(simulate), 'check_services')
        self.program = Program(path) if os.access(path, os.X_OK) else None
        # How many more lines are bad for a reason that was given once.
        self.again = {}

    def say(self, place, what):
        print(f'{self.scenario.name}{place}: {what}', file=sys.stderr, flush=True)

    def look(self, number, line, sent, answers, stand):
        """Explains what is wrong with a line, where something is."""
        if answers == [f'bad line {number}']:
            self.count += 1
            self.bad(number, line, self.form.reason(sent, number, stand) or 'simulate finds it bad', stand)
        elif sent.startswith('load ') and answers[-1].startswith('refused '):
            self.count += 1
            self.refused(number, sent, answers[-1], stand)

    def bad(self, number, line, reason, stand):
        """What holds for many lines alike is said once."""
        if self.scenario.has_returns and line.endswith('\r'):
            self.again[RETURNS] = 1
        elif reason in self.again:
            self.again[reason] += 1
        else:
            self.say(f':{number}', f'{quoted(line)}: {reason}')
            if reason == stand.unloaded():
                self.again[reason] = 0

    def refused(self, number, sent, answer, stand):
        """Says why a load is refused, and shows the line of the scenario that it is about. A load with positions may lend other names and texts than
        those of the scenario: nothing is shown of it."""
        answer = Answer(*map(int, REFUSED_LOAD.fullmatch(answer).groups()), b'')
        has_positions = sent.count(' ') > 1
        why, places = ([], []) if has_positions else self.found_out(answer, stand)
        why = why or [lowered(MEANS[answer.number]), DO[answer.number] + HERE.get(answer.number, '')]
        self.say(f':{number}', f'{quoted(sent)}: the load is refused with {answer.number}: {sentences(why)}')
        for service, line, column in places:
            self.show(stand, service, line, column)

    def found_out(self, answer, stand):
        """What scripts/check would say of a refusal, and the places that it is about: a service, a line of its text and a column, or 0."""
        lent = Lent(self.program, stand.given)
        places = [] if answer.number in OF_NO_SERVICE else [(answer.service, answer.line, answer.column if answer.number in OF_A_BYTE else 0)]
        try:
            cycle = [(*place, 0) for place in lent.cycle_lines(answer)] if answer.number == CYCLE else []
            return (lent.why(answer) if stand.given else []), cycle or places
        except (OSError, CannotRun):
            return [], places

    def show(self, stand, service, line, column):
        """Shows the line of the scenario that a refusal is about, with a mark under the byte at a column; or the service's own line."""
        name, there, _ = stand.given[service]
        place = stand.place(service, line, column)
        if not place:
            self.say(f':{there}', f'the load is refused for {quoted("service " + name)}')
            return
        there, at = place
        text = self.scenario.lines[there - 1]
        before = visible(decoded(encoded(text)[:at - 1]))
        mark = f'\n    {" " * width(before)}^' if column else ''
        self.say(f':{there}', f'line {line} of {visible(name)}:\n    {visible(text)}{mark}')

    def end(self):
        """Says what holds of the whole."""
        if not self.scenario.lines:
            self.count += 1
            self.say('', 'there is no line in it')
        for reason, count in self.again.items():
            if reason == RETURNS:
                self.say('', reason)
            elif count:
                self.say('', f'{reason}; so {count} more {"line is" if count == 1 else "lines are"} bad')
        if self.scenario.left_out:
            self.count += 1
            rest = 'the rest was' if self.scenario.left_out < 0 else f'the last {self.scenario.left_out} bytes were'
            self.say('', f'simulate reads the first {self.form.bytes} bytes: {rest} not read')


def taken(name, file, form):
    """The scenario of an open file. No more is taken than can matter: a line with a number in place of its name is less than 16 times as short."""
    data = file.read(16 * form.bytes)
    status = os.fstat(file.fileno())
    is_whole = len(data) < 16 * form.bytes
    return Scenario(visible(name), data, form, 0 if is_whole else status.st_size - len(data) if stat.S_ISREG(status.st_mode) else -1)


def read(name):
    """The scenario of a file, or of standard input where the name is `-`."""
    try:
        if name == '-' and sys.stdin is None:
            raise CannotRun('standard input is closed')
        if name == '-':
            return taken('standard input', sys.stdin.buffer, Format())
        with open(name, 'rb') as file:
            return taken(name, file, Format())
    except OSError as error:
        raise CannotRun(f'{visible(name)} cannot be read: {error.strerror}') from error
    except Missing as error:
        raise CannotRun(f'the sources are not as expected: {error}') from error


def main(simulate, name):
    scenario = read(name)
    faults = Faults(scenario, simulate)
    for number, line, sent, answers, stand in scenario.run(simulate):
        faults.look(number, line, sent, answers, stand)
    faults.end()
    if faults.count == 0:
        sys.stdout.buffer.write(scenario.sent)
    return 1 if faults.count else 0


def status_of(main, speaker):
    """The exit status of `main` on the words of the command line. What keeps it from its end is 2, for 1 would say that a line is bad."""
    try:
        if sys.stdout is None:
            raise CannotRun('standard output is closed')
        for stream in filter(None, (sys.stdout, sys.stderr)):
            stream.reconfigure(encoding='utf-8', errors='backslashreplace')
        status = main(*sys.argv[1:])
        sys.stdout.flush()
        return status
    except CannotRun as reason:
        print(f'{speaker}{reason}', file=sys.stderr)
    except OSError as error:
        # A reader that has seen enough, as `head`, is no fault. What is left goes nowhere.
        if not isinstance(error, BrokenPipeError):
            print(f'{speaker}{error}', file=sys.stderr)
        os.dup2(os.open(os.devnull, os.O_WRONLY), sys.stdout.fileno())
    except Exception:  # Whatever it is, it is no bad line.
        traceback.print_exc()
    return 2


if __name__ == '__main__':
    sys.exit(status_of(main, ''))
