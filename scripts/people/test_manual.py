"""Runs every example of docs/DESCRIPTIONS.md on the proved programs: `python3 -B scripts/people/test_manual.py target/bin [PAGE]`.

It prints each example that comes out otherwise, and exits with 1 where there is one. A table of the page that nobody runs here counts as one, so that
no new table goes unseen. Last it spoils the page in several places, and sees each reported.
"""
import os
import re
import subprocess
import sys
import tempfile

import facts
import manual_page
from manual_claims import BACK, CLAIMS, SAID, SPOILED, TRIED
from manual_page import as_bytes, spans

# What each line of an example follows.
BEFORE = b'type = process\ncommand = /bin/reader\n'

# The properties that name a service.
LINKS = [name for name, rule in facts.Facts().rules.items() if rule == 'service']

# The tables that hold no example, by their first column.
UNRUN = {'what', 'type', 'property'}


class Programs:
    """The proved programs of a folder. What was asked once is not run again."""

    def __init__(self, folder):
        self.folder = os.path.abspath(folder)
        self.known = {}

    def answer(self, command, asked, files):
        """What a program writes, given its standard input and the files of its folder."""
        question = (tuple(command), asked, tuple(files.items()))
        if question in self.known:
            return self.known[question]
        with tempfile.TemporaryDirectory() as place:
            for name, text in files.items():
                with open(os.path.join(place, name), 'wb') as file:
                    file.write(text)
            run = subprocess.run(command, input=asked, cwd=place, stdout=subprocess.PIPE, check=False)
        self.known[question] = run.stdout.decode()
        return self.known[question]

    def path(self, program):
        return os.path.join(self.folder, program)

    def checked(self, files):
        """What check_services answers to the files of a folder, by name and bytes."""
        return self.answer([self.path('check_services')], ''.join(name + '\n' for name in files).encode(), files)

    def explained(self, files):
        """What scripts/check says of them."""
        return self.answer([os.path.join(facts.ROOT, 'scripts', 'check'), '--program', self.path('check_services'), '.'], b'', files)

    def simulated(self, services, calls):
        """What simulate answers, line by line, to calls on a set of services, by name and bytes."""
        lines = []
        for name, text in services.items():
            lines += [b'service ' + name.encode()] + [b'|' + line for line in text.rstrip(b'\n').split(b'\n')]
        lines += [b'load 32768'] + [call.encode() for call in calls]
        return self.answer([self.path('simulate')], b'\n'.join(lines) + b'\n', {}).split('\n')[:-1]


def in_short(answer):
    """An answer as the page writes it: `accepted`, or a refusal's number, with its column where it is about the line of the example."""
    refused = re.match(r'refused (\d+) service 0 line (\d+) column (\d+)', answer)
    if not refused:
        return 'accepted' if '\nok 1' in answer else answer
    number, line, column = refused.groups()
    return f'{number}, column {column}' if line == '3' else number


class Test:
    def __init__(self, programs, page):
        self.programs, self.page = programs, page
        self.count, self.wrong = 0, []

    def same(self, what, said, found):
        self.count += 1
        if said != found:
            self.wrong.append(f'{what}: the page has {said}, the program {found}')

    def line(self, line):
        """What a line of the page is answered. Where the line needs a service, there is one."""
        files = {'reader': BEFORE + as_bytes(line) + b'\n'}
        linked = re.match(f'(?:{"|".join(LINKS)}): ([a-z-]+)$', line)
        if linked:
            name = 'other' if linked.group(1) == 'reader' else linked.group(1)
            files = {'reader': files['reader'].replace(b': reader', b': other'), name: b'type = internal\n'}
        return in_short(self.programs.checked(files).replace('ok 2', 'ok 1'))

    def lines(self, table):
        for shown, answer in zip(table.column('line'), table.column('answer')):
            self.same(shown, answer, self.line(spans(shown)[0]))
        self.instead(table)

    def instead(self, table):
        """Each line that is given in place of another is accepted."""
        for cell in table.column('instead'):
            for shown in spans(cell):
                if re.match(r'[a-z\-]+(?: =|:) ', shown):
                    self.same(shown, 'accepted', self.line(shown))

    def properties(self, table):
        for shown in table.column('example'):
            self.same(shown, 'accepted', self.line(spans(shown)[0]))

    def foreign(self, table):
        for cell, answer in zip(table.column('property of Dinit'), table.column('answer')):
            for name in spans(cell):
                self.same(name, f'{answer}, column 1', self.line(f'{name} = x'))
        self.instead(table)

    def shown_setting(self, name, value):
        """How `show` writes a setting that a line gives, or the number of the refusal."""
        answers = self.programs.simulated({'reader': BEFORE + f'{name} = {value}\n'.encode()}, ['show'])
        if answers[0].startswith('refused '):
            return answers[0].split()[1]
        return re.search(rf' {name}=(\d+)', answers[2]).group(1)

    def held(self, table, name):
        for shown, held in zip(table.column(table.head[0]), table.column('held')):
            self.same(f'{name} = {shown}', held.replace(',', ''), self.shown_setting(name, spans(shown)[0]))

    def times(self, table):
        self.held(table, 'restart-delay')

    def counts(self, table):
        self.held(table, 'restart-limit-count')

    def tokens(self, value):
        answers = self.programs.simulated({'reader': b'type = process\ncommand = ' + as_bytes(value) + b'\n'}, ['show'])
        if answers[0].startswith('refused '):
            return answers[0].split()[1]
        written = bytes.fromhex(answers[-1].split()[1]).decode()
        return ', '.join(f'`{token}`' if token else 'empty' for token in written.split('\0')[:-1])

    def values(self, table):
        for shown, tokens in zip(table.column('value'), table.column('tokens')):
            self.same(shown, tokens, self.tokens(spans(shown)[0]))

    def names(self, table):
        for shown, answer in zip(table.column('name'), table.column('answer')):
            name = spans(shown)[0]
            self.same(shown, answer, in_short(self.programs.checked({name: BEFORE})))

    def falls(self, table):
        """A lone reader falls at each row's time. A row counts the falls as the settling does: from 0 where the interval is over."""
        calls, rows = ['start 0', 'run'], table.rows
        for seconds, clock, _, _ in rows:
            self.same(clock, int(clock.replace(',', '')), int(seconds.split()[0]) * facts.UNITS)
            calls += [f'clock {clock.replace(",", "")}', 'end 0 bad', 'run', 'state']
        answers = self.programs.simulated({'reader': BACK}, calls)
        runs = [line for line in answers if line.startswith('run ')][1:]
        states = [line for line in answers if line.startswith('0 ') and 'restarts=' in line]
        for (seconds, _, before, then), run, state in zip(rows, runs, states):
            launched = 'launch 0' in run
            self.same(f'the end at {seconds}', then, 'launched again' if launched else 'set aside' if 'aside=1' in state else run)
            counted = int(re.search(r'restarts=(\d+)', state).group(1))
            self.same(f'the falls before {seconds}', int(before), counted - launched)

    def dependencies(self, table):
        for row in table.rows:
            reader, calls = TRIED.get(row[0], (BACK, ['run']))
            for head, cell in zip(table.head[1:], row[1:]):
                said = SAID.get(cell, ['no run is known for this'])
                runs = [self.last_run(reader, spans(head)[0], each) for each in calls]
                fits = len(runs) == len(said) and all(re.fullmatch(pattern, run) for pattern, run in zip(said, runs))
                self.same(f'{row[0]}, {head}: {cell}', said, said if fits else runs)

    def last_run(self, reader, dependency, calls):
        services = {'reader': reader, 'averager': BACK + dependency.encode() + b'\n'}
        return '; '.join(self.programs.simulated(services, calls.split('; '))[-1].split('; ')[1:])

    def sets(self):
        for files, who, answer in self.page.sets:
            texts = {name: text.encode() for name, text in files.items()}
            found = self.programs.checked(texts) if who == 'Answer:' else self.programs.explained(texts)[:len(answer)]
            self.same(f'the files {", ".join(files)}', answer, found)

    def claims(self):
        """What is said in words, run as a scenario."""
        page = ' '.join(self.page.text.split())
        for words, services, calls, pattern in CLAIMS:
            self.same(words, True, words in page)
            services = {f's{number}': text for number, text in enumerate(services)}
            answers = '\n'.join(self.programs.simulated(services, [call for call in calls.split('; ') if call]))
            self.same(words, pattern, pattern if re.search(pattern, answers) else answers)

    def all(self):
        ways = {'line': self.lines, 'property of Dinit': self.foreign, 'value': self.values, 'name': self.names, 'its process ends at': self.falls,
                'what happens': self.dependencies, 'time': self.times, 'count': self.counts}
        for table in self.page.tables:
            first = table.head[0]
            if first == 'property' and 'example' in table.head:
                self.properties(table)
            elif first in ways:
                ways[first](table)
            elif first not in UNRUN:
                self.wrong.append(f'{table.heading}: no test runs the table of {first}')
        self.sets()
        self.claims()
        return self.wrong


def main(arguments):
    if not arguments or not os.path.exists(os.path.join(arguments[0], 'check_services')):
        print('usage: test_manual.py FOLDER [PAGE], where FOLDER has the built check_services and simulate', file=sys.stderr)
        return 2
    programs = Programs(arguments[0])
    place = arguments[1] if len(arguments) > 1 else os.path.join(facts.ROOT, manual_page.PAGE)
    with open(place, encoding='utf-8') as file:
        text = file.read()
    test = Test(programs, manual_page.Page(text))
    wrong = test.all()
    for old, new in SPOILED:
        if old not in text:
            wrong.append(f'the words to spoil are gone: {old}')
        elif not Test(programs, manual_page.Page(text.replace(old, new, 1))).all():
            wrong.append(f'not seen: {new} in place of {old}')
    for line in wrong:
        print(line)
    print(f'{manual_page.PAGE}: {test.count} examples, {len(SPOILED)} spoiled ones, {len(wrong)} wrong')
    return 1 if wrong else 0


if __name__ == '__main__':
    sys.exit(main(sys.argv[1:]))
