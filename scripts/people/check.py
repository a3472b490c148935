"""Says why the descriptions of a folder are refused. `scripts/check` runs it by `run`; HELP below says what it does.

Every verdict is the proved program's: of each file alone, then of the set. The modules `check_*` find the services (`folder`), ask the program
(`ask`, `cycle`), explain a file's fault and a set's (`explain`, `values`, `set`), and show a line (`show`).
"""
import os
import sys

import facts
import words
from check_ask import CannotRun, Program, built
from check_folder import File, again, services_of
from check_line import held_end, lines_of
from check_set import Set
from check_show import visible
from check_values import takes

HELP = """usage: scripts/check FOLDER [NAME ..]
       scripts/check --number N ..

Says whether the services of a folder load, and where they do not, why: each file that has a fault with its first one, then what is wrong with the
set. The verdicts are those of the proved program, target/bin/check_services; nothing is written to the folder.

  FOLDER        holds a file for each service, and the file's name is the service's
  NAME ..       the services, in this order; without names every file of the folder, but for .NAME, NAME~ and #NAME#
  --number N .. what each number N of a refusal means, and what to do about it; `--number all` has all of them
  --program P   asks another check_services, at the path P
  -h, --help    this

A report begins FILE:LINE: words [NUMBER], and shows the line with a caret under the byte that decided. Columns count bytes.

Exit status: 0 accepted, 1 refused or a file cannot be read, 2 could not run."""

# What a file alone is refused with only for what other files say.
OF_THE_SET = (15, 16)


class Options:
    """The command line. A word that begins with a dash is no folder and no name, but after `--`."""

    def __init__(self, given):
        self.number, self.program, self.words, self.help = None, None, [], False
        given = list(given)
        while given:
            word = given.pop(0)
            if word == '--':
                self.words += given
                break
            if word in ('-h', '--help'):
                self.help = True
            elif word in ('--number', '--program'):
                if not given:
                    raise CannotRun(f'{word} needs a word after it; scripts/check --help says more.')
                setattr(self, word[2:], given.pop(0))
            elif word.startswith('-') and word != '-':
                raise CannotRun(f'there is no option {visible(os.fsencode(word))}; scripts/check --help has those that there are.')
            else:
                self.words.append(word)


def say(line=''):
    print(line)


def of_number(given):
    """--number: what a number means."""
    numbers = {str(number): number for number in words.MEANS}
    if given == 'all':
        for one in numbers:
            of_number(one)
        return
    if given not in numbers:
        raise CannotRun(f'{visible(os.fsencode(given))} is no number of a refusal. These are: {", ".join(numbers)}.')
    number = numbers[given]
    say(f'{number}: {words.MEANS[number]}')
    say(f'What to do: {words.DO[number]}')
    if number == 10:
        say(f'The properties: {", ".join(words.KNOWN.rules)}.')
    for rule in dict.fromkeys(words.KNOWN.rules.values()) if number == 11 else ():
        say(f'  {", ".join(name for name, one in words.KNOWN.rules.items() if one == rule)}: {takes(words.KNOWN, rule)}.')


def folder_of(given):
    """The folder as bytes, or why there is none."""
    folder, shown = os.fsencode(given), visible(os.fsencode(given))
    if not folder:
        raise CannotRun('the name of the folder is empty; the folder that you are in is `.`')
    if not os.path.lexists(folder):
        raise CannotRun(f'there is no folder {shown}.')
    if os.path.isfile(folder):
        home, name = os.path.split(folder)
        raise CannotRun(f'{shown} is a file, and a folder is needed: {again(home or b".", [name])}')
    if not os.path.isdir(folder):
        raise CannotRun(f'{shown} is no folder.')
    if not os.access(folder, os.R_OK | os.X_OK):
        raise CannotRun(f'you may not read the folder {shown}.')
    return folder


def names_of(folder, given):
    """The names of the services: those given, or those of the folder, with a note for all that is left out."""
    if given:
        return [os.fsencode(name) for name in given]
    names, left_out = services_of(folder)
    for name, why in left_out:
        say(f'left out: {visible(name)}: {why}')
    if left_out:
        say()
    if not names:
        raise CannotRun(f'there is nothing to check: {visible(folder)} has no description in it.')
    return names


def held_ends(file):
    """The lines at whose end a backslash makes a carriage return a byte of the value."""
    return [number for number, line in enumerate(lines_of(file.text), 1) if held_end(line) == b'\r']


def note_ends(files):
    """Says which files have the line ends of other systems, and what to do about it."""
    ended = [file for file in files if b'\r\n' in file.text]
    if ended:
        say(f'note: lines that end in carriage return and newline (CRLF): {", ".join(visible(file.name) for file in ended)}')
        say('  The carriage return counts as white space, so this alone does no harm; but after a backslash or in quotes it is a byte of the value.')
        for file, number in ((file, number) for file in ended for number in held_ends(file)):
            say(f'  {visible(file.name)}:{number}: here a backslash makes the carriage return a byte of the value.')
        say(f"  To convert: sed -i 's/\\r$//' {' '.join(file.shell() for file in ended)}\n")
    for file in files:
        if b'\r' in file.text and b'\n' not in file.text:
            say(f'note: {visible(file.name)} has carriage returns and no newline, so all of it is one line.')
            say(f"  To convert: tr '\\r' '\\n' < {file.shell()} > NEW, and put NEW in its place.\n")


def counted(count, one, many):
    return f'{count} {one if count == 1 else many}' if count else ''


class Check:
    """One run over the services of a folder."""

    def __init__(self, known, program, folder, given):
        self.known, self.program, self.folder, self.chosen = known, program, folder, bool(given)
        self.names = names_of(folder, given)
        self.files = {name: File(folder, name, known.limits['text'] + 1) for name in self.names}
        self.set = Set(known, program, folder, self.names, self.files, self.chosen)

    def alone(self):
        """The report of each file that has a fault of its own, up to as many as a set may have services: in a wrong folder all may have one."""
        reports = []
        for name in self.files:
            answer = self.program.ask(self.folder, [name])
            if answer.number == 0 or answer.number in OF_THE_SET:
                continue
            reports.append(self.set.report(name, answer))
            if len(reports) == self.known.limits['services']:
                break
        return reports

    def run(self):
        reports = self.alone()
        own = len(reports)
        answer = self.program.ask(self.folder, self.names)
        said = {(report.subject, report.number) for report in reports}
        if answer.number != 0 and (self.names[answer.service], answer.number) not in said:
            reports.append(self.set.report(self.names[answer.service], answer))
        for report in reports:
            say('\n'.join(report.text()) + '\n')
        note_ends(self.files.values())
        if reports:
            self.close(reports, own)
            return 1
        sys.stdout.write(answer.output.decode())
        say(f'accepted: {"the service loads" if len(self.names) == 1 else f"the {len(self.names)} services load together"}.')
        return 0

    def close(self, reports, own):
        """The last sentence of a refusal."""
        if not own:
            say('refused: no file has a fault of its own, but the set has one.')
            return
        unread = sum(report.number is None for report in reports)
        said = [counted(own - unread, 'file has a fault of its own', 'files have a fault of their own'),
                counted(unread, 'file cannot be read', 'files cannot be read')]
        say(f'refused: {", ".join(filter(None, said))}. Until this is mended, dependencies are not looked at.')
        faulty = [self.files[report.subject] for report in reports if report.number is not None and report.subject in self.files]
        strange = [visible(file.name) for file in faulty if file.is_strange(self.known)]
        if strange and not self.chosen and len(self.names) > 1:
            which = ', '.join(strange) if len(strange) <= 3 else f'{len(strange)} of these files'
            say(f'No line of {which} sets a known property. To leave out what is no description, name those that are: {again(self.folder)}')
        if own == self.known.limits['services'] < len(self.files):
            say(f'Beyond {own} faulty files none is reported.')


def main(given):
    options = Options(given)
    if options.help:
        say(HELP)
        return 0
    if options.number is not None:
        for number in [options.number, *options.words]:
            of_number(number)
        return 0
    if not options.words:
        raise CannotRun('which folder?\n' + HELP.split('\n\n')[0] + '\nscripts/check --help says more.')
    folder = folder_of(options.words[0])
    program = Program(os.path.abspath(options.program)) if options.program else built(facts.ROOT)
    return Check(words.KNOWN, program, folder, options.words[1:]).run()
