"""Tests scripts/play, scripts/picture and what they rest on: test_play.py [--store] FOLDER_WITH_THE_PROGRAMS

- Stored cases, in cases/play/NAME/: `arguments` is a command line that is run in that folder; `output`, `errors` and `status` are what it gives,
  `input` is its scenario. `--store` writes what it gives now in the place of what is stored: look at the difference before you keep it.
- Damaged lines of every form, before and after a service, a load and a refused load: a reason is found for each line that `simulate` finds bad, and
  for no other.
- The stored scenarios of examples/ with names in place of numbers are turned into what they were.
- The answers of scenarios of every kind are attributed to the lines that asked for them.
- What each move of the stored scenarios led to is found.
- What docs/SCENARIO.md shows is what is written.
- Of a scenario that is too long it is said what was not read. A picture is the same for names and for numbers. A program that is missing is named
  at once. Without check_services a cycle is reported in general words. A link to a script does what the script does. A build is announced.
  Where a script does not come to its end, the status is 2.

The last line counts the cases. The exit status is 1 at the first difference.
"""
import collections
import difflib
import glob
import os
import random
import re
import shutil
import subprocess
import sys
import tempfile

import play_lines
from check_explain import lowered
from facts import ROOT
from play import actions_of, moves_of
from play_lines import Format
from scenario import Scenario, Stand, answers_to, decoded, encoded, lines_of, numbered
from words import DO, MEANS

CASES = os.path.join(ROOT, 'scripts/people/cases/play')

# The contexts in which a line may stand: what comes before it. The positions are where the two names and texts end.
SET = 'service reader\n|type = process\n|command = r\nservice averager\n|type = process\n|command = a\n|depends-on: reader\n'
CONTEXTS = {'nothing': '', 'a service': SET, 'a load': SET + 'load 4096\n', 'a refused load': SET + '|bad\nload 4096\n',
            'a load with positions': SET + 'load 4096 6 33 41 87\n'}

# What lines are damaged with: each is put in, put in the place of a byte, or put in the place of a word.
BYTES = [' ', '  ', '\t', '\r', '-', '#', '%', 'S', 'x', '0', '\u00a0', '\u00b2', '\u00e4', '\udcff', '|', '!', '=', '_']
WORDS = ['', '0', '1', '31', '32', '256', '257', '65536', '65537', '18446744073709551615', '18446744073709551616', '1' * 21, '0' * 21, 'reader',
         'raeder', 'averager', 'all', 'good', 'bad', 'none', 'up', 'clock', 'count', 'phase', 'stop', 'service', 'load', 'Start', '-', '-1', '0.5',
         '5s', 'type', '=']

# Every kind of reason, by some words of it.
REASONS = ['before the first service', 'no set is loaded yet', 'was refused', 'a tab', 'a carriage return', 'is no space', 'a space before',
           'a space at the end', 'and no word', 'a comment has a line', 'are a second: ', 'two spaces', 'a comment begins',
           'a line of a description', 'a word is missing: ', 'a word too many', 'or one too many', 'small letters', 'unknown word',
           'has no field', 'is no value here', 'is no number', 'digits: .. are the most', 'is too big', 'is no service',
           'after a load with positions', 'positions: ..', 'positions follow ROOM', 'or write', 'did you mean', 'known are']


def fail(what):
    print(f'not as expected: {what}')
    sys.exit(1)


def simulated(program, data):
    return subprocess.run([program], input=data, stdout=subprocess.PIPE, check=True).stdout


def run(script, arguments, folder, environment, given=subprocess.DEVNULL):
    """A script of the repository, run in a folder."""
    return subprocess.run([os.path.join(ROOT, script)] + arguments, cwd=folder, env=environment, stdin=given, stdout=subprocess.PIPE,
                          stderr=subprocess.PIPE, check=False, timeout=300)


# ---- stored cases

def stored(programs, store):
    count = 0
    for folder in sorted(glob.glob(os.path.join(CASES, '*', ''))):
        name = os.path.basename(folder[:-1])
        run_stored(folder, name, programs, store)
        count += 1
    return count


def run_stored(folder, name, programs, store):
    with open(os.path.join(folder, 'arguments'), encoding='utf-8') as file:
        command, *arguments = file.read().split()
    with open(os.path.join(folder, 'input') if '-' in arguments else os.devnull, 'rb') as given:
        done = run(command, arguments, folder, {**os.environ, 'PROGRAMS': programs}, given)
    for part, given in (('output', done.stdout), ('errors', done.stderr), ('status', b'%d\n' % done.returncode)):
        path = os.path.join(folder, part)
        if store:
            with open(path, 'wb') as file:
                file.write(given)
        with open(path, 'rb') as file:
            wanted = file.read()
        if given != wanted:
            sys.stdout.writelines(difflib.unified_diff(decoded(wanted).splitlines(True), decoded(given).splitlines(True), f'{name}/{part}', 'now'))
            fail(f'the stored case {name}')


# ---- damaged lines

def good_lines(form):
    """A line of each form, and of the kinds that have none."""
    for words in form.forms:
        last = words[-1].split('|')
        for choice in last:
            yield ' '.join(word if not word.startswith('#') else '1' for word in words[:-1] + [choice])
    yield from ['service clock', '|restart = yes', '!x', '% said', '', 'load 4096 1 2', 'load 4096 6 33 41 87', 'start reader', 'set reader phase up']


def damaged(line, rng):
    """The line with some damage, or none."""
    kind, words = rng.randrange(7), line.split(' ')
    at, k = rng.randrange(len(line) + 1), rng.randrange(len(words))
    if kind == 0:
        return line[:at] + rng.choice(BYTES) + line[at:]
    if kind == 1:
        return line[:at] + line[at + 1:]
    if kind == 2:
        return line[:at] + rng.choice(BYTES) + line[at + 1:]
    if kind == 3:
        return ' '.join(words[:k] + words[k + 1:])
    if kind == 4:
        return ' '.join(words[:k] + [rng.choice(WORDS)] + words[k:])
    if kind == 5:
        return ' '.join(words[:k] + [rng.choice(WORDS)] + words[k + 1:])
    return line if rng.randrange(2) else line.replace('1', rng.choice(WORDS))


def all_damaged(line):
    """The line without each of its words, with each twice, and with each of the bytes at either end."""
    words = line.split(' ')
    for k in range(len(words)):
        yield ' '.join(words[:k] + words[k + 1:])
        yield ' '.join(words[:k] + words[k:k + 1] + words[k:])
    for byte in BYTES:
        yield byte + line
        yield line + byte


def check_reasons(program, form, before, rounds, rng):
    """Each bad line has a reason, and no other line has one. Where a set is to be loaded it is loaded before each line, since a damaged line may load
    another; and no line adds to the services, since that set would then be refused."""
    lines, good = lines_of(before), list(good_lines(form))
    again = [lines[-1]] if 'load' in before else []
    bad = [one for line in good for one in all_damaged(line)] + [damaged(rng.choice(good), rng) for _ in range(rounds)]
    for line in bad:
        if not again or not line.startswith(('service ', '|', '!')):
            lines += again + [line]
    lines += [f'load 4096{" 1" * form.positions}', f'load 4096{" 1" * (form.positions + 1)}']
    scenario = Scenario('damaged', encoded('\n'.join(lines) + '\n'), form)
    if scenario.left_out:
        fail('the damaged lines are too many to be read')
    reasons = collections.Counter()
    for number, line, sent, answers, stand in scenario.run(program):
        bad = answers == [f'bad line {number}']
        reason = form.reason(sent, number, stand)
        if bad != (reason is not None):
            fail(f'line {number}, {line!r}, is {"bad" if bad else "good"}, and the reason is {reason!r}')
        if reason:
            reasons[re.sub('`[^`]*`|[0-9]+', '..', reason)] += 1
    return reasons


def reasons(program, form):
    """Every kind of reason comes up."""
    seen, count = collections.Counter(), 0
    for name, before in CONTEXTS.items():
        seen += check_reasons(program, form, before, 1000, random.Random(name))
        count += 1
    for words in REASONS:
        if not any(words in reason for reason in seen):
            fail(f'no damaged line had the reason {words!r}; there were {sorted(seen)}')
    return count


# ---- names and answers

def named(lines, form):
    """The lines with the names of services in place of their numbers."""
    given, names, written = [], [], []
    for line in lines:
        words = line.split(' ')
        if line.startswith('service '):
            given.append(line[8:])
        elif words[0] == 'load':
            names = list(given) if len(words) == 2 else []
        elif form.names_service(words) and words[1].isdigit() and int(words[1]) < len(names):
            words[1] = names[int(words[1])]
        written.append(' '.join(words))
    return written


def examples(form):
    """Names are turned into the numbers that they stand for, and nothing else is changed."""
    count, changed = 0, 0
    for path in sorted(glob.glob(os.path.join(ROOT, 'examples/simulate/*/input'))):
        with open(path, 'rb') as file:
            lines = lines_of(decoded(file.read()))
        with_names = named(lines, form)
        changed += with_names != lines
        if numbered(with_names, form) != lines or numbered(lines, form) != lines:
            fail(f'{path}: names are not turned into numbers as they should')
        count += 1
    if changed < 3:
        fail('no example has a call of a service')
    return count


def random_scenario(form, rng):
    """A scenario of good lines most of all, whose answers are of every kind."""
    good = [line for line in good_lines(form) if not line.startswith(('service', '!', '|'))]
    lines = lines_of(SET) + ['load 4096']
    for _ in range(300):
        line = rng.choice(good + ['state', 'show', 'load 4096', 'table count 2', 'table count 40', 'table count 0', 'load 26', 'next', 'run'])
        lines.append(line if rng.randrange(8) else damaged(line, rng).replace('\n', ''))
    return lines


def attribution(program, form):
    """The answers of a line are those that come between two separators, where a bad line is put after each line."""
    count = 25
    for seed in range(count):
        lines = numbered(random_scenario(form, random.Random(seed)), form)
        separated = decoded(simulated(program, encoded(''.join(f'{line}\n?\n' for line in lines))))
        wanted, answers = [], []
        for answer in lines_of(separated):
            answers.append(answer)
            if answer == f'bad line {2 * len(wanted) + 2}':
                wanted.append(answers[:-1])
                answers = []
        left = collections.deque(lines_of(decoded(simulated(program, encoded(''.join(f'{line}\n' for line in lines))))))
        for number, line in enumerate(lines, 1):
            got = answers_to(line, number, left)
            want = [re.sub('^bad line .*', f'bad line {number}', answer) for answer in wanted[number - 1]]
            if got != want:
                fail(f'seed {seed}, line {number}, {line!r}: {got} is not {want}')
        if left:
            fail(f'seed {seed}: answers are left over: {list(left)[:3]}')
    return count


# ---- the page, the forms, long scenarios and programs that are missing

def page(programs, form):
    """What docs/SCENARIO.md shows is what is written: the answers of a first scenario, a refused load, a stretch of the incident, and reasons."""
    simulate = os.path.join(programs, 'simulate')
    with open(os.path.join(ROOT, 'docs/SCENARIO.md'), encoding='utf-8') as file:
        blocks = [block.replace('\n    ', '\n')[4:] for block in re.findall(r'(?:^    .*\n)+', file.read(), re.M)]
    for text in ('% the pair', 'service reader'):
        at = next(k for k, block in enumerate(blocks) if block.startswith(text))
        if decoded(simulated(simulate, encoded(blocks[at]))) != blocks[at + 1]:
            fail(f'docs/SCENARIO.md: the answers to the scenario that begins {text!r}')
    shown = decoded(run('scripts/play', ['examples/scenarios/incident'], ROOT, {**os.environ, 'PROGRAMS': programs}).stdout)
    if not any(block in shown for block in blocks if block.startswith('end reader bad\n    >')):
        fail('docs/SCENARIO.md: what scripts/play shows of the incident')
    stand = Stand()
    stand.loaded, stand.names = True, ['reader', 'averager']
    reasons_shown = [found for block in blocks for found in re.findall(r'(?m)^incident:(\d+): `([^`]*)`: (.*)$', block)]
    for number, line, reason in reasons_shown:
        if form.reason(line, int(number), stand) != reason:
            fail(f'docs/SCENARIO.md: the reason of {line!r} is {form.reason(line, int(number), stand)!r}')
    if len(reasons_shown) < 3:
        fail('docs/SCENARIO.md shows no reasons')
    return 1


def forms(form):
    """The second word of a form is a number that is no service in `clock` alone: a new such call belongs here or in OF_A_SERVICE."""
    bare = {words[0] for words in form.forms if len(words) > 1 and words[1] == '#'}
    if bare != set(play_lines.OF_A_SERVICE) | {'clock'}:
        fail(f'the calls with a number are {sorted(bare)}')
    return 1


def moves(simulate, form):
    """Each move of the stored scenarios has a phase to which it led, and no other is found: the actions one at a time are those of the runs."""
    phases, count = next(words[-1].split('|') for words in form.forms if words[2:3] == ['phase']), 0
    for path in sorted(glob.glob(os.path.join(ROOT, 'examples/simulate/*/input'))):
        with open(path, 'rb') as file:
            scenario = Scenario(path, file.read(), form)
        moved = [one for _, _, sent, answers, _ in scenario.run(simulate) for one in actions_of(sent, answers) if one.startswith('moved ')]
        found = [led_to.split(' ')[0] for led_to in moves_of(scenario, simulate)]
        if len(found) != len(moved) or not set(found) <= set(phases):
            fail(f'{path}: the moves {moved} led to {found}')
        count += bool(moved)
    if count < 3:
        fail('no example has a move')
    return count


def cut(programs, form):
    """A scenario of as many bytes as are read is read whole; of a longer one it is said how much is not read, and what is read is shown."""
    work, count = tempfile.mkdtemp(), 0
    try:
        for more, status, said in ((0, 0, ''), (1, 1, 'the last 1 bytes were not read'), (2000, 1, 'the last 2000 bytes were not read')):
            path = os.path.join(work, f'{more}')
            with open(path, 'w', encoding='ascii') as file:
                file.write(SET + 'load 4096\nstart 0\n' + '%' * (form.bytes - len(SET + 'load 4096\nstart 0\n') + more))
            done = run('scripts/play', [path], work, {**os.environ, 'PROGRAMS': programs})
            if done.returncode != status or said not in decoded(done.stderr) or b'\nstart 0\n    > ok (reader)\n' not in done.stdout:
                fail(f'{more} bytes past the most: status {done.returncode}, {done.stderr!r}')
            count += 1
    finally:
        shutil.rmtree(work)
    return count


def drawn(programs, form):
    """A scenario with names and the same with numbers give the same picture."""
    path = os.path.join(ROOT, 'examples/scenarios/incident')
    with open(path, 'rb') as file:
        sent = Scenario(path, file.read(), form).sent
    with tempfile.NamedTemporaryFile() as numbers:
        numbers.write(sent)
        numbers.flush()
        pictures = [run('scripts/picture', [name], ROOT, {**os.environ, 'PROGRAMS': programs}) for name in (path, numbers.name)]
    if pictures[0].stdout != pictures[1].stdout or b'averager' not in pictures[0].stdout or [done.returncode for done in pictures] != [0, 0]:
        fail(f'the picture of {path}: {pictures[0].stderr!r}, {pictures[1].stderr!r}')
    return 1


def alone(programs):
    """Where simulate stands without check_services, a cycle is reported in general words."""
    case = os.path.join(CASES, 'refused-cycle')
    with tempfile.TemporaryDirectory() as work:
        os.symlink(os.path.join(programs, 'simulate'), os.path.join(work, 'simulate'))
        done = run('scripts/play', ['input'], case, {**os.environ, 'PROGRAMS': work})
    if f': {lowered(MEANS[16])}. {DO[16]}\ninput:2: the load is refused for `service reader`\n' not in decoded(done.stderr) or done.returncode != 1:
        fail(f'a cycle without check_services: status {done.returncode}, {done.stderr!r}')
    return 1


def links(programs):
    """A link to a script, and a link to that link, do what the script does."""
    folder, environment, count = os.path.join(ROOT, 'examples/scenarios'), {**os.environ, 'PROGRAMS': programs}, 0
    with tempfile.TemporaryDirectory() as work:
        for script, arguments in (('play', ['incident']), ('picture', ['incident'])):
            link = os.path.join(work, 'my' + script)
            os.symlink(os.path.join(ROOT, 'scripts', script), link)
            os.symlink('my' + script, link + '2')
            wanted = run(f'scripts/{script}', arguments, folder, environment)
            for name in (link, link + '2'):
                done = run(name, arguments, folder, environment)
                if (done.returncode, done.stdout) != (0, wanted.stdout):
                    fail(f'{name}, a link to scripts/{script}: status {done.returncode}, {done.stderr!r}')
                count += 1
    return count


def announced(programs):
    """scripts/picture says that cargo builds, where the program is not there yet, and does not where it is. Here cargo does nothing."""
    with tempfile.TemporaryDirectory() as work:
        release, tools = os.path.join(work, 'tools/target/release'), os.path.join(work, 'bin')
        for folder in (release, tools, os.path.join(work, 'scripts')):
            os.makedirs(folder)
        for script in ('picture', 'need', 'built'):
            shutil.copy(os.path.join(ROOT, 'scripts', script), os.path.join(work, 'scripts'))
        os.symlink(shutil.which('true'), os.path.join(tools, 'cargo'))
        environment = {**os.environ, 'PROGRAMS': programs, 'PATH': f'{tools}:{os.environ["PATH"]}'}
        before = run(os.path.join(work, 'scripts/picture'), ['-'], work, environment).stderr
        os.symlink(shutil.which('true'), os.path.join(release, 'picture'))
        after = run(os.path.join(work, 'scripts/picture'), ['-'], work, environment).stderr
    said = [b'building picture, of tools/ (cargo build)' in errors for errors in (before, after)]
    if said != [True, False]:
        fail(f'scripts/picture says that it builds: {said}')
    return 1


def commands(work, form):
    """Command lines, with $0 for the folder of the scripts and $1 for a scenario; their status, and words that they say."""
    with open(os.path.join(work, 'long'), 'wb') as file:
        file.truncate(64 * form.bytes)
    os.mkdir(os.path.join(work, 'fake'))
    os.symlink(shutil.which('true'), os.path.join(work, 'fake/simulate'))
    return [('"$0"/play "$1" >&-', 2, 'scripts/play: standard output is closed'), ('"$0"/play - <&-', 2, 'scripts/play: standard input is closed'),
            ('"$0"/picture - <&-', 2, 'standard input is closed'), ('"$0"/play "$1" >/dev/full', 2, 'No space left'),
            ('PROGRAMS=fake "$0"/play "$1"', 2, 'scripts/play: simulate gave no answer to line'),
            ('"$0"/play long', 1, f'the last {63 * form.bytes} bytes were not read'), ('cat long | "$0"/play -', 1, 'the rest was not read'),
            ("""cd "$0" && ./play $'a\\e\\n\\xff'""", 2, 'scripts/play: a\\x1b\\x0a\\xff cannot be read'),
            ('CARGO_TARGET_DIR=elsewhere "$0"/picture "$1"', 0, ''), ('cd "$0"/.. && CDPATH=/:. scripts/play "$1"', 0, '')]


def ends(programs, form):
    """What keeps a script from its end is status 2, with words for it, but where the reader has gone; and what surrounds a script does not matter."""
    scenario, environment = os.path.join(ROOT, 'examples/scenarios/incident'), {**os.environ, 'PROGRAMS': programs}
    with tempfile.TemporaryDirectory() as work:
        tried = commands(work, form)
        for command, status, said in tried:
            done = subprocess.run(['bash', '-c', command, os.path.join(ROOT, 'scripts'), scenario], cwd=work, env=environment, stdout=subprocess.PIPE,
                                  stderr=subprocess.PIPE, check=False, timeout=300)
            if done.returncode != status or said not in decoded(done.stderr) or b'Traceback' in done.stderr:
                fail(f'{command}: status {done.returncode}, {done.stderr!r}')
    reader, writer = os.pipe()
    os.close(reader)
    done = subprocess.run([os.path.join(ROOT, 'scripts/play'), scenario], env=environment, stdout=writer, stderr=subprocess.PIPE, check=False)
    os.close(writer)
    if (done.returncode, done.stderr) != (2, b''):
        fail(f'scripts/play without a reader: status {done.returncode}, {done.stderr!r}')
    return len(tried) + 1


# The scripts that end at once without a program, and that program.
NEEDED = [('play', 'python3'), ('play', 'rt'), ('picture', 'python3'), ('picture', 'cargo'), ('test', 'rt'), ('test', 'cargo'), ('test', 'python3')]


def missing():
    """Without a program that it needs, a script ends at once with status 2 and says what to do."""
    # The programs that are looked for do nothing here, should a script go on in spite of all.
    tools = {**{name: shutil.which(name) for name in ('bash', 'dirname', 'basename', 'readlink', 'cat', 'mktemp', 'rm')},
             **{name: shutil.which('true') for name in ('rt', 'cargo', 'python3')}}
    for script, lacking in NEEDED:
        with tempfile.TemporaryDirectory() as folder:
            for tool in set(tools) - {lacking}:
                os.symlink(tools[tool], os.path.join(folder, tool))
            done = run(f'scripts/{script}', ['-'] if script == 'picture' else [], folder, {'PATH': folder})
        if done.returncode != 2 or f'{script}: {lacking} is missing.' not in decoded(done.stderr):
            fail(f'scripts/{script} without {lacking}: status {done.returncode}, {done.stderr!r}')
    return len(NEEDED)


def main(arguments):
    store = arguments[:1] == ['--store']
    programs = os.path.abspath(arguments[-1])
    simulate = os.path.join(programs, 'simulate')
    form = Format()
    count = page(programs, form) + forms(form) + examples(form) + reasons(simulate, form) + attribution(simulate, form)
    count += moves(simulate, form) + cut(programs, form) + drawn(programs, form) + alone(programs) + links(programs) + announced(programs)
    count += ends(programs, form) + missing() + stored(programs, store)
    print(f'{count} cases, each as expected')


if __name__ == '__main__':
    main(sys.argv[1:])
