"""Shows a scenario with what the core answers, for people: `play.py SIMULATE FILE`; `-` is standard input.

After each line stands, behind `>`, what `simulate` answered to it. A service's name stands beside its number, and seconds beside a time; a run is
shown with an action on each line, a move with what it led to, and the tokens as the commands that they are. Of a record, the fields that are 0 or
none are left out, but for `live`; of settings, the sets that are empty. What is bad or refused is explained on standard error. The exit status is 0;
1 where a line is bad, a load is refused or there is no line; 2 where nothing can be shown.
"""
import re
import shlex
import sys

from facts import seconds
from play_lines import NUMBER, OF_A_SERVICE, Format, visible
from scenario import OF_NO_SERVICE, Faults, Scenario, decoded, encoded, read, status_of
from words import MEANS

TIMES, SETS = Format().times, Format().sets
ACTIONS = ('moved ', 'launch ', 'signal ', 'stop-command ')
WIDTH = 120

# What is shown of a record after a move, beside its phase: what a move can change, and a launch, a signal or a call does not show.
MOVED = ('cause=', 'aside=')


def timed(units):
    return f'{units} ({seconds(int(units))} s)'


def named(number, names):
    """The number of a service with its name."""
    return f'{number} ({names[int(number)]})' if int(number) < len(names) else number


def action(words, names, moves):
    """`launch 0` with the name: the second word of an action is its service. A move is shown with what it led to, the next of `moves`."""
    led_to = next(moves, '') if words[0] == 'moved' else ''
    return ' '.join([words[0]] + [named(word, names) for word in words[1:2]] + words[2:]) + (f': {led_to}' if led_to else '')


def field(text, names):
    """A field of a record or of settings, with names and seconds."""
    name, _, value = text.partition('=')
    if name in SETS and value:
        return f'{name}=' + ','.join(named(member, names) for member in value.split(','))
    return f'{name}={timed(value)}' if name in TIMES and NUMBER.fullmatch(value) else text


def is_fresh(text):
    """A field of a record says nothing that is worth a look."""
    name, _, value = text.partition('=')
    return value == 'none' or value == '0' and name not in ('live', 'deadline')


def folded(parts):
    """The parts, as many on a line as fit; lines after the first are set in."""
    lines = [parts[0]]
    for part in parts[1:]:
        if len(lines[-1]) + len(part) < WIDTH:
            lines[-1] += ' ' + part
        else:
            lines.append('    ' + part)
    return lines


def record(answer, names):
    """A row of a state."""
    number, phase, *fields = answer.split(' ')
    return folded([named(number, names), phase] + [field(text, names) for text in fields if not is_fresh(text)])


def settings(answer, names):
    """A row of settings, without its commands."""
    number, *fields = answer.split(' ')
    return folded([named(number, names)] + [field(text, names) for text in fields[:-2] if not text.endswith('=')])


def commands(rows, tokens, names):
    """The tokens as the commands that they are: those of each service, command before stop-command, as many as its row says."""
    words = decoded(bytes.fromhex(tokens.replace('-', ''))).split('\0')
    for number, answer in enumerate(rows):
        for name, count in re.findall(r' (command|stop-command)=([0-9]+)', answer):
            mine, words = words[:int(count)], words[int(count):]
            if mine:
                yield f'{name} of {named(str(number), names)}: ' + ' '.join(shlex.quote(visible(word)) for word in mine)


def actions_of(sent, answers):
    """The actions among the answers to a line."""
    if answers and answers[0].startswith('run '):
        return answers[0].split('; ')[1:]
    return answers if sent == 'next' else []


def moves_of(scenario, simulate):
    """What each move of a scenario led to, in their order: the phase of the service, and more where there is more. `simulate` is asked again, for
    one action at a time and the state after each. Where that is more than it reads, the moves at the end are not known."""
    steps = []
    for _, _, sent, answers, _ in scenario.run(simulate):
        steps += ['next', 'state'] * len(actions_of(sent, answers)) or [sent]
    moved = ''
    for _, _, sent, answers, _ in Scenario('', encoded(''.join(step + '\n' for step in steps)), scenario.form).run(simulate):
        if moved:
            row = next((answer.split(' ') for answer in answers if answer.startswith(moved)), [])
            yield ' '.join(row[1:2] + [text for text in row[2:] if text.startswith(MOVED) and not is_fresh(text)])
        moved = answers[0][6:] + ' ' if sent == 'next' and answers[0].startswith('moved ') else ''


def reply(line, sent, answer, names):
    """A single answer that is no action."""
    words, asked = answer.split(' '), sent.split(' ')
    if words[0] in ('at', 'clock'):
        return f'{words[0]} {timed(words[1])}'
    if words[0] == 'refused':
        return f'{answer}: {MEANS[int(words[1])]}'
    if answer == 'ok' and asked[0] in OF_A_SERVICE and line == sent:
        return f'ok ({names[int(asked[1])]})' if int(asked[1]) < len(names) else 'ok'
    if answer == 'ok' and asked[0] == 'clock':
        return f'ok ({seconds(int(asked[1]))} s)'
    return answer


def refused_load(sent, answer, stand):
    """The last answer of a load. Where it is refused for a service, that is named; a load with positions may lend other names."""
    words = answer.split(' ')
    if words[0] == 'refused' and sent.count(' ') == 1 and int(words[1]) not in OF_NO_SERVICE:
        words[3] = named(words[3], [name for name, _, _ in stand.given])
    return ' '.join(words)


def shown(line, sent, answers, stand, moves):
    """What is shown of the answers to a line. `moves` are those that come from here on."""
    word, names = sent.split(' ')[0], stand.names
    if word == 'run' and answers[0].startswith('run '):
        return [answers[0].split('; ')[0]] + ['    ' + action(one.split(' '), names, moves) for one in actions_of(sent, answers)]
    if word == 'next' and answers[0].startswith(ACTIONS):
        return [action(answers[0].split(' '), names, moves)]
    if word == 'show' and answers[-1].startswith('tokens '):
        rows = [part for answer in answers[:-1] for part in settings(answer, names)]
        return rows + list(commands(answers[:-1], answers[-1][7:], names))
    if word == 'state':
        return [reply(line, sent, answers[0], names)] + [part for answer in answers[1:] for part in record(answer, names)]
    if word == 'load':
        return answers[:-1] + [refused_load(sent, answers[-1], stand)]
    return [reply(line, sent, answer, names) for answer in answers]


def main(simulate, name):
    scenario = read(name)
    faults = Faults(scenario, simulate)
    moves = moves_of(scenario, simulate)
    for number, line, sent, answers, stand in scenario.run(simulate):
        print('\t'.join(visible(part) for part in line.split('\t')))
        for answer in shown(line, sent, answers, stand, moves):
            print('    > ' + visible(answer))
        sys.stdout.flush()
        faults.look(number, line, sent, answers, stand)
    faults.end()
    return 1 if faults.count else 0


if __name__ == '__main__':
    sys.exit(status_of(main, 'scripts/play: '))
