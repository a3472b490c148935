"""The proved core, asked by way of the program that plays scenarios (docs/SCENARIO.md): the calls so far are kept as a scenario, each new call is
added to it, and the answers that are new are its answers. A host that is linked with the core calls it directly, and keeps a state in place of the
calls. The program reads LIMIT bytes and no more, so a host over it serves some thousand events, and then has to stop: it is an example.
"""
import os
import subprocess

# A token buffer of this size always suffices.
ROOM = 32768

# How many bytes the program reads, and how many of them are left for a stop of all services: 32 of them need some 4,000.
LIMIT, RESERVE = 262144, 16384


class Refused(Exception):
    """A refusal, by its whole line."""


def given(name, text):
    """A service as a scenario gives it: the last line of its text may lack a newline."""
    lines = text.split(b'\n')
    return [b'service ' + os.fsencode(name)] + [b'|' + line for line in lines[:-1]] + ([b'!' + lines[-1]] if lines[-1] else [])


class Core:
    """A loaded set and its state. `commands[s]` and `stop_commands[s]` are the tokens of service s, as the load wrote them."""

    def __init__(self, program, services):
        self.program, self.names = program, [name for name, _ in services]
        self.kept = [line for name, text in services for line in given(name, text)]
        self.answered = 0  # how many lines answer what is kept
        self.call(f'load {ROOM}')
        self.commands, self.stop_commands = self.read_commands(self.ask('show'))

    def ask(self, line):
        """The answers to one more call, which is not kept. A refusal is raised. The program is in a session of its own: a signal to the host's group
        or from its terminal is the host's alone."""
        text = b'\n'.join([*self.kept, line.encode()]) + b'\n'
        if len(text) > LIMIT:
            raise Refused(f'{line}: there are more calls than the program reads')
        played = subprocess.run([self.program], input=text, stdout=subprocess.PIPE, check=True, start_new_session=True)
        answers = played.stdout.decode().splitlines()[self.answered:]
        if not answers or answers[-1].startswith(('refused', 'bad line')):
            raise Refused(f'{line}: {answers[-1] if answers else "no answer"}')
        return answers

    def keep(self, line, answers):
        self.kept.append(line.encode())
        self.answered += len(answers)

    def call(self, line):
        """Makes a call that changes the state. Where it is refused, the state is what it was."""
        self.keep(line, self.ask(line))

    def clock(self, time):
        """Reports the time. It takes the place of the time before where nothing was called since: that is the same state, and a shorter list."""
        if self.kept[-1].startswith(b'clock '):
            self.kept.pop()
            self.answered -= 1
        self.call(f'clock {time}')

    def run(self):
        """Actions to quiet: each as its word, its service and, for a signal, its name. A run without any changes nothing, and is not kept."""
        answers = self.ask('run')
        words = [action.split() for action in answers[0].split('; ')[1:]]
        if words:
            self.keep('run', answers)
        return [(action[0], int(action[1]), *action[2:]) for action in words]

    def query(self):
        """The time of the next thing to do, or nothing."""
        answer = self.ask('query')[0]
        return None if answer == 'none' else int(answer.split()[1])

    def is_all_down(self):
        return all(line.split()[1] == 'down' for line in self.ask('state')[1:])

    def is_full(self):
        """Whether what is kept leaves room for no more than a stop of all services."""
        return sum(len(line) + 1 for line in self.kept) > LIMIT - RESERVE

    def read_commands(self, shown):
        """The tokens of each command, from the counts and the buffer: by service, command before stop-command, a zero byte after each token."""
        tokens = bytes.fromhex(shown[-1].split()[1].strip('-')).split(b'\0')
        commands, stop_commands, at = [], [], 0
        for line in shown[:-1]:
            for field, kept in ((' command=', commands), (' stop-command=', stop_commands)):
                count = int(line.split(field)[1].split()[0])
                kept.append(tokens[at:at + count])
                at += count
        return commands, stop_commands
