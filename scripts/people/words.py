"""What each number of paper 01's table means to a technician and what to do about it: `MEANS[n]` and `DO[n]`, one sentence each.

`scripts/check` prints them, for a refusal and by `--number`, and the check of the pages holds docs/DESCRIPTIONS.md to them. The limits and the words
in them come from the definitions (`facts`). Beside them: what Dinit has and is not taken up here, and what to do instead.
"""
import facts

# The bytes of a name: as a pattern has them, and in words.
NAME_SIGNS, NAME_RANGES = '-_.', ('a-z', 'A-Z', '0-9')
NAME_BYTES = NAME_SIGNS + ''.join(NAME_RANGES)
NAME_WORDS = ', '.join([*NAME_RANGES, *(f'`{sign}`' for sign in NAME_SIGNS[:-1])]) + f' and `{NAME_SIGNS[-1]}`'

# Number, or what stands in its place -> (what it means, what to do). The names in braces are filled in from the definitions.
NUMBERS = {
    1: ('The set has more than {services} services.',
        'Leave some services out.'),
    2: ('The positions that the host lent with the names and texts are odd in number, fall, or do not end with the lent bytes.',
        'No description is wrong: mend how the host fills its buffer.'),
    3: ('The name of the service is not 1 to {name} of the bytes {bytes}.',
        'Rename the file, and mend the lines that name it.'),
    4: ('The name of the service is that of an earlier one.',
        'Name each service once.'),
    5: ('The text is longer than {text} bytes, or with it all texts together are longer than {texts} bytes.',
        'Shorten the text: comments, blanks and empty lines count too.'),
    6: ('The text has a control character other than newline, tab, vertical tab, form feed and carriage return.',
        'Take that byte out, from a comment or a quoted value too.'),
    7: ('The line is not a property\'s name, then `=` or `:`, then a value; or it has a `#` inside a word.',
        'Write the line as `name = value`, and put a blank before the `#` of a comment.'),
    8: ('A quote is still open at the end of the line.',
        'Close the quote on the same line; for a quote that belongs to the value write a backslash before it.'),
    9: ('A backslash is the last byte of the line, so there is nothing for it to protect.',
        'Take the backslash out and write the whole value on one line; for a backslash that belongs to the value write two.'),
    10: ('The line sets a property that is not known.',
         'Mend the name of the property, or take the line out.'),
    11: ('The value does not fit the rule of its property.',
         'Write a value that the property takes.'),
    12: ('The service has more than {dependencies} dependencies, and the line is that of the first one too many.',
         'Take some out, or let an internal service have some of them and depend on that one.'),
    13: ('The description has no line that gives its type.',
         'Add one of the lines {types}.'),
    14: ('The service is of type process or scripted, and no line gives its command.',
         'Add a line such as `command = /usr/bin/program`, or write `type = internal` for a service that runs nothing.'),
    15: ('The line names a service that is not in the set.',
         'Add that service to the set, mend the name, or take the line out.'),
    16: ('Services depend on each other in a cycle, by any of the kinds of dependency; the one named is the lowest on such a cycle.',
         'Take out a line of the cycle.'),
    20: ('A call named a service by a number that is not in the set.',
         'No description is wrong: drop the order, and mend the host or the program that gave the number.'),
    21: ('The end of a process was reported for a service that has no live process.',
         'No description is wrong: the host reported an end twice or for the wrong service; mend which process is whose.'),
    22: ('The clock that the host reported went back.',
         'Let the host read a clock that never goes back, from one origin; until then deadlines stand still.'),
    23: ('The clock that the host reported passed 2^48 units of 0.1 ms, some 890 years.',
         'Mend the unit or the origin of the clock that the host reads.'),
    24: ('The table or the state that was handed in is not one that the core made.',
         'The host has changed or lost them: end every process that it launched, then begin with a fresh state.'),
    25: ('The room that the host lent is too small: for the tokens of the commands at a load, or for the actions of a run.',
         'Lend {texts} bytes for the tokens, and four places for each service for the actions.'),
    'unreadable': ('The file cannot be read: it is not there, is no regular file, or may not be read by this user.',
                   'Mend the name, or let its owner permit reading.'),
}

# Dinit's properties that are not taken up here, those of source document 003 first, and what to do instead: one sentence for the names of a row.
ROWS = {
    'working-dir': 'Let a shell change to it: `command = /bin/sh -c "cd /srv/meter && exec /usr/bin/reader"`.',
    'run-as': 'Let the command be a program that changes the user and then runs the service; or let the host do it.',
    'env-file': 'Set the variables in the command: `command = /usr/bin/env UNIT=J /usr/bin/reader`.',
    'logfile logfile-permissions logfile-uid logfile-gid log-type log-buffer-size':
        'Let a shell redirect what is written: `command = /bin/sh -c "exec /usr/bin/reader >> /var/log/reader.log 2>&1"`; or let the host do it.',
    'consumer-of': 'Let the host join the two.',
    'rlimit-nofile rlimit-core rlimit-data rlimit-addrspace':
        'Let a shell set the limit: `command = /bin/sh -c "ulimit -n 1024; exec /usr/bin/reader"`.',
    'run-in-cgroup': 'Let the host do it.',
    'ready-notification': 'Add a scripted service that depends on this one and whose command ends when this one is ready; '
                          'what needs this one ready depends on that service.',
    'pid-file': 'Let the program stay in the foreground, and write `type = process`.',
    'depends-on.d': 'Write a line for each service that has a file in that folder, as `depends-on: reader`.',
    'depends-ms.d': 'Write a line for each service that has a file in that folder, as `depends-ms: reader`.',
    'waits-for.d': 'Write a line for each service that has a file in that folder, as `waits-for: reader`.',
    'after': 'Write `waits-for` in its place; this also starts the service that it names.',
    'before': 'Write `waits-for` and this service\'s name in the file of the service that comes later; this also starts this one.',
    'chain-to': 'Let the host start the next service.',
    'socket-listen socket-permissions socket-uid socket-gid': 'Let the service open its socket itself.',
    'options': 'Take the line out: console and control socket are the host\'s.',
    'load-options': 'Take the line out: nothing is substituted.',
    'inittab-id inittab-line': 'Take the line out.',
    'termsignal': 'Write `term-signal` in its place; that signal alone is sent.',
    'nosigterm': 'Write `term-signal = none`.',
    'runs-on-console onstart': 'Take the line out.',
}
INSTEAD = {name: sentence for names, sentence in ROWS.items() for name in names.split()}

# Likewise words that Dinit takes for a property, by the rule of the property.
INSTEAD_OF_WORDS = {
    'type': {'bgprocess': INSTEAD['pid-file'], 'triggered': 'Write `type = internal`, and let the host start the service when the trigger comes.'},
    'flag': {'on-failure': 'Write `restart = yes` or `restart = no`.'},
    'no': {'yes': 'Take the line out: dependents are ended before the service is launched again.'},
}


def filled(known):
    """NUMBERS with the limits and words of some facts."""
    limits = {name: f'{number:,}' for name, number in known.limits.items()}
    types = [f'`type = {word}`' for word in known.words['type']]
    limits['bytes'] = NAME_WORDS
    limits['types'] = ', '.join(types[:-1]) + ' or ' + types[-1]
    return {number: tuple(sentence.format(**limits) for sentence in pair) for number, pair in NUMBERS.items()}


KNOWN = facts.Facts()
MEANS = {number: means for number, (means, _) in filled(KNOWN).items()}
DO = {number: do for number, (_, do) in filled(KNOWN).items()}
