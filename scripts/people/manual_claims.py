"""What docs/DESCRIPTIONS.md says in words and in its table of dependencies, as scenarios: `scripts/people/test_manual.py` runs them.

A list of calls is written in one line, with `; ` between. The reader is service 0, the averager is 1.
"""
# A process that comes back after a fall, one that does not, and a scripted service.
BACK = b'type = process\ncommand = x\nrestart = yes\n'
ONCE = b'type = process\ncommand = x\n'
SCRIPT = b'type = scripted\ncommand = x\n'

# The rows of the table of dependencies: the reader's text, and lists of calls, each of which ends with a run.
STARTED = 'start 1; run; '
FELL = STARTED + 'clock 50000; end 0 bad; run'
TRIED = {
    'the averager is started': (SCRIPT, ['start 1; run', STARTED + 'end 0 good; run', STARTED + 'end 0 bad; run']),
    'the reader is set aside while the averager waits': (SCRIPT, [STARTED + 'end 0 bad; run', STARTED + 'end 0 bad; run; clock 900000; run']),
    'the reader falls while the averager is up': (BACK, [FELL, FELL + '; end 1 good; run']),
    'the reader is stopped while the averager is up': (BACK, [STARTED + 'stop 0; run', STARTED + 'stop 0; run; end 1 good; run']),
    'the averager is stopped, nothing else needs the reader': (BACK, [STARTED + 'stop 1; run', STARTED + 'stop 1; run; end 1 good; run']),
    'all is stopped': (BACK, [STARTED + 'stop-all; run', STARTED + 'stop-all; run; end 1 good; run']),
}

# What a cell of that table says, as patterns: one for the last run of each list of calls.
SAID = {
    'the reader first; the averager when it is up': ['moved 1; moved 0; launch 0', 'launch 1', 'moved 1'],
    'the reader first; the averager when it is up or set aside': ['moved 1; moved 0; launch 0', 'launch 1', 'launch 1'],
    'the averager is set aside': ['moved 1', ''],
    'the averager is launched': ['launch 1', ''],
    'the averager is ended; the reader waits for its end': ['moved 1; signal 1 TERM', 'moved 0; moved 1; moved 0; launch 0; launch 1'],
    'the averager stays up': ['moved 0', '.*launch 0; launch 1'],
    'the reader is ended': ['signal 0 TERM', '.*'],
    'the averager is ended, then the reader': ['(?:moved 1; )?signal 1 TERM', '(?:moved 0; )?signal 0 TERM'],
    'both are ended at once': ['signal 0 TERM; signal 1 TERM', ''],
}

# Words of the page; the services, in order; the calls; and a pattern that the answers must have.
CLAIMS = [
    ('Dependencies add up; the same kind and name twice counts once',
     [BACK, BACK, BACK + b'depends-on: s0\nwaits-for: s0\ndepends-on: s1\ndepends-on: s0\n'],
     'show', r'2 type=.* depends-on=0,1 depends-ms= waits-for=0 '),
    ('A later line replaces an earlier one', [BACK + b'restart = no\n'], 'show', 'restart=no'),
    ('the earlier one must be good all the same', [b'type = daemon\n' + BACK], '', 'refused 11 service 0 line 1 column 8'),
    ('A setting that has no effect for the service\'s type is read, must be good, and is not used', [BACK + b'stop-command = y\n'],
     'start 0; run; stop 0; run', r'signal 0 TERM$'),
    ('With `none` it is sent nothing, and the [stop timeout](#timeouts) runs all the same', [BACK + b'term-signal = none\n'],
     'start 0; run; stop 0; run; query; clock 100000; run', r'run 1; moved 0\nat 100000\nok\nrun 1; signal 0 KILL$'),
    ('Without one there is nothing to run, and it is down at once', [SCRIPT],
     'start 0; run; end 0 good; stop 0; run; state', r'run 1; moved 0\n.*\n0 down'),
    ('When its process ends by itself, with any status, the service has fallen', [BACK],
     'start 0; run; clock 50000; end 0 good; run', r'launch 0$'),
    ('the service is set aside, whatever `restart` says', [SCRIPT + b'restart = yes\n'],
     'start 0; run; end 0 bad; run; state', r'run 0\n.*\n0 down .*aside=1'),
    ('waits for that command\'s end. Where that is 0, and the start timeout was not over, the stop-command is then run', [SCRIPT + b'stop-command = y\n'],
     'start 0; run; stop 0; run; end 0 good; run', r'run 0\nok\nrun 1; stop-command 0$'),
    ('run; else the service is down', [SCRIPT + b'stop-command = y\n'],
     'start 0; run; stop 0; run; end 0 bad; run; state', r'run 0\nok\nrun 0\n.*\n0 down '),
    ('ends the setting aside, and launches nothing', [BACK + b'restart-limit-count = 1\n', BACK + b'waits-for: s0\n'],
     'start 0; start 1; run; clock 5000; end 0 bad; run; clock 9000; end 0 bad; run; state; start 1; run; state',
     r'0 down .*aside=1.*\n1 up .*\nok\nrun 0\n.*\n0 down .*aside=0'),
    ('How a stop-command ends makes no difference', [SCRIPT + b'stop-command = y\n'],
     'start 0; run; end 0 good; stop 0; run; end 0 bad; run; state', r'0 down .*aside=1'),
    ('it is up where what it depends on is up', [BACK, b'type = internal\ndepends-on: s0\n'],
     'start 1; run; state', r'1 up .*live=0'),
    ('With `restart = no` it is no longer wanted', [ONCE],
     'start 0; run; clock 50000; end 0 bad; run; state', r'run 1; moved 0\n.*\n0 down wanted=0 aside=0'),
    ('it is launched again all the same where one that depends on it waits for it', [ONCE, BACK + b'depends-on: s0\n'],
     'start 0; start 1; run; clock 50000; end 0 bad; run; end 1 good; run', r'launch 0; launch 1$'),
    ('After an order to stop it is set aside, and not launched again. So are those that depend hard on it', [BACK, BACK + b'depends-on: s0\n'],
     'start 0; start 1; run; stop 0; run; end 1 bad; run; end 0 bad; run; clock 900000; run; state',
     r'run 0\n.*\n0 down .*aside=1.*\n1 down .*aside=1'),
    ('is not wanted: `restart` does nothing for it', [BACK, BACK + b'waits-for: s0\n'],
     'start 1; run; clock 50000; end 0 bad; run; clock 90000; run', r'run 1; moved 0\nok\nrun 0$'),
    ('It is launched again when one that depends on it waits for it', [ONCE, BACK + b'depends-on: s0\n'],
     'start 1; run; clock 50000; end 0 bad; run; end 1 good; run', r'launch 0; launch 1$'),
    ('start it by an order too', [BACK, BACK + b'waits-for: s0\n'],
     'start 0; start 1; run; clock 50000; end 0 bad; run', r'launch 0$'),
    ('at the earliest `restart-delay` after its last launch', [BACK],
     'start 0; run; clock 500; end 0 bad; run; clock 1999; run; clock 2000; run', r'run 2; moved 0; moved 0\nok\nrun 0\nok\nrun 1; launch 0$'),
    ('A count of 0 means no limit', [BACK + b'restart-limit-count = 0\n'],
     'start 0; run' + ''.join(f'; clock {5000 * k}; end 0 bad; run' for k in range(1, 9)), r'launch 0$'),
    ('and so does an interval of 0', [BACK + b'restart-limit-interval = 0\n'],
     'start 0; run' + ''.join(f'; clock {5000 * k}; end 0 bad; run' for k in range(1, 9)), r'launch 0$'),
    ('The falls that were counted stay counted', [BACK + b'restart-limit-count = 1\n'],
     'start 0; run; clock 5000; end 0 bad; run; clock 9000; end 0 bad; run; start 0; run; end 0 bad; run; state',
     r'launch 0\nok\nrun 1; moved 0\n.*\n.*aside=1'),
    ('the command is sent INT, the start has failed, and the stop timeout begins', [SCRIPT + b'restart = yes\n'],
     'start 0; run; clock 600000; run; query; end 0 good; run; state', r'signal 0 INT\nat 700000\nok\nrun 0\n.*\n0 down .*aside=1'),
    ('the process is sent KILL', [BACK], 'start 0; run; stop 0; run; clock 100000; run', r'signal 0 KILL$'),
    ('A timeout of 0 means none: nothing is sent', [BACK + b'stop-timeout = 0\n'], 'start 0; run; stop 0; run; query', r'\nnone$'),
    ('a last backslash makes the carriage return a part of the token', [b'type = process\ncommand = x\\\r\n'], 'show', 'tokens 780d00'),
    ('| `restart` not given | it restarts (003) | it does not |', [ONCE], 'show', 'restart=no'),
]

# Words of the page and others for them: after each change an example must come out otherwise.
SPOILED = [
    ('| `restart:yes` | accepted |', '| `restart:yes` | 7, column 8 |'),
    ('| `restart = on` | 11, column 11 |', '| `restart = on` | 11, column 12 |'),
    ('| `reader mean\\ value` | `reader`, `mean value` |', '| `reader mean\\ value` | `reader`, `mean`, `value` |'),
    ('| `1.5` | 15,000 |', '| `1.5` | 1,500 |'),
    ('| `00003` | 3 |', '| `00003` | 11 |'),
    ('| `reader~` | 3 |', '| `reader~` | accepted |'),
    ('| `working-dir` |', '| `waits-for` |'),
    ('`restart-delay = 1.5` |', '`restart-delay = 1.5 s` |'),
    ('| 4 s | 40,000 | 3 | set aside |', '| 4 s | 40,000 | 3 | launched again |'),
    ('| 3 s | 30,000 | 2 | launched again |', '| 3 s | 30,000 | 1 | launched again |'),
    ('| both are ended at once |', '| the averager is ended, then the reader |'),
    ('    depends-on: reeder', '    depends-on: reader'),
    ('did you mean `depends-on`?', 'did you mean `depends-ms`?'),
    ('| what happens |', '| what comes |'),
    ('the service is set aside, whatever `restart` says', 'the service is launched again'),
]
