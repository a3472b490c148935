"""What a line of a scenario may be, and in words why one is bad.

The forms, the limits and the words come from the sources of `simulate`. What these do not say of themselves stands here: `OF_A_SERVICE`,
`MOST_DIGITS` and `RECORD_TIMES`. `test_play.py` holds `reason` to what `simulate` answers: it gives a reason for each bad line and for no other.
"""
import os
import re
from fractions import Fraction

import check_show
from facts import ROOT, UNITS, Facts, Missing

LINES = 'crates/scenario_lines/src/lib.rt'
PROGRAM = 'crates/simulate/src/main.rt'

# The calls whose number is a service's. The forms of set and table say so themselves.
OF_A_SERVICE = ('start', 'stop', 'end')

# What the numbers of a form are called where it is shown, by its first word and their place; a service is S, and any other number N.
LETTERS = {('clock', 1): 'T', ('set', 2): 'T', ('run', 1): 'A', ('run', 2): 'B', ('load', 1): 'ROOM'}

MOST_DIGITS = 20
NUMBER = re.compile('[0-9]{1,%d}' % MOST_DIGITS)
LARGEST = 2 ** 64 - 1

# The fields of a record that are times.
RECORD_TIMES = ['deadline', 'not-before', 'last-launch', 'window-start']

# A time as people write it, in seconds where no unit stands there.
TIME = re.compile(r'([0-9]{1,12}(?:\.[0-9]{1,4})?) ?(ms|s|sec|seconds?)?')

# A line of a description that lacks its bar.
PROPERTY = re.compile(r'\s*([a-z][a-z.\-]*)\s*[=:]')


def visible(text):
    """The text as scripts/check shows it, but for a tab: here it can be what is wrong."""
    return '\\t'.join(check_show.visible(part.encode('utf-8', 'surrogateescape')) for part in text.split('\t'))


def quoted(text, most=100):
    """The text in quotes, without its middle where it is long: what is wrong with a line often stands at its end."""
    text = visible(text)
    return f'`{text}`' if len(text) <= most else f'`{text[:most - 24]} .. {text[-20:]}`'


def in_units(text):
    """The units of a time in a scenario, and how many of them a time is that people have written in another way."""
    said, written = f'a time is in units of 0.1 ms, {UNITS} are a second', TIME.fullmatch(text)
    if not written:
        return said
    number, unit = written.group(1), 'ms' if written.group(2) == 'ms' else 's'
    return f'{said}: {number} {unit} is {int(Fraction(number) * UNITS / (1000 if unit == "ms" else 1))}'


def listed(words):
    return ', '.join(quoted(word) for word in words)


def distance(one, other):
    """How many letters must be put in, taken out, changed, or swapped with the next, to make one word the other. The search of scripts/check counts
    letters that are alike, and would take `strat` for `state`."""
    before, last = [], list(range(len(other) + 1))
    for i, a in enumerate(one):
        row = [i + 1]
        for j, b in enumerate(other):
            cost = min(last[j + 1] + 1, row[j] + 1, last[j] + (a != b))
            if i and j and a == other[j - 1] and b == one[i - 1]:
                cost = min(cost, before[j - 1] + 1)
            row.append(cost)
        before, last = last, row
    return last[-1]


def meant(word, known):
    """The known word that an unknown one is nearest to, as a question; or all of them, where none is near."""
    word = word[:64].lower()
    far, place = min(((distance(word, name.lower()), place) for place, name in enumerate(known)), default=(99, 0))
    if far <= max(1, len(word) // 3) and far < len(word):
        return f'did you mean {quoted(known[place])}?'
    return f'known are {listed(known)}' if known else 'it has none'


def found(root, path, pattern):
    """What a source says. Where it no longer says it in this form, this file must follow."""
    with open(os.path.join(root, path), encoding='utf-8') as file:
        match = re.search(pattern, file.read())
    if not match:
        raise Missing(f'{path} has nothing like {pattern}')
    return match.group(1)


def is_service(form, k):
    """Word k of a form is a service."""
    return k == 1 and len(form) > 1 and (form[1] == '#service' or form[0] in OF_A_SERVICE)


def shown(form):
    """The form as a person writes it; both, where its last word is one of two."""
    words = ['S' if is_service(form, k) else LETTERS.get((form[0], k), 'N') if word.startswith('#') else word for k, word in enumerate(form)]
    ends = words[-1].split('|')
    ends = ends if len(ends) == 2 else words[-1:]
    return ' or '.join(quoted(' '.join(words[:-1] + [end])) for end in ends)


class Format:
    """`forms`: the words of each form; `verbs`: the words that a line may begin with; `times`: the fields and calls that have a time; `sets`: the
    properties that give a set of services; `places`: how many services a set may have; `positions`: how many a load may be given; `bytes`: how many
    are read of a scenario."""

    def __init__(self, root=ROOT):
        self.forms = [form.split(' ') for form in found(root, LINES, r'const FORMS: [^=]*= \*?b"([^"]*)"').split('\n')]
        self.verbs = list(dict.fromkeys(form[0] for form in self.forms)) + ['service']
        facts = Facts(root)
        self.times = ['clock'] + RECORD_TIMES + [name for name, rule in facts.rules.items() if rule == 'time']
        self.sets = [name for name, rule in facts.rules.items() if rule == 'service']
        self.places = facts.limits['services']
        self.positions = 2 * (self.places + int(found(root, LINES, r'const MOST_POSITIONS: usize = 2 \* \(MAX_SERVICES \+ (\d+)\)')))
        self.bytes = int(found(root, PROGRAM, r'const MOST_BYTES: usize = (\d+);'))

    def of(self, verb):
        return [form for form in self.forms if form[0] == verb]

    def names_service(self, words):
        """The second word of such a line is a service."""
        return any(len(form) == len(words) and is_service(form, 1) for form in self.of(words[0]))

    def most(self, wanted):
        """The most that a number may be where a form has this word."""
        return self.places - 1 if wanted == '#service' else int(wanted[1:] or LARGEST)

    def fits(self, wanted, word):
        if wanted.startswith('#'):
            return bool(NUMBER.fullmatch(word)) and int(word) <= self.most(wanted)
        return word in wanted.split('|')

    def reason(self, line, number, stand):
        """Why the line of this number is bad where the scenario stands so (`scenario.Stand`); None where it is not."""
        if line == '' or line.startswith(('%', 'service ')):
            return None
        if line[0] in '|!':
            return None if stand.given else f'`{line[0]}` before the first service: a line `service NAME` comes before its text'
        words = line.split(' ')
        needs_set = words[0] in self.verbs and words[0] not in ('load', 'service') and not stand.loaded
        fault = self.fault(words, stand.names, stand.later())
        if fault is None:
            return stand.unloaded() if needs_set else None
        return self.look(line, number) or (stand.unloaded() if needs_set else fault)

    def look(self, line, number):
        """What can be seen of a bad line before its words are read; None where it looks well."""
        blank = (re.findall(r'[^\S ]', line) or [''])[0]
        sets = PROPERTY.match(line)
        for wrong, why in (
                (number == 1 and line.startswith('\ufeff'), 'a byte order mark before the first word: an editor put it there; save without it'),
                (re.match(r'\s*(#|//|;)', line), 'a comment begins with `%`'),
                (sets and sets.group(1) not in self.verbs, f'a line of a description begins with `|`: {quoted("|" + line.strip())}'),
                (re.search(r'\s(#|%|//|;)', line), 'a comment has a line of its own, which begins with `%`'),
                (line.endswith('\r'), 'a carriage return at the end of the line, which counts as part of the last word: take it out'),
                (not line.strip(' \t'), 'spaces or tabs, and no word: an empty line has none of them'),
                (blank == '\t', 'a tab: words are separated by exactly one space'),
                (blank, f'{check_show.spoken(blank.encode()) if blank else ""} is no space: words are separated by exactly one space'),
                (line.startswith(' '), 'a space before the first word'),
                (line.endswith(' '), 'a space at the end of the line'),
                ('  ' in line, 'two spaces between words: exactly one separates them'),
                (' ' in line and line.replace(' ', '-') in self.verbs, f'did you mean {quoted(line.replace(" ", "-"))}?')):
            if wrong:
                return why
        return None

    def fault(self, words, names, later=()):
        """What is wrong with the words of a line, wherever it stands; None where nothing is. `names` are those of the loaded set, `later` those of
        the services that were given after its load."""
        fitting = [form for form in self.of(words[0]) if len(form) == len(words)]
        if not self.of(words[0]):
            return self.unknown(words[0])
        if words[0] == 'load' and len(words) > 2 and words[2:] != ['-']:
            return self.load_fault(words)
        if not fitting:
            return self.count_fault(words)
        for k in range(1, len(words)):
            left = [form for form in fitting if self.fits(form[k], words[k])]
            if not left:
                return self.misfit(fitting, words, k, names, later)
            fitting = left
        return None

    def unknown(self, verb):
        if verb == 'service':
            return 'a word is missing: `service NAME`'
        if verb.lower() in self.verbs:
            return f'the words of a scenario are in small letters: {quoted(verb.lower())}'
        return f'unknown word {quoted(verb)}: {meant(verb, self.verbs)}'

    def count_fault(self, words):
        lengths = [len(form) for form in self.of(words[0])]
        missing, extra = len(words) < max(lengths), len(words) > min(lengths)
        what = 'a word is missing or one too many' if missing and extra else 'a word is missing' if missing else 'a word too many'
        time = ' '.join(words[-2:]) if extra and any(one in self.times for one in words) else ''
        return f'{what}: {self.choice(words)}' + (f'; {in_units(time)}' if TIME.fullmatch(time) else '')

    def choice(self, words):
        """The forms that the writer of such a line can have meant."""
        forms = self.of(words[0])
        fields = [form for form in forms if len(form) > 2 and form[2] in words[1:]]
        if fields or len(forms) < 4:
            return ' or '.join(shown(form) for form in fields or forms) + (' or `load ROOM P P ..`' if words[0] == 'load' else '')
        return f'{shown(min(forms, key=len))} or `{words[0]} S FIELD VALUE`'

    def load_fault(self, words):
        """That of a load with positions."""
        room = self.of('load')[0][1]
        wrong = [word for word in words[2:] if not self.fits('#', word)]
        if not self.fits(room, words[1]):
            return self.number_fault(words[1], room)
        if len(words) - 2 > self.positions:
            return f'{len(words) - 2} positions: {self.positions} are the most'
        return f'{self.number_fault(wrong[0], "#")}; positions follow ROOM, or one `-`' if wrong else None

    def misfit(self, forms, words, k, names, later):
        """Word k fits none of these forms, which the words before it fit."""
        word, wanted = words[k], list(dict.fromkeys(form[k] for form in forms))
        numbers = [one for one in wanted if one.startswith('#')]
        values = [value for one in wanted if one not in numbers for value in one.split('|')]
        if is_service(forms[0], k):
            return self.service_fault(word, wanted[0], names, later)
        if k == 1 and values:
            return self.count_fault(words)
        if not numbers:
            what = f'{words[0]} has no field {quoted(word)}' if len(wanted) > 1 else f'{quoted(word)} is no value here'
            return f'{what}: {meant(word, values)}'
        return self.number_fault(word, numbers[0], any(one in self.times for one in words[:k])) + (f'; or write {listed(values)}' if values else '')

    def service_fault(self, word, wanted, names, later):
        if re.fullmatch('[0-9]+', word):
            return self.number_fault(word, wanted)
        if word in names:
            return f'after a load with positions a service goes by its number: {quoted(word)} is {names.index(word)}'
        if word in later:
            return f'{quoted(word)} was given after the last load: a further `load` is needed'
        return f'{quoted(word)} is no service of the loaded set: {meant(word, names)}'

    def number_fault(self, word, wanted, is_time=False):
        if not re.fullmatch('[0-9]+', word):
            return f'{quoted(word)} is no number: write digits alone' + (f'; {in_units(word)}' if is_time else '')
        if len(word) > MOST_DIGITS:
            return f'a number of {len(word)} digits: {MOST_DIGITS} are the most'
        return f'{word} is too big: {self.most(wanted)} is the most here'
