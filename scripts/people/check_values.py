"""Explains 11: what a property takes, and, where it can be seen, why a value does not fit. Words and limits come from the definitions (`facts`)."""
import decimal
import difflib
import re
import signal

import facts
import words
from check_show import quoted, spoken, visible

DIGITS = ['no', 'one', 'two', 'three', 'four', 'five', 'six', 'seven', 'eight', 'nine']

# What the technicians' other tools write after a time, in seconds.
UNITS = {'us': '0.000001', 'ms': '0.001', 'msec': '0.001', 's': '1', 'sec': '1', 'secs': '1', 'second': '1', 'seconds': '1', 'm': '60', 'min': '60',
         'mins': '60', 'minute': '60', 'minutes': '60', 'h': '3600', 'hr': '3600', 'hour': '3600', 'hours': '3600', 'd': '86400', 'day': '86400',
         'days': '86400'}

# What 0 means where it means that there is none (paper 01), and how other tools write it.
ZERO = {'start-timeout': 'no timeout', 'stop-timeout': 'no timeout', 'restart-limit-count': 'no limit'}
NEVER = ('none', 'no', 'off', 'never', 'inf', 'infinity', 'infinite', 'unlimited', '-1')

YES, NO = ('on', 'y', '1', 'enable', 'enabled', 'always'), ('off', 'n', '0', 'disable', 'disabled', 'never')

# How near a property's name is to be for a guess (1 is the same), how near one is that has the given name as a part, and what is as near as another.
NEAR, PART, AS_NEAR = 0.7, 0.8, 0.1


def one_of(some):
    shown = [f'`{word}`' for word in some]
    return shown[0] if len(shown) == 1 else ', '.join(shown[:-1]) + ' or ' + shown[-1]


def name_faults(name, longest):
    """What keeps some bytes from being a service's name."""
    found = []
    if not name:
        found.append('it is empty')
    if len(name) > longest:
        found.append(f'it is {len(name)} bytes long, more than {longest}')
    bad = re.search(f'[^{words.NAME_BYTES}]'.encode(), name)
    if bad:
        found.append(f'its byte {bad.start() + 1} is {spoken(name[bad.start():])}')
    return ', and '.join(found)


def nearest(word, among):
    found = difflib.get_close_matches(word, among, 1)
    return found[0] if found else ''


def near_properties(name, among):
    """The properties that a name was to be: the nearest, and all that are nearly as near. One that has it as a part, as `stop-timeout` has `timeout`,
    is near too."""
    near = {one: difflib.SequenceMatcher(None, one, name).ratio() for one in among}
    near.update({one: max(near[one], PART) for one in among if len(name) >= len('type') and f'-{name}-' in f'-{one}-'})
    best = max(near.values())
    return [one for one in among if best >= NEAR and round(best - near[one], 2) <= AS_NEAR]


def takes(known, rule):
    """What a property of a rule takes."""
    limits, (whole, part, count) = known.limits, (DIGITS[number] for number in known.digits())
    return {
        'type': f'the types are {one_of(known.words["type"])}',
        'flag': f'it takes {one_of(known.words["flag"])}',
        'no': f'it takes only {one_of(known.words["no"])}',
        'time': f'a time is seconds, one to {whole} digits, then optionally a point and one to {part} digits, '
                f'at most {facts.seconds(limits["time"])}, and no unit',
        'count': f'a count is one to {count} digits, at most {limits["count"]}',
        'signal': f'the signals are {one_of(known.words["signal"])}',
        'command': 'a command is a program and its arguments, and its first word is not empty',
        'service': f'a dependency is the name of one service, 1 to {limits["name"]} of {words.NAME_WORDS}',
    }[rule]


class Value:
    """A value that does not fit: `name` of its property, `tokens`, `raw` as it is written."""

    def __init__(self, known, line):
        self.known, self.name = known, line.name.decode()
        self.tokens, self.raw, self.comment = line.tokens, line.raw, line.comment
        self.rule = known.rules[self.name]
        self.word = b' '.join(self.tokens).decode('utf-8', 'surrogateescape')

    # ---- What the property takes.

    def line(self, value):
        """A line that sets the property, as a description would write it."""
        return f'`{self.name}: {value}`' if self.rule == 'service' else f'`{self.name} = {value}`'

    def example(self):
        given = {'command': '/usr/bin/program', 'service': 'reader'}
        listed = self.known.words.get(self.rule, [''])[0]
        return self.line(given.get(self.rule) or (listed if self.rule in ('type', 'flag') else self.known.defaults[self.name]))

    def words(self):
        if not self.raw:
            begin = f'`{self.name}` has no value'
        else:
            begin = f'{quoted(self.raw)} is no value of `{self.name}`'
        return f'{begin}: {takes(self.known, self.rule)}; for example {self.example()}'

    def is_good(self, given):
        """Whether a value, of a line that lacks its sign, may be offered with one: only what would be taken is offered."""
        if self.raw != given.rstrip() and not self.comment:
            return False
        if self.rule == 'command':
            return given[:1].isalnum() or given[:1] == b'/'
        if len(self.tokens) != 1:
            return False
        if self.rule == 'service':
            return not name_faults(self.tokens[0], self.known.limits['name'])
        return self.word in self.known.words[self.rule] if self.rule in self.known.words else bool(self.fits(self.word))

    # ---- Why this value does not fit: a sentence, or '' where the rule alone must do.

    def why(self):
        if not self.raw:
            return 'What follows is a comment.' if self.comment else ''
        if self.rule in ('time', 'count') and self.number_slip():
            return self.number_slip()
        if len(self.tokens) > 1:
            return self.several()
        if self.word[-1:] in (';', ','):
            return f'A value ends with its line: leave the `{self.word[-1]}` out.'
        if not self.word:
            return 'Two quotes with nothing between them are an empty value.'
        return getattr(self, self.rule + '_slip', lambda: '')()

    def several(self):
        if self.rule == 'command':
            return 'The first word is empty: it has to be the program that is run.'
        if self.tokens[1][:2] in (b'//', b';', b'--'):
            return 'A comment begins with `#`.'
        return self.apart() if self.rule == 'service' else f'It takes one word, and here are {len(self.tokens)}.'

    def apart(self):
        """The first few of several dependencies, each on a line of its own."""
        named = b' '.join(self.tokens).replace(b',', b' ').split()
        if any(name_faults(name, self.known.limits['name']) for name in named):
            return 'A line names one service.'
        lines = ', '.join(self.line(visible(name)) for name in named[:3])
        return f'Write a line for each service: {lines}{"." if len(named) <= 3 else " and so on."}'

    def cased(self, some):
        """The word of a list that this one is but for capitals."""
        same = [word for word in some if word.lower() == self.word.lower()]
        return same[0] if same else ''

    def dinit(self, what):
        instead = words.INSTEAD_OF_WORDS[self.rule].get(self.word)
        return f'Dinit has {what} `{self.word}`, here not. {instead}' if instead else ''

    def type_slip(self):
        known = self.known.words['type']
        near = self.cased(known) or nearest(self.word.lower(), known)
        return self.dinit('the type') or (f'Did you mean {self.line(near)}?' if near else '')

    def flag_slip(self):
        cased, low = self.cased(self.known.words['flag']), self.word.lower()
        if cased:
            return f'It is written in small letters: {self.line(cased)}.'
        if low in YES + NO:
            return f'Write {self.line("yes" if low in YES else "no")}.'
        return self.dinit('the value') or (f'Did you mean {self.line(nearest(low, self.known.words["flag"]))}?' if
                                           nearest(low, self.known.words['flag']) else '')

    def no_slip(self):
        cased = self.cased(self.known.words['no'])
        if cased:
            return f'It is written in small letters: {self.line(cased)}.'
        if self.cased(self.known.words['flag']) or self.word.lower() in YES:
            return f'Dinit has `{self.name} = yes`, here not. {words.INSTEAD_OF_WORDS["no"]["yes"]}'
        return ''

    def signal_slip(self):
        known = self.known.words['signal']
        named = self.word.upper()
        if re.fullmatch(r'[0-9]+', self.word):
            named = next((s.name for s in signal.Signals if s.value == int(self.word)), '')
        bare = named[3:] if named.startswith('SIG') else named
        right = next((word for word in known if word.upper() == bare), '')
        if right:
            return f'A signal is given by its name, without SIG, as in the list: {self.line(right)}.'
        return f'The signal {bare} is not taken up.' if 'SIG' + bare in signal.Signals.__members__ else ''

    def service_slip(self):
        fault = name_faults(self.tokens[0], self.known.limits['name'])
        if b',' in self.tokens[0].strip(b','):
            return self.apart()
        if b'/' in self.tokens[0]:
            fault += '; a dependency is named without a path'
        return f'As a name, {fault}.' if fault else ''

    # ---- Numbers.

    def fits(self, text):
        """Whether a number may be offered as the value: only what would be taken is offered."""
        whole, part, count = self.known.digits()
        if self.rule == 'count':
            return re.fullmatch(r'[0-9]{1,%d}' % count, text) and int(text) <= self.known.limits['count']
        return re.fullmatch(r'[0-9]{1,%d}(\.[0-9]{1,%d})?' % (whole, part), text) and \
            decimal.Decimal(text) * facts.UNITS <= self.known.limits['time']

    def offer(self, text, reason):
        return f'{reason}: {self.line(text)}.' if self.fits(text) else f'{reason}.'

    def number_slip(self):
        text = self.word.lower()
        if text in NEVER and self.name in ZERO:
            return f'For {ZERO[self.name]} write {self.line("0")}.'
        if text.startswith('-') and text[1:2].isdigit():
            return 'It cannot be negative.'
        if re.fullmatch(r'\+[0-9.]+', text):
            return self.offer(text[1:], 'Leave the sign out')
        if re.fullmatch(r'[0-9]+(,[0-9]+)+', text):
            return self.comma_slip(text)
        parts = re.findall(r'([0-9]*\.?[0-9]+) ?([a-z]+) ?', text)
        if self.rule == 'time' and parts and ''.join(map(''.join, parts)) == text.replace(' ', '') and all(unit in UNITS for _, unit in parts):
            return self.in_seconds(parts)
        return self.digits_slip(text) if re.fullmatch(r'[0-9.]+', text) and text.count('.') <= 1 else ''

    def comma_slip(self, text):
        """A comma may separate thousands, or be the point: where it may be either, both are said in words."""
        whole, part = text.replace(',', ''), text.replace(',', '.')
        thousands = re.fullmatch(r'[1-9][0-9]{0,2}(,[0-9]{3})+', text)
        if self.rule == 'count' or text.count(',') > 1:
            return self.offer(whole, 'It has no comma') if thousands else 'It has no comma.'
        if not thousands:
            return self.offer(part, 'The point is written `.`')
        ways = [f'for {value} seconds write {self.line(value)}' if self.fits(value) else f'{value} seconds are too much'
                for value in (whole, part.rstrip('0').rstrip('.'))]
        return f'It has no comma: {", ".join(ways)}.'

    def in_seconds(self, parts):
        """Of a time as other tools write it, 1m30s: pairs of a number and a unit."""
        value = f'{sum(decimal.Decimal(number) * decimal.Decimal(UNITS[unit]) for number, unit in parts):f}'
        value = value.rstrip('0').rstrip('.') if '.' in value else value
        made = f'A time is in seconds, and {" ".join(map(" ".join, parts))} make {value}'
        if decimal.Decimal(value) * facts.UNITS > self.known.limits['time']:
            return f'{made}, which is too much.'
        if decimal.Decimal(value) * facts.UNITS % 1:
            return f'{made}, which is too fine: the least step is {facts.seconds(1)} s.'
        return self.offer(value, 'Leave the unit out' if [UNITS[unit] for _, unit in parts] == ['1'] else made)

    def digits_slip(self, text):
        whole, part, count = self.known.digits()
        before, point, after = text.partition('.')
        if self.rule == 'count':
            return self.whole_slip(before, point, count)
        if point and not (before and after):
            return self.offer((before or '0') + ('.' + after if after else ''), f'A digit stands {"after" if before else "before"} the point')
        if len(before) > whole:
            return f'It has {len(before)} digits before the point, leading zeros counted, and {whole} are the most.'
        if len(after) > part:
            return f'It has {len(after)} digits after the point, and {part} are the most.'
        return f'It is more than {facts.seconds(self.known.limits["time"])}.' if not self.fits(text) else ''

    def whole_slip(self, before, point, most):
        if point:
            return self.offer(before, 'A count has no point')
        if len(before) > most:
            return f'It has {len(before)} digits, leading zeros counted, and {most} are the most.'
        return f'It is more than {self.known.limits["count"]}.'
