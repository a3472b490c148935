"""What the definitions say of a description: the properties with the rule and the default of each, the words that a rule takes, the limits.

`scripts/check` explains a refusal by these, and the check of the pages holds docs/DESCRIPTIONS.md to them. So the list of properties stands in
`crates/load_word` and nowhere else: a new property there is known here.
"""
import decimal
import os
import re

ROOT = os.path.dirname(os.path.dirname(os.path.dirname(os.path.abspath(__file__))))

PROPERTIES = 'crates/load_word/specs/Properties.antt'
WORDS = 'crates/load_word/specs/Words.antt'
DECIMALS = 'crates/load_word/specs/Decimals.antt'
SETTINGS = 'crates/service/specs/Settings.antt'
NUMBERS = 'crates/service/specs/Numbers.antt'

# The rule of a setting, by the definition that reads its word.
RULES = {'flag_of': 'flag', 'no_of': 'no', 'time_of': 'time', 'count_of': 'count', 'signal_of': 'signal'}

# Where each limit stands, and its name there.
LIMITS = {
    'services': ('crates/service/specs/Limits.antt', 'max_services'),
    'name': ('crates/load_text/specs/Bytes.antt', 'longest_name'),
    'text': ('crates/load_lent/specs/Checks.antt', 'longest_text'),
    'texts': ('crates/load_lent/specs/Checks.antt', 'longest_texts'),
    'dependencies': ('crates/load_description/specs/Settings.antt', 'max_dependencies'),
    'time': ('crates/service/specs/Limits.antt', 'longest_time'),
    'count': ('crates/service/specs/Limits.antt', 'max_count'),
}

DEFAULTS = 'crates/service/specs/Limits.antt'


class Missing(Exception):
    """What a file of definitions no longer says in the form in which it is looked for here."""


def found_in(root, path, pattern):
    """What a file of definitions has of a pattern, comments left out."""
    with open(os.path.join(root, path), encoding='utf-8') as file:
        found = re.findall(pattern, re.sub(r'(?m)^\s*--.*$', '', file.read()))
    if not found:
        raise Missing(f'{path} has nothing like {pattern}')
    return found


def units_of(root):
    """How many units of time a second has."""
    return 10 ** int(found_in(root, DECIMALS, r'(?m)^units_of k = k\.value \* 10 \^ \((\d+) - k\.part\)$')[0])


UNITS = units_of(ROOT)


def seconds(units):
    """A time in units as a description writes it: 2000 is 0.2."""
    return f'{decimal.Decimal(units) / UNITS:f}'


class Facts:
    """`rules`: the rule of each property by its name, in the order of the list: type, command, flag, no, time, count, signal or service.
    `words`: the words that the rules type, flag, no and signal take. `limits`: numbers by the names above; `limits['time']` is in units.
    `numbers`: the default of each field of the settings that has a number of its own. `defaults`: what a property is where no line gives it, as a
    description would write it; None where it is nothing."""

    def __init__(self, root=ROOT):
        self.root = root
        self.words = {'no': self.quoted('no_of'), 'type': self.quoted('kind_of'), 'signal': self.signals()}
        self.words['flag'] = self.quoted('flag_of') + self.words['no']
        self.settings = {name: (place, rule) for name, place, rule in
                         self.found(PROPERTIES, r'(?m)^setting_of (\w+) w v = \w+ (?:(\d+) )?v\b.*?\b(\w+_of) w\)')}
        self.properties = self.found(PROPERTIES, r'named "([a-z.\-]+)" \(?(\w+)(?: (\w+)\))?')
        self.rules = {name: self.rule(kind, which) for name, kind, which in self.properties}
        self.limits = {name: self.number(*place) for name, place in LIMITS.items()}
        self.numbers = {field: self.number(DEFAULTS, name) for field, name in self.found(SETTINGS, r'(?m)^\s*«?(\w+)»? = (default_\w+);')}
        self.defaults = {name: self.default(self.rules[name], which) for name, _, which in self.properties}

    def found(self, path, pattern):
        return found_in(self.root, path, pattern)

    def quoted(self, name):
        """The words in quotes of a definition, from its first line to the next empty one."""
        body = self.found(WORDS, r'(?ms)^' + name + r' w =(.*?)(?:\n\n|\Z)')[0]
        return re.findall(r'"([^"]+)"', body)

    def signals(self):
        return [word for _, word in self.found(WORDS, r'(?m)^signal_name (\w+) = "(\w+)"')]

    def number(self, path, name):
        return int(self.found(path, r'(?m)^' + name + r' = (\d+)$')[0])

    def rule(self, kind, which):
        return RULES[self.settings[which][1]] if kind == 'Setting' else {'Kind': 'type', 'Command': 'command', 'Link': 'service'}[kind]

    def fields(self):
        """The field of each of a service's settings as numbers, in order."""
        body = self.found(NUMBERS, r'(?ms)^settings_numbers v =(.*?)\[\]')[0]
        return re.findall(r'v\.«?(\w+)', body)

    def default(self, rule, setting):
        """What a setting is where no line gives it: that of the field at its place among the numbers."""
        if rule in ('time', 'count'):
            number = self.numbers[self.fields()[int(self.settings[setting][0])]]
            return seconds(number) if rule == 'time' else str(number)
        if rule == 'signal':
            variant = self.found(SETTINGS, r'(?m)^\s*signal = (\w+);')[0]
            return self.found(WORDS, r'(?m)^signal_name ' + variant + r' = "(\w+)"')[0]
        if rule == 'flag':
            return 'yes' if self.found(SETTINGS, r'(?m)^default_settings = defaults_with \w+ (true|false) 0')[0] == 'true' else 'no'
        return 'no' if rule == 'no' else None

    def units(self):
        """How many units a second has."""
        return units_of(self.root)

    def digits(self):
        """How many digits a time has at most before its point and after it, and how many a count has."""
        whole = int(self.found(DECIMALS, r'\(ltb k\.whole (\d+)\)')[0])
        part = int(self.found(DECIMALS, r'\(ltb k\.part (\d+)\)')[0])
        count = int(self.found(DECIMALS, r'leb k\.whole (\d+)')[0])
        return whole, part, count
