"""Holds docs/DESCRIPTIONS.md to the definitions: its properties with values and defaults, its limits, and every number that a load can give.

A technician mends a file by that page, so it says neither more nor less than what is proved. What its examples come to is run elsewhere, by
`scripts/people/test_manual.py`: there are no programs where the pages are checked.
"""
import os
import re
import runpy

from tree import NAME, Tree
import facts
from manual_page import PAGE, Page, spans

LOADING = 'crates/loader/specs/Load.antt'
REFUSALS = 'crates/load_lent/specs/Refusals.antt'
BYTES = 'crates/load_text/specs/Bytes.antt'
WORDS = os.path.join('scripts', 'people', 'words.py')

# The definitions that make a refusal of a number, and which of their arguments it is. `Refused` is the answer's own variant.
MAKERS = {('crates/load_text/specs/Lines.antt', 'fault'): 0, (REFUSALS, 'bare'): 0, (REFUSALS, 'refused_at'): 2, (LOADING, 'tested'): 2}

# The definition that has the number of each thing that can be wrong with a text, and its file. `fault` is given the thing by its case.
WRONG, WRONGS = 'wrong_number', 'crates/load_text/specs/Numbers.antt'

# The definitions that hand on a number that they are given: what they are given is read where they are called, or was made by one of these.
HAND_ON = {'fault', 'bare', 'refused_at', 'tested', 'passed'}

# What the values of a property are called on the page, where they are not words.
CALLED = {'time': 'seconds', 'count': 'a count', 'command': 'tokens', 'service': 'the name of a service'}

# The limits that the section of a number must say.
SAID = {1: ['services'], 3: ['name'], 5: ['text', 'texts'], 12: ['dependencies'], 25: ['texts']}


# ---- which numbers a load can give

def argument(text, place):
    """The argument of a call that stands at its place: a word, or all that its parentheses hold; nothing where there are too few."""
    found, at = [], 0
    while len(found) <= place:
        at += len(text[at:]) - len(text[at:].lstrip())
        if at == len(text) or text[at] == ')':
            return None
        end = at + 1
        if text[at] == '(':
            depth = 1
            while depth and end < len(text):
                depth += {'(': 1, ')': -1}.get(text[end], 0)
                end += 1
        else:
            end = re.compile(r'[^\s()]+').match(text, at).end()
        found.append(text[at:end])
        at = end
    return found[place]


def makers(tree, file):
    """What makes a refusal in a file, by the name that it has there: the place of the number among its arguments."""
    found = {here: MAKERS[there] for here, there in tree.brought_in(file).items() if there in MAKERS}
    found.update({name: place for (home, name), place in MAKERS.items() if home == file})
    for names in re.findall(r'declared\.Answer\.TheVariants\.\{([^}]*)\}', tree.bare(file)):
        for there, here in re.findall(r'(\w+)(?: as (\w+))?', names):
            if there == 'Refused':
                found[here or there] = 0
    return found


def wrongs(tree, file):
    """The number of each thing that can be wrong with a text, by the name that it has in a file."""
    by_case = dict(re.findall(r'(?m)^' + WRONG + r' (\w+) = (\d+)$', tree.bare(WRONGS))) if tree.exists(WRONGS) else {}
    found = {}
    for names in re.findall(r'declared\.Wrong\.TheVariants\.\{([^}]*)\}', tree.bare(file)):
        for there, here in re.findall(r'(\w+)(?: as (\w+))?', names):
            found[here or there] = by_case.get(there)
    return found


def right_sides(text):
    """What stands after the sign of each clause of a definition: what stands before it is a pattern, and makes nothing."""
    clauses = re.split(r'(?m)^(?=\S)', text)[2:]
    return [clause.partition('=')[2] for clause in clauses]


def given_in(tree, file, name):
    """What a definition gives for the number of each refusal that it makes."""
    called, found = makers(tree, file), []
    for side in right_sides(tree.definitions(file)[name]):
        found += [argument(side[m.end():], called[m.group()]) for m in re.finditer(NAME, side) if m.group() in called]
        found += re.findall(r'\bnumber = ([^;}\s]+)', side)
    return found


def numbers_of(tree):
    """The numbers of all refusals that the load comes down to, and each definition that makes one whose number does not show."""
    numbers, hidden = set(), []
    for file, name in sorted(tree.comes_down_to(LOADING, ['load'])):
        for said in given_in(tree, file, name):
            number = wrongs(tree, file).get(said, said)
            if number and number.isdigit():
                numbers.add(int(number))
            elif name not in HAND_ON and not re.fullmatch(r'\w+\.(?:number|wrong)|\(?' + WRONG + r'\b.*', number or ''):
                hidden.append(f'{file}: {name} makes a refusal, and its number does not show: {number}')
    return numbers, hidden


# ---- the page

class Manual:
    def __init__(self, root, text):
        self.root, self.text = root, text
        self.tree, self.facts, self.page = Tree(root), facts.Facts(root), Page(text)
        self.found = []

    def fault(self, what):
        self.found.append(what)

    def same(self, what, said, meant):
        if said != meant:
            self.fault(f'{what}: it says {said}, the definitions have {meant}')

    def listed(self, what, said, meant):
        """A list has all that is meant, nothing else, and in the same order."""
        for one in meant:
            if one not in said:
                self.fault(f'{what}: it leaves out {one}')
        for one in said:
            if one not in meant:
                self.fault(f'{what}: it has {one}, which the definitions do not have')
        if sorted(said) == sorted(meant) and said != meant:
            self.fault(f'{what}: it has them in another order than the definitions')
        if len(said) != len(set(said)):
            self.fault(f'{what}: it has one twice')

    def all(self):
        self.properties()
        self.limits()
        self.numbers()
        self.words()
        self.foreign()
        self.stored()
        return self.found

    def properties(self):
        """The table of properties has each one, with its words and its default; that of types has each type."""
        table = self.page.table('Properties', 'property')
        named = [spans(cell)[0] for cell in table.column('property') if spans(cell)]
        self.listed('the properties', named, list(self.facts.rules))
        for name, value, default in zip(named, table.column('value'), table.column('default')):
            rule = self.facts.rules.get(name)
            if rule is None:
                continue
            meant = self.facts.words.get(rule)
            if meant:
                self.listed(f'the values of {name}', spans(value), meant)
            else:
                self.same(f'the values of {name}', re.sub(r'\[([^\]]+)\]\([^)]*\)', r'\1', value), CALLED[rule])
            word = self.facts.defaults[name]
            self.same(f'the default of {name}', default, 'none' if word is None else f'`{word}`')

        types = [spans(cell)[0] for cell in self.page.table('Types', 'type').column('type')]
        self.listed('the types', types, self.facts.words['type'])

    def limits(self):
        limits, (whole, part, count) = self.facts.limits, self.facts.digits()
        units = self.facts.units()
        meant = {
            'services of a set': f'{limits["services"]}',
            'a name': f'1 to {limits["name"]} bytes of a-z A-Z 0-9 `-` `_` `.`',
            'a text': f'{limits["text"]:,} bytes',
            'all texts together': f'{limits["texts"]:,} bytes',
            'dependencies of one service, the three kinds together': f'{limits["dependencies"]}',
            'a time': f'{limits["time"] // units:,} s; {whole} digits before the point and {part} after it',
            'a unit of time': f'{1000 / units:g} ms; {units:,} are 1 s',
            'a count': f'{limits["count"]:,}; {count} digits',
        }
        table = self.page.table('Limits', 'what')
        said = {row[0]: row[1] for row in table.rows}
        self.listed('the limits', list(said), list(meant))
        for what in said:
            self.same(f'the limit of {what}', said[what], meant.get(what))
        bad = [int(number) for number in self.facts.found(BYTES, r'is_bad b = ltb b (\d+) \|\| \(ltb (\d+) b && ltb b (\d+)\) \|\| eqb b (\d+)')[0]]
        first = f'0 to {bad[0] - 1}, {bad[1] + 1} to {bad[2] - 1} or {bad[3]}'
        if first not in self.page.numbers().get(6, ''):
            self.fault(f'Number 6: the bad bytes are {first}')

    def numbers(self):
        """There is a section for each number that a load can give, and a link to it before the first section; it says where line and column point
        exactly where a number has them; and it has an example that is refused so."""
        numbers, hidden = numbers_of(self.tree)
        self.found += hidden
        sections = self.page.numbers()
        self.listed('the numbers of a load', list(sections), sorted(numbers))
        linked = re.findall(r'\[(\d+)\]\(#number-\1\)', self.text.partition('\n## ')[0])
        self.listed('the numbers linked at the top', [int(number) for number in linked], sorted(numbers))
        first, last = self.facts.found(REFUSALS, r'(?m)^has_byte n = leb (\d+) n && leb n (\d+)$')[0]
        absent = self.facts.found(REFUSALS, r'pick \(eqb [^\n]*? (\d+)\) 1 0')[0]
        pointed = [*range(int(first), int(last) + 1), int(absent)]
        for number, body in sections.items():
            if ('**Line and column:**' in body) != (number in pointed) or ('Line and column are 0' in body) == (number in pointed):
                self.fault(f'Number {number}: a line and a column have {pointed} alone')
            if not re.search(rf'\| {number}(?:, column \d+)? \||refused {number} service', body):
                self.fault(f'Number {number}: it has no example that is refused so')
            for limit in SAID.get(number, []):
                if f'{self.facts.limits[limit]:,}' not in body:
                    self.fault(f'Number {number}: it does not say the limit {self.facts.limits[limit]:,}')

    def words(self):
        """Each number's section begins with the sentence by which scripts/check explains it, and its advice with the same advice."""
        words = runpy.run_path(os.path.join(self.root, WORDS))
        for number, (means, do) in words['filled'](self.facts).items():
            body = ' '.join(self.page.numbers().get(number, '').split())
            if body and not body.startswith(means):
                self.fault(f'Number {number}: it does not begin as scripts/check explains it: {means}')
            if body and f'**Do:** {do}' not in body:
                self.fault(f'Number {number}: its advice is not that of scripts/check: {do}')

    def foreign(self):
        """What Dinit has and is not here: its properties and words, each with what scripts/check says to do instead, and none that is known here."""
        words = runpy.run_path(os.path.join(self.root, WORDS))
        table = self.page.table('Dinit has it, here not', 'property of Dinit')
        said = {name: instead for cell, instead in zip(table.column('property of Dinit'), table.column('instead')) for name in spans(cell)}
        for name in [*words['INSTEAD'], *said]:
            if name in self.facts.rules:
                self.fault(f'{name} is known, and is said to be Dinit\'s alone')
            elif said.get(name) != words['INSTEAD'].get(name):
                self.fault(f'the property {name} of Dinit: its table has {said.get(name)}, scripts/check {words["INSTEAD"].get(name)}')
        table = self.page.table('Dinit has it, here not', 'line')
        lines = {spans(cell)[0]: instead for cell, instead in zip(table.column('line'), table.column('instead'))}
        rules = {rule: name for name, rule in reversed(self.facts.rules.items()) if rule in words['INSTEAD_OF_WORDS']}
        for rule, name in rules.items():
            for word, instead in words['INSTEAD_OF_WORDS'][rule].items():
                if lines.get(f'{name} = {word}') != instead:
                    self.fault(f'{name} = {word} of Dinit: its table has {lines.get(f"{name} = {word}")}, scripts/check {instead}')
            for word in self.facts.words[rule]:
                if f'{name} = {word}' in lines:
                    self.fault(f'{name} = {word} is known, and is said to be Dinit\'s alone')

    def stored(self):
        """A refusal that is said of a stored case is stored."""
        for case, answer in re.findall(r'`(examples/[\w/\-]+)`\s+has\s+`(refused [^`]+)`', self.text):
            output = f'{case}/output'
            if not self.tree.exists(output) or answer not in self.tree.text(output).split('\n'):
                self.fault(f'{output} has no line: {answer}')



def faults(root, text):
    """What the page says and the definitions do not have, or the other way round; or that a definition has no longer the form that is read here."""
    try:
        return Manual(root, text).all()
    except (facts.Missing, KeyError, OSError) as error:
        return [f'it cannot be held to the definitions: {error!r}']
