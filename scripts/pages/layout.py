"""Holds the layout on the host's page to the definitions: which number is which of a table and of a state as plain numbers, the words of each list,
the sizes, the parts of the answers, the numbers of a run's actions, and the pair as numbers.

A host in another language writes its offsets from that page, and no compiler would see one that is wrong.
"""
import re

from tree import Tree
from facts import Facts, Missing
from manual_page import cells

ENCODING = 'crates/plain_encoding/specs/Numbers.antt'
VALUES = 'crates/service/specs/Numbers.antt'
LIMITS = 'crates/service/specs/Limits.antt'
FORMS = 'crates/plain/src/forms.rt'
PAIR = 'crates/loader/specs/Examples.antt'

# The lists of words: the row and the cell of the layout that has each, from 0.
LISTS = {'kind_number': (0, 2), 'phase_number': (0, 4), 'cause_number': (4, 4), 'signal_number': (7, 2)}

# The numbers of a run's actions: a signal's come after those of three others.
FIRST_SIGNAL = 3


class Layout:
    """What the definitions say."""

    def __init__(self, root):
        self.tree = Tree(root)

    def body(self, path, name):
        """A definition without its signature."""
        return self.tree.definitions(path)[name].split('=', 1)[1]

    def fields(self, path, name):
        """The field of each number of a place, in order; nothing where the number is 0."""
        items = [item.strip() for item in self.body(path, name).split('∷')]
        return [(re.search(r'\.«?(\w+)»?', item) or [None, None])[1] for item in items if item != '[]']

    def words(self, name):
        """A list of words with their numbers, as the page writes it: signals in capitals, no signal and no cause as none."""
        found = re.findall(r'(?m)^' + name + r' (\w+) = (\d+)$', self.tree.definitions(VALUES)[name])
        return [(int(number), self.word(name, variant)) for variant, number in found]

    @staticmethod
    def word(name, variant):
        if variant.startswith('No'):
            return 'none'
        return variant.upper() if name == 'signal_number' else variant.lower()

    def number(self, path, name):
        return int(re.search(r'\d+', self.body(path, name)).group())

    def parts(self):
        """The parts of each type of `plain` as the page writes them: the fields of a struct, the variants of an enum with what they carry."""
        found = {}
        for name, words in self.tree.types(FORMS):
            inside = words[words.index('{') + 1:words.rindex('}')].strip()
            if words.startswith('enum'):
                found[name] = re.findall(r'\w+(?:\([^)]*\))?', inside)
            else:
                found[name] = re.findall(r'(\w+):', inside)
        return found

    def settings(self, kind, restart, hard):
        """The sixteen numbers of a service that has the defaults for all else."""
        term = next(number for number, word in self.words('signal_number') if word == 'TERM')
        given = {**Facts(self.tree.root).numbers, 'kind': kind, 'restart': restart, 'signal': term, 'hard': hard}
        return ' '.join(str(given.get(field, 0)) for field in self.fields(VALUES, 'settings_numbers'))

    def ends(self):
        """The positions of the pair, from its names and texts."""
        last, found = 0, []
        for name, text in re.findall(r'service "(\w+)" "([^"]*)"', self.body(PAIR, 'pair')):
            last += len(name)
            found.append(last)
            last += len(text.replace('\\n', '\n'))
            found.append(last)
        return found


def quoted(cell):
    return re.findall(r'`([^`]+)`', cell)


def of_places(layout, page):
    """The rows of the layout."""
    table, state = layout.fields(VALUES, 'settings_numbers'), layout.fields(ENCODING, 'record_numbers')
    rows = {cells(line)[0]: cells(line) for line in page.split('\n') if re.match(r'\| \d+ \|', line) and len(cells(line)) == 5}
    for at, both in enumerate(zip(table, state)):
        if both == (None, None):
            continue
        row = rows.get(str(at), [''] * 5)
        if (quoted(row[1]), quoted(row[3])) != tuple([name] if name else [] for name in both):
            yield f'the layout has {quoted(row[1] + row[3])} at {at}, and the definitions have {both}'
    for name, (at, cell) in LISTS.items():
        words = ', '.join(f'{number} {word}' for number, word in layout.words(name))
        if rows.get(str(at), [''] * 5)[cell] != words:
            yield f'the layout does not have the list of {name} at {at}: {words}'
    used = max(at for at, both in enumerate(zip(table, state)) if both != (None, None))
    if f'| {used + 1} to {len(table) - 1} | | 0 | | 0 |' not in page:
        yield f'the layout does not say that {used + 1} to {len(table) - 1} are 0'


def of_sizes(layout, page):
    """What is said of sizes, and the words that say it."""
    front, each, places = layout.number(ENCODING, 'in_front'), layout.number(ENCODING, 'per_place'), layout.number(LIMITS, 'max_services')
    numbers = front + each * places
    for words in (f'{numbers} numbers of 8 bytes, {8 * numbers:,} bytes: {front} in front, and {each} for each of {places} places',
                  f'begin at {front} + {each} s', f'A fresh state is {numbers} times 0', f'A state is {8 * numbers:,} bytes',
                  f'| {2 * places} numbers: how many tokens'):
        if words not in page:
            yield f'it does not say: {words}'


def of_types(layout, page):
    """The parts of the answers: the quoted words of a type's row, up to the first colon."""
    for name, parts in layout.parts().items():
        said = [quoted(cells(line)[1].split(': ')[0]) for line in page.split('\n') if line.startswith(f'| `{name}` |')]
        if said != [parts]:
            yield f'{name} has {parts}, and the page says {said}'


def of_runs(layout, page):
    """The numbers of the signals that a run writes."""
    words = ', '.join(f'{FIRST_SIGNAL + number} {word}' for number, word in layout.words('signal_number') if number)
    if words not in ' '.join(page.split()):
        yield f'it does not have the numbers of the signals of a run: {words}'
    if f'= {FIRST_SIGNAL} + signal_number g' not in layout.tree.definitions(VALUES)['action_number']:
        yield f'the signals of a run no longer begin at {FIRST_SIGNAL}'


def of_the_pair(layout, page):
    """The pair as numbers."""
    kinds = {word: number for number, word in layout.words('kind_number')}
    expected = ['ends     ' + ' '.join(map(str, layout.ends())), layout.settings(kinds['process'], 1, 0), layout.settings(kinds['process'], 1, 1),
                layout.settings(kinds['internal'], 0, 0) + ', thirty times']
    for line in expected:
        if not re.search(r'(?m)^ {4,}' + re.escape(line) + '$', page):
            yield f'the pair has no line: {line}'


def faults(root, page):
    layout = Layout(root)
    try:
        return [fault for check in (of_places, of_sizes, of_types, of_runs, of_the_pair) for fault in check(layout, page)]
    except (KeyError, AttributeError, OSError, StopIteration, Missing) as error:
        return [f'its layout cannot be held to the definitions: {error!r}']
