"""docs/DESCRIPTIONS.md, taken apart: its sections, its tables, and its examples of whole files. The check of the pages holds these to the
definitions, and `scripts/people/test_manual.py` runs the examples on the proved programs."""
import re

PAGE = 'docs/DESCRIPTIONS.md'

# What stands on the page for a byte that would not show.
SHOWN = {'␉': '\t', '␍': '\r', '␇': '\a'}


def spans(cell):
    """What a cell has in code quotes."""
    return re.findall(r'`([^`]+)`', cell)


def as_bytes(shown):
    for sign, byte in SHOWN.items():
        shown = shown.replace(sign, byte)
    return shown.encode()


def anchor(heading):
    """What a link to a heading is called: small letters, a hyphen for each space, no other signs."""
    return re.sub(r'[^\w\- ]', '', heading.lower()).replace(' ', '-')


class Table:
    """A table of the page: the heading that it stands under, the cells of its first row, and its other rows."""

    def __init__(self, heading, head, rows):
        self.heading, self.head, self.rows = heading, head, rows

    def column(self, name):
        """The cells of a column, or nothing where there is none."""
        return [row[self.head.index(name)] for row in self.rows] if name in self.head else []


class Page:
    """`sections`: the text under each heading, by the heading. `tables`: every table, in order. `sets`: each example of whole files, as its files,
    name and text, who answers, and the answer."""

    def __init__(self, text):
        self.text = text
        self.sections = self.cut()
        self.tables = [table for heading, body in self.sections.items() for table in tables_in(heading, body)]
        self.sets = [found for body in self.sections.values() for found in sets_in(body)]

    def cut(self):
        heading, found = '', {'': ''}
        for line in self.text.split('\n'):
            if re.match(r'#+ ', line):
                heading = line.lstrip('# ')
                found[heading] = ''
            else:
                found[heading] += line + '\n'
        return found

    def table(self, heading, first):
        """The table under a heading whose first column has a name; an empty one where there is none."""
        for table in self.tables:
            if table.heading == heading and table.head[0] == first:
                return table
        return Table(heading, [first], [])

    def numbers(self):
        """The text under `Number N`, by N."""
        return {int(heading.split()[1]): body for heading, body in self.sections.items() if re.fullmatch(r'Number \d+', heading)}


def cells(line):
    return [cell.strip() for cell in line.strip().strip('|').split('|')]


def tables_in(heading, body):
    lines, found = body.split('\n'), []
    for k, line in enumerate(lines):
        if re.fullmatch(r'\|(?:---\|)+', line):
            end = next(e for e in range(k, len(lines) + 1) if e == len(lines) or not lines[e].startswith('|'))
            found.append(Table(heading, cells(lines[k - 1]), [cells(row) for row in lines[k + 1:end]]))
    return found


def block_after(lines, k):
    """The lines of the code block that follows line k, as one text. An empty line belongs to it where the block goes on behind it."""
    end = next(e for e in range(k + 1, len(lines) + 1) if e == len(lines) or lines[e] and not lines[e].startswith('    '))
    return '\n'.join(line[4:] for line in lines[k + 1:end]).strip('\n') + '\n'


def sets_in(body):
    """A line `A file ..:` begins a block with a file's text; the next line that is `Answer:` or `it begins:` begins the answer of the proved
    program, or the first lines of what scripts/check says."""
    lines, files, found = body.split('\n'), {}, []
    for k, line in enumerate(lines):
        named = re.fullmatch(r'A file `([^`]+)`:', line)
        if named:
            files[named.group(1)] = block_after(lines, k)
        elif files and line in ('Answer:', 'it begins:'):
            found.append((files, line, block_after(lines, k)))
            files = {}
    return found
