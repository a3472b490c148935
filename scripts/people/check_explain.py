"""Explains the fault of a single file, 3 and 5 to 14: what is wrong in words that name what stands there, and what to do about it.

The number, the line and the column are the proved program's. What is said of the bytes there is read off the file, for the words only.
"""
import os
import re

import words
from check_form import no_text
from check_line import Line, held_end, lines_of, says
from check_show import numbered, pointed, quoted, spoken, visible
from check_values import Value, name_faults, near_properties, one_of

MARK = b'\xef\xbb\xbf'
FORM = 'Write the line as `name = value`.'
TYPE = b'type'


class Report:
    """What is said of one fault: a line of the form FILE:LINE: words [NUMBER], then the line itself, then what to do."""

    def __init__(self, subject, number, said, line=0, shown=(), do=()):
        self.subject, self.number, self.line = subject, number, line
        self.said, self.shown, self.do = said, list(shown), [one for one in do if one]

    def text(self):
        place = visible(self.subject) or '(no name)'
        place += f':{self.line}' if self.line else ''
        number = 'unreadable' if self.number is None else self.number
        return [f'{place}: {self.said} [{number}]', *self.shown, *(f'  {one}' for one in self.do)]


class Fault:
    """A file's own fault, and the words for it by number."""

    def __init__(self, known, file, answer):
        self.known, self.file, self.answer = known, file, answer
        self.line, self.before = file.line(answer.line), file.line(answer.line - 1)
        self.read = Line(self.line)
        self.at = answer.column - 1

    def report(self):
        said, do = getattr(self, f'number_{self.answer.number}', self.unknown)()
        shown = pointed(self.line, self.answer.line, self.answer.column) if self.answer.line else []
        if self.answer.number in (7, 10) and held_end(self.before):
            said, do = self.went_on(said)
            shown = numbered(self.before, self.answer.line - 1) + shown
        return Report(self.file.name, self.answer.number, said, self.answer.line, shown, do)

    def went_on(self, said):
        """Of a line after one that was perhaps to go on in it: that one's last backslash holds white space, as in a file with CRLF."""
        number = self.answer.line - 1
        return (f'line {number} ends in a backslash and {spoken(held_end(self.before))}, and no value goes on in the next line',
                [f'Write the whole value on line {number}, without that backslash.', f'As a line of its own: {said}.'])

    def usual(self):
        return words.DO.get(self.answer.number, '')

    def unknown(self):
        """A number that has no words of its own here: those of the table, where it is there."""
        return lowered(words.MEANS.get(self.answer.number, 'it is refused.')), [self.usual()]

    # ---- The name, the size and the bytes.

    def number_3(self):
        name, end = self.file.name, os.path.basename(self.file.name.rstrip(b'/'))
        do = self.usual() if name else 'Leave the empty name out.'
        if b'/' in name:
            did = f': did you mean {quoted(end)}?' if os.path.isfile(os.path.join(self.file.folder, end)) else '.'
            do = f'A service is named by its file\'s name alone, without a path or a slash{did}'
        return name_report(name, self.known), [do]

    def number_5(self):
        limit = self.known.limits['text']
        said = f'the text is {self.file.size:,} bytes long, and {limit:,} are the most'
        return (f'{said}; it has zero bytes', no_text(self.file)[1]) if 0 in self.file.text else (said, [self.usual()])

    def number_6(self):
        rest = self.line[self.at:]
        return no_text(self.file) or \
            (f'{spoken(rest) if rest else "a byte here"} may not stand in a description, nor in a comment of it', [self.usual()])

    # ---- A line that is no name, sign and value.

    def number_7(self):
        if self.at > self.read.after:
            return ('`#` stands inside a word, and only one after white space begins a comment',
                    ['Put a blank before it where it begins a comment; where it belongs to the value write `\\#`, or put the value in quotes.'])
        return self.no_sign() if self.read.name else self.no_name()

    def no_name(self):
        rest = self.line[self.at:]
        if self.answer.line == 1 and rest.startswith(MARK):
            return ('the file begins with a byte order mark (the bytes \\xef\\xbb\\xbf), and a description has none',
                    [f"Save it without one, or take it out: sed -i '1s/^\\xef\\xbb\\xbf//' {self.file.shell()}"])
        if rest[:1] in (b'=', b':'):
            return f'there is no property\'s name before the `{rest[:1].decode()}`', [FORM]
        if rest.startswith(b'@'):
            return f'{quoted(rest.split()[0])}: Dinit has such commands, here not', ['Copy the lines that it would bring in.']
        if rest[:1] == b';' or rest.startswith((b'//', b'--')):
            return 'no property\'s name begins here, and a comment begins with `#`', []
        return self.bad_word(rest)

    def no_sign(self):
        name, rest = self.read.name.decode(), self.line[self.read.after:]
        if self.line[self.read.after - 1:self.read.after] == self.read.name[-1:] and rest[:1] not in (b'', b'#', b'+', b'"', b'\\'):
            return self.bad_word(self.read.name + rest)
        if rest.startswith(b'+='):
            return 'Dinit\'s `+=` is not taken up', [f'Write the whole value on one line: `{name} = ..`.']
        if rest[:1] in (b'', b'#'):
            return f'there is no `=` or `:` after `{name}`', [FORM]
        return f'there is no `=` or `:` between `{name}` and {quoted(rest.split()[0])}', [self.signed(name, rest)]

    def signed(self, name, rest):
        """What a line of a name, then a word and no sign was to be: `depends on: x`, or `restart yes`."""
        joined = '-'.join([name, *visible(re.split(b'[=:]', rest)[0]).split()])
        if joined in self.known.rules:
            return f'Did you mean `{joined}`?'
        value = Value(self.known, Line(b'%s = %s' % (name.encode(), rest))) if name in self.known.rules else None
        return f'Write {value.line(visible(value.raw))}.' if value and value.is_good(rest) else FORM

    def bad_word(self, rest):
        """A name with a byte that no name has: the nearest property, by small letters and `-`."""
        word = rest.replace(b':', b' ').replace(b'=', b' ').split()[0]
        bad = re.search(rb'[^a-z.\-]', word)
        here = spoken(word[bad.start():]) if bad else ''
        meant, do = self.meant(word.decode('latin-1').lower().replace('_', '-'))
        said = f'{quoted(word)} is no property: a property\'s name has only a-z, `-` and `.`'
        if not meant:
            return f'{said}, and here is {here}', [FORM]
        return f'{said}; {meant}', do or ['' if visible(word).isascii() and '\\x' not in visible(word) else f'Here is {here}.']

    # ---- Inside a value.

    def number_8(self):
        return f'the quote at column {self.answer.column} is still open at the end of the line', [self.usual()]

    def number_9(self):
        return 'the value ends in a backslash, and no value goes on in the next line', [self.usual()]

    def number_10(self):
        name = self.read.name.decode()
        meant, do = self.meant(name)
        if not meant:
            return f'unknown property `{name}`', [self.properties()]
        return f'unknown property `{name}`{", " if meant.startswith("did") else ": "}{meant}', do

    def properties(self):
        return f'The properties are {", ".join(self.known.rules)}.'

    def meant(self, name):
        """Which property a name was to be, and what to do: one of Dinit's by its name, else those that are near; '' where none is."""
        if name in words.INSTEAD:
            return f'Dinit has `{name}`, here not', [words.INSTEAD[name]]
        near = near_properties(name, self.known.rules)
        if near:
            return f'did you mean {one_of(near)}?', []
        near = near_properties(name, words.INSTEAD)
        return self.guessed(near[0]) if near else ('', [])

    def guessed(self, name):
        """A property of Dinit's that is merely near the one given: as it is a guess, no line is to be taken out for it."""
        instead = words.INSTEAD[name]
        return f'Dinit has `{name}`, here not: is that meant?', [self.properties(), '' if instead.startswith('Take') else f'For `{name}`: {instead}']

    def number_11(self):
        if self.read.name.decode() not in self.known.rules:
            return self.unknown()
        value = Value(self.known, self.read)
        return value.words(), [value.why()]

    # ---- What the description lacks, or has too much of.

    def number_12(self):
        return f'one dependency too many: a service has at most {self.known.limits["dependencies"]}', [self.usual()]

    def number_13(self):
        if not any(says(line) for line in lines_of(self.file.text)):
            empty = 'the file is empty' if not self.file.text else 'no line of the file says anything'
            return f'{empty}, so there is no type', [self.usual()]
        return 'no line gives the type', [self.usual()]

    def number_14(self):
        given = [line.tokens for line in map(Line, lines_of(self.file.text)) if line.name == TYPE and len(line.tokens) == 1]
        kind = f'a service of type {visible(given[-1][0])}' if given else 'this service'
        return f'{kind} needs a command, and no line gives one', [self.usual()]


def lowered(sentence):
    return sentence[0].lower() + sentence[1:].rstrip('.')


def name_report(name, known):
    return f'this is no name of a service: {name_faults(name, known.limits["name"])}; a name is 1 to {known.limits["name"]} of {words.NAME_WORDS}'
