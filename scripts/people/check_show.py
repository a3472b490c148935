"""Shows bytes to a technician: a name, a value, or a line with a caret under one of its bytes. Bytes that do not show are made visible."""
import shlex
import unicodedata

# The most cells of a line, and of a value in a sentence, that are shown.
WIDEST_LINE = 100
WIDEST_VALUE = 60

CONTROLS = ('NUL SOH STX ETX EOT ENQ ACK BEL BS HT LF VT FF CR SO SI DLE DC1 DC2 DC3 DC4 NAK SYN ETB CAN EM SUB ESC FS GS RS US').split()
SPOKEN = {9: 'a tab', 10: 'a newline', 13: 'a carriage return', 32: 'a blank', 34: 'a quote', 92: 'a backslash', 96: 'a backquote'}


def cells(some):
    """What is shown of each character, and the number of bytes it stands for: a tab as one blank, what does not show as \\xNN for each byte."""
    for character in some.decode('utf-8', 'surrogateescape'):
        raw = character.encode('utf-8', 'surrogateescape')
        if character == '\t':
            yield ' ', 1
        elif character.isprintable():
            yield character, len(raw)
        else:
            yield ''.join(f'\\x{byte:02x}' for byte in raw), len(raw)


def width(shown):
    """The cells that a terminal gives to some characters."""
    if shown.isascii():
        return len(shown)
    return sum(0 if unicodedata.combining(c) else 2 if unicodedata.east_asian_width(c) in 'WF' else 1 for c in shown)


def visible(some):
    return ''.join(shown for shown, _ in cells(some))


def shell_word(some):
    """A word of a command to be copied: bash reads it back as the same bytes."""
    shown = some.decode('utf-8', 'surrogateescape')
    if shown.isprintable():
        return shlex.quote(shown)
    return "$'" + ''.join(chr(byte) if 32 <= byte < 127 and byte not in b"\\'" else f'\\x{byte:02x}' for byte in some) + "'"


def quoted(some):
    """A name or a value within a sentence; a long one is cut."""
    shown = visible(some)
    return '`' + (shown if len(shown) <= WIDEST_VALUE else shown[:WIDEST_VALUE] + '..') + '`'


def spoken(some):
    """What the first character of some bytes is called; it is given by its byte where it is none."""
    character = some.decode('utf-8', 'surrogateescape')[0]
    byte = some[0]
    if byte in SPOKEN:
        return SPOKEN[byte]
    if byte < 32 or byte == 127:
        return f'the control character \\x{byte:02x} ({"DEL" if byte == 127 else CONTROLS[byte]})'
    if byte < 127:
        return f'`{character}`'
    name = unicodedata.name(character, '').lower()
    return f'the character U+{ord(character):04X} ({name})' if name else visible(some[:1])


def within(shown, place):
    """The first and the last of the cells that are shown: all where they fit, else those around a place."""
    widths = [width(cell) for cell in shown]
    if sum(widths) <= WIDEST_LINE:
        return 0, len(shown)
    first, room = place, WIDEST_LINE // 2
    while first > 0 and widths[first - 1] <= room:
        first -= 1
        room -= widths[first]
    last, room = place, WIDEST_LINE // 2 + room
    while last < len(shown) and widths[last] <= room:
        room -= widths[last]
        last += 1
    return first, last


def numbered(line, number):
    """A line with its number; a long one is cut at its end."""
    return pointed(line, str(number), 1)[:1]


def pointed(line, number, column):
    """A line with its number or name, and a caret under the byte at a column; past the line where the byte is missing."""
    shown, place, at = [], 0, 0
    for cell, size in cells(line):
        at += size
        place += at < column
        shown.append(cell)
    first, last = within(shown, place)
    before = ('..' if first else '') + ''.join(shown[first:place])
    after = ''.join(shown[place:last]) + ('..' if last < len(shown) else '')
    margin = ' ' * len(str(number))
    return [f'  {number} | {before}{after}', f'  {margin} | {" " * width(before)}^ column {column}']
