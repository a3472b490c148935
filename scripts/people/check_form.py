"""What a file is that is no text: one whose characters take two or four bytes each, or one with zero bytes."""
from check_line import lines_of

# What such a file may begin with, and its form as iconv names it; the longer marks first.
MARKS = ((b'\xff\xfe\0\0', 'UTF-32'), (b'\0\0\xfe\xff', 'UTF-32'), (b'\xff\xfe', 'UTF-16'), (b'\xfe\xff', 'UTF-16'))

# Without a mark: the form, the bytes of a character, and which of them is the low one.
FORMS = (('UTF-32LE', 4, 0), ('UTF-32BE', 4, 3), ('UTF-16LE', 2, 0), ('UTF-16BE', 2, 1))


def wide_form(text):
    """The form of a text in UTF-16 or UTF-32, or '': every low byte is another than zero, and most others are zero."""
    for mark, form in MARKS:
        if text.startswith(mark):
            return form
    for form, width, place in FORMS:
        low = text[place::width]
        if 0 not in low and text.count(0) * 4 > (len(text) - len(low)) * 3:
            return form
    return ''


def no_text(file):
    """What a file with zero bytes is, and what to do about it; nothing where it has none."""
    form, zeros = wide_form(file.text), file.text.count(0)
    if form:
        return (f'the file is {form[:6]}, and a description is ASCII or UTF-8',
                [f'Convert it: iconv -f {form} -t UTF-8 {file.shell()} > NEW, and put NEW in its place.'])
    if zeros:
        first = len(lines_of(file.text[:file.text.index(0)]))
        return (f'the file has {zeros:,} zero byte{"s" * (zeros > 1)}, from line {first} on: it is damaged, or no text',
                ['Put a good copy in its place, or leave it out.'])
    return None
