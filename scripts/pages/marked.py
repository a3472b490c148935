"""A stretch of a page that a script writes, between two marks that name the script. What stands around it is written by hand."""

END = '<!-- end of what it made -->\n'


def mark(script):
    return f'<!-- made by {script} -->\n'


def split(page, script):
    """The page up to the stretch, the stretch, and the page after it; a ValueError where the page has no such marks."""
    start = page.index(mark(script)) + len(mark(script))
    end = page.index(END, start)
    return page[:start], page[start:end], page[end:]
