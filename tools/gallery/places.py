"""The cells that the characters of a text are in, and whether what shows the text has them there: by positions, or by ink."""
import collections
import itertools
import re

from inks import TAB, cells

# The cells of an SVG document: where the first column begins, the baseline of the first row, and the size of a cell.
LEFT, BASELINE, CELL, ROW = 12, 25, 9, 18
# The part of a cell by which a character may be off.
OFF = 0.25
# What ink is sought in, above and below a baseline: that of a character, and that which crosses a cell that has to be blank.
INKED, BLANK = (-13, 4), (-10, 1)
# A place in the margin of a document.
MARGIN = (6, 12)

Place = collections.namedtuple('Place', 'row column width character')


def places(text):
    """The places of the characters of a text that are not white space."""
    for row, line in enumerate(text.split('\n')):
        column = 0
        for character in line:
            if character not in ' \t':
                yield Place(row, column, cells(character), character)
            column += TAB - column % TAB if character == '\t' else cells(character)


def size_of(document):
    """The width and the height of an SVG document."""
    return tuple(int(n) for n in re.search(' width="([0-9]+)" height="([0-9]+)"', document).groups())


def in_cells(found):
    """Characters of an SVG document, their edges counted in cells."""
    return [[c, (left - LEFT) / CELL, (right - LEFT) / CELL, y] for c, left, right, y in found]


def misplaced(text, found):
    """What is wrong with the characters that a browser shows of a text: each with its edges in cells, and its height."""
    wanted = list(places(text))
    shown, seen = (''.join(characters) for characters in ([c for c, *_ in found], [place.character for place in wanted]))
    if shown != seen:
        yield 'its characters are %r, not %r' % (shown, seen)
        return
    for place, (_, left, right, _) in zip(wanted, found):
        if place.width and (abs(left - place.column) > OFF or right > place.column + place.width + OFF):
            yield '%r of row %d is from %.2f to %.2f, not in the %d cells at %d' % (
                place.character, place.row, left, right, place.width, place.column)
    rows = itertools.groupby(zip(wanted, found), lambda both: both[0].row)
    heights = [[y for _, (*_, y) in row] for _, row in rows]
    if any(max(above) >= min(below) for above, below in zip(heights, heights[1:])):
        yield 'its rows are not one below another'


class Ink:
    """Where an image has ink, which is what differs from the color of its margin: a document's units are `scale` pixels, and it begins at a height."""

    def __init__(self, image, scale, top):
        self.image, self.scale, self.top = image, scale, top
        self.paper = image.pixel(MARGIN[0] * scale, (top + MARGIN[1]) * scale)

    def has(self, row, left, right, heights):
        """Whether there is ink in a row between two columns, and between two heights beside its baseline."""
        low, high = (round((self.top + BASELINE + ROW * row + height) * self.scale) for height in heights)
        first, end = (round((LEFT + CELL * column) * self.scale) for column in (left, right))
        paper, step = self.paper * (end - first), self.image.channels
        for line in self.image.rows[low:high]:
            part = line[first * step:end * step]
            if b''.join((part[at::step] for at in range(3))) != b''.join((paper[at::3] for at in range(3))):
                return True
        return False


def wrong_ink(text, ink, columns):
    """The cells in which an image of a text has no ink for a character, or has ink for none."""
    taken = {}
    for place in places(text):
        taken.update({(place.row, place.column + at): None for at in range(place.width)})
        if place.width and not ink.has(place.row, place.column - OFF, place.column + place.width + OFF, INKED):
            yield 'no ink in row %d at %d, for %r' % (place.row, place.column, place.character)
    for row, column in itertools.product(range(text.count('\n')), range(columns)):
        if (row, column) not in taken and ink.has(row, column + OFF, column + 1 - OFF, BLANK):
            yield 'ink in row %d at %d, for no character' % (row, column)
