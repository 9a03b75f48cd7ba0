"""Outputs in colors: read from escape sequences, written as SVG documents, and read back from these."""
import re
import unicodedata
import xml.etree.ElementTree

# Unicode's property Bidi_Control.
DIRECTIONAL = '\u061c\u200e\u200f\u202a\u202b\u202c\u202d\u202e\u2066\u2067\u2068\u2069'
# What safe text leaves out besides control characters, and what it replaces besides noncharacters.
LEFT_OUT = DIRECTIONAL + '\u00ad\u200d\u3164\ufeff\uffa0'
REPLACED = '\u2028\u2029\ufff9\ufffa\ufffb'
# The columns between tab stops, as browsers have them.
TAB = 8
SPACES = ' \n\t'
# The blocks that Unicode has for right-to-left scripts.
RIGHT_TO_LEFT = ((0x590, 0x8ff), (0xfb1d, 0xfdff), (0xfe70, 0xfeff), (0x10800, 0x10fff), (0x1e800, 0x1efff))
ENTITIES = {'&': '&amp;', '<': '&lt;', '>': '&gt;'}
SHADES = ('#6e7681', '#ff7b72', '#7ee787', '#e3b341', '#79c0ff', '#d2a8ff', '#56d4dd', '#b1bac4')
PLAIN = (None, False)
FONT = 'font-family="DejaVu Sans Mono, Menlo, Consolas, monospace" font-size="15" fill="#e6edf3"'


def glyphs(text):
    """The characters of a text with escape sequences, each with its ink: the shade of its color, if it has one, and whether it is bold."""
    ink = PLAIN
    for part in re.split('(\x1b\\[[0-9;]*m)', text):
        sequence = re.fullmatch('\x1b\\[(?:(0)|(1)|3([0-7])|38;5;([0-9]+))m', part)
        if not sequence:
            yield from ((c, ink) for c in part)
            continue
        reset, bold, color, bright = sequence.groups()
        shade = SHADES[int(color)] if color else SHADES[int(bright) - 8] if bright else ink[0]
        ink = PLAIN if reset else (shade, ink[1] or bool(bold))


def shown_character(c):
    """What safe text has for a character: nothing, U+FFFD, or the character."""
    if c in LEFT_OUT or (unicodedata.category(c) == 'Cc' and c not in '\t\n'):
        return ''
    is_noncharacter = 0xfdd0 <= ord(c) <= 0xfdef or ord(c) & 0xfffe == 0xfffe
    return '\ufffd' if c in REPLACED or is_noncharacter else c


def cells(c):
    """The cells that a character takes."""
    if unicodedata.category(c) in ('Cc', 'Mn', 'Me', 'Cf'):
        return 0
    return 2 if unicodedata.east_asian_width(c) in 'WF' else 1


def placed(characters):
    """Glyphs with the row and the column of each, and newlines with where their row ends."""
    row = column = 0
    for c, ink in characters:
        yield row, column, c, ink
        width = TAB - column % TAB if c == '\t' else cells(c)
        row, column = (row + 1, 0) if c == '\n' else (row, column + width)


def shown(characters):
    """The glyphs that a document has in its texts, with their rows and columns: all that are shown but white space."""
    return [glyph for glyph in placed(safe(characters)) if glyph[2] not in SPACES]


def safe(characters):
    """Glyphs as safe text has them."""
    return [(shown_character(c), ink) for c, ink in characters if shown_character(c)]


def runs_left(c):
    """Whether a character is of a right-to-left script."""
    return any(first <= ord(c) <= last for first, last in RIGHT_TO_LEFT)


def keeps_order(before, c):
    """Whether a character is shown after the one before it, whatever the direction of a script: a mark, which takes no cell, is shown on it."""
    return not (runs_left(before) or runs_left(c)) or (runs_left(c) and cells(c) == 0)


def joins(before, glyph):
    """Whether a glyph belongs to the text of the one before it: neither is white space, both take one cell or none, in one ink, and the order is kept."""
    alike = before[3] == glyph[3] and all(c not in SPACES and cells(c) < 2 for c in (before[2], glyph[2]))
    return alike and keeps_order(before[2], glyph[2])


def pieces(characters):
    """The glyphs of each text, and each character of white space alone."""
    joined = []
    for glyph in placed(characters):
        if joined and not joins(joined[-1], glyph):
            yield joined
            joined = []
        joined.append(glyph)
    if joined:
        yield joined


def piece_text(joined):
    """A piece of a document: white space as it is, or a text."""
    row, column, first, (shade, bold) = joined[0]
    if first in SPACES:
        return first
    attributes = 'x="%d" y="%d" textLength="%d"' % (12 + 9 * column, 25 + 18 * row, 9 * sum(cells(glyph[2]) for glyph in joined))
    ink = (' fill="%s"' % shade if shade else '') + (' font-weight="bold"' if bold else '')
    return '<text %s%s>%s</text>' % (attributes, ink, ''.join(ENTITIES.get(glyph[2], glyph[2]) for glyph in joined))


def document(characters):
    """The SVG document that shows glyphs."""
    characters = safe(characters)
    rows = sum(c == '\n' for c, _ in characters)
    columns = max(column for _, column, c, _ in placed([*characters, ('\n', PLAIN)]) if c == '\n')
    size = (24 + 9 * columns, 24 + 18 * rows)
    head = '<svg xmlns="http://www.w3.org/2000/svg" width="%d" height="%d" viewBox="0 0 %d %d" %s>\n' % (*size, *size, FONT)
    background = '<rect width="100%" height="100%" rx="6" fill="#161b22"/>\n'
    return head + background + ''.join(map(piece_text, pieces(characters))) + '</svg>\n'


def glyphs_of_svg(text):
    """The glyphs of a document's texts with their rows and columns, as a reader of XML finds them; no text has white space."""
    for part in xml.etree.ElementTree.fromstring(text).iter('{http://www.w3.org/2000/svg}text'):
        row, column = (int(part.get('y')) - 25) / 18, (int(part.get('x')) - 12) / 9
        ink = (part.get('fill'), part.get('font-weight') == 'bold')
        assert not re.search('[ \t\r\n]', part.text), part.text
        for c in part.text:
            yield row, column, c, ink
            column += cells(c)
        assert column * 9 + 12 == int(part.get('x')) + int(part.get('textLength')), part.attrib
