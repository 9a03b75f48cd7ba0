"""Suggestions over several files as a model: their files and errors, and the output as a diagnostic shows it.

A case has files, which are a name and a text, edits, which are the index of a file and an edit as in model.py, and settings."""
import re
from collections import namedtuple

from model import diff, edited, fault, lines, order_of, patched

Case = namedtuple('Case', 'files edits message applicability tab before after ascii')
# A file with an edit: its name, its text, its edits in order, and the text after them.
Changed = namedtuple('Changed', 'index name text edits new')

# The cells of the characters that random texts have; all others take one.
CELLS = {'路': 2, '界': 2, '\u0301': 0, '\u200b': 0, '\0': 0, '\r': 0, '\x1b': 0, '\x7f': 0}
# The escape sequences of the styles: the header and its message, borders and numbers, removed lines, added lines, and none.
STYLES = {'help': '\x1b[0m\x1b[1m\x1b[38;5;14m', 'message': '\x1b[0m\x1b[1m', 'border': '\x1b[0m\x1b[36m', '-': '\x1b[0m\x1b[31m', '+': '\x1b[0m\x1b[32m',
          'plain': '\x1b[0m'}


def files_of(case):
    """The files with an edit, in the order of their first edits; or the text of the first error."""
    found = []
    for index in dict.fromkeys(file for file, *_ in case.edits):
        if index >= len(case.files):
            return 'file missing'
        name, text = case.files[index]
        names = [at for at, edit in enumerate(case.edits) if edit[0] == index]
        edits = [case.edits[at][1:] for at in names]
        error = fault(text, edits, names)
        if error:
            return error
        found.append(Changed(index, name, text, [edits[at] for at in order_of(edits)], edited(text, edits)))
    return found


def hunks_of(rows, before, after):
    """The runs of drawn rows."""
    near = {at for changed, row in enumerate(rows) if row[0] != '=' for at in range(changed - before, changed + after + 1)}
    drawn = [at in near or {at - 1, at + 1} <= near for at in range(len(rows))]
    hunks = []
    for at, row in enumerate(rows):
        if drawn[at] and (at == 0 or not drawn[at - 1]):
            hunks.append([])
        if drawn[at]:
            hunks[-1].append(row)
    return hunks


def rows_of(file):
    """The rows of the diff of a file."""
    return diff(file.text, file.new, file.edits)


def hunks_in(case, files):
    """Each file that changes, with its hunks by the context of the case."""
    with_hunks = [(file, hunks_of(rows_of(file), case.before, case.after)) for file in files]
    for file, hunks in with_hunks:
        assert b''.join(patched(lines(file.text), [row for hunk in hunks for row in hunk])) == file.new, 'the drawn rows are no patch'
    return [pair for pair in with_hunks if pair[1]]


def line_and_column(text, byte, count):
    """The line of a byte and its column, both from 0; the column is what `count` makes of the text before it in its line."""
    before = text[:byte].split(b'\n')
    return len(before) - 1, count(before[-1])


def locus(file):
    """The name of a file and where its first edit starts."""
    line, column = line_and_column(file.text, file.edits[0][0], lambda part: len(part.decode()))
    return '%s:%d:%d' % (file.name, line + 1, column + 1)


def end_of(line):
    """The end of a line that no row shows."""
    return re.search(rb'[\n\r\0]*\Z', line)[0].decode()


def shown(line, tab):
    """The text of a line as a row shows it."""
    out, cells = '', 0
    for character in line.decode()[:len(line.decode()) - len(end_of(line))]:
        if character == '\t':
            width = -cells % tab or tab if tab else 0
            out += ' ' * width
        else:
            width = CELLS.get(character, 1)
            out += character
        cells += width
    return out


def row_text(row, colored):
    """The text of a row, which is parts of a style and a text. The escape sequence of the style `plain` is before no text alone, after another style."""
    return ''.join((STYLES[style] if colored and (style != 'plain' or not text) else '') + text for style, text in row) + '\n'


def header(case):
    """The parts of the header, without its newline."""
    return [('help', 'help'), ('message', ': ' + case.message), ('plain', '')]


def marked(text):
    """The parts of a border or of a number."""
    return [('border', text), ('plain', '')]


def number_parts(number, width):
    """The parts of a number of a row, which may have none."""
    return [('plain', ' ' * (width + 1))] if number is None else marked(str(number).rjust(width)) + [('plain', ' ')]


def line_parts(case, row, width, border):
    """The parts of the row of a line."""
    sign, old, new, line = row
    text = shown(line, case.tab)
    signed = [('plain', '   ' + text)] if sign == '=' else [('plain', ' '), (sign, '%s %s' % (sign, text)), ('plain', '')]
    return number_parts(old, width) + number_parts(new, width) + marked(border) + signed


def end_parts(end, blank, border):
    """The parts of the row of an end that is not the usual one."""
    said = 'ends with ' + end.replace('\n', '\\n').replace('\r', '\\r').replace('\0', '\\0') if end else 'no newline at end of file'
    return blank + marked(border) + [('plain', ' \\ ' + said)]


def file_parts(case, file, hunks, width):
    """The parts of the rows of a file."""
    start, border, gap = ('-->', '|', '.') if case.ascii else ('┌─', '│', '·')
    blank, usual = [('plain', ' ' * (2 * width + 2))], end_of((lines(file.text) or [b'\n'])[0])
    rows = [blank + marked(start) + [('plain', ' ' + locus(file))], blank + marked(border)]
    for at, hunk in enumerate(hunks):
        rows += [blank + marked(gap)] * (at > 0)
        for row in hunk:
            rows.append(line_parts(case, row, width, border))
            rows += [end_parts(end_of(row[3]), blank, border)] * (end_of(row[3]) != usual)
    return rows


def rich(case, files, colored=False):
    """The output in rich style, with escape sequences or without."""
    with_hunks = hunks_in(case, files)
    numbers = [number for _, hunks in with_hunks for hunk in hunks for row in hunk for number in row[1:3] if number]
    width = len(str(max(numbers, default=0)))
    rows = [header(case)]
    for at, (file, hunks) in enumerate(with_hunks):
        border = '|' if case.ascii else '│'
        rows += [[('plain', ' ' * (2 * width + 2))] + marked(border)] * (at > 0)
        rows += file_parts(case, file, hunks, width)
    return ''.join(row_text(row, colored) for row in rows) + '\n'


def short(case, files):
    """The output in medium and in short style."""
    line = row_text(header(case), False)
    return ''.join('%s: %s' % (locus(file), line) for file, _ in hunks_in(case, files)) or line
