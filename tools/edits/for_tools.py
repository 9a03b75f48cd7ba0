"""What tools read of suggestions as a model: the unified diff, the fix-its and the code action.

Each is also read back, and has to make the text that `edited` of model.py makes."""
import re

from model import lines, patched
from suggestions import hunks_of, line_and_column, rows_of

# A header of a hunk in a patch, a fix-it, and an escape in one.
HUNK = re.compile(rb'@@ -(\d+),(\d+) \+(\d+),(\d+) @@')
FIX_IT = re.compile(r'fix-it:"((?:[^"\\]|\\.)*)":\{(\d+):(\d+)-(\d+):(\d+)\}:"((?:[^"\\]|\\.)*)"')
ESCAPE = re.compile(rb'\\(?:([0-7]{3})|(.))')


def c_text(text):
    """A text as clang writes it in a fix-it."""
    named = {ord('\\'): '\\\\', ord('"'): '\\"', 9: '\\t', 10: '\\n'}
    return ''.join(named.get(byte) or (chr(byte) if 32 <= byte <= 126 else '\\%03o' % byte) for byte in text)


def from_c(text):
    """The text that clang's escapes stand for."""
    letters = {b'n': b'\n', b't': b'\t'}
    return ESCAPE.sub(lambda found: bytes([int(found[1], 8)]) if found[1] else letters.get(found[2], found[2]), text.encode())


def path(folder, name):
    """A name in a header of a patch."""
    whole = folder + name
    if re.search('[\x00-\x1f\x7f"\\\\]', name):
        return '"%s"' % c_text(whole.encode())
    return whole + '\t' * (' ' in name)


def unified(files):
    """The unified diff."""
    out = b''
    for file in files:
        hunks = hunks_of(rows_of(file), 3, 3)
        if hunks:
            out += ('--- %s\n+++ %s\n' % (path('a/', file.name), path('b/', file.name))).encode()
        for hunk in hunks:
            olds, news = ([row[side] for row in hunk if row[side]] for side in (1, 2))
            ahead = hunk_start(rows_of(file), hunk)
            starts = [side[0] if side else before for side, before in zip((olds, news), ahead)]
            out += b'@@ -%d,%d +%d,%d @@\n' % (starts[0], len(olds), starts[1], len(news))
            for sign, _, _, line in hunk:
                out += sign.replace('=', ' ').encode() + line + (b'' if line.endswith(b'\n') else b'\n\\ No newline at end of file\n')
    return out


def hunk_start(rows, hunk):
    """How many lines of both texts are before a hunk."""
    before = rows[:rows.index(hunk[0])]
    return [sum(row[side] is not None for row in before) for side in (1, 2)]


def read_unified(text):
    """The hunks of each file of a unified diff, as rows with numbers."""
    files, left = [], text.split(b'\n')[:-1]
    while left:
        row = left.pop(0)
        if row.startswith(b'--- '):
            files.append([])
            assert left.pop(0).startswith(b'+++ ')
            continue
        old, olds, new, news = map(int, HUNK.fullmatch(row).groups())
        old, new = old + (olds == 0), new + (news == 0)
        end = old + olds, new + news
        while (old, new) < end or left[:1] == [b'\\ No newline at end of file']:
            row = left.pop(0)
            if row.startswith(b'\\'):
                files[-1][-1] = files[-1][-1][:3] + (files[-1][-1][3][:-1],)
                continue
            sign = row[:1].decode().replace(' ', '=')
            files[-1].append((sign, None if sign == '+' else old, None if sign == '-' else new, row[1:] + b'\n'))
            old, new = old + (sign != '+'), new + (sign != '-')
        assert (old, new) == end, 'the counts of a hunk'
    return files


def check_unified(files, text):
    """Fails unless a unified diff is a patch of the files that change, and of the texts after the edits the other way round."""
    turned = {'=': '=', '-': '+', '+': '-'}
    changed = [file for file in files if any(row[0] != '=' for row in rows_of(file))]
    found = read_unified(text)
    assert len(found) == len(changed), 'the files of the patch'
    for file, rows in zip(changed, found):
        assert b''.join(patched(lines(file.text), rows)) == file.new, 'the unified diff is no patch'
        back = [(turned[sign], new, old, line) for sign, old, new, line in rows]
        assert b''.join(patched(lines(file.new), back)) == file.text, 'the unified diff cannot be undone'


def fix_its(files):
    """The fix-its."""
    out = ''
    for file in files:
        for start, end, replacement in file.edits:
            places = [line_and_column(file.text, byte, len) for byte in (start, end)]
            numbers = tuple(number + 1 for place in places for number in place)
            out += 'fix-it:"%s":{%d:%d-%d:%d}:"%s"\n' % (c_text(file.name.encode()), *numbers, c_text(replacement))
    return out


def check_fix_its(files, text):
    """Fails unless fix-its read back as the edits."""
    found = [FIX_IT.fullmatch(line).groups() for line in text.split('\n')[:-1]]
    wanted = [(file, edit) for file in files for edit in file.edits]
    assert len(found) == len(wanted)
    for (name, line, column, last, end, replacement), (file, edit) in zip(found, wanted):
        starts = [len(b''.join(lines(file.text)[:number])) for number in (int(line) - 1, int(last) - 1)]
        range_of = starts[0] + int(column) - 1, starts[1] + int(end) - 1
        assert (from_c(name), (*range_of, from_c(replacement))) == (file.name.encode(), edit), 'a fix-it is not its edit'


# The code units of a text, by the encoding.
UNITS = {'utf8': len, 'utf16': lambda part: len(part.decode().encode('utf-16-le')) // 2, 'utf32': lambda part: len(part.decode())}


def action(case, files, encoding):
    """The code action."""
    out = '%s\nquickfix %s\n' % (case.message, str(case.applicability == 0).lower())
    for file in files:
        for start, end, replacement in file.edits:
            places = [line_and_column(file.text, byte, UNITS[encoding]) for byte in (start, end)]
            out += '%d %d:%d %d:%d %d\n%s' % (file.index, *places[0], *places[1], len(replacement), replacement.decode())
    check_action(files, encoding)
    return out


def check_action(files, encoding):
    """Fails unless the text edits, made as an editor makes them, give the text after the edits: lines are cut into code units, from the last edit on."""
    for file in files:
        text = [part.decode() for part in file.text.split(b'\n')]
        for start, end, replacement in reversed(file.edits):
            (line, column), (last, until) = (line_and_column(file.text, byte, UNITS[encoding]) for byte in (start, end))
            head, tail = cut(text[line], column, encoding)[0], cut(text[last], until, encoding)[1]
            text[line:last + 1] = (head + replacement.decode() + tail).split('\n')
        assert '\n'.join(text).encode() == file.new, 'the text edits make another text'


def cut(line, column, encoding):
    """A line before and after so many code units."""
    codec, size = {'utf8': ('utf-8', 1), 'utf16': ('utf-16-le', 2), 'utf32': ('utf-32-le', 4)}[encoding]
    units = line.encode(codec)
    return units[:column * size].decode(codec), units[column * size:].decode(codec)


def texts(files):
    """The texts after the edits."""
    return b''.join(b'%d %d\n%s' % (file.index, len(file.new), file.new) for file in files)
