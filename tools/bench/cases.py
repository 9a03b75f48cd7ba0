"""The diagnostics that are rendered, by name and size, each with what it is, and the input of both programs for them."""


def text(content):
    """A text as a field: a line with its length in bytes, and then the bytes and a newline."""
    data = content.encode()
    return b'%d\n%s\n' % (len(data), data)


def request(times, case):
    """The input of both programs, for a case: its files, labels, notes, code and message."""
    files, labels, notes = case.get('files', [('f', 'abc\n')]), case.get('labels', []), case.get('notes', [])
    parts = [b'%d\n%s\n%d\n%d\n' % (times, case.get('made', 'once').encode(), case.get('width', 0), len(files))]
    parts += [text(name) + text(source) for name, source in files]
    parts += [text(case.get('code', '')), text(case.get('message', '')), b'%d\n' % len(labels)]
    parts += [b'%s\n%d\n%d\n%d\n%s' % (style.encode(), file, start, end, text(message)) for style, file, start, end, message in labels]
    return b''.join([*parts, b'%d\n' % len(notes), *map(text, notes)])


def edits(word, times, count, size):
    """The input of `edit_cases` after this word: so many edits, the same distance apart, of a source of lines of 38 bytes; each replaces five bytes by seven."""
    source, step = ('x' * 37 + '\n') * (size // 38), size // count
    head = ' '.join([word, str(times)] + ['%d %d 7' % (at * step + 4, at * step + 9) for at in range(count)])
    return ('%s\n%s%s' % (head, 'here it' * count, source)).encode()


def one(source, labels, **more):
    """A case with one file."""
    return {'files': [('f', source)], 'labels': labels, **more}


def spaced(count, by, width, message=''):
    """Secondary labels in one line, a distance apart."""
    return [('secondary', 0, at * by, at * by + width, message and '%s%d' % (message, at)) for at in range(count)]


def bare(_):
    """No label, one note."""
    return {'message': 'm', 'notes': ['a\nb']}


def one_label(_):
    """One label with a message."""
    return one('let x = 1;\n', [('primary', 0, 4, 5, 'here')], message='unused')


def borrows(_):
    """Three labels in one line."""
    source = 'fn main() {\n    let mut v = vec![Some("foo"), Some("bar")];\n    v.push(v.pop().unwrap());\n}\n'
    labels = [('primary', 0, 71, 72, 'second mutable borrow occurs here'), ('secondary', 0, 64, 65, 'first borrow later used by call'),
              ('secondary', 0, 66, 70, 'first mutable borrow occurs here')]
    return one(source, labels, code='E0499', message='cannot borrow `v` as mutable more than once at a time')


def many_labels(size):
    """{:,} labels with messages in 50 lines, in turn."""
    starts = [(at % 50 * 9 + at // 50 % 6, at) for at in range(size)]
    return one('abcdefgh\n' * 50, [(('primary', 'secondary')[at % 2], 0, start, start + 2, 'm%d' % at) for start, at in starts])


def label_a_line(size):
    """{:,} lines with a label each."""
    return one('abcdefgh\n' * size, [('primary', 0, at * 9 + 1, at * 9 + 4, 'm%d' % at) for at in range(size)])


def long_line(size):
    """A line of {:,} characters, a label for each 20."""
    return one('x' * size, spaced(size // 20, 20, 3))


def wide_line(size):
    """{:,} wide characters, a label for each 20."""
    return one('路' * size, spaced(size // 20, 60, 9))


def tabs_line(size):
    """{:,} characters, half of them tabs, a label for each 20."""
    return one('x\t' * (size // 2), spaced(size // 20, 20, 3))


def long_line_messages(size):
    """{:,} characters, a label with a message for each 20."""
    return one('x' * size, spaced(size // 20, 20, 3, 'm'))


def messages_at_start(size):
    """{:,} characters, 100 labels with messages at the start."""
    return one('x' * size, spaced(100, 3, 2, 'm'))


def long_line_one_label(size):
    """{:,} characters, one label."""
    return one('x' * size, [('secondary', 0, size // 2, size // 2 + 3, 'm')])


def fitted(labels, size):
    """A line of so many characters, with these labels, that has to fit 100 cells."""
    return one('x' * size, labels, width=100)


def fitted_start(size):
    """{:,} characters, one label at their start."""
    return fitted([('secondary', 0, 0, 3, 'm')], size)


def fitted_middle(size):
    """{:,} characters, one label in their middle."""
    return fitted([('secondary', 0, size // 2, size // 2 + 3, 'm')], size)


def fitted_end(size):
    """{:,} characters, one label at their end."""
    return fitted([('secondary', 0, size - 3, size, 'm')], size)


def fitted_labels(size):
    """{:,} characters, 1,000 labels."""
    return fitted(spaced(1000, size // 1000, 3), size)


def tall_label(size):
    """One label over {:,} lines."""
    return one('abc\n' * size, [('primary', 0, 0, size * 4 - 2, 'm')])


def lanes(size):
    """{:,} labels over 370 lines, which cross."""
    return one('abc\n' * 400, [('secondary', 0, at * 4 + 1, 1500 - at, 'm') for at in range(size)])


def large_file(size):
    """One label in the middle of a file of {:,} bytes, in lines of 38."""
    start = size // 38 // 2 * 38
    return one(('x' * 37 + '\n') * (size // 38), [('primary', 0, start + 4, start + 9, 'here')])


def large_file_anew(size):
    """As `large_file`, of {:,} bytes; the file database is made anew."""
    return {**large_file(size), 'made': 'anew'}


def many_files(size):
    """One label in each of {:,} files."""
    return {'files': [('f%d' % at, 'abc\ndef\n') for at in range(size)], 'labels': [('primary', at, 4, 6, 'm') for at in range(size)]}


def many_notes(size):
    """One label, {:,} notes of two lines."""
    return one('abc\n', [('primary', 0, 0, 1, 'm')], notes=['a note\nof two lines'] * size)
