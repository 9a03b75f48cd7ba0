"""Edits of one text as a model: their order and their faults, the text that they make, and the rows of the diff.

It goes another way than the library: edits are made from the last one to the first, and blocks are found by the places where both texts start a line. An
edit is its start, its end and its replacement; texts are bytes."""
import os
import pathlib

PROGRAM = pathlib.Path(__file__).resolve().parents[2] / 'crates/edit_cases/out/edit_cases'


def order_of(edits):
    """The indices of the edits in their order."""
    return sorted(range(len(edits)), key=lambda at: (edits[at][:2], at))


def is_inside_character(text, byte):
    """Whether a byte of the text is not the first one of its character."""
    return byte < len(text) and 0x80 <= text[byte] < 0xC0


def fault(text, edits, names=None):
    """The error of a list of edits, if it has one. It names the edits by these numbers, or else by their indices."""
    names = names or range(len(edits))
    for name, (start, end, _) in zip(names, edits):
        if end < start:
            return 'edit %d ends before it starts' % name
        if end > len(text):
            return 'edit %d ends past byte %d, the end of the source' % (name, len(text))
        for byte in (start, end):
            if is_inside_character(text, byte):
                return 'edit %d: byte %d is not a character boundary' % (name, byte)
    order = order_of(edits)
    for left, right in zip(order, order[1:]):
        if edits[left][1] > edits[right][0]:
            return 'edit %d overlaps edit %d' % (names[right], names[left])
    return None


def edited(text, edits):
    """The text after the edits, of which the last in order is made first."""
    for at in reversed(order_of(edits)):
        start, end, replacement = edits[at]
        text = text[:start] + replacement + text[end:]
    return text


def starts_line(text, at):
    """Whether a line of the text starts at a byte, or would if there were more text."""
    return at == 0 or text[at - 1] == 10


def meeting_places(text, new, edits):
    """The places in both texts at which both start a line, and no edit goes on: there a block ends and the next one starts."""
    places, byte, moved = [(0, 0)], 0, 0
    for at in order_of(edits):
        start, end, replacement = edits[at]
        places += [(place, place + moved) for place in range(byte + 1, start + 1)]
        byte, moved = end, moved + len(replacement) - (end - start)
        places.append((byte, byte + moved))
    places += [(place, place + moved) for place in range(byte + 1, len(text) + 1)]
    met = [(old, at) for old, at in places if starts_line(text, old) and starts_line(new, at)]
    return met + [(len(text), len(new))]


def lines(text):
    """The lines of a text, each with its newline."""
    parts = [part + b'\n' for part in text.split(b'\n')]
    return parts[:-1] + [parts[-1][:-1]] * (parts[-1] != b'\n')


def block_rows(old, new):
    """The rows of a block, as signs and lines."""
    start = len(os.path.commonprefix([old, new]))
    old_rest, new_rest = old[start:], new[start:]
    end = len(os.path.commonprefix([old_rest[::-1], new_rest[::-1]]))
    removed, added = old_rest[:len(old_rest) - end], new_rest[:len(new_rest) - end]
    parts = (('=', old[:start]), ('-', removed), ('+', added), ('=', old_rest[len(old_rest) - end:]))
    return [(sign, line) for sign, part in parts for line in part]


def diff(text, new, edits):
    """The rows of the diff: sign, old number, new number and line."""
    rows, old_count, new_count = [], 0, 0
    places = meeting_places(text, new, edits)
    for (old_from, new_from), (old_to, new_to) in zip(places, places[1:]):
        for sign, line in block_rows(lines(text[old_from:old_to]), lines(new[new_from:new_to])):
            old_count += sign != '+'
            new_count += sign != '-'
            rows.append((sign, None if sign == '+' else old_count, None if sign == '-' else new_count, line))
    return rows


def patched(old, rows):
    """What rows make of old lines: the lines that no row has are copied, up to where the numbers of the next row are reached."""
    made, passed = [], 0
    for sign, old_number, new_number, line in rows:
        ahead = (new_number - len(made) if old_number is None else old_number - passed) - 1
        made += old[passed:passed + ahead]
        passed += ahead
        assert old_number in (None, passed + 1) and new_number in (None, len(made) + 1), 'the numbers do not fit'
        if sign != '+':
            assert old[passed] == line, 'a line is not that of the source'
            passed += 1
        if sign != '-':
            made.append(line)
    return made + old[passed:]


def is_text(text):
    """Whether bytes are UTF-8: a part of a text may begin or end inside a character."""
    try:
        return text.decode() is not None
    except UnicodeDecodeError:
        return False


def random_ranges(chance, text, most):
    """Fewer ranges in a text than this, of which most do not overlap, and do not start or end inside a character."""
    places = [at for at in range(len(text) + 1) if not is_inside_character(text, at)]
    if chance.random() < 0.1:
        places = range(len(text) + 3)
    count = chance.randrange(most)
    ends = sorted(chance.choice(places) for _ in range(2 * count))
    if chance.random() < 0.15:
        chance.shuffle(ends)
    return list(zip(ends[::2], ends[1::2]))
