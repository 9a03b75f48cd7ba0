"""Tests of positions and edits, beside what Python computes: encodings and slices."""
import random
import unittest

import codespan
from codespan import Argument, Edit, Encoding, File, InvalidArgument, Line, Position

TEXTS = ['', '\n', 'one\na𐐀b\né', '𐐀𐐀\r\n\r\n→', 'no newline', 'ends with one\n',
         '\ufeffé→𐐀\u0301x\n\n\n𝄞']


def units(text, encoding):
    """Returns the number of code units of a text."""
    if encoding is Encoding.UTF16:
        return len(text.encode('utf-16-le')) // 2
    return len(text.encode()) if encoding is Encoding.UTF8 else len(text)


class Positions(unittest.TestCase):
    def check_refused(self, argument, index, call, *arguments):
        """A call raises InvalidArgument with this argument and this index."""
        with self.assertRaises(InvalidArgument) as caught:
            call(*arguments)
        self.assertEqual((caught.exception.argument, caught.exception.index), (argument, index))

    def test_each_character(self):
        for text in TEXTS:
            for source in (text, text.encode()):
                self.check_characters(text, File('f', source))

    def check_characters(self, text, file):
        for i in range(len(text) + 1):
            before = text[:i]
            byte, line = len(before.encode()), before[before.rfind('\n') + 1:]
            for encoding in Encoding:
                position = Position(before.count('\n'), units(line, encoding))
                self.assertEqual(codespan.position(file, byte, encoding), position)
                self.assertEqual(codespan.byte(file, position, encoding), byte)

    def test_default_encoding(self):
        file = File('f', '𐐀b')
        self.assertEqual(codespan.position(file, 4), Position(0, 2))
        self.assertEqual(codespan.byte(file, Position(0, 2)), 4)

    def test_bytes_without_a_position(self):
        for text in TEXTS:
            source = text.encode()
            file, end = File('f', source), len(source) - source.rfind(b'\n') - 1
            for byte in range(len(source)):
                if source[byte] & 0xC0 == 0x80:
                    self.check_refused(Argument.CHAR_BOUNDARY, 0, codespan.position, file, byte)
            for byte in (len(source) + 1, 2 ** 64 - 1):
                self.check_refused(Argument.COLUMN_TOO_LARGE, end, codespan.position, file, byte)

    def test_positions_without_a_byte(self):
        for text in TEXTS:
            file, lines = File('f', text), text.split('\n')
            for encoding in Encoding:
                for i, line in enumerate(lines):
                    end = units(line, encoding) + (i + 1 < len(lines))
                    self.check_refused(Argument.COLUMN_TOO_LARGE, end, codespan.byte, file,
                                       Position(i, end + 1), encoding)
                self.check_refused(Argument.LINE_TOO_LARGE, 0, codespan.byte, file,
                                   Position(len(lines), 0), encoding)
        file = File('f', 'a𐐀')
        self.check_refused(Argument.CHAR_BOUNDARY, 0, codespan.byte, file, Position(0, 2))
        self.check_refused(Argument.CHAR_BOUNDARY, 0, codespan.byte, file, Position(0, 4),
                           Encoding.UTF8)

    def test_windows(self):
        file = File('f', 'c\né\n', first_byte=100, first_line=7)
        self.assertEqual(codespan.position(file, 104), Position(8, 1))
        self.assertEqual(codespan.byte(file, Position(8, 1)), 104)
        self.assertEqual(codespan.position(file, 3), Position(7, 0))
        lined = File('f', 'ab; cd', lines=[Line(0, 2, 70), Line(4, 6, 80)])
        self.assertEqual(codespan.position(lined, 5), Position(1, 1))
        self.check_refused(Argument.COLUMN_TOO_LARGE, 2, codespan.byte, lined, Position(0, 3))
        last = File('f', 'a\nb', first_line=2 ** 32 - 1)
        self.assertEqual(codespan.position(last, 0), Position(2 ** 32 - 1, 0))
        self.check_refused(Argument.LINE_TOO_LARGE, 0, codespan.position, last, 2)

    def test_invalid_arguments(self):
        file = File('f', b'\xff')
        self.check_refused(Argument.FILE_SOURCE, 0, codespan.position, file, 0)
        self.check_refused(Argument.FILE_NAME, 0, codespan.byte, File(b'\xff', ''), Position(0, 0))
        self.check_refused(Argument.ENCODING, 0, codespan.position, File('f', ''), 0, 3)
        self.check_refused(Argument.ENCODING, 0, codespan.byte, File('f', ''), Position(0, 0), 3)
        for position in (Position(-1, 0), Position(0, 2 ** 32)):
            with self.assertRaises(ValueError):
                codespan.byte(File('f', ''), position)
        for byte in (-1, 2 ** 64):
            with self.assertRaises(ValueError):
                codespan.position(File('f', ''), byte)
        with self.assertRaises(TypeError):
            codespan.position(File('f', ''), 1.0)

    def test_positions_are_ordered(self):
        self.assertLess(Position(1, 9), Position(2, 0))
        self.assertLess(Position(1, 1), Position(1, 2))


def edited(source, edits):
    """Returns bytes after edits: by one slice after another, from the last one on."""
    for edit in reversed(sorted(edits, key=lambda edit: (edit.start, edit.end))):
        replacement = edit.replacement
        if isinstance(replacement, str):
            replacement = replacement.encode()
        source = source[:edit.start] + replacement + source[edit.end:]
    return source


class Edits(unittest.TestCase):
    def check_edited(self, text, edits):
        expected = edited(text.encode(), edits)
        self.assertEqual(codespan.apply_edits(text.encode(), edits), expected)
        self.assertEqual(codespan.apply_edits(text, edits), expected.decode())

    def test_by_hand(self):
        source = 'use a;\n\nfn main() {\n    é(x);\n}\n'
        edits = [Edit(24, 26, 'e'), Edit(7, 7, b'use b;\n'), Edit(26, 29), Edit(7, 7, 'use c;\n'),
                 Edit(7, 8, '\n\n'), Edit(0, 0, '𐐀')]
        self.assertEqual(codespan.apply_edits(source, edits),
                         '𐐀use a;\nuse b;\nuse c;\n\n\nfn main() {\n    e;\n}\n')
        self.check_edited(source, edits)
        self.assertEqual(codespan.apply_edits('', []), '')
        self.assertEqual(codespan.apply_edits(b'a\0b', [Edit(2, 3, '\0')]), b'a\0\0')

    def test_random(self):
        draw = random.Random(1)
        for _ in range(2000):
            text = ''.join(draw.choices('ab\né→𐐀', k=draw.randrange(30)))
            ends = [len(text[:i].encode()) for i in range(len(text) + 1)]
            cuts = sorted(draw.choices(ends, k=2 * draw.randrange(6)))
            edits = [Edit(start, end, ''.join(draw.choices('x\n→', k=draw.randrange(4))))
                     for start, end in zip(cuts[::2], cuts[1::2])]
            draw.shuffle(edits)
            self.check_edited(text, edits)

    def check_refused(self, argument, index, source, edits):
        with self.assertRaises(InvalidArgument) as caught:
            codespan.apply_edits(source, edits)
        self.assertEqual((caught.exception.argument, caught.exception.index), (argument, index))

    def test_invalid_edits(self):
        good = Edit(0, 1, 'x')
        for argument, bad in ((Argument.EDIT_REVERSED, Edit(2, 1)),
                              (Argument.EDIT_PAST_END, Edit(1, 4)),
                              (Argument.EDIT_PAST_END, Edit(1, 2 ** 64 - 1)),
                              (Argument.EDIT_BOUNDARY, Edit(1, 2)),
                              (Argument.EDIT_BOUNDARY, Edit(2, 3)),
                              (Argument.EDIT_OVERLAP, Edit(0, 3)),
                              (Argument.EDIT_REPLACEMENT, Edit(1, 1, b'\xff'))):
            for source in ('aé', 'aé'.encode()):
                self.check_refused(argument, 1, source, [good, bad])
        self.check_refused(Argument.FILE_SOURCE, 0, b'\xff', [good])
        for bad in (Edit(-1, 0), Edit(0, 2 ** 64), Edit(0, 0, '\ud800')):
            with self.assertRaises(ValueError):
                codespan.apply_edits('a', [bad])

    def test_text_of_the_error(self):
        with self.assertRaisesRegex(InvalidArgument, r'\(index 1\)$'):
            codespan.apply_edits('ab', [Edit(0, 1), Edit(0, 2)])


if __name__ == '__main__':
    unittest.main()
