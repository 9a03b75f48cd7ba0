"""Tests of tools/terminal_columns, what tools/terminal-test finds."""
import unicodedata
import unittest

import tree  # noqa: F401 (the modules of tools/)
from terminal_columns import KNOWN, TEXTS, Row, Unreadable, disagreements, read_row

OUTPUT = '''\
error: the source has a tab
  ┌─ name:1:3
  │
1 │ 日本    !
  │     ^^^^ use spaces

'''


def two_cells(text):
    """The column after a text, in which wide characters take two cells."""
    return sum(2 if unicodedata.east_asian_width(c) == 'W' else 1 for c in text)


class TerminalColumns(unittest.TestCase):
    def test_row(self):
        row = read_row(OUTPUT)
        self.assertEqual(row, Row('1 │ 日本    !', 8, 12))
        self.assertEqual(row.before_carets, '1 │ 日本')
        self.assertEqual(row.to_mark, '1 │ 日本    ')

    def test_a_row_of_a_later_line(self):
        self.assertEqual(read_row(OUTPUT.replace('1 │', '12 │').replace('  │     ^', '   │     ^')), Row('12 │ 日本    !', 9, 13))

    def test_output_without_carets(self):
        with self.assertRaises(Unreadable):
            read_row(OUTPUT.replace('^', ' '))

    def test_a_terminal_that_agrees(self):
        self.assertEqual(list(disagreements(read_row(OUTPUT), two_cells)), [])

    def test_a_terminal_with_one_cell_for_each(self):
        self.assertEqual(list(disagreements(read_row(OUTPUT), len)),
                         ['the carets at column 8, in the terminal 6', 'the mark at column 12, in the terminal 10'])

    def test_a_terminal_that_disagrees_about_the_mark_alone(self):
        wide_space = lambda text: two_cells(text) + text.endswith(' ')
        self.assertEqual(list(disagreements(read_row(OUTPUT), wide_space)), ['the mark at column 12, in the terminal 13'])

    def test_texts_have_no_tab_and_one_line(self):
        for name, text in TEXTS:
            self.assertNotRegex(text, '[\t\n]', name)

    def test_names_of_texts_differ(self):
        self.assertEqual(len({name for name, _ in TEXTS}), len(TEXTS))

    def test_known_texts_are_texts(self):
        self.assertLessEqual(KNOWN, {name for name, _ in TEXTS})


if __name__ == '__main__':
    unittest.main()
