"""Tests of the module, over the library that it loads."""
import dataclasses
import io
import os
import pickle
import random
import re
import unittest
import xml.etree.ElementTree as ElementTree
from concurrent.futures import ThreadPoolExecutor
from unittest import mock

import codespan
from codespan import _native
from codespan import (Argument, Characters, Chars, ColorMode, ColorSpec, Config, Diagnostic,
                      DisplayStyle, File, Form, InvalidArgument, Label, LabelStyle, Line, Location,
                      Severity, Styles)

SETTINGS = File('settings.conf', 'retries = many\n')
LINES = File('a.txt', 'one\ntwo\nthree\n')

# ESC [0m, and then a style: of a header in yellow or of no color, and in cyan and yellow
RESET, HEADER_YELLOW, HEADER_PLAIN = '\33[0m', '\33[0m\33[1m\33[38;5;11m', '\33[0m\33[1m'
CYAN, YELLOW = '\33[0m\33[36m', '\33[0m\33[33m'


def odd_value(**fields):
    """Returns a diagnostic over SETTINGS."""
    label = Label(10, 14, 'expected a number')
    return Diagnostic('odd value', Severity.WARNING, 'W0001', [label], **fields)


class Output(unittest.TestCase):
    maxDiff = None

    def test_colored(self):
        border = '  ' + CYAN + '│' + RESET
        expected = ''.join([
            HEADER_YELLOW, 'warning[W0001]', HEADER_PLAIN, ': odd value', RESET, '\n',
            '  ', CYAN, '┌─', RESET, ' settings.conf:1:11\n',
            border, '\n',
            CYAN, '1', RESET, ' ', CYAN, '│', RESET, ' retries = ', YELLOW, 'many', RESET, '\n',
            border, '           ', YELLOW, '^^^^', RESET, ' ', YELLOW, 'expected a number', RESET,
            '\n',
            border, '\n',
            '  ', CYAN, '=', RESET, ' the default is 3\n\n',
        ])
        diagnostic = odd_value(notes=['the default is 3'])
        for mode in (ColorMode.DEFAULT_STYLES, ColorMode.OWN_STYLES):
            for form in (Form.TERMINAL, Form.TEXT):
                config = Config(form=form, color_mode=mode)
                self.assertEqual(codespan.emit([SETTINGS], diagnostic, config), expected)

    def test_custom_styles(self):
        number = ColorSpec(codespan.Color.BLUE, codespan.Color.WHITE, bold=True, intense=True)
        styles = Styles(line_number=number)
        config = Config(color_mode=ColorMode.OWN_STYLES, styles=styles)
        output = codespan.emit([SETTINGS], odd_value(), config)
        self.assertIn('\33[0m\33[1m\33[38;5;12m\33[48;5;15m1\33[0m ', output)

    def test_style_marks(self):
        output = codespan.emit([SETTINGS], odd_value(), Config(form=Form.STYLE_MARKS))
        self.assertIn('\udcff\udc82warning[W0001]\udcff\udc85: odd value\udcff\udc93\n', output)
        plain = re.sub('\udcff.', '', output, flags=re.DOTALL)
        self.assertEqual(plain, codespan.emit([SETTINGS], odd_value()))

    def test_forms(self):
        """A hostile message in each form; the expected outputs are written by hand."""
        diagnostic = Diagnostic('a\33[2J<\u202eb', Severity.NOTE)
        self.assertEqual(codespan.emit([], diagnostic), 'note: a[2J<b\n\n')
        self.assertEqual(codespan.emit([], diagnostic, Config(form=Form.TEXT)),
                         'note: a\33[2J<\u202eb\n\n')
        self.assertEqual(codespan.to_html([], diagnostic),
                         '<pre class="diagnostic">\n<span class="header-note">note</span>'
                         '<span class="header-message">: a[2J&lt;b</span>\n\n</pre>')
        svg = codespan.to_svg([], diagnostic)
        self.assertIn('>a[2J&lt;b</text>\n\n</svg>\n', svg)
        document = ElementTree.fromstring(svg)
        self.assertEqual(''.join(document.itertext()), '\n\nnote: a[2J<b\n\n')

    def test_html_styles(self):
        css = codespan.html_styles()
        self.assertIn('.diagnostic .header-error { color: #ff0000; font-weight: bold; }\n', css)
        styles = Styles(header_error=ColorSpec(codespan.Color.BLUE))
        self.assertIn('.header-error { color: #0000ee; }\n', codespan.html_styles(styles))
        with self.assertRaises(InvalidArgument):
            codespan.html_styles(Styles(line_number=ColorSpec(9)))

    def test_print(self):
        """What is printed is safe, and in colors as the environment says."""
        diagnostic = Diagnostic('a\33[2J', Severity.WARNING)
        colored = HEADER_YELLOW + 'warning' + HEADER_PLAIN + ': a[2J' + RESET + '\n\n'
        for environment, expected in [({}, 'warning: a[2J\n\n'), ({'CLICOLOR_FORCE': '1'}, colored),
                                      ({'CLICOLOR_FORCE': '0'}, 'warning: a[2J\n\n')]:
            stream = io.StringIO()
            with mock.patch.dict(os.environ, environment, clear=True):
                codespan.print([], diagnostic, Config(form=Form.TEXT), file=stream)
            self.assertEqual(stream.getvalue(), expected)

    def test_colors_of_a_terminal(self):
        terminal = io.StringIO()
        terminal.isatty = lambda: True
        for environment, expected in [({}, True), ({'NO_COLOR': ''}, True), ({'NO_COLOR': '1'}, False),
                                      ({'TERM': 'dumb'}, False),
                                      ({'NO_COLOR': '1', 'CLICOLOR_FORCE': '1'}, True)]:
            with mock.patch.dict(os.environ, environment, clear=True):
                self.assertEqual(codespan.has_colors(terminal), expected)

    def test_wide_characters(self):
        source = '路 = 🗻é;\n'
        at = [codespan.byte_index(source, i) for i in (4, 5, 6)]
        self.assertEqual(at, [6, 10, 12])
        labels = [Label(at[0], at[1], 'here'),
                  Label(at[1], at[2], 'there', LabelStyle.SECONDARY)]
        output = codespan.emit([File('a.txt', source)], Diagnostic('m', labels=labels))
        self.assertEqual(output, '\n'.join([
            'error: m', '  ┌─ a.txt:1:5', '  │', '1 │ 路 = 🗻é;', '  │      ^^- there',
            '  │      │  ', '  │      here', '', '']))

    def test_max_width(self):
        for width, passed in [(None, 0), (0, 0), (80, 80)]:
            self.assertEqual(_native.config_of(Config(max_width=width)).max_width, passed)
        with self.assertRaises(ValueError):
            codespan.emit([LINES], odd_value(), Config(max_width=-1))

    def test_long_line(self):
        source = 2 * 'abcdefghijklmnopqrstuvwxyz'
        diagnostic = Diagnostic('m', labels=[Label(3, 5, 'here')])
        for width, row in [(None, source), (56, source), (55, source[:-4] + '...')]:
            output = codespan.emit([File('f', source)], diagnostic, Config(max_width=width))
            self.assertEqual(output, f'error: m\n  ┌─ f:1:4\n  │\n1 │ {row}\n  │    ^^ here\n\n')

    def test_short(self):
        labels = [Label(5, 6, 'x'), Label(9, 10, 'y'), Label(1, 2, 'z', LabelStyle.SECONDARY)]
        diagnostic = Diagnostic('m', Severity.BUG, labels=labels, notes=['n'])
        output = codespan.emit([LINES], diagnostic, Config(DisplayStyle.SHORT))
        self.assertEqual(output, 'a.txt:2:2: bug: m\na.txt:3:2: bug: m\n')

    def test_custom_lines_and_locations(self):
        lines = [Line(0, 4, 70), Line(4, 8, 80), Line(8, 14, 90)]
        diagnostic = Diagnostic('m', Severity.NOTE, labels=[Label(5, 6, 'x')])
        rest = ['   │', '80 │ two', '   │  ^ x', '', '']
        file = dataclasses.replace(LINES, lines=lines)
        self.assertEqual(codespan.emit([file], diagnostic),
                         '\n'.join(['note: m', '   ┌─ a.txt:80:2', *rest]))
        file = dataclasses.replace(file, locations=[Location(5, 31, 41)])
        self.assertEqual(codespan.emit([file], diagnostic),
                         '\n'.join(['note: m', '   ┌─ a.txt:31:41', *rest]))

    def test_window(self):
        """A window of a file renders as the file, if it has all lines that are shown."""
        source = ''.join('line %d\n' % i for i in range(1, 1000))
        start = source.index('line 500')
        window = File('a.txt', source[start - 9:start + 18], start - 9, 498)
        diagnostic = Diagnostic('m', labels=[Label(start + 5, start + 8, 'here')])
        self.assertEqual(codespan.emit([window], diagnostic),
                         codespan.emit([File('a.txt', source)], diagnostic))

    def test_ascii(self):
        diagnostic = Diagnostic('m', Severity.HELP, labels=[Label(1, 10, 'x')])
        output = codespan.emit([LINES], diagnostic, Config(characters=Characters.ASCII))
        self.assertEqual(output, '\n'.join([
            'help: m', '  --> a.txt:1:2', '  |  ', '1 |   one', '  | /--^', '2 | | two',
            '3 | | three', '  | \\--^ x', '', '']))

    def test_custom_characters(self):
        config = Config(characters=Characters.CUSTOM, chars=Chars(single_primary_caret='~'))
        self.assertIn('~~~~ expected a number', codespan.emit([SETTINGS], odd_value(), config))

    def test_version(self):
        """The library has the version of the module."""
        self.assertEqual(_native.LIBRARY.codespan_version().decode(), codespan.__version__)

    def test_long(self):
        message = 'é' * 100_000
        output = codespan.emit([], Diagnostic(message, Severity.NOTE))
        self.assertEqual(output, 'note: %s\n\n' % message)

    def test_bytes(self):
        file = File(b'settings.conf', SETTINGS.source.encode())
        self.assertEqual(codespan.emit([file], odd_value()),
                         codespan.emit([SETTINGS], odd_value()))

    def test_threads(self):
        diagnostics = [odd_value(notes=['note %d' % i]) for i in range(200)]
        alone = [codespan.emit([SETTINGS], diagnostic) for diagnostic in diagnostics]
        with ThreadPoolExecutor(4) as pool:
            together = pool.map(lambda diagnostic: codespan.emit([SETTINGS], diagnostic),
                                diagnostics)
            self.assertEqual(list(together), alone)


def random_case(rng):
    """Returns a file and a diagnostic over it."""
    pieces = ['a', 'let x = 1;', ' ', '\n', '\n', '\r\n', '\t', 'é', '路', '🗻']
    source = ''.join(rng.choices(pieces, k=rng.randrange(30)))
    ends = range(len(source.encode()) + 3)
    labels = [Label(rng.choice(ends), rng.choice(ends), rng.choice(['', 'm', 'two\nlines']),
                    rng.choice(list(LabelStyle))) for _ in range(rng.randrange(5))]
    severity = rng.choice(list(Severity))
    return File('a.txt', source), Diagnostic('message', severity, labels=labels)


def newline_lines(file):
    """Returns the lines of a file, cut after newlines."""
    lines, start = [], 0
    for number, line in enumerate(file.source.encode().split(b'\n'), 1):
        end = min(start + len(line) + 1, len(file.source.encode()))
        lines.append(Line(start, end, number))
        start = end
    return lines


def shifted(file, diagnostic, distance):
    """Returns the arguments of `emit` of a window that starts that many bytes into its file."""
    lines = [Line(line.start + distance, line.end + distance, line.number) for line in file.lines]
    labels = [dataclasses.replace(label, start=label.start + distance, end=label.end + distance)
              for label in diagnostic.labels]
    window = dataclasses.replace(file, first_byte=distance, lines=lines)
    return [window], dataclasses.replace(diagnostic, labels=labels)


class SameOutput(unittest.TestCase):
    """Two ways to pass one file render the same."""

    def setUp(self):
        rng = random.Random(1)
        self.cases = [random_case(rng) for _ in range(200)]

    def test_lines_cut_at_newlines(self):
        for file, diagnostic in self.cases:
            with self.subTest(file=file, diagnostic=diagnostic):
                given = dataclasses.replace(file, lines=newline_lines(file))
                self.assertEqual(codespan.emit([given], diagnostic),
                                 codespan.emit([file], diagnostic))

    def test_window_of_all_lines(self):
        for file, diagnostic in self.cases:
            with self.subTest(file=file, diagnostic=diagnostic):
                expected = codespan.emit([file], diagnostic)
                self.assertEqual(codespan.emit(*shifted(file, diagnostic, 1000)), expected)
                given = dataclasses.replace(file, lines=newline_lines(file))
                self.assertEqual(codespan.emit(*shifted(given, diagnostic, 7)), expected)

    def test_file_before_others(self):
        for file, diagnostic in self.cases:
            with self.subTest(file=file, diagnostic=diagnostic):
                self.assertEqual(codespan.emit([file, SETTINGS], diagnostic),
                                 codespan.emit([file], diagnostic))


class Errors(unittest.TestCase):

    def assert_invalid(self, argument, index, files, diagnostic, config=Config()):
        with self.assertRaises(InvalidArgument) as caught:
            codespan.emit(files, diagnostic, config)
        self.assertEqual((caught.exception.argument, caught.exception.index), (argument, index))

    def test_missing_file(self):
        labels = [Label(0, 1), Label(0, 1, file=1)]
        self.assert_invalid(Argument.LABEL_FILE, 1, [SETTINGS], Diagnostic('m', labels=labels))

    def test_invalid(self):
        self.assert_invalid(Argument.SEVERITY, 0, [], Diagnostic('m', severity=5))
        self.assert_invalid(Argument.MESSAGE, 0, [], Diagnostic(b'\xff'))
        self.assert_invalid(Argument.NOTE, 1, [], Diagnostic('m', notes=['n', b'\xff']))
        self.assert_invalid(Argument.DISPLAY_STYLE, 0, [], Diagnostic('m'), Config(display_style=9))
        lines = [Line(0, 4, 1), Line(3, 8, 2)]
        self.assert_invalid(Argument.FILE_LINES, 0, [dataclasses.replace(LINES, lines=lines)],
                            Diagnostic('m'))

    def test_numbers_that_c_can_not_hold(self):
        for number in (-1, 2 ** 64):
            with self.assertRaises(ValueError):
                codespan.emit([SETTINGS], Diagnostic('m', labels=[Label(number, 2)]))
            with self.assertRaises(ValueError):
                codespan.emit([SETTINGS], Diagnostic('m', severity=number))

    def test_text_without_utf8(self):
        with self.assertRaises(ValueError):
            codespan.emit([], Diagnostic('\ud800'))

    def test_pickled(self):
        raised = InvalidArgument('a message', Argument.NOTE, 2)
        copied = pickle.loads(pickle.dumps(raised))
        self.assertEqual((str(copied), copied.argument, copied.index),
                         ('a message', Argument.NOTE, 2))

    def test_notes_that_are_a_text(self):
        for notes in ('abc', b'abc'):
            with self.assertRaises(TypeError):
                codespan.emit([], Diagnostic('m', notes=notes))

    def test_greatest_numbers(self):
        greatest = 2 ** 64 - 1
        label = Label(greatest, greatest, 'past the end')
        output = codespan.emit([SETTINGS], Diagnostic('m', labels=[label]))
        self.assertIn('past the end', output)


if __name__ == '__main__':
    unittest.main()
