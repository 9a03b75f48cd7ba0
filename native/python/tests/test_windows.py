"""Which lines a window of a file needs, so that a diagnostic over it is that over the file."""
import random
import unittest

import codespan
from codespan import Config, Diagnostic, DisplayStyle, File, Label, LabelStyle, Layout

PIECES = ['a', 'let x = 1;', ' ', '\n', '\n', '\n', '\n', '\r\n', '\t', 'é', '路', '🗻']


def random_case(rng):
    """Returns a file, a diagnostic with labels in it, and a configuration."""
    source = ''.join(rng.choices(PIECES, k=rng.randrange(1, 60)))
    ends = range(len(source.encode()) + 1)
    labels = [Label(rng.choice(ends), rng.choice(ends), rng.choice(['', 'm']),
                    rng.choice(list(LabelStyle))) for _ in range(rng.randrange(1, 4))]
    config = Config(display_style=rng.choice(list(DisplayStyle)), layout=rng.choice(list(Layout)),
                    start_context_lines=rng.randrange(4), end_context_lines=rng.randrange(4),
                    before_label_lines=rng.randrange(4), after_label_lines=rng.randrange(4))
    return File('a.txt', source), Diagnostic('m', labels=labels), config


def needed_lines(starts, labels, config):
    """Returns the first and the last line that a window needs, by their indices."""
    bytes_of_labels = [byte for label in labels for byte in (label.start, label.end)]
    lines = [sum(start <= byte for start in starts) - 1 for byte in bytes_of_labels]
    first = max(min(lines) - config.before_label_lines, 0)
    return first, min(max(lines) + config.after_label_lines, len(starts) - 1)


def window(file, starts, first, last):
    """Returns the window of a file from one line to another."""
    source = file.source.encode()
    end = starts[last + 1] if last + 1 < len(starts) else len(source)
    return File(file.name, source[starts[first]:end], starts[first], first)


class Windows(unittest.TestCase):

    def setUp(self):
        rng = random.Random(2)
        self.cases = [random_case(rng) for _ in range(4000)]

    def test_needed_lines(self):
        for file, diagnostic, config in self.cases:
            source = file.source.encode()
            starts = [0] + [at + 1 for at, byte in enumerate(source) if byte == 10]
            first, last = needed_lines(starts, diagnostic.labels, config)
            with self.subTest(file=file, diagnostic=diagnostic, config=config):
                self.assertEqual(
                    codespan.emit([window(file, starts, first, last)], diagnostic, config),
                    codespan.emit([file], diagnostic, config))

    def test_line_of_exclusive_end(self):
        """A label that ends where a line starts needs that line too."""
        file, label = File('a.txt', 'one\ntwo\nthree\n'), Label(1, 4)
        without = File('a.txt', 'one\n')
        self.assertIn('2 │', codespan.emit([file], Diagnostic('m', labels=[label])))
        self.assertNotIn('two', codespan.emit([without], Diagnostic('m', labels=[label])))


if __name__ == '__main__':
    unittest.main()
