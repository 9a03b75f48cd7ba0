"""The worked outputs of `writer_runs`, read from its input, and as cases of the gallery."""
import pathlib
import sys

HERE = pathlib.Path(__file__).resolve().parent
sys.path.insert(0, str(HERE.parent / 'gallery'))

from cases import ROOT, unescaped  # noqa: E402

INPUT = ROOT / 'crates/writer_runs/stdin'
STYLES = ('rich', 'medium', 'short')
COLORED = ('ansi', 'ansi-end')


class WorkedOutput:
    """A worked output: the lines of its case, and its expected texts by their words."""

    def __init__(self, name):
        self.name, self.lines, self.stated = name, [], {}

    def apply(self, word, rest, line):
        """Applies a line."""
        if word in STYLES + COLORED:
            self.stated[word] = self.stated.get(word, '') + unescaped(rest)
        else:
            self.lines.append(line)

    def texts(self):
        """Its texts: the style and the colors of each, the text, and whether that is only the end of the output."""
        for style in STYLES:
            if style in self.stated:
                yield style, 'none', self.stated[style], False
                yield from ((style, 'ansi', self.stated[word], word == 'ansi-end') for word in COLORED if word in self.stated)

    def case(self, style, colors):
        """The lines of the case that it is in a style."""
        return ['case ' + self.name, *self.lines, 'style ' + style, 'colors ' + colors]


def worked_outputs():
    """The worked outputs of the input."""
    read = []
    for line in INPUT.read_bytes().decode().split('\n'):
        if line and not line.startswith('#'):
            word, _, rest = line.partition(' ')
            read.append(WorkedOutput(rest)) if word == 'case' else read[-1].apply(word, rest, line)
    return read
