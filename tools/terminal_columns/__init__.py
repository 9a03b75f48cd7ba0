"""What `tools/terminal-test` finds: the columns of a text and of the carets under it, and whether a terminal agrees."""
import dataclasses

# What a row of rich style begins with: the border of the source.
BORDER = '│ '

# The texts that are drawn, by what they are.
TEXTS = (
    ('ASCII', 'let x'),
    ('CJK', '日本語'),
    ('full width', 'ＡＢｃ'),
    ('half width', 'ﾊﾛｰ'),
    ('Hangul syllables', '한국어'),
    ('Hangul jamo', '\u1112\u1161\u11ab\u1100\u116e\u11a8'),
    ('emoji', '🦀🚀'),
    ('emoji with a skin tone', '👍🏽'),
    ('emoji joined', '👩\u200d🚀 👨\u200d👩\u200d👧'),
    ('flag', '🇩🇪🇯🇵'),
    ('keycap', '1\ufe0f\u20e3'),
    ('emoji by a variation selector', '❤\ufe0f'),
    ('text by a variation selector', '⌚\ufe0e'),
    ('combining marks', 'e\u0301o\u0308\u0323'),
    ('Arabic', 'مرحبا'),
    ('Arabic with marks', 'مَرْحَبًا'),
    ('Hebrew', 'שלום'),
    ('Devanagari', 'नमस्ते'),
    ('Thai', 'สวัสดี'),
    ('Tamil', 'நிலா'),
    ('Bengali', 'ভাষা'),
    ('box drawing', '┌─┐'),
    ('ambiguous width', '§±×ß'),
    ('soft hyphen', 'a\u00adb'),
    ('zero width space', 'a\u200bb'),
    ('zero width non-joiner', 'می\u200cخواهم'),
    ('word joiner', 'a\u2060b'),
    ('byte order mark', '\ufeffa'),
    ('line separator', 'a\u2028b'),
    ('paragraph separator', 'a\u2029b'),
    ('interlinear annotation', '\ufff9a\ufffab\ufffb'),
    ('noncharacters', 'a\ufffe\ufdd0\U0010ffffb'),
    ('Hangul fillers', 'a\u3164b\uffa0c'),
    ('escape sequence', 'a\x1b[31mb'),
    ('title', 'a\x1b]0;t\x07b'),
    ('backspaces', 'good\x08\x08evil'),
    ('override', 'a\u202eb\u2066c'),
)
# The texts that are known to disagree: `unicode_width` has no cell for some vowel signs, those that Unicode has as `Other_Grapheme_Extend`, and terminals have one.
KNOWN = frozenset(('Tamil', 'Bengali'))


class Unreadable(Exception):
    """An output has not the rows that are looked for."""


@dataclasses.dataclass(frozen=True)
class Row:
    """A source row, and the carets under it: from `start` to `end`, exclusive, in columns from 0."""
    text: str
    start: int
    end: int

    @property
    def before_carets(self):
        """The text of the row before the first caret: the carets are under the spaces of a tab, and one more character follows."""
        return self.text[:len(self.text) - 1 - (self.end - self.start)]

    @property
    def to_mark(self):
        """The text of the row before its last character, the mark."""
        return self.text[:-1]


def read_row(output):
    """The source row of an output, and its carets: the row after it, in which each character takes one cell."""
    lines = output.split('\n')
    for row, carets in zip(lines, lines[1:]):
        if BORDER in row and '^' in carets and row.lstrip()[:1].isdigit():
            start = carets.index('^')
            end = start + len(carets[start:]) - len(carets[start:].lstrip('^'))
            return Row(row, start, end)
    raise Unreadable(output)


def disagreements(row, column_of):
    """Where a terminal disagrees with the carets of a row: `column_of` has for a text the column after it."""
    for what, text, wanted in (('the carets', row.before_carets, row.start), ('the mark', row.to_mark, row.end)):
        found = column_of(text)
        if found != wanted:
            yield f'{what} at column {wanted}, in the terminal {found}'
