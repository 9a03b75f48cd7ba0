"""The cases of the gallery, and what the comparison program prints of them."""
import pathlib
import re
import subprocess
import sys
import unicodedata

from inks import document, glyphs

ROOT = pathlib.Path(__file__).resolve().parents[2]
sys.path.append(str(ROOT / 'tools/edits'))

import suggestions as model  # noqa: E402

PICTURES = ROOT / 'docs/pictures'
PAGE = PICTURES / 'gallery.html'
GALLERY = ROOT / 'crates/gallery'

LETTERS = {'n': '\n', 'r': '\r', 't': '\t', '0': '\0', '\\': '\\'}
# How the stored output shows control characters.
SHOWN = {'\x1b': '\\e', '\0': '\\0', '\r': '\\r', '\t': '\\t'}
SPELLED = {'\n': '\\n', '\r': '\\r', '\t': '\\t', '\0': '\\0', '\\': '\\\\'}
THEIRS = {**LETTERS, 's': ' ', 'e': ''}
CONTEXT = ('start', 'end', 'before', 'after')


def unescaped(text, letters=LETTERS):
    """The text that an escaped one stands for."""
    def character(match):
        escape = match.group(1)
        return chr(int(escape[2:-1], 16)) if escape.startswith('u{') else letters[escape]
    return re.sub(r'\\(u\{[0-9a-fA-F]+\}|[^u]|$)', character, text)


def is_seen(character):
    """Whether a character is visible in a text file, or is a space."""
    return character == ' ' or unicodedata.category(character)[0] not in 'CMZ'


def escaped(text):
    """The text as the gallery reads it: one line, with each invisible character, each backslash, and a space at its end, as an escape."""
    spelled = [SPELLED.get(c, c if is_seen(c) else '\\u{%x}' % ord(c)) for c in text]
    if spelled and spelled[-1] == ' ':
        spelled[-1] = '\\u{20}'
    return ''.join(spelled)


def line(*fields):
    """A line of these fields; one that would end in a space ends before it."""
    return ' '.join(fields).rstrip(' ')


def text_lines(source):
    """The lines that state a source, one for each of its lines."""
    return [line('|', escaped(part)) for part in re.findall(r'[^\n]*\n|[^\n]+', source)]


def field(text):
    """A text as a field of the comparison program."""
    spelled = ''.join(c if '!' <= c <= '~' and c != '\\' else '\\u{%x}' % ord(c) for c in text)
    return spelled or '\\e'


class Case:
    """A case as it is read."""

    def __init__(self, name):
        self.name, self.database, self.files, self.numbers = name, 'several', [], []
        self.settings = {'style': 'rich', 'layout': 'classic', 'colors': 'none'}
        self.config = {'tab': 4, 'chars': 'box', 'start': 3, 'end': 1, 'before': 0, 'after': 0}
        self.width = None
        self.severity, self.code, self.message, self.labels, self.notes = 'error', None, '', [], []
        # The suggestions: of each its message and its edits, which are a file, a start, an end and a replacement.
        self.suggestions = []

    def apply(self, word, rest):
        """Applies a line."""
        if word == 'database':
            self.database = rest
        elif word == 'file':
            self.files.append([unescaped(rest), ''])
        elif word == '|':
            self.files[-1][1] += unescaped(rest)
        elif word == 'number':
            self.numbers.append([int(number) for number in rest.split(' ')])
        elif word in self.settings:
            self.settings[word] = rest
        elif word == 'tab':
            self.config['tab'] = int(rest)
        elif word == 'width':
            self.width = int(rest)
        elif word == 'context':
            self.config.update(zip(CONTEXT, map(int, rest.split(' '))))
        elif word == 'characters':
            self.config['chars'] = rest
        elif word == 'severity':
            self.severity = rest
        elif word == 'code':
            self.code = unescaped(rest)
        elif word == 'message':
            self.message = unescaped(rest)
        elif word in ('primary', 'secondary'):
            at, start, end, text = (rest + ' ').split(' ', 3)
            self.labels.append((word, int(at), int(start), int(end), unescaped(text[:-1])))
        elif word == 'note':
            self.notes.append(unescaped(rest))
        elif word == 'suggestion':
            self.suggestions.append((unescaped(rest), []))
        elif word == 'replace':
            at, start, end, text = (rest + ' ').split(' ', 3)
            self.suggestions[-1][1].append((int(at), int(start), int(end), unescaped(text[:-1]).encode()))
        else:
            raise ValueError(word)

    def suggested(self):
        """The outputs of the suggestions, by the model of tools/edits."""
        files = [(name, source.encode()) for name, source in self.files]
        for message, edits in self.suggestions:
            settings = (self.config['tab'], self.config['before'], self.config['after'], self.config['chars'] == 'ascii')
            suggestion = model.Case(files, edits, message, None, *settings)
            changed = model.files_of(suggestion)
            assert not isinstance(changed, str), (self.name, changed)
            colored = self.settings['colors'] != 'none'
            assert self.settings['style'] == 'rich' or not colored, self.name
            yield model.rich(suggestion, changed, colored) if self.settings['style'] == 'rich' else model.short(suggestion, changed)

    def rows(self):
        """The case as the comparison program reads it."""
        if self.database != 'several':
            assert len(self.files) == 1 and all(label[1] == 0 for label in self.labels), self.name
        config = ' '.join('%s=%s' % setting for setting in self.config.items())
        yield from ('case ' + self.name, 'style ' + self.settings['style'], 'layout ' + self.settings['layout'])
        yield from ('config ' + config, 'color ' + ('none' if self.settings['colors'] == 'none' else 'ansi'))
        for name, source in self.files:
            yield 'file %s %s' % (field(name), field(source))
        if self.database == 'mapped':
            yield 'mapped 0'
            yield from ('number 0 %d %d' % tuple(number) for number in self.numbers)
        yield 'severity ' + self.severity
        if self.code is not None:
            yield 'code ' + field(self.code)
        yield 'message ' + field(self.message)
        for style, at, start, end, text in self.labels:
            yield 'label %s %d %d %d %s' % (style, at, start, end, field(text))
        yield from ('note ' + field(note) for note in self.notes)
        yield 'end'


def read_cases(text):
    """The cases of an input."""
    cases = []
    for line in text.split('\n'):
        line = line[:-1] if line.endswith('\r') else line
        if line and not line.startswith('#'):
            word, _, rest = line.partition(' ')
            cases.append(Case(rest)) if word == 'case' else cases[-1].apply(word, rest)
    return cases


def outcomes(oracle, cases):
    """What the comparison program prints of each case: `ok` and the output, or `err`, the error and what was written before it."""
    rows = ''.join(row + '\n' for case in cases for row in case.rows())
    output = subprocess.run([oracle, '--impl', 'ported'], input=rows.encode(), stdout=subprocess.PIPE, check=True).stdout.decode()
    lines = output.splitlines()
    assert lines[::2] == ['case ' + case.name for case in cases]
    for case, outcome in zip(cases, lines[1::2]):
        kind, *texts = outcome.split(' ')
        assert kind in ('ok', 'err'), (case.name, outcome)
        yield kind, [unescaped(text, THEIRS) for text in texts]


def written(case, kind, texts):
    """An output under its name, as the gallery writes it: of `ok` and the output of the diagnostic, or of `err`, the error and what was written before
    it. Below the first are those of the suggestions."""
    colors = case.settings['colors']
    rendered = texts[0] if kind == 'ok' else texts[1] if colors == 'ansi' else ''
    if kind == 'ok':
        rendered += ''.join(case.suggested())
    if colors == 'svg' and kind == 'ok':
        rendered = document(list(glyphs(rendered)))
    shown = ''.join(SHOWN.get(c, c) for c in rendered)
    return '== %s\n%s%s' % (case.name, shown, 'failed: %s\n' % texts[0] if kind == 'err' else '')


def section(name):
    """The section under a name in the stored output."""
    text = '\n' + (GALLERY / 'stdout').read_bytes().decode()
    return text.split('\n== %s\n' % name, 1)[1].split('\n== ', 1)[0].rstrip('\n') + '\n'


def svg_cases():
    """The cases whose colors are `svg`."""
    return [case for case in read_cases((GALLERY / 'stdin').read_bytes().decode()) if case.settings['colors'] == 'svg']
