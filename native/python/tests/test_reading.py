"""Tests of files that are read, of labels by characters, of what a terminal is sent, and of a
library that is missing."""
import contextlib
import io
import os
import random
import re
import subprocess
import sys
import tempfile
import unittest
from pathlib import Path
from unittest import mock

import codespan
from codespan import Diagnostic, File, Label, LabelStyle, _native

PRINTING = '''
import codespan
label = codespan.Label(0, 1, "here")
codespan.print([codespan.File("a", "b\\n")], codespan.Diagnostic("m", labels=[label]))
'''


class Reading(unittest.TestCase):
    def read(self, content):
        """Returns the file with this content, read."""
        with tempfile.TemporaryDirectory() as folder:
            path = Path(folder, 'settings.conf')
            path.write_bytes(content)
            self.assertEqual(File.read(path), File.read(str(path)))
            return File.read(path)

    def test_utf8(self):
        source = 'naïve = 挨\n'.encode()
        file = self.read(source)
        self.assertEqual(file.source, source)
        self.assertTrue(file.name.endswith(b'/settings.conf'))

    def test_other_bytes(self):
        """A byte that is no part of a character is a question mark: labels behind it stay."""
        file = self.read(b'caf\xe9 = \xff\xfemany\n')
        self.assertEqual(file.source, b'caf? = ??many\n')
        output = codespan.emit([File('a', file.source)], Diagnostic('m', labels=[Label(9, 13)]))
        self.assertIn('1 │ caf? = ??many\n  │          ^^^^\n', output)

    def test_parts_of_characters(self):
        for content in (b'\xe6\x8c', b'\xed\xa0\x80', b'\xc0\xaf', b'\xf4\x90\x80\x80'):
            self.assertEqual(codespan.utf8(content), b'?' * len(content))

    def test_indices_stay(self):
        """Of random bytes each is itself or a question mark, and the whole is UTF-8."""
        draw = random.Random(1)
        choices = b'a\n\x80\xbf\xc3\xa9\xe6\x8c\xa8\xf0\x9f\x98\x80\xff'
        for _ in range(2000):
            content = bytes(draw.choices(choices, k=draw.randrange(12)))
            source = codespan.utf8(content)
            source.decode()
            self.assertEqual(len(source), len(content))
            self.assertTrue(all(b in (a, ord('?')) for a, b in zip(content, source)))

    def test_missing(self):
        with self.assertRaises(OSError):
            File.read('/nowhere/settings.conf')


class Characters(unittest.TestCase):
    def test_of_characters(self):
        source = 'naïve = 挨拶\n'
        label = Label.of_characters(source, 8, 10, 'a greeting', LabelStyle.SECONDARY, 3)
        self.assertEqual(label, Label(9, 15, 'a greeting', LabelStyle.SECONDARY, 3))
        self.assertEqual(Label.of_characters(source, 0, 99), Label(0, len(source.encode())))

    def test_of_bytes(self):
        """Characters of `bytes`, such as those of a file that was read, count as in a text."""
        source = 'naïve = 挨拶\n'
        for i in range(-12, 14):
            index = codespan.byte_index(source.encode(), i)
            self.assertEqual(index, codespan.byte_index(source, i))
        self.assertEqual(Label.of_characters(source.encode(), 8, 10), Label(9, 15))
        with self.assertRaises(ValueError):
            codespan.byte_index(b'caf\xe9', 1)


class Report(unittest.TestCase):
    def test_report(self):
        """Runs the second program of the page over three files, one of them not UTF-8."""
        page = (Path(__file__).resolve().parents[2] / 'README.md').read_text(encoding='utf-8')
        program = re.findall(r'^```python\n(.*?)^```$', page, re.DOTALL | re.MULTILINE)[1]
        with tempfile.TemporaryDirectory() as folder, contextlib.chdir(folder), \
                contextlib.redirect_stderr(io.StringIO()) as stream, \
                mock.patch.object(sys, 'argv', ['report.py', 'latin', 'clean', 'wide']), \
                mock.patch.dict(os.environ, CLICOLOR_FORCE=''):
            Path('latin').write_bytes(b'caf\xe9 \t\r\nb\r\n')
            Path('clean').write_bytes(b'a\n')
            Path('wide').write_bytes('挨拶  \n'.encode())
            exec(program, {})
            report = Path('report.html').read_text(encoding='utf-8')
        printed = stream.getvalue()
        self.assertEqual(printed.count('warning: a line ends with blanks\n'), 2)
        self.assertIn('┌─ latin:1:5\n', printed)
        self.assertIn('│ 挨拶  \n  │     ^^ remove this\n', printed)
        self.assertEqual(report.count('<pre class="diagnostic">'), 2)
        self.assertIn('<meta charset="utf-8">', report)
        self.assertIn(codespan.html_styles(), report)
        self.assertNotIn('clean', report)


class Encodings(unittest.TestCase):
    def test_lacking_characters(self):
        """A stream that lacks box drawing raises; with ASCII characters it does not."""
        files, diagnostic = [File('a', 'b\n')], Diagnostic('m', labels=[Label(0, 1)])
        stream = io.TextIOWrapper(io.BytesIO(), encoding='ascii')
        with self.assertRaises(UnicodeEncodeError):
            codespan.print(files, diagnostic, file=stream)
        config = codespan.Config(characters=codespan.Characters.ASCII)
        with mock.patch.dict(os.environ, CLICOLOR_FORCE=''):
            codespan.print(files, diagnostic, config, file=stream)
        stream.flush()
        self.assertIn(b'1 | b\n', stream.buffer.getvalue())


class Terminal(unittest.TestCase):
    def printed(self, **environment):
        """Returns what `print` sends to a pseudo terminal."""
        near, far = os.openpty()
        others = dict(os.environ, TERM='xterm')
        for name in ('NO_COLOR', 'CLICOLOR_FORCE'):
            others.pop(name, None)
        subprocess.run([sys.executable, '-c', PRINTING], stderr=far, env={**others, **environment},
                       check=True)
        os.close(far)
        chunks = []
        try:
            while chunk := os.read(near, 4096):
                chunks.append(chunk)
        except OSError:  # the end, once nothing else has the terminal open
            pass
        os.close(near)
        return b''.join(chunks).decode()

    def test_colors(self):
        colored = self.printed()
        self.assertIn('\33[0m\33[31m^\33[0m', colored)
        self.assertEqual(self.printed(NO_COLOR=''), colored)
        self.assertEqual(self.printed(CLICOLOR_FORCE='1', NO_COLOR='1', TERM='dumb'), colored)
        self.assertEqual(self.printed(CLICOLOR_FORCE='0'), colored)

    def test_no_colors(self):
        for environment in ({'NO_COLOR': '1'}, {'TERM': 'dumb'}):
            output = self.printed(**environment)
            self.assertNotIn('\33', output)
            self.assertIn('│ ^ here', output)


class Loading(unittest.TestCase):
    def test_missing_library(self):
        """The error names the environment variable."""
        with mock.patch.dict(os.environ, CODESPAN_LIBRARY='/nowhere/libcodespan.so'):
            with self.assertRaisesRegex(OSError, 'CODESPAN_LIBRARY has to name'):
                _native.load()


if __name__ == '__main__':
    unittest.main()
