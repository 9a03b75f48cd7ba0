"""Tests of tools/prebuilt, with an `rt` that says which kit it is."""
import hashlib
import os
import stat
import subprocess
import unittest
from unittest import mock

from tree import TreeCase

FOLDER = 'native/prebuilt/x86_64-linux'
ARCHIVE, REPORT, SAFE = 'crates/codespan_c/out/libcodespan_c.a', 'crates/report/out/report', 'crates/safe_text/out/safe_text'
LOW = 'crates/low/src/lib.rt'
SAME = '''\
prebuilt: libcodespan_c.a has the bytes that are built here, 1.2.3
prebuilt: bin/report has the bytes that are built here, 1.2.3
prebuilt: bin/safe_text has the bytes that are built here, 1.2.3
'''


class Prebuilt(TreeCase):
    TOOLS = ('prebuilt',)
    FILES = {
        'VERSION': '1.2.3\n',
        'crates.txt': '# crates\nlow:\nother: low\ncodespan_c staticlib: low std\nreport: low\nsafe_text: low\n',
        LOW: 'fn low() {}\n',
        'crates/low/specs/Low.antt': 'low = 1\n',
        'crates/other/src/lib.rt': 'fn other() {}\n',
        'crates/codespan_c/src/lib.rt': 'fn exports() {}\n',
        'crates/report/src/main.rt': 'fn main() {}\n',
        'crates/safe_text/src/main.rt': 'fn main() {}\n',
        ARCHIVE: 'an archive\n',
        REPORT: 'a program\n',
        SAFE: 'a filter\n',
        'bin/rt': '#!/bin/sh\necho kit 1 of 2\n',
    }

    def setUp(self):
        super().setUp()
        rt = self.top / 'bin/rt'
        rt.chmod(rt.stat().st_mode | stat.S_IXUSR)
        path = mock.patch.dict(os.environ, PATH=f'{self.top / "bin"}:{os.environ["PATH"]}')
        path.start()
        self.addCleanup(path.stop)
        self.assertEqual(self.run_tool('write'), (0, '', ''))

    def assert_checks(self, output, errors=''):
        """Asserts what `check` prints; it fails where it prints errors."""
        self.assertEqual(self.run_tool('check'), (1 if errors else 0, output, errors))

    def test_sound(self):
        self.assert_checks(SAME)

    def test_stripped_program(self):
        """A program is kept without its sections, and runs."""
        source = 'int main(void) { return 7; }\n'
        subprocess.run(['cc', '-x', 'c', '-', '-o', self.top / REPORT], input=source, text=True, check=True)
        self.assertEqual(self.run_tool('write'), (0, '', ''))
        self.assert_checks(SAME)
        kept = self.top / FOLDER / 'bin/report'
        self.assertLess(kept.stat().st_size, (self.top / REPORT).stat().st_size)
        self.assertEqual(subprocess.run([kept]).returncode, 7)

    def test_manifest(self):
        def digest(path):
            return hashlib.sha256((self.top / path).read_bytes()).hexdigest()

        _, *lines = self.text(f'{FOLDER}/MANIFEST').splitlines()
        self.assertEqual(lines, [
            'version 1.2.3',
            'kit kit 1 of 2',
            f'file {digest(REPORT)} bin/report',
            f'file {digest(SAFE)} bin/safe_text',
            f'file {digest(ARCHIVE)} libcodespan_c.a',
            *(f'source {digest(it)} {it}' for it in ('crates/codespan_c/src/lib.rt', LOW, 'crates/report/src/main.rt', 'crates/safe_text/src/main.rt')),
        ])

    def test_other_bytes_of_the_same_sources(self):
        self.put(ARCHIVE, 'another archive\n')
        self.assert_checks(''.join(SAME.splitlines(True)[1:]), f'prebuilt: libcodespan_c.a has other bytes than {ARCHIVE}, and the same sources\n')

    def test_changed_source(self):
        self.put(LOW, 'fn low() { }\n')
        self.put(ARCHIVE, 'another archive\n')
        self.put('VERSION', '1.2.4\n')
        self.assert_checks('prebuilt: the prebuilt libcodespan_c.a is of version 1.2.3: 1 of its sources have changed\n'
                           'prebuilt: the prebuilt bin/report is of version 1.2.3: 1 of its sources have changed\n'
                           'prebuilt: the prebuilt bin/safe_text is of version 1.2.3: 1 of its sources have changed\n')

    def test_added_source_of_one_file(self):
        self.put('crates/report/src/run.rt', 'fn run() {}\n')
        archive, _, safe = SAME.splitlines(True)
        self.assert_checks(archive + 'prebuilt: the prebuilt bin/report is of version 1.2.3: 1 of its sources have changed\n' + safe)

    def test_removed_source(self):
        (self.top / LOW).unlink()
        self.assertIn('libcodespan_c.a is of version 1.2.3: 1 of its sources', self.run_tool('check')[1])

    def test_source_of_a_crate_that_is_not_linked(self):
        self.put('crates/other/src/lib.rt', 'fn another() {}\n')
        self.put('crates/low/specs/Low.antt', 'low = 2\n')
        self.assert_checks(SAME)

    def test_another_kit(self):
        self.change('bin/rt', '1 of 2', '2 of 2')
        self.put(ARCHIVE, 'another archive\n')
        self.assert_checks('prebuilt: the prebuilt libcodespan_c.a is of version 1.2.3: the kit is another one\n'
                           'prebuilt: the prebuilt bin/report is of version 1.2.3: the kit is another one\n'
                           'prebuilt: the prebuilt bin/safe_text is of version 1.2.3: the kit is another one\n')

    def test_nothing_built(self):
        (self.top / ARCHIVE).unlink()
        self.assert_checks(''.join(SAME.splitlines(True)[1:]), f'prebuilt: {ARCHIVE} is not built\n')
        self.assertEqual(self.run_tool('check', '--files'), (0, '', ''))

    def test_a_file_that_is_not_that_of_the_manifest(self):
        self.put(f'{FOLDER}/bin/report', 'another program\n')
        wrong = 'prebuilt: bin/report is not the file of MANIFEST: run `tools/prebuilt write`\n'
        self.assertEqual(self.run_tool('check', '--files'), (1, '', wrong))
        self.assert_checks(SAME, wrong)

    def test_no_file(self):
        (self.top / FOLDER / 'libcodespan_c.a').unlink()
        self.assert_checks(SAME, 'prebuilt: libcodespan_c.a is not the file of MANIFEST: run `tools/prebuilt write`\n')

    def test_current(self):
        self.assertEqual(self.run_tool('current', 'libcodespan_c.a'), (0, '', ''))
        self.put('crates/codespan_c/src/lib.rt', 'fn exports() { }\n')
        self.assertEqual(self.run_tool('current', 'libcodespan_c.a'), (1, '', ''))
        self.assertEqual(self.run_tool('current', 'bin/report'), (0, '', ''))

    def test_write_of_nothing_built(self):
        (self.top / REPORT).unlink()
        self.assertEqual(self.run_tool('write'), (1, '', f'prebuilt: not built: {REPORT}\n'))

    def test_other_arguments(self):
        self.assertEqual(self.run_tool('current', 'bin/other')[0], 1)
        self.assertEqual(self.run_tool()[0], 1)


if __name__ == '__main__':
    unittest.main()
