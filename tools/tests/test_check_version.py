"""Tests of tools/check-version."""
import unittest

from tree import TreeCase

MODULE = 'native/python/codespan/__init__.py'
NO_VERSION = rf"{MODULE}: no version, as (^__version__ = ')(\d+\.\d+\.\d+)('$)"
REPORT = 'crates/report/src/version.rt'


class CheckVersion(TreeCase):
    TOOLS = ('check-version',)
    FILES = {
        'VERSION': '1.20.3\n',
        'README.md': '# Name\n\n**Version 1.20.3** of it.\n',
        'CHANGELOG.md': '# Changes\n\n## [Unreleased]\n\n## [1.20.3] - 2026-12-01\n\n## [1.20.2] - 2026-11-01\n',
        'native/include/codespan.h': '#define CODESPAN_ABI 1u\n#define CODESPAN_VERSION "1.20.3"\n',
        'native/python/pyproject.toml': '[project]\nname = "codespan"\nversion = "1.20.3"\n',
        MODULE: "__version__ = '1.20.3'\n",
        REPORT: 'const VERSION_LINE: &[u8] = b"report 1.20.3\\n";\n    ensures { (codes "report 1.20.3\\n") }\n',
        'crates/report/src/tests/version.rt': 'check(("report 1.20.3\\n", "", 0));\n',
        'native/rust/Cargo.toml': '[package]\nversion = "1.20.3"\n\n[dependencies]\nserde = { version = "1.0.0" }\n',
    }

    def test_sound(self):
        self.assert_passes()

    def test_another_version_in_each_place(self):
        for path in set(self.FILES) - {'VERSION', REPORT}:
            with self.subTest(path=path):
                self.make_tree()
                self.put(path, self.text(path).replace('1.20.3', '1.20.4'))
                self.assert_finds(f'{path}: version 1.20.4, and VERSION has 1.20.3')

    def test_another_version_in_one_place_of_two(self):
        self.change(REPORT, 'codes "report 1.20.3', 'codes "report 1.20.4')
        self.assert_finds(f'{REPORT}: version 1.20.4, and VERSION has 1.20.3')

    def test_no_version(self):
        self.change(MODULE, "'1.20.3'", 'VERSION')
        self.assert_finds(NO_VERSION)

    def test_no_file(self):
        (self.top / MODULE).unlink()
        self.assert_finds(NO_VERSION)

    def test_an_entry_that_is_not_the_newest(self):
        self.change('CHANGELOG.md', '## [1.20.3]', '## [1.21.0] - 2026-12-02\n\n## [1.20.3]')
        self.assert_finds('CHANGELOG.md: version 1.21.0, and VERSION has 1.20.3')

    def test_version_of_two_numbers(self):
        self.put('VERSION', '1.20\n')
        self.assertEqual(self.run_tool(), (1, '', 'check-version: VERSION has no version of three numbers in a line\n'))

    def test_write(self):
        self.put('VERSION', '2.0.0\n')
        status, output, _ = self.run_tool('--write')
        self.assertEqual((status, output), (1, 'CHANGELOG.md: version 1.20.3, and VERSION has 2.0.0\n'))
        self.change('CHANGELOG.md', '## [Unreleased]', '## [2.0.0] - 2026-12-02')
        self.assert_passes()
        self.assertEqual(self.text('native/rust/Cargo.toml'), self.FILES['native/rust/Cargo.toml'].replace('1.20.3', '2.0.0'))

    def test_write_of_a_place_without_a_version(self):
        self.change(MODULE, "'1.20.3'", 'VERSION')
        status, output, _ = self.run_tool('--write')
        self.assertEqual((status, output), (1, f'{NO_VERSION}\n'))

    def test_another_argument(self):
        status, output, errors = self.run_tool('--wrote')
        self.assertEqual((status, output), (1, ''))
        self.assertIn('check-version --write', errors)


if __name__ == '__main__':
    unittest.main()
