"""A small repository with tools/vendor, and another one that it copies the libraries to."""
import os
import pathlib
import shutil
import subprocess
import tempfile
from unittest import mock

from tree import TreeCase, write_tree

LINES = '''\
codespan_core:
codespan_base: codespan_core
codespan_reporting: codespan_base
'''
STYLED_LINES = '''\
codespan_forms: codespan_core
codespan_styled: codespan_base codespan_forms
'''
LSP_LINES = '''\
codespan_lsp: codespan_base
'''
BEGIN = '# begin: lines of tools/vendor of Dugelmor, which it writes anew\n'
END = '# end: lines of tools/vendor of Dugelmor\n'
HOME = 'crates/codespan_reporting'
RECORD = f'{HOME}/VENDORED'


def git(top, *arguments):
    """Runs git in a repository, and returns what it prints."""
    author = ('-c', 'user.name=someone', '-c', 'user.email=someone@none.example', '-c', 'commit.gpgSign=false')
    return subprocess.run(['git', *author, *arguments], cwd=top, check=True, capture_output=True, text=True).stdout


def commit_all(top):
    """Commits all files of a repository."""
    git(top, 'add', '--all')
    git(top, 'commit', '-q', '-m', 'All')


class VendorCase(TreeCase):
    """Tests of tools/vendor. The two repositories have a git of their own; `rt` prints a version and does nothing else."""
    TOOLS = ('vendor',)
    FILES = {
        'LICENSE': 'a license\n',
        'NOTICE': 'a notice\n',
        'crates.txt': f'# the libraries\n{LINES}# more of them\n{STYLED_LINES}{LSP_LINES}all_tests: codespan_reporting codespan_lsp\n',
        'docs/USING.md': '# Steps\n',
        'crates/codespan_core/src/lib.rt': '// core\n',
        'crates/codespan_core/src/sums/more.rt': '// more\n',
        'crates/codespan_core/must-fail/zero.edit': '-- no part of a copy\n',
        'crates/codespan_base/src/lib.rt': '// base\n',
        'crates/codespan_base/specs/Sums.antt': '-- definitions\n',
        'crates/codespan_base/proofs/Sums.antt': '-- proofs\n',
        'crates/codespan_forms/src/lib.rt': '// forms\n',
        'crates/codespan_styled/src/lib.rt': '// styled\n',
        'crates/codespan_lsp/src/lib.rt': '// lsp\n',
        'crates/all_tests/src/lib.rt': '// tests\n',
        f'{HOME}/src/lib.rt': '// reporting\n',
        f'{HOME}/README.md': '# Libraries\n',
        f'{HOME}/CALLING.md': '# Calls\n',
    }

    @classmethod
    def setUpClass(cls):
        """Makes the small repository with its git, of which each test gets a copy."""
        folder = tempfile.TemporaryDirectory(prefix='tools-tests-')
        cls.addClassCleanup(folder.cleanup)
        cls.made = pathlib.Path(folder.name)
        write_tree(cls.made, cls.TOOLS, cls.FILES)
        git(cls.made, 'init', '-q', '--template=')
        commit_all(cls.made)

    def make_tree(self):
        shutil.copytree(self.made, self.top, dirs_exist_ok=True)

    def setUp(self):
        super().setUp()
        other = tempfile.TemporaryDirectory(prefix='tools-tests-')
        self.addCleanup(other.cleanup)
        self.dest, self.bin = pathlib.Path(other.name).resolve() / 'dest', pathlib.Path(other.name).resolve() / 'bin'
        self.dest.mkdir()
        self.bin.mkdir()
        (self.bin / 'git').symlink_to(shutil.which('git'))
        (self.bin / 'rt').write_text('#!/bin/sh\necho "a kit"\n', encoding='utf-8')
        (self.bin / 'rt').chmod(0o755)
        environment = mock.patch.dict(os.environ, PATH=str(self.bin))
        environment.start()
        self.addCleanup(environment.stop)
        (self.dest / '.git').mkdir()

    def put_there(self, path, text):
        """Writes a file of DEST, and makes its folder."""
        (self.dest / path).parent.mkdir(parents=True, exist_ok=True)
        (self.dest / path).write_text(text, encoding='utf-8')

    def there(self):
        """The texts of the files in DEST, by path."""
        return {path.relative_to(self.dest).as_posix(): path.read_text(encoding='utf-8') for path in self.dest.rglob('*') if path.is_file()}

    def fresh_copy(self, *names):
        """What a copy with these further libraries has in an empty repository; DEST is not changed."""
        dest, self.dest = self.dest, self.dest.parent / 'fresh'
        (self.dest / '.git').mkdir(parents=True)
        self.vendor(self.dest, *names)
        copy, folder, self.dest = self.there(), self.dest, dest
        shutil.rmtree(folder)
        return copy

    def vendor(self, *arguments, says=''):
        """Runs `tools/vendor` with these arguments, which ends with 0 and prints these words."""
        status, output, errors = self.run_tool(*arguments)
        self.assertEqual((status, errors), (0, ''), output)
        self.assertIn(says, output)

    def assert_stops(self, *arguments, says):
        """Asserts that `tools/vendor` with these arguments ends with 1, prints these words and changes nothing in DEST."""
        before = self.there()
        status, output, errors = self.run_tool(*arguments)
        self.assertEqual((status, output), (1, ''))
        self.assertIn(says, errors)
        self.assertEqual(self.there(), before)

    def assert_differs(self, *differences):
        """Asserts that `--check` lists these differences, ends with 1 and changes nothing in DEST."""
        before = self.there()
        status, output, _ = self.run_tool('--check', self.dest)
        self.assertEqual((status, output.splitlines()), (1, list(differences)))
        self.assertEqual(self.there(), before)
