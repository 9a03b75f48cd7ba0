"""Tests of the copy that tools/vendor makes of this repository, with all further libraries: it needs nothing that is not in it."""
import os
import pathlib
import re
import subprocess
import tempfile
import unittest
from unittest import mock

from tree import REPOSITORY, run_script

FURTHER = ('codespan_styled', 'codespan_lsp', 'codespan_edits', 'codespan_suggestions')
LINK = re.compile(r'\]\(([^)\s#]+)')


class Copy(unittest.TestCase):
    @classmethod
    def setUpClass(cls):
        """Makes the copy, with an `rt` that only prints a version, and a git that tracks the files of this repository as they are now."""
        other = tempfile.TemporaryDirectory(prefix='tools-tests-')
        cls.addClassCleanup(other.cleanup)
        folder = pathlib.Path(other.name).resolve()
        (folder / 'rt').write_text('#!/bin/sh\necho "a kit"\n', encoding='utf-8')
        (folder / 'rt').chmod(0o755)
        environment = mock.patch.dict(os.environ, PATH=f'{folder}{os.pathsep}{os.environ["PATH"]}', GIT_DIR=f'{folder}/git', GIT_WORK_TREE=str(REPOSITORY))
        environment.start()
        cls.addClassCleanup(environment.stop)
        author = ('-c', 'user.name=someone', '-c', 'user.email=someone@none.example')
        for arguments in (('init', '-q'), ('commit', '-q', '--allow-empty', '-m', 'Nothing'), ('add', '--intent-to-add', 'crates')):
            subprocess.run(['git', *author, *arguments], cwd=REPOSITORY, check=True)
        cls.dest = folder / 'dest'
        (cls.dest / '.git').mkdir(parents=True)
        cls.copied = run_script(REPOSITORY / 'tools/vendor', cls.dest, *FURTHER)

    def test_update(self):
        """An update that names no further library changes nothing."""
        self.assertEqual(self.copied[0], 0, self.copied)
        for options in (('--check',), ()):
            self.assertEqual(run_script(REPOSITORY / 'tools/vendor', *options, self.dest)[0], 0)
        copy = sorted(path.name for path in (self.dest / 'crates').iterdir())
        self.assertEqual([name for name in FURTHER if name in copy], list(FURTHER))

    def test_links_of_pages(self):
        links = {page: LINK.findall(page.read_text(encoding='utf-8')) for page in self.dest.rglob('*.md')}
        self.assertEqual(sorted(page.name for page in links), ['CALLING.md', 'README.md'])
        dead = [f'{page.name}: {link}' for page, found in links.items() for link in found if ':' not in link and not (page.parent / link).exists()]
        self.assertEqual(dead, [])

    def test_crates(self):
        """The crates that crates.txt lists are those that are there, and what they use is among them or of the kit."""
        lines = [line.partition(':') for line in (self.dest / 'crates.txt').read_text(encoding='utf-8').splitlines() if line[:1] not in ('', '#')]
        used = {name for _, _, names in lines for name in names.split() if (REPOSITORY / 'crates' / name).exists()}
        copied = {path.name for path in (self.dest / 'crates').iterdir()}
        self.assertEqual(copied, {name for name, _, _ in lines})
        self.assertEqual(used - copied, set())


if __name__ == '__main__':
    unittest.main()
