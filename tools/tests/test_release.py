"""Tests of tools/release: its arguments, and what it packs. tools/release-test makes and uses the packages."""
import pathlib
import runpy
import tarfile
import unittest

from tree import REPOSITORY, TreeCase


class Release(TreeCase):
    TOOLS = ('release',)
    FILES = {'VERSION': '1.2.3\n', 'full/file': ''}

    def test_no_folder(self):
        for arguments in ((), ('--archive', 'file'), ('--other',), ('one', 'two')):
            status, output, errors = self.run_tool(*arguments)
            self.assertEqual((status, output), (1, ''))
            self.assertIn('usage: tools/release', errors)

    def test_folder_with_a_file(self):
        full = self.top / 'full'
        self.assertEqual(self.run_tool(full), (1, '', f'release: {full} is not empty\n'))


class Packed(TreeCase):
    FILES = {'one/name/b': 'b\n', 'one/name/folder/c': 'c\n', 'two/name/folder/c': 'c\n', 'two/name/b': 'b\n'}

    def setUp(self):
        super().setUp()
        self.tool = runpy.run_path(str(REPOSITORY / 'tools/release'))
        for number in ('one', 'two'):
            (self.top / number / 'name/b').chmod(0o700)
            (self.top / number / 'name/link').symlink_to('b')

    def pack(self, folder, time=86400):
        """Packs the folder `name` of a folder, and returns the path of the archive."""
        target = self.top / f'{folder}.tar.gz'
        self.tool['pack'](self.top / folder / 'name', target, time)
        return target

    def test_same_bytes(self):
        (self.top / 'two/name/folder/c').chmod(0o640)
        self.assertEqual(self.pack('one').read_bytes(), self.pack('two').read_bytes())

    def test_entries(self):
        with tarfile.open(self.pack('one')) as archive:
            entries = [(it.name, it.mode, it.uid, it.uname, it.mtime) for it in archive.getmembers() if not it.issym()]
            links = [(it.name, it.linkname) for it in archive.getmembers() if it.issym()]
        self.assertEqual(entries, [
            ('name', 0o755, 0, '', 86400),
            ('name/b', 0o755, 0, '', 86400),
            ('name/folder', 0o755, 0, '', 86400),
            ('name/folder/c', 0o644, 0, '', 86400),
        ])
        self.assertEqual(links, [('name/link', 'b')])

    def test_copied(self):
        (self.top / 'copy').mkdir()
        self.tool['copy_all'](self.top / 'one/name', ('b', 'folder'), self.top / 'copy')
        self.assertEqual(sorted(path.relative_to(self.top / 'copy') for path in (self.top / 'copy').rglob('*')),
                         [pathlib.Path(it) for it in ('b', 'folder', 'folder/c')])


if __name__ == '__main__':
    unittest.main()
